"""The server's configuration file, which firmd and firm-api read, and a check of everything that it names.

Reading finds only faults of the file. `Check` also examines the files, folders and accounts that it names; firmd runs
it at each start, and `firmctl check` at any time.
"""

from __future__ import annotations

import os
import pwd
import ssl
import stat
from collections.abc import Iterator
from dataclasses import dataclass
from functools import cached_property
from pathlib import Path
from typing import Any

from ..common.faults import reason
from ..common.fields import NAME
from ..common.lines import is_name
from ..common.peers import ROOT, Peer
from ..common.roster import MAX_BYTES, faults_of, read_roster
from ..common.settings import MAX_SOCKET, Place, SettingsFile
from ..common.users import name_of
from .firm_state import Opening
from .settings import BOUNDS, SECTIONS, TENANT
from .state import JOURNAL, RESTORED, ROSTER, VIEW

TENANTS = "tenants"
TABLES = tuple(name for name in SECTIONS if name and not name.startswith(TENANTS)) + (TENANTS,)


@dataclass(frozen=True)
class ConfiguredTenant:
    """A tenant of the file or of the roster."""

    name: str
    values: dict[str, Any]  # by key
    lines: Path  # its socket for lines
    queue: Path | None  # its queue's folder

    @property
    def place(self) -> Place:
        return TENANTS, self.name


class Configuration:
    """The server's settings: a file's and the defaults."""

    def __init__(self, file: SettingsFile, is_restored: bool = False) -> None:
        """Read a file. With `is_restored` the server begins with another one's state."""
        self.file, self._is_restored = file, is_restored
        self._sections = {
            name: file.values((name,) if name else (), settings, () if name else TABLES)
            for name, settings in SECTIONS.items()
            if not name.startswith(TENANTS)
        }
        self.named = {name: self._tenant(name) for name in file.section((TENANTS,)) if self._is_tenant(name)}
        self._check_combinations()

    def __getitem__(self, section: str) -> dict[str, Any]:
        """Return the values of a section by key."""
        return self._sections[section]

    @property
    def opening(self) -> Opening | None:
        """Return the roster to begin with, or to compare with the one that the state began with, if any."""
        path: Path = self[""]["roster"]
        return Opening(path) if path.exists() and not (self.state / RESTORED).exists() else None

    @property
    def state(self) -> Path:
        found: Path = self[""]["state"]
        return found

    @cached_property
    def tenants(self) -> dict[str, ConfiguredTenant]:
        """Return the tenants: those of the roster, and others that the file names."""
        return {name: self._tenant(name) for name in self.roster if name not in self.named} | self.named

    @cached_property
    def roster(self) -> list[str]:
        """Return the tenants of the roster that the state began with, or will begin with; none if it can't be read."""
        try:
            with open(self._roster_path(), "rb") as file:
                data = file.read(MAX_BYTES + 1)
        except OSError:
            return []
        return [] if any(faults_of(data)) else [limits.tenant for limits in read_roster(data)]

    def has_begun(self) -> bool:
        """Return whether the state has a beginning. Raise `OSError` if it can't be read."""
        return self._is_restored or any((self.state / name).exists() for name in (ROSTER, RESTORED))

    def sockets(self) -> Iterator[tuple[Place, Path]]:
        """Yield each socket with its place in the file."""
        yield ("sockets", "any"), self.socket("sockets", "any")
        yield ("sockets", "operator"), self.socket("sockets", "operator")
        yield ("api", "socket"), self.socket("api", "socket")
        for tenant in self.tenants.values():
            yield (*tenant.place, "lines"), tenant.lines

    def socket(self, section: str, key: str) -> Path:
        """Return the path of a socket of the whole server."""
        folder: Path = self["sockets"]["folder"]
        return self[section][key] or folder / (section if key == "socket" else key)

    def queues_folder(self) -> Path:
        found: Path | None = self["queues"]["folder"]
        return found or self.state.with_name("queues")

    def _roster_path(self) -> Path:
        if self._is_restored or (self.state / RESTORED).exists():
            raise FileNotFoundError
        path: Path = self.state / ROSTER if self.has_begun() else self[""]["roster"]
        return path

    def _is_tenant(self, name: str) -> bool:
        if not is_name(name.encode()):
            self.file.note((TENANTS, name), f"{name!r} is not {NAME.wanted}")
            return False
        return True

    def _tenant(self, name: str) -> ConfiguredTenant:
        """Return a tenant. A tenant in the file has a queue, whose bounds are by default those of all queues."""
        place = (TENANTS, name)
        given, own = self.file.section(place), self.file.values(place, (*TENANT, *BOUNDS))
        values = {key: own[key] if key in given else self["queues"].get(key, own[key]) for key in own}
        lines = values["lines"] or self["sockets"]["folder"] / f"{name}.lines"
        has_queue = values["queue"] and name in self.file.section((TENANTS,))
        return ConfiguredTenant(name, values, lines, self.queues_folder() / name if has_queue else None)

    def _check_combinations(self) -> None:
        """Note settings that conflict, or need others."""
        snapshots, etcd, api = (self.file.section((name,)) for name in ("snapshots", "etcd", "api"))
        if "archive" in snapshots and "keep_days" not in snapshots:
            self.file.note(("snapshots", "archive"), "it needs keep_days, after which lines are moved there")
        archive: Path | None = self["snapshots"]["archive"]
        if archive is not None and os.path.realpath(archive) == os.path.realpath(self.state / JOURNAL):
            self.file.note(("snapshots", "archive"), "it is the journal itself: name another folder")
        if ("members" in etcd) != ("name" in etcd):
            key, other = ("name", "members") if "name" in etcd else ("members", "name")
            self.file.note(("etcd", key), f"it needs {other}: replicas have a name and members of etcd")
        given = [key for key in ("tls", "certificate", "key") if key in api]
        if lacking := [key for key in ("tls", "certificate", "key") if given and key not in api]:
            self.file.note(("api", given[0]), f"it needs {' and '.join(lacking)}")


def server_user(configuration: Configuration) -> int:
    """Return the server's user. If root checks, that is the owner of the state, or of the folder for it."""
    if os.geteuid() != ROOT:
        return os.geteuid()
    return nearest(configuration.state).stat().st_uid


def nearest(path: Path) -> Path:
    """Return a path, or the nearest existing folder above it."""
    return next(folder for folder in (path, *path.parents) if folder.exists())


class Check:
    """A check of a configuration's files, folders and accounts, with the rights of the server's user."""

    def __init__(self, configuration: Configuration, user: int) -> None:
        self._configuration, self._note = configuration, configuration.file.note
        groups = set(os.getgroups()) if user == os.geteuid() else set()
        try:
            account = pwd.getpwuid(user)
            groups |= set(os.getgrouplist(account.pw_name, account.pw_gid))
        except KeyError:
            pass
        self._user = Peer(user, frozenset(groups))

    def run(self) -> None:
        """Note all faults."""
        for look in (self._file, self._roster, self._folders, self._sockets, self._files, self._tls, self._tenants):
            try:
                look()
            except OSError as error:
                self._note(("state",), f"cannot look at {error.filename}: {reason(error)}; check as {self._name}")

    @property
    def _name(self) -> str:
        return name_of(self._user.user)

    def _may(self, path: Path, right: int) -> bool:
        return self._user.user == ROOT or self._user.may(path, right)

    def _file(self) -> None:
        """Note who else may write the file, which names the operators."""
        path = self._configuration.file.path
        found = path.stat()
        if found.st_uid not in (ROOT, self._user.user):
            self._note((), f"{name_of(found.st_uid)}, who owns it, may name the operators: chown root {path}", True)
        if found.st_mode & stat.S_IWOTH:
            self._note((), f"all users may write it, and name the operators: chmod o-w {path}", True)

    def _roster(self) -> None:
        """Note a new state's missing or faulty roster, unless other replicas may have begun."""
        configuration = self._configuration
        path: Path = configuration[""]["roster"]
        if configuration.has_begun():
            return
        if not path.exists():
            if configuration["etcd"]["members"] is None:
                text = "does not exist, and the state is new; firmctl make-roster writes one"
                self._note(("roster",), f"{path} {text}")
        elif not self._may(path, stat.S_IROTH):
            self._note(("roster",), f"{self._name} may not read {path}: chmod o+r")
        else:
            with open(path, "rb") as file:
                for fault in faults_of(file.read(MAX_BYTES + 1)):
                    self._note(("roster",), f"{path}:{fault.line}: {fault}")

    def _folders(self) -> None:
        """Note folders that the server writes and doesn't own."""
        configuration = self._configuration
        self._folder(("state",), configuration.state)
        if configuration["snapshots"]["archive"] is not None:
            self._folder(("snapshots", "archive"), configuration["snapshots"]["archive"])
        for tenant in configuration.tenants.values():
            if tenant.queue is not None:
                self._folder(("queues", "folder"), tenant.queue)

    def _folder(self, place: Place, folder: Path) -> None:
        there = nearest(folder)
        owner = there.stat().st_uid
        if not there.is_dir():
            self._note(place, f"{there} is not a folder")
        elif there == folder and owner not in (ROOT, self._user.user):
            text = f"belongs to {name_of(owner)}, and the server runs as {self._name}"
            self._note(place, f"{folder} {text}: chown -R {self._name} {folder}")
        elif not self._may(there, stat.S_IWOTH):
            self._note(place, f"{self._name} may not write in {there}: chown {self._name} {there}")

    def _sockets(self) -> None:
        """Note sockets that share a path, are too long, or are in a folder that the server may not write."""
        seen: dict[Path, Place] = {}
        sockets = [*self._configuration.sockets(), (("state",), self._configuration.state / VIEW)]
        for place, path in sockets:
            if path in seen:
                self._note(place, f"{path} is the path of {'.'.join(seen[path])} too: choose another")
            seen.setdefault(path, place)
            if len(os.fsencode(path)) > MAX_SOCKET:
                self._note(place, f"{path} is too long for a socket, which has at most {MAX_SOCKET} bytes")
            elif place == ("state",):
                continue
            elif not path.parent.is_dir():
                self._note(place, f"there is no folder {path.parent} for the socket: create it (tmpfiles.d)")
            elif not self._may(path.parent, stat.S_IWOTH):
                self._note(place, f"{self._name} may not write in {path.parent}: chown {self._name} {path.parent}")
            elif path.exists() and not path.is_socket():
                self._note(place, f"{path} is something else than a socket: choose another path")

    def _files(self) -> None:
        """Note files that don't exist or that the server may not read."""
        settings = [("etcd", key) for key in ("ca", "certificate", "key", "password")]
        settings += [("api", key) for key in ("certificate", "key", "client_ca")]
        for section, key in settings:
            path: Path | None = self._configuration[section][key]
            if path is not None and not path.is_file():
                self._note((section, key), f"there is no file {path}")
            elif path is not None and not self._may(path, stat.S_IROTH):
                self._note((section, key), f"{self._name} may not read {path}: chown {self._name} {path}")

    def _tls(self) -> None:
        """Note a certificate that doesn't fit its key, and an authority without certificates."""
        api = self._configuration["api"]
        pair = (api["certificate"], api["key"])
        if all(path is not None and path.is_file() for path in pair):
            context = ssl.SSLContext(ssl.PROTOCOL_TLS_SERVER)
            try:
                context.load_cert_chain(*pair, password=lambda: "")
            except ssl.SSLError as error:
                fits = "KEY_VALUES_MISMATCH" not in str(error)
                text = f"can't be used with {pair[1]}: {reason(error)}" if fits else f"does not fit the key {pair[1]}"
                self._note(("api", "certificate"), f"{pair[0]} {text}")
        if api["client_ca"] is not None and api["client_ca"].is_file():
            try:
                ssl.create_default_context(cafile=str(api["client_ca"]))
            except ssl.SSLError as error:
                self._note(("api", "client_ca"), f"{api['client_ca']} has no certificate: {reason(error)}")
        if api["tls"] is not None and api["tokens"] is None and api["client_ca"] is None:
            self._note(("api", "tls"), "nobody can use it: name tokens, made by firm-api token")

    def _tenants(self) -> None:
        """Note tenants of the file that the roster lacks."""
        configuration = self._configuration
        if not configuration.roster:  # it has faults, or a restored state has the tenants
            return
        for tenant in configuration.named.values():
            if tenant.name not in configuration.roster:
                known = f"the roster has {', '.join(configuration.roster)}"
                if configuration.has_begun():
                    self._note(tenant.place, f"{known}; if it was not admitted since, + admit it", True)
                else:
                    self._note(tenant.place, f"no such tenant: {known}")


def read_checked(path: Path, user: int | None = None, is_restored: bool = False) -> Configuration:
    """Return a file's configuration, with its faults noted. Raise `OSError` or `ValueError` if it can't be read."""
    configuration = Configuration(SettingsFile.read(path), is_restored)
    if configuration.file.is_toml:
        Check(configuration, server_user(configuration) if user is None else user).run()
    configuration.file.findings.sort(key=lambda finding: finding.line)
    return configuration
