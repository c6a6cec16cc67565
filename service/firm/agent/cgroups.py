"""Cgroups v2, of which each run has one where one can be written."""

from __future__ import annotations

import errno
import os
import subprocess
import sys
import time
from collections.abc import Mapping
from contextlib import suppress
from pathlib import Path
from typing import Any

SYSTEMD = Path("/run/systemd/system")  # is there where systemd runs
SCOPE = "FIRM_AGENT_SCOPE"  # a variable of an agent that systemd has put into a scope
SCOPE_SECONDS = 20.0  # for an answer of systemd
PROCESSES, EVENTS, TYPE = "cgroup.procs", "cgroup.events", "cgroup.type"
KILL = "cgroup.kill"  # since Linux 5.14
CONTROL = "cgroup.subtree_control"
PERIOD = 100_000  # microseconds, of which processors are given a share
LOOK_SECONDS = 0.02  # between two looks at processes that are being ended


class NoGroup(Exception):
    """Why a run can't have a cgroup of its own."""


def limits_of(bounds: Mapping[str, Any]) -> dict[str, str]:
    """Return the files of a cgroup that keep a task's bounds, and what they must hold."""
    found = {}
    if "memory" in bounds:
        found["memory.max"] = str(bounds["memory"])
        found["memory.oom.group"] = "1"
    if "processors" in bounds:
        found["cpu.max"] = f"{max(1000, round(bounds['processors'] * PERIOD))} {PERIOD}"
    return found


def put(path: Path, text: str) -> None:
    """Writes to a file that is there."""
    file = os.open(path, os.O_WRONLY)
    try:
        os.write(file, text.encode())
    finally:
        os.close(file)


def own_group() -> Path:
    """The cgroup v2 of this process, where others may be made below."""
    own = [row[3:] for row in Path("/proc/self/cgroup").read_text().splitlines() if row.startswith("0::")]
    mounts = [row.split() for row in Path("/proc/self/mountinfo").read_text().splitlines() if " - cgroup2 " in row]
    if not own or not mounts:
        raise NoGroup("no cgroup v2 is mounted")
    path = Path(mounts[0][4], os.path.relpath(own[0], mounts[0][3]))
    if not os.access(path, os.W_OK) or not os.access(path / PROCESSES, os.W_OK):
        raise NoGroup(f"{path} can't be written")
    if os.geteuid() == 0 and SYSTEMD.is_dir() and not is_delegated(path):  # root may write what is systemd's to change
        raise NoGroup(f"{path} is systemd's own")
    return path


def is_delegated(path: Path) -> bool:
    try:
        return os.getxattr(path, "trusted.delegate") == b"1"
    except OSError:
        return False


def place_with(home: Path, limits: dict[str, str]) -> Path:
    """The cgroup below which others may have limits: this one, or the one above it, as a cgroup that gives out limits
    has no processes of its own."""
    controllers = sorted({name.partition(".")[0] for name in limits})
    why = ""
    for place in (home, home.parent):
        try:
            given = (place / CONTROL).read_text().split()
            if lacking := [name for name in controllers if name not in given]:
                put(place / CONTROL, " ".join(f"+{name}" for name in lacking))
            return place
        except OSError as error:
            why = why or f"{place} can't limit {', '.join(controllers)}: {error.strerror}"
    raise NoGroup(why)


class Group:
    """The cgroup of a run's processes: whatever they do to their environment, sessions and parents, they stay in it."""

    def __init__(self, path: Path) -> None:
        self.path = path

    @staticmethod
    def make(name: str, limits: dict[str, str] | None = None) -> Group:
        """A new one; raises NoGroup where there can be none, or none with such limits."""
        home = own_group()
        place = place_with(home, limits) if limits else home
        group = Group(place / f"{name}-{os.urandom(4).hex()}")
        try:
            group.path.mkdir()
            if (group.path / TYPE).read_text() != "domain\n":
                group.end()
                raise NoGroup(f"{group.path.parent} has threads alone")
            group.limit(limits or {})
        except OSError as error:
            group.end()
            raise NoGroup(f"{group.path.parent}: {error.strerror}") from None
        return group

    def limit(self, limits: dict[str, str]) -> None:
        """Writes limits; raises OSError where one can't be kept."""
        for name, value in limits.items():
            put(self.path / name, value)

    def end(self) -> None:
        """Kills all that is in it until nothing is, those too that are started meanwhile, and removes it. Raise OSError
        where that can't be found out: what may still run must not be taken for ended."""
        while self._is_populated():
            with suppress(OSError):  # all is gone
                put(self.path / KILL, "1")
            time.sleep(LOOK_SECONDS)
        for folder, _, _ in os.walk(self.path, topdown=False):
            with suppress(OSError):
                os.rmdir(folder)

    def _is_populated(self) -> bool:
        try:
            return "populated 1" in (self.path / EVENTS).read_text()
        except OSError as error:
            if error.errno in (errno.ENOENT, errno.ENODEV):  # it was removed
                return False
            raise


def group_trouble(limits: dict[str, str] | None = None) -> str | None:
    """Return why a run can't have a cgroup here, or none with such limits; None if it can."""
    try:
        Group.make("firm-probe", limits).end()
    except NoGroup as reason:
        return str(reason)
    return None


def enter_scope() -> str | None:
    """Start this program again in a scope of systemd, below which it may make cgroups, if it can make none and is in
    none yet. Return why runs have no cgroups, if they have none."""
    why = group_trouble()
    if why is None or not SYSTEMD.is_dir() or SCOPE in os.environ:
        return why
    words = ["systemd-run", *(["--user"] if os.geteuid() else []), "--scope", "--quiet", "--collect"]
    words += ["--property=Delegate=yes", f"--unit=firm-agent-{os.urandom(4).hex()}.scope"]
    try:
        done = subprocess.run([*words, "true"], capture_output=True, text=True, timeout=SCOPE_SECONDS)
        if done.returncode == 0:
            os.execvpe(words[0], [*words, *sys.orig_argv], {**os.environ, SCOPE: "1"})
        return f"systemd-run: {done.stderr.strip() or done.returncode}"
    except (OSError, subprocess.TimeoutExpired) as error:
        return f"systemd-run: {error}"
