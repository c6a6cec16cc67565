"""Callers of the API, and what each may do: by the user at a Unix socket, a token, or a client's certificate.

A token is shown once, when it is made; the file has its SHA-256, one JSON object on a line:

    {"sha256": "ba78..", "user": 1000, "role": "user", "tenants": ["alpha"]}

A certificate stands there by the SHA-256 of its DER form; it counts once the server's `--client-ca` has signed it. A
line that is removed revokes its token within a second.
"""

from __future__ import annotations

import errno
import fcntl
import hashlib
import json
import os
import secrets
import ssl
import stat
from collections.abc import Iterable, Mapping
from dataclasses import dataclass, field
from pathlib import Path
from typing import IO, Any

from ..common.faults import Exit, Fault, reason
from ..common.logs import ERROR, tell
from ..common.peers import Peer
from ..common.users import Operators, User, name_of
from ..common.refused import Refused

ROLES = ("user", "operator", "agent")
TOKEN_BYTES, MAX_TOKEN, MAX_FILE = 32, 256, 2**24
LINES = "lines"


@dataclass(frozen=True, slots=True)
class TenantPaths:
    """The places of a tenant, and the users of its queue."""

    tenant: str
    lines: Path | None = None  # a client socket of firmd
    queue: Path | None = None  # the queue's state folder
    users: int | None = None  # the group whose members may have work in the queue; None: all

    def may_use(self, peer: Peer) -> bool:
        """Return whether a user of this host may have work in the queue."""
        return self.users is None or self.users in peer.groups


@dataclass(frozen=True, slots=True)
class TenantRights:
    """A caller's rights on one tenant."""

    lines: bool = False  # send lines, and see firm's rows
    queue: bool = False  # have work in the queue
    operator: bool = False  # see and change all of the queue

    def named(self) -> str:
        return "operator" if self.operator else "user" if self.queue else LINES


@dataclass(frozen=True, slots=True)
class Principal:
    number: int  # the user's
    rights: Mapping[str, TenantRights] = field(default_factory=dict)  # by tenant
    agents: frozenset[str] = frozenset()  # tenants whose tasks the caller may run, as an agent

    def of(self, tenant: str) -> TenantRights:
        """Return the rights on a tenant; one without any is like one that does not exist."""
        found = self.rights.get(tenant)
        if found is None:
            raise Refused("no-such-tenant", f"no tenant {tenant!r} is there for this user")
        return found

    def user_of(self, tenant: str) -> User:
        return User(self.number, self.of(tenant).operator)

    @property
    def name(self) -> str:
        return name_of(self.number)


def caller_of_peer(peer: Peer, operators: Operators, places: Iterable[TenantPaths]) -> Principal:
    """Return the rights of a user of this host."""
    is_operator = operators.has(peer)
    found: dict[str, TenantRights] = {}
    for place in places:
        lines = place.lines is not None and (is_operator or peer.may_connect(place.lines))
        queue = place.queue is not None and (is_operator or place.may_use(peer))
        if lines or queue:
            found[place.tenant] = TenantRights(lines, queue, is_operator)
    return Principal(peer.user, found, agents_of(found) if is_operator else frozenset())


def agents_of(rights: Mapping[str, TenantRights]) -> frozenset[str]:
    """Return the tenants with a queue."""
    return frozenset(tenant for tenant, found in rights.items() if found.queue)


@dataclass(frozen=True, slots=True)
class Grant:
    """The rights of a token's bearer."""

    user: int
    role: str
    tenants: tuple[str, ...]

    @classmethod
    def read(cls, row: Any) -> tuple[str, Grant]:
        """Read a line of the file. Raise ValueError, KeyError or TypeError if it is none."""
        digest, tenants = bytes.fromhex(row["sha256"]).hex(), row["tenants"]
        if len(digest) != 64 or type(row["user"]) is not int or row["role"] not in ROLES:
            raise ValueError("no digest, user or role")
        if not isinstance(tenants, list) or not all(isinstance(tenant, str) for tenant in tenants):
            raise TypeError("tenants is a list of names")
        return digest, cls(row["user"], row["role"], tuple(tenants))

    def caller(self, places: Mapping[str, TenantPaths]) -> Principal:
        is_operator, found = self.role == "operator", {}
        for place in filter(None, map(places.get, self.tenants)):
            rights = TenantRights(is_operator and place.lines is not None, place.queue is not None, is_operator)
            if rights.lines or rights.queue:
                found[place.tenant] = rights
        agents = frozenset() if self.role == "user" else agents_of(found)
        return Principal(self.user, {} if self.role == "agent" else found, agents)


class Tokens:
    """The file of tokens and certificates, which is read again when it changes."""

    def __init__(self, path: Path) -> None:
        self._path = path
        self._grants: dict[str, Grant] = {}
        self._stamp: tuple[int, ...] = ()

    def look(self) -> None:
        """Read the file if it has changed. One that can't be read gives nobody rights."""
        try:
            found = self._path.stat()
            stamp = (found.st_ino, found.st_mtime_ns, found.st_size)
            if stamp == self._stamp:
                return
            self._grants = read_grants(self._path)
        except (OSError, ValueError, KeyError, TypeError, RecursionError) as error:
            if self._grants or not self._stamp:
                tell(ERROR, f"{self._path}: no token counts: {error}")
            self._grants, stamp = {}, (0, 0, 0)
        self._stamp = stamp

    def of_token(self, token: str) -> Grant | None:
        return self._of(token.encode()) if len(token) <= MAX_TOKEN and token.isascii() else None

    def of_certificate(self, found: ssl.SSLObject | None) -> Grant | None:
        text = found.getpeercert(binary_form=True) if found is not None else None
        return self._of(text) if text else None

    def _of(self, secret: bytes) -> Grant | None:
        """Return what a token or a certificate gives, one that was just added too."""
        digest = hashlib.sha256(secret).hexdigest()
        if digest not in self._grants:
            self.look()
        return self._grants.get(digest)


def read_grants(path: Path) -> dict[str, Grant]:
    if path.stat().st_mode & (stat.S_IWGRP | stat.S_IWOTH) or path.stat().st_size > MAX_FILE:
        raise ValueError("others than its owner may write it, or it is too large")
    return dict(Grant.read(json.loads(line)) for line in path.read_text("utf-8").splitlines() if line.strip())


def append_line(file: IO[bytes], line: bytes) -> None:
    """Add a line to a file, synced, as a whole or not at all: while one line of the tokens' file is none, no token of
    it counts. Raise OSError."""
    size = file.seek(0, os.SEEK_END)
    is_open = size > 0 and os.pread(file.fileno(), 1, size - 1) != b"\n"  # as an editor may leave it
    text = b"\n" * is_open + line + b"\n"
    try:
        if file.write(text) != len(text):
            raise OSError(errno.ENOSPC, os.strerror(errno.ENOSPC))
        os.fsync(file.fileno())
    except OSError:
        file.truncate(size)
        raise


def grant(path: Path, given: Grant, certificate: Path | None) -> str:
    """Add a token or a certificate to the file. Return what its bearer needs: the token, or nothing."""
    token = "" if certificate is not None else secrets.token_urlsafe(TOKEN_BYTES)
    try:
        text = ssl.PEM_cert_to_DER_cert(certificate.read_text()) if certificate is not None else token.encode()
        digest = hashlib.sha256(text).hexdigest()
        row = {"sha256": digest, "user": given.user, "role": given.role, "tenants": list(given.tenants)}
        opened = os.open(path, os.O_RDWR | os.O_APPEND | os.O_CREAT | os.O_NOFOLLOW, 0o600)
        with open(opened, "r+b", buffering=0) as file:
            fcntl.flock(file, fcntl.LOCK_EX)
            append_line(file, json.dumps(row).encode())
    except ValueError as error:
        raise Fault(Exit.WORDS, f"{certificate} is no certificate in PEM: {error}") from error
    except OSError as error:
        raise Fault(Exit.STATE, f"cannot write {path}: {reason(error)}") from error
    return token
