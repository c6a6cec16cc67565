"""The user and groups at the other end of a Unix socket, and their rights."""

from __future__ import annotations

import os
import socket
import stat
import struct
from contextlib import suppress
from dataclasses import dataclass
from pathlib import Path

CREDENTIALS = struct.Struct("iII")  # of a connection's other end: process, user, group
SO_PEERGROUPS = getattr(socket, "SO_PEERGROUPS", 59)  # which Python does not name
MAX_GROUPS_BYTES = 1024  # the most that Python can read
ROOT = 0


@dataclass(frozen=True, slots=True)
class Peer:
    """The process at the other end of a Unix socket, as the system recorded it at the connection."""

    user: int
    groups: frozenset[int]

    @classmethod
    def of(cls, connection: socket.socket) -> Peer:
        _, user, group = CREDENTIALS.unpack(
            connection.getsockopt(socket.SOL_SOCKET, socket.SO_PEERCRED, CREDENTIALS.size)
        )
        groups = {group}
        with suppress(OSError):  # of a user with more groups only the first counts
            others = connection.getsockopt(socket.SOL_SOCKET, SO_PEERGROUPS, MAX_GROUPS_BYTES)
            groups |= {number for (number,) in struct.iter_unpack("I", others)}
        return cls(user, frozenset(groups))

    def may(self, path: Path, right: int) -> bool:
        """Return whether a file's owner, group and mode give this peer a right, as `stat.S_IWOTH`."""
        found = path.stat()
        if self.user == found.st_uid:
            return bool(found.st_mode & right << 6)
        return bool(found.st_mode & (right << 3 if found.st_gid in self.groups else right))

    def may_connect(self, path: Path) -> bool:
        """Return whether this peer may write a socket, and search each folder above it."""
        with suppress(OSError):
            if self.may(path, stat.S_IWOTH):
                return all(self.may(folder, stat.S_IXOTH) for folder in Path(os.path.realpath(path)).parents)
        return False
