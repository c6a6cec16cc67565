"""Names of Unix sockets: only the process that made one removes it, and another replaces it only once it is unserved.

firmd removes them before it stops listening, while nobody else replaces them and their inode numbers are not reused.
A replacement needs a lock of the folder. Everyone who may read the folder can hold that lock, so firmd waits at most
LOCK_SECONDS, for all folders together.
"""

from __future__ import annotations

import fcntl
import os
import socket
import stat
import time
from collections.abc import Iterator
from contextlib import contextmanager, suppress
from pathlib import Path

from .faults import Exit, Fault, reason

BACKLOG = 1_024  # connections that wait to be accepted
PROBE_SECONDS = 1.0  # for an answer of an existing socket
LOCK_SECONDS = 2.0  # for all folders that others have locked, together
RETRY_SECONDS = 0.01  # between two tries to lock


class Names:
    """Names of this process's sockets."""

    def __init__(self) -> None:
        self._made: dict[Path, os.stat_result] = {}
        self._patience = LOCK_SECONDS

    def listen(self, path: Path, mode: int) -> socket.socket:
        """Return a listening socket, guarded by the mode of its file. Replace one that a dead daemon left."""
        try:
            with self._alone_in(path.parent):
                remove_dead(path)
                listening = listen_at(path, mode)
                self.add(path)
                return listening
        except OSError as error:
            raise Fault(Exit.SOCKET, f"cannot make the socket {path}: {reason(error)}") from error

    def add(self, path: Path) -> None:
        """Add a socket that was not made by `listen`."""
        self._made[path] = path.lstat()

    def remove(self) -> None:
        """Remove the names while the sockets still listen, so that none is another's and no inode number is reused."""
        for path, made in self._made.items():
            with suppress(OSError):
                if os.path.samestat(path.lstat(), made):
                    path.unlink()

    @contextmanager
    def _alone_in(self, folder: Path) -> Iterator[None]:
        """Lock the folder against other firmd during the block. Any reader can lock it too, so don't wait long."""
        held = os.open(folder, os.O_RDONLY | os.O_DIRECTORY)
        try:
            while not is_locked(held) and self._patience > 0:
                self._patience -= RETRY_SECONDS
                time.sleep(RETRY_SECONDS)
            yield
        finally:
            os.close(held)


def is_locked(folder: int) -> bool:
    """Return whether this process has locked the folder."""
    try:
        fcntl.flock(folder, fcntl.LOCK_EX | fcntl.LOCK_NB)
    except BlockingIOError:
        return False
    return True


def listen_at(path: Path, mode: int) -> socket.socket:
    bound = socket.socket(socket.AF_UNIX, socket.SOCK_STREAM)
    mask = os.umask(0o777 & ~mode)
    try:
        bound.bind(str(path))
        bound.listen(BACKLOG)  # at once, since others replace a socket that doesn't listen
    except OSError:
        bound.close()
        raise
    finally:
        os.umask(mask)
    return bound


def remove_dead(path: Path) -> None:
    try:
        if not stat.S_ISSOCK(path.lstat().st_mode):
            raise Fault(Exit.SOCKET, f"cannot make the socket {path}: something else stands there")
        if is_served(path):
            raise Fault(Exit.SOCKET, f"cannot make the socket {path}: somebody serves it")
        path.unlink()
    except FileNotFoundError:
        return
    except OSError as error:
        raise Fault(Exit.SOCKET, f"cannot replace the socket {path}: {reason(error)}") from error


def is_served(path: Path) -> bool:
    with socket.socket(socket.AF_UNIX, socket.SOCK_STREAM) as probe:
        probe.settimeout(PROBE_SECONDS)
        try:
            probe.connect(str(path))
        except ConnectionRefusedError:
            return False
        except TimeoutError:  # its backlog is full
            return True
        return True
