"""Handles a shortage of file descriptors: closes the newest connection of the socket with the most connections.

This socket is the likeliest cause, and all others keep their connections. It may be an honest tenant's, if a hostile
one spreads its connections over several sockets. On a shared socket, the newest connection may be anyone's.
"""

from __future__ import annotations

import asyncio
import errno
import os
import socket
from collections.abc import Callable
from contextlib import suppress

from .faults import Faults

# Errors of temporary shortages, which end once a connection is closed.
SHORTAGES = frozenset({errno.EMFILE, errno.ENFILE, errno.ENOMEM, errno.ENOBUFS, errno.EAGAIN})
TURNS = 4  # of the loop, until new connections are registered with their sockets
LACKING = "out of file descriptors: closing the newest connection of the socket with most"
REFUSED = b"? too-many-clients: out of file descriptors\n"

Held = dict[str, list[asyncio.WriteTransport]]  # connections by their sockets, the newest last


class Spare:
    """A descriptor in reserve, for when none is left."""

    def __init__(self) -> None:
        self._file = os.open(os.devnull, os.O_RDONLY)

    def give(self) -> None:
        if self._file >= 0:
            os.close(self._file)
            self._file = -1

    def keep(self, file: int) -> None:
        """Hold this descriptor as the reserve."""
        self.give()
        self._file = file

    def take(self) -> bool:
        """Return whether the reserve is held again."""
        with suppress(OSError):
            if self._file < 0:
                self._file = os.open(os.devnull, os.O_RDONLY)
        return self._file >= 0


class FdPressure:
    """Closes connections at a shortage of descriptors, by the connections of each socket."""

    def __init__(self, faults: Faults, refused: bytes = REFUSED) -> None:
        self._faults, self._refused = faults, refused
        self._loop = asyncio.get_running_loop()
        self._looks: list[Callable[[], Held]] = []
        self._turns = 0  # until a connection is closed
        self._spare = Spare()

    def look_at(self, sockets: Callable[[], Held]) -> None:
        """Add a function that returns sockets with their connections at a shortage."""
        self._looks.append(sockets)

    def make_room(self, name: str, listening: socket.socket) -> bool:
        """Make room for a connection that waits at a socket. If this socket has the most, refuse the connection;
        otherwise close one of another socket. Return whether the next one may be accepted at once."""
        held = self._held()
        most = max(held, key=lambda other: len(held[other]), default=name)
        if most == name or len(held[most]) < 2:
            return self._refuse(listening)
        self._close_one()
        return False

    def relieve(self) -> None:
        """Close one connection soon. Further calls until then count as the same shortage."""
        if not self._turns:
            self._loop.call_soon(self._wait)
        self._turns = TURNS

    def relieve_soon(self) -> None:
        """Do the same, from any thread."""
        self._loop.call_soon_threadsafe(self.relieve)

    def _refuse(self, listening: socket.socket) -> bool:
        self._faults.count("shortage", LACKING)
        self._spare.give()
        with suppress(OSError):
            connection, _ = listening.accept()
            with connection, suppress(OSError):
                connection.setblocking(False)
                connection.send(self._refused)
        return self._spare.take()

    def _wait(self) -> None:
        self._turns -= 1
        if self._turns:
            self._loop.call_soon(self._wait)
        elif not is_descriptor_free():
            self._close_one()

    def _held(self) -> Held:
        return {name: held for look in self._looks for name, held in look().items()}

    def _close_one(self) -> None:
        self._faults.count("shortage", LACKING)
        most: list[asyncio.WriteTransport] = max(self._held().values(), key=len, default=[])
        if len(most) > 1:  # single connections of sockets are not the cause
            most[-1].abort()


def note_uncaught(faults: Faults, part: str, context: dict[str, object]) -> None:
    """Count an uncaught error that asyncio reports. It ends its connection at most."""
    error = context.get("exception")
    if isinstance(error, BaseException):
        faults.note(part, error)
    else:
        faults.count(part, str(context.get("message")))
    abort(context)


def abort(context: dict[str, object]) -> None:
    if isinstance(transport := context.get("transport"), asyncio.WriteTransport):
        transport.abort()


def source_of(context: dict[str, object]) -> object:
    """Return the object that such an error came from."""
    return context.get("protocol") or context.get("task") or context.get("future") or context.get("handle")


def is_descriptor_free() -> bool:
    """Return whether a descriptor is free again."""
    try:
        os.close(os.open(os.devnull, os.O_RDONLY))
    except OSError:
        return False
    return True
