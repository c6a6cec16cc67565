"""Reads the sockets' clients in turn, so that no flood at one socket delays the others.

In each turn of the loop a socket's clients are read for about a fifth of a millisecond. Further bytes wait in the
system, and further turns rotate among the clients with unread bytes. A turn is a time, not a size, since comments and
lines of unknown tenants cost more for a byte than commands do. Lines of several tenants, and of none, are accepted in
small parts: if those take longer than a turn, the rest waits for the next one. fair_selector.py limits the number of
clients that are read in a turn.
"""

from __future__ import annotations

import asyncio
from collections import deque
from typing import TYPE_CHECKING

from .budgets import Account, Accounts

if TYPE_CHECKING:
    from .clients import Client

MIN_BYTES, MAX_BYTES = 128, 16_384  # of a socket, in a turn of the loop
MAX_REST = 65_536  # bytes of a socket that wait for their turns; past it few more are read
TURN_SECONDS = 0.0002  # of a turn, at most


class SocketClients:
    """The clients of one socket."""

    def __init__(self, name: bytes, account: Account) -> None:
        self.name, self.account = name, account
        self.count = 0  # connected
        self.read = 0  # bytes in this turn
        self.spent = 0.0  # seconds of this turn, for lines that take long
        self.most = 4_096  # bytes in a turn
        self.waiting: deque[Client] = deque()
        self.rest = 0  # bytes that were read, for further turns
        self.is_slowed = False  # by its budget of bytes a second

    @property
    def may_read(self) -> int:
        """Return the bytes that one more client may send in an exhausted turn."""
        return self.most if self.read < self.most and self.rest < MAX_REST else MIN_BYTES

    def fit(self, size: int, seconds: float) -> None:
        """Adjust the bytes of a turn by the time of the last ones."""
        if seconds > 2 * TURN_SECONDS and 2 * size > self.most:
            self.most = max(MIN_BYTES, self.most // 2)
        elif seconds < TURN_SECONDS / 2 and size >= self.most:
            self.most = min(MAX_BYTES, self.most * 2)


class SocketTurns:
    """All sockets and their turns."""

    def __init__(self, accounts: Accounts) -> None:
        self._accounts = accounts
        self._loop = asyncio.get_running_loop()
        self._sockets: dict[bytes, SocketClients] = {}
        self._touched: dict[bytes, SocketClients] = {}  # those read in this turn

    def socket(self, name: bytes) -> SocketClients:
        if name not in self._sockets:
            self._sockets[name] = SocketClients(name, self._accounts.socket(name))
        return self._sockets[name]

    def all(self) -> list[SocketClients]:
        return list(self._sockets.values())

    def read(self, reader: Client, socket: SocketClients, size: int) -> None:
        """Count the bytes that were read from a client."""
        reader.expected = socket.most if size >= socket.may_read else size
        socket.read += size
        socket.account.second.left -= size
        self._touch(socket)
        # A single client is read once in a turn in any case.
        is_over = socket.read >= socket.most and socket.count > 1
        if is_over or socket.account.second.left < 0 and not self._has_budget(socket):
            socket.waiting.append(reader)
            reader.take_turn(True)

    def wait(self, reader: Client, socket: SocketClients) -> None:
        """Let a client continue in a further turn with the bytes that were read."""
        reader.expected = socket.most
        socket.waiting.append(reader)
        reader.take_turn(True)
        self._touch(socket)

    def _touch(self, socket: SocketClients) -> None:
        if not self._touched:
            self._loop.call_soon(self._begin)
        self._touched[socket.name] = socket

    def _begin(self) -> None:
        """Begin the loop's next turn."""
        touched, self._touched = self._touched, {}
        for socket in touched.values():
            socket.read, socket.spent = 0, 0.0
            if socket.waiting:
                self._go_on(socket)

    def _go_on(self, socket: SocketClients) -> None:
        """Read further clients, about as many as a turn allows."""
        if socket.is_slowed:
            return
        if not self._has_budget(socket):
            socket.is_slowed = True
            self._accounts.counters.waits[socket.name, b""] += 1
            self._loop.call_later(socket.account.second.wait(), self._end_wait, socket)
            return
        expected = 0
        while socket.waiting and expected < socket.most and socket.spent < TURN_SECONDS:
            reader = socket.waiting.popleft()
            expected += reader.expected
            reader.take_turn(False)
        if socket.waiting:
            self._touch(socket)

    def _end_wait(self, socket: SocketClients) -> None:
        socket.is_slowed = False
        self._go_on(socket)

    def _has_budget(self, socket: SocketClients) -> bool:
        return socket.account.second.has(1, self._loop.time())
