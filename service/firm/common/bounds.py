"""Bounds on the memory of all clients together: unread replies and unanswered lines."""

from __future__ import annotations

from collections import Counter, deque
from dataclasses import dataclass

MEBIBYTE = 2**20
# Memory besides the text, by tracemalloc in CPython 3.11, rounded up: 475 bytes for lines that came together, with
# the stream's batch and the client's record; 180 for a note that waits for replies or lines.
BATCH_BYTES, NOTE_BYTES = 512, 192
SHARES = 128  # of the bound on all unanswered bytes; more than the sockets, so at most twice the bound is used
UNREAD_PIECE = 65_536  # bytes: small enough for the allocator to reuse, and a third of a Unix socket's buffer


@dataclass(frozen=True, slots=True)
class ByteLimits:
    """Bounds on the bytes of a socket's (or tenant's) clients, and of all together."""

    of_socket: int
    in_all: int


class BytesBySocket:
    """Counts of bytes by socket, with their bounds."""

    def __init__(self, bounds: ByteLimits) -> None:
        self.bounds = bounds
        self.bytes: Counter[bytes] = Counter()
        self.total = 0

    def add(self, socket: bytes, size: int) -> None:
        self.total += size
        left = self.bytes[socket] + size
        if left:
            self.bytes[socket] = left
        else:  # tenants may have any name
            del self.bytes[socket]

    def is_over(self, socket: bytes) -> bool:
        """Return whether the socket, or all together, exceed their bound."""
        return self.total > self.bounds.in_all or self.bytes[socket] > self.bounds.of_socket

    def fullest(self) -> bytes | None:
        """Return the socket with most bytes, if it or all together exceed their bound."""
        most = max(self.bytes, key=self.bytes.__getitem__, default=b"")
        return most if self.is_over(most) else None


class Unread:
    """A client's unread replies, in pieces of one size, so that another client can reuse freed memory."""

    def __init__(self) -> None:
        self._pieces: deque[bytearray] = deque()
        self.size = 0

    def add(self, text: bytes) -> None:
        self.size += len(text)
        at = 0
        while at < len(text):
            if not self._pieces or len(self._pieces[-1]) >= UNREAD_PIECE:
                self._pieces.append(bytearray())
            last = self._pieces[-1]
            more = UNREAD_PIECE - len(last)
            last += text[at : at + more]
            at += more

    def take(self) -> bytearray:
        """Remove and return the first piece, which must exist."""
        piece = self._pieces.popleft()
        self.size -= len(piece)
        return piece

    def clear(self) -> None:
        self._pieces.clear()
        self.size = 0


class UnansweredLines:
    """Unanswered lines. At a bound its clients are not read until half of it is answered.

    Each socket has a bound, and all together have one. At the common bound each socket gets a share of it, so that busy
    sockets don't lock out others, such as the operator's.
    """

    def __init__(self, bounds: ByteLimits) -> None:
        self.account = BytesBySocket(bounds)
        self._full: set[bytes] = set()  # sockets
        self._is_full = False  # all together
        self._most = bounds.of_socket  # of a socket, at the moment

    def is_full(self, socket: bytes) -> bool:
        return socket in self._full

    def add(self, socket: bytes, size: int) -> bool:
        """Count bytes. Return whether the set of clients to read has changed."""
        account, in_all = self.account, self.account.bounds.in_all
        account.add(socket, size)
        if account.total > in_all and not self._is_full:
            return self._fill()
        if self._is_full and account.total <= in_all // 2:
            return self._empty()
        if size > 0 and account.bytes[socket] > self._most and socket not in self._full:
            self._full.add(socket)
            return True
        if size < 0 and socket in self._full and account.bytes[socket] <= self._most // 2:
            self._full.discard(socket)
            return True
        return False

    def _fill(self) -> bool:
        bounds = self.account.bounds
        self._is_full, self._most = True, min(bounds.of_socket, bounds.in_all // SHARES)
        self._full.update(socket for socket, size in self.account.bytes.items() if size > self._most)
        return True

    def _empty(self) -> bool:
        most = self.account.bounds.of_socket
        self._is_full, self._most = False, most
        self._full = {socket for socket in self._full if self.account.bytes[socket] > most // 2}
        return True
