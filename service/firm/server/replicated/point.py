"""The point that a replica continues from: its position and the digests of its replies, as a snapshot stores them."""

from __future__ import annotations

import json
from collections.abc import Sequence
from typing import Any, NamedTuple
from zlib import crc32

from ..records import Base
from ..snapshots import Snapshot
from .digests import Chain, Digest
from .renewed import Renewed

KEY = "replica"  # in a snapshot's books


class Position(NamedTuple):
    """The end of a journal's lines."""

    lines: int = 0
    size: int = 0  # bytes
    chain: int = 0  # their CRC-32

    def behind(self, text: bytes) -> Position:
        return Position(self.lines + text.count(b"\n"), self.size + len(text), crc32(text, self.chain))


class Point:
    """A position with the digests of its replies; updated from lines and their replies."""

    def __init__(self, position: Position = Position(), last: Digest = Digest(0, ""), replies: Sequence[bytes] = ()):
        self.position, self.chain = position, Chain(last, replies)
        self._replies = list(replies)  # since the last digest

    def add(self, text: bytes, replies: Sequence[bytes]) -> None:
        self.position = self.position.behind(text)
        self._replies += replies
        for _ in self.chain.add(replies):
            pass
        self._replies = self._replies[len(self._replies) - (self.chain.lines - self.chain.last.lines) :]

    def kept(self) -> dict[str, Any]:
        """Return its form in JSON: the CRC-32 of all lines, the last digest, and the replies since."""
        replies = [reply.decode("ascii") for reply in self._replies]
        return {KEY: {"chain": self.position.chain, "digest": self.chain.last.digest, "replies": replies}}


def point_of(snapshot: Snapshot) -> Point | None:
    """Return the point after a snapshot; None if a lone firmd made the snapshot."""
    kept = json.loads(snapshot.books).get(KEY)
    return point_at(snapshot.base, kept) if kept is not None else None


def opening_point(renewed: Renewed | None) -> Point:
    """Return the point of a start without a snapshot."""
    return Point() if renewed is None else point_at(renewed.base, renewed.books[KEY])


def point_at(base: Base, kept: dict[str, Any]) -> Point:
    replies = [reply.encode("ascii") for reply in kept["replies"]]
    last = Digest(base.lines - len(replies), kept["digest"])
    return Point(Position(base.lines, base.size, kept["chain"]), last, replies)


def has_point(snapshot: Snapshot) -> bool:
    return point_of(snapshot) is not None
