"""Digests of all replies so far, at the same lines on each replica: a follower's must equal the leader's."""

from __future__ import annotations

from collections.abc import Callable, Iterator, Sequence
from hashlib import blake2b
from threading import Lock
from typing import NamedTuple

from ...common.faults import Exit, Fault

EVERY_LINES = 256
MAX_STORED = 65_536  # own digests to compare with the leader's
DIGEST_BYTES = 16


class Digest(NamedTuple):
    lines: int
    digest: str

    def text(self) -> bytes:
        return f"{self.lines} {self.digest}".encode()

    @classmethod
    def read(cls, text: bytes) -> Digest:
        try:
            lines, digest = text.decode().split()
            return cls(int(lines), digest)
        except ValueError as error:
            raise Fault(Exit.JOURNAL, f"the digest in etcd is damaged: {text[:60]!r}") from error


class Chain:
    """A chain of digests, one for each block of lines: of the digest before it and of the block's replies."""

    def __init__(self, last: Digest = Digest(0, ""), replies: Sequence[bytes] = ()) -> None:
        self.last = last  # of the last whole block
        self.lines = last.lines  # with a reply
        self._sum = self._begin()
        if replies:
            list(self.add(replies))

    def add(self, replies: Sequence[bytes]) -> Iterator[Digest]:
        """Add replies. Yield the digest of each block that they complete."""
        at = 0
        while at < len(replies):
            count = min(EVERY_LINES - self.lines % EVERY_LINES, len(replies) - at)
            self._sum.update(b"\n".join(replies[at : at + count]) + b"\n")
            self.lines += count
            at += count
            if self.lines % EVERY_LINES == 0:
                self.last = Digest(self.lines, self._sum.hexdigest())
                self._sum = self._begin()
                yield self.last

    def _begin(self) -> blake2b:
        return blake2b(self.last.digest.encode(), digest_size=DIGEST_BYTES)


class Digests:
    """Compares digests: an observer of replies. Another thread passes it the leader's digests."""

    def __init__(self, on_fault: Callable[[Fault], None], chain: Chain | None = None) -> None:
        self._on_fault, self._chain = on_fault, chain or Chain()
        self._lock = Lock()
        self._own: dict[int, str] = {}  # by number of lines, since the last comparison
        self._leaders: dict[int, str] = {}  # of lines that have no reply here yet
        if self._chain.last.lines:
            self._own[self._chain.last.lines] = self._chain.last.digest

    def replied_all(self, lines: Sequence[bytes], replies: Sequence[bytes], seconds: float | None) -> None:
        for digest in self._chain.add(replies):
            self._note(digest)

    def latest(self) -> Digest | None:
        """Return the last digest, which the leader publishes."""
        with self._lock:
            if not self._own:
                return None
            lines, digest = self._own.popitem()
            self._own = {lines: digest}
            return Digest(lines, digest)

    def compare(self, leaders: Digest) -> None:
        """Compare a digest of the leader's, at once or when its lines have replies here."""
        with self._lock:
            own = self._own.get(leaders.lines)
            if own is None and leaders.lines > self._chain.lines:
                self._leaders[leaders.lines] = leaders.digest
            self._forget(leaders.lines)
        if own is not None:
            self._require(Digest(leaders.lines, own), leaders.digest)

    def _note(self, own: Digest) -> None:
        with self._lock:
            leaders = self._leaders.pop(own.lines, None)
            self._own[own.lines] = own.digest
            if len(self._own) > MAX_STORED:
                del self._own[next(iter(self._own))]
        if leaders is not None:
            self._require(own, leaders)

    def _forget(self, lines: int) -> None:
        for number in [number for number in self._own if number < lines]:
            del self._own[number]

    def _require(self, own: Digest, leaders: str) -> None:
        if own.digest != leaders:
            what = f"the replies to the first {own.lines:,} lines"
            self._on_fault(Fault(Exit.JOURNAL, f"{what} are others than the leader's: has it another firm?"))
