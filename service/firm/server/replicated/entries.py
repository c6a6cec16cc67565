"""The contents of etcd: the keys below a prefix, and the texts of their values.

    state           ID LINES BYTES CHAIN: the state's id, and the position of the first entry. DIGEST CHUNKS follow if
                    the replicas began with a state instead of a roster, see beginning.py
    roster          that the replicas began with; empty if they began with a state
    restored/CHUNKS/N its text
    leader          the leader's name, bound to a lease; the revision that made this key is the epoch
    lines/OFFSET    an entry: EPOCH CHAIN, and below it records of lines as in the journal, with one time
    replies         LINES DIGEST: of the leader's replies to the first LINES lines, see digests.py
    found/NAME      LINES BYTES: of the replica NAME's own journal, while etcd has no state
    kept/NAME       TOKEN BYTES TIME: bytes of lines on the disk of the replica NAME, and since when
    snapshot        BYTES DIGEST: the snapshot for late replicas, see offers.py
    chunks/DIGEST/N its text

OFFSET is the number of bytes of all lines before an entry, and CHAIN is their CRC-32. It distinguishes a journal of
another history from one that lacks lines.
"""

from __future__ import annotations

from collections.abc import Iterator, Sequence
from dataclasses import dataclass
from typing import NamedTuple
from zlib import crc32

from ...common.faults import Exit, Fault
from ..records import LINES, JournalBatch, grouped, record_at
from .etcd import Condition, Done, Put, EtcdRow
from .point import Position

MAX_BYTES = 512 * 1024  # of the lines of an entry; etcd takes requests of 1.5 MiB
COPY = "copy the state's folder of another replica, stopped meanwhile"


class Keys:
    def __init__(self, prefix: str) -> None:
        self.all = prefix.encode() + b"/"
        self.state, self.roster, self.leader, self.digest, self.snapshot = [
            self.all + name for name in (b"state", b"roster", b"leader", b"replies", b"snapshot")
        ]
        self.lines, self.kept, self.chunks = self.all + b"lines/", self.all + b"kept/", self.all + b"chunks/"
        self.restored, self.found = self.all + b"restored/", self.all + b"found/"

    def entry(self, offset: int) -> bytes:
        return self.lines + b"%016x" % offset

    def offset(self, key: bytes) -> int:
        return int(key[len(self.lines) :], 16)


class Restored(NamedTuple):
    """The state that all replicas began with."""

    digest: str  # of its text
    chunks: str  # their name


@dataclass(frozen=True)
class Agreed:
    """The beginning that all replicas have in common."""

    id: str
    roster: bytes  # that they began with; empty if they began with a state
    begin: Position
    restored: Restored | None = None

    def text(self) -> bytes:
        fields = [self.id, str(self.begin.lines), str(self.begin.size), f"{self.begin.chain:08x}"]
        return " ".join([*fields, *(self.restored or ())]).encode()

    @classmethod
    def read(cls, text: bytes, roster: bytes) -> Agreed:
        try:
            name, lines, size, chain, *restored = text.decode().split()
            begin = Position(int(lines), int(size), int(chain, 16))
            return cls(name, roster, begin, Restored(*restored) if restored else None)
        except (ValueError, TypeError) as error:
            raise Fault(Exit.JOURNAL, f"etcd has no state of firmd at this prefix, but {text[:60]!r}") from error


@dataclass(frozen=True)
class LogEntry:
    """Lines that a leader wrote together."""

    epoch: int
    size: int  # bytes of all lines before it
    chain: int  # and their CRC-32
    time: int
    batches: list[JournalBatch]

    def text(self, lines: int) -> bytes:
        """Return its value in etcd; `lines` is the number of lines before it."""
        parts = [b"%d %08x\n" % (self.epoch, self.chain)]
        for batch in self.batches:
            parts.append(batch.record(lines, 0, self.time))
            lines += batch.lines
        return b"".join(parts)

    @classmethod
    def read(cls, size: int, value: bytes) -> LogEntry:
        try:
            head, _, records = value.partition(b"\n")
            epoch, chain = head.split()
            time, batches = read_batches(records)
            return cls(int(epoch), size, int(chain, 16), time, batches)
        except ValueError as error:
            raise Fault(Exit.JOURNAL, f"the entry of byte {size:,} in etcd is damaged: {error}") from error

    @property
    def end(self) -> int:
        return self.size + sum(len(batch.text) for batch in self.batches)

    def left(self, own: Position) -> list[JournalBatch]:
        """Return the batches that a journal lacks. It must end in the entry, or at its beginning or end."""
        if own.size < self.size:
            raise Fault(
                Exit.JOURNAL, f"late: bytes {own.size:,} to {self.size:,} of the lines are no longer in etcd: {COPY}"
            )
        if own.size > self.end:
            raise another_history(f"its lines end at byte {self.end:,} in etcd, and at {own.size:,} here")
        found = list(cut_off(self.batches, own.size - self.size))
        before = b"".join(batch.text for batch in self.batches)[: own.size - self.size]
        if crc32(before, self.chain) != own.chain:
            raise another_history(f"the lines before byte {own.size:,} differ from those in etcd")
        return found


def another_history(why: str) -> Fault:
    text = f"another history: {why}. Was etcd or this state restored from a copy, or is the prefix another state's?"
    return Fault(Exit.JOURNAL, f"{text} To continue from the lines of the other replicas, {COPY}")


def read_batches(records: bytes) -> tuple[int, list[JournalBatch]]:
    """Return the time of records that were written together, and their batches."""
    batches: list[JournalBatch] = []
    place = time = 0
    while place < len(records):
        record = record_at(records, place)
        if record is None or record.kind != LINES:
            raise ValueError(f"no record of lines at byte {place}")
        text = records[record.end - int(record.fields[0]) : record.end]
        batches.append(JournalBatch(record.fields[4], text, text.count(b"\n")))
        place, time = record.end, int(record.fields[3])
    if not batches:
        raise ValueError("it has no lines")
    return time, batches


def cut_off(batches: Sequence[JournalBatch], size: int) -> Iterator[JournalBatch]:
    """Yield the batches without their first `size` bytes."""
    for batch in batches:
        if size >= len(batch.text):
            size -= len(batch.text)
            continue
        text = batch.text[size:]
        size = 0
        yield JournalBatch(batch.sender, text, text.count(b"\n"))


def parts_of(batches: Sequence[JournalBatch], most: int = MAX_BYTES) -> Iterator[list[JournalBatch]]:
    """Yield the batches in order, in groups that fit into one entry. A long batch is cut between its lines."""
    pieces = (piece for batch in batches for piece in pieces_of(batch, most))
    return grouped(pieces, most, lambda piece: len(piece.text))


def pieces_of(batch: JournalBatch, most: int) -> Iterator[JournalBatch]:
    if len(batch.text) <= most:
        yield batch
        return
    start = 0
    while start < len(batch.text):
        end = len(batch.text)
        if end - start > most:
            end = batch.text.rfind(b"\n", start, start + most) + 1 or batch.text.index(b"\n", start) + 1
        text = batch.text[start:end]
        yield JournalBatch(batch.sender, text, text.count(b"\n"))
        start = end


# The fence of an append.


@dataclass(frozen=True)
class Append:
    """An entry to put into etcd if the leader's key is still that of its epoch and the entry's key is free."""

    conditions: tuple[Condition, ...]
    put: Put

    @classmethod
    def of(cls, keys: Keys, entry: LogEntry, lines: int) -> Append:
        key = keys.entry(entry.size)
        conditions = (Condition(keys.leader, made=entry.epoch), Condition(key, made=0))
        return cls(conditions, Put(key, entry.text(lines)))

    def is_there(self, done: Done, found: EtcdRow | None) -> bool:
        """Return whether etcd has the entry, by the answer to its request and the row at its key.

        A refused request may follow one that was done and whose answer was lost. No later request can put the entry,
        since the leader's key never gets its epoch back, and nobody else writes its epoch.
        """
        return done.is_done or found is not None and found.value == self.put.value
