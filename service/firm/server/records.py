"""The journal's text: lines of firm, below headings that are comments to firm.

A segment is its header and then records. A heading takes a line; lines follow only the first kind of record:

    #firm-journal 2 SUM STATE NUMBER ROSTER LINES BYTES CHAIN TIME
    #lines SUM LENGTH NUMBER BACK TIME SENDER
    #replies SUM START END COUNT DIGEST
    #refused SUM TIME NUMBER,NUMBER..

SUM is the CRC-32 of the heading's other text and the lines below it. It detects damage, but no forger, who could write
a digest as well. It takes a nanosecond a byte. Lines are numbered from 1, and their bytes from 0, over all segments and
without headings, as firm reads them: so the size of segments doesn't change records. Times are milliseconds since 1970.
No line of a journal begins with `#`, since such a line gets no reply. Binary headings would save some 15 bytes of 55.
"""

from __future__ import annotations

import re
from collections.abc import Callable, Iterable, Iterator
from dataclasses import dataclass, field
from hashlib import blake2b
from pathlib import Path
from typing import NamedTuple, TypeVar
from zlib import crc32

from ..common.faults import RESTORE, Exit, Fault

VERSION = 2  # the first had only lines, and digests in other files
HEADER, LINES, REPLIES, REFUSED = b"firm-journal %d" % VERSION, b"lines", b"replies", b"refused"
HEADER_BEGINS = b"#firm-journal "
DIGEST_BYTES = 16
SECTOR_BYTES = 128  # within one sector of any disk, so that a power cut leaves the old text or the new
HEADING_BYTES = len(b"#lines 00000000 100 1000000 0 1000000000000 \n")  # without its sender
UNKNOWN = b"?"  # the sender of a line without an owner

Batch = TypeVar("Batch")

_HEADING = re.compile(rb"#(firm-[a-z]+ [0-9]+|lines|replies|refused) ([0-9a-f]{8}) ([^\n]*)\n")
_HEADINGS = re.compile(rb"\n#[^\n]*")


def sealed(kind: bytes, fields: bytes, lines: bytes = b"") -> bytes:
    """Return a heading with its checksum, and the lines below it."""
    rest = fields + b"\n"
    return b"#%b %08x %b%b" % (kind, crc32(lines, crc32(rest, crc32(kind))), rest, lines)


@dataclass(frozen=True, slots=True)
class Record:
    """A heading with the right checksum, and the lines below it."""

    kind: bytes
    place: int  # of the first byte in the segment
    end: int
    fields: list[bytes]

    @property
    def back(self) -> int:
        """Return the number of bytes before this record that were not synced when it was written."""
        return int(self.fields[2]) if self.kind == LINES else 0


def record_at(data: bytes, place: int) -> Record | None:
    """Return the record at this place; None unless it is complete and its checksum is right."""
    found = _HEADING.match(data, place)
    if found is None:
        return None
    kind, fields, end = found[1], found[3].split(b" "), found.end()
    if kind == LINES:
        if len(fields) != 5 or not fields[0].isdigit():
            return None
        end += int(fields[0])
    if end > len(data) or crc32(memoryview(data)[found.start(3) : end], crc32(kind)) != int(found[2], 16):
        return None
    return Record(kind, place, end, fields)


def is_synced_past(data: bytes, place: int) -> bool:
    """Return whether a later complete record shows that the bytes at this place were synced before it was written.

    A power cut may leave a write's later bytes without its earlier ones, but a write begins only once those before it
    are synced.
    """
    at = place
    while (at := data.find(b"\n#lines ", at) + 1) > 0:
        record = record_at(data, at)
        if record is not None and at - record.back > place:
            return True
    return False


def plain(data: bytes) -> bytes:
    """Return the lines of a segment or of records, without their headings."""
    return _HEADINGS.sub(b"", b"\n" + data)[1:]


def sector_text(kind: bytes, fields: bytes) -> bytes:
    """Return the text of a small file: one record of SECTOR_BYTES."""
    return sealed(kind, fields.ljust(SECTOR_BYTES - len(sealed(kind, b""))))


def sector_fields(path: Path, kind: bytes, writer: str) -> list[bytes] | None:
    """Return the fields of such a file, None without one. Raise `Fault` if it is damaged."""
    try:
        text = path.read_bytes()
    except FileNotFoundError:
        return None
    record = record_at(text, 0)
    if record is None or record.kind != kind or record.end != len(text):
        raise Fault(Exit.JOURNAL, f"{path}: this is not what {writer} wrote; {RESTORE}")
    return [*filter(None, record.fields)]


@dataclass(frozen=True, slots=True)
class Header:
    """The header of a segment: its state, and the base before it."""

    state: str  # the state's id
    number: int
    roster: int  # the checksum of the state's roster
    lines: int  # in all segments before
    size: int  # bytes of these lines
    chain: int  # the checksum of all segments before, with headings
    time: int

    @classmethod
    def read(cls, record: Record) -> Header:
        state, number, roster, lines, size, chain, time = record.fields
        return cls(state.decode(), int(number), int(roster, 16), int(lines), int(size), int(chain, 16), int(time))

    def text(self) -> bytes:
        fields = f"{self.state} {self.number} {self.roster:08x} {self.lines} {self.size} {self.chain:08x} {self.time}"
        return sealed(HEADER, fields.encode())


class Base(NamedTuple):
    """The lines before the first segment that is read, by number, bytes and checksum."""

    segment: int  # the number of the last one
    lines: int
    size: int  # bytes of these lines
    chain: int  # the checksum of these segments, with headings

    @classmethod
    def before(cls, header: Header) -> Base:
        """Return the base before a segment with this header."""
        return cls(header.number - 1, header.lines, header.size, header.chain)


BEGINNING = Base(0, 0, 0, 0)


@dataclass(frozen=True, slots=True)
class Block:
    """Answered lines, and the digest of their replies."""

    start: int  # in bytes of all lines
    end: int
    count: int
    replies: str

    @classmethod
    def read(cls, record: Record) -> Block:
        start, end, count, replies = record.fields
        return cls(int(start), int(end), int(count), replies.decode())

    def text(self) -> bytes:
        return sealed(REPLIES, f"{self.start} {self.end} {self.count} {self.replies}".encode())


@dataclass(slots=True)
class Answered:
    """Lines answered since the last block."""

    start: int
    end: int = 0
    count: int = 0
    replies: blake2b = field(default_factory=lambda: blake2b(digest_size=DIGEST_BYTES))

    def block(self) -> Block:
        return Block(self.start, self.end, self.count, self.replies.hexdigest())


class JournalBatch(NamedTuple):
    """Lines of one sender to be written together."""

    sender: bytes
    text: bytes
    lines: int

    @property
    def heading_bytes(self) -> int:
        """Return the bytes of its heading on the disk, for numbers of usual length."""
        return HEADING_BYTES + len(self.sender)

    def record(self, number: int, back: int, time: int) -> bytes:
        return sealed(LINES, b"%d %d %d %d %b" % (len(self.text), number, back, time, self.sender), self.text)


def refusals(numbers: list[int], time: int) -> bytes:
    """Return the record of lines that memory was refused to."""
    return sealed(REFUSED, b"%d %b" % (time, b",".join(b"%d" % number for number in numbers)))


def read_refusals(record: Record) -> dict[int, int]:
    """Return the numbers of the lines, each with the time."""
    time, numbers = record.fields
    return {int(number): int(time) for number in numbers.split(b",")}


def grouped(batches: Iterable[Batch], most: int, size_of: Callable[[Batch], int]) -> Iterator[list[Batch]]:
    """Yield batches in order, in groups of at most this size or of one batch."""
    group: list[Batch] = []
    size = 0
    for batch in batches:
        if group and size + size_of(batch) > most:
            yield group
            group, size = [], 0
        group.append(batch)
        size += size_of(batch)
    if group:
        yield group
