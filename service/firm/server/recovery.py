"""Reads and checks the journal at a start: all segments, before firm gets any of their lines.

The header of the next segment has a segment's checksum, and the durable offset has the last one's, so each segment is
checked as a whole. Its records are read one by one only to name the place of damage, and after the durable offset. So a
replay only pays for headings: if each of 300,000 lines has its own, 2.1 seconds of processor time instead of 1.5.

A crash differs from damage: every byte up to the durable offset is checked, and none may be missing. The first
incomplete record after it was torn by a crash, and is truncated: its lines had no replies yet. But if a complete record
of a later write follows, its lines had replies, since a write begins only when all before it is synced: that is damage.
A state with an id that lacks its roster, segments or durable offset has lost them; segments without a roster are a loss
too. The oldest segments may be missing if a snapshot covers them. A journal of another version is refused.
"""

from __future__ import annotations

import re
from dataclasses import dataclass, field
from pathlib import Path
from typing import NoReturn
from zlib import crc32

from ..common.faults import RESTORE, Exit, Fault, reason
from .durable_offset import DurableOffset
from .records import BEGINNING, HEADER, HEADER_BEGINS, LINES, REFUSED, REPLIES, VERSION, Base, Block, Header, Record
from .records import is_synced_past, plain, read_refusals, record_at
from .state import StateFolder

HEADER_BYTES = 512  # at most


@dataclass(frozen=True, slots=True)
class Segment:
    number: int
    path: Path
    lines: int  # in all segments before
    size: int  # bytes of these lines
    chain: int  # the checksum of all segments before, with headings


@dataclass(slots=True)
class Found:
    """The contents of the segments read so far."""

    base: Base = BEGINNING
    segments: list[Segment] = field(default_factory=list)
    blocks: list[Block] = field(default_factory=list)
    refused: dict[int, int] = field(default_factory=dict)  # numbers of lines whose memory was refused, with the time
    lines: int = 0
    size: int = 0  # bytes of the lines
    chain: int = 0  # the checksum of all segments, with headings
    last_size: int = 0  # bytes of the last segment, with headings
    state: str = ""  # the id of its state

    def __post_init__(self) -> None:
        _, self.lines, self.size, self.chain = self.base

    @property
    def last(self) -> int:
        """Return the number of the last segment."""
        return self.base.segment + len(self.segments)

    def add(self, segment: Segment, data: bytes, lines: int, size: int) -> None:
        self.segments.append(segment)
        self.lines += lines
        self.size += size
        self.chain = crc32(data, self.chain)
        self.last_size = len(data)


def segment_path(folder: Path, number: int) -> Path:
    return folder / f"{number:08}.lines"


def offset_path(folder: Path) -> Path:
    return folder / "extent"


def damaged(text: str) -> NoReturn:
    raise Fault(Exit.JOURNAL, f"{text}; {RESTORE}")


def another_version(path: Path, version: int) -> Fault:
    whose = "an older" if version < VERSION else "a later"
    cure = "serve it by that firmd, or begin a new state with what its `journal state` writes: firmd --restore"
    return Fault(Exit.JOURNAL, f"{path}: it is of version {version}, of {whose} firmd: {cure}")


def read_file(path: Path) -> bytes:
    try:
        return path.read_bytes()
    except OSError as error:
        raise Fault(Exit.STATE, f"cannot open the journal {path}: {reason(error)}") from error


def find(state: StateFolder, folder: Path, base: Base = BEGINNING) -> Found:
    """Read and check the segments of a folder after the base. Segments before it may be missing, the oldest first. An
    empty last segment doesn't count."""
    offset = DurableOffset.read(offset_path(folder))
    numbers = numbers_of(folder)
    if offset is None:
        return find_none(state, folder, numbers, base)
    last = offset.segment
    if numbers[-1:] == [last + 1] and is_newborn(segment_path(folder, last + 1)):
        numbers.pop()
    have = numbers[-1] if numbers else 0
    if have != last or base.segment >= last or numbers[0] > base.segment + 1:
        what = "segments were added" if have > last else "segments are missing"
        begins = f"{numbers[0]} to {have}" if numbers else "none"
        damaged(f"{folder}: {what}: {begins} are there, and {base.segment + 1} to {last} were written")
    headers = {number: read_header(segment_path(folder, number)) for number in range(base.segment + 1, last + 1)}
    found = Found(base, state=offset.state.decode())
    for number in headers:
        take_segment(found, segment_path(folder, number), offset, headers.get(number + 1))
    if headers[last].roster != state.roster_sum:
        what = "the roster that the state began with" if state.renewed is None else "what the state goes on from"
        damaged(f"{state.opening.path}: this is not {what}")
    if headers[last].state != found.state:
        damaged(f"{offset_path(folder)}: it is that of the state {found.state}, not {headers[last].state}")
    if state.id is None and found.lines:  # a journal without lines may have none yet: the id is written last
        damaged(f"{state.id_path} is missing, which was {found.state}")
    if state.id not in (None, found.state) and not is_being_renewed(state.id, folder, headers[last], found):
        damaged(f"{state.id_path}: it is {state.id}, and the journal that of {found.state}")
    return found


def find_none(state: StateFolder, folder: Path, numbers: list[int], base: Base) -> Found:
    """Return an empty journal. Without a durable offset nothing was written yet; otherwise raise its loss."""
    if numbers and is_newborn(segment_path(folder, numbers[-1])):
        numbers.pop()
    if base != BEGINNING or numbers or state.id is not None:
        there = f"segments {numbers[0]} to {numbers[-1]} are there" if numbers else "no segments are there"
        damaged(f"{offset_path(folder)} is missing, which says how far the segments reach: {there}")
    return Found()


def is_being_renewed(name: str | None, folder: Path, last: Header, found: Found) -> bool:
    """Return whether the state was getting a new id, which is written after a segment that begins with it."""
    former = segment_path(folder, last.number - 1)
    is_begun = last.lines == found.lines and former.exists()
    return is_begun and read_header(former).state == name


def is_newborn(path: Path) -> bool:
    """Return whether a segment was begun and has no record yet, so that nothing in it had a reply. Its header may be
    incomplete."""
    data = read_file(path)
    return data[:1] in (b"", b"#", b"\0") and len(data) <= HEADER_BYTES and b"\n" not in data[:-1]


def numbers_of(folder: Path) -> list[int]:
    """Return the numbers of the segments. Raise a fault if one between two others is missing."""
    paths = sorted(folder.glob("*.lines"))
    for path in paths:
        if not re.fullmatch(r"[0-9]+", path.stem) or path != segment_path(folder, int(path.stem)):
            raise Fault(Exit.JOURNAL, f"{path} is not a segment of the journal, by its name; move it away")
    found = sorted(int(path.stem) for path in paths)
    if found and found != list(range(found[0], found[-1] + 1)):
        damaged(f"{folder}: segments are missing: those there are {found}")
    return found


def read_header(path: Path) -> Header:
    try:
        with open(path, "rb") as file:
            return header_of(path, file.read(HEADER_BYTES))
    except OSError as error:
        raise Fault(Exit.STATE, f"cannot open the journal {path}: {reason(error)}") from error


def header_of(path: Path, data: bytes) -> Header:
    record = record_at(data, 0)
    if record is not None and record.kind == HEADER:
        return Header.read(record)
    if record is not None and record.kind.startswith(HEADER_BEGINS[1:]):
        raise another_version(path, int(record.kind.split()[1]))
    damaged(f"{path}: its first bytes are not what firmd wrote")


def whole_records(data: bytes, place: int, number: int) -> tuple[int, int]:
    """Return the end of the complete records from a place on, and the number of the next line."""
    while place < len(data):
        record = record_at(data, place)
        if record is None or record.kind not in (LINES, REPLIES, REFUSED):
            break
        if record.kind == LINES:
            if int(record.fields[1]) != number:
                break
            number += data.count(b"\n", record.end - int(record.fields[0]), record.end)
        place = record.end
    return place, number


def name_damage(path: Path, data: bytes, lines: int) -> NoReturn:
    """Raise a fault that names the first damage of a segment."""
    place, _ = whole_records(data, len(header_of(path, data).text()), lines + 1)
    where = f"at byte {place} of {len(data)}" if place < len(data) else "though each of its records is whole"
    damaged(f"{path}, {where}: these are not the bytes that were written")


def end_of(path: Path, data: bytes, found: Found, offset: DurableOffset) -> int:
    """Return the end of the last segment's records, before a torn one after the durable offset, which had no reply."""
    if offset.size > len(data):
        damaged(f"{path}: {len(data)} bytes, and {offset.size} were answered")
    if crc32(memoryview(data)[: offset.size], found.chain) != offset.chain:
        name_damage(path, data, found.lines)
    before = data[: offset.size]
    number = found.lines + before.count(b"\n") - before.count(b"\n#")
    end, _ = whole_records(data, offset.size, number)
    if end < len(data) and is_synced_past(data, end):
        damaged(f"{path}, at byte {end} of {len(data)}: these are not the bytes that were written, and others follow")
    return end


def reach_of(folder: Path) -> DurableOffset:
    """Return a durable offset for the existing segments, to replace a lost one."""
    numbers = numbers_of(folder)
    if numbers and is_newborn(segment_path(folder, numbers[-1])):
        numbers.pop()
    if not numbers:
        damaged(f"{folder} has no segment")
    path = segment_path(folder, numbers[-1])
    data, header = read_file(path), read_header(path)
    end, _ = whole_records(data, len(header.text()), header.lines + 1)
    if is_synced_past(data, end):
        name_damage(path, data, header.lines)
    return DurableOffset(header.state.encode(), header.number, end, crc32(data[:end], header.chain))


def take_segment(found: Found, path: Path, offset: DurableOffset, following: Header | None) -> None:
    """Check a segment by its checksum in the next header or the durable offset, and add it."""
    data = read_file(path)
    header = header_of(path, data)
    here = (found.last + 1, found.lines, found.size, found.chain)
    if (header.number, header.lines, header.size, header.chain) != here:
        damaged(f"{path}: what stands before it is not what it was written behind")
    if following is None:
        data = data[: end_of(path, data, found, offset)]
    elif crc32(data, found.chain) != following.chain:
        name_damage(path, data, found.lines)
    lines = data.count(b"\n") - data.count(b"\n#") - 1
    size = following.size - found.size if following is not None else len(plain(data))
    for record in marks_of(data):
        if record.kind == REPLIES:
            found.blocks.append(Block.read(record))
        else:
            found.refused |= read_refusals(record)
    found.add(Segment(header.number, path, found.lines, found.size, found.chain), data, lines, size)


def marks_of(data: bytes) -> list[Record]:
    """Return the records of replies and refusals."""
    found = []
    for begins in (b"\n#%b " % REPLIES, b"\n#%b " % REFUSED):
        at = 0
        while (at := data.find(begins, at) + 1) > 0:
            record = record_at(data, at)
            if record is not None:
                found.append(record)
    return found
