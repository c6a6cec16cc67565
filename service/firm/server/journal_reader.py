"""Reads a state's journal while its firmd runs: lines with their times and senders.

It checks as much as a start does, and uses no part of a damaged journal: if lines were missing, the others would get
wrong numbers.
"""

from __future__ import annotations

from collections.abc import Iterator
from contextlib import suppress
from dataclasses import dataclass
from pathlib import Path

from ..common.faults import Exit, Fault
from ..common.lines import first_word
from .records import BEGINNING, LINES, Base, record_at
from .recovery import Found, damaged, offset_path, find, numbers_of, read_header, segment_path
from .state import JOURNAL, StateFolder

TRIES = 4  # since firmd may begin a segment meanwhile


@dataclass(frozen=True, slots=True)
class StoredLines:
    """Lines of one sender that were written together."""

    number: int  # of the first, from 1
    time: int  # in milliseconds since 1970
    sender: bytes
    lines: list[bytes]  # without their LF


@dataclass(frozen=True, slots=True)
class TenantLine:
    """A line of the tenant or of the operator."""

    number: int
    time: int
    text: bytes  # only its first word if memory was refused to it: it counts, and changes nothing
    is_operators: bool


def found_now(folder: Path, base: Base | None = None) -> Found:
    """Return the journal's present lines after the base, checked as at a start. firmd may append others meanwhile.

    Without a base these are all lines, except archived or deleted ones.
    """
    if not (folder / JOURNAL).is_dir():
        raise Fault(Exit.STATE, f"{folder} is not a state of firmd, or was never served")
    tries = 0
    while True:
        before, tries = reached_now(folder), tries + 1
        try:
            state = StateFolder(folder)
            state.read_opening()
            return find(state, state.journal_path, first_base(folder) if base is None else base)
        except Fault:
            if tries == TRIES or reached_now(folder) == before:
                raise


def first_base(folder: Path) -> Base:
    """Return the base before the first existing segment, by its header."""
    journal = folder / JOURNAL
    first = min(numbers_of(journal), default=1)
    return Base.before(read_header(segment_path(journal, first))) if first > 1 else BEGINNING


def reached_now(folder: Path) -> tuple[bytes, list[str]]:
    """Return values that change with each write and each change of segments."""
    journal = folder / JOURNAL
    names = sorted(path.name for path in journal.glob("*.lines"))
    with suppress(FileNotFoundError):
        return offset_path(journal).read_bytes(), names
    return b"", names


def stored_lines(found: Found) -> Iterator[StoredLines]:
    """Yield all lines in order."""
    for segment in found.segments:
        data = segment.path.read_bytes()
        if segment is found.segments[-1]:
            data = data[: found.last_size]
        place = 0
        while place < len(data):
            record = record_at(data, place)
            if record is None:
                damaged(f"{segment.path}, at byte {place} of {len(data)}: it was changed meanwhile")
            place = record.end
            if record.kind == LINES:
                lines = data[place - int(record.fields[0]) : place].split(b"\n")[:-1]
                yield StoredLines(int(record.fields[1]), int(record.fields[3]), record.fields[4], lines)


def tenant_lines(found: Found, tenant: str) -> Iterator[TenantLine]:
    """Yield the lines of the tenant and of the operator."""
    name = tenant.encode()
    for kept in stored_lines(found):
        for number, line in enumerate(kept.lines, kept.number):
            word = first_word(line)
            if word == name or word == b"+":
                yield TenantLine(number, kept.time, word if number in found.refused else line, word == b"+")
