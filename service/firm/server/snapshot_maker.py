"""firm-snapshot: makes one snapshot. firmd starts it from time to time, at a low priority.

It continues from the previous snapshot, or from the service's beginning. It computes the books from firm's replies to
the lines after that, and the state with firm_state. Both must agree with each other and with the stored digests.
"""

from __future__ import annotations

import argparse
import sys
from collections.abc import Iterator, Sequence
from contextlib import contextmanager
from dataclasses import dataclass
from pathlib import Path

from ..common import logs
from ..common.books import Books
from ..common.child import end_with, give_way
from ..common.faults import Exit, Fault, say
from ..common.programs import NotBuilt
from ..common.version import add_version
from .firm_process import FirmProcess
from .firm_state import Opening, FirmStateError, fold, state_file
from .journal import milliseconds
from .journal_reader import found_now
from .records import Base
from .recovery import Found
from .replay import pieces_of
from .replicated.point import Point, has_point, opening_point, point_of
from .snapshots import Snapshot, last, opening_of, write
from .standby import Standby
from .state import REPLICA, StateFolder
from .stored_books import books_text, difference, opening_books, read_books

NICENESS = 5
OUT_OF_MEMORY_SCORE = 800  # of 1,000: it ends before the viewer, firmd and firm
SILENT_SECONDS = 600.0  # for a reply of firm, which runs at a low priority


@dataclass(frozen=True, slots=True)
class SnapshotBase:
    """The base of a snapshot: an earlier one, or the beginning of the service."""

    base: Base
    opening: Opening
    books: Books
    point: Point | None  # of a replica


def beginning(state: StateFolder, before: int) -> SnapshotBase:
    """Return the last usable snapshot before a segment."""
    is_replica = (state.folder / REPLICA).exists()
    found = last(state, before, has_point) if is_replica else last(state, before)
    if found is not None:
        books = read_books(found.state, found.books, found.base.lines)
        return SnapshotBase(found.base, opening_of(state, found), books, point_of(found) if is_replica else None)
    books = opening_books(state, state.read_opening())
    return SnapshotBase(state.base, state.opening, books, opening_point(state.renewed) if is_replica else None)


def cut_at(found: Found, segment: int) -> Found:
    """Return the part of the journal up to the end of a segment, with later records of its lines."""
    following = found.segments[segment - found.base.segment]
    kept = Found(found.base, state=found.state)
    kept.segments = found.segments[: segment - found.base.segment]
    kept.blocks = [block for block in found.blocks if block.end <= following.size]
    kept.refused = {number: time for number, time in found.refused.items() if number <= following.lines}
    kept.lines, kept.size, kept.chain = following.lines, following.size, following.chain
    kept.last_size = kept.segments[-1].path.stat().st_size
    return kept


@contextmanager
def standby_from(firm: Sequence[str], begun: SnapshotBase) -> Iterator[Standby]:
    standby = Standby(FirmProcess([*firm, *begun.opening.words()]), begun.base.lines, SILENT_SECONDS)
    try:
        yield standby
    finally:
        standby.drop()


def make(state: StateFolder, segment: int, firm: Sequence[str]) -> Snapshot:
    """Make the snapshot after a segment. All its lines must have replies."""
    state.read_opening()
    begun = beginning(state, segment)
    books, found = begun.books, cut_at(found_now(state.folder, begun.base), segment)
    with standby_from(firm, begun) as standby:
        for piece in pieces_of(found):
            replies = standby.take(piece)
            books.replied_all(piece.text.split(b"\n")[:-1], replies, None)
            if begun.point is not None:
                begun.point.add(piece.text, replies)
    text = fold(begun.opening, (piece.effective() for piece in pieces_of(found)))
    wrong = difference(books, text)
    if wrong is None:
        with state_file(text) as opening:
            wrong = None if fold(opening) == text else "firm_state writes the state that it reads otherwise"
    if wrong is not None:
        raise Fault(Exit.JOURNAL, f"{wrong}: firm and firm_state are not of one version, or their memory fails")
    beside = books_text(books, begun.point.kept() if begun.point is not None else None)
    base = Base(segment, found.lines, found.size, found.chain)
    return Snapshot(found.state, state.roster_sum, base, milliseconds(), beside, text)


def run(folder: Path, segment: int, firm: Sequence[str]) -> int:
    try:
        state = StateFolder(folder)
        write(state.snapshots_path, make(state, segment, firm))
    except Fault as fault:
        say(str(fault), logs.ERROR)
        return fault.status
    except NotBuilt as reason:
        say(str(reason), logs.ERROR)
        return Exit.WORDS
    except FirmStateError as error:
        say(f"firm_state: {str(error).removeprefix('firm_state: ')}", logs.ERROR)
        return Exit.FIRM
    except OSError as error:
        say(str(error), logs.ERROR)
        return Exit.STATE
    except (ValueError, MemoryError) as error:
        logs.tell(logs.ERROR, f"no snapshot was made: {error!r}", error)
        return Exit.INTERNAL
    return Exit.SERVED


def parser() -> argparse.ArgumentParser:
    found = argparse.ArgumentParser(prog="firm-snapshot", description="Make a snapshot; only firmd starts it.")
    add_version(found)
    found.add_argument("parent", type=int, metavar="PID", help="firmd's process")
    found.add_argument("log_format", metavar="FORM", help="form of messages on standard error")
    found.add_argument("state", type=Path, metavar="DIR", help="firmd's state folder")
    found.add_argument("segment", type=int, metavar="NUMBER", help="last segment of the journal to read")
    found.add_argument("firm", nargs=argparse.REMAINDER, metavar="FIRM ..", help="command line of firm")
    return found


def main() -> int:
    given = parser().parse_args()
    logs.begin("firm-snapshot", given.log_format)
    end_with(given.parent)
    give_way(NICENESS, OUT_OF_MEMORY_SCORE)
    return run(given.state, given.segment, given.firm)


if __name__ == "__main__":
    sys.exit(main())
