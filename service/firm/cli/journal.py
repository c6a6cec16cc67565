"""firmctl's commands on a journal: print its lines and snapshots, or rewrite it; see docs/OPERATING.md."""

from __future__ import annotations

import argparse
import shutil
import sys
import time
from pathlib import Path

from ..common.faults import Exit, Fault
from ..common.files import replace_synced, sync_folder
from ..common.lines import first_word
from ..common.logs import begin
from ..common.programs import NotBuilt
from ..common.tables import printable
from ..server.durable_offset import DurableOffset
from ..server.firm_state import StatePart, StateRefused, FirmStateError, fold
from ..server.journal import SEGMENT_BYTES, Journal, SegmentLimit
from ..server.journal_reader import StoredLines, first_base, found_now, stored_lines
from ..server.records import BEGINNING, JournalBatch
from ..server.recovery import Found, offset_path, reach_of
from ..server.replay import pieces_of
from ..server.snapshots import Snapshot, last, opening_of, remove_all, segments_of, usable
from ..server.state import NEW_JOURNAL, OLD_JOURNAL, ServiceState, StateFolder
from .command_line import Failure, Verb, Verbs

EXITS = """\
exit statuses:
  0  success
  2  the command line
  3  the state's roster can't be read, or firm_state refuses a state or a tenant
  4  the state can't be read or written, or firmd uses it
  5  a part of the state is missing or damaged
  6  firm_state can't be run, or ended without a state"""


def existing(path: Path) -> ServiceState:
    """Return a state that no firmd uses, locked until this process ends."""
    if not path.is_dir():
        raise Fault(Exit.STATE, f"there is no state {path}")
    return ServiceState(path)


def opened(path: Path) -> tuple[ServiceState, Journal]:
    """Return such a state and its journal, checked as at a start."""
    state = existing(path)
    state.read_opening()
    return state, Journal(state, SegmentLimit(SEGMENT_BYTES), first_base(path))


def print_lines(options: argparse.Namespace) -> None:
    """Print the lines for firm, as in a replay or as they were sent. On a terminal, escape control characters."""
    state = StateFolder(options.state)
    found = found_now(options.state, None if options.senders or state.renewed is None else state.base)
    is_shown = sys.stdout.isatty()
    for kept in stored_lines(found):
        if options.senders:
            text = described(kept, found.refused)
        else:
            held = enumerate(kept.lines, kept.number)
            text = [(first_word(line) or b"+") if number in found.refused else line for number, line in held]
        if is_shown:
            text = [printable(line.decode("ascii", "backslashreplace")).encode() for line in text]
        sys.stdout.buffer.write(b"".join([line + b"\n" for line in text]))


def clock(milliseconds: int) -> str:
    return time.strftime("%Y-%m-%dT%H:%M:%S", time.gmtime(milliseconds // 1_000)) + f".{milliseconds % 1_000:03}Z"


def described(kept: StoredLines, refused: dict[int, int]) -> list[bytes]:
    """Return the lines, each after its number, time and sender."""
    begins = b"%b %b" % (clock(kept.time).encode(), kept.sender)
    return [
        b"%d %b%b %b" % (number, begins, b" refused" if number in refused else b"", line)
        for number, line in enumerate(kept.lines, kept.number)
    ]


def make_offset(options: argparse.Namespace) -> None:
    """Rewrite a missing or damaged durable offset from the segments, which are checked as at a start."""
    state = existing(options.state)
    state.read_opening()
    path = offset_path(state.journal_path)
    try:
        is_whole = DurableOffset.read(path) is not None
    except Fault:
        is_whole = False
    if is_whole:
        raise Fault(Exit.WORDS, f"{path} is whole")
    before = path.read_bytes() if path.exists() else None
    replace_synced(path, reach_of(state.journal_path).text())
    try:
        journal = Journal(state, SegmentLimit(SEGMENT_BYTES), first_base(options.state))
    except Fault:
        if before is None:
            path.unlink()
        else:
            replace_synced(path, before)
        raise
    journal.close()
    print(
        f"{path}: it reaches to line {journal.found.lines:,}. If later lines may be lost, run `firmctl journal new-id`"
    )


def rewrite(options: argparse.Namespace) -> None:
    """Rewrite all segments without the digests of replies, and replace the old ones."""
    if options.extent:
        return make_offset(options)
    state, source = opened(options.state)
    if state.renewed is not None:
        raise Fault(Exit.STATE, f"{source.folder}: the replica began anew from a snapshot, and lacks the first lines")
    if source.found.base != BEGINNING:
        raise Fault(Exit.STATE, f"{source.folder}: the first lines are archived or deleted: put them back")
    draft, old = state.folder / NEW_JOURNAL, state.folder / OLD_JOURNAL
    if old.exists():
        raise Fault(Exit.STATE, f"{old} is there: move it away")
    shutil.rmtree(draft, ignore_errors=True)
    target = Journal(state, SegmentLimit(SEGMENT_BYTES), draft=draft)
    copy_all(source.found, target)
    source.close()
    target.close()
    remove_all(state.snapshots_path)  # they describe the former segments, maybe of another firm
    source.folder.rename(old)
    draft.rename(source.folder)
    sync_folder(state.folder)
    print(f"{source.folder}: {source.found.lines:,} lines are written anew; the old segments are in {old}")


def copy_all(found: Found, target: Journal) -> None:
    """Copy the lines and the refusals."""
    for kept in stored_lines(found):
        text = b"".join([line + b"\n" for line in kept.lines])
        target.append([JournalBatch(kept.sender, text, len(kept.lines))], kept.time)
    if (target.found.lines, target.found.size) != (found.lines, found.size):
        raise Fault(Exit.INTERNAL, f"{target.found.lines} of {found.lines} lines were copied")
    times: dict[int, list[int]] = {}
    for number, at in sorted(found.refused.items()):
        times.setdefault(at, []).append(number)
    for at, numbers in times.items():
        target.keep_refused(numbers, at)


def show_snapshots(options: argparse.Namespace) -> None:
    """Print each snapshot with its time and number of lines, or the reason why it is unusable."""
    state = StateFolder(options.state)
    state.read_opening()
    for segment, found in zip(segments_of(state.snapshots_path), usable(state)):
        if isinstance(found, Snapshot):
            print(f"{segment:08} {clock(found.time)} {found.base.lines} lines, {len(found.state)} bytes")
        else:
            print(f"{segment:08} is not used: {found}")


def write_state(options: argparse.Namespace) -> None:
    """Write the state after the last line. It starts from the last snapshot, and excludes a running firmd."""
    state = existing(options.state)
    state.read_opening()
    snapshot = last(state)
    base, opening = state.base, state.opening
    if snapshot is not None:
        base, opening = snapshot.base, opening_of(state, snapshot)
    lines = (piece.effective() for piece in pieces_of(found_now(options.state, base)))
    sys.stdout.buffer.write(fold(opening, lines, StatePart(options.merge, options.tenant)))


def renew_id(options: argparse.Namespace) -> None:
    state, journal = opened(options.state)
    before = state.id
    journal.renew()
    journal.close()
    print(f"{state.folder}: its id is {state.id} now, and was {before}: agents take its tasks for others")


def with_statuses(work: Verb) -> Verb:
    """Return a verb that exits with the status of a fault."""

    def run(options: argparse.Namespace) -> None:
        begin("firmctl")
        try:
            work(options)
            print(end="", flush=True)
        except Fault as fault:
            raise Failure(fault.status, str(fault)) from fault
        except (NotBuilt, FirmStateError) as error:
            raise Failure(Exit.ROSTER if isinstance(error, StateRefused) else Exit.FIRM, str(error)) from error
        except BrokenPipeError:  # of standard output
            raise
        except OSError as error:
            raise Failure(Exit.STATE, str(error)) from error

    return run


def add_journal(verbs: Verbs) -> None:
    explained = "print firmd's journal and its snapshots, or rewrite it; needs no service"
    raw = argparse.RawDescriptionHelpFormatter
    found = verbs.commands.add_parser(
        "journal", help=explained, description=explained, epilog=EXITS, formatter_class=raw
    )
    commands = found.add_subparsers(metavar="COMMAND", required=True)
    for name, run, explained in [
        ("print", print_lines, "lines as firm gets them in a replay; firmd may run"),
        ("snapshots", show_snapshots, "snapshots with their time and lines, or the reason why one is not used"),
        ("state", write_state, "the service's state after all lines, for firmd --restore; firmd must not run"),
        ("rewrite", rewrite, "rewrite a journal without the digests of replies, or a damaged extent"),
        ("new-id", renew_id, "give a restored copy its own id: agents end the runs of lines that it has lost"),
    ]:
        command = commands.add_parser(name, help=explained, description=explained)
        command.add_argument("state", type=Path, metavar="STATE", help="firmd's state folder")
        command.set_defaults(run=with_statuses(run))
        if name == "print":
            explained = (
                "print number, time and sender before each line: a socket and a user, or firmd for its own rounds"
            )
            command.add_argument("--senders", action="store_true", help=explained)
        if name == "state":
            explained = "add the tenants of these states"
            command.add_argument("--merge", type=Path, nargs="+", default=[], metavar="FILE", help=explained)
            explained = "keep only these tenants"
            command.add_argument("--tenant", nargs="+", default=[], metavar="NAME", help=explained)
        if name == "rewrite":
            what = command.add_mutually_exclusive_group(required=True)
            explained = "leave out the digests of replies, for a firm that replies otherwise"
            what.add_argument("--forget-replies", action="store_true", help=explained)
            explained = "rewrite a damaged or missing extent; a loss at the journal's very end goes unnoticed"
            what.add_argument("--extent", action="store_true", help=explained)
