"""Makes snapshots while the service runs, and restarts firm from one before its input limit is reached.

A thread does this, and firm-snapshot makes the snapshots. The thread waits for each step except an archive. It reports
a failed step and retries it, and the service continues without.
"""

from __future__ import annotations

import os
import subprocess
import time
from collections.abc import Callable, Sequence
from dataclasses import dataclass
from pathlib import Path
from queue import SimpleQueue
from threading import Thread
from typing import TYPE_CHECKING, NamedTuple

from ..common.faults import Fault, Faults, say
from ..common.logs import INFO
from ..common.programs import program_words
from .archive import LATE_SECONDS, Keeping, Removal
from .firm_process import FirmProcess
from .firm_state import Opening
from .journal import Journal
from .journal_reader import found_now
from .records import Base
from .replay import pieces_of
from .replicated.point import has_point
from .replicated.renewed import Renewed
from .snapshots import KEPT, Snapshot, Unusable, keep_alone, of_journal, opening_of, usable
from .standby import Standby
from .stream import Stopping, Stream, Successor

if TYPE_CHECKING:
    from .replicated.shared import Shared

STEP_SECONDS = 0.2  # between two rounds of steps
WORK_SECONDS = 5.0  # of firm's processor time since a snapshot, after which the next is due: a start takes this long
SHORTEST_PAUSE, MAX_PAUSE = 1.0, 600.0  # before a failed step is retried
FULL_SHARE = 2  # part of firm's input limit, as a divisor, past which firm is restarted
PASSES, FEW_LINES = 40, 256  # to catch up, at most, before the writer waits for the standby; lines that may remain


@dataclass(frozen=True, slots=True)
class Settings:
    """Settings of snapshots."""

    lines: int  # after the last snapshot, at which the next is due
    seconds: float  # after which it is due too, if there were lines
    keeping: Keeping
    firm: Sequence[str]  # its command line
    firm_timeout: float
    log_format: str


class SnapshotWork(NamedTuple):
    process: int
    seconds: float  # of processor time, of all its threads


def work_of(process: int) -> SnapshotWork:
    """Return the processor time of a process, 0 once it has ended."""
    try:
        fields = Path(f"/proc/{process}/stat").read_text().rpartition(")")[2].split()
    except OSError:
        return SnapshotWork(process, 0.0)
    return SnapshotWork(process, (int(fields[11]) + int(fields[12])) / os.sysconf("SC_CLK_TCK"))


class Retry:
    """The time from which a failed step may be tried again."""

    def __init__(self) -> None:
        self._pause, self._at = SHORTEST_PAUSE, 0.0

    def may(self) -> bool:
        return time.monotonic() >= self._at

    def failed(self) -> None:
        self._at, self._pause = time.monotonic() + self._pause, min(2 * self._pause, MAX_PAUSE)

    def done(self) -> None:
        self._pause, self._at = SHORTEST_PAUSE, 0.0


class Snapshots:
    """Makes snapshots and restarts firm. `shared` has a leading replica's snapshots in etcd."""

    def __init__(
        self, stream: Stream, journal: Journal, settings: Settings, faults: Faults, shared: Shared | None = None
    ) -> None:
        self._stream, self._journal, self._settings, self._faults = stream, journal, settings, faults
        self._shared = shared
        self._state, self._status = journal.state, stream.status
        self._last = self._state.base  # of the last snapshot
        self._given = journal.found.base  # of the running firm
        self._made = time.monotonic()  # when the last one was made, or firmd began
        self._worked = SnapshotWork(0, 0.0)  # of firm, at the begin of the last snapshot
        self._sealed: int | None = None  # the last segment at the request of a seal
        self._is_to_clear = False  # after a new snapshot: older ones and their segments
        self._removal: Removal | None = None  # of segments, if under way
        self._is_to_offer = False  # whether to offer the last snapshot to other replicas, if due
        self._making, self._clearing, self._changing, self._offering = Retry(), Retry(), Retry(), Retry()

    def start(self, snapshot: Snapshot | None) -> None:
        """Begin after the replay from this snapshot."""
        if snapshot is not None:
            self._take(snapshot)
        try:
            Thread(target=self._run, daemon=True).start()
        except RuntimeError as error:
            self._faults.note("snapshot", error)

    def _run(self) -> None:
        steps = [(self._making, self._make_due), (self._clearing, self._clear), (self._changing, self._restart_due)]
        steps += [(self._offering, self._offer)]
        while not self._stream.is_stopping:
            for retry, step in steps:
                if retry.may():
                    self._try(retry, step)
            time.sleep(STEP_SECONDS)

    def _try(self, retry: Retry, step: Callable[[], None]) -> None:
        """Do a step that may fail in any way."""
        try:
            step()
        except Stopping:
            pass
        except (Fault, Unusable, OSError) as error:
            self._fail(retry, str(error))
        except Exception as error:
            self._fail(retry, error)

    def _fail(self, retry: Retry, error: str | Exception) -> None:
        """Report a failed step, and retry it later."""
        retry.failed()
        self._report(error)

    def _report(self, error: str | Exception) -> None:
        self._stream.call_in_loop(self._status.count, "snapshot_failures")
        if isinstance(error, str):
            self._stream.call_in_loop(self._faults.count, "snapshot", error)
        else:
            self._stream.call_in_loop(self._faults.note, "snapshot", error)

    # Snapshots

    def _make_due(self) -> None:
        """Make a snapshot if it is due, after a sealed segment."""
        sealed, status = self._journal.sealed(), self._status
        is_due = sealed.lines - self._last.lines >= self._settings.lines
        if not is_due and status.lines > self._last.lines:
            is_due = (self._is_late() or self._is_costly() or self._is_needed()) and self._is_sealed(sealed)
        if is_due and sealed.lines <= status.lines and sealed.segment > self._last.segment:
            self._make(sealed)
            self._sealed = None  # not before: a retry needs no further segment

    def _is_late(self) -> bool:
        return time.monotonic() - self._made >= self._settings.seconds

    def _is_costly(self) -> bool:
        """Return whether firm worked long on the lines since the last snapshot, as a start would."""
        work = work_of(self._status.firm_process)
        before = self._worked.seconds if self._worked.process == work.process else 0.0
        return work.seconds - before >= WORK_SECONDS

    def _is_needed(self) -> bool:
        """Return whether firm must be restarted, and the last snapshot leaves much to read."""
        return self._is_filling() and 2 * (self._last.size - self._given.size) < self._status.journal_bytes

    def _is_filling(self) -> bool:
        return self._status.journal_bytes > self._status.journal_limit // FULL_SHARE

    def _is_sealed(self, sealed: Base) -> bool:
        """Request a new segment. Return whether it has begun, or isn't needed."""
        if sealed.lines == self._journal.found.lines:
            return True
        requested = self._sealed  # the writer may reset it meanwhile
        if requested is None:
            self._sealed = sealed.segment
            self._stream.order(self._seal)
        return requested is not None and sealed.segment > requested

    def _seal(self) -> None:
        """Begin a segment, in the writer's thread."""
        try:
            self._journal.seal()
        except OSError as error:
            self._sealed = None
            self._fail(self._making, f"no segment is begun for a snapshot: {error}")

    def _make(self, sealed: Base) -> None:
        work = work_of(self._status.firm_process)
        words = [
            *program_words("firm-snapshot", "firm.server.snapshot_maker"),
            str(os.getpid()),
            self._settings.log_format,
        ]
        words += [str(self._state.folder), str(sealed.segment), *self._settings.firm]
        null = subprocess.DEVNULL
        # In a separate process group, like firm. The umask is set here, since firmd's differs while it makes a socket.
        status = subprocess.run(words, stdin=null, stdout=null, process_group=0, umask=0o077).returncode
        if status:
            raise Unusable(f"no snapshot was made: firm-snapshot ended with status {status}, after its message")
        self._take(of_journal(self._state, sealed.segment))
        self._stream.call_in_loop(self._status.count, "snapshots")
        self._making.done()
        self._made, self._worked = time.monotonic(), work

    def _take(self, snapshot: Snapshot) -> None:
        self._last, self._is_to_clear, self._is_to_offer = snapshot.base, True, True
        self._stream.call_in_loop(self._status.take_snapshot, snapshot.base.lines, snapshot.time / 1_000)

    def _clear(self) -> None:
        """Once enough snapshots are usable, remove older ones, and the segments that no snapshot needs."""
        if self._removal is not None:
            self._follow_removal(self._removal)
        elif self._is_to_clear:
            self._clear_now()
            self._is_to_clear = False

    def _clear_now(self) -> None:
        kept: list[int] = []
        for found in usable(self._state):
            if isinstance(found, Snapshot):
                kept.append(found.base.segment)
            if len(kept) == KEPT:
                break
        else:
            return
        keep_alone(self._state.snapshots_path, kept)
        if self._settings.keeping.days is not None:
            self._removal = Removal(self._journal.folder, self._settings.keeping, min(kept))
        else:
            self._clearing.done()

    def _follow_removal(self, removal: Removal) -> None:
        archive = self._settings.keeping.archive
        if removal.is_late():
            self._report(
                f"{archive or self._journal.folder} hangs: the removal of segments takes more than {LATE_SECONDS:g} s"
            )
        try:
            count = removal.count()
        except BaseException:
            self._removal, self._is_to_clear = None, True
            raise
        if count is not None:
            self._removal = None
            self._clearing.done()
        if count:
            say(f"{count} segments of the journal are {f'in {archive}' if archive else 'deleted'}", INFO)

    def _offer(self) -> None:
        """Offer the last snapshot to late replicas, if it leaves them much less to read."""
        if self._shared is None or not self._shared.leads or not self._is_to_offer:
            return
        if self._shared.is_due(self._last.size):
            snapshot = of_journal(self._state, self._last.segment)
            with self._shared.keeping(self._last.size):
                if has_point(snapshot) and self._shared.has_lines(self._last.size):
                    self._shared.offer(Renewed.of(snapshot.base, snapshot.state, snapshot.books), snapshot.state)
        self._is_to_offer = False
        self._offering.done()

    # Restarts of firm

    def _restart_due(self) -> None:
        """Restart firm if it has read much and the last snapshot leaves it little to read."""
        if not self._stream.is_replayed:  # a follower's replay has no end, and doesn't wait for a restart
            return
        if self._is_filling() and not self._is_needed() and self._last.segment > self._given.segment:
            self._change(of_journal(self._state, self._last.segment))
            self._changing.done()

    def _change(self, snapshot: Snapshot) -> None:
        base = snapshot.base
        try:
            self._change_over(opening_of(self._state, snapshot), base)
        except Fault as error:
            raise Unusable(f"cannot restart firm from the snapshot {base.segment:08}: {error}") from error
        say(f"restarted firm from the snapshot {base.segment:08}", INFO)

    def _change_over(self, opening: Opening, base: Base) -> None:
        """Replace the running firm by a standby that begins with this opening, after its base."""
        settings = self._settings
        firm = FirmProcess([*settings.firm, *opening.words()])
        standby = Standby(firm, base.lines, settings.firm_timeout)
        try:
            self._catch_up(standby, base)
            done: SimpleQueue[Exception | None] = SimpleQueue()
            self._stream.order(lambda: done.put(self._finish(standby, base)))
            error = done.get()
            if error is not None:
                raise error
        except BaseException:
            standby.drop()
            raise
        self._given = base
        self._stream.call_in_loop(self._status.count, "change_overs")

    def _catch_up(self, standby: Standby, base: Base) -> None:
        """Give the standby the lines with replies so far."""
        for is_last in (False, True):
            for _ in range(PASSES):
                answered, before = self._status.lines, standby.lines
                found = found_now(self._state.folder, base)
                pieces = list(pieces_of(found))
                compared = [piece.place.number + piece.count - 1 for piece in pieces if piece.block is not None]
                standby.take_until(pieces, answered if is_last else max(compared, default=0))
                if standby.lines == before or is_last and found.lines - standby.lines < FEW_LINES:
                    break

    def _finish(self, standby: Standby, base: Base) -> Exception | None:
        """Give the standby the rest, and replace the running firm by it; in the writer's thread."""

        def finish() -> Successor:
            found = found_now(self._state.folder, base)
            standby.take_until(pieces_of(found), found.lines)
            if standby.lines != self._journal.found.lines:
                raise Unusable(f"{standby.lines} of {self._journal.found.lines} lines reached the standby")
            return Successor(standby.settle(), base)

        try:
            self._stream.change_firm(finish)
        except Exception as error:
            return error
        return None
