"""Keeps, archives or deletes segments of the journal that no start needs."""

from __future__ import annotations

import shutil
import time
from collections.abc import Callable
from dataclasses import dataclass, field
from pathlib import Path
from queue import Empty, SimpleQueue
from threading import Thread

from ..common.faults import Exit, Fault
from ..common.files import PRIVATE, make_folder, replace_synced, sync_folder
from .recovery import numbers_of, read_file, read_header, segment_path

DAY_SECONDS = 86_400
SET_SECONDS = 60.0  # a larger change means that somebody has set the clock
SETTLED_SECONDS = 3_600.0  # after which the new time counts
LATE_SECONDS = 60.0  # of a removal, after which firmd reports it


def boot_time() -> float:
    """Return the seconds since the host's start, by a clock that can't be set."""
    return time.clock_gettime(time.CLOCK_BOOTTIME)


class Clock:
    """The Unix time. A change of the host's clock counts after an hour."""

    def __init__(self, wall: Callable[[], float] = time.time, steady: Callable[[], float] = boot_time) -> None:
        self._wall, self._steady = wall, steady
        self._since = steady()
        self._offset = self._observed = wall() - self._since

    def now(self) -> float:
        steady = self._steady()
        offset = self._wall() - steady
        if abs(offset - self._observed) > SET_SECONDS:
            self._observed, self._since = offset, steady
        if steady - self._since >= SETTLED_SECONDS:
            self._offset = self._observed
        return steady + self._offset


@dataclass(frozen=True, slots=True)
class Keeping:
    """Retention of segments: for how long, and the archive that they move to, if any."""

    days: float | None = None  # None: all are kept
    archive: Path | None = None  # None: they are deleted
    clock: Clock = field(default_factory=Clock)


class Removal:
    """The removal of segments, in a separate thread, as the disk of the archive may hang."""

    def __init__(self, journal: Path, keeping: Keeping, needless: int) -> None:
        self._began, self._is_reported = time.monotonic(), False
        self._ended: SimpleQueue[int | BaseException] = SimpleQueue()
        Thread(target=self._run, args=(journal, keeping, needless), daemon=True).start()

    def is_late(self) -> bool:
        """Return whether it takes too long; true once."""
        is_late = not self._is_reported and time.monotonic() - self._began > LATE_SECONDS
        self._is_reported = self._is_reported or is_late
        return is_late

    def count(self) -> int | None:
        """Return the number of removed segments, or None while the thread runs. Raise its error."""
        try:
            ended = self._ended.get_nowait()
        except Empty:
            return None
        if isinstance(ended, BaseException):
            raise ended
        return ended

    def _run(self, journal: Path, keeping: Keeping, needless: int) -> None:
        try:
            self._ended.put(clear(journal, keeping, needless))
        except BaseException as error:
            self._ended.put(error)


def clear(journal: Path, keeping: Keeping, needless: int) -> int:
    """Remove the oldest segments whose lines are past their retention; return their number."""
    if keeping.days is None:
        return 0
    numbers, count = numbers_of(journal), 0
    ends = ends_of(journal, numbers, keeping.clock.now())
    oldest = max(ends.values(), default=0.0) - keeping.days * DAY_SECONDS
    for number in numbers:
        if number > needless or ends[number] > oldest:
            break
        remove_segment(segment_path(journal, number), keeping.archive)
        count += 1
    return count


def ends_of(journal: Path, numbers: list[int], now: float) -> dict[int, float]:
    """Return the Unix times at which all segments but the last ended: each before any later one began.

    So a clock that was ahead for a while keeps no segment for long.
    """
    found, end = dict[int, float](), now
    for number in reversed(numbers[1:]):
        end = min(end, read_header(segment_path(journal, number)).time / 1_000)
        found[number - 1] = end
    return found


def remove_segment(path: Path, archive: Path | None) -> None:
    """Delete a segment, once it is on the archive's disk, if any. Each removal is synced before the next, so no crash
    leaves a gap between two segments."""
    if archive is not None:
        make_folder(archive, 0o700)
        if archive.samefile(path.parent):
            raise Fault(Exit.STATE, f"the archive {archive} is the journal itself: {path.name} stays there")
        copy_into(archive, path)
    path.unlink()
    sync_folder(path.parent)


def copy_into(archive: Path, path: Path) -> None:
    copy, text = archive / path.name, read_file(path)
    if copy.exists() and copy.read_bytes() != text:
        raise Fault(Exit.STATE, f"{copy} exists and differs from {path}, which stays where it is")
    replace_synced(copy, text, PRIVATE)
    shutil.copystat(path, copy)
