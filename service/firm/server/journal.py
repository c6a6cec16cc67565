"""The journal: every line for firm, on the disk before firm gets it.

It is a folder of segments, NUMBER.lines, in the form that records.py describes, and their durable offset. After a
failed write or sync it accepts nothing more: the disk's contents are unknown then, and the offset could claim lines
that the disk lacks. A refusal of memory is a record after its line, so a start reads all segments for such records
before it passes lines to firm.
"""

from __future__ import annotations

import os
import secrets
import time
from collections.abc import Callable, Iterator, Sequence
from contextlib import suppress
from functools import partial
from pathlib import Path
from threading import Lock
from typing import NamedTuple, TypeVar
from zlib import crc32

from ..common.faults import Exit, Fault, reason
from ..common.fd_pressure import SHORTAGES, Spare
from ..common.files import require_room, sync_folder
from .durable_offset import DurableOffset, DurableOffsetFile
from .records import BEGINNING, Base, JournalBatch, Block, Header, refusals
from .recovery import Found, Segment, damaged, offset_path, find, segment_path
from .replay import Piece, Place, pieces_of
from .state import ID_BYTES, NEW_JOURNAL, OLD_JOURNAL, ServiceState

SHORTAGE_TRIES, SHORTAGE_SECONDS = 200, 0.05
SEGMENT_BYTES = 16 * 2**20  # of a segment, by default
SEAL_BYTES = 65_536  # of free space, to begin a segment early
Result = TypeVar("Result")


def milliseconds() -> int:
    return time.time_ns() // 1_000_000


def finish_rewrite(state: ServiceState) -> None:
    """Finish the rewrite of a journal that a crash interrupted."""
    new, old = state.folder / NEW_JOURNAL, state.folder / OLD_JOURNAL
    if state.journal_path.exists() or not new.exists() or not old.exists():
        return
    rewritten, former = find(state, new), find(state, old)
    if (rewritten.lines, rewritten.size) != (former.lines, former.size):
        damaged(f"{state.journal_path} is missing, and {new} lacks lines of {old}")
    new.rename(state.journal_path)


class Writing:
    """A context for writes to the disk. It records when a write began, and raises its failure at each later write,
    since the offset could claim lines that the disk lacks."""

    def __init__(self, fault_of: Callable[[OSError], Fault]) -> None:
        self._fault_of = fault_of
        self._trouble: Fault | None = None
        self.since: float | None = None

    def __enter__(self) -> None:
        if self._trouble is not None:
            raise self._trouble
        self.since = time.monotonic()

    def __exit__(self, kind: object, error: BaseException | None, trace: object) -> None:
        self.since = None
        if isinstance(error, OSError):
            self._trouble = self._fault_of(error)
            raise self._trouble from error
        if error is not None:
            self._trouble = Fault(Exit.INTERNAL, f"the journal failed before: {error!r}")


class SegmentLimit(NamedTuple):
    """The size and lines from which a segment is full."""

    size: int  # bytes on the disk
    lines: int | None = None


class Journal:
    """The segments in a state's folder, for one process at a time.

    One thread replays the lines found and then appends others; another may record refusals meanwhile. A draft is a
    folder in which the journal is written anew.
    """

    is_following = False  # all lines are this host's

    def __init__(
        self, state: ServiceState, room: SegmentLimit, base: Base = BEGINNING, draft: Path | None = None
    ) -> None:
        self.state, self.folder, self.room = state, draft or state.journal_path, room
        self.on_shortage: Callable[[], None] = lambda: None  # called without a free descriptor
        self._lock = Lock()
        self._writing = Writing(partial(self._fault, "write"))
        self._offset: DurableOffsetFile | None = None  # none before the first segment
        self._file = -1  # the last segment
        self._spare = Spare()  # for the next one
        self._size = self._synced = 0  # bytes of the last segment, and its synced ones
        try:
            finish_rewrite(state)
            # The lines after the base, and all that are appended.
            self.found = Found() if draft else find(state, self.folder, base)
            self.folder.mkdir(mode=0o700, exist_ok=True)
            sync_folder(self.folder.parent)
            self._folder = os.open(self.folder, os.O_RDONLY | os.O_DIRECTORY)
            self._open_last()
        except OSError as error:
            raise self._fault("open", error) from error

    @property
    def writing_since(self) -> float | None:
        """Return since when a write or sync of any thread is under way, if any."""
        return self._writing.since

    def sealed(self) -> Base:
        """Return the base before the last segment; everything before it is sealed."""
        last = self.found.segments[-1]
        return Base(last.number - 1, last.lines, last.size, last.chain)

    @property
    def base(self) -> Base:
        """Return the base before the lines that were found."""
        return self.found.base

    def pieces(self) -> Iterator[Piece]:
        """Yield all lines that were found, in order."""
        return pieces_of(self.found)

    # Opening

    def _open_last(self) -> None:
        """Open the last segment, or begin the first, and sync what a replay will read."""
        for path in self.folder.glob("*.lines"):
            if int(path.stem) > self.found.last:  # begun, and still empty
                path.unlink()
        if self.found.segments:
            self.state.keep_id(self.found.state)
            self._reopen(self.found.segments[-1])
        else:
            self._begin_segment()
        self.state.keep_id(self._id())

    def _reopen(self, last: Segment) -> None:
        self._file = os.open(last.path, os.O_RDWR | os.O_APPEND)
        if os.fstat(self._file).st_size > self.found.last_size:
            os.ftruncate(self._file, self.found.last_size)
        os.fsync(self._file)
        os.fsync(self._folder)
        self._size = self._synced = self.found.last_size
        self._offset = DurableOffsetFile(offset_path(self.folder))
        self._offset.keep(self._reached())
        self._offset.sync()

    def _id(self) -> str:
        """Return the state's id; draw one if it has none."""
        if self.state.id is None:
            self.state.id = self.state.id_to_take or secrets.token_hex(ID_BYTES)
        return self.state.id

    # Appending

    def append(self, batches: Sequence[JournalBatch], copied: int | None = None) -> Place:
        """Write whole lines, and wait until they are on the disk. If that fails, truncate the segment again.

        Copied lines keep their former time, and only `sync` and `close` sync them.
        """
        size = sum([len(batch.text) for batch in batches])
        with self._lock, self._writing:
            found = self.found
            if self._is_full(size) and self._has_lines():
                self._begin_segment()
            time = milliseconds() if copied is None else copied
            self._write(self._records(batches, time))
            if copied is None:
                self._sync()
            place = Place(found.lines + 1, found.size + size)
            found.lines += sum([batch.lines for batch in batches])
            found.size = place.end
            return place

    def keep(self, block: Block) -> None:
        """Record the digest of replies that a later replay must give, without a sync."""
        with self._lock, self._writing:
            self._write(block.text())

    def keep_refused(self, numbers: list[int], time: int | None = None) -> None:
        """Record on the disk that memory was refused to these lines, before their replies are sent."""
        with self._lock, self._writing:
            self._write(refusals(numbers, milliseconds() if time is None else time))
            self._sync()

    def sync(self) -> None:
        """Sync copied lines."""
        with self._lock, self._writing:
            if self._size > self._synced:
                self._sync()

    def seal(self) -> None:
        """Begin a segment if the last one has lines, so that nothing is added to those before it.

        Raise `OSError` without doing anything if that could use the last free space, which lines need.
        """
        with self._lock:
            if self._has_lines():
                require_room(self.folder, SEAL_BYTES)
                with self._writing:
                    self._begin_segment()

    def renew(self) -> None:
        """Give the state a new id, for a restored copy that lacks later lines."""
        with self._lock, self._writing:
            self.state.id = secrets.token_hex(ID_BYTES)
            self._begin_segment()
        self.state.keep_id(self.state.id)

    def close(self) -> None:
        """Sync all, and close the journal."""
        with self._lock, self._writing:
            if self._offset is not None:
                self._sync()
                self._offset.sync()
                self._offset.close()
                os.close(self._file)
            os.close(self._folder)

    def _is_full(self, size: int) -> bool:
        """Return whether the last segment has no room for lines of this size."""
        lines = self.found.lines - self.found.segments[-1].lines
        return self._size + size > self.room.size or self.room.lines is not None and lines >= self.room.lines

    def _has_lines(self) -> bool:
        """Return whether the last segment has lines."""
        return self.found.lines > self.found.segments[-1].lines

    def _records(self, batches: Sequence[JournalBatch], time: int) -> bytes:
        parts: list[bytes] = []
        number, back = self.found.lines + 1, self._size - self._synced
        for batch in batches:
            parts.append(batch.record(number, back, time))
            number, back = number + batch.lines, back + len(parts[-1])
        return b"".join(parts)

    def _begin_segment(self) -> None:
        """Begin the next segment, and update the durable offset before any line of it is answered."""
        found, number = self.found, self.found.last + 1
        path = segment_path(self.folder, number)
        header = Header(
            self._id(), number, self.state.roster_sum, found.lines, found.size, found.chain, milliseconds()
        ).text()
        if self._size > self._synced:
            self._sync()
        self._spare.give()
        file = self._patiently(partial(os.open, path, os.O_RDWR | os.O_APPEND | os.O_CREAT | os.O_EXCL, 0o600))
        if self._file >= 0:
            os.dup2(file, self._file, inheritable=False)
            self._spare.keep(file)  # not closed, since another thread could take its descriptor
        else:
            self._file = file
            self._spare.take()
        self._size = self._synced = 0
        before = found.chain
        self._write(header)
        os.fsync(self._file)
        os.fsync(self._folder)
        self._synced = self._size
        found.segments.append(Segment(number, path, found.lines, found.size, before))
        if self._offset is None:
            self._offset = self._patiently(partial(DurableOffsetFile.make, offset_path(self.folder), self._reached()))
        else:
            self._offset.keep(self._reached())
            self._offset.sync()

    def _write(self, text: bytes) -> None:
        """Append to the last segment. If that fails, truncate the segment again."""
        written = 0
        try:
            while written < len(text):
                written += os.write(self._file, text[written:])
        except BaseException:
            self._take_back(self._size)
            raise
        self._size += len(text)
        self.found.chain = crc32(text, self.found.chain)

    def _sync(self) -> None:
        """Sync all that is written, and update the durable offset."""
        try:
            os.fdatasync(self._file)
        except OSError:  # the disk may have it or not, and no reply was sent
            self._take_back(self._synced)
            raise
        self._synced = self._size
        if self._offset is not None:
            self._offset.keep(self._reached())

    def _take_back(self, size: int) -> None:
        with suppress(OSError):
            os.ftruncate(self._file, size)

    def _reached(self) -> DurableOffset:
        found = self.found
        return DurableOffset(self._id().encode(), found.last, self._synced, found.chain)

    def _patiently(self, work: Callable[[], Result]) -> Result:
        """Do some work. Without a free descriptor, retry while clients are closed."""
        for _ in range(SHORTAGE_TRIES):
            try:
                return work()
            except OSError as error:
                if error.errno not in SHORTAGES:
                    raise
                self.on_shortage()
            time.sleep(SHORTAGE_SECONDS)
        return work()

    def _fault(self, verb: str, error: OSError) -> Fault:
        return Fault(Exit.STATE, f"cannot {verb} the journal {error.filename or self.folder}: {reason(error)}")
