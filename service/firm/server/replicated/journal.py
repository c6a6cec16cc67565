"""The journal of several firmd: lines are in etcd before firm gets them, and each replica has them in its own files.

A follower is a firmd whose replay continues: `pieces` yields the lines on its disk, then those from etcd, until it
leads. The firmd that made the key `leader` appends, and only while that key is still the one it made.
"""

from __future__ import annotations

import os
import time
from collections.abc import Callable, Iterator, Sequence
from dataclasses import dataclass
from threading import Event
from zlib import crc32

from ...common import logs
from ...common.faults import Exit, Fault, Repeated, say
from ..journal import Journal, milliseconds
from ..records import Base, JournalBatch, Block
from ..replay import Piece, Place
from .digests import Digest, Digests
from .entries import Agreed, Append, LogEntry, Keys, another_history, parts_of
from .etcd import Condition, Denied, EtcdError, Full, Put, EtcdRow, Unsure, after
from .faults import Anew
from .housekeeper import Housekeeper, SyncedJournal as KeptJournal
from .lease import EtcdLease
from .point import Point, Position
from .renewal import is_late
from .shared import Shared
from .store import EtcdStore

PATIENCE = 10.0  # seconds of a leader's retries while no member answers
PAUSE = 0.05  # between two tries
SILENT_SECONDS = 3.0  # without a change, after which it turns to another member: the leader makes one each second
ENTRIES = 8  # to read at a time
FULL = (
    "etcd is full: replicas that run remove old lines; then `etcdctl defrag` each member, or raise its quota, and"
    " `etcdctl alarm disarm`"
)


@dataclass(frozen=True)
class EtcdLink:
    """A replica's access to etcd, with its name and keys there."""

    connect: Callable[[], EtcdStore]  # one for each thread
    keys: Keys
    name: str
    lease_seconds: int


def position_of(own: Journal, begin: Position = Position()) -> Position:
    """Return the end of a journal's own files, whose pieces begin at `begin`."""
    found = begin
    for piece in own.pieces():
        found = found.behind(piece.text)
    return found


class ReplicatedJournal:
    """A journal in etcd and in own files. One thread replays its pieces, then appends lines."""

    def __init__(self, own: Journal, link: EtcdLink, agreed: Agreed, begin: Point | None = None) -> None:
        begin = begin or Point()
        self._own, self._link, self._agreed = own, link, agreed
        self._store, self._keys = link.connect(), link.keys
        self._lease: EtcdLease | None = None
        self._epoch = 0  # the revision of the key `leader`, if this firmd made it; otherwise 0
        self._position = begin.position  # of its own files
        self._revision = 0  # of etcd, up to which changes are read
        self._is_stopping = Event()
        self._troubles = Repeated()
        self.digests = Digests(self._fail, begin.chain)
        kept = KeptJournal(lambda: own.found.size, own.sync, lambda: self._epoch)
        self.housekeeper = Housekeeper(link.connect(), link.keys, link.name, kept, self.digests)
        self.housekeeper.on_fault = self._fail
        self.shared = Shared(link.connect(), link.keys, lambda: self._epoch, self.housekeeper)
        self.on_fault: Callable[[Fault], None] = lambda fault: None  # called by any thread
        self.on_following: Callable[[], None] = lambda: None  # all entries that etcd had are read

    @property
    def base(self) -> Base:
        return self._own.base

    @property
    def is_following(self) -> bool:
        """Return whether lines come from etcd."""
        return self._revision > 0 and not self._epoch

    @property
    def writing_since(self) -> float | None:
        return self._own.writing_since

    # Follower.

    def pieces(self) -> Iterator[Piece]:
        """Yield the lines on the disk, then those from etcd, until this firmd leads and has all of them."""
        self.housekeeper.start()  # before a long replay, so that etcd keeps the lines after it
        for piece in self._own.pieces():
            self._position = self._position.behind(piece.text)
            yield piece
        while not self._is_stopping.is_set():
            try:
                yield from self._catch_up()
                if self._epoch:
                    say(f"leads from byte {self._position.size:,} of the lines on", logs.INFO)
                    return
                if not self._campaign():
                    yield from self._follow()
            except Denied as denied:
                raise Fault(Exit.STATE, f"etcd: {denied}") from denied
            except EtcdError as error:
                self._trouble(error)

    def stop(self) -> None:
        """End a follower's pieces; called by another thread."""
        self._is_stopping.set()
        self._store.end_watch()

    def _catch_up(self) -> Iterator[Piece]:
        """Yield all entries that etcd has now."""
        keys, size = self._keys, self._position.size
        known = self._store.range(keys.digest)
        before = self._store.range(keys.lines, keys.entry(size) + b"\0", limit=1, is_last_first=True)
        if before.found:
            yield from self._take(before.found[0])
        elif is_late(self._store, keys, self._agreed, size):
            raise Anew(f"the lines after byte {size:,} are no longer in etcd")
        else:
            self._require_begin()
        while True:
            rows = self._store.range(keys.entry(self._position.size), after(keys.lines), limit=ENTRIES)
            for row in rows.found:
                yield from self._take(row)
            if not rows.found:
                break
        for row in known.found:
            self.digests.compare(Digest.read(row.value))
        if not self._revision:
            self.on_following()
        self._revision = rows.revision

    def _require_begin(self) -> None:
        """Raise a fault unless this journal ends where the entries begin; etcd has no entry before its end."""
        begin, own = self._agreed.begin, self._position
        if own.size > begin.size or own.size == begin.size and own.chain != begin.chain:
            raise another_history(f"its lines end at byte {begin.size:,} in etcd, and at {own.size:,} here")
        if own.size < begin.size:
            LogEntry(0, begin.size, begin.chain, 0, []).left(own)

    def _take(self, row: EtcdRow) -> Iterator[Piece]:
        """Append an entry, or the missing rest of it, to the own files."""
        entry = LogEntry.read(self._keys.offset(row.key), row.value)
        batches = entry.left(self._position)
        if batches:
            text = b"".join([batch.text for batch in batches])
            place = self._own.append(batches, copied=entry.time)
            self._position = self._position.behind(text)
            yield Piece(text, text.count(b"\n"), place, None, frozenset())

    def _follow(self) -> Iterator[Piece]:
        """Yield entries as they come, until the leader's key is deleted."""
        keys = self._keys
        for changes in self._store.watch(keys.kept, after(keys.all), self._revision + 1, SILENT_SECONDS):
            for key, value in changes:
                if key == keys.leader and value is None:
                    return
                if value is not None and key.startswith(keys.lines):
                    # A late member that got a snapshot of another member's store reports old entries too.
                    if keys.offset(key) >= self._position.size:
                        yield from self._take(EtcdRow(key, value, 0))
                elif value is not None and key == keys.digest:
                    self.digests.compare(Digest.read(value))
            if self._is_stopping.is_set():
                return

    def _campaign(self) -> bool:
        """Try to become the leader. Return whether it succeeded."""
        leader = self._keys.leader
        if self._store.range(leader).found:
            return False
        lease = EtcdLease(self._link.connect(), self._link.lease_seconds, self._lose)
        try:
            done = self._store.transact([Condition(leader, made=0)], [Put(leader, self._mark(lease), lease.id)])
            made = done.revision if done.is_done else self._made(lease)
        except EtcdError:
            lease.end()
            raise
        if not made:
            lease.end()
            return False
        self._lease, self._epoch = lease, made
        return True

    def _mark(self, lease: EtcdLease) -> bytes:
        return f"{self._link.name} {lease.id:x}".encode()

    def _made(self, lease: EtcdLease) -> int:
        """Return the revision of the key if a request whose answer was lost has made it; otherwise 0."""
        return next(
            (row.made for row in self._store.range(self._keys.leader).found if row.value == self._mark(lease)), 0
        )

    def _trouble(self, error: EtcdError) -> None:
        """Report an error of etcd, and wait before the next try."""
        text = FULL if isinstance(error, Full) else str(error)
        if not self._is_stopping.is_set() and not is_idle(error):
            self._troubles.say(f"etcd does not serve this replica: {text}")
        self._is_stopping.wait(PAUSE)

    # Leader.

    def append(self, batches: Sequence[JournalBatch]) -> Place:
        """Append lines. Return once a majority of etcd's members have synced them and the own file has them."""
        now, first = milliseconds(), 0
        for part in parts_of(batches):
            self._commit(LogEntry(self._epoch, self._position.size, self._position.chain, now, part))
            place = self._own.append(part, copied=now)
            first = first or place.number
            self._position = Position(
                self._position.lines + sum([batch.lines for batch in part]),
                place.end,
                crc32(b"".join([batch.text for batch in part]), self._position.chain),
            )
        return Place(first, self._position.size)

    def _commit(self, entry: LogEntry) -> None:
        append = Append.of(self._keys, entry, self._position.lines)
        ends = time.monotonic() + PATIENCE
        while True:
            try:
                done = self._store.transact(append.conditions, [append.put])
                found = None if done.is_done else next(iter(self._store.range(append.put.key).found), None)
                break
            except Full as full:
                raise Fault(Exit.STATE, FULL) from full
            except Denied as denied:
                raise Fault(Exit.STATE, f"etcd: {denied}") from denied
            except EtcdError as error:
                if time.monotonic() > ends:
                    raise Fault(Exit.STATE, f"etcd does not answer: {error}") from error
                time.sleep(PAUSE)
        if not append.is_there(done, found):
            raise Fault(Exit.STATE, "another firmd leads by now: this one accepted no unanswered line")

    def keep(self, block: Block) -> None:
        self._own.keep(block)

    def keep_refused(self, numbers: list[int]) -> None:
        """End with a fault: replicas with more memory would reply otherwise, so this one must not reply."""
        raise Fault(Exit.FIRM, f"memory was refused to line {numbers[0]}: another replica answers what follows")

    def close(self) -> None:
        self.leave()
        self._own.close()

    def leave(self) -> None:
        """Stop leading, so that another replica can lead at once."""
        self._is_stopping.set()
        lease, self._lease = self._lease, None
        if lease is not None:
            lease.end()
        self.housekeeper.end()

    def give_way(self) -> None:
        """End this process, whose disk hangs, so that another replica leads. That one has all unanswered lines that are
        in etcd. Threads may wait for the disk, so this waits for none."""
        lease = self._lease
        try:
            if lease is not None:
                lease.end()
        finally:
            os._exit(Exit.STATE)

    def _lose(self) -> None:
        self._fail(Fault(Exit.STATE, "the lease was lost: another firmd may lead by now"))

    def _fail(self, fault: Fault) -> None:
        self.on_fault(fault)


def is_idle(error: EtcdError) -> bool:
    """Return whether the watch timed out, as it does while nobody leads."""
    return isinstance(error, Unsure) and isinstance(error.__cause__, TimeoutError)
