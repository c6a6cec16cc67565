"""A replica's periodic work, each second: it syncs the disk, publishes its position, and tidies etcd."""

from __future__ import annotations

import secrets
import time
from collections.abc import Callable, Iterator
from contextlib import contextmanager
from dataclasses import dataclass, field
from threading import Event, Lock, Thread
from typing import NamedTuple

from ...common import logs
from ...common.faults import Exit, Fault, Repeated, say
from .digests import Digest, Digests
from .entries import Keys
from .etcd import Condition, EtcdError, Full, Put, after
from .offers import offer_of
from .options import RETAINED
from .store import EtcdStore

SECONDS = 1.0
# A live replica changes its key at least this often. A second one with the same name waits this long to detect that.
NAME_SECONDS = 5.0
AWAY_SECONDS = 86_400.0  # for which etcd keeps lines for an absent replica; past half of the quota:
AWAY_SECONDS_HALF_FULL = 60.0
QUIET_SECONDS = 10.0  # without an observed change of its key, since clocks of hosts may differ
COMPACT_SECONDS = 30.0
QUOTA_SECONDS = 10.0  # between a follower's checks of the quota; the leader checks each second
# Part of the quota, as a divisor, past which fewer lines stay. All services' keys count, and etcd needs 2 to 10 times
# the bytes of the lines. Its file has free pages too, and must not reach the quota.
USED_SHARE = 4


class DurablePosition(NamedTuple):
    """The end of the lines on a replica's disk."""

    token: str  # of its process
    size: int
    time: float

    def text(self) -> bytes:
        return f"{self.token} {self.size} {self.time:.6f}".encode()

    @classmethod
    def read(cls, text: bytes) -> DurablePosition:
        token, size, at = text.decode().split()
        return cls(token, int(size), float(at))


class ObservedKey(NamedTuple):
    """The value of a replica's key, and when this replica first observed it."""

    value: bytes
    at: float


@dataclass
class EtcdStatus:
    """etcd's use and the replicas' positions, for the operator."""

    etcd_bytes: int = 0
    quota_bytes: int = 0
    kept: dict[str, int] = field(default_factory=dict)  # bytes, by replica


@dataclass(frozen=True)
class SyncedJournal:
    """The housekeeper's part of the replicated journal; its thread calls these."""

    size: Callable[[], int]
    sync: Callable[[], None]
    epoch: Callable[[], int]  # 0 while it follows


class Housekeeper:
    """Syncs the disk and keeps etcd in order, in a thread."""

    def __init__(self, store: EtcdStore, keys: Keys, name: str, journal: SyncedJournal, digests: Digests) -> None:
        self._store, self._keys, self._journal, self._digests = store, keys, journal, digests
        self._key, self.name, self.token = keys.kept + name.encode(), name, secrets.token_hex(4)
        self.on_fault: Callable[[Fault], None] = lambda fault: None
        self.retained = RETAINED  # bytes of lines that stay in etcd for late replicas
        self._lock = Lock()
        self._floor: int | None = None  # position after which all lines stay for now
        self.quiet = QUIET_SECONDS
        self.told = EtcdStatus()
        self._observed: dict[str, ObservedKey] = {}
        self._last: bytes | None = None  # value of the own key
        self._began = self._checked = self._compacted = time.monotonic()
        self._put = 0.0
        self._cleared = b""  # entries before this key are removed
        self._digest: Digest | None = None
        self._has_name = False
        self._is_full = False  # etcd accepts no change of a key, so no replica updates its own
        self._warnings = Repeated()
        self._is_over = Event()
        self._thread = Thread(target=self._run, daemon=True)

    def start(self) -> None:
        self._thread.start()

    def end(self) -> None:
        self._is_over.set()
        if self._thread.is_alive():
            self._thread.join(SECONDS)

    def _run(self) -> None:
        self._check_quota()
        while not self._is_over.wait(SECONDS):
            try:
                self.keep()
            except EtcdError:  # an append meets it too, and reports it
                continue
            except Fault as fault:
                return self.on_fault(fault)
            except Exception as error:
                return self.on_fault(Fault(Exit.INTERNAL, f"keeping etcd in order failed: {error!r}"))

    @contextmanager
    def keeping(self, size: int) -> Iterator[None]:
        """Keep all lines after this position in etcd during the block, as far as etcd has them; for one thread."""
        with self._lock:
            self._floor = size
        try:
            yield
        finally:
            self._floor = None

    def keep(self) -> None:
        size = self._journal.size()
        self._journal.sync()
        try:
            self._publish_position(size)
            if self._journal.epoch():
                self._publish_digest()
            self._is_full = False
        except Full:
            self._is_full = True
        # Nobody can lead while etcd is full, so each replica removes the lines that all have.
        is_to_tidy = self._journal.epoch() > 0 or self._is_full
        if is_to_tidy or time.monotonic() - self._checked > QUOTA_SECONDS:
            self._check_quota()
        if is_to_tidy:
            with self._lock:
                self._tidy()

    def _publish_position(self, size: int) -> None:
        """Update the own key, often while this replica lives. A foreign change means a second replica of its name."""
        now = time.monotonic()
        if self._last is None:
            self._read_own()
        if not self._has_name and now - self._began < NAME_SECONDS:
            return
        is_old = now - self._put > NAME_SECONDS - 3 * SECONDS
        if not (is_old or self._journal.epoch() or self._last and DurablePosition.read(self._last).size != size):
            return
        value = DurablePosition(self.token, size, time.time()).text()
        there = Condition(self._key, value=self._last) if self._last else Condition(self._key, made=0)
        if not self._store.transact([there], [Put(self._key, value)]).is_done:
            self._read_own()
            if self._last and DurablePosition.read(self._last).token != self.token:
                raise Fault(Exit.STATE, f"another firmd that is alive has the name {self.name}: each needs its own")
            return  # an earlier request, whose answer was lost, was done
        self._last, self._put, self._has_name = value, now, True

    def _read_own(self) -> None:
        found = self._store.range(self._key).found
        self._last = found[0].value if found else b""

    def _publish_digest(self) -> None:
        latest = self._digests.latest()
        if latest is not None and latest != self._digest:
            leads = Condition(self._keys.leader, made=self._journal.epoch())
            self._store.transact([leads], [Put(self._keys.digest, latest.text())])
            self._digest = latest

    def _tidy(self) -> None:
        """Remove from etcd the lines that all replicas have, except the last ones: a replica that is late, begins from
        the snapshot or has a copied journal needs those."""
        kept = self._present()
        self.told.kept = {name: one.size for name, one in kept.items()}
        size = self._journal.size()
        least = min([size - self._room(size), *self.told.kept.values(), *self._beginnings()])
        # The entry that the slowest replica is in stays, and all after it: so etcd always shows the end of the lines.
        last = self._store.last_key(self._keys.lines, self._keys.entry(max(least, 0)) + b"\0")
        if last is not None and last > self._cleared:
            self._store.compact(self._store.delete(self._keys.lines, last))
            self._cleared, self._compacted = last, time.monotonic()
            if self._is_full:
                say(f"etcd is full: its lines before byte {self._keys.offset(last):,} were removed", logs.INFO)
        elif time.monotonic() - self._compacted > COMPACT_SECONDS:
            self._store.compact(self._store.range(self._key).revision)
            self._compacted = time.monotonic()

    def _room(self, size: int) -> int:
        """Return the bytes of the last lines that stay in etcd; past its share of the quota, a part of those it has."""
        if not self.is_filled:
            return self.retained
        first = self._store.range(self._keys.lines, after(self._keys.lines), limit=1).found
        held = size - self._keys.offset(first[0].key) if first else 0
        return min(self.retained, held * self.told.quota_bytes // (USED_SHARE * self.told.etcd_bytes))

    def _beginnings(self) -> Iterator[int]:
        """Yield the positions after which a replica may need all lines, as far as the quota allows."""
        if self._floor is not None:
            yield self._floor
        offer = offer_of(self._store, self._keys)
        if offer is not None and not self._is_half_full:
            yield offer.size

    @property
    def is_filled(self) -> bool:
        """Return whether etcd uses so much of its quota that fewer lines stay."""
        return self.told.etcd_bytes > self.told.quota_bytes // USED_SHARE

    @property
    def _is_half_full(self) -> bool:
        return self.told.etcd_bytes > self.told.quota_bytes / 2

    def _present(self) -> dict[str, DurablePosition]:
        """Return all replicas except those absent for too long."""
        patience = AWAY_SECONDS_HALF_FULL if self._is_half_full else AWAY_SECONDS
        rows = self._store.range(self._keys.kept, after(self._keys.kept)).found
        found = {row.key[len(self._keys.kept) :].decode(): DurablePosition.read(row.value) for row in rows}
        # While etcd is full no replica can change its key, so the last change counts as now.
        now = max((kept.time for kept in found.values()), default=0.0) if self._is_full else time.time()
        for row, (name, kept) in zip(rows, list(found.items())):
            if self._is_quiet(name, row.value) and now - kept.time > patience:
                say(f"the replica {name} has been absent for {patience:g} s: etcd no longer keeps lines for it")
                self._store.delete(row.key, row.key + b"\0")
                del found[name]
        return found

    def _is_quiet(self, name: str, value: bytes) -> bool:
        """Return whether a replica has stopped changing its key, as a live one does every few seconds."""
        now, observed = time.monotonic(), self._observed.get(name)
        if observed is None or observed.value != value:
            self._observed[name] = observed = ObservedKey(value, now)
        return now - observed.at >= self.quiet

    def _check_quota(self) -> None:
        self._checked = time.monotonic()
        try:
            used, quota = self._store.size()
        except EtcdError as error:
            why = f"cannot read etcd's use of its quota: {error}"
            return self._warnings.say(why, logs.INFO, kind="unknown")
        self.told.etcd_bytes, self.told.quota_bytes = used, quota
        if self._is_half_full:
            why = f"warning: etcd uses {used:,} of the {quota:,} bytes of its quota; at the end firmd can't append"
            self._warnings.say(why, kind="quota")
