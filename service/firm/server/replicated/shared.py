"""A leader's snapshots in etcd, for late replicas."""

from __future__ import annotations

import time
from collections.abc import Callable
from contextlib import AbstractContextManager
from threading import Lock
from typing import TypeVar

from ...common.faults import Exit, Fault
from .chunks import others_of, put_chunks
from .entries import Keys
from .etcd import Condition, EtcdError, Put, after
from .faults import NotLeading
from .housekeeper import Housekeeper
from .offers import Offer, offer_of, packed
from .renewed import Renewed
from .store import EtcdStore

Result = TypeVar("Result")

PATIENCE, PAUSE = 10.0, 0.05  # seconds of retries while no member answers, and between two


class Shared:
    """The leader's snapshots in etcd. Any thread may call it. Each change is fenced by the leader's epoch."""

    def __init__(self, store: EtcdStore, keys: Keys, epoch: Callable[[], int], housekeeper: Housekeeper) -> None:
        self._store, self._keys, self._epoch, self._housekeeper = store, keys, epoch, housekeeper
        self._lock = Lock()

    @property
    def leads(self) -> bool:
        return self._epoch() > 0

    def keeping(self, size: int) -> AbstractContextManager[None]:
        """Keep all lines after this position in etcd during the block, as far as etcd has them."""
        return self._housekeeper.keeping(size)

    def has_lines(self, size: int) -> bool:
        """Return whether etcd has all lines after this position."""
        with self._lock:
            first = self._patiently(lambda: self._store.range(self._keys.lines, after(self._keys.lines), limit=1)).found
        return not first or self._keys.offset(first[0].key) <= size

    def offer(self, renewed: Renewed, state: bytes) -> None:
        """Put a state for late replicas into etcd. If this raises, etcd may have it anyway."""
        if not self.has_lines(renewed.base.size):
            raise Fault(Exit.STATE, f"the lines after byte {renewed.base.size:,} are no longer in etcd")
        text = packed(renewed, state)
        offer = Offer.of(renewed, text)
        puts, gone = [Put(self._keys.snapshot, offer.text())], others_of(self._keys.chunks, offer.digest)
        with self._lock:
            if not self._patiently(lambda: put_chunks(self._store, self._keys.chunks, self._condition(), text)):
                raise NotLeading
            if not self._patiently(lambda: self._store.transact([self._condition()], puts, gone)).is_done:
                raise NotLeading

    def is_due(self, size: int) -> bool:
        """Return whether a snapshot at this position should replace the one in etcd, which keeps all lines after its
        snapshot."""
        with self._lock:
            offer = self._patiently(lambda: offer_of(self._store, self._keys))
        before = offer.size if offer is not None else 0
        return size > before and (size - before >= self._housekeeper.retained or self._housekeeper.is_filled)

    def _condition(self) -> Condition:
        return Condition(self._keys.leader, made=self._epoch())

    def _patiently(self, ask: Callable[[], Result]) -> Result:
        ends = time.monotonic() + PATIENCE
        while True:
            try:
                return ask()
            except EtcdError as error:
                if time.monotonic() > ends:
                    raise Fault(Exit.STATE, f"etcd does not answer: {error}") from error
                time.sleep(PAUSE)
