"""A lease of etcd: the leader renews it, and stops leading if it can't."""

from __future__ import annotations

import time
from collections.abc import Callable
from contextlib import suppress
from threading import Event, Thread

from .etcd import EtcdError
from .store import EtcdStore

RENEWALS = 4  # in the time of a lease


class EtcdLease:
    """A lease that a thread renews until it ends or is lost."""

    def __init__(self, store: EtcdStore, seconds: int, lost: Callable[[], None]) -> None:
        self._store, self._seconds, self._lost = store, seconds, lost
        self._granted = time.monotonic()
        self.id = store.grant(seconds)
        self._is_over = Event()
        self._thread = Thread(target=self._keep, daemon=True)
        self._thread.start()

    def end(self) -> None:
        """Revoke the lease, so that nobody waits for its end."""
        self._is_over.set()
        self._thread.join(self._seconds)
        with suppress(EtcdError):
            self._store.revoke(self.id)

    def _keep(self) -> None:
        until = self._granted + self._seconds
        while not self._is_over.wait(self._seconds / RENEWALS):
            sent = time.monotonic()
            with suppress(EtcdError):
                until = sent + self._store.keep_alive(self.id)
            if time.monotonic() >= until and not self._is_over.is_set():
                self._lost()
                return
