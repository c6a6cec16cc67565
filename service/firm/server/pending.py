"""The batches that firm has not answered yet. The writer's thread adds them, and the loop's removes them."""

from __future__ import annotations

from collections import deque
from collections.abc import Sequence
from threading import Lock

from .tenant_queues import LineBatch


class PendingBatches:
    """Batches in the order in which firm got them. Set a batch's place and times before adding it."""

    def __init__(self) -> None:
        self._lock = Lock()
        self._batches: deque[LineBatch] = deque()

    def add(self, batches: Sequence[LineBatch]) -> None:
        with self._lock:
            self._batches.extend(batches)

    def first(self) -> LineBatch | None:
        with self._lock:
            return self._batches[0] if self._batches else None

    def drop_first(self) -> None:
        with self._lock:
            self._batches.popleft()

    def clear(self) -> None:
        with self._lock:
            self._batches.clear()
