"""The load of the service: numbers and ages of waiting lines, by tenant and socket."""

from __future__ import annotations

from bisect import bisect_left
from collections.abc import Sequence
from dataclasses import dataclass, field
from threading import Lock

# In seconds: a sync takes a fast disk 0.1 ms, a slow one some tens of milliseconds, a failing one seconds.
SYNC_SECONDS = (0.0001, 0.0002, 0.0005, 0.001, 0.002, 0.005, 0.01, 0.02, 0.05, 0.1, 0.2, 0.5, 1.0, 2.0, 5.0, 10.0)


class Histogram:
    """A histogram of times, for any thread."""

    def __init__(self, bounds: Sequence[float]) -> None:
        self._bounds, self._lock = bounds, Lock()
        self._counts = [0] * (len(bounds) + 1)
        self._seconds = 0.0

    def add(self, seconds: float) -> None:
        with self._lock:
            self._counts[bisect_left(self._bounds, seconds)] += 1
            self._seconds += seconds

    def read(self) -> tuple[list[int], float]:
        """Return the counts between the bounds, the last one above all bounds, and the sum of seconds."""
        with self._lock:
            return self._counts.copy(), self._seconds


@dataclass(slots=True)
class TenantLoad:
    tenant: str
    waiting_lines: int  # in its queue
    waiting_bytes: int
    lines_under_way: int  # that have left the queue and have no reply
    rounds_under_way: int
    journal_bytes_left: int  # of its budget


@dataclass(slots=True)
class SocketLoad:
    socket: str
    clients: int
    waits: int  # for its bytes a second
    journal_bytes_left: int


@dataclass(slots=True)
class OwnReply:
    """Count of one of firmd's own replies."""

    socket: str
    tenant: str  # empty if the line had none
    reply: str
    count: int


@dataclass(slots=True)
class Load:
    """The load at one moment."""

    oldest_line_seconds: float = 0.0  # since the oldest line without a reply was accepted
    firm_silent_seconds: float = 0.0  # without output of firm while replies are due
    sync_counts: list[int] = field(default_factory=lambda: [0] * (len(SYNC_SECONDS) + 1))  # as in a histogram
    sync_seconds: float = 0.0
    tenants: list[TenantLoad] = field(default_factory=list)
    sockets: list[SocketLoad] = field(default_factory=list)
    own_replies: list[OwnReply] = field(default_factory=list)
    tenant_waits: dict[str, int] = field(default_factory=dict)  # for their bytes a second
