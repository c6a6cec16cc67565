"""Until when an agent's runs may go on without a word of the queue, by CLOCK_BOOTTIME: no one sets that clock, and it
goes on while the host sleeps."""

from __future__ import annotations

import time


def clock() -> float:
    return time.clock_gettime(time.CLOCK_BOOTTIME)


class Lease:
    def __init__(self) -> None:
        self.until = 0.0

    @property
    def holds(self) -> bool:
        return clock() < self.until

    def extend(self, asked: float, seconds: float) -> None:
        """Extend the lease by what the queue granted: seconds from the time of the request."""
        self.until = max(self.until, asked + seconds)
