"""The time by which what is kept gets old. A host may start with a clock that is far ahead, and lose all of it."""

from __future__ import annotations

import time
from collections.abc import Callable


def boot_time() -> float:
    """Return seconds by a clock that nobody sets, and that counts while the host sleeps."""
    return time.clock_gettime(time.CLOCK_BOOTTIME)


class SeenTime:
    """The Unix clock, but no more after the last change before this process than this process has seen pass."""

    def __init__(
        self,
        newest: float | None,
        wall: Callable[[], float] = time.time,
        steady: Callable[[], float] = boot_time,
    ) -> None:
        """The newest time is that of the last change, None if there was none."""
        self._newest, self._wall, self._steady = newest, wall, steady
        self._began = steady()

    def now(self) -> float:
        passed = self._steady() - self._began
        return self._wall() if self._newest is None else min(self._wall(), self._newest + passed)
