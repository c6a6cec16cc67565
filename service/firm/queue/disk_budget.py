"""What each user's submissions take of the disk, against a budget that comes back evenly over a week."""

from __future__ import annotations

import time
from collections.abc import Callable, Mapping

from ..common.refused import Refused
from .rows import Spec

WEEK_SECONDS = 7 * 86_400.0
# Bytes of the database, with its indexes, beside the words.
SUBMISSION_BYTES, NEED_BYTES, TASK_BYTES, ATTEMPT_BYTES = 250, 30, 150, 350
USUAL_WORDS = 250  # of an attempt, which its bytes have room for: its output's path, and a fault
MOST_OUTPUT, MOST_FAULT, MOST_NAME = 16_384, 2_000, 16  # bytes of such a path and a fault; of a task's name in the path
HOLD_BYTES = 400  # of the database's log and of firmd's journal, for a task that is held or released
Kept = Mapping[int, tuple[float, float]]  # bytes, and when that was so by the Unix clock, by user


class Spending:
    def __init__(self, most: float, clock: Callable[[], float]) -> None:
        self.most, self._clock = most, clock
        self._spent: dict[int, tuple[float, float]] = {}  # bytes, and when that was so by the clock that nobody sets

    def load(self, kept: Kept) -> None:
        """Takes in what was written. A clock that was set back gives nothing back, one set ahead at most all."""
        now, clock = time.time(), self._clock()
        self._spent = {
            user: (self._left_of(spent, max(0.0, now - at)), clock) for user, (spent, at) in kept.items() if spent
        }

    def of(self, user: int) -> float:
        """Bytes that a user has spent and not got back."""
        spent, at = self._spent.get(user, (0.0, 0.0))
        return self._left_of(spent, self._clock() - at)

    def require(self, user: int, size: int) -> None:
        """Raises `Refused` where a user may not spend so much."""
        spent = self.of(user)
        if (over := spent + size - self.most) <= 0:
            return
        told = (
            f"your submissions of late take {spent:,.0f} bytes of the disk, {size:,} more would pass {self.most:,.0f}"
        )
        if size > self.most:
            raise Refused("budget", told)
        seconds = over * WEEK_SECONDS / self.most
        raise Refused("budget", f"{told}; there is room for them in {seconds / 3_600:,.1f} h", seconds=seconds)

    def spend(self, user: int, size: int) -> float:
        """Takes in that a user's rows grow; what is spent with that."""
        spent = self.of(user) + size
        self._spent[user] = spent, self._clock()
        return spent

    def _left_of(self, spent: float, seconds: float) -> float:
        return max(0.0, spent - seconds * self.most / WEEK_SECONDS)


def rows_bytes(words: int, needs: int, tasks: int) -> int:
    """What a submission takes, by the letters of its words."""
    return SUBMISSION_BYTES + words + NEED_BYTES * needs + TASK_BYTES * tasks


def attempts_bytes(spec: Spec, tasks: int) -> int:
    """What the attempts of tasks take besides, with an output's path and faults that are longer than usual."""
    pattern = spec.output or ""
    output = min(MOST_OUTPUT, len(pattern.encode()) + MOST_NAME * pattern.count("%"))
    fault = min(MOST_FAULT, max(output, *(len(name.encode()) for name in (spec.command[0], spec.dir))))
    return tasks * (max(0, output - USUAL_WORDS) + spec.retries * max(0, output + fault - USUAL_WORDS))
