"""Limits on the tasks of an array that are in firm at a time, as sbatch's %N."""

from __future__ import annotations

import heapq
from collections.abc import Iterator
from dataclasses import dataclass, field

from .fair_order import LONG_HEAP
from .rows import Submission, Task


@dataclass
class Limit:
    """An array with such a limit."""

    submission: Submission
    most: int
    admitted: set[int] = field(default_factory=set)  # indexes that are in firm, or may go there
    parked: set[int] = field(default_factory=set)  # that wait for one of these to leave
    order: list[int] = field(default_factory=list)  # a heap of the parked, and of some that are no more


class ArrayLimits:
    def __init__(self) -> None:
        self._limits: dict[int, Limit] = {}  # by submission
        self._changed: set[int] = set()

    def admit(self, task: Task) -> None:
        """Record that a task is in firm."""
        if task.submission.spec.at_once is not None:
            limit = self._limit(task)
            limit.admitted.add(task.index)
            limit.parked.discard(task.index)

    def admits(self, task: Task) -> bool:
        """Return whether a task may go into firm now; `next` has it later otherwise."""
        if task.submission.spec.at_once is None:
            return True
        if task.open_attempt is not None:
            self.admit(task)
        limit = self._limit(task)
        if task.index in limit.admitted:
            return True
        if task.index not in limit.parked:
            limit.parked.add(task.index)
            heapq.heappush(limit.order, task.index)
            if len(limit.order) > LONG_HEAP + 2 * len(limit.parked):  # of tasks held and released again and again
                limit.order = sorted(limit.parked)
            task.told = why_parked(limit.most)
        return False

    def leave(self, task: Task) -> None:
        """Record that a task is not to be in firm any more."""
        if task.submission.spec.at_once is not None:
            limit = self._limit(task)
            limit.admitted.discard(task.index)
            limit.parked.discard(task.index)

    def next(self) -> Iterator[Task]:
        """Admit further tasks of the arrays that changed, those with the lowest indexes first."""
        changed, self._changed = self._changed, set()
        for number in changed:
            limit = self._limits[number]
            while limit.parked and len(limit.admitted) < limit.most:
                index = heapq.heappop(limit.order)
                if index in limit.parked:
                    limit.parked.discard(index)
                    limit.admitted.add(index)
                    task = limit.submission.tasks[index]
                    task.told = ""
                    yield task
            if not limit.parked and not limit.admitted:
                del self._limits[number]

    def _limit(self, task: Task) -> Limit:
        submission = task.submission
        self._changed.add(submission.number)
        if submission.number not in self._limits:
            self._limits[submission.number] = Limit(submission, submission.spec.at_once or 1)
        return self._limits[submission.number]


def why_parked(most: int) -> str:
    return f"at most {most:,} of the array at a time"
