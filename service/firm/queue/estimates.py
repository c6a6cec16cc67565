"""Estimates of when tasks start: users take turns, and each one's slots go to what is heaviest with its wait.

A task is taken to last as long as the tasks of its job that are done lasted on average, at most its time limit; this
limit, if none is done. firm's costs, and what is submitted later, are left out.
"""

from __future__ import annotations

import asyncio
import heapq
import time
from collections import Counter
from collections.abc import Iterable, Iterator, Mapping
from dataclasses import dataclass, field
from math import inf

from .core import Core
from .fair_order import Claims
from .rows import Name, Submission, Task
from .states import TaskState, state_of

AT_ONCE = 500  # tasks in a turn of the loop
KEPT_SECONDS = 5.0  # for which estimates are shown again
NOBODY = -1  # has had a slot that is free now


class Estimates:
    def __init__(self, core: Core) -> None:
        self._core = core
        self._known: Mapping[Name, float] = {}
        self._made = -inf  # by the loop's clock
        self._turn = asyncio.Lock()

    async def starts(self) -> Mapping[Name, float]:
        """Return estimated starts by the Unix clock; a task without an estimate is left out."""
        loop = asyncio.get_running_loop()
        async with self._turn:
            if loop.time() - self._made > KEPT_SECONDS:
                self._known, self._made = await self._found(), loop.time()
            return self._known

    async def _found(self) -> dict[Name, float]:
        found, durations = dict[Name, float](), Durations()
        for submission in [*self._core.rows.submissions.values()]:
            durations.add(submission)
            await asyncio.sleep(0)
        waiting, used = await self._waiting(), [*self._used(durations)]
        slots, turns = Slots(used), SlotTurns(waiting, used, self._core.backlog.claims)
        while (task := turns.next(slots.former_user)) is not None:
            start = slots.take(task, durations.of(task))
            if start == inf:
                break
            found[task.name] = start
            if len(found) % AT_ONCE == 0:
                await asyncio.sleep(0)
        return found

    async def _waiting(self) -> list[Task]:
        """Return what waits for a slot, each user's in the order in which slots are taken."""
        rows, found = self._core.firm.rows, list[tuple[int, int, int, Task]]()
        rounds = rows.rounds if rows is not None else 0
        for place, task in enumerate([*self._core.rows.live_tasks()]):
            if state_of(self._core.facts(task)) in (TaskState.QUEUED, TaskState.WAITING):
                since = rounds if task.since is None else task.since
                found.append((since - task.submission.weight, task.submission.number, task.index, task))
            if place % AT_ONCE == 0:
                await asyncio.sleep(0)
        return [task for *_, task in sorted(found, key=lambda entry: entry[:3])]

    def _used(self, durations: Durations) -> Iterator[tuple[float, Task | None]]:
        """Return when each slot of firm's machines is free, with the task that has it."""
        rows, now = self._core.firm.rows, time.time()
        if rows is None:
            return
        for name, row in rows.tasks.items():
            if row.machine is not None:
                is_placeholder = name in self._core.placeholders.standing
                task = self._core.rows.task(Name.of_firm(name)) if not is_placeholder else None
                attempt = task.open_attempt if task is not None else None
                began = attempt.began if attempt is not None and attempt.began is not None else now
                yield max(now, began + durations.of(task)) if task is not None else inf, task
        for _ in range(rows.slots - rows.running):
            yield now, None


@dataclass
class Durations:
    """Durations of tasks that are done, by job."""

    sums: dict[str, tuple[int, float]] = field(default_factory=dict)

    def add(self, submission: Submission) -> None:
        count, total = self.sums.get(submission.job, (0, 0.0))
        for seconds in durations_of(submission.tasks.values()):
            count, total = count + 1, total + seconds
        if count:
            self.sums[submission.job] = count, total

    def of(self, task: Task) -> float:
        """Return the expected seconds of a task; infinite if unknown."""
        limit, known = task.submission.spec.time, self.sums.get(task.submission.job)
        mean = known[1] / known[0] if known is not None else inf
        return min(mean, inf if limit is None else limit)


def durations_of(tasks: Iterable[Task]) -> Iterator[float]:
    for task in tasks:
        if task.outcome == TaskState.DONE and task.attempt is not None and task.attempt.seconds is not None:
            yield task.attempt.seconds


class SlotTurns:
    """Whose task has the next slot: that of the user with the fewest slots for the user's share."""

    def __init__(self, waiting: Iterable[Task], used: Iterable[tuple[float, Task | None]], claims: Claims) -> None:
        self._claims = claims
        self._slots = Counter(task.submission.user for _, task in used if task is not None)
        self._waiting: dict[int, list[Task]] = {}  # by user, the first last
        for task in waiting:
            self._waiting.setdefault(task.submission.user, []).append(task)
        self._heap: list[tuple[float, int, int, int]] = []  # with outdated entries too
        for user, tasks in self._waiting.items():
            tasks.reverse()
            self._enter(user)

    def _enter(self, user: int) -> None:
        if tasks := self._waiting.get(user):
            first, slots = tasks[-1].submission.number, self._slots[user]
            heapq.heappush(self._heap, (slots / self._claims.share(user), first, user, slots))

    def next(self, former: int | None) -> Task | None:
        """Return the task that has the next slot, which a task of this user had, if any."""
        if former is not None:
            self._slots[former] -= 1
            self._enter(former)
        while self._heap:
            _, first, user, slots = heapq.heappop(self._heap)
            tasks = self._waiting[user]
            if tasks and (slots, first) == (self._slots[user], tasks[-1].submission.number):
                self._slots[user] += 1
                task = tasks.pop()
                self._enter(user)
                return task
        return None


class Slots:
    """Slots that are taken one after another."""

    def __init__(self, used: Iterable[tuple[float, Task | None]]) -> None:
        self._free: list[tuple[float, int]] = []  # a heap of the times at which they are, each with its former user
        self._ends: dict[int, list[float]] = {}  # times for tasks of an array of which some may be in firm at a time
        for end, task in used:
            heapq.heappush(self._free, (end, NOBODY if task is None else task.submission.user))
            if task is not None and task.submission.spec.at_once is not None:
                heapq.heappush(self._ends.setdefault(task.submission.number, []), end)

    @property
    def former_user(self) -> int | None:
        """The user whose task has the next slot until then, if any."""
        return None if not self._free or self._free[0][1] == NOBODY else self._free[0][1]

    def take(self, task: Task, seconds: float) -> float:
        """Return the start of a task on the next slot; infinite if unknown."""
        start, most = self._free[0][0] if self._free else inf, task.submission.spec.at_once
        if most is not None:
            ends = self._ends.setdefault(task.submission.number, [])
            start = max(start, heapq.heappop(ends)) if len(ends) >= most else start
            heapq.heappush(ends, start + seconds)
        if self._free and start < inf:
            heapq.heapreplace(self._free, (start + seconds, task.submission.user))
        return start
