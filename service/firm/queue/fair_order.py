"""The order in which tasks go into firm: users take turns, and each user's own tasks go by weight and age.

The next turn is that of the user with the fewest tasks in firm for the user's share, those that run and those that wait
there. So a share is one of the present: it counts among those who have work now, whatever anybody ran before.
"""

from __future__ import annotations

import heapq
import time
from collections import Counter
from collections.abc import Callable, Iterator, Mapping
from types import MappingProxyType

from .rows import Name, Task

LONG_HEAP = 1_000  # entries of a user's tasks, beside twice their number
DEFAULT_SHARE = 1.0
# Pause until a user's task goes ahead again, for each row that left firm for the last one: each row takes two lines of
# the tenant's journal, which a user who submits and cancels again and again would fill otherwise.
AHEAD_SECONDS = 0.1
NO_SHARES: Mapping[int, float] = MappingProxyType({})

# Round in which the task became ready minus its job's weight, number, index. The order never changes, since each round
# makes all waiting tasks dearer alike; the oldest of equal tasks comes first.
Order = tuple[int, int, int]


def order_of(task: Task) -> Order:
    return (task.since or 0) - task.submission.weight, task.submission.number, task.index


def name_in(order: Order) -> Name:
    return Name(order[1], order[2])


class UserTasks:
    """A user's tasks that are to go into firm, in order."""

    def __init__(self) -> None:
        self._heap: list[Order] = []
        self._orders: dict[tuple[int, int], Order] = {}  # of its members, by number and index

    def __len__(self) -> int:
        return len(self._orders)

    def __contains__(self, task: Task) -> bool:
        return (task.submission.number, task.index) in self._orders

    def put(self, task: Task) -> None:
        if task not in self:
            order = order_of(task)
            self._orders[order[1:]] = order
            heapq.heappush(self._heap, order)

    def drop(self, task: Task) -> None:
        """Its entry stays until it comes first, or until such entries are most of a long heap: tasks that are held and
        released behind a first one would add entries without end."""
        self._orders.pop((task.submission.number, task.index), None)
        if len(self._heap) > LONG_HEAP + 2 * len(self._orders):
            self._heap = list(self._orders.values())
            heapq.heapify(self._heap)

    def first(self) -> Order | None:
        while self._heap and self._orders.get(self._heap[0][1:]) != self._heap[0]:
            heapq.heappop(self._heap)
        return self._heap[0] if self._heap else None

    def take(self) -> Order | None:
        """Remove the first task and return its order."""
        order = self.first()
        if order is not None:
            heapq.heappop(self._heap)
            del self._orders[order[1:]]
        return order


class Claims:
    """Tasks that users have in firm, or that have a process, for the users' shares."""

    def __init__(self, shares: Mapping[int, float] = NO_SHARES, clock: Callable[[], float] = time.monotonic) -> None:
        self._shares, self._clock = shares, clock
        self._users: dict[tuple[int, int], int] = {}  # by a task's number and index
        self._ahead: dict[int, float] = {}  # by user, from when a task may go ahead of others
        self.counts: Counter[int] = Counter()  # by user

    def share(self, user: int) -> float:
        return self._shares.get(user, DEFAULT_SHARE)

    def of(self, user: int, more: int = 0) -> float:
        """Return a user's claim, with this many more tasks. The least has the next turn. Whoever has no task there
        comes before all who have some, so every share, however small, has turns."""
        return (self.counts[user] + more) / self.share(user)

    def may_go_ahead(self, user: int) -> bool:
        """Return whether rows of others may leave firm for a user's task."""
        return self._ahead.get(user, 0.0) <= self._clock()

    def go_ahead(self, user: int, rows: int) -> None:
        """Record that this many rows leave firm for a user's task."""
        now = self._clock()
        self._ahead = {other: begins for other, begins in self._ahead.items() if begins > now}
        self._ahead[user] = now + AHEAD_SECONDS * rows

    def note(self, task: Task, is_there: bool) -> None:
        """Record whether a task is in firm, or has a process."""
        if not is_there:
            self.forget(task.name)
        elif (task.submission.number, task.index) not in self._users:
            self._users[task.submission.number, task.index] = task.submission.user
            self.counts[task.submission.user] += 1

    def forget(self, name: Name) -> None:
        """Record that a task is gone."""
        user = self._users.pop((name.number, name.index), None)
        if user is not None:
            self.counts[user] -= 1
            if not self.counts[user]:
                del self.counts[user]


class Backlog:
    """All tasks that are to go into firm."""

    def __init__(self, shares: Mapping[int, float] = NO_SHARES) -> None:
        self.claims = Claims(shares)
        self._users: dict[int, UserTasks] = {}

    def __len__(self) -> int:
        return sum(map(len, self._users.values()))

    def __contains__(self, task: Task) -> bool:
        tasks = self._users.get(task.submission.user)
        return tasks is not None and task in tasks

    def put(self, task: Task) -> None:
        self._users.setdefault(task.submission.user, UserTasks()).put(task)

    def drop(self, task: Task) -> None:
        if (tasks := self._users.get(task.submission.user)) is not None:
            tasks.drop(task)
            if not len(tasks):
                del self._users[task.submission.user]

    def first(self, user: int) -> Order | None:
        """Return the order of a user's first task, if any."""
        tasks = self._users.get(user)
        return tasks.first() if tasks is not None else None

    def take(self, user: int) -> Order | None:
        """Remove a user's first task and return its order."""
        tasks = self._users.get(user)
        order = tasks.take() if tasks is not None else None
        if tasks is not None and not len(tasks):
            del self._users[user]
        return order

    def users(self) -> Iterator[int]:
        """Return those who have such tasks."""
        return iter([*self._users])


class UserTurns:
    """Turns of the users with a backlog, while some of it is given."""

    def __init__(self, backlog: Backlog) -> None:
        self._backlog = backlog
        self._given: Counter[int] = Counter()  # tasks, by user
        self._heap: list[tuple[float, Order, int]] = []
        for user in backlog.users():
            self._enter(user)

    def _enter(self, user: int) -> None:
        order = self._backlog.first(user)
        if order is not None:
            claim = self._backlog.claims.of(user, self._given[user])
            heapq.heappush(self._heap, (claim, order, user))

    def next(self) -> tuple[int, Order] | None:
        """Return the user whose turn it is, with that user's first task; None if nobody has one."""
        return (self._heap[0][2], self._heap[0][1]) if self._heap else None

    def pass_on(self, is_given: bool) -> None:
        """End a turn in which the first task was given, or left the backlog."""
        _, _, user = heapq.heappop(self._heap)
        self._given[user] += is_given
        self._enter(user)

    def leave_out(self) -> None:
        """Give the user whose turn it is no further one."""
        heapq.heappop(self._heap)
