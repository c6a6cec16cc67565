"""What is given to firm next, and what is taken from it: decided from rows alone."""

from __future__ import annotations

from collections import Counter
from collections.abc import Callable, Iterable, Iterator
from dataclasses import dataclass, field
from enum import StrEnum
from math import inf

from ..common.books import Book
from ..common.roster import Limits
from .fair_order import Backlog, Claims, Order, UserTurns, name_in
from .rows import Name, Task

FIXED_NODES = 2  # the sink and the hub
TASK_ARCS = 3
RESERVED_PART = 16  # of an arena: a 16th is left for machines that come
MOST_LINES = 1_000  # to firm at a time
# Tasks that wait in firm beside one for each free slot: few, since they leave it for a newcomer's, and a part of the
# slots, so that firm has a choice.
LEAST_WAITING, WAITING_PART = 4, 8


@dataclass
class ArenaRoom:
    """What is left of a tenant's arena; docs/PLACEMENT.md says how it counts."""

    nodes: int
    arcs: int

    @classmethod
    def of(cls, book: Book) -> ArenaRoom:
        used_nodes, used_arcs = used(book)
        return cls(book.limits.nodes - used_nodes, book.limits.arcs - used_arcs)

    def without(self, other: ArenaRoom) -> ArenaRoom:
        return ArenaRoom(self.nodes - other.nodes, self.arcs - other.arcs)

    def take(self, nodes: int, arcs: int) -> bool:
        """Whether there was room for this number, which is taken."""
        if self.nodes < nodes or self.arcs < arcs:
            return False
        self.nodes -= nodes
        self.arcs -= arcs
        return True


def used(book: Book) -> tuple[int, int]:
    """Nodes and arcs of a tenant's rows."""
    nodes = FIXED_NODES + len(book.machines) + len(book.jobs) + len(book.tasks)
    prefers = sum(len(task.prefers) for task in book.tasks.values())
    return nodes, len(book.machines) + book.slots + len(book.jobs) + TASK_ARCS * len(book.tasks) + prefers


def reserve(limits: Limits) -> ArenaRoom:
    """What tasks leave to machines that come."""
    return ArenaRoom(limits.nodes // RESERVED_PART, limits.arcs // RESERVED_PART)


class Kind(StrEnum):
    DONE = "done"
    DRAIN = "drain"
    MACHINE = "machine"
    CLOSE = "close"
    JOB = "job"
    TASK = "task"
    ROUND = "round"


@dataclass(frozen=True, slots=True)
class FirmLine:
    """A line to firm."""

    kind: Kind
    words: str
    task: Task | None = None  # that it gives

    def __str__(self) -> str:
        return f"{self.kind} {self.words}".rstrip()


@dataclass(frozen=True, slots=True)
class Machines:
    """The machines that firm should have, with their slots, and those that it should not have."""

    wanted: dict[str, int]
    unwanted: set[str]
    closed: set[str] = field(default_factory=set)  # that stay for their running tasks; no task can begin there


@dataclass
class Wishes:
    """What the queue wants of firm, beside the backlog."""

    machines: dict[str, int] = field(default_factory=dict)  # that are to be there, with their slots
    unwanted: set[str] = field(default_factory=set)  # machines that are not to be there
    idle_jobs: frozenset[str] = frozenset()  # of the queue's own that have none
    rows: list[str] = field(default_factory=list)  # of tasks that firm should not have
    most: int | None = None  # tasks in firm, beside placeholders
    placeholders: int = 0  # that are there
    left_free: bool = False  # the last round left slots free


def plan(book: Book, wishes: Wishes, backlog: Backlog, task_of: Callable[[Name], Task | None]) -> list[FirmLine]:
    """The next lines to firm. What it gives leaves the backlog, and is put back where firm refuses it."""
    lines = [FirmLine(Kind.DONE, row) for row in wishes.rows if row in book.tasks][:MOST_LINES]
    leaving = {line.words for line in lines}
    room = ArenaRoom.of(book)
    room.nodes += len(leaving)
    room.arcs += sum(TASK_ARCS + len(book.tasks[row].prefers) for row in leaving)
    machines, is_short = machine_lines(book, wishes, room)
    lines += machines
    if is_short:
        return lines
    lines += close_lines(book, wishes, leaving, room)
    in_firm = len(book.tasks) - wishes.placeholders - len(leaving)
    most = MOST_LINES - len(lines) if wishes.most is None else wishes.most - in_firm
    if len(backlog):
        rows = waiting_rows(book, leaving, task_of)
        places = WaitingRoom(book, leaving, rows, wishes.left_free)
        yielding = Yielding(book, rows) if wishes.most != 0 else None
        lines += TaskBatch(book, room, Admission(backlog, task_of, min(most, MOST_LINES), places, yielding)).lines()
    return lines


def machine_lines(book: Book, wishes: Wishes, room: ArenaRoom) -> tuple[list[FirmLine], bool]:
    """Drains what should not be there and adds what should; whether waiting tasks are taken back to make room first."""
    lines = [FirmLine(Kind.DRAIN, machine) for machine in book.machines if machine in wishes.unwanted]
    for machine, slots in wishes.machines.items():
        present = book.machines.get(machine)
        if present == slots:
            continue
        if present is not None:
            lines.append(FirmLine(Kind.DRAIN, machine))
            room.take(-1, -1 - present)
        if not room.take(1, 1 + slots):
            missing = max(1 - room.nodes, -((room.arcs - 1 - slots) // TASK_ARCS))
            withdrawn = [FirmLine(Kind.DONE, row) for row in last_waiting(book, missing)]
            return lines + withdrawn, bool(withdrawn)
        lines.append(FirmLine(Kind.MACHINE, f"{machine} {slots}"))
    return lines, False


def last_waiting(book: Book, count: int) -> Iterator[str]:
    """The queue's own tasks that wait in firm, those that came last first."""
    waiting = [row for row, task in book.tasks.items() if task.machine is None and Name.of_firm(row) is not None]
    yield from reversed(waiting[-count:])


def close_lines(book: Book, wishes: Wishes, leaving: set[str], room: ArenaRoom) -> list[FirmLine]:
    """Closes the queue's jobs without tasks."""
    idle = [job for job in wishes.idle_jobs if job in book.jobs]
    if not idle:
        return []
    tasks = tasks_of_jobs(book, leaving)
    closed = [job for job in idle if not tasks[job]]
    room.take(-len(closed), -len(closed))
    return [FirmLine(Kind.CLOSE, job) for job in closed]


def tasks_of_jobs(book: Book, leaving: Iterable[str] = ()) -> Counter[str]:
    tasks = Counter(task.job for task in book.tasks.values())
    tasks.subtract(book.tasks[row].job for row in leaving)
    return tasks


@dataclass(frozen=True, slots=True)
class WaitingRow:
    """A row in firm of a task of the queue's that waits."""

    name: str
    user: int
    weight: int  # of its job, with the rounds that the task has waited, in the queue or in firm
    line: int  # that submitted it
    has_waited: bool  # a round has left it waiting
    is_idle: bool  # no process runs


def waiting_rows(book: Book, leaving: set[str], task_of: Callable[[Name], Task | None]) -> list[WaitingRow]:
    found: list[WaitingRow] = []
    for row, task in book.tasks.items():
        if task.machine is None and row not in leaving and (name := Name.of_firm(row)) is not None:
            own = task_of(name)
            if own is not None and own.submission.job == task.job:
                since = own.since if own.since is not None else book.rounds
                weight = book.jobs[task.job] + max(book.waited(task), book.rounds - since)
                state = (task.waits_from < book.rounds, own.open_attempt is None)
                found.append(WaitingRow(row, own.submission.user, weight, task.line, *state))
    return found


class Yielding:
    """The queue's tasks that wait in firm and have no process. The lightest make room for heavier ones, by what firm
    itself compares."""

    def __init__(self, book: Book, rows: Iterable[WaitingRow]) -> None:
        self._book = book
        idle = [row for row in rows if row.is_idle]
        idle.sort(key=lambda row: (-row.weight, row.line, row.name))  # the lightest last, youngest
        self._rows = {row.name: row for row in idle}

    def leave(
        self, first: Order, needed: ArenaRoom, missing: int, yields: Callable[[int], bool]
    ) -> list[WaitingRow] | None:
        """Return the rows that leave to make this room, of users who yield; None if no lighter tasks can make it."""
        weight = self._book.rounds - first[0]
        found: list[WaitingRow] = []
        for row in reversed(self._rows.values()):
            if needed.nodes <= 0 and needed.arcs <= 0 and missing <= 0 or row.weight >= weight:
                break
            if yields(row.user):
                found.append(row)
                needed = ArenaRoom(needed.nodes - 1, needed.arcs - TASK_ARCS - len(self._book.tasks[row.name].prefers))
                missing -= 1
        return None if needed.nodes > 0 or needed.arcs > 0 or missing > 0 else found

    def drop(self, row: WaitingRow) -> None:
        """Record that a row leaves firm."""
        self._rows.pop(row.name, None)


class WaitingRoom:
    """The tasks that wait in firm for a slot, of which there are few.

    What a round left waiting beside free slots waits for no slot, and takes no place here. A task that is heavier than
    what runs by more than a preemption costs needs none either.
    """

    def __init__(self, book: Book, leaving: set[str], rows: list[WaitingRow], left_free: bool) -> None:
        counted = [row for row in rows if not (left_free and row.has_waited)]
        self._waiting, self._counted = len(rows), len(counted)
        self._of_user = Counter(row.user for row in rows)
        self._rows = {row.name: row for row in counted if row.is_idle}
        running = [row.job for row in book.tasks.values() if row.machine is not None]
        self._lightest = min((book.jobs[job] for job in set(running)), default=inf)
        self._churn, self._slots = book.limits.churn, book.slots
        self._most = max(LEAST_WAITING, book.slots // WAITING_PART)
        freed = sum(book.tasks[row].machine is not None for row in leaving)
        self._free = max(0, book.slots - len(running) + freed)

    def has_place(self, task: Task) -> bool:
        """Return whether a further task may wait in firm."""
        submission = task.submission
        if submission.weight > self._lightest + self._churn and self._waiting < self._slots:
            return True
        return self._counted < self._free + self._most and self._of_user[submission.user] < self._slots + self._most

    def is_newcomer(self, user: int, claims: Claims) -> bool:
        """Return whether a user has nothing in firm."""
        return not claims.counts[user] and not self._of_user[user]

    def behind(self, user: int, claims: Claims) -> list[WaitingRow]:
        """Return the rows that a newcomer comes before; none while there are free slots for all, or where too many
        others stay. Rows of users without a slot stay: each row that leaves loses its wait in firm, so a user's light
        tasks would never start while newcomers keep coming."""
        if self._counted < self._free or not self.is_newcomer(user, claims):
            return []
        least = claims.of(user, 1)
        rows = [row for row in self._rows.values() if claims.counts[row.user] > self._of_user[row.user]]
        found = [row for row in rows if claims.of(row.user) > least]
        return found if self._counted - len(found) < self._free + self._most else []

    def enter(self, user: int) -> None:
        self._waiting += 1
        self._counted += 1
        self._of_user[user] += 1

    def leave(self, row: WaitingRow) -> None:
        self._waiting -= 1
        self._counted -= self._rows.pop(row.name, None) is not None
        self._of_user[row.user] -= 1


@dataclass
class Admission:
    """The backlog, while some of it is given."""

    backlog: Backlog
    task_of: Callable[[Name], Task | None]
    most: int
    places: WaitingRoom
    yielding: Yielding | None = None


class TaskBatch:
    """Tasks that are given by one plan: users in turn, as far as there is room, or as lighter ones make room."""

    def __init__(self, book: Book, room: ArenaRoom, giving: Admission) -> None:
        self._book, self._giving, self._left = book, giving, giving.most
        self._free, self._jobs = room.without(reserve(book.limits)), dict(book.jobs)
        self._waiting = giving.places
        self._turns = UserTurns(giving.backlog)
        self._is_full = False  # there was no room for one: further ones make their own
        self._is_for_newcomers = False  # for whom other tasks leave firm; these come back in their order
        self._more = Counter[int]()  # tasks that users have in firm after these lines
        self._withdrawn: list[FirmLine] = []
        self._lines: list[FirmLine] = []

    def lines(self) -> list[FirmLine]:
        kept: list[Task] = []  # whose job is in firm with another weight
        while len(self._withdrawn) + len(self._lines) < MOST_LINES and (turn := self._turns.next()) is not None:
            user, order = turn
            task = self._giving.task_of(name_in(order))
            if self._is_for_newcomers and not self._waiting.is_newcomer(user, self._giving.backlog.claims):
                self._turns.leave_out()
            elif task is None or task.outcome is not None:
                self._take(user, is_given=False)
            elif self._jobs.get(task.submission.job, task.submission.weight) != task.submission.weight:
                kept.append(task)
                self._take(user, is_given=False)
                weight = self._jobs[task.submission.job]
                task.told = f"the job {task.submission.job} is in firm with the weight {weight}"
            elif self._give(task, order):
                self._take(user, is_given=True)
            else:
                self._turns.leave_out()
        for task in kept:
            self._giving.backlog.put(task)
        return self._withdrawn + self._lines

    def _take(self, user: int, is_given: bool) -> None:
        self._giving.backlog.take(user)
        self._turns.pass_on(is_given)

    def _give(self, task: Task, order: Order) -> bool:
        """Return whether there is room for a task, or lighter ones have made it."""
        submission = task.submission
        is_new = submission.job not in self._jobs
        near = [machine for machine in submission.spec.near if machine in self._book.machines]
        needed = ArenaRoom(1 + is_new, TASK_ARCS + len(near) + is_new)
        leaving = [] if self._make_way(submission.user, needed) else self._leave(task, order, needed)
        if leaving is None:
            return False
        for row in leaving:
            self._withdraw(row)
        self._free.take(needed.nodes, needed.arcs)
        self._left -= 1
        self._more[submission.user] += 1
        self._waiting.enter(submission.user)
        if is_new:
            self._jobs[submission.job] = submission.weight
            self._lines.append(FirmLine(Kind.JOB, f"{submission.job} {submission.weight}"))
        self._lines.append(FirmLine(Kind.TASK, " ".join([submission.job, task.firm, *near]), task))
        return True

    def _make_way(self, user: int, needed: ArenaRoom) -> bool:
        """Withdraw the rows that a newcomer's task comes before, if that makes room for it. Return whether it did."""
        claims = self._giving.backlog.claims
        rows = self._waiting.behind(user, claims)
        if not rows or self._giving.yielding is None or not claims.may_go_ahead(user):
            return False
        arcs = sum(TASK_ARCS + len(self._book.tasks[row.name].prefers) for row in rows)
        has_room = self._free.nodes + len(rows) >= needed.nodes and self._free.arcs + arcs >= needed.arcs
        if not has_room or self._left + len(rows) <= 0:
            return False
        self._is_for_newcomers = True
        claims.go_ahead(user, len(rows))
        for row in rows:
            self._withdraw(row)
        return True

    def _withdraw(self, row: WaitingRow) -> None:
        self._free.take(-1, -TASK_ARCS - len(self._book.tasks[row.name].prefers))
        self._left += 1
        self._more[row.user] -= 1
        self._waiting.leave(row)
        if self._giving.yielding is not None:
            self._giving.yielding.drop(row)
        self._withdrawn.append(FirmLine(Kind.DONE, row.name))

    def _leave(self, task: Task, order: Order, needed: ArenaRoom) -> list[WaitingRow] | None:
        """Return the rows that make room for a task; None where there is no room for it."""
        lacking, missing, yielding = needed.without(self._free), 1 - self._left, self._giving.yielding
        has_place = self._waiting.has_place(task)
        is_full = lacking.nodes > 0 or lacking.arcs > 0 or missing > 0
        if has_place and not is_full and not self._is_full:
            return []
        self._is_full |= is_full
        if yielding is None:
            return None
        user, claims = task.submission.user, self._giving.backlog.claims
        claim = claims.of(user, self._more[user] + 1)

        def yields(other: int) -> bool:
            """Others' rows would come back at once if these were newcomers then, or had the next turn."""
            more = self._more[other]
            return other == user or has_place and claims.counts[other] + more > 1 and claims.of(other, more) >= claim

        return yielding.leave(order, lacking, max(missing, 1), yields)
