"""What the queue has in memory: submissions with their tasks and attempts. The database has the same."""

from __future__ import annotations

import re
from array import array
from bisect import bisect_left, insort
from collections.abc import Iterable, Iterator, Sequence
from dataclasses import dataclass, field
from typing import Any, NamedTuple

from ..common.quantities import indexes_of
from ..common.users import name_of

SINGLE = -1  # the index of a task that is a submission's only one, without an array
MOST_NUMBER, MOST_INDEX = 99_999_999, 9_999_999  # together, a name of a task in firm has no more letters
INDEX_BITS = 24  # of an index, or none, in a packed name
DEFAULT_GRACE = 5.0  # seconds
CORDONED, DRAINED, GONE = "cordoned", "drained", "gone"  # kinds of marks; gone: no agent names the machine any more
WORD_BYTES = 128  # of memory, that a word or a need takes beside its letters
_TASK = re.compile(r"([1-9][0-9]{0,7})(?:_(0|[1-9][0-9]{0,6}))?")
# With letters after its number: a further row of the task, as `placeholders` gives it.
_FIRM_NAME = re.compile(r"([1-9][0-9]{0,7})(?:-(0|[1-9][0-9]{0,6})|([a-z]{1,2})(0|[1-9][0-9]{0,6})?)?")
MAX_FIRM_NAME = 16


@dataclass(slots=True, order=True, unsafe_hash=True)  # a frozen one takes three times as long to make
class Name:
    """A task, by its submission's number and its index."""

    number: int
    index: int = SINGLE

    def __str__(self) -> str:
        return str(self.number) if self.index == SINGLE else f"{self.number}_{self.index}"

    @property
    def firm(self) -> str:
        """The task's name in firm."""
        return self.in_firm("")

    def in_firm(self, letters: str) -> str:
        """The name in firm of the task's row with these letters; the first row has none."""
        if self.index == SINGLE:
            return f"{self.number}{letters}"
        return f"{self.number}{letters or '-'}{self.index}"

    @classmethod
    def read(cls, text: str) -> Name | None:
        """As people write it; None where it is none. Without an index it may mean a whole array."""
        match = _TASK.fullmatch(text)
        return cls(int(match[1]), SINGLE if match[2] is None else int(match[2])) if match is not None else None

    @classmethod
    def of_firm(cls, text: str) -> Name | None:
        """From the name of any of a task's rows in firm; None where the queue gives no such name."""
        match = _FIRM_NAME.fullmatch(text)
        if match is None:
            return None
        index = match[2] or match[4]
        return cls(int(match[1]), SINGLE if index is None else int(index))

    def letters_in(self, text: str) -> str:
        """The letters in a name of this task's in firm."""
        return text.removeprefix(str(self.number)).rstrip("0123456789").removesuffix("-")


def packed(names: Iterable[Name]) -> array[int]:
    """Return names as numbers, which take a twentieth of their memory."""
    return array("q", [name.number << INDEX_BITS | name.index - SINGLE for name in names])


def unpacked(names: Iterable[int]) -> Iterator[Name]:
    return (Name(name >> INDEX_BITS, (name & (1 << INDEX_BITS) - 1) + SINGLE) for name in names)


@dataclass(frozen=True, slots=True)
class Need:
    """What a submission waits for: a task, or all of a submission."""

    number: int
    index: int | None  # None: all of it
    is_ok: bool  # whether it must end with `done`

    def __str__(self) -> str:
        return str(self.number) if self.index is None else str(Name(self.number, self.index))


@dataclass(frozen=True, slots=True)
class Spec:
    """How the tasks of a submission are run."""

    command: tuple[str, ...]
    dir: str
    env: dict[str, str] = field(default_factory=dict)
    output: str | None = None
    near: tuple[str, ...] = ()
    time: float | None = None
    grace: float = DEFAULT_GRACE
    retries: int = 0
    memory: int | None = None
    processors: float | None = None
    indexes: str | None = None  # of an array with gaps, as its user wrote them
    at_once: int | None = None  # tasks of the array that may be in firm


class Mark(NamedTuple):
    """What keeps tasks off a machine, and who wanted it why."""

    kind: str
    user: int | None = None  # an operator; None: the queue itself
    reason: str = ""

    @property
    def told(self) -> str:
        """As `ann: a new disk`."""
        name = name_of(self.user) if self.user is not None else ""
        return f"{name}: {self.reason}" if self.reason else name


@dataclass(slots=True, eq=False)
class Attempt:
    """One run of a task."""

    name: Name
    number: int  # from 1
    agent: str
    agent_id: str
    machine: str
    run: int  # the agent's own number
    token: str
    claimed: float
    began: float | None = None
    ended: float | None = None
    seconds: float | None = None
    outcome: str | None = None  # None while it is open
    status: int | None = None
    reason: str = ""
    output: str | None = None
    host: str | None = None
    is_kept: bool = False  # it goes on although firm has no row of it
    runs_as: int | None = None  # the user whose process it is; None: begun by a queue that did not keep that
    max_rss: int | None = None  # bytes of memory at a time, of a run that has ended
    cpu_seconds: float | None = None  # of processors
    seal: int = 0  # checksum of its row while it is open

    @property
    def is_open(self) -> bool:
        return self.outcome is None


@dataclass(slots=True, eq=False)
class Task:
    submission: Submission
    index: int
    is_held: bool = False
    is_cancelled: bool = False  # and its process has still to end
    failures: int = 0
    lost: int = 0  # attempts in a row of which nobody knows how they ended
    outcome: str | None = None  # None until it has ended
    status: int | None = None
    reason: str = ""
    ended: float | None = None
    attempts: int = 0
    attempt: Attempt | None = None  # the last one
    due: float = 0.0  # by CLOCK_BOOTTIME, from which it may be tried again
    told: str = ""  # why it was not begun when it was claimed last
    seal: int = 0  # checksum of its row until it has ended
    since: int | None = None  # number of rounds when it became ready to begin; None before that, and once it has begun
    letters: str = ""  # in its name in firm

    @property
    def name(self) -> Name:
        return Name(self.submission.number, self.index)

    @property
    def shown(self) -> str:
        """The name as people write it."""
        number = self.submission.number
        return f"{number}" if self.index == SINGLE else f"{number}_{self.index}"

    @property
    def firm(self) -> str:
        """The name in firm of the row by which it is to run."""
        number = self.submission.number
        return f"{number}{self.letters}" if self.index == SINGLE else f"{number}{self.letters or '-'}{self.index}"

    @property
    def is_live(self) -> bool:
        return self.outcome is None

    @property
    def open_attempt(self) -> Attempt | None:
        return self.attempt if self.attempt is not None and self.attempt.is_open else None


@dataclass(slots=True, eq=False)
class Submission:
    number: int
    user: int
    job: str
    weight: int
    spec: Spec
    first: int | None
    last: int | None
    sent: float
    needs: tuple[Need, ...] = ()
    tasks: dict[int, Task] = field(default_factory=dict)  # by index
    live: int = 0  # tasks that have not ended
    failed: int = 0  # tasks that ended otherwise than with `done`
    failure: Task | None = None  # the first of these by its index
    open_needs: int = 0  # that have not ended
    first_need: int = 0  # the place of the first of them, or of one before it
    held: int = 0  # live tasks that are held
    counted: tuple[int, int, int] = (0, 0, 0)  # live tasks by `IDLE`, as `LiveRows` has counted them
    size: int = 0  # bytes of memory that its words take

    @property
    def is_blocked(self) -> bool:
        return self.open_needs > 0

    @property
    def indices(self) -> Sequence[int]:
        """Indices of its tasks, if its words are known."""
        if self.spec.indexes is not None:
            return indexes_of(self.spec.indexes)[0]
        return [SINGLE] if self.first is None or self.last is None else range(self.first, self.last + 1)

    def add_tasks(self, is_held: bool) -> None:
        """Makes the tasks of a new submission."""
        self.tasks = {index: Task(self, index, is_held) for index in self.indices}
        self.live = len(self.tasks)

    def add_failure(self, task: Task) -> None:
        """Count a task that ended otherwise than with `done`."""
        self.failed += 1
        if self.failure is None or task.index < self.failure.index:
            self.failure = task

    def measure(self, text: str) -> None:
        """Notes its size, by its words as JSON: beside the letters each word and each need is an object."""
        self.size = len(text) + WORD_BYTES * (len(self.spec.command) + len(self.spec.env) + len(self.needs))

    def answer(self) -> dict[str, Any]:
        """As its user is told of it."""
        found: dict[str, Any] = {"number": self.number, "first": self.first, "last": self.last}
        found |= {"count": len(self.tasks), "job": self.job}
        return found if self.spec.indexes is None else {**found, "array": self.spec.indexes}


@dataclass(slots=True)
class QueueJob:
    """A job that has tasks which have not ended."""

    user: int
    weight: int
    live: int = 0
    counts: list[int] = field(default_factory=lambda: [0, 0, 0])  # of live tasks, by `IDLE`


IDLE = ("held", "blocked", "queued")  # states of a task without a row in firm and without a process


def idle_state(task: Task) -> str:
    return IDLE[0] if task.is_held else IDLE[1] if task.submission.is_blocked else IDLE[2]


Place = tuple[int, bool]  # what is waited for: an index, or SINGLE for all tasks; and whether it must end with `done`


class LiveRows:
    """All submissions that have a task which has not ended, and some that ended lately."""

    def __init__(self, last_number: int = 0) -> None:
        self.last_number = last_number
        self.submissions: dict[int, Submission] = {}
        self.jobs: dict[str, QueueJob] = {}
        self.live_of_user: dict[int, int] = {}
        self.bytes_of_user: dict[int, int] = {}  # of submissions that have not ended
        self.live = self.bytes = 0
        self.waiters: dict[int, dict[Place, set[int]]] = {}  # submissions that wait, by number and place
        self.open: dict[str, Attempt] = {}  # attempts that have not ended, by token
        self.open_of_agent: dict[str, dict[str, Attempt]] = {}  # the same by agent and token
        # Live tasks by `IDLE`, as if none had a row in firm or a process: in all, and by user.
        self.counts = [0, 0, 0]
        self.counts_of_user: dict[int, list[int]] = {}
        # Numbers of submissions with such tasks, sorted.
        self.numbers: tuple[list[int], ...] = ([], [], [])
        self._ended: dict[int, None] = {}  # submissions that have ended, in the order of their ends
        self._ended_tasks = self._ended_bytes = 0

    def task(self, name: Name | None) -> Task | None:
        submission = self.submissions.get(name.number) if name is not None else None
        return submission.tasks.get(name.index) if submission is not None and name is not None else None

    def add(self, submission: Submission) -> None:
        """Takes in one that is new, or read from the database."""
        self.submissions[submission.number] = submission
        self.last_number = max(self.last_number, submission.number)
        if submission.live:
            submission.held = sum([task.is_held for task in submission.tasks.values() if task.outcome is None])
            self._count(submission, submission.live)
            self.recount(submission)
            self._count_bytes(submission, submission.size)
            for need in submission.needs:
                if not self._is_met(need):
                    of_number = self.waiters.setdefault(need.number, {})
                    of_number.setdefault(place_of(need), set()).add(submission.number)
        else:
            self._keep_ended(submission)
        for task in submission.tasks.values():
            if task.attempt is not None and task.attempt.is_open:
                self.begin(task.attempt)

    def begin(self, attempt: Attempt) -> None:
        """Take in an attempt that is open."""
        self.open[attempt.token] = attempt
        self.open_of_agent.setdefault(attempt.agent, {})[attempt.token] = attempt

    def end(self, attempt: Attempt) -> None:
        """Take in that an attempt is open no more."""
        of_agent = self.open_of_agent[attempt.agent]
        del self.open[attempt.token], of_agent[attempt.token]
        if not of_agent:
            del self.open_of_agent[attempt.agent]

    def ended(self, task: Task) -> None:
        """Takes in that a task has its outcome."""
        submission = task.submission
        submission.live -= 1
        if task.outcome != "done":
            submission.add_failure(task)
        submission.held -= task.is_held
        self.recount(submission)
        self._count(submission, -1)
        if not submission.live:
            self._count_bytes(submission, -submission.size)
            for need in submission.needs:
                self._forget_waiter(submission.number, need)
            self._keep_ended(submission)

    def hold(self, task: Task, is_held: bool) -> None:
        """Hold or release a live task."""
        task.submission.held += is_held - task.is_held
        task.is_held = is_held
        self.recount(task.submission)

    def recount(self, submission: Submission) -> None:
        """Update the counters after a change of a submission's live, held or blocked tasks."""
        free, before = submission.live - submission.held, submission.counted
        now = (submission.held, free, 0) if submission.open_needs else (submission.held, 0, free)
        of_user = self.counts_of_user.get(submission.user)
        if of_user is None:
            of_user = self.counts_of_user[submission.user] = [0, 0, 0]
        of_job, submission.counted = self.jobs[submission.job].counts, now
        for place, more in enumerate(now):
            if more == before[place]:
                continue
            for counts in (self.counts, of_user, of_job):
                counts[place] += more - before[place]
            numbers = self.numbers[place]
            if not before[place]:
                insort(numbers, submission.number)
            elif not more:
                del numbers[bisect_left(numbers, submission.number)]
        if not any(of_user):
            del self.counts_of_user[submission.user]

    def waiting_for(self, task: Task) -> list[tuple[int, bool]]:
        """Submissions of whose needs one is met by the end of a task, or, as is said of each, never will be. Each need
        is named once, however many tasks end."""
        submission, of_number = task.submission, self.waiters.get(task.submission.number)
        if of_number is None:
            return []
        is_lost = {(task.index, True): task.outcome != "done", (task.index, False): False}
        if task.index == SINGLE or not submission.live:
            is_lost |= {(SINGLE, True): submission.failed > 0, (SINGLE, False): False}
        elif submission.failed:
            is_lost[SINGLE, True] = True
        found = [(number, is_lost[place]) for place in is_lost for number in of_number.pop(place, ())]
        if not of_number:
            del self.waiters[submission.number]
        return found

    def _is_met(self, need: Need) -> bool:
        """Return whether what is needed has ended. Nobody waits for it then: it is to be forgotten in its turn."""
        submission = self.submissions.get(need.number)
        if submission is None:
            return False
        return not (submission.live if need.index is None else submission.tasks[need.index].is_live)

    def _forget_waiter(self, number: int, need: Need) -> None:
        of_number = self.waiters.get(need.number, {})
        waiters = of_number.get(place_of(need), set())
        waiters.discard(number)
        if not waiters and of_number.pop(place_of(need), None) is not None and not of_number:
            del self.waiters[need.number]

    def live_tasks(self) -> Iterator[Task]:
        for submission in self.submissions.values():
            if submission.live:
                yield from (task for task in submission.tasks.values() if task.outcome is None)

    def live_of(self, submissions: Iterable[Submission]) -> Iterator[Task]:
        for submission in submissions:
            yield from (task for task in submission.tasks.values() if task.outcome is None)

    def forget(self, most: int, most_bytes: int) -> None:
        """Drops submissions that ended first, until no more ended tasks, and bytes of them, are left than may be."""
        dropped: list[int] = []
        for number in self._ended:
            if self._ended_tasks <= most and self._ended_bytes <= most_bytes:
                break
            if number not in self.waiters:
                self._ended_tasks -= len(self.submissions[number].tasks)
                self._ended_bytes -= self.submissions[number].size
                dropped.append(number)
        for number in dropped:
            del self._ended[number], self.submissions[number]

    def drop(self, number: int) -> None:
        """Drop a submission that has ended, if memory has it."""
        if number in self._ended:
            self._ended_tasks -= len(self.submissions[number].tasks)
            self._ended_bytes -= self.submissions[number].size
            del self._ended[number], self.submissions[number]

    def _keep_ended(self, submission: Submission) -> None:
        if submission.number not in self._ended:
            self._ended[submission.number] = None
            self._ended_tasks += len(submission.tasks)
            self._ended_bytes += submission.size

    def _count_bytes(self, submission: Submission, more: int) -> None:
        self.bytes += more
        self.bytes_of_user[submission.user] = self.bytes_of_user.get(submission.user, 0) + more
        if not self.bytes_of_user[submission.user]:
            del self.bytes_of_user[submission.user]

    def _count(self, submission: Submission, more: int) -> None:
        self.live += more
        left = self.live_of_user.get(submission.user, 0) + more
        self.live_of_user[submission.user] = left
        if not left:
            del self.live_of_user[submission.user]
        job = self.jobs.setdefault(submission.job, QueueJob(submission.user, submission.weight))
        job.live += more
        if not job.live:
            del self.jobs[submission.job]


def place_of(need: Need) -> Place:
    return SINGLE if need.index is None else need.index, need.is_ok
