"""The rows of each tenant: machines, jobs and tasks, updated from commands and firm's replies.

firm alone decides; a book records what it replied.
"""

from __future__ import annotations

import time
from bisect import bisect_left
from collections import Counter, deque
from collections.abc import Iterator, Sequence
from dataclasses import dataclass, field

from .roster import Limits, read_roster

# The first byte of `no ..`, and those after `ok `; all other outcomes change no rows.
REFUSAL, EVICTED, ROUND = b"ner"
COSTS_KEPT = 120  # of a tenant's last rounds, for the page; firm itself has 8
ROUND_SECONDS = (0.0001, 0.0002, 0.0005, 0.001, 0.002, 0.005, 0.01, 0.02, 0.05, 0.1, 0.2, 0.5, 1.0, 2.0, 5.0, 10.0)


@dataclass(slots=True)
class FirmTask:
    job: str
    line: int  # unique number of its submission, among all lines with a reply since the journal's beginning
    prefers: tuple[str, ...]  # machines, each once
    waits_from: int  # the tenant's number of rounds when the wait began; meaningless while it runs
    since: float | None  # Unix time at which its wait, or its run on the machine, began; None: in the replay
    machine: str | None = None  # None: it waits


@dataclass(slots=True)
class Machine:
    """A machine with its running tasks."""

    slots: int
    tasks: list[str]


@dataclass
class Book:
    """One tenant's rows, each in order of addition."""

    limits: Limits
    machines: dict[str, int] = field(default_factory=dict)  # slots by name
    jobs: dict[str, int] = field(default_factory=dict)  # weight by name
    tasks: dict[str, FirmTask] = field(default_factory=dict)
    waiting: int = 0  # waiting tasks
    rounds: int = 0
    costs: deque[int] = field(default_factory=lambda: deque(maxlen=COSTS_KEPT))
    refused: Counter[bytes] = field(default_factory=Counter)  # by the reply's text from `no` on
    number: bytes = b"0"  # of the last reply

    @property
    def commands(self) -> int:
        """Return the tenant's number of commands, without those after its exhaustion."""
        return min(int(self.number), self.limits.life)

    @property
    def refusals(self) -> dict[str, int]:
        """Return the number of refusals by name."""
        return {outcome.decode("ascii").split()[-1]: count for outcome, count in self.refused.items()}

    @property
    def running(self) -> int:
        return len(self.tasks) - self.waiting

    @property
    def slots(self) -> int:
        return sum(self.machines.values())

    @property
    def last_cost(self) -> int | None:
        return self.costs[-1] if self.costs else None

    def has_waiting(self) -> bool:
        return self.waiting > 0

    def waited(self, task: FirmTask) -> int:
        """Return the rounds that left the task waiting since it last ran or was added, as firm counts them."""
        return 0 if task.machine is not None else min(self.rounds - task.waits_from, self.limits.patience)

    def loads(self) -> dict[str, Machine]:
        """Return each machine with its tasks."""
        found = {name: Machine(slots, []) for name, slots in self.machines.items()}
        for name, task in self.tasks.items():
            if task.machine is not None:
                found[task.machine].tasks.append(name)
        return found

    def lines(self) -> Iterator[str]:
        """Yield the commands that give a new tenant the same rows, with all tasks waiting."""
        tenant = self.limits.tenant
        for name, slots in self.machines.items():
            yield f"{tenant} machine {name} {slots}"
        for name, weight in self.jobs.items():
            yield f"{tenant} job {name} {weight}"
        for name, task in self.tasks.items():
            yield " ".join([tenant, "task", task.job, name, *task.prefers])

    def obeyed(self, number: int, words: list[str], now: float | None) -> None:
        """Apply a command other than a round that changed rows, by its line's number and words."""
        verb, name = words[1], words[-1]
        if verb == "task":
            prefers = tuple(dict.fromkeys(words[4:])) if len(words) > 4 else ()
            self.tasks[words[3]] = FirmTask(words[2], number, prefers, self.rounds, now)
            self.waiting += 1
        elif verb == "done":
            self.waiting -= self.tasks.pop(name).machine is None
        elif verb == "machine":
            self.machines[words[2]] = int(name)
        elif verb == "job":
            self.jobs[words[2]] = int(name)
        elif verb == "close":
            del self.jobs[name]
        elif verb == "drain":
            self._drain(name, now)

    def _drain(self, machine: str, now: float | None) -> None:
        del self.machines[machine]
        for task in self.tasks.values():
            if machine in task.prefers:
                task.prefers = tuple(other for other in task.prefers if other != machine)
            if task.machine == machine:
                task.machine, task.waits_from, task.since = None, self.rounds, now
                self.waiting += 1

    def settled(self, outcome: list[str], now: float | None) -> None:
        """Apply a round's reply from `ok` on: ok round cost C, and each change."""
        self.costs.append(int(outcome[3]))
        place = 4
        while place < len(outcome):
            change, task = outcome[place], self.tasks[outcome[place + 1]]
            if change == "move":
                task.machine = outcome[place + 3]
            elif change == "start":
                task.machine = outcome[place + 2]
                self.waiting -= 1
            else:  # preempt: this round is the first that leaves it waiting
                task.machine, task.waits_from = None, self.rounds
                self.waiting += 1
            task.since = now
            place += 4 if change == "move" else 3
        self.rounds += 1


class Pending(Book):
    """A book without rows: it skips changes until it is replaced by one with rows."""

    def obeyed(self, number: int, words: list[str], now: float | None) -> None:
        pass

    def settled(self, outcome: list[str], now: float | None) -> None:
        pass


@dataclass
class RoundTimes:
    """Durations of rounds, from firm's input to its reply, except in a replay."""

    # Between the bounds of ROUND_SECONDS; the last count is above all of them.
    counts: list[int] = field(default_factory=lambda: [0] * (len(ROUND_SECONDS) + 1))
    seconds: float = 0.0  # of all

    def add(self, seconds: float) -> None:
        self.counts[bisect_left(ROUND_SECONDS, seconds)] += 1
        self.seconds += seconds


class Books:
    """The tenants' books: an observer of every line with its reply."""

    def __init__(self) -> None:
        self.tenants: dict[str, Book] = {}  # in order of admission
        self.lines = 0  # with a reply, since the journal's beginning
        self.refusals: Counter[str] = Counter()  # of lines without a tenant, by name
        self.round_times = RoundTimes()
        self._books: dict[bytes, Book] = {}  # the same as `tenants`

    def start(self, roster: bytes) -> None:
        """Return books of the roster's tenants. Raise `RosterError`."""
        for limits in read_roster(roster):
            self.put(Book(limits))

    def put(self, book: Book) -> None:
        """Give a tenant this book, in its former place if it had one."""
        self._books[book.limits.tenant.encode()] = self.tenants[book.limits.tenant] = book

    def replied(self, line: bytes, reply: bytes, seconds: float | None) -> None:
        """Apply a line and its reply; the seconds are None in a replay."""
        self.replied_all((line,), (reply,), seconds)

    def replied_all(self, lines: Sequence[bytes], replies: Sequence[bytes], seconds: float | None) -> None:
        """Apply lines and their replies, in the order of the lines.

        A replay spends most of its time here, so this does as little as possible for a reply that changes no rows.
        """
        books, now = self._books, None if seconds is None else time.time()
        for place, reply in enumerate(replies):
            try:
                name, number, outcome = reply.split(b" ", 2)
                book = books[name]
            except (ValueError, KeyError):
                self._operated(lines[place], reply)
                continue
            book.number = number
            if outcome[0] == REFUSAL:
                book.refused[outcome] += 1
            elif outcome == b"ok" or outcome[3] == EVICTED:
                # Accepted lines have names, numbers and verbs, all ASCII, separated by spaces and tabs.
                book.obeyed(self.lines + place + 1, lines[place].decode("ascii").split(), now)
            elif outcome[3] == ROUND:
                book.settled(outcome.decode("ascii").split(), now)
                if seconds is not None:
                    self.round_times.add(seconds)
        self.lines += len(replies)

    def _operated(self, line: bytes, reply: bytes) -> None:
        """Apply a line of the operator or of no tenant."""
        match reply.decode("ascii").split():
            case "+", "ok", "admitted", tenant:
                self.put(Book(Limits.of_fields(line.decode("ascii").split()[2].split(","))))
            case "+", "ok", "retired", tenant:
                del self.tenants[tenant], self._books[tenant.encode()]
            case ("+", "no", _, name) | ("!", name):
                self.refusals[name] += 1
            case _:
                raise ValueError(f"a reply without a tenant: {reply!r}")


def tenant_of(reply: bytes) -> str | None:
    """Return the tenant that a reply concerns."""
    name, _, rest = reply.partition(b" ")
    if name == b"+":
        words = rest.split()
        return words[2].decode("ascii") if words[0] == b"ok" else None
    return None if name == b"!" else name.decode("ascii")
