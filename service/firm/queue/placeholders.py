"""Rows in firm that hold slots on which nothing can begin.

firm has no command that closes the free slots of a machine with running tasks, as where its agent is away. A task that
a round places there would wait for the agent. So its row stays, as a placeholder of the slot, and the task enters firm
again, under a name with letters. A placeholder stands until its machine is open again or leaves firm.

None of this is written: firm's rows, their machines and the open attempts show which row is a task's own.
"""

from __future__ import annotations

from bisect import bisect_right
from collections import Counter
from collections.abc import Iterator, Mapping
from itertools import product
from string import ascii_lowercase

from ..common.books import Book, FirmTask as Row
from ..common.roster import slot_cost
from .backlog import Machines
from .rows import MAX_FIRM_NAME, QueueJob, Name, Task

LETTERS = ("", *ascii_lowercase, *map("".join, product(ascii_lowercase, repeat=2)))
FIRST_LETTERS = LETTERS[: 1 + len(ascii_lowercase)]


class Placeholders:
    def __init__(self) -> None:
        self.standing: set[str] = set()  # names in firm
        self._lettered: dict[Name, set[str]] = {}  # names with letters in firm, by task
        self._machines = Machines({}, set())
        self._open: list[int] = []  # costs of free slots where tasks can begin, in order
        self._given = 0  # of these, to tasks that wait in firm or were given again
        self._looked: object = None  # what the rows on closed machines were last looked at with

    def clear(self) -> None:
        """Forget all rows: they are read anew."""
        self.standing.clear()
        self._lettered.clear()
        self._looked = None

    def enter(self, firm: str, name: Name) -> None:
        """Take in a row."""
        if name.letters_in(firm):
            self._lettered.setdefault(name, set()).add(firm)

    def leave(self, firm: str, name: Name) -> None:
        """Take in that a row is gone."""
        self.standing.discard(firm)
        lettered = self._lettered.get(name, set())
        lettered.discard(firm)
        if not lettered:
            self._lettered.pop(name, None)

    def rows_of(self, name: Name, task: Task | None, book: Book) -> dict[str, Row]:
        """Return the rows of a task by their names. Names with letters in other jobs are those of others' tasks."""
        found = {name.firm: book.tasks[name.firm]} if name.firm in book.tasks else {}
        for firm in self._lettered.get(name, ()):
            if task is None or book.tasks[firm].job == task.submission.job:
                found[firm] = book.tasks[firm]
        return found

    def look(self, machines: Machines, book: Book, jobs: Mapping[str, QueueJob]) -> Iterator[str]:
        """Take in the machines' states. Yield the rows that may have become placeholders, or are none any more."""
        self._machines = machines
        yield from [firm for firm in self.standing if not self.may_stand(book.tasks.get(firm), book, jobs)]
        state = (book.rounds, book.running, book.waiting, machines, book.machines.copy()) if machines.closed else None
        if state is not None and state != self._looked:
            self._open, self._given = sorted(open_costs(machines, book)), book.waiting
            yield from [firm for firm, row in book.tasks.items() if row.machine in machines.closed]
        self._looked = state

    def may_stand(self, row: Row | None, book: Book, jobs: Mapping[str, QueueJob]) -> bool:
        """Return whether a row holds a closed slot, and does not keep its job from a new weight."""
        if row is None or row.machine not in self._machines.closed:
            return False
        job = jobs.get(row.job)
        return job is None or job.weight == book.jobs[row.job]

    def choose(self, task: Task, rows: Mapping[str, Row]) -> Row | None:
        """Return the row by which a task runs, or is to run, and give the task its name; None if it has no row."""
        ours = [firm for firm, row in rows.items() if row.job == task.submission.job]
        if not ours:
            task.letters = ""
            return None
        attempt, shut = task.open_attempt, self._machines.closed | self._machines.unwanted

        def rank(firm: str) -> tuple[int, int]:
            row = rows[firm]
            if attempt is not None and row.machine == attempt.machine:
                place = 0
            elif row.machine is None:
                place = 2
            else:
                place = 3 if row.machine in shut else 1
            return place, -row.line

        first = min(ours, key=rank)
        task.letters = task.name.letters_in(first)
        return rows[first]

    def replace(self, task: Task, row: Row, book: Book) -> bool:
        """Give a task another name in firm if it can't begin where its row is, and there is room elsewhere. Without
        room it would wait, each round would make waits dearer, and placeholders and others would lose their slots."""
        if row.machine not in self._machines.closed or task.open_attempt is not None:
            return False
        if bisect_right(self._open, book.jobs[row.job]) <= self._given:
            return False
        for letters in LETTERS:
            firm = task.name.in_firm(letters)
            if firm not in book.tasks and len(firm) <= MAX_FIRM_NAME:
                task.letters = letters
                self._given += 1
                return True
        return False


def newest_letters(task: Task, book: Book) -> str:
    """Return the letters of the row by which a task runs, or is to run, as far as firm's rows alone tell it: of the one
    where its attempt is, else of the newest."""
    named = {letters: book.tasks.get(task.name.in_firm(letters)) for letters in FIRST_LETTERS}
    rows = {letters: row for letters, row in named.items() if row is not None and row.job == task.submission.job}
    attempt = task.open_attempt

    def rank(letters: str) -> tuple[bool, int]:
        row = rows[letters]
        return attempt is not None and row.machine == attempt.machine, row.line

    return max(rows, key=rank, default="")


def open_costs(machines: Machines, book: Book) -> Iterator[int]:
    """Yield the costs of free slots where tasks can begin."""
    loads = Counter(row.machine for row in book.tasks.values())
    for name in book.machines.keys() & machines.wanted.keys() - machines.closed:
        yield from (slot_cost(book.limits.spread, slot) for slot in range(loads[name], book.machines[name]))
