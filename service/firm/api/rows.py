"""Rows of a tenant: of its queue's database, which the queue alone writes, and of firm, as the view tells them.

Reads take no time of the queue's. Small ones are made in the loop, lists in a thread.
"""

from __future__ import annotations

import asyncio
import sqlite3
import time
from collections.abc import Callable, Iterable, Iterator, Mapping, Sequence
from concurrent.futures import ThreadPoolExecutor
from dataclasses import dataclass, field, replace
from functools import partial
from math import inf
from pathlib import Path
from typing import Any, TypeVar

from ..common.books import Book
from ..common.fields import Json
from ..common.threads import Threads
from ..common.users import know
from ..queue.answers import in_turns
from ..queue.array_limits import why_parked
from ..queue.checksums import columns
from ..queue.core import facts_of
from ..common.refused import Refused
from ..queue.firmd import Firm
from ..queue.listing import FOREIGN, TaskRows
from ..queue.placeholders import newest_letters
from ..queue.queries import AT_ONCE, LAST, TASKS, TaskFilter, add_task, attempts_of, fetched, history_from, marks_of
from ..queue.queries import whole_of
from ..queue.rows import SINGLE, Attempt, Name, Need, Submission, Task
from ..queue.states import ENDED, Facts, Needed
from ..queue.store import DATABASE

MAX_ROWS, MAX_LOOKED_AT = 1_000, 20_000  # of a page; tasks that are looked at for one, past which it ends
PART = 4_000  # of a history, and of all submissions, that are looked at before others' lists are read
ENDED_STATES = frozenset(map(str, ENDED))
MAX_WORDS = 2**22  # bytes of the words of a page's rows, and of the submissions that are read for it
READ_SECONDS, STEPS = 10.0, 10_000  # for a query of a list; of SQLite's machine, between two looks at the time
FEW = 16  # needs, and attempts, of a task that is read in the loop
NEED_BYTES = 128  # that a need counts for
NOBODY = -1  # for whom names are looked up
MAX_OWNERS = 200_000  # submissions that are added to the index of owners until it is made anew
HEAD = f"SELECT {columns('submission')}, spec FROM submission WHERE number = ?"
PART_END = "SELECT (SELECT number FROM submission WHERE number >= ? ORDER BY number LIMIT 1 OFFSET ?)"
OWNERS = "CREATE TEMP TABLE owner (user INTEGER, number INTEGER, PRIMARY KEY (user, number)) WITHOUT ROWID"
LIVE_OWNERS = """\
INSERT INTO owner SELECT DISTINCT s.user, s.number FROM task t INDEXED BY task_live CROSS JOIN submission s
ON s.number = t.number WHERE t.outcome IS NULL"""
NEW_OWNERS = "INSERT INTO owner SELECT user, number FROM submission WHERE number > ?"
# Needs that have not ended. Without the index each looks at all tasks of an array that has ended.
OPEN_NEEDS = """\
SELECT {columns} FROM need n WHERE n.number IN ({marks}) AND CASE WHEN n.idx IS NULL
THEN EXISTS (SELECT 1 FROM task t INDEXED BY task_live WHERE t.number = n.needs AND t.outcome IS NULL)
ELSE EXISTS (SELECT 1 FROM task t WHERE t.number = n.needs AND t.idx = n.idx AND t.outcome IS NULL) END
ORDER BY n.number, n.place"""
Result = TypeVar("Result")


@dataclass(frozen=True, slots=True)
class Wanted:
    """Tasks of a list: all of a submission, or those that have not ended, and such as ended in one of the states."""

    user: int | None  # None: of all
    job: str | None = None
    states: frozenset[str] = frozenset()  # none: of any
    number: int | None = None  # of a submission
    after: tuple[int, int] = (0, SINGLE - 1)  # the last one of the page before
    limit: int = MAX_ROWS

    @property
    def foreign_from(self) -> int | None:
        """The place from which on tasks are shown that are none of the queue's, once all others are."""
        return self.after[1] if self.after[0] == 0 and self.after[1] >= 0 else None

    @property
    def outcomes(self) -> list[str]:
        """The states of tasks that have ended, of a list that is not of a submission."""
        return sorted(self.states & ENDED_STATES) if self.number is None else []


@dataclass(slots=True)
class Page:
    """Tasks, with the parts of their rows; the next page, if any, begins after `last`."""

    firm: Firm
    tasks: list[Task] = field(default_factory=list)
    open_needs: set[Need] = field(default_factory=set)
    last: tuple[int, int] | None = None
    looked: int = 0  # rows

    def facts(self, task: Task) -> Facts:
        book = self.firm.rows
        if book is not None:
            task.letters = newest_letters(task, book)
            if (most := task.submission.spec.at_once) is not None and task.firm not in book.tasks:
                task.told = why_parked(most)
        return facts_of(task, book)

    def needed(self, need: Need) -> Needed:
        return Needed(need.is_ok, int(need in self.open_needs), 0)

    def why_not_begun(self, task: Task, machine: str) -> str:
        return f"{machine} has not begun it yet"


class QueueRows:
    """Reads a queue's database."""

    def __init__(self, folder: Path, firm: Firm) -> None:
        self._path, self._firm = folder / DATABASE, firm
        self._thread = ThreadPoolExecutor(1, "lists")
        self._threads = Threads()
        self._near, self._aside = ReadConnection(self._path), ReadConnection(self._path)  # of the loop; of the thread
        self._away = "it has not begun yet"  # why the rows are not to be shown, which the queue alone checks
        self.known = asyncio.Event()  # once that is told

    def tell_away(self, reason: str) -> None:
        """Take in why the rows are not to be shown; empty if they are."""
        self._away = reason
        self.known.set()

    def _require_there(self) -> None:
        if self._away:
            raise Refused("not-there", f"the queue is away: {self._away}")

    async def task(self, name: Name, user: int | None) -> Json:
        """Return a task with its attempts."""
        self._require_there()
        page, attempts = self._near.read(lambda db: self._found(db, name, user, FEW))
        if page is None:
            page, attempts = await self._read(lambda db: self._found(db, name, user, None))
        if page is None or not page.tasks:
            raise Refused("no-such-task", f"{name}: no such task")
        task = page.tasks[0]
        if name.index == SINGLE and task.index != SINGLE:
            raise Refused("no-such-task", f"{name.number} is an array; name a task of it, as {task.name}")
        await self._know(page.tasks)
        return TaskRows(page, page).detail(task, attempts)

    async def named(self, names: Sequence[Name], user: int | None) -> list[Json]:
        """Return the rows of tasks, as far as they exist and are the user's."""
        found: list[Json] = []
        left = list(names)
        while left:
            page = await self._read(partial(self._named, names=left))
            await self._know(page.tasks)
            rows = TaskRows(page, page)
            found += [rows.row(task) for task in page.tasks if user in (None, task.submission.user)]
            left = left[page.looked :]
        return found

    async def page(self, wanted: Wanted) -> tuple[list[Json], tuple[int, int] | None]:
        """Return rows of tasks, and after which task the next page begins."""
        found: list[Json] = []
        looked, left = 0, MAX_WORDS
        if wanted.foreign_from is not None:
            return found, None
        while looked <= MAX_LOOKED_AT:
            page = await self._read(partial(self._page, wanted=wanted))
            await self._know(page.tasks)
            rows = TaskRows(page, page)
            async for some in in_turns(page.tasks):
                for task in some:
                    row = rows.row(task)
                    if not wanted.states or row["state"] in wanted.states:
                        found.append(row)
                        left -= task.submission.size  # each task of an array has its words
                    if len(found) == wanted.limit or left <= 0:
                        is_last = page.last is None and task is page.tasks[-1]
                        return found, None if is_last else key_of(task)
            if page.last is None:
                return found, None
            looked += len(page.tasks)
            wanted = replace(wanted, after=page.last)
        return found, wanted.after

    async def foreign(self, wanted: Wanted, most: int) -> tuple[list[Json], tuple[int, int] | None]:
        """Return tasks in firm that the queue has not submitted, and after which place further ones come."""
        book, first = self._firm.rows, wanted.foreign_from or 0
        names = [name for name, row in book.tasks.items() if wanted.job in (None, row.job)] if book is not None else []
        numbers = sorted({name.number for name in map(Name.of_firm, names) if name is not None})
        jobs = await self._read(partial(jobs_of, numbers=numbers)) if numbers else {}
        if book is None:
            return [], None
        of_others = [name for name in names if name in book.tasks and is_foreign(name, book.tasks[name].job, jobs)]
        some = of_others[first : first + max(0, most)]
        more = first + len(some)
        empty = {"weight": None, "state": FOREIGN}
        found = [{**row, **empty} for row in tasks_in(book, some)]
        return found, (0, more) if more < len(of_others) else None

    async def history(self, asked: TaskFilter) -> list[Json]:
        """Return rows of the history, oldest first. Lists of others are read between its parts."""
        found: list[Json] = []
        while True:
            some, place = await self._read(partial(history_from, asked=asked, count=PART))
            found = some[max(0, len(found) + len(some) - asked.limit) :] + found
            if place is None or len(found) >= asked.limit:
                return found
            asked = replace(asked, before=place)

    def owner(self, number: int) -> int | None:
        """Return whose a submission is."""
        self._require_there()
        rows = self._near.read(lambda db: fetched(db, "SELECT user FROM submission WHERE number = ?", (number,)))
        return int(rows[0][0]) if rows else None

    async def _read(self, query: Callable[[sqlite3.Connection], Result]) -> Result:
        self._require_there()
        loop = asyncio.get_running_loop()
        return await loop.run_in_executor(self._thread, self._aside.read, query, READ_SECONDS)

    async def _know(self, tasks: Iterable[Task]) -> None:
        await know(self._threads, NOBODY, (task.submission.user for task in tasks))

    def _found(
        self, db: sqlite3.Connection, name: Name, user: int | None, most: int | None
    ) -> tuple[Page | None, list[Attempt]]:
        """Return a task, or the first one of a submission, with its attempts; no page where it has more needs."""
        page, rows = Page(self._firm), fetched(db, HEAD, (name.number,))
        submission = whole_of(rows[0]) if rows else None
        if submission is None or user not in (None, submission.user):
            return page, []
        for row in self._rows_of(db, name):
            add_task(submission, row)
        page.tasks = [*submission.tasks.values()]
        if most is not None and max(rows[0][7], *(task.attempts for task in page.tasks), 0) > most:
            return None, []
        words = f"SELECT {columns('need')} FROM need WHERE number = ? ORDER BY place"
        submission.needs = tuple(map(need_of, fetched(db, words, (name.number,)) if rows[0][7] else ()))
        self._open_needs(db, page, [submission] if submission.needs else [])
        return page, attempts_of(db, page.tasks[0].name) if page.tasks else []

    @staticmethod
    def _rows_of(db: sqlite3.Connection, name: Name) -> list[Any]:
        """Return the row of a task, or of the first one of a submission, with its last attempt."""
        words = f"{TASKS} {LAST} WHERE t.number = ?"
        if name.index == SINGLE:
            return fetched(db, f"{words} ORDER BY t.idx LIMIT 1", (name.number,))
        return fetched(db, f"{words} AND t.idx = ?", (name.number, name.index))

    def _named(self, db: sqlite3.Connection, names: Sequence[Name]) -> Page:
        rows = (row for name in names for row in self._rows_of(db, name) or [None])
        return self._gathered(db, rows)

    def _page(self, db: sqlite3.Connection, wanted: Wanted) -> Page:
        most, end = MAX_ROWS if wanted.states else wanted.limit, None
        if wanted.outcomes:
            ((end,),) = fetched(db, PART_END, (wanted.after[0], PART))
        tasks = self._tasks(db, wanted, most + 1, end)
        page = self._gathered(db, tasks[:most])
        if page.tasks and page.looked < len(tasks):
            page.last = key_of(page.tasks[-1])
        elif end is not None:
            page.last = end, SINGLE - 1
        return page

    def _gathered(self, db: sqlite3.Connection, rows: Iterable[Any]) -> Page:
        """Return tasks by their rows, the first ones, as far as words and needs take not too much; one at least."""
        page, size = Page(self._firm), 0
        heads = dict[int, Submission]()
        for row in rows:
            if row is not None and row[0] not in heads:
                (head,) = fetched(db, HEAD, (row[0],))
                size += len(head[-1]) + NEED_BYTES * head[7]
                if page.looked and size > MAX_WORDS:
                    break
                heads[row[0]] = whole_of(head)
                heads[row[0]].measure(head[-1])
                heads[row[0]].open_needs = head[7]
            page.looked += 1
            if row is not None:
                add_task(heads[row[0]], row)
                page.tasks.append(heads[row[0]].tasks[row[1]])
        self._open_needs(db, page, [one for one in heads.values() if one.open_needs])
        return page

    def _tasks(self, db: sqlite3.Connection, wanted: Wanted, most: int, end: int | None) -> list[Any]:
        """Return rows of tasks with their last attempts; of submissions before one, if it is given."""
        number, index = wanted.after
        values: list[Any] = [number, number, index]
        source, conditions = "task t INDEXED BY task_live", ["t.number >= ?", "(t.number, t.idx) > (?, ?)"]
        order = "t.number"
        outcomes = wanted.outcomes
        if wanted.number is not None:
            source = "task t"
            conditions.append("t.number = ?")
            values.append(wanted.number)
        elif outcomes:
            live = " OR t.outcome IS NULL" if wanted.states - ENDED_STATES else ""
            source, order = "submission s CROSS JOIN task t ON t.number = s.number", "s.number"
            conditions += [f"(t.outcome IN ({marks_of(outcomes)}){live})", "s.number >= ?"]
            values += [*outcomes, number]
            conditions += ["s.number < ?"] if end is not None else []
            values += [end] if end is not None else []
        else:
            conditions.append("t.outcome IS NULL")
        if wanted.user is not None and wanted.number is None and not outcomes:
            self._know_owners(db)
            source = f"owner o CROSS JOIN {source} ON t.number = o.number"
            conditions += ["o.user = ?", "o.number >= ?"]
            values += [wanted.user, number]
            order = "o.number"
        if wanted.job is not None or wanted.number is not None or outcomes:
            source += " CROSS JOIN submission s ON s.number = t.number" if not outcomes else ""
            conditions += ["(? IS NULL OR s.job = ?)", "(? IS NULL OR s.user = ?)"]
            values += [wanted.job, wanted.job, wanted.user, wanted.user]
        columns_of = TASKS.removesuffix("task t")
        words = f"{columns_of}{source} {LAST} WHERE {' AND '.join(conditions)} ORDER BY {order}, t.idx LIMIT ?"
        return fetched(db, words, [*values, most])

    def _know_owners(self, db: sqlite3.Connection) -> None:
        """Bring the index of submissions by their users up to date."""
        reading = self._aside
        ((newest,),) = fetched(db, "SELECT COALESCE(MAX(number), 0) FROM submission")
        if reading.owners is None or newest - reading.owners + reading.added > MAX_OWNERS or newest < reading.owners:
            db.execute("DELETE FROM owner")
            db.execute(LIVE_OWNERS)
            reading.added = 0
        elif newest > reading.owners:
            db.execute(NEW_OWNERS, (reading.owners,))
            reading.added += newest - reading.owners
        reading.owners = newest

    @staticmethod
    def _open_needs(db: sqlite3.Connection, page: Page, submissions: Sequence[Submission]) -> None:
        """Look up which needs of submissions have not ended."""
        found: dict[int, list[Need]] = {one.number: [] for one in submissions}
        numbers = list(found)
        for at in range(0, len(numbers), AT_ONCE):
            some = numbers[at : at + AT_ONCE]
            words = OPEN_NEEDS.format(columns=columns("need", "n"), marks=marks_of(some))
            for row in fetched(db, words, some):
                found[row[0]].append(need_of(row))
        for submission in submissions:
            needs = found[submission.number]
            page.open_needs.update(needs)
            submission.open_needs, submission.needs = len(needs), submission.needs or tuple(needs)


class ReadConnection:
    """A connection to a database, which is opened anew where the file is another one."""

    def __init__(self, path: Path) -> None:
        self._path = path
        self._inode = 0
        self._db: sqlite3.Connection | None = None
        self.owners: int | None = None  # the last submission that the index of owners has; None: it is not made
        self.added = 0  # since it was made

    def read(self, query: Callable[[sqlite3.Connection], Result], seconds: float = inf) -> Result:
        """Return the result of a query over one snapshot. Raise `Refused` if it can't be read, or takes longer than
        this: a wait for earlier queries doesn't count."""
        try:
            db, ends = self._opened(), time.monotonic() + seconds
            db.set_progress_handler((lambda: time.monotonic() > ends) if seconds < inf else None, STEPS)
            db.execute("BEGIN")
            try:
                return query(db)
            finally:
                db.commit()  # of the index of owners, which is this connection's own
        except (sqlite3.Error, OSError) as error:
            self._close()
            is_late = "interrupted" in str(error)
            raise Refused("too-long" if is_late else "not-read", f"the queue's rows can't be read: {error}") from error

    def _opened(self) -> sqlite3.Connection:
        inode = self._path.stat().st_ino
        if self._db is None or inode != self._inode:
            self._close()
            uri = f"file:{self._path}?mode=ro"
            self._db = sqlite3.connect(uri, uri=True, isolation_level=None, timeout=1.0, check_same_thread=False)
            self._db.execute("PRAGMA temp_store = memory")
            self._db.execute(OWNERS)
            self._inode = inode
        return self._db

    def _close(self) -> None:
        if self._db is not None:
            self._db.close()
        self._db = self.owners = None


def jobs_of(db: sqlite3.Connection, numbers: Sequence[int]) -> dict[int, str]:
    """Return the jobs of submissions."""
    found: dict[int, str] = {}
    for at in range(0, len(numbers), AT_ONCE):
        some = numbers[at : at + AT_ONCE]
        found |= dict(fetched(db, f"SELECT number, job FROM submission WHERE number IN ({marks_of(some)})", some))
    return found


def is_foreign(firm: str, job: str, jobs: Mapping[int, str]) -> bool:
    """Return whether a task in firm is none of the queue's, whose submissions have these jobs."""
    name = Name.of_firm(firm)
    return name is None or jobs.get(name.number) != job


def key_of(task: Task) -> tuple[int, int]:
    return task.submission.number, task.index


def need_of(row: tuple[Any, ...]) -> Need:
    return Need(row[2], row[3], bool(row[4]))


# Rows of firm alone, for tenants without a queue.


def machines_in(book: Book) -> list[Json]:
    empty = {"agent": None, "host": None, "state": "up", "reason": ""}
    return [
        {"machine": name, "slots": found.slots, **empty, "tasks": found.tasks, "open": len(found.tasks)}
        for name, found in book.loads().items()
    ]


def jobs_in(book: Book) -> list[Json]:
    found: dict[str, Json] = {
        job: {"job": job, "user": None, "weight": weight, "states": {}} for job, weight in book.jobs.items()
    }
    for task in book.tasks.values():
        states, state = found[task.job]["states"], "running" if task.machine else "waiting"
        states[state] = states.get(state, 0) + 1
    return list(found.values())


def tasks_in(book: Book, names: Iterable[str]) -> Iterator[Json]:
    """Yield firm's tasks, as the queue shows those that it has not submitted."""
    unknown = "number index user agent submitted began ended seconds status time command".split()
    for name in names:
        if (task := book.tasks.get(name)) is not None:
            row: Json = {"task": name, "firm": name, "job": task.job, "weight": book.jobs[task.job], "attempt": 0}
            state = "running" if task.machine else "waiting"
            yield {**dict.fromkeys(unknown), **row, "state": state, "reason": "", "machine": task.machine}
