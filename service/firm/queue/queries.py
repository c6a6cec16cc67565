"""What is read from the database: rows for memory at a start, and lists of what has ended."""

from __future__ import annotations

import json
import sqlite3
import sys
from collections.abc import Collection, Iterable, Sequence
from contextlib import closing
from dataclasses import dataclass, replace
from typing import Any, NamedTuple

from .checksums import COLUMNS, WIDTHS, Damaged, columns, opened, require_words
from .rows import SINGLE, Attempt, Mark, Name, Need, LiveRows, Spec, Submission, Task

AT_ONCE = 500  # numbers in one query
IS_OWN = "(? IS NULL OR user = ?)"  # a submission is this user's, where one is named
WORDLESS = Spec((), "/")
Place = tuple[float, int, int]  # in the history: end, number and index
# Tasks, each with its last attempt beside it.
TASKS = f"SELECT {columns('task', 't')}, {columns('attempt', 'a')} FROM task t"
LAST = "LEFT JOIN attempt a ON (a.number, a.idx, a.attempt) = (t.number, t.idx, t.attempts)"
COMMIT = "commit"  # the row of `meta` that each commit writes
HISTORY = "number index user job submitted attempt agent machine run began ended seconds outcome status reason".split()
HISTORY += ["output", "host", "max_rss", "cpu_seconds"]
# Columns of the attempt of a task that ended without one.
UNKNOWN = "agent machine run began seconds output host max_rss cpu_seconds".split()
UNBEGUN = dict.fromkeys(UNKNOWN, None) | {"attempt": 0}
UNBEGUN_ALONE = {"attempt": "", "task": " AND x.attempts = 0"}  # condition of a query of the history
DROPPING = "dropping"  # row of `meta`: the number of a submission whose rows are being removed
MODULUS = 2**64  # of sums of checksums


class CommitSummary(NamedTuple):
    """Summary of the database as of a commit."""

    number: int  # of commits
    last: int  # the highest number of a submission
    live: int  # sum of the checksums of live tasks and attempts, of agents, marks and the lease

    @classmethod
    def read(cls, text: str) -> CommitSummary:
        number, last, live = text.split()
        return cls(int(number), int(last), int(live, 16))

    def text(self) -> str:
        return f"{self.number} {self.last} {self.live % MODULUS:x}"


@dataclass(frozen=True, slots=True)
class StoredState:
    """What the database knows at a start."""

    rows: LiveRows
    agents: dict[str, tuple[str, dict[str, int]]]  # id and machines with slots, by name
    marks: dict[str, Mark]  # of machines
    spent: dict[int, tuple[float, float]]  # bytes, and when, by user
    lease: float | None  # the longest that agents may have; None: of an older queue, or a new database
    point: CommitSummary
    seals: dict[tuple[str, str], int]  # checksums of agents, marks and the lease, by table and key
    newest: float | None = None  # time of the last submission or end, by the Unix clock


@dataclass(frozen=True, slots=True)
class TaskFilter:
    """Which rows are asked for; None: of all."""

    user: int | None = None
    job: str | None = None
    since: float | None = None
    until: float | None = None
    name: tuple[int, int | None] | None = None
    limit: int = 10_000
    before: Place | None = None  # of the row after the last one
    last: Place | None = None  # of the oldest row that is looked at


def load(connection: sqlite3.Connection) -> StoredState:
    """Return the submissions with live tasks. Their needs that ended were met: otherwise the tasks had ended too. Raise
    `Damaged` at a missing or changed row."""
    point = point_of(connection)
    rows = LiveRows(point.last)
    live = {number for (number,) in fetched(connection, "SELECT DISTINCT number FROM task WHERE outcome IS NULL")}
    for submission in submissions(connection, live):
        rows.add(submission)
    small = {table: table_of(connection, table) for table in ("agent", "mark", "spent")}
    lease = value_of(connection, "lease")
    seals = {(table, row[0]): row[-1] for table in ("agent", "mark") for row in small[table]}
    seals |= {("meta", row[0]): row[-1] for row in table_of(connection, "meta") if row[0] == "lease"}
    sums = [task.seal for task in rows.live_tasks()] + [attempt.seal for attempt in rows.open.values()]
    if (sum(sums) + sum(seals.values()) - point.live) % MODULUS:
        raise Damaged("what has not ended is not all there, or as it was at the last commit")
    agents = {name: (agent_id, json.loads(machines)) for name, agent_id, machines, _ in small["agent"]}
    spent = {user: (size, at) for user, size, at, _ in small["spent"]}
    marks = {machine: Mark(*mark) for machine, *mark, _ in small["mark"]}
    place = (None if lease is None else float(lease), point, seals, newest(connection))
    return StoredState(rows, agents, marks, spent, *place)


def newest(connection: sqlite3.Connection) -> float | None:
    """Return the time of the last submission or end, if any."""
    times = ["SELECT sent FROM submission ORDER BY number DESC LIMIT 1"]
    for table, alone in UNBEGUN_ALONE.items():
        times.append(f"SELECT ended FROM {table} x WHERE outcome IS NOT NULL{alone} ORDER BY ended DESC LIMIT 1")
    return max((time for words in times for (time,) in fetched(connection, words)), default=None)


def table_of(connection: sqlite3.Connection, table: str) -> list[Any]:
    """Return all rows of a small table, with their checksums."""
    found = fetched(connection, f"SELECT {columns(table)} FROM {table}")
    for row in found:
        opened(table, row)
    return found


def value_of(connection: sqlite3.Connection, name: str) -> str | None:
    """Return a value of `meta`, if any."""
    found = fetched(connection, f"SELECT {columns('meta')} FROM meta WHERE name = ?", (name,))
    return str(opened("meta", found[0])[1]) if found else None


def point_of(connection: sqlite3.Connection) -> CommitSummary:
    text = value_of(connection, COMMIT)
    if text is None:
        raise Damaged(f"{COMMIT} is missing in meta")
    return CommitSummary.read(text)


def submissions(
    connection: sqlite3.Connection,
    numbers: Iterable[int],
    owner: int | None = None,
    most: int = -1,
    index: int | None = None,
) -> list[Submission]:
    """Submissions, of a user or of all, with their tasks, up to a number or all, or those of an index, and the last
    attempt of each."""
    wanted, found = sorted(numbers), list[Submission]()
    for at in range(0, len(wanted), AT_ONCE):
        by_number, texts, counts = dict[int, Submission](), dict[int, str](), dict[int, int]()
        marks, values = marks_of(wanted[at : at + AT_ONCE]), [*wanted[at : at + AT_ONCE], owner, owner]
        words = f"SELECT {columns('submission')}, spec FROM submission WHERE number IN ({marks})"
        for row in fetched(connection, f"{words} AND {IS_OWN}", values):
            submission = whole_of(row)
            by_number[submission.number], texts[submission.number] = submission, row[-1]
            counts[submission.number] = row[7]
        some = list(by_number)
        marks = marks_of(some)
        needed: dict[int, list[Need]] = {}
        words = f"SELECT {columns('need')} FROM need WHERE number IN ({marks}) ORDER BY number, place"
        for row in fetched(connection, words, some):
            number, _, needs, place, is_ok = opened("need", row)
            needed.setdefault(number, []).append(Need(needs, place, bool(is_ok)))
        for number, submission in by_number.items():
            submission.needs = tuple(needed.get(number, ()))
            if len(submission.needs) != counts[number]:
                raise Damaged(f"the submission {number} has {len(submission.needs)} of {counts[number]} needs")
            submission.measure(texts[number])
        left = most
        words, values = f"{TASKS} {LAST} WHERE t.number IN ({marks})", [*some]
        if index is not None:
            words, values = f"{words} AND t.idx = ?", [*some, index]
        for row in fetched(connection, f"{words} ORDER BY 1, 2 LIMIT ?", [*values, most]):
            add_task(by_number[row[0]], row)
            left -= 1
        if left and index is None:
            for submission in by_number.values():
                require_all(submission, len(submission.tasks))
        found += by_number.values()
    return found


def head_of(row: tuple[Any, ...]) -> Submission:
    """Return a submission without words, needs and tasks."""
    number, user, job, weight, first, last, sent, _, _ = opened("submission", row)
    return Submission(number, user, job, weight, WORDLESS, first, last, sent)


def whole_of(row: tuple[Any, ...]) -> Submission:
    """Return a submission with its words, the row's last column."""
    submission = head_of(row)
    require_words(submission.number, row[-1], row[8])
    submission.spec = spec_of(row[-1])
    return submission


def require_all(submission: Submission, tasks: int) -> None:
    """Raise `Damaged` unless a submission, whose words are known, has this number of tasks."""
    if tasks != len(submission.indices):
        raise Damaged(f"the submission {submission.number} has {tasks} of {len(submission.indices)} tasks")


def forgotten(connection: sqlite3.Connection, numbers: Sequence[int], owner: int | None, most: int) -> list[Submission]:
    """The same of such as have ended, without what may take much: words, needs and attempts."""
    words = f"SELECT {columns('submission')} FROM submission WHERE number IN ({marks_of(numbers)}) AND {IS_OWN}"
    read = map(head_of, fetched(connection, words, [*numbers, owner, owner]))
    found = {submission.number: submission for submission in read}
    words = f"SELECT {columns('task')} FROM task WHERE number IN ({marks_of(found)}) LIMIT ?"
    left = most
    with closing(connection.execute(words, [*found, most])) as rows:
        for row in rows:
            left -= 1
            task = task_of(found[row[0]], row)
            if task.outcome is None:  # submitted meanwhile: memory has it
                continue
            task.outcome = sys.intern(task.outcome)
            task.submission.tasks[task.index] = task
            if task.outcome != "done":
                task.submission.add_failure(task)
    return list(found.values())


def has_token(connection: sqlite3.Connection, token: str) -> bool:
    """Return whether an attempt has a token."""
    return bool(fetched(connection, "SELECT 1 FROM attempt WHERE token = ?", (token,)))


def marks_of(values: Collection[object]) -> str:
    return ", ".join("?" * len(values))


def add_task(submission: Submission, row: tuple[Any, ...]) -> None:
    """Add a task with its last attempt, from a row of `TASKS`."""
    task = task_of(submission, row)
    rest = row[WIDTHS["task"] :]
    if rest[0] is not None:
        task.attempt = attempt_of(rest)
    elif task.attempts:
        raise Damaged(f"the attempt {task.attempts} of {task.name} is missing")
    submission.tasks[task.index] = task
    submission.live += task.is_live
    if task.outcome not in (None, "done"):
        submission.add_failure(task)


def task_of(submission: Submission, row: tuple[Any, ...]) -> Task:
    _, index, is_held, is_cancelled, failures, lost, outcome, status, reason, ended, attempts = opened("task", row)
    task = Task(submission, index, bool(is_held), bool(is_cancelled), failures, lost, outcome, status, reason, ended)
    task.attempts, task.seal = attempts, row[WIDTHS["task"] - 1] if outcome is None else 0
    return task


def attempt_of(row: tuple[Any, ...]) -> Attempt:
    number, index, *rest = opened("attempt", row)
    found = Attempt(Name(number, index), *rest)
    found.is_kept = bool(found.is_kept)
    found.seal = row[WIDTHS["attempt"] - 1] if found.is_open else 0
    return found


def attempts_of(connection: sqlite3.Connection, name: Name) -> list[Attempt]:
    words = f"SELECT {columns('attempt')} FROM attempt WHERE number = ? AND idx = ? ORDER BY attempt"
    return [attempt_of(row) for row in fetched(connection, words, (name.number, name.index))]


def spec_of(text: str) -> Spec:
    given = json.loads(text)
    given["command"], given["near"] = tuple(given["command"]), tuple(given["near"])
    return Spec(**given)


def answer_to(connection: sqlite3.Connection, user: int, key: str) -> Any:
    """What was answered to a request with this key; None where there was none."""
    found = fetched(connection, f"SELECT {columns('request')} FROM request WHERE user = ? AND key = ?", (user, key))
    return json.loads(opened("request", found[0])[-1]) if found else None


def history(connection: sqlite3.Connection, asked: TaskFilter) -> list[dict[str, Any]]:
    """Return the newest ended attempts, and tasks that ended without one, oldest first. It reads no other rows."""
    found = latest(connection, "attempt", asked) + latest(connection, "task", asked)
    found.sort(key=lambda row: (row["ended"], row["number"], row["index"]), reverse=True)
    return [shown_of(row) for row in reversed(found[: asked.limit])]


def history_from(
    connection: sqlite3.Connection, asked: TaskFilter, count: int
) -> tuple[list[dict[str, Any]], Place | None]:
    """Return a part of the history, with the place after which the next part begins, None after the last one. It looks
    at about `count` rows of each kind, whosever they are; those of one task are found at once."""
    if asked.name is not None:
        return history(connection, asked), None
    places = [row_at(connection, table, asked, count) for table in UNBEGUN_ALONE]
    last = max(filter(None, places), default=None)
    return history(connection, replace(asked, last=last)), last


def row_at(connection: sqlite3.Connection, table: str, asked: TaskFilter, count: int) -> Place | None:
    """Return the place of a row of the history, so many rows of all users after its beginning."""
    span = TaskFilter(since=asked.since, until=asked.until, before=asked.before)
    conditions, values = conditions_of(span, "x.ended")
    words = f"SELECT x.ended, x.number, x.idx FROM {table} x WHERE x.outcome IS NOT NULL{UNBEGUN_ALONE[table]}"
    order = "ORDER BY x.ended DESC, x.number DESC, x.idx DESC LIMIT 1 OFFSET ?"
    rows = fetched(connection, f"{words}{conditions} {order}", [*values, count])
    return rows[0] if rows else None


def latest(connection: sqlite3.Connection, table: str, asked: TaskFilter) -> list[dict[str, Any]]:
    """Return the attempts that ended last, or the tasks that ended last without one."""
    conditions, values = conditions_of(asked, "x.ended")
    words = f"SELECT {columns(table, 'x')}, {columns('submission', 's')} FROM {table} x"
    words += f" CROSS JOIN submission s ON s.number = x.number WHERE x.outcome IS NOT NULL{UNBEGUN_ALONE[table]}"
    words += f"{conditions} ORDER BY x.ended DESC, x.number DESC, x.idx DESC LIMIT ?"
    names, place = [*COLUMNS[table].split()], WIDTHS[table]
    found = []
    for row in fetched(connection, words, [*values, asked.limit]):
        values_of = dict(zip(names, opened(table, row)))
        of = head_of(row[place:])
        index = values_of.pop("idx")
        found.append({**UNBEGUN, **values_of, "index": index, "user": of.user, "job": of.job, "submitted": of.sent})
    return found


def shown_of(row: dict[str, Any]) -> dict[str, Any]:
    name = Name(row["number"], row["index"])
    index = None if name.index == SINGLE else name.index
    return {"task": str(name), **{key: row[key] for key in HISTORY}, "index": index}


@dataclass(slots=True)
class Old:
    """A submission that retention considers."""

    number: int
    sent: float
    is_over: bool  # all its tasks ended long enough ago
    tasks: int = 0
    rows: int = 0  # of tasks and attempts


def older(connection: sqlite3.Connection, number: int, before: float, count: int) -> list[Old]:
    """Return the next `count` submissions after a number. Raise `Damaged` at a changed row: it may look old."""
    words = f"SELECT {columns('submission')} FROM submission WHERE number > ? ORDER BY number LIMIT ?"
    heads = [head_of(row) for row in fetched(connection, words, (number, count))]
    found = {head.number: Old(head.number, head.sent, head.sent < before) for head in heads}
    old = [one.number for one in found.values() if one.is_over]
    words = f"SELECT {columns('task')} FROM task WHERE number IN ({marks_of(old)})"
    with closing(connection.execute(words, old)) as rows:
        for row in rows:
            task = opened("task", row)
            one, outcome, ended = found[task[0]], task[6], task[9]
            one.is_over &= outcome is not None and ended < before
            one.tasks, one.rows = one.tasks + 1, one.rows + 1 + task[10]
    over = [one.number for one in found.values() if one.is_over]
    words = f"SELECT {columns('submission')}, spec FROM submission WHERE number IN ({marks_of(over)})"
    for row in fetched(connection, words, over):
        require_all(whole_of(row), found[row[0]].tasks)
    return list(found.values())


def rest(connection: sqlite3.Connection, count: int) -> tuple[str, list[Any]] | None:
    """Return a statement, with values, that removes the next rows of a submission that is being removed, if any. Tasks
    come first: nothing reads attempts without a task."""
    number = value_of(connection, DROPPING)
    if number is None:
        return None
    for table, keys in (("task", "number, idx"), ("attempt", "number, idx, attempt")):
        rows = fetched(connection, f"SELECT {keys} FROM {table} WHERE number = ? LIMIT ?", (int(number), count))
        if rows:
            return f"DELETE FROM {table} WHERE ({keys}) = ({marks_of(rows[0])})", rows
    return "DELETE FROM meta WHERE name = ?", [(DROPPING,)]


def conditions_of(asked: TaskFilter, ended: str) -> tuple[str, list[Any]]:
    """Further conditions of a query over a submission `s`, each behind an AND, with their values."""
    table = ended.partition(".")[0]
    pairs: list[tuple[str, Any]] = [("s.user = ?", asked.user), ("s.job = ?", asked.job)]
    pairs += [(f"{ended} >= ?", asked.since), (f"{ended} < ?", asked.until)]
    if asked.name is not None:
        pairs += [(f"{table}.number = ?", asked.name[0]), (f"{table}.idx = ?", asked.name[1])]
    chosen = [(words, value) for words, value in pairs if value is not None]
    words, values = "".join(f" AND {words}" for words, _ in chosen), [value for _, value in chosen]
    if asked.before is not None:
        words += f" AND {ended} <= ? AND ({ended}, {table}.number, {table}.idx) < (?, ?, ?)"
        values += [asked.before[0], *asked.before]
    if asked.last is not None:
        words += f" AND {ended} >= ? AND ({ended}, {table}.number, {table}.idx) >= (?, ?, ?)"
        values += [asked.last[0], *asked.last]
    return words, values


def fetched(connection: sqlite3.Connection, words: str, values: Sequence[Any] = ()) -> list[Any]:
    with closing(connection.execute(words, values)) as found:
        return found.fetchall()


def own_jobs(connection: sqlite3.Connection, jobs: Iterable[str]) -> set[str]:
    """Those of the jobs that a submission has named."""
    words = "SELECT 1 FROM submission WHERE job = ? LIMIT 1"
    return {job for job in jobs if fetched(connection, words, (job,))}
