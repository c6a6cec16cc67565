"""The database: what the queue has acknowledged. Each change is written by a thread of the store's own.

Changes that are made while the thread waits for the disk share its next commit, and `settled` says when a commit has
all that was changed before. Where a commit fails, so does all that was changed since: memory is to be read anew, and
again once the disk takes writes. Until then nothing is changed. While a commit takes long, as on a disk that hangs, no
further changes are begun; what it has may be on the disk in the end, so nobody is told that it is refused.

Each commit writes its number, and the sum of the checksums of all live rows, into a row of `meta`. So a start finds
missing and older rows without reading ended ones.
"""

from __future__ import annotations

import asyncio
import json
import os
import secrets
import sqlite3
import threading
import time
from collections.abc import Callable, Iterable, Sequence
from concurrent.futures import ThreadPoolExecutor
from contextlib import closing, suppress
from dataclasses import fields
from functools import partial
from pathlib import Path
from typing import IO, Any, TypeVar

from ..common.faults import RESTORE, Exit, Fault
from ..common.files import replace_synced
from ..common.lock import lock_alone
from ..common.logs import ERROR, INFO, tell
from .audit import PAUSE_SECONDS, audit
from .checksums import COLUMNS, KEYS, SUM, Damaged, is_damage, places, seal, sealed, seals_of_new, words_seal
from .commit_count import Reach
from .disk_budget import WEEK_SECONDS
from .queries import COMMIT, DROPPING, CommitSummary, point_of, value_of
from .rows import Attempt, Mark, Spec, Submission, Task

DATABASE, ID, REACH = "queue.db", "id", "reach"
VERSION = 5
APPLICATION = 0x6669726D  # tells the file from other programs'
LATE_SECONDS = 30.0  # after which a commit takes long
AGAIN_SECONDS = 1.0  # between two tries to write the number of a commit
BUSY_SECONDS = 5.0  # for another program that reads the database, as for a copy
# Bytes of the write-ahead log, seconds between two waits for its readers, and of one, in which nothing is written.
MOST_LOG, LOOK_SECONDS, READERS_SECONDS = 2**26, 30.0, 2.0
AT_START_BYTES = 2**23  # of a database that is checked before it is served; a larger one is checked meanwhile
HEADER_BYTES = b"\x02\x02"  # at 18 in a file with a write-ahead log
SCHEMA = """
CREATE TABLE meta (name TEXT PRIMARY KEY, value TEXT NOT NULL, sum INTEGER NOT NULL) WITHOUT ROWID;
CREATE TABLE submission (
    number INTEGER PRIMARY KEY, user INTEGER NOT NULL, job TEXT NOT NULL, weight INTEGER NOT NULL,
    first INTEGER, last INTEGER, sent REAL NOT NULL, needs INTEGER NOT NULL, words INTEGER NOT NULL,
    sum INTEGER NOT NULL, spec TEXT NOT NULL);
CREATE INDEX submission_job ON submission (job);
CREATE TABLE request (
    user INTEGER NOT NULL, key TEXT NOT NULL, number INTEGER NOT NULL, answer TEXT NOT NULL, sum INTEGER NOT NULL,
    PRIMARY KEY (user, key)) WITHOUT ROWID;
CREATE INDEX request_number ON request (number);
CREATE TABLE need (
    number INTEGER NOT NULL, place INTEGER NOT NULL, needs INTEGER NOT NULL, idx INTEGER, is_ok INTEGER NOT NULL,
    sum INTEGER NOT NULL, PRIMARY KEY (number, place)) WITHOUT ROWID;
CREATE TABLE task (
    number INTEGER NOT NULL, idx INTEGER NOT NULL, is_held INTEGER NOT NULL, is_cancelled INTEGER NOT NULL,
    failures INTEGER NOT NULL, lost INTEGER NOT NULL, outcome TEXT, status INTEGER, reason TEXT NOT NULL, ended REAL,
    attempts INTEGER NOT NULL, sum INTEGER NOT NULL, PRIMARY KEY (number, idx)) WITHOUT ROWID;
CREATE INDEX task_live ON task (number) WHERE outcome IS NULL;
CREATE INDEX task_unbegun ON task (ended) WHERE outcome IS NOT NULL AND attempts = 0;
CREATE TABLE attempt (
    number INTEGER NOT NULL, idx INTEGER NOT NULL, attempt INTEGER NOT NULL, agent TEXT NOT NULL,
    agent_id TEXT NOT NULL, machine TEXT NOT NULL, run INTEGER NOT NULL, token TEXT NOT NULL UNIQUE,
    claimed REAL NOT NULL, began REAL, ended REAL, seconds REAL, outcome TEXT, status INTEGER, reason TEXT NOT NULL,
    output TEXT, host TEXT, is_kept INTEGER NOT NULL, runs_as INTEGER, max_rss INTEGER, cpu_seconds REAL,
    sum INTEGER NOT NULL, PRIMARY KEY (number, idx, attempt)) WITHOUT ROWID;
CREATE INDEX attempt_ended ON attempt (ended) WHERE outcome IS NOT NULL;
CREATE TABLE agent (
    name TEXT PRIMARY KEY, id TEXT NOT NULL, machines TEXT NOT NULL, sum INTEGER NOT NULL) WITHOUT ROWID;
CREATE TABLE mark (
    machine TEXT PRIMARY KEY, mark TEXT NOT NULL, user INTEGER, reason TEXT NOT NULL, sum INTEGER NOT NULL
) WITHOUT ROWID;
CREATE TABLE spent (user INTEGER PRIMARY KEY, bytes REAL NOT NULL, at REAL NOT NULL, sum INTEGER NOT NULL);
"""
FIELDS = fields(Spec)
ADD = {table: f"INSERT INTO {table} VALUES ({places(table)})" for table in ("need", "request")}
ADD["task"] = "INSERT INTO task VALUES (?, ?, ?, 0, 0, 0, NULL, NULL, '', NULL, 0, ?)"  # a new one
ADD["submission"] = f"INSERT INTO submission VALUES ({places('submission')}, ?)"
REPLACE = {name: f"INSERT OR REPLACE INTO {name} VALUES ({places(name)})" for name in COLUMNS if name not in ADD}
VALUES = (*COLUMNS["attempt"].split()[KEYS["attempt"] :], SUM)
REPLACE["attempt"] = (  # no row of another attempt, as of one with the same token
    f"INSERT INTO attempt VALUES ({places('attempt')}) ON CONFLICT (number, idx, attempt)"
    f" DO UPDATE SET ({', '.join(VALUES)}) = ({', '.join(f'excluded.{name}' for name in VALUES)})"
)
SAVE = """\
UPDATE task SET (is_held, is_cancelled, failures, lost, outcome, status, reason, ended, attempts, sum)
= (?, ?, ?, ?, ?, ?, ?, ?, ?, ?) WHERE number = ? AND idx = ?"""
Change = tuple[str, Sequence[tuple[Any, ...]]]  # a statement, and the values of each time it is made
Changed = dict[int, set[int]]  # indexes of tasks, by the submission's number
Result = TypeVar("Result")


class NotWritten(Exception):
    """The disk does not take a change, so there is none."""


class Store:
    """One database, which this process alone writes."""

    def __init__(self, folder: Path, tenant: str) -> None:
        self.folder, self.path, self._tenant = folder, folder / DATABASE, tenant
        self._log, self._next_look = folder / f"{DATABASE}-wal", 0.0
        self.why_bad = ""  # why nothing can be written
        self._why_late = ""  # why nothing is to be written: a commit takes long
        self._lateness: asyncio.TimerHandle | None = None  # of the commit that is under way
        self._is_ahead = False  # memory has what a commit that failed has lost
        self.on_failure: Callable[[], None] = lambda: None
        self.on_damage: Callable[[Fault], None] = lambda fault: None
        self.on_commit: Callable[[Changed], None] = lambda changed: None
        self._writer = ThreadPoolExecutor(1, "store")
        self._reader = ThreadPoolExecutor(1, "reader")
        self._lister = ThreadPoolExecutor(1, "lister")
        self._auditor = ThreadPoolExecutor(1, "auditor")
        self._connection: sqlite3.Connection  # of the writer's thread alone
        self._reading: sqlite3.Connection  # of the reader's
        self._listing: sqlite3.Connection  # of the lister's
        self._auditing: sqlite3.Connection | None = None  # while the whole database is checked
        self._is_closing = threading.Event()
        self._reach: Reach  # of the writer's
        self._number = self._last = self._live = 0  # fields of the next commit's `CommitSummary`
        self._seals: dict[tuple[str, str], int] = {}  # of agents, marks and the lease, by table and key
        self._open: list[Change] = []  # what the next commit writes
        self._changed: Changed = {}  # the tasks of these changes
        self._changing: Changed = {}  # the same of the commit that is under way
        self._spent: dict[int, tuple[int, float, float]] = {}  # the same of spending, by user
        self._next: asyncio.Future[None] | None = None  # that commit
        self._current: asyncio.Future[None] | None = None  # the one that is under way

    async def lock(self) -> IO[bytes]:
        """Return a lock of the folder, which no other process has meanwhile. Raise `Fault`."""
        return await asyncio.get_running_loop().run_in_executor(self._writer, lock_alone, self.folder, 0o700)

    async def start(self) -> None:
        """Opens the database, or makes it; raises `Fault`."""
        loop = asyncio.get_running_loop()
        await loop.run_in_executor(self._writer, self._begin)
        self._reading = await loop.run_in_executor(self._reader, self._begin_reading)
        self._listing = await loop.run_in_executor(self._lister, self._begin_reading)
        self._auditing = sqlite3.connect(self._uri, uri=True, timeout=BUSY_SECONDS, check_same_thread=False)
        is_small = sum(path.stat().st_size for path in (self.path, self._log) if path.exists()) <= AT_START_BYTES
        pause = 0.0 if is_small else PAUSE_SECONDS
        audited = loop.run_in_executor(self._auditor, audit, self._auditing, self._is_closing, pause)
        if is_small:
            await asyncio.wait([audited])
            self._audited(audited, is_start=True)
        else:
            audited.add_done_callback(self._audited)

    async def close(self) -> None:
        """Ends the threads, once all is written."""
        self._is_closing.set()
        while self._current is not None:
            await asyncio.wait([self._current])
        self.why_bad = self.why_bad or "the queue has ended"
        loop = asyncio.get_running_loop()
        if self._auditing is not None:
            self._auditing.interrupt()
        self._auditor.shutdown()
        await loop.run_in_executor(self._reader, lambda: self._reading.close())
        await loop.run_in_executor(self._lister, lambda: self._listing.close())
        await loop.run_in_executor(self._writer, self._end)
        for thread in (self._reader, self._lister, self._writer):
            thread.shutdown()

    def _end(self) -> None:
        self._connection.close()
        self._reach.close()

    def _audited(self, done: asyncio.Future[None], is_start: bool = False) -> None:
        """Handle the result of a check of the whole database."""
        error, self._auditing = done.exception(), None
        if is_damage(error) and is_start:
            raise self._damage(error) from error
        if is_damage(error):
            self.on_damage(self._damage(error))
        elif error is not None and not isinstance(error, sqlite3.OperationalError):  # of a failing disk, or an end
            raise error

    def _damage(self, error: BaseException | None) -> Fault:
        return Fault(Exit.JOURNAL, f"{self.path} is damaged ({error}); {RESTORE}")

    async def read(self, query: Callable[[sqlite3.Connection], Result], aside: bool = False) -> Result:
        """Return the result of a query, which may have several statements, over one snapshot. A long one runs aside, so
        that no submission waits for it."""
        reader, connection = (self._lister, self._listing) if aside else (self._reader, self._reading)
        try:
            return await asyncio.get_running_loop().run_in_executor(reader, self._read, query, connection)
        except sqlite3.Error as error:
            self._require_whole(error)
            raise

    def _read(self, query: Callable[[sqlite3.Connection], Result], connection: sqlite3.Connection) -> Result:
        connection.execute("BEGIN")
        try:
            return query(connection)
        finally:
            connection.rollback()

    def _require_whole(self, error: BaseException) -> None:
        """End the queue if an error means damage."""
        if is_damage(error):
            self.on_damage(self._damage(error))

    async def settled(self) -> None:
        """Returns once all changes so far are on the disk; raises `NotWritten`."""
        if self._is_ahead:
            raise NotWritten(self.why_bad)
        if not self.why_bad:  # otherwise nothing is under way but tries
            await self._committed_all()

    async def settled_soon(self) -> None:
        """The same, for who only reads, or may change the same again: raises `NotWritten` too where it takes long."""
        self.require_prompt()
        try:
            async with asyncio.timeout(LATE_SECONDS):
                await self.settled()
        except TimeoutError:
            raise NotWritten(self.trouble or f"{self.path}: the disk takes long") from None

    async def _committed_all(self) -> None:
        """Returns once all that is under way is on the disk; raises `NotWritten`."""
        pending = self._next or self._current
        if pending is not None:
            await asyncio.shield(pending)

    @property
    def trouble(self) -> str:
        """Why no change is begun now; empty where all is well."""
        return self.why_bad or self._why_late

    def require_good(self) -> None:
        """Raises `NotWritten` where no change is to be begun now."""
        if self.trouble:
            raise NotWritten(self.trouble)

    def require_prompt(self) -> None:
        """Raises `NotWritten` while a commit takes long: whoever waits for it would wait as long."""
        if self._why_late:
            raise NotWritten(self._why_late)

    def read_anew(self, point: CommitSummary, seals: dict[tuple[str, str], int]) -> None:
        """Takes in that memory has been read: it has what is on the disk, and nothing else."""
        self._is_ahead, self._seals = False, seals
        self._number, self._last, self._live = point

    async def try_again(self) -> bool:
        """Whether the disk takes changes again, after a failure."""
        self._put(REPLACE["meta"], sealed("meta", [("tried", secrets.token_hex(4))]))
        try:
            await self._committed_all()
        except NotWritten:
            return False
        return True

    def go_on(self) -> None:
        """Takes changes again, in the turn of the loop in which memory has been read: one that is made while the rows
        are on their way would be on the disk alone."""
        self.why_bad = ""

    # Changes

    def add(self, submission: Submission, spec: str) -> None:
        """Writes a new submission; `spec` is its own as `text_of` has it."""
        number, needs = submission.number, submission.needs
        row = (number, submission.user, submission.job, submission.weight, submission.first, submission.last)
        head = (*row, submission.sent, len(needs), words_seal(spec))
        self._write(ADD["submission"], [(*head, seal("submission", head), spec)])
        if needs:
            rows = [(number, place, need.number, need.index, int(need.is_ok)) for place, need in enumerate(needs)]
            self._write(ADD["need"], sealed("need", rows))
        self._add_tasks(submission)
        self._changed[number] = set(submission.tasks)
        self._last = max(self._last, number)

    def _add_tasks(self, submission: Submission) -> None:
        number, is_held = submission.number, int(submission.held > 0)
        seals = seals_of_new(number, submission.tasks, is_held)
        self._write(ADD["task"], [(number, index, is_held, one) for index, one in zip(submission.tasks, seals)])
        for task, one in zip(submission.tasks.values(), seals):
            task.seal = one
        self._live += sum(seals)

    def keep_answer(self, user: int, key: str, answer: list[Any]) -> None:
        rows = [(user, key, answer[0]["number"], json.dumps(answer))]
        self._write(ADD["request"], sealed("request", rows))

    def spend(self, user: int, size: float) -> None:
        """Write the bytes that a user has spent, once with the next commit."""
        self._spent[user] = (user, float(size), time.time())

    def save(self, tasks: Iterable[Task]) -> None:
        """Writes tasks as they are now."""
        changed = list(tasks)
        rows = sealed("task", map(row_of, changed))
        self._write(SAVE, [(*row[2:], *row[:2]) for row in rows])
        for task, row in zip(changed, rows):
            task.seal = self._count(task.seal, row[-1] if task.is_live else 0)
            self._changed.setdefault(task.submission.number, set()).add(task.index)

    def save_attempt(self, attempt: Attempt) -> None:
        """Writes an attempt as it is now."""
        place = (attempt.name.number, attempt.name.index, attempt.number, attempt.agent, attempt.agent_id)
        first = (*place, attempt.machine, attempt.run, attempt.token, attempt.claimed, attempt.began)
        last = (attempt.ended, attempt.seconds, plain(attempt.outcome), attempt.status, attempt.reason, attempt.output)
        rest = (attempt.host, int(attempt.is_kept), attempt.runs_as, attempt.max_rss, attempt.cpu_seconds)
        (row,) = sealed("attempt", [(*first, *last, *rest)])
        self._write(REPLACE["attempt"], [row])
        self._changed.setdefault(attempt.name.number, set()).add(attempt.name.index)
        attempt.seal = self._count(attempt.seal, row[-1] if attempt.is_open else 0)

    def save_agent(self, name: str, agent_id: str, machines: dict[str, int]) -> None:
        self._replace("agent", (name, agent_id, json.dumps(machines)))

    def forget_agent(self, name: str) -> None:
        self._write("DELETE FROM agent WHERE name = ?", [(name,)])
        self._count(self._seals.pop(("agent", name), 0), 0)

    def keep_lease(self, seconds: float) -> None:
        self._replace("meta", ("lease", str(seconds)))

    def mark(self, machine: str, mark: Mark | None) -> None:
        """Keeps that a machine is cordoned or drained, or is not any more."""
        if mark is not None:
            return self._replace("mark", (machine, *mark))
        self._write("DELETE FROM mark WHERE machine = ?", [(machine,)])
        self._count(self._seals.pop(("mark", machine), 0), 0)

    def drop(self, number: int, is_large: bool) -> None:
        """Remove an ended submission. `drop_rows` removes the tasks and attempts of a large one."""
        for table in ("submission", "need", "request", *(() if is_large else ("task", "attempt"))):
            self._write(f"DELETE FROM {table} WHERE number = ?", [(number,)])
        if is_large:
            self._write(REPLACE["meta"], sealed("meta", [(DROPPING, str(number))]))

    def drop_rows(self, words: str, rows: Sequence[tuple[Any, ...]]) -> None:
        self._write(words, rows)

    def forget_spent(self) -> None:
        """Remove spending that is older than a budget's week."""
        self._write("DELETE FROM spent WHERE at < ?", [(time.time() - WEEK_SECONDS,)])

    def _replace(self, table: str, values: tuple[Any, ...]) -> None:
        """Write a row of agents, marks or the lease."""
        (row,) = sealed(table, [values])
        self._write(REPLACE[table], [row])
        key = (table, values[0])
        self._seals[key] = self._count(self._seals.get(key, 0), row[-1])

    def _count(self, before: int, after: int) -> int:
        """Replace a live row's checksum in the sum, 0 for none. Return the new one."""
        self._live += after - before
        return after

    def _write(self, words: str, rows: Sequence[tuple[Any, ...]]) -> None:
        if self.why_bad:
            raise NotWritten(self.why_bad)
        if rows:
            self._put(words, rows)

    def _put(self, words: str, rows: Sequence[tuple[Any, ...]]) -> None:
        if self._next is None:
            loop = asyncio.get_running_loop()
            self._next = loop.create_future()
            loop.call_soon(self._hand_over)  # what else this turn of the loop changes shares the commit
        self._open.append((words, rows))

    # Commits

    def _hand_over(self) -> None:
        """Has the thread write what is open, unless it is at work: then its end does."""
        if self._current is not None or self._next is None:
            return
        changes, self._open = self._open, []
        self._changing, self._changed = self._changed, {}
        changes.append((REPLACE["spent"], sealed("spent", self._spent.values())))
        self._spent.clear()
        self._number += 1
        point = CommitSummary(self._number, self._last, self._live)
        changes.append((REPLACE["meta"], sealed("meta", [(COMMIT, point.text())])))
        self._current, self._next = self._next, None
        self._lateness = asyncio.get_running_loop().call_later(LATE_SECONDS, self._tell_late)
        work = partial(self._commit_known, changes, self._number)
        done = asyncio.get_running_loop().run_in_executor(self._writer, work)
        done.add_done_callback(self._committed)

    def _tell_late(self) -> None:
        self._why_late = f"{self.path}: the disk has not answered for {LATE_SECONDS:g} s"
        tell(ERROR, f"{self._why_late}: what changes something is refused until it does")

    def _end_lateness(self) -> None:
        if self._lateness is not None:
            self._lateness.cancel()
        if self._why_late:
            tell(INFO, f"{self.path}: the disk answers again")
            self._why_late = ""

    def _committed(self, done: asyncio.Future[None]) -> None:
        current, self._current = self._current, None
        if current is None:
            raise RuntimeError("a commit that nobody asked for")
        self._end_lateness()
        error = done.exception()
        if error is None:
            current.set_result(None)
            self.on_commit(self._changing)
            self._hand_over()
            return
        self._require_whole(error)
        self._number -= 1
        self._is_ahead |= not self.why_bad  # otherwise it was a try, and nothing else was changed
        self.why_bad = f"{self.path}: {error}"
        last, self._next = self._next, None
        self._open.clear()
        self._changed.clear()
        self._spent.clear()
        for future in (current, last):
            if future is not None:
                future.set_exception(NotWritten(self.why_bad))
                future.exception()  # that nobody may wait for it is no fault
        self.on_failure()

    def _commit_known(self, changes: list[Change], number: int) -> None:
        """Write changes, and then the number of commits, so that at most one is ahead. If the disk refuses the number,
        as a full one may that never writes in place, try again: the changes are made, and can't be refused any more."""
        self._commit(changes)
        is_told = False
        while True:
            try:
                return self._reach.keep(number)
            except OSError as error:
                if not is_told:
                    tell(ERROR, f"{self._reach.path}: {error}; the last changes are acknowledged once it is written")
                is_told = True
                if self._is_closing.wait(AGAIN_SECONDS):
                    raise

    def _commit(self, changes: list[Change]) -> None:
        self._connection.execute("BEGIN IMMEDIATE")
        try:
            for words, rows in changes:
                self._connection.executemany(words, rows)
            self._connection.execute("COMMIT")
        except BaseException:
            if self._connection.in_transaction:
                self._connection.execute("ROLLBACK")
            raise
        self._shorten_log()

    def _shorten_log(self) -> None:
        """Where somebody always reads, the log would grow for ever: waits for the readers from time to time."""
        now = time.monotonic()
        with suppress(sqlite3.Error, OSError):  # what was changed is on the disk all the same
            if self._auditing is None and now >= self._next_look and self._log.stat().st_size > MOST_LOG:
                self._next_look = now + LOOK_SECONDS
                self._connection.execute(f"PRAGMA busy_timeout = {1_000 * READERS_SECONDS:.0f}")
                self._connection.execute("PRAGMA wal_checkpoint(TRUNCATE)")
                self._connection.execute(f"PRAGMA busy_timeout = {1_000 * BUSY_SECONDS:.0f}")

    # Beginnings

    @property
    def _uri(self) -> str:
        return f"file:{self.path}?mode=ro"

    def _begin(self) -> None:
        try:
            self._connection = self._opened()
        except sqlite3.Error as error:
            if is_damage(error):
                raise self._damage(error) from error
            raise Fault(Exit.STATE, f"cannot use {self.path}: {error}") from error
        except OSError as error:
            raise Fault(Exit.STATE, f"cannot use {self.folder}: {error}") from error

    def _begin_reading(self) -> sqlite3.Connection:
        return sqlite3.connect(self._uri, uri=True, timeout=BUSY_SECONDS)

    def _opened(self) -> sqlite3.Connection:
        """Return the database once its owner, version and number of commits are checked."""
        mark = self.folder / ID
        name = mark.read_text("ascii", "replace").strip() if mark.exists() else None
        if name is not None and not self.path.exists():
            raise Fault(Exit.JOURNAL, f"{self.path} is missing, with which the state began; {RESTORE}")
        os.close(os.open(self.path, os.O_RDWR | os.O_CREAT, 0o600))
        for path in (self.path, self._log, self.folder / f"{DATABASE}-shm"):  # environments may have secrets
            with suppress(FileNotFoundError):
                path.chmod(0o600)
        connection = sqlite3.connect(self.path, isolation_level=None, timeout=BUSY_SECONDS)
        is_new = one(connection, "SELECT COUNT(*) FROM sqlite_schema") == 0
        if is_new and name is not None:
            raise Fault(Exit.JOURNAL, f"{self.path} is empty; {RESTORE}")
        if is_new:
            connection.execute("PRAGMA journal_mode = WAL")
            self._make(connection)
        self._look_at(connection)
        connection.execute("PRAGMA synchronous = FULL")
        kept = value_of(connection, "id") or ""
        if name not in (None, kept):
            raise Fault(Exit.JOURNAL, f"{self.path} is of another state than {mark}; {RESTORE}")
        self._reach = self._reached(kept, point_of(connection), name is None)
        if name is None:
            replace_synced(mark, f"{kept}\n".encode())
        return connection

    def _make(self, connection: sqlite3.Connection) -> None:
        words = f"BEGIN; {SCHEMA} PRAGMA application_id = {APPLICATION}; PRAGMA user_version = {VERSION};"
        connection.executescript(words)
        rows = [("id", secrets.token_hex(10)), ("tenant", self._tenant), (COMMIT, CommitSummary(0, 0, 0).text())]
        connection.executemany(REPLACE["meta"], sealed("meta", rows))
        connection.execute("COMMIT")

    def _look_at(self, connection: sqlite3.Connection) -> None:
        """Raise `Fault` or `Damaged` unless the database is of this program, version and tenant."""
        if one(connection, "PRAGMA application_id") != APPLICATION:
            raise Fault(Exit.JOURNAL, f"{self.path} is not a queue's database")
        if (version := one(connection, "PRAGMA user_version")) != VERSION:
            raise Fault(Exit.JOURNAL, f"{self.path} is of version {version}; this firm-api reads {VERSION} alone")
        with open(self.path, "rb") as file:
            header = file.read(20)[18:]
        with closing(sqlite3.connect(":memory:")) as other:
            other.executescript(SCHEMA)
            wanted = schema_of(other)
        if header != HEADER_BYTES or schema_of(connection) != wanted:
            raise Damaged("its header or its tables are not as they were written")
        tenant = value_of(connection, "tenant")
        if tenant != self._tenant:
            raise Fault(Exit.STATE, f"{self.path} is the queue of the tenant {tenant}, not of {self._tenant}")

    def _reached(self, state: str, point: CommitSummary, is_new: bool) -> Reach:
        """Return how far the commits went. Raise `Fault` if the database ends before that, or goes further."""
        path = self.folder / REACH
        reach = Reach.read(path)
        if reach is None and is_new:
            return Reach.make(path, state, point.number)
        if reach is None:
            raise Fault(Exit.JOURNAL, f"{path} is missing, with which the state began; {RESTORE}")
        if reach.state != state:
            raise Fault(Exit.JOURNAL, f"{path} is of another state than {self.path}; {RESTORE}")
        if point.number < reach.number:
            told = f"{self.path} has {point.number:,} of {reach.number:,} commits that were acknowledged"
            raise Fault(Exit.JOURNAL, f"{told}: it is older than {path}, or the end of its log is damaged; {RESTORE}")
        if point.number > reach.number + 1:
            raise Fault(Exit.JOURNAL, f"{path} is older than {self.path}; {RESTORE}")
        reach.keep(point.number)
        return reach


def schema_of(connection: sqlite3.Connection) -> list[Any]:
    with closing(connection.execute("SELECT type, name, tbl_name, sql FROM sqlite_schema ORDER BY 1, 2")) as found:
        return found.fetchall()


def one(connection: sqlite3.Connection, words: str) -> Any:
    """The only value of a query."""
    with closing(connection.execute(words)) as found:
        row = found.fetchone()
    return row[0] if row is not None else None


def row_of(task: Task) -> tuple[Any, ...]:
    """Return a task's row."""
    first = (task.submission.number, task.index, int(task.is_held), int(task.is_cancelled), task.failures, task.lost)
    return (*first, plain(task.outcome), task.status, task.reason, task.ended, task.attempts)


def plain(outcome: str | None) -> str | None:
    """Return an outcome as a plain string, as it is read again."""
    return outcome if outcome is None else str(outcome)


def text_of(spec: Spec) -> str:
    return json.dumps({each.name: getattr(spec, each.name) for each in FIELDS})  # `asdict` would copy each word
