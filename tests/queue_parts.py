"""Checks of parts of the queue without sockets and processes: counters, lookups, retention, checksums."""

from __future__ import annotations

import asyncio
import random
import sqlite3
import tempfile
import time
from collections import Counter
from collections.abc import Callable
from contextlib import closing, suppress
from pathlib import Path
from types import SimpleNamespace
from typing import Any
from unittest.mock import patch
from zlib import crc32

from harness.checks import Missed, require
from harness.deployed import Book, FirmdSockets, Firm, books
from firm.common import tables
from firm.viewer import view
from firm.api.rows import QueueRows
from firm.queue import queries, retention
from firm.cli import accounting as sums
from firm.common import users
from firm.queue.agents import AgentRecord, Agents, Terms
from firm.queue.backlog import Machines
from firm.common.seen_time import SeenTime
from firm.queue.core import Core
from firm.queue.firmd import Heard
from firm.queue.listing import Lists
from firm.queue.requests import Requests
from firm.queue.rows import DRAINED, Attempt, Mark, Task
from firm.queue.checksums import STARTS, columns, seal, sealed
from firm.queue.states import UserAction, Facts, state_of
from firm.queue.store import NotWritten
from firm.common.users import User
from queue_damage import ANN, BOB, Parts, attempt, submit
from queue_kit import FAST
from queue_tables import book_of

ROOT = User(0, True)
NO_MACHINES = Machines({}, set())
DAY = 86_400.0
STEPS = 400  # of changes in the check of counters
COUNTING = "WITH RECURSIVE number (it) AS (SELECT 1 UNION ALL SELECT it + 1 FROM number)"  # without end


def within(work: Callable[[Path], None]) -> Callable[[], None]:
    """Return a check that runs in an empty folder."""

    def check() -> None:
        with tempfile.TemporaryDirectory(prefix="queue-parts-", dir=FAST) as name:
            work(Path(name))

    return check


# Counters.


def know(core: Core, book: Book) -> None:
    """Give the core these rows as those of firm."""
    setattr(core.firm, "_books", SimpleNamespace(tenants={"alpha": book}))
    core.firm.reason = ""


def require_counts(core: Core) -> None:
    """The counters equal those of a walk over all tasks."""
    for user in (None, ANN.number, BOB.number):
        walked = [task for task in core.rows.live_tasks() if user in (None, task.submission.user)]
        wanted = core.counts(walked)
        require(core.states_of(user) == wanted, f"{user}: {core.states_of(user)} instead of {wanted}")
    oldest: dict[str, float] = {}
    for task in core.rows.live_tasks():
        state = state_of(core.facts(task)).value
        oldest[state] = min(oldest.get(state, task.submission.sent), task.submission.sent)
    require(core.ages() == (core.states_of(None), oldest), f"{core.ages()} instead of {oldest}")
    of_agents = [one for open_ones in core.rows.open_of_agent.values() for one in open_ones.items()]
    require(dict(of_agents) == core.rows.open and all(core.rows.open_of_agent.values()), of_agents)
    for name, job in core.rows.jobs.items():
        begun = [task for task in core.begun().values() if task.submission.job == name]
        wanted = core.counts(task for task in core.rows.live_tasks() if task.submission.job == name)
        require(core.states_with(job.counts, begun) == wanted, name)


def counters(folder: Path) -> None:
    """After random changes the counters by user and job, and the oldest, equal those of a walk."""

    async def play() -> None:
        parts, draw = Parts(folder), random.Random(7)
        await parts.begin()
        core, book = parts.core, book_of(4_096, 65_536)
        know(core, book)
        for step in range(STEPS):
            live = list(core.rows.live_tasks())
            task = draw.choice(live) if live else None
            user = draw.choice([ANN, BOB])
            match draw.choice(
                ["submit", "array", "after", "hold", "release", "cancel", "give", "place", "begin", "end"]
            ):
                case "submit":
                    submit(core, user, hold=draw.random() < 0.3)
                case "array":
                    submit(core, user, array=[1, draw.randint(1, 6)], hold=draw.random() < 0.3, job=f"j{step}")
                case "after" if task is not None:
                    owner = ANN if task.submission.user == ANN.number else BOB
                    submit(core, owner, after_any=[str(task.name)], array=[1, 3])
                case "hold" | "release" | "cancel" as change if task is not None:
                    core.change(ROOT, UserAction(change), [task])
                case "give" if task is not None:
                    book.tasks[task.firm] = books.FirmTask(task.submission.job, 1, (), 0, None, None)
                case "place" if task is not None and task.firm in book.tasks:
                    book.tasks[task.firm].machine = draw.choice([None, "m1"])
                case "begin" if task is not None and task.open_attempt is None and not task.submission.is_blocked:
                    attempt(core, task, None, step)
                case "end" if task is not None and task.attempts == 0 and not task.submission.is_blocked:
                    attempt(core, task, draw.choice([0, 1]), step)
            if step % 10 == 0:
                require_counts(core)
        await parts.store.settled()
        await core.load()
        require_counts(core)
        await parts.store.close()

    asyncio.run(play())


def no_walks(folder: Path) -> None:
    """Status, metrics, jobs and the page's submissions read counters, and examine no task that only waits."""

    async def play() -> None:
        parts = Parts(folder)
        await parts.begin()
        core, looked = parts.core, list[Task]()
        for user in (ANN, BOB):
            submit(core, user, array=[1, 2_000], hold=user is BOB)
        facts = core.facts

        def facts_of(task: Task) -> Facts:
            looked.append(task)
            return facts(task)

        setattr(core, "facts", facts_of)
        require(core.ages()[0] == Counter(queued=2_000, held=2_000), core.ages())
        require(len(Lists(core, Agents(core, Terms())).jobs(ROOT)) == 2, "two jobs")
        require(not looked, f"{len(looked):,} looks")
        await parts.store.close()

    asyncio.run(play())


def machines_of_many(folder: Path) -> None:
    """The list of machines searches all agents for none of them, which takes seconds with thousands. An agent that is
    not lost has a machine before one that is."""

    async def play() -> None:
        parts = Parts(folder)
        await parts.begin()
        agents = Agents(parts.core, Terms())
        for name, machine, is_lost in (
            ("a1", "m1", True),
            ("a2", "m1", False),
            ("a3", "m1", False),
            ("a4", "m2", True),
        ):
            agents.agents[name] = AgentRecord(name, name, {machine: 4}, 0.0, is_lost=is_lost)
        wanted = {machine: agents.of_machine(machine) for machine in ("m1", "m2")}
        with patch.object(Agents, "of_machine", side_effect=AssertionError):
            rows = Lists(parts.core, agents).machines([])
        found = {row["machine"]: (row["agent"], row["state"]) for row in rows}
        require(found == {"m1": ("a2", "silent"), "m2": ("a4", "silent")}, found)
        require(agents.by_machine() == wanted, "another agent has it")
        await parts.store.close()

    asyncio.run(play())


def attempts_of_many(folder: Path) -> None:
    """What concerns many agents or machines, as their registrations after a start, an operator's status or a drain,
    looks at all attempts once at most, and not again for each."""

    async def play() -> None:
        parts, count = Parts(folder), 20
        await parts.begin()
        core, agents = parts.core, Agents(parts.core, Terms())
        tasks = submit(core, ANN, array=[1, count]).submission.tasks
        for number, task in tasks.items():
            core.begin_attempt(task, Attempt(task.name, 1, f"a{number}", "id", f"m{number}", 1, f"{number:032x}", 0.0))
        core.rows.open = Walked(core.rows.open)
        for number in tasks:
            runs = [{"token": f"{number:032x}", "state": "running"}] if number > 1 else []
            asked = {"agent": f"a{number}", "id": "id", "machines": {f"m{number}": 1}, "runs": runs}
            await agents.register(Session(), {"ask": "register", **asked})
        require(Walked.count == 0, f"{Walked.count} looks at all attempts for {count} registrations")
        found = [told for told in agents.differences() if "is open" in told]
        require([told.partition(":")[0] for told in found] == [str(tasks[1].name)], found)
        changed, _ = await agents.set_mark([f"m{number}" for number in tasks], Mark(DRAINED, 0))
        require(len(changed) == count and Walked.count <= 1, f"{Walked.count} looks for {count} machines")
        await parts.store.close()

    asyncio.run(play())


class Walked(dict[str, Attempt]):
    """Attempts that count who looks at all of them."""

    count = 0

    def values(self) -> Any:
        Walked.count += 1
        return super().values()


def needs_that_ended(folder: Path) -> None:
    """Tasks that had ended when others were submitted to wait for them are forgotten like all that has ended, though
    their arrays went on: each end would look at all that are kept."""

    async def play() -> None:
        parts = Parts(folder)
        await parts.begin()
        core, count = parts.core, 50
        arrays = [submit(core, ANN, array=[1, 2], hold=True).submission.tasks for _ in range(count)]
        core.change(ANN, UserAction.CANCEL, [tasks[1] for tasks in arrays])
        waiting = submit(core, ANN, after_any=[str(tasks[1].name) for tasks in arrays])
        last = submit(core, ANN, after_any=[str(arrays[-1][2].name)])
        require((waiting.submission.open_needs, last.submission.open_needs) == (0, 1), "they wait for what is live")
        core.change(ANN, UserAction.CANCEL, [tasks[2] for tasks in arrays])
        core.rows.forget(10, 2**20)
        require(last.submission.open_needs == 0 and not core.rows.waiters, core.rows.waiters)
        require(len(core.rows.submissions) <= 2 + 10 // 2, f"{len(core.rows.submissions)} are in memory")
        await parts.store.settled()
        require((await core.load()).rows.live == 2, "both are there after a restart")
        await parts.store.close()

    asyncio.run(play())


def one_of_many(folder: Path) -> None:
    """A question for the output or the reasons of one task of a large array that memory has forgotten reads no other
    task: claims wait for the same thread."""

    async def play() -> None:
        parts, count = Parts(folder), 200
        await parts.begin()
        core = parts.core
        requests = Requests(core, Agents(core, Terms()), "alpha")
        array = submit(core, ANN, array=[1, count], hold=True).submission
        single = submit(core, ANN, hold=True, after_any=["1_3"])
        core.change(ANN, UserAction.CANCEL, [*array.tasks.values(), single])
        core.rows.forget(0, 0)
        require(not core.rows.submissions, "they are in memory")
        task = await requests._one(ANN, "1_7")
        require((str(task.name), task.outcome) == ("1_7", "cancelled"), task.name)
        require(len(task.submission.tasks) == 1, f"{len(task.submission.tasks)} tasks were read")
        require(str((await requests._one(ANN, "2")).name) == "2", "one without others")
        for user, text, why in (
            (ANN, "1", "1 is an array; name a task of it, as 1_1"),
            (ANN, f"1_{count + 1}", "1_201: no such task"),
            (BOB, "1_7", "1_7: no such task"),
        ):
            error = (await asyncio.gather(requests._one(user, text), return_exceptions=True))[0]
            require(str(error) == why, error)
        await parts.store.close()

    asyncio.run(play())


def needs_of_ended(folder: Path) -> None:
    """To tell what a task waits for takes no look at all tasks of the arrays that have ended."""

    async def play() -> None:
        parts, steps = Parts(folder), 0
        await parts.begin()
        core, count = parts.core, 3_000
        array = submit(core, ANN, array=[1, count], hold=True).submission
        live = submit(core, ANN, hold=True)
        waiting = submit(core, ANN, after_any=[str(array.number), str(live.name)])
        core.change(ANN, UserAction.CANCEL, list(array.tasks.values()))
        await parts.store.settled()
        rows = QueueRows(folder, core.firm)
        rows.tell_away("")

        def step() -> int:
            nonlocal steps
            steps += 1
            return 0

        opened = rows._near._opened()
        opened.set_progress_handler(step, 1)
        with patch.object(rows._near, "_opened", lambda: Watched(opened)):
            found = await rows.task(waiting.name, None)
        require(found["reason"] == f"waits for {live.name}" and 0 < steps < count, f"{steps} steps: {found['reason']}")
        await parts.store.close()

    asyncio.run(play())


class Watched:
    """A connection that keeps its progress handler."""

    def __init__(self, connection: sqlite3.Connection) -> None:
        self._connection = connection

    def __getattr__(self, name: str) -> Any:
        return getattr(self._connection, name)

    def set_progress_handler(self, *_: Any) -> None:
        """Do nothing."""


def long_reads(folder: Path) -> None:
    """The time for a list begins with its query: one that has waited for another's long one is not cut short."""

    def rest(db: sqlite3.Connection) -> list[Any]:
        db.create_function("rest", 0, lambda: time.sleep(0.02))
        return queries.fetched(db, f"{COUNTING} SELECT rest() FROM number WHERE it <= 40 LIMIT 40")

    async def play() -> None:
        parts = Parts(folder)
        await parts.begin()
        rows = QueueRows(folder, parts.core.firm)
        rows.tell_away("")
        with patch("firm.api.rows.READ_SECONDS", 1.5):
            long = asyncio.create_task(
                rows._read(lambda db: queries.fetched(db, f"{COUNTING} SELECT MAX(it) FROM number"))
            )
            await asyncio.sleep(0.3)
            require(len(await rows._read(rest)) == 40, "it takes 0.8 s")
        error = await asyncio.gather(long, return_exceptions=True)
        require([getattr(one, "name", one) for one in error] == ["too-long"], error)
        await parts.store.close()

    asyncio.run(play())


def kept_ages(folder: Path) -> None:
    """A waiting task keeps its wait when firm's rows are read again, and loses it once it begins."""

    async def play() -> None:
        parts = Parts(folder)
        await parts.begin()
        core, first, other = parts.core, book_of(64, 256), book_of(64, 256)
        first.rounds = 100

        def hear(book: Book) -> None:
            know(core, book)
            core.hear(Heard([], ""))
            core.sort(NO_MACHINES)

        hear(first)
        task = submit(core, ANN, weight=10)
        core.sort(NO_MACHINES)
        first.rounds = 130
        heavy = submit(core, ROOT, job="heavy", weight=39)
        core.sort(NO_MACHINES)
        ages = [(first.rounds - (one.since or 0), core.backlog.first(ANN.number)) for one in (task, heavy)]
        hear(other)
        ages += [(other.rounds - (one.since or 0), core.backlog.first(ANN.number)) for one in (task, heavy)]
        require([age for age, _ in ages] == [30, 0, 30, 0], ages)
        require(core.backlog.first(ANN.number) == (-40, 1, -1), core.backlog.first(ANN.number))
        other.tasks["1"] = books.FirmTask("u1001", 1, (), 0, None, "m1")
        attempt(core, task, None, 1)
        core.look_at([task.name])
        core.sort(NO_MACHINES)
        require(task.since is None and task not in core.backlog, "it has begun")
        await parts.store.close()

    asyncio.run(play())


def old_history(folder: Path) -> None:
    """Old submissions are removed in small commits, arrays of any form too, and nothing else; numbers go on."""

    async def play() -> None:
        parts = Parts(folder)
        await parts.begin()
        core = parts.core
        sizes: list[int] = []
        done = submit(core, ANN, "key-1")
        attempt(core, done, 0, 1)
        large = submit(core, ANN, array=[1, 1_200])
        core.change(ROOT, UserAction.CANCEL, large.submission.tasks.values())
        half = submit(core, BOB, array="1,3,5")
        attempt(core, half, 0, 2)
        waiter = submit(core, BOB, after_any=["3"])
        gaps = submit(core, ANN, array="2,4-6")
        core.change(ROOT, UserAction.CANCEL, gaps.submission.tasks.values())
        await parts.store.settled()
        commit, step = parts.store._commit, retention.STEP_SECONDS

        def measured(changes: list[Any]) -> None:
            sizes.append(sum(len(rows) for _, rows in changes))
            commit(changes)

        setattr(parts.store, "_commit", measured)
        retention.STEP_SECONDS = 0.0
        try:
            early = await retention.Retention(core, 30 * DAY, SeenTime(None)).remove_old()
            count = await retention.Retention(core, -1.0, SeenTime(None)).remove_old()
        finally:
            retention.STEP_SECONDS = step
        require(early == 0, f"{early} were removed at once")
        require(count == 3, f"{count} were removed")
        require(max(sizes) <= retention.MAX_ROWS + 5, f"a commit of {max(sizes)} changes")
        await parts.store.close()
        again = Parts(folder)
        kept = await again.begin()
        require(kept.rows.last_number == 5 and sorted(kept.rows.submissions) == [3, 4], sorted(kept.rows.submissions))
        rows = await again.store.read(lambda connection: tuple(connection.execute(COUNTS).fetchone()))
        require(rows == (2, 4, 1, 1, 0), f"submissions, tasks, attempts, needs, requests: {rows}")
        require(submit(again.core, ANN).submission.number == 6, "a number is given again")
        await again.store.close()
        require(waiter.submission.is_blocked, "what waits for others waits on")

    asyncio.run(play())


def clock_ahead(folder: Path) -> None:
    """A start with a clock that is far ahead removes no history; what gets old while the process runs is removed."""

    async def play() -> None:
        parts = Parts(folder)
        await parts.begin()
        attempt(parts.core, submit(parts.core, ANN), 0, 1)
        await parts.store.settled()
        kept = await parts.core.load()
        ahead, passed = time.time() + 40 * DAY, [0.0]
        clock = SeenTime(kept.newest, lambda: ahead, lambda: passed[0])
        old = retention.Retention(parts.core, 30 * DAY, clock)
        require(await old.remove_old() == 0, "it ended just now")
        passed[0] = 31 * DAY
        require(await old.remove_old() == 1, "31 days have passed")
        await parts.store.close()

    asyncio.run(play())


def damaged_history(folder: Path) -> None:
    """A task with a damaged time of its end, which makes it look old, is reported and not removed."""

    async def play() -> None:
        parts = Parts(folder)
        await parts.begin()
        attempt(parts.core, submit(parts.core, ANN), 0, 1)
        await parts.store.settled()
        with closing(sqlite3.connect(parts.store.path)) as connection:
            connection.execute("UPDATE task SET ended = 1.0")
            connection.execute("UPDATE submission SET sent = 1.0, sum = ?", [seal_of_old(connection)])
            connection.commit()
        with suppress(sqlite3.Error):
            await retention.Retention(parts.core, 30 * DAY, SeenTime(None)).remove_old()
        rows = await parts.store.read(lambda connection: tuple(connection.execute(COUNTS).fetchone()))
        require(rows[0] == 1 and "of task" in str(parts.damage), f"{rows}, {parts.damage}")
        await parts.store.close()

    asyncio.run(play())


def seal_of_old(connection: sqlite3.Connection) -> int:
    """Return the checksum of the only submission as if it were old."""
    (row,) = connection.execute(f"SELECT {columns('submission')} FROM submission").fetchall()
    return seal("submission", (*row[:6], 1.0, *row[7:9]))


COUNTS = (
    "SELECT (SELECT COUNT(*) FROM submission), (SELECT COUNT(*) FROM task), (SELECT COUNT(*) FROM attempt),"
    " (SELECT COUNT(*) FROM need), (SELECT COUNT(*) FROM request)"
)


def late_agents(folder: Path) -> None:
    """Idle machines of an absent agent, or of one with a late heartbeat, leave firm; busy ones stay."""

    async def play() -> None:
        parts = Parts(folder)
        agents = Agents(parts.core, Terms(60.0, 10.0))
        await agents.begin(await parts.begin())
        session = Session()
        await agents.register(
            session, {"ask": "register", "agent": "a1", "id": "alpha-1", "machines": {"m1": 4, "m2": 8}}
        )
        found = [agents.machines()]
        task = submit(parts.core, ANN)
        attempt(parts.core, task, None, 7)
        agents.leave(session)
        found.append(agents.machines())
        agents.agents["a1"].left -= 6.0
        found.append(agents.machines())
        await agents.register(
            session, {"ask": "register", "agent": "a1", "id": "alpha-1", "machines": {"m1": 4, "m2": 8}}
        )
        found.append(agents.machines())
        agents.agents["a1"].answered -= 31.0
        found.append(agents.machines())
        both, busy = Machines({"m1": 4, "m2": 8}, set()), Machines({"m1": 4}, {"m2"}, {"m1"})
        require(found == [both, both, busy, both, busy], found)
        await parts.store.close()
        again = Parts(folder)
        agents = Agents(again.core, Terms(60.0, 10.0))
        await agents.begin(await again.begin())
        found = [agents.machines()]
        agents.agents["a1"].left -= 6.0
        found.append(agents.machines())
        require(found == [Machines({}, set()), Machines({}, {"m2"}, {"m1"})], f"behind a restart: {found}")
        await again.store.close()

    asyncio.run(play())


def token_twice(folder: Path) -> None:
    """An attempt with the token of another one is not written, and takes nothing from that one."""

    async def play() -> None:
        parts = Parts(folder)
        await parts.begin()
        first, second = submit(parts.core, ANN), submit(parts.core, BOB)
        attempt(parts.core, first, 0, 1)
        await parts.store.settled()
        attempt(parts.core, second, None, 1)
        try:
            await parts.store.settled()
        except NotWritten as error:
            require("UNIQUE" in str(error) and not parts.damage, f"{error} {parts.damage}")
        else:
            raise Missed("it is written")
        require(await parts.store.try_again(), "the disk takes changes")
        tokens = await parts.store.read(lambda connection: connection.execute("SELECT number FROM attempt").fetchall())
        require(tokens == [(1,)], tokens)
        await parts.store.close()

    asyncio.run(play())


def zero_of_either_sign(folder: Path) -> None:
    """An agent's times of -0.0, which the database stores as 0.0, are no damage."""

    async def play() -> None:
        parts = Parts(folder)
        agents, session, line = Agents(parts.core, Terms(60.0, 10.0)), Session(), "{:032x}".format
        await agents.begin(await parts.begin())
        await agents.register(session, {"ask": "register", "agent": "a1", "id": "alpha-1", "machines": {"m1": 4}})
        for number in (1, 2):
            attempt(parts.core, submit(parts.core, ANN), None, number)
        running = {"token": line(1), "event": "running", "time": -0.0}
        ended = {"token": line(2), "event": "ended", "status": 0, "time": -0.0, "seconds": -0.0}
        require(await agents.told(session, {"ask": "told", "events": [running, ended]}) == 2, "both are taken")
        await parts.store.close()
        again = Parts(folder)
        kept = await again.begin()
        require([attempt.began for attempt in kept.rows.open.values()] == [0.0], kept.rows.open)
        await again.store.close()

    asyncio.run(play())


def seals_of_letters(_: Path) -> None:
    """The checksum of a row does not depend on the letters that Python knows: a further version would take the row for
    a damaged one."""
    for letter, text in {"\u00e9": "\\xe9", "\u4e2d": "\\u4e2d", "\U0001fae8": "\\U0001fae8"}.items():
        row = (1_000, letter, 1, "[]")
        wanted = crc32(f"(1000, '{text}', 1, '[]')".encode(), STARTS["request"])
        require((seal("request", row), sealed("request", [row])) == (wanted, [(*row, wanted)]), f"the letter {text}")


def default_jobs(folder: Path) -> None:
    """If a user's login name looks like another user's default job, the user's default job has the number as its
    name."""
    names = {61_201: "u5", 61_202: "u61202", 61_203: "u05", 61_204: "ann", 61_205: "12"}
    with patch.object(users, "name_of", names.get):
        found = [users.job_of(number) for number in names]
    require(found == ["u61201", "u61202", "u05", "ann", "u61205"], found)


class Session:
    """A connection of an agent, which nobody reads."""

    user = User(0, True)
    is_remote = False

    def tell(self, words: dict[str, Any]) -> None:
        """Discard it."""

    def end(self) -> None:
        """Do nothing."""

    def is_gone(self) -> bool:
        return False


def counted_anew(folder: Path) -> None:
    """Replies from before a tenant's retirement, or from meanwhile, delay nothing after it is admitted again."""

    async def play() -> None:
        firm = Firm(FirmdSockets("alpha", folder / "view", folder / "lines"), lambda heard: None)
        lines = iter(range(2, 100))

        def tell(line: str, reply: str) -> None:
            firm._take_in({"number": next(lines), "line": line, "reply": reply})

        firm._take_in({"book": view.rows_of(book_of(64, 256)), "state": "first"} | {})
        for number in range(1, 4):
            tell(f"alpha job j{number} 1", f"alpha {number} ok")
        firm._answered = 3
        require(firm.is_current, "all is heard of")
        tell("+ retire alpha", "+ ok retired alpha")
        require(firm.reason == "firm has no tenant alpha", firm.reason)
        tell("+ admit alpha,64,256,1000000,0,5", "+ ok admitted alpha")
        require(firm.is_current and firm.book is not None and not firm.book.jobs, "it has begun anew")

        async def answer(reader: asyncio.StreamReader, writer: asyncio.StreamWriter) -> None:
            await reader.readline()
            tell("+ retire alpha", "+ ok retired alpha")
            tell("+ admit alpha,64,256,1000000,0,5", "+ ok admitted alpha")
            writer.write(b"alpha 500 ok\n")

        async with await asyncio.start_unix_server(answer, folder / "lines"):
            (reply,) = await firm.say(["show"])
            require(reply.number == 500 and firm.is_current, f"{reply} of the tenant that was retired meanwhile")
            firm.close()

    asyncio.run(play())


def cells(_: Path) -> None:
    """A cell of CSV steers no terminal, breaks no line and is no formula; numbers stay."""
    found = [sums.safe_cell(value) for value in ("=1\x1b[2J", "no such command: ./\n\r\x9b", "a b", -1.5, None)]
    require(found == ["'=1\\x1b[2J", "no such command: ./\\n\\r\\x9b", "a b", -1.5, None], found)


def sizes(_: Path) -> None:
    """Bytes are shown in people's notation."""
    wanted = {
        None: "-",
        0: "0",
        1_023: "1023",
        10_250: "10K",
        2**20 - 1: "1024K",
        3 * 2**29: "1.5G",
        2**50: "1024T",
    }
    found = {count: tables.size(count) for count in wanted}
    require(found == wanted, found)


# An agent's state.


CHECKS: dict[str, Callable[[], None]] = {
    "counters": within(counters),
    "no walks": within(no_walks),
    "machines of many": within(machines_of_many),
    "attempts of many": within(attempts_of_many),
    "needs that ended": within(needs_that_ended),
    "one of many": within(one_of_many),
    "needs of ended": within(needs_of_ended),
    "long reads": within(long_reads),
    "kept ages": within(kept_ages),
    "old history": within(old_history),
    "clock ahead": within(clock_ahead),
    "damaged history": within(damaged_history),
    "cells": within(cells),
    "sizes": within(sizes),
    "late agents": within(late_agents),
    "token twice": within(token_twice),
    "zero of either sign": within(zero_of_either_sign),
    "default jobs": within(default_jobs),
    "counted anew": within(counted_anew),
    "seals of letters": within(seals_of_letters),
}
