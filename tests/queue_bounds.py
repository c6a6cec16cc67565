"""Check each bound on a user's rows, writes, reads and open files in the queue: all others keep theirs."""

from __future__ import annotations

import asyncio
import os
import pty
import sqlite3
import sys
import threading
import time
from collections.abc import Callable, Iterator
from contextlib import contextmanager
from dataclasses import replace
from functools import partial
from pathlib import Path
from types import SimpleNamespace
from typing import Any, cast
from unittest.mock import patch

from firmd_kit import memory_kilobytes
from harness.checks import Skipped, require
from firm.api.rows import QueueRows, Wanted
from firm.common.peers import ROOT
from firm.queue.array_limits import ArrayLimits
from firm.queue.fair_order import UserTasks, order_of
from firm.queue.firmd import Firm
from firm.queue.queries import TaskFilter
from firm.queue.rows import SINGLE, Spec, Submission, Task
from firm.queue.quotas import BOUNDS, ConnectionQuota, Quotas
from queue_client import Json, as_user
from queue_kit import ANN, BOB, FOREVER, Case, Disk, Setup, claim_place

HELD: Json = {"ask": "submit", "command": FOREVER, "dir": "/tmp", "hold": True}
CANCEL: Json = {"ask": "cancel"}
BUSY_SECONDS = 8.0  # of the queue's processor time, for work that takes a minute if each end examines all needs
WORDS = 60_000  # letters of a command


def processor_seconds(case: Case) -> float:
    require(case.queue is not None, "it was started")
    fields = Path(f"/proc/{case.queue.pid if case.queue else 0}/stat").read_text().rpartition(")")[2].split()
    return (int(fields[11]) + int(fields[12])) / os.sysconf("SC_CLK_TCK")


def memory(case: Case) -> int:
    return memory_kilobytes(case.queue.pid) if case.queue is not None else 0


def needs(setup: Setup) -> None:
    """A task that needs thousands of others one by one costs little at each of their ends, and is reported in few
    words."""
    count = 3_000
    with setup.case().start() as case, case.client() as client:
        client.submit(*FOREVER, hold=True, array=[1, count])
        names = [f"1_{index}" for index in range(1, count + 1)]
        client.submit(*FOREVER, after_any=names, array=[1, count])
        client.submit(*FOREVER, after_any=["1"], after=["2_1"])
        before = processor_seconds(case)
        rows = {row["task"]: row["reason"] for row in client.ask("tasks", submission="2")}
        require(len(rows) == count and len(rows["2_9"]) < 100, len(rows))
        require(rows["2_9"].startswith("waits for 1_1, 1_2, ") and rows["2_9"].endswith(" and 2,996 more"), rows["2_9"])
        client.ask("cancel", tasks=names[: count // 2])
        require(client.state("2_9") == "blocked", "the half of them")
        row = client.ask("task", task="2_9")
        require(row["reason"].startswith("waits for 1_1501, "), row["reason"])
        client.ask("cancel", tasks=names[count // 2 :])
        case.until(lambda: client.state("2_9") in ("queued", "waiting"), "it waits for nothing any more")
        require(client.ask("task", task="3")["reason"] == "waits for 2_1", client.ask("task", task="3"))
        took = processor_seconds(case) - before
        require(took < BUSY_SECONDS, f"it took {took:.1f} s of a processor")
        case.kill()
        case.start()
        with case.client() as again:
            require(again.ask("task", task="3")["reason"] == "waits for 2_1", "after a restart")
            again.ask("cancel", tasks=["2_1"])
            require(again.state("3") == "unmet", again.ask("task", task="3"))


def words(setup: Setup) -> None:
    """The words of a user's unfinished tasks are bounded, beside their number."""
    if os.geteuid():
        raise Skipped("it needs root, to be other users")
    with setup.case("--socket-mode=666").start() as case:
        case.folder.chmod(0o755)
        large = {"command": ["x"] * 10_000, "dir": "/", "hold": True}
        requests: list[Json] = [{"ask": "submit-all", "submissions": [large] * 24}] * 3  # the most that a body may have
        *made, refused = as_user(ANN, case.place, requests)
        require(all("submit-all" in answer for answer in made) and refused.get("error") == "quota", refused)
        require("the words of your tasks" in refused["text"], refused["text"])
        require("submit" in as_user(BOB, case.place, [HELD])[0], "another has room")


def budget(setup: Setup) -> None:
    """A user's work has a bounded budget of the disk, also over restarts; others and operators have their own."""
    if os.geteuid():
        raise Skipped("it needs root, to be other users")
    with setup.case("--budget=300K", "--socket-mode=666").start() as case, case.client() as root:
        case.folder.chmod(0o755)
        ask, large = partial(as_user, place=case.place), {**HELD, "command": ["x" * 50_000]}
        answers = ask(ANN, requests=[large] * 8 + [{"ask": "cancel", "jobs": [f"u{ANN}"]}, large, {"ask": "status"}])
        made = sum("submit" in answer for answer in answers)
        require(made == 6, f"{made} were made")
        for answer in (answers[6], answers[9]):
            require(answer["error"] == "budget" and " there is room for them in " in answer["text"], answer)
            require(0 < answer["seconds"] < 7 * 86_400, answer)
        spent = answers[10]["status"]["budget"]
        require(spent["most"] == 300 * 1_024 and 250_000 < spent["spent"] < spent["most"], spent)
        require("submit" in ask(BOB, requests=[large])[0], "another has one of his own")
        require(root.ask("status")["budget"] is None, "an operator has none")
        for _ in range(8):
            root.submit("x" * 50_000, hold=True)
        case.kill()
        case.start()
        require(ask(ANN, requests=[large])[0].get("error") == "budget", "it is forgotten")
        require("submit" in ask(ANN, requests=[HELD])[0], "there is room for a small one")
        require(ask(BOB, requests=[{**HELD, "array": [1, 3_000]}])[0]["error"] == "budget", "tasks are rows too")


def long_outputs(setup: Setup) -> None:
    """Attempts count against a budget of the disk: each stores the long path of its output."""
    if os.geteuid():
        raise Skipped("it needs root, to be other users")
    with setup.case("--budget=2M", "--socket-mode=666").start() as case:
        case.folder.chmod(0o755)
        usual: Json = {**HELD, "retries": 100, "output": f"/home/ann/{'x' * 40}/%A_%a", "array": [1, 1_000]}
        long: list[Json] = [
            {"output": "/" + 4_000 * "\U0001f600"},
            {"output": "/" + 2_000 * "%t"},
            {"dir": "/" + 2_000 * "x"},
        ]
        requests = [usual, *({**usual, "array": [1, 20], **more} for more in long)]
        answers = as_user(ANN, case.place, requests)
        require("submit" in answers[0], answers[0])
        require([answer.get("error") for answer in answers[1:]] == 3 * ["budget"], answers[1:])
        short = as_user(ANN, case.place, [{**requests[1], "retries": 0}])[0]
        require("submit" in short, short)


def history_in_parts(setup: Setup) -> None:
    """A history and a list of ended tasks are read in parts; others' lists are read in between. The parts together
    have the rows of one read."""
    if os.geteuid():
        raise Skipped("only root can be several users")
    with setup.case("--socket-mode=666").start() as case, case.client() as client:
        case.folder.chmod(0o755)
        for user in (ROOT, ANN, ROOT, BOB, ROOT):
            made = as_user(user, case.place, [{**HELD, "array": [1, 40]}])[0]["submit"]["number"]
            as_user(user, case.place, [{**CANCEL, "tasks": [f"{made}_{index}"]} for index in range(1, 41)])
        require(client.states() == {}, client.states())
        asyncio.run(read_in_parts(QueueRows(case.state, cast(Firm, SimpleNamespace(rows=None, trouble="")))))


async def read_in_parts(rows: QueueRows) -> None:
    rows.tell_away("")
    asked = [TaskFilter(user, limit=limit) for user in (None, ROOT, ANN, BOB, BOB + 1) for limit in (1, 7, 60, 1_000)]
    asked += [TaskFilter(name=(2, index)) for index in (None, 7)]
    whole = [await rows.history(one) for one in asked]
    wanted = [
        Wanted(user, states=frozenset([state])) for user in (None, ANN, BOB + 1) for state in ("cancelled", "done")
    ]
    lists = [await listed(rows, one) for one in wanted]
    require([len(found) for found in lists] == [200, 0, 40, 0, 0, 0], lists)
    with patch("firm.api.rows.PART", 2):
        require([await listed(rows, one) for one in wanted] == lists, "a task is missing, or there twice")
        small = [await listed(rows, replace(one, limit=7)) for one in wanted]
        require(small == lists, "a task is missing, or there twice, in short pages")
        require([await rows.history(one) for one in asked] == whole, "a row is missing, or there twice")
        before = [(row["ended"], row["number"], row["index"]) for row in whole[2][:1]]
        first = await rows.history(TaskFilter(limit=1_000, before=before[0]))
        require(first + whole[2] == whole[3], "the rows before one")
        for long in (rows.history(TaskFilter(BOB + 1)), listed(rows, wanted[-1])):
            reading = asyncio.create_task(long)
            await asyncio.sleep(0)
            await rows.page(Wanted(ANN, limit=1))
            require(not reading.done(), "a list has waited for all of a long one")
            require(await reading == [], "one without rows")


async def listed(rows: QueueRows, wanted: Wanted) -> list[str]:
    """Return the tasks of all pages of a list."""
    found: list[str] = []
    while True:
        some, last = await rows.page(wanted)
        found += [row["task"] for row in some]
        if last is None:
            return found
        wanted = replace(wanted, after=last)


def held_and_released(setup: Setup) -> None:
    """However often a task is held and released behind another, the order of waiting tasks takes no more memory."""
    both = [Submission(number, 0, "j", 1, Spec(("x",), "/"), None, None, 0.0) for number in (1, 2)]
    first, other = [Task(submission, SINGLE) for submission in both]
    waiting = UserTasks()
    waiting.put(first)
    for _ in range(10_000):
        waiting.put(other)
        waiting.drop(other)
    waiting.put(other)
    require(len(waiting._heap) < 2_000, f"{len(waiting._heap):,} entries of {len(waiting)} tasks")
    found = [waiting.take() for _ in range(3)]
    require(found == [order_of(first), order_of(other), None], found)
    limits, array = ArrayLimits(), Submission(3, 0, "j", 1, Spec(("x",), "/", at_once=1), 1, 2, 0.0)
    array.add_tasks(is_held=False)
    require(limits.admits(array.tasks[1]) is False and list(limits.next()) == [array.tasks[1]], "the first is admitted")
    for _ in range(10_000):
        limits.admits(array.tasks[2])
        limits.leave(array.tasks[2])
    require(not limits.admits(array.tasks[2]), "the first is in firm")
    require(len(limits._limits[3].order) < 2_000, f"{len(limits._limits[3].order):,} entries of one task")
    limits.leave(array.tasks[1])
    require(list(limits.next()) == [array.tasks[2]], "its turn comes")


def others_rest(setup: Setup) -> None:
    """While a user rests after a long request, another user who arrives has a turn at once."""

    async def is_first() -> bool:
        shares, ann, bob = Quotas(BOUNDS, lambda: None), ConnectionQuota(b"ann", True), ConnectionQuota(b"bob", True)
        await shares.turn(ann)
        ends = time.thread_time() + 0.3
        while time.thread_time() < ends:
            pass
        resting = asyncio.create_task(shares.turn(ann))
        for _ in range(10):  # turns of the loop, until all waiting users rest
            await asyncio.sleep(0)
        await shares.turn(bob)
        found = not resting.done()
        await resting
        return found

    require(asyncio.run(is_first()), "one waited for the rest of another")


def agents_first(setup: Setup) -> None:
    """An agent waits for one user's request at most, however many users have some; these take turns."""

    async def found() -> tuple[int, list[int]]:
        shares, agent, most = Quotas(BOUNDS, lambda: None), ConnectionQuota(b"operator 1", False), 0
        users = [ConnectionQuota(b"user %d" % number, True) for number in range(20)]
        counts = [0] * len(users)

        async def ask(place: int) -> None:
            while True:
                await shares.turn(users[place])
                counts[place] += 1

        asking = [asyncio.create_task(ask(place)) for place in range(len(users)) for _ in range(2)]
        for _ in range(100):
            before = sum(counts)
            await shares.turn(agent)
            most = max(most, sum(counts) - before)
        for task in asking:
            task.cancel()
        return most, counts

    most, counts = asyncio.run(found())
    require(most <= 3, f"{most} requests of users came before an agent's")
    require(max(counts) - min(counts) <= 1, f"turns of users: {counts}")


def names_of_the_past(setup: Setup) -> None:
    """However many ended tasks of one array a request names, the array is read once."""
    count = 5_000
    with setup.case().start() as case:
        with case.client() as client:
            client.submit(*FOREVER, hold=True, array=[1, count])
            client.ask("cancel", tasks=["1"])
        case.kill()
        case.start()
        with case.client() as client:
            before = processor_seconds(case)
            names = [f"1_{index}" for index in range(1, count + 1)]
            found = client.ask("cancel", tasks=names)
            require(found["unchanged"]["1_7"] == "has ended: cancelled" and len(found["unchanged"]) == count, "all")
            found = client.ask("wait", tasks=names)
            require(len(found) == count and found["1_7"]["state"] == "cancelled", "all")
            took = processor_seconds(case) - before
            require(took < BUSY_SECONDS, f"it took {took:.1f} s of a processor")


def forgotten(setup: Setup) -> None:
    """Forgotten tasks are waited for, and cancelled, without their words, and those of others are not examined;
    lists have a bounded number of words. A task that is forgotten as it ends has ended for everyone."""
    if os.geteuid():
        raise Skipped("it needs root, to be other users")
    with setup.case("--socket-mode=666").start() as case:
        case.folder.chmod(0o755)
        large: list[Json] = [{"command": ["xy"] * 6_000, "dir": "/", "hold": True}] * 25
        for _ in range(4):
            made: Json = {"ask": "submit-all", "submissions": large}
            require("changed" in as_user(ANN, case.place, [made, {**CANCEL, "jobs": [f"u{ANN}"]}])[1]["cancel"], "made")
        names = [str(number) for number in range(1, 101)]
        case.kill()
        case.start()
        before = memory(case)
        waits: list[Json] = [{**HELD, "after": names}, {**HELD, "after_any": names}]
        found = as_user(BOB, case.place, waits)
        require([answer.get("error") for answer in found] == ["no-such-task"] * 2, found)
        found = as_user(ANN, case.place, [{**CANCEL, "tasks": names}, {"ask": "wait", "tasks": names}, *waits])
        require(found[0]["cancel"]["unchanged"] == dict.fromkeys(names, "has ended: cancelled"), found[0])
        require(found[1]["wait"] == dict.fromkeys(names, {"state": "cancelled", "status": None}), found[1])
        require([answer["submit"]["number"] for answer in found[2:]] == [101, 102], found[2:])
        grown = memory(case) - before
        require(grown < 20_000, f"the queue has grown by {grown:,} kB")
        with case.client() as client, case.client() as waiting:
            row = client.ask("task", task="101")
            require((row["state"], row["reason"]) == ("unmet", "1 cancelled"), row)
            require(client.state("102") == "held" and len(client.ask("task", task="7")["command"]) == 6_000, "others")
            number = client.submit(*FOREVER, hold=True, array=[1, 25_000])  # more than memory keeps
            waiting.send({"ask": "wait", "tasks": [str(number)]})
            client.ask("cancel", tasks=[str(number)])
            ends = waiting.answer()["wait"].values()
            require(len(ends) == 25_000 and all(end["state"] == "cancelled" for end in ends), "they have ended")
            client.refused("no-such-task", "submit", command=FOREVER, dir="/", after=[f"{number}_0"])
            client.submit(*FOREVER, hold=True, after_any=[f"{number}_1"])


@contextmanager
def readers(path: Path) -> Iterator[None]:
    """Keep the database under read: each reader begins before the last one ends."""
    over = threading.Event()

    def read() -> None:
        opened: list[Any] = []
        while not over.wait(0.2):
            opened.append(sqlite3.connect(f"file:{path}?mode=ro", uri=True, timeout=10, isolation_level=None))
            opened[-1].execute("BEGIN")
            opened[-1].execute("SELECT COUNT(*) FROM submission").fetchall()
            if len(opened) > 1:
                opened.pop(0).close()
        for one in opened:
            one.close()

    thread = threading.Thread(target=read)
    thread.start()
    try:
        yield
    finally:
        over.set()
        thread.join()


def write_ahead_log(setup: Setup) -> None:
    """While the database is read without a pause, its write-ahead log stays bounded."""
    with setup.case().start() as case, case.client() as client:
        log = case.state / "queue.db-wal"
        many = [{"command": ["x" * WORDS], "dir": "/", "hold": True}] * 120
        with readers(case.state / "queue.db"):
            for _ in range(10):
                client.ask("submit-all", submissions=many)
                client.ask("cancel", jobs=["root"])

            def is_short() -> bool:
                client.submit(*FOREVER, hold=True)
                return log.stat().st_size < 2**26

            case.until(is_short, f"the log is shortened from {log.stat().st_size:,} bytes", 40)


def terminals(setup: Setup) -> None:
    """An output that has become a terminal is not shown; above all not the queue's own, which would let a user end
    it."""
    with setup.case() as case:
        case.words = ["setsid", *case.words]  # as a service begins
        case.start()
        master, slave = pty.openpty()
        try:
            show_as_output(case, Path(os.ttyname(slave)))
            os.write(master, b"\x03")
            with case.client() as client:
                require(client.ask("status"), "it serves on")
            require(case.queue is not None and case.queue.poll() is None, "it has ended")
            fields = Path(f"/proc/{case.queue.pid if case.queue else 0}/stat").read_text().rpartition(")")[2].split()
            require(fields[4] == "0", f"its terminal is {fields[4]}")
        finally:
            os.close(master)
            os.close(slave)
        case.stop()


def show_as_output(case: Case, place: Path) -> None:
    """Request the log of a task whose output is a link to a place."""
    path = case.folder / "output"
    path.symlink_to(place)
    with case.client() as client, case.client() as agent:
        agent.ask("register", agent="a1", id="x", machines={"m1": 1}, runs=[])
        client.submit(*FOREVER, output=str(path))
        agent.ask("claim", token="aaaaaaaa", run=1, **claim_place(case))
        running = {"token": "aaaaaaaa", "event": "running", "pid": 1, "time": time.time(), "output": str(path)}
        agent.ask("told", events=[running])
        client.refused("no-output", "log", task="1")


def twins(setup: Setup) -> None:
    """An agent with a copied state is refused while the original is connected, and ends none of its runs."""
    with setup.case("--lease=300").start() as case, case.client() as client:
        first = case.agent("a1", m1=2)
        client.submit(*FOREVER)
        case.until_state(client, "1", "running")
        twin = case.agent("a1", Disk(first.disk.id), m1=2)
        case.until(lambda: twin.refusals or len(case.world.processes) > 1, "it is refused")
        told = twin.refusals[0] if twin.refusals else {"error": None}
        require(told["error"] == "agent-taken" and "a copy of its state" in told["text"], told)
        require(client.state("1") == "running" and case.world.running() == {"1": 1}, case.world.running())
        first.kill()
        case.until(lambda: twin.lease == 300, "it takes the place of the first, as a restarted one does")
        (attempt,) = client.ask("task", task="1")["attempts"]
        require(attempt["outcome"] is None, f"what may run is taken for ended: {attempt}")


def unknown_runs(setup: Setup) -> None:
    """Runs that an agent no longer knows count as lost once its lease ends, and their tasks run again."""
    with setup.case("--lease=10", "--margin=1").start() as case, case.client() as client, case.client() as agent:
        began = time.monotonic()
        agent.ask("register", agent="a1", id="x", machines={"m1": 1}, runs=[])
        client.submit(*FOREVER, grace=0.1)
        place = claim_place(case)
        agent.ask("claim", token="aaaaaaaa", run=1, **place)
        agent.ask("register", agent="a1", id="x", machines={"m1": 1}, runs=[])

        def is_lost() -> bool:
            agent.ask("beat")
            return bool(client.ask("task", task="1")["attempts"][0]["outcome"] == "lost")

        case.until(is_lost, "it is lost")
        require(time.monotonic() - began > 10, "its lease was not over")


def listed_arrays(setup: Setup) -> None:
    """Arrays written as lists cost no more than the tasks that their user may have, however many a request has. A
    repetition with its key gets the same answer."""
    with setup.case("--most-of-user=1000", "--socket-mode=666").start() as case:
        large = [{"command": FOREVER, "dir": "/tmp", "array": "1-999998,3"}] * 10_000
        many = [{"command": FOREVER, "dir": "/tmp", "array": "1-600,3"}] * 10_000
        some = {"ask": "submit-all", "submissions": many[:1], "key": "k"}
        before, held = processor_seconds(case), memory(case)
        asked = [{"ask": "submit-all", "submissions": one} for one in (large, many)]
        case.folder.chmod(0o755)
        found = as_user(ANN, case.place, [*asked, some, some])
        require([answer.get("error") for answer in found[:2]] == ["array-too-large", "quota"], found[:2])
        require(found[2] == {**found[3], "submit-all": [found[2]["submit-all"][0]]}, found[2:])
        require(found[3]["submit-all"] == [{**found[2]["submit-all"][0], "again": True}], found[3])
        took = processor_seconds(case) - before
        require(took < BUSY_SECONDS / 2, f"{took:.1f} s of a processor")
        require(memory(case) - held < 50_000, f"{memory(case) - held:,} KB")


def holds(setup: Setup) -> None:
    """Holds and releases, which are lines of firmd's journal, exhaust a user's budget; cancellations and operators'
    changes do not."""
    with setup.case("--budget=100K", "--socket-mode=666").start() as case, case.client() as client:
        case.folder.chmod(0o755)
        submit = {**HELD, "array": [1, 50]}
        turns = [{"ask": ask, "tasks": ["1"]} for _ in range(3) for ask in ("release", "hold")]
        found = as_user(ANN, case.place, [submit, *turns, {"ask": "cancel", "tasks": ["1"]}])
        refused = [answer["error"] for answer in found if "error" in answer]
        require(refused and set(refused) == {"budget"}, found)
        require(all(answer["seconds"] > 0 for answer in found if "error" in answer), found)
        changed = [len(found[1]["release"]["changed"]), len(found[-1]["cancel"]["changed"])]
        require(changed == [50, 50], found)
        client.submit(*FOREVER, hold=True, array=[1, 500])
        for turn in ("release", "hold"):
            require(len(client.ask(turn, tasks=["2"])["changed"]) == 500, "an operator")


def tokens_of_others(setup: Setup) -> None:
    """A claim with the token of another open run is refused, and takes nothing from that run."""
    with setup.case("--lease=300").start() as case, case.client() as client, case.client() as agent:
        agent.ask("register", agent="a1", id="x", machines={"m1": 2}, runs=[])
        for _ in range(2):
            client.submit(*FOREVER)
        agent.ask("claim", token="aaaaaaaa", run=1, **claim_place(case, "1"))
        agent.refused("bad-field", "claim", token="aaaaaaaa", run=2, **claim_place(case, "2"))
        case.kill()
        case.start()
        with case.client() as again:
            states = [attempt["outcome"] for attempt in again.ask("task", task="1")["attempts"]]
            require(states == [None] and not again.ask("task", task="2")["attempts"], states)


def told_again(setup: Setup) -> None:
    """If an agent reports a run again, as after its restart, the run keeps its time of start."""
    with setup.case("--lease=300").start() as case, case.client() as client, case.client() as agent:
        agent.ask("register", agent="a1", id="x", machines={"m1": 1}, runs=[])
        client.submit(*FOREVER)
        agent.ask("claim", token="aaaaaaaa", run=1, **claim_place(case))
        for at in (1_000.0, 5_000.0):
            agent.ask("told", events=[{"token": "aaaaaaaa", "event": "running", "pid": 1, "time": at}])
        require(client.ask("task", task="1")["began"] == 1_000.0, client.ask("task", task="1"))


# A queue that makes a file `begun` when it looks up ended tasks, and then waits while a file `hung` exists.
LATE = """\
import os, sys, time
from firm.api import daemon
from firm.queue import queries
folder = sys.argv.pop(1)
def late(query):
    def later(*values):
        open(os.path.join(folder, "begun"), "w").close()
        while os.path.exists(os.path.join(folder, "hung")):
            time.sleep(0.02)
        return query(*values)
    return later
queries.forgotten = late(queries.forgotten)
sys.exit(daemon.main(sys.argv[1:]))
"""


def meanwhile(setup: Setup) -> None:
    """A task that is submitted during a read of the database is found by its name."""
    with setup.case() as case:
        case.words = [sys.executable, "-c", LATE, str(case.folder), "run"]
        case.start()
        with case.client() as client, case.client() as other:
            with case.failure("hung"):
                other.send({"ask": "cancel", "tasks": ["1"]})
                case.until((case.folder / "begun").exists, "the database is read")
                client.submit(*FOREVER, hold=True)
            require(other.answer().get("cancel", {}).get("changed") == ["1"], client.ask("task", task="1"))


# A queue that has given all numbers except the last two.
LAST = """\
import sys
from firm.api import daemon
from firm.queue import queries
load = queries.load
def late(connection):
    kept = load(connection)
    kept.rows.last_number = max(kept.rows.last_number, 99_999_997)
    return kept
queries.load = late
sys.exit(daemon.main(sys.argv[1:]))
"""


def numbers(setup: Setup) -> None:
    """Once the numbers of submissions are used up, new ones are refused, and existing ones go on."""
    with setup.case() as case:
        case.words = [sys.executable, "-c", LAST, "run"]
        with case.start().client() as client:
            made = [client.submit(*FOREVER, hold=True) for _ in range(2)]
            require(made == [99_999_998, 99_999_999], made)
            require("used up" in client.refused("queue-full", "submit", command=["x"], dir="/")["text"], "why")
            changed = client.ask("cancel", tasks=["99999999", "99999998"])["changed"]
            require(changed == ["99999999", "99999998"], "both are there")


# A queue whose wall clock jumps a day forward or back at each reading.
JUMPS = """\
import sys, time
real, looks = time.time, [0]
def jumping():
    looks[0] += 1
    return real() + 86400 * (-1) ** looks[0]
time.time = jumping
from firm.api import daemon
sys.exit(daemon.main(sys.argv[1:]))
"""


def jumping_clock(setup: Setup) -> None:
    """While the wall clock jumps, each task runs once, a retry waits its second, a lease lasts its time, and no
    duration is below 0."""
    with setup.case("--lease=20", "--margin=1") as case:
        case.words = [sys.executable, "-c", JUMPS, "run"]
        case.start()
        with case.client() as client:
            agent = case.agent("a1", m1=4)
            client.submit("0.2", array=[1, 6])
            client.submit("0.1", "3", retries=1)
            client.submit("0.1", after=["1"])
            ends = client.ask("wait", tasks=["1", "2", "3"])
            states = [end["state"] for end in ends.values()]
            require(states == ["done"] * 6 + ["failed", "done"], ends)
            gone = [process for process in case.world.processes if process.task == "2"]
            require(len(gone) == 2 and gone[1].began - (gone[0].ended or 0) > 0.9, gone)
            client.submit(*FOREVER)
            case.until_state(client, "4", "running")
            agent.kill()
            silent = time.monotonic()
            case.until(lambda: client.ask("agents")[0]["state"] == "lost", "its lease is over")
            require(time.monotonic() - silent > 3, "the clock made the lease shorter")
            case.until(lambda: len(client.ask("history")) >= 10, "what it ran has ended")
            past = client.ask("history")
            require(len(past) == 10 and all((row["seconds"] or 0) >= 0 for row in past), past)
            case.world.require_single()


def modes(setup: Setup) -> None:
    """Others can't read the database, whatever mode its given folder has."""
    with setup.case() as case:
        case.state.mkdir(mode=0o755)
        case.start()
        with case.client() as client:
            client.submit(*FOREVER, env={"PASSWORD": "x"})
        for path in case.state.glob("queue.db*"):
            require(path.stat().st_mode & 0o077 == 0, f"{path}: {path.stat().st_mode:o}")


CHECKS: tuple[Callable[[Setup], None], ...] = (
    *(
        needs,
        words,
        budget,
        long_outputs,
        history_in_parts,
        held_and_released,
        others_rest,
        agents_first,
        names_of_the_past,
        forgotten,
        terminals,
        twins,
        unknown_runs,
        listed_arrays,
        holds,
        tokens_of_others,
        told_again,
        meanwhile,
        numbers,
        jumping_clock,
        modes,
    ),
)
LONG: tuple[Callable[[Setup], None], ...] = (write_ahead_log,)
