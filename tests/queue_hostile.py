"""Check that the queue serves all others whatever hostile users, hostile readers and a poor host do."""

from __future__ import annotations

import asyncio
import fcntl
import os
import random
import signal
import socket
import sys
import time
from concurrent.futures import ThreadPoolExecutor
from collections.abc import Iterator
from contextlib import ExitStack, closing, contextmanager, suppress
from itertools import cycle
from pathlib import Path

from harness.checks import Skipped, require
from harness.deployed import FirmdSockets
from queue_client import LIMIT_SECONDS, Client, Closed, Json, as_user
from queue_kit import ANN, BOB, FOREVER, Setup, claim_place

LATE_SECONDS = 3.0  # a commit of these checks is late after this; on a busy host one may take a second
SERVED_SECONDS = 20.0  # for another's request, on a busy host; without bounds it takes minutes
HELD: Json = {"ask": "submit", "command": FOREVER, "dir": "/tmp", "hold": True}

# In place of firm's rows.
MALFORMED_VIEW = [
    "5",
    "[]",
    '{"book": 5, "state": "first"}',
    '{"book": {"limits": {"nodes": 2, "depth": 1}}, "state": "first"}',
    '{"book": null, "state": 5}',
    '{"book": null}',
    '{"reply": 5, "number": 1, "line": "x"}',
    "[" * 100_000,
]


class MalformedView:
    """A view that answers each request differently."""

    def __init__(self) -> None:
        self.asked = 0
        self._lines = cycle(MALFORMED_VIEW)

    async def serve(self, path: Path) -> asyncio.AbstractServer:
        path.unlink(missing_ok=True)
        return await asyncio.start_unix_server(self._answer, path)

    async def _answer(self, reader: asyncio.StreamReader, writer: asyncio.StreamWriter) -> None:
        await reader.readline()
        self.asked += 1
        writer.write(next(self._lines).encode() + b"\n")
        writer.close()


def without_ask(request: Json) -> Json:
    return {name: value for name, value in request.items() if name != "ask"}


def stops(setup: Setup) -> None:
    """SIGTERM in the middle of requests: acknowledged ones are stored, and the others are made once if repeated."""
    draw = random.Random(setup.seed)
    with setup.case().start() as case:
        keys = [f"k{at}" for at in range(200)]
        acknowledged: dict[str, int] = {}

        def submit_some(client: Client) -> None:
            with suppress(Closed):
                for key in keys:
                    answer = client.try_ask(**HELD, key=key)
                    if "submit" not in answer:
                        require(answer["error"] in ("stopping", "not-there"), answer)
                        break
                    acknowledged[key] = answer["submit"]["number"]

        for _ in range(1 if setup.is_quick else 5):
            with case.client() as client, ThreadPoolExecutor() as threads:
                done = threads.submit(submit_some, client)
                time.sleep(draw.random() * 0.1)
                case.stop()
                done.result(LIMIT_SECONDS)
            case.start()
        with case.client() as client:
            numbers = {key: client.ask(**HELD, key=key)["number"] for key in keys}
        require(numbers.items() >= acknowledged.items(), f"{acknowledged} became {numbers}")
        require(len(set(numbers.values())) == len(keys), "one number twice")
        require(case.rows("SELECT COUNT(*) FROM submission") == [(len(keys),)], "made twice")


def hung_firmd(setup: Setup) -> None:
    """While firmd hangs, the queue answers requests and reports it; SIGTERM ends the queue. Then all goes on once."""
    with setup.case_alone().start() as case, case.client() as client:
        case.agent("a1", m1=2)
        client.submit("0.01")
        case.until_state(client, "1", "done")
        os.kill(case.firmd.running().pid, signal.SIGSTOP)
        try:
            client.submit("0.01", array=[1, 4])
            case.until(lambda: "owed a reply" in client.ask("status")["firm"]["reason"], "it is told")
            why = client.ask("why", task="2_1")
            require(why["state"] == "queued" and any("owed a reply" in line for line in why["text"]), why)
            require("owed a reply" in case.said() and not client.ask("status")["firm"]["is_there"], case.said())
            began = time.monotonic()
            client.submit("0.01")
            require(time.monotonic() - began < SERVED_SECONDS, "a submission took long")
            case.stop()
            case.start()
        finally:
            os.kill(case.firmd.running().pid, signal.SIGCONT)
        with case.client() as again:
            ends = again.ask("wait", tasks=["2", "3"])
            require(all(end["state"] == "done" for end in ends.values()) and len(ends) == 5, ends)
            require(again.ask("status")["firm"]["reason"] == "", again.ask("status"))
        case.world.require_single()


def malformed_rows(setup: Setup) -> None:
    """Malformed rows of firmd's view are reported, and stop nothing."""
    with setup.case() as case:
        (case.folder / "other").mkdir()
        case.doors = FirmdSockets(case.tenant, case.folder / "other" / "view", case.doors.lines)
        view = MalformedView()
        serving = asyncio.run_coroutine_threadsafe(view.serve(case.doors.view), case.loop)
        serving.result(SERVED_SECONDS)
        case.start()
        case.until(lambda: view.asked > 2 * len(MALFORMED_VIEW), "all is said, to both processes")
        with case.client() as client:
            client.submit("true")
            require("is not understood" in case.said() and not client.ask("status")["firm"]["is_there"], case.said())
        case.stop()


def unwritten(setup: Setup) -> None:
    """The queue acknowledges nothing that is in memory but not on disk, neither a run nor a key. It accepts nothing
    more until it has read its memory anew from the disk."""
    with setup.case("--lease=300").start_failing() as case, case.client() as client:
        client.ask("register", agent="a1", id="x", machines={"m1": 1}, runs=[])
        client.submit(*FOREVER)
        claim = {"token": "aaaaaaaa", "run": 1, **claim_place(case)}
        requests: dict[str, Json] = {"claim": claim, "submit": {**without_ask(HELD), "key": "k"}}
        for ask, request in requests.items():
            with case.failure():
                for _ in range(3):
                    client.refused("not-written", ask, **request)
            case.until(lambda: client.ask("status")["writes"]["are_good"], "it is written again")
        require(case.rows("SELECT COUNT(*) FROM attempt") == [(0,)] and client.state("1") == "starting", "an attempt")
        require(client.ask("claim", **claim)["work"]["attempt"] == 1, "it may begin")
        require("again" not in client.ask("submit", **without_ask(HELD), key="k"), "the key is free")
        with case.failure("reads"):
            with case.failure():
                client.refused("not-written", "submit", **without_ask(HELD))
                case.until(lambda: "cannot read" in case.said(), "it is told")
            client.refused("not-written", "submit", **without_ask(HELD))
            require(client.state("1") == "starting", "what is read from memory is answered")
        case.until(lambda: client.ask("status")["writes"]["are_good"], "it is read again")
        require(client.submit(*FOREVER, hold=True) > 2, "the next number")
        case.stop()


def unwritten_end(setup: Setup) -> None:
    """A client that waits for a task whose end is not yet on disk waits on, until the end is."""
    with setup.case("--lease=300").start_failing() as case, case.client() as client, case.client() as waiting:
        client.ask("register", agent="a1", id="x", machines={"m1": 1}, runs=[])
        client.submit(*FOREVER)
        client.ask("claim", token="aaaaaaaa", run=1, **claim_place(case))
        end = {"token": "aaaaaaaa", "event": "ended", "status": 0, "asked": False}
        waiting.send({"ask": "wait", "tasks": ["1"]})
        with case.failure():
            client.refused("not-written", "told", events=[end])
            ended = client.ask("wait", tasks=["1"], seconds=0.1)
            require(ended["1"]["state"] != "done", ended)
        case.until(lambda: client.ask("status")["writes"]["are_good"], "it is written again")
        client.ask("told", events=[end])
        answer = waiting.answer()
        require(answer.get("wait") == {"1": {"state": "done", "status": 0}}, answer)


def uncounted(setup: Setup) -> None:
    """A committed change is not refused if the number of commits can't be written: its user would repeat it. It is
    acknowledged once there is room, and SIGTERM ends the queue all the same."""
    with setup.case("--lease=300").start_failing() as case, case.client() as client, case.client() as other:
        commit = "SELECT value >= '2 ' FROM meta WHERE name = 'commit'"
        case.until(lambda: case.rows(commit) == [(1,)], "the lease is written, and old rows are removed")
        with case.failure("counts"):
            client.send(HELD)
            case.until(lambda: case.rows("SELECT COUNT(*) FROM submission") == [(1,)], "it is committed")
            other.send(HELD)
            time.sleep(1)
        require([one.answer().get("submit", {}).get("number") for one in (client, other)] == [1, 2], "both are made")
        with case.failure("counts"):
            client.send(HELD)
            case.until(lambda: case.rows("SELECT COUNT(*) FROM submission") == [(3,)], "it is committed")
            case.stop()
        case.start()
        with case.client() as again:
            require(again.submit(*FOREVER, hold=True) == 4, "the next number")
        case.stop()


def hung_disk(setup: Setup) -> None:
    """While the disk hangs, agents get the answers to their heartbeats, though earlier answers wait."""
    with setup.case("--lease=300").start_failing() as case, case.client() as client, case.client() as agent:
        agent.ask("register", agent="a1", id="x", machines={"m1": 1}, runs=[])
        client.submit("x")
        place = claim_place(case)
        with case.failure("hangs"):
            agent.send({"ask": "claim", "token": "aaaaaaaa", "run": 1, **place}, {"ask": "beat"}, {"ask": "beat"})
            for _ in range(2):
                told = agent.line()
                require(told == {"tell": "lease", "lease": 300.0}, told)
        answers = [agent.answer() for _ in range(3)]
        require([list(answer) for answer in answers] == [["claim"], ["beat"], ["beat"]], answers)


def end_on_a_hung_disk(setup: Setup) -> None:
    """Until the disk has a task's end, the task is shown as before, with its open attempt; then both have ended."""
    token = "aaaaaaaa"
    with setup.case("--lease=300").start_failing() as case, case.client() as client, case.client() as agent:
        client.submit("x")
        agent.ask("register", agent="a1", id="x", machines={"m1": 1}, runs=[])
        agent.ask("claim", token=token, run=1, **claim_place(case))
        case.until_state(client, "1", "starting")
        with case.failure("hangs"):
            agent.send({"ask": "told", "events": [{"token": token, "event": "ended", "status": 0, "asked": False}]})
            case.until(lambda: client.states() == {}, "memory has its end")
            before = client.ask("task", task="1")
        require(agent.answer() == {"told": 1}, "its end is written")
        for row, state, outcome in ((before, "starting", None), (client.ask("task", task="1"), "done", "done")):
            require((row["state"], [one["outcome"] for one in row["attempts"]]) == (state, [outcome]), row)


def back_to_a_slow_disk(setup: Setup) -> None:
    """A lost agent is accepted again, however long the disk takes for earlier writes."""
    with setup.case("--lease=3", "--margin=0.5").start_failing() as case, case.client() as client:
        register: Json = {"agent": "a1", "id": "x", "machines": {"m1": 1}, "runs": []}
        with case.client() as agent:
            agent.ask("register", **register)
            case.until(lambda: client.ask("agents")[0]["state"] == "lost", "it is lost")
        with case.client() as agent:
            with case.failure("hangs"):
                client.send(HELD)
                agent.send({"ask": "register", **register})
                time.sleep(2)
            require("register" in (answer := agent.answer()), answer)


def late_disk(setup: Setup) -> None:
    """While the disk hangs for long, the queue refuses changes by name, and reports the hang. Lists show the state
    of the disk, and the change under way counts once the disk answers."""
    with setup.case("--lease=300") as case:
        case.start_failing(late=LATE_SECONDS)
        with case.client() as client, case.client() as waiting, case.client() as agent:
            agent.ask("register", agent="a1", id="x", machines={"m1": 1}, runs=[])
            client.submit(*FOREVER)
            claim = {"token": "aaaaaaaa", "run": 1, **claim_place(case)}
            with case.failure("hangs"):
                waiting.send(HELD)
                case.until(lambda: not client.ask("status")["writes"]["are_good"], "it is told to who asks")
                reason = client.ask("status")["writes"]["reason"]
                require(f"has not answered for {LATE_SECONDS:g} s" in reason and reason in case.said(), reason)
                began = time.monotonic()
                asked: dict[str, Json] = {"submit": without_ask(HELD), "claim": claim, "cordon": {"machines": ["m1"]}}
                asked["cancel"] = {"tasks": ["1"]}
                asked["told"] = {"events": [{"token": "aaaaaaaa", "event": "ended", "status": 0, "asked": False}]}
                for ask, request in asked.items():
                    by = agent if ask in ("claim", "told") else client
                    by.refused("not-written", ask, **request)
                with case.client() as other:
                    other.refused("not-written", "register", agent="a2", id="y", machines={"m2": 1}, runs=[])
                require([row["state"] for row in client.ask("tasks")] == ["starting"], client.ask("tasks"))
                require(time.monotonic() - began < SERVED_SECONDS, "an answer took long")
            require(waiting.answer().get("submit", {}).get("number") == 2, "what was asked before")
            good = {"are_good": True, "reason": ""}
            case.until(lambda: client.ask("status")["writes"] == good, "it is written again")
            require(client.state("2") == "held", "it is shown")
            require(client.submit("true", hold=True) == 3 and client.ask("cordon", machines=["m1"]), "it goes on")
            told = [case.said().count(words) for words in ("the disk has not answered", "the disk answers again")]
            require(told[0] == told[1], case.said())
        case.stop()


def unread(setup: Setup) -> None:
    """While the database can't be read for a moment, requests that need it are refused or wait, and the queue serves
    on."""
    with setup.case().start_failing() as case, case.client() as client:
        client.submit(*FOREVER, hold=True)
        with case.failure("looks"), closing(socket.socket(socket.AF_UNIX)) as lines:
            lines.connect(str(case.doors.lines))
            others = f"{case.tenant} job others 1\n{case.tenant} task others 1-7\n"  # the number may be the queue's own
            lines.sendall(others.encode())
            case.until(lambda: "cannot read" in case.said(), "it is told")
            client.refused("not-read", "log", task="1", attempt=1)
            require(client.submit(*FOREVER) == 2, "the next number")
        case.until(lambda: "2" in case.firm_tasks(), "it is in firm")
        client.refused("no-such-attempt", "log", task="1", attempt=1)
        case.stop()


def forgotten_as_it_ends(setup: Setup) -> None:
    """A client that follows a task's output gets its end, however late it is written, though memory forgets the task
    meanwhile."""
    count = 20_001  # more than memory keeps
    with setup.case("--lease=300").start_failing() as case, ExitStack() as stack:
        client, agent, other = (stack.enter_context(case.client()) for _ in range(3))
        agent.ask("register", agent="a1", id="x", machines={"m1": 1}, runs=[])
        client.submit(*FOREVER, hold=True, array=[1, count])
        client.ask("release", tasks=["1_1"])
        agent.ask("claim", token="aaaaaaaa", run=1, **claim_place(case))
        output = case.folder / "output"
        output.write_text("told")
        event: Json = {"token": "aaaaaaaa", "event": "running", "pid": 1, "output": str(output)}
        agent.ask("told", events=[event])
        client.ask("cancel", tasks=[f"1_{index}" for index in range(2, count + 1)])
        following = other.log("1_1", follow=True)
        require(next(following) == b"told", "it is followed")
        with case.failure("hangs"):
            agent.send({"ask": "told", "events": [{**event, "event": "ended", "status": 0, "asked": False}]})
            time.sleep(2)
        require(next(following, None) is None and agent.answer() == {"told": 1}, "its end")
        require(client.state("1_1") == "done", client.state("1_1"))


def unmade_room(setup: Setup) -> None:
    """Tasks that were to make room for a heavier one, which the disk has not accepted, run on."""
    with setup.case("--most-in-firm=3").start_failing() as case, case.client() as client:
        client.submit("0.05", job="light", weight=1, array=[1, 3])
        case.until(lambda: len(case.firm_tasks()) == 3, "three are in firm")
        with case.failure():
            client.refused("not-written", "submit", command=FOREVER, dir="/tmp", job="heavy", weight=1_000)
        case.until(lambda: client.ask("status")["writes"]["are_good"], "it is written again")
        case.agent("a1", m1=3)
        ends = client.ask("wait", tasks=["1"], seconds=SERVED_SECONDS)
        require([end["state"] for end in ends.values()] == ["done"] * 3, f"{ends} {client.ask('tasks')}")


PATIENCE_SECONDS, HUNG_SECONDS = 4.0, 300.0  # of that queue, and of the hung look-ups
LOGS = 32  # open ones that a user may have
PATIENCE_TOLD = f"nothing has come for {PATIENCE_SECONDS:g} s"
BREAK_SECONDS = 45.0  # until the system takes back a lease of a file
# A queue that waits some seconds for a hung call; look-ups of the user `hung`, and of one number, hang.
IMPATIENT = f"""\
import pwd, sys, time
from firm.api import daemon
from firm.common import threads
names, numbers, threads.PATIENCE_SECONDS = pwd.getpwnam, pwd.getpwuid, {PATIENCE_SECONDS}
def hanging(known, hung):
    def get(what):
        if what == hung:
            time.sleep({HUNG_SECONDS})
        return known(what)
    return get
pwd.getpwnam, pwd.getpwuid = hanging(names, "hung"), hanging(numbers, 61_103)
sys.exit(daemon.main(sys.argv[1:]))
"""
NAMELESS = 61_103


def hung_names(setup: Setup) -> None:
    """If the look-up of a user's name hangs, the user's number stands in its place, and nobody else waits."""
    if os.geteuid():
        raise Skipped("it needs root, to be other users")
    with setup.case("--socket-mode=666") as case:
        case.words = [sys.executable, "-c", IMPATIENT, "run"]
        case.start()
        case.folder.chmod(0o755)
        began = time.monotonic()
        with ThreadPoolExecutor() as threads:
            hung = [threads.submit(as_user, NAMELESS, case.place, [HELD]) for _ in range(3)]
            while not all(one.done() for one in hung):
                asked = time.monotonic()
                require("jobs" in as_user(BOB, case.place, [{"ask": "jobs"}])[0], "another is answered")
                require(time.monotonic() - asked < SERVED_SECONDS, "it took long")
        found = as_user(NAMELESS, case.place, [HELD, {"ask": "status"}])
        require(found[0].get("submit", {}).get("job") == f"u{NAMELESS}", found)
        require(found[1]["status"]["user"] == str(NAMELESS), found)
        case.kill()
        case.start()
        with case.client() as client:
            again = time.monotonic()
            is_root = client.ask("status")["user"] == "root"
            require(is_root and time.monotonic() - again < PATIENCE_SECONDS, "an agent would be late")
            rows = client.ask("tasks")
            require({row["user"] for row in rows} == {str(NAMELESS)}, rows)
            tasks = [row["task"] for row in rows]
            client.ask("cancel", tasks=tasks)
        case.kill()
        case.start()
        with case.client() as client:
            rows = client.ask("tasks", states=["cancelled"])
            require([row["user"] for row in rows] == [str(NAMELESS)] * len(tasks), rows)
        case.stop()
        took = time.monotonic() - began
        require(took < HUNG_SECONDS, f"it took {took:.1f} s")


@contextmanager
def leased(path: Path) -> Iterator[None]:
    """Lease a file, so that whoever opens it waits until the system takes the lease back."""
    file = os.open(path, os.O_RDWR)
    try:
        fcntl.fcntl(file, fcntl.F_SETSIG, signal.SIGURG)  # the request to the holder, ignored here
        fcntl.fcntl(file, fcntl.F_SETLEASE, fcntl.F_WRLCK)
        yield
    finally:
        os.close(file)


def hung_files(setup: Setup) -> None:
    """A user whose outputs hang takes few of the queue's threads. Others' outputs are read, hung ones are refused,
    also while a user's name is looked up, and SIGTERM ends the queue."""
    if os.geteuid():
        raise Skipped("it needs root, to be other users")
    with setup.case("--socket-mode=666", "--lease=300") as case, ExitStack() as stack:
        case.words = [sys.executable, "-c", IMPATIENT, "run"]
        case.start()
        case.folder.chmod(0o755)
        client = stack.enter_context(case.client())
        client.ask("register", agent="a1", id="x", machines={"m1": 2}, runs=[])
        outputs = {"1": (ANN, case.folder / "hung"), "2": (BOB, case.folder / "good")}
        for task, (user, path) in outputs.items():
            path.write_text(path.name)
            os.chown(path, user, user)
            as_user(user, case.place, [{**without_ask(HELD), "ask": "submit", "hold": False, "output": str(path)}])
            client.ask("claim", token=f"{task:a>8}", run=1, **claim_place(case, task))
            client.ask("told", events=[{"token": f"{task:a>8}", "event": "running", "output": str(path)}])
        with leased(outputs["1"][1]):
            hung = [stack.enter_context(case.client()) for _ in range(1 + LOGS)]
            hung[0].send({"ask": "tasks", "user": "hung"})
            for one in hung[1:]:
                one.send({"ask": "log", "task": "1"})
            began = time.monotonic()
            found = as_user(BOB, case.place, [{"ask": "log", "task": "2"}])
            require(found[0].get("log") == "good", found)
            answers = [one.answer() for one in hung]
            told = {(answer.get("error"), PATIENCE_TOLD in answer.get("text", "")) for answer in answers}
            require(told == {("bad-field", True), ("no-output", True)}, answers)
            case.stop()
            took = time.monotonic() - began
            require(took < BREAK_SECONDS, f"it took {took:.1f} s")


CHECKS = (
    stops,
    hung_firmd,
    malformed_rows,
    unwritten,
    unwritten_end,
    uncounted,
    back_to_a_slow_disk,
    late_disk,
    hung_disk,
    end_on_a_hung_disk,
    unread,
    forgotten_as_it_ends,
    unmade_room,
    hung_names,
    hung_files,
)
