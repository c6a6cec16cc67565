"""Check firm-agent with work from a queue, beside stand-ins for the queue and firmd. Processes are read from /proc.

usage: tools/run tests/agents.py [--quick] [--only WORDS] [--agents N --tasks N]
Each check prints a line; the last line is 'N passed, M failed', and the exit status is 1 if one failed. --quick leaves
out slow checks. It needs Python 3; checks that need root or limits by cgroup are skipped without them. With --agents
and --tasks it runs no checks, and measures the cost of this number of agents with this number of tasks each.
"""

from __future__ import annotations

import argparse
import asyncio
import contextlib
import json
import os
import random
import signal
import subprocess
import sys
import tempfile
import time
from functools import partial
from pathlib import Path
from types import SimpleNamespace

from aiohttp import web

import agent_accounts
import agent_places
import agent_processes
import agent_users
from agent_disks import failing_disk, full_disk, hung_disk, slow_disk
from agent_kit import AGENT, LIMIT_SECONDS, SOON_SECONDS, WAITS_FOR_GO, Case, Row, is_there
from api_kit import certificate
from harness.checks import Check, Skipped, Suite, print_skipped, require, run_script, run_suites
from harness.deployed import agent_events, agent_link, agent_queue, agent_state
from harness.files import write_program
from firm.agent import cgroups
from queue_stand_in import Cluster, clock

AT_A_TIME = 8  # checks, which mostly wait
LEASE_SECONDS = 10.0  # for the end of a lease
BUSY_SECONDS = 40  # the most that a busy host delays anything
TURNS = 16  # of a loop: an agent notices a lost connection in fewer
ONCE = (  # all processes of a task hold its lock, until the last one ends
    "exec 9> $FIRM_TASK.lock; flock -n 9 || echo $FIRM_TASK >> doubled; "
    "for i in 1 2 3 4 5 6; do sleep 0.05; done; echo end >> $FIRM_TASK.log"
)
# An agent whose wall clock jumps a day forward or back at each reading.
JUMPS = """\
import sys, time
real, looks = time.time, [0]
def jumping():
    looks[0] += 1
    return real() + 86400 * (-1) ** looks[0]
time.time = jumping
from firm.agent import daemon as agent
sys.exit(agent.main())
"""


def life() -> None:
    """A claimed task runs its command in its folder with its variables, and the queue records its end."""
    with Cluster() as case:
        (case.folder / "there").mkdir()
        shows = "import os, sys; print(*sys.argv[1:], os.getcwd(), os.environ['COLOUR'])"
        words = [sys.executable, "-c", shows, "a b", "$X"]
        output = str(case.folder / "out")
        case.submit("a", words, dir=str(case.folder / "there"), env={"COLOUR": "red", "FIRM_JOB": "x"}, output=output)
        case.submit("b", "echo $FIRM_TENANT $FIRM_JOB $FIRM_TASK $FIRM_MACHINE; kill -9 $$")
        case.start_registered()
        case.firmd.round("start a m1 start b m1")
        ended = case.until_told("ended", "a")
        require((ended["status"], ended["asked"], ended["why"], ended["fault"]) == (0, False, None, None), ended)
        require(case.text("out") == f"a b $X {case.folder}/there red\n", case.text("out"))
        running = case.until_told("running", "a")
        require(running["output"] == output, running)
        ended = case.until_told("ended", "b")
        require(ended["status"] == 128 + signal.SIGKILL and not ended["asked"] and ended["seconds"] < 30, ended)
        told = Path(case.until_told("running", "b")["output"]).read_text()
        require(told == "alpha j b m1\n", told)
        case.until(lambda: not list((case.folder / "a1/open").iterdir()), "no run is open")


def not_started() -> None:
    """A missing command, a command that can't run, a folder or an output that can't be opened: each has a short
    message. A pipe without a reader delays no run."""
    with Cluster() as case:
        (case.folder / "plain").write_text("no program")
        write_program(case.folder / "bare", "#!/no/such/shell\n")
        case.submit("a", ["./absent", "7"])
        case.submit("b", ["./plain"])
        case.submit("c", ["true"], dir="/no/such/folder")
        case.submit("d", ["true"], output="/no/such/folder/out")
        case.submit("e", ["./bare"])
        case.submit("f", ["no-such-program"])
        os.mkfifo(case.folder / "pipe")
        case.submit("g", ["true"], output=str(case.folder / "pipe"))
        case.submit("h", ["x" * 100_000])
        case.submit("i", ["true"], output=f"/{'y' * 100_000}")
        case.start_registered(machines="m1=9")
        case.firmd.round(" ".join(f"start {task} m1" for task in "abcdefghi"))
        found = {task: case.until_told("ended", task) for task in "abcdefghi"}
        told = {task: (event["status"], event["fault"]) for task, event in found.items()}
        expected = {
            "a": (127, "no such command: ./absent"),
            "b": (126, "./plain: Permission denied"),
            "c": (126, "no such folder: /no/such/folder"),
            "d": (126, "/no/such/folder/out: No such file or directory"),
            "e": (126, "./bare: its interpreter is not there"),
            "f": (127, "no such command: no-such-program"),
            "g": (126, f"{case.folder}/pipe: No such device or address"),
            "h": (126, f"{'x' * 200} ..: File name too long"),
            "i": (126, f"/{'y' * 199} ..: File name too long"),
        }
        require(told == expected, told)


def not_claimed() -> None:
    """The agent does not start a task that the queue doesn't know, or a task of another agent's machine."""
    with Cluster("a") as case:
        case.firmd.say("task j stranger")
        case.start_registered()
        case.firmd.say("machine m9 4")
        case.firmd.round("start stranger m1 start a m9")
        case.until(lambda: case.text("a1/events.jsonl").count('"void"') == 1, "it is not begun")
        time.sleep(SOON_SECONDS)
        require(not case.processes() and case.text("a1/events.jsonl").count('"start"') == 1, case.told())


def moved_between_agents() -> None:
    """A task that moves to another agent's machine starts there after its run here has ended."""
    with Cluster() as case:
        polite = "trap 'sleep 0.6; echo end >> a.log; exit 0' TERM; echo begin $FIRM_MACHINE >> a.log; "
        polite += "while :; do sleep 0.05; done"
        case.submit("a", polite, grace=5)
        case.start_registered()
        case.start_registered("a2", "m2=4")
        case.firmd.round("start a m1")
        case.until(lambda: "begin" in case.text("a.log"), "a begins")
        case.firmd.round("move a m1 m2")
        case.until(lambda: "begin m2" in case.text("a.log"), "a begins on m2")
        require(case.text("a.log").split() == "begin m1 end begin m2".split(), case.text("a.log"))
        ended = case.until_told("ended", "a")
        require((ended["asked"], ended["why"]) == (True, "moved"), ended)


def two_for_one_machine() -> None:
    """A second agent for a machine is refused with the reason, tries again, and gets the machine once the first
    leaves."""
    with Cluster("a", lease=4) as case:
        case.start_registered()
        case.start_agent("a2")
        taken = "m1 is left out until it is free: machine-taken: the agent a1 has the machine m1"
        case.until(lambda: taken in case.told(), "it is told")
        case.firmd.round("start a m1")
        case.until_begun("a")
        time.sleep(SOON_SECONDS)
        require(case.text("a.log") == "begin m1\n", "both have begun it")
        case.kill_agent("a1")
        case.until_silent("a1")
        require(not case.processes(), "it runs though its lease is over")
        case.until(lambda: case.queue.agents["a2"].machines == {"m1": 4}, "the second has the machine")
        case.firmd.round("start a m1")
        case.until(lambda: case.text("a.log").count("begin") == 2, "it begins again")
        require(case.told().count(taken) == 1, case.told())


def lease_over(is_deaf: bool) -> None:
    """Without an agent, runs end by themselves at the end of the lease, deaf ones after their grace; the next agent
    reports that."""
    trap = "trap '' TERM; " if is_deaf else ""
    with Cluster(lease=LEASE_SECONDS) as case:
        case.submit("a", f"{trap}while :; do sleep 0.05; done", grace=1)
        case.start_registered()
        case.firmd.round("start a m1")
        case.until_told("running", "a")
        case.until_runs("a")
        case.kill_agent("a1")
        beat = case.queue.agents["a1"].answered
        case.until_runs()
        ran = clock() - beat
        require(LEASE_SECONDS / 3 < ran < LEASE_SECONDS + BUSY_SECONDS, f"it ran for {ran:.1f} s behind a beat")
        case.start_agent()
        ended = case.until_told("ended", "a")
        require((ended["asked"], ended["why"]) == (True, "lease"), ended)
        require(ended["status"] == 128 + (signal.SIGKILL if is_deaf else signal.SIGTERM), ended)


def stopped_for_long() -> None:
    """An agent stops for longer than its lease: its tasks start elsewhere, and run once when it continues."""
    with Cluster("a", "b", lease=LEASE_SECONDS) as case:
        case.start_registered()
        case.start_registered("a2", "m2=4")
        case.firmd.round("start a m1 start b m1")
        case.until_told("running", "b")
        case.until_told("running", "a")
        case.until_begun("a", "b")
        case.agents["a1"].send_signal(signal.SIGSTOP)
        case.until_silent("a1")
        require(not case.processes(), f"{case.processes()} though the lease is over")
        case.firmd.round("start a m2 start b m2")
        for task in "ab":
            case.until(lambda: "begin m2" in case.text(f"{task}.log"), f"{task} begins on m2")
        old = case.processes()
        case.agents["a1"].send_signal(signal.SIGCONT)
        case.until(lambda: "a1" in case.queue.agents, "it is registered again")
        time.sleep(1)
        require({task: len(pids) for task, pids in case.processes().items()}.keys() == old.keys(), case.processes())
        for task in "ab":
            require(case.text(f"{task}.log") == "begin m1\nbegin m2\n", case.text(f"{task}.log"))
        case.go("a", "b")
        case.until_runs()


def comes_back() -> None:
    """An agent that returns within its lease keeps its runs, except those that the queue no longer wants."""
    with Cluster("a", "b", "c") as case:
        case.start_registered()
        case.firmd.round("start a m1 start b m1 start c m1")
        for task in "abc":
            case.until_told("running", task)
        case.until_begun("a", "b", "c")
        before = case.processes()
        case.kill_agent("a1")
        case.go("b")
        case.queue.attempts[case.queue.token("c")].is_open = False
        case.start_agent()
        require(case.until_told("ended", "b")["status"] == 0, "how b ended")
        # firm still places c, so its next attempt may have started at once
        case.until(lambda: not set(before["c"]) & set(case.processes().get("c", ())), "that run of c is ended")
        require(set(before["a"]) & set(case.processes()["a"]), "a was begun again")
        time.sleep(SOON_SECONDS)
        require(case.text("a.log") == "begin m1\n", case.text("a.log"))


def lost_though_done() -> None:
    """A run that finished after the queue had lost its agent does not count: the task starts again there."""
    with Cluster("a", lease=LEASE_SECONDS) as case:
        case.start_registered()
        case.firmd.round("start a m1")
        case.until_told("running", "a")
        case.until_begun("a")
        case.kill_agent("a1")
        case.go("a")
        case.until_runs()
        case.until_silent("a1")
        case.start_registered()
        case.firmd.round("start a m1")
        case.until(lambda: case.text("a.log").count("begin") == 2, "it is begun again")


def queue_away() -> None:
    """While the queue is away, runs go on. Events are sent until they are acknowledged, and then no more."""
    with Cluster("a", "b") as case:
        case.start_registered()
        case.firmd.round("start a m1 start b m1")
        case.until_told("running", "a")
        case.until_told("running", "b")
        case.queue.is_deaf = True
        case.go("a")
        case.until_runs("b")
        time.sleep(SOON_SECONDS)
        case.queue.close()
        case.kill_agent("a1")
        case.start_agent()
        case.until(lambda: "what runs goes on until the lease is over" in case.told(), "it is told")
        case.queue.is_deaf = False
        case.queue.open()
        require(case.until_told("ended", "a")["status"] == 0, "how a ended")
        case.go("b")
        case.until_told("ended", "b")
        case.until_acknowledged("a1")  # otherwise it would be sent again
        heard = len(case.queue.told)
        case.kill_agent("a1")
        case.queue.agents.clear()
        case.start_registered()
        time.sleep(SOON_SECONDS)
        require(len(case.queue.told) == heard, case.queue.told[heard:])
        require((case.text("a.log"), case.text("b.log")) == ("begin m1\nend\n", "begin m1\nend\n"), "each ran once")


def time_limit() -> None:
    """A run over its time limit gets SIGTERM, and SIGKILL after the grace; clock jumps of a day change nothing."""
    with Cluster(lease=LEASE_SECONDS) as case:
        case.submit("a", ["sleep", "1000"], time=1)
        case.submit("b", "trap '' TERM; while :; do sleep 0.05; done", time=4, grace=1)  # by then it ignores SIGTERM
        case.submit("c", WAITS_FOR_GO, time=1000)
        case.start_agent(before=[sys.executable, "-c", JUMPS])
        case.until(lambda: "a1" in case.queue.agents, "it is registered")
        case.firmd.round("start a m1 start b m1 start c m1")
        a, b = case.until_told("ended", "a"), case.until_told("ended", "b")
        require((a["asked"], a["why"], a["status"]) == (True, "timeout", 128 + signal.SIGTERM), a)
        require((b["asked"], b["why"], b["status"]) == (True, "timeout", 128 + signal.SIGKILL), b)
        require(1 <= a["seconds"] < BUSY_SECONDS and 5 <= b["seconds"] < BUSY_SECONDS, (a, b))
        time.sleep(LEASE_SECONDS)
        require(case.processes().keys() == {"c"}, "the clock has ended c")
        case.kill_agent("a1")
        began = clock()
        case.until_runs()
        require(clock() - began < LEASE_SECONDS + BUSY_SECONDS, "the clock has made the lease longer")


def killed_supervisor() -> None:
    """A killed supervisor takes its command with it, also without an agent; the next agent reports the run as lost."""
    with Cluster("a") as case:
        case.start_registered()
        case.firmd.round("start a m1")
        case.until_told("running", "a")
        case.until(lambda: case.text("a.log"), "its command runs")
        case.kill_agent("a1")
        (claim,) = case.folder.glob("a1/runs/*/a.*/process")
        os.kill(json.loads(claim.read_text())["pid"], signal.SIGKILL)
        case.until(lambda: not any("sh" in words for words in commands(case)), "its command is gone")
        case.start_agent()
        case.until_told("lost", "a")
        case.until(lambda: case.text("a.log").count("begin") == 2, "it begins again")


def commands(case: Case) -> list[str]:
    """Return the programs of all processes of runs."""
    found = []
    for pid in [pid for pids in case.processes().values() for pid in pids]:
        with contextlib.suppress(OSError):
            found.append(Path(f"/proc/{pid}/comm").read_text())
    return found


def told_by_the_queue() -> None:
    """The queue ends a run, and keeps a run whose row firm has lost, also over a restart of the agent."""
    with Cluster("a", "b") as case:
        case.start_registered()
        case.firmd.round("start a m1 start b m1")
        case.until_told("running", "a")
        case.until_told("running", "b")
        case.until_begun("a", "b")
        case.queue.tell("a1", tell="end", tokens=[case.queue.token("b")], why="cancelled")
        ended = case.until_told("ended", "b")
        require((ended["asked"], ended["why"]) == (True, "told"), ended)
        case.queue.tell("a1", tell="keep", tokens=[case.queue.token("a")])
        case.until(lambda: case.queue.kept == [case.queue.token("a")], "it is kept")
        case.firmd.say("done a")
        case.firmd.say("done b")
        case.firmd.say("drain m1", "ok evicted 0")
        case.kill_agent("a1")
        case.queue.kept.clear()
        case.start_registered()
        case.until(lambda: case.queue.kept == [case.queue.token("a")], "it says so again to who may not have heard it")
        time.sleep(1)
        require(case.processes().keys() == {"a"} and case.text("a.log") == "begin m1\n", case.told())
        case.go("a")
        require(case.until_told("ended", "a")["status"] == 0, "how a ended")


def mute_server() -> None:
    """An agent drops a silent connection, as after a network cut, early enough to keep its lease."""
    with Cluster("a", lease=LEASE_SECONDS) as case:
        case.start_registered()
        case.firmd.round("start a m1")
        case.until_told("running", "a")
        case.until_begun("a")
        case.queue.mute.update(case.queue.sockets)
        time.sleep(2 * LEASE_SECONDS)
        require("nothing has come from the server for " in case.told() and case.queue.registrations > 1, case.told())
        require(case.processes().keys() == {"a"}, "its lease was over")


def faulty_tokens() -> None:
    """An agent without a valid token or certificate reports that and tries again; its runs are not lost for it."""
    with Cluster() as case:
        token, ca = case.folder / "token", case.folder / "ca"
        more = ["--server=https://127.0.0.1:1", f"--token={token}", f"--ca={ca}"]
        case.start_agent(more=more)
        case.until(lambda: "No such file or directory" in case.told(), "there is no token")
        token.write_bytes(b"\xff")
        case.until(lambda: "can't decode byte" in case.told(), "it is no text")
        token.write_text("a")
        case.until(lambda: case.told().count("No such file or directory") == 2, "there is no certificate")
        ca.write_text("x")
        case.until(lambda: "[X509" in case.told(), "it is none")
        certificate(case.folder, "ca")[0].replace(ca)
        case.until(lambda: "Connect call failed" in case.told(), "nobody listens")
        require(case.agents["a1"].poll() is None, "it has ended")


def firm_away() -> None:
    """While the queue has no view of firm, runs go on and no task starts."""
    with Cluster("a", "b") as case:
        case.start_registered()
        case.firmd.round("start a m1")
        case.until_told("running", "a")
        case.until_begun("a")
        case.firmd.close()
        case.firmd.say("done a")
        case.firmd.round("start b m1")
        time.sleep(SOON_SECONDS)
        require(case.queue.ends("a") == [] and case.processes().keys() == {"a"}, f"a has ended: {case.told()}")
        case.firmd.open()
        require(case.until_told("ended", "a")["why"] == "removed", case.queue.told)
        case.until_begun("b")


def no_work() -> None:
    """An agent refuses and reports malformed work from a queue, and does the rest."""
    work: Row = {"command": ["true"], "grace": 5, "dir": "/", "env": None, "output": None, "time": None, "memory": None}
    nan, endless = float("nan"), float("inf")
    others: dict[str, list[object]] = {
        "command": [None, [], [5], ["a\0"], ["\ud800"], {"a": 1}, 5],
        "dir": [None, 5, "", "here", "/\0", True],
        "env": [[1], 5, {"a": None}, {"a": 1}, {"a": "\0"}, "x"],
        "output": [5, "here", ["/x"], ""],
        "time": [0, -1, nan, endless, "5", True],
        "grace": [None, -1, nan, endless, "5", 1e9],
        "memory": [0, -1, 1.5, "max", True, 2**70],
        "processors": [0, nan, endless, 1e308, "1", False],
    }
    require(agent_users.is_work(work), "it is work")
    taken = [
        (field, value) for field in others for value in others[field] if agent_users.is_work({**work, field: value})
    ]
    require(not taken and not any(map(agent_users.is_work, (None, [], 5, "work"))), f"taken: {taken}")
    with Cluster() as case:
        case.submit("a", ["true"], env=["x"])
        case.submit("b", ["true"])
        case.start_registered()
        case.firmd.round("start a m1 start b m1")
        told = case.until_told("ended", "a")
        fault = "the queue gives what is not work: env: at most 100,000 names with values"
        require((told["status"], told["fault"]) == (126, fault), told)
        require(case.until_told("ended", "b")["status"] == 0, case.told())


def stopped_as_its_queue_goes() -> None:
    """An agent's conversation with its queue ends on request, however close that is to the queue's own end."""
    with tempfile.TemporaryDirectory() as name:
        lost = [turns for turns in range(TURNS) if not asyncio.run(ends_behind(Path(name, f"queue{turns}"), turns))]
    require(not lost, f"told to end these turns of the loop after the queue, it went on: {lost}")


async def ends_behind(path: Path, turns: int) -> bool:
    """Return whether a conversation ends that is cancelled this many turns of the loop after its queue has left."""
    there: list[asyncio.Transport] = []

    async def serve(request: web.Request) -> web.WebSocketResponse:
        connection = web.WebSocketResponse()
        await connection.prepare(request)
        if isinstance(request.transport, asyncio.Transport):
            there.append(request.transport)
        async for _ in connection:
            await connection.send_str('{"register": {"lease": 60, "beat": 20, "end": [], "keep": []}}')
        return connection

    app = web.Application()
    app.router.add_get("/v1/tenants/alpha/agents/connect", serve)
    runner = web.AppRunner(app)
    await runner.setup()
    await web.UnixSite(runner, str(path)).start()
    source = agent_queue.QueueSource(agent_link.Server([f"unix:{path}"], "alpha"), "a1", {"m1": 1}, path.parent)
    changed = asyncio.Event()
    history = SimpleNamespace(name="a1", runs={})
    agent = SimpleNamespace(history=history, changed=changed, state=SimpleNamespace(waits=False), rows=None)
    serving, *others = map(asyncio.create_task, source.begin(agent))  # type: ignore[arg-type]
    await changed.wait()  # it is registered
    there[0].abort()
    for _ in range(turns):
        await asyncio.sleep(0)
    serving.cancel()
    await asyncio.wait([serving], timeout=LIMIT_SECONDS / TURNS)
    has_ended = serving.done()
    for task in (serving, *others):  # a task that ignores its first cancellation gets another
        task.cancel()
    await runner.cleanup()
    return has_ended


def can_limit() -> bool:
    """Return whether runs can have a limit of memory here."""
    try:
        cgroups.Group.make("firm-test", {"memory.max": "100000000"}).end()
    except cgroups.NoGroup:
        return False
    return True


def limits_refused() -> None:
    """If a limit can't be enforced, the task does not start, and its fault names the reason."""
    if can_limit():
        raise Skipped("limits can be kept here")
    with Cluster() as case:
        case.submit("a", ["touch", "begun"], memory=10_000_000)
        case.submit("b", ["touch", "begun"], processors=0.5)
        case.start_registered()
        case.firmd.round("start a m1 start b m1")
        a, b = case.until_told("ended", "a"), case.until_told("ended", "b")
        require(a["status"] == 126 and a["fault"].startswith("no limits can be kept here: "), a)
        require(b["status"] == 126 and b["fault"].startswith("no limits can be kept here: "), b)
        require(not (case.folder / "begun").exists(), "it was begun")


def limits_kept() -> None:
    """A run over its memory limit is ended and reported; the cgroup's files have the limits."""
    if not can_limit():
        raise Skipped("no cgroup v2 with limits of memory can be made here")
    with Cluster() as case:
        case.submit("a", [sys.executable, "-c", "x = bytearray(300_000_000)"], memory=50_000_000)
        case.start_registered()
        case.firmd.round("start a m1")
        ended = case.until_told("ended", "a")
        require((ended["why"], ended["asked"]) == ("memory", False), ended)


def limits_written() -> None:
    """The cgroup's files have the limits of a request."""
    asked = cgroups.limits_of({"memory": 5_000, "processors": 1.5})
    require(asked == {"memory.max": "5000", "memory.oom.group": "1", "cpu.max": "150000 100000"}, asked)
    with Cluster() as case:
        for name in (*asked, cgroups.CONTROL):
            (case.folder / name).write_text("")
        require(cgroups.place_with(case.folder, asked) == case.folder, "where it is")
        require(case.text(cgroups.CONTROL) == "+cpu +memory", case.text(cgroups.CONTROL))
        cgroups.Group(case.folder).limit(asked)
        require({name: case.text(name) for name in asked} == asked, "what was written")


def told_before() -> None:
    """Events that the queue can't accept or doesn't know delay no later events."""
    ends: list[Row] = [
        {"status": 1, "fault": "\ud800\0" + "x" * 600},
        {"status": 2, "output": "/\ud800"},
        {"status": 7},
        {"status": 8},
        {"status": -9, "output": "/x", "seconds": 1.5},
        *[{"status": 0, "output": "/" + "\U0001f600" * 900}] * 400,  # more than fits into one request
    ]
    with Cluster() as case:
        path = case.folder / "a1"
        state = agent_state.State(path, "a1", agent_events.Events(path))
        for number, end in enumerate(ends, 1):
            run = state.start(agent_state.Key(f"t{number}", number, "first"), {"job": "j", "machine": "m1"})
            state.record("running", run=run.number, pid=number, output=None)
            state.record("ended", run=run.number, **{"asked": False, "fault": None, "over": None, **end})
        state.lock.close()
        events = [json.loads(line) for line in case.text("a1/events.jsonl").splitlines()]
        tokens = [event["token"] for event in events if event["event"] == "start"]
        case.queue.refuses = lambda event: event.get("status") == 7 or event["token"] == tokens[3]
        case.start_registered()
        case.until_acknowledged("a1")
        told = {event["token"]: event for event in case.queue.told if event["event"] != "running"}
        found = [(told[token]["event"], told[token].get("status")) for token in tokens[:5] if token in told]
        require(found == [("ended", 1), ("ended", 2), ("lost", None), ("ended", 137)], found)
        require(len(told) == len(ends) - 1, len(told))
        fault = told[tokens[0]]["fault"]
        require(fault.startswith("??xxx") and len(fault) < 520 and told[tokens[1]]["output"] is None, told[tokens[0]])
        last = {"status": 137, "output": "/x", "seconds": 1.5, "why": None}
        require(told[tokens[4]].items() >= last.items(), told[tokens[4]])
        require(case.told().count("the queue does not take the event") == 5, case.told())


def faulty_command_lines() -> None:
    """Each faulty option and list of machines is refused by name."""
    usual = {"server": "unix:q", "tenant": "alpha", "state": "s", "name": "a", "machines": "m1=1"}
    others = {
        "machines": {
            "m1": "'m1' is not a machine with its slots, as m1=4",
            "m1=x": "'m1=x' is not a machine with its slots, as m1=4",
            "m1=1,m1=2": "m1 is there twice",
            "m1=0": "m1 has 0 slots; it may have 1 to 64",
        },
        "name": {"A": "'A' is not a name"},
        "server": {
            "q": "'q' is not unix:PATH or https://HOST:PORT",
            "http://h:1": "'http://h:1' is not unix:PATH",
            "https://h:1": "https needs --token",
        },
        "token": {"t": "a Unix socket takes none"},
    }
    for option, values in others.items():
        for value, words in values.items():
            options = [f"--{name}={value}" for name, value in {**usual, option: value}.items()]
            done = subprocess.run([*AGENT, "run", *options], capture_output=True, text=True, timeout=300)
            require(done.returncode == 2 and words in done.stderr, f"{option} {value}: {done}")


def killed_at_any_moment(kills: int) -> None:
    """Kill agents, supervisors, the queue and firmd: no two processes of a task run at a time, and each task is
    done."""
    names = [f"t{place}" for place in range(2 * kills)]
    with Cluster(lease=LEASE_SECONDS) as case:
        chance = random.Random(kills)
        for name in names:
            case.submit(name, ONCE)
        agents = {"a1": "m1=64", "a2": "m2=64"}
        for agent, machines in agents.items():
            case.start_registered(agent, machines)
        for place in range(kills):
            case.firmd.round(
                " ".join(f"start {name} m{1 + chance.randrange(2)}" for name in names[2 * place : 2 * place + 2])
            )
            time.sleep(0.3 * chance.random())
            disturb(case, chance, agents)
        case.until(lambda: settled(case), "all are done")
        require(not case.text("doubled"), f"two at a time: {case.text('doubled')}")
        missed = [name for name in names if "end" not in case.text(f"{name}.log")]
        require(not missed, f"not done: {missed}")


def settled(case: Cluster) -> bool:
    """Start the tasks of a drained machine on the other; return whether none is left."""
    case.queue.lose_silent()
    book = case.firmd.books.tenants["alpha"]
    waiting = [name for name, task in [*book.tasks.items()] if task.machine is None]  # a task may end meanwhile
    machines = [*book.machines]
    if waiting and machines:
        case.firmd.round(" ".join(f"start {name} {min(machines)}" for name in waiting))
    return not book.tasks


def disturb(case: Cluster, chance: random.Random, agents: dict[str, str]) -> None:
    kind, name = chance.randrange(4), chance.choice([*agents])
    if kind == 0:
        case.kill_agent(name)
        case.start_agent(name, agents[name])
    elif kind == 1:
        claims: list[Row] = []
        for path in case.folder.glob("a?/runs/*/*/process"):
            with contextlib.suppress(OSError):  # the run has ended meanwhile
                claims.append(json.loads(path.read_text()))
        living = [claim["pid"] for claim in claims if claim and is_there(claim["pid"])]
        if living:
            with contextlib.suppress(ProcessLookupError):
                os.kill(chance.choice(living), signal.SIGKILL)
    elif kind == 2:
        case.queue.close()
        time.sleep(0.2)
        case.queue.open()
    else:
        case.firmd.close()
        time.sleep(0.2)
        case.firmd.open()


def measure(agents: int, tasks: int) -> None:
    """Measure the cost of agents with many runs."""
    with Cluster(lease=60) as case:
        numbers = range(agents)
        machines = {agent: [f"m{agent}-{place}" for place in range(-(-tasks // 64))] for agent in numbers}
        for agent in numbers:
            case.start_registered(f"a{agent}", ",".join(f"{machine}=64" for machine in machines[agent]))
        names = {f"t{agent}-{place}": machines[agent][place // 64] for agent in numbers for place in range(tasks)}
        for name in names:
            case.submit(name, ["sleep", "1000"])
        began = clock()
        case.firmd.round(" ".join(f"start {name} {machine}" for name, machine in names.items()))
        case.until(lambda: sum(map(has_run, case.queue.attempts.values())) == len(names), "all are told to run")
        print(f"{len(names)} tasks told to run after {clock() - began:.1f} s")
        before = {agent: processor_of(case.agents[f"a{agent}"].pid) for agent in numbers}
        supervisors = [json.loads(path.read_text())["pid"] for path in case.folder.glob("a*/runs/*/*/process")]
        runs_before = sum(map(processor_of, supervisors))
        time.sleep(60)
        spent = sum(processor_of(case.agents[f"a{agent}"].pid) - before[agent] for agent in numbers)
        ran = sum(map(processor_of, supervisors)) - runs_before
        print(f"an agent: {spent / agents / 60:.2%} of a processor, {memory_of(case.agents['a0'].pid):.1f} MB")
        print(f"a run: {ran / len(names) / 60:.3%} of a processor, {memory_of(supervisors[0]):.2f} MB (proportional)")


def has_run(attempt: object) -> bool:
    return any(event["event"] == "running" for event in getattr(attempt, "events"))


def processor_of(pid: int) -> float:
    """Return a process's processor seconds."""
    fields = Path(f"/proc/{pid}/stat").read_text().rpartition(")")[2].split()
    return (int(fields[11]) + int(fields[12])) / os.sysconf("SC_CLK_TCK")


def memory_of(pid: int) -> float:
    """Return a process's proportional share of memory, in MB."""
    rows = Path(f"/proc/{pid}/smaps_rollup").read_text().splitlines()
    return next(int(row.split()[1]) for row in rows if row.startswith("Pss:")) / 1000


QUICK = [
    agent_processes.asleep_for_long,
    stopped_for_long,
    comes_back,
    lost_though_done,
    life,
    not_started,
    moved_between_agents,
    queue_away,
    time_limit,
    agent_processes.leaves_its_processes,
    killed_supervisor,
    stopped_as_its_queue_goes,
    told_by_the_queue,
    mute_server,
    faulty_tokens,
    firm_away,
    agent_users.other_user,
    agent_users.others_keys,
    agent_users.whose_work,
    agent_users.replaced_socket,
    no_work,
    failing_disk,
    limits_refused,
    limits_written,
    *agent_accounts.CHECKS,
]
LONG = [
    told_before,
    full_disk,
    hung_disk,
    slow_disk,
    two_for_one_machine,
    not_claimed,
    limits_kept,
    faulty_command_lines,
]


def name_of(check: Check) -> str:
    return str(getattr(check, "__name__")).replace("_", " ")


def checks(is_quick: bool) -> dict[str, Check]:
    """Return each check by name."""
    found: dict[str, Check] = {name_of(check): check for check in QUICK + ([] if is_quick else LONG)}
    found |= agent_places.checks(is_quick)
    found["lease over"] = partial(lease_over, False)
    if not is_quick:
        found["lease over, deaf to SIGTERM"] = partial(lease_over, True)
    kills = 4 if is_quick else 40
    found[f"killed at any moment, {kills} times"] = partial(killed_at_any_moment, kills)
    return found


def main() -> int:
    parser = argparse.ArgumentParser(description=(__doc__ or "").splitlines()[0])
    parser.add_argument("--quick", action="store_true", help="the part that tests/quick runs")
    parser.add_argument("--only", default="", help="nothing but the checks whose names have these words")
    parser.add_argument("--agents", type=int, default=0, help="measure this number of agents")
    parser.add_argument("--tasks", type=int, default=100, help="with this number of tasks each (default: %(default)s)")
    options = parser.parse_args()
    if options.agents:
        measure(options.agents, options.tasks)
        return 0
    if options.quick:
        print_skipped(", ".join(map(name_of, LONG)), "--quick leaves out what takes longer")
    chosen = {name: check for name, check in checks(options.quick).items() if options.only in name}
    return run_suites(Suite(chosen, AT_A_TIME))


if __name__ == "__main__":
    run_script(main)
