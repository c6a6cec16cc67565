"""Checks of agents' disks, which tests/agents.py runs: full, failing and hung ones."""

from __future__ import annotations

import json
import resource
import subprocess
import sys
import tempfile
import time

from agent_kit import SOON_SECONDS, Case, Row, is_there
from harness.checks import require
from queue_stand_in import LONG_SECONDS, Cluster, clock

LEASE_SECONDS = 10.0
# An agent whose disk hangs while a file exists.
HANGS = """\
import os, sys, time
sign, sync = sys.argv.pop(1), os.fdatasync
def hanging(file):
    while os.path.exists(sign):
        time.sleep(0.05)
    sync(file)
os.fdatasync = hanging
from firm.agent import daemon as agent
sys.exit(agent.main())
"""
# An agent whose disk takes a second for each sync while a file is there.
SLOW = """\
import os, sys, time
sign, sync = sys.argv.pop(1), os.fdatasync
def slow(file):
    time.sleep(os.path.exists(sign))
    sync(file)
os.fdatasync = slow
from firm.agent import daemon as agent
sys.exit(agent.main())
"""
# An agent whose disk for events fails at some moment, and can't undo a partial write; perhaps until a kill.
FAILS = """\
import errno, os, sys
from pathlib import Path
from firm.agent.state import Key, State
folder, lacking, goes_on = Path(sys.argv[1]), sys.argv[2].split(), sys.argv[3] == "goes on"
real, failing = {name: getattr(os, name) for name in ("write", "fdatasync", "ftruncate", "unlink")}, []
def call(name, *words):
    if name not in failing:
        return real[name](*words)
    if name == "write" and len(words[1]) > 20:
        return real[name](words[0], words[1][:20])
    raise OSError(errno.EIO, os.strerror(errno.EIO))
for name in real:
    setattr(os, name, lambda *words, name=name, **more: call(name, *words))
def start(state, task):
    return state.start(Key(task, 1, "first"), {"job": "j", "weight": 1, "machine": "m1"}).number
state = State(folder, "a1")
runs = [start(state, task) for task in "abc"]
state.record("running", run=runs[0], pid=1, output=None)
failing[:] = lacking
state.record("ended", run=runs[0], status=0, asked=False, fault=None)
state.record("ended", run=runs[1], status=3, asked=False, fault=None)
try:
    start(state, "d")
    print("it is started")
except OSError:
    pass
failing.clear()
if goes_on:
    state.write_waiting()
    state.record("running", run=start(state, "e"), pid=5, output=None)
state.lock.close()
again = State(folder, "a1")
print(*sorted(run.key.task for run in again.history.runs.values()))
print(*sorted({"a", "b", "c"} - {run.key.task for run in again.history.runs.values()}))
"""


def full_disk() -> None:
    """An agent on a full disk keeps its lease and its runs, starts nothing, and reports all events once there is
    room."""
    with Cluster("a", "b", lease=LEASE_SECONDS) as case:
        case.start_registered()
        case.firmd.round("start a m1")
        case.until_told("running", "a")
        agent = case.agents["a1"].pid
        size = len(case.text("a1/events.jsonl")) + 40
        limits = resource.prlimit(agent, resource.RLIMIT_FSIZE, (size, resource.RLIM_INFINITY))
        case.firmd.round("start b m1")
        case.until(lambda: "b is not started" in case.told(), "it is told")
        time.sleep(LEASE_SECONDS + 1.5)
        require(case.processes().keys() == {"a"} and is_there(agent), case.told())
        case.go("a")
        case.until_runs()
        require(case.until_told("ended", "a")["status"] == 0, "how a ended")
        resource.prlimit(agent, resource.RLIMIT_FSIZE, limits)
        case.until_begun("b")
        require((case.text("a.log"), case.text("b.log")) == ("begin m1\nend\n", "begin m1\n"), "each was run once")
        require('"ended"' in case.text("a1/events.jsonl"), case.text("a1/events.jsonl"))


def failing_disk() -> None:
    """An event that the disk neither takes nor undoes does not count, and nothing is written after it. A start finds
    the recorded events, and no more, whether the agent goes on or is killed then."""
    lacking = {"write ftruncate": "", "fdatasync ftruncate": "a", "write unlink": "", "fdatasync ftruncate unlink": "a"}
    for calls, known in lacking.items():
        for how in ("goes on", "is killed"):
            with tempfile.TemporaryDirectory() as name:
                words = [sys.executable, "-c", FAILS, name, calls, how]
                done = subprocess.run(words, stdin=subprocess.DEVNULL, capture_output=True, text=True, timeout=300)
            ended = "a b" if how == "goes on" else known
            open_runs = [task for task in ("a b c e" if how == "goes on" else "a b c").split() if task not in ended]
            told = done.stdout.splitlines()
            require(told == [" ".join(open_runs), ended], f"{calls}, {how}: {done}")


def hung_disk() -> None:
    """An agent whose disk hangs keeps its lease, so that runs go on; it reports their ends, and starts nothing."""
    with Cluster("a", "b", "c", lease=1.5 * LEASE_SECONDS) as case:
        sign = case.folder / "hangs"
        case.start_agent(before=[sys.executable, "-c", HANGS, str(sign)])
        case.until(lambda: "a1" in case.queue.agents, "it is registered")
        case.firmd.round("start a m1 start c m1")
        for task in "ac":
            case.until_told("running", task)
        sign.touch()
        case.firmd.round("start b m1")
        case.until(lambda: "b is not started" in case.told(), "it is told")
        require("the disk has not answered for 5 s" in case.told(), case.told())
        keep = {"tell": "keep", "tokens": [case.queue.token("c")]}
        case.queue.tell("a1", **keep)
        time.sleep(3 * LEASE_SECONDS)
        require(case.processes().keys() == {"a", "c"}, f"its lease was over: {case.told()}")
        case.go("a")
        require(case.until_told("ended", "a")["status"] == 0, "how a ended")
        require('"ended"' not in case.text("a1/events.jsonl"), case.text("a1/events.jsonl"))
        sign.unlink()
        case.until_begun("b", "c")
        case.until(lambda: '"ended"' in case.text("a1/events.jsonl"), "it is written")
        starts = [row["task"] for row in events_of(case) if row["event"] == "start"]
        require(sorted(starts) == ["a", "b", "c"], f"what was given up is written: {starts}")
        require(case.queue.kept == [] and '"keep"' not in case.text("a1/events.jsonl"), "c is kept")
        case.queue.tell("a1", **keep)
        case.until(lambda: case.queue.kept == keep["tokens"], "it is kept once it is told again")
        case.queue.lease, told = LONG_SECONDS, clock()  # a busy host takes longer than the other to start an agent
        case.until(lambda: case.queue.agents["a1"].answered > told, "a beat has the longer lease")
        time.sleep(SOON_SECONDS)
        case.kill_agent("a1")
        case.start_registered()
        case.go("b", "c")
        for task in "bc":
            require(case.until_told("ended", task)["status"] == 0, f"how {task} ended")
        require([case.text(f"{task}.log") for task in "abc"] == ["begin m1\nend\n"] * 3, "each was run once")


def slow_disk() -> None:
    """An agent whose disk is slow keeps its lease while it begins many runs at once, is to keep them, and they end."""
    others = [f"b{number}" for number in range(int(1.5 * LEASE_SECONDS))]
    with Cluster("a", *others, lease=LEASE_SECONDS) as case:
        sign = case.folder / "is-slow"
        case.start_agent(machines="m1=64", before=[sys.executable, "-c", SLOW, str(sign)])
        case.until(lambda: "a1" in case.queue.agents, "it is registered")
        case.firmd.round("start a m1")
        case.until_told("running", "a")
        sign.touch()
        case.firmd.round(" ".join(f"start {task} m1" for task in others))
        time.sleep(2 * LEASE_SECONDS)
        require(not case.queue.ends("a"), f"its lease was over as others began: {case.told()}")
        sign.unlink()
        case.until_begun("a", *others)
        sign.touch()
        tokens = [case.queue.token(task) for task in others]
        case.queue.tell("a1", tell="keep", tokens=tokens)
        case.until(lambda: set(case.queue.kept) >= set(tokens), "they are kept")
        require(not case.queue.ends("a"), f"its lease was over as others were kept: {case.told()}")
        case.go(*others)
        for task in others:
            require(case.until_told("ended", task)["status"] == 0, f"how {task} ended")
        require(not case.queue.ends("a"), f"its lease was over as others ended: {case.told()}")
        require([case.text(f"{task}.log") for task in others] == ["begin m1\nend\n"] * len(others), "each was run once")


def events_of(case: Case) -> list[Row]:
    """Return the events that the first agent has recorded."""
    return [json.loads(line) for line in case.text("a1/events.jsonl").splitlines()]
