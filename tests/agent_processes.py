"""Checks of the processes of a run and their ends, which tests/agents.py runs."""

from __future__ import annotations

import json
import os
import signal
import sys
from contextlib import suppress

from agent_kit import is_there
from harness.checks import Missed, require
from queue_stand_in import Cluster, clock

LEASE_SECONDS = 10.0
GRACE_SECONDS = 14.0  # of a run whose host sleeps for longer
# A command without a process in its first process group.
LEAVES = """\
import os, sys, time
child = os.fork()
if not child:
    os.setpgid(0, 0)
    with open(sys.argv[1], "w") as file:
        file.write(str(os.getpid()))
    os.execve(sys.executable, ["python3", "-c", "import time; time.sleep(600)"], {})
while not os.path.exists(sys.argv[1]) or not os.path.getsize(sys.argv[1]):
    time.sleep(0.05)
os.setpgid(0, child)
open(sys.argv[2], "w").close()
time.sleep(600)
"""
LIMITS = {"a": 1, "b": 5, "c": 25, "d": 125}  # seconds of one task after the other, until one is long enough


def asleep_for_long() -> None:
    """A command that ignores SIGTERM is killed at once as its host wakes after its lease and grace: by then the task
    may run elsewhere."""
    with Cluster(lease=LEASE_SECONDS) as case:
        case.submit("a", "trap '' TERM; while :; do sleep 0.05; done", grace=GRACE_SECONDS)
        case.start_registered()
        case.firmd.round("start a m1")
        case.until_told("running", "a")
        case.until_runs("a")
        case.kill_agent("a1")
        (claim,) = case.folder.glob("a1/runs/*/a.*/process")
        host = [json.loads(claim.read_text())["pid"], *case.processes()["a"]]
        for pid in host:
            with suppress(ProcessLookupError):  # a `sleep` of the command, which has ended meanwhile
                os.kill(pid, signal.SIGSTOP)
        over = case.queue.agents["a1"].answered + LEASE_SECONDS + GRACE_SECONDS
        case.until(lambda: clock() > over, "the lease and the grace are over")
        require(is_there(host[0]) and "a" in case.processes(), "it has ended while it slept")
        for pid in host:
            with suppress(ProcessLookupError):  # the supervisor, which wakes first, has killed it
                os.kill(pid, signal.SIGCONT)
        case.until_runs()
        late = clock() - over
        require(late < GRACE_SECONDS / 2, f"it ended {late:.1f} s behind its grace")


def leaves_its_processes() -> None:
    """A command that joins the process group of its child is ended like any other, with all processes that it has
    started."""
    with Cluster() as case:
        case.start_registered()
        for task, seconds in LIMITS.items():
            child, moved = case.folder / f"{task}.child", case.folder / f"{task}.moved"
            case.submit(task, [sys.executable, "-c", LEAVES, str(child), str(moved)], time=seconds)
            case.firmd.round(f"start {task} m1")
            ended = case.until_told("ended", task)
            require(ended["why"] == "timeout" and len(case.queue.ends(task)) == 1, ended)
            if moved.exists():  # otherwise a busy host has not let it get that far in its time
                return require(not is_there(int(child.read_text())), "its child is there")
        raise Missed("the command has not left its group in its time")
