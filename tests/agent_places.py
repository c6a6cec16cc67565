"""Checks of runs that an agent has to find again, by another list, which tests/agents.py runs."""

from __future__ import annotations

import shutil
import time
from functools import partial

from agent_kit import SOON_SECONDS, is_there
from harness.checks import Check, require
from queue_stand_in import LONG_SECONDS, Cluster

LEASE_SECONDS = 6.0  # for a run that ends with its lease


def begun(case: Cluster) -> int:
    """Start a run on m1; return its supervisor."""
    case.start_registered()
    case.firmd.round("start a m1")
    case.until_told("running", "a")
    case.until_begun("a")
    return case.supervisor("a", 1)


def taken_from_the_list() -> None:
    """A run is followed though its machine is no longer on the list."""
    with Cluster("a") as case:
        begun(case)
        case.kill_agent("a1")
        case.start_registered(machines="m3=4")
        case.until(lambda: "a on m1 (run 1) still runs" in case.told(), "it is followed")
        case.firmd.say("drain m1", "ok evicted 1")
        require(case.until_told("ended", "a")["why"] == "drained", case.told())


def no_trace() -> None:
    """A run that started on the host, but left no trace there, is not mistaken for one that never started: the queue
    hears nothing of it, and so declares it lost once its lease is over."""
    with Cluster("a") as case:
        first = begun(case)
        case.kill_agent("a1")
        shutil.move(case.folder / "a1/runs", case.folder / "moved")
        case.start_registered()
        case.until(lambda: "m1 has no trace of it, though it has run there; it is left" in case.told(), "it is told")
        case.until(lambda: {run["state"] for run in case.queue.runs} <= {"claiming"}, "it is registered without it")
        time.sleep(SOON_SECONDS)
        require({event["event"] for event in case.queue.told} == {"running"}, case.queue.told)
        require(is_there(first) and case.text("a.log") == "begin m1\n", "two processes")


def others_machine(lease: float, seconds: float) -> None:
    """A machine of another agent is left out, and reported once; runs on the agent's other machines go on."""
    with Cluster("b", lease=lease) as case:
        case.start_registered("a2", "m1=4")
        case.start_registered("a1", "m2=4")
        case.firmd.round("start b m2")
        case.until_told("running", "b")
        case.until_begun("b")
        first = case.supervisor("b", 1)
        case.kill_agent("a1")
        case.start_agent("a1", "m1=4,m2=4")
        left_out = "m1 is left out until it is free: machine-taken: the agent a2 has the machine m1"
        case.until(lambda: left_out in case.told(), "it is told")
        case.until(lambda: case.queue.agents["a1"].machines == {"m2": 4}, "it is registered with m2")
        case.until(lambda: "b on m2 (run 1) still runs" in case.told(), "its run goes on")
        time.sleep(seconds)
        require(is_there(first) and case.text("b.log") == "begin m2\n", case.told())
        require(case.told().count(left_out) == 1, case.told())


def checks(is_quick: bool) -> dict[str, Check]:
    """Return each check by name."""
    found: dict[str, Check] = {
        "taken from the list": taken_from_the_list,
        "no trace": no_trace,
        "others machine": partial(others_machine, LONG_SECONDS, SOON_SECONDS),
    }
    if not is_quick:
        found["others machine, short lease"] = partial(others_machine, 5 * LEASE_SECONDS, 7 * LEASE_SECONDS)
    return found
