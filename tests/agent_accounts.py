"""Checks of an agent's accounts of its runs, which tests/agents.py runs: memory, processors and slots."""

from __future__ import annotations

import json
import sys
from pathlib import Path

from harness.checks import Check, Missed, Skipped, require
from harness.deployed import NotAllowed, agent_link, agent_queue, reports
from firm.agent.daemon import Agent
from firm.agent.rows import Rows
from firm.agent.state import State
from firm.agent.work import Work
from firm.agent.cgroups import SYSTEMD, group_trouble
from queue_stand_in import Cluster

MEBIBYTE = 2**20
LIMITED = {"memory.max": "max"}
# A child has the memory, and both have a processor for some time.
USES = """\
import subprocess, sys, time
def work(seconds):
    ends = time.process_time() + seconds
    while time.process_time() < ends:
        pass
if len(sys.argv) > 1:
    held = bytearray(100_000_000)
    work(0.4)
else:
    subprocess.run([sys.executable, "-c", sys.argv[0], "child"])
    work(0.2)
"""


def used_by_a_run() -> None:
    """The queue gets a run's maximum of memory, and the processor time of all its processes."""
    with Cluster() as case:
        path = case.folder / "uses.py"
        path.write_text(USES.replace('"-c", sys.argv[0]', "sys.argv[0]"))
        case.submit("a", [sys.executable, str(path)])
        case.submit("b", ["/no/command"])
        case.start_registered()
        case.firmd.round("start a m1 start b m1")
        ended = case.until_told("ended", "a")
        require(95 * MEBIBYTE < ended["max_rss"] < 300 * MEBIBYTE, ended)
        require(0.6 <= ended["cpu_seconds"] < 5, ended)
        ended = case.until_told("ended", "b")
        require((ended["max_rss"], ended["cpu_seconds"]) == (None, None), ended)


def used_as_told() -> None:
    """The queue accepts an agent's figures for memory and processors if they are valid; an end counts in any case."""
    others: tuple[object, ...] = (None, -1, 1.5, "5", True, 2**60, [], float("nan"))
    for bad in others:
        event = {"token": "a" * 32, "time": 1.0, "event": "ended", "status": 0, "max_rss": bad, "cpu_seconds": bad}
        (told,) = reports.told_of({"ask": "told", "events": [event]})
        require(told.max_rss is None and told.end is not None, f"{bad!r}: {told}")
        require(told.cpu_seconds is None or bad in (1.5, True), f"{bad!r}: {told}")
    (told,) = reports.told_of({"events": [{**event, "max_rss": 2**40, "cpu_seconds": 3}]})
    require((told.max_rss, repr(told.cpu_seconds)) == (2**40, "3.0"), told)


def own_slots() -> None:
    """Each run has a slot number of its machine, which no other run there has until it has ended, also after the
    agent's restart."""
    with Cluster() as case:
        shows = 'echo "$FIRM_MACHINE $FIRM_SLOT" > $FIRM_TASK.slot; until [ -e $FIRM_TASK.go ]; do sleep 0.05; done'
        for task in "abcdef":
            case.submit(task, shows, env={"FIRM_SLOT": "9"})
        case.start_registered(machines="m1=3,m2=1")
        case.firmd.round("start a m1 start b m1 start c m2")
        case.until(lambda: len(slots_of(case)) == 3, "three have begun")
        require(sorted(slots_of(case).values()) == ["m1 0", "m1 1", "m2 0"], slots_of(case))
        case.kill_agent("a1")
        case.start_registered(machines="m1=3,m2=1")
        case.firmd.round("start d m1")
        case.until(lambda: "d" in slots_of(case), "the next one has begun")
        require(slots_of(case)["d"] == "m1 2", slots_of(case))
        freed = slots_of(case)["a"]
        case.go("a")
        case.until_told("ended", "a")
        case.firmd.round("start e m1")
        case.until(lambda: "e" in slots_of(case), "its slot is used again")
        require(slots_of(case)["e"] == freed, slots_of(case))
        case.kill_agent("a1")
        starts = case.events("start")
        require([row["slot"] for row in starts] == [0, 1, 0, 2, int(freed[-1])], starts)
        for note in Path(case.folder, "a1/open").iterdir():
            require(json.loads(note.read_text())["slot"] in (0, 1, 2), note)


def slots_of(case: Cluster) -> dict[str, str]:
    """Return the machine and the slot of each started task."""
    found = {path.stem: path.read_text().strip() for path in case.folder.glob("?.slot")}
    return {task: text for task, text in found.items() if text}


def memory_of_slots() -> None:
    """A run may use its slot's part of the memory, or its task's limit; more than the machine has is refused."""
    server = agent_link.Server(["unix:/x"], "alpha")
    with Cluster() as case:
        state = State(case.folder / "state", "a1")
        source = agent_queue.QueueSource(server, "a1", {"m1": 4, "m2": 2}, case.folder, {"m1": 2**30 + 3})
        source.agent = Agent(source, state)
        require((source._slots_of("m1"), source._slots_of("m2")) == (4, 2), "without firm")
        source.agent.rows = Rows("x", {"m1": 8, "m2": 1}, {})
        require((source._slots_of("m1"), source._slots_of("m2")) == (8, 2), "as it has more until nothing runs there")
        for machine, named, limit in (
            ("m1", None, 2**28),
            ("m1", 5, 5),
            ("m1", 2**30 + 3, 2**30 + 3),
            ("m2", None, None),
            ("m2", 2**40, 2**40),
        ):
            work = Work(["x"], "/", 5.0, {}, {"limit": 1.0} | ({"memory": named} if named is not None else {}))
            found = source._limited(machine, work, source.machines[machine]).bounds
            require(found == {"limit": 1.0} | ({"memory": limit} if limit is not None else {}), f"{machine}: {found}")
        try:
            source._limited("m1", Work(["x"], "/", 5.0, {}, {"memory": 2**40}), 4)
        except NotAllowed as why:
            told = "the task names 1,099,511,627,776 bytes of memory; m1 has 1,073,741,827"
            require(str(why) == told, why)
        else:
            raise Missed("more than the machine has is taken")


def faulty_memory() -> None:
    """Faulty lists of memory are refused, and so is any list if no limits can be enforced."""
    faults = {
        "m2=1G": "m2 is not a machine",
        "m1=3": "a byte for each slot",
        "m1": "with their memory",
        "m1=x": "not a list of machines",
    }
    if group_trouble(LIMITED) is not None:
        faults["m1=1G"] = "no limits can be kept here: "
    with Cluster() as case:
        for text, wanted in faults.items():
            case.start_agent(more=["--memory", text])
            require(case.status() == 2 and wanted in case.told(), f"{text}: {case.told()}")


def kept_memory() -> None:
    """A run that takes more than its slot's part is ended for that."""
    if group_trouble(LIMITED) is not None or SYSTEMD.is_dir():
        raise Skipped("no cgroup v2 with limits of memory can be made here")
    with Cluster() as case:
        case.submit("a", [sys.executable, "-c", "x = bytearray(300_000_000)"])
        case.submit("b", ["true"], memory=2**31)
        case.start_registered(more=["--memory", "m1=200M"])
        case.firmd.round("start a m1 start b m1")
        require(case.until_told("ended", "a")["why"] == "memory", case.told())
        require("bytes of memory; m1 has" in case.until_told("ended", "b")["fault"], case.told())


CHECKS: list[Check] = [used_by_a_run, used_as_told, own_slots]
CHECKS += [memory_of_slots, faulty_memory, kept_memory]
