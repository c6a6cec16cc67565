"""Checks of the agent's files without processes: its events, the folders of its runs, its cgroups."""

from __future__ import annotations

import os
import random
import threading
import time
from collections.abc import Callable, Sequence
from pathlib import Path
from typing import Any
from unittest.mock import patch

from harness.checks import Missed, require
from harness.deployed import agent_events, agent_file
from firm.agent import state as agent_state, cleanup as agent_sweep, supervisor as agent_supervisor
from firm.agent.cgroups import Group
from firm.agent.work import Work
from firm.agent.event_file import EventFile
from firm.agent.state import Key, Run, State, StateError
from firm.common.seen_time import SeenTime
from queue_parts import DAY, within


def state_of_agent(folder: Path) -> tuple[State, agent_events.Events]:
    events = agent_events.Events(folder)
    state = State(folder, "alpha", events)
    events.check()
    return state, events


def start(state: State, number: int) -> Run:
    return state.start(Key(f"t{number}", number, "firmd"), {"job": "j", "machine": "m1"})


def run_once(state: State, number: int) -> None:
    run = start(state, number)
    state.record("running", run=run.number, pid=7, output=None)
    state.record("ended", run=run.number, status=0, asked=False, seconds=1.0)


def short_file(folder: Path) -> None:
    """The file of an agent's events stays short after many runs, and keeps open runs and unacknowledged events."""
    most, agent_state.MAX_FILE = agent_state.MAX_FILE, 10_000
    try:
        state, events = state_of_agent(folder)
        first = state.start(Key("first", 1, "firmd"), {"job": "j", "machine": "m1"})
        state.record("running", run=first.number, pid=7, output=None)
        state.record("end", run=first.number, why="preempted")
        last = state.start(Key("last", 2, "firmd"), {"job": "j", "machine": "m2"})
        state.record("keep", run=last.number)
        events.acknowledged(1)
        for number in range(3, 303):
            run_once(state, number)
            if number < 300:
                events.acknowledged(2)
        size = (folder / agent_state.EVENTS).stat().st_size
        require(size < 25_000, f"{size:,} bytes for two open runs")
        told = [event["event"] for event in events.first()]
        wanted = ["running", "ended"] * 3
        require(told == wanted, told)
        for _ in range(2):
            state.lock.close()
            time.sleep(0.2)  # a thread writes the cursor
            again, heard = state_of_agent(folder)
            runs = {
                run.key.task: (run.number, run.token, run.machine, run.has_run, run.ends, run.is_kept)
                for run in again.history.runs.values()
            }
            require(runs["first"][:5] == (1, first.token, "m1", True, "preempted"), runs)
            require(runs["last"][:3] == (2, last.token, "m2") and runs["last"][5], runs)
            require(again.history.last_run == 302 and again.history.name == state.history.name, again.history.last_run)
            require([event["event"] for event in heard.first()][-6:] == wanted, heard.first())
            require(again.regained == [], again.regained)
            state = again
        state.lock.close()
    finally:
        agent_state.MAX_FILE = most


def late_short_file(folder: Path) -> None:
    """Acknowledgements that come while the disk hangs, as the file is shortened, count for no other event."""
    goes_on = threading.Event()
    state, events = state_of_agent(folder)
    setattr(state, "_max_file", 2**20)
    run_once(state, 1)
    many = [start(state, number) for number in range(2, 42)]
    file: EventFile = getattr(state, "_file")
    shorten, size = file.replace, file.size

    def hang(rows: Sequence[dict[str, Any]]) -> None:
        shorten(rows)
        require(goes_on.wait(60), "the disk goes on")

    setattr(file, "replace", hang)
    setattr(state, "_max_file", size + 2_000)
    for run in many[:30]:
        state.record("running", run=run.number, pid=7, output=None)
    require(state.waits, "the file is shortened, which hangs")
    events.acknowledged(12)
    for run in many[:3]:
        state.record("ended", run=run.number, status=0, asked=False, seconds=1.0)
    before = {(event["event"], event["token"]) for event in events.first()}
    goes_on.set()
    time.sleep(0.5)
    state.write_waiting()
    for _ in range(2):  # also after a restart
        told = {(event["event"], event["token"]) for event in events.first()}
        require(told >= before, f"{len(before - told)} of {len(before)} are never reported")
        state.lock.close()
        state, events = state_of_agent(folder)
    state.lock.close()


def torn_event(folder: Path) -> None:
    """A start removes an event that a power cut has torn, even with its end on the disk; a changed earlier one is
    damage."""
    state, _ = state_of_agent(folder)
    for number in range(1, 4):
        run_once(state, number)
    whole = (folder / agent_state.EVENTS).read_bytes()
    state.start(Key("torn", 9, "firmd"), {"job": "j", "machine": "m1"})
    state.lock.close()
    path = folder / agent_state.EVENTS
    torn = bytearray(path.read_bytes())
    torn[len(whole) : len(whole) + 100] = bytes(100)
    path.write_bytes(torn)
    for note in (folder / agent_state.OPEN).iterdir():
        note.unlink()
    again, _ = state_of_agent(folder)
    require(again.history.last_run == 3 and path.read_bytes() == whole, "it is not cut")
    run_once(again, 4)
    again.lock.close()
    again, _ = state_of_agent(folder)
    again.lock.close()
    good, draw = path.read_bytes(), random.Random(3)
    lines = good.splitlines(keepends=True)
    for _ in range(60):
        place = draw.randrange(8 * (len(good) - len(lines[-1])))
        changed = bytearray(good)
        changed[place // 8] ^= 1 << place % 8
        path.write_bytes(changed)
        try:
            found, _ = state_of_agent(folder)
        except StateError:
            continue
        found.lock.close()
        if found.history != again.history:  # a changed name of the checksum's field loses nothing
            raise Missed(f"bit {place % 8} of byte {place // 8} is served")


def sealed_files(_: Path) -> None:
    """No changed bit in a run's status or claim is read as if it were whole."""
    outcome = {"status": 1, "asked": False, "fault": None, "over": None, "seconds": 2.5}
    text = agent_file.sealed(outcome)
    require(agent_file.opened(text) == outcome, text)
    for place in range(8 * len(text)):
        changed = bytearray(text)
        changed[place // 8] ^= 1 << place % 8
        require(agent_file.opened(bytes(changed)) is None, f"bit {place % 8} of byte {place // 8}")


def groups_of_no_run(folder: Path) -> None:
    """A cgroup is removed if no supervisor comes to have it. One that can't be read is not taken for empty."""
    group = Group(folder / "group")

    def make(*_: Any) -> Group:
        group.path.mkdir()
        return group

    work = Work(["x"], "/", 0.0)
    with patch.object(agent_supervisor, "PROGRAM", folder / "missing"), patch.object(Group, "make", make):
        try:
            agent_supervisor.begin(folder / "alpha-1" / "1.1", "00000001", work, 1e9)
        except FileNotFoundError:
            require(not group.path.exists(), "it stays for ever")
        else:
            raise Missed("a supervisor was started that is missing")
    (group.path / "cgroup.events").mkdir(parents=True)  # which raises as EMFILE does
    try:
        group.end()
    except IsADirectoryError:
        return
    raise Missed("it was taken for empty")


def old_runs(folder: Path) -> None:
    """Folders of runs are removed a day after their end, with an output once the queue forgets the task; no others."""
    made = {
        "gone.1": (2, 0),
        "kept.2": (2, 5),
        "old.3": (31, 5),
        "young.4": (0, 0),
        "open.5": (40, 0),
        "untold.6": (40, 5),
        "damaged.7": (0, 0),
    }
    for name, (days, size) in made.items():
        run = folder / "alpha-1" / name
        run.mkdir(parents=True)
        (run / "process").write_text("{}")
        (run / "output").write_bytes(b"x" * size)
        if name == "damaged.7":
            (run / "process").write_bytes(b"\xff")
        elif name != "open.5":
            (run / "status").write_text("{}")
            os.utime(run / "status", (time.time() - days * DAY,) * 2)
    count = agent_sweep.sweep(folder, {"alpha-1/untold.6"}, 30 * DAY, SeenTime(None).now())
    left = sorted(run.name for run in (folder / "alpha-1").iterdir())
    require((count, left) == (2, ["damaged.7", "kept.2", "open.5", "untold.6", "young.4"]), left)


CHECKS: dict[str, Callable[[], None]] = {
    "short file": within(short_file),
    "late short file": within(late_short_file),
    "torn event": within(torn_event),
    "sealed files": within(sealed_files),
    "groups of no run": within(groups_of_no_run),
    "old runs": within(old_runs),
}
