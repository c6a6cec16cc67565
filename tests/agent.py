"""Check firm-agent as firm's rows change and its own state is lost. Processes are read from /proc.

usage: tools/run tests/agent.py [--quick] [--only WORDS]
Each check prints a line; the last line is 'N passed, M failed', and the exit status is 1 if one failed. --quick leaves
out checks of more than a second or two. It needs Python 3; stand-ins answer for firmd and the queue.
"""

from __future__ import annotations

import argparse
import contextlib
import os
import shutil
import signal
import subprocess
import time
from collections.abc import Callable, Iterator
from functools import partial

from agent_kit import SOON_SECONDS, WAITS_FOR_GO, is_there
from harness.checks import Check, Suite, print_skipped, require, run_script, run_suites
from harness.deployed import agent_file, agent_state
from queue_stand_in import BOTH, Cluster

AT_A_TIME = 6  # checks, which mostly wait


def deaf_to_sigterm() -> None:
    """A preempted task that ignores SIGTERM is killed after its grace; only then the next task gets the slot."""
    with Cluster() as case:
        case.submit("a", "trap '' TERM; echo begin >> a.log; while :; do sleep 0.05; done", grace=3)
        case.submit("b", WAITS_FOR_GO)
        case.start_registered(machines="m1=1")
        case.firmd.round("start a m1")
        case.until_begun("a")
        case.firmd.round("preempt a m1 start b m1")
        case.until(lambda: case.events("end"), "the end was asked for")
        time.sleep(SOON_SECONDS)
        found = case.processes()
        is_late = time.time() - case.events("end")[0]["time"] >= 3
        require(found.keys() == {"a"} or is_late, f"{found} within the grace")
        case.until_runs("b")
        ended, started = case.events("ended")[0], case.events("start")[1]
        require((ended["status"], ended["asked"]) == (-signal.SIGKILL, True), ended)
        require(ended["time"] - case.events("end")[0]["time"] >= 3, "it was killed before its grace was over")
        require(started["time"] >= ended["time"], "two had one slot")
        require(case.until_told("ended", "a")["why"] == "preempted", case.queue.told)


def moves() -> None:
    """A task that moves ends here before it starts there, and a status of 0 is then no end of its work."""
    polite = """trap 'sleep 0.2; echo "end $FIRM_MACHINE" >> a.log; exit 0' TERM; echo "begin $FIRM_MACHINE" >> a.log
        while :; do sleep 0.05; done"""
    with Cluster() as case:
        case.submit("a", polite, grace=5)
        case.start_registered(machines=BOTH)
        case.firmd.round("start a m1")
        case.until(lambda: "begin" in case.text("a.log"), "a begins")
        case.firmd.round("move a m1 m2")
        case.until(lambda: "begin m2" in case.text("a.log"), "a begins on m2")
        case.firmd.say("drain m2", "ok evicted 1")
        case.until(lambda: "end m2" in case.text("a.log"), "a ends on m2")
        case.firmd.round("start a m1")
        case.until(lambda: case.text("a.log").count("begin") == 3, "a begins once more")
        require(case.text("a.log").split() == "begin m1 end m1 begin m2 end m2 begin m1".split(), case.text("a.log"))
        case.firmd.say("done a")
        case.until_runs()
        case.until(lambda: len(case.queue.ends("a")) == 3, "the queue has all its ends")
        ends = [(end["why"], end["status"], end["asked"]) for end in case.queue.ends("a")]
        require(ends == [("moved", 0, True), ("drained", 0, True), ("removed", 0, True)], ends)


def swaps() -> None:
    """Two tasks that change places on full machines: both end, then both start."""
    with Cluster("a", "b") as case:
        case.start_registered(machines="m1=1,m2=1")
        case.firmd.round("start a m1 start b m2")
        case.until_begun("a", "b")
        case.firmd.round("move a m1 m2 move b m2 m1")
        case.until(lambda: "m2" in case.text("a.log") and "m1" in case.text("b.log"), "they have changed places")


def descendants() -> None:
    """A task's remaining processes, deaf and in their own session, are ended at the task's end and at its
    preemption."""
    leaves = "(trap '' TERM; setsid sh -c 'while :; do sleep 0.05; done' &) ; "
    with Cluster() as case:
        case.submit("a", leaves + "sleep 0.1", grace=0.2)
        case.submit("b", leaves + "sleep 60", grace=0.2)
        case.start_registered()
        case.firmd.round("start a m1 start b m1")
        case.until(lambda: len(case.processes().get("b", [])) >= 3, "b has left something")
        case.until_told("ended", "a")
        require(case.processes().keys() == {"b"}, f"{case.processes()} when a is done")
        case.firmd.round("preempt b m1")
        require(case.until_told("ended", "b")["asked"] is True, case.queue.told)
        require(not case.processes(), case.processes())


def killed_and_restarted() -> None:
    """An agent that is killed and started again finds its runs, learns the ends, and starts nothing twice."""
    names = ["stays", "ends", "fails", "waits", "moves", "goes", "again"]
    with Cluster(*names) as case:
        case.submit("fails", WAITS_FOR_GO + "; exit 3", is_new=False)
        case.start_registered(machines=BOTH)
        case.firmd.round(
            " ".join(f"start {name} m1" for name in names[:4]) + "".join(f" start {name} m2" for name in names[4:])
        )
        case.until_begun(*names)
        for name in names:
            case.until_told("running", name)
        case.kill_agent("a1")
        time.sleep(SOON_SECONDS)
        require(case.processes().keys() == set(names), f"{case.processes()} without an agent")
        before = {name: sorted(case.processes()[name]) for name in names}
        case.go("ends", "fails")
        case.firmd.round("preempt waits m1 move moves m2 m1")
        case.firmd.say("done goes")
        case.firmd.say("done again")
        case.firmd.say("task j again")
        case.firmd.round("start again m2")
        case.until(
            lambda: case.processes().keys() == set(names) - {"ends", "fails"}, "two have ended while nobody looked"
        )
        case.start_registered(machines=BOTH)
        case.until(lambda: case.text("moves.log") == "begin m2\nbegin m1\n", "one moves")
        case.until(lambda: case.text("again.log").count("begin") == 2, "a new task of an old name is started anew")
        statuses = [case.until_told("ended", name)["status"] for name in ("ends", "fails")]
        require(statuses == [0, 3], statuses)
        case.until_runs("stays", "moves", "again")
        require(
            [pid for pid in case.processes()["stays"] if pid in before["stays"]] != [],
            "the one that stays was started again",
        )
        counts = {name: case.text(f"{name}.log").count("begin") for name in names}
        require(counts == {"stays": 1, "ends": 1, "fails": 1, "waits": 1, "moves": 2, "goes": 1, "again": 2}, counts)
        require("stays on m1 (run 1) still runs" in case.told(), case.told())


def stopped() -> None:
    """An agent that is stopped leaves its runs running; so does one that is killed."""
    with Cluster("a") as case:
        for number, status in ((signal.SIGTERM, 0), (signal.SIGINT, 0), (signal.SIGKILL, -signal.SIGKILL)):
            case.start_registered()
            if number == signal.SIGTERM:
                case.firmd.round("start a m1")
            agent = case.agents["a1"]
            case.until(lambda: case.text("a.log"), "a runs")
            case.until_told("running", "a")
            agent.send_signal(number)
            require(case.status() == status, f"the status at {number}")
            require(is_there(case.supervisor("a", 1)), "its supervisor has ended")
            require(case.processes().keys() == {"a"}, f"{case.processes()} after {number}")
        require(case.text("a.log") == "begin m1\n", case.text("a.log"))


@contextlib.contextmanager
def other_process() -> Iterator[subprocess.Popen[bytes]]:
    """Start a process that belongs to no agent."""
    with subprocess.Popen(["sleep", "1000"]) as started:
        try:
            yield started
        finally:
            started.kill()


def reused_number() -> None:
    """A process that reuses the number of a task's supervisor is left alone."""
    with Cluster("a") as case, other_process() as stranger:
        case.start_registered(machines=BOTH)
        case.firmd.round("start a m1")
        case.until_begun("a")
        case.until_told("running", "a")
        case.kill_agent("a1")
        for pid in [case.supervisor("a", 1), *case.processes()["a"]]:
            with contextlib.suppress(ProcessLookupError):  # a sleep of the task's that ends meanwhile
                os.kill(pid, signal.SIGKILL)
        file = case.run_folder("a", 1) / "process"
        claim = agent_file.opened(file.read_bytes()) or {}
        file.write_bytes(agent_file.sealed({**claim, "pid": stranger.pid}))
        case.firmd.round("move a m1 m2")
        case.start_registered(machines=BOTH)
        case.until_told("lost", "a")
        case.go("a")
        require(case.until_told("ended", "a")["status"] == 0, case.queue.told)
        require(is_there(stranger.pid), "a stranger was ended")
        require(case.text("a.log").split() == "begin m1 begin m2 end".split(), case.text("a.log"))


def never_begun() -> None:
    """A start that was recorded and not made is detected, and made once; a torn last line is cut off."""
    with Cluster("a") as case:
        state = agent_state.State(case.folder / "a1", "a1")
        line = case.firmd.books.tenants["alpha"].tasks["a"].line
        state.start(agent_state.Key("a", line, "first"), {"job": "j", "machine": "m1"})
        state.lock.close()
        with open(case.folder / "a1/events.jsonl", "a") as events:
            events.write('{"time": 2, "event": "ended", "run": 1, "sta')
        case.start_registered()
        case.firmd.round("start a m1")
        case.until_begun("a")
        require("a on m1 (run 1) was never begun" in case.told(), case.told())
        case.go("a")
        require(case.until_told("ended", "a")["status"] == 0, case.queue.told)
        require(case.text("a.log") == "begin m1\nend\n", case.text("a.log"))


def events_moved_away() -> None:
    """Events of a day that were moved away do not affect the next day: runs of the same task and number are started."""
    for put_back in (False, True):
        with Cluster() as case:
            case.submit("a", "echo $FIRM_RUN >> a.log; exec sleep 0.1")
            case.start_registered()
            early = case.text("a1/events.jsonl")
            case.firmd.round("start a m1")
            case.until_told("ended", "a")
            case.agents["a1"].terminate()
            require(case.status() == 0, "the agent's status")
            events = case.folder / "a1/events.jsonl"
            events.rename(case.folder / "events-of-yesterday")
            if put_back:  # as from a copy: the numbers come again, and so does the name
                events.write_text(early)
            case.submit("a", "echo $FIRM_RUN >> a.log; exec sleep 0.1")
            case.start_registered()
            case.firmd.round("start a m1")
            case.until(lambda: len(case.text("a.log").split()) == 2, "it runs again")
            runs = case.text("a.log").split()
            require(len(set(runs)) == 2, f"{runs}; the agent said:\n{case.told()}")


def state_put_back(is_moved: bool, has_other_number: bool) -> None:
    """If the agent's whole state is put back, or moved away, and the queue has forgotten the attempt, the running
    task ends before it starts again."""
    stubborn = "trap 'sleep 0.5; rmdir a.lock; exit 0' TERM; echo begin >> a.log; while :; do sleep 0.05; done"
    with Cluster("b") as case:
        case.submit("a", f"mkdir a.lock || echo two >> doubled; {stubborn}", grace=5)
        case.start_registered(machines=BOTH)
        early = "" if is_moved else case.text("a1/events.jsonl")
        case.firmd.round("start a m1")
        case.until_told("running", "a")
        case.until(lambda: case.text("a.log"), "it has begun")
        old = [case.supervisor("a", 1), *case.processes()["a"]]
        case.kill_agent("a1")
        (case.folder / "a1/events.jsonl").write_text(early)
        shutil.rmtree(case.folder / "a1/open")
        case.queue.attempts[case.queue.token("a")].is_open = False
        if has_other_number:
            case.firmd.round("preempt a m1 start b m1")
        case.start_registered(machines=BOTH)
        if has_other_number:
            case.until_runs("a", "b")
            case.firmd.round("start a m2")
        case.until(lambda: case.text("a.log").count("begin") == 2, "a begins again")
        require(not any(map(is_there, old)), f"the other run is still there\n{case.told()}")
        require(not case.text("doubled"), "two processes of one task at a time")
        require(f"a.1, process {old[0]}, runs too and is unknown here: it is ended first" in case.told(), case.told())
        time.sleep(SOON_SECONDS)
        require(case.text("a.log").count("begin") == 2, "it has begun once more")


def new_state_of_firmd() -> None:
    """Tasks of a new state of firmd are others, though they have the names and lines of tasks that ran for the old."""
    with Cluster("a", "b") as case:
        case.start_registered(machines=BOTH)
        case.firmd.round("start a m1 start b m2")
        case.until_begun("a", "b")
        case.until_told("running", "b")
        old = case.processes()
        lines = {name: task.line for name, task in case.firmd.books.tenants["alpha"].tasks.items()}
        case.firmd.close()
        case.firmd.begin_state("second")
        for row in ("job j 10", "task j a", "task j b", "machine m1 4", "machine m2 4"):
            case.firmd.say(row)
        case.firmd.round("start a m1 start b m2")
        found = {name: task.line for name, task in case.firmd.books.tenants["alpha"].tasks.items()}
        require(lines == found, f"{lines}, {found}")
        case.firmd.open()
        for task in "ab":
            case.until(lambda: case.text(f"{task}.log").count("begin") == 2, f"{task} of the second state is run")
            require(not any(map(is_there, old[task])), "what ran for the first state is still there")
            require(case.until_told("ended", task)["why"] == "removed", case.queue.told)


def faulty_states() -> None:
    """A faulty state is refused with a status and the reason, before any task starts; so is one in use."""
    with Cluster() as case:
        (case.folder / "a1").mkdir()
        for text, words in {
            b"no event\n" + agent_file.sealed({"event": "state", "name": "n", "at": 9}): "line 1 is not an event",
            agent_file.sealed({"event": "end", "run": 7, "at": 0}): "line 1 doesn't follow",
        }.items():
            (case.folder / "a1/events.jsonl").write_bytes(text)
            case.start_agent()
            require(case.status() == 4 and words in case.told(), f"{text!r}\n{case.told()}")
        (case.folder / "a1/events.jsonl").unlink()
        case.start_registered()
        first = case.agents["a1"]
        case.start_agent()
        require(case.status() == 4 and "another agent has it" in case.told(), case.told())
        case.agents["a1"] = first


QUICK = [
    killed_and_restarted,
    new_state_of_firmd,
    deaf_to_sigterm,
    moves,
    descendants,
    reused_number,
    never_begun,
    events_moved_away,
]
LONG = [stopped, swaps, faulty_states]


def name_of(check: Callable[[], None]) -> str:
    return check.__name__.replace("_", " ")


def checks(is_quick: bool) -> dict[str, Check]:
    """Return each check by name."""
    found: dict[str, Check] = {name_of(check): check for check in QUICK + ([] if is_quick else LONG)}
    for is_moved, where in ((False, "put back"), (True, "moved away")):
        for has_other, number in ((False, "number"), (True, "other number")):
            found[f"a run whose state is {where}, {number}"] = partial(state_put_back, is_moved, has_other)
    return found


def main() -> int:
    parser = argparse.ArgumentParser(description=(__doc__ or "").splitlines()[0])
    parser.add_argument("--quick", action="store_true", help="the part that tests/quick runs")
    parser.add_argument("--only", default="", help="nothing but the checks whose names have these words")
    options = parser.parse_args()
    if options.quick:
        print_skipped(", ".join(map(name_of, LONG)), "--quick leaves out what takes longer")
    chosen = {name: check for name, check in checks(options.quick).items() if options.only in name}
    return run_suites(Suite(chosen, AT_A_TIME))


if __name__ == "__main__":
    run_script(main)
