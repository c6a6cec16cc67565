"""Check the queue with users, operators and agents, kill it, and look for work that is lost or done twice.

usage: tools/run tests/firm_queue.py [--quick] [--only WORDS] [--program FILE] [--seed N]
Each check prints a line; the last line is 'N passed, M failed', and the exit status is 1 if one failed. It needs Python
3 and the built program, which a real firmd runs; agents are stand-ins that speak the protocol. Checks of users and of
full disks need root. A check that can't run here is skipped with a line. --quick kills less often, and leaves out
figures.
"""

from __future__ import annotations

import argparse
import os
import random
import shutil
import socket
import sqlite3
import statistics
import subprocess
import tempfile
import time
from collections.abc import Callable
from contextlib import closing, suppress
from functools import partial
from pathlib import Path

import agent_files
import queue_access
import queue_agents
import queue_bounds
import queue_damage
import queue_fair
import queue_gaps
import queue_hostile
import queue_kills
import queue_parts
import queue_placeholders
import queue_tables
from harness import program
from harness.checks import Check, Skipped, Suite, require, run_script, run_suites
from harness.deployed import columns
from firm.queue.checksums import seal
from firm.common.users import name_of
from queue_client import Client, Json
from queue_kit import CPU_SECONDS, FOREVER, MAX_RSS, Case, Firmd, Setup, Size, claim_place, numbers

CHECKS_AT_A_TIME = 8  # they mostly wait
LEASE_SECONDS = 12  # for agents that must keep their leases on a busy host

# A task's life.


def life(setup: Setup) -> None:
    """A task is submitted, waits, runs and is done; firm has its job and its row only meanwhile."""
    with setup.case().start() as case, case.client() as client:
        number = client.submit("0.1", job="web", weight=7)
        require(number == 1, number)
        case.until(lambda: case.firm_tasks() == ["1"], "it is in firm")
        case.until_state(client, "1", "waiting")
        case.agent("a1", m1=2)
        found = client.ask("wait", tasks=["1"])
        require(found == {"1": {"state": "done", "status": 0}}, found)
        case.until(lambda: case.firm_tasks() == [], "it has left firm")
        case.until(lambda: jobs_of(case) == [], "its job is closed")
        task = client.ask("task", task="1")
        require((task["state"], task["machine"], task["attempt"], task["weight"]) == ("done", "m1", 1, 7), task)
        (attempt,) = task["attempts"]
        require((attempt["outcome"], attempt["machine"], attempt["agent"]) == ("done", "m1", "a1"), attempt)
        require(0.05 < attempt["seconds"] < 5 and attempt["began"] <= attempt["ended"], attempt)
        (row,) = client.ask("history")
        require((row["task"], row["outcome"], row["job"], row["user"]) == ("1", "done", "web", "root"), row)
        for found in (row, attempt):
            require((found["max_rss"], found["cpu_seconds"]) == (MAX_RSS, CPU_SECONDS), found)
        case.stop()
        case.start()
        with case.client() as again:
            require(again.ask("history") == [row] and again.ask("task", task="1")["attempts"] == [attempt], "read anew")


def table_of_tasks(setup: Setup) -> None:
    """The table of tasks shows an array's neighbouring waiting tasks as one row, whatever state the others are in."""
    with setup.case().start() as case, case.client() as client, case.firmd.client() as firm:
        for line in ("job j 3", "task j mine"):
            require(firm.ask(f"{case.tenant} {line}".encode()).endswith(b" ok"), line)
        client.submit(*FOREVER, array=[1, 3])
        client.submit(*FOREVER, "a b", "it's", array=[4, 6], hold=True)
        client.submit("0.01", after=["1"], job="late")
        client.submit("1" * 40, array=[0, 20])
        client.ask("hold", tasks=["4_7"])
        case.agent("a1", m1=2)
        case.until(lambda: len(case.world.running()) == 2, "two run")
        wanted = {"foreign", "running", "waiting", "held", "blocked"}
        case.until(lambda: {row["state"] for row in client.ask("tasks")} >= wanted, "all states are there")
        lines = columns.table(client.ask("tasks")).splitlines()
        names = [line.split()[0] for line in lines[1:]]
        waiting = ["4_[0-2]", "4_[3-6]"]  # in firm, and queued
        require(names == ["1_1", "1_2", "1_3", "2_[4-6]", "3", *waiting, "4_7", "4_[8-20]", "mine"], names)


def jobs_of(case: Case) -> list[str]:
    found = case.firm_rows("jobs")
    return [row["job"] for row in found]


def outcomes(setup: Setup) -> None:
    """A failed task is retried up to its limit; statuses, signals and reasons are stored."""
    with setup.case().start() as case, case.client() as client:
        case.agent("a1", m1=4)
        client.submit("0.01", "3", retries=1)
        client.submit("0.01", "137")
        client.submit("0.01")
        found = client.ask("wait", tasks=["1", "2", "3"])
        require(found["1"] == {"state": "failed", "status": 3}, found)
        require(found["2"] == {"state": "failed", "status": 137}, found)
        attempts = client.ask("task", task="1")["attempts"]
        require([one["outcome"] for one in attempts] == ["failed", "failed"], attempts)
        gap = attempts[1]["began"] - attempts[0]["ended"]
        require(gap > 0.9, f"tried again after {gap} s")
        require(client.ask("task", task="2")["reason"] == "signal 9", client.ask("task", task="2"))
        require(case.world.ends("1") == [3, 3], case.world.ends("1"))
        case.world.require_single()


def arrays(setup: Setup) -> None:
    """An array has a task for each index; users show, cancel and wait for them one by one or together."""
    with setup.case().start() as case, case.client() as client:
        found = client.ask("submit", command=["0.02"], dir="/tmp", array=[0, 4])
        require(found == {"number": 1, "first": 0, "last": 4, "count": 5, "job": "root"}, found)
        client.ask("cancel", tasks=["1_2"])
        case.agent("a1", m1=2)
        ends = client.ask("wait", tasks=["1"])
        states = {task: end["state"] for task, end in ends.items()}
        require(states == {f"1_{index}": "cancelled" if index == 2 else "done" for index in range(5)}, states)
        rows = client.ask("tasks", states=["done", "cancelled"])
        require([row["task"] for row in rows] == [f"1_{index}" for index in range(5)], rows)
        client.refused("no-such-task", "task", task="1_5")
        client.refused("no-such-task", "task", task="1")
        client.refused("bad-field", "submit", command=["x"], dir="/tmp", array=[4, 3])
        client.refused("array-too-large", "submit", command=["x"], dir="/tmp", array=[0, 100_000])


def keys(setup: Setup) -> None:
    """A request that is repeated with its key makes nothing, also after a restart."""
    with setup.case().start() as case, case.client() as client:
        first = client.ask("submit", command=["1"], dir="/tmp", key="k", array=[1, 2])
        again = client.ask("submit", command=["1"], dir="/tmp", key="k", array=[1, 2])
        require(again == {**first, "again": True}, again)
        both = [{"ask": "submit", "command": ["1"], "dir": "/tmp", "key": "l"}] * 2
        client.send(*both)
        numbers = {client.answer()["submit"]["number"] for _ in both}
        require(numbers == {2}, numbers)
        case.kill()
        case.start()
        with case.client() as other:
            again = other.ask("submit", command=["1"], dir="/tmp", key="k", array=[1, 2])
            require(again == {**first, "again": True}, again)
            require(other.submit() == 3, "the next number")
            found = other.ask("submit-all", key="m", submissions=[{"command": ["1"], "dir": "/"}] * 2)
            again = other.ask("submit-all", key="m", submissions=[{"command": ["1"], "dir": "/"}] * 2)
            require([one["number"] for one in again] == [4, 5] and again[0]["again"], (found, again))


def dependencies(setup: Setup) -> None:
    """A dependent task begins once the others have ended, all of an array too; if they can't, it is unmet."""
    with setup.case().start() as case, case.client() as client:
        case.agent("a1", m1=8)
        client.submit("0.1", array=[1, 3])
        client.submit("0.02", after=["1"])
        client.submit("0.02", "1")
        client.submit("0.02", after=["3"])
        client.submit("0.02", after_any=["3", "1_2"])
        client.submit("0.02", after=["4"])
        client.submit("0.02", after_any=["6"])
        found = client.ask("wait", tasks=["2", "4", "5", "6", "7"])
        states = {task: end["state"] for task, end in found.items()}
        require(states == {"2": "done", "4": "unmet", "5": "done", "6": "unmet", "7": "done"}, states)
        began = client.ask("task", task="2")["began"]
        ended = max(row["ended"] for row in client.ask("history", limit=100) if row["number"] == 1)
        require(began >= ended - 0.02, f"it began {ended - began} s before what it waits for had ended")
        require(client.ask("task", task="4")["reason"] == "3 failed, status 1", client.ask("task", task="4"))
        late = client.submit("0.02", after=["3"])
        case.until_state(client, str(late), "unmet")
        late = client.submit("0.02", after=["1", "2"])
        case.until_state(client, str(late), "done")
        client.submit(*FOREVER, hold=True)
        blocked = client.submit("0.02", after=["10"])
        row = client.ask("task", task=str(blocked))
        require((row["state"], row["reason"]) == ("blocked", "waits for 10"), row)
        client.refused("no-such-task", "submit", command=["x"], dir="/", after=["99"])


def labels(setup: Setup) -> None:
    """A list of submissions is made as a whole or not at all; its labels may name each other, but not in a circle."""
    with setup.case().start() as case, case.client() as client:
        case.agent("a1", m1=8)
        entries: list[Json] = [
            {"label": "last", "command": ["0.01"], "dir": "/", "after": ["@first", "@middle"]},
            {"label": "first", "command": ["0.05"], "dir": "/", "array": [1, 2]},
            {"label": "middle", "command": ["0.01"], "dir": "/", "after": ["@first"]},
        ]
        found = client.ask("submit-all", submissions=entries)
        require([one["number"] for one in found] == [1, 2, 3], found)
        require(all(end["state"] == "done" for end in client.ask("wait", tasks=["1", "2", "3"]).values()), "all done")
        times = {number: client.ask("task", task=number)["began"] for number in ("1", "3", "2_1")}
        require(times["2_1"] < times["3"] < times["1"], times)
        circle = [{**entries[0], "after": ["@b"]}, {**entries[1], "label": "b", "after_any": ["@last"]}]
        told = client.refused("dependency-cycle", "submit-all", submissions=circle)
        require("last" in told["text"] and "b" in told["text"], told)
        itself = [{**entries[1], "after": ["@first"]}]
        client.refused("dependency-cycle", "submit-all", submissions=itself)
        told = client.refused("no-such-label", "submit-all", submissions=[entries[1], {**entries[2], "after": ["@x"]}])
        require(told["at"] == 1, told)
        client.refused("label-twice", "submit-all", submissions=[entries[1], entries[1]])
        told = client.refused("bad-field", "submit-all", submissions=[entries[1], {"command": [], "dir": "/"}])
        require((told["at"], told["field"]) == (1, "command"), told)
        require(client.submit() == 4, "refused lists have taken numbers")
        chain = [{"label": "0", "command": ["x"], "dir": "/", "hold": True}]
        chain += [{"label": str(at), "command": ["x"], "dir": "/", "after": [f"@{at - 1}"]} for at in range(1, 1_000)]
        first = client.ask("submit-all", submissions=chain)[0]["number"]
        client.ask("cancel", tasks=[str(first)])
        case.until_state(client, str(first + 999), "unmet")


# Changes.


def changes(setup: Setup) -> None:
    """Tasks are held, released and cancelled in each state that they can be in."""
    with setup.case().start() as case, case.client() as client:
        held, blocked = client.submit(*FOREVER, hold=True), client.submit(*FOREVER, after=["1"])
        waiting = client.submit(*FOREVER)
        case.until_state(client, str(waiting), "waiting")
        require((client.state("1"), client.state("2")) == ("held", "blocked"), client.ask("tasks"))
        found = client.ask("hold", tasks=["1", "2", "3"])
        require(found == {"changed": ["2", "3"], "unchanged": {"1": "is held"}}, found)
        case.until(lambda: case.firm_tasks() == [], "what is held leaves firm")
        found = client.ask("release", tasks=["2", "3"])
        require(found["changed"] == ["2", "3"], found)
        case.until(lambda: case.firm_tasks() == ["3"], "what is released comes back")
        found = client.ask("cancel", tasks=["1"])
        require(found["changed"] == ["1"] and client.state("1") == "cancelled", found)
        require(client.state(str(blocked)) == "unmet", "what waits for it")
        agent = case.agent("a1", m1=1)
        case.until_state(client, str(waiting), "running")
        found = client.ask("hold", tasks=["3", "1"])
        require(found["unchanged"] == {"3": "runs on m1", "1": "has ended: cancelled"}, found)
        agent.kill()
        require(client.ask("cancel", tasks=["3"])["changed"] == ["3"] and client.state("3") == "ending", "ending")
        require(client.ask("cancel", tasks=["3"])["unchanged"] == {"3": "is being cancelled"}, "asked twice")
        case.agent("a1", agent.disk, m1=1)
        case.until_state(client, "3", "cancelled")
        (attempt,) = client.ask("task", task="3")["attempts"]
        require(attempt["outcome"] == "cancelled" and case.world.running() == {}, attempt)
        require(held == 1, held)


def cancel_jobs(setup: Setup) -> None:
    """A job is cancelled as a whole; its name is free then, also for another weight."""
    with setup.case().start() as case, case.client() as client:
        case.agent("a1", m1=2)
        client.submit(*FOREVER, job="web", weight=5, array=[1, 6])
        client.refused("job-has-weight", "submit", command=["x"], dir="/", job="web", weight=6)
        case.until(lambda: len(case.world.running()) == 2, "two run")
        found = client.ask("cancel", jobs=["web"])
        require(len(found["changed"]) == 6, found)
        client.ask("wait", tasks=["1"])
        require(case.world.running() == {}, case.world.running())
        client.refused("no-such-job", "cancel", jobs=["web"])
        number = client.submit("0.01", job="web", weight=6)
        require(client.ask("wait", tasks=[str(number)])[str(number)]["state"] == "done", "it ran")
        case.until(lambda: jobs_of(case) == [], "its job is closed")


# firm.


def weights(setup: Setup) -> None:
    """The heaviest tasks enter firm first, then the oldest, up to the bound; a heavier task takes the place of a
    lighter one that waits there."""
    with setup.case("--most-in-firm=3", size=Size(64, 400)).start() as case, case.client() as client:
        client.submit(*FOREVER, job="light", weight=1, array=[1, 3])
        case.until(lambda: len(case.firm_tasks()) == 3, "three are in firm")
        client.submit(*FOREVER, job="heavy", weight=1_000, array=[1, 2])
        client.submit(*FOREVER, job="light")
        case.until(lambda: sorted(case.firm_tasks()) == ["1-1", "2-1", "2-2"], "the heavy ones take places")
        client.ask("cancel", tasks=["2_1"])
        case.until(lambda: sorted(case.firm_tasks()) == ["1-1", "1-2", "2-2"], "the older one is back")
        client.ask("cancel", tasks=["1_1", "1_2"])
        case.until(lambda: sorted(case.firm_tasks()) == ["1-3", "2-2", "3"], "the light one is last")


def heavier(setup: Setup) -> None:
    """Heavy tasks that arrive while firm is full of lighter ones run before these, which run once, later."""
    with setup.case(size=Size(24, 100)).start() as case, case.client() as client:
        case.world.is_held = True
        case.agent("a1", m1=2, m2=1)
        client.submit("0.15", job="light", weight=1, array=[1, 60])
        case.until(lambda: len(case.firm_tasks()) == 7 and len(case.world.processes) >= 3, "some run, and few wait")
        for _ in range(4):
            client.submit("0.05", job="heavy", weight=100_000, array=[1, 4])
        case.until(lambda: [*numbers(case.firm_tasks())].count(1) == 3, "heavy ones take places of light ones")
        case.world.is_held = False
        found = client.ask("wait", tasks=["1", "2", "3", "4", "5"])
        require(all(end["state"] == "done" for end in found.values()) and len(found) == 76, found)
        case.world.require_single()
        require(len(case.world.processes) == 76, f"{len(case.world.processes)} processes of 76 tasks")
        outcomes = dict(case.rows("SELECT outcome, COUNT(*) FROM attempt GROUP BY outcome"))
        require(outcomes.keys() <= {"done", "void"} and outcomes["done"] == 76, outcomes)
        order = [process.task.partition("_")[0] for process in case.world.processes]
        behind = len(order) - 1 - max(place for place, number in enumerate(order) if number != "1")
        require(behind > 20, f"only {behind} light ones began after the last heavy one: {order}")


def small_arena(setup: Setup) -> None:
    """If firm has no room, tasks wait outside, and new machines get room all the same."""
    with setup.case(size=Size(20, 80)).start() as case, case.client() as client:
        case.world.is_held = True
        case.agent("a1", m1=16)
        client.submit("0.02", array=[1, 60])
        case.until(lambda: client.states() == {"running": 15, "queued": 45}, "firm is full")
        row = client.ask("task", task="1_60")
        require((row["state"], row["reason"]) == ("queued", "before its turn"), row)
        case.world.is_held = False
        case.agent("a2", m2=8, m3=8)
        found = client.ask("wait", tasks=["1"])
        require(all(end["state"] == "done" for end in found.values()) and len(found) == 60, found)
        case.world.require_single()
        require(len(case.world.processes) == 60, len(case.world.processes))


def foreign(setup: Setup) -> None:
    """Others' tasks in firm are shown as foreign and left alone; rows that others remove are submitted again. The
    names of foreign tasks are not used, and block no other."""
    with setup.case().start() as case, case.client() as client, case.firmd.client() as firm:
        others = ["mine", "1", "3-1", "99999999"]
        for line in ("job j 3", *(f"task j {name}" for name in others)):
            require(firm.ask(f"{case.tenant} {line}".encode()).endswith(b" ok"), line)
        case.until(lambda: len(client.ask("tasks")) == 4, "they are shown")
        rows = client.ask("tasks")
        require({row["state"] for row in rows} == {"foreign"} and client.states() == {}, rows)
        made = [client.submit(*FOREVER) for _ in range(2)]
        require(made == [2, 4], f"{made}: a name that firm has was given again, or others were left out")
        case.until(lambda: "4" in case.firm_tasks(), "it is in firm")
        case.agent("a1", m1=8)
        case.until_state(client, "4", "running")
        firm.ask(f"{case.tenant} done 4".encode())
        case.until(lambda: len(client.ask("task", task="4")["attempts"]) == 2, "it runs again")
        case.until_state(client, "4", "running")
        case.world.require_single()
        client.ask("cancel", tasks=["2", "4"])
        case.until(lambda: case.firm_tasks() == others, "the others stay")
        require("j" in jobs_of(case), "the other's job stays")
        require(any("not the queue's" in line for line in client.ask("status")["differences"]), "a difference")


def away(setup: Setup) -> None:
    """Without firmd the queue accepts submissions; they go on when firmd is back, also with a new state, and nothing
    runs twice."""
    with setup.case_alone().start() as case, case.client() as client:
        case.agent("a1", m1=4)
        client.submit(*FOREVER, array=[1, 3])
        case.until(lambda: len(case.world.running()) == 3, "three run")
        case.firmd.kill()
        case.until(lambda: not client.ask("status")["firm"]["is_there"], "firmd is missed")
        client.submit("0.01")
        row = client.ask("task", task="2")
        require(row["state"] == "queued" and "firmd is away" in row["reason"], row)
        require(case.world.running() == {"1_1": 1, "1_2": 1, "1_3": 1}, "what runs goes on")
        case.firmd.start()
        require(client.ask("wait", tasks=["2"])["2"]["state"] == "done", "it ran")
        require(len(case.world.processes) == 4, "what ran was begun again")
        case.firmd.kill()
        shutil.rmtree(case.firmd.state)
        case.firmd.start()
        case.until(lambda: len(case.firm_tasks()) == 3, "they are given to the new firm")
        case.until(lambda: len(case.world.running()) == 3 and len(case.world.processes) == 7, "they run again")
        case.world.require_single()
        attempts = client.ask("task", task="1_1")["attempts"]
        require([one["outcome"] for one in attempts] == ["removed", None], attempts)


# Agents.


def silence(setup: Setup) -> None:
    """Tasks of an agent that is silent for its lease start elsewhere, once; a returned agent ends nothing twice."""
    with setup.case("--lease=10", "--margin=1").start() as case, case.client() as client:
        first = case.agent("a1", m1=2)
        client.submit(*FOREVER, array=[1, 2], grace=0)
        case.until(lambda: len(case.world.running()) == 2, "two run on m1")
        case.agent("a2", m2=2)
        first.kill()
        case.until(lambda: machine(client, "m1")["state"] == "silent", "it is silent")
        case.until(lambda: len(case.world.processes) == 4, "they run on m2")
        require({one.machine for one in case.world.processes[2:]} == {"m2"}, case.world.processes)
        case.world.require_single()
        attempts = client.ask("task", task="1_1")["attempts"]
        require([one["outcome"] for one in attempts] == ["lost", None], attempts)
        case.until(lambda: machines_in_firm(case) == ["m2"], "m1 is drained")
        back = case.agent("a1", first.disk, m1=2)
        case.until(lambda: machine(client, "m1")["state"] == "up", "it is back")
        case.until(lambda: back.disk.runs == {}, "the report on its old runs")
        require(case.world.running() == {"1_1": 1, "1_2": 1}, case.world.running())


def machine(client: Client, name: str) -> Json:
    return next(row for row in client.ask("machines") if row["machine"] == name)


def machines_in_firm(case: Case) -> list[str]:
    return [row["machine"] for row in case.firm_rows("machines")]


def mute(setup: Setup) -> None:
    """A live agent without heartbeats loses its runs; its next heartbeat is refused, and it registers again."""
    with setup.case("--lease=1", "--margin=0.3").start() as case, case.client() as client:
        agent = case.agent("a1", m1=2)
        client.submit(*FOREVER, grace=0)
        case.until_state(client, "1", "running")
        agent.is_mute = True
        case.until(lambda: [one["outcome"] for one in client.ask("task", task="1")["attempts"]][0], "it is lost")
        agent.is_mute = False
        case.until(lambda: len(case.world.processes) >= 2 and client.state("1") == "running", "it runs again")
        case.world.require_single()


def registrations(setup: Setup) -> None:
    """Two agents for one machine, or of one name, are refused; a returned agent takes over from itself."""
    with setup.case("--lease=300").start() as case, case.client() as client:
        agent = case.agent("a1", m1=2)
        client.submit(*FOREVER)
        case.until_state(client, "1", "running")
        register: Json = {"machines": {"m1": 2}, "runs": []}
        told = client.refused("machine-taken", "register", agent="a2", id="other", **register)
        require((told["machine"], told["agent"]) == ("m1", "a1"), told)
        told = client.refused("agent-taken", "register", agent="a1", id="other", **register)
        require(told["seconds"] > 0, told)
        client.refused("not-registered", "beat")
        client.refused("not-registered", "claim", token="a" * 8, task="1", line=1, state="s", machine="m1", run=1)
        client.refused("not-registered", "told", events=[])
        agent.kill()
        for field, value in {"machines": {"M": 1}, "id": "", "runs": [{}], "agent": "A"}.items():
            client.refused("bad-field", "register", **{"agent": "a3", "id": "x", "machines": {}, field: value})
        case.agent("a1", agent.disk, m1=2)
        case.until(lambda: machine(client, "m1")["state"] == "up", "it is back")
        require(case.world.running() == {"1": 1} and len(case.world.processes) == 1, "its run goes on")
        states = {row["agent"]: row["state"] for row in client.ask("agents")}
        require(states == {"a1": "up"}, states)


def lost_claim(setup: Setup) -> None:
    """A claim whose answer was lost is granted again to its token, and to no other."""
    with setup.case("--lease=300").start() as case, case.client() as client, case.client() as agent:
        granted = agent.ask("register", agent="a1", id="x", machines={"m1": 1}, runs=[])
        require((granted["lease"], granted["beat"], granted["end"]) == (300, 100, []), granted)
        client.submit(*FOREVER, env={"A": "1"}, output="/tmp/%A-%a-%t-%%", array=[3, 3])
        place = claim_place(case)
        work = agent.ask("claim", token="aaaaaaaa", run=1, **place)["work"]
        require(work["command"] == FOREVER and work["output"] == "/tmp/1-3-1_3-%", work)
        own = {"A": "1", "FIRM_ID": "1_3", "FIRM_NUMBER": "1", "FIRM_INDEX": "3", "FIRM_ATTEMPT": "1"}
        require(work["env"] == own, work)
        require("attempt 1" in agent.ask("claim", token="bbbbbbbb", run=2, **place)["wait"], "a second one")
        agent.link.socket.shutdown(socket.SHUT_RDWR)
        with case.client() as again:
            runs = [{"token": "aaaaaaaa", "task": "1-3", "run": 1, "machine": "m1", "state": "claiming"}]
            again.ask("register", agent="a1", id="x", machines={"m1": 1}, runs=runs)
            require(again.ask("claim", token="aaaaaaaa", run=1, **place)["work"] == work, "the same work")
            other = {**place, "line": place["line"] - 1}
            require("wait" in again.ask("claim", token="cccccccc", run=3, **other), "an older row")
            require("void" in again.ask("claim", token="cccccccc", run=3, **{**place, "task": "x"}), "a foreign one")
            again.ask("register", agent="a1", id="x", machines={"m1": 1}, runs=[])
            require("attempt 1" in again.ask("claim", token="dddddddd", run=4, **place)["wait"], "it may run")
            require(again.ask("told", events=[{"token": "aaaaaaaa", "event": "void"}]) == 1, "it does not")
            attempts = client.ask("task", task="1_3")["attempts"]
            require([one["outcome"] for one in attempts] == ["void"], attempts)
            work = again.ask("claim", token="dddddddd", run=4, **place)["work"]
            require(work["attempt"] == 2, work)
            end = {"token": "dddddddd", "event": "ended", "status": 0, "asked": False, "seconds": 1.5}
            require(again.ask("told", events=[end]) == 1 and client.state("1_3") == "done", client.ask("tasks"))
            require(again.ask("told", events=[end, {**end, "token": "eeeeeeee"}]) == 2, "told again")
            require("void" in again.ask("claim", token="ffffffff", run=5, **place), "it has ended")


def marks(setup: Setup) -> None:
    """On a cordoned machine runs go on and nothing starts; a drained one is emptied; both marks survive a restart."""
    with setup.case().start() as case, case.client() as client:
        agent = case.agent("a1", m1=2, m2=2)
        client.submit(*FOREVER, array=[1, 4])
        case.until(lambda: len(case.world.running()) == 4, "four run")
        on_m1 = {one.task for one in case.world.processes if one.machine == "m1"}
        require(client.ask("cordon", machines=["m1"], reason="a new disk")["changed"] == ["m1"], "cordoned")
        case.until(lambda: machines_in_firm(case) == ["m2"], "firm has m1 no more")
        require(len(case.world.processes) == 4 and len(case.world.running()) == 4, "what runs goes on")
        require(all(client.state(task) == "running" for task in on_m1), client.ask("tasks"))
        require(machine(client, "m1")["state"] == "cordoned" and machine(client, "m1")["open"] == 2, "its row")
        why = f"{name_of(os.geteuid())}: a new disk"
        require(machine(client, "m1")["reason"] == why, machine(client, "m1"))
        case.kill()
        case.start()
        agent.kill()
        case.agent("a1", agent.disk, m1=2, m2=2)
        with case.client() as client:
            case.until(lambda: machine(client, "m2")["state"] == "up", "it is back")
            require(machine(client, "m1")["reason"] == why, "the mark's user or reason is lost")
            require(not client.ask("status")["differences"], client.ask("status"))
            client.ask("cancel", tasks=[min(on_m1)])
            case.until_state(client, min(on_m1), "cancelled")
            require(len(case.world.processes) == 4, "something began on m1")
            client.ask("drain", machines=["m2"], reason="a new\nboard")
            case.until(lambda: machines_in_firm(case) == [] and len(case.world.running()) == 1, "m2 is emptied")
            past = [row["reason"] for row in client.ask("history") if row["machine"] == "m2"]
            require(past == [f"drained by {name_of(os.geteuid())}: a new\nboard"] * 2, past)
            require(client.ask("uncordon", machines=["m1", "m2"])["changed"] == ["m1", "m2"], "taken back")
            case.until(lambda: len(case.world.running()) == 3, "they run again")
            require(machines_in_firm(case) == ["m2"], "m1 is not added while a run there has no row in firm")
            client.ask("cancel", tasks=[max(on_m1)])
            case.until(lambda: sorted(machines_in_firm(case)) == ["m1", "m2"], "then it is")
            case.world.require_single()


def kept_late(setup: Setup) -> None:
    """An agent that failed to record the runs that a cordon keeps gets the list again, unless the cordon is taken
    back."""
    with setup.case("--lease=300").start() as case, case.client() as client, case.client() as agent:
        agent.ask("register", agent="a1", id="x", machines={"m1": 1}, runs=[])
        client.submit(*FOREVER)
        agent.ask("claim", token="aaaaaaaa", run=1, **claim_place(case))

        def told_to_keep() -> int:
            agent.send({"ask": "beat"}, {"ask": "told", "events": []})  # messages may follow the heartbeat's answer
            lines = list(iter(agent.line, {"told": 0}))
            return lines.count({"tell": "keep", "tokens": ["aaaaaaaa"]})

        client.ask("cordon", machines=["m1"])
        require((told_to_keep(), told_to_keep()) == (2, 1), "the list does not come at once and at each beat")
        client.ask("uncordon", machines=["m1"])
        require(told_to_keep() == 0, "the list still comes")
        client.ask("cordon", machines=["m1"])
        require(told_to_keep() == 2, "the list does not come again")
        require(agent.ask("kept", tokens=["aaaaaaaa"]) == 1 and told_to_keep() == 0, "it is not kept")
        case.until(lambda: machines_in_firm(case) == [], "firm has m1 no more")


# The database.


def damage(setup: Setup) -> None:
    """A queue whose database is damaged, missing, foreign or of a newer queue is away, and leaves the database as it
    is. Two processes can't share one state."""
    with setup.case().start() as case:
        with case.client() as client:
            client.submit("1", array=[1, 2_000])
            own, case.api = case.api, case.folder / "other-api"
            case.refuses(4, "in use by process")
            case.api = own
            require(client.submit() == 2, "the first one serves on")
        case.stop()
        path, good = case.state / "queue.db", (case.state / "queue.db").read_bytes()
        require(not (case.state / "queue.db-wal").exists(), "something is left of the log")
        damaged = {b"": "is empty", b"no database" * 1_000: "is damaged", good[: len(good) // 2]: "is damaged"}
        damaged[good[:40_000] + bytes(8_192) + good[48_192:]] = "is damaged"
        if setup.is_quick:
            damaged = {text: told for text, told in damaged.items() if len(text) == len(good)}
        for text, told in damaged.items():
            path.write_bytes(text)
            case.is_away(told)
            require(path.read_bytes() == text, f"{told}: it was changed")
        path.write_bytes(good)
        for version in (4, 6):  # an older and a newer one
            changed(path, f"PRAGMA user_version = {version}")
            case.is_away(f"is of version {version}; this firm-api reads 5 alone")
        if not setup.is_quick:
            changed(path, "PRAGMA user_version = 5", *of_meta("id", "x"))
            case.is_away("another state")
            changed(path, *of_meta("tenant", "beta"))
            case.is_away("the tenant beta")
        path.unlink()
        case.is_away("is missing")
        path.write_bytes(good)
        case.start()
        with case.client() as client:
            require(client.ask("status")["last_number"] == 2 and len(client.ask("tasks")) == 2_001, "all is there")


def of_meta(name: str, value: str) -> list[str]:
    """Return a change of a row of `meta`, with its checksum."""
    return [f"UPDATE meta SET (value, sum) = ('{value}', {seal('meta', (name, value))}) WHERE name = '{name}'"]


def changed(path: Path, *words: str) -> None:
    with closing(sqlite3.connect(path)) as connection:
        for one in words:
            connection.execute(one)
        connection.commit()


def full_disk(setup: Setup) -> None:
    """On a full disk the queue refuses changes, runs go on, and their ends are recorded once there is room."""
    if os.geteuid():
        raise Skipped("it needs root, for a small file system")
    with setup.case(f"--lease={LEASE_SECONDS}") as case:
        case.state.mkdir()
        subprocess.run(["mount", "-t", "tmpfs", "-o", "size=4m,mode=755", "none", case.state], check=True)
        try:
            case.start()
            with case.client() as client:
                fill_and_free(case, client)
            case.stop()
        finally:
            case.kill()
            subprocess.run(["umount", "-l", case.state], check=True)


def fill_and_free(case: Case, client: Client) -> None:
    case.agent("a1", m1=4)
    client.submit("2.5")
    client.submit(*FOREVER)
    begun = "SELECT COUNT(*) FROM attempt WHERE began IS NOT NULL"
    case.until(lambda: case.rows(begun) == [(2,)], "it is written that two run")
    with suppress(OSError), open(case.state / "filler", "wb", buffering=0) as filler:
        while True:
            filler.write(bytes(4_096))
    acknowledged, refused = 2, 0
    while refused < 3:
        answer = client.try_ask("submit", command=["0.01"], dir="/tmp", array=[1, 2_000])
        refused += answer.get("error") == "not-written"
        acknowledged += "submit" in answer
    client.refused("not-written", "cancel", tasks=["2"])
    found = client.state("2")
    require(found == "running", f"what was refused has an effect: {found}")
    require(not client.ask("status")["writes"]["are_good"], client.ask("status"))
    time.sleep(LEASE_SECONDS + 1)
    require(case.world.running() == {"2": 1}, case.world.running())
    require(case.rows("SELECT COUNT(*) FROM submission") == [(acknowledged,)], "not what was acknowledged")
    (case.state / "filler").unlink()
    case.until(lambda: client.ask("status")["writes"]["are_good"], "it is written again")
    require(client.ask("wait", tasks=["1"])["1"] == {"state": "done", "status": 0}, "its end was taken")
    require(client.submit("0.01") > acknowledged, "the next number")
    require(client.ask("cancel", tasks=["2"])["changed"] == ["2"], "it can be cancelled")
    case.world.require_single()


def many(setup: Setup) -> None:
    """An array of 10,000 passes through a tenant of 4,000 nodes, and each of its tasks runs once."""
    with setup.case(size=Size(4_000, 60_000)).start() as case, case.client() as client:
        client.submit("0.01", array=[1, 10_000])
        case.until(lambda: len(case.firm_tasks()) > 3_000, "firm is full")
        case.agent("a1", **{f"m{at}": 64 for at in range(16)})
        found = client.ask("wait", tasks=["1"])
        require(len(found) == 10_000 and all(end["state"] == "done" for end in found.values()), "all are done")
        case.world.require_single()
        require(len(case.world.processes) == 10_000, len(case.world.processes))
        case.until(lambda: case.firm_tasks() == [] and jobs_of(case) == [], "firm is empty")


# Figures.


def figures(setup: Setup) -> None:
    """Measure the queue's required speeds on the disk of the folder for temporary files; each figure has a line."""
    folder = Path(tempfile.gettempdir())
    with Case(setup.program, folder=folder).start() as case, case.client() as client:
        entries = [{"command": ["forever"], "dir": "/tmp", "hold": True}] * 5_000
        ways: dict[str, tuple[int, Callable[[], object]]] = {
            "one at a time": (500, lambda: submit_many(client, 500)),
            "submit-all": (5_000, lambda: client.ask("submit-all", submissions=entries)),
        }
        rates = {}
        for name, (count, submits) in ways.items():
            before = queue_bounds.processor_seconds(case)
            rates[name] = count / seconds_of(submits)
            used = 1_000 * (queue_bounds.processor_seconds(case) - before) / count
            told = f"{60 * rates[name]:,.0f}; of the queue's processor {used:.2f} ms each"
            print(f"figure   submissions a minute, {name}: {told}", flush=True)
    with Case(setup.program, folder=folder).start() as case, case.client() as client:
        for agent in range(10):
            case.agent(f"a{agent}", **{f"m{agent}-{at}": 64 for at in range(2)})
        case.until(lambda: len(machines_in_firm(case)) == 20, "the machines are there")
        begun = []
        for count in range(1, 41):
            time.sleep(0.05)
            sent = time.monotonic()
            client.submit(*FOREVER)
            case.until(lambda: len(case.world.processes) == count, "it has begun")
            begun.append(1_000 * (case.world.processes[-1].began - sent))
        middle, worst = statistics.median(begun), max(begun)
        print(
            f"figure   ms from a submission to its granted claim: {middle:.1f} by median, {worst:.1f} at most",
            flush=True,
        )
        client.submit(*FOREVER, array=[1, 960])
        case.until(lambda: len(case.world.running()) == 1_000, "1,000 run")
        asked = sorted(1_000 * seconds_of(lambda: client.ask("tasks")) for _ in range(21))
        print(f"figure   ms for the rows of 1,000 running tasks: {asked[10]:.1f} by median", flush=True)
        fast = rates["submit-all"] * 60 > 10_000
        require(fast and middle < 100 and asked[0] < 50, "too slow")


def seconds_of(work: Callable[[], object]) -> float:
    began = time.monotonic()
    work()
    return time.monotonic() - began


def submit_many(client: Client, count: int) -> None:
    for _ in range(count):
        client.submit(*FOREVER, hold=True)


CHECKS: tuple[Callable[[Setup], None], ...] = (
    *(
        life,
        table_of_tasks,
        outcomes,
        arrays,
        keys,
        dependencies,
        labels,
        changes,
        cancel_jobs,
        weights,
        heavier,
        small_arena,
        foreign,
        away,
    ),
    *(silence, mute, registrations, lost_claim, marks, kept_late, damage, full_disk, *queue_access.CHECKS),
    *queue_agents.CHECKS,
    *queue_hostile.CHECKS,
    *queue_bounds.CHECKS,
    *queue_fair.CHECKS,
    *queue_gaps.CHECKS,
    *queue_placeholders.CHECKS,
    *queue_damage.CHECKS,
)


def checks(setup: Setup) -> dict[str, Check]:
    found: dict[str, Check] = {**queue_tables.CHECKS, **queue_gaps.TABLES, **queue_placeholders.TABLES}
    found |= queue_parts.CHECKS | agent_files.CHECKS
    for check in CHECKS:
        found[check.__name__.replace("_", " ")] = partial(check, setup)
    found["kills"] = partial(
        queue_kills.kills, setup.case_alone, queue_kills.Plan(setup.seed, 3 if setup.is_quick else 60)
    )
    absences = queue_kills.Plan(setup.seed, 4 if setup.is_quick else 40)
    found["absences"] = partial(queue_placeholders.absences, setup.case_alone, absences)
    failures = queue_kills.Plan(setup.seed, 3 if setup.is_quick else 30)
    found["disk failures"] = partial(queue_kills.disk_failures, setup.case, failures)
    if not setup.is_quick:
        found |= {check.__name__.replace("_", " "): partial(check, setup) for check in queue_bounds.LONG}
        found["many"] = partial(many, setup)
        found["figures"] = partial(figures, setup)
    return found


def main() -> int:
    parser = argparse.ArgumentParser(description=(__doc__ or "").splitlines()[0])
    parser.add_argument("--quick", action="store_true", help="kill less often, and leave out figures")
    parser.add_argument("--only", default="", metavar="WORDS", help="only checks whose names have these words")
    parser.add_argument(
        "--seed", type=int, default=random.randrange(10**6), metavar="N", help="seed of all random choices"
    )
    program.add_program(parser)
    given = parser.parse_args()
    with Firmd(given.program) as firmd:
        setup = Setup(given.program, given.quick, given.seed, firmd)
        chosen = {name: check for name, check in checks(setup).items() if given.only in name}
        return run_suites(Suite(chosen, CHECKS_AT_A_TIME))


if __name__ == "__main__":
    run_script(main)
