"""Checks of agents that register again: with other slots, or at a queue with another lease."""

from __future__ import annotations

import time

from harness.checks import require
from queue_client import Client, Json
from queue_kit import FOREVER, Setup, claim_place

FORMER_SECONDS = 4.0  # the lease of a queue before another one with a shorter one
SOON_SECONDS = 0.3  # a forbidden event would have happened in this time
KEPT_LEASE = "SELECT value FROM meta WHERE name = 'lease'"


def other_slots(setup: Setup) -> None:
    """An agent that returns with another number of slots keeps its runs; firm gets the number once none is left."""
    with setup.case("--lease=300").start() as case, case.client() as client:
        agent = case.agent("a1", m1=1, m2=1)
        client.submit(*FOREVER, array=[1, 3])
        case.until(lambda: len(case.world.running()) == 2, "two run")
        agent.kill()
        back = case.agent("a1", agent.disk, m1=2, m2=1)
        case.until(lambda: machine(client, "m1")["reason"] == "it has 2 slots once nothing runs there", "it is told")
        differences = client.ask("status")["differences"]
        require("m1: it has 2 slots once nothing runs there" in differences, differences)
        time.sleep(SOON_SECONDS)
        row = machine(client, "m1")
        require((row["state"], row["slots"], row["open"]) == ("up", 1, 1), row)
        require(len(case.world.running()) == len(case.world.processes) == 2, case.world.processes)
        require({refusal["error"] for refusal in back.refusals} <= {"agent-taken"}, back.refusals)
        client.ask("cancel", tasks=["1_3", *(one.task for one in case.world.processes if one.machine == "m1")])
        case.until(lambda: machine(client, "m1")["slots"] == 2, "firm has the number")
        require(len(case.world.running()) == 1 and machine(client, "m1")["reason"] == "", case.world.processes)


def lower_lease(setup: Setup) -> None:
    """A queue with a shorter lease waits for runs under the former one, however often it is started meanwhile."""
    with setup.case(f"--lease={FORMER_SECONDS}").start() as case:
        with case.client() as client, case.client() as agent:
            agent.ask("register", agent="a1", id="x", machines={"m1": 1}, runs=[])
            client.submit(*FOREVER, grace=0)
            agent.ask("claim", token="aaaaaaaa", run=1, **claim_place(case))
        case.options = ["--lease=0.5", "--margin=0.1"]
        for _ in range(2):
            case.kill()
            began = time.monotonic()
            case.start()
        with case.client() as client:
            case.until(lambda: client.ask("task", task="1")["attempts"][0]["outcome"] == "lost", "it is lost")
        took = time.monotonic() - began
        require(took >= FORMER_SECONDS, f"it was taken for lost after {took:.1f} s")
        case.until(lambda: case.rows(KEPT_LEASE) == [("0.5",)], "the shorter lease is kept")
        case.kill()
        case.options = ["--lease=7"]
        case.start()
        require(case.rows(KEPT_LEASE) == [("7.0",)], "the longer one is kept before it is given")


def claimed_again(setup: Setup) -> None:
    """A lost claim that is repeated once its attempt has ended as lost starts no attempt with the same token, which
    would take the first one's row. The agent ends the run and claims with another token."""
    with setup.case("--lease=15", "--margin=0.1").start() as case, case.client() as client:
        claim: Json = {"token": "aaaaaaaa", "run": 1}
        registration: Json = {"agent": "a1", "id": "x", "machines": {"m1": 1}}
        with case.client() as agent:
            agent.ask("register", **registration, runs=[])
            client.submit(*FOREVER, grace=0)
            place = claim_place(case)
            require("work" in agent.ask("claim", **claim, **place), "it may begin")
        case.until(lambda: client.ask("task", task="1")["attempts"][0]["outcome"] == "lost", "it is lost")
        with case.client() as agent:
            run = {"token": "aaaaaaaa", "task": "1", "run": 1, "machine": "m1", "state": "claiming"}
            agent.ask("register", **registration, runs=[run])
            place = claim_place(case)
            agent.send({"ask": "claim", **claim, **place})
            told, answer = agent.line(), agent.line()
            require(told == {"tell": "end", "tokens": ["aaaaaaaa"], "why": "its attempt has ended"}, told)
            require("wait" in answer["claim"], answer)
            further: Json = {"token": "bbbbbbbb", "run": 2}

            def may_begin() -> bool:
                agent.ask("register", **registration, runs=[])
                return "work" in agent.ask("claim", **further, **claim_place(case))

            case.until(may_begin, "another may begin")
            tokens = case.rows("SELECT attempt, token FROM attempt ORDER BY attempt")
            require(tokens == [(1, "aaaaaaaa"), (2, "bbbbbbbb")], tokens)
            require(len(client.ask("task", task="1")["attempts"]) == 2, "both are there")


def machine(client: Client, name: str) -> Json:
    return next(row for row in client.ask("machines") if row["machine"] == name)


def memory_of_machines(setup: Setup) -> None:
    """A task that names more memory than any machine has is refused, if all agents report their machines' memory."""
    with setup.case("--lease=300").start() as case, case.client() as client, case.client() as first:
        first_of: Json = {"agent": "a1", "id": "x", "machines": {"m1": 2, "m2": 1}, "runs": []}
        others: list[object] = [5, [], {"m9": 1}, {"m1": 0}, {"m1": 1.5}, {"m1": "1G"}, {"m1": True}, {"m1": 2**61}]
        for memory in others:
            told = first.refused("bad-field", "register", **first_of, memory=memory)
            require(told["field"] == "memory", told)
        first.ask("register", **first_of, memory={"m1": 2**30})
        client.submit(memory=2**40)  # the memory of m2 is unknown
        first.ask("register", **first_of, memory={"m1": 2**30, "m2": 2**20})
        told = client.refused("memory-too-large", "submit", command=["x"], dir="/", memory=2**30 + 1)
        require(told["text"] == "memory: 1,073,741,825 bytes; the largest machine has 1,073,741,824", told)
        both = [{"command": ["x"], "dir": "/"}, {"command": ["x"], "dir": "/", "memory": 2**40}]
        require(client.refused("memory-too-large", "submit-all", submissions=both)["at"] == 1, "the second")
        require(client.submit(memory=2**30) == 2, "as much as there is")
        with case.client() as other:
            other.ask("register", agent="a2", id="y", machines={"m3": 1}, runs=[])
            client.submit(memory=2**40)


CHECKS = (memory_of_machines, other_slots, lower_lease, claimed_again)
