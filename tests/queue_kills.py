"""Random kills of queue, firmd and agents, and random failures of the disk.

A judge reads only the database and the record of processes.
"""

from __future__ import annotations

import random
import threading
import time
from collections.abc import Callable
from contextlib import suppress
from dataclasses import dataclass

from harness.checks import require
from queue_client import LIMIT_SECONDS, Client, Closed, Json
from queue_kit import Case, Size, StandIn


class Submitter:
    """A client that submits until it is stopped, and repeats requests without an answer."""

    pause = 0.03  # seconds between two submissions

    def __init__(self, case: Case, seed: int, prefix: str = "k") -> None:
        self.case, self.draw, self.prefix = case, random.Random(seed), prefix
        self.answers: dict[str, Json] = {}  # by key
        self.asked: dict[str, Json] = {}
        self.is_over = threading.Event()

    def serve(self) -> None:
        while not self.is_over.is_set():
            key = f"{self.prefix}{len(self.answers)}"
            request = self._request(key)
            self.asked[key] = request
            while key not in self.answers:
                with suppress(Closed):
                    with self.case.client() as client:
                        self._submit(client, key, request)
                time.sleep(self.pause)

    def _submit(self, client: Client, key: str, request: Json) -> None:
        answer = client.try_ask("submit", **request)
        if "submit" in answer:
            self.answers[key] = answer["submit"]
            return
        require(answer["error"] in ("not-written", "not-there", "stopping"), answer)

    def command(self) -> list[str]:
        """Return a task's duration and status."""
        return [str(self.draw.choice([0.01, 0.1, 0.4])), str(self.draw.choice([0, 0, 0, 7]))]

    def _request(self, key: str) -> Json:
        request: Json = {"key": key, "command": self.command(), "dir": "/tmp", "grace": 0}
        if self.draw.random() < 0.3:
            request["array"] = [1, self.draw.randint(1, 6)]
        if self.draw.random() < 0.2:
            request["retries"] = 1
        if self.answers and self.draw.random() < 0.3:
            kind = self.draw.choice(["after", "after_any"])
            request[kind] = [str(self.draw.choice(list(self.answers.values()))["number"])]
        return request


@dataclass(frozen=True)
class Plan:
    seed: int
    kills: int


def kills(case_of: Callable[..., Case], plan: Plan) -> None:
    """Queue, firmd and agents are killed at random moments: each submission is stored once, runs once, and ends
    once."""
    draw = random.Random(plan.seed)
    with case_of("--lease=3", "--margin=0.5", size=Size(churn=200)).start() as case:
        agents = [case.agent("a1", m1=4, m2=3), case.agent("a2", m3=4)]
        submitter = Submitter(case, plan.seed)
        thread = threading.Thread(target=submitter.serve)
        thread.start()
        try:
            for _ in range(plan.kills):
                time.sleep(draw.choice([0, 0.02, 0.1, 0.3]))
                kill_one(case, agents, draw)
        finally:
            submitter.is_over.set()
            thread.join(LIMIT_SECONDS)
        judge_all(case, submitter, agents)


def disk_failures(case_of: Callable[..., Case], plan: Plan) -> None:
    """The disk fails at random moments: acknowledged work, also from a time when memory is read anew, is stored and
    goes on."""
    draw = random.Random(plan.seed)
    with case_of("--lease=60", size=Size(churn=200)).start_failing() as case:
        agents = [case.agent("a1", m1=4, m2=3), case.agent("a2", m3=4)]
        submitters = [Submitter(case, plan.seed + at, f"s{at}-") for at in range(4)]
        threads = [threading.Thread(target=submitter.serve) for submitter in submitters]
        for thread in threads:
            thread.start()
        try:
            for _ in range(plan.kills):
                time.sleep(draw.choice([0.2, 0.5, 1]))
                with case.failure():
                    time.sleep(draw.choice([0.02, 0.2, 1.5]))
        finally:
            for submitter, thread in zip(submitters, threads):
                submitter.is_over.set()
                thread.join(LIMIT_SECONDS)
        for submitter in submitters[1:]:
            submitters[0].answers |= submitter.answers
        judge_all(case, submitters[0], agents)


def judge_all(case: Case, submitter: Submitter, agents: list[StandIn]) -> None:
    """Judge once all has ended."""
    with case.client() as client:
        case.until(lambda: client.states() == {}, "all have ended")
        case.until(lambda: case.firm_tasks() == [], "firm has none of them")
    case.until(lambda: not any(agent.disk.runs for agent in agents), "the agents have told all")
    judge(case, submitter)


def kill_one(case: Case, agents: list[StandIn], draw: random.Random) -> None:
    """Kill one of them, perhaps during its start too, and start it again."""
    pause = draw.choice([0, 0.01, 0.2])
    victim = draw.choice(["queue", "queue", "firmd", "agent"])
    if victim == "queue":
        case.kill()
        time.sleep(pause)
        if draw.random() < 0.3:
            case.queue = case.spawn()
            time.sleep(draw.random() * 0.4)
            case.kill()
        case.start()
    elif victim == "firmd":
        case.firmd.kill()
        time.sleep(pause)
        case.firmd.start()
    else:
        at = draw.randrange(len(agents))
        agents[at].kill()
        time.sleep(pause)
        agents[at] = case.agent(agents[at].name, agents[at].disk, **agents[at].machines)


@dataclass(frozen=True)
class Record:
    """The database's row of an attempt."""

    task: str
    number: int
    token: str
    outcome: str


@dataclass(frozen=True)
class Book:
    """All such rows: outcomes by task, and attempts in order."""

    tasks: dict[str, str]
    attempts: dict[str, list[Record]]


def judged_book(case: Case, submitter: Submitter, *others: str) -> Book:
    """Require, from the database alone, that each submission is stored, and each task ended once, in one of the
    usual ways or of some others."""
    submissions = dict(case.rows("SELECT number, COALESCE(last - first + 1, 1) FROM submission"))
    told = {answer["number"]: answer["count"] for answer in submitter.answers.values()}
    require(len(told) == len(submitter.answers), "two have one number")
    require(submissions == told, f"made {submissions}, acknowledged {told}")
    tasks = dict(case.rows("SELECT number || IIF(idx < 0, '', '_' || idx), outcome FROM task"))
    require(len(tasks) == sum(told.values()) and None not in tasks.values(), tasks)
    attempts: dict[str, list[Record]] = {}
    query = "SELECT number || IIF(idx < 0, '', '_' || idx), attempt, token, outcome FROM attempt"
    for row in case.rows(f"{query} ORDER BY number, idx, attempt"):
        record = Record(*row)
        require(record.outcome is not None, f"an attempt of {record.task} is open")
        attempts.setdefault(record.task, []).append(record)
    for task, outcome in tasks.items():
        done = [record.outcome for record in attempts.get(task, [])].count("done")
        require(done == (outcome == "done"), f"{task} is {outcome}: {attempts.get(task)}")
        require(outcome in ("done", "failed", "unmet", *others), f"{task} is {outcome}")
    return Book(tasks, attempts)


def judge(case: Case, submitter: Submitter) -> None:
    """Require, from the database and the record of processes alone, that each submission is stored and ended, once."""
    book = judged_book(case, submitter)
    by_token = {record.token: record.outcome for records in book.attempts.values() for record in records}
    case.world.require_single()
    for process in case.world.processes:
        outcome = by_token.get(process.token)
        allowed = ("done", "lost") if process.status == 0 else ("failed", "lost")
        require(process.is_asked or outcome in allowed, f"{process}: {outcome}")
        require(not process.is_asked or outcome not in (None, "done", "failed"), f"{process}: {outcome}")
    ran = {process.task for process in case.world.processes}
    void = {task for task, records in book.attempts.items() if {record.outcome for record in records} == {"void"}}
    require(ran == book.attempts.keys() - void, "tasks that ran")
