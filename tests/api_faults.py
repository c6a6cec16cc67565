"""Checks of tests/api_hostile.py: firm-api goes on if one of its queues can't."""

from __future__ import annotations

import os
import signal
import subprocess
import sys
import tempfile
import time
from concurrent.futures import ThreadPoolExecutor
from pathlib import Path
from typing import Any

from api import run_one
from queue_client import connected
from api_kit import Site
from firmd_kit import Client
from harness.checks import require
from harness.deployed import SERVICE
from queue_kit import FIRM_API, Case, Setup, Size

STOP_SECONDS = 60.0
ONE: dict[str, Any] = {"submissions": [{"command": ["x"], "dir": "/tmp", "hold": True}]}
# A firm-api with a queue that fails while a file `fails` is in its folder.
FAULTY = """\
import asyncio, sys
from firm.queue.placement_sync import PlacementSync
async def serve(giver, original=PlacementSync.serve):
    working = asyncio.ensure_future(original(giver))
    while not (giver._core.store.folder / "fails").exists():
        await asyncio.sleep(0.05)
    working.cancel()
    raise KeyError("unforeseen")
PlacementSync.serve = serve
from firm.api import daemon
sys.exit(daemon.main(sys.argv[1:]))
"""


# Sends questions about two tenants to a process at a time. Prints the most questions that had a process.
QUESTIONS = f"""\
import asyncio, sys
sys.path.insert(0, {str(SERVICE)!r})
from firm.api import daemon
from firm.api.tenants import Tenants
from firm.explain import questions
folder, at_once, most = sys.argv[1], 0, 0
async def answer(asked):
    global at_once, most
    at_once += 1
    most = max(most, at_once)
    await asyncio.sleep(0.2)
    at_once -= 1
    return {{"error": "failed", "text": "as it is to"}}
questions.answer = answer
async def ask():
    places = [f"--{{kind}}={{name}}={{folder}}/{{name}}.{{kind}}" for name in "ab" for kind in ("lines", "queue")]
    words = ["run", f"--state={{folder}}", f"--socket={{folder}}/api", *places]
    options = daemon.options_of(daemon.parser().parse_args(words))
    tenants = Tenants(options, lambda *_: None)
    made = [tenant.served._make().requests.explainer.questions for tenant in tenants.all.values()]
    works = (one.ask(user, "why", None) for user, one in enumerate([*made, tenants.questions]))
    await asyncio.gather(*works, return_exceptions=True)
asyncio.run(ask())
print(most, "at a time")
"""


def damaged_queue(setup: Setup) -> None:
    """A queue with a damaged database stops alone: its log ends without the last chunk, and its requests are refused
    with the reason, also after a start. firm's rows and a sound queue beside it are served as before."""
    with setup.case_alone("--lease=600") as case:
        add_beta(case)
        served, other = Site(case.start()), "/v1/tenants/beta/{}".format
        served.submit("x")
        run_one(case, "1")
        with connected(served.socket) as connection:
            path = served.of("tasks/1/log?follow=true")
            connection.sendall(f"GET {path} HTTP/1.1\r\nHost: localhost\r\n\r\n".encode())
            answer = b""
            while b"said" not in answer:
                answer += connection.recv(1_000)
            for name in ("queue.db", "queue.db-wal"):
                spoil(case.state / name)
            served.ask("GET", served.of("tasks/1/log?attempt=2")).refused(503, "not-read")
            while more := connection.recv(1_000):
                answer += more
        require(answer.count(b"HTTP/1.1") == 1 and not answer.endswith(b"0\r\n\r\n"), answer)
        for _ in range(2):
            for method, path, body in (("GET", "machines", None), ("POST", "submissions", ONE), ("GET", "jobs", None)):
                found = served.ask(method, served.of(path), body).refused(503, "not-there")
                require("is damaged" in found["message"], found)
            require(served.get("/v1/tenants")["tenants"][0]["firm"]["is_there"], "firm's rows")
            number = served.ask("POST", other("submissions"), ONE).good(201)["submissions"][0]["number"]
            require(served.get(other(f"tasks/{number}"))["task"] == str(number), "the sound queue")
            served.restart()


def older_queue(setup: Setup) -> None:
    """A queue whose database lacks acknowledged rows shows none, as if it were new."""
    with setup.case("--lease=600") as case:
        served = Site(case.start())
        for _ in range(20):
            served.submit("x", hold=True)
        case.kill()
        log = case.state / "queue.db-wal"
        os.truncate(log, log.stat().st_size // 2)
        case.start()
        for path in ("tasks", "tasks/20", "tasks/1", "history", "jobs", "tasks?start=true"):
            found = served.ask("GET", served.of(path)).refused(503, "not-there")
            require("commits that were acknowledged" in found["message"], found)
        require(served.ask("POST", served.of("submissions"), ONE).status == 503, "a submission")


def add_beta(case: Case) -> Path:
    """Admit a second tenant, with a queue. Return the place of its state."""
    with Client(case.firmd.operator) as operator:
        require(operator.ask(f"+ admit {Size().row('beta')}".encode()) == b"+ ok admitted beta", "it is admitted")
    case.options += [f"--lines=beta={case.firmd.any}", f"--queue=beta={case.folder / 'beta'}"]
    return case.folder / "beta"


def unusable_queue(setup: Setup) -> None:
    """A queue whose folder can't be used is away alone at a start, and begins by itself once it can."""
    with setup.case_alone("--lease=600") as case:
        folder, path = add_beta(case), "/v1/tenants/beta/submissions"
        folder.touch()
        served = Site(case.start())
        require(served.submit("x") == 1, "the sound queue")
        require("cannot use" in served.ask("POST", path, ONE).refused(503, "not-there")["message"], "the reason")
        folder.unlink()
        case.until(lambda: served.ask("POST", path, ONE).status == 201, "it begins")
        case.stop()


def hung_queue(setup: Setup) -> None:
    """A queue whose disk hangs delays no stop; afterwards firm-api serves the others again, and nothing is lost."""
    with setup.case("--lease=600") as case, ThreadPoolExecutor(1) as pool:
        served = Site(case.start_failing())
        served.submit("x")
        with case.failure("hangs"):
            late = pool.submit(served.submit, "y")
            time.sleep(0.5)
            require(not late.done(), "it is acknowledged")
            os.kill(served.pid, signal.SIGTERM)
            require(case.queue is not None and case.queue.wait(STOP_SECONDS) == 0, case.said())
        require(late.exception() is not None, "it is acknowledged")
        case.start()
        require(served.get(served.of("tasks"))["tasks"][0]["task"] == "1", "what was acknowledged")


def faulty_queue(setup: Setup) -> None:
    """A queue that fails by an unforeseen error begins again by itself, and loses nothing."""
    with setup.case("--lease=600") as case:
        case.words = [sys.executable, "-c", FAULTY, "run"]
        served = Site(case.start())
        served.submit("x")
        with case.client() as client:
            client.ask("register", agent="a1", id="x", machines={"m1": 1}, runs=[])
        (case.state / "fails").touch()
        case.until(lambda: "KeyError: 'unforeseen'" in case.said(), "it has failed")
        found = served.ask("GET", served.of("jobs"))
        require(found.status in (200, 503), f"{found}")
        (case.state / "fails").unlink()
        case.until(lambda: served.ask("GET", served.of("jobs")).status == 200, "it is there again")
        require(
            served.submit("y") == 2 and served.get(served.of("agents"))["agents"][0]["agent"] == "a1", "all is there"
        )
        case.until(lambda: case.firm_tasks() == ["1", "2"], "it gives tasks to firm")


def spoil(path: Path) -> None:
    """Overwrite a database, or its log, after its head."""
    with open(path, "r+b") as file:
        file.seek(4_096)
        file.write(bytes(max(0, path.stat().st_size - 4_096)))


def questions_at_once(setup: Setup) -> None:
    """One question is answered at a time, whichever tenants they are about: each takes a processor and much memory."""
    with tempfile.TemporaryDirectory() as folder:
        found = subprocess.run([*FIRM_API[:1], "-c", QUESTIONS, folder], capture_output=True, text=True)
    require((found.returncode, found.stdout) == (0, "1 at a time\n"), found)


CHECKS = (damaged_queue, older_queue, unusable_queue, hung_queue, faulty_queue, questions_at_once)
