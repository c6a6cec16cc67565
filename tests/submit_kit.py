"""firmd, firm-api and an agent of a few lines, by the API, that runs real processes: for submit.py."""

from __future__ import annotations

import json
import os
import secrets
import signal
import subprocess
import sys
import threading
import time
from collections.abc import Iterator
from contextlib import contextmanager, suppress
from dataclasses import dataclass, field
from pathlib import Path
from typing import Any

import firmd_kit
from harness.checks import Skipped, require
from harness.deployed import SERVICE, firmctl, submitting
from harness.program import Run, run_words
from hostile import python_with_http
from queue_client import Client, Closed, Connection, Json, Place, Refusal

from firm.client import calls
from firm.client.blocking import ApiClient

ROSTER = firmd_kit.HEADING + b"alpha,60,400,1000000000,0,1000\n"
LOOK_SECONDS, BEAT_SECONDS, LIMIT_SECONDS = 0.02, 1.0, 600.0


@dataclass
class Process:
    task: str  # by firm's name
    popen: subprocess.Popen[bytes]
    is_asked: bool = False


@dataclass
class Runner:
    """An agent: it starts the tasks that firm places on its machines, ends those that firm withdraws, and reports to
    the queue. A separate thread alone has its processes."""

    place: Place
    state: Path  # firmd's folder
    folder: Path
    machines: dict[str, int]
    id: str = field(default_factory=lambda: secrets.token_hex(8))

    def __post_init__(self) -> None:
        self._is_over = threading.Event()
        self._processes: dict[str, Process] = {}  # by token
        self._thread = threading.Thread(target=self._run, daemon=True)
        self._thread.start()

    def stop(self) -> None:
        self._is_over.set()
        self._thread.join(LIMIT_SECONDS)
        for process in self._processes.values():
            with suppress(ProcessLookupError):
                os.killpg(process.popen.pid, signal.SIGKILL)
            process.popen.wait()

    def _run(self) -> None:
        while not self._is_over.wait(LOOK_SECONDS):
            with suppress(OSError, Closed, Refusal):  # it tries again while the queue is away
                with Client(self.place) as queue:
                    self._serve(queue)

    def _serve(self, queue: Client) -> None:
        runs = [
            {"token": token, "task": process.task, "run": 1, "machine": next(iter(self.machines)), "state": "running"}
            for token, process in self._processes.items()
        ]
        agent = {"agent": "a1", "id": self.id, "machines": self.machines, "runs": runs}
        while "error" in queue.try_ask("register", **agent):
            if self._is_over.wait(LOOK_SECONDS):  # the queue may still have its former connection
                return
        beat = time.monotonic()
        while not self._is_over.wait(LOOK_SECONDS):
            if time.monotonic() - beat > BEAT_SECONDS:
                queue.try_ask("beat")
                beat = time.monotonic()
            self._look(queue)

    def _look(self, queue: Client) -> None:
        answer = Connection(self.place.socket).ask("GET", "/v1/tenants/alpha/firm/tasks?limit=1000")
        if answer.status != 200:  # firmd is away
            return
        rows = {row["task"]: row for row in answer.json()["rows"] if row["machine"]}
        for process in self._processes.values():
            if process.task not in rows and not process.is_asked:
                process.is_asked = True
                with suppress(ProcessLookupError):
                    os.killpg(process.popen.pid, signal.SIGTERM)
        for token, process in list(self._processes.items()):
            status = process.popen.poll()
            if status is not None:
                end = {"status": 128 - status if status < 0 else status, "asked": process.is_asked, "why": None}
                self._tell(queue, token, "ended", **end, max_rss=3 * 2**20, cpu_seconds=0.25)
                del self._processes[token]
        running = {process.task for process in self._processes.values()}
        state = self._state()
        for task, row in rows.items():
            if task not in running and row["machine"] in self.machines:
                self._begin(queue, row, state)

    def _state(self) -> str:
        return (self.state / "id").read_text().strip()

    def _begin(self, queue: Client, row: Json, state: str) -> None:
        token = secrets.token_hex(8)
        place = {"task": row["task"], "line": row["line"], "machine": row["machine"], "state": state}
        work = queue.try_ask("claim", token=token, run=1, **place).get("claim", {}).get("work")
        if work is None:
            return
        path = work["output"] or str(self.folder / f"{token}.output")
        with open(path, "ab") as output:
            words = {"cwd": work["dir"], "env": {**os.environ, **work["env"]}, "start_new_session": True}
            popen = subprocess.Popen(work["command"], stdin=subprocess.DEVNULL, stdout=output, stderr=output, **words)
        self._processes[token] = Process(row["task"], popen)
        self._tell(queue, token, "running", pid=popen.pid, output=path, host=None)

    def _tell(self, queue: Client, token: str, event: str, **more: Any) -> None:
        queue.try_ask("told", events=[{"token": token, "time": time.time(), "event": event, **more}])


@dataclass
class Cluster:
    """firmd, firm-api and the agent, in one folder."""

    daemon: firmd_kit.Daemon
    queue: subprocess.Popen[bytes] | None = None
    runner: Runner | None = None

    @property
    def folder(self) -> Path:
        return self.daemon.folder

    def start_queue(self) -> None:
        words = [sys.executable, str(SERVICE / "firm-api"), "run", "--no-rounds"]
        words += ["--state", str(self.daemon.state), "--socket", str(self.folder / "api"), "--socket-mode", "666"]
        places = {"lines": self.daemon.any, "queue": self.folder / "queue-state"}
        words += [f"--{name}=alpha={path}" for name, path in places.items()]
        ends, before = time.monotonic() + LIMIT_SECONDS, self.said().count("firm-api: ready")
        with open(self.folder / "queue-errors", "ab") as errors:
            self.queue = subprocess.Popen(words, stdin=subprocess.DEVNULL, stderr=errors)
        while self.said().count("firm-api: ready") == before:
            require(self.queue.poll() is None, f"firm-api ended: {self.said()}")
            require(time.monotonic() < ends, f"firm-api is not there in time: {self.said()}")
            time.sleep(0.01)

    @property
    def server(self) -> str:
        """Return the address of firm-api."""
        return f"unix:{self.folder / 'api'}"

    def client(self) -> ApiClient:
        return ApiClient(self.server, "alpha")

    def said(self) -> str:
        path = self.folder / "queue-errors"
        return path.read_text() if path.exists() else ""

    def kill_queue(self) -> None:
        if self.queue is not None:
            self.queue.kill()
            self.queue.wait()
            self.queue = None

    def start_runner(self, **machines: int) -> None:
        self.runner = Runner(Place(self.folder / "api", "alpha"), self.daemon.state, self.folder, machines)

    def run(self, program: str, *words: str, text: str = "") -> Run:
        """Run a program of the service, with this server and tenant in its environment."""
        return run_words(
            [sys.executable, str(SERVICE / program), *words],
            text.encode(),
            {"FIRM_SERVER": self.server, "FIRM_TENANT": "alpha"},
        )

    def firmctl(self, *words: str) -> str:
        """Return firmctl's output; require status 0."""
        done = self.run("firmctl", *words)
        require(done.status == 0, f"{words}: {done}")
        return done.output.decode()

    def json(self, *words: str) -> Any:
        return json.loads(self.firmctl("--json", *words))

    def task(self, name: str) -> Json:
        return self.client().ask(calls.one_task(name))

    def machine(self, name: str) -> Json:
        return {row["machine"]: row for row in self.client().ask(calls.rows_of("machines"))}[name]

    def submit(self, *words: str) -> str:
        """Submit by `firmctl submit`; return the submission's number."""
        where = ["submit", "--server", self.server, "--tenant", "alpha", "--dir", str(self.folder)]
        (submitted,) = submitting.submit(firmctl.parser("submit").parse_args([*where, *words]))
        return str(submitted["number"])


@contextmanager
def cluster(built: str, **machines: int) -> Iterator[Cluster]:
    with firmd_kit.Setup(built, True, 1).daemon("--after", "5", roster=ROSTER) as daemon:
        daemon.start()
        found = Cluster(daemon)
        try:
            found.start_queue()
            if machines:
                found.start_runner(**machines)
            yield found
        finally:
            if found.runner is not None:
                found.runner.stop()
            found.kill_queue()


def python_of_clients(found: Cluster, text: str, *words: str) -> Run:
    """Run a text with aiohttp, and the packages of the service."""
    python = python_with_http()
    if python is None:
        raise Skipped("no Python has aiohttp (apt-get install python3-aiohttp)")
    return run_words([python, "-c", text, *words], b"", {"PYTHONPATH": str(SERVICE)})
