"""The kit for checks of firmd's view: a stand-in for the daemon, and clients of the view.

The stand-in has the replies of the plain service.
"""

from __future__ import annotations

import asyncio
import contextlib
import importlib.util
import json
import os
import re
import socket
import subprocess
import tempfile
import threading
import time
from collections.abc import Callable, Coroutine, Iterator
from pathlib import Path
from typing import Any, TypeVar

from harness import service
from harness.checks import Skipped, require
from harness.deployed import SERVICE, Books, ViewModel, Status
from harness.deployed import bound, serve_view
from hostile import python_with_http

from firm.client.blocking import ApiClient, get, one

FIRMCTL = SERVICE / "firmctl"
LIMIT_SECONDS = 120  # for any wait, on a busy host
ROSTER = b"tenant,nodes,arcs,life,spread,churn\nalpha,12,40,100,1,2\nbeta,8,30,5,0,3\n"
DAY = b"""alpha machine m1 2
alpha machine m2 1
alpha job web 10
alpha job batch 4
alpha task web a
alpha task web b m2 m2 m1
alpha task batch c
alpha round
alpha task batch d m1
alpha round
beta job low 2
beta task low a
alpha task nojob e
nobody show
+ admit alpha,9,24,100,1,2""".split(
    b"\n"
)
Result = TypeVar("Result")


class Front:
    """A stand-in for the daemon: the plain service's replies go to books, these to a view socket."""

    def __init__(self, folder: str, roster_text: bytes = ROSTER) -> None:
        self.state = Path(folder)
        self.model = service.opened(roster_text)
        self.books = Books()
        self.books.start(roster_text)
        self.status = Status(time.time() - 3700, os.getpid(), 3, 17, 2_500, 10_000, 2, 0)
        self.shown = ViewModel(self.books, self.status, "stand-in")
        self.is_up = threading.Event()
        self.thread = threading.Thread(target=lambda: asyncio.run(self.serve()), daemon=True)

    def __enter__(self) -> Front:
        self.thread.start()
        require(self.is_up.wait(LIMIT_SECONDS), "the stand-in does not start")
        return self

    def __exit__(self, *_: object) -> None:
        self.stop()

    def stop(self) -> None:
        if self.thread.is_alive():
            self.loop.call_soon_threadsafe(self.ended.set)
            self.thread.join()

    def run(self, work: Coroutine[Any, Any, Result]) -> Result:
        return asyncio.run_coroutine_threadsafe(work, self.loop).result(LIMIT_SECONDS)

    async def serve(self) -> None:
        """Serve until it is stopped; then close all connections."""
        self.loop, self.ended = asyncio.get_running_loop(), asyncio.Event()
        view = await serve_view(bound(self.state / "view"), self.shown)
        self.is_up.set()
        await self.ended.wait()
        view.close()

    def say(self, *lines: bytes, seconds: float | None = None) -> list[bytes]:
        """Return the replies to these lines; without seconds as in a replay."""

        async def told() -> list[bytes]:
            replies = []
            for line in lines:
                reply = service.answer_line(self.model, line)
                if reply is not None:
                    self.shown.replied_all([line], [reply], seconds)
                    replies.append(reply)
            return replies

        return self.run(told())


@contextlib.contextmanager
def front(roster_text: bytes = ROSTER, lines: list[bytes] = DAY) -> Iterator[Front]:
    """Start a stand-in that has taken these lines."""
    with tempfile.TemporaryDirectory(prefix="firm-") as folder, Front(folder, roster_text) as started:
        started.say(*lines)
        yield started


@contextlib.contextmanager
def api_of(state: Path, *tenants: str, **environment: str) -> Iterator[str]:
    """Start a firm-api over a view in this folder; yield its address."""
    python = python_with_http()
    if python is None:
        raise Skipped("no Python has what HTTP needs (apt-get install python3-aiohttp python3-prometheus-client)")
    with tempfile.TemporaryDirectory(prefix="firm-") as folder:
        place, log = Path(folder) / "api", Path(folder) / "log"
        words = [python, str(SERVICE / "firm-api"), "run", f"--state={state}", f"--socket={place}"]
        words += [f"--lines={tenant}={state / 'view'}" for tenant in tenants]
        with open(log, "wb") as said:
            process = subprocess.Popen(words, stdin=subprocess.DEVNULL, stderr=said, env={**os.environ, **environment})
        try:
            ends = time.monotonic() + LIMIT_SECONDS
            while b"firm-api: ready" not in log.read_bytes() or not has_rows(f"unix:{place}"):
                require(process.poll() is None and time.monotonic() < ends, f"firm-api: {log.read_text()}")
                time.sleep(0.02)
            yield f"unix:{place}"
        finally:
            process.kill()
            process.wait()


def has_rows(server: str) -> bool:
    """Return whether it has the rows of all tenants, or knows that they are missing."""
    tenants = ApiClient(server).ask(one(get("/v1/tenants")))["tenants"]
    return all(row["firm"]["is_there"] or "has no tenant" in row["firm"]["reason"] for row in tenants)


class Viewer:
    """A client of the view socket."""

    def __init__(self, state: Path) -> None:
        self.socket = socket.socket(socket.AF_UNIX)
        self.socket.settimeout(LIMIT_SECONDS)
        self.socket.connect(str(state / "view"))
        self.answers = self.socket.makefile("rb")

    def __enter__(self) -> Viewer:
        return self

    def __exit__(self, *_: object) -> None:
        self.answers.close()
        self.socket.close()

    def send(self, text: bytes) -> None:
        self.socket.sendall(text)

    def next(self) -> Any:
        """Return the next answer; None if the connection is closed, even by a reset after unread input."""
        try:
            line = self.answers.readline()
        except ConnectionError:
            return None
        return json.loads(line) if line else None

    def ask(self, request: object) -> Any:
        self.send(json.dumps(request).encode() + b"\n")
        return self.next()


def wait_until(holds: Callable[[], object], seconds: float = LIMIT_SECONDS) -> bool:
    ends = time.monotonic() + seconds
    while not holds() and time.monotonic() < ends:
        time.sleep(0.01)
    return bool(holds())


def metrics_of(state: Path) -> str:
    """Return the metrics of a view in this folder."""
    with Viewer(state) as view:
        return str(view.ask({"ask": "metrics"})["metrics"])


def samples_of(state: Path) -> dict[tuple[str, str], float]:
    """Return the samples of these by name and labels."""
    from prometheus_client import parser

    families: Callable[[str], Iterator[Any]] = parser.text_string_to_metric_families
    found: dict[tuple[str, str], float] = {}
    for family in families(metrics_of(state)):
        require(bool(family.documentation) and re.fullmatch(r"(firm|process)_[a-z_]+", family.name), family.name)
        for sample in family.samples:
            key = (sample.name, ",".join(f"{name}={value}" for name, value in sorted(sample.labels.items())))
            require(key not in found, key)
            found[key] = sample.value
    return found


def missing_of(modules: list[str]) -> list[str]:
    return [module for module in modules if importlib.util.find_spec(module) is None]
