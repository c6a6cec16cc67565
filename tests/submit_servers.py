"""Checks of the clients of firm-api if a server is away, refuses, or loses an answer; for tests/submit.py."""

from __future__ import annotations

import re
import socket
import threading
import time
from collections.abc import Callable, Iterator
from contextlib import contextmanager, suppress
from pathlib import Path
from typing import Any

from front_kit import api_of
from harness.checks import require
from submit_kit import Cluster, python_of_clients

from firm.client import calls
from firm.client.blocking import ApiClient, ApiError, Steps

SOON_SECONDS = 20.0  # for a refusal on a busy host; a client with patience repeats its request for longer


def message_of(connection: socket.socket) -> bytes:
    """Return a request, or an answer, with its body; less if the connection ends before."""
    found, size = b"", 1
    while len(found) < size and (piece := connection.recv(1 << 20)):
        found += piece
        head, end, _ = found.partition(b"\r\n\r\n")
        length = re.search(rb"(?im)^content-length: *([0-9]+)", head)
        size = len(head + end) + (int(length[1]) if length else 0) if end else len(found) + 1
    return found


@contextmanager
def robber(path: Path, server: Path, count: int) -> Iterator[None]:
    """Put a socket in front of the server's that loses the first answers: the requests arrive. The last of these
    answers is cut in the middle."""
    listening = socket.socket(socket.AF_UNIX)
    listening.bind(str(path))
    listening.listen()

    def serve() -> None:
        for number in range(count + 1):
            caller, _ = listening.accept()
            with caller, socket.socket(socket.AF_UNIX) as behind:
                behind.connect(str(server))
                behind.sendall(message_of(caller))
                answer = message_of(behind)
                caller.sendall(answer if number == count else answer[: number * len(answer) // 2])

    thread = threading.Thread(target=serve, daemon=True)
    thread.start()
    try:
        yield
    finally:
        listening.close()


def lost_answers(found: Cluster) -> None:
    """A submission whose answer was lost, or came in part, is repeated, and made once: by each client."""
    work: calls.SubmissionFields = {"command": ["true"], "dir": "/", "job": "robbed", "hold": True}
    api = found.folder / "api"
    with robber(found.folder / "robbed", api, 2):
        (first,) = ApiClient(f"unix:{found.folder / 'robbed'}", "alpha").ask(calls.submit([work]))
    with robber(found.folder / "robbed-too", api, 2):
        done = python_of_clients(found, SUBMIT_ONE, f"unix:{found.folder / 'robbed-too'}")
    tasks = [row["task"] for row in found.client().ask(calls.tasks(job="robbed"))]
    require(first["again"] and done.output == b"True\n", f"{first}, {done}")
    require(len(tasks) == 2 and tasks[0] == str(first["number"]), f"{tasks}: {first}")
    found.client().ask(calls.change("cancel", jobs=["robbed"]))


def several_servers(found: Cluster) -> None:
    """A client skips servers that are away, or have no queue, and reports a refusal that all of them give. It sends
    lines to firm once, and reports a lost answer."""
    work: calls.SubmissionFields = {"command": ["true"], "dir": "/", "job": "several", "hold": True}
    api, robbed, closed = found.folder / "api", found.folder / "robbed-lines", found.folder / "deaf-api"
    with api_of(found.daemon.state, "alpha") as bare, deaf(closed):
        for first in (f"unix:{found.folder / 'nothing'}", f"unix:{closed}", bare):
            client = ApiClient(f"{first},{found.server}", "alpha")
            (made,) = client.ask(calls.submit([work]))
            require(client.server.text == found.server, f"it stays with {client.server.text}")
            done = found.run("firmctl", "--server", f"{first},{found.server}", "cancel", str(made["number"]))
            require(done.status == 0, f"without patience, {first} first: {done}")
        for tenant, servers, name in (("alpha", f"{bare},{bare}", "no-queue"), ("x", found.server, "no-such-tenant")):
            began = time.monotonic()
            require(refusal_of(ApiClient(servers, tenant), calls.submit([work])).name == name, name)
            require(time.monotonic() - began < SOON_SECONDS, f"{name}: it asks on and on")
    for servers in (
        "",
        "unix:",
        "https://",
        f"{found.server},",
        "https://a:1,b:2",
        "https://a:1,http://b",
        "https://a/b",
    ):
        try:
            require(False, f"{servers!r} is taken: {ApiClient(servers).servers}")
        except ValueError as error:
            require("is not unix:PATH or https://HOST:PORT" in str(error), error)
    with robber(robbed, api, 1):
        lost = refusal_of(ApiClient(f"unix:{robbed},{found.server}"), calls.lines("alpha", ["alpha where lost"]))
        require(lost.more == {"replies": []} and "may have obeyed" in str(lost), repr(lost))
        require(ApiClient(f"unix:{robbed}").ask(calls.lines("alpha", ["alpha where x"]))[0].startswith("alpha "), "x")
    with robber(found.folder / "robbed-again", api, 1):
        done = python_of_clients(found, SEND_ONE, f"unix:{found.folder / 'robbed-again'}")
    require(done.output == b"{'replies': []}\n", done)
    there = b"".join(path.read_bytes() for path in sorted((found.daemon.state / "journal").glob("*.lines")))
    require(there.count(b"alpha where lost\n") == 2, "each was sent once")


def refusal_of(client: ApiClient, steps: Steps[Any]) -> ApiError:
    try:
        raise AssertionError(f"it is answered: {client.ask(steps)}")
    except ApiError as error:
        return error


SEND_ONE = """\
import asyncio, sys
from firm.client.asynchronous import AsyncApiClient
from firm.client.calls import lines
from firm.client.blocking import ApiError

async def send() -> None:
    async with AsyncApiClient(sys.argv[1], "alpha") as client:
        try:
            print(await client.ask(lines("alpha", ["alpha where lost"])))
        except ApiError as error:
            print(error.more)

asyncio.run(send())
"""
SUBMIT_ONE = """\
import asyncio, sys
from firm.client import calls
from firm.client.asynchronous import AsyncApiClient

async def submit() -> None:
    async with AsyncApiClient(sys.argv[1], "alpha") as client:
        work = {"command": ["true"], "dir": "/", "job": "robbed", "hold": True}
        print((await client.ask(calls.submit([work])))[0]["again"])

asyncio.run(submit())
"""


@contextmanager
def deaf(path: Path) -> Iterator[None]:
    """Open a socket whose connections take no request, and soon end."""
    listening = socket.socket(socket.AF_UNIX)
    listening.bind(str(path))
    listening.listen()

    def serve() -> None:
        with suppress(OSError):  # it is closed
            while True:
                with listening.accept()[0] as caller:
                    caller.shutdown(socket.SHUT_RD)
                    time.sleep(0.05)

    thread = threading.Thread(target=serve, daemon=True)
    thread.start()
    try:
        yield
    finally:
        listening.close()


def a_queue_that_leaves(found: Cluster) -> None:
    """A queue that takes no request gives status 3, and no signal ends firmctl without a message."""
    path = found.folder / "deaf"
    with deaf(path):
        done = found.run("firmctl", "submit", "--server", f"unix:{path}", "--patience", "1", "--", "true")
    require(done.status == 3 and f"no firm-api answers at unix:{path}".encode() in done.faults, done)


CHECKS: list[Callable[[Cluster], None]] = [lost_answers, several_servers, a_queue_that_leaves]
