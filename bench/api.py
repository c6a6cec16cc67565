"""Measure firm-api over a queue on this host: submissions, the status of a task beside them, and a user's list.

usage: tools/run bench/api.py [--seconds N] [--folder DIR]
Each line is a figure, with the load of the host beside it. It needs the built program and what tests/api.py needs. The
clients are one process with a connection each; DIR is on the disk that the queue is to sync.
"""

from __future__ import annotations

import argparse
import asyncio
import json
import math
import os
import tempfile
import time
from collections.abc import Sequence
from contextlib import closing
from dataclasses import dataclass
from pathlib import Path

from api_kit import Site
from harness.program import BUILT
from queue_client import as_user_does
from queue_kit import Case

CLIENTS, BATCH, USERS, OF_USER = 50, 100, 100, 1_000
PAUSE_SECONDS = 0.005  # between two reads of a status
FIRST_USER = 62_000


def request_of(path: str, count: int, key: str) -> bytes:
    one = {"command": ["sleep", "2"], "dir": "/tmp", "job": "load", "hold": True}
    body = json.dumps({"submissions": [one] * count, "key": key}).encode()
    head = f"POST {path} HTTP/1.1\r\nHost: localhost\r\nContent-Type: application/json\r\nContent-Length: {len(body)}"
    return head.encode() + b"\r\n\r\n" + body


async def answer(reader: asyncio.StreamReader) -> bytes:
    """Read an answer with its body; return its head."""
    head = await reader.readuntil(b"\r\n\r\n")
    size = int(head.lower().split(b"content-length:")[1].split(b"\r\n")[0])
    await reader.readexactly(size)
    return head


@dataclass
class Submitter:
    """A client that submits, one request after another, or each `gap` seconds."""

    site: Site
    number: int
    count: int  # of a request
    gap: float
    took: list[float]

    async def run(self) -> None:
        reader, writer = await asyncio.open_unix_connection(self.site.socket)
        with closing(writer):
            await asyncio.sleep(self.gap * self.number / CLIENTS)
            due, turn = time.monotonic(), 0
            while True:
                began, turn = time.monotonic(), turn + 1
                key = f"{os.getpid()} {time.time_ns()} {self.number} {turn}"
                writer.write(request_of(self.site.of("submissions"), self.count, key))
                head = await answer(reader)
                if b" 201 " not in head:
                    raise RuntimeError(head)
                self.took.append(time.monotonic() - began)
                due += self.gap
                await asyncio.sleep(max(0.0, due - time.monotonic()))


async def statuses(site: Site, task: str, seconds: float, took: list[float]) -> None:
    reader, writer = await asyncio.open_unix_connection(site.socket)
    text = f"GET {site.of(f'tasks/{task}')} HTTP/1.1\r\nHost: localhost\r\n\r\n".encode()
    ends = time.monotonic() + seconds
    while time.monotonic() < ends:
        began = time.monotonic()
        writer.write(text)
        await answer(reader)
        took.append(time.monotonic() - began)
        await asyncio.sleep(PAUSE_SECONDS)


def measure(site: Site, what: str, count: int, gap: float, seconds: float) -> None:
    """Print the tasks submitted in a second, and the time of a status meanwhile."""
    made, read = list[float](), list[float]()
    child = os.fork()
    if child == 0:  # the readers' process has nothing else to do
        try:
            asyncio.run(statuses(site, "1", seconds, read))
            report(f"{what}: a status", read)
        finally:
            os._exit(0)

    async def run() -> None:
        works = [asyncio.create_task(Submitter(site, number, count, gap, made).run()) for number in range(CLIENTS)]
        done, _ = await asyncio.wait(works, timeout=seconds, return_when=asyncio.FIRST_COMPLETED)
        for work in works:
            work.cancel()
        await asyncio.gather(*works, return_exceptions=True)
        for work in done:
            work.result()

    began = time.monotonic()
    before = processor_seconds(site)
    asyncio.run(run())
    rate = len(made) * count / (time.monotonic() - began)
    os.waitpid(child, 0)
    reads, changes = ((now - then) / (time.monotonic() - began) for now, then in zip(processor_seconds(site), before))
    print(f"{what}: the process for reads works {reads:.0%} of the time, that for changes {changes:.0%}", flush=True)
    report(f"{what}: {rate:,.0f} submissions/s, a request of {count}", made)


def report(what: str, took: Sequence[float]) -> None:
    found = sorted(took) or [math.nan]
    middle, late = (found[len(found) * share // 100] * 1_000 for share in (50, 99))
    load = os.getloadavg()[0]
    print(f"{what}: p50 {middle:.1f} ms, p99 {late:.1f} ms, {len(found):,} times (load {load:.0f})", flush=True)


def fill(site: Site) -> None:
    """Submit the tasks of many users."""
    one = {"command": ["sleep", "2"], "dir": "/tmp", "hold": True}
    for user in range(USERS):
        body = {"submissions": [one] * OF_USER}
        status = as_user_does(FIRST_USER + user, lambda: site.ask("POST", site.of("submissions"), body).status)
        if status != 201:
            raise RuntimeError(f"status {status}")


def lists(site: Site, times: int) -> None:
    took, before = [], processor_seconds(site)
    for turn in range(times):
        began = time.monotonic()
        found = site.get(site.of(f"tasks?limit=1000&user={FIRST_USER + turn % USERS}"))
        took.append(time.monotonic() - began)
        if len(found["tasks"]) != OF_USER:
            raise RuntimeError(f"{len(found['tasks'])} rows")
    report(f"the {OF_USER:,} tasks of one user among {USERS * OF_USER:,}", took)
    own = (processor_seconds(site)[0] - before[0]) / times
    print(f"of which the process for reads works {own * 1_000:.0f} ms", flush=True)


def processor_seconds(site: Site) -> tuple[float, ...]:
    """Return the processor time of the processes for reads and for changes."""
    stats = (Path(f"/proc/{pid}/stat").read_text() for pid in (site.reads_process(), site.pid))
    rows = (text.rpartition(")")[2].split() for text in stats)
    return tuple((int(fields[11]) + int(fields[12])) / os.sysconf("SC_CLK_TCK") for fields in rows)


def main() -> None:
    parser = argparse.ArgumentParser(description=(__doc__ or "").splitlines()[0])
    parser.add_argument("--seconds", type=float, default=10.0, metavar="N", help="seconds of each measurement")
    parser.add_argument("--folder", type=Path, default=Path(tempfile.gettempdir()), metavar="DIR")
    given = parser.parse_args()
    options = ("--lease=600", "--most-in-all=10000000", "--socket-mode=666")
    with Case(str(BUILT), *options, folder=given.folder) as case:
        case.folder.chmod(0o755)
        site = Site(case.start())
        site.submit("x", hold=True)
        fill(site)
        lists(site, 3 * USERS // 5)
        measure(site, "quiet", 1, 1e9, given.seconds / 2)
        steady = f"{CLIENTS} clients by {BATCH}, 2,000 tasks a second"
        measure(site, steady, BATCH, CLIENTS * BATCH / 2_000, given.seconds)
        measure(site, f"{CLIENTS} clients, closed loop by {BATCH}", BATCH, 0, given.seconds)
        measure(site, f"{CLIENTS} clients, closed loop, single", 1, 0, given.seconds)


if __name__ == "__main__":
    main()
