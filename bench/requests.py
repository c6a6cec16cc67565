"""Measure requests to firmd beside writes to redis, by clients that wait for each reply.

usage: tools/run bench/requests.py [--program FILE] [--disk DIR] [--memory DIR] [--requests N] [--repeats R]
                                   [--clients N..]
Both store what they acknowledge: firmd's journal is synced before each reply; redis' file by `appendfsync always`, and
for comparison `everysec`. The same program in C sends requests to each in turn over a Unix socket, on a disk and in
memory. Each figure is from the run with the most requests a second of R. It needs a C compiler, and redis-server for
its half.
"""

from __future__ import annotations

import argparse
import os
import shutil
import subprocess
import sys
import tempfile
import time
from collections.abc import Callable, Iterator
from contextlib import AbstractContextManager, contextmanager
from functools import partial
from pathlib import Path
from typing import NamedTuple

from shared import ROOT, CannotRun

ROSTER = "tenant,nodes,arcs,life,spread,churn\nt,4096,65536,1099511627776,1,2\n"
ASK, WRITE = "t show\\n", "SET key value\\r\\n"
START_SECONDS = 20


class Figure(NamedTuple):
    """A run of the clients; times are in milliseconds."""

    rate: float
    median: float
    slow: float  # of the slowest in a hundred

    def __str__(self) -> str:
        return f"{self.rate:,.0f} ({self.median:.2f} / {self.slow:.2f})"


class Server(NamedTuple):
    name: str
    serve: Callable[[Path], AbstractContextManager[Path]]  # in a folder; yields the path of its socket
    request: str


def wait_for(path: Path, process: subprocess.Popen[bytes]) -> None:
    end = time.monotonic() + START_SECONDS
    while not path.is_socket():
        if process.poll() is not None or time.monotonic() > end:
            raise CannotRun(f"{process.args!r} does not listen at {path}")
        time.sleep(0.01)


@contextmanager
def started(words: list[str], socket: Path) -> Iterator[Path]:
    """Run a server as a separate process, until it is no longer needed."""
    with subprocess.Popen(words, stdout=subprocess.DEVNULL, stderr=subprocess.DEVNULL) as process:
        try:
            wait_for(socket, process)
            yield socket
        finally:
            process.terminate()


def firmd(program: str, folder: Path) -> AbstractContextManager[Path]:
    roster, socket = folder / "roster.csv", folder / "socket"
    roster.write_text(ROSTER)
    words = [sys.executable, str(ROOT / "service" / "firmd"), "--firm", program, "--state", str(folder / "state")]
    return started([*words, "--roster", str(roster), "--socket", str(socket)], socket)


def redis(syncs: str, folder: Path) -> AbstractContextManager[Path]:
    socket = folder / "socket"
    words = ["redis-server", "--port", "0", "--unixsocket", str(socket), "--dir", str(folder), "--save", ""]
    return started([*words, "--appendonly", "yes", "--appendfsync", syncs], socket)


def figure(program: Path, server: Server, folder: Path, clients: int, requests: int) -> Figure:
    with tempfile.TemporaryDirectory(dir=folder) as name, server.serve(Path(name)) as socket:
        words = [str(program), str(socket), str(clients), str(requests), server.request]
        done = subprocess.run(words, capture_output=True, text=True)
    if done.returncode:
        raise CannotRun(f"{server.name}, {clients} clients: {done.stderr}")
    return Figure(*map(float, done.stdout.split()))


def main() -> int:
    parser = argparse.ArgumentParser(description=(__doc__ or "").splitlines()[0])
    parser.add_argument("--program", default=str(ROOT / "crates" / "firm" / "out" / "firm"))
    parser.add_argument("--disk", type=Path, default=ROOT / "out", help="folder on a disk")
    parser.add_argument("--memory", type=Path, default=Path("/dev/shm"), help="folder in memory")
    parser.add_argument("--requests", type=int, default=60_000)
    parser.add_argument("--repeats", type=int, default=3)
    parser.add_argument("--clients", type=int, nargs="+", default=[1, 50, 500])
    options = parser.parse_args()
    servers = [Server("firmd", partial(firmd, options.program), ASK)]
    if shutil.which("redis-server"):
        servers += [Server(f"redis, {syncs}", partial(redis, syncs), WRITE) for syncs in ("always", "everysec")]
    options.disk.mkdir(exist_ok=True)
    print(f"{os.cpu_count()} processors; load of the last minute at the start {os.getloadavg()[0]:.1f}\n")
    print("| requests a second (median / 99th percentile, ms) |", *(f"{count} clients |" for count in options.clients))
    print("| --- |" + " ---: |" * len(options.clients))
    with tempfile.TemporaryDirectory() as name:
        program = Path(name) / "clients"
        subprocess.run(["cc", "-O2", "-o", program, ROOT / "bench" / "clients.c"], check=True)
        for place, folder in (("disk", options.disk), ("memory", options.memory)):
            best: dict[tuple[str, int], Figure] = {}
            for _ in range(options.repeats):
                for count in options.clients:
                    for server in servers:
                        # One client alone takes a while for each.
                        requests = options.requests // 6 if count == 1 else options.requests
                        found = figure(program, server, folder, count, requests)
                        best[server.name, count] = max(found, best.get((server.name, count), found))
            for server in servers:
                cells = (str(best[server.name, count]) for count in options.clients)
                print(f"| {server.name}, {place} |", " | ".join(cells), "|", flush=True)
    print(f"\nload of the last minute at the end {os.getloadavg()[0]:.1f}")
    return 0


if __name__ == "__main__":
    try:
        sys.exit(main())
    except CannotRun as reason:
        sys.exit(f"requests.py: {reason}")
