"""Measure three replicas with a journal in etcd beside a single firmd, a client's silence, and the load of a shard.

usage: tools/run bench/cluster.py [--program FILE] [--folder DIR] [--requests N] [--lines N] [--seconds N] [--keep]
It measures in turn firmd alone, three replicas over three members of etcd, and the API of the leading one. All are on
this host, with their files in one folder, so they share its processors and its disk. It needs a C compiler,
etcd-server, openssl and python3-aiohttp. --keep writes docs/results/cluster.md.
"""

from __future__ import annotations

import argparse
import os
import re
import socket
import subprocess
import sys
import tempfile
import threading
import time
from collections.abc import Callable, Iterator
from contextlib import contextmanager
from dataclasses import dataclass
from functools import partial
from pathlib import Path
from statistics import median

import results
from requests import Figure, started
from shared import BUILT, ROOT, CannotRun, Missed, run_script

from etcd_kit import NAMES, Members, Replicas, is_served, require_programs, until
from harness.checks import Skipped
from harness.guard import guard
from replica_apis import Apis
from replica_chaos import KILLED, STOPPED, Chaos

from firm.client.calls import lines

ROSTER = "tenant,nodes,arcs,life,spread,churn\nalpha,4096,65536,1099511627776,1,500\n"
TENANTS = 64  # of a shard
SHAPES = ((10, 4, 40), (50, 4, 200), (200, 4, 800), (500, 4, 1900))  # machines, slots of each, and tasks, of a tenant


@dataclass(frozen=True)
class Options:
    program: str
    folder: Path
    requests: int
    lines: int
    seconds: float
    keep: bool


@contextmanager
def replicas_in(options: Options, roster: str = ROSTER) -> Iterator[tuple[Members, Replicas]]:
    with tempfile.TemporaryDirectory(dir=options.folder, prefix="firm-") as name:
        folder = Path(name)
        (folder / "roster.csv").write_text(roster)
        members = Members(folder / "etcd")
        replicas = Replicas(folder, members.urls, options.program)
        try:
            members.start_all()
            yield members, replicas
        finally:
            replicas.stop()
            members.stop()


def flood(path: Path, count: int) -> float:
    """Return the lines a second of a client that doesn't wait for replies."""
    text = b"".join(b"alpha where nobody-%05d\n" % (number % 99_999) for number in range(count))
    with socket.socket(socket.AF_UNIX) as connected:
        connected.connect(str(path))
        began = time.monotonic()
        threading.Thread(target=connected.sendall, args=(text,), daemon=True).start()
        left = count
        while left:
            more = connected.recv(1 << 20)
            if not more:
                raise Missed(f"{path} was closed with {left} replies owed")
            left -= more.count(b"\n")
        return count / (time.monotonic() - began)


def wait(clients: Path, path: Path, count: int, requests: int) -> Figure:
    words = [str(clients), str(path), str(count), str(requests), "alpha show\\n"]
    done = subprocess.run(words, capture_output=True, text=True)
    if done.returncode:
        raise CannotRun(f"{count} clients: {done.stderr}")
    return Figure(*map(float, done.stdout.split()))


def row_of(options: Options, clients: Path, path: Path) -> list[str]:
    floods = [flood(path, options.lines) for _ in range(2)]
    figures = [
        wait(clients, path, count, requests)
        for count, requests in ((1, options.requests // 10), (50, options.requests))
    ]
    return [f"{max(floods):,.0f}", *map(str, figures)]


def beside(options: Options, clients: Path) -> None:
    """Measure lines and requests a second."""
    print("## Beside a firmd alone\n")
    print(
        "Lines a second of one client that doesn't wait; and requests a second of clients that wait for each reply, in"
    )
    print("brackets the median and the 99th percentile of a request in milliseconds.\n")
    print("| | lines a second | 1 client | 50 clients |\n| --- | ---: | ---: | ---: |")
    rows: dict[str, list[str]] = {}
    with tempfile.TemporaryDirectory(dir=options.folder, prefix="firm-") as name, replicas_in(options) as (_, replicas):
        replicas.start(*NAMES)
        (Path(name) / "roster.csv").write_text(ROSTER)
        socket_path = Path(name) / "socket"
        words = [sys.executable, str(ROOT / "service" / "firmd"), "--firm", options.program, "--state", f"{name}/state"]
        with started([*words, "--roster", f"{name}/roster.csv", "--socket", str(socket_path)], socket_path):
            rows["firmd alone"] = row_of(options, clients, socket_path)
            rows["three replicas"] = row_of(options, clients, replicas.socket(replicas.leads()))
    for label, cells in rows.items():
        print(f"| {label} |", " | ".join(cells), "|", flush=True)


def by_api(options: Options) -> None:
    """Measure a request by the API of the leader's host, over TLS, and by the leader's own socket."""
    with replicas_in(options) as (_, replicas):
        apis = Apis(replicas, "alpha")
        try:
            replicas.start(*NAMES)
            apis.start(*NAMES)
            client = apis.client()
            with socket.socket(socket.AF_UNIX) as plain:
                plain.connect(str(replicas.socket(replicas.leads())))
                stream = plain.makefile("rwb", buffering=0)

                def ask() -> None:
                    stream.write(b"alpha show\n")
                    stream.readline()

                count = options.requests // 20
                found = [timed(ask, count), timed(lambda: client.ask(lines("alpha", ["alpha show"])), count)]
        finally:
            apis.stop()
    at_socket, by_tls = found
    print(
        f"\nOne client in Python waits {at_socket:.2f} ms at the leader's socket, {by_tls:.2f} ms at its API by TLS.\n"
    )


def timed(ask: Callable[[], object], count: int) -> float:
    times = []
    for _ in range(count):
        began = time.monotonic()
        ask()
        times.append(time.monotonic() - began)
    return median(times) * 1e3


def silences(options: Options) -> None:
    """Measure the time without replies to clients."""
    from replica_chaos import ROSTER as CHAOS_ROSTER

    with replicas_in(options, CHAOS_ROSTER.decode()) as (members, replicas):
        verdict = Chaos(members, replicas, 1).run(options.seconds, ["leader", "stop"])
    if verdict.lost or verdict.twice or not verdict.are_equal:
        raise Missed(str(verdict))
    print("## Silence\n\nSeconds without any answer to 16 clients, after the event; a lease is three seconds.\n")
    print("| | events | least | median | most |\n| --- | ---: | ---: | ---: | ---: |")
    for what in (KILLED, STOPPED):
        found = sorted(event.silence for event in verdict.events if event.what == what)
        print(f"| {what} | {len(found)} | {found[0]:.2f} | {median(found):.2f} | {found[-1]:.2f} |")
    print(f"\n{verdict}.\n", flush=True)


def shards(options: Options) -> None:
    """Measure the rounds of all tenants of a shard at a time."""
    print(
        f"## A shard\n\nA firmd of {TENANTS} tenants, all alike. Each one's client ends a task, begins another and asks"
    )
    print("for a round, again and again; machines have 4 slots. Rounds: those a second of all, and the median of one")
    print("in milliseconds; the memory, in MB, is that of firm and of firmd.\n")
    print("| machines of a tenant | its tasks | machines | tasks | rounds | round | firm | firmd |")
    print("|" + " ---: |" * 8)
    for machines, slots, tasks in SHAPES:
        print(shard_row(options, machines, slots, tasks), flush=True)


def shard_row(options: Options, machines: int, slots: int, tasks: int) -> str:
    names = [f"t{number}" for number in range(TENANTS)]
    nodes, arcs = 5 + machines + tasks, machines * (1 + slots) + 1 + 3 * (tasks + 2)
    roster = "tenant,nodes,arcs,life,spread,churn\n"
    roster += "".join(f"{name},{nodes},{arcs},1099511627776,1,500\n" for name in names)
    with tempfile.TemporaryDirectory(dir=options.folder, prefix="firm-") as folder:
        (Path(folder) / "roster.csv").write_text(roster)
        path = Path(folder) / "socket"
        words = [
            sys.executable,
            str(ROOT / "service" / "firmd"),
            "--firm",
            options.program,
            "--state",
            f"{folder}/state",
        ]
        process = subprocess.Popen(
            [*words, "--roster", f"{folder}/roster.csv", "--socket", str(path)], stderr=subprocess.DEVNULL
        )
        try:
            until(lambda: is_served(path, names[0].encode()), "it serves")
            times: list[float] = []
            is_over = threading.Event()
            threads = [
                threading.Thread(target=churn, args=(path, name, (machines, slots, tasks), is_over, times))
                for name in names
            ]
            for thread in threads:
                thread.start()
            until(lambda: len(times) >= TENANTS, "each tenant has had a round", 300)
            before, began = len(times), time.monotonic()
            time.sleep(options.seconds / 4)
            count, seconds = len(times) - before, time.monotonic() - began
            is_over.set()
            for thread in threads:
                thread.join()
            memory = [memory_of(process.pid, "firm"), megabytes(process.pid)]
        finally:
            process.kill()
            process.wait()
    cells = [
        f"{machines:,}",
        f"{tasks:,}",
        f"{TENANTS * machines:,}",
        f"{TENANTS * tasks:,}",
        f"{count / seconds:,.0f}",
    ]
    return (
        "| " + " | ".join([*cells, f"{median(times[-count:]) * 1e3:,.1f}", *(f"{size:,.0f}" for size in memory)]) + " |"
    )


def churn(path: Path, name: str, shape: tuple[int, int, int], is_over: threading.Event, times: list[float]) -> None:
    """Play a tenant whose tasks come and go; each change has a round."""
    machines, slots, tasks = shape
    with socket.socket(socket.AF_UNIX) as connected:
        connected.connect(str(path))
        stream = connected.makefile("rwb", buffering=0)

        def say(*lines: str) -> None:
            stream.write("".join(f"{name} {line}\n" for line in lines).encode())
            for _ in lines:
                if not stream.readline():
                    raise Missed("firmd has closed the connection")

        for start in range(0, machines, 50):
            say(*[f"machine m{number} {slots}" for number in range(start, min(start + 50, machines))])
        say("job j 10")
        for start in range(0, tasks, 50):
            say(*[f"task j x{number}" for number in range(start, min(start + 50, tasks))])
        say("round")
        number = tasks
        times.append(0.0)
        while not is_over.is_set():
            say(f"done x{number - tasks}", f"task j x{number}")
            began = time.monotonic()
            say("round")
            times.append(time.monotonic() - began)
            number += 1


def megabytes(pid: int) -> float:
    found = re.search(r"VmRSS:\s+([0-9]+)", Path(f"/proc/{pid}/status").read_text())
    return int(found[1]) / 1024 if found else 0.0


def memory_of(pid: int, name: str) -> float:
    """Return the memory of a child by its name."""
    for child in Path(f"/proc/{pid}/task/{pid}/children").read_text().split():
        if Path(f"/proc/{child}/comm").read_text().strip() == name:
            return megabytes(int(child))
    return 0.0


def show(options: Options) -> int:
    load = f"load of the last minute at the start {os.getloadavg()[0]:.1f}, niceness {os.nice(0)}"
    print(f"All processes on one host; {load}.\n")
    with tempfile.TemporaryDirectory() as name:
        clients = Path(name) / "clients"
        subprocess.run(["cc", "-O2", "-o", clients, ROOT / "bench" / "clients.c"], check=True)
        beside(options, clients)
    by_api(options)
    silences(options)
    shards(options)
    print(f"\nLoad of the last minute at the end {os.getloadavg()[0]:.1f}.")
    return 0


def main() -> int:
    parser = argparse.ArgumentParser(description=(__doc__ or "").splitlines()[0])
    parser.add_argument("--program", default=str(BUILT))
    parser.add_argument("--folder", type=Path, default=ROOT / "out", help="folder on a disk")
    parser.add_argument("--requests", type=int, default=10_000)
    parser.add_argument("--lines", type=int, default=300_000)
    parser.add_argument("--seconds", type=float, default=80, help="seconds of kills; a quarter of them for each shard")
    parser.add_argument("--keep", action="store_true", help=results.HELP)
    found = parser.parse_args()
    guard()
    found.folder.mkdir(exist_ok=True)
    options = Options(found.program, found.folder, found.requests, found.lines, found.seconds, found.keep)
    try:
        require_programs("etcd", "openssl")
    except Skipped as reason:
        raise CannotRun(str(reason)) from None
    return results.show_and_keep("cluster", options.keep, partial(show, options))


if __name__ == "__main__":
    run_script(main)
