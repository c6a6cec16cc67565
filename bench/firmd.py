"""Measure firmd beside firm alone: lines and requests a second, times of a request and of a small round, the replay.

usage: tools/run bench/firmd.py [--program FILE] [--folder DIR] [--lines N] [--requests N] [--repeats R]
The journal is in a new folder under DIR, by default /dev/shm. Each figure is the best of R runs, in turn with firm
alone: the same lines over its pipes, by the same client. Every reply is counted, and the last one's number is checked.
"""

from __future__ import annotations

import argparse
import os
import select
import socket
import subprocess
import sys
import tempfile
import time
from collections.abc import Callable, Iterator
from contextlib import contextmanager
from dataclasses import dataclass
from pathlib import Path
from statistics import median
from threading import Thread

ROOT = Path(__file__).resolve().parent.parent
ROSTER = "tenant,nodes,arcs,life,spread,churn\nt,4096,65536,1099511627776,1,2\n"
ROWS = [
    "t machine m0 3",
    "t machine m1 3",
    "t machine m2 3",
    "t job j0 100",
    "t job j1 100",
    *[f"t task j{n % 2} t{n}" for n in range(5)],
]
MIXED = ["t machine m1 2", "t show", "t where t1", "t task j1 t1", "t where t3", "t job j1 5"]
# Tasks come and go.
TASKS = ["t task j0 x%d", "t task j1 y%d", "t done x%d", "t done y%d"]
# A day: tasks come, run and go, with a round for each five.
DAY = ["t task j0 x%d", "t task j1 y%d", "t round", "t done x%d", "t done y%d"]
CLIENTS = 50


@dataclass(frozen=True)
class Pair:
    """A figure of firm alone, 0 if it has none, and the same of firmd."""

    alone: float
    served: float


@dataclass
class Pipes:
    """The pipes to and from a firm."""

    write: int
    read: int


@dataclass(frozen=True)
class Setup:
    program: str
    folder: Path
    repeats: int

    @property
    def roster(self) -> Path:
        return self.folder / "roster.csv"

    @contextmanager
    def alone(self) -> Iterator[Pipes]:
        """Start firm alone, with the rows."""
        words = [self.program, "--roster", str(self.roster)]
        with subprocess.Popen(words, stdin=subprocess.PIPE, stdout=subprocess.PIPE, bufsize=0) as firm:
            if firm.stdin is None or firm.stdout is None:
                raise RuntimeError("no pipes")
            pipes = Pipes(firm.stdin.fileno(), firm.stdout.fileno())
            add_rows(pipes)
            yield pipes
            firm.stdin.close()

    @contextmanager
    def served(self) -> Iterator[Path]:
        """Start firmd over a new state, with the rows; yield the path of its socket."""
        with tempfile.TemporaryDirectory(dir=self.folder) as name:
            path = Path(name) / "socket"
            with self.daemon(Path(name) / "state", path):
                with connected(path) as pipes:
                    add_rows(pipes)
                yield path

    @contextmanager
    def daemon(self, state: Path, path: Path) -> Iterator[str]:
        """Start firmd over a state; yield its messages until it was ready."""
        words = [sys.executable, str(ROOT / "service" / "firmd"), "--firm", self.program, "--state", str(state)]
        words += ["--roster", str(self.roster), "--socket", str(path)]
        with subprocess.Popen(words, stderr=subprocess.PIPE, text=True) as daemon:
            if daemon.stderr is None:
                raise RuntimeError("no pipe")
            ready = daemon.stderr.readline()
            if "ready" not in ready:
                raise RuntimeError(ready)
            try:
                yield ready
            finally:
                daemon.terminate()
                daemon.stderr.read()


@contextmanager
def connected(path: Path) -> Iterator[Pipes]:
    with socket.socket(socket.AF_UNIX) as client:
        client.connect(str(path))
        yield Pipes(client.fileno(), client.fileno())


def text_of(lines: list[str]) -> bytes:
    return "".join(line + "\n" for line in lines).encode()


def add_rows(pipes: Pipes) -> None:
    os.write(pipes.write, text_of(ROWS))
    receive(pipes, len(ROWS))


def receive(pipes: Pipes, count: int) -> bytes:
    """Read this number of replies; return the last bytes."""
    last = b""
    while count > 0:
        chunk = os.read(pipes.read, 1 << 20)
        if not chunk:
            raise RuntimeError(f"{count} replies are missing")
        count -= chunk.count(b"\n")
        last = (last + chunk)[-400:]
    return last


def write_all(pipes: Pipes, text: bytes) -> None:
    rest = memoryview(text)
    while rest:
        rest = rest[os.write(pipes.write, rest[: 1 << 16]) :]


def lines_a_second(pipes: Pipes, text: bytes) -> float:
    """Return the lines a second of one client that sends without waiting."""
    count, begun = text.count(b"\n"), time.perf_counter()
    sender = Thread(target=write_all, args=(pipes, text))
    sender.start()
    last = receive(pipes, count)
    seconds = time.perf_counter() - begun
    sender.join()
    number = int(last.splitlines()[-1].split()[1])
    if number != count + len(ROWS):
        raise RuntimeError(f"the last reply's number is {number}")
    return count / seconds


def times_of_requests(pipes: Pipes, line: bytes, count: int) -> list[float]:
    """Return the times of one client that waits for each reply."""
    found = []
    for _ in range(count):
        begun = time.perf_counter()
        os.write(pipes.write, line)
        receive(pipes, 1)
        found.append(time.perf_counter() - begun)
    return found


def requests_a_second(path: Path, count: int) -> tuple[float, float]:
    """Run clients that wait for each reply; return the requests a second of all, and the median of a request."""
    poll, times = select.epoll(), list[float]()
    clients: dict[int, socket.socket] = {}
    sent: dict[int, float] = {}
    for _ in range(CLIENTS):
        client = socket.socket(socket.AF_UNIX)
        client.connect(str(path))
        clients[client.fileno()] = client
        poll.register(client, select.EPOLLIN)
    begun, asked = time.perf_counter(), 0
    for number, client in clients.items():
        sent[number] = time.perf_counter()
        client.send(b"t show\n")
        asked += 1
    while len(times) < count:
        for number, _ in poll.poll():
            reply = clients[number].recv(4096)
            now = time.perf_counter()
            if reply.count(b"\n") != 1:
                raise RuntimeError(f"no single reply: {reply!r}")
            times.append(now - sent[number])
            if asked < count:
                asked += 1
                sent[number] = time.perf_counter()
                clients[number].send(b"t show\n")
    seconds = time.perf_counter() - begun
    for client in clients.values():
        client.close()
    return count / seconds, median(times)


def measure_lines(setup: Setup, text: bytes) -> Pair:
    def alone() -> float:
        with setup.alone() as pipes:
            return lines_a_second(pipes, text)

    def served() -> float:
        with setup.served() as path, connected(path) as pipes:
            return lines_a_second(pipes, text)

    return best(setup, alone, served, max)


def measure_median(setup: Setup, line: bytes, count: int) -> Pair:
    """Return the median of a request of one client that waits, in milliseconds."""

    def alone() -> float:
        with setup.alone() as pipes:
            return 1e3 * median(times_of_requests(pipes, line, count))

    def served() -> float:
        with setup.served() as path, connected(path) as pipes:
            return 1e3 * median(times_of_requests(pipes, line, count))

    return best(setup, alone, served, min)


def measure_replay(setup: Setup, text: bytes) -> Pair:
    """Return the lines a second of a replay: of firmd until it serves, of firm alone from file to file; both with
    their start."""
    count = text.count(b"\n")
    with tempfile.TemporaryDirectory(dir=setup.folder) as name:
        state, path, journal = Path(name) / "state", Path(name) / "socket", Path(name) / "journal.txt"
        with setup.daemon(state, path), connected(path) as pipes:
            sender = Thread(target=write_all, args=(pipes, text))
            sender.start()
            receive(pipes, count)
            sender.join()
        journal.write_bytes(text)

        def alone() -> float:
            with open(journal, "rb") as source, open(Path(name) / "replies", "wb") as replies:
                begun = time.perf_counter()
                subprocess.run([setup.program, "--roster", str(setup.roster)], stdin=source, stdout=replies, check=True)
                return count / (time.perf_counter() - begun)

        def served() -> float:
            begun = time.perf_counter()
            with setup.daemon(state, path) as ready:
                seconds = time.perf_counter() - begun
                if f" {count:,} lines replayed " not in ready:
                    raise RuntimeError(ready)
                return count / seconds

        return best(setup, alone, served, max)


def best(
    setup: Setup, alone: Callable[[], float], served: Callable[[], float], choose: Callable[[list[float]], float]
) -> Pair:
    runs = [Pair(alone(), served()) for _ in range(setup.repeats)]
    return Pair(choose([run.alone for run in runs]), choose([run.served for run in runs]))


def mixed(count: int) -> bytes:
    return text_of(MIXED) * (count // len(MIXED))


def numbered(form: list[str], count: int) -> bytes:
    """Return the rows, and then the form again and again, each time with the next number for its names."""
    lines = [line % number if "%" in line else line for number in range(count // len(form)) for line in form]
    return text_of(ROWS + lines)


def print_row(name: str, pair: Pair, shape: str, goal: str) -> None:
    load = os.getloadavg()[0]
    alone, part = (f"{pair.alone:{shape}}", f"{pair.served / pair.alone:.2f}") if pair.alone else ("", "")
    print(f"| {name} | {alone} | {pair.served:{shape}} | {part} | {goal} | {load:.1f} |", flush=True)


def main() -> int:
    parser = argparse.ArgumentParser(description=(__doc__ or "").splitlines()[0])
    parser.add_argument("--program", default=str(ROOT / "crates" / "firm" / "out" / "firm"))
    parser.add_argument("--folder", type=Path, default=Path("/dev/shm"))
    parser.add_argument("--lines", type=int, default=600_000)
    parser.add_argument("--requests", type=int, default=50_000)
    parser.add_argument("--repeats", type=int, default=3)
    options = parser.parse_args()
    print(f"{os.cpu_count()} processors; the load is that of the last minute\n")
    print("| | firm alone | firmd | firmd / firm | goal of firmd | load |\n| --- | ---: | ---: | ---: | ---: | ---: |")
    with tempfile.TemporaryDirectory(prefix="firmd-", dir=options.folder) as name:
        setup = Setup(options.program, Path(name), options.repeats)
        setup.roster.write_text(ROSTER)
        print_row("lines/s, one client that doesn't wait", measure_lines(setup, mixed(options.lines)), ",.0f", "50,000")
        runs = []
        for _ in range(options.repeats):
            with setup.served() as path:
                runs.append(requests_a_second(path, options.requests))
        rate, middle = max(runs)
        print_row(f"requests/s, {CLIENTS} clients that wait", Pair(0, rate), ",.0f", "10,000")
        print_row(f"a request's median, {CLIENTS} clients, ms", Pair(0, 1e3 * middle), ".3f", "")
        print_row(
            "a request's median, one client, ms",
            measure_median(setup, b"t show\n", options.requests // 10),
            ".3f",
            "0.5",
        )
        print_row(
            "a small round's median, one client, ms",
            measure_median(setup, b"t round\n", options.requests // 10),
            ".3f",
            "2",
        )
        print_row(
            "replay, lines/s, questions and refusals",
            measure_replay(setup, text_of(ROWS) + mixed(options.lines)),
            ",.0f",
            "half of firm's",
        )
        print_row(
            "replay, lines/s, tasks that come and go",
            measure_replay(setup, numbered(TASKS, options.lines)),
            ",.0f",
            "half of firm's",
        )
        print_row(
            "replay, lines/s, a round in five lines",
            measure_replay(setup, numbered(DAY, options.lines)),
            ",.0f",
            "half of firm's",
        )
    return 0


if __name__ == "__main__":
    sys.exit(main())
