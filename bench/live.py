"""Measure the built program's times for a live client, which holds its input open: a line, a round, and idle time.

usage: tools/run bench/live.py [--program FILE] [--beside FILE] [--workers 1,2,8] [--rounds N] [--paused N]
                               [--seconds S] [--repeats R] [--keep]
Times are from the write of a line to its last reply, by the clock on the wall: the median and the 90th percentile, of
the best of R runs; beside them the processor time of the service for each. With `--beside` another built program is
measured in turn with it. A round is one of no tasks. If no reply to it comes in two seconds without a further line,
there is no figure.
"""

from __future__ import annotations

import argparse
import os
import select
import subprocess
import tempfile
import time
from dataclasses import dataclass
from functools import partial
from pathlib import Path
from statistics import median
from typing import NamedTuple, Sequence

import results
from shared import BUILT, opened, program_file, run_script

ROSTER = "tenant,nodes,arcs,life,spread,churn\nt,4096,65536,1099511627776,1,2\n"
LIMIT_SECONDS = 2
# A pause in which the service goes to sleep, and one before the first measurement.
PAUSE_SECONDS = 0.02
SETTLING_SECONDS = 0.3


@dataclass(frozen=True)
class Options:
    program: str
    beside: str | None
    workers: str
    rounds: int
    paused: int
    seconds: float
    repeats: int
    keep: bool

    def programs(self) -> list[str]:
        return [self.program, *([self.beside] if self.beside else [])]


class Request(NamedTuple):
    """The name of a measurement, its lines, the number of replies, and whether a pause stands before each."""

    name: str
    text: bytes
    replies: int
    is_paused: bool


REQUESTS = [
    Request("`show`", b"t show\n", 1, False),
    Request("`show`, each after 20 ms", b"t show\n", 1, True),
    Request("`round`", b"t round\n", 1, False),
    Request("`round`, each after 20 ms", b"t round\n", 1, True),
    Request("`round` and a line that waits", b"t round\nt show\n", 2, False),
    Request("`round` and a line that waits, after 20 ms", b"t round\nt show\n", 2, True),
]


class Figures(NamedTuple):
    """Microseconds: the median, the 90th percentile, and the processor time of each."""

    median: float
    ninetieth: float
    processor: float


class Silent(Exception):
    """Signals that no reply came in time."""


class Served:
    """A program over pipes, for one tenant."""

    def __init__(self, built: str, roster: Path, workers: str) -> None:
        words = [built, "--roster", str(roster), "--workers", workers]
        self.process = subprocess.Popen(words, bufsize=0, stdin=subprocess.PIPE, stdout=subprocess.PIPE)
        self.input, self.output = opened(self.process.stdin), opened(self.process.stdout)
        self.seconds_of(REQUESTS[0])
        time.sleep(SETTLING_SECONDS)

    def __enter__(self) -> Served:
        return self

    def __exit__(self, *_: object) -> None:
        self.input.close()
        self.process.wait()
        self.output.close()

    def seconds_of(self, request: Request) -> float:
        """Return the time until the replies are there."""
        begun, left = time.perf_counter(), request.replies
        self.input.write(request.text)
        while left:
            if not select.select([self.output], [], [], LIMIT_SECONDS)[0]:
                raise Silent
            left -= os.read(self.output.fileno(), 65536).count(b"\n")
        return time.perf_counter() - begun

    def processor_seconds(self) -> float:
        """Return the processor time of all its threads so far."""
        times = Path(f"/proc/{self.process.pid}/task").glob("*/schedstat")
        return sum(int(text.read_text().split()[0]) for text in times) / 1e9


def measure(served: Served, request: Request, count: int) -> Figures | None:
    """Return the figures of a repeated request; None without a reply."""
    before, times = served.processor_seconds(), []
    try:
        for _ in range(count):
            if request.is_paused:
                time.sleep(PAUSE_SECONDS)
            times.append(served.seconds_of(request))
    except Silent:
        return None
    spent = served.processor_seconds() - before
    return Figures(1e6 * median(times), 1e6 * sorted(times)[len(times) * 9 // 10], 1e6 * spent / count)


def best(runs: Sequence[Figures | None]) -> Figures | None:
    """Return the run with the least median; None if a run has none."""
    known = [figures for figures in runs if figures is not None]
    return min(known) if len(known) == len(runs) else None


def cells(figures: Figures | None) -> str:
    return " | ".join(["none"] * len(Figures._fields) if figures is None else [f"{each:,.0f}" for each in figures])


def print_requests(options: Options, roster: Path) -> None:
    programs = options.programs()
    more = " | ".join(["median, µs | 90th percentile, µs | processor, µs"] * len(programs))
    print(f"| workers | | {more} |\n| ---: | --- |{' ---: |' * (len(Figures._fields) * len(programs))}")
    for workers in options.workers.split(","):
        for request in REQUESTS:
            count = options.paused if request.is_paused else options.rounds
            runs: list[list[Figures | None]] = [[] for _ in programs]
            for _ in range(options.repeats):
                for built, found in zip(programs, runs):
                    with Served(built, roster, workers) as served:
                        found.append(measure(served, request, count))
            row = " | ".join(cells(best(found)) for found in runs)
            print(f"| {workers} | {request.name} | {row} |", flush=True)


def idle_part(served: Served, seconds: float) -> float:
    """Return the part of a processor that an idle service takes, in hundredths."""
    before = served.processor_seconds()
    time.sleep(seconds)
    return 100 * (served.processor_seconds() - before) / seconds


def print_idle(options: Options, roster: Path) -> None:
    programs = options.programs()
    more = " | ".join(["% of a processor"] * len(programs))
    print(f"\n| workers, idle for {options.seconds:g} s | {more} |\n| ---: |{' ---: |' * len(programs)}")
    for workers in options.workers.split(","):
        parts: list[list[float]] = [[] for _ in programs]
        for _ in range(options.repeats):
            for built, found in zip(programs, parts):
                with Served(built, roster, workers) as served:
                    found.append(idle_part(served, options.seconds))
        print(f"| {workers} | {' | '.join(f'{min(found):.2f}' for found in parts)} |", flush=True)


def read_options() -> Options:
    parser = argparse.ArgumentParser(description=(__doc__ or "").splitlines()[0])
    parser.add_argument("--program", type=program_file, default=str(BUILT))
    parser.add_argument("--beside", type=program_file, help="another built program")
    parser.add_argument("--workers", default="1,2,8")
    parser.add_argument("--rounds", type=int, default=2000, help="lines and rounds without a pause")
    parser.add_argument("--paused", type=int, default=200, help="lines and rounds with a pause before each")
    parser.add_argument("--seconds", type=float, default=5, help="seconds of the idle service")
    parser.add_argument("--repeats", type=int, default=3)
    parser.add_argument("--keep", action="store_true", help=results.HELP)
    return Options(**vars(parser.parse_args()))


def show(options: Options) -> int:
    """Measure and print; return the exit status."""
    print(f"load before: {os.getloadavg()[0]:.1f} on {os.cpu_count()} processors\n")
    with tempfile.TemporaryDirectory(prefix="firm-") as folder:
        roster = Path(folder) / "roster.csv"
        roster.write_text(ROSTER)
        print_requests(options, roster)
        print_idle(options, roster)
    print(f"\nload after: {os.getloadavg()[0]:.1f}")
    return 0


def main() -> int:
    options = read_options()
    return results.show_and_keep("live", options.keep, partial(show, options))


if __name__ == "__main__":
    run_script(main)
