"""Measure a small tenant's reply time beside large neighbours, by a client that holds its input open.

usage: tools/run bench/neighbours.py [--program FILE] [--beside FILE] [--workers N] [--kind crowded] [--size 2500x700]
                           [--tenants N] [--repeats R] [--usual] [--keep]
Lines are written at once: a round of tenant `a`, which is small, followed by lines of others. Times are from the write
to a's reply, by the clock on the wall: the least, the median and the 90th percentile. In the last row a large tenant's
round, and a line that waits for it, stand before another's round, whose reply is timed. Each is of a new service, in
which the rounds of the large tenants are their first. With `--beside` another built program is measured by turns with
it.

The client has a priority above all others, so that a time ends once the service has written the reply. With `--usual`
it has the usual one: then a time also has the client's own wait for a processor, since a kernel may wake it after a
worker that solves a large tenant's round. The service has the usual priority in both.
"""

from __future__ import annotations

import argparse
import os
import select
import subprocess
import tempfile
import time
from dataclasses import dataclass
from functools import partial
from pathlib import Path
from statistics import median
from typing import NamedTuple

import results
from shared import BUILT, TENANT, CannotRun, kinds, opened, program_file, read_size, run_script

SMALL_LINES = ["a machine m 2", "a job j 10", "a task j t", "a round"]
LIMIT_SECONDS = 20
# Their replies fit into a pipe, so that rows can be written before any is read.
LINES_AT_ONCE = 500


@dataclass(frozen=True)
class Options:
    program: str
    beside: str | None
    workers: int
    kind: str
    size: tuple[int, int]
    tenants: int
    repeats: int
    is_usual: bool
    keep: bool


class Case(NamedTuple):
    """A case's name, its number of workers, the lines that are written at once, and the tenant whose first reply is
    timed."""

    name: str
    workers: int
    lines: list[str]
    whose: str = "a"


class Large(NamedTuple):
    """A large tenant's opening: the roster's heading, its row and its lines, each after its name."""

    heading: str
    row: str
    lines: list[str]


def large_tenant(options: Options) -> Large:
    stream = kinds.make(options.kind, *options.size)
    heading, row = stream.roster.split()
    return Large(heading, row.removeprefix(TENANT), [line.removeprefix(TENANT) for line in stream.parts[0]])


class Served:
    """A program over pipes, with one small tenant and large ones."""

    def __init__(self, built: str, workers: int, names: list[str], large: Large, folder: Path) -> None:
        roster = folder / "roster.csv"
        roster.write_text("\n".join([large.heading, *(name + large.row for name in ["a", *names])]) + "\n")
        words = [built, "--roster", str(roster), "--workers", str(workers)]
        self.process = subprocess.Popen(words, bufsize=0, stdin=subprocess.PIPE, stdout=subprocess.PIPE)
        self.input, self.output = opened(self.process.stdin), opened(self.process.stdout)
        self.seconds_of(SMALL_LINES, "a")
        for name in names:
            lines = [name + line for line in large.lines]
            for at in range(0, len(lines), LINES_AT_ONCE):
                self.seconds_of(lines[at : at + LINES_AT_ONCE], name)

    def __enter__(self) -> Served:
        return self

    def __exit__(self, *_: object) -> None:
        self.input.close()
        self.process.wait()
        self.output.close()

    def seconds_of(self, lines: list[str], name: str) -> float:
        """Return the time from the write of these lines to the first reply of this tenant. All replies are read."""
        begun, left, text, found = time.perf_counter(), len(lines), b"", None
        self.input.write("".join(f"{line}\n" for line in lines).encode())
        while left:
            if not select.select([self.output], [], [], LIMIT_SECONDS)[0]:
                raise TimeoutError(f"no reply to {lines[-left]!r}")
            piece = os.read(self.output.fileno(), 65536)
            left -= piece.count(b"\n")
            text += piece
            if found is None and any(line.startswith(f"{name} ".encode()) for line in text.split(b"\n")[:-1]):
                found = time.perf_counter() - begun
        assert found is not None, lines
        return found


def cases(options: Options) -> list[Case]:
    large = [f"b{place}" for place in range(options.tenants)]
    return [
        Case("`a round`", options.workers, ["a round"]),
        Case("`a round`, `b round`", options.workers, ["a round", "b0 round"]),
        Case("`a round`, `b round`, `b costs`", options.workers, ["a round", "b0 round", "b0 costs"]),
        Case(f"`a round` and {options.tenants} tenants' rounds", 1, ["a round", *(f"{b} round" for b in large)]),
        Case("`b round`, `b costs`, `c round`", options.workers, ["b0 round", "b0 costs", "c round"], "c"),
    ]


def measure(built: str, case: Case, large: Large, folder: Path) -> float:
    names = sorted({line.split()[0] for line in case.lines} - {"a"})
    with Served(built, case.workers, names, large, folder) as served:
        return served.seconds_of(case.lines, case.whose)


def cells(times: list[float]) -> str:
    ordered = sorted(times)
    return " | ".join(f"{1000 * each:.2f}" for each in (ordered[0], median(ordered), ordered[len(ordered) * 9 // 10]))


def run_first() -> None:
    """Give this process, and those that it starts, priority over those of the usual priority from now on."""
    try:
        os.sched_setscheduler(0, os.SCHED_FIFO | os.SCHED_RESET_ON_FORK, os.sched_param(1))
    except PermissionError:
        raise CannotRun("the client may not raise its priority: only --usual can be measured") from None


def show(options: Options) -> int:
    """Measure and print; return the exit status."""
    if not options.is_usual:
        run_first()
    programs = [options.program, *([options.beside] if options.beside else [])]
    tasks, machines = options.size
    print(f"load before: {os.getloadavg()[0]:.1f} on {os.cpu_count()} processors; {options.kind} {tasks}x{machines}")
    print(f"The client has {'the usual' if options.is_usual else 'a higher'} priority.\n")
    print("| written at once | workers |" + " least, ms | median, ms | 90th percentile, ms |" * len(programs))
    print("| --- | ---: |" + " ---: | ---: | ---: |" * len(programs))
    large = large_tenant(options)
    with tempfile.TemporaryDirectory(prefix="firm-") as folder:
        for case in cases(options):
            times: list[list[float]] = [[] for _ in programs]
            for _ in range(options.repeats):
                for built, found in zip(programs, times):
                    found.append(measure(built, case, large, Path(folder)))
            print(f"| {case.name} | {case.workers} | {' | '.join(map(cells, times))} |", flush=True)
    print(f"\nload after: {os.getloadavg()[0]:.1f}")
    return 0


def read_options() -> Options:
    parser = argparse.ArgumentParser(description=(__doc__ or "").splitlines()[0])
    parser.add_argument("--program", type=program_file, default=str(BUILT))
    parser.add_argument("--beside", type=program_file, help="another built program")
    parser.add_argument("--workers", type=int, default=2)
    parser.add_argument("--kind", choices=list(kinds.KINDS), default="crowded", help="kind of the large tenants' rows")
    parser.add_argument("--size", type=read_size, default="2500x700", help="tasks and machines of a large tenant")
    parser.add_argument("--tenants", type=int, default=12, help="number of large tenants in the last row")
    parser.add_argument("--repeats", type=int, default=20)
    parser.add_argument("--usual", dest="is_usual", action="store_true", help="give the client the usual priority")
    parser.add_argument("--keep", action="store_true", help=results.HELP)
    return Options(**vars(parser.parse_args()))


def main() -> int:
    options = read_options()
    return results.show_and_keep("neighbours", options.keep, partial(show, options))


if __name__ == "__main__":
    run_script(main)
