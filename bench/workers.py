"""Measure rounds a second of the built program with some numbers of workers.

usage: tools/run bench/workers.py [--program FILE] [--beside FILE] [--measure FILE] [--workers 1,2,4] [--tenants N]
                        [--size 500x100] [--rounds N] [--repeats R] [--keep]
Each tenant has a full cold book and requests its rounds in turn with the others, from a file to a file: the best of R
runs, less a run that only adds the rows, by the clock on the wall and by processor time. With each number of workers
the output must be the same, and that of `firm_explain measure`, on one thread, if it is built; the exit status is 1 if
one differs. With `--beside` another built program is measured in turn with it. Each row of the table is written as a
line of JSON to out/bench/workers.jsonl. bench/live.py measures a client's view, and an idle service.
"""

from __future__ import annotations

import argparse
import os
import resource
import subprocess
import tempfile
import time
from dataclasses import dataclass
from functools import partial
from pathlib import Path
from typing import NamedTuple

import kept
import results
from kept import RateRecord
from shared import BUILT, EXPLAIN, measuring, program_file, read_size, run_script

HEADING = "tenant,nodes,arcs,life,spread,churn\n"
TABLE = """\
| program | workers | rounds a second | times the first | processor time a round, ms |
| --- | ---: | ---: | ---: | ---: |"""


@dataclass(frozen=True)
class Options:
    program: str
    beside: str | None
    measure: str
    workers: str
    tenants: int
    size: tuple[int, int]
    rounds: int
    repeats: int
    keep: bool


class Service(NamedTuple):
    """A program, the number of its workers, and the command that starts it."""

    name: str
    workers: int | None  # None: it serves on one thread
    command: list[str]


class Spent(NamedTuple):
    """The time of a run by the clock on the wall, its processor time, and the output."""

    wall: float
    processor: float
    output: bytes


def roster(tenants: list[str]) -> str:
    return HEADING + "".join(f"{name},4096,65536,1099511627776,1,2\n" for name in tenants)


def opening(name: str, tasks: int, machines: int) -> list[str]:
    """Return the lines that add a tenant's rows: a tenth more slots than tasks."""
    slots = max(1, -(-11 * tasks // (10 * machines)))
    lines = [f"{name} machine m{place} {slots}" for place in range(machines)]
    lines += [f"{name} job j{place} {10 + place}" for place in range(10)]
    return lines + [f"{name} task j{place % 10} t{place}" for place in range(tasks)]


class Inputs:
    """The roster and the two inputs, in files of a folder: the rows alone, and rounds after them."""

    def __init__(self, folder: Path, options: Options) -> None:
        names = [f"t{place}" for place in range(options.tenants)]
        rows = [line for name in names for line in opening(name, *options.size)]
        rounds = [f"{name} round" for _ in range(options.rounds) for name in names]
        self.count, self.roster = len(rounds), folder / "roster.csv"
        self.rows, self.all = folder / "rows", folder / "all"
        self.roster.write_text(roster(names))
        self.rows.write_text("\n".join(rows) + "\n")
        self.all.write_text("\n".join(rows + rounds) + "\n")


def run(command: list[str], path: Path) -> Spent:
    before, begun = resource.getrusage(resource.RUSAGE_CHILDREN), time.monotonic()
    with open(path) as source:
        done = subprocess.run(command, stdin=source, stdout=subprocess.PIPE, check=True)
    wall, after = time.monotonic() - begun, resource.getrusage(resource.RUSAGE_CHILDREN)
    return Spent(wall, after.ru_utime + after.ru_stime - before.ru_utime - before.ru_stime, done.stdout)


def best_of(commands: list[list[str]], repeats: int, path: Path) -> list[Spent]:
    """Return for each command the least times of some runs, taken in turn, and its output."""
    found = [[run(command, path) for command in commands] for _ in range(repeats)]
    return [
        Spent(min(spent.wall for spent in runs), min(spent.processor for spent in runs), runs[0].output)
        for runs in zip(*found)
    ]


def services_of(options: Options) -> list[Service]:
    single = Service("firm_explain measure", None, measuring(options.measure))
    found = [single] if Path(options.measure).exists() else []
    for name, program in (("firm", options.program), ("beside", options.beside)):
        if program:
            counts = options.workers.split(",")
            found += [Service(name, int(workers), [program, "--workers", workers]) for workers in counts]
    return found


def measure(options: Options, folder: Path) -> tuple[list[RateRecord], bool]:
    """Return the rate of each service, and whether all outputs were the same."""
    inputs, services = Inputs(folder, options), services_of(options)
    commands = [[*service.command, "--roster", str(inputs.roster)] for service in services]
    rows, whole = (best_of(commands, options.repeats, path) for path in (inputs.rows, inputs.all))
    records = []
    for service, before, spent in zip(services, rows, whole):
        rate = inputs.count / (spent.wall - before.wall)
        processor = (spent.processor - before.processor) / inputs.count
        records.append(RateRecord(service.name, service.workers, options.tenants, *options.size, rate, processor))
    return records, len({spent.output for spent in whole}) == 1


def print_rates(records: list[RateRecord]) -> None:
    """Print a row for each service."""
    print(TABLE)
    for record in records:
        workers = "none" if record.workers is None else str(record.workers)
        cells = [f"{record.rate:,.0f}", f"{record.rate / records[0].rate:.2f}", f"{1000 * record.processor:.3f}"]
        print("| " + " | ".join([record.program, workers, *cells]) + " |")


def read_options() -> Options:
    parser = argparse.ArgumentParser(description=(__doc__ or "").splitlines()[0])
    parser.add_argument("--program", type=program_file, default=str(BUILT))
    parser.add_argument("--beside", type=program_file, help="another built program")
    measure = "the built firm_explain; left out where it is not there"
    parser.add_argument("--measure", default=str(EXPLAIN), help=measure)
    parser.add_argument("--workers", default="1,2,4")
    parser.add_argument("--tenants", type=int, default=8)
    parser.add_argument("--size", type=read_size, default="500x100", help="tasks and machines of a tenant")
    parser.add_argument("--rounds", type=int, default=50, help="rounds of each tenant")
    parser.add_argument("--repeats", type=int, default=3)
    parser.add_argument("--keep", action="store_true", help=results.HELP)
    return Options(**vars(parser.parse_args()))


def show(options: Options) -> int:
    """Measure and print; return the exit status."""
    print(f"load before: {os.getloadavg()[0]:.1f} on {os.cpu_count()} processors\n")
    with tempfile.TemporaryDirectory(prefix="firm-") as name:
        records, is_alike = measure(options, Path(name))
    print_rates(records)
    with kept.begin(kept.RATES) as file:
        kept.keep(file, records)
    print(f"\nload after: {os.getloadavg()[0]:.1f}" + ("" if is_alike else "; DIFFERENT outputs"))
    return 0 if is_alike else 1


def main() -> int:
    options = read_options()
    return results.show_and_keep("workers", options.keep, partial(show, options))


if __name__ == "__main__":
    run_script(main)
