"""Measure the times of the built firm_state for reading a state and writing it again, by parts.

usage: tools/run bench/states.py [--state FILE] [--kind KIND] [--tasks N] [--machines N] [--tenants N,..] [--repeats N]
A tenant of a kind of stream is brought to its first round, and its state is multiplied. Prints a table in Markdown of
times in milliseconds, each the median of some runs. `start` is that of a run without a state. `read` is the further
time to read and judge the text, measured by a text with a fault in its last line. `tenants` is the further time to open
the tenants and to write their state. `whole` is the whole run by the clock, `processor` its processor time. The exit
status is 1 if a state is not written as it was read.
"""

from __future__ import annotations

import argparse
import resource
import statistics
import subprocess
import tempfile
import time
from pathlib import Path
from typing import NamedTuple, Sequence

from shared import CannotRun, TENANT, built, kinds, program_file, require, run_script

# The exit status for a faulty state.
FAULTY = 3
COLUMNS = ("tenants", "rows", "KiB", "start", "read", "tenants", "whole", "processor")


class Timed(NamedTuple):
    """The seconds of a run, by the clock and of the processor, and its output."""

    clock: float
    processor: float
    output: bytes


class MedianRun(NamedTuple):
    """The median of some runs, in seconds."""

    clock: float
    processor: float


def processor_seconds() -> float:
    """Return the processor time of the ended programs so far."""
    used = resource.getrusage(resource.RUSAGE_CHILDREN)
    return used.ru_utime + used.ru_stime


def timed(words: Sequence[str], status: int = 0) -> Timed:
    """Run once with no input; require this status."""
    before, begun = processor_seconds(), time.perf_counter()
    done = subprocess.run(words, stdin=subprocess.DEVNULL, capture_output=True)
    ended = time.perf_counter()
    require(done.returncode == status, f"{list(words)}: status {done.returncode}, {done.stderr!r}")
    return Timed(ended - begun, processor_seconds() - before, done.stdout)


def median_of(words: Sequence[str], repeats: int, status: int = 0) -> MedianRun:
    runs = [timed(words, status) for _ in range(repeats)]
    return MedianRun(statistics.median(run.clock for run in runs), statistics.median(run.processor for run in runs))


def rows_of_tenant(options: argparse.Namespace, folder: Path) -> list[str]:
    """Return the rows of the place of one tenant after the first round of a stream."""
    stream = kinds.make(options.kind, options.tasks, options.machines)
    (folder / "roster.csv").write_text(stream.roster)
    lines = "".join(f"{line}\n" for line in [*stream.parts[0], f"{TENANT} round"])
    done = subprocess.run(
        [options.state, "--roster", str(folder / "roster.csv")], input=lines.encode(), capture_output=True
    )
    if done.returncode:
        raise CannotRun(f"no state of the stream: {done.stderr!r}")
    return done.stdout.decode().splitlines()[1:-1]


def state_of(rows: list[str], tenants: int) -> str:
    """Return the state of tenants that differ in their names alone."""
    heading = f"tenant {TENANT} "
    many = [
        row.replace(heading, f"tenant {TENANT}{number} ") if row.startswith(heading) else row
        for number in range(tenants)
        for row in rows
    ]
    return "".join(f"{row}\n" for row in ["firm state 1", *many, f"rows {len(many)}"])


def cells(options: argparse.Namespace, text: str, tenants: int, folder: Path) -> list[str]:
    """Return the cells of the table for a state."""
    path, faulty = folder / "state", folder / "faulty"
    path.write_text(text)
    count = text.count("\n") - 2
    faulty.write_text(text.replace(f"\nrows {count}\n", f"\nrows {count + 1}\n"))
    words = [options.state, "--state"]
    require(timed([*words, str(path)]).output == text.encode(), "a state is written as another")
    start = median_of([options.state, "--version"], options.repeats)
    read = median_of([*words, str(faulty)], options.repeats, FAULTY)
    whole = median_of([*words, str(path)], options.repeats)
    steps = [start.clock, read.clock - start.clock, whole.clock - read.clock, whole.clock, whole.processor]
    return [str(tenants), f"{count:,}", f"{len(text) / 1024:,.0f}", *(f"{step * 1000:,.1f}" for step in steps)]


def main() -> int:
    parser = argparse.ArgumentParser(description=(__doc__ or "").splitlines()[0])
    parser.add_argument("--state", type=program_file, default=str(built("firm_state")), metavar="FILE")
    parser.add_argument("--kind", choices=kinds.KINDS, default="fresh")
    parser.add_argument("--tasks", type=int, default=3000)
    parser.add_argument("--machines", type=int, default=1000)
    parser.add_argument("--tenants", default="1,8,64", metavar="N,..")
    parser.add_argument("--repeats", type=int, default=9)
    options = parser.parse_args()
    print("| " + " | ".join(COLUMNS) + " |\n|" + " --: |" * len(COLUMNS), flush=True)
    with tempfile.TemporaryDirectory(prefix="firm-") as name:
        folder = Path(name)
        rows = rows_of_tenant(options, folder)
        for tenants in map(int, options.tenants.split(",")):
            found = cells(options, state_of(rows, tenants), tenants, folder)
            print("| " + " | ".join(found) + " |", flush=True)
    return 0


if __name__ == "__main__":
    run_script(main)
