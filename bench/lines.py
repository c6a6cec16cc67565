"""Measure lines a second of the built program, and its memory over a long input.

usage: tools/run bench/lines.py [--program FILE] [--lines N] [--repeats R] [--bytes B] [--rates] [--single] [--keep]
It sends streams of refused adders, `show`, `where`, and all three in turn, for a tenant of 10 rows and for one of
4,000, from a file to a file. Times are processor times (user and system), the least of R runs, less those of a run that
only adds the rows; with valgrind, also instructions. Every output is checked: the exit status is 1 unless its last
number is the count of lines. With `--single` the program is a `firm_explain`, which measures on one thread; with
`--rates` only lines a second are measured.
"""

from __future__ import annotations

import argparse
import re
import resource
import shutil
import subprocess
import tempfile
from dataclasses import dataclass
from functools import partial
from pathlib import Path
from typing import NamedTuple

import results
from shared import BUILT, EXPLAIN, CannotRun, measuring, program_file, require, run_script

ROSTER = "tenant,nodes,arcs,life,spread,churn\nt,4096,65536,1099511627776,1,2\n"
TIME = "/usr/bin/time"
COUNTED_LINES = 20_000


class Book(NamedTuple):
    """Machines, jobs and tasks of a tenant."""

    machines: int
    jobs: int
    tasks: int


SMALL, LARGE = 10, 4000
BOOKS = {SMALL: Book(3, 2, 5), LARGE: Book(1000, 50, 2950)}
# Each line is refused or a query, so the rows stay as they are.
LINES = {
    "refused adders": ["t machine m1 2", "t job j1 5", "t task j1 t1"],
    "show": ["t show"],
    "where": ["t where t1", "t where t2", "t where t4"],
    "mixed": ["t machine m1 2", "t show", "t where t1", "t task j1 t1", "t where t3", "t job j1 5"],
}


@dataclass(frozen=True)
class Options:
    program: str | None
    lines: int
    repeats: int
    bytes: int
    rates: bool
    single: bool
    keep: bool


class Text(NamedTuple):
    """An input, and its number of commands."""

    text: str
    commands: int

    def __add__(self, other: object) -> Text:
        if not isinstance(other, Text):
            return NotImplemented
        return Text(self.text + other.text, self.commands + other.commands)


class Spent(NamedTuple):
    """Seconds of processor time, and the maximum of memory in kilobytes."""

    seconds: float
    kilobytes: int


def opening(rows: int) -> Text:
    """Return lines that add the rows of a tenant."""
    book = BOOKS[rows]
    lines = [f"t machine m{place} 3" for place in range(book.machines)]
    lines += [f"t job j{place} 100" for place in range(book.jobs)]
    lines += [f"t task j{place % book.jobs} t{place}" for place in range(book.tasks)]
    return Text("\n".join(lines) + "\n", len(lines))


def repeated(lines: list[str], count: int) -> Text:
    whole = "\n".join(lines) + "\n"
    return Text(whole * (count // len(lines)) + "".join(line + "\n" for line in lines[: count % len(lines)]), count)


class Bench:
    """Runs a program in a folder."""

    def __init__(self, options: Options, folder: Path) -> None:
        self.options, self.folder = options, folder
        (folder / "roster.csv").write_text(ROSTER)
        program = measuring(options.program or EXPLAIN) if options.single else [options.program or str(BUILT)]
        self.words = [*program, "--roster", str(folder / "roster.csv")]

    def run(self, commands: int) -> Spent:
        """Run the program on the file `input`; the last reply must have the number of the commands."""
        before = resource.getrusage(resource.RUSAGE_CHILDREN)
        with open(self.folder / "input") as source, open(self.folder / "output", "wb") as output:
            words = [TIME, "-f", "%M", *self.words]
            done = subprocess.run(words, stdin=source, stdout=output, stderr=subprocess.PIPE, text=True, check=True)
        after = resource.getrusage(resource.RUSAGE_CHILDREN)
        last = self.last_reply()
        require(last.split()[1] == str(commands), f"the last reply of {commands} is {last}")
        seconds = after.ru_utime + after.ru_stime - before.ru_utime - before.ru_stime
        return Spent(seconds, int(done.stderr))

    def last_reply(self) -> str:
        with open(self.folder / "output", "rb") as output:
            output.seek(0, 2)
            output.seek(max(0, output.tell() - 300))
            return output.read().splitlines()[-1].decode()

    def least(self, text: Text, repeats: int) -> Spent:
        """Return the least time of some runs on a text, and their maximum of memory."""
        (self.folder / "input").write_text(text.text)
        found = [self.run(text.commands) for _ in range(repeats)]
        return Spent(min(spent.seconds for spent in found), max(spent.kilobytes for spent in found))

    def instructions(self, text: Text) -> int:
        """Return the number of instructions of a run on a text, by valgrind's callgrind; no load changes it."""
        words = ["valgrind", "--tool=callgrind", "--callgrind-out-file=/dev/null", *self.words]
        done = subprocess.run(
            words, input=text.text, stdout=subprocess.DEVNULL, stderr=subprocess.PIPE, text=True, check=True
        )
        found = re.search(r"refs: *([0-9,]+)", done.stderr)
        require(found, f"callgrind gives no count: {done.stderr}")
        return int(found[1].replace(",", "")) if found else 0


def print_lines(bench: Bench) -> None:
    print("| lines | 10 rows, lines/s | 4,000 rows, lines/s | times slower |\n| --- | ---: | ---: | ---: |")
    count, repeats = bench.options.lines, bench.options.repeats
    bare = {rows: bench.least(opening(rows), repeats).seconds for rows in BOOKS}
    for name, lines in LINES.items():
        seconds = {}
        for rows in BOOKS:
            text = opening(rows) + repeated(lines, count)
            seconds[rows] = bench.least(text, repeats).seconds - bare[rows]
        cells = [f"{count / seconds[rows]:,.0f}" for rows in BOOKS]
        print(f"| {name} | {cells[0]} | {cells[1]} | {seconds[LARGE] / seconds[SMALL]:.2f} |", flush=True)


def print_instructions(bench: Bench) -> None:
    """Print instructions for a line, from runs on 20,000 lines less those that only add the rows."""
    heads = "| lines | 10 rows, instructions a line | 4,000 rows, instructions a line | times more |"
    print(f"\n{heads}\n| --- | ---: | ---: | ---: |")
    bare = {rows: bench.instructions(opening(rows)) for rows in BOOKS}
    for name, lines in LINES.items():
        each = {}
        for rows in BOOKS:
            whole = bench.instructions(opening(rows) + repeated(lines, COUNTED_LINES))
            each[rows] = (whole - bare[rows]) / COUNTED_LINES
        print(f"| {name} | {each[SMALL]:,.0f} | {each[LARGE]:,.0f} | {each[LARGE] / each[SMALL]:.2f} |", flush=True)


def print_memory(bench: Bench) -> None:
    """Print the maximum of memory for an input of many bytes, and for a hundredth of it."""
    line = sum(len(line) + 1 for line in LINES["mixed"]) / len(LINES["mixed"])
    print("\n| bytes of input | lines | seconds | most memory, kB |\n| ---: | ---: | ---: | ---: |")
    for size in (bench.options.bytes // 100, bench.options.bytes):
        text = opening(SMALL) + repeated(LINES["mixed"], int(size / line))
        spent = bench.least(text, 1)
        print(f"| {len(text.text):,} | {text.commands:,} | {spent.seconds:.2f} | {spent.kilobytes:,} |", flush=True)


def read_options() -> Options:
    parser = argparse.ArgumentParser(description=(__doc__ or "").splitlines()[0])
    parser.add_argument("--program", type=program_file)
    parser.add_argument("--lines", type=int, default=1_000_000)
    parser.add_argument("--repeats", type=int, default=5)
    parser.add_argument("--bytes", type=int, default=100_000_000)
    parser.add_argument("--rates", action="store_true", help="measure only lines a second")
    parser.add_argument("--single", action="store_true", help="measure a firm_explain, on one thread")
    parser.add_argument("--keep", action="store_true", help=results.HELP)
    return Options(**vars(parser.parse_args()))


def show(options: Options) -> int:
    """Measure and print; return the exit status."""
    if not Path(TIME).exists():
        raise CannotRun(f"it needs {TIME} (Debian's package time)")
    with tempfile.TemporaryDirectory(prefix="firm-") as folder:
        bench = Bench(options, Path(folder))
        print_lines(bench)
        if options.rates:
            return 0
        if shutil.which("valgrind"):
            print_instructions(bench)
        print_memory(bench)
    return 0


def main() -> int:
    options = read_options()
    return results.show_and_keep("lines", options.keep, partial(show, options))


if __name__ == "__main__":
    run_script(main)
