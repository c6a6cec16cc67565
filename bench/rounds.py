"""Measure rounds of the built program, with LEMON's solvers, if installed, on the same networks beside it.

usage: tools/run bench/rounds.py [--program FILE] [--measure FILE] [--beside FILE] [--sizes 100x20,..]
                                 [--kinds fresh,..] [--tenants N] [--repeats N] [--seeds 1,2,..] [--all-rounds]
                                 [--last] [--keep] [--search] [--single]
Prints tables in Markdown and writes each round as a line of JSON to out/bench/rounds.jsonl; with `--search`, which
times rounds found by searches alone, to out/bench/searched.jsonl. Every placement is checked to be legal and to cost
what the reply says, and that cost against LEMON's optimum; the exit status is 1 if one is wrong. Each stream is drawn
by five seeds, as the numbers of one say little: tables show the worst of them, and the ranges of the ratios.

Several tenants have the same stream and request its rounds at once: as many as have 3,000 tasks together, 64 at most. A
round's time, with one worker, is the processor time of all threads of the program from the first of these lines to the
last reply, divided by the number of tenants: the least of some runs. It includes the ways of the line, to the worker
and back, the choice, the changes and their text. A single round (`--tenants 1`) takes longer, by the looks of the
threads that wait for it before they sleep. With `--search` there is one tenant, from file to file. LEMON's time is
`run()` of `NetworkSimplex` and `CostScaling` on the same network, without building it (as long again or less) or
choosing among equal costs: the least of three times after each of firm's runs. Looks are exact.
"""

from __future__ import annotations

import argparse
import os
import sys
import tempfile
from dataclasses import dataclass
from functools import partial
from itertools import product
from typing import Callable, Iterable, TextIO

import kept
import results
from kept import RoundRecord
from measure import Subjects, build_lemon, read_counts, time_stream
from shared import BUILT, EXPLAIN, CannotRun, Missed, kinds, measuring, program_file, run_script

SIZES = "100x20,500x100,2000x500,3000x1000"
SEEDS = "1,2,3,4,5"
ONE_WORKER = ("--workers", "1")
MAX_TASKS = 3_000  # of all tenants together, so that their rows fit a processor's caches, as LEMON's network does
MAX_TENANTS = 64


@dataclass(frozen=True)
class Options:
    program: str
    measure: str
    beside: str | None
    sizes: str
    kinds: str
    tenants: int | None
    repeats: int
    seeds: str
    all_rounds: bool
    last: bool
    keep: bool
    search: bool
    single: bool

    @property
    def kept(self) -> str:
        """Return the file of the records."""
        return kept.SEARCHED if self.search else kept.ROUNDS

    def tenants_at(self, tasks: int) -> int:
        """Return the number of tenants with a stream of this many tasks."""
        if self.search:
            return 1
        return self.tenants or max(1, min(MAX_TENANTS, MAX_TASKS // tasks))


def row(record: RoundRecord, timed: Iterable[str]) -> str:
    """Return the record as a row of the table, with these of its times."""
    cells = [record.kind, record.size, str(record.round + 1), str(record.tasks), str(record.arcs)]
    cells += [f"{record.searches:,}", f"{record.looks:,}", f"{record.proposed:,}"]
    cells += [f"{record.all_looks / record.arcs:.1f}"]
    cells += [milliseconds(record.times()[name]) for name in timed]
    return "| " + " | ".join([*cells, "" if record.ratio is None else f"{record.ratio:.2f}"]) + " |"


def milliseconds(seconds: float | None) -> str:
    if seconds is None:
        return ""
    return f"{seconds * 1000:,.0f}" if seconds >= 0.1 else f"{seconds * 1000:.3g}"


def words_of(options: Options) -> tuple[list[str], list[str]]:
    """Return the first words of the program whose rounds are timed, and of the one that counts."""
    measure = measuring(options.measure)
    if options.search:
        return [*measure, "--search"], [*measure, "--search"]
    if options.single:
        return measure, measure
    return [options.program, *ONE_WORKER], measure


def measure_stream(options: Options, lemon: str | None, kind: str, size: str, seed: int) -> list[RoundRecord]:
    """Return a record for each round of a stream."""
    tasks, machines = kinds.read_size(size)
    stream = kinds.make(kind, tasks, machines, seed)
    served, measure = words_of(options)
    programs = [served, *([[options.beside, *ONE_WORKER]] if options.beside else [])]
    records, counts = [], read_counts(measure, stream)
    subjects = Subjects(programs, options.tenants_at(tasks), lemon, read_whole=options.search)
    for place, timed in enumerate(time_stream(subjects, stream, options.repeats)):
        firm, *beside = timed.programs
        record = RoundRecord(
            kind=kind,
            size=size,
            round=place,
            tasks=timed.round.tasks,
            arcs=timed.round.arcs,
            cost=timed.round.cost,
            searches=counts[place].searches,
            looks=counts[place].looks,
            proposed=counts[place].proposed,
            firm=firm,
            beside=beside[0] if beside else None,
            seed=seed,
            **timed.solvers,
        )
        records.append(record)
    return records


def worst(records: list[RoundRecord]) -> RoundRecord:
    """Return the record of the worst ratio, or of the longest time without LEMON's."""
    return max(records, key=lambda record: (record.ratio or 0, record.firm))


def split(found: list[RoundRecord]) -> tuple[list[RoundRecord], list[RoundRecord]]:
    """Return the cold rounds, and those that follow."""
    return [record for record in found if record.round == 0], [record for record in found if record.round > 0]


def span(ratios: list[float]) -> str:
    """Return the least and the greatest, if these differ."""
    found = [f"{ratio:.2f}" for ratio in (min(ratios, default=0.0), max(ratios, default=0.0))]
    return " to ".join(dict.fromkeys(found)) if ratios else ""


def names_of(found: Iterable[str]) -> list[str]:
    """Return the names, each once, in the order of their first occurrences."""
    return list(dict.fromkeys(found))


def print_table(records: list[RoundRecord], sizes: list[str], all_rounds: bool) -> None:
    """Print a row for each kind's worst cold round, and for the worst that follows, of all seeds."""
    timed = [name for name, seconds in records[0].times().items() if seconds is not None]
    heads = ("kind", "size", "round", "tasks", "arcs", "searches", "looks", "proposed", "looks / arc")
    print("| " + " | ".join(heads) + " | " + "".join(f"{name} ms | " for name in timed) + "firm / faster |")
    print("| --- | --- |" + " ---: |" * (len(timed) + len(heads) - 1))
    for size in reversed(sizes):
        for kind in names_of(record.kind for record in records):
            found = [record for record in records if (record.kind, record.size) == (kind, size)]
            cold, later = split(found)
            shown = found if all_rounds else [worst(cold)] + ([worst(later)] if later else [])
            for record in shown:
                print(row(record, timed))


def print_ratios(records: list[RoundRecord], sizes: list[str], of_each: Callable[[RoundRecord], float | None]) -> None:
    """Print by size a ratio of the cold round and the greatest of those that follow: its range over the seeds."""
    print("| kind | " + " | ".join(f"{size}, cold | later" for size in sizes) + " |")
    print("| --- |" + " ---: | ---: |" * len(sizes))
    for kind in names_of(record.kind for record in records):
        cells = []
        for size in sizes:
            found = [record for record in records if (record.kind, record.size) == (kind, size)]
            cold, later = split(found)
            cells.append(span([of_each(record) or 0 for record in cold]))
            seeds = dict.fromkeys(record.seed for record in later)
            cells.append(span([max(of_each(one) or 0 for one in later if one.seed == seed) for seed in seeds]))
        print(f"| {kind} | " + " | ".join(cells) + " |")


def print_growth(records: list[RoundRecord], sizes: list[str], of_each: Callable[[RoundRecord], float]) -> None:
    """Print the cold round's figure for each arc, by size, and its growth; of the worst seed."""
    print("| kind | " + " | ".join(sizes) + " | last / first |\n| --- |" + " ---: |" * (len(sizes) + 1))
    for kind in names_of(record.kind for record in records):
        cold = [record for record in records if record.kind == kind and record.round == 0]
        each = [max(of_each(record) / record.arcs for record in cold if record.size == size) for size in sizes]
        cells = [f"{it:,.1f}" for it in each] + [f"{each[-1] / each[0]:.1f}"]
        print(f"| {kind} | " + " | ".join(cells) + " |")


def print_tables(records: list[RoundRecord], all_rounds: bool) -> None:
    sizes = names_of(record.size for record in records)
    print_table(records, sizes, all_rounds)
    if records[0].ratio is not None:
        print("\nTimes of the program, as parts of those of LEMON's faster solver:\n")
        print_ratios(records, sizes, lambda record: record.ratio)
    if records[0].beside_ratio is not None:
        print("\nThe same of the other program:\n")
        print_ratios(records, sizes, lambda record: record.beside_ratio)
    print("\nMicroseconds of the cold round for each arc:\n")
    print_growth(records, sizes, lambda record: record.firm * 1e6)
    print("\nLooks of the cold round for each arc:\n")
    print_growth(records, sizes, lambda record: record.all_looks)


def measure_all(options: Options, lemon: str | None, file: TextIO) -> tuple[list[RoundRecord], int]:
    """Return the records of all streams, and the number of wrong streams."""
    records: list[RoundRecord] = []
    wrong = 0
    seeds = map(int, options.seeds.split(","))
    for size, kind, seed in product(options.sizes.split(","), options.kinds.split(","), seeds):
        try:
            found = measure_stream(options, lemon, kind, size, seed)
        except Missed as missed:
            wrong += 1
            print(f"WRONG: {kind} {size}, seed {seed}: {missed}", flush=True)
            continue
        records += found
        print(
            f"{kind} {size}, seed {seed}: " + ", ".join(milliseconds(each.firm) for each in found) + " ms",
            file=sys.stderr,
        )
        kept.keep(file, found)
    return records, wrong


def read_options() -> Options:
    parser = argparse.ArgumentParser(description=(__doc__ or "").splitlines()[0])
    parser.add_argument("--program", default=str(BUILT), help="the built program (default: %(default)s)")
    measure = "the built firm_explain, which counts what each round searched (default: %(default)s)"
    parser.add_argument("--measure", default=str(EXPLAIN), help=measure)
    beside = "another built program, as of an earlier state: equal output, and its times"
    parser.add_argument("--beside", type=program_file, help=beside)
    parser.add_argument("--sizes", default=SIZES)
    parser.add_argument("--kinds", default=",".join(kinds.KINDS))
    parser.add_argument("--tenants", type=int, help="number of tenants with the stream")
    parser.add_argument("--repeats", type=int, default=5)
    parser.add_argument("--seeds", default=SEEDS, help="runs of each stream (default: %(default)s)")
    parser.add_argument("--all-rounds", action="store_true", help="print a row for each round")
    parser.add_argument("--last", action="store_true", help="measure nothing, print the tables of the last run")
    parser.add_argument("--keep", action="store_true", help=results.HELP)
    search = "the rounds of the program that counts, found by searches alone"
    parser.add_argument("--search", action="store_true", help=search)
    single = "the rounds of the program that counts, which serves on one thread"
    parser.add_argument("--single", action="store_true", help=single)
    return Options(**vars(parser.parse_args()))


def show(options: Options) -> int:
    """Measure and print; return the exit status."""
    if options.last:
        print_tables(kept.read(options.kept, RoundRecord), options.all_rounds)
        return 0
    for path in (options.program, options.measure):
        if not os.access(path, os.X_OK):
            raise CannotRun(f"there is no program {path}")
    with tempfile.TemporaryDirectory(prefix="firm-") as folder, kept.begin(options.kept) as file:
        records, wrong = measure_all(options, build_lemon(folder), file)
    if records:
        print_tables(records, options.all_rounds)
    print(f"\n{len(records)} rounds, {wrong} streams wrong")
    return 1 if wrong else 0


def main() -> int:
    options = read_options()
    page = "searched" if options.search else "rounds"
    return results.show_and_keep(page, options.keep, partial(show, options))


if __name__ == "__main__":
    run_script(main)
