"""Compare the built program with the plain service of harness/service.py on random small streams and rosters.

usage: tools/run tests/compare.py [--program FILE] [--under COMMAND] [--workers N,..] [--streams N] [--rosters N]
                                  [--first SEED] [--tasks T] [--pieces] [--noise] [--ages]
Half of the streams open with a roster, the others with the plain service's state after some of the lines. Each
difference prints a line with its seed and is stored under out/tests. The exit status is 1 after a difference, or if 500
streams or more have hardly a start, a move, a preemption, an eviction, an opening of each kind, or an admission with a
patience, accepted or refused. `--streams 100000` takes a quarter of an hour of processor time.
"""

from __future__ import annotations

import argparse
import os
import random
from collections import Counter
from concurrent.futures import ProcessPoolExecutor
from dataclasses import dataclass
from functools import partial
from tempfile import TemporaryDirectory
from typing import NamedTuple

from harness import program, service
from harness.checks import run_script
from harness.small_streams import random_bad_roster, random_stream, with_noise


@dataclass(frozen=True)
class Options(program.ProgramOptions):
    streams: int
    rosters: int
    first: int
    tasks: int
    pieces: bool
    noise: bool
    ages: bool


@dataclass(frozen=True)
class Case:
    """Input of a run: a roster or a state, and lines. With a library, input and output go in pieces."""

    name: str
    opening: bytes
    text: bytes
    environment: program.Environment | None = None


Outcomes = Counter[str]  # count of each outcome of a line, change of a round, and kind of opening

# The least counts of these in 500 streams.
MANY_STREAMS = 500
LEAST_MET = {
    "start": 1000,
    "move": 50,
    "preempt": 200,
    "evict": 50,
    "opened by a roster of 6": 50,
    "opened by a roster of 7": 50,
    "opened by a roster of 8": 50,
    "opened by a plain state": 100,
    "opened by an extended state": 50,
    "admit 8: + ok admitted": 30,
    "admit 8: + no 22 operator-row": 150,
}


class Expected(NamedTuple):
    """Defined result of a run, and the count of each outcome in it."""

    run: program.Run
    outcomes: Outcomes


def expected(case: Case) -> Expected:
    try:
        found = service.opened(case.opening)
    except service.RosterFault as fault:
        faults = f"firm: roster fault {fault.code} {service.ROSTER_FAULTS[fault.code - 1]}\n"
        return Expected(program.Run(3, b"", faults.encode()), Counter([faults.strip()]))
    outcomes, replies = Counter([kind_of(case.opening, found)]), []
    for line in service.lines_of(case.text):
        reply = service.answer_line(found, line)
        if reply is not None:
            replies.append(reply + b"\n")
            outcomes.update(outcomes_of(line, reply.decode()))
    return Expected(program.Run(0, b"".join(replies), b""), outcomes)


def kind_of(opening: bytes, opened: service.Service) -> str:
    if service.is_state(opening):
        return f"opened by {'an extended' if opened.is_extended else 'a plain'} state"
    return f"opened by a roster of {len(service.records_of(opening)[0])}"


def outcomes_of(line: bytes, reply: str) -> Outcomes:
    """Count the outcomes in a reply; those of an admission also by its number of fields."""
    words = reply.split()
    outcome = words[2:5] if words[2:3] == ["no"] else words[2:4]
    if words[0] in "+!":
        outcome = words[:3] if words[:2] == ["+", "ok"] else words
    counts = Counter([" ".join(outcome).rstrip("0123456789 ")])
    counts.update(word for word in words if word in ("start", "move", "preempt"))
    if words[2:4] == ["ok", "evicted"]:
        counts["evict"] += int(words[4])
    match line.split():
        case b"+", b"admit", row:
            counts[f"admit {row.count(b',') + 1}: {' '.join(outcome)}"] += 1
    return counts


def check(options: Options, case: Case) -> Outcomes | None:
    """Return the outcomes of a run; None if that of some number of workers differs from the definitions."""
    wanted, outcomes = expected(case)
    for workers in options.workers.split(","):
        with program.opening(case.opening) as words:
            got = program.run_words([*options.command(workers), *words], case.text, case.environment)
        if got != wanted:
            tell_difference(case, workers, got, wanted)
            return None
    return outcomes


def tell_difference(case: Case, workers: str, got: program.Run, wanted: program.Run) -> None:
    """Report a run's difference from the definitions, and store its case."""
    kept = program.keep(case.name, case.opening, case.text)
    pairs = zip(got.output.split(b"\n"), wanted.output.split(b"\n"))
    lines = [(place, was, should) for place, (was, should) in enumerate(pairs) if was != should]
    print(
        f"DIFFERENT: {kept}, workers {workers or 'not named'}: status {got.status} for {wanted.status},"
        f" {got.faults!r} for {wanted.faults!r}; first line that differs: {lines[:1]}",
        flush=True,
    )


def check_stream(options: Options, library: str | None, seed: int) -> Outcomes | None:
    """Check a random stream, from a roster or from a state; with a library, in pieces of some size."""
    draw = random.Random(seed)
    opening, text = random_stream(draw, options.tasks)
    text = with_noise(draw, text) if options.noise else text
    if draw.random() < 0.5:
        opening, text = behind_some(draw, opening, text)
    pieces = {"READ_MOST": draw.choice("1 2 3 7 64 257 4095".split()), "WRITE_MOST": draw.choice("0 1 5 100".split())}
    environment = {"LD_PRELOAD": library, **pieces} if library else None
    return check(options, Case(f"stream-{seed}", opening, text, environment))


def behind_some(draw: random.Random, roster: bytes, text: bytes) -> tuple[bytes, bytes]:
    """Return the state after some of the lines, and the rest."""
    place = draw.choice([0, *(place + 1 for place, byte in enumerate(text) if byte == ord("\n"))])
    found = service.opened(roster)
    for line in service.lines_of(text[:place]):
        service.answer_line(found, line)
    return service.state_of(found), text[place:]


def check_roster(options: Options, seed: int) -> Outcomes | None:
    roster = random_bad_roster(random.Random(seed))
    return check(options, Case(f"roster-{seed}", roster, b"a0 show\n"))


def check_ages(options: Options, rounds: int = service.LONGEST_PATIENCE + 3) -> Outcomes | None:
    """Check a task that waits as long as its age can grow, and longer."""
    lines = ["a job j 5", "a task j x"] + ["a round"] * rounds
    lines += ["a where x", "a costs", "a machine m 1", "a round", "a where x", "a drain m", "a round", "a where x"]
    roster = b",".join(service.HEADING) + b"\na,5,9,1099511627776,0,0\n"
    return check(options, Case("ages", roster, "\n".join(lines).encode()))


def read_options() -> Options:
    parser = argparse.ArgumentParser(description=(__doc__ or "").splitlines()[0])
    program.add_program(parser)
    program.add_under(parser)
    workers = "the number of its workers, or several, each compared (default: the program's own)"
    parser.add_argument("--workers", default="", metavar="N,..", help=workers)
    parser.add_argument("--streams", type=int, default=5000)
    parser.add_argument("--rosters", type=int, default=500)
    parser.add_argument("--first", type=int, default=1, help="first seed of the streams")
    parser.add_argument("--tasks", type=int, default=6, help="most tasks of a tenant")
    parser.add_argument("--pieces", action="store_true", help="pieces of all sizes, by refuse.c; needs a C compiler")
    parser.add_argument("--noise", action="store_true", help="change some bytes in each stream; best with --tasks 4")
    parser.add_argument("--ages", action="store_true", help="also play a task that waits for 1,000,003 rounds")
    return Options(**vars(parser.parse_args()))


def main() -> int:
    options = read_options()
    counts: Outcomes = Counter()
    different = 0
    with TemporaryDirectory(prefix="firm-") as folder, ProcessPoolExecutor(max(1, (os.cpu_count() or 2) // 2)) as pool:
        library = program.build_refusing(folder) if options.pieces else None
        stream_seeds = range(options.first, options.first + options.streams)
        streams = pool.map(partial(check_stream, options, library), stream_seeds, chunksize=20)
        roster_seeds = range(options.first, options.first + options.rosters)
        rosters = pool.map(partial(check_roster, options), roster_seeds, chunksize=20)
        ages = [pool.submit(check_ages, options).result()] if options.ages else []
        for found in [*streams, *rosters, *ages]:
            counts.update(found or {})
            different += found is None
    print(f"{options.streams} streams and {options.rosters} rosters, {different} different")
    print(", ".join(f"{count} {outcome}" for outcome, count in sorted(counts.items())))
    rare = [outcome for outcome, least in LEAST_MET.items() if counts[outcome] < least]
    if rare and options.streams >= MANY_STREAMS:
        print(f"hardly met: {', '.join(rare)}")
        return 1
    return 1 if different else 0


if __name__ == "__main__":
    run_script(main)
