"""Check that the built program's rounds are the first of the least placements, beyond sizes that can be enumerated.

usage: tools/run tests/first.py [--program FILE] [--sizes 40x8,100x20] [--kinds fresh,..] [--seeds N]
Runs the streams of harness/kinds.py and gives each round to first.cc. For each choice that ranks before a task's own,
first.cc solves the rest anew by LEMON's network simplex. It needs a C++ compiler and LEMON (Debian's liblemon-dev). The
exit status is 1 if a round is wrong.
"""

from __future__ import annotations

import argparse
import subprocess
import tempfile
from concurrent.futures import ThreadPoolExecutor
from dataclasses import dataclass
from itertools import product
from pathlib import Path
from typing import NamedTuple

from harness import kinds, program
from harness.checks import compile_source, require, run_script
from harness.rows import hear, hear_round, open_rows
from harness.service import Tenant

HERE = Path(__file__).resolve().parent


@dataclass(frozen=True)
class Options(program.ProgramOptions):
    sizes: str
    kinds: str
    seeds: int


class Before(NamedTuple):
    """A task's row before a round: its machine, and the cost of leaving it waiting."""

    machine: str | None
    waiting_cost: int


def case_of(tenant: Tenant, rows: list[Before]) -> str:
    """Return a round as first.cc reads it: the rows before it, and each task's machine after it."""
    place: dict[str | None, int] = {name: number for number, name in enumerate(tenant.machines)}
    place[None] = -1
    limits = tenant.limits
    lines = [f"{len(tenant.machines)} {len(tenant.tasks)} {limits.spread} {limits.churn} {limits.remote}"]
    lines += [str(slots) for slots in tenant.machines.values()]
    for task, before in zip(tenant.tasks.values(), rows):
        preferred = [place[machine] for machine in task.preferred]
        numbers = [place[before.machine], before.waiting_cost, place[task.machine], len(preferred), *preferred]
        lines.append(" ".join(map(str, numbers)))
    return "\n".join(lines) + "\n"


def rounds_of(command: list[str], stream: kinds.Stream) -> list[str]:
    """Return the rounds of a stream, as cases."""
    text = "".join(line + "\n" for lines in stream.parts for line in [*lines, f"{kinds.TENANT} round"])
    with program.Roster(stream.roster.encode()) as roster:
        found = program.run(command, roster, text.encode())
    require(found.status == 0, f"{stream.kind}: status {found.status}, {found.faults!r}")
    replies = iter(found.output.decode().splitlines())
    tenant, cases = open_rows(stream.roster), []
    for lines in stream.parts:
        for line in lines:
            hear(tenant, line, next(replies))
        rows = [Before(task.machine, tenant.waiting_cost(task)) for task in tenant.tasks.values()]
        hear_round(tenant, next(replies))
        cases.append(case_of(tenant, rows))
    return cases


def read_options() -> Options:
    parser = argparse.ArgumentParser(description=(__doc__ or "").splitlines()[0])
    program.add_program(parser)
    program.add_under(parser)
    program.add_workers(parser)
    parser.add_argument("--sizes", default="40x8,100x20")
    parser.add_argument("--kinds", default=",".join(kinds.KINDS))
    parser.add_argument("--seeds", type=int, default=2)
    return Options(**vars(parser.parse_args()))


def main() -> int:
    options = read_options()
    checked = solved = wrong = 0
    seeds = range(1, options.seeds + 1)
    with tempfile.TemporaryDirectory(prefix="firm-") as folder, ThreadPoolExecutor(2) as pool:
        checker = str(Path(folder) / "first")
        compile_source(["g++", "-O2", "-std=c++14", "-w", "-o", checker, str(HERE / "first.cc")])

        def judge(case: str) -> subprocess.CompletedProcess[str]:
            return subprocess.run([checker], input=case, capture_output=True, text=True)

        for size, kind, seed in product(options.sizes.split(","), options.kinds.split(","), seeds):
            cases = rounds_of(options.command(), kinds.make(kind, *kinds.read_size(size), seed))
            for place, answer in enumerate(pool.map(judge, cases)):
                checked += 1
                if answer.returncode:
                    wrong += 1
                    print(f"WRONG: {kind} {size}, seed {seed}, round {place + 1}: {answer.stdout.strip()}", flush=True)
                else:
                    solved += int(answer.stdout.split()[2])
    print(f"{checked} rounds, {solved:,} networks solved, {wrong} wrong")
    return 1 if wrong else 0


if __name__ == "__main__":
    run_script(main)
