"""Serve ten million lines for 64 tenants, with rounds among them, and check every byte and the memory.

usage: tools/run tests/long_run.py [--program FILE] [--lines N] [--workers N,N,..]
The expected output comes from harness/service.py. The program's memory is measured a tenth of the way and at the end:
it must not have grown by more than a twentieth. With `--workers 1,2,8` there is a run for each number. The exit status
is 1 if the output differs or the memory grows.
"""

from __future__ import annotations

import argparse
import random
import subprocess
import time
from dataclasses import dataclass
from pathlib import Path
from typing import NamedTuple

from harness import program, service
from harness.checks import Missed, require, run_script

TENANTS = 64
MARK = "-mark-"
# A tenant's commands, repeated; {0} is a number that makes names differ from turn to turn.
CYCLE = [
    "machine a{0} 2",
    "job j{0} 9",
    "task j{0} x{0}",
    "task j{0} y{0}",
    "round",
    "where x{0}",
    "machine b 1",
    "task j{0} z{0}",
    "round",
    "show",
    "fly",
    "task j{0} x{0}",
    "drain a{0}",
    "round",
    "where z{0}",
    "done y{0}",
    "round",
    "costs",
    "done x{0}",
    "done z{0}",
    "close j{0}",
    "drain b",
    "show",
    "machine a{0} 65",
]


# Each turn ends without rows, and the third has eight costs before it: from then on all are alike.
TURNS = 3


@dataclass(frozen=True)
class Options(program.ProgramOptions):
    lines: int


def roster() -> bytes:
    rows = [f"t{place},12,40,1099511627776,{place % 7},{place % 5}" for place in range(TENANTS)]
    return b",".join(service.HEADING) + b"\n" + "\n".join(rows).encode() + b"\n"


class Cycle:
    """One tenant's commands, and the replies that the plain service gives to them."""

    def __init__(self, tenant: service.Tenant) -> None:
        self.name, self.given = tenant.name, 0
        lines = [line.format(MARK) for line in CYCLE]
        turns = [[self._text(tenant, line) for line in lines] for _ in range(TURNS + 1)]
        require(
            tenant.use() == (2, 0) and turns[TURNS - 1] == turns[TURNS], f"the turns of {tenant.name} go on changing"
        )
        self.turns = turns[:TURNS]

    @staticmethod
    def _text(tenant: service.Tenant, line: str) -> str:
        return tenant.answer(line.encode().split()).decode().split(" ", 2)[2]

    def next(self) -> tuple[str, str]:
        """Return the next command and its reply."""
        turn, step = divmod(self.given, len(CYCLE))
        self.given += 1
        text, number = self.turns[min(turn, TURNS - 1)][step], str(turn % 1000)
        return (
            f"{self.name} {CYCLE[step].format(number)}\n",
            f"{self.name} {self.given} {text.replace(MARK, number)}\n",
        )


def write_files(folder: Path, lines: int) -> None:
    """Write the input and its expected output: tenants drawn at random, each in its own cycle."""
    cycles = [Cycle(tenant) for tenant in service.read_roster(roster()).values()]
    draw = random.Random(1)
    folder.mkdir(parents=True, exist_ok=True)
    (folder / "roster.csv").write_bytes(roster())
    with open(folder / "input", "w") as text, open(folder / "expected", "w") as expected:
        for _ in range(lines):
            line, reply = cycles[draw.randrange(TENANTS)].next()
            text.write(line)
            expected.write(reply)


def most_memory(process: int) -> int:
    """Return the process's maximum of memory so far, in kilobytes."""
    status = Path(f"/proc/{process}/status").read_text()
    return int(status.partition("VmHWM:")[2].split()[0])


class Spent(NamedTuple):
    """The maximum of memory a tenth of the way and at the end, in kilobytes, and the processor time."""

    early: int
    late: int
    seconds: float


def serve(command: list[str], folder: Path) -> Spent:
    """Run the program over the files."""
    words = [*command, "--roster", str(folder / "roster.csv")]
    size = (folder / "input").stat().st_size
    early, late, seconds = 0, 0, 0.0
    with open(folder / "input", "rb") as text, open(folder / "output", "wb") as output:
        process = subprocess.Popen(words, stdin=text, stdout=output)
        clock = (~process.pid << 3) | 2
        while process.poll() is None:
            try:
                place = int(Path(f"/proc/{process.pid}/fdinfo/0").read_text().split()[1])
                late, seconds = most_memory(process.pid), time.clock_gettime(clock)
            except (OSError, ValueError):
                continue  # it has ended
            early = late if place < size // 10 else early
            time.sleep(0.02)
    if process.returncode:
        raise Missed(f"status {process.returncode}")
    return Spent(early, late, seconds)


def is_well(options: Options, workers: str, folder: Path) -> bool:
    """Return whether a run with a number of workers writes the expected output, and its memory does not grow."""
    spent = serve(options.command(workers), folder)
    is_same = not subprocess.run(["cmp", str(folder / "output"), str(folder / "expected")]).returncode
    is_constant = spent.late <= spent.early * 1.05
    print(
        f"workers {workers or 'as it is'}: {'equal' if is_same else 'DIFFERENT'} output,"
        f" {spent.seconds:.1f} s of processor time, {spent.early:,} kB after a tenth,"
        f" {spent.late:,} kB at most{'' if is_constant else ': NOT CONSTANT'}",
        flush=True,
    )
    return is_same and is_constant


def main() -> int:
    parser = argparse.ArgumentParser(description=(__doc__ or "").splitlines()[0])
    program.add_program(parser)
    program.add_under(parser)
    program.add_workers(parser)
    parser.add_argument("--lines", type=int, default=10_000_000)
    options = Options(**vars(parser.parse_args()))
    folder = program.OUT / "long"
    write_files(folder, options.lines)
    size = (folder / "input").stat().st_size
    print(f"{options.lines:,} lines, {size:,} bytes for {TENANTS} tenants", flush=True)
    ends = [is_well(options, workers, folder) for workers in options.workers.split(",")]
    return 0 if all(ends) else 1


if __name__ == "__main__":
    run_script(main)
