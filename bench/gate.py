"""Run the gate and print its cost: processor minutes by crate, for its proof, its tests and its edits.

usage: tools/run bench/gate.py [--keep] [COMMAND ...]
The default command is `tests/gate --all --anew`; `tests/edits firm_net` measures some edits alone. The command's own
output goes to standard error, the table to standard output; the exit status is the command's. --keep writes the crates'
minutes to docs/results/gate.csv, from which tests/gate predicts its time.

Each check of a crate is a separate process of the prover. This script reads the time of each of them five times a
second (user and system, with that of the copies that it forks), so a check's last fifth of a second may be missing from
its row. The last row is the system's total for all.
"""

from __future__ import annotations

import argparse
import csv
import os
import resource
import shutil
import subprocess
import sys
import time
from collections import defaultdict
from pathlib import Path
from typing import NamedTuple

from shared import ROOT, CannotRun, run_script

KEPT = ROOT / "docs" / "results" / "gate.csv"
GATE = [str(ROOT / "tests" / "gate"), "--all", "--anew"]
# The programs that try edits: tests/edits, and rt itself.
FOLDERS_OF_EDITS = ("firm-edits-", "rt-edit-")
PAUSE = 0.2
TICKS = os.sysconf("SC_CLK_TCK")
PARTS = ("proof", "tests", "edits")


class Process(NamedTuple):
    """A process as the system shows it: its parent, and the seconds that it and its ended children took."""

    parent: int
    seconds: float


def processes() -> dict[int, Process]:
    """Return all processes by their number."""
    found = {}
    for folder in Path("/proc").glob("[0-9]*"):
        try:
            fields = (folder / "stat").read_text().rpartition(")")[2].split()
        except OSError:
            continue
        found[int(folder.name)] = Process(int(fields[1]), sum(map(int, fields[11:15])) / TICKS)
    return found


Minutes = dict[str, dict[str, float]]  # of a crate, by part


class Check(NamedTuple):
    """The crate and the part of the gate that a process of the prover works on."""

    crate: str
    part: str


class Cost(NamedTuple):
    """A check, and its seconds."""

    check: Check
    seconds: float


def check_of(number: int) -> Check | None:
    """Return the check that a process works on; None if it is none of the prover's."""
    folder = Path("/proc") / str(number)
    try:
        words = (folder / "cmdline").read_bytes().decode(errors="replace").split("\0")
        place = str((folder / "cwd").readlink())
    except OSError:
        return None
    if Path(words[0]).name != "rattle" or "--crate-name" not in words:
        return None
    are_edits = any(name in place for name in FOLDERS_OF_EDITS)
    part = "edits" if are_edits else "tests" if "--test" in words else "proof"
    return Check(words[words.index("--crate-name") + 1], part)


def below(number: int, known: dict[int, Process]) -> list[int]:
    """Return a process and all its descendants."""
    found = [number]
    for parent in found:
        found += (child for child, process in known.items() if process.parent == parent)
    return found


def follow(command: list[str]) -> tuple[int, list[Cost]]:
    """Run the command; return its exit status, and the cost of each check."""
    costs: dict[int, Cost] = {}
    with subprocess.Popen(command, stdin=subprocess.DEVNULL, stdout=sys.stderr) as gate:
        while gate.poll() is None:
            known = processes()
            named = {number: check for number in below(gate.pid, known) if (check := check_of(number)) is not None}
            # A copy that a check forks has the check's own words.
            for number in (number for number in named if known[number].parent not in named):
                seconds = sum(known[each].seconds for each in below(number, known))
                before = costs[number].seconds if number in costs else 0.0
                costs[number] = Cost(named[number], max(seconds, before))
            time.sleep(PAUSE)
    return gate.returncode, list(costs.values())


def minutes_of(costs: list[Cost]) -> Minutes:
    """Return the minutes of each crate by part, the dearest crate first."""
    minutes: Minutes = defaultdict(lambda: dict.fromkeys(PARTS, 0.0))
    for check, seconds in costs:
        minutes[check.crate][check.part] += seconds / 60
    return dict(sorted(minutes.items(), key=lambda row: -sum(row[1].values())))


def print_table(minutes: Minutes) -> None:
    """Print a row for each crate, and one for all."""
    print("| crate | proof | tests | edits | sum |\n| --- | ---: | ---: | ---: | ---: |")
    for crate, parts in minutes.items():
        print(row(f"`{crate}`", [parts[part] for part in PARTS]))
    print(row("**all checks**", [sum(parts[part] for parts in minutes.values()) for part in PARTS]))


def keep(minutes: Minutes) -> None:
    """Write the table for tests/gate."""
    KEPT.parent.mkdir(parents=True, exist_ok=True)
    with open(KEPT, "w", newline="") as file:
        rows = csv.writer(file, lineterminator="\n")
        rows.writerow(["crate", *PARTS])
        rows.writerows([crate, *(f"{parts[part]:.1f}" for part in PARTS)] for crate, parts in minutes.items())


def row(name: str, minutes: list[float]) -> str:
    return f"| {name} | " + " | ".join(f"{each:.1f}" for each in [*minutes, sum(minutes)]) + " |"


def main() -> int:
    parser = argparse.ArgumentParser(description=(__doc__ or "").splitlines()[0])
    parser.add_argument("--keep", action="store_true", help="write the minutes to docs/results/gate.csv")
    parser.add_argument("command", nargs=argparse.REMAINDER, metavar="COMMAND", help="the command to measure")
    options = parser.parse_args()
    command: list[str] = options.command or GATE
    if shutil.which(command[0]) is None:
        raise CannotRun(f"there is no command {command[0]}")
    started = time.monotonic()
    status, costs = follow(command)
    minutes = minutes_of(costs)
    print_table(minutes)
    used = resource.getrusage(resource.RUSAGE_CHILDREN)
    print(f"| with builds and runs | | | | {(used.ru_utime + used.ru_stime) / 60:.1f} |")
    print(f"\n{(time.monotonic() - started) / 60:.1f} minutes on the clock")
    if options.keep and status == 0:
        keep(minutes)
    return status


if __name__ == "__main__":
    run_script(main)
