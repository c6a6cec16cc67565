#!/usr/bin/env python3
"""The gate: it proves, tests and builds everything, tries the edits, and checks the built program from outside.

usage: tests/gate [--all] [--anew] [--record]
The tests of service/ need packages of Debian. If one is missing and root runs the gate, the gate installs it; otherwise
it ends with status 2 and names the command that does.

It works on a copy of the files that git tracks, and of new ones that it does not ignore, so it needs nothing from an
earlier run. Its parts are `rt ci`, which proves every crate and its tests and builds and runs every program;
tests/edits, on the crates that have changed and a quarter of the others, with --all on all of them; and tests/quick.
Some kits store the results of `rt ci` on a machine, and accept the same files over the same libraries as proved. With
--anew they prove these again; other kits always prove all. `rt ci` would try the edits of must-fail/ one by one, so
they are set aside: tests/edits tries them with the others, many in one check.

At its start it prints the expected time, from the processors here and the minutes in docs/results/gate.csv, and after
each crate its progress. --record stores the record of tests/edits. The last line is 'N passed, M failed' over all
parts; the exit status is 1 if one failed.
"""

from __future__ import annotations

import argparse
import csv
import os
import re
import shutil
import signal
import subprocess
import sys
import tempfile
import time
from pathlib import Path
from typing import Callable, NamedTuple

from harness.checks import CannotRun, run_script
from harness.files import commit_here, tracked_files
from harness.packages import COMMAND, find_packages, install_packages
from harness.program import ROOT
from harness.proving import crates_of_repository, free_bytes

MINUTES = ROOT / "docs" / "results" / "gate.csv"
EARLY = 0.3  # of the proofs: until then the table alone predicts their time
OTHER_MINUTES = 1.0  # of a crate that is newer than the table
QUICK_MINUTES = 10  # of tests/quick, one check at a time
# Measured maximum of a check's memory, and the part of the free memory that checks are given.
CHECK_BYTES, MEMORY_PART = 4_000_000_000, 0.8
COUNT = re.compile(r"^(\d+) passed, (\d+) failed$")
PROVED = re.compile(r"^rt: (\w+)(: its tests are)? proved$")
MUST_FAIL = "must-fail"
RECORD = "tests/edits.tried"
ANEW = "--anew"  # the option of `rt ci`, in the kits that keep proofs


class Count(NamedTuple):
    """The numbers of passed and failed checks of a part."""

    passed: int
    failed: int


class Minutes(NamedTuple):
    """The processor minutes that a crate takes in the gate, on the host of the measurement."""

    proof: float
    tests: float
    edits: float


def measured_minutes() -> dict[str, Minutes]:
    with open(MINUTES, newline="") as file:
        rows = list(csv.DictReader(file))
    return {row["crate"]: Minutes(float(row["proof"]), float(row["tests"]), float(row["edits"])) for row in rows}


def lanes() -> int:
    """Return the number of checks that `rt ci` runs side by side: one a processor, as far as memory holds them. `rt
    ci` itself assumes two or three times as much memory for a check, and would leave processors idle."""
    return max(1, min(len(os.sched_getaffinity(0)), int(MEMORY_PART * free_bytes()) // CHECK_BYTES))


def proof_minutes(minutes: dict[str, Minutes]) -> float:
    """Return the minutes of the proofs and tests by the clock, no less than those of the longest chain of dependent
    crates."""
    ends: dict[str, float] = {}
    chain = 0.0
    for crate in crates_of_repository().values():
        own = minutes.get(crate.name, Minutes(OTHER_MINUTES, OTHER_MINUTES, 0))
        ends[crate.name] = own.proof + max((ends[below.name] for below in crate.below), default=0.0)
        chain = max(chain, ends[crate.name], ends[crate.name] - own.proof + own.tests)
    return max(chain, sum(crate.proof + crate.tests for crate in minutes.values()) / lanes())


def say(text: str) -> None:
    print(f"gate: {text}", flush=True)


class Progress:
    """The progress of `rt ci`, by the crates that it has proved and their measured minutes."""

    def __init__(self, minutes: dict[str, Minutes]) -> None:
        self.minutes, self.began, self.whole = minutes, time.monotonic(), proof_minutes(minutes)
        self.all = sum(crate.proof + crate.tests for crate in minutes.values())
        self.done = 0.0

    def note(self, line: str) -> None:
        """Print the progress if the line reports a proved crate, or its tests."""
        found = PROVED.match(line)
        if not found:
            return
        name, are_tests = found.groups()
        crate = self.minutes.get(name, Minutes(OTHER_MINUTES, OTHER_MINUTES, 0))
        self.done = min(self.done + (crate.tests if are_tests else crate.proof), self.all)
        passed = (time.monotonic() - self.began) / 60
        # The lowest crates are proved one after another, so that their time tells little of the others.
        is_early = self.done < EARLY * self.all
        whole = self.whole if is_early else passed * self.all / self.done
        left = max(whole - passed, 0)
        what = f"{name}'s tests are" if are_tests else f"{name} is"
        say(f"{what} proved after {passed:.0f} min; {self.done / self.all:.0%} of the proofs, some {left:.0f} min left")


def copy_files(place: Path) -> None:
    """Copy the repository's files to a folder, which git then tracks as a separate repository."""
    for path in tracked_files():
        (place / path).parent.mkdir(parents=True, exist_ok=True)
        shutil.copy2(ROOT / path, place / path)
    for words in (["git", "init", "--quiet"], ["git", "add", "--all"]):
        subprocess.run(words, cwd=place, stdin=subprocess.DEVNULL, check=True)


def run_part(words: list[str], folder: Path, note: Callable[[str], None] = lambda line: None) -> Count:
    """Run a part of the gate; its count is its last line, and a part that ends otherwise has failed."""
    began, count = time.monotonic(), None
    with subprocess.Popen(words, cwd=folder, stdin=subprocess.DEVNULL, stdout=subprocess.PIPE, text=True) as part:
        for line in part.stdout or ():
            print(line, end="", flush=True)
            count = COUNT.match(line)
            note(line.rstrip("\n"))
    say(f"{words[0]} took {(time.monotonic() - began) / 60:.1f} minutes")
    if count is None or (part.returncode and count[2] == "0"):
        return Count(0, 1)
    return Count(int(count[1]), int(count[2]))


def keeps_proofs() -> bool:
    """Return whether the kit's `rt ci` accepts the proofs of an earlier run by default."""
    done = subprocess.run(["rt", "help"], stdin=subprocess.DEVNULL, stdout=subprocess.PIPE, stderr=subprocess.STDOUT)
    return ANEW.encode() in done.stdout


def prove(copy: Path, minutes: dict[str, Minutes], is_anew: bool) -> Count:
    """Run `rt ci`, without the edits."""
    aside = copy.parent / "aside"
    folders = sorted(copy.glob(f"crates/*/{MUST_FAIL}"))
    for folder in folders:
        (aside / folder.parent.name).mkdir(parents=True)
        folder.rename(aside / folder.parent.name / MUST_FAIL)
    try:
        words = ["rt", "ci", *([ANEW] if is_anew and keeps_proofs() else [])]
        os.environ.setdefault("RT_JOBS", str(lanes()))
        return run_part(words, copy, Progress(minutes).note)
    finally:
        for folder in folders:
            (aside / folder.parent.name / MUST_FAIL).rename(folder)


def say_plan(minutes: dict[str, Minutes]) -> None:
    """Print the gate's expected time here, as far as the table tells."""
    processors = len(os.sched_getaffinity(0))
    proofs = proof_minutes(minutes)
    edits = sum(crate.edits for crate in minutes.values()) / processors
    say(f"on {processors} processors proofs and tests take some {proofs:.0f} minutes, elsewhere half or twice that")
    quick = QUICK_MINUTES / max(1, processors // 2)
    say(f"then come the edits, {edits:.0f} minutes if all are tried, and the program from outside, {quick:.0f}")


def require_packages() -> None:
    """Install the missing packages for the tests of service/, if root runs the gate."""
    if find_packages():
        return
    if os.geteuid():
        raise CannotRun(f"the tests of service/ need packages of Debian: {COMMAND}")
    say(f"the tests of service/ need packages of Debian: {COMMAND}")
    if not install_packages():
        say("they could not be installed, so that tests/quick skips what needs them")


def main() -> int:
    parser = argparse.ArgumentParser(description=(__doc__ or "").splitlines()[0])
    parser.add_argument("--all", action="store_true", help="try the edits of all crates")
    parser.add_argument(ANEW, action="store_true", help="prove again what an earlier run proved")
    parser.add_argument("--record", action="store_true", help="write down which crates' edits were all refused")
    options = parser.parse_args()
    if shutil.which("rt") is None:
        raise CannotRun("rt of the Rattle kit is not on the PATH")
    require_packages()
    minutes = measured_minutes()
    say_plan(minutes)
    with tempfile.TemporaryDirectory(prefix="firm-gate-") as name:
        copy = Path(name) / "firm"
        copy.mkdir()
        copy_files(copy)
        counts = [prove(copy, minutes, options.anew)]
        if counts[0].failed:
            say("the edits and the built program wait until all is proved")
        else:
            words = ["tests/edits", "--libraries", "rlib", "--commit", commit_here()]
            words += [word for word, is_given in (("--all", options.all), ("--record", options.record)) if is_given]
            counts += [run_part(words, copy), run_part(["tests/quick"], copy)]
            if options.record:
                shutil.copy2(copy / RECORD, ROOT / RECORD)
    passed, failed = sum(count.passed for count in counts), sum(count.failed for count in counts)
    print(f"{passed} passed, {failed} failed")
    return 1 if failed else 0


def stop(number: int, _frame: object) -> None:
    """End as at an interrupt, so that the copy is removed and `rt ci` ended."""
    sys.exit(128 + number)


if __name__ == "__main__":
    signal.signal(signal.SIGTERM, stop)
    run_script(main)
