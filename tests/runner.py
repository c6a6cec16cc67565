"""Check the runner of the checks: passes, failures, skips and missing needs, alone and beside others.

usage: tools/run tests/runner.py
"""

from __future__ import annotations

import argparse
import io
from contextlib import redirect_stdout
from functools import partial
from typing import Iterable

from harness.checks import CannotRun, Check, Skipped, Suite, require, run_script, run_suites


def fails() -> None:
    require(False, "as it must")


def breaks() -> None:
    raise KeyError("unforeseen")


def skips() -> None:
    raise Skipped("not here")


def lacks() -> None:
    raise CannotRun("it needs a compiler")


def ended(checks: Iterable[Check], at_a_time: int, again: int = 0) -> tuple[int, str]:
    """Return the status of a run of checks, and its output."""
    with redirect_stdout(io.StringIO()) as said:
        named = {f"check {place}": check for place, check in enumerate(checks)}
        status = run_suites(Suite(named, at_a_time), again=again)
    return status, said.getvalue()


def counts(at_a_time: int) -> None:
    """A skipped check has not failed; each check is run, and has its line."""
    cases: list[tuple[list[Check], int, str, list[str]]] = [
        ([list, skips], 0, "2 passed, 0 failed", ["passed   check 0 (", "skipped  check 1: not here"]),
        ([fails, list] * 9, 1, "9 passed, 9 failed", ["FAILED   check 16: Missed: as it must", "passed   check 17 ("]),
        ([breaks], 1, "0 passed, 1 failed", ["FAILED   check 0: KeyError: 'unforeseen'", "Traceback (most recent"]),
        ([], 1, "0 passed, 0 failed", []),
    ]
    for checks, status, last, lines in cases:
        found, said = ended(checks, at_a_time)
        require(found == status and said.endswith(f"\n{last}\n"), said)
        require(all(f"\n{line}" in f"\n{said}" for line in lines), said)


def needs(at_a_time: int) -> None:
    """A check that can't be run ends the run, with the reason."""
    try:
        ended([lacks, list], at_a_time)
    except CannotRun as reason:
        require(str(reason) == "it needs a compiler", reason)
    else:
        require(False, "it went on")


def once_more(at_a_time: int) -> None:
    """The first checks that fail are run once more, and no third time; the output of the first failure is shown."""

    def late() -> Check:
        runs = iter((True, False))
        return lambda: require(not next(runs), "late")

    alone = "missed beside others, passed alone:"
    cases: list[tuple[list[Check], int, str]] = [
        ([late()], 0, f"{alone} check 0\n1 passed, 0 failed\n"),
        ([breaks], 1, "\n0 passed, 1 failed\n"),
        ([late(), late()], 0, "\n2 passed, 0 failed\n"),
        ([late(), fails], 1, f"{alone} check 0\n1 passed, 1 failed\n"),
        ([late(), late(), late(), list], 1, "\n3 passed, 1 failed\n"),
    ]
    for checks, status, last in cases:
        found, said = ended(checks, at_a_time, again=2)
        require(found == status and said.endswith(last), said)
        require(said.count("missed   check") == min(2, len(checks)) and ("FAILED   check" in said) == status, said)


def main() -> int:
    argparse.ArgumentParser(description=(__doc__ or "").splitlines()[0]).parse_args()
    checks: dict[str, Check] = {}
    for count in (1, 4):
        checks |= {
            f"counts, {count} at a time": partial(counts, count),
            f"needs, {count} at a time": partial(needs, count),
            f"once more, {count} at a time": partial(once_more, count),
        }
    return run_suites(Suite(checks))


if __name__ == "__main__":
    run_script(main)
