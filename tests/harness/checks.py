"""Checks as cases of `unittest`, and the exit statuses of the scripts.

0: all is well. 1: a check failed. 2: the script can't be run with these words, or lacks something that it needs.
"""

from __future__ import annotations

import subprocess
import sys
import time
import traceback
import unittest
from concurrent.futures import ThreadPoolExecutor
from functools import partial
from pathlib import Path
from threading import Lock
from types import TracebackType
from typing import Callable, Mapping, NoReturn, cast

Check = Callable[[], object]  # passes if it raises nothing
Caught = tuple[type[BaseException], BaseException, TracebackType] | tuple[None, None, None]
Skipped = unittest.SkipTest  # raised by a check that can't be done here
SKIPPED = "skipped"  # the first word of a line on skipped checks
DETAIL = "    "  # before each line after the first on a check that failed
TESTS = Path(__file__).resolve().parents[1]


class Missed(AssertionError):
    """Signals that a check has failed."""


class CannotRun(Exception):
    """Signals that something is missing that the script needs."""


def require(holds: object, what: object) -> None:
    """Require that a condition holds."""
    if not holds:
        raise Missed(what)


class Case(unittest.TestCase):
    """A check with a name."""

    def __init__(self, name: str, check: Check) -> None:
        super().__init__()
        self.name, self.check, self.began = name, check, 0.0

    def runTest(self) -> None:
        self.began = time.monotonic()
        self.check()

    def __str__(self) -> str:
        return self.name


class Suite(unittest.TestSuite):
    """Checks with their names, one after another or some beside one another."""

    def __init__(self, checks: Mapping[str, Check], at_a_time: int = 1) -> None:
        super().__init__(Case(name, check) for name, check in checks.items())
        self.at_a_time = at_a_time

    def run(self, result: unittest.TestResult, debug: bool = False) -> unittest.TestResult:
        if self.at_a_time == 1:
            return super().run(result, debug)
        with ThreadPoolExecutor(self.at_a_time) as pool:
            list(pool.map(lambda case: None if result.shouldStop else case(result), self))
        return result


class Lines(unittest.TextTestResult):
    """Prints a line on each check once it is over. Checks that run beside one another share it, under a lock."""

    reason: CannotRun | None = None  # that nothing more can be run

    def __init__(self, again: int, *words: object) -> None:
        super().__init__(*words)  # type: ignore[arg-type] # those of the runner
        self._again = again
        self._lock = Lock()
        self.late: list[unittest.TestCase] = []  # the first failures, to be run once more: `again` of them at most

    def startTest(self, test: unittest.TestCase) -> None:
        with self._lock:
            super().startTest(test)

    def addSuccess(self, test: unittest.TestCase) -> None:
        with self._lock:
            super().addSuccess(test)
            self._say(f"passed   {test} ({time.monotonic() - cast(Case, test).began:.1f} s)")

    def addFailure(self, test: unittest.TestCase, err: Caught) -> None:
        with self._lock:
            if not self._is_late(test, err):
                super().addFailure(test, err)
                self._say_failed("FAILED   ", test, err)

    def addError(self, test: unittest.TestCase, err: Caught) -> None:
        with self._lock:
            if isinstance(err[1], CannotRun):
                self.reason = err[1]
                self.stop()
            if not self._is_late(test, err):
                super().addError(test, err)
                self._say_failed("FAILED   ", test, err)

    def addSkip(self, test: unittest.TestCase, reason: str) -> None:
        with self._lock:
            super().addSkip(test, reason)
            self._say(f"{SKIPPED}  {test}: {reason}")

    def _is_late(self, test: unittest.TestCase, err: Caught) -> bool:
        """Return whether this check will be run once more."""
        if len(self.late) == self._again:
            return False
        self.late.append(test)
        self._say_failed("missed   ", test, err)
        return True

    def _say_failed(self, word: str, test: unittest.TestCase, err: Caught) -> None:
        told = [f"{word}{test}: {type(err[1]).__name__}: {err[1]}", *places_of(err[2]), *notes_of(err[1])]
        self._say("\n".join(told).replace("\n", f"\n{DETAIL}"))

    def _say(self, line: str) -> None:
        self.stream.write(f"{line}\n")
        self.stream.flush()


def places_of(trace: TracebackType | None) -> list[str]:
    """Return a line for each place in the tests that an exception came through, from the check on."""
    frames = [frame for frame in traceback.extract_tb(trace) if Path(frame.filename).is_relative_to(TESTS)]
    places = [f"{Path(frame.filename).relative_to(TESTS)}:{frame.lineno}" for frame in frames]
    found = [place for place in places if not place.startswith("harness/checks.py:")]
    return [f"at {', '.join(found)}"] if found else []


def notes_of(error: BaseException | None) -> list[str]:
    found: list[str] = getattr(error, "__notes__", [])
    return found


def run_suites(*suites: unittest.TestSuite, again: int = 0) -> int:
    """Run the checks; return 0 if all passed, 1 if one failed or there was none. The last line counts them.

    The first `again` checks that fail are run once more, alone, when all others are over, and the second result counts:
    a time limit that was missed beside others says little.
    """
    first = run_once(again, *suites)
    failed, passed_alone = len(first.failures) + len(first.errors), list[str]()
    for late in first.late:
        second = run_once(0, unittest.TestSuite([late]))
        if second.wasSuccessful():
            passed_alone.append(str(late))
        else:
            failed += 1
    if passed_alone:
        print(f"missed beside others, passed alone: {', '.join(passed_alone)}", flush=True)
    print(f"{first.testsRun - failed} passed, {failed} failed", flush=True)
    return 0 if first.testsRun and not failed else 1


def run_once(again: int, *suites: unittest.TestSuite) -> Lines:
    runner = unittest.TextTestRunner(sys.stdout, verbosity=0, resultclass=partial(Lines, again))
    result = cast(Lines, runner.run(unittest.TestSuite(suites)))
    if result.reason is not None:
        raise result.reason
    return result


def print_skipped(what: str, why: str) -> None:
    """Print that checks are skipped, and the reason."""
    print(f"{SKIPPED}  {what}: {why}", flush=True)


def run_script(main: Callable[[], int]) -> NoReturn:
    """End the script with the status of its main function, or with that of the exception that it raised."""
    try:
        status = main()
    except Missed as missed:
        print(f"MISSED: {missed}", flush=True)
        status = 1
    except CannotRun as reason:
        print(f"{sys.argv[0]}: {reason}", file=sys.stderr)
        status = 2
    sys.exit(status)


def compile_source(words: list[str]) -> None:
    """Run a compiler."""
    try:
        done = subprocess.run(words, stdin=subprocess.DEVNULL, capture_output=True, text=True)
    except FileNotFoundError:
        raise CannotRun(f"it needs a compiler, {words[0]}, which is not on the PATH") from None
    if done.returncode:
        raise CannotRun(f"{' '.join(words)}: status {done.returncode}\n{done.stderr}")
