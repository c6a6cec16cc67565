"""Hammer each sleep: a thread that finds nothing sleeps at once, and tests repeat far more often than in the gate.

usage: tools/run tests/hammer.py [--seconds N] [--control]
It needs the kit. It runs the crates of tests on threads by `rt try --test`, which proves nothing, on a copy of the
crates. In that copy a thread doesn't look again before it sleeps, and the counts of the tests are raised. The tests
themselves require that their counts are reached; a test that hangs fails at the limit of seconds. Each test prints a
line; the exit status is 1 if one failed.

The events, and in brackets their number in the gate:

- 1,000,000 times (1,000): four callers hand rounds over to two workers, each after the answer to the one before;
- 1,000,000 times (10,000): four threads put tickets into the queue, four others get them;
- 10,000 times (1,000): two rounds are put in one go, while one worker is held before its round;
- 10,000 times (2,000): the workers are stopped right after a round;
- 10,000 times (50): a service sleeps until a round is answered, before it reads the next line.

As a control, --control removes the notification of a put round, and leaves the counts as they are: then a test must
hang.
"""

from __future__ import annotations

import argparse
import re
import shutil
import subprocess
import sys
import tempfile
import time
from pathlib import Path
from typing import NamedTuple

from harness.program import ROOT

CRATES = ("test_rounds", "test_hall")
# `rt try`'s word for a test that it ended at the limit of seconds.
HANGS = "did not end within the time limit"
CONTROL_SECONDS = 60


class Edit(NamedTuple):
    """A text that stands once in a file of the crates, and its replacement."""

    file: str
    old: str
    new: str


class Count(NamedTuple):
    """A test, its crate, and the edits that raise its count."""

    crate: str
    test: str
    what: str
    raised: Edit


def constant(file: str, name: str, old: str, new: str) -> Edit:
    """Return an edit of a constant's value."""
    return Edit(file, f"const {name} = {old};", f"const {name} = {new};")


NO_LOOKS = [
    constant("firm_tray/src/sides.rt", "LOOKS_BEFORE_SLEEP: u32", "1_024", "0"),
    constant("firm_hall/src/patience.rt", "FEW_LOOKS: u32", "16", "0"),
    constant("firm_bell/src/bell.rt", "LOOKS_BEFORE_REST: u32", "16", "0"),
    constant("firm_bell/src/bell.rt", "LOOKS_OF_LAST: u32", "512", "0"),
    constant("firm_rounds/src/queue.rt", "TRIES_BEFORE_SLEEP: u32", "64", "0"),
]

HAND_OVERS = "callers::rounds_of_four_callers_go_to_two_workers_and_come_back"
COUNTS = [
    Count(
        "test_hall",
        HAND_OVERS,
        "1,000,000 rounds, handed over and back",
        constant("test_hall/src/tests/callers.rt", "ROUNDS: u64", "250", "250_000"),
    ),
    Count(
        "test_rounds",
        "queues::four_threads_put_and_four_get_each_ticket_once",
        "1,000,000 tickets through the queue",
        constant("test_rounds/src/tests/queues.rt", "EACH: u64", "2_500", "250_000"),
    ),
    Count(
        "test_hall",
        "wakes::no_worker_sleeps_while_rounds_wait",
        "10,000 times two rounds in one go, one worker held",
        constant("test_hall/src/tests/wakes.rt", "TURNS: u64", "1_000", "10_000"),
    ),
    Count(
        "test_hall",
        "wakes::a_round_that_was_asked_before_the_hall_was_shut_is_solved",
        "10,000 halls shut after a round",
        constant("test_hall/src/tests/wakes.rt", "HALLS: u64", "2_000", "10_000"),
    ),
    Count(
        "test_hall",
        "services::each_reply_is_written_before_the_next_line_comes",
        "10,000 lines, each after the reply before",
        constant("test_hall/src/tests/services.rt", "LINES_ASKED: u64", "50", "10_000"),
    ),
]

NO_NOTIFICATION = Edit(
    "firm_bell/src/bell.rt",
    "let resting = table.load::<LooksForRest>(&mut caller.seat, RESTING);\n        if resting != 0 {",
    "let resting = table.load::<LooksForRest>(&mut caller.seat, RESTING);\n        if self.workers < resting {",
)


class Ended(NamedTuple):
    """A run's output, whether all tests passed, and its seconds."""

    said: str
    is_well: bool
    seconds: float


def copy_to(folder: Path) -> None:
    """Copy the crates, without built files."""
    shutil.copytree(ROOT / "crates", folder / "crates", ignore=shutil.ignore_patterns("out"))
    for name in ("crates.txt", "HANDLES"):
        shutil.copy(ROOT / name, folder / name)


def apply(edits: list[Edit], folder: Path) -> None:
    for edit in edits:
        path = folder / "crates" / edit.file
        text = path.read_text()
        if text.count(edit.old) != 1:
            sys.exit(f"tests/hammer.py: {edit.file} does not have this once: {edit.old}")
        path.write_text(text.replace(edit.old, edit.new))


def run_tests(crate: str, edits: list[Edit], seconds: int, only: str = "") -> Ended:
    """Run the tests of a crate over crates so edited, or those whose names have these words, with this number of
    seconds for each."""
    with tempfile.TemporaryDirectory(prefix="firm-hammer-") as name:
        folder = Path(name)
        copy_to(folder)
        apply(edits, folder)
        words = ["rt", "try", "--test", "--seconds", str(seconds), *(["--", only] if only else [])]
        began = time.monotonic()
        done = subprocess.run(
            words,
            cwd=folder / "crates" / crate,
            stdin=subprocess.DEVNULL,
            stdout=subprocess.PIPE,
            stderr=subprocess.STDOUT,
            text=True,
        )
        return Ended(done.stdout, done.returncode == 0, time.monotonic() - began)


def hammer(seconds: int) -> bool:
    """Return whether all tests pass with no looks and the raised counts, the tests of the counts among them."""
    return all([hammer_crate(crate, seconds) for crate in CRATES])


def hammer_crate(crate: str, seconds: int) -> bool:
    ended = run_tests(crate, NO_LOOKS + [count.raised for count in COUNTS], seconds)
    passed = set(re.findall(r"^test tests::(\S+) \.\.\. ok$", ended.said, re.M))
    counts = [count for count in COUNTS if count.crate == crate]
    for count in counts:
        print(f"{'passed' if count.test in passed else 'FAILED'}   {count.what} ({count.test})", flush=True)
    is_well = ended.is_well and all(count.test in passed for count in counts)
    print(f"{'passed' if is_well else 'FAILED'}   all {len(passed)} tests of {crate} ({ended.seconds:.0f} s)")
    if not is_well:
        print(ended.said)
    return is_well


def is_found() -> bool:
    """Return whether a test hangs if no worker is notified of a new round."""
    ended = run_tests("test_hall", [*NO_LOOKS, NO_NOTIFICATION], CONTROL_SECONDS, HAND_OVERS)
    hangs = not ended.is_well and HANGS in ended.said
    verdict = "passed" if hangs else "FAILED"
    print(f"{verdict}   {HAND_OVERS} hangs without the notification of a put ({ended.seconds:.0f} s)")
    if not hangs:
        print(ended.said)
    return hangs


def main() -> int:
    parser = argparse.ArgumentParser(description=__doc__.splitlines()[0])
    parser.add_argument(
        "--seconds", type=int, default=3600, help="limit of seconds for each test (default: %(default)s)"
    )
    parser.add_argument("--control", action="store_true", help="leave a notification away, which a test must find")
    options = parser.parse_args()
    return 0 if (is_found() if options.control else hammer(options.seconds)) else 1


if __name__ == "__main__":
    sys.exit(main())
