"""Measure the time of firmctl's questions on a full tenant, and the parts of that time.

usage: tools/run bench/asks.py [--kinds KIND,..] [--tasks N] [--machines N] [--repeats N] [--keep]
Prints tables in Markdown of milliseconds by the clock, each the median of some runs. The questions concern a kind of
stream, before its last round: `view` is the state's way from the viewer's rows to firmctl, `what-if` a drain of a
machine and a round, `why` the reasons for a task that waits, with trials of its weight, each with the state at hand;
`firm` and `firm_explain` are one run of these programs within them. `firmctl` is a start of the program without a
question, and `python` one of Python.
"""

from __future__ import annotations

import argparse
import json
import statistics
import subprocess
import sys
import tempfile
import time
from collections.abc import Callable
from functools import partial
from pathlib import Path

import results
from shared import TENANT, Stream, built, kinds, require, run_script

from harness.deployed import SERVICE, book_of, text_of, trials, what_if, why

COLUMNS = ("kind", "rows", "view", "what-if", "firm", "why", "firm_explain")


def median_of(question: Callable[[], object], repeats: int) -> str:
    """Return the median of some runs, in milliseconds."""
    found = []
    for _ in range(repeats):
        begun = time.perf_counter()
        question()
        found.append(time.perf_counter() - begun)
    return f"{statistics.median(found) * 1_000:,.1f}"


def state_before(stream: Stream) -> str:
    """Return the state before the last round of a stream."""
    *former, last = ["".join(f"{line}\n" for line in lines) for lines in stream.parts]
    text = "".join(f"{lines}{TENANT} round\n" for lines in former) + last
    with tempfile.NamedTemporaryFile(prefix="firm-", suffix=".csv") as roster:
        Path(roster.name).write_text(stream.roster)
        words = [str(built("firm_state")), "--roster", roster.name]
        done = subprocess.run(words, input=text.encode(), capture_output=True, check=True)
    return done.stdout.decode()


def output_of(trial: trials.Trial) -> list[str]:
    with trial:
        return trial.output()


def cells(options: argparse.Namespace, kind: str) -> list[str]:
    state = state_before(kinds.make(kind, options.tasks, options.machines))
    book = book_of(state)
    lines = [f"{TENANT} {words}".encode() for words in (f"drain {next(iter(book.machines))}", "round")]
    later = trials.after_round(book)
    task = next((name for name, task in later.tasks.items() if task.machine is None), next(iter(later.tasks)))
    asked = ("--tenant", TENANT, "--why", task)
    require(text_of(book) == state, "a state is written as another")
    questions: list[Callable[[], object]] = [
        lambda: book_of(json.loads(json.dumps({"text": text_of(book)}))["text"]),
        partial(what_if.outcome_of, state, lines),
        lambda: output_of(trials.firm(state, lines)),
        partial(why.reasons, state, book, task),
        lambda: output_of(trials.Trial("firm_explain", state, asked, lines[-1:])),
    ]
    return [kind, f"{state.count(chr(10)) - 2:,}", *(median_of(question, options.repeats) for question in questions)]


def show(options: argparse.Namespace) -> int:
    print("| " + " | ".join(COLUMNS) + " |\n|" + " --- |" + " --: |" * (len(COLUMNS) - 1), flush=True)
    for kind in options.kinds.split(","):
        print("| " + " | ".join(cells(options, kind)) + " |", flush=True)
    print("\n| firmctl | python |\n| --: | --: |")
    starts = [[sys.executable, str(SERVICE / "firmctl"), "--help"], [sys.executable, "-c", "pass"]]
    run = partial(subprocess.run, stdout=subprocess.DEVNULL, check=True)
    print("| " + " | ".join(median_of(partial(run, words), options.repeats) for words in starts) + " |")
    return 0


def main() -> int:
    parser = argparse.ArgumentParser(description=(__doc__ or "").splitlines()[0])
    parser.add_argument("--kinds", default="steady,overload,local", metavar="KIND,..")
    parser.add_argument("--tasks", type=int, default=3000)
    parser.add_argument("--machines", type=int, default=1000)
    parser.add_argument("--repeats", type=int, default=9)
    parser.add_argument("--keep", action="store_true", help=results.HELP)
    options = parser.parse_args()
    return results.show_and_keep("asks", options.keep, partial(show, options))


if __name__ == "__main__":
    run_script(main)
