#!/usr/bin/env python3
"""Answer commands once, without any proof and without stored state.

usage: ./firm --unproved (--roster FILE | --state FILE) [OPTION..] < COMMANDS

This is for a first look before the program is proved: `rt try` runs the sources. It reads all commands before it sends
the first answer, so it serves no live client. Exit status: the program's own; 2 for words that don't fit, 70 without an
answer, 128 plus the number of a signal.
"""

from __future__ import annotations

import argparse
import os
import re
import shutil
import signal
import subprocess
import sys
import tempfile
from pathlib import Path
from typing import BinaryIO, NamedTuple, NoReturn

CRATE = Path(__file__).resolve().parent / "crates" / "firm"
MAX_BYTES = 64 << 20  # the limit of rt try on a program's input
MAX_SECONDS = 60  # the program's limit
USAGE_STATUS = 2
NO_ANSWER_STATUS = 70
STOPS = (signal.SIGINT, signal.SIGTERM, signal.SIGHUP)
# The last line of rt try for a program that ended by itself, and the lines that are not the program's.
ENDED = re.compile(r"run=ended status=(\d+)")
OF_RT = re.compile(r"(checked|races|interpreter|run)[:=]")


class Stopped(Exception):
    """Signals a request to end."""

    def __init__(self, number: int) -> None:
        super().__init__(number)
        self.number = number


class Request(NamedTuple):
    """The option that names the file to open with, the file's contents, and the other words for the program."""

    option: str
    file: bytes
    words: list[str]


def say(text: str) -> None:
    print(f"firm: {text}", file=sys.stderr, flush=True)


def refuse(text: str) -> NoReturn:
    say(f"--unproved: {text}")
    sys.exit(USAGE_STATUS)


def read_words(arguments: list[str]) -> Request:
    parser = argparse.ArgumentParser("firm --unproved", add_help=False, allow_abbrev=False)
    parser.add_argument("--roster")
    parser.add_argument("--state")
    parser.add_argument("--unproved", action="store_true")
    options, words = parser.parse_known_args(arguments)
    given = {name: path for name in ("roster", "state") if (path := getattr(options, name))}
    if len(given) != 1:
        refuse("give --roster FILE or --state FILE, one of the two")
    ((name, path),) = given.items()
    try:
        return Request(f"--{name}", Path(path).read_bytes(), words)
    except OSError as error:
        refuse(f"no {name}: {path}: {error.strerror}")


def read_input(to: BinaryIO) -> None:
    """Read all commands: rt try itself would cut an input that is silent for two seconds."""
    while block := os.read(sys.stdin.fileno(), 1 << 20):
        to.write(block)
        if to.tell() > MAX_BYTES:
            refuse(f"more than {MAX_BYTES >> 20} MiB of commands")


def try_program(request: Request, folder: Path) -> int:
    """Run the program on the input in the folder, to which rt try writes its output; return rt's status."""
    (folder / "opened").write_bytes(request.file)
    words = ["rt", "try", "--seconds", str(MAX_SECONDS), "--data", f"opened={folder}/opened"]
    with open(folder / "input", "rb") as given, open(folder / "said", "wb") as said:
        process = subprocess.Popen(
            [*words, "--", request.option, "opened", *request.words],
            cwd=CRATE,
            env={**os.environ, "TMPDIR": str(folder)},
            stdin=given,
            stderr=said,
        )
    try:
        return process.wait()
    except BaseException:
        process.terminate()  # it ends the processes that it started
        process.wait()
        raise


def answer(request: Request, folder: Path) -> int:
    with open(folder / "input", "wb") as commands:
        read_input(commands)
    say("UNPROVED: no proof stands behind this answer, which takes about two minutes")
    try_program(request, folder)
    lines = (folder / "said").read_text(errors="replace").splitlines()
    # The statuses of rt itself look like the program's: the line tells them apart.
    ended = ENDED.match(lines[-1]) if lines else None
    for line in lines:
        if not (ended and OF_RT.match(line)):
            print(line, file=sys.stderr)
    if not ended:
        say(f"UNPROVED: no answer in {MAX_SECONDS} s and 1 MiB; ./firm without --unproved has no such limits")
        return NO_ANSWER_STATUS
    say("UNPROVED: no proof stands behind this answer; ./firm without --unproved proves the program first")
    return int(ended[1])


def stop(number: int, _frame: object) -> None:
    for other in STOPS:
        signal.signal(other, signal.SIG_IGN)
    raise Stopped(number)


def main(arguments: list[str]) -> int:
    for number in STOPS:
        if signal.getsignal(number) != signal.SIG_IGN:
            signal.signal(number, stop)
    if shutil.which("rt") is None:
        refuse("rt of the Rattle kit is not on the PATH")
    request = read_words(arguments)
    if sys.stdin is None or sys.stdin.isatty():
        refuse("it answers once all commands are there: give them by < FILE")
    try:
        with tempfile.TemporaryDirectory(prefix="firm-unproved-") as folder:
            return answer(request, Path(folder))
    except Stopped as stopped:
        return 128 + stopped.number


if __name__ == "__main__":
    sys.exit(main(sys.argv[1:]))
