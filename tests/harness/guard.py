"""Ends all processes that a test has started, however the test itself ends.

A word in their environment identifies the test's processes, also daemons, which leave its session. A process waits for
the end of the test, by a pipe that only the test has.
"""

from __future__ import annotations

import os
import secrets
import signal
import subprocess
import sys
import time
from collections.abc import Iterator
from contextlib import suppress
from pathlib import Path

NAME = "FIRM_TESTS"  # of the environment; a test that another one runs has the words of both
SECONDS = 20.0  # for the last of them to be gone


def guard() -> None:
    """From now on, kill all processes that this one starts once it has ended, even by a kill."""
    word, none = secrets.token_hex(8), subprocess.DEVNULL
    # It is never waited for: it ends after this process.
    subprocess.Popen(
        [sys.executable, "-P", __file__, word], stdin=subprocess.PIPE, stdout=none, stderr=none, start_new_session=True
    )
    os.environ[NAME] = f"{os.environ.get(NAME, '')} {word}"


def left(word: str) -> Iterator[int]:
    """Yield the live processes with this word."""
    for path in Path("/proc").glob("[0-9]*"):
        with suppress(OSError):
            if f" {word}".encode() in (path / "environ").read_bytes():
                yield int(path.name)


def main() -> None:
    sys.stdin.read()
    ends = time.monotonic() + SECONDS
    while (found := list(left(sys.argv[1]))) and time.monotonic() < ends:
        for process in found:
            with suppress(OSError):
                os.kill(process, signal.SIGKILL)
        time.sleep(0.05)


if __name__ == "__main__":
    main()
