"""Greedy readers of firmd, in a separate process, for the checks of their effect on others.

usage: tools/run tests/reader_kit.py KIND STATE
It reads as KIND says until it is terminated. It prints a line with the first answer, and then the number of answers.
"""

from __future__ import annotations

import os
import signal
import socket
import sys
import threading
import time
from collections.abc import Callable
from contextlib import suppress
from itertools import count
from pathlib import Path
from subprocess import DEVNULL, PIPE, Popen

from harness.checks import require
from harness.program import opened

PATIENCE_SECONDS = 120
NICENESS = 10  # their own processor time is not under check
SCRAPE = b'{"ask": "metrics"}\n'
WATCH = b'{"ask": "watch", "tenant": "%b"}\n'
answers = count()


def view_of(state: str) -> socket.socket:
    found = socket.socket(socket.AF_UNIX)
    found.settimeout(PATIENCE_SECONDS)
    found.connect(f"{state}/view")
    return found


def take_answer(view: socket.socket) -> None:
    while not (piece := view.recv(1 << 20)).endswith(b"\n"):
        if not piece:
            raise ConnectionError
    next(answers)


def ask_rows(state: str) -> None:
    """Request all rows, again and again."""
    with view_of(state) as view:
        while True:
            view.sendall(WATCH % b"alpha")
            take_answer(view)


def scrape(state: str) -> None:
    """Request the metrics, again and again."""
    with view_of(state) as view:
        while True:
            view.sendall(SCRAPE)
            take_answer(view)


def pipeline(state: str) -> None:
    """Send requests, and read nothing."""
    with view_of(state) as view:
        next(answers)
        while True:
            view.sendall(SCRAPE * 1_000)


def watch_blindly(state: str) -> None:
    """Watch a tenant, and read nothing, until it is dropped."""
    with view_of(state) as view:
        view.sendall(WATCH % b"beta")
        next(answers)
        while True:
            view.sendall(b"\n" * 100)
            time.sleep(0.2)


def ask_blindly(state: str) -> None:
    """Request all rows, and read nothing."""
    with view_of(state) as view:
        next(answers)
        while True:
            view.sendall(WATCH % b"alpha")


Reader = Callable[[str], None]
KINDS: dict[str, list[tuple[Reader, int]]] = {
    "eight that ask for rows": [(ask_rows, 8)],
    "eight scrapers": [(scrape, 8)],
    "requests without reading": [(pipeline, 2)],
    "watchers that do not read": [(watch_blindly, 30)],
    "views that do not read": [(ask_blindly, 30)],
}
KINDS["all"] = [reader for readers in KINDS.values() for reader in readers]


def read_for_ever(reader: Reader, state: str) -> None:
    while True:
        with suppress(OSError):
            reader(state)
        time.sleep(0.01)


def main() -> int:
    os.nice(NICENESS)
    kind, state = sys.argv[1:3]
    ended = threading.Event()
    signal.signal(signal.SIGTERM, lambda *_: ended.set())
    for reader, number in KINDS[kind]:
        for _ in range(number):
            threading.Thread(target=read_for_ever, args=(reader, state), daemon=True).start()
    while not next(answers):
        time.sleep(0.01)
    print("reading", flush=True)
    while not ended.wait(1.0):  # a signal that comes as this process goes on may interrupt another thread's call
        pass
    print(next(answers), flush=True)
    os._exit(0)


class Readers:
    """Greedy readers in a separate process, which has got its first answer."""

    def __init__(self, kind: str, state: Path) -> None:
        words = [sys.executable, str(Path(__file__)), kind, str(state)]
        self._process = Popen(words, stdin=DEVNULL, stdout=PIPE)
        self._said = opened(self._process.stdout)
        self.answers = 0  # once they have ended
        require(self._said.readline() == b"reading\n", "they read")

    def __enter__(self) -> Readers:
        return self

    def __exit__(self, *_: object) -> None:
        self.go_on()
        self._process.terminate()
        self.answers = int(self._said.readline() or 0)
        self._said.close()
        self._process.wait()

    def pause(self) -> None:
        self._process.send_signal(signal.SIGSTOP)

    def go_on(self) -> None:
        self._process.send_signal(signal.SIGCONT)


if __name__ == "__main__":
    sys.exit(main())
