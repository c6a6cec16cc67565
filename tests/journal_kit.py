"""The kit for checks of journals: states of firmd with journals, to damage."""

from __future__ import annotations

import subprocess
from pathlib import Path

from firmd_kit import JOURNAL_TOOL, ROSTER, ROWS, Client, Daemon, Setup
from harness.checks import require

QUESTIONS = [b"alpha show", b"alpha costs", b"alpha where a", b"beta show", b"beta where l", b"alpha where no"]
ROUNDS = [*ROWS, b"alpha round", b"beta round"]
MOVED = [
    b"alpha machine 14 4",
    b"alpha job j 10",
    *[b"alpha task j %b" % name for name in (b"a", b"b", b"c", b"no")],
    b"alpha round",
    b"alpha machine memory 4",
    b"alpha round",  # three tasks share a machine for 3, and one moves for 2: task `no` from `14` to `memory`
]


def ask_all(daemon: Daemon, lines: list[bytes]) -> list[bytes]:
    with Client(daemon.operator) as client:
        return [client.ask(line) for line in lines]


def serves(daemon: Daemon, lines: list[bytes], setup: Setup) -> None:
    """Start it, and require that its journal has these lines and its state is firm's own after them."""
    daemon.start()
    require(daemon.journal() == b"".join(line + b"\n" for line in lines), daemon.journal()[-300:])
    asked = ask_all(daemon, QUESTIONS)
    text = b"".join(line + b"\n" for line in [*lines, *QUESTIONS])
    require(asked == setup.alone(ROSTER, text)[-len(QUESTIONS) :], asked)


def tool(*words: str | Path) -> str:
    """Return the output of the journal's tool."""
    done = subprocess.run([*JOURNAL_TOOL, *words], capture_output=True, text=True)
    require(done.returncode == 0, f"{words}: status {done.returncode}: {done.stderr}")
    return done.stdout


def answered(daemon: Daemon, is_killed: bool, lines: int = 400) -> list[bytes]:
    """Send it lines, in several segments, and end it; return its replies."""
    daemon.start()
    said = [*ROUNDS, *[b"alpha show", b"beta show"] * (lines // 2)]
    ask_all(daemon, said)
    daemon.kill() if is_killed else daemon.stop()
    require(len(daemon.segments()) > 2, "segments")
    return said
