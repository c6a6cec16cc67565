"""The kit for checks of snapshots: requests to a firmd that makes them, waits and inspections."""

from __future__ import annotations

import json
from collections.abc import Iterator, Sequence
from contextlib import contextmanager, suppress
from pathlib import Path
from typing import Any

from firmd_kit import ROSTER, Client, Daemon, Setup, wait_for
from harness.checks import require
from harness.deployed import Books, snapshots
from journal_kit import QUESTIONS, ROUNDS, ask_all

LINES = 20  # of a segment, and so of a snapshot
PATIENT = 300.0  # seconds for a snapshot, on a busy host
MORE = [b"alpha task j b", b"alpha round", b"alpha done a", b"beta round", b"alpha fly", b"beta show"]


def text_of(lines: Sequence[bytes]) -> bytes:
    return b"".join(line + b"\n" for line in lines)


def named(daemon: Daemon) -> list[int]:
    return snapshots.segments_of(daemon.state / "snapshots")


def has_snapshots(daemon: Daemon, count: int) -> None:
    """Wait until this many snapshots exist; a further one may be under way."""
    wait_for(lambda: len(named(daemon)) >= count, f"{count} snapshots: {daemon.said().decode()}", PATIENT)


def last_lines(daemon: Daemon) -> int:
    """Return the number of lines in the last complete snapshot."""
    found = named(daemon)
    return snapshots.read(daemon.state / "snapshots", found[0]).base.lines if found else 0


def holds(daemon: Daemon, lines: int) -> None:
    """Wait until a snapshot has this many lines."""
    wait_for(lambda: last_lines(daemon) >= lines, f"{lines} lines in a snapshot: {daemon.said().decode()}", PATIENT)


def settles(daemon: Daemon, said: Sequence[bytes]) -> None:
    """Wait until the last snapshot due after these lines exists, beside only the one before it."""
    holds(daemon, (len(said) - 1) // LINES * LINES)  # a segment is full when its next line arrives
    wait_for(lambda: len(named(daemon)) == 2, f"two snapshots: {daemon.said().decode()}", PATIENT)


def goes_on(setup: Setup, daemon: Daemon, said: list[bytes], asked: Sequence[bytes] = QUESTIONS) -> None:
    """Send it further lines, add them to these, and require the replies of firm alone to all lines."""
    replies = ask_all(daemon, list(asked))
    said += asked
    require(replies == setup.alone(ROSTER, text_of(said))[-len(asked) :], f"other replies: {replies}")


def replayed(daemon: Daemon) -> int:
    """Return the number of lines that it reports to have replayed at its start."""
    words = daemon.said().partition(b"firmd: ready: ")[2].split()
    return int(words[0].replace(b",", b""))


@contextmanager
def with_snapshots(setup: Setup, *options: str) -> Iterator[tuple[Daemon, list[bytes]]]:
    """Start a daemon that has made two snapshots and goes on; yield it and its lines, some after the snapshots."""
    with setup.daemon("--snapshot-lines", str(LINES), *options) as daemon:
        said: list[bytes] = []
        daemon.start()
        for count in (1, 2):
            lines = [*(ROUNDS if count == 1 else MORE), *[b"alpha show", b"beta round"] * 12]
            goes_on(setup, daemon, said, lines)
            has_snapshots(daemon, count)
        goes_on(setup, daemon, said, [b"alpha task j tail", b"alpha round"])
        settles(daemon, said)
        yield daemon, said


def books_of(setup: Setup, lines: list[bytes], roster: bytes = ROSTER) -> Books:
    """Return the books by firm's replies to all lines."""
    books = Books()
    books.start(roster)
    books.replied_all(lines, setup.alone(roster, text_of(lines)), None)
    return books


def shown(daemon: Daemon, lines: int) -> dict[str, Any]:
    """Return the view of readers, without its times, once this many lines are shown."""
    found: dict[str, Any] = {}

    def are_shown() -> bool:
        found.update(shown_now(daemon))
        return bool(found["lines"] == lines)

    wait_for(are_shown, f"{lines} lines are shown", PATIENT)
    return found


def shown_now(daemon: Daemon) -> dict[str, Any]:
    status = asked(daemon, "status")
    rows = [asked(daemon, "watch", tenant=tenant["tenant"])["book"] for tenant in status["tenants"]]
    for task in (task for book in rows if book is not None for task in book["tasks"]):
        task.pop("seconds")
    return {"rows": rows, "tenants": status["tenants"], "lines": status["status"]["lines"]}


def asked(daemon: Daemon, command: str, **words: str) -> Any:
    """Return the view's answer."""
    with Client(daemon.state / "view") as view:
        answer = json.loads(view.ask(json.dumps({"ask": command, **words}).encode()))
    require("error" not in answer, answer)
    return answer


def failures(daemon: Daemon) -> int:
    """Return the number of failed snapshots."""
    found: int = asked(daemon, "status")["status"]["snapshot_failures"]
    return found


def processes(daemon: Daemon) -> list[int]:
    """Return the running processes that it has started, by any of its threads."""
    found: list[int] = []
    for thread in Path(f"/proc/{daemon.running().pid}/task").iterdir():
        with suppress(OSError):  # it has ended meanwhile
            found += map(int, (thread / "children").read_text().split())
    return found


def children(daemon: Daemon) -> list[bytes]:
    """Return the command lines of these."""
    found: list[bytes] = []
    for pid in processes(daemon):
        with suppress(OSError):
            found.append(Path(f"/proc/{pid}/cmdline").read_bytes())
    return found
