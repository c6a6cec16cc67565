"""Rows of firm and of Slurm for tests/slurm_tables.py."""

from __future__ import annotations

from math import inf
from pathlib import Path
from typing import Any

from harness.checks import require
from harness.deployed import Book, books, roster, slurm

from firm.common.settings import SettingsFile

reading = slurm.reading
NOW = 1_000_000.0
Use, State, Hold = reading.Use, reading.JobState, reading.Hold
OPEN, UNCLEAR, CLOSED, BOOKED, GONE = Use.OPEN, Use.UNCLEAR, Use.CLOSED, Use.BOOKED, Use.GONE
PENDING, STARTING, RUNNING, LEAVING = State.PENDING, State.STARTING, State.RUNNING, State.LEAVING
RELEASED, HELD, OTHER, MISSED, FAILED = Hold.NONE, Hold.FIRM, Hold.OTHER, Hold.MISSED, Hold.FAILED

KIND = "user|big|1|1|0|0|*:*:*|N/A|N/A"
JOB = reading.SlurmJob(
    "1", 7, 0, "JobHeldUser", "light", "", (), None, PENDING, HELD, False, (), None, None, None, None, None, None, inf,
    ("light", "(null)", "(null)", *KIND.split("|")),
)  # fmt: skip


def job(name: str = "1", **fields: Any) -> reading.SlurmJob:
    return JOB._replace(name=name, **fields)


def running(name: str, node: str, **fields: Any) -> reading.SlurmJob:
    return job(name, state=RUNNING, hold=RELEASED, node=node, pinned=node, started=NOW - 9, **fields)


def pinned(name: str, node: str, seconds: float = 1.0, **fields: Any) -> reading.SlurmJob:
    """Return a job that was released for a node this many seconds before Slurm last looked at it."""
    fields = {"hold": RELEASED, "eligible": NOW - 100, "evaluated": NOW - 100 + seconds, **fields}
    return job(name, pinned=node, **fields)


def node(name: str, use: Any = OPEN, allocated: int = 0, reserved: float = inf) -> reading.Node:
    return reading.Node(name, 4, allocated, use, reserved)


def book_of(machines: str = "", tasks: str = "", limits: str = "") -> Book:
    """Return rows like `m1 m2` and `1:m1 2:- light/3:m2`: a task with its machine, by default of the job j."""
    numbers = [int(word) for word in (limits or "30,300,1000,0,9,5").split(",")]
    book = Book(roster.Limits("alpha", *numbers))
    book.machines = dict.fromkeys(machines.split(), 4)
    for word in tasks.split():
        name, _, machine = word.partition(":")
        group, _, name = name.rpartition("/")
        book.jobs[group or "light"] = 10
        place = None if machine == "-" else machine
        book.tasks[name] = books.FirmTask(group or "light", len(book.tasks), (), 0, NOW - 5, place)
        book.waiting += place is None
    return book


def few_slots(slots: int, tasks: str = "") -> Book:
    book = book_of("m1", tasks)
    book.machines["m1"] = slots
    return book


def partition(**fields: Any) -> slurm.table.Partition:
    row: dict[str, Any] = {"socket": "lines", "weights": {"heavy": 1_000}, **fields}
    file = SettingsFile(Path("/slurm.toml"), "", {"partitions": {"batch": row}})
    found = slurm.table.partition_of(file, "batch")
    require(not file.findings, file.findings)
    return found


def by_name(rows: list[Any]) -> dict[str, Any]:
    return {row.name: row for row in rows}


def waits(name: str, machine: str, reason: str = "Resources", **fields: Any) -> reading.SlurmJob:
    """Return a job that was released for a node, with Slurm's reason for its wait."""
    return pinned(name, machine, reason=reason, priority=100 - int(name.rpartition("-")[2]), **fields)
