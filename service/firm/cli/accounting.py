"""Sums of ended attempts, by day, tenant, job or user, for `firmctl history`."""

from __future__ import annotations

import time
from collections.abc import Callable, Iterable, Iterator
from dataclasses import dataclass

from ..common.tables import Column, Row, duration, number, printable
from ..queue.states import BY_FIRM

STATES = "held blocked queued waiting starting running ending done failed timeout cancelled unmet lost foreign".split()
WITH_PROCESS = ("starting", "running", "ending")
KEYS = ("day", "tenant", "job", "user")
Key = Callable[[Row], str]


@dataclass(slots=True)
class Sum:
    """The sum of one key's attempts."""

    attempts: int = 0
    done: int = 0
    failed: int = 0  # including those past their time limit
    again: int = 0  # preempted or moved, to run again
    others: int = 0
    seconds: float = 0.0  # in slots
    cpu_seconds: float = 0.0  # of processors

    def add(self, attempt: Row) -> None:
        self.attempts += bool(attempt["attempt"])
        self.done += attempt["outcome"] == "done"
        self.failed += attempt["outcome"] in ("failed", "timeout")
        self.again += attempt["outcome"] in BY_FIRM
        self.others += attempt["outcome"] not in ("done", "failed", "timeout", *BY_FIRM)
        self.seconds += attempt["seconds"] or 0.0
        self.cpu_seconds += attempt["cpu_seconds"] or 0.0


SUMS = [Column("KEY", lambda row: printable(row["key"])), number("ATTEMPTS", "attempts"), number("DONE", "done")]
SUMS += [number("FAILED", "failed"), number("AGAIN", "again"), number("OTHERS", "others")]
SUMS += [Column("TIME", lambda row: duration(row["seconds"]), is_number=True)]
SUMS += [Column("CPU", lambda row: duration(row["cpu_seconds"]), is_number=True)]


def key_of(by: str, tenant: str) -> Key:
    if by == "day":
        return lambda attempt: time.strftime("%Y-%m-%d", time.localtime(attempt["ended"])) if attempt["ended"] else "-"
    if by == "tenant":
        return lambda attempt: tenant
    return lambda attempt: str(attempt[by])


def sums(attempts: Iterable[Row], key: Key) -> Iterator[Row]:
    """Yield a row for each key, in order."""
    found: dict[str, Sum] = {}
    for attempt in attempts:
        found.setdefault(key(attempt), Sum()).add(attempt)
    for name, total in sorted(found.items()):
        counts = {field: getattr(total, field) for field in ("attempts", "done", "failed", "again", "others")}
        yield {"key": name, **counts, "seconds": round(total.seconds, 3), "cpu_seconds": round(total.cpu_seconds, 3)}


def safe_cell(value: object) -> object:
    """Return a cell that no spreadsheet reads as a formula, and that can't steer a terminal."""
    if not isinstance(value, str):
        return value
    return printable(f"'{value}" if value[:1] in ("=", "+", "-", "@") else value)
