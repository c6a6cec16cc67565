"""Books from the rows that the view sends."""

from __future__ import annotations

import time
from collections.abc import Iterator
from contextlib import contextmanager
from typing import Any

from ..common.books import Books, FirmTask
from ..common.roster import Limits


@contextmanager
def understood() -> Iterator[None]:
    """Raise `ValueError` for a message that this version of the view does not send."""
    try:
        yield
    except (LookupError, TypeError, AttributeError, RecursionError) as error:
        raise ValueError(f"a message of the view is not understood: {error!r}") from error


def state_of(event: dict[str, Any]) -> str:
    """Return the id of the state that the rows belong to."""
    state = event["state"]
    if not isinstance(state, str):
        raise TypeError(f"not the id of a state: {state!r}")
    return state


def books_of(tenant: str, rows: dict[str, Any] | None) -> Books:
    """Return books with one tenant, from its rows in the view; without tenants if the rows are None."""
    books = Books()
    if rows is not None:
        record = Limits(tenant, **rows["limits"]).row()
        books.replied(f"+ admit {record}".encode(), f"+ ok admitted {tenant}".encode(), None)
        book = books.tenants[tenant]
        book.machines = {row["machine"]: row["slots"] for row in rows["machines"]}
        book.jobs = {row["job"]: row["weight"] for row in rows["jobs"]}
        now = time.time()
        for row in rows["tasks"]:
            waits_from = rows["rounds"] - row["waited"]
            since = None if row["seconds"] is None else now - row["seconds"]
            place = (tuple(row["prefers"]), waits_from, since, row["machine"])
            book.tasks[row["task"]] = FirmTask(row["job"], row["line"], *place)
        book.rounds = rows["rounds"]
        book.costs.extend(rows["costs"])
        book.waiting = sum(task.machine is None for task in book.tasks.values())
    return books
