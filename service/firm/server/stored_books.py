"""Books of a service, from its state and a file with the records that firmd has and firm doesn't.

    {"refusals":{},"tenants":{"alpha":{"rounds":2,"refused":{},"costs":[0,10],"lines":[3,5]}}}

The file has the refusals of lines without a tenant. For each tenant, in the order of admission, it has the rounds, the
refusals by their text, the last 120 costs, and for each task the number of the line that submitted it, or 0 if another
service did. A replica's file has under `replica` the CRC-32 of all lines, the digest of all replies up to a multiple of
256 lines, and the replies since.
"""

from __future__ import annotations

import json
from collections import Counter, deque
from typing import Any

from ..common.books import COSTS_KEPT, Book, Books, FirmTask
from ..common.faults import Exit, Fault
from ..common.roster import RosterError
from .firm_state import Opening, TaskRow, TenantRows, tenants_of
from .state import StateFolder

COSTS_OF_STATE = 8  # of a tenant's last rounds
# Of a tenant without records of firmd, after a beginning with another service's state.
UNKNOWN: dict[str, Any] = {"rounds": 0, "refused": {}, "costs": None, "lines": None}


def start_books(opening: Opening, text: bytes) -> Books:
    """Return the books before any line."""
    try:
        if opening.is_state:
            return read_books(text, None, 0)
        books = Books()
        books.start(text)
        return books
    except (RosterError, ValueError) as error:
        raise Fault(Exit.ROSTER, f"{opening.path}: {error}") from error


def opening_books(state: StateFolder, text: bytes) -> Books:
    """Return the books after the opening, by its text."""
    if state.renewed is None:
        return start_books(state.opening, text)
    try:
        return read_books(text, json.dumps(state.renewed.books).encode(), state.base.lines)
    except ValueError as error:
        raise Fault(Exit.JOURNAL, f"{state.opening.path} is of another version of firmd: {error}") from error


def books_text(books: Books, more: dict[str, Any] | None = None) -> bytes:
    """Return the records that a state lacks: rounds, refusals and costs of each tenant, and lines of its tasks."""
    tenants = {
        name: {
            "rounds": book.rounds,
            "refused": {reply.decode("ascii"): count for reply, count in book.refused.items()},
            "costs": list(book.costs),
            "lines": [task.line for task in book.tasks.values()],
        }
        for name, book in books.tenants.items()
    }
    kept = {"refusals": books.refusals, "tenants": tenants, **(more or {})}
    return json.dumps(kept, separators=(",", ":")).encode()


def read_books(state: bytes, text: bytes | None, lines: int) -> Books:
    """Return the books from a state and the text of its records. Raise `ValueError` unless they fit."""
    kept = json.loads(text) if text is not None else {"refusals": {}, "tenants": {}}
    books = Books()
    books.lines, books.refusals = lines, Counter(kept["refusals"])
    for rows in tenants_of(state):
        books.put(book_of(rows, kept["tenants"].get(rows.limits.tenant, UNKNOWN)))
    order = [name for name in kept["tenants"] if name in books.tenants]
    if text is not None and len(order) != len(books.tenants):
        raise ValueError("the state has other tenants than the books")
    for name in order:  # in the order of admission; a state has that of places
        books.tenants[name] = books.tenants.pop(name)
    return books


def book_of(rows: TenantRows, kept: dict[str, Any]) -> Book:
    rounds, lines = kept["rounds"], kept["lines"]
    if lines is None:
        lines = [0] * len(rows.tasks)  # no line of this journal submitted them
    tasks = {
        row.name: FirmTask(row.job, line, row.prefers, rounds - row.waits, None, row.machine)
        for row, line in zip(rows.tasks, lines, strict=True)
    }
    waiting = sum(task.machine is None for task in tasks.values())
    costs = deque(rows.costs if kept["costs"] is None else kept["costs"], maxlen=COSTS_KEPT)
    refused = Counter({reply.encode(): count for reply, count in kept["refused"].items()})
    number = b"%d" % rows.commands
    return Book(rows.limits, rows.machines, rows.jobs, tasks, waiting, rounds, costs, refused, number)


def difference(books: Books, state: bytes) -> str | None:
    """Return the first difference between a state and the books from replies, if any."""
    found = tenants_of(state)
    names, known = [rows.limits.tenant for rows in found], list(books.tenants)
    if sorted(names) != sorted(known):
        return f"the state has the tenants {names}, and the replies give {known}"
    for rows in found:
        if rows_of(books.tenants[rows.limits.tenant]) != rows:
            return f"the state has other rows of {rows.limits.tenant} than the replies give"
    return None


def rows_of(book: Book) -> TenantRows:
    """Return a book's rows as a state has them."""
    tasks = [
        TaskRow(name, task.job, task.machine, book.waited(task), task.prefers) for name, task in book.tasks.items()
    ]
    costs = list(book.costs)[-COSTS_OF_STATE:]
    return TenantRows(book.limits, book.commands, costs, book.machines, book.jobs, tasks)
