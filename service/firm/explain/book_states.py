"""Converts a tenant's book to the text of a state, and back."""

from __future__ import annotations

from collections.abc import Iterator
from dataclasses import fields, replace

from ..common.books import Book, FirmTask
from ..server.firm_state import EXTENDED_HEADING, HEADING, TenantRows
from ..server.stored_books import read_books, rows_of


def text_of(book: Book) -> str:
    """Return the state of a service with only this tenant, in the first place; extended if the tenant needs that."""
    heading = EXTENDED_HEADING if book.limits.has_patience else HEADING
    rows = ["place admissions 1", *rows_in(rows_of(book))]
    return heading.decode() + "\n".join([*rows, f"rows {len(rows)}", ""])


def rows_in(tenant: TenantRows) -> Iterator[str]:
    limits = tenant.limits
    named = fields(limits)[1:] if limits.has_patience else fields(limits)[1:-1]
    numbers = (f"{field.name} {getattr(limits, field.name)}" for field in named)
    yield " ".join(["tenant", limits.tenant, *numbers, "commands", str(tenant.commands)])
    yield " ".join(["costs", *map(str, tenant.costs)])
    yield from (f"machine {name} {slots}" for name, slots in tenant.machines.items())
    yield from (f"job {name} {weight}" for name, weight in tenant.jobs.items())
    for task in tenant.tasks:
        where = f"waits {task.waits}" if task.machine is None else f"at {task.machine}"
        near = " ".join(["", "prefers", *task.prefers]) if task.prefers else ""
        yield f"task {task.job} {task.name} {where}{near}"


def book_of(text: str) -> Book:
    """Return the book of the only tenant of a state. Raise `ValueError` for any other text."""
    (book,) = read_books(text.encode("ascii"), None, 0).tenants.values()
    return book


def tenant_in(text: str) -> str:
    """Return the name of the only tenant of a state."""
    return text.partition("\ntenant ")[2].partition(" ")[0]


def copy_of(book: Book) -> Book:
    """Return a book with the same rows, to be changed."""
    tasks = {
        name: FirmTask(task.job, task.line, task.prefers, task.waits_from, task.since, task.machine)
        for name, task in book.tasks.items()
    }
    costs, refused = book.costs.copy(), book.refused.copy()
    rows = {"machines": dict(book.machines), "jobs": dict(book.jobs), "tasks": tasks}
    return replace(book, costs=costs, refused=refused, **rows)
