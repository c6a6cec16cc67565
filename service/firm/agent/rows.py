"""The rows of firm that concern an agent, as the queue tells them."""

from __future__ import annotations

from dataclasses import dataclass

from ..common.fields import NAME
from ..queue.reports import COUNT
from .state import Event


@dataclass(frozen=True, slots=True)
class Row:
    """A task in firm."""

    line: int  # that submitted it, counted from the beginning of firmd's state
    job: str
    machine: str | None  # on which firm has placed it, perhaps another agent's


@dataclass(frozen=True, slots=True)
class Rows:
    """All that firm has of an agent's machines, and of the tasks of its runs."""

    state: str  # firmd's, by its id
    machines: dict[str, int]  # with their slots
    tasks: dict[str, Row]


def rows_of(event: Event) -> Rows | None:
    """Return the rows of an event, None if firm is away. Raise ValueError if it is malformed."""
    try:
        if event["state"] is None:
            return None
        machines = {NAME.read(machine): COUNT.read(slots) for machine, slots in event["machines"].items()}
        tasks = {NAME.read(row["task"]): row_of(row) for row in event["tasks"]}
        if not isinstance(event["state"], str):
            raise TypeError("state")
        return Rows(event["state"], machines, tasks)
    except (LookupError, TypeError, ValueError, AttributeError) as error:
        raise ValueError(f"malformed rows of firm: {error!r}") from None


def row_of(given: Event) -> Row:
    machine = given["machine"]
    return Row(COUNT.read(given["line"]), NAME.read(given["job"]), None if machine is None else NAME.read(machine))
