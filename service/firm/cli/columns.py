"""The table of tasks that firmctl prints."""

from __future__ import annotations

import shlex
from collections.abc import Iterable, Iterator, Sequence
from functools import lru_cache
from time import localtime, strftime
from typing import NamedTuple

from ..common import tables
from ..common.tables import Column, Row, printable

MAX_COMMAND = 32  # letters in a table


def cell_of(text: str | None) -> str:
    """Return a user's text with control characters escaped, or a dash without a text."""
    return printable(text) if text else "-"


def escaped(head: str, key: str) -> Column:
    """Return a column of such a text."""
    return Column(head, lambda row: cell_of(row[key]))


def command_cell(command: Sequence[str] | None) -> str:
    # Read only the shown part: a command may have many words, or long ones.
    return shortened(tuple(word[: MAX_COMMAND + 1] for word in (command or ())[: MAX_COMMAND + 1]))


@lru_cache(maxsize=1_000)  # the tasks of an array have one command
def shortened(words: tuple[str, ...]) -> str:
    text = printable(shlex.join(words)) or "-"
    return text if len(text) <= MAX_COMMAND else text[: MAX_COMMAND - 2] + ".."


TIME = Column("TIME", lambda row: tables.duration(row["seconds"]), is_number=True)
COMMAND = Column("COMMAND", lambda row: command_cell(row["command"]))
TASKS = [escaped("TASK", "task"), escaped("USER", "user"), escaped("JOB", "job"), escaped("STATE", "state")]
TASKS += [escaped("MACHINE", "machine"), TIME, COMMAND, escaped("REASON", "reason")]
STATE, REASON = 3, 7  # their places among these


def moment(time: float | None) -> str:
    """Return a Unix time as local time."""
    return "-" if time is None else strftime("%m-%d %H:%M:%S", localtime(time))


class TableLine(NamedTuple):
    """A line of the table: one task, or several of an array."""

    number: int | None  # of its submission
    at: int | None  # its index; None for a task that is no array's or has begun: it has its own line
    cells: tuple[str, ...]  # of TASKS, in their order


def line_of(row: Row) -> TableLine:
    is_alone = row["machine"] is not None or row["attempt"] > 0
    return TableLine(
        row["number"], None if is_alone else row["index"], tuple(str(column.cell(row)) for column in TASKS)
    )


def collapsed(lines: Iterable[TableLine]) -> Iterator[tuple[str, ...]]:
    """Yield the lines. Consecutive waiting tasks of an array share a line, such as 12_[4-500]."""
    first: TableLine | None = None
    last = -1  # the index of the line before
    for line in lines:
        if first is not None and line.at == last + 1 and is_alike(first, line):
            last += 1
            continue
        if first is not None:
            yield joined(first, last)
        first, last = line, -1 if line.at is None else line.at
    if first is not None:
        yield joined(first, last)


def is_alike(first: TableLine, line: TableLine) -> bool:
    """Return whether two unstarted tasks of an array differ only in their index."""
    if first.at is None or first.number != line.number:
        return False
    return first.cells[STATE] == line.cells[STATE] and first.cells[REASON] == line.cells[REASON]


def joined(first: TableLine, last: int) -> tuple[str, ...]:
    if first.at is None or first.at == last:
        return first.cells
    return (f"{first.number}_[{first.at}-{last}]", *first.cells[1:])


def table(tasks: Iterable[Row]) -> str:
    return tables.aligned(TASKS, collapsed(map(line_of, tasks)))


def table_with_starts(tasks: Iterable[Row]) -> str:
    """Return the same with the estimated start of each line's first task."""
    lines = ((line_of(row), moment(row["start"])) for row in tasks)
    cells = collapsed(TableLine(line.number, line.at, (*line.cells, start)) for line, start in lines)
    start = Column("START", lambda row: row["start"])
    return tables.aligned(
        [*TASKS[:REASON], start, TASKS[REASON]], ((*line[:REASON], line[-1], line[REASON]) for line in cells)
    )
