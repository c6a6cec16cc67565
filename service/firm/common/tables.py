"""Tables for a terminal: upper-case heads, aligned columns, no boxes."""

from __future__ import annotations

from collections.abc import Callable, Iterable, Sequence
from dataclasses import dataclass
from typing import Any

Row = dict[str, Any]
UNITS = ("", "K", "M", "G", "T")  # of bytes


@dataclass(frozen=True, slots=True)
class Column:
    head: str
    cell: Callable[[Row], object]
    is_number: bool = False  # aligned to the right


def text(head: str, key: str) -> Column:
    """Return a column of a row's value; a dash without one."""
    return Column(head, lambda row: "-" if row[key] is None else row[key])


def number(head: str, key: str) -> Column:
    return Column(head, lambda row: "-" if row[key] is None else row[key], is_number=True)


def names(head: str, key: str) -> Column:
    """Return a column of a row's list."""
    return Column(head, lambda row: ",".join(row[key]) or "-")


def duration(seconds: float | None) -> str:
    """Return a time as squeue prints it: M:SS, H:MM:SS or D-HH:MM:SS; a dash if unknown."""
    if seconds is None:
        return "-"
    minutes, second = divmod(int(seconds), 60)
    hours, minute = divmod(minutes, 60)
    days, hour = divmod(hours, 24)
    if days:
        return f"{days}-{hour:02}:{minute:02}:{second:02}"
    return f"{hour}:{minute:02}:{second:02}" if hour else f"{minute}:{second:02}"


def size(count: int | None) -> str:
    """Return bytes as 512K or 1.5G; a dash if unknown."""
    if count is None:
        return "-"
    place = 0
    while count >= 1_024 ** (place + 1) and place < len(UNITS) - 1:
        place += 1
    value = count / 1_024**place
    return f"{value:.0f}{UNITS[place]}" if value >= 100 else f"{value:.3g}{UNITS[place]}"


def table(columns: Sequence[Column], rows: Iterable[Row]) -> str:
    """Return the rows below their heads, each line with its end."""
    return aligned(columns, ([str(column.cell(row)) for column in columns] for row in rows))


def aligned(columns: Sequence[Column], lines: Iterable[Sequence[str]]) -> str:
    """Return the table of these cells. Pad a column as a whole, since a table may have thousands of lines."""
    padded = []
    for column, cells in zip(columns, zip([column.head for column in columns], *lines)):
        width = max(map(len, cells))
        padded.append(
            [cell.rjust(width) for cell in cells] if column.is_number else [cell.ljust(width) for cell in cells]
        )
    return "".join(["  ".join(line).rstrip() + "\n" for line in zip(*padded)])


def printable(line: str) -> str:
    """Return the text with control characters escaped, so that it can't steer a terminal."""
    if line.isprintable():
        return line
    return "".join(c if c.isprintable() else c.encode("unicode_escape").decode() for c in line)
