"""Checksums of the database's rows, which show a changed bit wherever a row is read.

SQLite checks neither its pages nor their cells. So each row has the CRC-32 of its table's name and of its other values
as `ascii` writes them: this finds damage, not a forger. `repr` would write a letter otherwise once a further Python
knows it. A submission's words, which may be long, have a separate checksum, so that lists need not read them.
"""

from __future__ import annotations

import sqlite3
from collections.abc import Iterable, Sequence
from typing import Any
from zlib import crc32

SUM = "sum"  # the last column of all tables but `submission`, which has the words after it
# Columns before that one.
COLUMNS = {
    "meta": "name value",
    "submission": "number user job weight first last sent needs words",
    "request": "user key number answer",
    "need": "number place needs idx is_ok",
    "task": "number idx is_held is_cancelled failures lost outcome status reason ended attempts",
    "attempt": "number idx attempt agent agent_id machine run token claimed began ended seconds outcome status reason"
    " output host is_kept runs_as max_rss cpu_seconds",
    "agent": "name id machines",
    "mark": "machine mark user reason",
    "spent": "user bytes at",
}
WIDTHS = {table: len(names.split()) + 1 for table, names in COLUMNS.items()}
STARTS = {table: crc32(table.encode()) for table in COLUMNS}
KEYS = {"submission": 1, "request": 2, "need": 2, "task": 2, "attempt": 3}  # number of columns, 1 for all others
# Errors of the file itself; others, as of a full disk, are temporary.
DAMAGE = {sqlite3.SQLITE_CORRUPT, sqlite3.SQLITE_NOTADB, sqlite3.SQLITE_ERROR, sqlite3.SQLITE_FORMAT}


class Damaged(sqlite3.DatabaseError):
    """The database is damaged; the text says where."""


def columns(table: str, alias: str = "") -> str:
    """Return the columns of a table up to the checksum, for a SELECT."""
    before = f"{alias}." if alias else ""
    return ", ".join(f"{before}{name}" for name in (*COLUMNS[table].split(), SUM))


def places(table: str) -> str:
    """Return as many question marks, for an INSERT."""
    return ", ".join("?" * WIDTHS[table])


def seal(table: str, values: tuple[Any, ...]) -> int:
    """Return the checksum of a row, whose numbers have the types of their columns: none is a bool."""
    return crc32(ascii(values).encode(), STARTS[table])


def sealed(table: str, rows: Iterable[tuple[Any, ...]]) -> list[tuple[Any, ...]]:
    """Return the rows with their checksums."""
    start = STARTS[table]
    return [(*row, crc32(ascii(row).encode(), start)) for row in rows]


def seals_of_new(number: int, indices: Iterable[int], is_held: int) -> list[int]:
    """Return the checksums of a new submission's tasks as `seal` does, in a third of its time: arrays have many."""
    start = crc32(f"({number}, ".encode(), STARTS["task"])
    end = f", {is_held}, 0, 0, 0, None, None, '', None, 0)"
    return [crc32(f"{index}{end}".encode(), start) for index in indices]


def opened(table: str, row: tuple[Any, ...]) -> tuple[Any, ...]:
    """Return the values of a row that was read with its checksum. Raise `Damaged` if it is another."""
    values = row[: WIDTHS[table] - 1]
    if row[WIDTHS[table] - 1] != seal(table, values):
        raise Damaged(f"the row {key_of(table, values)} of {table} is not as it was written")
    return values


def words_seal(words: str) -> int:
    """Return the checksum of a submission's words."""
    return crc32(words.encode())


def require_words(number: int, words: str, wanted: int) -> None:
    if words_seal(words) != wanted:
        raise Damaged(f"the words of the submission {number} are not as they were written")


def key_of(table: str, values: Sequence[Any]) -> str:
    return ", ".join(repr(value) for value in values[: KEYS.get(table, 1)])


def is_damage(error: BaseException | None) -> bool:
    """Return whether an error means damage."""
    if isinstance(error, sqlite3.Error) and not isinstance(error, Damaged):
        code = getattr(error, "sqlite_errorcode", None)  # errors of Python's own, as at invalid UTF-8, have none
        return code & 0xFF in DAMAGE if code is not None else "decode" in str(error)
    return isinstance(error, Damaged)
