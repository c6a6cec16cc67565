"""Checks the whole database: that no row is missing or changed.

This takes some 20 s a gigabyte, so only a small database is checked before it is served. Each row is checked when it is
read in any case.
"""

from __future__ import annotations

import sqlite3
import time
from contextlib import closing
from threading import Event

from .checksums import COLUMNS, Damaged, columns, opened
from .queries import require_all, whole_of

AT_ONCE, PAUSE_SECONDS = 200, 0.002  # rows, and a pause that leaves Python's lock to other threads
# Queries for submissions with missing rows.
LACKING = {
    "needs": "SELECT s.number FROM submission s WHERE s.needs"
    " <> (SELECT COUNT(*) FROM need n WHERE n.number = s.number)",
    "attempts": "SELECT t.number FROM task t WHERE t.attempts"
    " <> (SELECT COUNT(*) FROM attempt a WHERE (a.number, a.idx) = (t.number, t.idx))",
}


def audit(connection: sqlite3.Connection, is_over: Event, pause: float) -> None:
    """Check the database, with a pause after some rows. Raise `Damaged` or sqlite3.Error."""
    with closing(connection):
        connection.execute("BEGIN")  # one snapshot
        ((told,),) = connection.execute("PRAGMA integrity_check(1)").fetchall()
        if told != "ok":
            raise Damaged(" ".join(told.split()))
        for table in COLUMNS:
            require_rows(connection, table, is_over, pause)
        for what, words in LACKING.items():
            for (number,) in connection.execute(f"{words} LIMIT 1"):
                raise Damaged(f"{what} of the submission {number} are missing")


def require_rows(connection: sqlite3.Connection, table: str, is_over: Event, pause: float) -> None:
    """Raise `Damaged` at a changed row of a table, or a submission without all its tasks."""
    count = "(SELECT COUNT(*) FROM task t WHERE t.number = submission.number)"
    more = f", {count}, spec" if table == "submission" else ""
    with closing(connection.execute(f"SELECT {columns(table)}{more} FROM {table}")) as found:
        while (rows := found.fetchmany(AT_ONCE)) and not is_over.is_set():
            for row in rows:
                if more:
                    require_all(whole_of(row), row[-2])
                else:
                    opened(table, row)
            if pause:
                time.sleep(pause)
