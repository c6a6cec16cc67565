"""The number of acknowledged commits, in a file beside the database, which shows a loss of the last ones.

SQLite ends its log silently at the first damaged frame, as after a crash, and accepts an older copy of itself. So the
database counts its commits, and this file has that count too. It is synced after each commit, before any answer: the
database is at most one commit ahead, and never lacks one.
"""

from __future__ import annotations

import os
from pathlib import Path

from ..common.files import PRIVATE, replace_synced
from ..server.records import sector_fields, sector_text

KIND = b"firm-reach 1"


class Reach:
    """The open file. Writing a number opens no file and needs no room on the disk."""

    def __init__(self, path: Path, state: str, number: int) -> None:
        self.path, self.state, self.number = path, state, number
        self._file = os.open(path, os.O_WRONLY)

    @classmethod
    def make(cls, path: Path, state: str, number: int) -> Reach:
        """Create the file, synced."""
        replace_synced(path, text_of(state, number), PRIVATE)
        return cls(path, state, number)

    @classmethod
    def read(cls, path: Path) -> Reach | None:
        """Open the file, if any. Raise `Fault` if it is damaged."""
        fields = sector_fields(path, KIND, "a queue")
        return None if fields is None else cls(path, fields[0].decode(), int(fields[1]))

    def keep(self, number: int) -> None:
        """Write a number, synced."""
        os.pwrite(self._file, text_of(self.state, number), 0)
        os.fdatasync(self._file)
        self.number = number

    def close(self) -> None:
        os.close(self._file)


def text_of(state: str, number: int) -> bytes:
    return sector_text(KIND, f"{state} {number}".encode())
