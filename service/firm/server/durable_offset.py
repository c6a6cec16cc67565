"""The durable offset: the file `extent` next to the journal's segments, which records their end.

Each write of lines updates it without a sync, which would double the syncs. After a power cut it may be half a minute
older than the journal, never newer. It is synced when a segment begins and when firmd stops. Each record of the journal
has the number of bytes before it that were not synced when it was written: so a torn write differs from damage.
"""

from __future__ import annotations

import os
from pathlib import Path
from typing import NamedTuple

from ..common.files import replace_synced
from .records import sector_fields, sector_text

KIND = b"firm-extent 3"


class DurableOffset(NamedTuple):
    state: bytes  # the state's id
    segment: int  # the last segment
    size: int  # its synced bytes
    chain: int  # the checksum of all segments up to there

    @classmethod
    def read(cls, path: Path) -> DurableOffset | None:
        """Return the offset, or None without a file. Raise a fault if the file is damaged."""
        fields = sector_fields(path, KIND, "firmd")
        if fields is None:
            return None
        state, segment, size, chain = fields
        return cls(state, int(segment), int(size), int(chain, 16))

    def text(self) -> bytes:
        return sector_text(KIND, b"%b %d %d %08x" % self)


class DurableOffsetFile:
    """The open file, so that an update opens no file and needs no free space."""

    def __init__(self, path: Path) -> None:
        self._file = os.open(path, os.O_WRONLY)

    @classmethod
    def make(cls, path: Path, offset: DurableOffset) -> DurableOffsetFile:
        """Make a new file, on the disk."""
        replace_synced(path, offset.text())
        return cls(path)

    def keep(self, offset: DurableOffset) -> None:
        os.pwrite(self._file, offset.text(), 0)

    def sync(self) -> None:
        os.fdatasync(self._file)

    def close(self) -> None:
        os.close(self._file)
