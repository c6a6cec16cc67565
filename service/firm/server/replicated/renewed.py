"""The state of a replica that began anew from the snapshot in etcd (renewal.py).

The state after some segment replaces the one that the service began with. `renewed` in the state's folder names it, and
`renewed-DIGEST` has its text. `renewed` is written whole and synced last, so a replica has begun anew if it exists.

    #firm-renewed 1 SUM SEGMENT LINES BYTES CHAIN LENGTH DIGEST
    BOOKS

SEGMENT and what follows are as in server/snapshots.py. The books, an object of JSON, are records that
firmd has and firm doesn't.
"""

from __future__ import annotations

import json
from contextlib import suppress
from dataclasses import dataclass
from pathlib import Path
from typing import Any

from ...common.faults import RESTORE, Exit, Fault, reason
from ...common.files import PRIVATE, replace_synced, write_synced
from ..firm_state import Opening, digest
from ..records import Base, sealed

NAME = "renewed"
KIND = b"firm-renewed 1"
FIELDS = 6


@dataclass(frozen=True, slots=True)
class Renewed:
    base: Base  # the lines before the state
    length: int  # of the state's text, in bytes
    digest: str
    books: dict[str, Any]

    @classmethod
    def of(cls, base: Base, state: bytes, books: bytes) -> Renewed:
        return cls(base, len(state), digest(state), json.loads(books))

    def text(self) -> bytes:
        """Return the text of the file that names the state."""
        segment, lines, size, chain = self.base
        fields = f"{segment} {lines} {size} {chain:08x} {self.length} {self.digest}"
        return sealed(KIND, fields.encode(), json.dumps(self.books, separators=(",", ":")).encode() + b"\n")

    def path(self, folder: Path) -> Path:
        return folder / f"{NAME}-{self.digest}"

    def opening(self, folder: Path) -> Opening:
        return Opening(self.path(folder), is_state=True)


def read(folder: Path) -> Renewed | None:
    """Return the state that a replica began anew from; None if it never did."""
    path = folder / NAME
    try:
        text = path.read_bytes()
    except FileNotFoundError:
        return None
    except OSError as error:
        raise Fault(Exit.STATE, f"cannot read {path}: {reason(error)}") from error
    found = parsed(text)
    if found is None:
        raise Fault(Exit.JOURNAL, f"{path}: this is not what was written; {RESTORE}")
    return found


def parsed(text: bytes) -> Renewed | None:
    """Return the content of such a file; None if it is not as it was written."""
    heading, _, body = text.partition(b"\n")
    fields = heading.split(b" ")[-FIELDS:]
    if sealed(KIND, b" ".join(fields), body) != text:
        return None
    segment, lines, size, chain, length, kept = fields
    base = Base(int(segment), int(lines), int(size), int(chain, 16))
    return Renewed(base, int(length), kept.decode(), json.loads(body))


def require_same(renewed: Renewed, text: bytes, path: Path) -> None:
    """Raise a fault if a state's text differs from the one that was written."""
    if len(text) != renewed.length or digest(text) != renewed.digest:
        raise Fault(Exit.JOURNAL, f"{path}: this is not the state that was written, by its digest; {RESTORE}")


def write_state(folder: Path, renewed: Renewed, text: bytes) -> None:
    """Write the state's text, which no file names yet."""
    write_synced(renewed.path(folder), text, PRIVATE)


def write_name(folder: Path, renewed: Renewed) -> None:
    """Write the name, after which each start continues from the state. Its text must be on the disk."""
    replace_synced(folder / NAME, renewed.text(), PRIVATE)


def clear_texts(folder: Path, renewed: Renewed | None) -> None:
    """Remove the texts that no file names."""
    for path in folder.glob(f"{NAME}-*"):
        if renewed is None or path != renewed.path(folder):
            with suppress(OSError):  # it does no harm
                path.unlink()
