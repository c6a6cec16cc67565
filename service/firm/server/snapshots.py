"""Snapshots: the state of a service after some segments of its journal, from which a start continues.

A snapshot is two files in the state's folder: SEGMENT.state, a state as firm reads it, and SEGMENT.snapshot, which is
written later. That names the service, the lines before the state, its digest, and records that only firmd has, as JSON:

    #firm-snapshot 1 SUM STATE SEGMENT ROSTER LINES BYTES CHAIN TIME LENGTH DIGEST

SEGMENT is the last segment before the state. LINES, BYTES and CHAIN are those of the next segment's header, which shows
that the snapshot is of this journal. TIME is in milliseconds since 1970, LENGTH and DIGEST (BLAKE2b, 16 bytes) are
those of the state, and the other fields are as in records.py.
"""

from __future__ import annotations

import re
from collections.abc import Callable, Collection, Iterator
from contextlib import suppress
from dataclasses import dataclass
from pathlib import Path

from ..common.faults import Fault, say
from ..common.files import PRIVATE, make_folder, replace_synced, require_room
from .firm_state import Opening, digest, is_extended
from .records import Base, sealed
from .recovery import read_header, segment_path
from .state import StateFolder

VERSION = 1
KIND = b"firm-snapshot %d" % VERSION
KEPT = 2  # snapshots to keep, in case that the last one is damaged
HEADING_FIELDS = 9
ROOM_BYTES = 2**20  # to leave free for lines, in addition to the snapshot's size: on a full disk the service ends

_NAME = re.compile(r"[0-9]{8,}\.(snapshot|state)(\.new)?")


Fits = Callable[["Snapshot"], bool]  # whether a snapshot can be used


class Unusable(Exception):
    """The reason why a snapshot is unusable."""


@dataclass(frozen=True, slots=True)
class Snapshot:
    history: str  # the state's id
    roster: int  # the checksum of its beginning
    base: Base  # the lines before it
    time: int  # of its making, in milliseconds since 1970
    books: bytes  # records that only firmd has: JSON, without a line feed
    state: bytes  # as firm reads it

    def heading(self) -> bytes:
        """Return the text of the file beside the state."""
        _, lines, size, chain = self.base
        fields = f"{self.history} {self.base.segment} {self.roster:08x} {lines} {size} {chain:08x} {self.time}"
        return sealed(KIND, f"{fields} {len(self.state)} {digest(self.state)}".encode(), self.books + b"\n")


def paths_of(folder: Path, segment: int) -> tuple[Path, Path]:
    """Return the files of a snapshot: the state, and its description."""
    return folder / f"{segment:08}.state", folder / f"{segment:08}.snapshot"


def segments_of(folder: Path) -> list[int]:
    """Return the last segments of the existing snapshots, the newest first."""
    stems = [path.stem for path in folder.glob("*.snapshot")]
    return sorted((int(stem) for stem in stems if stem.isdecimal() and stem == f"{int(stem):08}"), reverse=True)


def write(folder: Path, snapshot: Snapshot) -> None:
    """Write a snapshot. Its contents are on the disk before its name is."""
    make_folder(folder, 0o700)
    require_room(folder, 2 * (len(snapshot.state) + len(snapshot.books)) + ROOM_BYTES)
    state, heading = paths_of(folder, snapshot.base.segment)
    heading.unlink(missing_ok=True)  # if one is rewritten, it would describe another state
    replace_synced(state, snapshot.state, PRIVATE)
    replace_synced(heading, snapshot.heading(), PRIVATE)


def keep_alone(folder: Path, kept: Collection[int]) -> None:
    """Remove all snapshots but these, and parts of others that a crash left."""
    wanted = {path.name for segment in kept for path in paths_of(folder, segment)}
    for path in sorted(folder.iterdir()):  # a description goes before its state
        if path.name not in wanted and _NAME.fullmatch(path.name):
            path.unlink(missing_ok=True)


def read(folder: Path, segment: int) -> Snapshot:
    """Return an undamaged snapshot. Raise `Unusable` otherwise."""
    state_path, path = paths_of(folder, segment)
    try:
        text, state = path.read_bytes(), state_path.read_bytes()
    except OSError as error:
        raise Unusable(f"{error.filename}: {error.strerror}") from error
    begins = text.partition(b"\n")[0].split(b" ")
    if begins[0] == b"#firm-snapshot" and begins[1:2] != [b"%d" % VERSION]:
        raise Unusable(f"{path}: it is of another version of firmd")
    fields = fields_of(text)
    if fields is None:
        raise Unusable(f"{path}: this is not what was written")
    *numbers, length, kept = fields
    if len(state) != int(length) or digest(state).encode() != kept:
        raise Unusable(f"{state_path}: this is not the state that was written, by its digest")
    history, last, roster, lines, size, chain, time = numbers
    if int(last) != segment:
        raise Unusable(f"{path}: it is the snapshot of another segment, {int(last)}")
    base = Base(segment, int(lines), int(size), int(chain, 16))
    return Snapshot(history.decode(), int(roster, 16), base, int(time), text.partition(b"\n")[2][:-1], state)


def fields_of(text: bytes) -> list[bytes] | None:
    """Return the fields of a snapshot's heading, if the file's checksum is right."""
    heading, _, books = text.partition(b"\n")
    parts = heading.split(b" ")
    if len(parts) != 3 + HEADING_FIELDS or not books.endswith(b"\n") or books.count(b"\n") != 1:
        return None
    fields = parts[3:]
    return fields if sealed(KIND, b" ".join(fields), books) == text else None


def of_journal(state: StateFolder, segment: int) -> Snapshot:
    """Return an undamaged snapshot of this state's journal. Raise `Unusable` otherwise."""
    snapshot = read(state.snapshots_path, segment)
    path = segment_path(state.journal_path, segment + 1)
    try:
        header = read_header(path)
    except Fault as fault:
        raise Unusable(f"{path}, which follows the snapshot, can't be compared with it: {fault}") from fault
    if Base.before(header) != snapshot.base:
        raise Unusable(f"{path} is not what follows the snapshot {segment:08}: that is of another journal")
    if snapshot.roster != state.roster_sum:
        raise Unusable(f"the snapshot {segment:08} is of a service that began with other tenants")
    if is_extended(snapshot.state) != state.is_extended:
        raise Unusable(f"the snapshot {segment:08} has another heading than {state.opening.path}")
    return snapshot


def usable(state: StateFolder, before: int | None = None) -> Iterator[Snapshot | Unusable]:
    """Yield the snapshots of a state, the newest first, or the reason why one is unusable; only those before a segment,
    if named."""
    for segment in segments_of(state.snapshots_path):
        if before is None or segment < before:
            try:
                yield of_journal(state, segment)
            except Unusable as reason:
                yield reason


def any_fits(_: Snapshot) -> bool:
    return True


def last(state: StateFolder, before: int | None = None, fits: Fits = any_fits) -> Snapshot | None:
    """Return the last usable snapshot, before a segment if named. Report unusable ones."""
    for found in usable(state, before):
        if isinstance(found, Snapshot):
            if fits(found):
                return found
            found = Unusable(f"{found.base.segment:08} was made before this was a replica")
        say(f"a snapshot is not used, but the one before it, or the whole journal: {found}")
    return None


def opening_of(state: StateFolder, snapshot: Snapshot) -> Opening:
    """Return the snapshot's state as the opening for firm."""
    return Opening(paths_of(state.snapshots_path, snapshot.base.segment)[0], is_state=True)


def remove_all(folder: Path) -> None:
    """Remove all snapshots, since their segments are rewritten."""
    if folder.exists():
        keep_alone(folder, ())
        with suppress(OSError):
            folder.rmdir()
