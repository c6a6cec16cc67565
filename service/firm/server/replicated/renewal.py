"""Begins a replica anew from the snapshot in etcd, if its own lines end before those in etcd.

The former journal stays in `journal.former` until the next time. The file `anew` exists meanwhile, so the next start
completes a renewal that a crash interrupted.
"""

from __future__ import annotations

import shutil
from pathlib import Path
from zlib import crc32

from ...common import logs
from ...common.faults import Exit, Fault, reason, say
from ...common.files import make_folder, replace_synced, require_room, sync_folder, write_synced
from ..durable_offset import DurableOffset
from ..journal import milliseconds
from ..records import HEADER, Header, plain, record_at
from ..recovery import offset_path, read_file, segment_path
from ..snapshots import ROOM_BYTES, remove_all
from ..state import ServiceState
from .entries import Agreed, Keys
from .etcd import after
from .offers import fetch, offer_of
from .renewed import Renewed, clear_texts, write_name, write_state
from .store import EtcdStore

MARK, FORMER = "anew", "journal.former"


def renew(store: EtcdStore, keys: Keys, state: ServiceState, agreed: Agreed) -> None:
    """Begin a state anew from the snapshot in etcd, if its own lines end before those there."""
    offer, is_begun = offer_of(store, keys), (state.folder / MARK).exists()
    if offer is None:
        if is_begun:
            raise Fault(Exit.JOURNAL, f"{state.folder} must begin anew from a snapshot, and etcd no longer has one")
        return
    if is_begun or is_late(store, keys, agreed, size_of(state.journal_path)):
        renewed, text = fetch(store, keys)
        try:
            begin_anew(state, renewed, text, agreed.id)
        except OSError as error:
            raise Fault(Exit.STATE, f"cannot begin anew in {state.folder}: {reason(error)}") from error
        say(f"begins anew from the snapshot in etcd, after {renewed.base.lines:,} lines", logs.INFO)


def is_late(store: EtcdStore, keys: Keys, agreed: Agreed, size: int) -> bool:
    """Return whether etcd lacks the lines after this position, and has a later snapshot."""
    first, offer = store.range(keys.lines, after(keys.lines), limit=1).found, offer_of(store, keys)
    return offer is not None and size < min(keys.offset(first[0].key) if first else agreed.begin.size, offer.size)


def size_of(journal: Path) -> int:
    """Return the bytes of all lines of a journal, by its last segment."""
    numbers = sorted((int(path.stem) for path in journal.glob("*.lines") if path.stem.isdecimal()), reverse=True)
    for number in numbers:
        data = read_file(segment_path(journal, number))
        record = record_at(data, 0)
        if record is not None and record.kind == HEADER:
            return Header.read(record).size + len(plain(data))
    return 0


def begin_anew(state: ServiceState, renewed: Renewed, text: bytes, name: str) -> None:
    """Give the folder this state without further lines, under the id that all replicas share."""
    folder, journal, former = state.folder, state.journal_path, state.folder / FORMER
    require_room(folder, 2 * (len(text) + len(renewed.text())) + ROOM_BYTES)
    write_state(folder, renewed, text)
    if not (folder / MARK).exists() and former.exists():
        shutil.rmtree(former)
    replace_synced(folder / MARK, b"")
    if journal.exists() and former.exists():  # an earlier attempt left it
        shutil.rmtree(journal)
    elif journal.exists():
        journal.rename(former)
    remove_all(state.snapshots_path)
    begin_journal(journal, renewed, text, name)
    state.keep_id(name)
    write_name(folder, renewed)
    state.go_on_from(renewed, text)
    clear_texts(folder, renewed)
    (folder / MARK).unlink()
    sync_folder(folder)


def begin_journal(journal: Path, renewed: Renewed, text: bytes, name: str) -> None:
    """Write the segment that follows a base, without lines."""
    segment, lines, size, chain = renewed.base
    number = segment + 1
    header = Header(name, number, crc32(text), lines, size, chain, milliseconds()).text()
    make_folder(journal, 0o700)
    write_synced(segment_path(journal, number), header, 0o600)
    replace_synced(offset_path(journal), DurableOffset(name.encode(), number, len(header), crc32(header, chain)).text())
