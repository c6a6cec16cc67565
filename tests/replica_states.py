"""Checks of states in etcd, without engines: the common first state, and that of a late replica."""

from __future__ import annotations

import json
import random
from collections.abc import Callable
from contextlib import suppress
from functools import partial
from typing import Any

from harness.checks import require
from replica_rules import ID, KEYS, ROSTER, Case, batch, case, refused
from stand_in_etcd import Connection, Memory

from firm.common.faults import Fault
from firm.server.journal import Journal, SegmentLimit
from firm.server.records import Base
from firm.server.replicated import renewal
from firm.server.replicated.beginning import agree, beginning_of
from firm.server.replicated.chunks import CHUNK_BYTES, chunk_key, put_chunks
from firm.server.replicated.entries import Agreed
from firm.server.replicated.etcd import Condition, Put, DatabaseSize, Unsure
from firm.server.replicated.faults import NotLeading
from firm.server.replicated.journal import ReplicatedJournal
from firm.server.replicated.offers import Offer, fetch, offer_of, packed
from firm.server.replicated.point import Point, Position
from firm.server.replicated.renewed import Renewed
from firm.server.replicated.shared import Shared
from firm.server.state import ServiceState
from firm.server.firm_state import digest


def long_state(seed: int) -> bytes:
    """Return a text that takes several chunks."""
    return random.Random(seed).randbytes(2 * CHUNK_BYTES + 77).hex().encode()


# The common first state.


def restored() -> None:
    """All replicas begin with the state of the first one, wherever its try is cut off, or with another's roster; an
    incomplete state is reported."""
    texts, ids = [long_state(1), long_state(2)], [ID[::-1], ID]
    begun: list[str] = []
    for cut in range(6):
        for text in (texts[1], None):
            memory = Memory()
            with suppress(Unsure):
                agree(only(memory, cut), KEYS, Agreed(ids[0], b"", Position()), texts[0])
            mine = Agreed(ids[1], b"" if text else ROSTER, Position())
            found = agree(Connection(memory), KEYS, mine, text)
            beginning = beginning_of(Connection(memory), KEYS, found)
            wanted = texts[0] if found.id == ids[0] else text or ROSTER
            require(beginning.text() == wanted and beginning.digest == digest(wanted), f"cut {cut}: {found}")
            require(beginning.is_state == (wanted != ROSTER), found)
            names = {key[len(KEYS.restored) :].split(b"/")[0] for key in memory.rows if key.startswith(KEYS.restored)}
            require(names == {name.encode() for name in (found.restored or ())[1:]}, names)
            begun.append(found.id)
    require(set(begun) == set(ids) and begun == sorted(begun, key=ids[::-1].index), begun)
    memory.remove(chunk_key(KEYS.restored, names.pop().decode(), 1))
    refused(beginning.text, Fault, "the state in etcd that all began with can't be used", "incomplete")


def only(memory: Memory, count: int) -> Connection:
    """Return a connection that fails after this number of transactions."""
    found, left = Connection(memory), iter(range(count))

    def step() -> None:
        if next(left, None) is None:
            raise Unsure("cut off")

    found.on_transaction = step
    return found


# Snapshots in etcd.


def renewed_at(base: Base, state: bytes) -> Renewed:
    """Return a renewed state after these lines, which are all `alpha show`."""
    point = Point()
    point.add(b"alpha show\n" * base.lines, [b"alpha %d ok" % number for number in range(base.lines)])
    books: dict[str, Any] = {"refusals": {}, "tenants": {}, **point.kept()}
    return Renewed.of(base, state, json.dumps(books).encode())


def shared_of(journal: ReplicatedJournal) -> Shared:
    """Return the shared state of a replica whose housekeeper does only requested work: on a slow host its thread
    would remove lines first."""
    journal.housekeeper.end()
    journal.housekeeper.retained = 0
    return journal.shared


def offers() -> None:
    """An offer is read as it was written, and replaces the former one; only a leader makes offers."""
    with case() as here:
        first, _ = here.open("a")
        here.leads(first)
        for seed in (0, 1):
            first.append([batch(*[b"alpha show"] * 3)])
            renewed, state = renewed_at(Base(4, 3, 33, 99), long_state(seed)), long_state(seed)
            shared_of(first).offer(renewed, state)
            require(fetch(Connection(here.memory), KEYS) == (renewed, state), "another offer")
            (offer,) = filter(None, [offer_of(Connection(here.memory), KEYS)])
            require(offer.size == 33, offer)
            chunks = [key for key in here.memory.rows if key.startswith(KEYS.chunks)]
            require(len(chunks) > 2 and all(offer.digest.encode() in key for key in chunks), chunks)
            require(shared_of(first).is_due(34) and not shared_of(first).is_due(33), "when one is due")
        second, _ = here.open("b")
        here.leads(second)
        before = dict(here.memory.rows)
        refused(lambda: shared_of(first).offer(renewed, state), NotLeading)
        require(here.memory.rows == before, "one that leads no more has changed something")
        here.memory.remove(chunk_key(KEYS.chunks, offer.digest, 1))
        refused(lambda: fetch(Connection(here.memory), KEYS), Fault, "the snapshot in etcd can't be used")
        here.memory.set(Put(KEYS.snapshot, b"- 33 " + offer.digest.encode()))
        refused(lambda: fetch(Connection(here.memory), KEYS), Fault, "or an older firmd's: b'- 33 ", "by `etcdctl del`")


def kept_beginnings() -> None:
    """etcd keeps all lines from the last offer on, also while one is prepared, until it is half full."""
    with case() as here:
        journal, _ = here.open("a")
        here.leads(journal)
        shared, state = shared_of(journal), b"state"

        def first_entry() -> int:
            for _ in range(2):  # the first puts the replica's extent into its own key
                journal.housekeeper._has_name = True
                journal.housekeeper.keep()
            return min(KEYS.offset(key) for key in here.memory.rows if key.startswith(KEYS.lines))

        for _ in range(3):
            journal.append([batch(b"alpha show")])
        require(first_entry() == 22, "lines that all have are gone")
        refused(lambda: shared.offer(renewed_at(Base(1, 1, 11, 0), state), state), Fault, "are no longer in etcd")
        with shared.keeping(33):
            journal.append([batch(b"alpha show")])
            journal.append([batch(b"alpha show")])
            require(first_entry() == 33, "lines that one needs who is to begin")
            shared.offer(renewed_at(Base(3, 3, 33, 0), state), state)
        journal.append([batch(b"alpha show")])
        require(first_entry() == 33, "lines after the offer")
        here.memory.size = DatabaseSize(6, 10)
        require(first_entry() == 55, "where there is no room")


def begun_anew() -> None:
    """A late replica begins anew, whatever step is cut off, and keeps its former files."""
    state, base, cut = b"firm state 1\nplace admissions 1\nrows 1\n", Base(4, 3, 33, 99), 0
    while True:
        with case() as here:
            journal, _ = here.open("a")
            here.leads(journal)
            journal.append([batch(b"alpha show")])
            journal.close()
            here.memory.remove(KEYS.entry(0))
            here.memory.set(Put(KEYS.entry(33), b"1 0\n"))
            renewed, store = renewed_at(base, state), Connection(here.memory)
            text = packed(renewed, state)
            leads = Condition(b"nobody", made=0)
            require(put_chunks(store, KEYS.chunks, leads, text), "chunks")
            here.memory.set(Put(KEYS.snapshot, Offer.of(renewed, text).text()))
            is_cut = renewed_but_for(here, store, cut)
            again = restarted(here)
            found = Journal(again, SegmentLimit(4096), again.base).found
            require((again.renewed, found.base, found.lines, again.id) == (renewed, base, 3, ID), f"{cut}: {found}")
            former = (here.folder / "a" / "journal.former").glob("*.lines")
            kept = b"".join(path.read_bytes() for path in former)
            require(kept.count(b"alpha show\n") == 1, f"{cut}: {kept!r}")
            names = {path.name for path in (here.folder / "a").iterdir()}
            require("anew" not in names and f"renewed-{renewed.digest}" in names, names)
        if not is_cut:
            break
        cut += 1
    require(cut > 8, f"it has {cut} steps")


def restarted(here: Case) -> ServiceState:
    """Return the state of the first replica, as a start finds it."""
    here.states[-1]._lock.close()
    here.states.append(ServiceState(here.folder / "a"))
    here.states[-1].read_opening()
    return here.states[-1]


def renewed_but_for(here: Case, store: Connection, cut: int) -> bool:
    """Renew the state of a replica; before that, one try ends at a step, if the renewal has that many steps."""
    steps = 0

    def step(work: Callable[..., None], *words: object, **more: object) -> None:
        """End the try before this step, or after it."""
        nonlocal steps
        for is_before in (True, False):
            steps += 1
            if steps == cut + 1:
                raise OSError("cut off")
            if is_before:
                work(*words, **more)

    names = ["write_state", "replace_synced", "remove_all", "make_folder", "write_synced", "write_name", "clear_texts"]
    names += ["sync_folder"]
    own = {name: getattr(renewal, name) for name in names}
    for name in names:
        setattr(renewal, name, partial(step, own[name]))
    try:
        renewal.renew(store, KEYS, restarted(here), here.agreed)
    except Fault as fault:
        require("cut off" in str(fault), fault)
    finally:
        for name in names:
            setattr(renewal, name, own[name])
    renewal.renew(store, KEYS, restarted(here), here.agreed)
    return steps > cut


RULES: list[Callable[[], None]] = [restored, offers, kept_beginnings, begun_anew]
