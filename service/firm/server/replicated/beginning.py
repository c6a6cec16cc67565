"""The beginning that all replicas share: a roster, or the state of a service that continues as replicas.

The first replica sets it in etcd. A state exceeds the size of a value in etcd, so its text is compressed and stored in
chunks before the key `state` names it. The transaction that sets this key removes the chunks that other replicas wrote.
"""

from __future__ import annotations

import zlib
from collections.abc import Sequence
from dataclasses import replace
from functools import partial
from typing import NamedTuple

from ...common.faults import Exit, Fault
from ..firm_state import MAX_BYTES, digest
from ..state import InitialState
from .chunks import others_of, put_chunks, read_chunks
from .entries import Agreed, Keys, Restored
from .etcd import Condition, Put, Span, after
from .store import EtcdStore

LEVEL = 1  # of compression: a state's text is a tenth then


class Length(NamedTuple):
    """The length of a replica's own journal."""

    lines: int
    size: int  # bytes

    def text(self) -> bytes:
        return f"{self.lines} {self.size}".encode()

    @classmethod
    def read(cls, value: bytes) -> Length:
        try:
            lines, size = value.decode().split()
            return cls(int(lines), int(size))
        except ValueError as error:
            raise Fault(Exit.JOURNAL, f"a replica's length in etcd is damaged: {value[:60]!r}") from error


def compare_lengths(store: EtcdStore, keys: Keys, name: str, own: Length) -> dict[str, Length]:
    """Put a replica's length into an etcd without a state. Return the lengths of all replicas, the longest first."""
    store.transact([Condition(keys.state, made=0)], [Put(keys.found + name.encode(), own.text())])
    rows = store.range(keys.found, after(keys.found)).found
    found = {row.key[len(keys.found) :].decode(): Length.read(row.value) for row in rows} | {name: own}
    return dict(sorted(found.items(), key=lambda item: item[1].size, reverse=True))


def agreed_of(store: EtcdStore, keys: Keys) -> Agreed | None:
    """Return the beginning that etcd has, if any."""
    state, roster = store.range(keys.state).found, store.range(keys.roster).found
    return Agreed.read(state[0].value, roster[0].value if roster else b"") if state else None


def agree(store: EtcdStore, keys: Keys, mine: Agreed, state: bytes | None = None) -> Agreed:
    """Return the beginning that the first replica set: `mine` if etcd has none, with the text of its state, if any."""
    is_new = Condition(keys.state, made=0)
    others: Sequence[Span] = [Span(keys.restored, after(keys.restored))]
    lengths = Span(keys.found, after(keys.found))
    if state is not None:
        packed = zlib.compress(state, LEVEL)
        mine = replace(mine, restored=Restored(digest(state), digest(packed)))
        others = others_of(keys.restored, digest(packed))
        put_chunks(store, keys.restored, is_new, packed)
    store.transact([is_new], [Put(keys.state, mine.text()), Put(keys.roster, mine.roster)], [*others, lengths])
    found = agreed_of(store, keys)
    if found is None:
        raise Fault(Exit.STATE, "the state in etcd was removed meanwhile")
    return found


def beginning_of(store: EtcdStore, keys: Keys, agreed: Agreed) -> InitialState:
    """Return the beginning for a new replica."""
    restored = agreed.restored
    if restored is None:
        return InitialState(False, digest(agreed.roster), lambda: agreed.roster)
    return InitialState(True, restored.digest, partial(fetch_restored, store, keys, restored))


def fetch_restored(store: EtcdStore, keys: Keys, restored: Restored) -> bytes:
    try:
        packed = read_chunks(store, keys.restored, restored.chunks)
        text = zlib.decompressobj().decompress(packed, MAX_BYTES)
        if digest(text) != restored.digest:
            raise ValueError("its digest differs from the one in etcd")
    except (ValueError, zlib.error) as error:
        raise Fault(Exit.JOURNAL, f"the state in etcd that all began with can't be used: {error}") from error
    return text
