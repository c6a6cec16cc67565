"""Snapshots in etcd, from which late replicas begin anew.

The leader puts a snapshot there, fenced by its epoch. A replica that lacks lines which etcd has removed begins anew
from the snapshot, so etcd keeps all lines after it.

    BYTES DIGEST

is the value of the key `snapshot`: the bytes of all lines before it, and the digest of its text, which is stored in
chunks. The text is compressed. It has the length in bytes of the file that names such a state (renewed.py) as its first
line, then that file, then the state. Its books have the replica's point (point.py).
"""

from __future__ import annotations

import zlib
from typing import NamedTuple

from ...common.faults import Exit, Fault
from ..firm_state import digest
from .chunks import read_chunks
from .entries import Keys
from .renewed import Renewed, parsed
from .store import EtcdStore

LEVEL = 1  # of compression: a state's text is a tenth then
REMOVE = "remove it by `etcdctl del`, and start the replica that has most lines first"
TRIES = 5  # to read an offer, since others may replace it meanwhile


class Offer(NamedTuple):
    size: int  # bytes of all lines before the snapshot
    digest: str

    @classmethod
    def of(cls, renewed: Renewed, text: bytes) -> Offer:
        return cls(renewed.base.size, digest(text))

    @classmethod
    def read(cls, value: bytes) -> Offer:
        try:
            size, kept = value.decode().split()
            return cls(int(size), kept)
        except ValueError as error:
            raise Fault(
                Exit.JOURNAL, f"the key `snapshot` in etcd is damaged, or an older firmd's: {value[:60]!r}; {REMOVE}"
            ) from error

    def text(self) -> bytes:
        return f"{self.size} {self.digest}".encode()


def offer_of(store: EtcdStore, keys: Keys) -> Offer | None:
    """Return the offer in etcd, if any."""
    return next((Offer.read(row.value) for row in store.range(keys.snapshot).found), None)


def packed(renewed: Renewed, state: bytes) -> bytes:
    """Return the text that is stored in chunks."""
    named = renewed.text()
    return zlib.compress(b"%d\n%b%b" % (len(named), named, state), LEVEL)


def unpacked(text: bytes) -> tuple[Renewed, bytes]:
    """Return the name and the state of such a text. Raise `ValueError` for any other."""
    length, _, rest = zlib.decompress(text).partition(b"\n")
    renewed, state = parsed(rest[: int(length)]), rest[int(length) :]
    if renewed is None or len(state) != renewed.length or digest(state) != renewed.digest:
        raise ValueError("its digest differs from the one in etcd")
    return renewed, state


def fetch(store: EtcdStore, keys: Keys) -> tuple[Renewed, bytes]:
    """Return the offered snapshot: its name and its text."""
    why: object = "etcd has none"
    for _ in range(TRIES):
        offer = offer_of(store, keys)
        if offer is None:
            break
        try:
            return unpacked(read_chunks(store, keys.chunks, offer.digest))
        except (ValueError, zlib.error) as error:
            why = error
    raise Fault(Exit.JOURNAL, f"the snapshot in etcd can't be used: {why}")
