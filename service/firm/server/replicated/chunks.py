"""Texts that exceed the size of a value in etcd: chunks at PREFIX NAME/NUMBER, where NAME is the text's digest."""

from __future__ import annotations

from collections.abc import Sequence

from ..firm_state import digest
from .etcd import Condition, Put, Span, after
from .store import EtcdStore

CHUNK_BYTES = 512 * 1024  # etcd takes requests of 1.5 MiB


def chunk_key(prefix: bytes, name: str, number: int) -> bytes:
    return prefix + b"%b/%06x" % (name.encode(), number)


def put_chunks(store: EtcdStore, prefix: bytes, holds: Condition, text: bytes) -> bool:
    """Put a text that no key names yet. Return whether the condition held until the end."""
    name = digest(text)
    chunks = [text[start : start + CHUNK_BYTES] for start in range(0, len(text), CHUNK_BYTES)]
    return all(
        store.transact([holds], [Put(chunk_key(prefix, name, number), chunk)]).is_done
        for number, chunk in enumerate(chunks)
    )


def read_chunks(store: EtcdStore, prefix: bytes, name: str) -> bytes:
    """Return a text. Raise `ValueError` if it is incomplete."""
    text = b""
    while found := store.range(chunk_key(prefix, name, len(text) // CHUNK_BYTES)).found:
        text += found[0].value
        if len(found[0].value) < CHUNK_BYTES:
            break
    if digest(text) != name:
        raise ValueError("its text is incomplete")
    return text


def others_of(prefix: bytes, name: str) -> Sequence[Span]:
    """Return the spans of all other texts' chunks."""
    own = prefix + name.encode() + b"/"
    return Span(prefix, own), Span(after(own), after(prefix))
