"""The requests of a replicated journal to etcd, as a protocol that a test's stand-in implements too."""

from __future__ import annotations

from collections.abc import Iterator, Sequence
from typing import Protocol

from .etcd import KeyChange, Condition, Done, Put, EtcdRows, DatabaseSize, Span


class EtcdStore(Protocol):
    """The methods of `Etcd`. Each raises `EtcdError` if the request may not have been done."""

    def range(self, key: bytes, end: bytes | None = None, limit: int = 0, is_last_first: bool = False) -> EtcdRows:
        ...

    def last_key(self, key: bytes, end: bytes) -> bytes | None:
        ...

    def transact(self, conditions: Sequence[Condition], puts: Sequence[Put], gone: Sequence[Span] = ()) -> Done:
        ...

    def delete(self, key: bytes, end: bytes) -> int:
        ...

    def compact(self, revision: int) -> None:
        ...

    def grant(self, seconds: int) -> int:
        ...

    def keep_alive(self, lease: int) -> float:
        ...

    def revoke(self, lease: int) -> None:
        ...

    def size(self) -> DatabaseSize:
        ...

    def watch(self, key: bytes, end: bytes, revision: int, seconds: float) -> Iterator[list[KeyChange]]:
        ...

    def end_watch(self) -> None:
        ...
