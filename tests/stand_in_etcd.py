"""Stands in for etcd in memory: keys with revisions and leases, lost answers, and an exhausted quota."""

from __future__ import annotations

from collections.abc import Callable, Iterator, Sequence
from dataclasses import dataclass, field
from threading import RLock

from firm.server.replicated.etcd import (
    KeyChange,
    Condition,
    Done,
    Full,
    Put,
    EtcdRow,
    EtcdRows,
    DatabaseSize,
    Span,
    Unsure,
)


@dataclass
class Memory:
    """The state that all connections share."""

    rows: dict[bytes, tuple[EtcdRow, int]] = field(default_factory=dict)  # each with its lease
    leases: set[int] = field(default_factory=set)
    history: list[tuple[int, KeyChange]] = field(default_factory=list)
    revision: int = 1
    compacted: int = 0
    size: DatabaseSize = DatabaseSize(0, 1 << 30)
    is_full: bool = False  # it takes no key and no lease, but removes some
    lock: RLock = field(default_factory=RLock)

    def set(self, put: Put) -> None:
        before = self.rows.get(put.key)
        made = before[0].made if before else self.revision
        self.rows[put.key] = EtcdRow(put.key, put.value, made), put.lease
        self.history.append((self.revision, KeyChange(put.key, put.value)))

    def remove(self, key: bytes) -> None:
        del self.rows[key]
        self.history.append((self.revision, KeyChange(key, None)))

    def end_lease(self, lease: int) -> None:
        """End a lease, as its expiry or its loss does."""
        with self.lock:
            self.leases.discard(lease)
            self.revision += 1
            for key in [key for key, (_, other) in self.rows.items() if other == lease]:
                self.remove(key)

    def value(self, key: bytes) -> bytes | None:
        return self.rows[key][0].value if key in self.rows else None


class Connection:
    """A store of one thread; its next transactions may go wrong."""

    def __init__(self, memory: Memory) -> None:
        self.memory = memory
        self.faults: list[str] = []  # of the next transactions: `done` or `lost` without an answer, `again`, or `full`
        self.on_transaction: Callable[[], None] = lambda: None

    def range(self, key: bytes, end: bytes | None = None, limit: int = 0, is_last_first: bool = False) -> EtcdRows:
        with self.memory.lock:
            last = key + b"\0" if end is None else end
            keys = sorted(found for found in self.memory.rows if key <= found < last)
            keys = keys[::-1] if is_last_first else keys
            return EtcdRows(self.memory.revision, [self.memory.rows[found][0] for found in keys[: limit or None]])

    def last_key(self, key: bytes, end: bytes) -> bytes | None:
        found = self.range(key, end, 1, True).found
        return found[0].key if found else None

    def transact(self, conditions: Sequence[Condition], puts: Sequence[Put], gone: Sequence[Span] = ()) -> Done:
        with self.memory.lock:
            self.on_transaction()
            fault = self.faults.pop(0) if self.faults else ""
            if fault == "lost":
                raise Unsure("the request was lost")
            if fault == "full" or self.memory.is_full and puts:
                raise Full("database space exceeded")
            holds = all(map(self._holds, conditions))
            if holds:
                self.memory.revision += 1
                for put in puts:
                    self.memory.set(put)
                for key in [key for key in self.memory.rows if any(one.key <= key < one.end for one in gone)]:
                    self.memory.remove(key)
            if fault == "done":
                raise Unsure("the answer was lost")
            # The client itself asks a further member if an answer is lost; this is the answer of the second.
            return Done(holds and fault != "again", self.memory.revision)

    def _holds(self, condition: Condition) -> bool:
        found = self.memory.rows.get(condition.key)
        if condition.value is not None:
            return found is not None and found[0].value == condition.value
        return (found[0].made if found else 0) == condition.made

    def delete(self, key: bytes, end: bytes) -> int:
        with self.memory.lock:
            self.memory.revision += 1
            for found in [found for found in self.memory.rows if key <= found < end]:
                self.memory.remove(found)
            return self.memory.revision

    def compact(self, revision: int) -> None:
        self.memory.compacted = max(self.memory.compacted, revision)

    def grant(self, seconds: int) -> int:
        with self.memory.lock:
            if self.memory.is_full:
                raise Full("database space exceeded")
            self.memory.revision += 1
            self.memory.leases.add(self.memory.revision)
            return self.memory.revision

    def keep_alive(self, lease: int) -> float:
        return 60.0 if lease in self.memory.leases else 0.0

    def revoke(self, lease: int) -> None:
        self.memory.end_lease(lease)

    def size(self) -> DatabaseSize:
        return self.memory.size

    def watch(self, key: bytes, end: bytes, revision: int, seconds: float) -> Iterator[list[KeyChange]]:
        with self.memory.lock:
            changes = [change for at, change in self.memory.history if at >= revision and key <= change.key < end]
        if changes:
            yield changes
        raise Unsure("no answer came")

    def end_watch(self) -> None:
        pass
