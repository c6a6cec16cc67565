"""The feed from firmd to the viewer: the current rows of each tenant, then each line with its reply.

A message is its kind, the length of its text, and the text. Rows begin with BEGIN, which names the tenants. Each of
these then has a TENANT, unless it was retired meanwhile, and END follows the last. LINES come from BEGIN on; rows that
follow later include them. STATUS and LOAD come at any time.

Most texts are written by `marshal`, which takes a fifth of JSON's time, during which firmd serves nobody else. Both
ends run the same Python.
"""

from __future__ import annotations

import json
import marshal
import struct
from collections import Counter, deque
from collections.abc import Iterator, Sequence
from dataclasses import asdict, astuple, fields
from operator import attrgetter

from ..common.books import COSTS_KEPT, Book, Books, Pending, RoundTimes, FirmTask
from ..common.roster import Limits
from .load import Load, OwnReply, SocketLoad, TenantLoad
from .observers import Status

BEGIN, TENANT, END, LINES, STATUS, LOAD = b"BTELSO"
HEAD = struct.Struct("<BI")
# The fields of the parts of a load: `astuple` takes milliseconds for many tenants and sockets.
OF_TENANT, OF_SOCKET, OF_REPLY = [
    attrgetter(*[field.name for field in fields(kind)]) for kind in (TenantLoad, SocketLoad, OwnReply)
]


def message(kind: int, text: bytes) -> bytes:
    return HEAD.pack(kind, len(text)) + text


class Messages:
    """Splits the received bytes into messages."""

    def __init__(self) -> None:
        self._data = bytearray()

    def add(self, piece: bytes) -> Iterator[tuple[int, bytes]]:
        """Yield the complete messages."""
        self._data += piece
        at = 0
        while len(self._data) - at >= HEAD.size:
            kind, length = HEAD.unpack_from(self._data, at)
            start = at + HEAD.size
            if len(self._data) - start < length:
                break
            at = start + length
            yield kind, bytes(self._data[start:at])
        del self._data[:at]


def begin_text(books: Books, state: str) -> bytes:
    """Return the contents of the books without the rows of tenants."""
    times = books.round_times
    return marshal.dumps(
        (state, books.lines, list(books.tenants), dict(books.refusals), (list(times.counts), times.seconds))
    )


def begun(text: bytes) -> tuple[str, Books]:
    """Return the state's id, and books without rows."""
    state, lines, tenants, refusals, (counts, seconds) = marshal.loads(text)
    books = Books()
    books.lines, books.refusals, books.round_times = lines, Counter(refusals), RoundTimes(counts, seconds)
    for tenant in tenants:
        books.put(Pending(Limits(tenant, 0, 0, 0, 0, 0)))
    return state, books


def tenant_text(book: Book) -> bytes:
    tasks = [
        (name, task.job, task.line, task.prefers, task.waits_from, task.since, task.machine)
        for name, task in book.tasks.items()
    ]
    rows = (list(book.machines.items()), list(book.jobs.items()), tasks)
    counts = (book.waiting, book.rounds, list(book.costs), dict(book.refused), book.number)
    return marshal.dumps((astuple(book.limits), rows, counts))


def book_of(text: bytes) -> Book:
    limits, (machines, jobs, tasks), (waiting, rounds, costs, refused, number) = marshal.loads(text)
    rows = {name: FirmTask(*row) for name, *row in tasks}
    kept: deque[int] = deque(costs, maxlen=COSTS_KEPT)
    return Book(Limits(*limits), dict(machines), dict(jobs), rows, waiting, rounds, kept, Counter(refused), number)


def lines_text(lines: Sequence[bytes], replies: Sequence[bytes], seconds: float | None) -> bytes:
    return marshal.dumps((b"\n".join(lines), b"\n".join(replies), seconds))


def lines_of(text: bytes) -> tuple[list[bytes], list[bytes], float | None]:
    lines, replies, seconds = marshal.loads(text)
    return lines.split(b"\n"), replies.split(b"\n"), seconds


def status_text(status: Status, faults: Counter[str]) -> bytes:
    return json.dumps([asdict(status), faults]).encode()


def status_of(text: bytes) -> tuple[Status, dict[str, int]]:
    fields, faults = json.loads(text)
    return Status(**fields), faults


def load_text(load: Load) -> bytes:
    numbers = (load.oldest_line_seconds, load.firm_silent_seconds, load.sync_counts, load.sync_seconds)
    tenants, sockets = list(map(OF_TENANT, load.tenants)), list(map(OF_SOCKET, load.sockets))
    return marshal.dumps((*numbers, tenants, sockets, list(map(OF_REPLY, load.own_replies)), load.tenant_waits))


def load_of(text: bytes) -> Load:
    oldest, silent, counts, seconds, tenants, sockets, replies, waits = marshal.loads(text)
    return Load(
        oldest,
        silent,
        counts,
        seconds,
        [TenantLoad(*row) for row in tenants],
        [SocketLoad(*row) for row in sockets],
        [OwnReply(*row) for row in replies],
        waits,
    )
