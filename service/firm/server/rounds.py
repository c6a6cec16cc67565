"""Automatic rounds: at intervals, and soon after a change, for tenants with waiting tasks.

Changes shortly after one another share a round. It takes place even after a client's own round, if a task still waits.
A tenant has at most one automatic round under way, and none once it is exhausted. The journal has these rounds.
"""

from __future__ import annotations

import asyncio
from collections.abc import Sequence
from dataclasses import dataclass
from typing import TYPE_CHECKING

from ..common.books import Book, Books
from ..common.faults import Faults
from ..common.lines import changes_rows
from .tenant_queues import LineBatch

if TYPE_CHECKING:
    from .stream import Stream


@dataclass(frozen=True, slots=True)
class Times:
    """The times of automatic rounds; None: never."""

    every_seconds: float | None
    after_seconds: float | None  # after a change


class RoundOwner:
    """The owner of an automatic round's line; it ignores the reply."""

    sender, socket = b"firmd", None

    def __init__(self, pending: set[str], tenant: str) -> None:
        self._pending, self._tenant = pending, tenant
        pending.add(tenant)

    def given(self, batch: LineBatch, reply: bytes | None) -> None:
        if reply is not None:
            self.drop()

    def answered(self, replies: bytes, count: int) -> None:
        self.drop()

    def drop(self) -> None:
        self._pending.discard(self._tenant)


class Rounds:
    """Requests rounds: an observer that waits for changes."""

    def __init__(self, books: Books, taker: Stream, times: Times, faults: Faults) -> None:
        self._books, self._taker, self._times, self._faults = books, taker, times, faults
        self._loop = asyncio.get_running_loop()
        self._awaited: dict[str, asyncio.TimerHandle] = {}  # changed tenants, each with the timer of its round
        self._pending: set[str] = set()  # tenants with a round under way
        self._timer: asyncio.TimerHandle | None = None

    def start(self) -> None:
        """Begin after the replay: waiting tasks count as changes."""
        if self._times.every_seconds is not None:
            self._timer = self._loop.call_later(self._times.every_seconds, self._request_all, self._times.every_seconds)
        for tenant in self._books.tenants:
            self._changed(tenant)

    def stop(self) -> None:
        for timer in [self._timer, *self._awaited.values()]:
            if timer is not None:
                timer.cancel()
        self._times = Times(None, None)

    def replied_all(self, lines: Sequence[bytes], replies: Sequence[bytes], seconds: float | None) -> None:
        try:
            for reply in replies:
                # A fast check first: most replies fail it.
                if (reply.endswith(b" ok") or b" ok evicted " in reply) and changes_rows(reply):
                    self._changed(reply[: reply.index(b" ")].decode())
        except Exception as error:
            self._faults.note("rounds", error)

    def _changed(self, tenant: str) -> None:
        after = self._times.after_seconds
        if after is not None and tenant not in self._awaited:
            self._awaited[tenant] = self._loop.call_later(after, self._request_changed, tenant)

    def _request_changed(self, tenant: str) -> None:
        del self._awaited[tenant]
        if tenant in self._pending:  # that round may have begun before the change
            self._changed(tenant)
        else:
            self._request(tenant)

    def _request_all(self, every: float) -> None:
        self._timer = self._loop.call_later(every, self._request_all, every)
        for tenant in list(self._books.tenants):
            self._request(tenant)

    def _request(self, tenant: str) -> None:
        book = self._books.tenants.get(tenant)
        if book is None or tenant in self._pending or is_exhausted(book) or not book.has_waiting():
            return
        name = tenant.encode()
        self._taker.take(LineBatch(RoundOwner(self._pending, tenant), b"%b round\n" % name, 1, name, is_round=True))


def is_exhausted(book: Book) -> bool:
    """Return whether the tenant is exhausted: each further command would be refused."""
    return book.commands >= book.limits.life
