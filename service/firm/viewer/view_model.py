"""The view model: the books, status and load that firmd sent last, and the watchers of new lines."""

from __future__ import annotations

import asyncio
import json
import time
from collections import Counter
from collections.abc import Callable, Sequence
from typing import TYPE_CHECKING

from ..common.books import Books, tenant_of
from ..common.bounds import MEBIBYTE
from ..common.faults import Faults
from ..server.load import Load
from ..server.observers import Status

if TYPE_CHECKING:
    from .view import Connection

MOST_UNREAD_IN_ALL = 64 * MEBIBYTE  # unread by all readers of the view together


class ViewModel:
    """The state of the service for readers."""

    def __init__(self, books: Books, status: Status, state: str) -> None:
        self.books, self.status, self.state = books, status, state
        self.load = Load()
        self.faults = Faults()  # of the viewer itself
        self.faults_of_firmd: dict[str, int] = {}
        self.watchers: list[Connection] = []
        self.on_sent: Callable[[], None] = lambda: None  # called after lines were sent to watchers
        self.turn = asyncio.Lock()  # for a long answer: lines are applied between two of them
        self._updated = time.monotonic()

    @property
    def age(self) -> float:
        """Return the seconds since firmd sent its status."""
        return time.monotonic() - self._updated

    def all_faults(self) -> Counter[str]:
        return Counter(self.faults_of_firmd) + self.faults.counts

    def take_status(self, status: Status, faults: dict[str, int]) -> None:
        self.status, self.faults_of_firmd, self._updated = status, faults, time.monotonic()
        self.status.lines = self.books.lines

    def replace(self, books: Books, state: str) -> None:
        """Show these books. Lines before them may be missing, so all watches end."""
        watchers, self.watchers = self.watchers, []
        for watcher in watchers:
            watcher.end_at_gap()
        self.books, self.state = books, state
        self.status.lines = books.lines

    def replied_all(self, lines: Sequence[bytes], replies: Sequence[bytes], seconds: float | None) -> None:
        first = self.books.lines + 1
        self.books.replied_all(lines, replies, seconds)
        self.status.lines = self.books.lines
        if self.watchers:
            self._notify(first, lines, replies)

    def unwatch(self, watcher: Connection) -> None:
        if watcher in self.watchers:
            self.watchers.remove(watcher)

    def _notify(self, first: int, lines: Sequence[bytes], replies: Sequence[bytes]) -> None:
        """Send lines with their replies to the watchers of their tenants."""
        texts: dict[Connection, list[bytes]] = {watcher: [] for watcher in self.watchers}
        of_tenants: dict[str | None, list[list[bytes]]] = {}  # by tenant, the texts of its watchers
        for number, (line, reply) in enumerate(zip(lines, replies), first):
            tenant = tenant_of(reply)
            wanting = of_tenants.get(tenant)
            if wanting is None:  # once for each tenant: there may be thousands of lines
                wanting = of_tenants[tenant] = [sent for watcher, sent in texts.items() if watcher.wants(tenant)]
            if wanting:
                text = event(line, reply, number)
                for sent in wanting:
                    sent.append(text)
        for watcher, sent in texts.items():
            try:
                if sent:
                    watcher.send(b"".join(sent))
            except Exception as error:
                self.unwatch(watcher)
                watcher.drop(error)
        self.on_sent()


def event(line: bytes, reply: bytes, number: int) -> bytes:
    """Return the message to watchers for a line with its reply."""
    text = line.decode("utf-8", "backslashreplace")
    return json.dumps({"line": text, "reply": reply.decode("ascii"), "number": number}).encode() + b"\n"
