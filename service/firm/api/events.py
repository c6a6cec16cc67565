"""Changes of a tenant, for server-sent events: its queue's tasks by commits, and firm's lines with their replies.

A feed keeps the last changes by name alone. A stream reads the rows when it sends them, so a task that changes five
times while a client reads slowly is sent once. An event's id is EPOCH-NUMBER; no two feeds have an epoch in common. A
client that names one in `Last-Event-ID` gets what came after it, or `reset` if that is not kept any more: then it reads
all anew.
"""

from __future__ import annotations

import asyncio
import json
import re
import secrets
from collections import deque
from collections.abc import AsyncIterator, Callable, Iterable, Iterator, Sequence
from dataclasses import dataclass
from itertools import islice
from typing import Any, NamedTuple

from ..common.fields import Json
from ..queue.firmd import Firm, Heard
from ..queue.rows import Name

MAX_KEPT = 10_000  # changes of a tenant
MAX_KNOWN = 50_000  # submissions whose users are kept
ADDED_AT_ONCE = 200  # in a turn of the loop
PIECE_BYTES = 2**18  # of events that are written together, unless one is larger
PLACES = {"start": 3, "preempt": 3, "move": 4}  # words of a change in a round's reply
ID = re.compile(r"([0-9a-f]{8})-([0-9]{1,15})")


class FeedEntry(NamedTuple):
    """A task that has changed, or a line with its reply."""

    number: int  # from 1
    name: Name | None
    user: int | None  # the task's; None: of no user of the queue
    line: Json | None


@dataclass(slots=True)
class StreamPosition:
    """How far a stream is."""

    at: int
    is_lost: bool = False  # what came next is not kept


class Feed:
    """The last changes of a tenant."""

    def __init__(self, owner: Callable[[int], int | None]) -> None:
        self._owner, self.epoch = owner, secrets.token_hex(4)
        self._owners: dict[int, int | None] = {}
        self._changes: deque[FeedEntry] = deque(maxlen=MAX_KEPT)
        self.last = 0
        self._news = asyncio.Event()
        self._waiting = 0  # for news
        self._coming: deque[tuple[int, int, int]] = deque()  # number, index and user of tasks that are to be added

    def position(self, given: str | None) -> StreamPosition:
        """Return where a client goes on that has had the event of this id."""
        found = ID.fullmatch(given) if given is not None else None
        if given is None:
            return StreamPosition(self.last)
        if found is None or found[1] != self.epoch or int(found[2]) > self.last:
            return StreamPosition(self.last, is_lost=True)
        return StreamPosition(int(found[2]))

    def since(self, position: StreamPosition) -> list[FeedEntry]:
        """Return the changes after a position, and set it to the last one."""
        at, position.at = position.at, self.last
        first = len(self._changes) - (self.last - at)
        position.is_lost |= first < 0
        return [*islice(self._changes, first, None)] if first >= 0 else []

    def add_tasks(self, changes: Iterable[Sequence[int]]) -> None:
        """Add tasks by number, index and user, some in each turn of the loop."""
        is_adding = bool(self._coming)
        self._coming.extend((number, index, user) for number, index, user in changes)
        if len(self._coming) > MAX_KEPT:
            self._coming.clear()
            self.lose()
        if self._coming and not is_adding:
            asyncio.get_running_loop().call_soon(self._add_some)

    def _add_some(self) -> None:
        for _ in range(min(ADDED_AT_ONCE, len(self._coming))):
            number, index, user = self._coming.popleft()
            self.add_task(Name(number, index), user)
        if self._coming:
            asyncio.get_running_loop().call_soon(self._add_some)

    def add_task(self, name: Name, user: int) -> None:
        if len(self._owners) >= MAX_KNOWN:  # all: to find the first of a dict takes long once many were removed
            self._owners.clear()
        self._owners[name.number] = user
        self._add(name, user, None)

    def add_firm_tasks(self, names: Iterable[str]) -> None:
        """Add tasks by their names in firm; those that the queue has not submitted are left out."""
        for name in filter(None, map(Name.of_firm, names)):
            user = self._owners[name.number] if name.number in self._owners else self._owner(name.number)
            if user is not None:
                self.add_task(name, user)

    def add_line(self, line: Json) -> None:
        self._add(None, None, line)

    def lose(self) -> None:
        """Take in that changes are missing: every stream is to begin anew."""
        self._changes.clear()
        self._add(None, None, None)
        self._changes.clear()

    async def wait(self, seconds: float) -> None:
        """Return after the next change, or some time."""
        self._waiting += 1
        try:
            async with asyncio.timeout(seconds):
                await self._news.wait()
        except TimeoutError:
            pass

    def wake(self) -> None:
        """Have all streams look anew."""
        if self._waiting:
            self._news.set()
            self._news, self._waiting = asyncio.Event(), 0

    def _add(self, name: Name | None, user: int | None, line: Json | None) -> None:
        self.last += 1
        self._changes.append(FeedEntry(self.last, name, user, line))
        self.wake()


class FollowedFirm(Firm):
    """A tenant in firm, which is only looked at; each line that concerns it goes to a feed."""

    feed: Feed

    def _take_in(self, event: dict[str, Any]) -> Heard | None:
        heard = super()._take_in(event)
        if "reply" in event:
            self.feed.add_line(event)
            if heard is not None and heard.words[:1] == ["drain"]:  # any task may have been there
                self.feed.lose()
            elif heard is not None:
                self.feed.add_firm_tasks(tasks_of(heard))
        else:
            self.feed.lose()
        return heard

    def _lose(self, why: str) -> None:
        super()._lose(why)
        self.feed.wake()


def tasks_of(heard: Heard) -> Iterator[str]:
    """Yield the tasks that a line has changed, by their names in firm."""
    if heard.words[:1] == ["round"]:
        words = heard.outcome.split()
        at = 4
        while at + 1 < len(words):
            yield words[at + 1]
            at += PLACES[words[at]]
    elif heard.words[:1] in (["task"], ["done"]):
        yield heard.words[2 if heard.words[0] == "task" else 1]


async def event_texts(first: Iterable[tuple[str, Json]], rows: AsyncIterator[Json], place: str) -> AsyncIterator[bytes]:
    """Yield server-sent events, with those of tasks last, in pieces. The last one alone has an id: a client that lost
    some of them gets all again."""
    texts, size = [event_text(kind, data) for kind, data in first], 0
    async for row in rows:
        if size > PIECE_BYTES:
            yield "".join(texts).encode()
            texts, size = [], 0
        texts.append(event_text("task", row))
        size += len(texts[-1])
    if texts:
        texts[-1] = f"id: {place}\n{texts[-1]}"
        yield "".join(texts).encode()


def event_text(kind: str, data: Json) -> str:
    return f"event: {kind}\ndata: {json.dumps(data)}\n\n"
