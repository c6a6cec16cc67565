"""The conversation with firmd about one tenant: its rows, as the view tells them, and lines with their replies."""

from __future__ import annotations

import asyncio
import contextlib
import json
from collections.abc import Callable, Sequence
from dataclasses import dataclass
from pathlib import Path
from typing import Any, NamedTuple

from ..common.books import Book, Books
from ..common.logs import INFO, WARNING, tell
from ..viewer.view_books import books_of, state_of, understood

LONGEST_ANSWER = 1 << 26  # bytes of a line of the view
FIRST_PAUSE, LONGEST_PAUSE = 0.1, 2.0  # seconds between two tries to reach firmd
LONGEST_REPLY = 1 << 20  # bytes: of a round that moves all tasks
SILENT_SECONDS = 5.0  # that firmd may owe replies, or its view their rows, until it is told


class Away(Exception):
    """firmd can't be reached, or answers otherwise than firm."""


class Reply(NamedTuple):
    """What firm says to a line."""

    number: int  # how many commands the tenant had given with it
    outcome: str  # `ok ..`, or the name of the refusal

    @property
    def is_ok(self) -> bool:
        return self.outcome == "ok" or self.outcome.startswith("ok ")

    @classmethod
    def read(cls, line: str, tenant: str) -> Reply:
        """Raises `Away` for a word of firmd's own, or of no tenant."""
        match line.split(" ", 2):
            case [name, number, outcome] if name == tenant and number.isdigit():
                words = outcome.split()
                return cls(int(number), words[2] if words[0] == "no" else outcome)
        raise Away(line or "firmd has closed the connection")


@dataclass(frozen=True, slots=True)
class FirmdSockets:
    """Where firmd is, and for whom it is asked."""

    tenant: str
    view: Path
    lines: Path


class Heard(NamedTuple):
    """A line of the tenant that was obeyed, from any client; without words: all rows are told anew."""

    words: list[str]
    outcome: str


class Firm:
    """The tenant in firm."""

    def __init__(self, doors: FirmdSockets, on_heard: Callable[[Heard], None]) -> None:
        self.doors, self._on_heard = doors, on_heard
        self.reason = "firmd has not been reached yet"  # why it is away; empty where it is there
        self.is_reached = False  # firmd's view tells the rows
        self.state: str | None = None  # the id of firmd's state
        self.changed = asyncio.Event()  # something is to be decided anew; set by all who change something
        self._books: Books | None = None
        self._answered = 0  # commands of the tenant, as of the last reply
        self._streams: tuple[asyncio.StreamReader, asyncio.StreamWriter] | None = None
        self._owed_since: float | None = None  # replies, by the loop's clock
        self._replied = 0.0  # when the last one came

    @property
    def rows(self) -> Book | None:
        """The tenant's rows as they were last known."""
        return self._books.tenants.get(self.doors.tenant) if self._books is not None else None

    @property
    def book(self) -> Book | None:
        """The tenant's rows, None where they are not known now."""
        return None if self.reason else self.rows

    @property
    def line(self) -> int:
        """The number of the last line that the rows have taken in, among all lines with a reply."""
        return self._books.lines if self._books is not None else 0

    @property
    def is_current(self) -> bool:
        """Whether the rows have all that was answered."""
        return self.book is not None and self.book.commands >= min(self._answered, self.book.limits.life)

    @property
    def owes(self) -> bool:
        """Whether lines are sent that have no reply yet."""
        return self._owed_since is not None

    @property
    def trouble(self) -> str:
        """Why nothing is given to firm: it is away, or owes an answer; empty where all is well."""
        if self.reason or self._owed_since is None and self.is_current:
            return self.reason
        owes = "firmd has owed a reply" if self._owed_since is not None else "the view has owed rows"
        since = self._replied if self._owed_since is None else self._owed_since
        seconds = asyncio.get_running_loop().time() - since
        return f"{owes} for {seconds:.0f} s" if seconds >= SILENT_SECONDS else ""

    # Rows

    async def watch(self) -> None:
        """Keeps the rows as the view tells them, through restarts of firmd."""
        request = json.dumps({"ask": "watch", "tenant": self.doors.tenant}).encode() + b"\n"
        pause, told = FIRST_PAUSE, ""
        while True:
            why = "closed by firmd"
            try:
                reader, writer = await asyncio.open_unix_connection(self.doors.view, limit=LONGEST_ANSWER)
                with contextlib.closing(writer):
                    writer.write(request)
                    while line := await reader.readline():
                        with understood():
                            heard = self._take_in(json.loads(line))
                        if heard is not None:
                            self._on_heard(heard)
                        self.changed.set()
                        pause = FIRST_PAUSE
                        told = self._tell_back(told)
            except (OSError, ValueError) as error:
                why = str(error)
            self._lose(why)
            if why != told:
                told = why
                tell(WARNING, f"{self.doors.view}: {why}; nothing is given to firm meanwhile")
            await asyncio.sleep(pause)
            pause = min(2 * pause, LONGEST_PAUSE)

    def _lose(self, why: str) -> None:
        """Takes in that firmd's view is gone."""
        self.is_reached, self.reason = False, f"firmd is away: {why}"
        self.changed.set()

    def _tell_back(self, told: str) -> str:
        if told and not self.reason:
            tell(INFO, f"{self.doors.view}: firmd is there again")
            return ""
        return told

    def _take_in(self, event: dict[str, Any]) -> Heard | None:
        """Takes in what the view tells; what is to be heard of it."""
        self.is_reached = True
        if "book" in event:
            self._books, self.state = books_of(self.doors.tenant, event["book"]), state_of(event)
            self._books.lines = event.get("line", 0)
            book = self._books.tenants.get(self.doors.tenant)
            self._answered = (
                0  # of an older state perhaps; what is not heard of yet is said again, which changes nothing
            )
            if book is not None:
                book.number = str(event["book"]["commands"]).encode()
            self.reason = "" if book is not None else f"firm has no tenant {self.doors.tenant}"
            return Heard([], "")
        if "reply" in event and self._books is not None:
            self._books.lines = event["number"] - 1
            self._books.replied(event["line"].encode(), event["reply"].encode(), 0.0)
            return self._heard_of(event["line"], event["reply"])
        raise ValueError(event.get("text", event))

    def _heard_of(self, line: str, reply: str) -> Heard | None:
        is_there = self._books is not None and self.doors.tenant in self._books.tenants
        self.reason = "" if is_there else f"firm has no tenant {self.doors.tenant}"
        outcome = reply.split(" ", 2)[-1]
        if reply.startswith("+"):
            self._answered = 0  # a tenant that is admitted again restarts its count
            return Heard([], "")
        if outcome == "ok" or outcome.startswith("ok evicted") or outcome.startswith("ok round"):
            return Heard(line.split()[1:], outcome)
        return None

    # Lines

    async def say(self, lines: Sequence[str]) -> list[Reply]:
        """The replies to lines of the tenant. Raises `Away`; then some may have been obeyed all the same.

        Where firmd hangs, its reply is waited for, since it may still obey what it was sent."""
        loop, rows = asyncio.get_running_loop(), self.rows
        self._owed_since = loop.time()
        silence = loop.call_later(SILENT_SECONDS, lambda: tell(WARNING, f"{self.doors.lines}: {self.trouble}"))
        try:
            if self._streams is None:
                self._streams = await asyncio.open_unix_connection(self.doors.lines, limit=LONGEST_REPLY)
            reader, writer = self._streams
            writer.write("".join(f"{self.doors.tenant} {line}\n" for line in lines).encode())
            replies = []
            for _ in lines:
                text = (await reader.readline()).decode()
                replies.append(Reply.read(text.strip(), self.doors.tenant))
            if self.rows is rows:  # otherwise the tenant was retired meanwhile
                self._answered = replies[-1].number
            return replies
        except (OSError, ValueError) as error:
            self.close()
            raise Away(f"{self.doors.lines}: {error}") from error
        except Away:
            self.close()
            raise
        finally:
            silence.cancel()
            self._owed_since, self._replied = None, loop.time()

    def close(self) -> None:
        if self._streams is not None:
            self._streams[1].close()
            self._streams = None
