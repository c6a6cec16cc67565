"""The tenants' queues, which the process for changes has, and the requests that the API makes of them."""

from __future__ import annotations

import asyncio
import sqlite3
from collections.abc import AsyncGenerator, AsyncIterator, Awaitable, Callable
from contextlib import asynccontextmanager
from dataclasses import dataclass
from functools import partial
from typing import Any

from ..common.faults import Exit, fault_in
from ..common.fields import Json
from ..common.lock import InUse
from ..common.logs import ERROR, INFO, tell
from ..common.users import User
from ..queue.answers import Caller
from ..common.refused import Refused
from ..queue.firmd import Heard
from ..queue.service import Queue
from ..queue.store import NotWritten
from .bounded import BoundedConnection

AGAIN_SECONDS = 1.0  # until a queue begins again after an error of its own
ANSWER_SECONDS = 60.0  # for an answer that waits for nothing but the disk


@dataclass(slots=True)
class QueueCaller:
    """The caller of a request, as a queue knows callers."""

    user: User
    gate: BoundedConnection
    next_turn: Callable[[], Awaitable[None]]
    is_next: Callable[[], Awaitable[None]]
    is_remote: bool = False  # of agents' connections alone

    def tell(self, words: Json) -> None:
        """Do nothing: a request has an answer alone."""

    def end(self) -> None:
        self.gate.transport.abort()

    def is_gone(self) -> bool:
        return self.gate.is_left

    async def turn(self) -> None:
        await self.next_turn()

    async def alone(self) -> None:
        await self.is_next()


class ServedQueue:
    """A tenant's queue. It begins again after an error of its own, and once its folder can be used. Damage stops it
    until firm-api is started again."""

    def __init__(self, tenant: str, make: Callable[[], Queue]) -> None:
        self._tenant, self._make = tenant, make
        self.current: Queue | None = None
        self._limits: set[asyncio.Timeout] = set()  # of what is answered
        self._reason = "it has not begun yet"
        self.begun = asyncio.Event()  # or stopped before that
        self.away = self._reason  # why its rows are not to be shown: they are once it has begun, until damage stops it
        self.on_away: Callable[[], None] = lambda: None

    @property
    def queue(self) -> Queue:
        """Return the queue. Raise `Refused` while there is none."""
        if self.current is None:
            raise Refused("not-there", f"the queue of {self._tenant} is away: {self._reason}")
        return self.current

    def hear(self, heard: Heard) -> None:
        """Take in what firm has obeyed."""
        if self.current is not None:
            self.current.core.hear(heard)

    async def serve(self) -> None:
        """Serve the queue until damage stops it. Raise `InUse` if another process has its state."""
        while True:
            queue = self._make()
            try:
                await queue.run(partial(self._serving, queue))
            except InUse:
                raise
            except Exception as error:
                fault, before = fault_in(error), self._reason
                self._reason = str(fault or error)
                if fault is None or self._reason != before:
                    tell(ERROR, f"{self._tenant}: {self._reason}", None if fault is not None else error)
                is_over = fault is not None and fault.status != Exit.STATE
                if is_over or self.away:  # otherwise it begins again, and its rows are as they were
                    self._tell_away(self._reason)
                self.begun.set()
                if is_over:
                    return
            await asyncio.sleep(AGAIN_SECONDS)

    def _tell_away(self, reason: str) -> None:
        self.away = reason
        self.on_away()

    @asynccontextmanager
    async def _serving(self, queue: Queue) -> AsyncIterator[None]:
        self.current = queue
        tell(INFO, f"{self._tenant}: ready: {queue.core.rows.live:,} tasks have not ended")
        self._tell_away("")
        self.begun.set()
        try:
            yield
        finally:
            self.current, self._reason = None, str(queue.fault or "it is ending")
            for limit in self._limits:
                limit.reschedule(asyncio.get_running_loop().time())

    async def ask(self, caller: Caller, ask: str, patience: float = ANSWER_SECONDS, **fields: Any) -> Any:
        """Return the answer to one of the queue's requests."""
        queue = self.queue
        async with self._answering(queue, patience):
            return (await queue.requests.answer(caller, {"ask": ask, **fields}))[ask]

    async def output(self, caller: Caller, **fields: Any) -> AsyncGenerator[bytes, None]:
        """Yield a task's output, in pieces."""
        queue = self.queue
        pieces = queue.requests.output(caller, fields)
        while True:
            async with self._answering(queue, None):
                piece = await anext(pieces, None)
            if piece is None:
                return
            yield piece[1]

    @asynccontextmanager
    async def _answering(self, queue: Queue, seconds: float | None) -> AsyncIterator[None]:
        """Refuse as the API does, and at the end of the queue."""
        try:
            async with asyncio.timeout(seconds) as limit:
                self._limits.add(limit)
                try:
                    yield
                finally:
                    self._limits.discard(limit)
        except Exception as error:
            if queue is not self.current:
                raise Refused("not-there", f"the queue of {self._tenant} has ended: {self._reason}") from error
            if isinstance(error, TimeoutError):
                told = "the disk takes long; a submission with the same key makes nothing twice"
                raise Refused("not-there", told) from error
            raise refusal_of_error(error) or error


def refusal_of_error(error: Exception) -> Refused | None:
    """Return the refusal that an error of a queue means to its caller, if any."""
    if isinstance(error, Refused):
        return error
    if isinstance(error, NotWritten):
        return Refused("not-written", str(error))
    if isinstance(error, sqlite3.Error):
        return Refused("not-read", f"the database can't be read: {error}")
    return None
