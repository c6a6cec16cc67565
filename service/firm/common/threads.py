"""Threads for calls that may hang, such as reading a file of an absent host, or the directory of users.

Each user has a few, so that no other user waits. A caller waits for a limited time, and the service ends without
waiting for any.
"""

from __future__ import annotations

import asyncio
import errno
from collections import Counter
from collections.abc import Callable
from contextlib import suppress
from functools import partial
from queue import SimpleQueue
from threading import Thread
from typing import Any, TypeVar

MAX_OF_USER, MAX_THREADS = 2, 128  # working, or hanging, at a time
PATIENCE_SECONDS = 30.0
Result = TypeVar("Result")


class Threads:
    def __init__(self) -> None:
        self._busy: Counter[int] = Counter()  # by user
        self._idle = 0
        self._works: SimpleQueue[Callable[[], None]] = SimpleQueue()
        self._freed = asyncio.Event()  # replaced each time that a thread has ended its work

    async def do(self, user: int, work: Callable[[], Result]) -> Result:
        """Do a user's work in a thread, and return its result. Raise `TimeoutError` once it takes too long; its thread
        stays busy until it ends."""
        try:
            async with asyncio.timeout(PATIENCE_SECONDS) as patience:
                while self._busy[user] >= MAX_OF_USER or self._busy.total() >= MAX_THREADS:
                    await self._freed.wait()
                return await self._begin(user, work)
        except TimeoutError as error:
            if patience.expired():
                raise TimeoutError(errno.ETIMEDOUT, f"nothing has come for {PATIENCE_SECONDS:g} s") from error
            raise

    def _begin(self, user: int, work: Callable[[], Result]) -> asyncio.Future[Result]:
        if not self._idle:
            Thread(target=self._serve, name="aside", daemon=True).start()
            self._idle += 1
        self._idle -= 1
        self._busy[user] += 1
        loop = asyncio.get_running_loop()
        future: asyncio.Future[Result] = loop.create_future()

        def run() -> None:
            try:
                tell: Callable[[], Any] = partial(future.set_result, work())
            except Exception as error:
                tell = partial(future.set_exception, error)
            with suppress(RuntimeError):  # the loop has ended
                loop.call_soon_threadsafe(self._ended, user, future, tell)

        self._works.put(run)
        return future

    def _ended(self, user: int, future: asyncio.Future[Any], tell: Callable[[], Any]) -> None:
        self._busy -= Counter([user])
        self._idle += 1
        self._freed.set()
        self._freed = asyncio.Event()
        if not future.done():  # the caller still waits
            tell()

    def _serve(self) -> None:
        while True:
            self._works.get()()
