"""Removes submissions that ended long ago, with their tasks and attempts, in small steps between other commits."""

from __future__ import annotations

import asyncio
import sqlite3

from ..common.logs import INFO, tell
from ..common.seen_time import SeenTime
from . import queries
from .core import Core
from .store import NotWritten

PASS_SECONDS, STEP_SECONDS = 600.0, 0.05  # between passes, and between steps of a pass
LOOKED_AT = 200  # submissions that a step considers
MAX_ROWS = 500  # that a step removes


class Retention:
    def __init__(self, core: Core, seconds: float, clock: SeenTime) -> None:
        self._core, self._seconds, self._clock = core, seconds, clock

    async def serve(self) -> None:
        """Remove old submissions from time to time, for ever."""
        while True:
            try:
                count = await self.remove_old()
                if count:
                    tell(
                        INFO,
                        f"{count:,} submissions that ended more than {self._seconds / 86_400:g} days ago are removed",
                    )
            except (NotWritten, sqlite3.Error):
                pass  # the next pass tries again
            await asyncio.sleep(PASS_SECONDS)

    async def remove_old(self) -> int:
        """Remove old submissions. Return their number."""
        core, before, at, count = self._core, self._clock.now() - self._seconds, 0, 0
        await self._remove_rest()
        core.store.forget_spent()
        while True:
            found = await core.store.read(
                lambda connection: queries.older(connection, at, before, LOOKED_AT), aside=True
            )
            for old in found:
                at = old.number
                if old.is_over and core.may_drop(at):
                    core.drop(at, old.rows > MAX_ROWS)
                    await core.store.settled()
                    await self._remove_rest()
                    count += 1
            if not any(old.sent < before for old in found):
                return count
            await asyncio.sleep(STEP_SECONDS)

    async def _remove_rest(self) -> None:
        """Remove the rows of a submission with too many for one step."""
        store = self._core.store
        while rest := await store.read(lambda connection: queries.rest(connection, MAX_ROWS), aside=True):
            store.drop_rows(*rest)
            await store.settled()
            await asyncio.sleep(STEP_SECONDS)
