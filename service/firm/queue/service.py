"""A tenant's queue, as firm-api runs it: from its state folder to the answers."""

from __future__ import annotations

import asyncio
import sqlite3
from collections.abc import Callable, Coroutine
from contextlib import AbstractAsyncContextManager, suppress
from dataclasses import dataclass
from pathlib import Path
from typing import Any

from ..common.faults import Exit, Fault
from ..common.logs import ERROR, INFO, tell
from ..common.seen_time import SeenTime
from .agents import Agents, Session, Terms
from .core import QueueLimits, Core
from .firmd import Firm
from .placement_sync import PlacementSync, SyncOptions
from .placements import Placements
from .requests import Requests
from .retention import Retention
from .rows import SINGLE
from .store import Changed, NotWritten, Store

TRY_SECONDS = 1.0  # until the disk is tried again
MAX_TOLD_TASKS = 100  # of a submission, that are told one by one
TaskChange = tuple[int, int, int]  # number, index and user of a task


@dataclass(frozen=True, slots=True)
class QueueOptions:
    """Bounds of the queues of all tenants."""

    bounds: QueueLimits
    giving: SyncOptions
    terms: Terms


class Queue:
    """A queue, from its start to its end."""

    def __init__(self, tenant: str, folder: Path, firm: Firm, options: QueueOptions) -> None:
        self._options = options
        self._store = Store(folder, tenant)
        self._firm = firm
        self.core = Core(self._store, firm, options.bounds)
        self.agents = Agents(self.core, options.terms)
        self.requests = Requests(self.core, self.agents, tenant)
        self.placements = Placements(self.core, self.agents)
        self.sessions: set[Session] = set()  # which end with it
        self.on_changed: Callable[[list[TaskChange]], None] = lambda changes: None
        self._failed = asyncio.Event()
        self._ended = asyncio.Event()
        self.fault: Fault | None = None  # that ends it

    def _give_up(self, fault: Fault) -> None:
        self.fault = fault
        self._ended.set()

    async def run(self, serving: Callable[[], AbstractAsyncContextManager[None]]) -> None:
        """Serve, within this context, until it is cancelled. Raise the fault that ends it otherwise."""
        with await self._store.lock():
            await self._run(serving)

    async def _run(self, serving: Callable[[], AbstractAsyncContextManager[None]]) -> None:
        self._store.on_failure, self._store.on_damage = self._failed.set, self._give_up
        self._store.on_commit = self._tell_changed
        await self._store.start()
        try:
            try:
                kept = await self.core.load()
            except sqlite3.Error as error:
                raise self.fault or Fault(Exit.STATE, f"cannot read {self._store.path}: {error}") from error
            try:
                await self.agents.begin(kept)
            except NotWritten as error:
                raise Fault(Exit.STATE, f"cannot use {error}") from error
            await self._serve(serving, kept.newest)
        finally:
            for session in list(self.sessions):
                session.end()
            self._firm.close()
            await self._store.close()

    async def _serve(self, serving: Callable[[], AbstractAsyncContextManager[None]], newest: float | None) -> None:
        giver = PlacementSync(self.core, self.agents.machines, self._options.giving)
        works: list[Coroutine[Any, Any, None]] = [giver.serve(), self.agents.expire_for_ever()]
        works += [self._recover_for_ever(), self._know_jobs_for_ever(), self.placements.serve()]
        works += [Retention(self.core, self._options.terms.history, SeenTime(newest)).serve()]
        async with asyncio.TaskGroup() as group:
            for work in works:
                group.create_task(work)
            async with serving():
                await self._ended.wait()
            if self.fault is not None:
                raise self.fault

    def _tell_changed(self, changed: Changed) -> None:
        """Tell which tasks a commit has changed, or the submission of many."""
        told: list[TaskChange] = []
        for number, indexes in changed.items():
            submission = self.core.rows.submissions.get(number)
            if submission is not None:  # otherwise it ended long ago
                few = indexes if len(indexes) <= MAX_TOLD_TASKS else [SINGLE]
                told += [(number, index, submission.user) for index in few]
        if told:
            self.on_changed(told)

    async def _recover_for_ever(self) -> None:
        """After a write that failed: reads the rows as they are on the disk, and tries until it takes writes again."""
        while True:
            await self._failed.wait()
            tell(ERROR, f"{self._store.why_bad}: what changes something is refused until it can be written")
            await self._reload()
            while not await self._store.try_again():
                await asyncio.sleep(TRY_SECONDS)
            await self._reload()
            self._failed.clear()
            self._store.go_on()
            tell(INFO, f"{self._store.path}: it is written again")

    async def _reload(self) -> None:
        """Has memory say what the database says, once that can be read."""
        told = ""
        while True:
            try:
                kept = await self.core.load()
            except sqlite3.Error as error:
                if str(error) != told:
                    told = str(error)
                    tell(ERROR, f"cannot read {self._store.path}: {told}")
                await asyncio.sleep(TRY_SECONDS)
            else:
                self.agents.load(kept.agents)
                return

    async def _know_jobs_for_ever(self) -> None:
        """Keeps track of which jobs in firm are the queue's own, as of an earlier run of it."""
        known: str | None = None
        while True:
            if self._firm.book is not None and self._firm.state != known:
                state = self._firm.state
                with suppress(sqlite3.Error):  # of a disk that fails: it is looked again
                    await self.core.know_jobs()
                    known = state
                    self._firm.changed.set()
            await asyncio.sleep(TRY_SECONDS)
