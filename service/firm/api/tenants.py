"""The tenants, with the sources of what a process of the API answers about each."""

from __future__ import annotations

import asyncio
import os
from collections.abc import Callable, Coroutine, Mapping
from contextlib import suppress
from dataclasses import dataclass
from functools import partial
from pathlib import Path
from typing import TYPE_CHECKING, Any

from ..common.books import Book
from ..common.refused import Refused
from ..explain.questions import Questions
from ..queue.firmd import FirmdSockets, Heard
from ..queue.service import Queue, TaskChange
from ..server.state import REPLICA
from .callers import TenantPaths
from .events import Feed, FollowedFirm
from .queues import ServedQueue
from .rows import QueueRows

if TYPE_CHECKING:
    from .daemon import ApiOptions

BEGIN_SECONDS = 30.0  # for all queues
TellChanged = Callable[[str, list[TaskChange] | str], None]  # changes, or why the queue's rows are not to be shown


def away(state: Path, reason: str) -> Refused:
    """Return the refusal of what firmd is to answer, and does not: one of several replicas listens while it leads."""
    if os.path.exists(state / REPLICA):
        return Refused("not-leading", f"another server may lead; here {reason}")
    return Refused("not-there", reason)


@dataclass(frozen=True)
class Tenant:
    """A tenant."""

    place: TenantPaths
    state: Path  # firmd's folder
    firm: FollowedFirm
    feed: Feed
    rows: QueueRows | None  # of its queue, if it has one
    served: ServedQueue | None = None  # in the process for changes

    @property
    def is_elsewhere(self) -> bool:
        """Whether another replica may lead."""
        return not self.firm.is_reached and self.away.name == "not-leading"

    @property
    def away(self) -> Refused:
        """The refusal of a request that the rows in firm are to answer, while they are away."""
        if self.firm.is_reached:
            return Refused("not-there", self.firm.reason)
        return away(self.state, self.firm.reason)

    @property
    def shown(self) -> Book | None:
        """The tenant's rows in firm as they were last known; none where another replica may lead."""
        return None if self.is_elsewhere else self.firm.rows

    @property
    def book(self) -> Book:
        """Return these rows. Raise `Refused` if there are none."""
        found = self.shown
        if found is None:
            raise self.away
        return found

    @property
    def current(self) -> Book:
        """Return these rows as they are now. Raise `Refused` while firmd is away."""
        if self.firm.reason:
            raise self.away
        return self.book

    @property
    def queue(self) -> ServedQueue:
        """Return the queue. Raise `Refused` if there is none."""
        if self.served is None:
            raise Refused("no-queue", f"{self.place.tenant} has no queue")
        return self.served


class Tenants:
    """The tenants of a process."""

    def __init__(self, options: ApiOptions, tell_changed: TellChanged | None) -> None:
        """Make them: with `tell_changed`, which tells the other process of changes, they have their queues here."""
        self._options, self._tell_changed = options, tell_changed
        self.questions = Questions()  # about all tenants, one at a time: each takes a processor and much memory
        self.all: Mapping[str, Tenant] = {name: self._made(place) for name, place in options.places.items()}

    def _made(self, place: TenantPaths) -> Tenant:
        if self._tell_changed is None or place.queue is None:
            return self._followed(place, lambda heard: None)
        folder, tell_changed = place.queue, self._tell_changed

        def make() -> Queue:
            queue = Queue(place.tenant, folder, tenant.firm, self._options.queues[place.tenant])
            queue.on_changed = on_changed
            queue.requests.explainer.questions = self.questions
            return queue

        def on_changed(changes: list[TaskChange]) -> None:
            tenant.feed.add_tasks(changes)
            tell_changed(place.tenant, changes)

        def on_away() -> None:
            self.take_changed(place.tenant, served.away)
            tell_changed(place.tenant, served.away)

        served = ServedQueue(place.tenant, make)
        served.on_away = on_away
        tenant = self._followed(place, served.hear, served)
        return tenant

    def _followed(
        self, place: TenantPaths, on_heard: Callable[[Heard], None], served: ServedQueue | None = None
    ) -> Tenant:
        state = self._options.state
        firm = FollowedFirm(FirmdSockets(place.tenant, state / "view", place.lines or state / "view"), on_heard)
        rows = QueueRows(place.queue, firm) if place.queue is not None else None
        firm.feed = Feed(partial(owner_in, rows))
        return Tenant(place, state, firm, firm.feed, rows, served)

    def works(self) -> list[Coroutine[Any, Any, None]]:
        """Return what goes on while they are served."""
        found: list[Coroutine[Any, Any, None]] = [tenant.firm.watch() for tenant in self.all.values()]
        return found + [tenant.served.serve() for tenant in self.all.values() if tenant.served is not None]

    async def begun(self) -> None:
        """Return once each queue has begun, or can't begin. One whose disk hangs may begin later."""
        with suppress(TimeoutError):
            async with asyncio.timeout(BEGIN_SECONDS):
                for tenant in self.all.values():
                    if tenant.served is not None:
                        await tenant.served.begun.wait()

    async def known(self) -> None:
        """Return once it is known of each queue whether its rows are to be shown, or after some time."""
        with suppress(TimeoutError):
            async with asyncio.timeout(BEGIN_SECONDS):
                for rows in filter(None, [tenant.rows for tenant in self.all.values()]):
                    await rows.known.wait()

    def tell_away(self) -> None:
        """Tell the other process again which queues are away."""
        for tenant in self.all.values():
            if tenant.served is not None and tenant.served.begun.is_set() and self._tell_changed is not None:
                self._tell_changed(tenant.place.tenant, tenant.served.away)

    def take_changed(self, tenant: str, changes: list[TaskChange] | str | None) -> None:
        """Take in what the other process has told: changes of tasks, that some are missing, or why rows are not to be
        shown."""
        feed, rows = self.all[tenant].feed, self.all[tenant].rows
        if isinstance(changes, str):
            if rows is not None:
                rows.tell_away(changes)
        elif changes is None:
            feed.lose()
        else:
            feed.add_tasks(changes)


def owner_in(rows: QueueRows | None, number: int) -> int | None:
    """Return whose a submission is, if the queue's rows can be read."""
    try:
        return rows.owner(number) if rows is not None else None
    except Refused:
        return None
