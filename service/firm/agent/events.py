"""The events of runs that the queue has not acknowledged yet: a cursor in the agent's state says how far it has."""

from __future__ import annotations

import asyncio
import json
from collections import deque
from contextlib import suppress
from functools import partial
from itertools import islice
from pathlib import Path
from typing import NamedTuple

from ..common.logs import WARNING
from ..queue.fields import PATH
from ..queue.reports import fault_of
from .event_file import Aside, ThreadWork
from .state import DROPPED, ENDS, REPORTED, Event, Key, Observer, Run

CURSOR = "told"  # a file with the place of the last event that is acknowledged
MOST_AT_A_TIME, MOST_EVENT_BYTES = 500, 1 << 22  # of events in a request
TOLD = ENDS - {DROPPED} | {"running"}


def status_of_shell(status: int) -> int:
    """An exit status as a shell has it: 128 and the number of the signal that ended it."""
    return 128 - status if status < 0 else status


class Cursor(NamedTuple):
    """The place of an event. A file that is written anew gives events other places than they had."""

    name: str  # of the history
    rewrites: int  # of the file
    place: int  # among its events, from 1

    def has(self, other: Cursor) -> bool:
        """Return whether another event of the same file comes no later."""
        return other[:2] == self[:2] and other.place <= self.place


class Untold(NamedTuple):
    """An event of a run that is to be reported to the queue."""

    place: Cursor
    told: Event  # as the queue takes it
    run: Run
    event: Event


class Events(Observer):
    """Hears all events of a history, from its first, and keeps those that are to be told."""

    def __init__(self, folder: Path, host: str | None = None) -> None:
        """The host is that of the outputs, None for the server's own."""
        self._host = host
        self._path = folder / CURSOR
        self._last = self._cursor = Cursor("", 0, 0)  # the places of the last event, and of the last acknowledged one
        with suppress(OSError, ValueError, TypeError, KeyError):  # without one all is told again, which does no harm
            found = json.loads(self._path.read_text())
            self._cursor = Cursor(str(found["name"]), int(found["rewrites"]), int(found["place"]))
        self._aside = Aside()  # the disk may hang
        self.untold: deque[Untold] = deque()
        self.are_there = asyncio.Event()

    def begin(self) -> None:
        self._last = Cursor("", 0, 0)
        self.untold.clear()
        self.are_there.clear()

    def pending(self) -> list[tuple[Event, Run]]:
        return [(untold.event, untold.run) for untold in self.untold]

    def heard(self, event: Event, run: Run | None) -> None:
        kind, self._last = event["event"], self._last._replace(place=self._last.place + 1)
        if kind == "state":
            self._last = self._last._replace(name=event["name"], rewrites=event.get("rewrites", 0))
        if run is not None and kind in TOLD and not event.get(REPORTED) and not self._cursor.has(self._last):
            self.untold.append(Untold(self._last, told_of(event, run, self._host), run, event))
            self.are_there.set()

    def check(self) -> None:
        """A cursor behind the end of the events is of others, that were put back: it counts for nothing."""
        if self._cursor.has(self._last) and self._cursor != self._last:
            self._cursor = self._last._replace(place=0)

    def first(self, most: int = MOST_AT_A_TIME) -> list[Event]:
        """At most so many, and no more than a request has room for."""
        found: list[Event] = []
        size = 0
        for _, event, _, _ in islice(self.untold, most):
            size += len(json.dumps(event))
            if found and size > MOST_EVENT_BYTES:
                break
            found.append(event)
        return found

    def refused(self, why: str) -> None:
        """The queue does not take the first: it is told in the plainest form, and where it has that, not at all."""
        place, event, run, recorded = self.untold[0]
        run.tell(f": the queue does not take the event {event['event']}: {why}", WARNING)
        plain = plain_of(event)
        if event == plain:
            self.acknowledged(1)
        else:
            self.untold[0] = Untold(place, plain, run, recorded)

    def acknowledged(self, count: int) -> None:
        """The queue has written that many."""
        for _ in range(min(count, len(self.untold))):
            self._cursor = self.untold.popleft().place
        if not self.untold:
            self.are_there.clear()
        self._aside.begin(ThreadWork(partial(self._keep, self._cursor)))

    def _keep(self, cursor: Cursor) -> None:
        """Keeps a cursor. Nobody hears whether that fails: what it lacks is told again after a restart."""
        draft = self._path.with_name(f"{CURSOR}.new")
        draft.write_text(json.dumps(cursor._asdict()))
        draft.replace(self._path)

    def ended(self) -> list[Run]:
        """Runs of which the end is not acknowledged."""
        return [run for _, event, run, _ in self.untold if event["event"] in ENDS]

    def has_end_of(self, key: Key) -> bool:
        """Whether an end of a task's run is not acknowledged."""
        return any(run.key == key and event["event"] in ENDS for _, event, run, _ in self.untold)


def told_of(event: Event, run: Run, host: str | None) -> Event:
    """An event as the queue takes it."""
    told: Event = {"token": run.token, "time": event["time"], "event": event["event"]}
    if event["event"] == "running":
        told |= {"pid": event["pid"], "output": path_of(event["output"]), "host": host}
    elif event["event"] == "ended":
        why = event.get("over") or (run.ends if event["asked"] else None)
        told |= {"status": status_of_shell(event["status"]), "asked": event["asked"], "why": why}
        told |= {"fault": words_of(event.get("fault")), "seconds": event.get("seconds")}
        told |= {"output": path_of(event.get("output")), "host": host}
        told |= {"max_rss": event.get("max_rss"), "cpu_seconds": event.get("cpu_seconds")}
    return told


def words_of(text: str | None) -> str | None:
    """Words for people, cut where they are long: whatever letters they have, the event counts."""
    return fault_of(text and text.encode(errors="replace").decode().replace("\0", "?"))


def path_of(text: str | None) -> str | None:
    """A path, None for one that no file can have, or that is no Unicode: the event counts all the same."""
    return PATH.maybe(text)


def plain_of(told: Event) -> Event:
    """As much of an event as there is no doubt about: of an end, that nothing of the run is left."""
    kind = "lost" if told["event"] == "ended" else told["event"]
    return {"token": told["token"], "time": told["time"], "event": kind}
