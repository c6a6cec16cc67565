"""Brings firm's rows to what the queue wants, again and again, whatever was missed or lost meanwhile."""

from __future__ import annotations

import asyncio
import sqlite3
import time
from collections import Counter
from collections.abc import Callable
from dataclasses import dataclass
from math import inf

from ..common.books import Book
from ..common.logs import WARNING, tell
from ..common.roster import slot_cost
from .backlog import Kind, FirmLine, Machines, Wishes, plan
from .core import Core
from .firmd import Away, Reply
from .store import NotWritten

AWAY_SECONDS = 0.2  # until firmd is tried again
FULL_SECONDS = 1.0  # until a task is given again after firm had no room for it, or the disk failed
WORN_SECONDS = 10.0
# Pause between rounds: this multiple of the last round's duration, up to the second. A round that makes waits dearer
# comes after at least the third: with ten rounds a second, a weight of 10 would be worth one second.
ROUND_SHARE, LONGEST_ROUND_PAUSE, WAIT_SECONDS = 2, 0.2, 1.0
# While tasks wait beside free slots, a round makes each wait dearer by 1, until one is worth a slot. It is asked for so
# long after the last one: with spread 1, the last of 64 slots is worth a wait within some five minutes. As each is a
# line of the journal and of the tenant's life, they come to an end: none is asked for where no wait is worth a slot
# within so many (a day of them), or where others asked for one so lately, as firmd does with --every.
AGING_SECONDS, MOST_AGING, OTHERS_SECONDS = 5.0, 17_280, 60.0
NO_ROOM = {"arena-nodes", "arena-arcs", "memory"}
WAITING_FOR_ROOM = "the arena is full"


@dataclass(frozen=True, slots=True)
class SyncOptions:
    """How tasks are given."""

    most: int | None = None  # tasks in firm
    asks_rounds: bool = True


class PlacementSync:
    def __init__(self, core: Core, machines: Callable[[], Machines], giving: SyncOptions) -> None:
        self._core, self._machines, self._giving = core, machines, giving
        self._loop = asyncio.get_running_loop()
        self._is_round_due = True  # of what an earlier run gave, perhaps, and did not come to ask for
        self._next_round = 0.0  # by the loop's clock
        self._aging = Aging()
        self._look: asyncio.TimerHandle | None = None  # whether waits are to age
        self._next_tasks = 0.0
        self._told = ""

    async def serve(self) -> None:
        """For ever."""
        changed = self._core.firm.changed
        while True:
            await changed.wait()
            changed.clear()
            try:
                await self._step()
                self._told = ""
            except NotWritten:
                pass  # the rows are read anew then
            except sqlite3.Error as error:  # as of a disk that fails for a moment
                self._tell(f"cannot read {self._core.store.path}: {error}")
                self._again(FULL_SECONDS)
            except Away as error:
                self._tell(str(error))
                self._core.leaving.clear()
                self._core.look_at_all()
                self._again(AWAY_SECONDS)
                await asyncio.sleep(AWAY_SECONDS)

    async def _step(self) -> None:
        core = self._core
        if not core.firm.is_current or core.store.why_bad:
            return
        if core.strangers:
            await core.know_strangers()
        machines = self._machines()
        core.sort(machines)
        if core.strangers:  # they are looked for in a further step, whatever else happens
            core.firm.changed.set()
        lines = self._plan(machines)
        if not lines:
            return
        rows = core.rows
        leaving = {line.words for line in lines if line.kind == Kind.DONE}
        core.leaving |= leaving  # before the disk is waited for: a claim may come meanwhile
        try:
            await core.store.settled()
            began = time.monotonic()
            replies = await core.firm.say([str(line) for line in lines])
        except NotWritten:
            core.leaving -= leaving  # nothing was said, and perhaps none of it ever is
            raise
        except Away:  # some may have been obeyed: a job that is there now is the queue's own, and is to be closed by it
            core.own_jobs.update(line.words.split()[0] for line in lines if line.kind == Kind.JOB)
            raise
        finally:
            if core.rows is rows:
                core.look_at(line.task.name for line in lines if line.task is not None)
        if lines[-1].kind == Kind.ROUND:
            pause = min(ROUND_SHARE * (time.monotonic() - began), LONGEST_ROUND_PAUSE)
            self._is_round_due, self._next_round = False, self._loop.time() + pause
            self._aging.asked(self._loop.time(), replies[-1].is_ok)
        for line, reply in zip(lines, replies):
            self._hear(line, reply)

    def _plan(self, machines: Machines) -> list[FirmLine]:
        core, book = self._core, self._core.firm.book
        if book is None:
            return []
        is_full = self._loop.time() < self._next_tasks
        most = 0 if is_full else self._giving.most
        place = (machines.wanted, machines.unwanted, core.idle_jobs(), list(core.unwanted), most)
        wishes = Wishes(*place, len(core.placeholders.standing), core.left_free)
        lines = plan(book, wishes, core.backlog, core.rows.task)
        kinds = {line.kind for line in lines}
        self._is_round_due |= bool(kinds & {Kind.TASK, Kind.DONE, Kind.MACHINE, Kind.DRAIN})
        if self._giving.asks_rounds and not lines:
            self._age(book)
        may_wait = book.waiting or kinds & {Kind.TASK, Kind.DRAIN}
        if self._giving.asks_rounds and self._is_round_due and may_wait and not is_closed(lines):
            left = self._next_round + (WAIT_SECONDS if has_waited(book) else 0.0) - self._loop.time()
            if left <= 0:
                lines.append(FirmLine(Kind.ROUND, ""))
            else:
                self._again(left)
        return lines

    def _age(self, book: Book) -> None:
        """Has a round asked for where nothing else is to come, and waits are to age; looks again later otherwise."""
        now = self._loop.time()
        seconds = self._aging.seconds_left(book, now)
        if seconds is None:
            return
        if seconds <= 0:
            self._is_round_due = True
        elif self._look is None:
            self._look = self._loop.call_later(seconds, self._look_again)

    def _look_again(self) -> None:
        self._look = None
        self._core.firm.changed.set()

    def _hear(self, line: FirmLine, reply: Reply) -> None:
        """Takes in a reply; rows that changed are heard of by the view."""
        core = self._core
        if reply.is_ok:
            if line.kind == Kind.JOB:
                core.own_jobs.add(line.words.split()[0])
            if line.task is not None:
                line.task.told = ""
        elif line.kind == Kind.DONE:
            core.leaving.discard(line.words)
        elif reply.outcome == "worn":
            self._tell("the tenant's life is used up: firm takes nothing from it any more")
            self._pause(WORN_SECONDS)
        elif line.kind in (Kind.TASK, Kind.JOB, Kind.MACHINE) and reply.outcome in NO_ROOM:
            if line.task is not None:
                line.task.told = WAITING_FOR_ROOM
            self._pause(FULL_SECONDS)

    def _pause(self, seconds: float) -> None:
        self._next_tasks = self._loop.time() + seconds
        self._again(seconds)

    def _again(self, seconds: float) -> None:
        self._loop.call_later(seconds, self._core.firm.changed.set)

    def _tell(self, why: str) -> None:
        if why != self._told:
            self._told = why
            tell(WARNING, f"{why}; what waits is given later")


class Aging:
    """When a round is to age what waits beside free slots."""

    def __init__(self) -> None:
        self._rounds = self._own = 0  # that the rows have had, as last seen, and those of them that the queue asked for
        self._last = self._last_of_others = -inf

    def asked(self, now: float, is_ok: bool) -> None:
        """Takes in that the queue's own has had its reply."""
        self._last = now
        self._own += is_ok

    def seconds_left(self, book: Book, now: float) -> float | None:
        """Until it is to be asked for; None where none is, unless the rows change."""
        if book.rounds != self._rounds:
            self._last = now
            if book.rounds > self._rounds + self._own:
                self._last_of_others = now
            self._rounds, self._own = book.rounds, 0
        if not book.waiting or book.running >= book.slots or book.commands >= book.limits.life:
            return None
        seconds = max(self._last + AGING_SECONDS, self._last_of_others + OTHERS_SECONDS) - now
        if seconds > 0:
            return seconds
        return None if rounds_to_start(book) > MOST_AGING else 0.0


def rounds_to_start(book: Book) -> float:
    """How many rounds make a first wait worth a slot that is free; infinite: none do."""
    limits, loads = book.limits, Counter(task.machine for task in book.tasks.values())
    free = [name for name, slots in book.machines.items() if loads[name] < slots]
    costs = {name: slot_cost(limits.spread, loads[name]) for name in free}
    least, found = min(costs.values(), default=inf), inf
    for task in book.tasks.values():
        if task.machine is None:
            near = [costs[name] for name in task.prefers if name in costs]
            cost, waited = min([least + limits.remote * bool(task.prefers), *near]), book.waited(task)
            missing = max(0, cost - book.jobs[task.job] - waited)
            found = min(found, missing if missing <= limits.patience - waited else inf)
    return found


def has_waited(book: Book) -> bool:
    """Return whether a round left a task waiting: a further one makes its wait dearer."""
    return bool(book.waiting) and any(book.waited(task) for task in book.tasks.values())


def is_closed(lines: list[FirmLine]) -> bool:
    """Whether the lines only close jobs."""
    return bool(lines) and all(line.kind == Kind.CLOSE for line in lines)
