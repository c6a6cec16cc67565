"""The bridge: looks at firm and at Slurm, and brings each to what the other has. It keeps nothing that it needs."""

from __future__ import annotations

import asyncio
import fcntl
import time
from collections import Counter
from collections.abc import Coroutine, Sequence
from dataclasses import dataclass, field, replace
from itertools import chain
from pathlib import Path
from typing import IO, Any

from ..common.books import Book
from ..common.files import open_lock
from ..common.logs import INFO, WARNING, tell
from ..queue.firmd import Away, FirmdSockets, Firm, Heard, Reply
from ..queue.placement_sync import NO_ROOM
from . import commands
from .actions import deeds
from .commands import NoSlurm
from .differences import Standing, standing
from .firm_lines import News, Observed, news, preempting, strays
from .reading import Failures, Launches, Picture, Relaunches, Use
from .refusals import Refusals
from .table import Partition, Table

CURRENT_SECONDS = 10.0  # for the view to show what was answered
NO_ROOM_SECONDS = 5.0  # until tasks are told again after firm refused some
LOCK_SECONDS = 0.2  # between two looks whether another bridge has ended
AGAIN_SECONDS = 60.0  # between two warnings of a kind
# What firm refuses since it is so already: the rows were current, so another client has said it meanwhile.
MEANWHILE = {"task-exists", "no-such-task", "machine-exists", "no-such-machine", "job-exists", "job-has-tasks"}
QUIET = {"task", "done", "job", "close"}  # lines that are counted, not told one by one


@dataclass
class Counts:
    """What was done since the start, and what was seen last; for the metrics."""

    lines: Counter[str] = field(default_factory=Counter)  # by verb
    refused: Counter[str] = field(default_factory=Counter)  # by reason
    commands: Counter[str] = field(default_factory=Counter)  # by Slurm's verb
    complaints: int = 0
    rival_lines: int = 0  # that another client said before
    nodes: Counter[Use] = field(default_factory=Counter)
    standing: Standing | None = None
    at: float = 0.0  # Unix time of the picture


class Side:
    """One partition and its tenant."""

    def __init__(self, partition: Partition, table: Table) -> None:
        self.partition, self._every = partition, table.every
        self.firm = Firm(FirmdSockets(partition.tenant, table.view, partition.socket), self._hear_of)
        self.counts = Counts()
        self._tasks: frozenset[str] = frozenset()
        self._last_round = self._full_until = -1e9
        self._foreign = 0  # lines that were obeyed, without those of this bridge
        self._warnings: dict[str, float] = {}  # when they were told last
        self._refusals, self._launches = Refusals(), Launches()
        self._failures, self._relaunches = Failures(), Relaunches()

    async def book(self) -> Book:
        """The tenant's rows, with all that was answered; raises `Away`."""
        try:
            async with asyncio.timeout(CURRENT_SECONDS):
                while not self.firm.is_current:
                    if self.firm.reason:
                        self.firm.close()  # the connection is of a firmd that has ended
                    self.firm.changed.clear()
                    await self.firm.changed.wait()
        except TimeoutError:
            raise Away(self.firm.reason or "firmd's view is behind") from None
        if self.firm.book is None:
            raise Away(self.firm.reason)
        return self.firm.book

    async def begin(self) -> None:
        """Notes which tasks firm has before Slurm is asked, and whether another client has said lines."""
        self._tasks = frozenset((await self.book()).tasks)
        if self._foreign > 0:
            self.counts.rival_lines += self._foreign
            self._warn(f"another bridge or client speaks for tenant {self.partition.tenant}")
        self._foreign = 0

    def forget(self) -> None:
        """After replies that were lost it isn't known whose the lines were."""
        self._foreign = 0

    def _hear_of(self, heard: Heard) -> None:
        """Counts a line that was obeyed; firmd's own rounds are nobody's."""
        if not heard.words:
            self._foreign = 0  # all rows came anew
        elif heard.words[0] != "round":
            self._foreign += 1

    async def turn(self, picture: Picture) -> None:
        """Says what firm doesn't know, and has Slurm do what firm decided."""
        name = self.partition.name
        nodes, jobs = picture.nodes.get(name, {}), picture.jobs.get(name, {})
        jobs = self._relaunches.corrected(self._failures.corrected(self._launches.corrected(jobs, picture.at)))
        jobs = self._refusals.merged(jobs)
        book = await self.book()
        put_off = self._refusals.find(book, nodes, jobs, picture.at)
        tasks = self._tasks & book.tasks.keys()
        avoided = self._refusals.avoided()
        free = max(book.slots - len(book.tasks), 0)
        tries = self._refusals.tries(picture.at, preempting(book, jobs.values(), self.partition), free)
        unmarked = self._failures.unmarked
        seen = Observed(book, tasks, nodes, jobs, picture.at, picture.licences, put_off, avoided, tries, unmarked)
        if put_off:
            self._tell(f"Slurm doesn't start {len(put_off)} jobs, which are put off, as {next(iter(put_off))}")
            if book.limits.remote == 0:
                self._warn("jobs don't avoid nodes that refused them: remote is 0 in the roster")
        found = news(seen, self.partition, time.monotonic() >= self._full_until)
        is_due = book.waiting > 0 and time.monotonic() - self._last_round >= self._every
        rivals = self.counts.rival_lines
        if found.lines or is_due:
            await self._say(found)
            book = await self.book()
        if self.counts.rival_lines == rivals:  # else another bridge is at it
            work = deeds(replace(seen, book=book), self.partition).phases()
            if work:
                await self._obey(work)
        self.counts.nodes = Counter(node.use for node in nodes.values())
        self.counts.standing, self.counts.at = standing(book, jobs, picture.at), picture.at

    async def _say(self, found: News) -> None:
        lines = [*found.lines, "round"]
        self._hear(lines, await self.firm.say(lines))
        self._last_round = time.monotonic()
        back = strays(await self.book(), found.taken)
        if back:
            tell(WARNING, f"{self.partition.name}: {len(back)} jobs can't be taken over; they run to their end")
            self._hear(back, await self.firm.say(back))

    def _hear(self, lines: Sequence[str], replies: Sequence[Reply]) -> None:
        told: Counter[str] = Counter()
        for line, reply in zip(lines, replies):
            verb = line.partition(" ")[0]
            self.counts.lines[verb] += 1
            self._foreign -= reply.is_ok and verb != "round"
            if not reply.is_ok:
                self._refused(line, reply)
            elif verb in QUIET:
                told[verb] += 1
            elif verb != "round" or " " in reply.outcome.removeprefix("ok round cost "):
                self._tell(f"{line}: {reply.outcome}")
        if told:
            self._tell("sent to firm: " + ", ".join(f"{count} {verb}" for verb, count in told.items()))

    def _refused(self, line: str, reply: Reply) -> None:
        self.counts.refused[reply.outcome] += 1
        if reply.outcome in NO_ROOM:
            self._full_until = time.monotonic() + NO_ROOM_SECONDS
        if reply.outcome in MEANWHILE:
            self.counts.rival_lines += 1
        self._warn(f"firm refuses lines, as {line}: {reply.outcome}")

    def _warn(self, text: str) -> None:
        """Tells the like of it once a minute."""
        kind = text.partition(",")[0]
        if time.monotonic() - self._warnings.get(kind, -AGAIN_SECONDS) >= AGAIN_SECONDS:
            self._warnings[kind] = time.monotonic()
            tell(WARNING, f"{self.partition.name}: {text}")

    async def _obey(self, work: Sequence[Sequence[str]]) -> None:
        for command in chain(*work):
            self.counts.commands[command.partition(" ")[0]] += 1
            self._tell(f"scontrol {command}")
        complaints = await commands.obey(work)
        self.counts.complaints += len(complaints)
        for complaint in complaints:
            self._tell(f"Slurm says: {complaint}")

    def _tell(self, text: str) -> None:
        tell(INFO, f"{self.partition.name}: {text}")


async def lock_alone(path: Path) -> IO[bytes]:
    """Waits until no other bridge has this file; it must stay open. Raises `OSError`."""
    file = open_lock(path)
    has_told = False
    while True:
        try:
            fcntl.flock(file, fcntl.LOCK_EX | fcntl.LOCK_NB)
            return file
        except BlockingIOError:
            if not has_told:
                has_told = True
                tell(WARNING, f"another bridge has {path}: this one does nothing until it ends")
        await asyncio.sleep(LOCK_SECONDS)


class Bridge:
    """All partitions of a table."""

    def __init__(self, table: Table) -> None:
        self.table = table
        self.sides = [Side(partition, table) for partition in table.partitions]
        self.turns = self.failures = 0
        self.seconds = 0.0  # of the last turn
        self._told: dict[str, str] = {}  # what fails, by partition, as last told

    async def serve(self) -> None:
        async with asyncio.TaskGroup() as group:
            for side in self.sides:
                group.create_task(side.firm.watch())
            group.create_task(self._turn_for_ever())

    async def _turn_for_ever(self) -> None:
        while True:
            began = time.monotonic()
            await self.turn()
            self.seconds = time.monotonic() - began
            # A look at a very long queue takes Slurm as long as this pause at most.
            await asyncio.sleep(max(self.table.pause - self.seconds, self.seconds / 2))

    async def turn(self) -> None:
        self.turns += 1
        begun = await asyncio.gather(*(self._do(side, side.begin()) for side in self.sides))
        try:
            picture = await commands.look([side.partition.name for side in self.sides])
        except NoSlurm as error:
            return self._fail("Slurm", str(error))
        self._succeed("Slurm")
        there = [side for side, has_begun in zip(self.sides, begun) if has_begun]
        done = await asyncio.gather(*(self._do(side, side.turn(picture)) for side in there))
        for side, is_done in zip(there, done):
            if is_done:
                self._succeed(side.partition.name)

    async def _do(self, side: Side, work: Coroutine[Any, Any, None]) -> bool:
        """Whether it was done."""
        try:
            await work
        except (Away, NoSlurm) as error:
            side.forget()
            self._fail(side.partition.name, str(error))
            return False
        return True

    def _fail(self, what: str, why: str) -> None:
        self.failures += 1
        if self._told.get(what) != why:
            self._told[what] = why
            tell(WARNING, f"{what}: {why}; what runs goes on")

    def _succeed(self, what: str) -> None:
        if self._told.pop(what, None) is not None:
            tell(INFO, f"{what}: all is well again")
