"""The queue as the place where an agent's work comes from: registration, beats, claims, and what became of them."""

from __future__ import annotations

import asyncio
import os
import socket
from collections import deque
from collections.abc import Coroutine, Sequence
from contextlib import suppress
from dataclasses import replace
from functools import partial
from pathlib import Path
from typing import TYPE_CHECKING, Any

from ..common.fields import whole
from ..common.files import require_kept
from ..common.logs import INFO, WARNING, short, tell
from ..common.seen_time import SeenTime
from ..queue.fields import DURATION
from .answers import Said, shown
from .cleanup import HISTORY_SECONDS, SWEEP_SECONDS, sweep
from .event_file import Aside, ThreadWork as Chore, aside
from .events import MOST_AT_A_TIME, Events
from .lease import Lease, clock
from .link import Link, Refusal, Server
from .rows import Row, rows_of
from .state import EVENTS, Event, Key, Run
from .work import NotAllowed, Work, work_of

if TYPE_CHECKING:
    from .daemon import Agent

SHORTEST_PAUSE, LONGEST_PAUSE = 0.1, 2.0  # seconds between two tries to reach the queue
SHORTEST_PATIENCE = 2.0  # seconds for anything to come after a beat
REGISTER_SECONDS = 2.0  # between two tries to register, and to ask for what was refused
TAKEN_SECONDS = 10.0  # between two tries to have a machine that another agent has
REST_SECONDS = 1.0  # for which firm may still have a task that has ended
ROOM_SECONDS = 1.0  # between two looks whether the disk has room again
KEEP_SECONDS = 0.5  # in which it is recorded of runs that they are kept, before beats have their turn
MOST_TOLD = 100  # reasons that are not told again
MOST_CLAIMS = 128  # that wait for answers: behind too many the queue would hear no beat


def first_of(faults: BaseExceptionGroup[BaseException]) -> BaseException:
    """The first fault of a group, and of groups in it."""
    first = faults.exceptions[0]
    return first_of(first) if isinstance(first, BaseExceptionGroup) else first


def changed_at(path: Path) -> float | None:
    """Return when a file was changed last, None if there is none."""
    with suppress(OSError):
        return path.stat().st_mtime
    return None


class QueueSource:
    def __init__(
        self, server: Server, name: str, machines: dict[str, int], folder: Path, memory: dict[str, int] | None = None
    ) -> None:
        """The memory is that of machines whose slots have equal parts of it, in bytes."""
        self.server, self.name, self.machines, self._memory = server, name, machines, memory or {}
        self.events, self.lease = Events(folder, socket.gethostname() if server.socket is None else None), Lease()
        self._link: Link | None = None  # while the agent is registered
        self._own: dict[str, int] = {}  # the machines with which it is
        self._taken: set[str] = set()  # those that another agent has
        self._is_stale = asyncio.Event()  # the queue was told of a run that is not there any more
        self._news = asyncio.Event()  # of claims; another one after each
        self._claiming: set[int] = set()  # runs
        self._asking = asyncio.Semaphore(MOST_CLAIMS)
        self._refused: dict[Key, str] = {}  # the machine on which a task is never to be run
        self._rests: dict[Key, float] = {}  # until when tasks that have ended are not begun again
        self._beats: deque[float] = deque()  # of the link, that are not known to have been heard: when they were sent
        self._told = set[str]()  # why the queue can't be used, as told since it could be
        self._history = HISTORY_SECONDS  # of ended tasks, in seconds, that the queue keeps
        self._host = socket.gethostname()
        self._aside = Aside()  # sweeps: the disk may hang
        self._clock = SeenTime(changed_at(folder / EVENTS))

    def begin(self, agent: Agent) -> list[Coroutine[Any, Any, None]]:
        self.agent = agent
        self.events.check()
        return [self._serve(), self._find_host(), self._find_room(), self._sweep_for_ever()]

    # The connection

    async def _serve(self) -> None:
        """Keeps the agent registered, through restarts of the queue."""
        pause = SHORTEST_PAUSE
        while True:
            # A group of tasks that fails while it is cancelled raises its own errors alone (up to Python 3.12), so an
            # end of the agent that is asked for at that moment would be lost here; `gather` raises it all the same.
            (fault,) = await asyncio.gather(self._connect(), return_exceptions=True)
            if isinstance(fault, ExceptionGroup):
                faults, others = fault.split((OSError, ValueError, Refusal))
                if others is not None or faults is None:
                    raise fault
                if self._link is not None:
                    pause = SHORTEST_PAUSE
                fault = first_of(faults)
            elif not isinstance(fault, (OSError, ValueError)):  # ValueError: of a token that is no text
                raise fault or RuntimeError("a connection without an end")
            self._tell_once(f"{self.server}: {fault}")
            self._link = self.agent.rows = None
            await asyncio.sleep(pause)
            pause = min(2 * pause, LONGEST_PAUSE)

    async def _connect(self) -> None:
        """One connection, until it is lost; that raises OSError, or a group of errors."""
        async with self.server.connected() as link:
            path = self.server.socket
            if os.geteuid() == 0 and path is not None:  # who put another socket there would have work run as any user
                require_kept(path, link.owner)
            async with asyncio.TaskGroup() as group:
                group.create_task(link.hear(self._hear))
                group.create_task(self._converse(link))

    def _tell_once(self, why: str) -> None:
        if why not in self._told:
            self._told = self._told | {why} if len(self._told) < MOST_TOLD else {why}
            tell(WARNING, f"{why}; what runs goes on until the lease is over")

    async def _converse(self, link: Link) -> None:
        beat = await self._register(link)
        async with asyncio.TaskGroup() as group:
            group.create_task(self._beat(link, beat, group))
            group.create_task(self._tell_events(link))
            group.create_task(self._register_again(link))

    async def _register(self, link: Link) -> float:
        """Tries until the queue takes the agent, without machines that others have; the seconds between two beats."""
        taken: dict[str, str] = {}  # machines, and what the queue says of them
        while True:
            asked = clock()
            self._is_stale.clear()
            machines = {name: slots for name, slots in self.machines.items() if name not in taken}
            memory = {name: size for name, size in self._memory.items() if name in machines}
            rows: dict[str, object] = {"id": self.agent.history.name, "machines": machines, "runs": self._runs()}
            rows |= {"memory": memory} if memory else {}
            rows["host"] = self._host
            try:
                said = self._said("register", await link.ask("register", agent=self.name, **rows))
                break
            except Refusal as refusal:
                machine = str(refusal.answer.get("machine"))
                if refusal.name == "machine-taken" and machine in machines:
                    taken[machine] = str(refusal)
                    continue
                self._tell_once(f"the queue does not take this agent: {refusal}")
            await asyncio.sleep(REGISTER_SECONDS)
        if said.has("history"):
            self._history = said.read("history", DURATION) or HISTORY_SECONDS
        ending = said.all_tokens("end")  # what is to end may run elsewhere: where it is not known, nothing has a lease
        is_new = link is not self._link
        if is_new:
            self._told.clear()
            self._beats.clear()
        self._tell_machines(machines, taken, is_new)
        self._extend(asked, said.read("lease", DURATION), frozenset(ending))
        self._link, self._own, self._taken = link, machines, set(taken)
        self._end(ending)
        self._keep(said.tokens("keep"))
        self._wake()
        self.agent.changed.set()
        beat = said.read("beat", DURATION)
        return REGISTER_SECONDS if beat is None else max(SHORTEST_PAUSE, beat)

    def _tell_machines(self, machines: dict[str, int], taken: dict[str, str], is_new: bool) -> None:
        if is_new or machines != self._own:
            tell(INFO, f"registered as {self.name} with {', '.join(machines) or 'no machines'}")
        for machine in taken.keys() - self._taken:
            tell(WARNING, f"{machine} is left out until it is free: {taken[machine]}", machine=machine)

    async def _register_again(self, link: Link) -> None:
        """Tells of runs that are dropped, and tries from time to time to have what others had."""
        while True:
            with suppress(TimeoutError):
                async with asyncio.timeout(TAKEN_SECONDS if self._taken else None):
                    await self._is_stale.wait()
            await self._register(link)

    def _runs(self) -> list[Event]:
        """The runs that are open, and those whose end is not acknowledged."""
        rows = []
        for run in self.agent.history.runs.values():
            state = "running" if run.has_run else "starting"
            rows.append(self._row(run, "claiming" if run.number in self._claiming else state))
        return rows + [self._row(run, "ended") for run in self.events.ended()]

    @staticmethod
    def _row(run: Run, state: str) -> Event:
        row = {"token": run.token, "task": run.key.task, "run": run.number, "machine": run.machine}
        return {**row, "state": state}

    async def _beat(self, link: Link, seconds: float, group: asyncio.TaskGroup) -> None:
        """Tells of the agent again and again. A connection on which nothing comes then is lost, as by a cut network."""
        waited, patience = 0.0, max(SHORTEST_PATIENCE, seconds / 2)
        while True:
            await asyncio.sleep(seconds - waited)
            sent, waited = clock(), min(seconds, patience)
            group.create_task(self._beat_once(link))
            await asyncio.sleep(waited)
            while link.heard < sent:
                if clock() > sent + patience:
                    raise TimeoutError(f"nothing has come from the server for {patience:g} s")
                await asyncio.sleep(SHORTEST_PAUSE)

    async def _beat_once(self, link: Link) -> None:
        """Its answer waits for those before it, and so perhaps for the queue's disk; what it grants is told at once."""
        asked = clock()
        self._beats.append(asked)
        answer = await link.ask("beat", runs=[run.token for run in self.agent.history.runs.values()])
        self._extend(asked, self._said("beat", answer).read("lease", DURATION))
        if asked in self._beats:  # of a queue that tells nothing
            self._beats.remove(asked)

    def _extend(self, asked: float, seconds: float | None, ending: frozenset[str] = frozenset()) -> None:
        """Has all runs go on but those that are to end: one that has waited for its first lease would begin. No word of
        how long changes nothing."""
        if seconds is None:
            return
        self.lease.extend(asked, seconds)
        for run in self.agent.history.runs.values():
            if run.token not in ending:
                self.grant(run)

    def grant(self, run: Run) -> None:
        """Tells a run's supervisor of the lease, where it holds."""
        until = self.lease_of(run)
        if until is not None and run.number in self.agent.supervised:
            self.agent.supervised[run.number].extend(until)

    def lease_of(self, run: Run) -> float | None:
        """Return when a run's lease ends; None if it has none, or its end is asked for."""
        return self.lease.until if self.lease.holds and run.ends is None else None

    async def may_begin(self, run: Run) -> bool:
        """Wait until a run has a lease. Return whether it has, and its end is not asked for before."""
        while run.ends is None and not self.lease.holds:
            await self._wait(self._news, REGISTER_SECONDS)
        return run.ends is None

    async def _tell_events(self, link: Link) -> None:
        """Whatever the queue does not take holds up nothing that is behind it."""
        suspects = 0  # the first events, of which the queue refuses one: half of them are told, until it is found
        while True:
            await self.events.are_there.wait()
            events = self.events.first((suspects + 1) // 2 or MOST_AT_A_TIME)
            try:
                told = Said("told", await link.ask("told", events=events), self._refuse).read(
                    "told", whole(1, len(events))
                )
            except Refusal as refusal:
                if refusal.name == "not-written":  # until its disk has room: another connection changes nothing
                    self._tell_once(f"the queue does not take events: {refusal}")
                    await asyncio.sleep(REGISTER_SECONDS)
                    continue
                if refusal.name != "bad-field":
                    raise
                suspects = len(events)
                if suspects == 1:
                    self.events.refused(short(str(refusal)))
                continue
            if told is None:  # it may be that none is written
                await asyncio.sleep(REGISTER_SECONDS)
                continue
            suspects = max(0, suspects - len(events))
            self.events.acknowledged(told)
            self.agent.changed.set()

    async def _find_room(self) -> None:
        """Writes what waits for room on the disk."""
        while True:
            await asyncio.sleep(ROOM_SECONDS)
            if self.agent.state.waits:
                try:
                    self.agent.state.write_waiting()
                    self.agent.changed.set()
                except OSError:
                    continue

    async def _find_host(self) -> None:
        """Register this host's name with its domain, once a resolver, which may be slow, has said it."""
        name = await aside(socket.getfqdn)
        if name != self._host and name.startswith(self._host.partition(".")[0]):
            self._host = name
            self._is_stale.set()

    async def _sweep_for_ever(self) -> None:
        """Remove folders of old runs from time to time. A run that begins meanwhile is too young."""
        while True:
            runs = [*self.agent.history.runs.values(), *(run for _, run in self.events.pending())]
            needed = frozenset(run.folder for run in runs)
            folder, seconds = self.agent.state.folder / "runs", self._history
            self._aside.begin(Chore(partial(sweep, folder, needed, seconds, self._clock.now())))
            await asyncio.sleep(SWEEP_SECONDS)

    # What the queue tells of itself

    def _said(self, ask: str, answer: Event) -> Said:
        """What it answers to a request."""
        return Said(ask, answer.get(ask), self._refuse)

    def _refuse(self, why: str) -> None:
        self._tell_once(f"{self.server}: {why}")

    def _hear(self, event: Event) -> None:
        said = Said(f"tell {shown(event['tell'])}", event, self._refuse)
        match event["tell"]:
            case "firm":
                self.agent.rows = rows_of(event)
                self._wake()
                self.agent.changed.set()
            case "again":
                self._wake()
                self.agent.changed.set()
            case "lease" if self._beats:
                self._extend(self._beats.popleft(), said.read("lease", DURATION))
            case "end":
                self._end(said.tokens("tokens"))
            case "keep":
                self._keep(said.tokens("tokens"))

    def _runs_of(self, tokens: Sequence[str]) -> list[Run]:
        wanted = set(tokens)
        return [run for run in self.agent.history.runs.values() if run.token in wanted]

    def _end(self, tokens: Sequence[str]) -> None:
        for run in self._runs_of(tokens):
            if run.ends is None:
                self.agent.end(run, "told")

    def _keep(self, tokens: Sequence[str]) -> None:
        """Records it before the queue takes the runs' rows away. Of what the disk does not take the queue tells again,
        as long as it is to be kept. What is kept already is said again, as an earlier connection may have lost that."""
        kept = [run.token for run in self.agent.history.runs.values() if run.is_kept]
        lacking = [run for run in self._runs_of(tokens) if not run.is_kept]
        ends = clock() + KEEP_SECONDS
        for at, run in enumerate(lacking):
            if clock() > ends:
                others = [other.token for other in lacking[at:]]
                asyncio.get_running_loop().call_later(KEEP_SECONDS, self._keep, others)
                break
            try:
                self.agent.state.record("keep", run=run.number)
                kept.append(run.token)
            except OSError as error:
                self._tell_once(f"{self.agent.state.folder}: {error}")
        if kept and self._link is not None:
            self.agent.group.create_task(self._say_kept(self._link, kept))

    async def _say_kept(self, link: Link, tokens: list[str]) -> None:
        """Again while the queue's disk is full; over another connection the queue asks for it anew."""
        while True:
            try:
                await link.ask("kept", tokens=tokens)
                return
            except (OSError, Refusal) as error:
                self._tell_once(f"{self.server}: {error}")
                if not isinstance(error, Refusal) or error.name != "not-written":
                    return
            await asyncio.sleep(REGISTER_SECONDS)

    # Runs

    def try_start(self, key: Key, row: Row) -> bool:
        """Starts a task that firm has placed and that has no run, if it can be; whether it takes a slot."""
        if row.machine not in self._own or self._link is None or not self.lease.holds:
            return False
        if self._refused.get(key) == row.machine or self.agent.state.waits or self.events.has_end_of(key):
            return False
        if clock() < self._rests.get(key, 0):
            return False
        try:
            run = self.agent.record_start(key, row)
        except OSError as error:
            self._tell_once(f"{self.agent.state.folder}: {error}; {key.task} is not started")
            asyncio.get_running_loop().call_later(ROOM_SECONDS, self.agent.changed.set)
            return False
        self._claiming.add(run.number)
        self.agent.group.create_task(self._claim_and_start(run))
        return True

    async def _claim_and_start(self, run: Run) -> None:
        try:
            work = await self._claim(run)
        except NotAllowed as why:
            return self.agent.ended(run, why.event())
        finally:
            self._claiming.discard(run.number)
        if work is None:  # as where it has just ended, and firm has its row for a moment yet
            self.agent.state.record("void", run=run.number)
            self.agent.changed.set()
        else:
            self.agent.start(run, work)

    async def _claim(self, run: Run) -> Work | None:
        """The work of a run once the queue gives it, None where there is none any more."""
        row: Event = {"token": run.token, "task": run.key.task, "line": run.key.line, "state": run.key.state}
        row |= {"machine": run.machine, "run": run.number}
        while run.ends is None:
            news, seconds = self._news, None
            try:
                if (link := self._link) is not None:
                    async with self._asking:
                        said = self._said("claim", await link.ask("claim", **row))
                    if said.has("work"):
                        work = work_of(said.get("work"), self._owner_of(link))
                        return self._limited(run.machine, work, self._slots_of(run.machine))
                    if said.has("void"):
                        self._refused[run.key] = run.machine
                        return None
                    wait = said.read("seconds", DURATION)
                    seconds = REGISTER_SECONDS if wait is None else wait
            except OSError:
                pass  # it is asked again once the agent is registered
            except Refusal as refusal:
                seconds = REGISTER_SECONDS
                self._tell_once(f"{run} is not started: {refusal}")
            if run.ends is None:
                await self._wait(news, seconds)
        return None

    def _slots_of(self, machine: str) -> int:
        """Return the slots of a machine, or those that firm still has of it, as it has been given fewer: with each
        one's part of these few, all of its runs would have more memory than there is."""
        rows = self.agent.rows
        return max(self.machines[machine], rows.machines.get(machine, 0) if rows is not None else 0)

    def _limited(self, machine: str, work: Work, slots: int) -> Work:
        """Return the work with its slot's part of the memory, unless it names some. Raise `NotAllowed` if that is more
        than there is."""
        size, named = self._memory.get(machine), work.bounds.get("memory")
        if size is None or named is not None and named <= size:
            return work
        if named is not None:
            raise NotAllowed(f"the task names {named:,} bytes of memory; {machine} has {size:,}")
        return replace(work, bounds={**work.bounds, "memory": size // slots})

    def _owner_of(self, link: Link) -> int | None:
        """Whose queue it is; None where that is unknown, so that root's tasks are not run as root."""
        return link.owner if self.server.socket is not None else None

    @staticmethod
    async def _wait(news: asyncio.Event, seconds: float | None) -> None:
        try:
            async with asyncio.timeout(seconds):
                await news.wait()
        except TimeoutError:
            pass

    def _wake(self) -> None:
        self._news.set()
        self._news = asyncio.Event()

    def is_ending(self, run: Run) -> None:
        if run.number in self._claiming:
            self._wake()

    def leave(self) -> None:
        """Leaves out a run from now on: the queue takes it for lost once its lease is over."""
        self._is_stale.set()

    def has_ended(self, key: Key) -> None:
        """A task has ended by itself: the queue says so to firm, and soon, or has it run again after a pause."""
        self._rests[key] = clock() + REST_SECONDS
        asyncio.get_running_loop().call_later(REST_SECONDS, self.agent.changed.set)

    def forget(self, keys: set[Key]) -> None:
        """Firm has no other tasks than these any more, and none of others runs."""
        known: tuple[dict[Key, Any], ...] = (self._refused, self._rests)
        for kept in known:
            for key in [key for key in kept if key not in keys]:
                del kept[key]
