"""Tells agents what firm has of theirs: machines, the tasks on them, and the tasks that they run, wherever these are.

Each time an agent is told all of it, and only if it has changed, so it does not matter which changes it has missed.
"""

from __future__ import annotations

import asyncio
import time
from collections import defaultdict

from ..common.fields import Json
from .agents import AgentRecord, Agents, Session
from .core import Core
from .rows import Task

# Seconds between two looks: at least, at most, and this multiple of a processor's time that the last one took.
SHORTEST_PAUSE, LONGEST_PAUSE, PAUSES = 0.01, 1.0, 20
AWAY: Json = {"state": None, "machines": {}, "tasks": []}


class Placements:
    def __init__(self, core: Core, agents: Agents) -> None:
        self._core, self._agents = core, agents
        self._told: dict[Session, Json] = {}  # by the sessions that have registered

    def begin(self, session: Session) -> None:
        """Tell a session soon what firm has, and from then on what has changed."""
        self._told[session] = {}
        self._core.announce()

    def leave(self, session: Session) -> None:
        self._told.pop(session, None)

    async def serve(self) -> None:
        """Tell sessions of changes, for ever."""
        told: tuple[asyncio.Event, bool] | None = None
        while True:
            news, began = self._core.news, time.thread_time()
            if told != (news, self._core.firm.book is None):
                told = news, self._core.firm.book is None
                self._tell_changed()
            await asyncio.sleep(max(SHORTEST_PAUSE, PAUSES * (time.thread_time() - began)))
            try:
                async with asyncio.timeout(LONGEST_PAUSE):  # firm may be away, of which there is no news
                    await news.wait()
            except TimeoutError:
                pass

    def _tell_changed(self) -> None:
        placed, running = self._placed(), self._running()
        for agent in list(self._agents.agents.values()):
            session = agent.session
            if session is not None and session in self._told:
                found = self._rows_of(agent, placed, running[agent.name])
                if found != self._told[session]:
                    self._told[session] = found
                    session.tell({"tell": "firm", **found})

    def _placed(self) -> dict[str, list[str]]:
        """Return the tasks on each machine, by their names in firm."""
        book, found = self._core.firm.book, defaultdict[str, list[str]](list)
        for name, task in book.tasks.items() if book is not None and self._told else ():
            if task.machine is not None:
                found[task.machine].append(name)
        return found

    def _running(self) -> dict[str, list[Task]]:
        """Return the tasks that each agent runs."""
        found = defaultdict[str, list[Task]](list)
        for attempt in self._core.rows.open.values() if self._told else ():
            if (task := self._core.rows.task(attempt.name)) is not None:
                found[attempt.agent].append(task)
        return found

    def _rows_of(self, agent: AgentRecord, placed: dict[str, list[str]], running: list[Task]) -> Json:
        book = self._core.firm.book
        if book is None:
            return AWAY
        machines = {name: book.machines[name] for name in agent.machines if name in book.machines}
        names = dict.fromkeys(name for machine in machines for name in placed.get(machine, ()))
        for task in running:
            names.update(dict.fromkeys(self._core.rows_in_firm(task)))
        tasks = [
            {"task": name, "line": row.line, "job": row.job, "weight": book.jobs[row.job], "machine": row.machine}
            for name, row in ((name, book.tasks[name]) for name in names)
        ]
        return {"state": self._core.firm.state, "machines": machines, "tasks": tasks}
