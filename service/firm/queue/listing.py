"""What is shown of tasks, attempts and jobs, as JSON."""

from __future__ import annotations

import time
from collections import Counter
from collections.abc import Iterable, Iterator
from dataclasses import asdict
from itertools import islice
from typing import Any, Protocol

from ..common.books import Book
from ..common.fields import Json
from ..common.tables import duration
from ..common.users import User, name_of
from . import states
from .agents import Agents
from .backlog import used
from .core import Core
from .firmd import Firm
from .rows import SINGLE, Attempt, Need, Submission, Task
from .states import Facts, Needed, TaskState

FOREIGN = "foreign"  # the state of a task in firm that the queue has not submitted
MOST_SHOWN, MOST_LOOKED_AT = 4, 16  # needs that a reason names, and among which they are looked for
NOT_YET = "before its turn"  # the reason of a queued task while slots are free


class Known(Protocol):
    """The sources of a task's row, beside the task."""

    @property
    def firm(self) -> Firm:
        """The tenant in firm."""

    def facts(self, task: Task) -> Facts:
        """Return the facts that decide the task's state."""

    def needed(self, need: Need) -> Needed:
        """How far what a task waits for is."""


class Unbegun(Protocol):
    def why_not_begun(self, task: Task, machine: str) -> str:
        """Why a task that is placed has no process."""


class TaskRows:
    """Rows of tasks, as of now."""

    def __init__(self, known: Known, unbegun: Unbegun) -> None:
        self._known, self._unbegun = known, unbegun
        self._counted: tuple[Book, bytes, int] | None = None  # firm's rows, at a command, with their slots

    def state_of(self, task: Task) -> TaskState:
        return states.state_of(self._known.facts(task))

    def row(self, task: Task) -> Json:
        """A task, as lists show it."""
        submission, attempt = task.submission, task.attempt
        state, machine, reason = self._seen(task)
        return {
            "task": str(task.name),
            "firm": task.firm,
            "number": submission.number,
            "index": None if task.index == SINGLE else task.index,
            "user": name_of(submission.user),
            "job": submission.job,
            "weight": submission.weight,
            "state": state,
            "reason": reason,
            "machine": machine,
            "agent": attempt.agent if attempt is not None else None,
            "attempt": task.attempts,
            "submitted": submission.sent,
            "began": attempt.began if attempt is not None else None,
            "ended": task.ended,
            "seconds": seconds_of(attempt),
            "status": task.status,
            "time": submission.spec.time,
            "command": submission.spec.command,
        }

    def _seen(self, task: Task) -> tuple[TaskState, str | None, str]:
        """A task's state, the machine where it is or was, and why it is not further."""
        facts = self._known.facts(task)
        state, machine = states.state_of(facts), facts.attempt_machine
        if machine is None:
            machine = facts.machine or last_machine(task)
        return state, machine, "" if state is TaskState.RUNNING else self._reason(task, state, facts.machine)

    def _reason(self, task: Task, state: TaskState, machine: str | None) -> str:
        if task.outcome is not None:
            return task.reason
        if state == TaskState.BLOCKED:
            return f"waits for {self._waited_for(task.submission)}"
        if state == TaskState.STARTING and machine is not None and task.open_attempt is None:
            return self._unbegun.why_not_begun(task, machine)
        if state in (TaskState.QUEUED, TaskState.WAITING) and (trouble := self._known.firm.trouble):
            return trouble
        if state == TaskState.ENDING and not task.is_cancelled:
            return "preempted"
        if state in (TaskState.QUEUED, TaskState.WAITING):
            return task.told or self._why_without_slot(task)
        return ""

    def _why_without_slot(self, task: Task) -> str:
        """Why a task has no slot, at a glance; `why` tells more."""
        rows = self._known.firm.rows
        row = rows.tasks.get(task.firm) if rows is not None else None
        if rows is None:
            return NOT_YET
        if self._counted is None or self._counted[0] is not rows or self._counted[1] != rows.number:
            self._counted = rows, rows.number, rows.slots  # once for many rows of a list
        slots = self._counted[2]
        if rows.running >= slots:
            return "no free slot" if slots else "no machine"
        if row is None:
            return NOT_YET
        return "a free slot costs more than to wait" if rows.waited(row) else "before its first round"

    def _waited_for(self, submission: Submission) -> str:
        """The first needs that have not ended, and how many there are besides."""
        needs, place = submission.needs, submission.first_need
        while place < len(needs) and not self._known.needed(needs[place]).live:
            place += 1
        submission.first_need = place  # what is before it has ended for ever
        live = (need for need in needs[place : place + MOST_LOOKED_AT] if self._known.needed(need).live)
        shown = list(map(str, islice(live, MOST_SHOWN)))
        more = submission.open_needs - len(shown)
        return ", ".join(shown) + (f" and {more:,} more" if more > 0 else "")

    def summary(self, task: Task) -> Iterator[str]:
        """Lines on a task and its state."""
        submission, (state, machine, reason) = task.submission, self._seen(task)
        place = f" on {machine}" if machine is not None else ""
        since = f" for {duration(seconds_of(task.attempt))}" if state is TaskState.RUNNING else ""
        told = f": {reason}" if reason else ""
        yield f"{task.shown} (job {submission.job}, weight {submission.weight}) is {state}{place}{since}{told}"
        if state is TaskState.HELD:
            yield f"it does not start before `firmctl release {task.shown}`"
        if state is TaskState.QUEUED:
            yield "it is not in firm yet"

    def detail(self, task: Task, attempts: list[Attempt]) -> Json:
        submission = task.submission
        spec = asdict(submission.spec)
        plain = None if submission.first is None else [submission.first, submission.last]
        spec["array"] = spec.pop("indexes") or plain
        spec["after"] = [str(need) for need in submission.needs if need.is_ok]
        spec["after_any"] = [str(need) for need in submission.needs if not need.is_ok]
        last = task.attempt  # as memory has it, like the state: its end may not be on the disk yet
        known = attempts if last is None else [*(one for one in attempts if one.number < last.number), last]
        return {**self.row(task), "spec": spec, "attempts": [attempt_row(attempt) for attempt in known]}


class Lists(TaskRows):
    """Rows of all kinds."""

    def __init__(self, core: Core, agents: Agents) -> None:
        super().__init__(core, agents)
        self._core, self._agents = core, agents

    def machines(self, may_see: Iterable[Task]) -> list[Json]:
        """Machines with those tasks that are there."""
        tasks: dict[str, list[str]] = {}
        for task in may_see:
            facts = self._core.facts(task)
            machine = facts.attempt_machine or facts.machine
            if machine is not None:
                tasks.setdefault(machine, []).append(str(task.name))
        rows, agents, found = self._core.firm.rows, self._agents.by_machine(), []
        processes = Counter(attempt.machine for attempt in self._core.rows.open.values())
        for machine, (state, reason) in self._agents.machine_states().items():
            agent = agents.get(machine)
            slots = rows.machines.get(machine) if rows is not None else None
            if slots is None and agent is not None:
                slots = agent.machines[machine]
            row: Json = {"machine": machine, "slots": slots, "agent": agent.name if agent is not None else None}
            row["host"] = agent.host if agent is not None else None
            row |= {"state": state, "reason": reason, "tasks": tasks.get(machine, [])}
            found.append({**row, "open": processes[machine]})
        return found

    def agents(self) -> list[Json]:
        processes = Counter(attempt.agent for attempt in self._core.rows.open.values())
        return [
            {
                "agent": agent.name,
                "state": self._agents.state_of(agent),
                "silent": round(agent.silence, 3),
                "machines": list(agent.machines),
                "open": processes[agent.name],
                "since": agent.since,
                "host": agent.host,
            }
            for agent in self._agents.agents.values()
        ]

    def jobs(self, user: User) -> list[Json]:
        """Return the jobs that a user may see, with the states of their tasks."""
        begun: dict[str, list[Task]] = {}
        for task in self._core.begun().values():
            begun.setdefault(task.submission.job, []).append(task)
        found = []
        for name, job in self._core.rows.jobs.items():
            if user.may_see(job.user):
                states = self._core.states_with(job.counts, begun.get(name, []))
                found.append({"job": name, "user": name_of(job.user), "weight": job.weight, "states": dict(states)})
        return found

    def firm(self) -> Json:
        firm, rows = self._core.firm, self._core.firm.rows
        nodes, arcs = used(rows) if rows is not None else (0, 0)
        limits = (rows.limits.nodes, rows.limits.arcs) if rows is not None else (0, 0)
        there = {"is_there": not firm.trouble, "reason": firm.trouble, "state": firm.state}
        tasks = len(rows.tasks) if rows is not None else 0
        return {**there, "tasks": tasks, "nodes": [nodes, limits[0]], "arcs": [arcs, limits[1]]}


def last_machine(task: Task) -> str | None:
    """Where the last attempt of a task that has ended was."""
    return task.attempt.machine if task.attempt is not None and task.outcome is not None else None


def seconds_of(attempt: Attempt | None) -> float | None:
    if attempt is None or attempt.began is None:
        return None
    if attempt.is_open:
        return round(max(0.0, time.time() - attempt.began), 3)
    return attempt.seconds if attempt.seconds is not None else round(max(0.0, (attempt.ended or 0) - attempt.began), 3)


def attempt_row(attempt: Attempt) -> Json:
    shown: dict[str, Any] = {"attempt": attempt.number, "agent": attempt.agent, "machine": attempt.machine}
    shown |= {"run": attempt.run, "began": attempt.began, "ended": attempt.ended, "seconds": seconds_of(attempt)}
    shown |= {"outcome": attempt.outcome, "status": attempt.status, "reason": attempt.reason}
    shown |= {"output": attempt.output, "host": attempt.host}
    return {**shown, "max_rss": attempt.max_rss, "cpu_seconds": attempt.cpu_seconds}
