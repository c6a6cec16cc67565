"""The rules of a task's life, apart from all that reads and writes: which state it is in, and what follows."""

from __future__ import annotations

from collections.abc import Iterable
from dataclasses import dataclass
from enum import StrEnum
from typing import NamedTuple

MOST_LOST = 5  # attempts in a row of which nobody knows how they ended, after which a task is given up
FIRST_PAUSE, LONGEST_PAUSE = 1.0, 60.0  # seconds before a further attempt
SIGNAL_STATUS = 128  # a shell adds a signal's number to it


class TaskState(StrEnum):
    HELD = "held"
    BLOCKED = "blocked"
    QUEUED = "queued"
    WAITING = "waiting"
    STARTING = "starting"
    RUNNING = "running"
    ENDING = "ending"
    DONE = "done"
    FAILED = "failed"
    TIMEOUT = "timeout"
    CANCELLED = "cancelled"
    UNMET = "unmet"
    LOST = "lost"


ENDED = frozenset(
    {TaskState.DONE, TaskState.FAILED, TaskState.TIMEOUT, TaskState.CANCELLED, TaskState.UNMET, TaskState.LOST}
)
# Why an agent ended a run, where the task is to go on.
BY_FIRM = ("preempted", "moved", "drained", "removed")  # firm wants it elsewhere, or not there
REASONS = frozenset({*BY_FIRM, "lease", "told"})


class Facts(NamedTuple):
    """What a task's state follows from; made for each row of a list, so it is a tuple."""

    outcome: str | None = None
    is_held: bool = False
    is_blocked: bool = False
    is_cancelled: bool = False
    is_in_firm: bool = False
    machine: str | None = None  # where firm has placed it
    attempt_machine: str | None = None  # of an attempt that is open
    has_begun: bool = False  # that attempt's process
    is_kept: bool = False  # that attempt goes on without a row in firm


def state_of(facts: Facts) -> TaskState:
    if facts.outcome is not None:
        return TaskState(facts.outcome)
    if facts.attempt_machine is not None:
        is_wanted = facts.is_kept or facts.machine == facts.attempt_machine
        if facts.is_cancelled or not is_wanted:
            return TaskState.ENDING
        return TaskState.RUNNING if facts.has_begun else TaskState.STARTING
    if facts.is_held:
        return TaskState.HELD
    if facts.is_blocked:
        return TaskState.BLOCKED
    if not facts.is_in_firm:
        return TaskState.QUEUED
    return TaskState.WAITING if facts.machine is None else TaskState.STARTING


def is_wanted(facts: Facts) -> bool:
    """Whether firm should have the task."""
    if facts.outcome is not None or facts.is_cancelled or facts.is_kept:
        return False
    return facts.attempt_machine is not None or not (facts.is_held or facts.is_blocked)


class UserAction(StrEnum):
    """What a user asks for."""

    CANCEL = "cancel"
    HOLD = "hold"
    RELEASE = "release"


def refusal(change: UserAction, facts: Facts) -> str | None:
    """Why a change has no effect; None where it has one."""
    if facts.outcome is not None:
        return f"has ended: {facts.outcome}"
    if facts.is_cancelled:
        return "is being cancelled"
    if change == UserAction.HOLD:
        if facts.attempt_machine is not None:
            return f"runs on {facts.attempt_machine}"
        return "is held" if facts.is_held else None
    if change == UserAction.RELEASE and not facts.is_held:
        return "is not held"
    return None


class Judgement(StrEnum):
    READY = "ready"
    BLOCKED = "blocked"
    UNMET = "unmet"


@dataclass(frozen=True, slots=True)
class Needed:
    """How far something is that another one waits for."""

    is_ok: bool  # it must end with `done`
    live: int  # tasks of it that have not ended
    failed: int  # that ended otherwise


def judge(needs: Iterable[Needed]) -> Judgement:
    """Whether what waits for these may begin."""
    found = Judgement.READY
    for need in needs:
        if need.is_ok and need.failed:
            return Judgement.UNMET
        if need.live:
            found = Judgement.BLOCKED
    return found


@dataclass(frozen=True, slots=True)
class End:
    """How an attempt ended, as an agent says it."""

    kind: str  # ended, lost or void
    status: int = 0
    is_asked: bool = False  # the agent ended it
    why: str | None = None
    fault: str | None = None  # why the process could not be started


@dataclass(frozen=True, slots=True)
class Past:
    """What became of a task before."""

    retries: int
    failures: int
    lost: int
    is_cancelled: bool


@dataclass(frozen=True, slots=True)
class AttemptDecision:
    """What follows from an attempt's end."""

    attempt: str  # its outcome
    task: str | None  # the task's outcome; None where it goes on
    reason: str = ""
    failures: int = 0
    lost: int = 0
    pause: float = 0.0  # seconds until it may be tried again


def after(end: End, past: Past) -> AttemptDecision:
    """What follows from the end of an attempt."""
    if end.kind == "void":
        outcome = TaskState.CANCELLED if past.is_cancelled else None
        return AttemptDecision("void", outcome, "never begun", past.failures, past.lost)
    reason = reason_of(end)
    if past.is_cancelled:
        return AttemptDecision("cancelled", TaskState.CANCELLED, reason, past.failures, past.lost)
    if end.kind == "lost":
        lost = past.lost + 1
        if lost >= MOST_LOST:
            return AttemptDecision("lost", TaskState.LOST, f"lost {lost} times in a row", past.failures, lost)
        return AttemptDecision("lost", None, reason, past.failures, lost, pause_after(lost))
    if end.is_asked and end.why == "timeout":
        return AttemptDecision("timeout", TaskState.TIMEOUT, reason, past.failures)
    if end.is_asked and end.why != "memory":
        return AttemptDecision(end.why if end.why in REASONS else "removed", None, reason, past.failures)
    if end.status == 0 and end.fault is None and end.why != "memory":
        return AttemptDecision("done", TaskState.DONE)
    failures = past.failures + 1
    if failures > past.retries:
        return AttemptDecision("failed", TaskState.FAILED, reason, failures)
    return AttemptDecision("failed", None, reason, failures, 0, pause_after(failures))


def reason_of(end: End) -> str:
    """An end in words."""
    if end.kind == "lost":
        return "exit status unknown"
    if end.fault is not None:
        return end.fault
    if end.why is not None:
        told = {"timeout": "time limit exceeded", "memory": "out of memory", "lease": "lease expired"}
        return told.get(end.why, end.why)
    if end.status > SIGNAL_STATUS:
        return f"signal {end.status - SIGNAL_STATUS}"
    return f"status {end.status}" if end.status else ""


def pause_after(times: int) -> float:
    """Seconds until the next attempt, after this number in vain."""
    return min(FIRST_PAUSE * 2.0 ** min(times - 1, 10), LONGEST_PAUSE)
