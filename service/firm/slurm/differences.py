"""Where firm's rows and Slurm's jobs differ, and since when: told by both, so that nothing is to be remembered."""

from __future__ import annotations

from collections import Counter
from typing import NamedTuple

from ..common.books import Book, FirmTask
from .reading import Hold, SlurmJob, JobState


class Difference(NamedTuple):
    task: str
    firm: str  # where firm has it: a machine, or that it waits
    slurm: str  # where Slurm has it
    since: float | None  # Unix time of the later of the two changes that made it; None: not known


class Standing(NamedTuple):
    """How the jobs of a partition stand."""

    running: int  # where firm has them
    waiting: int  # in firm
    untold: int  # firm hasn't been told of them, for want of room or since they are new
    held: int  # by their users, administrators or Slurm
    needing: int  # they wait for other jobs, or a time
    strangers: int  # they run, and firm doesn't have them
    differences: list[Difference]


def difference(name: str, task: FirmTask, job: SlurmJob | None) -> Difference | None:
    if job is None:
        return Difference(name, task.machine or "waits", "ended", None)
    if job.has_started and job.node != task.machine:
        return Difference(name, task.machine or "waits", f"runs on {job.node}", latest(task.since, job.started))
    if job.state is JobState.LEAVING and (task.machine is None or job.node != task.machine):
        return Difference(name, task.machine or "waits", f"leaves {job.node}", task.since)
    if job.is_pending and task.machine is not None:
        told = f"{job.hold.value}, for {job.pinned}" if job.pinned else job.hold.value
        return Difference(name, task.machine, told, task.since)
    if job.is_released and task.machine is None:
        return Difference(name, "waits", "released", task.since)
    return None


def latest(*times: float | None) -> float | None:
    return max((time for time in times if time is not None), default=None)


def standing(book: Book, jobs: dict[str, SlurmJob], now: float) -> Standing:
    found = (difference(name, task, jobs.get(name)) for name, task in book.tasks.items())
    differences = [one for one in found if one is not None]
    others = [job for job in jobs.values() if job.name not in book.tasks]
    kinds = Counter(kind_of(job, now) for job in others)
    running = sum(task.machine is not None for task in book.tasks.values())
    return Standing(
        running=running,
        waiting=len(book.tasks) - running,
        untold=kinds["untold"],
        held=kinds["held"],
        needing=kinds["needing"],
        strangers=kinds["stranger"],
        differences=differences,
    )


def kind_of(job: SlurmJob, now: float) -> str:
    """Of a job that firm doesn't have."""
    if not job.is_pending:
        return "stranger"
    if job.is_due(now):
        return "untold"
    return "needing" if job.has_needs or job.hold in (Hold.NONE, Hold.FIRM) else "held"
