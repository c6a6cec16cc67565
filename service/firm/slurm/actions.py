"""What Slurm is to do: the commands that bring jobs to where firm's rows have them. Nothing here has an effect."""

from __future__ import annotations

from collections import Counter
from collections.abc import Iterator
from dataclasses import dataclass, field

from .firm_lines import Observed
from .reading import Hold, SlurmJob
from .table import Partition

REQUEUE = "requeuehold Incomplete"  # what ended meanwhile doesn't run again
KEPT = "requeue Incomplete"  # root holds a job that runs: Slurm would forget it with the other
HOLD = "uhold"  # after `hold`, which is an administrator's, the reason is another
RELEASE = "release"
MAX_ELEMENTS = 100  # of an array in a command
MAX_STARTS = 300  # at a look: none is released unless scontrol has pinned all of them in its time, on a slow host too


@dataclass(slots=True)
class Deeds:
    """What is to become of jobs. Slurm refuses each command that comes too late."""

    requeues: list[SlurmJob] = field(default_factory=list)
    marks: list[str] = field(default_factory=list)
    holds: list[SlurmJob] = field(default_factory=list)
    pins: list[str] = field(default_factory=list)
    releases: list[SlurmJob] = field(default_factory=list)

    def phases(self) -> list[list[str]]:
        """Commands for scontrol; those of a phase come after the one before.

        A pin that came behind a release would wait for a cycle of Slurm's scheduler.
        """
        held = {job.name for job in self.requeues if job.is_admins or job.priority == 0 and job.is_roots}
        kept = [job for job in self.requeues if job.name in held]
        others = [job for job in self.requeues if job.name not in held]
        first = [*together(REQUEUE, others), *together(KEPT, kept), *together(HOLD, self.holds)]
        first += self.marks
        return [phase for phase in (first, self.pins, list(together(RELEASE, self.releases))) if phase]

    def start(self, job: SlurmJob, node: str) -> None:
        """Only of a held job: an update of nodes would resize one that has started."""
        more = "" if job.may_requeue else " Requeue=1"  # as the hook has it
        self.pins.append(f"update JobId={job.id} ReqNodeList={node} StartTime=now{more}")
        self.releases.append(job)

    def set_time(self, job: SlurmJob, time: str) -> None:
        self.pins.append(f"update JobId={job.id} StartTime={time}")


def together(command: str, jobs: list[SlurmJob]) -> Iterator[str]:
    """A command for each job, and for elements of an array one."""
    arrays: dict[str, list[SlurmJob]] = {}
    for job in jobs:
        arrays.setdefault(job.array, []).append(job)
    for array, members in arrays.items():
        for first in range(0, len(members), MAX_ELEMENTS):
            chosen = members[first : first + MAX_ELEMENTS]
            indices = ",".join(job.name.partition("-")[2] for job in chosen)
            yield f"{command} {chosen[0].id if len(chosen) == 1 else f'{array}_[{indices}]'}"


def deeds(seen: Observed, partition: Partition) -> Deeds:
    found, free = Deeds(), free_slots(seen, partition)
    for name, job in seen.jobs.items():
        task = seen.book.tasks.get(name)
        if name in seen.unmarked:
            found.marks.append(f"update JobId={job.id} Comment=firm:admin")
        if task is None:
            if job.is_released:
                found.holds.append(job)
            if job.is_pending and name in seen.put_off:
                found.set_time(job, f"now+{seen.put_off[name]:.0f}")
        elif job.has_started and job.node != task.machine:
            if job.is_steady(seen.now):
                found.requeues.append(job)
        elif job.is_firms(seen.now):
            node = seen.nodes.get(task.machine or "")
            fits = node is None or job.fits(node, seen.now)
            place(found, job, task.machine if fits else None, free, seen.now)
    return found


def free_slots(seen: Observed, partition: Partition) -> Counter[str]:
    """Return the slots of each node that Slurm can give now.

    A job that is released before its slot is free would keep Slurm from starting others of its array.
    """
    taken = Counter(job.node for job in seen.jobs.values() if job.node is not None)
    coming = Counter(job.pinned for job in seen.jobs.values() if job.is_released and job.pinned is not None)
    found: Counter[str] = Counter()
    for name, node in seen.nodes.items():
        free = (node.cpus - node.allocated) // partition.cpus
        found[name] = min(free, partition.slots_of(node) - taken[name]) - coming[name]
    return found


def place(found: Deeds, job: SlurmJob, machine: str | None, free: Counter[str], now: float) -> None:
    """What a pending job of firm's needs to start on a machine, or nowhere."""
    if job.hold is not Hold.NONE:
        has_room = free[machine or ""] > 0 and len(found.releases) < MAX_STARTS
        if machine is not None and has_room and job.may_start(now):
            free[machine] -= 1
            found.start(job, machine)
    elif job.pinned != machine or machine is None:
        found.holds.append(job)  # it may be starting elsewhere: the next look shows whether it is held
    elif job.eligible is not None and job.eligible > now and job.may_start(now):
        found.set_time(job, "now")  # Slurm has what it requeues wait two minutes
