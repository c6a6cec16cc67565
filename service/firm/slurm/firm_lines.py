"""What firm is said: the lines that bring a tenant's rows to what Slurm has. Nothing here has an effect."""

from __future__ import annotations

from collections import Counter, defaultdict
from collections.abc import Iterable, Iterator
from dataclasses import dataclass, field, replace

from ..common.books import Book
from ..common.lines import is_name
from ..common.quantities import MAX_WEIGHT
from ..common.roster import slot_cost
from ..queue.backlog import TASK_ARCS, ArenaRoom, reserve
from .reading import MAX_NEAR, SlurmJob, Node, JobState, Use
from .table import Drain, Partition

MAX_LINES = 4_000  # at a time: what is left comes with the next look


@dataclass(frozen=True, slots=True)
class Observed:
    """What firm and Slurm have of a partition. The rows' tasks are read before Slurm is asked.

    So a task without a job has none any more, even where others say lines meanwhile.
    """

    book: Book
    tasks: frozenset[str]
    nodes: dict[str, Node]
    jobs: dict[str, SlurmJob]
    now: float
    licences: dict[str, int] = field(default_factory=dict)  # that are free
    put_off: dict[str, float] = field(default_factory=dict)  # tasks that Slurm doesn't start now, with the seconds
    avoided: dict[str, set[str]] = field(default_factory=dict)  # nodes that refused jobs of an array
    tries: dict[tuple[str, ...], int] = field(default_factory=dict)  # jobs of a kind that firm may have to start
    unmarked: frozenset[str] = frozenset()  # jobs that root holds, for which Slurm may come to tell another reason


@dataclass(slots=True)
class News:
    """Lines, and the tasks that they take over with the nodes on which these run already."""

    lines: list[str] = field(default_factory=list)
    taken: dict[str, str] = field(default_factory=dict)


def news(seen: Observed, partition: Partition, has_room: bool = True) -> News:
    """The lines, without the round that follows them; no tasks where firm had no room for some a moment ago."""
    seen = replace(seen, nodes=seen.nodes | narrowed(seen, partition))
    ended = {task for task in seen.tasks if not is_kept(seen, task)}
    ended |= set(finishing(seen, partition.drain))
    ended |= set(regrouped(seen, partition))  # they come again with the next look
    ended |= set(surplus(seen, ended))
    found = News([f"done {task}" for task in seen.book.tasks if task in ended])
    found.lines += [f"drain {machine}" for machine in seen.book.machines if is_over(seen.nodes.get(machine))]
    told = Telling(seen, partition, ended)
    for node in new_nodes(seen):
        told.add(node, found)
    told.grow(found)
    if has_room and not found.taken:
        found.lines += told.tasks()
    used = told.groups | {task.job for task in seen.book.tasks.values()}  # those that end now, too
    idle = [job for job in seen.book.jobs if job not in used]
    return News([*(f"close {job}" for job in idle), *found.lines], found.taken)


def narrowed(seen: Observed, partition: Partition) -> dict[str, Node]:
    """Return nodes that have fewer slots than their machines, as by another table, booked until they join anew."""
    found = (seen.nodes[name] for name in seen.book.machines if name in seen.nodes)
    wide = (node for node in found if seen.book.machines[node.name] > partition.slots_of(node))
    return {node.name: node._replace(use=Use.BOOKED) for node in wide if node.use is Use.OPEN}


def is_kept(seen: Observed, task: str) -> bool:
    """Whether a task of firm's stays one: its job has not ended, and is no one else's to start."""
    job = seen.jobs.get(task)
    return job is not None and (not job.is_pending or job.is_firms(seen.now) and task not in seen.put_off)


def is_over(node: Node | None) -> bool:
    """Whether a machine takes no more tasks."""
    return node is None or node.use in (Use.CLOSED, Use.BOOKED, Use.GONE)


def finishing(seen: Observed, drain: Drain) -> Iterator[str]:
    """Tasks that run to their end on nodes that take no more, as after a node has left the partition."""
    uses = (Use.BOOKED, Use.CLOSED) if drain is Drain.FINISH else (Use.BOOKED,)
    for task, row in seen.book.tasks.items():
        job, node = seen.jobs.get(task), seen.nodes.get(row.machine or "")
        if job is not None and job.has_started and job.node == row.machine:
            if (Use.CLOSED if node is None else node.use) in uses:
                yield task


def regrouped(seen: Observed, partition: Partition) -> Iterator[str]:
    """Waiting tasks whose jobs have another account, or QOS, than firm was told."""
    for task, row in seen.book.tasks.items():
        job = seen.jobs.get(task)
        if row.machine is None and job is not None and job.is_pending and partition.group(job).name != row.job:
            yield task


def surplus(seen: Observed, ended: set[str]) -> Iterator[str]:
    """Waiting tasks of a kind beyond those that may try to start."""
    tries = dict(seen.tries)
    for task, row in sorted(seen.book.tasks.items(), key=lambda found: found[1].machine is None):
        job = seen.jobs.get(task)
        if task not in ended and job is not None and job.is_pending and job.kind in tries:
            tries[job.kind] -= 1
            if tries[job.kind] < 0 and row.machine is None:
                yield task


def preempting(book: Book, jobs: Iterable[SlurmJob], partition: Partition) -> set[tuple[str, ...]]:
    """Return the kinds of jobs for which firm may end some of lower weight."""
    placed = (book.jobs[row.job] for row in book.tasks.values() if row.machine is not None)
    most = min(placed, default=MAX_WEIGHT) + book.limits.churn
    return {job.kind for job in jobs if job.is_pending and partition.group(job).weight > most}


def new_nodes(seen: Observed) -> Iterator[Node]:
    """Nodes that are to become machines."""
    for node in seen.nodes.values():
        if node.use is Use.OPEN and node.name not in seen.book.machines and is_name(node.name.encode()):
            yield node


class Telling:
    """Finds the lines for what firm doesn't have yet, within its arena."""

    def __init__(self, seen: Observed, partition: Partition, ended: set[str]) -> None:
        self._seen, self._partition = seen, partition
        self._kept = [name for name in seen.book.tasks if name not in ended]
        self._room = ArenaRoom.of(seen.book)
        for name in ended & seen.book.tasks.keys():
            self._room.take(-1, -TASK_ARCS - len(seen.book.tasks[name].prefers))
        self._known = set(seen.book.jobs)
        self._near = {name for name in seen.book.machines if not is_over(seen.nodes.get(name))}
        self._on_node: dict[str, list[SlurmJob]] = defaultdict(list)
        for job in seen.jobs.values():
            if job.node is not None:
                self._on_node[job.node].append(job)
        self.groups: set[str] = set()  # firm's jobs that lines are told of
        self._licences = Counter(seen.licences)  # that no task of firm's is to have
        self._tries = dict(seen.tries)
        for name in self._kept:
            if name in seen.jobs and seen.jobs[name].is_pending:
                self._try(seen.jobs[name])
                if seen.book.tasks[name].machine is not None:
                    self._license(name)

    def _try(self, job: SlurmJob) -> None:
        """Count a job of a kind of which few may try to start."""
        if job.kind in self._tries:
            self._tries[job.kind] -= 1

    def _license(self, name: str) -> None:
        """Count what a job of firm's is to have before it starts."""
        job = self._seen.jobs.get(name)
        if job is not None and job.is_pending:
            self._licences.subtract(dict(job.licences))

    def add(self, node: Node, found: News) -> None:
        """Tells of a node without jobs, or of one with the jobs that run there, where firm is sure to place them so."""
        jobs, slots = self._on_node[node.name], self._partition.slots_of(node)
        if (jobs or node.allocated) and not self._can_take(node, jobs, slots):
            if any(job.state is JobState.LEAVING for job in jobs):
                return  # its slot is free soon
            jobs, slots = [], self.free_slots(node)
            if slots < 1:
                return
        groups = len({self._partition.group(job).name for job in jobs} - self._known)
        if not self._room.take(1 + len(jobs) + groups, 1 + slots + len(jobs) * (TASK_ARCS + 1) + groups):
            return
        self._near.add(node.name)
        found.lines.append(f"machine {node.name} {slots}")
        for job in jobs:
            found.lines += self._lines_of(job, [node.name])
            found.taken[job.name] = node.name
        if jobs:
            found.lines.append("round")

    def free_slots(self, node: Node) -> int:
        """Return the slots of a node that no job has; others end as strangers."""
        taken = -(-node.allocated // self._partition.cpus)
        return self._partition.slots_of(node) - max(taken, len(self._on_node[node.name]))

    def grow(self, found: News) -> None:
        """Has machines that joined with fewer slots, and are idle now, join again with those that are free."""
        running = {self._seen.book.tasks[name].machine for name in self._kept}
        for name, slots in self._seen.book.machines.items():
            node = self._seen.nodes.get(name)
            if node is None or node.use is not Use.OPEN or name in running:
                continue
            free = self.free_slots(node)
            if free > slots and self._room.take(0, free - slots):
                found.lines += [f"drain {name}", f"machine {name} {free}"]

    def _can_take(self, node: Node, jobs: list[SlurmJob], slots: int) -> bool:
        """Whether a round places all that run on a node there: nothing else waits, and any other slot is dearer."""
        book, partition = self._seen.book, self._partition
        if book.waiting or len(jobs) > slots or node.allocated > len(jobs) * partition.cpus:
            return False
        if any(job.state is not JobState.RUNNING or job.name in book.tasks or not job.may_requeue for job in jobs):
            return False
        dearest = slot_cost(book.limits.spread, len(jobs) - 1)
        return book.limits.remote > dearest and min(partition.group(job).weight for job in jobs) > dearest

    def tasks(self) -> Iterator[str]:
        """Pending jobs, heavy ones first, then in order of submission."""
        partition, jobs = self._partition, self._seen.jobs
        arrays = Counter(job.array for job in jobs.values() if not job.is_pending and job.name not in self._kept)
        arrays.update(name.partition("-")[0] for name in self._kept)
        count, told = len(self._kept), 0
        self._room = self._room.without(reserve(self._seen.book.limits))
        waiting = self._waiting()
        heavier = waiting[::-1]  # the last is the first to start
        for job in sorted(self._due(), key=lambda job: -partition.group(job).weight):
            while heavier and heavier[-1][0] >= partition.group(job).weight:
                self._license(heavier.pop()[-1])  # a lighter one that waits keeps no licence from this
            if job.most is not None and arrays[job.array] >= job.most:
                continue
            if any(self._licences[name] < count for name, count in job.licences):
                continue
            if self._tries.get(job.kind, 1) < 1:
                continue
            if told >= MAX_LINES:
                break
            near = self._near_of(job)
            is_new = partition.group(job).name not in self._known
            needed = 1 + is_new, TASK_ARCS + len(near) + is_new
            while waiting and waiting[-1][0] < partition.group(job).weight and self._is_full(count, needed):
                name = waiting.pop()[-1]
                yield f"done {name}"
                self._room.take(-1, -TASK_ARCS - len(self._seen.book.tasks[name].prefers))
                count, told = count - 1, told + 1
            if self._is_full(count, needed):
                break
            self._room.take(*needed)
            yield from self._lines_of(job, near)
            self._license(job.name)
            self._try(job)
            arrays[job.array] += 1
            count, told = count + 1, told + 1

    def _is_full(self, count: int, needed: tuple[int, int]) -> bool:
        most = self._partition.most
        return self._room.nodes < needed[0] or self._room.arcs < needed[1] or most is not None and count >= most

    def _waiting(self) -> list[tuple[int, int, str]]:
        """The tasks that wait, with their weights; the last is the first to make room for a heavier one."""
        book = self._seen.book
        rows = ((name, book.tasks[name]) for name in self._kept)
        return sorted(
            ((book.jobs[row.job], -row.line, name) for name, row in rows if row.machine is None), reverse=True
        )

    def _near_of(self, job: SlurmJob) -> list[str]:
        """The machines that it prefers; after a refusal others than that one, with the most free slots first."""
        avoided = self._seen.avoided.get(job.array)
        if avoided is None:
            return [machine for machine in job.near if machine in self._near]
        loads = Counter(task.machine for task in self._seen.book.tasks.values())
        free = {name: slots - loads[name] for name, slots in self._seen.book.machines.items()}
        others = [name for name in free if name in self._near and name not in avoided]
        return sorted(others, key=lambda name: (free[name] <= 0, name not in job.near, -free[name]))[:MAX_NEAR]

    def _due(self) -> Iterator[SlurmJob]:
        tasks, now = self._seen.book.tasks, self._seen.now
        return (job for job in self._seen.jobs.values() if job.name not in tasks and job.is_due(now))

    def _lines_of(self, job: SlurmJob, near: list[str]) -> Iterator[str]:
        group = self._partition.group(job)
        self.groups.add(group.name)
        if group.name not in self._known:
            self._known.add(group.name)
            yield f"job {group.name} {group.weight}"
        yield " ".join(["task", group.name, job.name, *near])


def strays(book: Book, taken: dict[str, str]) -> list[str]:
    """Takes back what was to be taken over where it runs, and was placed otherwise: it ends as a stranger."""
    found = (task for task in taken if task in book.tasks and book.tasks[task].machine != taken[task])
    return [f"done {task}" for task in found]
