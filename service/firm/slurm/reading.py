"""What Slurm says of nodes and jobs, as sinfo and squeue print it."""

from __future__ import annotations

import re
from collections.abc import Iterable, Iterator, Sequence
from enum import Enum
from math import inf
from operator import itemgetter
from typing import NamedTuple

END = "\x1f"  # of a field; the hook keeps control characters out of what users write, and a comment comes last
USER = slice(3, 4)  # of a kind
NODE_FIELDS = ("PartitionName", "NodeList", "CPUsState", "Available", "StateComplete")
# Limits of where and when a job can start, beside its account, QOS and licences.
NEEDS = (
    *("UserName", "Feature", "NumNodes", "NumCPUs", "MinMemory", "MinTmpDisk"),
    *("SCT", "tres-per-node", "tres-per-job"),
)
NODES = NEEDS.index("NumNodes")
SEVERAL = re.compile(r"[2-9]|1[0-9K.]")  # nodes, as 2, 12, 1K or 1.5K
JOB_FIELDS = (
    *(
        "Partition",
        "JobArrayID",
        "JobID",
        "State",
        "PriorityLong",
        "Reason",
        "Account",
        "QOS",
        "Dependency",
        "Licenses",
    ),
    *("ReqNodes", "NodeList", "EligibleTime", "LastSchedEval", "StartTime", "RestartCnt", "SubmitTime", "TimeLimit"),
    *NEEDS,
    "Requeue",
    "Comment",
)
NOTHING = frozenset({"", "N/A", "(null)", "Unknown"})
CLOSED = {"drain", "fail", "maint", "maintenance", "reserved", "reboot", "reboot_requested", "reboot_issued"}
UNCLEAR = {"not_responding", "powering_up", "powering_down", "power_down", "invalid_reg", "unknown"}
GONE = {"down", "error", "future"}
NEAR = re.compile(r"(?:^|\s)near=([a-z0-9,-]+)")
# The hook's own words: as for it, only ASCII's blanks are blanks.
MOST = re.compile(r"(?:^|\s)firm:most=([0-9]{1,9})(?!\S)", re.ASCII)
HELD = re.compile(r"(?:^|\s)firm:held(?!\S)", re.ASCII)
ADMIN = re.compile(r"(?:^|\s)firm:admin(?!\S)", re.ASCII)  # root has held a held job
PART = re.compile(r"([0-9]+)(?:-([0-9]+)(?::([0-9]+))?)?")  # of a list of numbers, as of the indices of an array
ROW = re.compile(r"([0-9]+)(?:_([0-9]+)|_\[([0-9][0-9,:-]*)(?:%[0-9]+)?\])?")
# By an administrator, as a reservation is no more, or after five failures of nodes.
HELD_STATES = {"SPECIAL_EXIT", "RESV_DEL_HOLD", "REQUEUE_HOLD"}
MAX_NEAR = 4  # machines that a task may prefer
USER_HOLD = "JobHeldUser"
FIRM_HOLDS = {USER_HOLD, "job requeued in held state"}  # by the hook, by `uhold` and by `requeuehold`
ADMIN_HOLD, FAILED = "JobHeldAdmin", "(failed)"  # Slurm takes a failed dependency of a held job for such a hold
MISFIT = "BadConstraints"  # Slurm holds a job that its node is not made for
LAUNCH_FAILED = "launch failed requeued held"  # as by a prolog
# Slurm tells so also of a held job, and goes on telling it once its account, or QOS, is another.
NOT_PERMITTED = ("Job's account", "Job's QOS")
LICENCE = re.compile(r"([^,:;|=]+)(?:[:=]([0-9]+))?")
FREE = re.compile(r"^LicenseName=(\S+) .*\bFree=([0-9]+)", re.MULTILINE)
LIMIT = re.compile(r"(?:(?:([0-9]+)-)?([0-9]+):)?([0-9]+):([0-9]+)")  # 30:00, 1:00:00 or 2-12:00:00; else none
RESERVATION = re.compile(r"^ReservationName=\S+ StartTime=([0-9]+) .*? Nodes=(\S+)", re.MULTILINE)
PAUSE_SECONDS = 121.0  # for which Slurm delays what it requeues
STEADY_SECONDS = 3.0  # for slurmd to launch a job
KEPT_SECONDS = 5.0  # more than slurmctld's clock may be ahead, and than a requeued job has to wait


def user_of(kind: tuple[str, ...]) -> tuple[str, ...]:
    """Return the part of a kind that all jobs of a user have; a kind that is no more than it, itself."""
    return kind[USER] if len(kind) > 1 else kind


class Use(Enum):
    """What a node's state means for its machine."""

    OPEN = "takes jobs"
    UNCLEAR = "Slurm has not given it up, or doesn't know it yet, as after a restart: all stays as it is"
    CLOSED = "takes no more jobs; those that run go on"
    BOOKED = "the same until its next reservation, since no job would end before"
    GONE = "what ran there is over"


class Node(NamedTuple):
    name: str
    cpus: int
    allocated: int  # of them
    use: Use
    reserved: float = inf  # when its next reservation begins


class JobState(Enum):
    PENDING = "pending"
    STARTING = "starting"  # a prolog has not ended, or its node is not up yet
    RUNNING = "running"
    LEAVING = "leaving"  # it has ended or is to start anew, and has not left its node


class Hold(Enum):
    NONE = "released"
    FIRM = "held for firm"
    OTHER = "held"  # by its user, an administrator or Slurm
    FAILED = "held, since its launch failed"
    MISSED = "released, and held by its user"  # as he held it when it was being released


class SlurmJob(NamedTuple):
    """A job of a partition that has not ended; an element of an array is one of its own."""

    name: str  # the task's: 17, or 17-3 for an element of an array
    number: int  # Slurm's own, of an element too
    priority: int
    reason: str  # why it is pending
    account: str
    qos: str
    near: tuple[str, ...]  # machines that it prefers
    most: int | None  # elements of its array that may run at a time
    state: JobState
    hold: Hold
    has_needs: bool  # it depends on jobs that have not ended
    licences: tuple[tuple[str, int], ...]  # by name, with their number
    node: str | None  # where it runs
    pinned: str | None  # the node that it asks for
    eligible: float | None  # when Slurm may start it, once it is released
    evaluated: float | None  # when Slurm last looked whether it can start
    started: float | None
    requeued: float | None  # when its last run had ended and Slurm queued it again
    limit: float  # seconds that it may run
    kind: tuple[str, ...]  # equal for jobs that the same limits, and needs of a node, keep from starting
    has_failed: bool = False  # what it depends on
    is_roots: bool = False  # root has held it while it was held
    is_users: bool = False  # its user holds it, or it needs several nodes
    may_requeue: bool = True  # not with --no-requeue, from before the hook

    @property
    def id(self) -> str:
        return self.name.replace("-", "_")

    @property
    def array(self) -> str:
        return self.name.partition("-")[0]

    @property
    def user(self) -> tuple[str, ...]:
        """The part of its kind that all jobs of its user have."""
        return user_of(self.kind)

    @property
    def is_pending(self) -> bool:
        return self.state is JobState.PENDING

    @property
    def is_admins(self) -> bool:
        """Return whether Slurm tells that an administrator holds it, also while it runs."""
        return self.priority == 0 and self.reason == ADMIN_HOLD

    @property
    def is_released(self) -> bool:
        return self.is_pending and self.hold in (Hold.NONE, Hold.MISSED)

    @property
    def has_started(self) -> bool:
        return self.state in (JobState.STARTING, JobState.RUNNING)

    def is_steady(self, now: float) -> bool:
        """Return whether slurmd has surely launched a job, so that it may be requeued.

        A termination that overtakes the launch finds no process: Slurm takes the job for ended, and it runs on. One
        during a prolog has Slurm hold the job as an administrator does, for ever. A start far ahead was before the
        clock was set back; squeue may need a minute to tell of a later one.
        """
        is_new = self.started is not None and -PAUSE_SECONDS <= now - self.started < STEADY_SECONDS
        return self.state is JobState.RUNNING and not is_new

    def may_start(self, now: float) -> bool:
        """Return whether a pending job may start: at its user's time, and after its last run.

        slurmd refuses a credential from the second of the last run's termination (`slurm_cred.c`: `ctime <= revoked`),
        and slurmctld then marks the job FAILED. A requeue follows the end of the last run and its epilog, so a start in
        any later second is safe. `StartTime=now` has Slurm wait for this host's second, so clocks needn't agree.
        If the last run was ended during its launch, Slurm's own pause stands.
        """
        if self.begins_later(now):
            return False
        if self.requeued is None:
            return True
        last = self.evaluated if self.evaluated is not None else self.requeued  # when Slurm started it, or later
        was_steady = last > self.requeued or self.requeued - last >= STEADY_SECONDS
        return now >= self.requeued + (1 if was_steady else PAUSE_SECONDS)

    def begins_later(self, now: float) -> bool:
        """Return whether its user, or firm-slurm, has set a later time to begin. Slurm's own pause is none."""
        is_pause = self.requeued is not None and self.eligible == self.requeued + PAUSE_SECONDS
        return self.eligible is not None and self.eligible > now and not is_pause

    def is_firms(self, now: float) -> bool:
        """Return whether firm decides when and where a pending job starts, or keeps it for some seconds until then.

        A job that is held for firm, and whose user has set a later time, is not kept: it would have a slot meanwhile.
        """
        is_free = self.hold in (Hold.NONE, Hold.FIRM) and not self.has_needs
        is_later = self.hold is Hold.FIRM and self.begins_later(now)
        return self.is_pending and is_free and not is_later and self.may_start(now + KEPT_SECONDS)

    def is_due(self, now: float) -> bool:
        """Return whether firm is to have it."""
        return self.is_firms(now) and self.may_start(now)

    def fits(self, node: Node, now: float) -> bool:
        """Return whether it would end before the next reservation of a node."""
        return now + self.limit <= node.reserved


class Launches:
    """When jobs were last seen starting. Slurm's own time is that of the allocation, before PrologSlurmctld."""

    def __init__(self) -> None:
        self._seen: dict[str, float] = {}

    def corrected(self, jobs: dict[str, SlurmJob], now: float) -> dict[str, SlurmJob]:
        """Return the jobs, those that run with the later of the two times."""
        running = {name for name in self._seen if name in jobs and jobs[name].state is JobState.RUNNING}
        self._seen = {name: self._seen[name] for name in running}
        found = jobs | {name: jobs[name]._replace(started=at) for name, at in self._seen.items()}
        self._seen |= {name: now for name, job in jobs.items() if job.state is JobState.STARTING}
        return found


class Failures:
    """Jobs whose dependencies have failed: Slurm holds them as an administrator does.

    An administrator's own hold stays, whatever fails later: its user may have it fail. A hold that came while the job
    was released, or ran, is to be marked as another: Slurm then tells it after a restart of firm-slurm, too.
    """

    def __init__(self) -> None:
        self._names: set[str] = set()
        self._admins: set[str] = set()  # jobs that were held so before
        self.unmarked: frozenset[str] = frozenset()  # of these, as of the last look, each once

    def corrected(self, jobs: dict[str, SlurmJob]) -> dict[str, SlurmJob]:
        """Return the jobs, those held for firm that Slurm holds so, once what they depend on is another job."""
        held = {name for name, job in jobs.items() if job.is_pending and job.hold is Hold.OTHER}
        failed = {name for name, job in jobs.items() if job.has_failed and job.is_pending}
        self._names = self._names & held | failed
        others = {name for name, job in jobs.items() if job.is_admins} - self._names
        known, self._admins = self._admins, self._admins & held | others
        new = (name for name in others - known if jobs[name].state is not JobState.LEAVING)
        self.unmarked = frozenset(name for name in new if not jobs[name].is_roots)
        misheld = (jobs[name] for name in self._names - failed - self._admins if jobs[name].is_admins)
        found = (job for job in misheld if not job.is_roots and not job.is_users)
        return jobs | {job.name: job._replace(hold=Hold.FIRM) for job in found}


class Relaunches:
    """Jobs whose launch has failed: Slurm drains the node, and holds the job until root releases it.

    Each is tried once more, elsewhere: the node may be to blame. A job that is to blame itself would drain them all.
    """

    def __init__(self) -> None:
        self._first: dict[str, float | None] = {}  # when the job was requeued by its first failure

    def corrected(self, jobs: dict[str, SlurmJob]) -> dict[str, SlurmJob]:
        """Return the jobs, those held for firm that have failed once."""
        failed = {name: job for name, job in jobs.items() if job.hold is Hold.FAILED}
        self._first = {name: at for name, at in self._first.items() if name in jobs}
        self._first = {name: job.requeued for name, job in failed.items()} | self._first
        once = (name for name, job in failed.items() if job.requeued == self._first[name])
        return jobs | {name: jobs[name]._replace(hold=Hold.FIRM) for name in once}


class Picture(NamedTuple):
    """What Slurm said at a moment."""

    nodes: dict[str, dict[str, Node]]  # by partition and name
    jobs: dict[str, dict[str, SlurmJob]]  # by partition and task, in order of submission
    licences: dict[str, int]  # that are free, by name
    at: float  # Unix time before it was asked


def format_of(fields: Sequence[str]) -> str:
    """The fields as squeue and sinfo take them with -O."""
    return ",".join(f"{field}:{END}" for field in fields)


def rows_of(text: str, fields: Sequence[str]) -> Iterator[list[str]]:
    """The fields of each line; a line with fewer is none. A user's words may have what else ends a line in Unicode."""
    for line in text.split("\n"):
        row = line.removesuffix(END).split(END, len(fields) - 1)
        if len(row) == len(fields):
            yield [word.strip() for word in row]


def word(text: str) -> str | None:
    return None if text in NOTHING else text


def seconds_of(limit: str) -> float:
    """Return a time limit in seconds; UNLIMITED is infinite."""
    found = LIMIT.fullmatch(limit)
    days, hours, minutes, seconds = map(int, found.groups("0")) if found else (0, 0, 0, 0)
    return ((days * 24 + hours) * 60 + minutes) * 60.0 + seconds if found else inf


def time_of(text: str) -> float | None:
    """A time as squeue prints it with SLURM_TIME_FORMAT=%s."""
    return float(text) if text.isascii() and text.isdigit() else None


def use_of(state: str, available: str = "up") -> Use:
    """From words like idle+drain+not_responding, and whether its partition is up."""
    words = set(state.lower().split("+"))
    if words & GONE:
        return Use.GONE
    if words & CLOSED:
        return Use.CLOSED
    return Use.UNCLEAR if words & UNCLEAR or available != "up" else Use.OPEN


def read_nodes(text: str) -> dict[str, dict[str, Node]]:
    """By partition and name."""
    found: dict[str, dict[str, Node]] = {}
    for partition, name, cpus, available, state in rows_of(text, NODE_FIELDS):
        allocated, _, _, total = cpus.split("/")
        found.setdefault(partition, {})[name] = Node(name, int(total), int(allocated), use_of(state, available))
    return found


def read_licences(text: str) -> dict[str, int]:
    """Return the number of free licences by name, from `scontrol -o show licenses`."""
    return {name: int(count) for name, count in FREE.findall(text)}


def read_reservations(text: str) -> list[tuple[float, str]]:
    """Return when reservations begin, with their nodes as Slurm lists them, from `scontrol -o show reservation`."""
    return [(float(at), listed) for at, listed in RESERVATION.findall(text) if word(listed) is not None]


def with_reservations(
    nodes: dict[str, Node], jobs: Iterable[SlurmJob], begins: dict[str, float], now: float
) -> dict[str, Node]:
    """Return a partition's nodes with their next reservations, booked where no pending job would end before."""
    shortest = min((job.limit for job in jobs if job.is_firms(now)), default=0.0)
    found = {name: node._replace(reserved=begins.get(name, inf)) for name, node in nodes.items()}
    booked = {name for name, node in found.items() if node.use is Use.OPEN and node.reserved < now + shortest}
    return {name: node._replace(use=Use.BOOKED) if name in booked else node for name, node in found.items()}


def without_shared(nodes: dict[str, dict[str, Node]], partitions: Sequence[str]) -> dict[str, dict[str, Node]]:
    """The nodes of each partition that none before it has."""
    taken: set[str] = set()
    found: dict[str, dict[str, Node]] = {}
    for partition in partitions:
        rows = nodes.get(partition, {})
        found[partition] = {name: node for name, node in rows.items() if name not in taken}
        taken |= rows.keys()
    return found


def read_jobs(text: str) -> dict[str, dict[str, SlurmJob]]:
    """By partition and task's name, in order of submission."""
    found: dict[str, list[tuple[tuple[int, int], SlurmJob]]] = {}
    for partition, *row in rows_of(text, JOB_FIELDS):
        elements = list(elements_of(row[0]))
        if elements and row[3].isdigit():  # the priority, where no field before it has an end within
            job = job_of(row)
            for number, index in elements:
                name = f"{number}" if index is None else f"{number}-{index}"
                found.setdefault(partition, []).append(((number, index or 0), job._replace(name=name)))
    return {
        partition: {job.name: job for _, job in sorted(jobs, key=itemgetter(0))} for partition, jobs in found.items()
    }


def elements_of(name: str) -> Iterator[tuple[int, int | None]]:
    """Return the number, and the index if any, of each job in a row: 17, 17_3, or the rest of an array as 17_[1-9:2%4].

    `squeue -r` would list the elements, but leaves out the last one where Slurm writes the rest with a step.
    """
    found = ROW.fullmatch(name)
    if found is None:  # a job of several components, or a row that isn't whole
        return
    number, index, rest = found.groups()
    if rest is None:
        yield int(number), None if index is None else int(index)
        return
    for first, last, step in PART.findall(rest):
        yield from ((int(number), index) for index in range(int(first), int(last or first) + 1, int(step or 1)))


def job_of(row: Sequence[str]) -> SlurmJob:
    """Return a job from all fields after the partition; jobs of one row differ in their names alone."""
    name, number, state, priority, reason, account, qos, *rest = row
    needs, licences, pinned, node, *others, requeue, comment = rest
    eligible, evaluated, started, restarts, submitted, limit, *kind = others
    is_pending = state == "PENDING" or state in HELD_STATES
    # One of several nodes, as from before the hook, would be ended once it runs: not on the node that firm chose.
    hold, is_users = Hold.NONE, HELD.search(comment) is not None or SEVERAL.match(kind[NODES]) is not None
    if is_pending and (priority == "0" or state in HELD_STATES):
        is_firms = reason in FIRM_HOLDS or reason.startswith(NOT_PERMITTED)
        is_firms |= reason == MISFIT and word(pinned) is not None
        hold = Hold.OTHER
        is_roots = ADMIN.search(comment) is not None and reason != USER_HOLD
        if state == "PENDING" and not is_users and not is_roots:
            hold = Hold.FIRM if is_firms else Hold.FAILED if reason == LAUNCH_FAILED else Hold.OTHER
    elif is_pending and is_users:
        hold = Hold.MISSED
    near, most = NEAR.search(comment), MOST.search(comment)
    return SlurmJob(
        name=name,
        number=int(number),
        priority=int(priority),
        reason=reason,
        account=word(account) or "",
        qos=word(qos) or "",
        near=tuple(dict.fromkeys(near[1].split(",")))[:MAX_NEAR] if near else (),
        most=int(most[1]) or None if most else None,
        state=JobState.PENDING if is_pending else state_of(state, reason),
        hold=hold,
        has_needs=word(needs) is not None,
        licences=tuple((name, int(count or 1)) for name, count in LICENCE.findall(word(licences) or "")),
        node=None if is_pending else word(node),
        pinned=word(pinned),
        eligible=time_of(eligible),
        evaluated=time_of(evaluated),
        started=time_of(started),
        requeued=time_of(submitted) if restarts not in ("0", "") else None,
        limit=seconds_of(limit),
        kind=(account, qos, licences, *kind),
        has_failed=FAILED in needs,
        is_roots=ADMIN.search(comment) is not None,
        is_users=is_users,
        may_requeue=requeue != "0",
    )


def state_of(text: str, reason: str) -> JobState:
    """Of a job that is on a node, or leaves one. By PrologFlags=Alloc one whose prolog runs there is running."""
    if text == "CONFIGURING" or text == "RUNNING" and reason == "Prolog":
        return JobState.STARTING
    return JobState.RUNNING if text in ("RUNNING", "SUSPENDED", "STOPPED", "RESIZING") else JobState.LEAVING
