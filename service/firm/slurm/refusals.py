"""Jobs that Slurm does not start where firm has placed them: which give their slots back, and for how long.

Slurm's scheduler tries jobs by priority. After one that it can't start, it starts no other of the same array, and none
on the same node, in that cycle, and gives all elements of the array the same reason. So a job that can't start must be
withdrawn at once, and jobs that merely follow it should stay.
"""

from __future__ import annotations

from collections import Counter
from collections.abc import Iterable, Iterator, Set

from ..common.books import Book
from .reading import KEPT_SECONDS, MISFIT, NOT_PERMITTED, USER, Hold, SlurmJob, Node, JobState, Use, user_of

Kind = tuple[str, ...]  # of jobs
FIRST_SECONDS, MAX_SECONDS = 5.0, 300.0  # that a job is put off; twice as long each time, until it has run
PLACED_SECONDS = 30.0  # for a job to start where firm placed it, whatever Slurm says, if nothing is leaving there
MAX_LOOK = 2.0  # seconds that count of the time between two looks: Slurm may have been away
LONG_STREAK = 12  # looks; from then on all that wait are put off
AVOIDED_SECONDS = 300.0  # for which jobs of an array prefer other nodes than one that refused one of them
# Reasons that pass by themselves.
PASSING = {"None", "BeginTime", "Priority", "Dependency", "Prolog", "Cleaning", "SchedDefer", "FrontEndDown"}
PASSING |= {"PartitionDown", "PartitionInactive"}
# Words with which reasons begin that hold on any node, for all elements of an array.
OWN = (
    *(
        "Licenses",
        "QOS",
        "Max",
        "Assoc",
        "Account",
        "Invalid",
        "PartitionTimeLimit",
        "JobArrayTaskLimit",
        "BurstBuffer",
    ),
    *NOT_PERMITTED,
)
MAX_KINDS = 4  # of a user's jobs, refused at a time; then all his jobs are of one kind


class Refusals:
    """Recent refusals. A restart forgets them, so pauses are short again."""

    def __init__(self) -> None:
        self._counts: Counter[str] = Counter()  # of each job, until it has run
        self._streaks: Counter[str] = Counter()  # looks in a row in which an array, or a node, had a refused job
        self._nodes: dict[str, dict[str, float]] = {}  # by array, those that refused jobs of it, and when
        self._tries: dict[tuple[str, ...], int] = {}  # by kind of jobs, since one of it was refused
        self._merged: set[tuple[str, ...]] = set()  # users of whose kinds many were refused
        self._pauses: dict[tuple[str, ...], tuple[float, float]] = {}  # of kinds: until when, and their seconds
        self._running: dict[str, tuple[str, ...]] = {}  # kinds of the jobs that ran at the last look
        self._starts: Counter[Kind] = Counter()  # of jobs of a kind, while others of it wait
        self._has_looked = False  # at running jobs: those of the first look may be above a limit of theirs
        self._waited: dict[str, float] = {}  # seconds since a job was placed, while it might have started
        self._delayed: dict[str, float] = {}  # seconds for which a placed job was to begin later
        self._at = 0.0

    def find(self, book: Book, nodes: dict[str, Node], jobs: dict[str, SlurmJob], now: float) -> dict[str, float]:
        """Return the tasks that give their slots back, with the seconds for which they are put off."""
        placed = [job for name, job in jobs.items() if job.is_firms(now) and is_placed(book, name)]
        leaving = {job.node for name, job in jobs.items() if is_leaving(book, name, job)}
        there = [job for job in placed if is_open(nodes, book.tasks[job.name].machine)]
        refused = sorted((job for job in there if is_refused(book, job)), key=lambda job: (-job.priority, job.number))
        chosen = [job for job in there if not job.fits(nodes[book.tasks[job.name].machine or ""], now)]
        sure = [job for job in refused if is_sure(job)]
        unsure = [job for job in refused if not is_sure(job)]
        first = list(self._first(unsure))
        chosen += sure + first
        is_any_open = any(node.use is Use.OPEN for node in nodes.values())
        silent = [job for job in placed if is_any_open and is_silent(nodes, book.tasks[job.name].machine)]
        self._wait([job for job in there if book.tasks[job.name].machine not in leaving] + silent, now)
        chosen += [job for job in there + silent if self._waited.get(job.name, 0.0) >= PLACED_SECONDS]
        chosen += [job for job in there if self._delayed.get(job.name, 0.0) >= KEPT_SECONDS]
        for name in [name for name in self._counts if name not in jobs or jobs[name].state is JobState.RUNNING]:
            del self._counts[name]
        for job in chosen:
            if not job.reason.startswith(OWN):
                self._nodes.setdefault(job.array, {})[book.tasks[job.name].machine or ""] = now
        kinds = Counter(job.kind for job in there)
        blamed = [job for job in tried(unsure) if job in first]
        fewer = {job.kind: max(1, self._tries.get(job.kind, kinds[job.kind]) // 2) for job in blamed}
        self._try(fewer | {job.kind: 1 for job in sure}, jobs, now)
        self._forget({job.array for job in jobs.values() if job.is_pending}, now)
        behind = {job.name for job in first} - {job.name for job in blamed}  # Slurm may not have tried these
        found = dict.fromkeys(chosen)
        return {job.name: FIRST_SECONDS if job.name in behind else self._pause(job, nodes) for job in found}

    def merged(self, jobs: dict[str, SlurmJob]) -> dict[str, SlurmJob]:
        """Return the jobs, those of a user of whose kinds many were refused as of one kind.

        Else jobs that differ in what they need, as in the type of a GPU that is not there, would each be placed.
        """
        if not self._merged:
            return jobs
        return {name: job._replace(kind=job.user) if job.user in self._merged else job for name, job in jobs.items()}

    def avoided(self) -> dict[str, set[str]]:
        """Return the nodes that other jobs of an array need not try, by array."""
        return {array: set(nodes) for array, nodes in self._nodes.items()}

    def tries(self, now: float, preempting: Set[Kind] = frozenset(), free: int = 0) -> dict[Kind, int]:
        """Return how many jobs of a kind firm may have beside those that run; a kind that isn't named has no limit.

        Beyond the free slots `preempting` kinds may end jobs of lower weight, which lose their work for nothing if
        Slurm starts none: one tries until one has started, then two more for each that starts, as the running jobs of
        a kind may have reached a limit. None tries during a pause of the kind.
        """
        paused = {kind for kind, (until, _) in self._pauses.items() if now < until <= now + MAX_SECONDS}
        found = {kind: free + 1 + 2 * self._starts[kind] for kind in preempting} | self._tries
        return found | {kind: min(found.get(kind, free), free) for kind in paused & preempting}

    def _rest(self, refused: Iterable[tuple[str, ...]], jobs: dict[str, SlurmJob], now: float) -> None:
        """Have kinds that were refused pause, twice as long each time until one of the kind starts.

        A pause ends once a job of the same account, QOS and user has ended: it may have been above their limit.
        """
        ended = {owner_of(kind) for name, kind in self._running.items() if not is_running(jobs.get(name))}
        started = {job.kind for name, job in jobs.items() if name not in self._running and is_running(job)}
        for kind in refused:
            until, seconds = self._pauses.get(kind, (0.0, FIRST_SECONDS / 2))
            if not now < until <= now + MAX_SECONDS:
                seconds = min(2 * seconds, MAX_SECONDS)
                self._pauses[kind] = now + seconds, seconds
        kept = ((kind, found) for kind, found in self._pauses.items() if kind in self._tries and kind not in started)
        self._pauses = {kind: (0.0 if owner_of(kind) in ended else until, seconds) for kind, (until, seconds) in kept}

    def _try(self, refused: dict[tuple[str, ...], int], jobs: dict[str, SlurmJob], now: float) -> None:
        """Allow this many of a kind that was refused, and one more for each that starts.

        That is one, or half as many as before if its node may be to blame. Else thousands of jobs that need the same
        busy node, or are above the same limit, would each be placed for a look on slots that others could have.
        """
        running = {name: job.kind for name, job in jobs.items() if is_running(job)}
        begun = [running[name] for name in running.keys() - self._running.keys()] if self._has_looked else []
        for kind in begun:
            if kind in self._tries:
                self._tries[kind] += 1
        pending = {job.kind for job in jobs.values() if job.is_pending}
        self._tries = {kind: count for kind, count in self._tries.items() if kind in pending} | refused
        counts = Counter(user_of(kind) for kind in self._tries)
        many = {user for user, count in counts.items() if count >= MAX_KINDS}
        self._tries |= dict.fromkeys(many, 1)
        self._merged = self._merged & pending | many
        self._rest(refused, jobs, now)
        self._running, self._has_looked = running, True
        self._starts.update(begun)
        self._starts = Counter({kind: count for kind, count in self._starts.items() if kind in pending})

    def _forget(self, arrays: set[str], now: float) -> None:
        found = ((array, nodes) for array, nodes in self._nodes.items() if array in arrays)
        fresh = {
            array: {name: at for name, at in nodes.items() if now - at < AVOIDED_SECONDS} for array, nodes in found
        }
        self._nodes = {array: nodes for array, nodes in fresh.items() if nodes}

    def _first(self, refused: list[SlurmJob]) -> Iterator[SlurmJob]:
        """Yield the first of each array and node, which Slurm has tried, and twice as many with each further look.

        None goes with the first look: as slurmctld starts, or as a job ends, the next cycle may start it.
        """
        taken: Counter[str] = Counter()
        keys = {key for job in refused for key in keys_of(job)}
        for job in refused:
            if all(taken[key] < (1 << self._streaks[key]) - 1 for key in keys_of(job)):
                taken.update(keys_of(job))
                yield job
        self._streaks = Counter({key: min(self._streaks[key] + 1, LONG_STREAK) for key in keys})

    def _wait(self, placed: list[SlurmJob], now: float) -> None:
        step, self._at = min(max(now - self._at, 0.0), MAX_LOOK), now
        later = [job for job in placed if job.begins_later(now)]
        self._waited = {job.name: self._waited.get(job.name, -step) + step for job in placed}
        self._delayed = {job.name: self._delayed.get(job.name, -step) + step for job in later}

    def _pause(self, job: SlurmJob, nodes: dict[str, Node]) -> float:
        """Return the seconds; they grow once no node is left that has not refused it."""
        seconds = FIRST_SECONDS * (1 << min(self._counts[job.name], LONG_STREAK))
        untried = {node.name for node in nodes.values() if node.use is Use.OPEN} - self._nodes.get(job.array, {}).keys()
        if job.reason.startswith(OWN) or not untried:
            self._counts[job.name] += 1
        return min(seconds, MAX_SECONDS)


def owner_of(kind: tuple[str, ...]) -> tuple[str, ...]:
    """Return the account, the QOS and the user of a kind."""
    return kind[:2] + kind[USER]


def is_running(job: SlurmJob | None) -> bool:
    return job is not None and job.state is JobState.RUNNING


def is_sure(job: SlurmJob) -> bool:
    """Whether what keeps a job from starting is its own, whichever jobs precede it."""
    return job.reason.startswith(OWN) or job.reason == MISFIT


def tried(refused: list[SlurmJob]) -> Iterator[SlurmJob]:
    """Yield those that Slurm has surely tried: none before them is of the same array, or on the same node."""
    taken: set[str] = set()
    for job in refused:
        if taken.isdisjoint(keys_of(job)):
            yield job
        taken.update(keys_of(job))


def keys_of(job: SlurmJob) -> tuple[str, str]:
    return f"array {job.array}", f"node {job.pinned}"


def is_placed(book: Book, name: str) -> bool:
    return name in book.tasks and book.tasks[name].machine is not None


def is_open(nodes: dict[str, Node], machine: str | None) -> bool:
    return machine in nodes and nodes[machine].use is Use.OPEN


def is_silent(nodes: dict[str, Node], machine: str | None) -> bool:
    """Whether a node starts nothing for now, as one that doesn't answer."""
    return machine in nodes and nodes[machine].use is Use.UNCLEAR


def is_leaving(book: Book, name: str, job: SlurmJob) -> bool:
    """Whether a job frees its slot soon."""
    if job.state is JobState.LEAVING:
        return True
    return job.has_started and name in book.tasks and book.tasks[name].machine != job.node


def is_refused(book: Book, job: SlurmJob) -> bool:
    """Whether Slurm has looked at a placed job, and has not started it."""
    if job.pinned != book.tasks[job.name].machine:
        return False
    return job.reason == MISFIT or job.hold is Hold.NONE and job.reason.partition(",")[0] not in PASSING
