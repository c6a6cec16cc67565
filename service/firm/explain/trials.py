"""Trials: runs of firm or firm_explain on a tenant's state and some lines, outside the service.

They run as the user who asks, at a low priority, with bounds on their time and memory.
"""

from __future__ import annotations

import os
import resource
import subprocess
from collections.abc import Iterable, Sequence
from contextlib import ExitStack, suppress
from dataclasses import dataclass, replace
from tempfile import TemporaryFile
from typing import IO

from ..common.books import Book, Books
from ..common.bounds import MEBIBYTE
from ..common.child import OVER_TIME
from ..common.lines import is_memory_refused
from ..common.programs import NotBuilt, program_of
from ..common.refused import Refused
from ..common.sizes import HUBS, MAX_ARCS, MAX_NODES
from ..server.firm_state import state_file
from .book_states import copy_of, text_of

NICENESS = 5
MAX_SECONDS, MAX_PROCESSOR_SECONDS = 60.0, 20  # of one run
MAX_MEMORY = 2048 * MEBIBYTE  # of address space
MAX_WEIGHT = 1_000_000
STATUS_OF_MEMORY = 6


@dataclass(frozen=True, slots=True)
class PlacementChange:
    """A task that is on another machine than before, or new."""

    task: str
    job: str
    change: str  # starts, moves, stops, or waits: it is new
    before: str | None  # its machine
    after: str | None


def restrict_process() -> None:
    """Lower the priority of this process and its children, and bound the time and memory of each."""
    with suppress(OSError):
        os.nice(NICENESS)
    for kind, most in [(resource.RLIMIT_CPU, MAX_PROCESSOR_SECONDS), (resource.RLIMIT_AS, MAX_MEMORY)]:
        _, hard = resource.getrlimit(kind)
        bound = most if hard == resource.RLIM_INFINITY else min(most, hard)
        resource.setrlimit(kind, (bound, bound))


class Trial:
    """A run of a program that opens with a state's text and reads these lines, until the `with` block ends."""

    def __init__(self, name: str, state: str, options: Sequence[str], lines: Iterable[bytes]) -> None:
        self._name, self._program = name, program_of(name)
        with ExitStack() as files:  # not pipes: writing to one that the program doesn't read would end this process
            opening = files.enter_context(state_file(state.encode()))
            given, self._output, self._errors = (files.enter_context(TemporaryFile(prefix="firm-")) for _ in range(3))
            given.writelines(line + b"\n" for line in lines)
            given.seek(0)
            words = [str(self._program), *opening.words(), *options]
            try:
                self._process = subprocess.Popen(words, stdin=given, stdout=self._output, stderr=self._errors)
            except OSError as error:
                raise NotBuilt(f"{name} can't be run: {self._program}: {error.strerror}") from error
            self._files = files.pop_all()

    def __enter__(self) -> Trial:
        return self

    def __exit__(self, *_: object) -> None:
        self._process.kill()
        self._process.wait()
        self._files.close()

    def output(self) -> list[str]:
        """Return its output once it has ended. Raise `Refused` past its limits, and `NotBuilt` if it fails."""
        name = self._name
        try:
            status = self._process.wait(MAX_SECONDS)
        except subprocess.TimeoutExpired as error:
            raise Refused("too-long", f"{name} took {MAX_SECONDS:g} s, and was stopped") from error
        if status in OVER_TIME:
            raise Refused("too-long", f"{name} took {MAX_PROCESSOR_SECONDS} s of processor time, and was stopped")
        if status == STATUS_OF_MEMORY:
            raise Refused("memory", f"{name} needs more than {MAX_MEMORY // MEBIBYTE:,} MiB")
        if status:
            errors = read_all(self._errors).decode(errors="replace").strip()
            raise NotBuilt(f"{self._program} ended with status {status}: {errors}")
        return read_all(self._output).decode("ascii").splitlines()

    def replies(self) -> list[str]:
        """Return firm's replies. Raise `Refused` if it ran out of memory, too."""
        found = self.output()
        if any(is_memory_refused(reply.encode()) for reply in found):
            raise Refused("memory", "firm is out of memory")
        return found


def read_all(file: IO[bytes]) -> bytes:
    file.seek(0)
    return file.read()


def firm(state: str, lines: Sequence[bytes]) -> Trial:
    """Return a trial of firm. Each line must get a reply."""
    return Trial("firm", state, ("--workers", "1"), lines)


def after(book: Book, lines: Sequence[bytes], replies: Sequence[str]) -> Book:
    """Return the book after lines with these replies."""
    books = Books()
    books.put(copy_of(book))
    books.replied_all(lines, [reply.encode() for reply in replies], None)
    return books.tenants[book.limits.tenant]


def round_of(tenant: str) -> bytes:
    return f"{tenant} round".encode()


def after_round(book: Book) -> Book:
    """Return the book after a round now."""
    lines = [round_of(book.limits.tenant)]
    with firm(text_of(book), lines) as trial:
        return after(book, lines, trial.replies())


def changes(before: Book, later: Book) -> list[PlacementChange]:
    """Return the changes of tasks, in order of submission, without the tasks that stay where they were."""
    found = []
    for name, task in later.tasks.items():
        former = before.tasks.get(name)
        here, there = former.machine if former else None, task.machine
        if here != there:
            change = "starts" if here is None else "stops" if there is None else "moves"
            found.append(PlacementChange(name, (former or task).job, change, here, there))
        elif former is None:
            found.append(PlacementChange(name, task.job, "waits", None, None))
    return found


def of_weight(book: Book, name: str, weight: int) -> Book:
    """Return the book as if the task had this weight; the task may get a separate job.

    The task's new wait begins now, so the rounds that it has waited are added to its weight.
    """
    found = copy_of(book)
    task, waited = found.tasks[name], found.waited(found.tasks[name])
    if weight + waited > MAX_WEIGHT:
        raise Refused("no-room", f"{weight} and the {waited:,} rounds that {name} has waited exceed the largest weight")
    if sum(other.job == task.job for other in found.tasks.values()) == 1:
        found.jobs[task.job] = weight + waited
    elif has_room(found) or leave_out_job(found):
        task.job = add_job(found, weight + waited)
    else:
        raise Refused("no-room", f"the arena of {found.limits.tenant} has no room for a job of {name} alone")
    task.waits_from = found.rounds
    return found


def has_room(book: Book) -> bool:
    """Return whether the largest arena has room for another job."""
    nodes = len(book.machines) + len(book.jobs) + len(book.tasks) + HUBS
    return nodes < MAX_NODES and arcs_of(book) < MAX_ARCS


def leave_out_job(book: Book) -> bool:
    """Remove a job that rounds don't need: one without tasks, or of the same weight as another. Return if one was."""
    of_tasks = {task.job for task in book.tasks.values()}
    first: dict[int, str] = {}
    for job, weight in book.jobs.items():
        other = first.setdefault(weight, job)
        if other != job or job not in of_tasks:
            for task in book.tasks.values():
                task.job = other if task.job == job else task.job
            del book.jobs[job]
            return True
    return False


def add_job(book: Book, weight: int) -> str:
    """Add a job, and enlarge the arena if possible. Return the job's name."""
    limits = book.limits
    nodes, arcs = min(limits.nodes + 1, MAX_NODES), min(limits.arcs + 1, MAX_ARCS)
    book.limits = replace(limits, nodes=nodes, arcs=arcs, life=max(limits.life, book.commands + 1))
    book.number = b"%d" % (book.commands + 1)  # a command for each row
    name = next(name for name in map("w{}".format, range(MAX_NODES)) if name not in book.jobs)
    book.jobs[name] = weight
    return name


def arcs_of(book: Book) -> int:
    """Return the arcs that the rows use, as docs/PLACEMENT.md counts them."""
    machines = sum(1 + slots for slots in book.machines.values())
    return machines + len(book.jobs) + sum(3 + len(task.prefers) for task in book.tasks.values())
