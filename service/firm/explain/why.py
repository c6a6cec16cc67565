"""Explains a task's place: firm_explain's reasons for a round from a state, and trials of other weights.

The least weight that runs a waiting task follows from firm_explain's exact number and one trial, or two for a tie. A
search by trials alone would take twenty.
"""

from __future__ import annotations

import re
from collections.abc import Iterator, Mapping, Sequence
from dataclasses import dataclass

from ..common.books import Book
from ..common.refused import Refused
from ..common.roster import slot_cost
from .trials import MAX_WEIGHT, PlacementChange, Trial, after, after_round, changes, of_weight, round_of

CHANGES = {word: word for word in ("starts", "stays", "moves", "waits")} | {"preempted": "stops"}
CLAIM = re.compile(r"(.*) (?:at least ([0-9]+) more|as much, (ranks after|an earlier task decides))")
# A placement of the same cost with another choice of the task, and the reason why the round prefers its own.
TIE = re.compile(r"if [a-z0-9-]+ (?:on ([a-z0-9-]+)|waits): 0 more(?:: [^;]+)?; (.+)")


@dataclass(frozen=True, slots=True)
class Choice:
    """Another choice of the task."""

    machine: str | None  # None: to wait
    more: int  # cost of the cheapest placement with this choice, above the round's
    ranks_after: bool  # than the round's choice, at the same cost
    tie: str | None  # if it costs as much: "b, submitted earlier, would wait", "m1 ranks before m2"


@dataclass(frozen=True, slots=True)
class Free:
    """A waiting task's cost of the cheapest free slot."""

    machine: str
    crowding: int  # next to the machine's tasks
    remote: int
    churn: int

    @property
    def cost(self) -> int:
        return self.crowding + self.remote + self.churn


@dataclass(frozen=True, slots=True)
class Heavier:
    """The least weight that would run a waiting task, and the changes of tasks then."""

    weight: int
    machine: str
    changes: list[PlacementChange]


@dataclass(frozen=True, slots=True)
class Reasons:
    """A round and its effect on a task."""

    reply: str
    lines: list[str]  # firm_explain's, on the round and the task
    cost: int
    change: str  # starts, stays, moves, waits, or stops: it is preempted
    machine: str | None  # after the round
    pays: int  # cost of this choice, without crowding
    others: list[Choice]  # the cheapest first
    slots: int
    free: int  # slots after the round
    cheapest: Free | None  # if the task waits although slots are free
    heavier: Heavier | None  # if it waits, and some weight would run it
    untried: str | None  # the reason why no weight was tried


def reasons(state: str, book: Book, name: str) -> Reasons:
    """Return the reasons for a task in a round from a state with this book. Raise `NotBuilt` and `Refused`."""
    tenant = book.limits.tenant
    lines = [round_of(tenant)]
    with Trial("firm_explain", state, ("--tenant", tenant, "--why", name), lines) as trial:
        reply, *comments = trial.output()
    if reply.split()[2:4] != ["ok", "round"]:
        raise Refused("no-round", f"a round of {tenant} is refused: {reply}")
    comments = [line.removeprefix("# ") for line in comments]
    later = after(book, lines, [reply])
    machine = later.tasks[name].machine
    least, untried = None, None
    # The line on all choices of the task stands below its rents.
    own = comments[next(place for place, line in enumerate(comments, 1) if line.startswith(f"{name}'s rents: "))]
    choice, *claims = own.removeprefix(f"{name} ").split("; ")
    what, _, pays = choice.partition(": ")
    ties = {found[1]: found[2] for found in map(TIE.fullmatch, comments) if found}
    others = [other for claim in claims for other in choices(claim, book.tasks[name].machine, ties)]
    if machine is None:
        try:
            least = heavier(book, later, name, others)
        except Refused as refused:
            if refused.name != "no-room":
                raise
            untried = str(refused)
    return Reasons(
        reply,
        list(about(comments, name)),
        int(reply.split()[5]),
        CHANGES[what.split(" ")[0]],
        machine,
        int(pays.split(" ")[0]),
        others,
        later.slots,
        later.slots - later.running,
        None if machine else cheapest_free(book, later, name),
        least,
        untried,
    )


def about(comments: Sequence[str], name: str) -> Iterator[str]:
    """Yield the comment lines on the round or the task."""
    first_words = ("cost", name, f"{name}'s", "least", "least:", "first:", "NOT")
    return (line for line in comments if line.split(" ", 1)[0] in first_words or line.startswith(f"if {name} "))


def choices(claim: str, home: str | None, ties: Mapping[str | None, str]) -> Iterator[Choice]:
    """Yield the choices of a claim such as `m1, m2 at least 3 more`; the task was at `home` before the round."""
    found = CLAIM.fullmatch(claim)
    if found is None:
        raise Refused("unknown-reason", f"unexpected output of firm_explain: {claim!r}")
    for word in found[1].split(", "):
        machine = {"to wait": None, "to stay": home}.get(word, word)
        yield Choice(machine, int(found[2] or 0), found[3] == "ranks after", ties.get(machine))


def cheapest_free(book: Book, later: Book, name: str) -> Free | None:
    task, limits = book.tasks[name], book.limits
    found: list[Free] = []
    for machine, held in later.loads().items():
        if len(held.tasks) < held.slots:
            is_home = machine == task.machine
            remote = limits.remote if task.prefers and machine not in task.prefers and not is_home else 0
            churn = limits.churn if task.machine and not is_home else 0
            found.append(Free(machine, slot_cost(limits.spread, len(held.tasks)), remote, churn))
    return min(found, key=lambda free: free.cost) if found else None


def heavier(book: Book, later: Book, name: str, others: Sequence[Choice]) -> Heavier | None:
    """Return the least weight that runs the task. firm_explain's numbers are exact, so trials only decide ties."""
    more = min((choice.more for choice in others if choice.machine is not None), default=MAX_WEIGHT)
    weight = book.jobs[book.tasks[name].job]
    for least in range(weight + max(more, 1), weight + more + 2):
        if least > MAX_WEIGHT:
            return None
        tried = after_round(of_weight(book, name, least))
        machine = tried.tasks[name].machine
        if machine is not None:
            return Heavier(least, machine, [change for change in changes(later, tried) if change.task != name])
    raise Refused("unknown-reason", f"{name} waits, though {more} more make up for what it costs to run it")
