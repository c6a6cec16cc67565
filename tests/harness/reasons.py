"""The comment lines that firm_explain writes after a round, word for word.

All but the rents follows from the rows before the round, its placement and the rents, by arithmetic. `reasons` reads
the rents in the lines of an output and writes the lines anew; tests/certificates compares them.
"""

from __future__ import annotations

import re
from collections import Counter
from itertools import groupby
from typing import Iterator, Mapping, NamedTuple, Protocol, Sequence

Choice = str | None  # a machine; None is to wait
Rents = Mapping[Choice, int]

MAX_LINES = 20  # if more tasks than these wait for the same reason, they share one line


class Task(Protocol):
    @property
    def home(self) -> Choice:
        ...

    @property
    def preferred(self) -> Sequence[str]:
        ...


class Tenant(Protocol):
    """The rows of a tenant, as tests/certificates has them."""

    @property
    def churn(self) -> int:
        ...

    @property
    def slots(self) -> Mapping[str, int]:
        ...

    @property
    def tasks(self) -> Mapping[str, Task]:
        ...

    def slot_cost(self, slot: int) -> int:
        ...

    def load_cost(self, tasks: int) -> int:
        ...

    def cost_of(self, name: str, choice: Choice) -> int:
        ...

    def paid_and_gains(self, rents: Rents) -> tuple[int, int]:
        ...


class Round(Protocol):
    """A round of an output, as tests/certificates reads it."""

    @property
    def tenant(self) -> Tenant:
        ...

    @property
    def to(self) -> Mapping[str, Choice]:
        ...

    @property
    def reply(self) -> Sequence[str]:
        ...

    @property
    def rows(self) -> Sequence[str]:
        """The lines of its rows, which tests/certificates judges."""
        ...

    @property
    def comments(self) -> Sequence[str]:
        ...

    def rents(self, line: str) -> Rents:
        ...


class Asked(NamedTuple):
    """Options of firm_explain."""

    tenant: str | None = None
    why: str | None = None
    machine: int | None = None
    all: bool = False
    rows: bool = False


def reasons(found: Round, asked: Asked) -> Iterator[str]:
    """Yield the comment lines of a round, with the rents that it names."""
    low, high = (found.rents(line) for line in found.comments[1:3])
    market = Market(found, low, high)
    yield f"# cost {found.reply[5]}: {', '.join(market.parts())}"
    yield f"# low rents: {market.rents_text(low)}"
    yield f"# high rents: {market.rents_text(high)}"
    yield from market.task_lines(asked.all)
    if asked.machine is not None:
        yield market.machine_line(asked.machine, low)
    if asked.why is not None and asked.why in found.to:
        yield from why_lines(found, asked.why)
    yield f"# least: cost {found.reply[5]} = {market.sum_text(low)} = {market.sum_text(high)}"
    # firm_explain may choose the order that shows the placement to be first, and tests/certificates judges it.
    yield next((line for line in found.comments[-1:] if line.startswith("# first: ")), "# first: ..")


def why_lines(found: Round, name: str) -> Iterator[str]:
    """Return the lines on all choices of a task, by the round's rents for that task."""
    start = f"# {name}'s rents: "
    rents = found.rents(next(line for line in found.comments if line.startswith(start)))
    market = Market(found, rents)
    yield start + market.rents_text(rents)
    yield market.task_line(name, market.all_claims(name))
    yield f"# least by {name}'s rents: cost {found.reply[5]} = {market.sum_text(rents)}"
    for other in market.rivals(name):
        start = f"# if {name} {f'on {other}' if other else 'waits'}: {market.more(name, other)} more"
        line = next((line for line in found.comments if re.match(f"{start}(?:[:;] |$)", line)), start)
        # Of several placements with this choice that cost as much, tests/certificates takes any.
        changes = line.removeprefix(start).partition("; ")[0]
        reason = "" if market.more(name, other) else f"; {market.decider(name, other, changes.removeprefix(': '))}"
        yield start + changes + reason


class Market:
    """A round, and the tables of rents by which its choices are compared."""

    def __init__(self, found: Round, *tables: Rents) -> None:
        self.tenant, self.to, self.tables = found.tenant, found.to, tables
        self.places = {name: place for place, name in enumerate(found.tenant.slots)}
        self.by_gap: dict[int, list[str]] = {}

    def parts(self) -> Iterator[str]:
        """Return the placement's cost by kind."""
        sums = Counter[str](loads=sum(map(self.tenant.load_cost, Counter(filter(None, self.to.values())).values())))
        for name, choice in self.to.items():
            churn = self.tenant.churn if self.tenant.tasks[name].home not in (None, choice) else 0
            sums["moves" if choice else "preemptions"] += churn
            sums["remote" if choice else "waits"] += self.tenant.cost_of(name, choice) - churn
        return (f"{part} {sums[part]}" for part in ("loads", "moves", "preemptions", "waits", "remote"))

    def rents_text(self, rents: Rents) -> str:
        """Return the rent that most machines have, the lowest of those, and the rents of the others."""
        counts = Counter(rents[machine] for machine in self.places)
        usual = min(counts, key=lambda rent: (-counts[rent], rent), default=0)
        others = [f"{machine} {rents[machine]}" for machine in self.places if rents[machine] != usual]
        return f"{usual} each" + (f", but {', '.join(others)}" if others else "")

    def sum_text(self, rents: Rents) -> str:
        paid, gains = self.tenant.paid_and_gains(rents)
        return f"{paid} - {gains}"

    def more(self, name: str, other: Choice) -> int:
        """Return a task's excess of the other choice, by the table that makes it the most."""
        return max(self.paid(name, other, rents) - self.paid(name, self.to[name], rents) for rents in self.tables)

    def paid(self, name: str, choice: Choice, rents: Rents) -> int:
        return self.tenant.cost_of(name, choice) + rents[choice]

    def best_other(self, name: str) -> Choice:
        """Return the machine that costs least more, of those that a task neither has nor had; the first of several."""
        chosen, task = self.to[name], self.tenant.tasks[name]
        here = (chosen, task.home)
        # Of the machines that cost the task alike the first in the order of their rents is enough.
        first = next((machine for machine in self.cheapest_by(chosen) if machine not in here), None)
        others = {machine for machine in (first, *task.preferred) if machine and machine not in here}
        return min(others, key=lambda machine: (self.more(name, machine), self.rank(name, machine)), default=None)

    def cheapest_by(self, chosen: Choice) -> list[str]:
        """Return the machines as they rank by both tables for a task with this choice, apart from the task's own
        cost of them."""
        low, high = self.tables
        gap = high[chosen] - low[chosen]
        if gap not in self.by_gap:
            self.by_gap[gap] = sorted(self.places, key=lambda machine: max(low[machine] + gap, high[machine]))
        return self.by_gap[gap]

    def task_lines(self, all_of_them: bool) -> Iterator[str]:
        """Yield a line for each task that changes or waits; one for many that wait for the same reason."""
        best: dict[str, Choice] = {}
        crowds: dict[bool, list[str]] = {False: [], True: []}  # by whether a machine costs as much
        for name, choice in self.to.items():
            if choice is None or choice != self.tenant.tasks[name].home:
                best[name] = self.best_other(name)
                if self.goes_on_waiting(name):
                    crowds[self.is_as_much(name, best[name])].append(name)
        for name, other in best.items():
            crowd = crowds[self.is_as_much(name, other)]
            if all_of_them or len(crowd) <= MAX_LINES or not self.goes_on_waiting(name):
                yield self.task_line(name, self.claims(name, other))
            elif name == crowd[0]:
                yield self.crowd_line(crowd, best)

    def goes_on_waiting(self, name: str) -> bool:
        return self.to[name] is None and self.tenant.tasks[name].home is None

    def is_as_much(self, name: str, other: Choice) -> bool:
        return other is not None and self.more(name, other) == 0

    def crowd_line(self, crowd: list[str], best: Mapping[str, Choice]) -> str:
        """Return the costs of tasks that wait for the same reason, and the excess of a machine for each of them."""
        waits = sorted({self.tenant.cost_of(name, None) for name in crowd})
        span = " to ".join(map(str, waits[:1] + waits[1:][-1:]))
        line = f"# {crowd[0]} and {len(crowd) - 1} others wait: {span} each"
        if best[crowd[0]] is None:
            return line
        more = min(self.more(name, best[name]) for name in crowd)
        return line + (f"; each machine at least {more} more" if more else "; a machine as much, earlier tasks decide")

    def claims(self, name: str, best: Choice) -> Iterator[str]:
        """Return a task's line on its other choices: waiting, its own machine and the best other one."""
        choice, home = self.to[name], self.tenant.tasks[name].home
        others = ([None] if choice else []) + [machine for machine in (home, best) if machine not in (None, choice)]
        return (f"{self.word(name, other)} {self.claim(name, other)}" for other in others)

    def all_claims(self, name: str) -> Iterator[str]:
        """Yield a task's claims on all other choices."""
        for claim, alike in groupby(self.rivals(name), key=lambda other: self.claim(name, other)):
            yield f"{', '.join(self.word(name, other) for other in alike)} {claim}"

    def rivals(self, name: str) -> list[Choice]:
        """Return all other choices: those that cost least more first, of these those that rank after the task's
        choice."""
        others = [choice for choice in [*self.places, None] if choice != self.to[name]]
        return sorted(others, key=lambda other: (self.more(name, other), "decides" in self.claim(name, other)))

    def task_line(self, name: str, claims: Iterator[str]) -> str:
        """Return a task's line: its change, its cost and the excess of other choices."""
        choice = self.to[name]
        paid = str(self.tenant.cost_of(name, choice))
        if choice:
            paid += f" + rent {' to '.join(str(rents[choice]) for rents in self.tables)}"
        return "; ".join([f"# {name} {self.change(name)}: {paid}", *claims])

    def change(self, name: str) -> str:
        home, choice = self.tenant.tasks[name].home, self.to[name]
        if choice is None:
            return f"preempted from {home}" if home else "waits"
        if home is None:
            return f"starts on {choice}"
        return f"stays on {choice}" if choice == home else f"moves from {home} to {choice}"

    def word(self, name: str, other: Choice) -> str:
        if other is None:
            return "to wait"
        return "to stay" if other == self.tenant.tasks[name].home else other

    def claim(self, name: str, other: Choice) -> str:
        """Return the additional cost of another choice of a task; for a tie the decider, as far as the rents show
        it."""
        more = self.more(name, other)
        if more:
            return f"at least {more} more"
        # By the task's own rents all numbers are exact, by both other tables those of tasks that wait.
        is_exact = len(self.tables) == 1 or None in (self.to[name], other)
        if self.rank(name, self.to[name]) < self.rank(name, other):
            return "as much, ranks after" if is_exact else "at least as much, ranks after"
        return "as much, an earlier task decides" if is_exact else "at least as much"

    def decider(self, name: str, other: Choice, changes: str) -> str:
        """Return the reason why the round's placement comes before one in which a task has another choice, and
        others these changes."""
        # The changes of other tasks are `U waits, V on m2`.
        to = {name: other} | {
            task: where[-1] if where[0] == "on" else None
            for task, *where in (change.split(" ") for change in changes.split(", ") if change)
        }
        first = next(task for task in self.to if task in to)
        if first == name:
            return f"{self.to[name] or 'waiting'} ranks before {other or 'waiting'}"
        place = to[first]
        return f"{first}, submitted earlier, would {f'be on {place}' if place else 'wait'}"

    def rank(self, name: str, choice: Choice) -> tuple[bool, bool, int]:
        """Return the rank of a task's choice: its own machine, the others by their places, waiting."""
        return choice is None, choice != self.tenant.tasks[name].home, self.places[choice] if choice else 0

    def machine_line(self, slots: int, rents: Rents) -> str:
        """Return the greatest saving of one more machine, which no task prefers, and the tasks that would go there."""
        worth = {name: self.paid(name, self.to[name], rents) - self.cost_on_new(name) for name in self.to}
        steps = enumerate(sorted(worth, key=lambda name: -worth[name])[:slots])
        saved = {name: worth[name] - self.tenant.slot_cost(load) for load, name in steps}
        takers = [name for name in saved if saved[name] > 0]
        line = f"# one more machine of {slots} slots would save at most {sum(saved[name] for name in takers)}"
        return line + (f": for {' '.join(takers)}" if takers else "")

    def cost_on_new(self, name: str) -> int:
        return self.tenant.cost_of(name, "")  # a machine without a name is neither its own nor preferred
