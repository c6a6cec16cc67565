"""The proofs that a placement is a round's: rents by which nothing legal costs less, and an order by which it is first.

docs/EXPLAIN.md has the idea. There is no network and no solver here: each function looks once at the tasks and the
machines, and adds and compares numbers.
"""

from __future__ import annotations

from collections import Counter
from typing import Iterable, Iterator, Mapping, NamedTuple, Sequence

from harness.checks import require
from harness.service import Tenant

Choice = str | None  # a machine; None is to wait
Rents = Mapping[Choice, int]
Placement = Mapping[str, Choice]  # the choice of each task, in order of submission
Step = tuple[Choice, Choice]

FAR = ""  # a place that stands for all machines of the lowest rent
MAX_SPELLED = 20  # an order writes ".." for a group with more places than these


class Task(NamedTuple):
    """The costs of a task's choices. To stay on the machine that it runs on, its home, costs nothing."""

    home: Choice
    preferred: Sequence[str]
    wait: int  # to wait
    near: int  # on a preferred machine
    far: int  # on any other


class Book:
    """The rows before a round, and the costs of their placements."""

    def __init__(self, tenant: Tenant) -> None:
        self.spread, self.churn = tenant.limits.spread, tenant.limits.churn
        self.slots = dict(tenant.machines)
        self.places: dict[Choice, int] = {choice: place for place, choice in enumerate([*self.slots, None])}
        self.tasks = {
            name: Task(
                row.machine,
                tuple(row.preferred),
                tenant.waiting_cost(row),
                self.churn if row.machine else 0,
                tenant.placing_cost(row, FAR),  # no task prefers a machine without a name
            )
            for name, row in tenant.tasks.items()
        }

    def slot_cost(self, slot: int) -> int:
        """Return the cost of a machine's slot of this number, counted from 0."""
        return slot * self.spread

    def load_cost(self, tasks: int) -> int:
        """Return the cost of a machine with this number of tasks, by spread."""
        return self.spread * tasks * (tasks - 1) // 2

    def cost_of(self, name: str, choice: Choice) -> int:
        """Return the task's own cost of a choice."""
        task = self.tasks[name]
        if choice is None:
            return task.wait
        if choice == task.home:
            return 0
        return task.near if choice in task.preferred else task.far

    def rank(self, name: str, choice: Choice) -> tuple[bool, bool, int]:
        """Return the rank of a choice: the task's home, the other machines in order of addition, waiting."""
        return choice is None, choice != self.tasks[name].home, self.places[choice]

    def cost(self, to: Placement) -> int:
        """Return the cost of a placement, which must be legal."""
        load = Counter(machine for machine in to.values() if machine is not None)
        for machine, tasks in load.items():
            slots = self.slots.get(machine, 0)
            require(tasks <= slots, f"{machine} has {tasks} tasks, and {slots} slots")
        return sum(map(self.load_cost, load.values())) + sum(self.cost_of(name, to[name]) for name in self.tasks)

    def paid_and_gains(self, rents: Rents) -> tuple[int, int]:
        """Return the least that the tasks pay and the most that the machines gain: no legal placement costs less than
        the difference.

        Of the machines that are neither a task's home nor preferred, which cost it alike, the cheapest is enough.
        """
        cheapest = min((rents[machine] for machine in self.slots), default=None)
        paid = 0
        for task in self.tasks.values():
            costs = [task.wait, *(task.near + rents[machine] for machine in task.preferred)]
            if task.home is not None:
                costs.append(rents[task.home])
            if cheapest is not None:  # that of the cheapest machine, or more than that is
                costs.append(task.far + cheapest)
            paid += min(costs)
        gains = [max(n * rents[m] - self.load_cost(n) for n in range(slots + 1)) for m, slots in self.slots.items()]
        return paid, sum(gains)


class Proof:
    """A placement, and rents by which it is least: each task pays no more than by another choice."""

    def __init__(self, book: Book, to: Placement, rents: Rents) -> None:
        self.book, self.to, self.rents = book, to, rents
        self.load = Counter(to.values())
        self.lowest_rent = min((rents[machine] for machine in book.slots), default=-1)
        require(min(rents.values()) == 0, "a rent below 0")
        paid, gains = book.paid_and_gains(rents)
        require(paid - gains == book.cost(to), f"at least {paid} - {gains}, and it costs {book.cost(to)}")

    def slot_steps(self) -> Iterator[Step]:
        """Yield the steps of slots: a free slot worth its cost leads to waiting, a machine's last used one from it."""
        for machine, slots in self.book.slots.items():
            load = self.load[machine]
            if load < slots and self.rents[machine] == self.book.slot_cost(load):
                yield machine, None
            if load and self.rents[machine] == self.book.slot_cost(load - 1):
                yield None, machine

    def choices_as_cheap(self, name: str) -> list[Choice]:
        """Return the other choices by which a task pays as much; of machines that are neither its home nor preferred,
        `FAR`.

        On these the task pays no less than on a machine of the lowest rent, and no more by its choice than there. So if
        it pays as much there, they have the lowest rent, and by each other machine of that rent it pays as much too.
        """
        task, has = self.book.tasks[name], self.to[name]
        pays = self.book.cost_of(name, has) + self.rents[has]
        found: list[Choice] = [None] if has is not None and task.wait == pays else []
        if task.home is not None and has != task.home and self.rents[task.home] == pays:
            found.append(task.home)
        for machine in task.preferred:
            if machine not in (has, task.home) and task.near + self.rents[machine] == pays:
                found.append(machine)
        if 0 <= self.lowest_rent and task.far + self.lowest_rent == pays:
            found.append(FAR)
        return found

    def steps(self) -> Iterator[Step]:
        """Yield all steps that change no cost: of a slot, and of a task from its choice to another as cheap."""
        yield from self.slot_steps()
        for name, has in self.to.items():
            for other in self.choices_as_cheap(name):
                yield has, other
        for machine in self.book.slots:
            if self.rents[machine] == self.lowest_rent:
                yield FAR, machine

    def lowerable(self) -> list[str]:
        """Return the machines whose rents can be lower.

        A rent stays above that of a place with a step to the machine, as far as the step's two ends differ. So it is
        the lowest if steps lead to the machine from waiting, whose rent is 0, or if it is 0 itself.
        """
        bound = reached(self.steps())
        return [machine for machine in self.book.slots if self.rents[machine] and machine not in bound]

    def raisable(self) -> list[str]:
        """Return the machines whose rents can be higher: no steps lead from them to waiting."""
        bound = reached((end, start) for start, end in self.steps())
        return [machine for machine in self.book.slots if machine not in bound]

    def order_fault(self, order: Order) -> str:
        """Return the reason why the order, with the lowest rents, does not show that the placement comes first; empty
        if it does.

        Take another placement that costs as little, and the first task on which it differs. By the rents each task pays
        as little for its choice, and each slot is worth its cost. If the first choice is better, and a cut lies between
        the two which no later task and no slot can cross upwards, then all below the cut gains a task and loses none:
        so some slot crosses the cut.
        """
        for start, end in self.slot_steps():
            order.cross(order.of[start], order.of[end])
        highest = self.highest_before(order)
        for name, has in reversed(self.to.items()):
            stays = has is not None and has == self.book.tasks[name].home
            up = better = -1
            for other in self.choices_as_cheap(name):
                if other == FAR:
                    up, better = max(up, highest[-1]), max(better, -1 if stays else highest[self.book.places[has]])
                else:
                    up = max(up, order.of[other])
                    if self.book.rank(name, other) < self.book.rank(name, has):
                        better = max(better, order.of[other])
            if 0 <= better and order.of[has] <= order.cut(better):
                return f"{name} may have a better choice"
            order.cross(order.of[has], up)
        return ""

    def highest_before(self, order: Order) -> list[int]:
        """Return for each place the highest group of the machines of the lowest rent that were added before it."""
        highest = [-1]
        for machine in self.book.slots:
            is_far = self.rents[machine] == self.lowest_rent
            highest.append(max(highest[-1], order.of[machine] if is_far else -1))
        return highest


def reached(steps: Iterable[Step]) -> set[Choice]:
    """Return the places to which steps lead from waiting."""
    ends: dict[Choice, list[Choice]] = {}
    for start, end in steps:
        ends.setdefault(start, []).append(end)
    found: set[Choice] = {None}
    left: list[Choice] = [None]
    while left:
        for end in ends.get(left.pop(), []):
            if end not in found:
                found.add(end)
                left.append(end)
    return found


class Order:
    """Machines and waiting in groups from below, "m1 < m2 .. < waiting"; ".." are all others, "clear" is one group.

    A machine may have the name waiting too: `skipped` says how many of these words are the machine.
    """

    def __init__(self, text: str, book: Book, skipped: int) -> None:
        groups = [] if text == "clear" else [group.split(" ") for group in text.split(" < ")]
        rest = None if groups else 0
        self.of: dict[Choice, int] = {}  # the group of each place
        for group, names in enumerate(groups):
            for name in names:
                if name == "..":
                    rest = group
                else:
                    self.of[None if name == "waiting" and not skipped else name] = group
                    skipped -= name == "waiting"
        if rest is not None:
            self.of = {place: rest for place in book.places} | self.of
        require(self.of.keys() == book.places.keys(), f"not all machines and waiting: {text}")
        require(self.text(book, rest) == text, f"not in the form of an order: {text}")
        self.cuts = list(range(len(groups) + 1))  # above each group; a cut that is crossed names one above it

    def text(self, book: Book, rest: int | None) -> str:
        """Return the groups as they are written: each with its places in order of addition, a long one as `..`."""
        groups: list[list[str]] = [[] for _ in range(1 + max(self.of.values()))]
        for place in book.places:
            groups[self.of[place]].append(place or "waiting")
        if len(groups) == 1:
            return "clear"
        most = max(map(len, groups))
        if rest is not None and len(groups[rest]) == most > MAX_SPELLED:
            groups[rest] = [".."]
        return " < ".join(map(" ".join, groups))

    def cut(self, group: int) -> int:
        """Return the lowest cut above this group or a higher one that nothing has crossed."""
        while self.cuts[group] != group:
            self.cuts[group] = self.cuts[self.cuts[group]]
            group = self.cuts[group]
        return group

    def cross(self, low: int, high: int) -> None:
        """Mark the cuts between two groups as crossed."""
        while (cut := self.cut(low)) < high:
            self.cuts[cut] = cut + 1


def witness_line(book: Book, to: Placement, other: Placement, asked: str) -> str:
    """Return the line on another placement than a round's, which costs as little as any in which the task has this
    choice."""
    more = book.cost(other) - book.cost(to)
    changed = [name for name in to if other[name] != to[name]]
    changes = ", ".join(placed(name, other[name]) for name in changed if name != asked)
    line = f"# if {placed(asked, other[asked])}: {more} more" + (f": {changes}" if changes else "")
    return line if more else f"{line}; {precedence(book, to, other, asked)}"


def placed(name: str, choice: Choice) -> str:
    return f"{name} waits" if choice is None else f"{name} on {choice}"


def precedence(book: Book, to: Placement, other: Placement, asked: str) -> str:
    """Return the reason why a placement comes before another: the first task on which they differ."""
    first = next(name for name in to if other[name] != to[name])
    here, there = to[first], other[first]
    require(book.rank(first, here) < book.rank(first, there), f"the placement with {placed(first, there)} comes first")
    if first == asked:
        return f"{here} ranks before {there or 'waiting'}"
    return f"{first}, submitted earlier, would {f'be on {there}' if there else 'wait'}"
