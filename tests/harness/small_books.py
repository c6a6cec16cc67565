"""All placements of a small book: the truth about a round, by enumeration and by docs/PLACEMENT.md alone.

It shares nothing with the judge of tests/certificates, which it judges: a book is read from the rows of a round, as
`firm_explain --rows` writes them.
"""

from __future__ import annotations

import re
from itertools import product
from typing import Iterator, Mapping, NamedTuple, Sequence

Choice = str | None  # a machine; None is to wait
Groups = Mapping[Choice, int]  # of an order, from below


class Task(NamedTuple):
    name: str
    home: Choice
    preferred: Sequence[str]
    waits_for: int  # its cost of waiting


class Placed(NamedTuple):
    cost: int
    choices: tuple[Choice, ...]  # of the tasks in order of submission


class Book:
    """The rows before a round, and all legal placements of them."""

    def __init__(self, rows: Sequence[str]) -> None:
        words = [row.split(" ")[1:] for row in rows]
        numbers = dict(zip(words[0][2::2], map(int, words[0][3::2])))
        self.spread, self.churn, self.remote = (numbers[limit] for limit in ("spread", "churn", "remote"))
        self.slots = {row[1]: int(row[2]) for row in words if row[0] == "machine"}
        weights = {row[1]: int(row[2]) for row in words if row[0] == "job"}
        self.tasks = [self.task(weights[row[1]], row) for row in words if row[0] == "task"]

    def task(self, weight: int, row: Sequence[str]) -> Task:
        name, where, there, *prefers = row[2:]
        if where == "at":
            return Task(name, there, prefers[1:], weight + self.churn)
        return Task(name, None, prefers[1:], weight + int(there))

    def size(self) -> int:
        """Return the number of placements, legal or not."""
        return int((len(self.slots) + 1) ** len(self.tasks))

    def choices(self, task: Task) -> list[Choice]:
        """Return a task's choices as they rank: its home, the other machines in order of addition, waiting."""
        others = [machine for machine in self.slots if machine != task.home]
        return [*([task.home] if task.home else []), *others, None]

    def own_cost(self, task: Task, choice: Choice) -> int:
        if choice is None:
            return task.waits_for
        if choice == task.home:
            return 0
        is_remote = bool(task.preferred) and choice not in task.preferred
        return (self.churn if task.home else 0) + (self.remote if is_remote else 0)

    def placements(self) -> Iterator[Placed]:
        """Yield all legal placements in their order, with their costs."""
        for choices in product(*map(self.choices, self.tasks)):
            loads = [choices.count(machine) for machine in self.slots]
            if all(load <= slots for load, slots in zip(loads, self.slots.values())):
                cost = sum(self.spread * load * (load - 1) // 2 for load in loads)
                yield Placed(cost + sum(map(self.own_cost, self.tasks, choices)), choices)

    def pays(self, task: Task, choice: Choice, rents: Mapping[Choice, int]) -> int:
        return self.own_cost(task, choice) + rents[choice]


class Round:
    """A small book, and the first of its cheapest placements: the round's."""

    def __init__(self, rows: Sequence[str]) -> None:
        self.book = Book(rows)
        self.all = list(self.book.placements())
        self.cost, self.choices = min(self.all, key=lambda placed: placed.cost)  # the first of several
        self.places = {placed.choices: place for place, placed in enumerate(self.all)}
        self.names = [task.name for task in self.book.tasks]

    def more(self, name: str, choice: Choice) -> int:
        """Return the excess of the cheapest placement in which a task has this choice."""
        at = self.names.index(name)
        return min(placed.cost for placed in self.all if placed.choices[at] == choice) - self.cost

    def is_witness(self, line: str) -> bool:
        """Return whether a line on another choice of a task is true: as `# if t3 on m2: 9 more: t4 waits`."""
        found = re.fullmatch(r"# if (\S+ \S+(?: \S+)?): (\d+) more(?:: ([^;]+))?(?:; (.+))?", line)
        if not found:
            return False
        changes = [text.split(" ") for text in [found[1], *(found[3].split(", ") if found[3] else [])]]
        if not all(text[1:] == ["waits"] or text[1:2] == ["on"] and len(text) == 3 for text in changes):
            return False
        to = {name: None if where == ["waits"] else where[1] for name, *where in changes}
        asked, *others = (text[0] for text in changes)
        now = dict(zip(self.names, self.choices))
        if len(to) != len(changes) or not to.keys() <= now.keys() or any(to[name] == now[name] for name in to):
            return False
        choices = tuple(to.get(name, now[name]) for name in self.names)
        more = int(found[2])
        return (
            others == [name for name in self.names if name in others]
            and choices in self.places
            and self.all[self.places[choices]].cost == self.cost + more
            and more == self.more(asked, to[asked])
            and (found[4] or "") == ("" if more else self.decision(asked, choices))
        )

    def decision(self, asked: str, choices: Sequence[Choice]) -> str:
        """Return the reason why the round's placement comes before another one of the same cost."""
        at = next(at for at, (here, there) in enumerate(zip(self.choices, choices)) if here != there)
        here, there = self.choices[at], choices[at]
        if self.names[at] == asked:
            return f"{here or 'waiting'} ranks before {there or 'waiting'}"
        return f"{self.names[at]}, submitted earlier, would " + (f"be on {there}" if there else "wait")

    def is_order(self, text: str, low: Mapping[Choice, int]) -> bool:
        """Return whether an order shows that the placement comes first, with the lowest rents."""
        return any(self.shows_first(groups, low) for groups in readings(text, self.book))

    def shows_first(self, groups: Groups, low: Mapping[Choice, int]) -> bool:
        """Return whether each better choice stands lower, with a cut between that no slot or later task crosses
        upwards."""
        for at, has in enumerate(self.choices):
            ups = [groups_of for groups_of in self.ups(at + 1, groups, low)]
            for better in self.better(at, low):
                cuts = range(groups[better], groups[has])
                if all(any(start <= cut < end for start, end in ups) for cut in cuts):
                    return False
        return True

    def better(self, at: int, low: Mapping[Choice, int]) -> list[Choice]:
        """Return a task's choices that rank before its own and cost it as much by the rents."""
        ranked = self.book.choices(self.book.tasks[at])
        return [other for other in ranked[: ranked.index(self.choices[at])] if self.is_as_cheap(at, other, low)]

    def is_as_cheap(self, at: int, other: Choice, low: Mapping[Choice, int]) -> bool:
        task = self.book.tasks[at]
        return self.book.pays(task, other, low) == self.book.pays(task, self.choices[at], low)

    def ups(self, first: int, groups: Groups, low: Mapping[Choice, int]) -> Iterator[tuple[int, int]]:
        """Yield the groups between which slots and the tasks from the first on can go upwards at no cost."""
        for machine, slots in self.book.slots.items():
            load = self.choices.count(machine)
            if load < slots and low[machine] == load * self.book.spread:
                yield groups[machine], groups[None]
            if load and low[machine] == (load - 1) * self.book.spread:
                yield groups[None], groups[machine]
        for at in range(first, len(self.names)):
            for other in [*self.book.slots, None]:
                if self.is_as_cheap(at, other, low):
                    yield groups[self.choices[at]], groups[other]


def readings(text: str, book: Book) -> Iterator[Groups]:
    """Yield the orders that a text may mean, all of whose places are named: a machine may be called waiting."""
    if text == "clear":
        yield dict.fromkeys([*book.slots, None], 0)
        return
    names = [(name, group) for group, names in enumerate(text.split(" < ")) for name in names.split(" ")]
    if sorted(name for name, _ in names) != sorted([*book.slots, "waiting"]):
        return
    for number in range([name for name, _ in names].count("waiting")):
        groups: dict[Choice, int] = {}
        for name, group in names:
            is_waiting = name == "waiting" and number == 0
            groups[None if is_waiting else name] = group
            number -= name == "waiting"
        yield groups


def rents_in(line: str, book: Book) -> dict[Choice, int]:
    """Return the rents in a line, as `# low rents: 9 each, but m1 12`."""
    each, _, others = line.partition(" rents: ")[2].partition(" each")
    pairs = (other.split(" ") for other in others.removeprefix(", but ").split(", ") if other)
    named: dict[Choice, int] = {name: int(rent) for name, rent in pairs}
    return {None: 0, **dict.fromkeys(book.slots, int(each)), **named}
