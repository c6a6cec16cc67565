"""Streams for measuring rounds: fourteen kinds, each at any number of tasks and machines.

A stream is a roster of one tenant and a list of parts; each part is a list of command lines, and the round that
follows it is measured. The first round of a stream is the cold one: no task runs before it.
"""

from __future__ import annotations

import argparse
import random
from typing import Callable, Iterator, NamedTuple

from harness.checks import run_script

TENANT = "t"
MAX_ARCS = 65536
MAX_SLOTS = 64


class Stream(NamedTuple):
    """A stream of a kind: the roster's text, and the lines before each round."""

    kind: str
    roster: str
    parts: list[list[str]]


class Range(NamedTuple):
    """The least and the greatest of a random number."""

    least: float
    greatest: float


class Kind(NamedTuple):
    """A kind's meaning and its numbers."""

    meaning: str
    spread: int
    churn: int
    weights: Range
    slots: Range | None  # as parts of tasks / machines; None for as many as the arcs allow
    remote: int | None = None  # if tasks prefer machines


KINDS = {
    "fresh": Kind("all tasks new, room for all", 50, 400, Range(10_000, 1_000_000), Range(1.2, 2.0)),
    "dense": Kind("the same with as many arcs as a tenant may have", 50, 400, Range(10_000, 1_000_000), None),
    "overload": Kind("more tasks than slots, any weights", 20, 1_000, Range(500, 1_000_000), Range(0.5, 0.9)),
    "rising": Kind("overload, later tasks weigh more", 15, 60, Range(1_000, 1_000_000), Range(0.6, 0.6)),
    "steady": Kind(
        "a task of a hundred comes and goes, a machine is replaced", 50, 400, Range(10_000, 1_000_000), Range(1.5, 2.5)
    ),
    "levels": Kind("few machines of 64 slots", 900, 250, Range(30_000, 1_000_000), Range(1.0, 1.0)),
    "ties": Kind("nothing but waiting costs, and all alike", 0, 0, Range(12, 12), Range(0.8, 0.8)),
    "close": Kind("costs that differ by one or two", 1, 1, Range(2, 4), Range(0.9, 1.2)),
    "moves": Kind("machines come later, moves just pay", 1, 2, Range(4, 6), Range(1.2, 1.7)),
    "returns": Kind("drained tasks come back to equal costs", 0, 0, Range(12, 12), Range(0.8, 0.8)),
    "crowded": Kind(
        "most tasks prefer machines, and there are fewer slots", 20, 1_000, Range(500, 1_000_000), Range(0.5, 0.9), 120
    ),
    "packed": Kind("the same, and nothing costs but waiting and preferences", 0, 0, Range(12, 12), Range(0.8, 0.8), 3),
    "apart": Kind(
        "preferences that cost more than any load", 1_000, 250, Range(1_000, 1_000_000), Range(0.9, 1.1), 3_000
    ),
    "local": Kind("most tasks prefer one to four machines", 50, 400, Range(10_000, 1_000_000), Range(1.0, 1.4), 120),
}


class Maker:
    """Lines of one tenant; it records the present tasks."""

    def __init__(self, kind: str, tasks: int, machines: int, seed: int) -> None:
        self.draw = random.Random(f"{kind} {tasks} {machines} {seed}")
        self.kind, self.name = KINDS[kind], kind
        self.tasks = tasks * 2 // 3 if kind == "rising" else tasks
        self.machines = max(2, tasks // 58) if kind == "levels" else machines
        self.jobs = self.tasks // 2 if kind == "rising" else max(2, self.tasks // 50)
        self.lines: list[str] = []
        self.there: list[int] = []
        self.next = 0

    def say(self, *words: object) -> None:
        self.lines.append(" ".join([TENANT, *map(str, words)]))

    def slots(self) -> int:
        room = (MAX_ARCS - self.jobs - 3 * self.tasks) // self.machines - 1
        most = min(MAX_SLOTS, room)
        if self.kind.slots is None or self.name == "levels":
            return most
        low, high = (min(most, max(1, int(self.tasks * part / self.machines))) for part in self.kind.slots)
        return self.draw.randint(low, max(low, high))

    def add_machine(self, place: int) -> None:
        self.say("machine", f"m{place}", self.slots())

    def add_machines(self, first: int, end: int) -> None:
        for place in range(first, end):
            self.add_machine(place)

    def add_jobs(self) -> None:
        low, high = map(int, self.kind.weights)
        for place in range(self.jobs):
            weight = low + (high - low) * place // self.jobs if self.name == "rising" else self.draw.randint(low, high)
            self.say("job", f"j{place}", weight)

    def add_tasks(self, count: int) -> None:
        for _ in range(count):
            job = min(self.next // 2, self.jobs - 1) if self.name == "rising" else self.draw.randrange(self.jobs)
            self.say("task", f"j{job}", f"t{self.next}", *self.preferred())
            self.there.append(self.next)
            self.next += 1

    def preferred(self) -> list[str]:
        """Return the next task's preferred machines: none, or some of the first half, so that those are in demand."""
        if self.kind.remote is None or self.draw.random() < 0.2:
            return []
        places = range(max(4, self.machines // 2))
        return [f"m{place % self.machines}" for place in self.draw.sample(places, self.draw.randint(1, 4))]

    def end_tasks(self, count: int) -> None:
        for _ in range(min(count, len(self.there))):
            self.say("done", f"t{self.there.pop(self.draw.randrange(len(self.there)))}")

    def replace_machine(self, place: int) -> None:
        self.say("drain", f"m{place}")
        self.add_machine(place)

    def part(self) -> list[str]:
        """Return the lines since the last part."""
        lines, self.lines = self.lines, []
        return lines

    def exchange(self, count: int) -> list[str]:
        self.end_tasks(count)
        self.add_tasks(count)
        return self.part()

    def parts(self) -> Iterator[list[str]]:
        """Yield the lines before each round."""
        first = self.machines * 2 // 3 if self.name == "moves" else self.machines
        self.add_machines(0, first)
        self.add_jobs()
        one = max(1, self.tasks // 100)
        parts: Callable[[int, int], Iterator[list[str]]] = getattr(self, f"_{self.name}")
        yield from parts(one, first)

    def _fresh(self, one: int, _: int) -> Iterator[list[str]]:
        self.add_tasks(self.tasks)
        yield self.part()
        yield self.part()

    _dense = _fresh

    def _overload(self, one: int, _: int) -> Iterator[list[str]]:
        self.add_tasks(self.tasks)
        yield self.part()
        yield self.part()
        yield self.exchange(5 * one)
        yield self.exchange(5 * one)

    _rising = _ties = _close = _local = _crowded = _packed = _apart = _overload

    def _steady(self, one: int, _: int) -> Iterator[list[str]]:
        self.add_tasks(self.tasks - 2 * one)
        yield self.part()
        for _ in range(3):
            yield self.exchange(one)
        self.replace_machine(self.draw.randrange(self.machines))
        yield self.part()

    def _levels(self, one: int, _: int) -> Iterator[list[str]]:
        self.add_tasks(self.tasks * 9 // 10)
        yield self.part()
        self.end_tasks(20 * one)
        yield self.part()
        self.add_tasks(30 * one)
        yield self.part()
        self.replace_machine(1)
        yield self.part()

    def _moves(self, one: int, first: int) -> Iterator[list[str]]:
        self.add_tasks(self.tasks * 2 // 3)
        yield self.part()
        self.add_machines(first, self.machines)
        yield self.part()
        self.add_tasks(self.tasks - self.tasks * 2 // 3)
        yield self.part()
        self.end_tasks(20 * one)
        for place in range(0, self.machines, 10):
            self.replace_machine(place)
        yield self.part()
        self.add_tasks(20 * one)
        yield self.part()

    def _returns(self, one: int, _: int) -> Iterator[list[str]]:
        self.add_tasks(self.tasks)
        yield self.part()
        for place in range(self.machines // 3):
            self.replace_machine(place)
        yield self.part()
        yield self.part()
        yield self.exchange(10 * one)


def make(kind: str, tasks: int, machines: int, seed: int = 1) -> Stream:
    """Return the stream of a kind at a size."""
    numbers = KINDS[kind]
    heading = "tenant,nodes,arcs,life,spread,churn"
    row = f"{TENANT},4096,{MAX_ARCS},1000000,{numbers.spread},{numbers.churn}"
    if numbers.remote is not None:
        heading, row = f"{heading},remote", f"{row},{numbers.remote}"
    return Stream(kind, f"{heading}\n{row}\n", list(Maker(kind, tasks, machines, seed).parts()))


def read_size(text: str) -> tuple[int, int]:
    """Return the tasks and machines of a size, as an argument: 100x20."""
    try:
        tasks, machines = map(int, text.split("x"))
    except ValueError:
        raise argparse.ArgumentTypeError(f"{text} is not a size, as 100x20 is: tasks x machines") from None
    return tasks, machines


def main() -> int:
    """Write the stream of a kind into BASE.csv and BASE.txt."""
    parser = argparse.ArgumentParser(prog="python3 -m harness.kinds", description=main.__doc__)
    parser.add_argument("kind", choices=KINDS)
    parser.add_argument("tasks", type=int)
    parser.add_argument("machines", type=int)
    parser.add_argument("base", metavar="BASE")
    options = parser.parse_args()
    stream = make(options.kind, options.tasks, options.machines)
    with open(options.base + ".csv", "w") as roster, open(options.base + ".txt", "w") as text:
        roster.write(stream.roster)
        for lines in stream.parts:
            text.writelines(line + "\n" for line in [*lines, f"{TENANT} round"])
    return 0


if __name__ == "__main__":
    run_script(main)
