"""Bred books: random ones whose placements are hard to tell apart, changed a little, and crossed.

Costs tie or almost tie, machines are full, tasks prefer many of them, and weights, spread, churn and remote differ by
just one another. A book is the numbers of a tenant and its lines, the last of which is a round. Large books are made of
layers of machines, each full of tasks that may move to the next, so that a task that arrives at one end moves all of
them; or of a crowd that comes to full machines and preempts the lightest tasks.
"""

from __future__ import annotations

from random import Random
from typing import Callable, Iterator, Mapping, NamedTuple, TypeVar

Line = tuple[str, ...]  # the words after the tenant's name
Preferring = Callable[[Random, int, int], list[int]]  # a task's machines, by its number and the number of machines

ROUND: Line = ("round",)
MAX_WEIGHT, MAX_SLOTS, MAX_PREFERRED = 1_000_000, 64, 4
MAX_NODES, MAX_ARCS = 4096, 65536


class Numbers(NamedTuple):
    """The limits of a tenant that make costs."""

    spread: int
    churn: int
    remote: int
    patience: int


HIGHEST = Numbers(1_000, 1_000_000, 1_000_000, 1_000_000)
USUAL = Numbers(50, 400, 120, 1_000_000)


class Size(NamedTuple):
    """The most tasks and machines of a new book."""

    tasks: int
    machines: int


class Book(NamedTuple):
    numbers: Numbers
    lines: tuple[Line, ...]

    def book(self) -> Book:
        return self

    def room(self) -> tuple[int, int]:
        """Return the nodes and arcs that are enough for it."""
        arcs = 0
        for line in self.lines:
            arcs += 1 + int(line[2]) if line[0] == "machine" else 7
        return min(MAX_NODES, len(self.lines) + 2), min(MAX_ARCS, arcs)

    def record(self, name: str) -> str:
        """Return its tenant's record in a roster."""
        nodes, arcs = self.room()
        return f"{name},{nodes},{arcs},1000000," + ",".join(map(str, self.numbers))

    def text(self, name: str) -> str:
        return "".join(f"{name} {' '.join(line)}\n" for line in self.lines)


def any_of(draw: Random, _: int, machines: int) -> list[int]:
    return draw.sample(range(machines), min(machines, draw.randint(0, MAX_PREFERRED)))


def none_of(_: Random, __: int, ___: int) -> list[int]:
    return []


def next_to(_: Random, task: int, machines: int) -> list[int]:
    """Return a chain: a task that moves makes the next one move."""
    return [task % machines, (task + 1) % machines]


def before(_: Random, task: int, machines: int) -> list[int]:
    """Return the same chain the other way round."""
    place = (machines - 1 - task) % machines
    return [place, (place + 1) % machines]


def window(_: Random, task: int, machines: int) -> list[int]:
    return [(task + place) % machines for place in range(min(machines, MAX_PREFERRED))]


def same(_: Random, __: int, machines: int) -> list[int]:
    return list(range(min(machines, MAX_PREFERRED)))


def in_block(draw: Random, task: int, machines: int) -> list[int]:
    """Return some of five machines side by side, and at times one elsewhere."""
    first = task // 6 * 5 % machines
    places = [(first + draw.randrange(5)) % machines for _ in range(draw.randint(1, MAX_PREFERRED))]
    return places if draw.random() < 0.9 else [*places[:3], draw.randrange(machines)]


PREFERRING: list[Preferring] = [any_of, any_of, none_of, next_to, before, window, same, in_block]


def random_numbers(draw: Random) -> Numbers:
    return Numbers(
        draw.choice([0, 0, 1, 1, 2, 5, 50, 1_000]),
        draw.choice([0, 0, 1, 1, 2, 3, 20, 400, 1_000_000]),
        draw.choice([0, 0, 1, 1, 2, 3, 5, 120, 1_000_000]),
        draw.choice([0, 1, 2, 1_000_000, 1_000_000]),
    )


class Maker:
    """Makes the lines of a new book."""

    def __init__(self, draw: Random, size: Size) -> None:
        self.draw = draw
        self.tasks, self.machines = draw.randint(1, size.tasks), draw.randint(1, size.machines)
        self.numbers = random_numbers(draw)
        self.prefers = draw.choice(PREFERRING)
        self.jobs = draw.randint(1, min(8, self.tasks))
        self.lines: list[Line] = []
        self.next = 0
        self.there: list[int] = []

    def weight(self, job: int) -> int:
        """Return a weight near the others', or apart from them by another cost."""
        draw, numbers = self.draw, self.numbers
        steps = [0, 1, numbers.spread, numbers.churn, numbers.remote, numbers.spread + numbers.churn, job]
        found = self.base + draw.choice(steps) * draw.choice([0, 1, 1, 2]) + draw.choice([0, 0, 1])
        return min(MAX_WEIGHT, max(1, found))

    def slots(self, part: float) -> int:
        """Return about as many slots as make this part of the tasks."""
        wanted = self.tasks * part / self.machines
        return min(MAX_SLOTS, max(1, int(wanted + self.draw.choice([0, 0.5, 1, self.draw.random()]))))

    def make(self) -> Book:
        draw = self.draw
        self.base = draw.choice([1, 2, 5, 12, 100, 500_000, MAX_WEIGHT])
        part = draw.choice([0.5, 0.8, 1, 1, 1.2, 2])
        self.all_slots = [draw.choice([1, self.slots(part), self.slots(part)]) for _ in range(self.machines)]
        order = list(range(self.machines))
        if draw.random() < 0.3:
            draw.shuffle(order)
        for machine in order:
            self.add_machine(machine)
        for job in range(self.jobs):
            self.lines.append(("job", f"j{job}", str(self.weight(job))))
        self.add_tasks(self.tasks if draw.random() < 0.6 else draw.randint(0, self.tasks))
        self.lines.append(ROUND)
        for _ in range(draw.randint(0, 5)):
            self.change()
            self.lines.append(ROUND)
        return Book(self.numbers, tuple(self.lines))

    def add_machine(self, machine: int) -> None:
        self.lines.append(("machine", f"m{machine}", str(self.all_slots[machine])))

    def add_tasks(self, count: int) -> None:
        for _ in range(count):
            places = self.prefers(self.draw, self.next, self.machines) if self.draw.random() < 0.9 else []
            job = self.draw.randrange(self.jobs)
            self.lines.append(("task", f"j{job}", f"x{self.next}", *(f"m{place}" for place in places)))
            self.there.append(self.next)
            self.next += 1

    def end_tasks(self, count: int) -> None:
        for _ in range(min(count, len(self.there))):
            self.lines.append(("done", f"x{self.there.pop(self.draw.randrange(len(self.there)))}"))

    def change(self) -> None:
        """Yield the lines between two rounds, if any."""
        draw = self.draw
        some = draw.randint(1, 1 + self.tasks // 3)
        shape = draw.randrange(5)
        if shape == 1:
            self.end_tasks(some)
        elif shape == 2:
            self.add_tasks(some)
        elif shape == 3:
            self.end_tasks(some)
            self.add_tasks(some)
        elif shape == 4:
            for machine in draw.sample(range(self.machines), draw.randint(1, 1 + self.machines // 4)):
                self.lines.append(("drain", f"m{machine}"))
                if draw.random() < 0.8:
                    self.add_machine(machine)


def new_book(draw: Random, size: Size) -> Book:
    return Maker(draw, size).make()


def changed_book(draw: Random, book: Book, other: Book) -> Book:
    """Return the book with one to four changes; a part of the other one may come into it."""
    numbers, lines = book.numbers, list(book.lines)
    if draw.random() < 0.1:
        lines = crossed(draw, lines, list(other.lines)) or [ROUND]
    for _ in range(draw.randint(1, 4)):
        if draw.random() < 0.1:
            numbers = changed_numbers(draw, numbers)
        else:
            change_line(draw, lines, numbers)
    if not lines or lines[-1] != ROUND:
        lines.append(ROUND)
    return Book(numbers, tuple(lines))


def crossed(draw: Random, lines: list[Line], others: list[Line]) -> list[Line]:
    """Return the beginning of the ones and the end of the others, or all of both as one round's."""
    if draw.random() < 0.3:
        shift = {"m": "n", "j": "k", "x": "y"}
        both = [(line[0], *(shift.get(word[0], word[0]) + word[1:] for word in line[1:])) for line in others]
        return [*lines[:-1], *both]
    return [*lines[: draw.randint(0, len(lines))], *others[draw.randint(0, len(others)) :]]


def changed_numbers(draw: Random, numbers: Numbers) -> Numbers:
    found = list(numbers)
    place = draw.randrange(len(found))
    more = draw.choice([-1, 1, draw.choice(found), -draw.choice(found)])
    found[place] = draw.choice([random_numbers(draw)[place], min(HIGHEST[place], max(0, found[place] + more))])
    return Numbers(*found)


def change_line(draw: Random, lines: list[Line], numbers: Numbers) -> None:
    """Change a line, remove it, or copy or move it elsewhere."""
    place = draw.randrange(len(lines))
    shape = draw.randrange(7)
    if shape == 0:
        del lines[place]
        lines[:] = lines or [ROUND]
    elif shape == 1:
        lines.insert(draw.randint(0, len(lines)), lines.pop(place))
    elif shape == 2:
        lines.insert(draw.randint(0, len(lines)), draw.choice([lines[place], ROUND]))
    elif shape == 3:
        other = draw.randrange(len(lines))
        lines[place], lines[other] = lines[other], lines[place]
    else:
        lines[place : place + 1] = changed_line(draw, lines[place], lines, numbers)


def changed_line(draw: Random, line: Line, lines: list[Line], numbers: Numbers) -> list[Line]:
    """Return a line in the place of one that names another number, or other machines."""
    verb, *words = line
    if verb in ("machine", "job"):
        highest = MAX_SLOTS if verb == "machine" else MAX_WEIGHT
        steps = [1, -1, 1, -1] if verb == "machine" else [1, -1, *numbers[:3], *(-number for number in numbers[:3])]
        return [(verb, words[0], str(min(highest, max(1, int(words[1]) + draw.choice(steps)))))]
    machines = [other[1] for other in lines if other[0] == "machine"]
    if verb == "task" and machines:
        preferred = words[2:]
        if preferred and draw.random() < 0.5:
            del preferred[draw.randrange(len(preferred))]
        if len(preferred) < MAX_PREFERRED and draw.random() < 0.7:
            preferred.insert(draw.randint(0, len(preferred)), draw.choice(machines))
        jobs = [other[1] for other in lines if other[0] == "job"]
        job = draw.choice(jobs) if jobs and draw.random() < 0.3 else words[0]
        return [(verb, job, words[1], *preferred)]
    if machines and draw.random() < 0.5:
        return [("drain", draw.choice(machines)), line]
    tasks = [other[2] for other in lines if other[0] == "task"]
    return [("done", draw.choice(tasks)), line] if tasks else [line]


class Layers(NamedTuple):
    """Layers of machines, equally wide, and of tasks that prefer machines of their layer and of the next ones."""

    numbers: Numbers
    layers: int
    width: int
    slots: int
    own: int  # preferred machines of a task's layer, 1 at least
    next: int  # number of the next, if there is room
    stride: int  # between those that it prefers
    skip: int  # number of layers to the next one
    entering: int  # tasks that come at the end, in each round after the first
    weight: int
    step: int  # between the weights of those that come
    rounds: int
    order: int  # of machines and tasks: by layer, the other way round, or mixed

    def changed(self, draw: Random, other: Layers) -> Layers:
        return mixed(draw, self, (other, random_layers(draw)), LAYERS).within()

    def within(self) -> Layers:
        """Return the nearest that a tenant has room for."""
        found = in_ranges(self, LAYERS)
        rows = found.layers * (1 + found.slots) + found.rounds * found.slots  # rows for each unit of the width
        width = max(1, min(found.width, (MAX_NODES - 10) // rows))
        return found._replace(width=width, entering=min(found.entering, width * found.slots))

    def machine(self, layer: int, place: int) -> str:
        return f"m{layer}-{place % self.width}"

    def preferred(self, layer: int, place: int) -> list[str]:
        """Return the machines that a task of a layer prefers."""
        own = [self.machine(layer, place + number * self.stride) for number in range(self.own)]
        to = max(0, layer - self.skip)
        more = [self.machine(to, place + number * self.stride) for number in range(self.next if layer else 0)]
        return [*own, *more][:MAX_PREFERRED]

    def in_order(self, lines: list[Line]) -> list[Line]:
        if self.order == 0:
            return lines
        if self.order == 1:
            return lines[::-1]
        return Random(0).sample(lines, len(lines))

    def entering_lines(self, number: int) -> Iterator[Line]:
        """Remove the tasks at the beginning, and add others at the end."""
        end = self.layers - 1
        for place in range(self.entering):
            yield ("done", f"x{(number - 1) * self.skip}-{place}")
        for place in range(self.entering):
            yield ("task", f"j{place % 8}", f"xe{number}-{place}", *self.preferred(end, place)[: self.own])

    def book(self) -> Book:
        places = [(layer, place) for layer in range(self.layers) for place in range(self.width)]
        machines: list[Line] = [("machine", self.machine(*at), str(self.slots)) for at in places]
        jobs: list[Line] = [("job", f"j{job}", str(self.weight + job * self.step)) for job in range(8)]
        tasks: list[Line] = []
        for layer, place in places:
            for slot in range(self.slots):
                name = f"x{layer}-{place + slot * self.width}"
                tasks.append(("task", f"j{(place + slot) % 8}", name, *self.preferred(layer, place)))
        lines = [*self.in_order(machines), *jobs, *self.in_order(tasks), ROUND]
        for number in range(1, self.rounds + 1):
            lines += [*self.entering_lines(number), ROUND]
        return Book(self.numbers, tuple(lines))


Large = TypeVar("Large", "Layers", "Crowd")
Ranges = Mapping[str, tuple[int, int]]  # the least and the highest of each number


def in_ranges(found: Large, ranges: Ranges) -> Large:
    near = {name: min(highest, max(least, getattr(found, name))) for name, (least, highest) in ranges.items()}
    return found._replace(**near)


def mixed(draw: Random, found: Large, others: tuple[Large, Large], ranges: Ranges) -> Large:
    """Return the numbers with one to three anew: another's, or a little or much more or less."""
    for name in draw.sample(list(ranges), draw.randint(1, 3)):
        number = getattr(found, name)
        near = draw.choice([number - 1, number + 1, number + 3, number * 4 // 5, number * 5 // 4, number * 2])
        anew = draw.choice([near, near, getattr(others[0], name), getattr(others[1], name)])
        found = found._replace(**{name: anew})
    if draw.random() < 0.2:
        numbers = draw.choice([changed_numbers(draw, found.numbers), *(other.numbers for other in others)])
        found = found._replace(numbers=numbers)
    return found


LAYERS: Ranges = {
    "layers": (2, 400),
    "width": (1, 1_000),
    "slots": (1, 8),
    "own": (1, 3),
    "next": (0, 3),
    "stride": (1, 50),
    "skip": (1, 5),
    "entering": (1, 1_000),
    "weight": (1, 900_000),
    "step": (0, 50),
    "rounds": (1, 4),
    "order": (0, 2),
}


def random_layers(draw: Random) -> Layers:
    numbers = draw.choice([random_numbers(draw), USUAL, Numbers(0, 0, 1_000_000, 0), Numbers(0, 1, 1_000_000, 0)])
    layers = draw.choice([2, 3, 4, 6, 10, 20, 50, 200])
    width, slots = draw.choice([1, 5, 20, 50, 100, 400, 1000]), draw.choice([1, 1, 1, 2, 4])
    entering, weight = draw.choice([1, 10, 100, 400, 1000]), draw.choice([1, 12, 1_000, 500_000])
    found = Layers(
        numbers,
        layers,
        width,
        slots,
        own=draw.randint(1, 3),
        next=draw.randint(0, 3),
        stride=draw.choice([1, 1, 2, 7, 13]),
        skip=draw.choice([1, 1, 1, 2, 3]),
        entering=entering,
        weight=weight,
        step=draw.choice([0, 0, 1, 3, 50]),
        rounds=draw.randint(1, 2),
        order=draw.randrange(3),
    )
    return found.within()


class Crowd(NamedTuple):
    """Tasks that fill machines, and others that come and weigh more: they preempt the lightest, one after another."""

    numbers: Numbers
    machines: int
    slots: int
    running: int
    entering: int
    jobs: int  # number of running tasks' jobs, each with a weight
    prefers: int  # machines, of those that run
    entering_prefers: int
    window: int  # around a task's preferred machines, or 0
    is_rising: int  # whether later jobs weigh more
    is_cold: int  # whether all come at once
    draw: int

    def changed(self, draw: Random, other: Crowd) -> Crowd:
        return mixed(draw, self, (other, random_crowd(draw)), CROWD).within()

    def within(self) -> Crowd:
        """Return the nearest that a tenant has room for."""
        found = in_ranges(self, CROWD)
        rows = found.machines + found.running + found.entering + found.jobs
        part = min(1, (MAX_NODES - 10) / rows)
        found = found._replace(
            machines=max(1, int(found.machines * part)),
            running=max(1, int(found.running * part)),
            entering=max(1, int(found.entering * part)),
            jobs=max(1, int(found.jobs * part)),
        )
        arcs = MAX_ARCS - 7 * (found.running + found.entering) - found.jobs - 1
        return found._replace(slots=max(1, min(found.slots, arcs // found.machines - 1)))

    def preferred(self, draw: Random, task: int, count: int) -> list[str]:
        if not self.window:
            return [f"m{place}" for place in draw.sample(range(self.machines), min(count, self.machines))]
        first = task * self.machines // self.running
        return [f"m{(first + draw.randrange(self.window)) % self.machines}" for _ in range(count)]

    def book(self) -> Book:
        draw = Random(self.draw)
        weights = [draw.randint(1, MAX_WEIGHT - 1) for _ in range(self.jobs)]
        weights = sorted(weights) if self.is_rising else weights
        lines: list[Line] = [("machine", f"m{place}", str(self.slots)) for place in range(self.machines)]
        lines += [("job", f"j{job}", str(weight)) for job, weight in enumerate([*weights, MAX_WEIGHT])]
        for task in range(self.running):
            lines.append(("task", f"j{task % self.jobs}", f"x{task}", *self.preferred(draw, task, self.prefers)))
        lines += [] if self.is_cold else [ROUND]
        for task in range(self.entering):
            lines.append(("task", f"j{self.jobs}", f"y{task}", *self.preferred(draw, task, self.entering_prefers)))
        return Book(self.numbers, (*lines, ROUND))


CROWD: Ranges = {
    "machines": (2, 2_000),
    "slots": (1, MAX_SLOTS),
    "running": (1, 3_500),
    "entering": (1, 3_500),
    "jobs": (1, 2_000),
    "prefers": (1, MAX_PREFERRED),
    "entering_prefers": (1, MAX_PREFERRED),
    "window": (0, 60),
    "is_rising": (0, 1),
    "is_cold": (0, 1),
    "draw": (1, 9),
}


def random_crowd(draw: Random) -> Crowd:
    machines, slots = draw.choice([30, 60, 250, 500, 1_000]), draw.choice([1, 1, 2, 8, 30, 60])
    remote = draw.choice([MAX_WEIGHT, MAX_WEIGHT, 5_000, 120])
    found = Crowd(
        Numbers(draw.choice([0, 0, 1, 50]), draw.choice([0, 1, 400]), remote, 0),
        machines,
        slots,
        running=machines * slots,
        entering=draw.choice([100, 500, 1_000, 1_250]),
        jobs=draw.choice([50, 500, 900]),
        prefers=draw.choice([2, 3, 4, 4, 4]),
        entering_prefers=draw.choice([1, 2, 4, 4]),
        window=draw.choice([0, 0, 20]),
        is_rising=draw.randrange(2),
        is_cold=draw.randrange(2),
        draw=1,
    )
    return found.within()


Seed = Book | Layers | Crowd


def bred(draw: Random, one: Seed, other: Seed) -> Seed:
    """Return the one with changes, into which the other may come, one of its kind."""
    if isinstance(one, Layers):
        return one.changed(draw, other if isinstance(other, Layers) else one)
    if isinstance(one, Crowd):
        return one.changed(draw, other if isinstance(other, Crowd) else one)
    return changed_book(draw, one, other.book())
