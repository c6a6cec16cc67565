"""The service as docs/FORMATS.md and docs/PLACEMENT.md state it, written for its plainness alone.

A round tries the placements in their stated order and returns the first of those that cost least, so it is for small
books only. It has no network, flow or price, and shares nothing with the program.
"""

from __future__ import annotations

import csv
import io
import re
import sys
from dataclasses import dataclass, field
from typing import Callable, Collection, Iterator, NamedTuple, Sequence

HEADING = b"tenant,nodes,arcs,life,spread,churn".split(b",")
REMOTE_HEADING = HEADING + [b"remote"]
FULL_HEADING = REMOTE_HEADING + [b"patience"]  # that of an extended service
PLAIN_HEADINGS = (HEADING, REMOTE_HEADING)
HEADINGS = (*PLAIN_HEADINGS, FULL_HEADING)
STATE_HEADING = b"firm state 1\n"
EXTENDED_STATE_HEADING = b"firm state 1 extended\n"
ROSTER_FAULTS = "header row name number repeated-name count memory".split()
REFUSALS = (
    "worn bad-command bad-name bad-number machine-exists no-such-machine job-exists no-such-job task-exists"
    " no-such-task job-has-tasks arena-nodes arena-arcs memory"
).split()
FIRST_OPERATOR_REFUSAL = 21
OPERATOR_REFUSALS = (
    "operator-command operator-row operator-name operator-number tenant-exists no-such-tenant operator-full"
    " operator-memory"
).split()
MOST_ROSTER, MOST_LINE = 65536, 256  # bytes
PLACES, MOST_ADMISSIONS = 64, 32768
LONGEST_PATIENCE = 1000000
COSTS_KEPT = 8


class Words(NamedTuple):
    """The words after a verb: names, more of them that may be left out, and a number from 1 to the highest, if any."""

    names: int
    more_names: int = 0
    highest: int | None = None


VERBS = {
    b"machine": Words(names=1, highest=64),
    b"drain": Words(names=1),
    b"job": Words(names=1, highest=1000000),
    b"close": Words(names=1),
    b"task": Words(names=2, more_names=4),
    b"done": Words(names=1),
    b"where": Words(names=1),
    b"show": Words(names=0),
    b"costs": Words(names=0),
    b"round": Words(names=0),
}
GROWING = {"machine", "job", "task", "round"}


class Refused(Exception):
    """Signals that a line is refused, with this code."""

    def __init__(self, code: int) -> None:
        super().__init__(code)
        self.code = code


class RosterFault(Exception):
    """Signals a faulty roster, with this code."""

    def __init__(self, code: int) -> None:
        super().__init__(code)
        self.code = code


class Limits(NamedTuple):
    """The numbers of a tenant's row in the roster."""

    nodes: int
    arcs: int
    life: int
    spread: int
    churn: int
    remote: int = 0
    patience: int = LONGEST_PATIENCE


# The least and the highest of each of the limits.
RANGES = [(2, 4096), (0, 65536), (1, 2**40), (0, 1000), (0, 1000000), (0, 1000000), (0, LONGEST_PATIENCE)]


def is_name(word: bytes) -> bool:
    return re.fullmatch(rb"[a-z0-9-]{1,16}", word) is not None


def number_in(word: bytes, low: int, high: int) -> int | None:
    """Return the number that the word writes, or None."""
    if re.fullmatch(rb"[0-9]{1,13}", word) is None:
        return None
    return int(word) if low <= int(word) <= high else None


def read_limits(words: Sequence[bytes]) -> Limits | None:
    """Return the limits in a row's fields after the name, or None unless each is a number in its range."""
    numbers = [number_in(word, low, high) for word, (low, high) in zip(words, RANGES)]
    known = [number for number in numbers if number is not None]
    return Limits(*known) if len(known) == len(numbers) else None


class Command(NamedTuple):
    """A tenant's command, and whether the memory that it needs is refused."""

    verb: str
    names: list[str]
    number: int
    lacks_memory: bool


def read_command(words: Sequence[bytes], is_memory_refused: bool) -> Command:
    """Return the command in the words after a tenant's name."""
    if not words or words[0] not in VERBS:
        raise Refused(2)
    verb, shape = words[0].decode(), VERBS[words[0]]
    most = shape.names + shape.more_names
    names, rest = words[1 : most + 1], words[most + 1 :]
    if len(names) < shape.names or len(rest) != (shape.highest is not None):
        raise Refused(2)
    if not all(map(is_name, names)):
        raise Refused(3)
    number = number_in(rest[0], 1, shape.highest) if shape.highest is not None else 0
    if number is None:
        raise Refused(4)
    return Command(verb, [name.decode() for name in names], number, is_memory_refused and verb in GROWING)


@dataclass
class Task:
    """A task's row: the machine it runs on, or None and the rounds it has waited."""

    job: str
    preferred: list[str]
    machine: str | None = None
    waited: int = 0


class Placement(NamedTuple):
    """A placement's cost, and each task's machine, or None to wait, in order of submission."""

    cost: int
    machines: list[str | None]


@dataclass
class Tenant:
    """One tenant: its rows in order, the last costs, and the number of its commands."""

    name: str
    limits: Limits
    given: int = 0
    costs: list[int] = field(default_factory=list)
    machines: dict[str, int] = field(default_factory=dict)  # the slots of each
    jobs: dict[str, int] = field(default_factory=dict)  # the weight of each
    tasks: dict[str, Task] = field(default_factory=dict)

    def use(self) -> tuple[int, int]:
        """Return the nodes and arcs that the rows use."""
        nodes = 2 + len(self.machines) + len(self.jobs) + len(self.tasks)
        arcs = sum(1 + slots for slots in self.machines.values()) + len(self.jobs)
        return nodes, arcs + sum(3 + len(task.preferred) for task in self.tasks.values())

    def answer(self, words: Sequence[bytes], is_memory_refused: bool = False) -> bytes:
        """Return the reply line to a command, without its line feed."""
        if self.given == self.limits.life:
            return self._line(self.limits.life + 1, "no 1 worn")
        self.given += 1
        try:
            command = read_command(words, is_memory_refused)
            obey: Callable[[Command], str] = getattr(self, f"_{command.verb}")
            text = obey(command)
        except Refused as refusal:
            text = f"no {refusal.code} {REFUSALS[refusal.code - 1]}"
        return self._line(self.given, text)

    def _line(self, number: int, text: str) -> bytes:
        return f"{self.name} {number} {text}".encode()

    def _grow(self, nodes: int, arcs: int, command: Command) -> None:
        used_nodes, used_arcs = self.use()
        if used_nodes + nodes > self.limits.nodes:
            raise Refused(12)
        if used_arcs + arcs > self.limits.arcs:
            raise Refused(13)
        if command.lacks_memory:
            raise Refused(14)

    def _machine(self, command: Command) -> str:
        (name,) = command.names
        if name in self.machines:
            raise Refused(5)
        self._grow(1, 1 + command.number, command)
        self.machines[name] = command.number
        return "ok"

    def _drain(self, command: Command) -> str:
        (name,) = command.names
        if name not in self.machines:
            raise Refused(6)
        del self.machines[name]
        evicted = [task for task in self.tasks.values() if task.machine == name]
        for task in evicted:
            task.machine, task.waited = None, 0
        for task in self.tasks.values():
            task.preferred = [machine for machine in task.preferred if machine != name]
        return f"ok evicted {len(evicted)}"

    def _job(self, command: Command) -> str:
        (name,) = command.names
        if name in self.jobs:
            raise Refused(7)
        self._grow(1, 1, command)
        self.jobs[name] = command.number
        return "ok"

    def _close(self, command: Command) -> str:
        (name,) = command.names
        if name not in self.jobs:
            raise Refused(8)
        if any(task.job == name for task in self.tasks.values()):
            raise Refused(11)
        del self.jobs[name]
        return "ok"

    def _task(self, command: Command) -> str:
        job, name, *preferred = command.names
        if any(machine not in self.machines for machine in preferred):
            raise Refused(6)
        if job not in self.jobs:
            raise Refused(8)
        if name in self.tasks:
            raise Refused(9)
        preferred = list(dict.fromkeys(preferred))
        self._grow(1, 3 + len(preferred), command)
        self.tasks[name] = Task(job, preferred)
        return "ok"

    def _done(self, command: Command) -> str:
        self._named_task(command)
        del self.tasks[command.names[0]]
        return "ok"

    def _where(self, command: Command) -> str:
        task = self._named_task(command)
        return f"ok waits {task.waited}" if task.machine is None else f"ok at {task.machine}"

    def _named_task(self, command: Command) -> Task:
        (name,) = command.names
        if name not in self.tasks:
            raise Refused(10)
        return self.tasks[name]

    def _show(self, _: Command) -> str:
        nodes, arcs = self.use()
        running = sum(task.machine is not None for task in self.tasks.values())
        return (
            f"ok machines {len(self.machines)} jobs {len(self.jobs)} tasks {len(self.tasks)} running {running}"
            f" nodes {nodes} of {self.limits.nodes} arcs {arcs} of {self.limits.arcs}"
        )

    def _costs(self, _: Command) -> str:
        return "".join(["ok costs", *(f" {cost}" for cost in self.costs)])

    def _round(self, command: Command) -> str:
        if command.lacks_memory:
            raise Refused(14)
        return self.settle(self.placement())

    def waiting_cost(self, task: Task) -> int:
        """Return the cost of leaving the task waiting."""
        return self.jobs[task.job] + task.waited + (0 if task.machine is None else self.limits.churn)

    def slot_cost(self, slot: int) -> int:
        """Return a task's cost in a machine's slot of this number, counted from 0."""
        return slot * self.limits.spread

    def placing_cost(self, task: Task, machine: str) -> int:
        """Return the task's cost of the machine, apart from the machine's load."""
        if machine == task.machine:
            return 0
        is_remote = bool(task.preferred) and machine not in task.preferred
        return (0 if task.machine is None else self.limits.churn) + (self.limits.remote if is_remote else 0)

    def settle(self, placement: Placement) -> str:
        """Update the rows after a round with this placement, and return the round's text."""
        changes = []
        for (name, task), machine in zip(self.tasks.items(), placement.machines):
            if machine is not None and task.machine is None:
                changes.append(f" start {name} {machine}")
            elif machine is None and task.machine is not None:
                changes.append(f" preempt {name} {task.machine}")
            elif machine != task.machine:
                changes.append(f" move {name} {task.machine} {machine}")
            task.machine = machine
            task.waited = min(task.waited + 1, self.limits.patience) if machine is None else 0
        self.costs = (self.costs + [placement.cost])[-COSTS_KEPT:]
        return f"ok round cost {placement.cost}" + "".join(changes)

    def choices(self, task: Task) -> list[str | None]:
        """Return the choices of a task, in the order in which placements are compared."""
        others = [machine for machine in self.machines if machine != task.machine]
        return [*([] if task.machine is None else [task.machine]), *others, None]

    def placement(self) -> Placement:
        """Return the first placement in the stated order of those that cost least."""
        tasks = list(self.tasks.values())
        load = dict.fromkeys(self.machines, 0)
        chosen: list[str | None] = []
        best = Placement(sys.maxsize, [])

        def try_all(cost: int) -> None:
            nonlocal best
            # Costs are never negative, so a beginning that costs as much as the best placement can be left.
            if cost >= best.cost:
                return
            if len(chosen) == len(tasks):
                best = Placement(cost, list(chosen))
                return
            task = tasks[len(chosen)]
            for machine in self.choices(task):
                if machine is None:
                    more = self.waiting_cost(task)
                elif load[machine] == self.machines[machine]:
                    continue
                else:
                    more = self.slot_cost(load[machine]) + self.placing_cost(task, machine)
                    load[machine] += 1
                chosen.append(machine)
                try_all(cost + more)
                chosen.pop()
                if machine is not None:
                    load[machine] -= 1

        try_all(0)
        return best


def records_of(text: bytes) -> list[list[bytes]]:
    """Return the fields of each record of a roster; its quotes must be well formed."""
    reader = csv.reader(io.StringIO(text.decode("latin-1"), newline=""))
    return [[field.encode("latin-1") for field in record] for record in reader if record]


def read_roster(text: bytes) -> dict[str, Tenant]:
    """Return the tenants of a roster."""
    if len(text) > MOST_ROSTER:
        raise RosterFault(2)
    records = records_of(text)
    if not records or records[0] not in HEADINGS:
        raise RosterFault(1)
    tenants: dict[str, Tenant] = {}
    for place, record in enumerate(records[1:]):
        if place == PLACES:
            raise RosterFault(6)
        if len(record) != len(records[0]):
            raise RosterFault(2)
        if not is_name(record[0]):
            raise RosterFault(3)
        limits = read_limits(record[1:])
        if limits is None:
            raise RosterFault(4)
        name = record[0].decode()
        if name in tenants:
            raise RosterFault(5)
        tenants[name] = Tenant(name, limits)
    if not tenants:
        raise RosterFault(6)
    return tenants


def lines_of(text: bytes) -> list[bytes]:
    """Return the lines of an input, without their ends."""
    pieces = text.split(b"\n")
    if pieces[-1] == b"":
        pieces.pop()
    return [piece[:-1] if piece.endswith(b"\r") else piece for piece in pieces]


class Operation(NamedTuple):
    """An operator's line: an admission with limits, or the retirement of a tenant."""

    name: str
    limits: Limits | None


def read_operation(words: Sequence[bytes], is_extended: bool) -> Operation:
    """Return the operation of an operator's line; only an extended service takes a row of eight fields."""
    if len(words) != 2 or words[0] not in (b"admit", b"retire"):
        raise Refused(21)
    is_admission = words[0] == b"admit"
    fields = words[1].split(b",") if is_admission else [words[1]]
    if is_admission and len(fields) not in map(len, HEADINGS if is_extended else PLAIN_HEADINGS):
        raise Refused(22)
    if not is_name(fields[0]):
        raise Refused(23)
    limits = read_limits(fields[1:]) if is_admission else None
    if is_admission and limits is None:
        raise Refused(24)
    return Operation(fields[0].decode(), limits)


class Service:
    """Tenants by name, the name at each place, and the count of admissions to it.

    A service is extended if its roster's heading has eight fields.
    """

    def __init__(self, tenants: dict[str, Tenant], is_extended: bool = False) -> None:
        self.tenants, self.is_extended = tenants, is_extended
        self.places: list[str | None] = [*tenants, *[None] * (PLACES - len(tenants))]
        self.admissions = [1] * len(tenants) + [0] * (PLACES - len(tenants))

    def operate(self, words: Sequence[bytes], is_memory_refused: bool) -> bytes:
        """Return the answer to an operator's line."""
        try:
            name, limits = read_operation(words, self.is_extended)
            if limits is None:
                self._retire(name)
                return f"+ ok retired {name}".encode()
            self._admit(Tenant(name, limits), is_memory_refused)
            return f"+ ok admitted {name}".encode()
        except Refused as refusal:
            return f"+ no {refusal.code} {OPERATOR_REFUSALS[refusal.code - FIRST_OPERATOR_REFUSAL]}".encode()

    def _admit(self, tenant: Tenant, is_memory_refused: bool) -> None:
        if tenant.name in self.tenants:
            raise Refused(25)
        given = zip(self.places, self.admissions)
        free = [place for place, (name, count) in enumerate(given) if name is None and count < MOST_ADMISSIONS]
        if not free:
            raise Refused(27)
        if is_memory_refused:
            raise Refused(28)
        self.places[free[0]], self.tenants[tenant.name] = tenant.name, tenant
        self.admissions[free[0]] += 1

    def _retire(self, name: str) -> None:
        if name not in self.tenants:
            raise Refused(26)
        del self.tenants[name]
        self.places[self.places.index(name)] = None


def answer_line(service: Service, line: bytes, is_memory_refused: bool = False) -> bytes | None:
    """Return the output line to an input line, or None."""
    if line.startswith(b"#"):
        return None
    if len(line) > MOST_LINE:
        return b"! line-too-long"
    words = [word for word in re.split(rb"[ \t]+", line) if word]
    if not words:
        return None
    if words[0] == b"+":
        return service.operate(words[1:], is_memory_refused)
    if not is_name(words[0]) or words[0].decode() not in service.tenants:
        return b"! unknown-tenant"
    return service.tenants[words[0].decode()].answer(words[1:], is_memory_refused)


def state_of(service: Service) -> bytes:
    """Return the text of a service's state."""
    rows = []
    for name, count in zip(service.places, service.admissions):
        if count:
            rows.append(f"place admissions {count}")
        if name is not None:
            rows += rows_of(service.tenants[name])
    heading = EXTENDED_STATE_HEADING if service.is_extended else STATE_HEADING
    return heading + "".join(f"{row}\n" for row in [*rows, f"rows {len(rows)}"]).encode()


def rows_of(tenant: Tenant) -> Iterator[str]:
    """Yield a tenant's rows in a state; the default patience is left out."""
    limits = tenant.limits._asdict()
    if tenant.limits.patience == LONGEST_PATIENCE:
        del limits["patience"]
    numbers = [f"{name} {number}" for name, number in {**limits, "commands": tenant.given}.items()]
    yield " ".join(["tenant", tenant.name, *numbers])
    yield " ".join(["costs", *map(str, tenant.costs)])
    yield from (f"machine {name} {slots}" for name, slots in tenant.machines.items())
    yield from (f"job {name} {weight}" for name, weight in tenant.jobs.items())
    for name, task in tenant.tasks.items():
        where = f"waits {task.waited}" if task.machine is None else f"at {task.machine}"
        prefers = ["prefers", *task.preferred] if task.preferred else []
        yield " ".join(["task", task.job, name, where, *prefers])


def read_state(text: bytes) -> Service:
    """Return the service of a valid state."""
    service = Service({}, text.startswith(EXTENDED_STATE_HEADING))
    place = -1
    for row in text.decode().splitlines()[1:-1]:
        kind, *words = row.split()
        if kind == "place":
            place += 1
            service.admissions[place] = int(words[1])
        elif kind == "tenant":
            numbers = dict(zip(words[1::2], map(int, words[2::2])))
            given = numbers.pop("commands")
            service.places[place], tenant = words[0], Tenant(words[0], Limits(**numbers), given)
            service.tenants[words[0]] = tenant
        else:
            take_row(tenant, kind, words)
    return service


def take_row(tenant: Tenant, kind: str, words: list[str]) -> None:
    """Add a row of a state to its tenant."""
    if kind == "costs":
        tenant.costs = list(map(int, words))
    elif kind == "machine":
        tenant.machines[words[0]] = int(words[1])
    elif kind == "job":
        tenant.jobs[words[0]] = int(words[1])
    else:
        job, name, where, there, *preferred = words
        task = Task(job, preferred[1:])
        if where == "at":
            task.machine = there
        else:
            task.waited = int(there)
        tenant.tasks[name] = task


def is_state(opening: bytes) -> bool:
    """Return whether a service's opening is a state, and not a roster."""
    return opening.startswith(STATE_HEADING.rstrip(b"\n"))


def opened(opening: bytes) -> Service:
    """Return the service that a roster or a state opens."""
    if is_state(opening):
        return read_state(opening)
    return Service(read_roster(opening), records_of(opening)[0] == FULL_HEADING)


def serve(opening: bytes, text: bytes, marks: Collection[int] = frozenset()) -> list[bytes]:
    """Return the output lines of an input; memory is refused to the input lines whose places are in `marks`."""
    service = opened(opening)
    answers = (answer_line(service, line, place in marks) for place, line in enumerate(lines_of(text)))
    return [answer for answer in answers if answer is not None]
