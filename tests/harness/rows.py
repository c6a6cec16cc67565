"""The rows of a tenant while a stream runs, as the program's replies tell them, and the network of the rows."""

from __future__ import annotations

from typing import Iterator, NamedTuple

from harness.checks import Missed, require
from harness.service import Placement, Tenant, read_roster


def open_rows(roster: str) -> Tenant:
    """Return the only tenant of a roster, with no rows."""
    (tenant,) = read_roster(roster.encode()).values()
    return tenant


def hear(tenant: Tenant, line: str, reply: str) -> None:
    """Take a command that is no round; require the defined reply."""
    wanted = tenant.answer(line.encode().split()[1:]).decode()
    require(reply == wanted, f"{line}: {reply}, and not {wanted}")


def hear_round(tenant: Tenant, reply: str) -> int:
    """Take a round: the changes must give a legal placement that costs what the reply says. Return that cost."""
    words = reply.split()
    require(words[2:5] == ["ok", "round", "cost"], reply)
    cost, changed = int(words[5]), read_changes(words[6:])
    placement = Placement(cost, [changed.get(name, task.machine) for name, task in tenant.tasks.items()])
    found = cost_of(tenant, placement)
    require(found == cost, f"the placement costs {found}, and the reply says {cost}")
    tenant.given += 1
    text = tenant.settle(placement)
    require(reply == f"{tenant.name} {tenant.given} {text}", "changes that are none, or out of order")
    return cost


def read_changes(words: list[str]) -> dict[str, str | None]:
    """Return where each changed task runs now, or None if it waits."""
    changed: dict[str, str | None] = {}
    left = iter(words)
    for verb in left:
        name = next(left)
        changed[name] = machine_after(verb, left)
    return changed


def machine_after(verb: str, words: Iterator[str]) -> str | None:
    """Return the machine of a change's task after it, by the words after its name."""
    machine = next(words)
    if verb == "start":
        return machine
    if verb == "move":
        return next(words)
    if verb == "preempt":
        return None
    raise Missed(f"no change: {verb}")


def cost_of(tenant: Tenant, placement: Placement) -> int:
    """Return a placement's cost by the rules; it must be legal."""
    load, cost = dict.fromkeys(tenant.machines, 0), 0
    for task, machine in zip(tenant.tasks.values(), placement.machines):
        if machine is None:
            cost += tenant.waiting_cost(task)
            continue
        cost += tenant.slot_cost(load[machine]) + tenant.placing_cost(task, machine)
        load[machine] += 1
    is_legal = all(load[machine] <= slots for machine, slots in tenant.machines.items())
    require(is_legal, "more tasks than slots")
    return cost


class Arc(NamedTuple):
    tail: int
    head: int
    capacity: int
    cost: int


class Network(NamedTuple):
    """A network as lemon.cc reads it: nodes, arcs and sink; the arcs; the node of each task."""

    nodes: int
    arcs: list[Arc]
    tasks: list[int]

    def text(self) -> str:
        lines = [f"{self.nodes} {len(self.arcs)} {SINK}"]
        lines += [" ".join(map(str, arc)) for arc in self.arcs]
        return "\n".join(lines + [str(task) for task in self.tasks]) + "\n"


SINK, HUB, FIRST_ROW = 0, 1, 2


def network(tenant: Tenant) -> Network:
    """Return the network of the rows."""
    rows = [("machine", name) for name in tenant.machines] + [("job", name) for name in tenant.jobs]
    rows += [("task", name) for name in tenant.tasks]
    node = {row: place for place, row in enumerate(rows, FIRST_ROW)}
    arcs: list[Arc] = []
    for name, slots in tenant.machines.items():
        machine = node["machine", name]
        arcs.append(Arc(HUB, machine, slots, 0))
        arcs += [Arc(machine, SINK, 1, tenant.slot_cost(place)) for place in range(slots)]
    arcs += [Arc(node["job", name], SINK, tenant.limits.nodes, 0) for name in tenant.jobs]
    for name, task in tenant.tasks.items():
        own = node["task", name]
        leaving = 0 if task.machine is None else tenant.limits.churn
        arcs.append(Arc(own, HUB, 1, leaving + (tenant.limits.remote if task.preferred else 0)))
        arcs += [Arc(own, node["machine", near], 1, leaving) for near in task.preferred]
        stay = Arc(own, HUB, 0, 0) if task.machine is None else Arc(own, node["machine", task.machine], 1, 0)
        arcs += [stay, Arc(own, node["job", task.job], 1, tenant.waiting_cost(task))]
    require((len(rows) + FIRST_ROW, len(arcs)) == tenant.use(), "the network is not as large as the rows use")
    return Network(len(rows) + FIRST_ROW, arcs, [node["task", name] for name in tenant.tasks])
