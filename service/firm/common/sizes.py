"""Computes the arena for a tenant's rows, and writes a roster for it by one of three recipes."""

from __future__ import annotations

from dataclasses import dataclass, replace

from .roster import FULL_HEADING, RANGES, Limits, slot_cost

MAX_NODES, MAX_ARCS, MAX_LIFE = RANGES["nodes"][1], RANGES["arcs"][1], RANGES["life"][1]
MAX_SLOTS, MAX_NEAR = 64, 4  # of a machine; preferred machines of a task
HUBS = 2  # nodes of a network without rows
ARCS_OF_TASK = 3  # without those to preferred machines


@dataclass(frozen=True, slots=True)
class Recipe:
    """The costs of a roster; docs/TUNING.md describes their effects."""

    spread: int
    churn: int
    remote: int

    def least_weight(self, slots: int) -> int:
        """Return the weight from which no task waits beside a free slot of machines of this size."""
        return max(1, slot_cost(self.spread, slots - 1) + self.remote)


RECIPES = {
    "pack": Recipe(spread=0, churn=100_000, remote=5),
    "spread": Recipe(spread=1, churn=100_000, remote=2),
    "never-preempt": Recipe(spread=0, churn=1_000_000, remote=5),
}


@dataclass(frozen=True, slots=True)
class TenantSize:
    """The largest number of each kind of a tenant's rows."""

    machines: int
    slots: int  # of each machine
    jobs: int
    tasks: int  # in firm, running and waiting
    near: int = 0  # preferred machines of each task

    @property
    def nodes(self) -> int:
        return HUBS + self.machines + self.jobs + self.tasks

    @property
    def arcs(self) -> int:
        return self.machines * (1 + self.slots) + self.jobs + self.tasks * (ARCS_OF_TASK + self.near)

    @property
    def fits(self) -> bool:
        """Return whether an arena holds it."""
        return self.nodes <= MAX_NODES and self.arcs <= MAX_ARCS

    def most_tasks(self) -> int:
        """Return the number of tasks that an arena holds beside the other rows."""
        rest = replace(self, tasks=0)
        return max(0, min(MAX_NODES - rest.nodes, (MAX_ARCS - rest.arcs) // (ARCS_OF_TASK + self.near)))

    def most_machines(self) -> int:
        rest = replace(self, machines=0)
        return max(0, min(MAX_NODES - rest.nodes, (MAX_ARCS - rest.arcs) // (1 + self.slots)))

    def most_slots(self) -> int:
        """Return the most slots of each machine; 0 if even one is too many."""
        rest = replace(self, slots=0)
        if rest.nodes > MAX_NODES or self.machines == 0:
            return 0
        return max(0, min(MAX_SLOTS, (MAX_ARCS - rest.arcs) // self.machines))

    def limits(self, tenant: str, recipe: Recipe) -> Limits:
        """Return the record of a roster with room for exactly these rows."""
        return Limits(tenant, self.nodes, self.arcs, MAX_LIFE, recipe.spread, recipe.churn, recipe.remote)

    def __str__(self) -> str:
        rows = [f"{counted(self.machines, 'machine')} of {counted(self.slots, 'slot')}", counted(self.jobs, "job")]
        tasks = counted(self.tasks, "task") + (f" with {self.near} preferred machines each" if self.near else "")
        return f"{', '.join(rows)} and {tasks}"


def counted(count: int, what: str) -> str:
    return f"{count:,} {what}{'' if count == 1 else 's'}"


def roster_of(limits: Limits) -> str:
    row = limits.row()
    return f"{','.join(FULL_HEADING[: len(row.split(','))])}\n{row}\n"


def refusal(size: TenantSize) -> str:
    """Return the reason why no arena holds these rows, and the rows that one would hold."""
    text = f"{size} need {size.nodes:,} nodes and {size.arcs:,} arcs; an arena has {MAX_NODES:,} and {MAX_ARCS:,}"
    rooms = {"task": size.most_tasks(), "machine": size.most_machines(), "slot": size.most_slots()}
    fitting = [counted(most, what) + (" a machine" if what == "slot" else "") for what, most in rooms.items() if most]
    if fitting:
        text += f". With the other numbers as they are it has room for {', or '.join(fitting)}"
    return f"{text}. Several tenants, each with some of the machines, hold more; a queue keeps tasks in front of firm"
