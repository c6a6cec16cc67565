"""Puts the reasons for a task's place into words."""

from __future__ import annotations

from collections import defaultdict
from collections.abc import Iterator, Sequence
from itertools import islice

from ..common.tables import Row
from .trials import MAX_WEIGHT, PlacementChange
from .why import Choice, Reasons

MAX_NAMES, MAX_COSTS, MAX_CHANGES = 4, 4, 8  # in a line
DOES = {  # effects on the task: of a round now, of a past round
    "starts": ("start it on {}", "started it on {}"),
    "stays": ("leave it on {}", "left it on {}"),
    "moves": ("move it to {}", "moved it to {}"),
    "waits": ("leave it waiting", "left it waiting"),
    "stops": ("preempt it", "preempted it"),
}
EFFECTS = {  # effects on another task, in the same order
    "starts": ("run on {0.after}", "have run on {0.after}"),
    "moves": ("move from {0.before} to {0.after}", "have moved from {0.before} to {0.after}"),
    "stops": ("wait", "have waited"),
}


def sentences(found: Reasons, known: Row, past: int | None) -> Iterator[str]:
    """Yield the lines on a task with these facts, in a round now or in a past one of this number."""
    would, did = (words.format(found.machine) for words in DOES[found.change])
    yield f"round {past} cost {found.cost}, and {did}" if past else f"a round now would cost {found.cost}, and {would}"
    if found.machine is not None:
        yield "; ".join([f"it pays {found.pays} there", *claims(found.others)])
        return
    churn = found.pays - known["weight"] - known["waited"]
    parts = f"weight {known['weight']}, rounds {known['waited']}" + (f", churn {churn}" if churn else "")
    to_wait = f"to wait costs it {found.pays} ({parts})"
    machines = [choice for choice in found.others if choice.machine is not None]
    if machines:
        cheapest = [choice for choice in machines if choice.more == machines[0].more]
        yield f"{to_wait}; to run would cost {'; '.join(claims(cheapest))}"
        yield slots(found, past is not None)
        yield heavier(found, past is not None)
    else:
        yield f"{to_wait}; there is no machine"


def claims(others: Sequence[Choice]) -> Iterator[str]:
    """Yield the costs of other choices: machines, the cheapest first, then waiting."""
    alike = defaultdict[str, list[str]](list)
    for choice in others:
        if choice.machine is not None:
            alike[claim(choice)].append(choice.machine)
    for words, machines in islice(alike.items(), MAX_COSTS):
        yield words.format(f"on {listed(machines, MAX_NAMES)}")
    yield from (claim(choice).format("to wait") for choice in others if choice.machine is None)


def claim(choice: Choice) -> str:
    """Return the cost of another choice, with braces for its name, and at equal cost the reason against it."""
    if choice.more:
        return f"at least {choice.more} more {{}}"
    if choice.tie and "submitted earlier" in choice.tie:
        return f"as much {{}}, but {choice.tie}"
    return f"as much {{}}, {'though ranked later' if choice.ranks_after else 'but an earlier task decides'}"


def listed(names: Sequence[str], most: int) -> str:
    rest = len(names) - most
    return ", ".join(names[:most]) + (f" and {rest:,} more" if rest > 0 else "")


def slots(found: Reasons, is_past: bool) -> str:
    free = found.cheapest
    if free is None:
        return f"slots {found.slots:,}, none free"
    costs = {"crowding": free.crowding, "remote": free.remote, "churn": free.churn}
    parts = ", ".join(f"{name} {cost}" for name, cost in costs.items() if cost)
    return (
        f"slots {found.slots:,}, free {found.free:,}, but dearer than waiting:"
        f" the cheapest, on {free.machine}, {'cost' if is_past else 'costs'} {free.cost} ({parts})"
    )


def heavier(found: Reasons, is_past: bool) -> str:
    least, run = found.heavier, "have run" if is_past else "run"
    if found.untried:
        return f"no other weight was tried: {found.untried}"
    if least is None:
        return f"by no weight up to {MAX_WEIGHT:,} would it {run}"
    others = [effect(change, is_past) for change in least.changes]
    rest = f"; {listed(others, MAX_CHANGES)}" if others else ", and no other task would change"
    return f"from weight {least.weight} on it would {run} on {least.machine}{rest}"


def effect(change: PlacementChange, is_past: bool) -> str:
    return f"{change.task} would {EFFECTS[change.change][is_past].format(change)}"
