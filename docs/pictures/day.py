#!/usr/bin/env python3
"""Draws a tenant's day from its commands and replies: machines as lanes of slots, a column a round, its cost above.

usage: docs/pictures/day.py [TENANT COMMANDS REPLIES] > docs/pictures/day.svg      alpha's example day if none is named
"""

from __future__ import annotations

import itertools
import sys
from collections.abc import Iterator
from dataclasses import dataclass, field
from html import escape
from pathlib import Path

TOP = Path(__file__).resolve().parents[2]
NAMES = 66  # the width of the names at the left, in pixels as all lengths here
COLUMN, SLOT, GAP = 104, 26, 14
COST_HEIGHT, HEAD = 44, 22
COLOURS = ("#3b7dd8", "#e08a1e", "#3c9d5d", "#b0508e", "#7a6fd0", "#c2504a")
STYLE = """
text { font: 12px ui-sans-serif, system-ui, sans-serif; fill: #24292f }
.task { fill: #fff } .faint { fill: #6e7781 } .lane { fill: #8b949e; fill-opacity: .16 }
.cost { fill: #8b949e; fill-opacity: .55 } .waits { fill: none; stroke-width: 1.5; stroke-dasharray: 4 3 }
@media (prefers-color-scheme: dark) { text { fill: #d0d7de } .faint { fill: #8b949e } .task { fill: #fff } }
"""


@dataclass
class Round:
    """What stands once a round is solved."""

    cost: int
    slots: dict[str, int]  # of each machine
    places: dict[str, str | None]  # where each task runs; None: it waits


@dataclass
class Day:
    """A tenant's rounds, and the job of each task."""

    rounds: list[Round] = field(default_factory=list)
    jobs: dict[str, str] = field(default_factory=dict)

    @property
    def machines(self) -> list[str]:
        return list(dict.fromkeys(name for it in self.rounds for name in it.slots))

    def slots_of(self, machine: str) -> int:
        return max(it.slots.get(machine, 0) for it in self.rounds)


def changes(outcome: list[str]) -> dict[str, str | None]:
    """Where the tasks that a round starts, moves or preempts are behind it."""
    found: dict[str, str | None] = {}
    words = iter(outcome)
    for change in words:
        task, machine = next(words), next(words)
        found[task] = None if change == "preempt" else next(words) if change == "move" else machine
    return found


def read_day(tenant: str, commands: list[str], replies: list[str]) -> Day:
    """The rounds of a tenant; each line but comments and empty ones has its reply."""
    day = Day()
    slots: dict[str, int] = {}
    places: dict[str, str | None] = {}
    asked = [line.split() for line in commands if line.strip() and not line.startswith("#")]
    for words, reply in zip(asked, (line.split() for line in replies), strict=True):
        if reply[0] != tenant or reply[2] != "ok":
            continue
        verb, names = words[1], words[2:]
        if verb == "machine":
            slots[names[0]] = int(names[1])
        elif verb == "drain":
            del slots[names[0]]
            places = {task: None if place == names[0] else place for task, place in places.items()}
        elif verb == "task":
            day.jobs[names[1]], places[names[1]] = names[0], None
        elif verb == "done":
            del places[names[0]]
        elif verb == "round":
            places |= changes(reply[6:])
            day.rounds.append(Round(int(reply[5]), dict(slots), dict(places)))
    return day


@dataclass
class Run:
    """A task in one row of the picture, from a round to another."""

    task: str
    row: int
    first: int
    last: int
    waits: bool


def rows_of(day: Day, lanes: dict[str | None, range]) -> list[dict[str, int]]:
    """The row of each task behind each round. A task keeps its row while it stays; else it takes the first free one."""
    found: list[dict[str, int]] = [{}]
    for it in day.rounds:
        rows = {task: row for task, row in found[-1].items() if task in it.places and row in lanes[it.places[task]]}
        for task, place in it.places.items():
            if task not in rows:
                rows[task] = next(row for row in lanes[place] if row not in rows.values())
        found.append(rows)
    return found[1:]


def runs_of(day: Day, lanes: dict[str | None, range]) -> list[Run]:
    """What is drawn as one piece: a task, as long as it keeps its row."""
    runs: list[Run] = []
    last: dict[str, Run] = {}
    for number, rows in enumerate(rows_of(day, lanes)):
        for task, row in rows.items():
            run = last.get(task)
            if run is not None and run.row == row and run.last == number - 1:
                run.last = number
            else:
                last[task] = Run(task, row, number, number, row in lanes[None])
                runs.append(last[task])
    return runs


def column(number: int) -> int:
    return NAMES + number * COLUMN


@dataclass
class Plan:
    """Which rows each machine has, and the tasks that wait, and where each row stands."""

    lanes: dict[str | None, range]  # None: those that wait
    tops: list[int]
    height: int


def plan_of(day: Day) -> Plan:
    lanes: dict[str | None, range] = {}
    tops: list[int] = []
    height = HEAD + COST_HEIGHT + GAP
    most_waiting = max(sum(place is None for place in it.places.values()) for it in day.rounds)
    for name, size in [*((it, day.slots_of(it)) for it in day.machines), (None, most_waiting)]:
        lanes[name] = range(len(tops), len(tops) + size)
        tops += [height + row * SLOT for row in range(size)]
        height += size * SLOT + GAP
    return Plan(lanes, tops, height)


def draw_rounds(day: Day, plan: Plan) -> Iterator[str]:
    """Each round's cost as a bar, and the slots that its machines have."""
    most = max(it.cost for it in day.rounds) or 1
    foot = HEAD + COST_HEIGHT
    yield f'<text class="faint" x="0" y="{foot}">cost</text>'
    for number, it in enumerate(day.rounds):
        left, bar = column(number), round(it.cost / most * (COST_HEIGHT - 16))
        yield f'<text class="faint" x="{left}" y="12">round {number + 1}</text>'
        yield f'<rect class="cost" x="{left}" y="{foot - bar}" width="{COLUMN - 8}" height="{bar}" rx="2"/>'
        yield f'<text x="{left + 2}" y="{foot - bar - 4}">{it.cost}</text>'
        for name, slots in it.slots.items():
            top = plan.tops[plan.lanes[name].start]
            yield f'<rect class="lane" x="{left - 4}" y="{top - 3}" width="{COLUMN}" height="{slots * SLOT + 2}"/>'
    for lane, rows in plan.lanes.items():
        if rows:
            yield f'<text x="0" y="{plan.tops[rows.start] + 15}">{escape(lane or "waiting")}</text>'


def draw_tasks(day: Day, plan: Plan) -> Iterator[str]:
    """Each task as a bar in its job's colour, an outline alone while it waits."""
    colours = dict(zip(dict.fromkeys(day.jobs.values()), itertools.cycle(COLOURS)))
    for run in runs_of(day, plan.lanes):
        left, top, colour = column(run.first), plan.tops[run.row], colours[day.jobs[run.task]]
        look = f'class="waits" stroke="{colour}"' if run.waits else f'fill="{colour}"'
        width = column(run.last + 1) - left - 8
        yield f'<rect {look} x="{left}" y="{top}" width="{width}" height="{SLOT - 4}" rx="4"/>'
        kind = "" if run.waits else 'class="task" '
        yield f'<text {kind}x="{left + 8}" y="{top + 15}">{escape(run.task)}</text>'


def draw(tenant: str, day: Day) -> str:
    """The picture as SVG."""
    plan, width = plan_of(day), column(len(day.rounds)) + 8
    body = "\n".join([*draw_rounds(day, plan), *draw_tasks(day, plan)])
    size = f'viewBox="0 0 {width} {plan.height}" width="{width}" height="{plan.height}"'
    return f"""<svg xmlns="http://www.w3.org/2000/svg" {size} role="img"
 aria-label="Rounds of tenant {escape(tenant)}: where each task runs, and what each round costs">
<style>{STYLE}</style>
{body}
</svg>
"""


def main(arguments: list[str]) -> int:
    if len(arguments) not in (0, 3):
        print(__doc__, file=sys.stderr)
        return 2
    tenant, commands, replies = arguments or ("alpha", TOP / "examples/commands.txt", TOP / "examples/expected.txt")
    day = read_day(str(tenant), Path(commands).read_text().splitlines(), Path(replies).read_text().splitlines())
    sys.stdout.write(draw(str(tenant), day))
    return 0


if __name__ == "__main__":
    sys.exit(main(sys.argv[1:]))
