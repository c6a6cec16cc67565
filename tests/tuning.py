"""Check docs/TUNING.md against firm, and that the rosters of firmctl make-roster have the room that they promise.

usage: tools/run tests/tuning.py [--quick] [--program FILE] [--draws N] [--first SEED]
Each check prints a line; the last line is 'N passed, M failed', and the exit status is 1 if one failed. It needs Python
3 and the built program. --quick draws fewer numbers.
"""

from __future__ import annotations

import argparse
import json
import random
import re
import sys
from collections.abc import Callable, Iterator, Sequence
from dataclasses import dataclass, field, replace
from functools import partial

from harness import program
from harness.checks import Check, Suite, require, run_script, run_suites
from harness.deployed import SERVICE, roster, sizes
from harness.program import ROOT
from harness.sessions import Block, blocks_of

PAGE = ROOT / "docs" / "TUNING.md"
MAX_WORDS = 700
FIRMCTL = [sys.executable, str(SERVICE / "firmctl")]
ROUND = "round: "
HEAVY = 1_000_000  # a weight with which tasks take any slot
Size = sizes.TenantSize


@dataclass
class Tenant:
    """A tenant of firm, and its lines so far."""

    built: str
    spread: int
    churn: int
    remote: int = 0
    patience: int = roster.MAX_PATIENCE
    nodes: int = sizes.MAX_NODES
    lines: list[str] = field(default_factory=list)

    def say(self, *lines: str) -> None:
        self.lines += lines

    def replies(self, *more: str) -> list[str]:
        """Return the text after tenant and number, of all lines so far and of these."""
        room = roster.Limits("alpha", self.nodes, sizes.MAX_ARCS, 10**6, self.spread, self.churn)
        limits = replace(room, remote=self.remote, patience=self.patience)
        return replies_of(self.built, limits, [*self.lines, *more])

    def round_with(self, change: str, most: int) -> int:
        """Return the number of further rounds, from 1, until a change comes; 0 if it does not within this many."""
        told = self.replies(*["round"] * most)[len(self.lines) :]
        return next((number for number, reply in enumerate(told, 1) if f" {change}" in reply), 0)


def replies_of(built: str, limits: roster.Limits, lines: Sequence[str]) -> list[str]:
    text = "".join(f"{limits.tenant} {line}\n" for line in lines)
    with program.Roster(sizes.roster_of(limits).encode()) as path:
        done = program.run([built], path, text.encode())
    require(done.status == 0, done)
    return [reply.split(" ", 2)[2] for reply in done.output.decode().splitlines()]


# The page.


def examples() -> list[Block]:
    return [block for block in blocks_of(PAGE.read_text()) if block.kind == ""]


def play(built: str, example: Block) -> None:
    """Play an example of the page: costs and lines, and rounds with their changes."""
    first, *rest = example.text.splitlines()
    costs, _, lines = first.partition(": ")
    given = {name: int(value) for name, value in (cost.split() for cost in costs.split(", "))}
    tenant = Tenant(built, **given, lines=lines.split(", "))
    wanted = ["ok"] * len(tenant.lines)
    for line in rest:
        tenant.say(line.partition(":")[0])
        wanted.append(f"ok {line.replace(':', '', 1)}" if line.startswith(ROUND) else "ok")
    require(tenant.replies() == wanted, f"firm says {tenant.replies()}")


def page_is_short() -> None:
    count = len(PAGE.read_text().split())
    require(count <= MAX_WORDS, f"{count} words")


def rows_below(heading: str) -> Iterator[list[str]]:
    """Yield the cells of the page's table with this first column."""
    lines = PAGE.read_text().splitlines()
    first = next(place for place, line in enumerate(lines) if line.startswith(f"| {heading} |"))
    for line in lines[first + 2 :]:
        if not line.startswith("|"):
            return
        yield [cell.strip(" `") for cell in line.strip("|").split("|")]


def recipes_are_those_of_the_page(built: str) -> None:
    """The page's costs are make-roster's, and by them no task of the lightest weight waits beside a free slot."""
    told = {row[0]: row[1:5] for row in rows_below("Recipe")}
    require(list(told) == list(sizes.RECIPES), told)
    for name, recipe in sizes.RECIPES.items():
        *costs, weight = told[name]
        require([int(cost.replace(",", "")) for cost in costs] == [recipe.spread, recipe.churn, recipe.remote], name)
        for slots in (1, 8, 64):
            lightest = slots + 1 if weight == "slots + 1" else int(weight)
            require(lightest == recipe.least_weight(slots), f"{name}, {slots} slots: {recipe.least_weight(slots)}")
            uses_each_slot(built, recipe, slots, lightest)


def uses_each_slot(built: str, recipe: sizes.Recipe, slots: int, weight: int) -> None:
    """A task that prefers another machine takes the last slot; one that is lighter by 1 waits, if a weight can be."""
    for lighter in range(2 if weight > 1 else 1):
        tenant = Tenant(built, recipe.spread, recipe.churn, recipe.remote)
        tenant.say("machine full 1", f"machine m {slots}", f"job heavy {HEAVY}", f"job light {weight - lighter}")
        tenant.say("task heavy f full", *[f"task heavy t{number} m" for number in range(slots - 1)])
        tenant.say("task light last full")
        require(tenant.round_with("start last m", 2) == 1 + lighter, f"{recipe}, {slots} slots: {tenant.replies()}")


def sizes_are_those_of_the_page(built: str) -> None:
    """firm takes as many tasks as the page says, and then refuses one for lack of the resource that the page names."""
    limits = roster.Limits("alpha", sizes.MAX_NODES, sizes.MAX_ARCS, sizes.MAX_LIFE, 0, 0)
    for shape, count, bound in rows_below("Machines × slots"):
        machines, slots = [int(number.replace(",", "")) for number in shape.split(" × ")]
        size = Size(machines, slots, 10, int(count.replace(",", "")))
        require(size.fits and size.most_tasks() == size.tasks, f"{shape}: {size.most_tasks()}")
        told = outcome_of_one_more(built, limits, size, "task j0 more")
        require(told.endswith(f"arena-{bound}"), f"{shape}: {told}")


def free_but_dearer(built: str) -> None:
    """The page's 112 free slots: no task takes them, and without spread all are taken."""
    lines = [f"machine m{number} 8" for number in range(30)]
    for job, weight, count in (("web", 20, 128), ("batch", 5, 72), ("night", 1, 100)):
        lines += [f"job {job} {weight}", *[f"task {job} {job}-{number}" for number in range(count)]]
    told = Tenant(built, 2, 0, lines=lines).replies("round", "show")
    require("running 128 " in told[-1] and told[-2].count(" start web-") == 128, told[-2:])
    require(set(re.findall(r"start (\w+)-", told[-2])) == {"web"}, told[-2])
    require({count_on(told[-2], f"m{number}") for number in range(30)} == {4, 5}, told[-2])
    require("running 240 " in Tenant(built, 0, 0, lines=lines).replies("round", "show")[-1], "spread 0")
    require(240 - 128 == 112 and 300 - 128 == 172 and "112 of 240" in PAGE.read_text(), "the page")


def count_on(reply: str, machine: str) -> int:
    return reply.split().count(machine)


# Each inequality, with numbers on both sides of it.


def around(draw: random.Random, value: int) -> int:
    return max(0, value + draw.choice([-1, 0, 1]))


def first_wait(needed: int) -> int:
    """Return the round, from 1, at which a wait of this many rounds is reached."""
    return max(0, needed) + 1


def starts(built: str, draw: random.Random) -> None:
    """A task starts in its k-th slot if (k - 1) x spread <= weight + rounds waited."""
    slot, spread = draw.randint(1, 8), draw.randint(0, 6)
    weight = max(1, around(draw, (slot - 1) * spread - draw.randint(0, 3)))
    tenant = Tenant(built, spread, draw.randint(0, 9))
    tenant.say(f"machine m {slot}", f"job heavy {HEAVY}", f"job light {weight}")
    tenant.say(*[f"task heavy t{number}" for number in range(slot - 1)], "task light x")
    wanted = first_wait((slot - 1) * spread - weight)
    require(tenant.round_with("start x m", wanted + 1) == wanted, f"{tenant}: not in round {wanted}")


def moves(built: str, draw: random.Random) -> None:
    """A task moves to even the load if (tasks beside it - tasks there) x spread > churn."""
    beside, there, spread = draw.randint(0, 7), draw.randint(0, 5), draw.randint(0, 6)
    tenant = Tenant(built, spread, around(draw, (beside - there) * spread))
    tenant.say(f"machine n {there + 1}", f"job j {HEAVY}", *tasks("n", there + 1), "round")
    tenant.say(f"machine m {beside + 1}", *tasks("m", beside + 1), "round", "done n0")
    told = tenant.replies("round")[-1]
    require((" move " in told) == ((beside - there) * spread > tenant.churn), f"{tenant}: {told}")


def tasks(name: str, count: int) -> list[str]:
    return [f"task j {name}{number}" for number in range(count)]


def preempts(built: str, draw: random.Random) -> None:
    """A later task preempts another if weight + rounds waited > the other's weight + churn."""
    running, churn = draw.randint(1, 9), draw.randint(0, 6)
    weight = max(1, around(draw, running + churn - draw.randint(0, 3)))
    tenant = Tenant(built, draw.randint(0, 9), churn)
    tenant.say("machine m 1", f"job old {running}", f"job new {weight}", "task old y", "round", "task new x")
    wanted = first_wait(running + churn + 1 - weight)
    require(tenant.round_with("preempt y m", wanted + 1) == wanted, f"{tenant}: not in round {wanted}")


def preempts_first(built: str, draw: random.Random) -> None:
    """An earlier task, which has waited since, preempts at equal costs too."""
    weight, churn = draw.randint(1, 9), draw.randint(0, 6)
    running = weight + draw.randint(1, 4)
    tenant = Tenant(built, draw.randint(0, 9), churn)
    tenant.say("machine m 1", f"job old {weight}", f"job new {running}", "task old x", "task new y", "round")
    wanted = running + churn - weight  # it has waited as many rounds before
    require(tenant.round_with("preempt y m", wanted + 1) == wanted, f"{tenant}: not in round {wanted}")


def starts_elsewhere(built: str, draw: random.Random) -> None:
    """With preferences, a task starts elsewhere if (k - 1) x spread + remote <= weight + rounds waited."""
    slot, spread, remote = draw.randint(1, 8), draw.randint(0, 6), draw.randint(0, 20)
    weight = max(1, around(draw, (slot - 1) * spread + remote - draw.randint(0, 3)))
    tenant = Tenant(built, spread, draw.randint(0, 9), remote)
    tenant.say("machine full 1", f"machine m {slot}", f"job j {HEAVY}", f"job light {weight}", "task j f full")
    tenant.say(*[f"{task} m" for task in tasks("m", slot - 1)], "task light x full")
    wanted = first_wait((slot - 1) * spread + remote - weight)
    require(tenant.round_with("start x m", wanted + 1) == wanted, f"{tenant}: not in round {wanted}")


def never_elsewhere(built: str, draw: random.Random) -> None:
    """Remote above weight + patience keeps a task from other machines for good; otherwise it does for remote -
    weight rounds."""
    weight, patience, remote = draw.randint(1, 9), draw.randint(0, 6), draw.choice([9, 10, 1_000_000])
    if remote == 1_000_000:
        weight, patience = remote - weight, draw.choice([patience, roster.MAX_PATIENCE])
    tenant = Tenant(built, 0, 9, remote, patience)
    tenant.say("machine full 1", "machine m 1", f"job j {HEAVY}", f"job light {weight}", "task j f full")
    tenant.say("task light x full")
    wanted = first_wait(remote - weight) if remote <= weight + patience else 0
    require(tenant.round_with("start x m", 20) == wanted, f"{tenant}: not in round {wanted}")


def preempts_its_equal(built: str, draw: random.Random) -> None:
    """A later task of the same weight preempts after churn + 1 rounds, and never with patience <= churn."""
    weight, churn = draw.randint(1, 9), draw.randint(0, 6)
    tenant = Tenant(built, draw.randint(0, 9), churn, patience=around(draw, churn))
    tenant.say("machine m 1", f"job j {weight}", "task j y", "round", "task j x")
    wanted = first_wait(churn + 1) if tenant.patience > churn else 0
    require(tenant.round_with("preempt y m", churn + 5) == wanted, f"{tenant}: not in round {wanted}")


def waits_longest(built: str, draw: random.Random) -> None:
    """One of remote + max(63 x spread, heaviest weight + churn) + nodes rounds places it: the last one but 5, here."""
    churn, count = draw.randint(0, 9), draw.randint(2, 9)
    nodes = count + 4  # no room for any further row
    longest = 1 + churn + nodes
    tenant = Tenant(built, 0, churn, patience=longest, nodes=nodes)
    tenant.say("machine m 1", "job j 1", *tasks("t", count))
    wanted = longest - 5
    require(tenant.round_with(f"start t{count - 1} m", longest) == wanted, f"{tenant}: not in round {wanted}")


def waits_past_its_patience(built: str, draw: random.Random) -> None:
    """Rounds without a machine lift all waits to the patience, and then a heavier task is placed each time."""
    churn, weight, nodes = draw.randint(0, 3), draw.randint(2, 4), 7
    longest = weight + churn + nodes
    tenant = Tenant(built, 0, churn, patience=longest, nodes=nodes)
    tenant.say(f"job heavy {weight}", "job light 1", "task light x", "task heavy y")
    tenant.say(*[*["round"] * longest, "machine m 1", "round", "drain m"] * (longest + 2))
    told = " ".join(tenant.replies())
    require(told.count(" start y m") == longest + 2 and " start x m" not in told, f"{tenant}: {told}")


INEQUALITIES = {
    "a slot is used": starts,
    "a task moves": moves,
    "a task preempts another": preempts,
    "a task preempts a later one": preempts_first,
    "a task preempts its equal": preempts_its_equal,
    "a task starts elsewhere": starts_elsewhere,
    "a task never starts elsewhere": never_elsewhere,
    "a task waits longest": waits_longest,
    "a task waits past its patience": waits_past_its_patience,
}


def drawn(built: str, seeds: range, play_one: Callable[[str, random.Random], None]) -> None:
    for seed in seeds:
        play_one(built, random.Random(seed))


# Rosters.


def lines_of(size: Size) -> list[str]:
    """Return lines that add these rows."""
    near = "".join(f" m{number}" for number in range(size.near))
    lines = [f"machine m{number} {size.slots}" for number in range(size.machines)]
    lines += [f"job j{number} 1" for number in range(size.jobs)]
    return lines + [f"task j0 t{number}{near}" for number in range(size.tasks)]


def outcome_of_one_more(built: str, limits: roster.Limits, size: Size, line: str) -> str:
    """Return firm's reply to a line once it has taken all of these rows."""
    *taken, last = replies_of(built, limits, [*lines_of(size), line])
    require(set(taken) <= {"ok"}, f"{size}: {set(taken)}")
    return last


def has_just_the_room(built: str, seeds: range) -> None:
    """firm takes the rows that a roster of make-roster is for; they use up both nodes and arcs."""
    for seed in seeds:
        draw = random.Random(seed)
        size = Size(
            draw.randint(4, 60), draw.randint(1, 64), draw.randint(1, 9), draw.randint(0, 200), draw.randint(0, 4)
        )
        (limits,) = roster.read_roster(made(size, "--tenant", "t", "--recipe", draw.choice(list(sizes.RECIPES))))
        job = "job more 1"  # it needs a node and an arc
        require(outcome_of_one_more(built, limits, size, job) == "no 12 arena-nodes", size)
        limits = replace(limits, nodes=limits.nodes + 1)
        require(outcome_of_one_more(built, limits, size, job) == "no 13 arena-arcs", size)
        limits = replace(limits, arcs=limits.arcs + 1)
        require(outcome_of_one_more(built, limits, size, job) == "ok", size)


def made(size: Size, *words: str) -> bytes:
    done = make_roster(size, *words)
    require(done.status == 0 and not done.faults, done)
    return done.output


def make_roster(size: Size, *words: str) -> program.Run:
    options = {
        "machines": size.machines,
        "slots": size.slots,
        "jobs": size.jobs,
        "tasks": size.tasks,
        "near": size.near,
    }
    given = [word for name, number in options.items() for word in (f"--{name}", str(number))]
    return program.run_words([*FIRMCTL, "make-roster", *given, *words], b"")


def too_large_ones_are_refused() -> None:
    """A size that no arena holds is refused, with its numbers and with a size that fits, which is then accepted."""
    cases: list[tuple[Size, str, list[tuple[str, int]]]] = [
        (Size(1_000, 64, 1, 3_000), "4,003 nodes and 74,001 arcs", [("tasks", 178), ("machines", 869), ("slots", 55)]),
        (Size(100, 8, 10, 3_985), "4,097 nodes and 12,865 arcs", [("tasks", 3_984), ("machines", 99)]),
        (Size(4_000, 1, 10, 100, 4), "4,112 nodes and 8,710 arcs", [("tasks", 84), ("machines", 3_984)]),
        (Size(1, 1, 5_000, 1), "5,004 nodes and 5,005 arcs", []),
    ]
    for size, numbers, fitting in cases:
        done = make_roster(size)
        told = done.faults.decode()
        require(done.status == 1 and not done.output and numbers in told, done)
        require(("room for" in told) == bool(fitting), told)
        for name, most in fitting:
            require(f"{most:,} {name[:-1]}" in told, f"{most} {name}: {told}")
            made(replace(size, **{name: most}))
            require(make_roster(replace(size, **{name: most + 1})).status == 1, f"{size}: {most + 1} {name}")


def faulty_words_are_refused() -> None:
    words = {"machines": "10", "slots": "8", "tasks": "30"}
    for name, value in [
        ("slots", "65"),
        ("slots", "0"),
        ("tasks", "-1"),
        ("machines", "ten"),
        ("near", "5"),
        ("tenant", "Bio"),
        ("recipe", "fast"),
    ]:
        given = [word for option, number in {**words, name: value}.items() for word in (f"--{option}", number)]
        done = program.run_words([*FIRMCTL, "make-roster", *given], b"")
        require(done.status == 2 and name in done.faults.decode() and not done.output, done)
    answer = json.loads(made(Size(10, 8, 2, 30), "--json", "--recipe", "spread"))
    require((answer["nodes"], answer["arcs"], answer["least_weight"]) == (44, 182, 9), answer)


def checks(built: str, seeds: range) -> dict[str, Check]:
    fewer = seeds[: max(1, len(seeds) // 10)]
    return {
        **{f"TUNING, line {example.first_line}": partial(play, built, example) for example in examples()},
        "TUNING, recipes": partial(recipes_are_those_of_the_page, built),
        "TUNING, sizes": partial(sizes_are_those_of_the_page, built),
        "TUNING, free but dearer than waiting": partial(free_but_dearer, built),
        "TUNING, its length": page_is_short,
        **{
            f"{name}, {len(seeds)} draws": partial(drawn, built, seeds, inequality)
            for name, inequality in INEQUALITIES.items()
        },
        f"make-roster, just the room, {len(fewer)} sizes": partial(has_just_the_room, built, fewer),
        "make-roster, too large": too_large_ones_are_refused,
        "make-roster, faulty words": faulty_words_are_refused,
    }


def main() -> int:
    parser = argparse.ArgumentParser(description=(__doc__ or "").splitlines()[0])
    program.add_program(parser)
    parser.add_argument("--quick", action="store_true", help="the part that tests/quick runs")
    parser.add_argument("--draws", type=int, default=1_000)
    parser.add_argument("--first", type=int, default=1, help="first seed of the numbers")
    options = parser.parse_args()
    count = min(options.draws, 60) if options.quick else options.draws
    found = checks(options.program, range(options.first, options.first + count))
    return run_suites(Suite(found))


if __name__ == "__main__":
    run_script(main)
