"""Check firm_explain from outside, beside all placements of small books: its exact numbers and its ties.

usage: tools/run tests/explain_exact.py [--quick] [--program FILE] [--explain FILE] [WORD..]
Numbers that docs/EXPLAIN.md calls exact agree with the cheapest of all placements, in 300 random streams; the task that
a line names decides a tie, and an earlier one if a line says so, in 1,000. Each kind of tie has its words, and no other
reason passes. With words it runs only the checks whose names have one of them. Each check prints a line; the exit
status is 1 if one failed.
"""

from __future__ import annotations

import argparse
import random
import re
from collections import Counter
from functools import partial
from typing import Any, Iterator, Mapping, NamedTuple

from explain import (
    CHECKER,
    Choice,
    Options,
    Stream,
    Written,
    explained,
    has_change,
    has_roster,
    least_cost,
    least_placements,
    require_refused,
    small_stream,
    worked_stream,
)
from harness import program
from harness.checks import Check, Suite, require, run_script, run_suites

CHOICE = "(?:to wait|to stay|[a-z0-9-]+)"
TIED = "(at least )?as much(?:, (ranks after|an earlier task decides))?"
CLAIM = re.compile(rf"({CHOICE}(?:, {CHOICE})*) (?:at least (\d+) more|{TIED})")
TIE = re.compile(r"# if ([a-z0-9-]+) (?:on ([a-z0-9-]+)|waits): 0 more(?:: ([^;]+))?; (.+)")


class Claim(NamedTuple):
    """The additional cost of another choice of a task by an output, its proof, and the words for it."""

    task: str
    choice: Choice
    more: int
    shown_by: str
    words: re.Match[str]

    @property
    def is_exact(self) -> bool:
        """Return whether it is exact by docs/EXPLAIN.md, or by the words."""
        return self.shown_by != BOTH_TABLES or self.words[2] is self.words[3] is None

    @property
    def has_earlier(self) -> bool:
        """Return whether an earlier task decides, by the words."""
        return self.words[4] == "an earlier task decides"


OWN_RENTS, ITS_WAIT, BOTH_TABLES = (
    "choices by own rents",
    "choices of tasks that wait",
    "bounds",
)  # the last not exactly


def claims_of(found: Any) -> Iterator[Claim]:
    """Yield a round's claims on other choices."""
    has_own_rents = False
    for line in found.comments:
        if has_change(line):
            task = line.split(" ")[1]
            for words in (claim_in(text) for text in line.split("; ")[1:]):
                for other in words[1].split(", "):
                    choice = {"to wait": None, "to stay": found.tenant.tasks[task].home}.get(other, other)
                    shown_by = ITS_WAIT if None in (choice, found.to[task]) else BOTH_TABLES
                    yield Claim(task, choice, int(words[2] or 0), OWN_RENTS if has_own_rents else shown_by, words)
        has_own_rents = "'s rents: " in line


def claim_in(text: str) -> re.Match[str]:
    """Return the words of a claim: its choices, their additional cost, and the decider of a tie."""
    found = CLAIM.fullmatch(text)
    if found is None:
        raise AssertionError(f"no claim: {text}")
    return found


def claims_are_exact(found: Any) -> Iterator[str]:
    """Compare claims on other choices with the cheapest of all placements that have such a choice."""
    for claim in claims_of(found):
        cost = least_cost(found.tenant, found.tenant.slots, {claim.task: claim.choice})
        wanted = cost - int(found.reply[5])
        require(claim.more == wanted or claim.more < wanted and not claim.is_exact, f"{claim}: {wanted}")
        yield claim.shown_by


def ranks(found: Any, task: str) -> list[Choice]:
    """Return all choices of a task, in the order of docs/PLACEMENT.md."""
    home = found.tenant.tasks[task].home
    return [*([home] if home else []), *(machine for machine in found.tenant.slots if machine != home), None]


def decider_of(found: Any, other: Mapping[str, Choice]) -> str:
    """Return the first task on which another placement differs from a round's, which must come before it."""
    first: str = next(task for task in found.to if found.to[task] != other[task])
    own = ranks(found, first)
    require(own.index(found.to[first]) < own.index(other[first]), f"{first} decides against the round")
    return first


def ties_are_decided(found: Any) -> Iterator[str]:
    """Yield each tie of a round, once all placements of its cost show that the named task, or an earlier one,
    decides it."""
    least = list(least_placements(found.tenant, int(found.reply[5])))
    places = {task: place for place, task in enumerate(found.to)}
    for claim in claims_of(found):
        alike = [to for to in least if to[claim.task] == claim.choice]
        if claim.has_earlier:
            deciders = [decider_of(found, to) for to in alike]
            require(deciders and all(places[task] < places[claim.task] for task in deciders), f"{claim}: {deciders}")
            yield f"earlier, {'home' if claim.choice == found.tenant.tasks[claim.task].home else 'other'}"
    for task, machine, changes, reason in (tie.groups() for tie in map(TIE.fullmatch, found.comments) if tie):
        to = found.to | {task: machine} | {name: choice for name, choice in map(change_in, changes_in(changes))}
        require(to in least, f"{task}, {changes}: no placement of the same cost")
        first = decider_of(found, to)
        if first == task:
            wanted = f"{found.to[task]} ranks before {machine or 'waiting'}"
        else:
            wanted = f"{first}, submitted earlier, would {f'be on {to[first]}' if to[first] else 'wait'}"
        require(reason == wanted, f"{reason}; it should be {wanted}")
        yield "itself" if first == task else "by machine" if to[first] else "by wait"


def changes_in(text: str | None) -> list[str]:
    return text.split(", ") if text else []


def change_in(text: str) -> tuple[str, Choice]:
    """Return a task and its place, from `t2 on m1` or `t2 waits`."""
    task, *where = text.split(" ")
    return task, where[1] if where[0] == "on" else None


# Rows after `alpha`, with spread, churn and remote; options; and lines of the last round.
TIES: list[tuple[str, str, str, list[str]]] = [
    (
        "3 5 0",
        "machine m1 1, job j 5, task j a, task j b, round",
        "--why b",
        [
            "# b waits: 5; m1 as much, an earlier task decides",
            "# b waits: 5; m1 as much, an earlier task decides",
            "# if b on m1: 0 more: a waits; a, submitted earlier, would wait",
        ],
    ),
    (
        "3 5 0",
        "machine m1 2, machine m2 1, job j 9, task j a, task j b, task j c, round",
        "--why c",
        [
            "# c starts on m2: 0 + rent 3 to 9; to wait at least 6 more; m1 at least as much",
            "# c starts on m2: 0 + rent 3; m1 as much, an earlier task decides; to wait at least 6 more",
            "# if c on m1: 0 more: a on m2; a, submitted earlier, would be on m2",
        ],
    ),
    (
        "3 5 0",
        "machine m1 1, machine m2 1, job j 9, task j a, round",
        "--why a",
        [
            "# a starts on m1: 0 + rent 0 to 0; to wait at least 9 more; m2 at least as much, ranks after",
            "# if a on m2: 0 more; m1 ranks before m2",
        ],
    ),
    (
        "3 5 0",
        "machine m1 1, job j 5, task j a, task j b, round",
        "--why a",
        [
            "# a starts on m1: 0 + rent 5 to 5; to wait as much, ranks after",
            "# if a waits: 0 more: b on m1; m1 ranks before waiting",
        ],
    ),
    (
        "0 0 0",
        "machine m1 1, machine m2 1, job j 5, task j a, task j b, round, drain m1, round",
        "--why b",
        [
            "# b preempted from m2: 5; to stay as much, an earlier task decides",
            "# if b on m2: 0 more: a waits; a, submitted earlier, would wait",
        ],
    ),
    # Neither rents show that the other machine's task would have to move.
    (
        "1 1 0",
        "machine m1 1, machine m2 1, machine m3 1, job j 1, job k 2, task j x, task j a, task j b, round, done x, "
        "task k c, round",
        "--why c",
        [
            "# c starts on m1: 0 + rent 0 to 2; to wait at least 2 more; m2 at least as much, ranks after",
            "# c starts on m1: 0 + rent 0; m2, m3 at least 1 more; to wait at least 2 more",
        ],
    ),
    (
        "1 1 0",
        "machine m1 1, machine m2 1, machine m3 1, job j 1, job k 2, task j a, task j x, task j b, round, done x, "
        "task k c, round",
        "--why c",
        [
            "# c starts on m2: 0 + rent 0 to 2; to wait at least 2 more; m1 at least as much",
            "# c starts on m2: 0 + rent 0; m1, m3 at least 1 more; to wait at least 2 more",
        ],
    ),
    (
        "3 5 0",
        f"machine m1 1, job j 5, {', '.join(f'task j t{number}' for number in range(23))}, round",
        "",
        ["# t1 and 21 others wait: 5 each; a machine as much, earlier tasks decide"],
    ),
]


def tie_rounds(options: Options) -> None:
    """Each kind of tie has its words."""
    for costs, rows, words, wanted in TIES:
        spread, churn, remote = costs.split()
        roster = f"tenant,nodes,arcs,life,spread,churn,remote\nalpha,90,400,100,{spread},{churn},{remote}\n".encode()
        stream = Stream(roster, "".join(f"alpha {row}\n" for row in rows.split(", ")).encode())
        lines = explained(options, stream, *words.split()).decode().rpartition(" ok round ")[2].splitlines()
        for line in wanted:
            require(line in lines, f"{rows}, {words}: no line {line!r} in {lines}")


def ties_name_the_decider(options: Options, count: int) -> None:
    """In small books the tasks that the lines name decide the ties, beside all placements of a round's cost."""
    seen = Counter[str]()
    for seed in range(1, count + 1):
        stream, draw = small_stream(seed), random.Random(seed)
        if not has_roster(stream):
            continue
        output = explained(options, stream, "--all", "--why", draw.choice(["a", "b", "n1", "n2", "x-1"]))
        with Written(stream, output) as paths:
            for found in CHECKER.rounds_of(*paths):
                if len(found.tenant.slots) ** len(found.tenant.tasks) <= 5000:
                    try:
                        seen.update(ties_are_decided(found))
                    except Exception as error:
                        raise AssertionError(f"seed {seed}, {' '.join(found.reply[:2])}: {error}") from error
    print(", ".join(f"{number} {name}" for name, number in sorted(seen.items())), flush=True)
    wanted = ("earlier, home", "earlier, other", "itself", "by machine", "by wait")
    require(all(seen[name] > count / 100 for name in wanted), seen)


def slots_are_exact(found: Any) -> Iterator[str]:
    """Compare a round's rents with the value of one slot more or less of each machine, and of one more machine."""
    tenant, cost = found.tenant, int(found.reply[5])
    low, high = (found.rents(line) for line in found.comments[1:3])
    load = Counter(found.to.values())
    for machine, slots in tenant.slots.items():
        saved = cost - least_cost(tenant, {**tenant.slots, machine: slots + 1}, {})
        require(saved == max(0, low[machine] - tenant.slot_cost(slots)), f"a slot more of {machine} saves {saved}")
        yield "slots more"
        if load[machine] == slots:
            lost = least_cost(tenant, {**tenant.slots, machine: slots - 1}, {}) - cost
            require(lost == high[machine] - tenant.slot_cost(slots - 1), f"a slot less of {machine} costs {lost}")
            yield "slots less"
    saved = cost - least_cost(tenant, {**tenant.slots, "": 1}, {})
    said = next(line for line in found.comments if line.startswith("# one more machine of 1 slots would save at most "))
    require(int(said.split(" ")[11].removesuffix(":")) == saved, f"{said}: {saved}")
    yield "new machines"


def reasons_are_exact(options: Options, count: int) -> None:
    """The numbers that docs/EXPLAIN.md calls exact agree with the cheapest of all placements, in small books."""
    seen = Counter[str]()
    for seed in range(1, count + 1):
        stream = small_stream(seed)
        if not has_roster(stream):
            continue
        output = explained(options, stream, "--why", "n1", "--machine", "1", "--all")
        with Written(stream, output) as paths:
            for found in CHECKER.rounds_of(*paths):
                try:
                    seen.update([*claims_are_exact(found), *slots_are_exact(found)])
                except Exception as error:
                    raise AssertionError(f"seed {seed}, {' '.join(found.reply[:2])}: {error}") from error
    print(", ".join(f"{number} {name}" for name, number in sorted(seen.items())), flush=True)
    require(all(seen[name] > count for name in (OWN_RENTS, ITS_WAIT, "slots more", "slots less", "new machines")), seen)


WRONG_DECIDERS = [
    "",
    "; b1, submitted earlier, would wait",
    "; w1, submitted earlier, would wait",
    "; w1, submitted earlier, would be on m2",
    "; w1, submitted earlier, would be on m1",
    "; b2, submitted earlier, would be on m3",
    "; m1 ranks before m3",
    "; m3 ranks before m1",
    "; m3 ranks before waiting",
    "; waiting ranks before m3",
]


def wrong_deciders_are_refused(options: Options) -> None:
    """No line passes that names another task than the decider, or names one without a tie."""
    stream, ties = worked_stream(), set[str]()
    for words in (["--why", name] for name in ("w1", "b1", "b2")):
        output = explained(options, stream, *words)
        for line in re.finditer(rb"^# if .*: (\d+) more(?:: [^;\n]*)?(; .*)?$", output, re.MULTILINE):
            own = line[2].decode() if line[2] else ""
            require((line[1] == b"0") == (own != ""), line[0])
            ties |= {own} - {""}
            for reason in WRONG_DECIDERS:
                if reason != own:
                    other = output[: line.end() - len(own)] + reason.encode() + output[line.end() :]
                    require_refused(stream, other, f"{line[0]!r} with {reason}", *words)
    require(len(ties) > 2, ties)


def checks(options: Options) -> dict[str, Check]:
    """Return each check's name and function; it passes if nothing is raised."""
    quick = options.quick
    return {
        "exact numbers": partial(reasons_are_exact, options, 20 if quick else 300),
        "rounds with ties": partial(tie_rounds, options),
        "what decides ties": partial(ties_name_the_decider, options, 60 if quick else 1000),
        "wrong deciders": partial(wrong_deciders_are_refused, options),
    }


def main() -> int:
    parser = argparse.ArgumentParser(description=(__doc__ or "").splitlines()[0])
    parser.add_argument("words", nargs="*", metavar="WORD", help="run only checks whose names have one of these words")
    parser.add_argument("--quick", action="store_true", help="20 and 60 random streams in place of 300 and 1,000")
    program.add_program(parser)
    parser.add_argument("--explain", type=program.program_file, default=str(program.EXPLAIN), metavar="FILE")
    given = parser.parse_args()
    options = Options(given.quick, given.program, given.explain)
    chosen = {
        name: check for name, check in checks(options).items() if not given.words or any(w in name for w in given.words)
    }
    return run_suites(Suite(chosen))


if __name__ == "__main__":
    run_script(main)
