"""Tables of the queue's pure rules: a task's state, the effect of an end, and the lines for firm."""

from __future__ import annotations

import asyncio
import os
import time
from collections.abc import Callable
from dataclasses import replace
from math import inf
from typing import Any

from harness.checks import require
from harness.deployed import Attempt, Book, Name, Spec, Submission, Task, array_limits, backlog, books, estimates
from harness.deployed import fair_order, output, roster, rows, shares, states

Facts, End, Past, Needed = states.Facts, states.End, states.Past, states.Needed
STATES: list[tuple[str, bool, dict[str, Any]]] = [  # the state, whether firm should have the task, and the facts
    ("queued", True, {}),
    ("held", False, {"is_held": True}),
    ("held", False, {"is_held": True, "is_blocked": True}),
    ("held", False, {"is_held": True, "is_in_firm": True, "machine": "m1"}),
    ("blocked", False, {"is_blocked": True}),
    ("waiting", True, {"is_in_firm": True}),
    ("starting", True, {"is_in_firm": True, "machine": "m1"}),
    ("starting", True, {"is_in_firm": True, "machine": "m1", "attempt_machine": "m1"}),
    ("running", True, {"is_in_firm": True, "machine": "m1", "attempt_machine": "m1", "has_begun": True}),
    ("ending", True, {"is_in_firm": True, "machine": "m2", "attempt_machine": "m1", "has_begun": True}),
    ("ending", True, {"is_in_firm": True, "attempt_machine": "m1", "has_begun": True}),
    ("ending", True, {"attempt_machine": "m1"}),
    ("running", False, {"attempt_machine": "m1", "has_begun": True, "is_kept": True}),
    ("ending", False, {"attempt_machine": "m1", "has_begun": True, "is_kept": True, "is_cancelled": True}),
    ("ending", False, {"is_in_firm": True, "machine": "m1", "attempt_machine": "m1", "is_cancelled": True}),
    *[(state, False, {"outcome": state, "is_in_firm": True}) for state in sorted(states.ENDED)],
]
CHANGES: list[tuple[str, str | None, dict[str, Any]]] = [  # the change, the reason why it has no effect, and the facts
    ("cancel", None, {}),
    ("cancel", None, {"is_held": True}),
    ("cancel", None, {"attempt_machine": "m1"}),
    ("cancel", "is being cancelled", {"attempt_machine": "m1", "is_cancelled": True}),
    ("cancel", "has ended: done", {"outcome": "done"}),
    ("hold", None, {}),
    ("hold", None, {"is_blocked": True}),
    ("hold", None, {"is_in_firm": True, "machine": "m1"}),
    ("hold", "is held", {"is_held": True}),
    ("hold", "runs on m1", {"attempt_machine": "m1"}),
    ("hold", "has ended: lost", {"outcome": "lost"}),
    ("release", None, {"is_held": True}),
    ("release", "is not held", {}),
    ("release", "has ended: done", {"outcome": "done", "is_held": True}),
]
OK, ANY = True, False
NEEDS: list[tuple[str, list[tuple[bool, int, int]]]] = [
    ("ready", []),
    ("ready", [(OK, 0, 0), (ANY, 0, 3)]),
    ("blocked", [(OK, 1, 0)]),
    ("blocked", [(ANY, 2, 5), (OK, 0, 0)]),
    ("unmet", [(OK, 4, 1)]),
    ("unmet", [(ANY, 3, 0), (OK, 0, 1)]),
]
# The end of an attempt, the facts before it (retries, failures, lost, whether the task is cancelled), and its effect:
# outcomes of the attempt and of the task, failures, lost, pause.
ENDS: list[tuple[Any, tuple[int, int, int, bool], tuple[str, str | None, int, int, float]]] = [
    (End("ended"), (0, 0, 2, False), ("done", "done", 0, 0, 0)),
    (End("ended", 1), (0, 0, 0, False), ("failed", "failed", 1, 0, 0)),
    (End("ended", 1), (2, 0, 0, False), ("failed", None, 1, 0, 1)),
    (End("ended", 1), (2, 1, 3, False), ("failed", None, 2, 0, 2)),
    (End("ended", 1), (100, 40, 0, False), ("failed", None, 41, 0, 60)),
    (End("ended", 1), (2, 2, 0, False), ("failed", "failed", 3, 0, 0)),
    (End("ended", 0, fault="no such folder: /x"), (0, 0, 0, False), ("failed", "failed", 1, 0, 0)),
    (End("ended", 143, True, "timeout"), (5, 0, 0, False), ("timeout", "timeout", 0, 0, 0)),
    (End("ended", 137, True, "memory"), (0, 0, 0, False), ("failed", "failed", 1, 0, 0)),
    (End("ended", 137, False, "memory"), (1, 0, 0, False), ("failed", None, 1, 0, 1)),
    (End("ended", 0, True, "preempted"), (0, 0, 0, False), ("preempted", None, 0, 0, 0)),
    (End("ended", 143, True, "lease"), (0, 0, 0, False), ("lease", None, 0, 0, 0)),
    (End("ended", 143, True, "a word of tomorrow"), (0, 1, 0, False), ("removed", None, 1, 0, 0)),
    (End("ended", 143, True, "removed"), (3, 0, 0, True), ("cancelled", "cancelled", 0, 0, 0)),
    (End("ended", 0), (3, 0, 0, True), ("cancelled", "cancelled", 0, 0, 0)),
    (End("lost"), (0, 0, 0, False), ("lost", None, 0, 1, 1)),
    (End("lost"), (0, 0, 3, False), ("lost", None, 0, 4, 8)),
    (End("lost"), (0, 1, 4, False), ("lost", "lost", 1, 5, 0)),
    (End("lost"), (0, 0, 0, True), ("cancelled", "cancelled", 0, 0, 0)),
    (End("void"), (0, 1, 2, False), ("void", None, 1, 2, 0)),
    (End("void"), (0, 0, 0, True), ("void", "cancelled", 0, 0, 0)),
]


def table_of_states() -> None:
    """A task's state, and whether firm should have the task."""
    for state, is_wanted, given in STATES:
        facts = Facts(**given)
        found = states.state_of(facts), states.is_wanted(facts)
        require(found == (state, is_wanted), f"{given}: {found}")


def table_of_changes() -> None:
    """The changes that a user may make in each state."""
    for change, why, given in CHANGES:
        found = states.refusal(states.UserAction(change), Facts(**given))
        require(found == why, f"{change} {given}: {found}")


def table_of_needs() -> None:
    """The state of a dependent task by the outcomes of the others."""
    for judgement, needs in NEEDS:
        found = states.judge(Needed(*need) for need in needs)
        require(found == judgement, f"{needs}: {found}")


def table_of_ends() -> None:
    """The effect of an attempt's end."""
    for end, past, expected in ENDS:
        verdict = states.after(end, Past(*past))
        found = (verdict.attempt, verdict.task, verdict.failures, verdict.lost, verdict.pause)
        require(found == expected, f"{end} {past}: {verdict}")


def table_of_names() -> None:
    """Names of tasks as people and firm have them."""
    good = {"1": (1, -1, "1"), "12_0": (12, 0, "12-0"), "99999999_9999999": (99_999_999, 9_999_999, "99999999-9999999")}
    for text, (number, index, in_firm) in good.items():
        name = Name(number, index)
        require(Name.read(text) == name and str(name) == text and name.firm == in_firm, text)
        require(Name.of_firm(in_firm) == name and len(in_firm) <= 16, text)
        for letters in ("", "a", "zz"):
            further = name.in_firm(letters)
            require(Name.of_firm(further) == name and name.letters_in(further) == letters, further)
    for text in ("", "0", "01", "1_", "_1", "1_01", "1-1", "x", "1_1_1", "123456789", "1_12345678", " 1", "1\n"):
        require(Name.read(text) is None, text)


def book_of(nodes: int, arcs: int) -> Book:
    return Book(roster.Limits("alpha", nodes, arcs, 10**9, 0, 0))


USERS = {"ann": 1, "bob": 2, "eve": 3}


class Plans:
    """A book, and tasks to submit to firm."""

    def __init__(self, nodes: int = 4096, arcs: int = 65_536, **shares: float) -> None:
        self.book = book_of(nodes, arcs)
        self.backlog = fair_order.Backlog({USERS[name]: share for name, share in shares.items()})
        self.tasks: dict[Name, Task] = {}

    def want(self, number: int, job: str, weight: int, count: int = 1, near: tuple[str, ...] = ()) -> None:
        """Add tasks to submit, of the user whose name begins the job's, or of root."""
        spec = Spec(("x",), "/", near=near)
        submission = Submission(number, USERS.get(job[:3], 0), job, weight, spec, 1, count, 0.0)
        submission.add_tasks(False)
        for task in submission.tasks.values():
            self.tasks[task.name] = task
            task.since = self.book.rounds
            self.backlog.put(task)

    def has(self, name: str, job: str, machine: str | None = None) -> None:
        self.book.tasks[name] = books.FirmTask(job, 1, (), self.book.rounds, None, machine)

    def given(self, **wishes: Any) -> list[str]:
        """Return the submitted tasks, which wait in firm from then on; none leaves firm."""
        lines = self.lines(**wishes)
        self.obey(lines)
        require(not self.left, self.left)
        return [line.split()[2] for line in lines if line.startswith("task ")]

    def obey(self, lines: list[str]) -> None:
        self.left = [line for line in lines if line.startswith("done ")]
        for verb, job, *names in map(str.split, lines):
            if verb == "task":
                self.has(names[0], job)
                self.book.jobs[job] = self.tasks[Name.of_firm(names[0]) or Name(0)].submission.weight
                self.note(names[0])
            elif verb == "done":
                self.end(job)
                self.backlog.put(self.tasks[Name.of_firm(job) or Name(0)])

    def note(self, name: str, is_there: bool = True) -> None:
        self.backlog.claims.note(self.tasks[Name.of_firm(name) or Name(0)], is_there)

    def place(self, *names: str) -> None:
        """Place these tasks, as a round does."""
        for name in names:
            self.book.tasks[name].machine = "m1"
        self.book.rounds += 1

    def end(self, *names: str) -> None:
        for name in names:
            del self.book.tasks[name]
            self.note(name, False)

    def lines(self, **wishes: Any) -> list[str]:
        return [str(line) for line in backlog.plan(self.book, backlog.Wishes(**wishes), self.backlog, self.tasks.get)]


def owners_of_outputs() -> None:
    """If an agent is neither root's nor the queue's own, the queue shows only files of that agent's user.

    The agent may name any file, and the queue may read more than the agent may. Root's agent runs each process as the
    task's user.
    """
    user, other = os.geteuid() + 1, os.geteuid() + 2
    submission = Submission(1, user, "web", 10, Spec(("x",), "/"), None, None, 0.0)
    submission.add_tasks(False)
    (task,) = submission.tasks.values()
    for runs_as, owners in ((user, {user}), (os.geteuid(), {user, os.geteuid()}), (other, {other})):
        attempt = Attempt(task.name, 1, "a1", "x", "m1", 1, "aaaaaaaa", 0.0, output="/x", runs_as=runs_as)
        found = output.output_of(task, attempt).owners
        require(found == owners, f"processes of {runs_as}: {found}")


def plans_in_order() -> None:
    """Heavy jobs go first, then old submissions; a job comes before its first task."""
    plans = Plans()
    plans.book.machines["m1"] = 4
    plans.want(1, "light", 1, 2)
    plans.want(2, "heavy", 9, 1, ("m1", "m7"))
    expected = ["job heavy 9", "task heavy 2-1 m1", "job light 1", "task light 1-1", "task light 1-2"]
    require((found := plans.lines()) == expected, found)
    require(plans.lines() == [] and len(plans.backlog) == 0, "given twice")


def plans_in_age() -> None:
    """A waiting task gains weight here as it would in firm. In a stream of heavier tasks, those that arrive too late
    go after it, and it takes the place of one that waits in firm."""
    plans = Plans()
    plans.want(1, "light", 10)
    plans.book.rounds = 5
    plans.want(2, "heavy", 14)
    plans.want(3, "later", 15)
    plans.want(4, "heaviest", 16)
    given = [line.split()[2] for line in plans.lines() if line.startswith("task")]
    require(given == ["4-1", "1-1", "3-1", "2-1"], given)
    plans = Plans()
    plans.want(1, "light", 10)
    plans.book.rounds, plans.book.jobs["heavy"] = 3, 12
    plans.want(2, "heavy", 12)
    plans.backlog.drop(plans.tasks[Name(2, 1)])
    plans.has("2-1", "heavy")
    plans.book.tasks["2-1"].waits_from = 3
    require((found := plans.lines(most=1)) == ["done 2-1", "job light 10", "task light 1-1"], found)


def plans_in_room() -> None:
    """The queue submits no more than there is room for, and reserves a part for machines."""
    plans = Plans(nodes=32, arcs=64)
    plans.book.machines["m1"] = 16
    plans.want(1, "j", 1, 100)
    found = plans.lines()
    require(len(found) == 1 + 14, found)  # arcs: 64 - 4 in reserve - 17 of the machine - 1 of the job, three for each
    plans = Plans(nodes=32, arcs=1_000)
    plans.book.machines["m1"] = 64
    plans.want(1, "j", 1, 100)
    require(len(found := plans.lines()) == 1 + 26, found)  # nodes: 32 - 2 - 2 in reserve - those of machine and job
    plans = Plans()
    plans.book.machines["m1"] = 64
    plans.want(1, "j", 1, 100)
    require(len(found := plans.lines(most=7)) == 1 + 7, found)
    for name in range(7):
        plans.has(f"1-{name + 1}", "j")
    plans.book.jobs["j"] = 1
    require(plans.lines(most=7) == [] and plans.lines(most=8) == ["task j 1-8"], "at most so many")


def plans_of_heavier() -> None:
    """If firm is full, lighter tasks that wait there make room, the youngest of the lightest first. A task stays if
    it has a place or a process, has waited long, or belongs to another user."""
    plans = Plans()
    plans.book.jobs |= {"light": 2, "middle": 5}
    plans.book.rounds = 4
    plans.want(1, "light", 2, 6)
    plans.want(2, "middle", 5, 2)
    plans.backlog = fair_order.Backlog()
    for name, machine in {"1-1": "m1", "1-2": None, "1-3": None, "1-4": None, "1-5": None, "2-1": None}.items():
        plans.has(name, "light" if name.startswith("1") else "middle", machine)
        plans.book.tasks[name].line, plans.book.tasks[name].waits_from = len(plans.book.tasks), 4
    plans.has("9-9", "light")
    plans.book.tasks["1-5"].waits_from = 0  # it is as heavy as 6
    begun = plans.tasks[Name(1, 4)]
    begun.attempt = Attempt(begun.name, 1, "a1", "x", "m1", 1, "t", 0.0)
    plans.want(3, "heavy", 6, 4)
    plans.backlog.put(plans.tasks[Name(2, 2)])
    expected = ["done 1-3", "done 1-2", "done 2-1", "job heavy 6", "task heavy 3-1", "task heavy 3-2", "task heavy 3-3"]
    require((found := plans.lines(most=7)) == expected, found)
    require(len(plans.backlog) == 2, "what has no room waits on")
    plans.backlog.put(plans.tasks[Name(3, 1)])
    require((found := plans.lines(most=0)) == [], f"while firm is found full: {found}")
    plans = Plans(nodes=32, arcs=64)
    plans.book.machines["m0"] = 16
    plans.want(1, "light", 1, 100)
    given = [line.split() for line in plans.lines()]
    plans.book.jobs["light"] = 1
    for words in given[1:]:
        plans.has(words[2], "light")
    plans.want(2, "heavy", 3, 1, ("m1",))
    plans.book.machines["m1"] = 1
    found = plans.lines()
    require(found[-2:] == ["job heavy 3", "task heavy 2-1 m1"], found)
    require({line.split()[0] for line in found[:-2]} == {"done"} and len(found) < 6, found)


def plans_in_turn() -> None:
    """Few tasks wait in firm beside those for free slots. A newcomer's tasks come first there, until users have as
    many tasks in firm as their shares say; each user's tasks keep their order."""
    plans = Plans(bob=2)
    plans.book.machines["m1"] = 40
    plans.want(1, "ann", 10, 400)
    found = plans.given()
    require(found == [f"1-{index}" for index in range(1, 46)], found)  # an eighth of the slots, beside each
    plans.place(*found[:40])
    require(plans.lines() == [], "no further one before a slot is free")
    plans.want(2, "bob", 10, 200)
    plans.want(3, "bob-more", 11, 1)
    plans.end("1-1", "1-2", "1-3")
    found = plans.lines()
    left = [f"done 1-{index}" for index in range(41, 46)]
    require(found == [*left, "job bob-more 11", "task bob-more 3-1"], found)
    plans.obey(found)
    require((found := plans.given()) == [f"2-{index}" for index in range(1, 8)], found)
    plans.place("3-1", "2-1", "2-2")
    for _ in range(60):
        ended = next(name for name, row in plans.book.tasks.items() if row.machine and row.job == "ann")
        waiting = next(name for name, row in plans.book.tasks.items() if row.machine is None)
        plans.end(ended)
        plans.given()
        plans.place(waiting)
    users = [row.job[:3] for row in plans.book.tasks.values()]
    require((users.count("ann"), users.count("bob")) == (15, 30), users)
    plans.want(4, "eve", 10)
    found = plans.lines()
    require(len(found) == 7 and found[5:] == ["job eve 10", "task eve 4-1"], f"the others leave: {found}")
    plans.obey(found)
    left = [line.split()[1] for line in plans.left]
    require(len(found := plans.given()) == 4 and set(found) < set(left), f"they come back: {found}")


def plans_of_newcomers() -> None:
    """Rows leave once for all newcomers that arrive together, and rows of users without a slot stay. No share is too
    small for a turn, or too large beside such a share."""
    plans = Plans()
    plans.book.machines["m1"] = 40
    plans.want(1, "ann", 10, 400)
    plans.place(*plans.given()[:40])
    plans.want(2, "bob", 1, 3)
    plans.want(3, "eve", 10, 2)
    found = plans.lines()
    left = [f"done 1-{index}" for index in range(41, 46)]
    require(found == [*left, "job eve 10", "task eve 3-1", "job bob 1", "task bob 2-1"], found)
    plans.obey(found)
    plans.given()
    plans.place("3-1")
    plans.want(4, "root", 10, 1)
    plans.end("1-1", "1-2")
    plans.obey(found := plans.lines())
    require("task root 4-1" in found and not any(line.startswith("done 2-") for line in found), found)
    for plans in (Plans(bob=0.02), Plans(ann=100)):
        plans.book.machines["m1"] = 40
        plans.want(1, "ann", 10, 400)
        plans.place(*plans.given()[:40])
        plans.want(2, "bob", 10)
        plans.place("1-41")
        plans.end("1-1")
        require((found := plans.given()) == ["2-1"], found)


def plans_of_comers() -> None:
    """A user who submits and cancels repeatedly displaces other rows, two lines of the journal for each, only at
    intervals, which grow with the number of rows."""
    plans, now = Plans(), [1.0]
    plans.backlog.claims = fair_order.Claims(clock=lambda: now[0])
    plans.book.machines["m1"] = 40
    plans.want(1, "ann", 10, 400)
    plans.place(*plans.given()[:40])
    left = 0
    for number in range(2, 102):
        plans.want(number, "bob", 10)
        plans.obey(plans.lines())
        left += len(plans.left)
        name = f"{number}-1"
        if name in plans.book.tasks:
            plans.end(name)
        else:
            plans.backlog.drop(plans.tasks[Name(number, 1)])
        plans.given()
        now[0] += fair_order.AHEAD_SECONDS / 2
    require(left == 50, f"{left} rows have left in turn of 100 comers")


def plans_that_settle() -> None:
    """If firm is full, newcomers and heavier tasks do not take each other's places again and again."""
    for nodes in range(46, 56):
        for most in (None, 41, 45):
            plans = Plans(nodes=nodes, eve=0.1)
            plans.book.machines["m1"] = 40
            plans.want(1, "ann", 10, 400)
            plans.place(*plans.given(most=most)[:40])
            plans.book.rounds += 3
            for number, job in enumerate(("bob", "eve", "root"), 2):
                plans.want(number, job, number, 30)
            for _ in range(20):
                lines = plans.lines(most=most)
                require(len(set(lines)) == len(lines), lines)
                plans.obey(lines)
            require(not lines, f"{nodes} nodes, at most {most} tasks: {lines}")


def plans_of_few() -> None:
    """A task that a round left waiting beside free slots takes no place from others. Nor does a task whose weight
    exceeds a running one's by more than a preemption costs. A user's heavier task takes the place of a lighter one
    of that user alone."""
    plans = Plans()
    plans.book.machines["m1"] = 8
    plans.want(1, "ann", 10, 100)
    first = plans.given()
    require(len(first) == 12, first)
    plans.place()  # none
    require(plans.given() == [], "those that wait are counted")
    found = plans.given(left_free=True)
    require(len(found) == 0, f"no more than slots, and a few: {found}")
    plans.want(2, "bob", 5, 100)
    found = plans.given(left_free=True)
    require(len(found) == 12 and found[0] == "2-1", found)
    require(plans.given(left_free=True) == [], "these have had no round")
    plans = Plans()
    plans.book.machines["m1"] = 2
    plans.want(1, "ann", 10, 100)
    plans.place(*plans.given()[:2])
    plans.want(2, "bob", 20, 100)
    plans.backlog.claims.counts[USERS["bob"]] = 1  # no newcomer
    plans.book.limits = replace(plans.book.limits, churn=10)
    require(plans.given() == [], "it can preempt nothing")
    plans.book.limits = replace(plans.book.limits, churn=9)
    require(plans.given() == [], "as many wait as there are slots")
    for name in [name for name, row in plans.book.tasks.items() if row.machine is None][1:]:
        del plans.book.tasks[name]
    require((found := plans.given())[:1] == ["2-1"], found)
    plans = Plans()
    plans.book.machines["m1"] = 2
    plans.want(1, "ann", 5, 100)
    plans.place(*plans.given()[:2])
    plans.book.limits = replace(plans.book.limits, churn=1_000)
    plans.want(2, "bob", 20)
    plans.backlog.claims.counts[USERS["bob"]] = 1
    require(plans.lines() == [], "another's lighter ones stay")
    plans.want(3, "ann-more", 20)
    require((found := plans.lines()) == ["done 1-6", "job ann-more 20", "task ann-more 3-1"], found)


def plans_of_machines() -> None:
    """Machines come and go; to make room for one, waiting tasks are withdrawn, the last first."""
    plans = Plans(nodes=10, arcs=40)
    plans.book.machines |= {"m1": 2, "m2": 2}
    found = plans.lines(machines={"m1": 4, "m3": 1}, unwanted={"m2", "m9"})
    require(found == ["drain m2", "drain m1", "machine m1 4", "machine m3 1"], found)
    plans.book.jobs["j"] = 1
    for name in ("1", "2", "3", "4", "x"):
        plans.has(name, "j", "m1" if name == "4" else None)
    found = plans.lines(machines={"m1": 2, "m2": 2, "m3": 8})
    require(found == ["done 3"], found)


def plans_of_rows() -> None:
    """Tasks that firm should not have are withdrawn, and jobs without further use are closed."""
    plans = Plans()
    plans.book.jobs |= {"old": 1, "mine": 2, "other": 3}
    plans.has("7", "old")
    plans.has("8", "mine")
    found = plans.lines(rows=["7", "9"], idle_jobs=frozenset({"old", "mine"}))
    require(found == ["done 7", "close old"], found)
    plans = Plans()
    plans.book.jobs["j"] = 5
    plans.want(1, "j", 6)
    plans.want(2, "k", 1)
    require((found := plans.lines()) == ["job k 1", "task k 2-1"], found)
    require(len(plans.backlog) == 1, "what waits for another weight is lost")


def what_is_kept() -> None:
    """Ended tasks are dropped once they exceed a number of tasks or of bytes, the earliest end first; live ones
    stay."""
    kept = rows.LiveRows()
    for number in range(1, 6):
        one = Submission(number, 0, "j", 1, Spec(("x",), "/"), None, None, 0.0)
        one.add_tasks(False)
        one.measure("x" * 1_000)
        kept.add(one)
    require(kept.bytes_of_user == {0: kept.bytes} and kept.bytes > 5_000, kept.bytes)
    for number in (2, 1, 4, 5):
        task = kept.submissions[number].tasks[rows.SINGLE]
        task.outcome = "done"
        kept.ended(task)
    kept.forget(3, 10**9)
    require(sorted(kept.submissions) == [1, 3, 4, 5], kept.submissions)
    kept.forget(3, 2_500)
    require(sorted(kept.submissions) == [3, 4, 5], kept.submissions)
    require(kept.bytes < 2_500 and kept.live == 1, kept.bytes)


def starts() -> None:
    """Estimated starts: slots are taken as they get free, and an array with a limit waits for its own tasks too."""
    limited = Submission(1, 0, "j", 1, Spec(("x",), "/", at_once=2), 1, 4, 0.0)
    other = Submission(2, 0, "k", 1, Spec(("x",), "/", time=5.0), None, None, 0.0)
    for one in (limited, other):
        one.add_tasks(False)
    slots = estimates.Slots([(10.0, limited.tasks[1]), (30.0, None), (0.0, None), (0.0, None)])
    found = [slots.take(limited.tasks[index], 20.0) for index in (2, 3, 4)]
    require(found == [0.0, 10.0, 20.0], found)
    durations = estimates.Durations()
    require(durations.of(other.tasks[rows.SINGLE]) == 5.0, "its limit")
    require(durations.of(limited.tasks[1]) == inf, "neither a limit nor a task that is done")
    limited.tasks[1].outcome, limited.tasks[1].attempt = "done", Attempt(
        Name(1, 1), 1, "", "", "", 1, "", 0.0, seconds=7
    )
    durations.add(limited)
    require(durations.of(limited.tasks[2]) == 7.0, "as long as the one that is done")
    require(slots.take(other.tasks[rows.SINGLE], inf) == 20.0, "a slot that is not free again")
    require([slots.take(other.tasks[rows.SINGLE], inf) for _ in range(4)][-1] == inf, "no slot")


def starts_in_turn() -> None:
    """Users take estimated slots in turn: the next slot goes to the user with the fewest for the user's share."""
    waiting: list[Task] = []
    for number, user in enumerate((1, 1, 2, 2, 2), 1):
        one = Submission(number, user, "j", 1, Spec(("x",), "/"), None, None, 0.0)
        one.add_tasks(False)
        waiting += one.tasks.values()
    used = [(5.0, waiting[0]), (0.0, None), (0.0, None), (1.0, None)]
    slots = estimates.Slots(used)
    turns = estimates.SlotTurns(waiting[1:], used, fair_order.Claims({2: 2.0}))
    found = []
    while (task := turns.next(slots.former_user)) is not None:
        found.append((task.submission.number, slots.take(task, 10.0)))
    require(found == [(3, 0.0), (4, 0.0), (2, 1.0), (5, 5.0)], found)


def limits_of_arrays() -> None:
    """An array's tasks are admitted up to its limit, the lowest indexes first; others follow."""
    array = Submission(1, 0, "j", 1, Spec(("x",), "/", at_once=2), 1, 5, 0.0)
    array.add_tasks(False)
    limits = array_limits.ArrayLimits()

    def admitted() -> list[int]:
        return [task.index for task in limits.next()]

    require(not any(limits.admits(array.tasks[index]) for index in (5, 2, 4, 1, 3)), "all wait for `next`")
    require(admitted() == [1, 2] and limits.admits(array.tasks[2]) and not limits.admits(array.tasks[3]), "the first")
    require("at most 2 of" in array.tasks[3].told and not array.tasks[1].told, "why it waits")
    limits.leave(array.tasks[3])  # as it is held
    limits.leave(array.tasks[1])
    require(admitted() == [4] and not admitted(), "the next one that is not held")
    limits.admit(array.tasks[5])  # as if somebody else had submitted it to firm
    limits.leave(array.tasks[2])
    require(not limits.admits(array.tasks[3]) and not admitted(), "two are in firm")
    for index in (4, 5):
        limits.leave(array.tasks[index])
    require(admitted() == [3] and not admitted(), "the last one")


def rests() -> None:
    """A user rests after a turn with much processor time, not after a turn in which others had the processors."""
    waits, uses = asyncio.run(pauses(lambda: time.sleep(0.05))), asyncio.run(pauses(use_processor))
    require(waits < 0.1 <= uses, f"rests of {waits:.3f} s after waits, and of {uses:.3f} s after work")


def use_processor() -> None:
    ends = time.thread_time() + 0.05
    while time.thread_time() < ends:
        pass


async def pauses(work: Callable[[], None]) -> float:
    """Return the shortest time from the end of a user's turn with such work to the next one."""
    found, loop = [], asyncio.get_running_loop()
    all_shares, share = shares.Quotas(shares.BOUNDS, lambda: None), shares.ConnectionQuota(b"user", True)
    for _ in range(5):
        await all_shares.turn(share)
        work()
        began = loop.time()
        await all_shares.turn(share)
        found.append(loop.time() - began)
    return min(found)


CHECKS: dict[str, Callable[[], None]] = {
    "table of states": table_of_states,
    "table of changes": table_of_changes,
    "table of needs": table_of_needs,
    "table of ends": table_of_ends,
    "table of names": table_of_names,
    "what is kept": what_is_kept,
    "starts": starts,
    "starts in turn": starts_in_turn,
    "limits of arrays": limits_of_arrays,
    "rests": rests,
    "plans in order": plans_in_order,
    "plans in age": plans_in_age,
    "plans in room": plans_in_room,
    "plans of heavier": plans_of_heavier,
    "plans in turn": plans_in_turn,
    "plans of newcomers": plans_of_newcomers,
    "plans of comers": plans_of_comers,
    "owners of outputs": owners_of_outputs,
    "plans that settle": plans_that_settle,
    "plans of few": plans_of_few,
    "plans of machines": plans_of_machines,
    "plans of rows": plans_of_rows,
}
