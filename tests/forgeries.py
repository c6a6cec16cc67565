"""Forge outputs of firm_explain: tests/certificates must refuse each false one.

usage: tools/run tests/forgeries.py [--quick] [--first SEED] [--explain FILE] [WORD..]
It makes thousands of forgeries from firm_explain's outputs for random small streams: lines altered, removed, repeated,
moved or taken from elsewhere; whole outputs for a stream that differs in a line, or for other options; and rounds with
other placements, rents, orders or witnesses, with all else rewritten to match. An output is true if firm_explain writes
it. Only orders and witnesses are its own choice: harness/small_books.py judges those by enumeration. Forgeries that
happen to be true are counted. With words it runs only the checks whose names have one of them. Each check prints a
line; the exit status is 1 if one failed. The long run takes some minutes.
"""

from __future__ import annotations

import argparse
import random
import re
from collections import Counter
from functools import cached_property, partial
from itertools import product
from typing import Any, Iterator, NamedTuple, Sequence

from explain import CHECKER, Stream, Written, judge, judge_alone, require_refused
from harness import program, service, small_books
from harness.alterations import ALTER, MEMORY, Output, blocks, is_round, text_of
from harness.checks import Check, Missed, Suite, require, run_script, run_suites
from harness.reasons import Asked, Market, reasons
from harness.service import REFUSALS
from harness.small_streams import Stream as Maker
from harness.small_streams import random_roster

Choice = str | None
Rents = dict[Choice, int]

MAX_PLACEMENTS = 1_300  # of a book that is enumerated
NAMES = {b"n1": b"waiting", b"n2": b"clear", b"n3": b"if", b"n4": b"waits", b"n5": b"low", b"n6": b"first"}
OPERATOR_MEMORY = "+ no 28 operator-memory"
GROWING = ([b"machine"], [b"job"], [b"task"], [b"round"])


class Case:
    """A stream, the options of firm_explain, and its output."""

    def __init__(self, explain: str, stream: Stream, words: Sequence[str]) -> None:
        self.explain, self.stream, self.words = explain, stream, list(words)
        self.lines = self.run(stream, words)

    def run(self, stream: Stream, words: Sequence[str]) -> Output:
        with program.opening(stream.roster) as opening:
            done = program.run_words([self.explain, *opening, *words], stream.text)
        require(done.status == 0, done)
        return done.output.decode().splitlines()

    @cached_property
    def rows(self) -> list[list[str]]:
        """Return the rows before each round."""
        lines = self.run(self.stream, ["--rows"])
        starts = [at + 1 for at, line in enumerate(lines) if is_round(line)]
        return [lines[at : next(end for end in range(at, len(lines)) if " rows " in lines[end])] for at in starts]

    @cached_property
    def rounds(self) -> list[Any]:
        """Return its rounds, as tests/certificates reads them."""
        with Written(self.stream, text_of(self.lines).encode()) as paths:
            return list(CHECKER.rounds_of(*paths))

    @cached_property
    def truths(self) -> dict[int, small_books.Round]:
        return {}

    def truth(self, number: int) -> small_books.Round | None:
        """Return the truth on the round of this number; None if it has too many placements."""
        if number not in self.truths and small_books.Book(self.rows[number]).size() <= MAX_PLACEMENTS:
            self.truths[number] = small_books.Round(self.rows[number])
        return self.truths.get(number)

    @cached_property
    def answered(self) -> list[int]:
        """Return the places of the input's lines that have a reply."""
        lines = self.stream.text.split(b"\n")
        return [at for at, line in enumerate(lines) if CHECKER.is_answered(line.removesuffix(b"\r"))]

    def with_line(self, answer: int, line: bytes) -> Stream:
        """Return the stream with another line in the place of the one that has this answer."""
        lines = self.stream.text.split(b"\n")
        lines[self.answered[answer]] = line
        return self.stream._replace(text=b"\n".join(lines))

    def up_to(self, number: int) -> Case:
        """Return the case cut after the round of this number."""
        places = [at for at, line in enumerate(replies_in(self.lines)) if is_round(line)]
        lines = self.stream.text.split(b"\n")[: self.answered[places[number]] + 1]
        return Case(self.explain, self.stream._replace(text=b"\n".join(lines) + b"\n"), self.words)


class Forgery(NamedTuple):
    kind: str
    case: Case  # the case of the claimed output
    text: str
    is_alone: bool = False  # judged by its rows

    def said(self) -> str:
        """Return the verdict of tests/certificates."""
        words = self.case.words
        if self.is_alone:
            return judge_alone(self.text.encode(), *words)
        return judge(self.case.stream, self.text.encode(), *words)

    def is_true(self) -> bool:
        """Return whether firm_explain may write this output."""
        if not self.is_alone:
            return is_true(self.case, self.text)
        answers: list[str] = list(filter(None, re.findall(r"(?m)^(?!#).*\n?(?:#.*\n?)*", self.text)))
        return "".join(answers) == self.text and all(self.is_true_alone(answer) for answer in answers)

    def is_true_alone(self, answer: str) -> bool:
        """Judge a reply and the comments after it; one that is no round's is true by its form."""
        lines = answer.removesuffix("\n").split("\n")
        if not is_round(lines[0]):
            return len(lines) == 1 and lines[0] != ""
        found = alone(self.case, lines)
        return found is not None and is_true(found, answer)


def alone(case: Case, lines: Output) -> Case | None:
    """Return a round by the rows after its reply, as those of a state; None if no state has them."""
    end = next((at for at, line in enumerate(lines) if line.startswith("# rows ")), 0)
    rows = [line.removeprefix("# ") for line in lines[1:end]]
    state = ["firm state 1", "place admissions 1", *rows, f"rows {len(rows) + 1}"]
    for heading in ("firm state 1", "firm state 1 extended"):
        opening = "".join(f"{row}\n" for row in [heading, *state[1:]]).encode()
        try:
            return Case(case.explain, Stream(opening, f"{lines[0].split(' ')[0]} round\n".encode()), case.words)
        except Missed:
            continue
    return None


def replies_in(lines: Output) -> Output:
    return [line for line in lines if not line.startswith("#")]


def is_true(case: Case, text: str) -> bool:
    """Return whether firm_explain may write an output."""
    lines = text.removesuffix("\n").split("\n")
    wanted = case.lines
    if not text.endswith("\n") or len(replies_in(lines)) != len(replies_in(wanted)):
        return False
    judged = case
    refused = [
        at
        for at, (line, true) in enumerate(zip(replies_in(lines), replies_in(wanted)))
        if line != true and (line.endswith(f" {MEMORY}") or line == OPERATOR_MEMORY)
    ]
    if refused:
        judged, wanted = without_memory(case, refused)
    if len(lines) != len(wanted):
        return False
    number = -1
    for line, true in zip(lines, wanted):
        number += is_round(true)
        if line != true and not may_be(judged, number, line, true):
            return False
    return True


def without_memory(case: Case, refused: Sequence[int]) -> tuple[Case, Output]:
    """Return the case with memory refused to the lines of these answers, and firm_explain's output then.

    Such a line only adds to its tenant's count, and would have been answered ok.
    """
    for answer in refused:
        command = case.stream.text.split(b"\n")[case.answered[answer]]
        tenant, *words = command.split()
        asks = words[:1] == [b"admit"] if tenant == b"+" else words[:1] in GROWING
        if not asks or " ok" not in replies_in(case.lines)[answer]:
            return case, []
        case = Case(case.explain, case.with_line(answer, b"+ no" if tenant == b"+" else tenant), case.words)
    wanted, at = list[str](), -1
    for line in case.lines:
        at += not line.startswith("#")
        if not line.startswith("#") and at in refused:
            start, number, *_ = line.split(" ")
            line = OPERATOR_MEMORY if start == "+" else f"{start} {number} {MEMORY}"
        wanted.append(line)
    return case, wanted


def may_be(case: Case, number: int, line: str, true: str) -> bool:
    """Return whether a line of firm_explain's choice is as true as its own: an order, or a placement of a cost."""
    truth = case.truth(number) if number >= 0 else None
    if truth is None:
        return False
    if true.startswith("# first: ") and line.startswith("# first: "):
        low = low_rents(case, number, truth.book)
        return truth.is_order(line.removeprefix("# first: "), low)
    if re.match(r"# if \S+ (on \S+|waits): \d+ more", true):
        return line.startswith(true[: true.index(" more") + 5]) and truth.is_witness(line)
    return False


def low_rents(case: Case, number: int, book: small_books.Book) -> Rents:
    """Return the lowest rents that firm_explain names for a round."""
    at = [at for at, line in enumerate(case.lines) if is_round(line)][number]
    line = next(line for line in case.lines[at:] if line.startswith("# low rents: "))
    return small_books.rents_in(line, book)


def altered(draw: random.Random, case: Case, other: Case, count: int) -> Iterator[Forgery]:
    for kind in draw.choices(list(ALTER), k=count):
        text = ALTER[kind](draw, case.lines, other.lines)
        if text is not None:
            yield Forgery(kind, case, text)


# Consistent lies: firm_explain's output for a stream or options that differ a little.


def lied(draw: random.Random, case: Case, count: int) -> Iterator[Forgery]:
    """Yield the output for another stream, whose reply to the changed line may be the true one or another."""
    for _ in range(count):
        answer = draw.randrange(len(case.answered))
        kind, stream = other_stream(draw, case, answer)
        if not has_opening(stream):
            continue
        lines = Case(case.explain, stream, case.words).lines
        if len(replies_in(lines)) != len(replies_in(case.lines)):
            continue
        yield Forgery(kind, case, text_of(lines))
        at = [at for at, line in enumerate(lines) if not line.startswith("#")][answer]
        start = " ".join(lines[at].split(" ")[:2])
        code = draw.randrange(len(REFUSALS))
        replies = [
            replies_in(case.lines)[answer],
            f"{start} no {code + 1} {REFUSALS[code]}",
            f"{start} {MEMORY}",
            f"{start} ok",
        ]
        if "+" in start:
            replies = [OPERATOR_MEMORY, "+ no 21 operator-command", replies[0]]
        for reply in replies:
            if reply != lines[at]:
                yield Forgery(f"{kind}, other reply", case, text_of([*lines[:at], reply, *lines[at + 1 :]]))


def other_stream(draw: random.Random, case: Case, answer: int) -> tuple[str, Stream]:
    """Return a stream with another line in the place of this answer's, or with another roster."""
    lines = case.stream.text.split(b"\n")
    at = case.answered[answer]
    words = lines[at].split()
    shape = draw.randrange(6)
    numbers = list(re.finditer(rb"(?<=,)\d+", case.stream.roster))
    if shape == 0 and numbers:
        found = draw.choice(numbers)
        number = max(0, int(found[0]) + draw.choice([-1, 1]))
        roster = case.stream.roster
        return "other roster", case.stream._replace(
            roster=roster[: found.start()] + b"%d" % number + roster[found.end() :]
        )
    if shape == 1 and words[-1].isdigit():
        number = max(1, int(words[-1]) + draw.choice([-1, 1]))
        return "other number in the input", case.with_line(answer, b" ".join([*words[:-1], b"%d" % number]))
    if shape == 2 and len(words) > 3:
        return "word removed from the input", case.with_line(answer, b" ".join(words[:-1]))
    if shape == 3 and answer + 1 < len(case.answered):
        other = case.answered[answer + 1]
        lines[at], lines[other] = lines[other], lines[at]
        return "lines of the input swapped", case.stream._replace(text=b"\n".join(lines))
    if shape == 4:
        return "other line in the input", case.with_line(answer, lines[draw.choice(case.answered)])
    first = words[0] if words else b"nobody"
    return "line without effect", case.with_line(answer, b"+ no" if first == b"+" else first)


def other_options(draw: random.Random, case: Case, count: int) -> Iterator[Forgery]:
    """Yield the output for other options of firm_explain."""
    for _ in range(count):
        words = random_words(draw, case.stream)
        if words != case.words:
            yield Forgery("other options", case, text_of(case.run(case.stream, words)))


# Rounds written anew, with another placement, other rents, other witnesses or another order.


class Anew:
    """The last round of a case, in which each choice of firm_explain can be replaced."""

    def __init__(self, draw: random.Random, case: Case) -> None:
        self.draw, self.case, self.found = draw, case, case.rounds[-1]
        truth = case.truth(len(case.rows) - 1)
        self.truth: small_books.Round = truth or small_books.Round(["# tenant a spread 0 churn 0 remote 0"])
        self.start = [at for at, line in enumerate(case.lines) if is_round(line)][-1]
        self.asked = asked_by(case.words)
        self.why = self.asked.why if self.asked.why in self.found.to else None
        self.book = self.truth.book
        self.tables = [rents_in(self.found, line) for line in self.found.comments[1:3]]
        self.has_task_again = False  # whether a line on another choice of the task may name it again

    def choices(self) -> tuple[Choice, ...]:
        return self.truth.choices

    def own_rents(self, name: str, choices: Sequence[Choice]) -> Rents:
        """Return the rents by which the numbers of a task are exact."""
        at = self.truth.names.index(name)
        task, has = self.book.tasks[at], choices[at]
        paid = self.book.own_cost(task, has)
        rent = 0 if has is None else self.book.own_cost(task, None) - paid - self.truth.more(name, None)
        return {
            other: rent + self.truth.more(name, other) - self.book.own_cost(task, other) + paid
            for other in [None, *self.book.slots]
        }

    def dearer(self, own: Rents) -> list[Rents]:
        """Return the rents of the task, each with one that is too high, by the additional cost of another placement."""
        at, found = self.truth.names.index(self.why or ""), []
        for machine in self.book.slots:
            costs = sorted({placed.cost for placed in self.truth.all if placed.choices[at] == machine})
            if machine != self.choices()[at] and costs[1:]:
                found.append(own | {machine: own[machine] + costs[1] - costs[0]})
        return found

    def pool(self) -> list[Rents]:
        """Return rents that show the placement: the lowest, the highest, those of tasks, and some between two of
        these."""
        found = [*self.tables, *(self.own_rents(name, self.choices()) for name in self.truth.names)]
        one, two = self.draw.choice(found), self.draw.choice(found)
        found += [{place: choose(one[place], two[place]) for place in one} for choose in (min, max)]
        return found

    def text(self, choices: Sequence[Choice], tables: Sequence[Rents], own: Rents | None, order: str) -> str:
        """Return the output with another last round."""
        to = dict(zip(self.truth.names, choices))
        cost = self.truth.all[self.truth.places[tuple(choices)]].cost
        reply = f"{' '.join(self.found.reply[:5])} {cost}{self.changes(to)}"
        found = self.found._replace(to=to, reply=reply.split(" "))
        market = Market(found, *tables)
        comments = [
            "",
            *(f"# {kind} rents: {market.rents_text(rents)}" for kind, rents in zip(("low", "high"), tables)),
        ]
        if self.why and own:
            comments.append(f"# {self.why}'s rents: {market.rents_text(own)}")
            comments += self.witnesses(Market(found, own), choices, cost)
        comments.append(f"# first: {order}")
        written = reasons(found._replace(comments=comments), self.asked)
        return text_of([*self.case.lines[: self.start], reply, *self.found.rows, *written])

    def changes(self, to: dict[str, Choice]) -> str:
        found = []
        for task in self.book.tasks:
            here, there = task.home, to[task.name]
            if here != there:
                found.append(f"preempt {task.name} {here}" if there is None else f"move {task.name} {here} {there}")
                if here is None:
                    found[-1] = f"start {task.name} {there}"
        return "".join(f" {change}" for change in found)

    def witnesses(self, market: Market, choices: Sequence[Choice], cost: int) -> Iterator[str]:
        """Yield a line on each other choice of the task: a placement that costs what its rents say, or else any."""
        at = self.truth.names.index(self.why or "")
        for other in [None, *self.book.slots]:
            if other != choices[at]:
                more = market.more(self.why or "", other)
                fit = [placed for placed in self.truth.all if self.has_task_again or placed.choices[at] == other]
                exact = [placed for placed in fit if placed.cost == cost + more]
                yield self.witness(choices, self.draw.choice(exact or fit).choices, more, other)

    def witness(self, choices: Sequence[Choice], other: Sequence[Choice], more: int, choice: Choice) -> str:
        """Return the line on a choice of the task with another placement; it names the task again if that has it
        elsewhere."""
        changed = [at for at, pair in enumerate(zip(choices, other)) if pair[0] != pair[1]]
        own = self.truth.names.index(self.why or "")
        named = changed if other[own] == choice else sorted({*changed, own})
        texts = [placed(self.truth.names[at], other[at]) for at in named if at != own or other[own] != choice]
        line = f"# if {placed(self.why or '', choice)}: {more} more{': ' if texts else ''}{', '.join(texts)}"
        if more or not changed:
            return line
        first = changed[0]
        if first == own:
            return f"{line}; {choices[first] or 'waiting'} ranks before {choice or 'waiting'}"
        return f"{line}; {self.truth.names[first]}, submitted earlier, would " + (
            f"be on {other[first]}" if other[first] else "wait"
        )

    def order(self) -> str:
        """Return any order."""
        places = ["waiting" if place is None else place for place in [*self.book.slots, None]]
        groups = [self.draw.randrange(len(places)) for _ in places]
        names = [[place for place, at in zip(places, groups) if at == group] for group in range(len(places))]
        found = " < ".join(" ".join(group) for group in names if group)
        return found if " < " in found else "clear"

    def orders(self, count: int) -> list[str]:
        return [self.found.comments[-1].removeprefix("# first: "), "clear", *(self.order() for _ in range(count))]


def rents_in(found: Any, line: str) -> Rents:
    return dict(found.rents(line))


def placed(name: str, choice: Choice) -> str:
    return f"{name} waits" if choice is None else f"{name} on {choice}"


def asked_by(words: Sequence[str]) -> Asked:
    named = {word: words[at + 1] for at, word in enumerate(words) if word in ("--tenant", "--why", "--machine")}
    machine = named.get("--machine")
    return Asked(
        named.get("--tenant"),
        named.get("--why"),
        int(machine) if machine else None,
        "--all" in words,
        "--rows" in words,
    )


def anew(draw: random.Random, whole: Case, count: int) -> Iterator[Forgery]:
    """Yield forgeries of rounds that are written anew."""
    numbers = [at for at, found in enumerate(whole.rounds) if found.comments and whole.truth(at)]
    for number in draw.sample(numbers, min(count, len(numbers))):
        case = whole.up_to(number)
        round_anew = Anew(draw, case)
        yield from (Forgery(kind, case, text) for kind, text in all_anew(round_anew))


def all_anew(made: Anew) -> Iterator[tuple[str, str]]:
    """Yield forgeries of one round: each time one choice is replaced, and all its consequences follow."""
    draw, choices, (low, high) = made.draw, made.choices(), made.tables
    own = made.own_rents(made.why, choices) if made.why else None
    orders = made.orders(3)
    yield "written anew", made.text(choices, [low, high], own, orders[0])
    for order in orders[1:]:
        yield "other order", made.text(choices, [low, high], own, order)
    for rents in draw.sample(made.pool(), 2):
        yield "other low rents", made.text(choices, [rents, high], own, draw.choice(orders))
        yield "other high rents", made.text(choices, [low, rents], own, orders[0])
        if made.why:
            yield "other rents of the task", made.text(choices, [low, high], rents, orders[0])
            made.has_task_again = True
            yield "task named again", made.text(choices, [low, high], rents, orders[0])
            made.has_task_again = False
    raised = {place: rent + draw.choice([0, 0, 1]) if place else 0 for place, rent in draw.choice([low, high]).items()}
    yield "false rents", made.text(choices, draw.choice([[raised, high], [low, raised]]), own, orders[0])
    if own:
        for rents in [raised, *made.dearer(own)]:
            yield "false rents of the task", made.text(choices, [low, high], rents, orders[0])
    equal = [other.choices for other in made.truth.all if other.cost == made.truth.cost and other.choices != choices]
    for later in draw.sample(equal, min(3, len(equal))):
        by = made.own_rents(made.why, later) if made.why else None
        for order in orders:
            yield "later placement", made.text(later, [low, high], by, order)
    dearer = [other.choices for other in made.truth.all if other.cost != made.truth.cost]
    for later in draw.sample(dearer, min(2, len(dearer))):
        yield "dearer placement", made.text(later, [low, high], own, orders[0])
    if made.why and own:
        yield from other_witnesses(made, text_of(made.case.lines))


def other_witnesses(made: Anew, text: str) -> Iterator[tuple[str, str]]:
    """Yield a line on another choice of the task with another placement: of any cost, or with the task named again."""
    for line in [line for line in made.found.comments if re.match(r"# if \S+ (on \S+|waits): \d+ more", line)]:
        found = re.match(r"# if \S+ (?:on (\S+)|waits): (\d+) more", line)
        at = made.truth.names.index(made.why or "")
        choice, more = (found[1], int(found[2])) if found else (None, 0)
        fit = [other for other in made.truth.all if other.choices[at] == choice]
        for other in made.draw.sample(fit, min(2, len(fit))):
            for number in {more, other.cost - made.truth.cost}:
                yield "other witness", text.replace(line, made.witness(made.choices(), other.choices, number, choice))
        again = made.draw.choice(made.truth.all)
        changed = [placed(name, there) for name, there in zip(made.truth.names, again.choices)]
        made.draw.shuffle(changed)
        start = line[: line.index(" more") + 5]
        reason = line.partition("; ")[2]
        for changes in (changed, [placed(made.why or "", again.choices[at])], changed[:1] * 2):
            yield "task named again", text.replace(
                line, f"{start}: {', '.join(changes)}" + (f"; {reason}" if reason else "")
            )
        yield "reason exchanged", text.replace(line, line.partition("; ")[0] + "; m ranks before n")
        yield "reason removed", text.replace(line, line.partition("; ")[0])


# The streams, and the counts.


def small_stream(draw: random.Random) -> Stream:
    """Return a stream of one to four tenants with up to four tasks and four machines each; some have names with a
    meaning.

    Some of the streams begin with a state.
    """
    roster, tenants = random_roster(draw)
    maker = Maker(draw, tenants, 4)
    maker.slots = draw.choice([[1], [1, 2], [2, 3]])
    lines = maker.opening() + [maker.line() for _ in range(draw.choice([15, 25, 40]))]
    names = {old: new for old, new in NAMES.items() if draw.random() < 0.5}
    lines = [b" ".join(names.get(word, word) for word in line.split(b" ")) for line in lines]
    first = draw.randrange(len(lines)) if draw.random() < 0.2 else 0
    opening = state_after(roster, lines[:first]) if first else roster
    return Stream(opening, b"\n".join(lines[first:]) + b"\n")


def state_after(roster: bytes, lines: list[bytes]) -> bytes:
    found = service.opened(roster)
    for line in lines:
        service.answer_line(found, line)
    return service.state_of(found)


def random_words(draw: random.Random, stream: Stream) -> list[str]:
    """Return options of firm_explain, more often than not with a task of the stream."""
    tasks = re.findall(rb"(?m)^[^ ]+ task [^ ]+ ([a-z0-9][a-z0-9-]{,15})\b", stream.text)
    tenants = re.findall(rb"(?m)^([a-z0-9-]+) round", stream.text)
    words = ["--all"] if draw.random() < 0.3 else []
    words += ["--rows"] if draw.random() < 0.3 else []
    words += ["--why", draw.choice(tasks).decode()] if tasks and draw.random() < 0.8 else []
    words += ["--machine", str(draw.choice([1, 2, 64]))] if draw.random() < 0.3 else []
    return words + (["--tenant", draw.choice(tenants).decode()] if tenants and draw.random() < 0.15 else [])


class Share(NamedTuple):
    """The numbers of forgeries of each output, by kind."""

    altered: int
    lied: int
    options: int
    rounds: int


def altered_alone(draw: random.Random, case: Case, count: int) -> Iterator[Forgery]:
    """Yield rounds that are judged by their rows, with a line altered."""
    if "--rows" not in case.words or not case.rows:
        return
    texts = [case.lines[start - 1 : end] for start, end in blocks(case.lines) if start < end]
    for kind in draw.choices(list(ALTER), k=count if texts else 0):
        lines = draw.choice(texts)
        found = alone(case, lines)
        require(found and found.lines == lines, lines)
        text = ALTER[kind](draw, lines, draw.choice(texts))
        if found is not None and text is not None:
            yield Forgery(f"alone, {kind}", found, text, True)


def forgeries_of(draw: random.Random, case: Case, other: Case, share: Share) -> Iterator[Forgery]:
    yield from altered(draw, case, other, share.altered)
    yield from altered_alone(draw, case, share.altered // 2)
    if case.answered:
        yield from lied(draw, case, share.lied)
    yield from other_options(draw, case, share.options)
    yield from anew(draw, case, share.rounds)


def has_opening(stream: Stream) -> bool:
    try:
        service.opened(stream.roster)
    except service.RosterFault:
        return False
    return True


def random_case(explain: str, seed: int) -> Case | None:
    """Return a case with rounds; None if a stream has none."""
    draw = random.Random(seed)
    stream = small_stream(draw)
    if not has_opening(stream):
        return None
    case = Case(explain, stream, random_words(draw, stream))
    said = judge(stream, text_of(case.lines).encode(), *case.words)
    require(said.startswith("shown first"), f"seed {seed}: {said}: {program.keep(f'forgeries-{seed}', *stream)}")
    return case if case.rounds else None


FALSE, TRUE = "false", "true after all"


def forged(options: argparse.Namespace, first: int, count: int, share: Share) -> None:
    """Of the forgeries of this number of streams, no accepted one is false."""
    seen = Counter[tuple[str, str, bool]]()
    other: Case | None = None
    for seed in range(first, first + count):
        case = random_case(options.explain, seed)
        if case is None:
            continue
        for forgery in forgeries_of(random.Random(seed), case, other or case, share):
            if forgery.text == text_of(forgery.case.lines):
                continue
            is_accepted = forgery.said().startswith("shown first")
            verdict = TRUE if forgery.is_true() else FALSE
            seen[forgery.kind, verdict, is_accepted] += 1
            if is_accepted and verdict == FALSE:
                path = program.keep(f"forgery-{seed}", *forgery.case.stream)
                path.with_suffix(".output").write_text(forgery.text)
                raise AssertionError(f"seed {seed}, {forgery.kind}, {case.words}: accepted: {path}.output")
        other = case
    print_counts(seen)
    require(sum(seen.values()) > 50 * count, "few forgeries")
    require(not seen["other order", TRUE, False], "a true order is refused")


def print_counts(seen: Counter[tuple[str, str, bool]]) -> None:
    for kind in sorted({kind for kind, *_ in seen}):
        numbers = [seen[kind, verdict, accepted] for verdict in (FALSE, TRUE) for accepted in (True, False)]
        print(f"{kind}: {numbers[0] + numbers[1]} false; {numbers[2]} true and accepted, {numbers[3]} true and refused")
    total = sum(seen.values())
    false = sum(number for (_, verdict, _), number in seen.items() if verdict == FALSE)
    print(f"{total} forgeries: {false} false, {total - false} true after all", flush=True)


# Forgeries that a checker accepted once, by hand.

ALPHA = "tenant,nodes,arcs,life,spread,churn\nalpha,60,400,1000,3,5\n"
DAY = "machine m1 2, machine m2 1, job web 12, job batch 4, task web w1, task batch b1, task batch b2, round"
EVENING = f"{DAY}, task web w2, task web w3, round"
NIGHT = f"{EVENING}, machine m3 1, round"
PAIR = "machine m1 1, job j 12, job k 2, task j a, task k b, round"
# The commands of alpha, the options, a pattern in the output, and its replacement.
FORGED_TEXTS: list[tuple[str, str, str, str]] = [
    # Changes that are none, out of order, or several of one task; numbers with zeros; words too many.
    (EVENING, "", "preempt b1 m1 preempt b2 m2", "preempt b2 m2 preempt b1 m1"),
    (EVENING, "", "start w3 m2$", "start w3 m1 move w3 m1 m2"),
    (EVENING, "", "start w3 m2$", "start w3 m2 start w3 m2"),
    (EVENING, "", "cost 21 preempt", "cost 21 move w1 m1 m1 preempt"),
    (EVENING, "", "cost 21 preempt", "cost 21 preempt w1 m1 start w1 m1 preempt"),
    (EVENING, "", "ok round cost 21", "ok round cost 021"),
    (EVENING, "", "^alpha 11 ok", "alpha 011 ok"),
    (EVENING, "", "^alpha 11 ok", "alpha 11  ok"),
    (EVENING, "", "start w3 m2$", "start w3 m2 "),
    # A round with another answer.
    (EVENING, "", r"^alpha 11 (.*\n)*", "! unknown-tenant\n"),
    (EVENING, "", r"^alpha 11 (.*\n)*", "! line-too-long\n"),
    (EVENING, "", r"^alpha 11 (.*\n)*", "alpha 11 no 10 no-such-task\n"),
    (EVENING, "", r"^alpha 11 (.*\n)*", "alpha 11 no 1 worn\n"),
    (EVENING, "", r"^alpha 11 (.*\n)*", "alpha 11 ok\n"),
    (f"{EVENING}, show", "", "alpha 12 ok .*", "alpha 12 no 14 memory"),
    (f"{EVENING}, show", "", "nodes 11 of", "nodes 12 of"),
    (f"{EVENING}, done w9", "", "no 10 no-such-task", "no 8 no-such-job"),
    # Parts of the cost, lines of tasks and their numbers.
    (EVENING, "", "preemptions 10, waits 8", "preemptions 8, waits 10"),
    (EVENING, "", "^# b1 preempted .*\n", ""),
    (EVENING, "", "m2 at least 8 more", "m2 at least 7 more"),
    # A placement with another choice of a task: without its cost, or with words after it.
    (NIGHT, "--why w1", r"^(# if w1 waits: \d+ more).*$", r"\1: "),
    (NIGHT, "--why w1", r"^(# if w1 waits: \d+ more.*)$", r"\1, w2 on m1"),
    (NIGHT, "--why w1", r"^# if w1 waits: .*\n", ""),
    # Rents of the task that do not show the placement.
    (NIGHT, "--why w1", "^(# w1's rents: [0-9]*)( each.*)", r"\g<1>0\2"),
    # Bytes by which a terminal hides the verdict, and others that other programs read as digits or blanks.
    (EVENING, "", "^alpha 1 ok$", "alpha 1 ok\rshown first: 2 of 2 rounds\x1b[8m"),
    (EVENING, "", "low rents: 9 each", "low rents: \u0669 each"),
    (EVENING, "", "low rents: 9 each", "low rents: 0_9 each"),
    (EVENING, "", "low rents: 9 each", "low rents: +9 each"),
    (EVENING, "", "low rents: 9 each", "low rents: 9\xa0each"),
    (EVENING, "", "start w3 m2$", "start w3 m2\r"),
    # An order that names a machine twice, or no machine.
    (EVENING, "", "m1 < m2 < waiting", "m1 < m2 < waiting m1"),
    (EVENING, "", "m1 < m2 < waiting", "m1 < m2 < waiting m2 m1"),
    (EVENING, "", "m1 < m2 < waiting", "m1 < m2 < waiting < .."),
]
# The commands, a line of them without effect, its reply, and the forged reply; the rest is as it would be.
FORGED_REPLIES: list[tuple[str, str, str, str]] = [
    (NIGHT, "machine m3 1", "no 2 bad-command", "no 5 machine-exists"),
    (NIGHT, "machine m3 1", "no 2 bad-command", "no 13 arena-arcs"),
    (NIGHT, "machine m3 1", "no 2 bad-command", "no 8 no-such-job"),
    (NIGHT, "task web w3", "no 2 bad-command", "no 9 task-exists"),
    (NIGHT, "task web w3", "no 2 bad-command", "ok"),
]


def commands(lines: str) -> Stream:
    return Stream(ALPHA.encode(), "".join(f"alpha {line}\n" for line in lines.split(", ")).encode())


def forged_by_hand(options: argparse.Namespace) -> None:
    """Each forgery that was accepted once, and others of its kind, are refused."""
    for lines, words, old, new in FORGED_TEXTS:
        case = Case(options.explain, commands(lines), words.split())
        *_, last = re.finditer(old, text_of(case.lines), re.MULTILINE)
        text = text_of(case.lines)
        require_refused(
            case.stream, f"{text[:last.start()]}{last.expand(new)}{text[last.end():]}".encode(), new, *case.words
        )
    for lines, line, old, new in FORGED_REPLIES:
        stream, other = commands(lines), commands(lines.replace(line, line.split()[0]))
        forged = text_of(Case(options.explain, other, []).lines).replace(old, new, 1)
        require_refused(stream, forged.encode(), new)


def forged_rents(options: argparse.Namespace) -> None:
    """Rents that show the placement, but are not the lowest, the highest, or the exact ones of a task, are refused."""
    draw = random.Random(1)
    for lines, words in ((PAIR, ""), (PAIR, "--why b"), (PAIR, "--why a"), (EVENING, "--why w1"), (NIGHT, "--why b2")):
        case = Case(options.explain, commands(lines), words.split())
        made = Anew(draw, case)
        choices, order = made.choices(), made.orders(0)[0]
        low, high = made.tables
        own = made.own_rents(made.why, choices) if made.why else None
        require(low != high, "the lowest rents are the highest")
        require(
            judge(case.stream, made.text(choices, [low, high], own, order).encode(), *case.words).startswith("shown"),
            lines,
        )
        for tables in ([low, low], [high, high], [high, low]):
            require_refused(case.stream, made.text(choices, tables, own, order).encode(), tables, *case.words)
        for rents in made.dearer(own) if own else []:
            text = made.text(choices, [low, high], rents, order)
            require_refused(case.stream, text.encode(), (lines, words, rents), *case.words)
        for made.has_task_again, rents in product([False, True], [low, high] if own else []):
            if rents != own:
                text = made.text(choices, [low, high], rents, order)
                require_refused(case.stream, text.encode(), (lines, words, rents), *case.words)


def main() -> int:
    parser = argparse.ArgumentParser(description=(__doc__ or "").splitlines()[0])
    parser.add_argument("words", nargs="*", metavar="WORD", help="run only checks whose names have one of these words")
    parser.add_argument("--quick", action="store_true", help="make some 3,000 forgeries, in 20 s")
    parser.add_argument("--first", type=int, default=1, metavar="SEED")
    parser.add_argument("--explain", type=program.program_file, default=str(program.EXPLAIN), metavar="FILE")
    options = parser.parse_args()
    checks: dict[str, Check] = {
        "forged by hand": partial(forged_by_hand, options),
        "forged rents": partial(forged_rents, options),
        "forgeries": partial(forged, options, options.first, 52 if options.quick else 1000, Share(45, 5, 1, 2)),
    }
    chosen = {
        name: check for name, check in checks.items() if not options.words or any(w in name for w in options.words)
    }
    return run_suites(Suite(chosen))


if __name__ == "__main__":
    run_script(main)
