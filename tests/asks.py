"""Check firmctl's predictions: ask why, what if, and about a drain; then do it, and compare.

usage: tools/run tests/asks.py [--quick] [--only WORDS] [--program FILE] [--first SEED]
Each check prints a line; the last line is 'N passed, M failed', and the exit status is 1 if one failed. It needs the
built firm, firm_explain and firm_state. Without --quick it has 1,000 random books in place of 50.
"""

from __future__ import annotations

import argparse
import asyncio
import json
import os
import random
import re
import subprocess
import sys
import tempfile
import time
from collections import Counter
from collections.abc import Callable, Iterator
from contextlib import contextmanager, nullcontext
from dataclasses import astuple, dataclass
from functools import partial
from pathlib import Path
from typing import Any

import firmd_kit
from firmctl import firmctl
from front_kit import api_of
from firmd_kit import Client, Daemon, Setup, wait_for
from harness import program, service
from harness.checks import CannotRun, Check, Missed, Suite, require, run_script, run_suites
from harness.deployed import (
    Book,
    Books,
    book_of,
    past,
    records,
    service_states,
    sizes,
    text_of,
    what_if,
    why,
    why_text,
)
from harness.small_streams import Stream

from firm.explain import questions
from firm.client.blocking import ApiClient, ApiError, Unreachable, get, one
from firm.common.refused import Refused
from firm.explain.questions import Questions

TENANT = "alpha"
TENANTS = ("alpha", "beta", "worn")
MAX_TASKS = 6  # that the plain service places
ROSTER = firmd_kit.HEADING + b"alpha,30,300,1000000,1,2\nbeta,30,300,1000000,0,3\nworn,30,300,4,1,2\n"


def random_row(draw: random.Random) -> str:
    """Return a record of the tenant, with room for most rows."""
    nodes, arcs = draw.choice([(30, 300), (30, 300), (12, 60)])
    numbers = [
        nodes,
        arcs,
        draw.choice([1000, 2**40]),
        draw.choice([0, 1, 5, 20]),
        draw.choice([0, 1, 3, 20, 10**6]),
    ]
    numbers += [draw.choice([0, 1, 5, 50, 10**6]), draw.choice([0, 1, 3, 10**6, 10**6])]
    return ",".join(map(str, [TENANT, *numbers]))


def own_lines(stream: Stream, count: int) -> list[bytes]:
    """Return random lines of the tenant, some of which are refused."""
    found: list[bytes] = []
    while len(found) < count:
        line = stream.line()
        if line.split()[:1] == [TENANT.encode()] and len(line) < 256:
            found.append(line)
    return found


@dataclass
class Case:
    """A running firmd, and one of its operators."""

    daemon: Daemon
    client: Client
    server: str  # firm-api's
    commands: int = 0  # of the tenant so far

    def say(self, *lines: bytes) -> list[bytes]:
        return [self.client.ask(line) for line in lines]

    def begin(self, draw: random.Random, rows: int, slots: list[int] | None = None) -> Stream:
        """Admit the tenant anew, with this many random commands, and machines of these slots; make further ones."""
        self.say(b"+ retire alpha", b"+ admit " + random_row(draw).encode())
        stream = Stream(draw, [TENANT], MAX_TASKS)
        stream.slots = slots or stream.slots
        stream.operators = 0
        opening = [line for line in stream.opening() if line.startswith(b"alpha ")]
        self.commands = number_of(self.say(*opening, *own_lines(stream, rows), b"alpha show")[-1])
        return stream

    def state(self, past: int | None = None) -> Any:
        """Return the tenant's state, once the server has the last command, or before a past round."""
        client, found = ApiClient(self.server, TENANT), None

        def is_current() -> bool:
            nonlocal found
            try:
                found = client.ask(one(get("state", round=past)))
            except Unreachable:  # the tenant is not there yet
                return False
            return past is not None or book_of(found["text"]).commands == self.commands

        wait_for(is_current, f"the server has command {self.commands}", 120)
        return found


def number_of(reply: bytes) -> int:
    return int(reply.split()[1])


@contextmanager
def running(setup: Setup, *options: str) -> Iterator[Case]:
    with setup.daemon(*options, roster=firmd_kit.extended(ROSTER, service.LONGEST_PATIENCE)) as daemon:
        daemon.start()
        with Client(daemon.operator) as client, api_of(daemon.state, *TENANTS) as server:
            yield Case(daemon, client, server)
            daemon.stop()


def seeds(setup: Setup) -> range:
    return range(setup.seed, setup.seed + (50 if setup.is_quick else 1_000))


# The effect of lines.


def lines_do_what_was_said(setup: Setup) -> None:
    """The predicted effect of random books' lines is the real one; a line that would be refused is refused."""
    faulty = 0
    with running(setup) as case:
        for seed in seeds(setup):
            draw = random.Random(seed)
            stream = case.begin(draw, draw.choice([3, 10, 30]))
            lines = own_lines(stream, draw.randint(1, 5))
            machines = list(book_of(case.state()["text"]).machines)
            if machines and draw.random() < 0.4:
                lines = [f"{TENANT} drain {draw.choice(machines)}".encode()]
            try:
                faulty += not is_as_said(case, lines)
            except Missed as missed:
                raise Missed(f"seed {seed}: {lines}: {missed}") from None
    require(faulty > 3, f"{faulty} with refused lines")


def is_as_said(case: Case, lines: list[bytes]) -> bool:
    """Request the prediction, and then send the lines; return whether no line was refused."""
    before = case.state()
    book = book_of(before["text"])
    asked = [*lines, f"{TENANT} round".encode()]
    try:
        outcome = what_if.outcome_of(before["text"], lines)
    except what_if.Faulty as faulty:
        require(case.state() == before, "asking changed the state")
        replies = case.say(*asked)
        case.commands = number_of(replies[-1])
        refused = [
            (place, reply.split()[4].decode()) for place, reply in enumerate(replies, 1) if b" no " in reply[:30]
        ]
        said = [(fault.line, fault.fault) for fault in faulty.faults]
        require(said == refused, f"{said} refusals predicted, but {refused} occurred")
        return False
    require(case.state() == before, "asking changed the state")
    if lines[-1].split()[1:] == [b"round"]:
        asked.pop()
    replies = case.say(*asked)
    case.commands = number_of(replies[-1])
    require([reply.decode() for reply in replies] == outcome.replies, f"{replies}, and it said {outcome.replies}")
    later = book_of(case.state()["text"])
    require_changes(book, later, outcome)
    return True


def require_changes(before: Book, later: Book, outcome: what_if.Forecast) -> None:
    """Require that the changes are those between two books, and the numbers those of the later one."""
    told = {change.task: (change.before, change.after) for change in outcome.changes}
    for name, task in later.tasks.items():
        former = before.tasks[name].machine if name in before.tasks else None
        is_told = former != task.machine or name not in before.tasks
        require(told.pop(name, None) == ((former, task.machine) if is_told else None), f"{name}: {outcome.changes}")
    require(not told, f"changes of no task: {told}")
    numbers = (later.slots, later.slots - later.running, later.waiting, later.last_cost)
    require(numbers == (outcome.slots, outcome.free, outcome.waiting, outcome.cost), f"{numbers}, and {outcome}")


def drains_by_firmctl(setup: Setup) -> None:
    """`plan drain` and `what-if` print the real outcome, and add no line to the journal."""
    with running(setup) as case, tempfile.TemporaryDirectory(prefix="firm-") as folder:
        rows = [b"machine m1 2", b"machine m2 1", b"machine m3 1", b"job web 10", b"job batch 2"]
        rows += [b"task web a", b"task web b", b"task web c", b"task batch d m1", b"round"]
        case.commands = number_of(case.say(*(b"alpha " + row for row in rows))[-1])
        case.state()
        journal = case.daemon.journal()
        path = Path(folder) / "lines.txt"
        path.write_bytes(b"# more\nalpha machine m4 1\n\nalpha task web e\nalpha drain m1\n")
        with nullcontext(case.server) as server:
            printed = [
                firmctl(*words, "--server", server)
                for words in (
                    ["plan", "drain", "m1"],
                    ["what-if", str(path)],
                    ["plan", "drain", "m1", "alpha", "--json"],
                    ["state", "alpha"],
                )
            ]
        require(printed[0] == (0, DRAINED.encode(), b""), printed[0].output.decode() + printed[0].faults.decode())
        wanted = WITH_MORE.format(path).encode()
        require(printed[1] == (0, wanted, b""), printed[1].output.decode() + printed[1].faults.decode())
        wanted_state = (0, case.state()["text"].encode(), b"firmctl: the state of alpha after line 10\n")
        require(printed[3] == wanted_state, printed[3])
        require(case.daemon.journal() == journal, "the journal has other lines")
        told = json.loads(printed[2].output)
        require((told["line"], told["cost"], told["cost_now"]) == (len(rows), 14, 1), told)
        replies = case.say(b"alpha drain m1", b"alpha round")
        require(replies[-1].decode() == told["replies"][-1], replies)


DRAINED = """\
alpha after a drain of m1 and a round: cost 14, and 1 without
slots 2, free 0, waiting tasks 2
TASK  JOB    CHANGE  FROM  TO
a     web    moves   m1    m3
b     web    stops   m1    -
d     batch  stops   m3    -
"""
WITH_MORE = """\
alpha after {} and a round: cost 14, and 1 without
slots 3, free 0, waiting tasks 2
TASK  JOB    CHANGE  FROM  TO
a     web    moves   m1    m3
b     web    moves   m1    m4
d     batch  stops   m3    -
e     web    waits   -     -
"""


# The reasons for a task's place.


def least_weights(setup: Setup) -> None:
    """At the reported least weight a task runs, and at one less it waits; others yield as predicted."""
    found = 0
    with running(setup) as case:
        for seed in seeds(setup):
            draw = random.Random(seed)
            case.begin(draw, draw.choice([30, 60]), [1, 1, 2])
            text = case.state()["text"]
            book = book_of(text)
            for name in book.tasks:
                try:
                    found += has_least_weight(book, name)
                except Missed as missed:
                    raise Missed(f"seed {seed}, task {name}: {missed}\n{text}") from None
    require(found > len(seeds(setup)) / 2, f"{found} least weights")


def full_arenas() -> None:
    """In the largest arena a further job takes the place of one that no round needs, if any."""
    tasks = sizes.MAX_NODES - sizes.HUBS - 3
    rows = [f"tenant alpha nodes {sizes.MAX_NODES} arcs {sizes.MAX_ARCS} life {10**6} spread 0 churn 0 remote 0"]
    rows[0] += f" commands {tasks + 3}"
    rows += ["costs", "machine m 1"]
    for second, weight in (("job twin 5", 6), ("job own 9", None)):
        jobs = ["job shared 5", second]
        waiting = [f"task shared t{number} waits 0" for number in range(tasks - 1)]
        every = ["place admissions 1", *rows, *jobs, *waiting, f"task {second.split()[1]} t{tasks} waits 0"]
        book = book_of("\n".join(["firm state 1", *every, f"rows {len(every)}", ""]))
        found = why.reasons(text_of(book), book, "t1")
        if weight is None:
            untried = "the arena of alpha has no room for a job of t1 alone"
            require((found.heavier, found.untried) == (None, untried), found)
        else:
            least = found.heavier
            require(least is not None and (least.weight, least.machine) == (weight, "m"), found)


def has_least_weight(book: Book, name: str) -> bool:
    """Compare the reasons for a task with placements of the plain service; return whether a least weight was named."""
    reasons = why.reasons(text_of(book), book, name)
    now = model_of(book)
    placement = now.placement()
    names = list(now.tasks)
    require(reasons.cost == placement.cost, reasons)
    require(reasons.machine == placement.machines[names.index(name)], reasons)
    require(all((choice.more == 0) == (choice.tie is not None) for choice in reasons.others), f"ties: {reasons}")
    if reasons.machine is None and reasons.cheapest:
        require(reasons.cheapest.cost > reasons.pays, f"dearer than waiting: {reasons}")
    least = reasons.heavier
    if least is None:
        most = of_weight(book, name, 10**6).placement().machines[names.index(name)]
        require(reasons.machine is not None or most is None, f"by the largest weight it runs on {most}")
        return False
    below = of_weight(book, name, least.weight - 1).placement().machines
    require(below[names.index(name)] is None, f"it runs by {least.weight - 1}, too")
    tried = of_weight(book, name, least.weight).placement().machines
    require(tried[names.index(name)] == least.machine, f"by {least.weight} it runs on {tried[names.index(name)]}")
    pairs = zip(names, placement.machines, tried)
    wanted = [(task, before, after) for task, before, after in pairs if before != after and task != name]
    told = [(change.task, change.before, change.after) for change in least.changes]
    require(told == wanted, f"{told} would change, and {wanted} do")
    return True


def model_of(book: Book) -> service.Tenant:
    """Return the plain service's tenant with a book's rows."""
    _, *numbers = astuple(book.limits)
    tasks = {
        name: service.Task(task.job, list(task.prefers), task.machine, book.waited(task))
        for name, task in book.tasks.items()
    }
    return service.Tenant(
        book.limits.tenant,
        service.Limits(*numbers),
        book.commands,
        list(book.costs),
        dict(book.machines),
        dict(book.jobs),
        tasks,
    )


def of_weight(book: Book, name: str, weight: int) -> service.Tenant:
    found = model_of(book)
    found.jobs["its-own"] = weight
    found.tasks[name].job = "its-own"
    return found


# Rows after `alpha` that decide a task's place, with spread, churn and remote; the task; and the expected words.
WORDS: list[tuple[str, str, str, str]] = [
    (
        "1 2 0",
        "machine m 1, job j 10, task j a, task j b, round",
        "b",
        """\
a round now would cost 11, and leave it waiting
to wait costs it 11 (weight 10, rounds 1); to run would cost at least 1 more on m
slots 1, none free
from weight 12 on it would run on m; a would wait
""",
    ),
    (
        "2 9 0",
        "machine m 4, job j 3, task j a, task j b, task j c, round",
        "c",
        """\
a round now would cost 6, and start it on m
it pays 0 there; as much to wait, though ranked later
""",
    ),
    (
        "0 9 50",
        "machine m 1, machine n 1, job j 10, task j a m, task j b m, round",
        "b",
        """\
a round now would cost 11, and leave it waiting
to wait costs it 11 (weight 10, rounds 1); to run would cost at least 8 more on m
slots 2, free 1, but dearer than waiting: the cheapest, on n, costs 50 (remote 50)
from weight 19 on it would run on m; a would wait
""",
    ),
    (
        "0 2 0",
        "job j 10, task j a, round",
        "a",
        """\
a round now would cost 11, and leave it waiting
to wait costs it 11 (weight 10, rounds 1); there is no machine
""",
    ),
    (
        "0 2 0",
        "machine m 1, job j 10, task j a",
        "a",
        """\
a round now would cost 0, and start it on m
it pays 0 there; at least 10 more to wait
""",
    ),
    (
        "0 0 0",
        "machine m 1, job j 10, job k 30, task j a, round, task k b",
        "a",
        """\
a round now would cost 10, and preempt it
to wait costs it 10 (weight 10, rounds 0); to run would cost at least 20 more on m
slots 1, none free
from weight 30 on it would run on m; b would wait
""",
    ),
    (
        "3 1 0",
        "machine m 2, job j 10, task j a, task j b, round, machine n 2",
        "b",
        """\
a round now would cost 1, and move it to n
it pays 1 there; as much on m, but a, submitted earlier, would be on n; at least 10 more to wait
""",
    ),
    (
        "1 2 0",
        "machine m 1, machine n 1, job j 10, task j a, task j b, round",
        "a",
        """\
a round now would cost 0, and leave it on m
it pays 0 there; at least 4 more on n; at least 12 more to wait
""",
    ),
    (
        "0 5 0",
        "machine m 1, job j 999999, job k 1, task j a, round, task k b",
        "b",
        """\
a round now would cost 1, and leave it waiting
to wait costs it 1 (weight 1, rounds 0); to run would cost at least 1000003 more on m
slots 1, none free
by no weight up to 1,000,000 would it run
""",
    ),
    (
        "0 1 0",
        "machine m 1, machine n 2, job j 10, job k 9, task j a n, task j b n, task k c m, task k d",
        "d",
        """\
a round now would cost 9, and leave it waiting
to wait costs it 9 (weight 9, rounds 0); to run would cost as much on m, but a, submitted earlier, would be on n; \
as much on n, but c, submitted earlier, would wait
slots 3, none free
from weight 10 on it would run on n; c would wait
""",
    ),
]


def words_of(costs: str, rows: str, name: str) -> str:
    """Return the reasons for a task in a round after these rows."""
    spread, churn, remote = costs.split()
    record = f"{TENANT},60,400,1000000,{spread},{churn},{remote}"
    lines = [f"{TENANT} {row}".encode() for row in rows.split(", ")]
    text = f"tenant,nodes,arcs,life,spread,churn,remote\n{record}\n".encode()
    model, books = service.opened(text), Books()
    books.start(text)
    books.replied_all(lines, [service.answer_line(model, line) or b"" for line in lines], None)
    book = books.tenants[TENANT]
    task = book.tasks[name]
    known = {"weight": book.jobs[task.job], "waited": book.waited(task)}
    return "".join(f"{line}\n" for line in why_text.sentences(why.reasons(text_of(book), book, name), known, None))


def reasons_in_words() -> None:
    """Each kind of reason, in words."""
    for costs, rows, name, wanted in WORDS:
        said = words_of(costs, rows, name)
        require(said == wanted, f"{rows}, {name}: it says\n{said}")


# Past rounds.


def past_rounds_are_kept(setup: Setup) -> None:
    """The state before a past round is what it was then: over segments, snapshots, refusals and new admissions."""
    draw = random.Random(setup.seed)
    options = ["--segment-bytes", "2000", "--snapshot-lines", "60"]
    with running(setup, *options) as case:
        for _ in range(3):
            stream = case.begin(draw, 0)
            before = {}
            for line in own_lines(stream, 120):
                if line.split()[1:] == [b"round"]:
                    before[case.commands + 1] = case.state()["text"]
                case.commands = number_of(case.say(line)[0])
                case.say(b"beta show")
            snapshots = case.daemon.state / "snapshots"
            wait_for(lambda: any(snapshots.glob("*.snapshot")), "a snapshot is made", 120)
            require(next(past.starts(case.daemon.state)).opening.is_state, "it is used")
            numbers = sorted(before)
            for number in {numbers[-1], *draw.sample(numbers, 1 if setup.is_quick else 8)}:
                found = case.state(number)
                require(found["text"] == before[number], f"round {number}, and nothing of others: {found['text']}")
                require(abs(time.time() - found["time"]) < 600, f"its time is {found['time']}")


def past_rounds_by_firmctl(setup: Setup) -> None:
    """`why --round` explains a past round, also of an ended task, and reports lines that are no round."""
    with running(setup) as case:
        rows = ["machine m1 1", "job web 10", "task web a", "round", "task web b", "round", "done a", "round", "done b"]
        case.commands = number_of(case.say(*(f"alpha {row}".encode() for row in rows))[-1])
        case.state()
        with nullcontext(case.server) as server:
            for words, status, wanted in PAST:
                done = firmctl("why", *words.split(), "--server", server)
                said = done.output + done.faults
                text = re.sub(rb"[0-9-]{10} [0-9:]{8}", b"TIME", said)
                require((done.status, text.decode()) == (status, wanted), f"{words}: {done.status} {said.decode()}")


WAITED = """\
before round 6 of TIME: alpha b (job web, weight 10) waits, rounds so far 0
round 6 cost 10, and left it waiting
to wait costs it 10 (weight 10, rounds 0); to run would cost at least 2 more on m1
slots 1, none free
from weight 13 on it would have run on m1; a would have waited
"""
RAN = """\
before round 6 of TIME: alpha a (job web, weight 10) runs on m1
round 6 cost 10, and left it on m1
it pays 0 there; at least 2 more to wait
"""
STARTED = """\
before round 8 of TIME: alpha b (job web, weight 10) waits, rounds so far 1
round 8 cost 0, and started it on m1
it pays 0 there; at least 11 more to wait
"""
PAST = [
    ("b alpha --round 6", 0, WAITED),
    ("a alpha --round 6", 0, RAN),
    ("b alpha --round 8", 0, STARTED),
    ("b alpha --round 7", 1, "firmctl: command 7 of alpha is not a round; the last round before that is 6\n"),
    ("b alpha --round 4", 1, "firmctl: the task 'b' did not exist in round 4\n"),
    ("b alpha --round 12", 1, "firmctl: command 12 of alpha does not exist; the last round before that is 8\n"),
]


# Refused questions.


def questions_are_refused(setup: Setup) -> None:
    """Unknown names, faulty lines and files, and programs that fail: each has its words and its status."""
    with running(setup) as case, tempfile.TemporaryDirectory(prefix="firm-") as name:
        folder = Path(name)
        case.say(*REFUSED_ROWS)
        case.commands = 5
        lines = case.state()["line"]
        for file, text in REFUSED_FILES.items():
            (folder / file).write_bytes(text)
        with api_of(case.daemon.state, *TENANTS) as server:
            for words, status, part in REFUSED:
                done = firmctl(*words.format(folder).split(), "--server", server)
                said = (done.output + done.faults).decode()
                require((done.status, part in said) == (status, True), f"{words}: {done}")
            done = firmctl("what-if", str(folder / "faulty"), "--server", server)
            require(done.output.decode() == FAULTY and b"nothing is tried" in done.faults, done)
        for program_name, script, told in FAILING:
            stand_in = firmd_kit.stand_in(folder, script)
            with api_of(case.daemon.state, TENANT, **{program_name: stand_in}) as server:
                done = firmctl("why", "b", "--server", server)
            require(done.status == 4 and told in done.faults, f"{script}: {done}")
            require(done.output.startswith(b"alpha b (job web, weight 10) waits for "), done)
        for number in ("0", "-1", "1.5", "x", "", "9" * 30):
            try:
                case.state(number)  # type: ignore[arg-type]
                require(False, f"round {number} is taken")
            except ApiError as refusal:
                require(refusal.name == "bad-field", f"round {number}: {refusal}")
        require(case.state()["line"] == lines, "the service got a line")


REFUSED_ROWS = [b"alpha machine m1 1", b"alpha job web 10", b"alpha task web a", b"alpha task web b", b"alpha round"]
REFUSED_ROWS += [b"beta machine m1 1", b"beta job web 10", b"beta task web a"]
REFUSED_ROWS += [b"worn machine m9 1", b"worn job web 10", b"worn task web w", b"worn round"]
REFUSED_FILES = {
    "nothing": b"\n# no line\n",
    "operator": b"+ retire alpha\n",
    "unknown": b"gamma show\n",
    "faulty": b"# a comment\nalpha done a\nalpha done a\nbeta show\n+ retire alpha\nalpha machin\x1b m2 1\nalpha "
    + b"x" * 300,
    "worn": b"worn show\n",
}
FAULTY = (
    """\
line 3: alpha done a: no-such-task
line 4: beta show: other-tenant
line 5: + retire alpha: operator-only
line 6: alpha machin\\x1b m2 1: bad-command
line 7: alpha """
    + "x" * 250
    + """: line-too-long
"""
)
REFUSED: list[tuple[str, int, str]] = [  # the words, {} for the files' folder; the status; a part of the message
    ("why z", 1, "no task 'z' is there"),
    ("why a", 2, "alpha, beta have a task 'a'"),
    ("why b gamma", 1, "no tenant 'gamma' is there"),
    ("why b --round 4", 1, "command 4 of alpha is not a round"),
    ("why b --round 99", 1, "command 99 of alpha does not exist; the last round before that is 5"),
    ("why z alpha --round 5", 1, "the task 'z' did not exist in round 5"),
    ("why z --round 5", 2, "name a tenant: alpha, beta, worn"),
    ("why b --round 0", 2, "'0' is not a whole number"),
    ("why w", 1, "no-round: a round of worn is refused: worn 5 no 1 worn"),
    ("plan drain m9", 1, "worn drain m9: worn"),
    ("plan drain m8", 1, "no machine 'm8' is there"),
    ("plan drain m1", 2, "alpha, beta have a machine 'm1'"),
    ("plan close web", 2, "invalid choice"),
    ("state", 2, "name a tenant: alpha, beta, worn"),
    ("state gamma", 1, "no tenant 'gamma' is there"),
    ("what-if {}/none", 2, "No such file"),
    ("what-if {}", 2, "Is a directory"),
    ("what-if {}/nothing", 2, "has no line of a tenant"),
    ("what-if {}/operator", 2, "has no line of a tenant"),
    ("what-if {}/operator alpha", 1, "line 1: + retire alpha: operator-only"),
    ("what-if {}/worn", 1, "line 1: worn show: worn"),
    ("what-if {}/unknown", 1, "no tenant 'gamma' is there"),
    ("what-if /dev/zero", 2, "has more than 4,194,304 bytes"),
]
FAILING = [
    ("FIRM_EXPLAIN", "#!/bin/sh\nexit 7\n", b"ended with status 7"),
    ("FIRM_EXPLAIN", "#!/bin/sh\nexit 6\n", b"memory: firm_explain needs more than"),
    ("FIRM_EXPLAIN", "#!/nonexistent\n", b"firm_explain can't be run"),
    ("FIRM_EXPLAIN", "#!/bin/sh\nkill -XCPU $$\n", b"too-long: firm_explain took 20 s of processor time"),
    ("FIRM", "#!/bin/sh\nexit 7\n", b"ended with status 7"),
]


def programs_are_bounded() -> None:
    """A program that doesn't end is stopped in time, and the system stops one that takes too much processor time or
    memory."""
    with tempfile.TemporaryDirectory(prefix="firm-") as name:
        for bound, script, said in [
            ("MAX_SECONDS", "#!/bin/sh\nexec sleep 1000\n", "took 1 s"),
            ("MAX_PROCESSOR_SECONDS", "#!/bin/sh\nwhile :; do :; done\n", "1 s of processor time"),
        ]:
            stand_in = firmd_kit.stand_in(Path(name), script)
            words = [sys.executable, "-c", BOUNDED, bound]
            done = subprocess.run(
                words, capture_output=True, text=True, env={**os.environ, "FIRM": stand_in}, timeout=600
            )
            require(done.returncode == 0 and done.stdout.startswith("too-long") and said in done.stdout, done)


BOUNDED = """\
import sys
from firm.explain import trials
trials.MAX_SECONDS = 600
setattr(trials, sys.argv[1], 1)
trials.restrict_process()
try:
    with trials.firm("firm state 1\\nplace admissions 1\\nrows 1\\n", []) as trial:
        trial.output()
except trials.Refused as refusal:
    print(refusal.name, refusal)
"""


def questions_take_turns() -> None:
    """One question is answered at a time; a user's questions past the bound of waiting ones are refused."""
    asyncio.run(ask_at_once())


def questions_are_bounded() -> None:
    """A question whose process the system stops is reported as one that takes too long."""
    with tempfile.TemporaryDirectory(prefix="firm-") as folder:
        python, sys.executable = sys.executable, firmd_kit.stand_in(Path(folder), "#!/bin/sh\nkill -XCPU $$\n")
        try:
            asyncio.run(Questions().ask(1, "state", None, tenant=TENANT, round=1, folder=folder))
        except Refused as refusal:
            require(refusal.name == "too-long", f"{refusal.name}: {refusal}")
        else:
            require(False, "it is answered")
        finally:
            sys.executable = python


def snapshots_go(setup: Setup) -> None:
    """A snapshot that vanishes during a search for a past round is no damage of the journal."""
    with setup.daemon(roster=ROSTER) as daemon:
        with daemon.start().client() as client:
            for line in (b"alpha machine m 1", b"alpha round"):
                client.ask(line)
        daemon.stop()
        gone = past.Start(service_states.Opening(daemon.state / "gone", True), records.Base(7, 9, 99, 0), b"")
        opened = past.Start(service_states.Opening(daemon.state / "roster.csv"), records.BEGINNING, b"")
        found, real = iter([[gone], [opened]]), past.starts
        past.starts = lambda folder: iter(next(found))
        try:
            answer = past.before_now(daemon.state, TENANT, 2)
        finally:
            past.starts = real
    require((answer["line"], book_of(answer["text"]).machines) == (1, {"m": 1}), answer)


async def ask_at_once() -> None:
    running, most = Counter[str](), Counter[str]()

    async def answer(asked: dict[str, Any]) -> dict[str, Any]:
        running[asked["tenant"]] += 1
        for name, count in [(asked["tenant"], running[asked["tenant"]]), ("all", running.total())]:
            most[name] = max(most[name], count)
        await asyncio.sleep(0.01)
        running[asked["tenant"]] -= 1
        return {}

    real, questions.answer = questions.answer, answer
    try:
        one_more, found = questions.MAX_OF_USER + 1, Questions()
        asked = [found.ask(user, "state", None, tenant="a") for user in (1, 2, 3) for _ in range(one_more)]
        ends = await asyncio.gather(*asked, return_exceptions=True)
    finally:
        questions.answer = real
    refused = [str(end) for end in ends if isinstance(end, Refused) and end.name == "too-many-questions"]
    require(len(refused) == 3 and ends.count({}) == len(ends) - 3, ends)
    require(most == {"a": 1, "all": 1}, most)


QUICK: list[Callable[[], None]] = [
    reasons_in_words,
    full_arenas,
    programs_are_bounded,
    questions_take_turns,
    questions_are_bounded,
]
OVER_FIRMD: list[Callable[[Setup], None]] = [
    lines_do_what_was_said,
    drains_by_firmctl,
    least_weights,
    past_rounds_are_kept,
    snapshots_go,
    past_rounds_by_firmctl,
    questions_are_refused,
]


def main() -> int:
    parser = argparse.ArgumentParser(description=(__doc__ or "").splitlines()[0])
    parser.add_argument("--quick", action="store_true", help="the part that tests/quick runs")
    parser.add_argument("--only", default="", help="run only the checks whose names have these words")
    parser.add_argument(
        "--first", type=int, default=1, metavar="SEED", help="first seed of the random books (default: 1)"
    )
    program.add_program(parser)
    options = parser.parse_args()
    for name in ("firm_explain", "firm_state"):
        if not program.built(name).exists():
            raise CannotRun(f"{name} is not built: ./build.py {name}")
    setup = Setup(options.program, options.quick, options.first)
    checks: dict[str, Check] = {check.__name__: check for check in QUICK}
    checks |= {check.__name__: partial(check, setup) for check in OVER_FIRMD}
    named = {name.replace("_", " "): check for name, check in checks.items()}
    chosen = {name: check for name, check in named.items() if options.only in name}
    return run_suites(Suite(chosen))


if __name__ == "__main__":
    run_script(main)
