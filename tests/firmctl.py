"""Check the views of firmd: its books, firmctl, the metrics and the page.

usage: tools/run tests/firmctl.py [--quick] [--only WORDS] [--program FILE] [--streams N] [--first SEED]
The books are compared with the plain service of harness/service.py over random and hostile streams. The views are
checked over a stand-in for the daemon, which takes its replies from there. Each check prints a line; the last line is
'N passed, M failed', and the exit status is 1 if one failed. It needs Python 3 and the built program. Metrics and page
need python3-aiohttp and python3-prometheus-client, the pictures of the page chromium; a check without its package is
skipped with a line.
"""

from __future__ import annotations

import argparse
import contextlib
import json
import os
import random
import re
import select
import subprocess
import sys
import tempfile
import time
from functools import partial
from pathlib import Path
from typing import Any

import firmd_kit
from web_pages import web_checks
from front_kit import DAY, FIRMCTL, LIMIT_SECONDS, ROSTER, Viewer, api_of, front, missing_of, samples_of
from front_kit import wait_until
from harness import program, service
from harness.checks import Check, Missed, Skipped, Suite, print_skipped, require, run_script, run_suites
from harness.deployed import MOST_CLIENTS, MOST_UNREAD, Book, Books, book_of, gets_reply, roster, text_of
from harness.small_streams import random_bad_roster, random_stream, with_noise

NOT_LATE_SECONDS = 20.0  # before the end of a closed connection with unread replies


def rows_of_model(tenant: service.Tenant) -> object:
    """Return a tenant's rows in the plain service, in a book's form."""
    tasks = [(name, task.job, task.machine, task.waited, tuple(task.preferred)) for name, task in tenant.tasks.items()]
    rows = (list(tenant.machines.items()), list(tenant.jobs.items()), tasks)
    return rows, tenant.costs, tenant.given, any(task.machine is None for task in tenant.tasks.values())


def rows_of_book(book: Book) -> object:
    tasks = [(name, task.job, task.machine, book.waited(task), task.prefers) for name, task in book.tasks.items()]
    rows = (list(book.machines.items()), list(book.jobs.items()), tasks)
    return rows, list(book.costs)[-8:], book.commands, book.has_waiting()


def fault_of(text: bytes) -> int | None:
    """Return the code of a roster's fault, by the plain service."""
    try:
        service.read_roster(text)
    except service.RosterFault as fault:
        return fault.code
    return None


def limits_of_model(tenant: service.Tenant) -> object:
    return (tenant.name, *tenant.limits)


def limits_of_book(book: Book) -> object:
    return tuple(getattr(book.limits, field) for field in roster.FULL_HEADING)


def books_of_stream(seed: int) -> None:
    """The books after each line of a random stream are the rows of the plain service."""
    draw = random.Random(seed)
    text_roster, text = random_stream(draw, 5)
    text = with_noise(draw, text) if seed % 2 else text
    model = service.opened(text_roster)
    books, refusals, count = Books(), 0, 0
    books.start(text_roster)
    for raw, line in zip(text.split(b"\n"), service.lines_of(text)):
        reply = service.answer_line(model, line, draw.random() < 0.03)
        if reply is None:
            continue
        refused = reply.split()[1:2] == [b"no"] or reply.split()[2:3] == [b"no"] or reply.startswith(b"!")
        refusals, count = refusals + refused, count + 1
        books.replied(draw.choice([raw, line]), reply, draw.choice([None, 0.001]))
        where = f"seed {seed}, line {line!r}, reply {reply!r}"
        require(list(books.tenants) == list(model.tenants), where)
        for name, tenant in model.tenants.items():
            book = books.tenants[name]
            require(rows_of_book(book) == rows_of_model(tenant), f"{where}: {rows_of_book(book)}")
            require(limits_of_book(book) == limits_of_model(tenant), where)
            loads = {name: len(machine.tasks) for name, machine in book.loads().items()}
            require(sum(loads.values()) == book.running and all(loads[m] <= book.machines[m] for m in loads), where)
    lost = [name for name in books.tenants if books.tenants[name].rounds < len(books.tenants[name].costs)]
    require(books.lines == count and not lost, f"seed {seed}: {books.lines} lines")
    kept = sum(books.refusals.values()) + sum(sum(book.refusals.values()) for book in books.tenants.values())
    require(kept <= refusals and (kept == refusals or b"retire" in text), f"seed {seed}: {kept} refusals of {refusals}")


def books_beside_the_service(streams: range) -> None:
    for seed in streams:
        books_of_stream(seed)


def books_beside_firm(built: str, streams: range) -> None:
    """The books after a random stream agree with firm's own answers about each task and in all."""
    for seed in streams:
        draw = random.Random(seed)
        text_roster, text = random_stream(draw, 20)
        lines = [line for line in service.lines_of(text) if gets_reply(line)]
        with program.Roster(text_roster) as path:
            replies = program.run([built], path, b"".join(line + b"\n" for line in lines)).output.splitlines()
            require(len(replies) == len(lines), f"seed {seed}: {len(replies)} replies to {len(lines)} lines")
            books = Books()
            books.start(text_roster)
            for line, reply in zip(lines, replies):
                books.replied(line, reply, draw.choice([None, 0.001]))
            asked = [line for book in books.tenants.values() for line in questions_of(book)]
            told = program.run(
                [built], path, b"".join(line + b"\n" for line in lines + [line for line, _ in asked])
            ).output.splitlines()
        for (line, wanted), reply in zip(asked, told[len(lines) :]):
            require(
                reply.split(b" ", 2)[2].startswith(wanted.encode()),
                f"seed {seed}: {line!r}: {reply!r}, and the book has {wanted}",
            )


def questions_of(book: Book) -> list[tuple[bytes, str]]:
    """Return queries for the whole book, with the replies that it predicts, while the tenant can still take lines."""
    name = book.limits.tenant
    found = [
        (f"{name} where {task}", f"ok at {row.machine}" if row.machine else f"ok waits {book.waited(row)}")
        for task, row in book.tasks.items()
    ]
    counts = f"ok machines {len(book.machines)} jobs {len(book.jobs)} tasks {len(book.tasks)} running {book.running}"
    found += [(f"{name} show", counts), (f"{name} costs", " ".join(["ok costs", *map(str, list(book.costs)[-8:])]))]
    found += [(f"{name} job {job} 1", "no 7 job-exists") for job in book.jobs]
    found += [(f"{name} machine {machine} 1", "no 5 machine-exists") for machine in book.machines]
    return [(line.encode(), wanted) for line, wanted in found[: book.limits.life - book.commands]]


def books_of_worn_tenants() -> None:
    """An exhausted tenant's rows stay, and its count of commands stands at its life, until it is admitted anew."""
    with front(lines=[b"beta job low 2", b"beta task low a"] + [b"beta round"] * 6) as started:
        book = started.books.tenants["beta"]
        require((book.commands, book.rounds, dict(book.refusals)) == (5, 3, {"worn": 3}), book)
        require(book.waited(book.tasks["a"]) == 3, book)
        started.say(b"+ retire beta", b"+ admit beta,8,30,5,0,3,7", b"beta job low 3")
        book = started.books.tenants["beta"]
        require(
            (book.commands, book.rounds, book.jobs, book.tasks, book.limits.remote) == (1, 0, {"low": 3}, {}, 7), book
        )


def books_of_long_waits() -> None:
    """A wait is counted as far as firm counts it."""
    books = Books()
    books.start(b"tenant,nodes,arcs,life,spread,churn\na,9,24,1099511627776,1,2\n")
    books.replied(b"a job j 5", b"a 1 ok", None)
    books.replied(b"a task j x", b"a 2 ok", None)
    book = books.tenants["a"]
    for number in range(3, roster.MAX_PATIENCE + 6):
        books.replied(b"a round", b"a %d ok round cost 5" % number, None)
        if number > roster.MAX_PATIENCE:
            require(book.waited(book.tasks["x"]) == min(number - 2, roster.MAX_PATIENCE), number)


def books_of_a_patient_tenant() -> None:
    """A wait is counted as far as the patience in the operator's line. A record and the state of the tenant have
    that patience; if the line is refused there is no such tenant."""
    books = Books()
    books.start(ROSTER)
    record = "gamma,9,24,100,1,2,7,2"
    books.replied(f"+ admit {record}".encode(), b"+ no 22 operator-row", None)
    require("gamma" not in books.tenants and books.refusals["operator-row"] == 1, books.tenants)
    books = Books()
    books.start(firmd_kit.extended(ROSTER, roster.MAX_PATIENCE))
    books.replied(f"+ admit {record}".encode(), b"+ ok admitted gamma", None)
    book = books.tenants["gamma"]
    require((book.limits.row(), book.limits.patience) == (record, 2), book.limits)
    for name, heading in (("gamma", "firm state 1 extended\n"), ("alpha", "firm state 1\n")):
        text = text_of(books.tenants[name])
        require(text.startswith(heading) and book_of(text).limits == books.tenants[name].limits, text)
    books.replied(b"gamma job j 5", b"gamma 1 ok", None)
    books.replied(b"gamma task j x", b"gamma 2 ok", None)
    for number, waited in enumerate([1, 2, 2, 2], 3):
        books.replied(b"gamma round", b"gamma %d ok round cost 5" % number, None)
        require(book.waited(book.tasks["x"]) == waited, number)


def books_of_foreign_replies() -> None:
    """A reply that belongs to no tenant is reported, not ignored."""
    books = Books()
    books.start(ROSTER)
    try:
        books.replied(b"gamma show", b"gamma 1 ok machines 0", None)
    except ValueError as error:
        require("gamma" in str(error), error)
        return
    raise Missed("a reply to gamma was taken in")


def lines_give_the_same_rows(streams: range) -> None:
    """The lines of a book, given to a tenant that is admitted by its row, give the same rows; running tasks wait
    again."""
    for seed in streams:
        draw = random.Random(seed)
        text_roster, text = random_stream(draw, 5)
        model = service.opened(text_roster)
        books = Books()
        books.start(text_roster)
        for line in service.lines_of(text):
            reply = service.answer_line(model, line)
            if reply is not None:
                books.replied(line, reply, None)
        fresh = service.Service({}, model.is_extended)
        for name, book in books.tenants.items():
            require(
                service.answer_line(fresh, f"+ admit {book.limits.row()}".encode()) == f"+ ok admitted {name}".encode(),
                book,
            )
            tenant, old = fresh.tenants[name], model.tenants[name]
            tenant.limits = tenant.limits._replace(life=10**6)
            for row in book.lines():
                reply = service.answer_line(fresh, row.encode())
                require(reply is not None and reply.endswith(b" ok"), f"seed {seed}: {row}: {reply!r}")
            for task in old.tasks.values():
                task.machine, task.waited = None, 0
            same = [getattr(tenant, rows) == getattr(old, rows) for rows in ("machines", "jobs", "tasks")]
            ordered = [
                list(getattr(tenant, rows)) == list(getattr(old, rows)) for rows in ("machines", "jobs", "tasks")
            ]
            require(all(same + ordered), f"seed {seed}: {name}")


def rosters_are_judged(rosters: range, built: str) -> None:
    """The first fault of a roster is the one that the plain service and firm name."""
    for seed in rosters:
        draw = random.Random(seed)
        text = random_bad_roster(draw)
        fault = fault_of(text)
        found = list(roster.faults_of(text))
        if fault is not None:
            named = service.ROSTER_FAULTS[fault - 1]
            require(bool(found) and found[0].name == named, f"seed {seed}: {found[:1]} for {named}")
        else:
            require(not found, f"seed {seed}: {found[:1]}")
            limits = [(each.tenant, each.nodes, each.arcs, each.life) for each in roster.read_roster(text)]
            require(
                limits == [(each.name, *each.limits[:3]) for each in service.read_roster(text).values()], f"seed {seed}"
            )
        if seed % 4 == 0:
            judged_by_firm(built, with_quotes(draw, text), seed)
    rows = [b"t%d,9,24,100,1,2\n" % place for place in range(65)]
    heading = ROSTER.split(b"\n")[0] + b"\n"
    for text, name in [
        (heading + b"".join(rows[:64]), None),
        (heading + b"".join(rows), "count"),
        (heading, "count"),
        (b"\xef\xbb\xbf" + ROSTER, None),
        (ROSTER.replace(b",40,", b",0000000000040,"), None),
        (ROSTER.replace(b",40,", b",00000000000040,"), "number"),
    ]:
        names = [found.name for found in roster.faults_of(text)]
        require(names == ([name] if name else []), f"{text[-40:]!r}: {names}")
    hostile = [
        b"",
        b"\n\r\n",
        b"\x00",
        b"\xff" * 70_000,
        b'"' * 65_000,
        b"," * 65_536,
        b'"tenant,nodes',
        ROSTER + b"\x00",
    ]
    for text in [
        *hostile,
        ROSTER.replace(b"\n", b"\x0b"),
        ROSTER.replace(b"alpha", b'"al\nha"'),
        ROSTER.replace(b"alpha", '"é"'.encode()),
    ]:
        require(list(roster.faults_of(text)), text[:40])


def with_quotes(draw: random.Random, text: bytes) -> bytes:
    """Return the text with quotes in some places, some of them in pairs around a field."""
    for _ in range(draw.randint(0, 3)):
        place = draw.randrange(len(text) + 1)
        fields = re.split(rb"([,\r\n]+)", text)
        field = draw.randrange(0, len(fields), 2)
        if draw.random() < 0.7:
            fields[field] = b'"' + fields[field] + b'"'
            text = b"".join(fields)
        else:
            text = text[:place] + b'"' + text[place:]
    return text


def judged_by_firm(built: str, text: bytes, seed: int) -> None:
    with program.Roster(text) as path:
        done = program.run([built], path, b"")
    found = list(roster.faults_of(text))
    named = done.faults.decode().split()[-1] if done.status else None
    require((found[0].name if found else None) == named, f"seed {seed}: {text!r}: {found[:1]} and firm: {named}")


def roster_faults_are_told() -> None:
    """check-roster names line, field and value of every fault, without a service."""
    text = "tenant,nodes,arcs,life,spread,churn\nalpha,9,24,100,1,2000000\n\nbeta,1,24,100,1\nAlpha,9,24,x,1,2\n"
    text += 'alpha,9,24,100,1,2\n"ga\nma",9,24,100,1,2\nx!,9,24,100,1,2\n'
    with tempfile.TemporaryDirectory(prefix="firm-") as folder:
        path = Path(folder) / "roster.csv"
        path.write_text(text)
        done = firmctl("check-roster", str(path), "--json")
        found = [
            (fault["line"], fault["name"], fault["field"], fault["value"])
            for fault in json.loads(done.output)["faults"]
        ]
        wanted = [
            (2, "number", "churn", "2000000"),
            (4, "row", "record", "beta,1,24,100,1"),
            (5, "name", "tenant", "Alpha"),
            (5, "number", "life", "x"),
            (6, "repeated-name", "tenant", "alpha"),
            (7, "name", "tenant", "ga\nma"),
            (9, "name", "tenant", "x!"),
        ]
        require((done.status, found) == (1, wanted), found)
        told = firmctl("check-roster", str(path))
        first = f"{path}:2: churn '2000000': a number from 0 to 1,000,000, written as 1 to 13 digits\n"
        require(told.status == 1 and told.output.decode().startswith(first), told)
        path.write_bytes(ROSTER)
        told = firmctl("check-roster", str(path))
        require(told == (0, f"{path}: no fault, tenants 2\n".encode(), b""), told)
        require(firmctl("check-roster", folder).status == 2, "a folder is no roster")
        told = firmctl("check-roster", "/dev/zero")
        require(told.status == 1 and told.faults.endswith(b"roster fault row\n"), told)


def firmctl(*words: str, **environment: str) -> program.Run:
    kept = {name: value for name, value in os.environ.items() if not name.startswith("FIRM_")}
    done = subprocess.run(
        [sys.executable, FIRMCTL, *words],
        stdin=subprocess.DEVNULL,
        capture_output=True,
        env={**kept, **environment},
        timeout=180,
    )
    return program.Run(done.returncode, done.stdout, done.stderr)


TASKS = """\
TENANT  TASK  JOB    STATE  MACHINE  WAITED  TIME  PREFERS
alpha   a     web    runs   m1            0     -  -
alpha   b     web    runs   m1            0     -  m2,m1
alpha   c     batch  runs   m2            0     -  -
alpha   d     batch  waits  -             1     -  m1
beta    a     low    waits  -             0     -  -
"""
MACHINES = """\
TENANT  MACHINE  SLOTS  FREE  TASKS
alpha   m1           2     0  a,b
alpha   m2           1     0  c
"""
JOBS = """\
TENANT  JOB  WEIGHT  RUNNING  WAITING
beta    low       2        0        1
"""
STATUS = """\
firmd has run for 1:0[0-9]:[0-9][0-9], firm is process [0-9]+
clients 3, unread replies 17 bytes
lines 15, 2 of them replayed at the start
journal 2,500 of 10,000 bytes, 25.0%

TENANT  MACHINES  SLOTS  FREE  JOBS  RUNNING  WAITING  ROUNDS  COST  COMMANDS  LIFE
alpha          2      3     0     2        3        1       2     5        11   100
beta           0      0     0     1        0        1       0     -         2     5
"""
LINES = """\
# alpha,12,40,100,1,2,0
alpha machine m1 2
alpha machine m2 1
alpha job web 10
alpha job batch 4
alpha task web a
alpha task web b m2 m1
alpha task batch c
alpha task batch d m1
"""


def tables_are_printed() -> None:
    with front() as started, api_of(started.state, "alpha", "beta") as server:
        at = ("--server", server)
        for words, wanted in [
            (["tasks"], TASKS),
            (["machines"], MACHINES),
            (["jobs", "beta"], JOBS),
            (["lines", "alpha"], LINES),
        ]:
            done = firmctl(*words, *at)
            require(done == (0, wanted.encode(), b""), f"{words}: {done.output.decode()}{done.faults.decode()}")
        done = firmctl(*at, "tasks", "beta")
        require(
            [line.split() for line in done.output.decode().splitlines()]
            == [TASKS.split("\n")[0].split(), TASKS.split("\n")[5].split()],
            done,
        )
        done = firmctl("status", FIRM_SERVER=server)
        require(done.status == 0 and re.fullmatch(STATUS, done.output.decode()), done.output.decode())
        for size, is_told in [(7_500, False), (7_501, True)]:
            started.status.journal_bytes = size
            said = firmctl("status", *at).output
            require((b"; firm is not restarted yet: see 'Snapshots' in" in said) == is_told, said.decode())


def json_is_printed() -> None:
    with front() as started, api_of(started.state, "alpha", "beta") as server:
        at = ("--json", "--server", server)
        tasks = json.loads(firmctl("tasks", *at).output)["tasks"]
        wanted = {
            "tenant": "alpha",
            "task": "d",
            "job": "batch",
            "state": "waits",
            "machine": None,
            "waited": 1,
            "seconds": None,
        }
        require(tasks[3] == {**wanted, "prefers": ["m1"], "line": 9}, tasks[3])
        machines = json.loads(firmctl(*at, "machines", "alpha").output)["machines"]
        require(machines[0] == {"tenant": "alpha", "machine": "m1", "slots": 2, "tasks": ["a", "b"]}, machines)
        status = json.loads(firmctl("status", *at).output)
        require(status["status"]["journal_limit"] == 10_000 and status["tenants"][1]["tenant"] == "beta", status)
        lines = json.loads(firmctl("lines", "beta", *at).output)
        number = lines.pop("number")  # of the tenant's last reply
        require(lines == {"row": "beta,8,30,5,0,3,0", "lines": ["beta job low 2", "beta task low a"]}, lines)
        require(number == 2, f"the last reply of beta is {number}")
        started.say(b"alpha done a", b"alpha round", seconds=0.01)

        def rows() -> list[dict[str, Any]]:
            found: list[dict[str, Any]] = json.loads(firmctl("tasks", "alpha", *at).output)["tasks"]
            return found

        require(wait_until(lambda: rows()[2]["machine"] == "m1"), "the round is not shown")
        tasks = rows()
        require(0 <= tasks[2]["seconds"] < 600 and tasks[0]["seconds"] is None, tasks)


def exit_statuses() -> None:
    """Each failure has its status. A user who may not send a tenant's lines sees none of its rows in firm."""
    known = b"alpha d (job batch, weight 4) waits, rounds so far 1, prefers m1\n"
    with front() as started:
        with api_of(started.state, "alpha", "beta", FIRM_EXPLAIN="/nonexistent/firm_explain") as server:
            at = ["--server", server]
            cases: list[tuple[list[str], int, bytes]] = [
                (["tasks", "gamma", *at], 1, b"no tenant 'gamma' is there"),
                (["lines", "gamma", *at], 1, b"no tenant 'gamma' is there"),
                (["watch", "gamma", *at], 1, b"no tenant 'gamma' is there"),
                (["watch", *at], 2, b"name a tenant: alpha, beta"),
                (["why", "z", *at], 1, b"no task 'z' is there"),
                (["why", "a", "gamma", *at], 1, b"no tenant 'gamma' is there"),
                (["why", "a", *at], 2, b"alpha, beta have a task 'a'"),
                (["ps", *at], 2, b"name a tenant, by --tenant or FIRM_TENANT: none has a queue"),
                (["ps", "--tenant", "alpha/../beta", *at], 1, b"no tenant has this name"),
                (["tasks", "--server", "/nonexistent"], 2, b"'/nonexistent' is not unix:PATH or https://HOST:PORT"),
                ([], 2, b"usage"),
                (["fly", *at], 2, b"usage"),
                (["lines", *at], 2, b"usage"),
                (["tasks", "--server", "unix:/nonexistent"], 3, b"no firm-api answers at unix:/nonexistent: No such"),
                (["why", "d", *at], 4, b"firm_explain can't be run: /nonexistent/firm_explain"),
            ]
            for words, status, told in cases:
                done = firmctl(*words)
                require(done.status == status and told in done.faults, f"{words}: {done}")
            require(firmctl("why", "d", *at).output == known, "what is known all the same")
        done = firmctl("tasks", *at)
        require(done.status == 3, done)


def firmctl_over_firmd(built: str) -> None:
    """The output of firmctl on a running firmd, and on one that was killed and started again."""
    with firmd_kit.Setup(built, True, 1).daemon(roster=ROSTER) as daemon:
        daemon.start()
        with firmd_kit.Client(daemon.operator) as client:
            replies = [client.ask(line) for line in DAY]
        require(replies[7] == b"alpha 8 ok round cost 1 start a m1 start b m1 start c m2", replies)
        with api_of(daemon.state, "alpha", "beta") as server:
            at = ("--server", server)
            times = re.findall(r"  (\d+:\d\d)  ", firmctl("tasks", *at).output.decode())
            require(len(times) == 5, f"five tasks have times: {times}")
            daemon.kill()
            require(wait_until(lambda: firmctl("tasks", *at).status == 3), "no report that firmd is away")
            daemon.start()
            require(wait_until(lambda: firmctl("tasks", *at).status == 0), "it is there again")
            for words, wanted in [(["tasks"], TASKS), (["machines"], MACHINES), (["lines", "alpha"], LINES)]:
                done = firmctl(*words, *at)
                require(done == (0, wanted.encode(), b""), f"{words}: {done.output.decode()}{done.faults.decode()}")
            told = firmctl("status", *at).output
            require(b"lines 14, 14 of them replayed at the start" in told, told)
        with Viewer(daemon.state) as watcher:
            require(watcher.ask({"ask": "watch", "tenant": "alpha"})["book"] is not None, "watch")
            daemon.stop()
            require(watcher.next() is None, "a watcher is closed at a stop")


def metrics_over_firmd(built: str) -> None:
    """firmd's view has its metrics."""
    if missing := missing_of(["prometheus_client"]):
        raise Skipped(f"{sys.executable} has no {' and no '.join(missing)}")
    with firmd_kit.Setup(built, True, 1).daemon(roster=ROSTER) as daemon:
        daemon.start()
        with firmd_kit.Client(daemon.operator) as client:
            for line in DAY:
                client.ask(line)
        require(wait_until(lambda: samples_of(daemon.state)["firm_lines_total", ""] == 14), "all lines are counted")
        samples = samples_of(daemon.state)
        wanted = {("firm_lines_total", ""): 14, ("firm_rounds_total", "tenant=alpha"): 2}
        wrong = {key: samples.get(key) for key, value in wanted.items() if samples.get(key) != value}
        require(not wrong and samples["firm_round_seconds_count", ""] == 2, wrong)
        require(samples["firm_process_resident_memory_bytes", ""] > 0, "the process of firm")


def watchers_follow() -> None:
    """A watch gives the rows as they are, and then each line of its tenant, in order, past its retirement."""
    with front() as started, Viewer(started.state) as alpha, Viewer(started.state) as gamma:
        first = alpha.ask({"ask": "watch", "tenant": "alpha"})["book"]
        require([task["task"] for task in first["tasks"]] == ["a", "b", "c", "d"] and first["costs"][-1] == 5, first)
        none = {"state": "stand-in", "line": started.books.lines, "book": None}
        require(gamma.ask({"ask": "watch", "tenant": "gamma"}) == none, "gamma")
        lines = [
            b"alpha done a",
            b"beta show",
            b"alpha \x1b[2J\xff",
            b"zeta show",
            b"# no reply",
            b"+ retire alpha",
            b"alpha show",
        ]
        lines += [
            b"+ admit gamma,9,24,100,1,2",
            b"+ admit alpha,9,24,100,1,2",
            b"gamma job j 1",
            b"alpha show",
            b"x" * 300,
        ]
        started.say(*lines, seconds=0.001)
        told = [alpha.next() for _ in range(5)]
        wanted = ["alpha done a", "alpha \x1b[2J\\xff", "+ retire alpha", "+ admit alpha,9,24,100,1,2", "alpha show"]
        require([event["line"] for event in told] == wanted, told)
        require([event["number"] for event in told] == [16, 18, 20, 23, 25], told)
        require([gamma.next()["line"] for _ in range(2)] == ["+ admit gamma,9,24,100,1,2", "gamma job j 1"], "gamma")
        require(len(started.shown.watchers) == 2, started.shown.watchers)
        gamma.__exit__()
        require(wait_until(lambda: len(started.shown.watchers) == 1), "a watcher stays behind")


def closed_watchers_leave_nothing() -> None:
    """The timer that would end a closed watcher, which does not read, is removed with its connection."""
    with front() as started:

        def timers() -> int:
            return sum(not timer.cancelled() for timer in getattr(started.loop, "_scheduled"))

        async def lose() -> None:
            started.shown.replace(started.books, "stand-in")

        before = timers()
        for _ in range(20):
            with Viewer(started.state) as viewer:
                viewer.ask({"ask": "watch", "tenant": "alpha"})
                started.run(lose())
                require(viewer.next()["error"] == "behind" and viewer.next() is None, "it is closed")
        require(wait_until(lambda: timers() == before, NOT_LATE_SECONDS), f"{timers()} timers instead of {before}")


def watch_prints() -> None:
    """firmctl watch prints each line with its reply at once, and nothing in it can steer a terminal."""
    with front() as started:
        with api_of(started.state, "alpha", "beta") as server:
            words = [sys.executable, str(FIRMCTL), "watch", "alpha", "--server", server]
            watching = subprocess.Popen(words, stdout=subprocess.PIPE, stderr=subprocess.PIPE)
            try:
                printed, line = program.opened(watching.stdout), ""
                ends = time.monotonic() + LIMIT_SECONDS
                while not line and time.monotonic() < ends:  # its watch begins some time after its start
                    started.say(b"alpha \x1b[2J", seconds=0.001)
                    line = printed.readline().decode() if select.select([printed], [], [], 0.2)[0] else ""
                form = r"\d\d:\d\d:\d\d  alpha \\x1b\[2J  ->  alpha \d+ no 2 bad-command\n"
                require(re.fullmatch(form, line) is not None, line)
            except BaseException:
                watching.kill()
                raise
        _, told = watching.communicate(timeout=LIMIT_SECONDS)
        require(watching.returncode == 3 and b"has closed the connection" in told, told)


def views_refuse() -> None:
    """An invalid request is refused by name, and the connection goes on."""
    with front() as started, Viewer(started.state) as viewer:
        for text in (
            b"no json",
            b"[1]",
            b'"status"',
            b'{"ask": 3}',
            b'{"ask": "fly"}',
            b'{"ask": "watch", "tenant": ["beta"]}',
            b'{"ask": "watch"}',
            b"{}",
            b"[" * 5000,
            b"\xff\xfe",
            b"",
        ):
            viewer.send(text + b"\n")
            answer = viewer.next()
            require(answer["error"] == "bad-request", f"{text[:20]!r}: {answer}")
        shown = viewer.ask({"ask": "watch", "tenant": "beta"})["book"]
        require(shown["limits"]["life"] == 5, "the connection goes on")
        with contextlib.suppress(ConnectionError):  # it may be closed before all is sent
            viewer.send(b"x" * 100_000)
        require(viewer.next() is None, "an endless line is held")
    with front() as started, contextlib.ExitStack() as stack:
        viewers = [stack.enter_context(Viewer(started.state)) for _ in range(MOST_CLIENTS)]
        require(all("status" in viewer.ask({"ask": "status"}) for viewer in viewers), "a view is refused")
        with Viewer(started.state) as last:
            require(last.next()["error"] == "too-many-clients", "one view more is taken")
        viewers[0].__exit__()
        require(wait_until(lambda: is_answered(started.state)), "a place that is free again is not given")


def is_answered(state: Path) -> bool:
    with contextlib.suppress(OSError), Viewer(state) as viewer:
        return "status" in (viewer.ask({"ask": "status"}) or ())
    return False


def slow_watchers_are_closed() -> None:
    """A watcher that does not read is dropped, and delays nobody."""
    with front() as started, Viewer(started.state) as slow, Viewer(started.state) as other:
        slow.ask({"ask": "watch", "tenant": "alpha"})
        require(wait_until(lambda: len(started.shown.watchers) == 1), "it does not watch")
        line = b"alpha " + b"x" * 240
        count = 0
        while started.shown.watchers and count < 4 * MOST_UNREAD // len(line):
            started.say(*[line] * 1000, seconds=0.001)
            count += 1000
        require(not started.shown.watchers, f"it still watches after {count} lines")
        require("status" in other.ask({"ask": "status"}), "another view")
        require(slow.answers.read().count(b"\n") < count, "what it had not read is dropped")


def checks(built: str, streams: range) -> dict[str, Check]:
    """Return the checks that need only the built program."""
    fewer = streams[: len(streams) // 4]
    return {
        f"books beside the plain service, {len(streams)} streams": partial(books_beside_the_service, streams),
        "books of worn tenants": books_of_worn_tenants,
        "books of a patient tenant": books_of_a_patient_tenant,
        "books, a reply that belongs to no tenant": books_of_foreign_replies,
        "lines that give the same rows": partial(lines_give_the_same_rows, fewer),
        "rosters are judged as firm does": partial(rosters_are_judged, streams, built),
        "check-roster": roster_faults_are_told,
        "firmctl, tables": tables_are_printed,
        "firmctl, JSON": json_is_printed,
        "firmctl, exit statuses": exit_statuses,
        "firmctl, watch": watch_prints,
        "view, watchers": watchers_follow,
        "view, closed watchers": closed_watchers_leave_nothing,
        "view, refusals and limits": views_refuse,
        "view, slow watchers": slow_watchers_are_closed,
        "firmctl over firmd": partial(firmctl_over_firmd, built),
        "metrics of firmd": partial(metrics_over_firmd, built),
        f"books beside firm, {len(fewer)} streams": partial(books_beside_firm, built, fewer),
    }


def main() -> int:
    parser = argparse.ArgumentParser(description=(__doc__ or "").splitlines()[0])
    program.add_program(parser)
    parser.add_argument("--quick", action="store_true", help="the part that tests/quick runs")
    parser.add_argument("--only", default="", help="run only the checks whose names have these words")
    parser.add_argument("--streams", type=int, default=3000)
    parser.add_argument("--first", type=int, default=1, help="first seed of the streams")
    options = parser.parse_args()
    count = min(options.streams, 100) if options.quick else options.streams
    found = checks(options.program, range(options.first, options.first + count)) | web_checks()
    if options.quick:
        print_skipped("books of the longest waits", "--quick leaves out a million rounds")
    else:
        found["books of the longest waits"] = books_of_long_waits
    chosen = {name: check for name, check in found.items() if options.only in name}
    return run_suites(Suite(chosen))


if __name__ == "__main__":
    run_script(main)
