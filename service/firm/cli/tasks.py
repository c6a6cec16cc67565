"""firmctl's commands on a tenant's queue: submit, list, stop and wait for work."""

from __future__ import annotations

import argparse
import os
import shlex
import sys
import time
from collections import Counter
from collections.abc import Callable, Iterator, Mapping, Sequence
from functools import partial
from typing import Any

from ..client import calls
from ..client.blocking import PATIENCE, ApiClient, ApiError, Json, get, one
from ..client.calls import ENDED, Changes, Listing, TaskEnd
from ..common import quantities, tables
from ..common.tables import Column, Row, names, number, printable
from . import accounting, submissions
from .columns import TASKS, TIME, escaped, moment, table, table_with_starts
from .command_line import NOT_THERE, USAGE, Failure, Verb, Verbs, show
from .submissions import typed_text
from .target import Asking, with_statuses

TIMED_OUT, UNKNOWN = 124, 125  # statuses of `wait`, as those of timeout and docker
WAIT_EXITS = """\
exit statuses:
  0    all succeeded
  N    the status of the first named task that did not succeed; 128 + N if signal N ended it
  124  the time limit of that task, or --seconds, was exceeded
  125  that task has no status: cancelled, unmet or lost; or it can't be waited for
  2    the command line"""
CHANGE_NOTE = "names are changed one by one; status 1: one is missing or unchanged"
START_NOTE = """\
--start estimates, without a promise: users take turns, a user's slots go to the greatest weight plus rounds waited, and
a task lasts as long as the average finished task of its job, and at most its --time. A dash: neither duration is known,
or the task is held or blocked."""
TOP_SECONDS, TOP_TASKS = 2.0, 30
CLEAR = "\x1b[H\x1b[2J"
MAX_OF_DAY = "1d"
OverQueue = Callable[[ApiClient, argparse.Namespace], None]


def moments(head: str, key: str) -> Column:
    return Column(head, lambda row: moment(row[key]))


MACHINES = [escaped("MACHINE", "machine"), escaped("STATE", "state"), number("SLOTS", "slots"), number("RUNS", "open")]
MACHINES += [escaped("AGENT", "agent"), escaped("HOST", "host"), names("TASKS", "tasks"), escaped("REASON", "reason")]
AGENTS = [escaped("AGENT", "agent"), escaped("HOST", "host"), escaped("STATE", "state"), number("RUNS", "open")]
AGENTS += [Column("SILENT", lambda row: tables.duration(row["silent"]), is_number=True), names("MACHINES", "machines")]
STATES = Column("STATES", lambda row: counts_text(row["states"]))
JOBS = [escaped("JOB", "job"), escaped("USER", "user"), number("WEIGHT", "weight"), STATES]
USED = [Column("CPU", lambda row: tables.duration(row["cpu_seconds"]), is_number=True)]
USED += [Column("MAXRSS", lambda row: tables.size(row["max_rss"]), is_number=True)]
PAST_FIELDS = "task number index attempt user job machine agent run submitted began ended seconds".split()
PAST_FIELDS += "cpu_seconds max_rss outcome status reason output host".split()
PAST = [escaped("TASK", "task"), number("ATTEMPT", "attempt"), escaped("USER", "user"), escaped("JOB", "job")]
PAST += [escaped("MACHINE", "machine"), moments("BEGAN", "began"), moments("ENDED", "ended"), TIME, *USED]
PAST += [escaped("OUTCOME", "outcome"), number("STATUS", "status"), escaped("REASON", "reason")]

ATTEMPTS = [number("ATTEMPT", "attempt"), escaped("MACHINE", "machine"), escaped("AGENT", "agent")]
ATTEMPTS += [moments("BEGAN", "began"), moments("ENDED", "ended"), TIME, *USED, escaped("OUTCOME", "outcome")]
ATTEMPTS += [number("STATUS", "status"), escaped("REASON", "reason"), escaped("OUTPUT", "output")]


def over_queue(verb: OverQueue, failed: int | None = None) -> Verb:
    """Return a verb on a tenant's queue. Its failures have their exit statuses, or `failed`."""
    return with_statuses(lambda options: verb(Asking(options).use_queue(), options), failed)


def list_of(kind: str, columns: Sequence[Column]) -> OverQueue:
    """Return the verb that prints a list."""

    def verb(client: ApiClient, options: argparse.Namespace) -> None:
        rows = client.ask(calls.rows_of(kind))
        show(options, {kind: rows}, lambda _: tables.table(columns, rows))

    return verb


def counts_text(counts: Mapping[str, int]) -> str:
    return ", ".join(f"{count:,} {state}" for state, count in counts.items() if count) or "-"


def submit(options: argparse.Namespace) -> None:
    found = submissions.submit(options)
    show(options, {"submitted": found}, lambda _: "".join(f"{row['number']}\n" for row in found))


def ps(client: ApiClient, options: argparse.Namespace) -> None:
    is_all = options.all or options.task  # a named task is shown in any state
    states = options.states or (accounting.STATES if is_all else ())
    rows = named_tasks(client, options, states) if options.task else all_tasks(client, options, states)
    show(options, {"tasks": rows}, lambda _: table_with_starts(rows) if options.start else table(rows))
    warn_of_rest(rows)


def all_tasks(client: ApiClient, options: argparse.Namespace, states: Sequence[str]) -> Listing[Any]:
    return client.ask(calls.tasks(states, options.user, options.job, start=options.start))


def named_tasks(client: ApiClient, options: argparse.Namespace, states: Sequence[str]) -> Listing[Any]:
    """Return the named tasks, or all of the named submissions, by number and index."""
    found: dict[tuple[int, int], Any] = {}
    for name in options.task:
        if not quantities.is_task(name):
            raise ApiError("no-such-task", f"{name}: no such task")
        of, _, index = name.partition("_")
        for row in client.ask(calls.tasks(states, options.user, options.job, of, options.start)):
            if not index or row["index"] == int(index):
                found[row["number"] or 0, row["index"] or 0] = row
    return Listing(found[key] for key in sorted(found))


def show_task(client: ApiClient, options: argparse.Namespace) -> None:
    """Print a task's state, the specification of its submission, and its attempts."""
    row = client.ask(calls.one_task(options.task))
    spec, attempts = row.pop("spec") or {}, row.pop("attempts")
    answer: Row = {"task": row, "spec": spec, "attempts": attempts}
    show(
        options,
        answer,
        lambda _: "".join(detail_lines(row, spec, attempts)) + (tables.table(ATTEMPTS, attempts) if attempts else ""),
    )


def detail_lines(task: Row, spec: Row, attempts: Sequence[Row]) -> Iterator[str]:
    spec = {name: value for name, value in spec.items() if value not in (None, 0, [], {})}
    if at_once := spec.pop("at_once", None):
        spec["array"] = f"{spec_text('array', spec['array'])}%{at_once}"
    row: Row = {"task": task["task"], "firm's name": task["firm"], "state": task["state"], "reason": task["reason"]}
    row |= {"user": task["user"], "job": task["job"], "weight": task["weight"], "submitted": moment(task["submitted"])}
    row |= {"ended": moment(task["ended"]) if task["state"] in ENDED else "", "status": task["status"]}
    row |= {"command": shlex.join(spec.pop("command", ())), **{name: spec_text(name, spec[name]) for name in spec}}
    width = max(map(len, row))
    for name, value in row.items():
        if value not in (None, ""):
            yield f"{name:>{width}}: {printable(str(value))}\n"
    yield "\n" if attempts else ""


def spec_text(name: str, value: Any) -> str:
    """Return a field of a specification, as on the command line."""
    if name == "env":
        return shlex.join(f"{key}={text}" for key, text in value.items())
    if name == "array" and isinstance(value, list):
        return "-".join(map(str, value))
    if isinstance(value, list):
        return ",".join(map(str, value))
    return tables.duration(value) if name in ("time", "grace") else str(value)


def warn_of_rest(rows: Listing[Json]) -> None:
    if rows.is_cut:
        print("firmctl: the list is cut; name a user, a job or tasks", file=sys.stderr)


def logs(client: ApiClient, options: argparse.Namespace) -> None:
    client.ask(calls.one_task(options.task))
    client.patience = PATIENCE  # from here on, so that a server missing at first is reported at once
    for piece in client.log(options.task, options.attempt, follow=options.follow):
        sys.stdout.buffer.write(piece)
        sys.stdout.buffer.flush()


def change(verb: str, client: ApiClient, options: argparse.Namespace) -> None:
    """Return the verb cancel, hold or release, for tasks and jobs."""
    tasks = [word for word in options.what if quantities.is_task(word)]
    jobs = [word for word in options.what if not quantities.is_task(word)] + options.job
    if not tasks and not jobs:
        raise Failure(USAGE, "name a task or a job")
    print_change(options, client.ask(calls.change(verb, tasks, jobs)), tasks + jobs)


def change_machines(verb: str, client: ApiClient, options: argparse.Namespace) -> None:
    if verb == "drain" and not options.kill:
        raise Failure(USAGE, "a drain ends the runs there: add --kill, or cordon the machine to let them finish")
    reason = getattr(options, "reason", None)
    print_change(options, client.ask(calls.mark(verb, options.machine, reason)), options.machine)


def print_change(options: argparse.Namespace, done: Changes, named: Sequence[str]) -> None:
    """Print the changed names. Fail if nothing is changed, or if a name of the command line is not."""
    unchanged = done["unchanged"]
    show(options, {**done}, lambda _: "".join(f"{name}\n" for name in done["changed"]))
    for name, why in {} if options.json else unchanged.items():
        print(f"firmctl: {printable(name)}: {printable(why)}", file=sys.stderr)
    if unchanged and not done["changed"]:
        raise Failure(NOT_THERE, "nothing is changed")
    if left := [name for name in named if name in unchanged]:
        raise Failure(NOT_THERE, f"not changed: {', '.join(map(printable, left))}")


def wait(client: ApiClient, options: argparse.Namespace) -> None:
    client.ask(calls.wait(options.task, 0.0))
    client.patience = PATIENCE  # as for logs
    ends = client.ask(calls.wait(options.task, options.seconds))
    show(options, {"tasks": ends}, lambda _: "")
    for name, end in ends.items():
        if end["state"] != "done":
            text = f"{end['state']}, status {end['status']}" if end["status"] is not None else end["state"]
            raise Failure(status_of(end), f"{name}: {text}")


def status_of(end: TaskEnd) -> int:
    if end["state"] == "timeout" or end["state"] not in ENDED:
        return TIMED_OUT
    return end["status"] if end["state"] == "failed" and end["status"] else UNKNOWN


def history(client: ApiClient, options: argparse.Namespace) -> None:
    names = ("since", "until", "user", "job", "task")
    attempts = client.ask(calls.history(**{name: getattr(options, name) for name in names}))
    if options.by is None:
        rows, columns = [{field: row[field] for field in PAST_FIELDS} for row in attempts], PAST
    else:
        rows = list(accounting.sums(attempts, accounting.key_of(options.by, client.tenant)))
        columns = accounting.SUMS
    if options.csv:
        write_csv(rows)
    else:
        show(options, {"history": rows}, lambda _: tables.table(columns, rows))
    warn_of_rest(attempts)


def write_csv(rows: list[Row]) -> None:
    import csv  # here, since no other list needs it

    if rows:
        writer = csv.DictWriter(sys.stdout, list(rows[0]), lineterminator="\n")
        writer.writeheader()
        writer.writerows({name: accounting.safe_cell(value) for name, value in row.items()} for row in rows)


def top(client: ApiClient, options: argparse.Namespace) -> None:
    """Print a summary, periodically on a terminal, once elsewhere."""
    is_terminal = sys.stdout.isatty() and not options.json and not options.once
    while True:
        answer: Row = {"machines": client.ask(calls.rows_of("machines"))}
        answer |= {"tasks": client.ask(calls.tasks(accounting.WITH_PROCESS)), "status": client.ask(one(get("")))}
        text = partial(top_text, os.get_terminal_size().lines - 8 if is_terminal else TOP_TASKS)
        if is_terminal:
            sys.stdout.write(CLEAR)
        show(options, answer, text)
        sys.stdout.flush()
        if not is_terminal:
            return
        time.sleep(TOP_SECONDS)


def summary(status: Row, machines: Sequence[Row]) -> str:
    """Return the queue in numbers, a line for each part."""
    slots, states = sum(row["slots"] or 0 for row in machines), Counter(row["state"] for row in machines)
    firm = status["firm"]
    uses = ", ".join(f"{used:,} of {of:,} {what}" for what in ("nodes", "arcs") for used, of in [firm[what]])
    lines = [
        f"tenant {status['tenant']}: {counts_text(status['states'])}",
        f"machines: {counts_text(states)}; processes {sum(row['open'] for row in machines):,} of {slots:,} slots",
        f"firm: {printable(firm['reason']) or 'there'}, {firm['tasks']:,} tasks, {uses}",
        *[f"differs: {printable(words)}" for words in status["differences"]],
    ]
    return "".join(line + "\n" for line in lines)


def top_text(most: int, answer: Row) -> str:
    running = sorted(answer["tasks"], key=lambda row: -(row["seconds"] or 0))
    return summary(answer["status"], answer["machines"]) + "\n" + tables.table(TASKS, running[: max(1, most)])


def queue_status(client: ApiClient, options: argparse.Namespace) -> None:
    status, machines = client.ask(one(get(""))), client.ask(calls.rows_of("machines"))
    show(options, {"status": status}, lambda _: summary(status, machines))


def of_queue(name: str) -> Verb:
    """Return the queue's form of a verb that firm's rows have too."""
    return over_queue(OF_BOTH[name])


OF_BOTH: dict[str, OverQueue] = {
    "status": queue_status,
    "machines": list_of("machines", MACHINES),
    "jobs": list_of("jobs", JOBS),
}


def add_verbs(verbs: Verbs) -> None:
    """Add the verbs that only a queue has."""
    add_work(verbs)
    for verb, explained in [
        ("cancel", "end tasks, waiting or running"),
        ("hold", "keep tasks from starting; running ones continue"),
        ("release", "let held tasks start"),
    ]:
        command = verbs.add(verb, over_queue(partial(change, verb)), explained, CHANGE_NOTE)
        command.add_argument("what", nargs="*", metavar="TASK|JOB", help="a task, a submission, or a job")
        command.add_argument("--job", action="append", default=[], metavar="NAME", help="a job of any name")
    for verb, explained in [
        ("cordon", "start no further tasks on machines (operators)"),
        ("uncordon", "let tasks start there again (operators)"),
        ("drain", "end the runs on machines, and start them elsewhere (operators)"),
    ]:
        command = verbs.add(verb, over_queue(partial(change_machines, verb)), explained)
        command.add_argument("machine", nargs="+", metavar="MACHINE")
        if verb != "uncordon":
            command.add_argument("--reason", metavar="TEXT", help="reason, shown with the machine and its runs")
        if verb == "drain":
            command.add_argument("--kill", action="store_true", help="confirm the end of the runs there")
    verbs.add("agents", over_queue(list_of("agents", AGENTS)), "agents, with the time since their last message")
    command = verbs.add("top", over_queue(top), "a summary every two seconds")
    command.add_argument("--once", action="store_true", help="print it once")


def add_work(verbs: Verbs) -> None:
    explained = "submit a command, or those of a file, and print the number of each submission"
    submissions.add_options(verbs.add("submit", with_statuses(submit), explained, submissions.SUBMIT_NOTE))
    explained = "unfinished tasks, with states and reasons"
    command = verbs.add("ps", over_queue(ps), explained, START_NOTE)
    command.add_argument("task", nargs="*", metavar="TASK", help="only these")
    command.add_argument("--all", action="store_true", help="include finished tasks")
    command.add_argument("--start", action="store_true", help="add an estimate of when each waiting task starts")
    explained = "only in these states"
    command.add_argument("--states", type=quantities.names_of, metavar="STATE,..", help=explained)
    add_choice(command)
    command = verbs.add("show", over_queue(show_task), "a task's state, its submission's options, and its attempts")
    command.add_argument("task", metavar="TASK")
    command = verbs.add("logs", over_queue(logs), "output of a task")
    command.add_argument("task", metavar="TASK")
    command.add_argument("-f", "--follow", action="store_true", help="continue until it has ended")
    command.add_argument("--attempt", type=quantities.whole_of, metavar="N", help="of its attempts (default: the last)")
    command = verbs.add("wait", over_queue(wait, UNKNOWN), "wait until tasks have ended", WAIT_EXITS)
    command.add_argument("task", nargs="+", metavar="TASK")
    seconds = partial(typed_text, quantities.seconds_of)
    command.add_argument("--seconds", type=seconds, metavar="TIME", help="wait no longer")
    add_history(verbs)


def add_history(verbs: Verbs) -> None:
    if not verbs.has("history"):
        return
    command = verbs.add("history", over_queue(history), "ended attempts: user, time, machine, duration and outcome")
    command.add_argument("task", nargs="?", metavar="TASK")
    instant = partial(typed_text, quantities.instant_of)
    explained = "ended since: 2026-11-26, 09:00, or a time ago as 2h (default: 1d)"
    command.add_argument(
        "--since", type=instant, default=quantities.instant_of(MAX_OF_DAY), metavar="WHEN", help=explained
    )
    command.add_argument("--until", type=instant, metavar="WHEN", help="ended before")
    add_choice(command)
    command.add_argument("--by", choices=accounting.KEYS, help="print sums by this key")
    command.add_argument("--csv", action="store_true", help="print CSV")


def add_choice(command: argparse.ArgumentParser) -> None:
    command.add_argument("--user", metavar="NAME", help="only of this user")
    command.add_argument("--job", metavar="NAME", help="only of this job")
