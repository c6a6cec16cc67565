"""Show running and waiting tasks with reasons, and submit work to a tenant's queue. firm-api answers."""

from __future__ import annotations

import argparse
import json
import sys
import time
from collections.abc import Sequence
from pathlib import Path
from typing import Any

from ..client.blocking import PATIENCE, ApiError, Json, get, one
from ..common import tables
from ..common.fields import whole
from ..common.tables import Column, Row, names, number, text
from ..common.version import add_version
from .command_line import NOT_THERE, USAGE, Failure, Verb, Verbs, in_pipe, run, show
from .target import Asking, add_server, new_tenant, with_statuses

# Verbs on firm's rows. firmctl makes only their parsers for one of them, and not theirs for other frequent verbs.
OF_FIRM = frozenset("tasks machines jobs status why what-if plan send".split())
JOURNAL = "journal"
NAMES = OF_FIRM | {JOURNAL} | frozenset("ps show submit logs wait top history agents cancel".split())
WITH_VALUE = ("--server", "--tenant", "--token", "--ca")
LINES_AT_ONCE = 1_000  # in a request
SEND_NOTE = "Each line is sent once. After status 3 firm may have obeyed lines that have no reply."
WARNED_SHARE = 0.75  # of firm's input limit: from a half on a restarted firm should replace it
EXITS = """\
exit statuses:
  0  success
  1  no such tenant, task, machine or round; faulty lines; a roster that is faulty or too large; or a refusal of the
     server
  2  the command line, a file that can't be read, or a name that several tenants have
  3  no server answers, firmd or the queue is away, or the journal can't be read
  4  a program for the answer is not built, failed, or took too long"""

TIME = Column("TIME", lambda row: tables.duration(row["seconds"]), is_number=True)
TASKS = [text("TENANT", "tenant"), text("TASK", "task"), text("JOB", "job"), text("STATE", "state")]
TASKS += [text("MACHINE", "machine"), number("WAITED", "waited"), TIME, names("PREFERS", "prefers")]
FREE = Column("FREE", lambda row: row["slots"] - len(row["tasks"]), is_number=True)
MACHINES = [
    text("TENANT", "tenant"),
    text("MACHINE", "machine"),
    number("SLOTS", "slots"),
    FREE,
    names("TASKS", "tasks"),
]
JOBS = [text("TENANT", "tenant"), text("JOB", "job"), number("WEIGHT", "weight")]
JOBS += [number("RUNNING", "running"), number("WAITING", "waiting")]
COUNTS = {"MACHINES": "machines", "SLOTS": "slots", "FREE": "free_slots", "JOBS": "jobs", "RUNNING": "running"}
COUNTS |= {"WAITING": "waiting", "ROUNDS": "rounds", "COST": "last_cost", "COMMANDS": "commands", "LIFE": "life"}
TENANTS = [text("TENANT", "tenant"), *(number(head, key) for head, key in COUNTS.items())]


def rows(columns: Sequence[Column], kind: str) -> Verb:
    """Return the verb that prints firm's rows of a kind."""

    def command(options: argparse.Namespace) -> None:
        from ..client.calls import pages

        asking = Asking(options)
        found: list[Json] = []
        for asking.client.tenant in asking.tenants(options.tenant):
            found += asking.client.ask(pages(f"firm/{kind}", "rows"))
        show(options, {kind: found}, lambda _: tables.table(columns, found))

    return with_statuses(command, is_named=False)


def status_text(answer: Row) -> str:
    status: dict[str, Any] = answer["status"]
    part, age = status["journal_bytes"] / status["journal_limit"], time.time() - status["started"]
    warning = "; firm is not restarted yet: see 'Snapshots' in docs/OPERATING.md" if part > WARNED_SHARE else ""
    return (
        f"firmd has run for {tables.duration(age)}, firm is process {status['firm_process']}\n"
        f"clients {status['clients']}, unread replies {status['unread_replies']:,} bytes\n"
        f"lines {status['lines']:,}, {status['replayed_lines']:,} of them replayed at the start\n"
        f"journal {status['journal_bytes']:,} of {status['journal_limit']:,} bytes, {part:.1%}{warning}\n"
        + replicas_text(status)
        + "\n"
        + tables.table(TENANTS, answer["tenants"])
    )


def replicas_text(status: Row) -> str:
    """Return the line about other replicas and etcd, if any."""
    if not status["etcd_quota"]:
        return ""
    behind = [f"{name} {max(0, status['journal_bytes'] - size):,}" for name, size in status["replicas"].items()]
    used, quota = status["etcd_bytes"], status["etcd_quota"]
    return f"etcd {used:,} of {quota:,} bytes, {used / quota:.1%}; bytes behind: {', '.join(behind) or '-'}\n"


def status(options: argparse.Namespace) -> None:
    client = Asking(options).client
    answer = {"status": client.ask(one(get("/v1/firmd")))}
    tenants = client.ask(one(get("/v1/tenants")))["tenants"]
    show(options, {**answer, "tenants": [row for row in tenants if "life" in row]}, status_text)


def lines(options: argparse.Namespace) -> None:
    """Print lines that give a new tenant the same rows."""
    from ..explain.book_states import book_of

    client = Asking(options).client
    client.tenant = options.tenant
    book = book_of(client.ask(one(get("state")))["text"])
    answer = {"row": book.limits.row(), "lines": list(book.lines()), "number": book.commands}
    show(options, answer, lambda answer: f"# {answer['row']}\n" + "".join(line + "\n" for line in answer["lines"]))


def watch(options: argparse.Namespace) -> None:
    """Print each line with its reply, until the connection ends."""
    asking = Asking(options)
    names = asking.tenants(options.tenant)
    if len(names) != 1:
        raise Failure(USAGE, f"name a tenant: {', '.join(names) or 'none is there'}")
    asking.client.tenant = names[0]
    for kind, event in asking.client.events(lines=True):
        if kind == "reset":
            print("firmctl: earlier lines are not shown", file=sys.stderr)
        elif kind == "line" and options.json:
            print(json.dumps(event), flush=True)
        elif kind == "line":
            clock = time.strftime("%H:%M:%S")
            print(f"{clock}  {tables.printable(event['line'])}  ->  {event['reply']}", flush=True)


def send(options: argparse.Namespace) -> None:
    """Send lines, and print the replies, including those before a lost connection."""
    from ..client.calls import lines
    from ..common.lines import gets_reply
    from .questions import lines_of, tenant_named

    given = [line for line in lines_of(options.file) if gets_reply(line)]
    tenant, replies = options.tenant or tenant_named(given), list[str]()
    if tenant is None:
        raise Failure(USAGE, f"{options.file} has no line of a tenant")
    client = Asking(options, PATIENCE).client
    try:
        for at in range(0, len(given), LINES_AT_ONCE):
            some = [line.decode("utf-8", "backslashreplace") for line in given[at : at + LINES_AT_ONCE]]
            replies += client.ask(lines(tenant, some))
    except ApiError as error:
        replies += error.more.get("replies", [])
        raise
    finally:
        show(options, {"replies": replies}, lambda answer: "".join(f"{reply}\n" for reply in answer["replies"]))


def check_roster(options: argparse.Namespace) -> None:
    from dataclasses import asdict

    from ..common import roster  # here, like `sizes` below: no other verb needs these

    try:
        with open(options.file, "rb") as file:
            data = file.read(roster.MAX_BYTES + 1)
    except OSError as error:
        raise Failure(USAGE, f"cannot read {options.file}: {error.strerror}") from error
    faults = list(roster.faults_of(data))
    tenants = 0 if faults else len(roster.read_roster(data))
    answer = {"file": options.file, "tenants": tenants, "faults": [asdict(fault) for fault in faults]}
    text = "".join(f"{options.file}:{fault.line}: {fault}\n" for fault in faults)
    show(options, answer, lambda _: text or f"{options.file}: no fault, tenants {tenants}\n")
    if faults:
        raise Failure(NOT_THERE, f"firm would refuse it: roster fault {faults[0].name}")


def check(options: argparse.Namespace) -> None:
    """Print the faults of a configuration file, or all settings with their defaults."""
    from dataclasses import asdict

    from ..agent import settings as agent_settings
    from ..common import settings
    from ..server import settings as server_settings
    from ..server.configuration import read_checked

    if options.defaults:
        sections = agent_settings.SECTIONS if options.agent else server_settings.SECTIONS
        print("\n".join(settings.template(sections)))
        return
    path = Path(options.file or server_settings.FILE)
    try:
        if options.agent:
            file = agent_settings.AgentConfiguration(settings.SettingsFile.read(path)).file
        else:
            file = read_checked(path).file
    except OSError as error:
        raise Failure(USAGE, f"cannot read {path}: {error.strerror}") from error
    except ValueError as error:
        raise Failure(USAGE, f"cannot read {path}: {error}") from error
    answer = {"file": str(path), "findings": [asdict(finding) for finding in file.findings]}
    text = "".join(f"{path}:{finding.line}: {finding}\n" for finding in file.findings)
    show(options, answer, lambda _: text or f"{path}: nothing is wrong\n")
    if not file.is_good:
        raise Failure(NOT_THERE, f"{path}: firm would not start with it")


def make_roster(options: argparse.Namespace) -> None:
    from dataclasses import asdict

    from ..common import sizes

    size = sizes.TenantSize(options.machines, options.slots, options.jobs, options.tasks, options.near)
    if not size.fits:
        raise Failure(NOT_THERE, sizes.refusal(size))
    recipe = sizes.RECIPES[options.recipe]
    limits = size.limits(new_tenant(options.tenant_given or "alpha"), recipe)
    answer = {**asdict(limits), "least_weight": recipe.least_weight(options.slots)}
    show(options, answer, lambda _: sizes.roster_of(limits))


def dashboard(_: argparse.Namespace) -> None:
    sys.stdout.write(Path(__file__).with_name("grafana.json").read_text())


def add_make_roster(verbs: Verbs) -> None:
    if not verbs.has("make-roster"):
        return
    from ..common import sizes

    command = verbs.add(
        "make-roster", make_roster, "print a roster with room for these rows (docs/TUNING.md); needs no service"
    )
    for name, low, high, default, explained in [
        ("--machines", 0, 10**6, None, "how many"),
        ("--slots", 1, sizes.MAX_SLOTS, None, "of each machine"),
        ("--tasks", 0, 10**9, None, "in firm at a time, running and waiting"),
        ("--jobs", 0, 10**6, 10, "at a time (default: %(default)s)"),
        ("--near", 0, sizes.MAX_NEAR, 0, "preferred machines of each task (default: %(default)s)"),
    ]:
        required, kind = default is None, whole(low, high).argument
        command.add_argument(name, type=kind, required=required, default=default, metavar="N", help=explained)
    explained = "costs of crowding, moves and machines that are not preferred (default: %(default)s)"
    command.add_argument("--recipe", choices=list(sizes.RECIPES), default="pack", help=explained)


def either(name: str, verb: Verb) -> Verb:
    """Return a verb on firm's rows, or on the queue if the tenant has one and none is named after the verb."""

    def either_of(options: argparse.Namespace) -> None:
        if getattr(options, "tenant", None) is None and Asking(options).has_queue():
            from .tasks import of_queue  # here, since it takes a third of the start of any other command

            return of_queue(name)(options)
        verb(options)

    return with_statuses(either_of, is_named=False)


def common(default: str | None, as_json: bool | str) -> argparse.ArgumentParser:
    """Return the options that may stand before or after the command, with these defaults."""
    found = argparse.ArgumentParser(add_help=False)
    add_server(found, default)
    found.add_argument("--json", action="store_true", default=as_json, help="print JSON")
    return found


def named_verb(words: Sequence[str]) -> str | None:
    """Return the verb if only common options precede it; otherwise None."""
    match words:
        case ["--json", *behind]:
            return named_verb(behind)
        case [option, _, *behind] if option in WITH_VALUE:
            return named_verb(behind)
        case [verb, *_] if verb in NAMES:
            return verb
    return None


def parser(only: str | None = None) -> argparse.ArgumentParser:
    """Return the parser of all verbs, or of one."""
    found = argparse.ArgumentParser(
        prog="firmctl",
        description=__doc__,
        epilog=EXITS,
        formatter_class=argparse.RawDescriptionHelpFormatter,
        parents=[common(None, False)],
    )
    add_version(found)
    behind = common(argparse.SUPPRESS, argparse.SUPPRESS)
    verbs = Verbs(found.add_subparsers(metavar="COMMAND", required=True), behind, only)
    add = verbs.add
    if only is None or only in OF_FIRM:
        add_rows(verbs)
    add("lines", with_statuses(lines), "the lines that give a new tenant the same rows").add_argument(
        "tenant", metavar="TENANT"
    )
    add("check-roster", check_roster, "every fault of a roster; needs no service").add_argument("file", metavar="FILE")
    add_make_roster(verbs)
    command = add("check", check, "faults of the server's configuration file; needs no service")
    command.add_argument("file", nargs="?", metavar="FILE", help="default: /etc/firm/firm.toml")
    command.add_argument("--agent", action="store_true", help="check an agent's file")
    command.add_argument("--defaults", action="store_true", help="print each setting with its default instead")
    if verbs.has(JOURNAL):
        from .journal import add_journal  # here, as above

        add_journal(verbs)
    if only not in OF_FIRM | {JOURNAL}:
        from .tasks import add_verbs  # here, as above

        add_verbs(verbs)
        from .up import add_up  # here, as above

        add_up(verbs)
    add("dashboard", dashboard, "a dashboard of the metrics, to import into Grafana")
    return found


def add_rows(verbs: Verbs) -> None:
    """Add the verbs on firm's rows."""
    from .questions import add_questions

    verbs.add("status", either("status", status), "the service and each tenant in numbers; or the queue of --tenant")
    for name, verb, explained in [
        ("tasks", rows(TASKS, "tasks"), "running and waiting tasks in firm"),
        ("machines", either("machines", rows(MACHINES, "machines")), "machines with their slots and tasks"),
        ("jobs", either("jobs", rows(JOBS, "jobs")), "jobs with their weights and counts"),
        ("watch", with_statuses(watch, is_named=False), "each new line with its reply"),
    ]:
        command = verbs.add(name, verb, explained)
        command.add_argument("tenant", nargs="?", metavar="TENANT", help="in firm (default: all)")
    command = verbs.add("send", with_statuses(send, is_named=False), "send a tenant's lines to firm", SEND_NOTE)
    command.add_argument("file", metavar="FILE", help="file with the lines; - for standard input")
    command.add_argument(
        "tenant", nargs="?", metavar="TENANT", help="tenant of the lines (default: that of the first line)"
    )
    add_questions(verbs)


def main() -> int:
    return in_pipe(lambda: run(parser(named_verb(sys.argv[1:]))))


if __name__ == "__main__":
    sys.exit(main())
