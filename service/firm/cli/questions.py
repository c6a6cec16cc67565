"""firmctl's questions: why a task is where it is, and the effects of lines or of the drain of a machine.

The server answers them from a tenant's state, or from the state before a past round. firmd gets no line for them.
"""

from __future__ import annotations

import argparse
import sys
from collections.abc import Sequence
from time import localtime, strftime

from ..client import calls
from ..client.blocking import ApiError, ApiRequest, get, one
from ..common import tables
from ..common.fields import whole
from ..common.quantities import is_task
from ..common.tables import Row, text
from .command_line import NOT_THERE, USAGE, Failure, Verbs, show
from .target import Asking, with_statuses

WHY_NOTE = """\
The queue answers for its own names, as 12 and 12_4, and firm's rows for other names, and with TENANT, --round or
--reasons."""
MAX_LINES_BYTES, MAX_ROUND = 4 * 2**20, 2**40
CHANGES = [text("TASK", "task"), text("JOB", "job"), text("CHANGE", "change"), text("FROM", "before")]
CHANGES.append(text("TO", "after"))


def add_questions(verbs: Verbs) -> None:
    explained = "why a task is where it is, and the weight that would run it"
    command = verbs.add("why", with_statuses(why, is_named=False), explained, WHY_NOTE)
    command.add_argument("task", metavar="TASK", help="as 12_4 in the queue, 12-4 in firm")
    command.add_argument("tenant", nargs="?", metavar="TENANT", help="if several have a task of that name in firm")
    explained = "in a past round, by the number of its reply; otherwise in a round now"
    command.add_argument("--round", type=whole(1, MAX_ROUND).argument, metavar="N", help=explained)
    command.add_argument("--reasons", action="store_true", help="print firm_explain's lines too (docs/EXPLAIN.md)")
    explained = "effects of a tenant's lines and a round after them; changes nothing"
    command = verbs.add("what-if", with_statuses(what_if, is_named=False), explained)
    command.add_argument("file", metavar="FILE", help="file with the lines; - for standard input")
    command.add_argument(
        "tenant", nargs="?", metavar="TENANT", help="tenant of the lines (default: that of the first line)"
    )
    explained = "effects of draining a machine and a round after it; changes nothing"
    command = verbs.add("plan", with_statuses(plan, is_named=False), explained)
    command.add_argument("what", choices=["drain"])
    command.add_argument("machine", metavar="MACHINE")
    command.add_argument("tenant", nargs="?", metavar="TENANT", help="if several have a machine of that name")
    command = verbs.add("state", with_statuses(state, is_named=False), "a tenant's state, as firm --state opens it")
    command.add_argument("tenant", nargs="?", metavar="TENANT", help="if there are several")


def why(options: argparse.Namespace) -> None:
    asking, is_of_firm = Asking(options), options.tenant or options.round is not None or options.reasons
    client = asking.client
    if not is_of_firm and is_task(options.task) and asking.named is None:
        tenants = [name for name, row in asking.rights().items() if row["queue"]]
        client.tenant = tenants[0] if len(tenants) == 1 else ""
    elif not is_of_firm and is_task(options.task):
        client.tenant = asking.named or ""
    if not client.tenant:
        client.tenant = tenant_of(asking, options)
    try:
        answer = client.ask(calls.why(options.task, options.round, options.reasons))
    except ApiError as error:
        if "facts" in error.more:
            show(options, {**error.more["facts"], "round": None, "reasons": None}, facts_text)
        raise
    show(options, answer, lambda answer: facts_text(answer) + "".join(f"{line}\n" for line in answer["text"]))


def tenant_of(asking: Asking, options: argparse.Namespace) -> str:
    """Return the tenant of the task in firm: that of a past round, the one that has the task now, or the only one."""
    tenants = asking.tenants(options.tenant)
    if options.tenant is not None:
        return tenants[0]
    having = [name for name in tenants if rows_named(asking, name, "tasks", options.task)]
    if options.round is not None and len(having) != 1:
        return only_tenant(tenants)
    return only(having, "task", options.task)


def facts_text(known: Row) -> str:
    """Return the facts of a task in firm; empty for a queue's task, whose answer has them."""
    if "waited" not in known:
        return ""
    before = past_text(**known["past"]) if known["past"] else ""
    since = f" for {tables.duration(known['seconds'])}" if known["seconds"] is not None else ""
    where = (
        f"runs on {known['machine']}{since}" if known["machine"] else f"waits{since}, rounds so far {known['waited']}"
    )
    near = f", prefers {', '.join(known['prefers'])}" if known["prefers"] else ""
    return f"{before}{known['tenant']} {known['task']} (job {known['job']}, weight {known['weight']}) {where}{near}\n"


def past_text(number: int, time: float | None) -> str:
    clock = strftime(" of %Y-%m-%d %H:%M:%S", localtime(time)) if time else ""
    return f"before round {number}{clock}: "


def what_if(options: argparse.Namespace) -> None:
    lines = lines_of(options.file)
    tenant = options.tenant or tenant_named(lines)
    if tenant is None:
        raise Failure(USAGE, f"{options.file} has no line of a tenant")
    asking = Asking(options)
    asking.client.tenant = tenant
    print_outcome(options, asking, lines, options.file)


def tenant_named(lines: Sequence[bytes]) -> str | None:
    """Return the tenant of the first line that may have one."""
    from ..common.lines import addressee

    return next((name.decode() for name in map(addressee, lines) if name is not None), None)


def plan(options: argparse.Namespace) -> None:
    asking, name = Asking(options), options.machine
    tenants = asking.tenants(options.tenant)
    tenant = only([one for one in tenants if rows_named(asking, one, "machines", name)], "machine", name)
    asking.client.tenant = tenant
    print_outcome(options, asking, [f"{tenant} drain {name}".encode()], f"a drain of {name}")


def print_outcome(options: argparse.Namespace, asking: Asking, lines: Sequence[bytes], what: str) -> None:
    """Print the effects of lines on the tenant."""
    body = {"lines": [line.decode("utf-8", "backslashreplace") for line in lines]}
    try:
        answer = asking.client.ask(one(ApiRequest("POST", "what-if", body)))
    except ApiError as error:
        if "faults" not in error.more:
            raise
        found = error.more["faults"]
        text = "".join(f"line {row['line']}: {row['text']}: {row['fault']}\n" for row in found)
        show(options, {"faults": found}, lambda _: text)
        raise Failure(NOT_THERE, str(error)) from error
    show(options, answer, lambda answer: outcome_text(answer, what))


def outcome_text(answer: Row, what: str) -> str:
    changes = tables.table(CHANGES, answer["changes"]) if answer["changes"] else "no task would start, move or stop\n"
    return (
        f"{answer['tenant']} after {what} and a round: cost {answer['cost']}, and {answer['cost_now']} without\n"
        f"slots {answer['slots']:,}, free {answer['free']:,}, waiting tasks {answer['waiting']:,}\n{changes}"
    )


def state(options: argparse.Namespace) -> None:
    asking = Asking(options)
    asking.client.tenant = only_tenant(asking.tenants(options.tenant))
    found = asking.client.ask(one(get("state")))
    if not options.json:
        print(f"firmctl: the state of {found['tenant']} after line {found['line']}", file=sys.stderr)
    show(options, found, lambda found: str(found["text"]))


# Common parts.


def rows_named(asking: Asking, tenant: str, kind: str, name: str) -> list[Row]:
    asking.client.tenant = tenant
    rows: list[Row] = asking.client.ask(one(get(f"firm/{kind}", name=name)))["rows"]
    return rows


def only(tenants: Sequence[str], what: str, name: str) -> str:
    """Return the only tenant with a task or a machine of this name."""
    if not tenants:
        raise Failure(NOT_THERE, f"no {what} {name!r} is there")
    if len(tenants) > 1:
        raise Failure(USAGE, f"{', '.join(tenants)} have a {what} {name!r}: name one, as {tenants[0]}, after it")
    return tenants[0]


def only_tenant(tenants: Sequence[str]) -> str:
    if len(tenants) != 1:
        raise Failure(USAGE, f"name a tenant: {', '.join(tenants) or 'none is there'}")
    return tenants[0]


def lines_of(path: str) -> list[bytes]:
    try:
        with open(0 if path == "-" else path, "rb", closefd=path != "-") as file:
            data = file.read(MAX_LINES_BYTES + 1)
    except OSError as error:
        raise Failure(USAGE, f"cannot read {path}: {error.strerror}") from error
    if len(data) > MAX_LINES_BYTES:
        raise Failure(USAGE, f"{path} has more than {MAX_LINES_BYTES:,} bytes")
    return data.removesuffix(b"\n").split(b"\n")
