"""Check firm-api with users, operators and programs, and its answers against its own OpenAPI document.

usage: tools/run tests/api.py [--quick] [--only WORD] [--program FILE]
Each check prints a line; the last line is 'N passed, M failed', and the exit status is 1 if one failed. It needs the
built program, python3-aiohttp and python3-prometheus-client. The document also needs python3-jsonschema and
openapi-specification, TLS openssl, the page's lines curl, and other users root. Checks that lack one of these are
skipped. --quick sends fewer requests of each kind. `tests/api_hostile.py` has hostile clients.
"""

from __future__ import annotations

import argparse
import grp
import importlib.util
import json
import os
import re
import shutil
import signal
import socket
import subprocess
import sys
import time
from collections.abc import Iterator
from contextlib import closing
from functools import partial
from pathlib import Path
from typing import Any

import api_tokens
from queue_client import LIMIT_SECONDS, Answer, Client, Connection, Json, as_user_does, connected
from api_kit import Events, Judge, Site, certificate, port_of, site
from harness import program
from harness.checks import Check, Skipped, Suite, require, run_script, run_suites
from harness.program import ROOT, built
from harness.sessions import blocks_of
from hostile import python_with_http
from queue_kit import ANN, BOB, FIRM_API, Case, Setup, claim_place

SCHEMA = Path("/usr/share/openapi-specification/schemas/v3.0/schema.json")
PAGE = ROOT / "docs" / "API.md"
OPERATIONS = ("get", "post", "put", "delete", "patch", "head")
NO_TASK = {"tasks": ["9999"]}
SOCKET = "/v1/tenants/{tenant}/agents/connect"  # tests/api_agents.py checks it
GROUP = "users"  # each system has it
MANY = 1_200  # tasks, more than a page has
TLS_PORT = "8443"  # of the page's lines
STREAMS = 40  # more than a user may have
END_OF_STREAM = 28  # curl's status at --max-time
CURL = """\
#!/bin/sh
case "$*" in *events*|*follow*) seconds=5;; *) seconds=100;; esac
exec /usr/bin/curl -sS --fail-with-body --max-time $seconds "$@"
"""
ROUTES = """\
import asyncio, json, sys
from pathlib import Path
from firm.api import daemon, serving
from firm.common.faults import Faults
given = daemon.options_of(daemon.parser().parse_args(["run", "--state", "x", "--socket", "x"]))
async def routes():
    found = serving.ApiServer(given, "x", Faults(), None)
    await found.start()
    return sorted({(route.method, route.resource.canonical) for route in found.app.router.routes()})
print(json.dumps(asyncio.run(routes())))
"""


# The document.


def references(found: Any) -> Iterator[str]:
    if isinstance(found, dict):
        if isinstance(found.get("$ref"), str):
            yield found["$ref"]
        for value in found.values():
            yield from references(value)
    elif isinstance(found, list):
        for value in found:
            yield from references(value)


def document(setup: Setup) -> None:
    """The document is one of OpenAPI 3.0.3, each of its references leads somewhere, and it has each route and no
    other. The schema refuses faulty ones."""
    with site(setup) as served:
        found = served.get("/v1/openapi.json")
        dangling = [name for name in references(found) if not has_reference(found, name)]
        require(not dangling, f"references to nothing: {dangling}")
        routes = subprocess.run([sys.executable, "-c", ROUTES], capture_output=True, text=True)
        require(routes.returncode == 0, routes.stderr)
        served_paths = {(method, path) for method, path in json.loads(routes.stdout) if method != "HEAD"}
        told = {(method.upper(), path) for path, item in found["paths"].items() for method in item}
        require(served_paths == told, f"routes and document differ: {served_paths ^ told}")
        names = [operation["operationId"] for item in found["paths"].values() for operation in item.values()]
        require(len(names) == len(set(names)), f"an operation twice: {sorted(names)}")
    require_openapi(found)
    faults: list[Json] = [{"openapi": "3"}, {"paths": {"/x": {"get": {"operationId": "x"}}}}]
    for fault in faults:
        try:
            require_openapi({**found, **fault})
        except AssertionError:
            continue
        require(False, "a faulty document is taken")


def has_reference(document: Json, name: str) -> bool:
    at: Any = document
    for word in name.removeprefix("#/").split("/"):
        at = at.get(word) if isinstance(at, dict) else None
    return name.startswith("#/") and at is not None


def require_openapi(document: Json) -> None:
    if not SCHEMA.exists() or importlib.util.find_spec("jsonschema") is None:
        raise Skipped("no schema or no validator (apt-get install openapi-specification python3-jsonschema)")
    jsonschema = importlib.import_module("jsonschema")
    schema = json.loads(SCHEMA.read_text())
    faults = [
        error.message[:200] for error in jsonschema.validators.validator_for(schema)(schema).iter_errors(document)
    ]
    require(not faults, faults)


def judge_of(served: Site) -> Judge:
    if importlib.util.find_spec("jsonschema") is None:
        raise Skipped("no validator (apt-get install python3-jsonschema)")
    return Judge(served.get("/v1/openapi.json"))


# Endpoints.


def run_one(case: Case, task: str, text: str = "said\n") -> Client:
    """Run a task that writes a text, by an agent; return its connection."""
    agent = case.client()
    agent.ask("register", agent="a1", id="x", machines={"m1": 4}, runs=[])
    agent.ask("claim", token="aaaaaaaa", run=1, **claim_place(case, task))
    output = case.folder / "output"
    output.write_text(text)
    running = {"token": "aaaaaaaa", "event": "running", "pid": 1, "output": str(output), "time": time.time()}
    agent.ask("told", events=[running])
    return agent


def end_one(agent: Client, status: int = 0) -> None:
    end = {"event": "ended", "asked": False, "token": "aaaaaaaa", "status": status, "seconds": 2}
    agent.ask("told", events=[{**end, "max_rss": 2**20, "cpu_seconds": 1.5}])


def endpoints(setup: Setup) -> None:
    """Each endpoint answers good requests as the document says, and shows the rows of the queue and of firm."""
    with site(setup) as served:
        judge, of, tenant = judge_of(served), served.of, served.case.tenant

        def ask(method: str, path: str, body: Any = None, status: int = 200) -> Any:
            answer = judge.judge(method, path, served.ask(method, path, body))
            require(answer.status == status, f"{method} {path}: {answer}")
            return answer.json() if answer.headers["content-type"].startswith("application/json") else answer.body

        one: Json = {"command": ["./train.sh"], "dir": "/tmp", "job": "web", "time": 60, "env": {"A": "1"}}
        both = [{**one, "label": "a"}, {**one, "array": [1, 3], "after": ["@a"]}]
        batch = {"key": "k1", "submissions": both}
        made = ask("POST", of("submissions"), batch, 201)["submissions"]
        require([row["number"] for row in made] == [1, 2] and made[0]["label"] == "a", made)
        again = ask("POST", of("submissions"), batch)["submissions"]
        require([row["number"] for row in again] == [1, 2] and again[0]["again"], again)
        agent = run_one(served.case, "1")

        def is_placed() -> bool:
            return [row["machine"] for row in ask("GET", of("firm/tasks"))["rows"]] == ["m1"]

        served.case.until(is_placed, "the process for reads has heard of it")
        rows = ask("GET", of("tasks"))["tasks"]
        require([(row["task"], row["state"]) for row in rows[:2]] == [("1", "running"), ("2_1", "blocked")], rows)
        require(rows[1]["reason"] == "waits for 1", rows[1])
        require(ask("GET", of("tasks/1"))["attempts"][0]["machine"] == "m1", "an attempt")
        require(ask("GET", of("tasks/2_3"))["spec"]["array"] == [1, 3], "its spec")
        require(ask("GET", of("tasks/1/why"))["text"], "reasons")
        require(ask("GET", of("tasks?start=true"))["tasks"][0]["start"] is None, "it runs")
        require(ask("GET", of("wait?tasks=1&seconds=0"))["ends"] == {"1": {"state": "running", "status": None}}, "wait")
        require(ask("GET", of("tasks/1/log")) == b"said\n", "its output")
        require(ask("GET", of("tasks/1/log?from=2")) == b"id\n", "from a place")
        machines = ask("GET", of("machines"))["machines"]
        require([(row["machine"], row["tasks"]) for row in machines] == [("m1", ["1"])], machines)
        require(ask("GET", of("firm/tasks"))["rows"][0]["task"] == "1", "firm's rows")
        require(ask("GET", of("firm/machines?name=m1"))["rows"][0]["tasks"] == ["1"], "one of them")
        require(ask("GET", of("state"))["text"].startswith("firm state 1"), "its state")
        served.case.until(lambda: ask("GET", "/v1/firmd")["lines"] > 0, "firmd's numbers, as of a moment ago")
        require(ask("GET", of("jobs"))["jobs"][0]["states"] == {"running": 1, "blocked": 3}, "states of a job")
        require(ask("GET", of("agents"))["agents"][0]["agent"] == "a1", "an agent")
        require(ask("POST", of("hold"), {"tasks": ["2_1"]})["changed"] == ["2_1"], "hold")
        require(ask("POST", of("release"), {"tasks": ["2_1"]})["changed"] == ["2_1"], "release")
        require(ask("POST", of("cancel"), {"jobs": ["web"], "tasks": ["2_3"]})["changed"], "cancel")
        end_one(agent)
        served.case.until(lambda: not ask("GET", of("tasks"))["tasks"], "all have ended")
        past = ask("GET", of("history"))["history"]
        require({row["task"] for row in past} == {"1", "2_1", "2_2", "2_3"}, past)
        used = {row["task"]: (row["max_rss"], row["cpu_seconds"]) for row in past}
        require(used["1"] == (2**20, 1.5) and used["2_1"] == (None, None), used)
        require(ask("GET", of("history?task=2"))["history"] == [row for row in past if row["number"] == 2], "of one")
        require(ask("GET", of("wait?tasks=2"))["ends"]["2_3"]["state"] == "cancelled", "all have ended")
        ended = [(row["task"], row["state"]) for row in ask("GET", of("tasks?states=cancelled,held"))["tasks"]]
        require(ended == [(name, "cancelled") for name in ("1", "2_1", "2_2", "2_3")], ended)
        for verb in ("cordon", "uncordon", "drain"):
            require(ask("POST", of(verb), {"machines": ["m1"]})["changed"] == ["m1"], verb)
        replies = ask("POST", "/v1/lines", {"tenant": tenant, "lines": [f"{tenant} job x 3", f"{tenant} job x 3"]})
        require([reply.split()[2] for reply in replies["replies"]] == ["ok", "no"], replies)
        found = ask("POST", of("what-if"), {"lines": [f"{tenant} machine m9 2"]}, 200 if has_explain() else 200)
        require("cost" in found and found["tenant"] == tenant, found)
        status = ask("GET", "/v1/status")
        require(status["tenants"] == [{"tenant": tenant, "role": "operator", "lines": True, "queue": True}], status)
        served.case.until(lambda: ask("GET", "/v1/tenants")["tenants"][0]["slots"] == 0, "counts of firm")
        require(ask("GET", f"/v1/tenants/{tenant}")["last_number"] == 2, "the queue's status")
        require(b"firm_api_requests_total" in ask("GET", "/metrics"), "metrics")
        require(b"<h1>firm</h1>" in ask("GET", "/"), "the page")
        ask("GET", "/v1/openapi.json")
        with closing(Connection(served.socket)) as connection:
            connection.request("GET", of("events"))
            answer = connection.getresponse()
            headers = {name.lower(): value for name, value in answer.getheaders()}
            judge.judge("GET", of("events"), Answer(answer.status, headers, b""))
        told = {(method.upper(), path) for path, item in judge.document["paths"].items() for method in item}
        rest = told - judge.asked - {("GET", SOCKET)}
        require(not rest, f"endpoints without a request here: {rest}")


def has_explain() -> bool:
    return built("firm_explain").exists()


def plain_tenant(setup: Setup) -> None:
    """A tenant without a queue shows firm's rows to those who may send its lines, and to nobody else."""
    with setup.case_alone("--socket-mode=666") as case:
        case.folder.chmod(0o755)
        case.has_queue = False
        served = Site(case.start())
        try:
            judge, of = judge_of(served), served.of
            rows = ["machine m1 2", "job web 10", *(f"task web {name}" for name in "abc"), "round"]
            body = {"tenant": "alpha", "lines": [f"alpha {row}" for row in rows]}
            served.until_known()
            with Events(served, "?lines=true") as stream:
                replies = served.ask("POST", "/v1/lines", body).good()["replies"]
                require(replies[-1].startswith("alpha 6 ok round"), replies)
                stream.until(lambda kind, data: kind == "line" and data["reply"] == replies[-1])

            def get(path: str) -> Any:
                return judge.judge("GET", of(path), served.ask("GET", of(path))).good()

            case.until(  # of the process for changes; the events are of that for reads
                lambda: [row["tasks"] for row in get("machines")["machines"]] == [["a", "b"]], "machines"
            )
            require(get("jobs")["jobs"][0]["states"] == {"running": 2, "waiting": 1}, "jobs")
            first = get("tasks?limit=2")
            names = [row["task"] for row in first["tasks"] + get(f"tasks?limit=2&cursor={first['next']}")["tasks"]]
            require(names == ["a", "b", "c"], names)
            require(get("tasks/c")["state"] == "waiting", "a task")
            require(served.get("/v1/tenants")["tenants"][0]["free_slots"] == 0, "counts")
            for path, status, name in (
                ("tasks/d", 404, "no-such-task"),
                ("tasks/d/why", 404, "no-such-task"),
                ("tasks/a/log", 404, "no-queue"),
                ("history", 404, "no-queue"),
                ("agents", 404, "no-queue"),
            ):
                served.ask("GET", of(path)).refused(status, name)
            served.ask("POST", of("cancel"), NO_TASK).refused(404, "no-queue")
            why = served.ask("GET", of("tasks/c/why"))
            require(why.good()["text"] if has_explain() else why.refused(503, "failed"), "reasons")
            if not os.geteuid():
                asked_as(ANN, served, "GET", of("tasks")).refused(404, "no-such-tenant")
                case.firmd.any.chmod(0o666)
                require(len(asked_as(ANN, served, "GET", of("tasks")).good()["tasks"]) == 3, "who may send lines")
            firmd_leaves(case, served, body)
        finally:
            case.kill()


def firmd_leaves(case: Case, served: Site, body: Json) -> None:
    """While firmd is away its last rows are shown; not if it is one of several replicas, of which another may lead."""
    with Events(served) as stream:
        (case.firmd.state / "replica").touch()
        case.firmd.kill()
        require(stream.is_closed(), "the events of a replica end with its firmd")
    paths = ("/v1/firmd", *map(served.of, ("tasks", "machines", "jobs", "events", "tasks/c/why", "firm/tasks")))
    for path in paths:
        case.until(lambda: served.ask("GET", path).status == 503, f"{path} is refused")
        served.ask("GET", path).refused(503, "not-leading")
    served.ask("POST", "/v1/lines", body).refused(503, "not-leading")
    require("running" not in served.get("/v1/tenants")["tenants"][0], "its counts")
    require(b"firm_slots{" not in served.ask("GET", "/metrics").body, "its metrics")
    (case.firmd.state / "replica").unlink()
    served.ask("POST", "/v1/lines", body).refused(503, "not-there")
    require(len(served.get(served.of("tasks"))["tasks"]) == 3, "the rows of one that is alone")


def pages_of_tasks(setup: Setup) -> None:
    """Lists come in pages: each row once, in order, whatever the filter, and no more than requested; so does the
    history, also if many tasks end at once."""
    count = MANY if setup.is_quick else 10 * MANY
    with site(setup) as served:
        of = served.of
        first = served.submit("true", array=[1, count], job="many", hold=True)
        served.submit("true", job="other")
        names = [row["task"] for row in all_pages(served, "tasks", "limit=1000")]
        require(len(names) == count + 1 == len(set(names)), f"{len(names)} rows, {len(set(names))} names")
        require(names == [f"{first}_{index}" for index in range(1, count + 1)] + [str(first + 1)], "in order")
        for query, wanted in ((f"submission={first}", count), ("job=other", 1), ("states=held", count), ("job=x", 0)):
            found = [*all_pages(served, "tasks", f"limit=1000&{query}")]
            require(len(found) == wanted, f"{query}: {len(found)} rows, not {wanted}")
        require(len(served.get(of("tasks"))["tasks"]) == 100, "100 by default")
        require(served.get(of("tasks?states=waiting,queued&limit=1"))["tasks"][0]["task"] == str(first + 1), "a state")
        served.ask("POST", of("cancel"), {"tasks": [str(first)]}).good()
        past = [(row["number"], row["index"]) for row in all_pages(served, "history", "limit=999")]
        require(len(past) == count == len(set(past)), f"{len(past)} of the history, {len(set(past))} names")
        require(served.get(of("history?until=1"))["history"] == [], "before there was any")


def all_pages(served: Site, kind: str, query: str) -> Iterator[Json]:
    cursor = ""
    while True:
        found = served.get(served.of(f"{kind}?{query}{cursor}"))
        yield from found[kind]
        if found["next"] is None:
            return
        cursor = f"&cursor={found['next']}"


def logs(setup: Setup) -> None:
    """A followed log has its task's output until the task ends, and then ends; a log whose client has left takes no
    room."""
    with site(setup) as served:
        served.submit("x")
        agent = run_one(served.case, "1")
        with closing(Connection(served.socket)) as connection:
            connection.request("GET", served.of("tasks/1/log?follow=true"))
            answer = connection.getresponse()
            require(answer.read(5) == b"said\n", "what was written before")
            with open(served.case.folder / "output", "a") as output:
                output.write("more\n")
            require(answer.read(5) == b"more\n", "what is written meanwhile")
            for _ in range(STREAMS):
                with closing(connected(served.socket)) as gone:
                    path = served.of("tasks/1/log?follow=true")
                    gone.sendall(f"GET {path} HTTP/1.1\r\nHost: localhost\r\n\r\n".encode())
                    answered = b""
                    while b"said" not in answered and b"429" not in answered:
                        require(more := gone.recv(1_000), f"neither a log nor a refusal: {answered!r}")
                        answered += more
            served.case.until(lambda: served.ask("GET", served.of("tasks/1/log")).status == 200, "room again")
            end_one(agent)
            require(answer.read() == b"", "its end")
        for path, status, name in (
            ("tasks/1/log?attempt=7", 404, "no-such-attempt"),
            ("tasks/7/log", 404, "no-such-task"),
            ("tasks/1/log?from=-1", 400, "bad-field"),
        ):
            served.ask("GET", served.of(path)).refused(status, name)


# Events.


def events(setup: Setup) -> None:
    """A stream has the changes of a task, from its submission to its end, and continues after the last event that
    was read. An unknown event gives a reset, and so does a restart of firm-api."""
    with site(setup) as served:
        with Events(served, "?lines=true") as stream:
            served.submit("x")
            stream.state("1", "waiting")
            agent = run_one(served.case, "1")
            stream.state("1", "running")
            if not any(map(is_round, stream.seen)):  # events of the queue and of firmd have no common order
                stream.until(lambda _, data: is_round(data))
            served.submit("y", hold=True)
            stream.state("2", "held")
            last = stream.last
        require(re.fullmatch("[0-9a-f]{8}-[0-9]+", last), f"an id {last!r}")
        end_one(agent)
        with Events(served, "", last) as stream:
            stream.state("1", "done")
        for unknown in ("ffffffff-1", "x", f"{last[:8]}-{10**14}", "0" * 64):
            with Events(served, "", unknown) as stream:
                require(stream.next()[0] == "reset", unknown)
        served.ask("GET", served.of("events"), **{"Last-Event-ID": "9" * 65}).refused(400, "bad-field")
        served.restart()
        with Events(served, "", last) as stream:
            require(stream.next()[0] == "reset", "after a start")


def is_round(event: Json) -> bool:
    return " ok round " in event.get("reply", "")


# Rights.


def asked_as(user: int, served: Site, *request: Any, groups: tuple[int, ...] = ()) -> Answer:
    """Return the answer to a user."""

    def ask() -> list[Any]:
        answer = served.ask(*request)
        return [answer.status, dict(answer.headers), answer.body.decode("latin-1")]

    status, headers, body = as_user_does(user, ask, groups)
    return Answer(status, headers, body.encode("latin-1"))


def rights(setup: Setup) -> None:
    """A user sees and changes only the user's own tasks, through every endpoint; an operator all; another tenant
    looks missing."""
    if os.geteuid():
        raise Skipped("it needs root, to be other users")
    with site(setup) as served:
        of, of_other = served.of, partial("/v1/tenants/{}/{}".format, "other")
        one = {"submissions": [{"command": ["x"], "dir": "/tmp"}]}
        for user, number in ((ANN, 1), (BOB, 2)):
            made = asked_as(user, served, "POST", of("submissions"), one).good(201)
            require(made["submissions"][0]["number"] == number, made)
        for user, own, others in ((ANN, "1", "2"), (BOB, "2", "1")):
            rows = asked_as(user, served, "GET", of("tasks")).good()["tasks"]
            require([(row["task"], row["user"]) for row in rows] == [(own, str(user))], rows)
            for path in ("tasks/{}", "tasks/{}/why", "tasks/{}/log", "tasks?submission={}"):
                found = asked_as(user, served, "GET", of(path.format(others)))
                require(found.status == 404 or found.good() == {"tasks": [], "next": None}, f"{path}: {found}")
            asked_as(user, served, "GET", of(f"tasks?user={BOB if user == ANN else ANN}")).refused(403, "operator-only")
            asked_as(user, served, "GET", of("history?user=0")).refused(403, "operator-only")
            for verb in ("cancel", "hold", "release"):
                found = asked_as(user, served, "POST", of(verb), {"tasks": [others]})
                found.refused(404, "no-such-task")
            for verb in ("cordon", "uncordon", "drain"):
                asked_as(user, served, "POST", of(verb), {"machines": ["m1"]}).refused(403, "operator-only")
            lines = {"lines": [f"{served.case.tenant} round"]}
            asked_as(user, served, "POST", of("what-if"), lines).refused(403, "operator-only")
            asked_as(user, served, "POST", "/v1/lines", {**lines, "tenant": served.case.tenant}).refused(
                403, "operator-only"
            )
            asked_as(user, served, "GET", of("events?lines=true")).refused(403, "operator-only")
            for path in (
                "firm/tasks",
                "state",
                "state?round=1",
                f"tasks/{own}/why?reasons=true",
                "tasks/a/why?round=1",
            ):
                asked_as(user, served, "GET", of(path)).refused(403, "operator-only")
            asked_as(user, served, "GET", "/v1/firmd").refused(403, "operator-only")
            asked_as(user, served, "GET", of(f"wait?tasks={own},{others}&seconds=0")).refused(404, "no-such-task")
            for path in (f"history?task={others}", "tasks?states=foreign", "tasks?states=done,failed&cursor=0.0"):
                rows = asked_as(user, served, "GET", of(path)).good()
                require(rows.get("tasks", rows.get("history")) == [], f"{path}: {rows}")
            asked_as(user, served, "GET", "/metrics").refused(403, "operator-only")
            for method, path, body in ((("GET", "tasks", None)), ("POST", "submissions", one), ("GET", "events", None)):
                asked_as(user, served, method, of_other(path), body).refused(404, "no-such-tenant")
        users = {row["user"] for row in served.get(of("tasks"))["tasks"]}
        require(users == {str(ANN), str(BOB)}, f"an operator is shown {users}")
        with Events(served) as stream:
            asked_as(ANN, served, "POST", of("hold"), {"tasks": ["1"]}).good()
            stream.state("1", "held")
        told = as_user_does(BOB, partial(events_of, served, "1"))
        require(told == [], f"another's events: {told}")
        served.restart(f"--users={served.case.tenant}={GROUP}")
        asked_as(ANN, served, "GET", of("tasks")).refused(404, "no-such-tenant")
        members = (grp.getgrnam(GROUP).gr_gid,)
        require(len(asked_as(ANN, served, "GET", of("tasks"), groups=members).good()["tasks"]) == 1, "a member's")


def events_of(served: Site, task: str) -> list[str]:
    """Return the events that a user gets of another's task, until one of an own task comes."""
    with Events(served) as stream:
        own, found = served.submit("z"), list[str]()
        while True:
            _, data = stream.next()
            if data.get("task") == str(own):
                return found
            found += [data["task"]] if data.get("task") == task else []


def closed_folders(setup: Setup) -> None:
    """A socket for everybody gives no rights to a user whom an outer folder keeps from it. A tenant that firm lacks
    is missing for others."""
    if os.geteuid():
        raise Skipped("it needs root, to be another user")
    with site(setup) as served, closing(socket.socket(socket.AF_UNIX)) as lines:
        folder = served.case.folder / "outer" / "inner"
        folder.mkdir(parents=True)
        lines.bind(str(folder / "lines"))
        (folder / "lines").chmod(0o666)
        served.restart(f"--lines=other={folder / 'lines'}")
        none, away = (404, "no-such-tenant"), (503, "not-there")
        for outer, inner, refusal in ((0o755, 0o755, away), (0o755, 0o700, none), (0o700, 0o755, none)):
            folder.parent.chmod(outer)
            folder.chmod(inner)
            asked_as(ANN, served, "GET", "/v1/tenants/other").refused(*refusal)


# Bad requests.

BODIES: list[tuple[str, Any, int, str]] = [
    ("submissions", {}, 400, "bad-field"),
    ("submissions", {"submissions": []}, 400, "bad-field"),
    ("submissions", {"submissions": "x"}, 400, "bad-field"),
    ("submissions", {"submissions": [1]}, 400, "bad-field"),
    ("submissions", {"submissions": [{"command": "x", "dir": "/"}]}, 400, "bad-field"),
    ("submissions", {"submissions": [{"command": ["x"]}]}, 400, "bad-field"),
    ("submissions", {"submissions": [{"command": ["x"], "dir": "x"}]}, 400, "bad-field"),
    ("submissions", {"submissions": [{"command": ["x"], "dir": "/", "wieght": 1}]}, 400, "bad-field"),
    ("submissions", {"submissions": [{"command": ["x"], "dir": "/", "after": ["9"]}]}, 404, "no-such-task"),
    ("submissions", {"submissions": [{"command": ["x"], "dir": "/", "after": ["@a"]}]}, 400, "no-such-label"),
    ("submissions", {"submissions": [{"command": ["\x00"], "dir": "/"}]}, 400, "bad-field"),
    ("submissions", {"submissions": [{"command": ["\ud800"], "dir": "/"}]}, 400, "bad-field"),
    ("submissions", {"submissions": [], "ask": "as", "user": 0}, 400, "bad-field"),
    ("submissions", {"submissions": [{"command": ["x"], "dir": "/"}], "key": 1}, 400, "bad-field"),
    ("submissions", {"submissions": [{"command": ["x"], "dir": "/"}], "key": ""}, 400, "bad-field"),
    ("submissions", {"submissions": [{"command": ["x"], "dir": "/"}], "key": 0}, 400, "bad-field"),
    ("submissions", [], 400, "bad-request"),
    ("submissions", b"{", 400, "bad-request"),
    ("submissions", b"\xff", 400, "bad-request"),
    ("submissions", b"", 400, "bad-request"),
    ("submissions", b'{"submissions": NaN}', 400, "bad-request"),
    ("submissions", b"[" * 100_000, 400, "bad-request"),
    ("submissions", b'{"submissions": [' + b"[]," * 500_000, 413, "too-large"),
    ("cancel", NO_TASK, 404, "no-such-task"),
    ("cancel", {"tasks": "12"}, 400, "bad-field"),
    ("cancel", {"tasks": [12]}, 400, "bad-field"),
    ("cancel", {"tasks": 0}, 400, "bad-field"),
    ("cancel", {"jobs": ""}, 400, "bad-field"),
    ("cancel", {"jobs": ["no"]}, 404, "no-such-job"),
    ("hold", {"machines": ["m1"]}, 400, "bad-field"),
    ("release", {"tasks": ["../1"]}, 404, "no-such-task"),
    ("drain", {"machines": ["m9"]}, 404, "no-such-machine"),
    ("cordon", {"machines": 1}, 400, "bad-field"),
    ("cordon", {}, 400, "bad-field"),
    ("what-if", {"lines": []}, 400, "bad-field"),
    ("what-if", {"lines": ["x" * 257]}, 400, "bad-lines"),
    ("what-if", {"lines": ["x" * 4_097]}, 400, "bad-field"),
    ("what-if", {"lines": ["TENANT fly"]}, 400, "bad-lines"),
]
QUERIES = [
    ("tasks?limit=0", 400, "bad-field"),
    ("tasks?limit=1001", 400, "bad-field"),
    ("tasks?limit=x", 400, "bad-field"),
    ("tasks?limit=1&limit=2", 400, "bad-field"),
    ("tasks?cursor=x", 400, "bad-field"),
    ("tasks?cursor=1.2.3", 400, "bad-field"),
    (f"tasks?cursor=1.{10**30}", 400, "bad-field"),
    ("tasks?states=flying", 400, "bad-field"),
    ("tasks?user=nobody-has-this-name", 400, "bad-field"),
    ("tasks?submission=0", 400, "bad-field"),
    ("tasks?x=1", 400, "bad-field"),
    ("tasks?tenant=other", 400, "bad-field"),
    ("tasks/1?x=1", 400, "bad-field"),
    ("tasks/..%2f..%2fx", 404, "no-such-task"),
    ("tasks/1%00", 404, "no-such-task"),
    ("tasks/" + "1" * 100, 404, "no-such-task"),
    ("history?since=x", 400, "bad-field"),
    ("history?since=nan", 400, "bad-field"),
    ("history?until=inf", 400, "bad-field"),
    ("history?cursor=1_2", 400, "bad-field"),
    ("history?cursor=nan_1_2", 400, "bad-field"),
    ("events?lines=yes", 400, "bad-field"),
    ("../../v1/status", 404, "no-endpoint"),
]


def bad_requests(setup: Setup) -> None:
    """Requests with wrong fields, types, sizes, paths and methods are refused by their names, and change nothing."""
    with site(setup) as served:
        tenant = served.case.tenant
        for path, body, status, name in BODIES:
            text = json.dumps(body).replace("TENANT", tenant).encode() if not isinstance(body, bytes) else body
            answer = served.ask("POST", served.of(path), text)
            try:
                answer.refused(status, name)
            except Exception as error:
                error.add_note(f"POST {path} {text[:100]!r}")
                raise
        for query, status, name in QUERIES:
            try:
                served.ask("GET", served.of(query)).refused(status, name)
            except Exception as error:
                error.add_note(query)
                raise
        for lines, status, name in (
            (["beta round"], 403, "other-tenant"),
            ([f"{tenant} round\n+ retire {tenant}"], 400, "bad-field"),
            ([f"+ retire {tenant}"], 403, "other-tenant"),
            ([f"# {tenant}"], 403, "other-tenant"),
            ([""], 403, "other-tenant"),
            ([1], 400, "bad-field"),
            ("x", 400, "bad-field"),
        ):
            served.ask("POST", "/v1/lines", {"tenant": tenant, "lines": lines}).refused(status, name)
        served.ask("POST", "/v1/lines", {"tenant": "other", "lines": ["other round"]}).refused(404, "no-such-tenant")
        methods_and_kinds(served)
        require(served.get(served.of("tasks"))["tasks"] == [], "something was submitted")
        require("Traceback" not in served.said(), served.said())


def methods_and_kinds(served: Site) -> None:
    """Other methods, hosts, and kinds of bodies are refused."""
    for path, item in served.get("/v1/openapi.json")["paths"].items():
        path = path.replace("{tenant}", served.case.tenant).replace("{task}", "1").replace("{kind}", "jobs")
        for method in OPERATIONS:
            if method not in item and method != "head":
                found = served.ask(method.upper(), path)
                found.refused(405, "method-not-allowed")
                require(found.headers["allow"], f"{method} {path} without Allow")
    body = {"submissions": [{"command": ["x"], "dir": "/tmp"}]}
    for headers, status, name in (
        ({"Content-Type": "text/plain"}, 415, "not-json"),
        ({"Content-Encoding": "deflate"}, 415, "not-json"),
        ({"Host": "evil.example"}, 403, "wrong-host"),
        ({"Content-Length": "9000000000"}, 413, "too-large"),
    ):
        served.ask("POST", served.of("submissions"), body, **headers).refused(status, name)
    served.ask("GET", "/v1/status", Host="evil.example:8080").refused(403, "wrong-host")
    for twice in ("Authorization: Bearer x", "Last-Event-ID: 1", "Host: localhost"):
        with closing(connected(served.socket)) as connection:
            line = f"{twice}\r\n".encode()
            connection.sendall(b"GET /v1/status HTTP/1.1\r\nHost: localhost\r\n" + 2 * line + b"\r\n")
            require(b" 400 " in connection.recv(100), f"{twice}, twice")
    found = served.ask("HEAD", "/v1/status")
    require((found.status, found.headers["x-content-type-options"]) == (200, "nosniff"), f"HEAD: {found}")


# Connections, ends, and the page.


def mixed(setup: Setup) -> None:
    """One connection takes reads and changes in any order, also while they are sent ahead."""
    with site(setup) as served:
        with closing(Connection(served.socket)) as connection:
            for number in range(1, 6):
                require(connection.ask("GET", "/v1/status").status == 200, "a read")
                body = {"submissions": [{"command": ["x"], "dir": "/tmp"}]}
                made = connection.ask("POST", served.of("submissions"), body).good(201)
                require(made["submissions"][0]["number"] == number, made)
        text = json.dumps({"tasks": ["1"]}).encode()
        head = f"POST {served.of('hold')} HTTP/1.1\r\nHost: localhost\r\nContent-Type: application/json\r\n"
        get = f"GET {served.of('tasks/1')} HTTP/1.1\r\nHost: localhost\r\n\r\n".encode()
        last = get.replace(b"\r\n\r\n", b"\r\nConnection: close\r\n\r\n")
        post = f"{head}Content-Length: {len(text)}\r\n\r\n".encode() + text
        with closing(Connection(served.socket)) as connection:
            raw = connection.raw()
            for byte in get + get + post + get + post + last:
                raw.sendall(bytes([byte]))
            answered = b""
            while more := raw.recv(65_536):
                answered += more
        statuses = re.findall(rb"HTTP/1.1 ([0-9]+)", answered)
        require(statuses == [b"200"] * 6, statuses)
        require(answered.count(b'"state": "held"') == 2, answered)


def ends(setup: Setup) -> None:
    """Each process ends with the other, and a later start serves again."""
    with site(setup) as served:
        for is_reads in (True, False):
            process = served.case.queue
            if process is None:
                raise RuntimeError("it was started")
            os.kill(served.reads_process() if is_reads else process.pid, signal.SIGKILL)
            status = process.wait(LIMIT_SECONDS)
            require(status == (1 if is_reads else -signal.SIGKILL), f"status {status}")
            served.restart()
            require(served.ask("GET", "/v1/status").status == 200, "it serves again")


def curl_lines(setup: Setup) -> None:
    """Each line of docs/API.md that a reader can type is good, and each endpoint has one."""
    if shutil.which("curl") is None:
        raise Skipped("it needs curl (apt-get install curl)")
    blocks = [block.text for block in blocks_of(PAGE.read_text()) if block.kind == "sh"]
    lines = [line for block in blocks for line in block.replace("\\\n", "").splitlines() if line.strip()]
    with setup.case_alone("--lease=600", "--socket-mode=666") as case:
        served = Site(case)
        server, key = certificate(case.folder, "server")
        case.options += ["--tls=127.0.0.1:0", f"--certificate={server}", f"--key={key}", f"--tokens={served.tokens}"]
        (case.folder / "bin").mkdir()
        for name, text in (("curl", CURL), ("firm-api", f"#!/bin/sh\nexec {' '.join(FIRM_API)} \"$@\"\n")):
            (case.folder / "bin" / name).write_text(text)
            (case.folder / "bin" / name).chmod(0o755)
        case.start()
        try:
            shown = play_lines(served, lines)
            told = {
                (method.upper(), path)
                for path, item in served.get("/v1/openapi.json")["paths"].items()
                for method in item
            }
            judge = Judge(served.get("/v1/openapi.json"))
            played = {(method, judge.path_of(path)) for method, path in shown}
            rest = told - played - {("GET", SOCKET)}
            require(not rest and played <= told, f"endpoints without a line: {rest}")
        finally:
            case.kill()


def play_lines(served: Site, lines: list[str]) -> list[tuple[str, str]]:
    """Type lines, one after another in one shell; return the methods and paths that they request."""
    case, found, agent = served.case, list[tuple[str, str]](), None
    environment = {**os.environ, "PATH": f"{case.folder / 'bin'}:{os.environ['PATH']}"}
    before = ""
    for line in lines:
        line = line.replace(TLS_PORT, str(port_of(served))).replace("--user ann", "--user root")
        done = subprocess.run(
            ["bash", "-c", before + line],
            cwd=case.folder,
            env=environment,
            capture_output=True,
            text=True,
            timeout=LIMIT_SECONDS,
        )
        is_stream = done.returncode == END_OF_STREAM and ("events" in line or "follow" in line)
        require(done.returncode == 0 or is_stream, f"{line}: status {done.returncode}: {done.stdout} {done.stderr}")
        if re.match(r"\w+=", line):
            before += f"{line}\n" if "$(" not in line else f"token={done.stdout.strip() or token_of(case)}\n"
        asked = re.search(r"https?://localhost(?::[0-9]+)?(/[^\s'\"]*)", line)
        if asked is not None:
            found.append(("POST" if " -d " in line or "--json" in line else "GET", asked[1]))
        if agent is None and found and found[-1][1].endswith("/submissions"):
            agent = run_one(case, "1")
    return found


def token_of(case: Case) -> str:
    """Return a token for the lines after the one that makes it, whose shell has ended."""
    return Site(case).token("root", "operator", "alpha")


def main() -> int:
    parser = argparse.ArgumentParser(description=(__doc__ or "").splitlines()[0])
    parser.add_argument("--quick", action="store_true", help="ask less of each kind")
    parser.add_argument("--only", metavar="WORD", default="", help="only checks whose names have this word")
    program.add_program(parser)
    given = parser.parse_args()
    python = python_with_http()
    if python is not None and importlib.util.find_spec("aiohttp") is None:
        os.execv(python, [python, __file__, *sys.argv[1:]])  # Debian's, which has the validator too
    setup = Setup(given.program, given.quick, 0)
    checks = [
        document,
        endpoints,
        plain_tenant,
        pages_of_tasks,
        logs,
        events,
        rights,
        closed_folders,
        api_tokens.tokens,
        api_tokens.torn,
        bad_requests,
        mixed,
        ends,
    ]
    checks += [curl_lines]
    found: dict[str, Check] = {check.__name__.replace("_", " "): partial(check, setup) for check in checks}
    return run_suites(Suite({name: check for name, check in found.items() if given.only in name}))


if __name__ == "__main__":
    run_script(main)
