"""The API's endpoints, and the OpenAPI document that says what each takes and gives.

Requests are read by it: a parameter that stands here, and no other, is converted and checked by its schema.
"""

from __future__ import annotations

from collections.abc import Mapping, Sequence
from dataclasses import dataclass, field
from typing import Any

from ..common.fields import Json
from ..common.version import version
from ..queue.fields import MOST_REASON
from ..queue.listing import FOREIGN
from ..queue.states import TaskState
from .rows import MAX_ROWS

Schema = dict[str, Any]
TEXT: Schema = {"type": "string"}
WHOLE: Schema = {"type": "integer"}
NUMBER: Schema = {"type": "number"}
FLAG: Schema = {"type": "boolean"}
ANY: Schema = {}
NAME_FORM, TASK_FORM = "^[a-z0-9-]{1,16}$", "^[a-z0-9_-]{1,20}$"
MAX_LINES = 10_000  # of a request


def listed(items: Schema, most: int | None = None) -> Schema:
    return {"type": "array", "items": items, **({"maxItems": most} if most is not None else {})}


def maybe(schema: Schema) -> Schema:
    return {**schema, "nullable": True}


def named(values: Schema) -> Schema:
    return {"type": "object", "additionalProperties": values}


def ref(name: str) -> Schema:
    return {"$ref": f"#/components/schemas/{name}"}


def fields_of(needed: Mapping[str, Schema], others: Mapping[str, Schema] | None = None) -> Schema:
    """An object with these fields: all of the first, any of the others."""
    required = {"required": list(needed)} if needed else {}
    return {"type": "object", "properties": {**needed, **(others or {})}, "additionalProperties": False, **required}


def open_of(needed: Mapping[str, Schema]) -> Schema:
    """An object with these fields, and perhaps others."""
    return {"type": "object", "properties": dict(needed), "required": list(needed)}


@dataclass(frozen=True)
class Parameter:
    name: str
    schema: Schema
    told: str
    place: str = "query"

    def object(self) -> Json:
        found = {"name": self.name, "in": self.place, "description": self.told, "schema": self.schema}
        return {**found, "required": True} if self.place == "path" else found


@dataclass(frozen=True)
class Endpoint:
    method: str
    path: str
    name: str  # of the operation, and of its handler
    told: str
    answer: Schema | None = None  # of JSON
    takes: Sequence[Parameter] = ()
    body: Schema | None = None
    media: str = "application/json"  # of the answer
    statuses: Mapping[int, str] = field(default_factory=lambda: {200: "Done."})
    is_stream: bool = False
    is_socket: bool = False  # a WebSocket
    is_open: bool = False  # to anybody who reaches the server

    def object(self) -> Json:
        schema = self.answer if self.answer is not None else TEXT
        content = {"content": {self.media: {"schema": schema}}}
        content = {} if self.is_socket else content
        answers: Json = {str(status): {"description": told, **content} for status, told in self.statuses.items()}
        answers["default"] = {"description": "Refused, and nothing changed.", "content": PROBLEM}
        found: Json = {"operationId": self.name, "summary": self.told, "responses": answers}
        if self.takes:
            found["parameters"] = [parameter.object() for parameter in self.takes]
        if self.body is not None:
            found["requestBody"] = {"required": True, "content": {"application/json": {"schema": self.body}}}
        return {**found, "security": []} if self.is_open else found


PROBLEM = {"application/json": {"schema": ref("Problem")}}
TENANT = Parameter("tenant", {**TEXT, "pattern": NAME_FORM}, "The tenant's name.", "path")
TASK = Parameter("task", {**TEXT, "pattern": TASK_FORM}, "The task's name, as 12 or 12_4.", "path")
USER = Parameter("user", {**TEXT, "maxLength": 100}, "Rows of this user alone, by login name or number.")
JOB = Parameter("job", {**TEXT, "pattern": NAME_FORM}, "Rows of this job alone.")
LIMIT = Parameter("limit", {**WHOLE, "minimum": 1, "maximum": MAX_ROWS, "default": 100}, "Rows of a page.")
CURSOR = Parameter("cursor", {**TEXT, "maxLength": 100}, "The `next` of the page before.")
NUMBER_OF = Parameter("submission", {**WHOLE, "minimum": 1, "maximum": 99_999_999}, "All tasks of this submission.")
STATES = Parameter(
    "states",
    {**TEXT, "maxLength": 200},
    f"With commas between them, of {', '.join([*TaskState, FOREIGN])}; ended ones too.",
)
START = Parameter("start", {**FLAG, "default": False}, "Whether to estimate when waiting tasks start.")
PAST_ROUND = Parameter(
    "round",
    {**WHOLE, "minimum": 1, "maximum": 2**62},
    "Before this past round of firm's, by the number of its reply.",
)
REASONS = Parameter("reasons", {**FLAG, "default": False}, "Whether to add firm_explain's lines.")
KIND = Parameter("kind", {**TEXT, "pattern": "^(tasks|machines|jobs)$"}, "tasks, machines or jobs.", "path")
NAME = Parameter("name", {**TEXT, "maxLength": 100}, "The row of this name alone.")
OF_TASK = Parameter("task", {**TEXT, "pattern": TASK_FORM}, "Rows of this task or submission alone.")
NAMED = Parameter("tasks", {**TEXT, "maxLength": 6_000}, "Tasks and submissions, with commas between them.")
SECONDS = Parameter("seconds", {**NUMBER, "minimum": 0, "maximum": 60, "default": 60}, "The longest wait.")
SINCE = Parameter("since", NUMBER, "From this time on, in seconds of the Unix clock.")
UNTIL = Parameter("until", NUMBER, "Before this time.")
ATTEMPT = Parameter("attempt", {**WHOLE, "minimum": 1, "maximum": 2**31}, "Of this attempt; the last by default.")
FROM = Parameter("from", {**WHOLE, "minimum": 0, "maximum": 2**62, "default": 0}, "The first byte.")
FOLLOW = Parameter("follow", {**FLAG, "default": False}, "Whether to go on until the attempt has ended.")
LAST_ID = Parameter("Last-Event-ID", {**TEXT, "maxLength": 64}, "Go on after the event of this id.", "header")
WITH_LINES = Parameter("lines", {**FLAG, "default": False}, "Whether to send firm's lines with their replies too.")
NEXT = {"next": maybe(TEXT)}
OF_TENANT = "/v1/tenants/{tenant}"
BATCH = fields_of({"submissions": {**listed(ref("Submission"), 10_000), "minItems": 1}}, {"key": maybe(TEXT)})
LINES_OF = {"lines": {**listed({**TEXT, "maxLength": 256}, MAX_LINES), "minItems": 1}}
NAMES = listed({**TEXT, "maxLength": 32}, 100_000)
WITH_REASON = {"reason": maybe({**TEXT, "maxLength": MOST_REASON})}
CHANGED = fields_of({"changed": listed(TEXT), "unchanged": named(TEXT)})

ENDPOINTS = [
    Endpoint("GET", "/", "page", "The page, for browsers.", media="text/html", is_open=True),
    Endpoint("GET", "/v1/openapi.json", "document", "This document.", ANY, is_open=True),
    Endpoint("GET", "/metrics", "metrics", "Metrics, for Prometheus.", media="text/plain"),
    Endpoint("GET", "/v1/status", "status", "The server, the caller, and what the caller may do.", ref("Status")),
    Endpoint("GET", "/v1/firmd", "firmd", "firmd's processes, clients and journal in numbers.", ref("Firmd")),
    Endpoint("GET", "/v1/tenants", "tenants", "The caller's tenants.", fields_of({"tenants": listed(ref("Tenant"))})),
    Endpoint("GET", OF_TENANT, "tenant", "A tenant, with its queue.", ref("TenantDetail"), [TENANT]),
    Endpoint(
        *("GET", f"{OF_TENANT}/machines", "machines", "Machines, with the caller's tasks there."),
        *(fields_of({"machines": listed(ref("Machine"))}), [TENANT]),
    ),
    Endpoint(
        *("GET", f"{OF_TENANT}/jobs", "jobs", "Jobs with tasks that have not ended."),
        *(fields_of({"jobs": listed(ref("Job"))}), [TENANT]),
    ),
    Endpoint(
        *("GET", f"{OF_TENANT}/firm/{{kind}}", "firm_rows", "Tasks, machines or jobs in firm, in pages."),
        *(fields_of({"rows": listed(open_of({"tenant": TEXT})), **NEXT}), [TENANT, KIND, NAME, LIMIT, CURSOR]),
    ),
    Endpoint(
        *("GET", f"{OF_TENANT}/state", "state", "A tenant's state, as firm --state opens it."),
        *(ref("State"), [TENANT, PAST_ROUND]),
    ),
    Endpoint(
        *("GET", f"{OF_TENANT}/agents", "agents", "Agents of the queue."),
        *(fields_of({"agents": listed(ref("Agent"))}), [TENANT]),
    ),
    Endpoint(
        *("GET", f"{OF_TENANT}/agents/connect", "connect", "Connect an agent, by a WebSocket; docs/API.md has more."),
        takes=[TENANT],
        statuses={101: "Connected."},
        is_socket=True,
    ),
    Endpoint(
        *("GET", f"{OF_TENANT}/tasks", "tasks", "Tasks that have not ended, in pages, by submission and index."),
        fields_of({"tasks": listed(ref("Task")), **NEXT}),
        [TENANT, USER, JOB, NUMBER_OF, STATES, START, LIMIT, CURSOR],
    ),
    Endpoint(
        *("GET", f"{OF_TENANT}/wait", "wait", "How tasks ended, once all have, or after some seconds."),
        *(fields_of({"ends": named(fields_of({"state": TEXT, "status": maybe(WHOLE)}))}), [TENANT, NAMED, SECONDS]),
    ),
    Endpoint("GET", f"{OF_TENANT}/tasks/{{task}}", "task", "A task.", ref("TaskDetail"), [TENANT, TASK]),
    Endpoint(
        *("GET", f"{OF_TENANT}/tasks/{{task}}/why", "why", "Why a task is where it is, in words."),
        *(open_of({"task": TEXT, "state": TEXT, "text": listed(TEXT)}), [TENANT, TASK, PAST_ROUND, REASONS]),
    ),
    Endpoint(
        *("GET", f"{OF_TENANT}/tasks/{{task}}/log", "log", "A task's output.", {**TEXT, "format": "binary"}),
        takes=[TENANT, TASK, ATTEMPT, FROM, FOLLOW],
        media="application/octet-stream",
        is_stream=True,
    ),
    Endpoint(
        *("GET", f"{OF_TENANT}/history", "history", "Attempts that have ended, in pages, the last first."),
        fields_of({"history": listed(ref("Past")), **NEXT}),
        [TENANT, SINCE, UNTIL, USER, JOB, OF_TASK, LIMIT, CURSOR],
    ),
    Endpoint(
        *("GET", f"{OF_TENANT}/events", "events", "What changes, as server-sent events."),
        takes=[TENANT, WITH_LINES, LAST_ID],
        media="text/event-stream",
        is_stream=True,
    ),
    Endpoint(
        *("POST", f"{OF_TENANT}/submissions", "submit", "Submit work: all of the list, or none."),
        *(fields_of({"submissions": listed(ref("Submitted"))}), [TENANT], BATCH),
        statuses={201: "Submitted, on the disk.", 200: "Submitted before, with the same key."},
    ),
    *[
        Endpoint(
            *("POST", f"{OF_TENANT}/{verb}", verb, f"{verb.capitalize()} tasks, by name or by job.", CHANGED, [TENANT]),
            body=fields_of({}, {"tasks": NAMES, "jobs": NAMES}),
        )
        for verb in ("cancel", "hold", "release")
    ],
    *[
        Endpoint(
            *("POST", f"{OF_TENANT}/{verb}", verb, f"{verb.capitalize()} machines; for operators.", CHANGED, [TENANT]),
            body=fields_of({"machines": NAMES}, optional),
        )
        for verb, optional in (("cordon", WITH_REASON), ("uncordon", None), ("drain", WITH_REASON))
    ],
    Endpoint(
        *("POST", f"{OF_TENANT}/what-if", "what_if", "What lines and a round after them would do; changes nothing."),
        *(ref("Outcome"), [TENANT], fields_of(LINES_OF)),
    ),
    Endpoint(
        *("POST", "/v1/lines", "lines", "Send a tenant's lines to firm; the replies are in their order."),
        *(fields_of({"replies": listed(TEXT)}), (), fields_of({"tenant": TENANT.schema, **LINES_OF})),
    ),
]
TIME = maybe(NUMBER)
ATTEMPT_FIELDS: dict[str, Schema] = {
    **{"attempt": WHOLE, "agent": maybe(TEXT), "machine": maybe(TEXT), "run": maybe(WHOLE)},
    **{"began": TIME, "ended": TIME, "seconds": maybe(NUMBER), "outcome": maybe(TEXT), "status": maybe(WHOLE)},
    **{"reason": TEXT, "output": maybe(TEXT), "host": maybe(TEXT)},
    **{"max_rss": maybe(WHOLE), "cpu_seconds": maybe(NUMBER)},
}
PLACE_FIELDS = {"number": maybe(WHOLE), "index": maybe(WHOLE), "user": maybe(TEXT), "job": TEXT, "submitted": TIME}
ROW_FIELDS: dict[str, Schema] = {
    **{"task": TEXT, "firm": TEXT, **PLACE_FIELDS, "weight": maybe(WHOLE), "state": TEXT, "reason": TEXT},
    **{"machine": maybe(TEXT), "agent": maybe(TEXT), "attempt": WHOLE, "began": TIME, "ended": TIME},
    **{"seconds": maybe(NUMBER), "status": maybe(WHOLE), "time": maybe(NUMBER), "command": maybe(listed(TEXT))},
}
SPEC_FIELDS: dict[str, Schema] = {
    **{"time": maybe(NUMBER), "near": listed(TEXT), "env": named(TEXT), "output": maybe(TEXT), "retries": WHOLE},
    **{"grace": NUMBER, "memory": maybe(WHOLE), "processors": maybe(NUMBER), "after": listed(TEXT)},
    **{"after_any": listed(TEXT), "array": {"nullable": True, "oneOf": [TEXT, listed(WHOLE)]}},
}
RIGHTS = {"tenant": TEXT, "role": {**TEXT, "enum": ["user", "operator", "lines"]}, "lines": FLAG, "queue": FLAG}
COUNTS = dict.fromkeys(["machines", "jobs", "running", "waiting", "slots", "free_slots", "rounds"], WHOLE)
COUNTS |= {"last_cost": maybe(WHOLE), "commands": WHOLE, "life": WHOLE}
SCHEMAS: dict[str, Schema] = {
    "Problem": open_of({"error": TEXT, "message": TEXT}),
    "Status": fields_of(
        {"version": TEXT, "user": TEXT, "number": WHOLE, "started": NUMBER, "tenants": listed(fields_of(RIGHTS))}
    ),
    "Tenant": fields_of({**RIGHTS, "firm": open_of({"is_there": FLAG, "reason": TEXT})}, COUNTS),
    "TenantDetail": open_of({**RIGHTS, "firm": open_of({"is_there": FLAG, "reason": TEXT}), "states": named(WHOLE)}),
    "Firmd": open_of({"started": NUMBER, "clients": WHOLE, "lines": WHOLE, "journal_bytes": WHOLE}),
    "State": fields_of({"tenant": TEXT, "line": WHOLE, "time": maybe(NUMBER), "text": TEXT}),
    "Machine": fields_of(
        {
            **{"machine": TEXT, "slots": maybe(WHOLE), "agent": maybe(TEXT), "state": TEXT, "reason": TEXT},
            **{"host": maybe(TEXT), "tasks": listed(TEXT), "open": WHOLE},
        }
    ),
    "Job": fields_of({"job": TEXT, "user": maybe(TEXT), "weight": WHOLE, "states": named(WHOLE)}),
    "Agent": fields_of(
        {
            **{"agent": TEXT, "host": maybe(TEXT), "state": TEXT, "silent": NUMBER, "machines": listed(TEXT)},
            **{"open": WHOLE, "since": TIME},
        }
    ),
    "Task": fields_of(ROW_FIELDS, {"start": TIME}),
    "Attempt": fields_of(ATTEMPT_FIELDS),
    "Past": fields_of({**ATTEMPT_FIELDS, **PLACE_FIELDS, "task": TEXT}),
    "TaskDetail": fields_of({**ROW_FIELDS, "spec": maybe(open_of(SPEC_FIELDS)), "attempts": listed(ref("Attempt"))}),
    "Submission": fields_of(
        {"command": {**listed(TEXT, 10_000), "minItems": 1}, "dir": TEXT},
        {
            **{name: maybe(schema) for name, schema in SPEC_FIELDS.items()},
            **{"job": maybe(TEXT), "weight": maybe(WHOLE), "hold": maybe(FLAG), "label": maybe(TEXT)},
        },
    ),
    "Submitted": fields_of(
        {"number": WHOLE, "first": maybe(WHOLE), "last": maybe(WHOLE), "count": WHOLE, "job": TEXT},
        {"label": maybe(TEXT), "array": TEXT, "again": FLAG},
    ),
    "Outcome": open_of(
        {"replies": listed(TEXT), "changes": listed(open_of({"task": TEXT, "change": TEXT})), "cost": WHOLE}
    ),
}


def document() -> Json:
    paths: dict[str, Json] = {}
    for endpoint in ENDPOINTS:
        paths.setdefault(endpoint.path, {})[endpoint.method.lower()] = endpoint.object()
    schemes = {"token": {"type": "http", "scheme": "bearer"}}
    return {
        "openapi": "3.0.3",
        "info": {
            "title": "firm",
            "version": version(),
            "description": "A cluster scheduler. docs/API.md has examples.",
        },
        "paths": paths,
        "components": {"schemas": SCHEMAS, "securitySchemes": schemes},
        "security": [{"token": []}, {}],  # on a Unix socket the caller is the system's user
    }
