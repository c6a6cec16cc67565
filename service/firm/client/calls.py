"""Requests to firm-api, and the rows of their answers. Times are seconds of the Unix clock."""

from __future__ import annotations

import os
import time
from collections.abc import Iterable, Mapping, Sequence
from typing import Any, Generic, NotRequired, TypedDict, TypeVar

from .blocking import ApiRequest, Json, Steps, get, segment

Row = TypeVar("Row")
ENDED = frozenset(("done", "failed", "timeout", "cancelled", "unmet", "lost"))  # states of tasks that have ended
MAX_ROWS, PAGE_ROWS = 100_000, 1_000  # of a list; of an answer
NAMES_AT_ONCE, WAIT_SECONDS = 200, 60.0  # of a request to wait, which is repeated


class SubmissionFields(TypedDict):
    """A command to run; `firmctl submit --help` explains each field."""

    command: Sequence[str]
    dir: str  # an absolute path
    job: NotRequired[str]
    weight: NotRequired[int]
    array: NotRequired[tuple[int, int] | str]
    after: NotRequired[Sequence[str]]
    after_any: NotRequired[Sequence[str]]
    time: NotRequired[float]
    near: NotRequired[Sequence[str]]
    env: NotRequired[Mapping[str, str]]
    output: NotRequired[str]
    retries: NotRequired[int]
    grace: NotRequired[float]
    memory: NotRequired[int]
    processors: NotRequired[float]
    hold: NotRequired[bool]
    label: NotRequired[str]  # by which others of the same list name it, as @label


class TaskFields(TypedDict):
    task: str
    firm: str  # its name in firm
    number: int | None  # of its submission; None, like other fields, for a task outside the queue
    index: int | None
    user: str | None
    job: str
    weight: int | None
    state: str
    reason: str  # of its state or its end
    machine: str | None
    agent: str | None
    attempt: int  # the last one's number; 0: none
    submitted: float | None
    began: float | None  # of the last attempt
    ended: float | None
    seconds: float | None  # that the last attempt has run, or ran
    status: int | None
    time: float | None  # its limit
    command: list[str] | None
    start: NotRequired[float | None]  # estimated, if asked for


class TaskEnd(TypedDict):
    """The end of a task, or its state."""

    state: str
    status: int | None


class Changes(TypedDict):
    """The tasks or machines that a request has changed, and the reasons why others are unchanged."""

    changed: list[str]
    unchanged: dict[str, str]


class Listing(list[Row], Generic[Row]):
    """Rows of a list, the first ones where it is cut."""

    is_cut = False


def submit(submissions: Iterable[SubmissionFields], key: str | None = None) -> Steps[list[Json]]:
    """Submit all of a list, or none. A repetition with the same key submits nothing."""
    body = {"key": key or os.urandom(16).hex(), "submissions": list(submissions)}
    made: list[Json] = (yield ApiRequest("POST", "submissions", body))["submissions"]
    return made


def tasks(
    states: Sequence[str] = (),
    user: str | None = None,
    job: str | None = None,
    of: str | None = None,
    start: bool = False,
) -> Steps[Listing[TaskFields]]:
    """List tasks that have not ended, those in some states, or those of a submission."""
    query = {"states": ",".join(states) or None, "user": user, "job": job, "submission": of, "start": start}
    return (yield from pages("tasks", "tasks", **query))


def one_task(name: str) -> Steps[Json]:
    return (yield get(f"tasks/{segment(name)}"))


def why(name: str, past_round: int | None = None, reasons: bool = False) -> Steps[Json]:
    return (yield get(f"tasks/{segment(name)}/why", round=past_round, reasons=reasons))


def change(verb: str, names: Sequence[str] = (), jobs: Sequence[str] = ()) -> Steps[Changes]:
    """Cancel, hold or release tasks, by their names or those of jobs."""
    return (yield ApiRequest("POST", verb, {"tasks": list(names), "jobs": list(jobs)}))  # type: ignore[return-value]


def mark(verb: str, machines: Sequence[str], reason: str | None = None) -> Steps[Changes]:
    """Cordon, uncordon or drain machines. `reason` is shown with the machine, and with runs that a drain ends."""
    body: dict[str, object] = {"machines": list(machines)}
    if reason is not None:
        body["reason"] = reason
    return (yield ApiRequest("POST", verb, body))  # type: ignore[return-value]


def lines(tenant: str, some: Sequence[str]) -> Steps[list[str]]:
    """Send up to 10,000 lines of a tenant to firm, once, and return its replies. An `ApiError` with `replies` in `more`
    has those that came: firm may have obeyed the lines after these too, or after `internal`. No other obeyed any."""
    body = {"tenant": tenant, "lines": list(some)}
    replies: list[str] = (yield ApiRequest("POST", "/v1/lines", body, is_once=True))["replies"]
    return replies


def wait(names: Sequence[str], seconds: float | None = None) -> Steps[dict[str, TaskEnd]]:
    """Wait until tasks have ended, or for some time. Return their ends, or their states."""
    ends = None if seconds is None else time.monotonic() + seconds
    found: dict[str, TaskEnd] = {}
    for at in range(0, len(names), NAMES_AT_ONCE):
        text = ",".join(names[at : at + NAMES_AT_ONCE])
        while True:
            left = WAIT_SECONDS if ends is None else min(WAIT_SECONDS, max(0.0, ends - time.monotonic()))
            some: dict[str, TaskEnd] = (yield get("wait", tasks=text, seconds=repr(left)))["ends"]
            if all(end["state"] in ENDED for end in some.values()) or ends is not None and time.monotonic() >= ends:
                break
        found |= some
    return found


def history(**span: Any) -> Steps[Listing[Json]]:
    """List attempts that have ended, the oldest first: `since`, `until`, of a `user`, a `job` or a `task`."""
    found = yield from pages("history", "history", **span)
    found.reverse()
    return found


def rows_of(kind: str) -> Steps[list[Json]]:
    """List the machines, jobs or agents."""
    found: list[Json] = (yield get(kind))[kind]
    return found


def pages(path: str, key: str, **query: object) -> Steps[Listing[Any]]:
    found: Listing[Any] = Listing()
    cursor: str | None = None
    while len(found) < MAX_ROWS:
        answer = yield get(path, **query, limit=PAGE_ROWS, cursor=cursor)
        found += answer[key]
        cursor = answer["next"]
        if cursor is None:
            break
    found.is_cut = cursor is not None
    return found
