"""What agents say, judged field by field, and the work that they are given."""

from __future__ import annotations

import re
import time
from collections.abc import Mapping
from dataclasses import dataclass
from typing import Any

from ..common.fields import FLAG, NAME, TOKEN, Fields, Json, bad, choice, listed, number, shown, table
from ..common.fields import text_up_to, whole
from .fields import LONG_PATH, MEMORY, WORD
from .rows import SINGLE, Attempt, Name, Task
from .states import SIGNAL_STATUS, End

MOST_EVENTS, MOST_NUMBER, MOST_FAULT = 1_000, 2**53, 500  # of a fault letters
TOKENS, HOST, WHY, STATE = listed(TOKEN, 100_000), text_up_to(1_000), text_up_to(100), text_up_to(64)
MACHINES, MEMORIES = table(NAME, whole(1, 64), 4_096), table(NAME, MEMORY, 4_096)
COUNT, STATUS = whole(0, MOST_NUMBER - 1), whole(-256, 65_535)
SECONDS, CLOCK = number(0, MOST_NUMBER), number(-MOST_NUMBER, MOST_NUMBER)
RUN_STATE = choice("claiming", "starting", "running", "ended")


@dataclass(frozen=True, slots=True)
class ReportedRun:
    token: str
    is_there: bool  # its process may be


@dataclass(frozen=True, slots=True)
class RunClaim:
    token: str
    task: str  # by firm's name
    name: Name | None
    line: int
    state: str
    machine: str
    run: int


@dataclass(frozen=True, slots=True)
class RunReport:
    """An event of a run: it runs, or has ended."""

    token: str
    time: float
    end: End | None = None
    seconds: float | None = None
    output: str | None = None
    host: str | None = None
    max_rss: int | None = None  # bytes of memory at a time
    cpu_seconds: float | None = None


def memory_of(fields: Fields, machines: Mapping[str, int]) -> dict[str, int]:
    """Bytes of memory of some of the machines."""
    found = fields.read("memory", MEMORIES) or {}
    if not found.keys() <= machines.keys():
        raise bad("memory", "machines with their memory, of those of the agent")
    return found


def runs_of(given: Any) -> list[ReportedRun]:
    return [run_of(run) for run in entries_of("runs", given, 100_000)] if given is not None else []


def run_of(given: Json) -> ReportedRun:
    fields = Fields(given, list(given))
    return ReportedRun(fields.need("token", TOKEN), fields.need("state", RUN_STATE) in ("starting", "running"))


def entries_of(field: str, given: Any, most: int) -> list[Json]:
    """Return a list of objects."""
    if not isinstance(given, list) or len(given) > most or not all(isinstance(one, dict) for one in given):
        raise bad(field, f"a list of at most {most:,} objects")
    return given


def claim_of(given: Json) -> RunClaim:
    fields = Fields(given, ["ask", "token", "task", "line", "state", "machine", "run"])
    task, place = fields.need("task", NAME), (fields.need("line", COUNT), fields.need("state", STATE))
    name, machine, run = Name.of_firm(task), fields.need("machine", NAME), fields.need("run", COUNT)
    return RunClaim(fields.need("token", TOKEN), task, name, *place, machine, run)


def told_of(given: Json) -> list[RunReport]:
    events = Fields(given, ["ask", "events"]).get("events")
    return [event_of(event) for event in entries_of("events", events, MOST_EVENTS)]


def event_of(given: Json) -> RunReport:
    """Return an event. A time, a duration or a size that is none is left out, since the event counts all the same."""
    fields = Fields(given, list(given))
    token, kind, at = fields.need("token", TOKEN), given.get("event"), CLOCK.maybe(given.get("time"))
    seconds, at = SECONDS.maybe(given.get("seconds")), time.time() if at is None else at
    if kind in ("lost", "void"):
        return RunReport(token, at, End(kind), seconds)
    if kind not in ("running", "ended"):
        raise bad("events", f"there is no event {shown(kind)}")
    place = (fields.read("output", LONG_PATH), fields.read("host", HOST))
    if kind == "running":
        return RunReport(token, at, None, None, *place)
    status, why, fault = fields.need("status", STATUS), fields.read("why", WHY), fault_of(given.get("fault"))
    status = status if status >= 0 else SIGNAL_STATUS - status
    end = End(kind, status, bool(fields.read("asked", FLAG)), why, fault)
    used = (COUNT.maybe(given.get("max_rss")), SECONDS.maybe(given.get("cpu_seconds")))
    return RunReport(token, at, end, seconds, *place, *used)


def fault_of(value: Any) -> str | None:
    """A fault as it is kept with each attempt: it may name a word of the user's, which may be long."""
    cut = f"{value[:MOST_FAULT]} .." if isinstance(value, str) and len(value) > MOST_FAULT else value
    return Fields({"fault": cut}, ["fault"]).read("fault", WORD)


def work_of(task: Task, attempt: Attempt) -> Json:
    """How an attempt is run."""
    spec, name = task.submission.spec, task.name
    own = {"FIRM_ID": str(name), "FIRM_NUMBER": str(name.number), "FIRM_ATTEMPT": str(attempt.number)}
    if name.index != SINGLE:
        own["FIRM_INDEX"] = str(name.index)
    return {
        "task": str(name),
        "job": task.submission.job,
        "user": task.submission.user,
        "attempt": attempt.number,
        "command": list(spec.command),
        "dir": spec.dir,
        "env": {**spec.env, **own},
        "output": output_of(spec.output, name),
        "time": spec.time,
        "grace": spec.grace,
        "memory": spec.memory,
        "processors": spec.processors,
    }


def output_of(pattern: str | None, name: Name) -> str | None:
    """The file of a task's output; %A, %a and %t stand for its number, index and name, %% for a percent sign."""
    if pattern is None:
        return None
    index = "" if name.index == SINGLE else str(name.index)
    known = {"%A": str(name.number), "%a": index, "%t": str(name), "%%": "%"}
    return re.sub("%[Aat%]", lambda found: known[found[0]], pattern)
