"""The work of a run, as the queue gives it to an agent."""

from __future__ import annotations

import os
from contextlib import suppress
from dataclasses import dataclass, field
from pathlib import Path
from typing import Any

from ..common.fields import Fields, table, whole
from ..common.logs import short
from ..common.refused import Refused
from ..queue.fields import COMMAND, GRACE, LONG_PATH, MEMORY, PATH, PROCESSORS, TIME, WORD

CANNOT_START = 126  # a shell's status for a command that can't be run
USER = whole(0, 2**32 - 2)  # the next number stands for no user
VARIABLES = table(WORD, WORD, 100_000)  # of a task's environment
NOBODY = (65_534, 65_535)  # the kernel's user for ids that a namespace lacks, and the "no user" of 16 bits
LOGIN_DEFS = Path("/etc/login.defs")
DEFAULT_UID_MIN = 1_000
WORK_FIELDS = ("command", "dir", "env", "output", "time", "grace", "memory", "processors", "user")


class NotAllowed(Exception):
    """Work that this agent doesn't do."""

    def event(self) -> dict[str, Any]:
        """Return how the run ends that was to do it."""
        return {"event": "ended", "status": CANNOT_START, "asked": False, "fault": str(self)}


@dataclass(frozen=True)
class Work:
    """How a task is run."""

    command: list[str]
    directory: str
    grace: float  # seconds from SIGTERM to SIGKILL
    environment: dict[str, str] = field(default_factory=dict)
    bounds: dict[str, Any] = field(default_factory=dict)  # as a supervisor is asked for them


def work_of(answer: Any, owner: int | None) -> Work:
    """Work as the queue says it; raises NotAllowed where it is none. An agent of root runs it as its user; of a queue
    that names none, as its owner."""
    given = answer if isinstance(answer, dict) else {}
    fields = Fields({name: given.get(name) for name in WORK_FIELDS}, WORK_FIELDS)
    try:
        found = {
            "output": fields.read("output", LONG_PATH),
            "limit": fields.read("time", TIME),
            "memory": fields.read("memory", MEMORY),
            "processors": fields.read("processors", PROCESSORS),
            "user": user_of(fields, owner) if os.geteuid() == 0 else None,
        }
        bounds = {name: value for name, value in found.items() if value is not None}
        directory, grace = fields.need("dir", PATH), fields.need("grace", GRACE)
        return Work(
            list(fields.need("command", COMMAND)), directory, grace, fields.read("env", VARIABLES) or {}, bounds
        )
    except Refused as refusal:
        raise NotAllowed(f"the queue gives what is not work: {short(str(refusal))}") from None


def user_of(fields: Fields, owner: int | None) -> int | None:
    """Return the user as whom an agent of root runs the work; None for root, on behalf of root's own queue.

    No queue may name a system account: it owns the files and secrets of a service, and nobody logs in as it.
    """
    named = fields.read("user", USER)
    user = owner if named is None else named
    if user == owner == 0:
        return None
    if user is None or is_system_account(user):
        raise NotAllowed(f"the queue names user {user}: system accounts run no tasks")
    return user


def is_system_account(user: int) -> bool:
    """Return whether a number is a service's on this host, or nobody's.

    UID_MAX is no limit: it bounds the numbers that useradd gives out, and directories have people above it.
    """
    return user < uid_min() or user in NOBODY


def uid_min() -> int:
    """Return the lowest number of a person's account on this host: by the last line that has it, and never root's."""
    found = DEFAULT_UID_MIN
    with suppress(OSError, ValueError):
        for line in LOGIN_DEFS.read_text(errors="replace").splitlines():
            words = line.split()
            if words[:1] == ["UID_MIN"] and len(words) > 1:
                found = max(1, int(words[1], 0))
    return found
