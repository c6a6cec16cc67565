"""Finds a tenant's state before a past round, from the journal."""

from __future__ import annotations

import re
import subprocess
from collections.abc import Iterator
from dataclasses import dataclass
from pathlib import Path

from ..common.faults import Fault
from ..common.lines import is_round
from ..common.programs import program_of
from ..common.refused import Refused
from ..common.tables import Row
from ..server.firm_state import Opening, StatePart, FirmStateError, fold, tenants_of
from ..server.journal_reader import TenantLine, first_base, found_now, tenant_lines
from ..server.records import Base
from ..server.recovery import Found
from ..server.snapshots import Snapshot, opening_of, usable
from ..server.state import StateFolder
from .book_states import book_of, text_of


@dataclass(frozen=True, slots=True)
class Start:
    """A stored state, after which the journal has all lines."""

    opening: Opening
    base: Base
    state: bytes  # its text; empty for a roster

    def commands(self, tenant: str) -> int:
        """Return the tenant's number of commands before this start."""
        rows = tenants_of(self.state) if self.state else []
        return next((found.commands for found in rows if found.limits.tenant == tenant), 0)


def starts(folder: Path) -> Iterator[Start]:
    """Yield the snapshots, the newest first, then the service's beginning if the journal has all lines after it."""
    state = StateFolder(folder)
    text = state.read_opening()
    for snapshot in usable(state):
        if isinstance(snapshot, Snapshot):
            yield Start(opening_of(state, snapshot), snapshot.base, snapshot.state)
    if first_base(folder).segment <= state.base.segment:
        yield Start(state.opening, state.base, text if state.opening.is_state else b"")


def before(folder: Path, tenant: str, number: int) -> Row:
    """Return the state before the tenant's command of this number, which must be a round. Raise `Refused`."""
    for start in starts(folder):
        found = found_now(folder, start.base)
        first, count = first_line(start, found, tenant)
        if count < number:
            break
    else:
        raise Refused("not-kept", f"the journal no longer has the lines before round {number} of {tenant}")
    asked = command(found, tenant, first, count, number)
    text = fold(start.opening, lines_until(found, tenant, asked.number), StatePart(tenants=(tenant,)))
    (rows,) = tenants_of(text)
    if rows.commands != number - 1:
        raise Refused("no-such-round", f"line {asked.number} is not command {number} of {tenant}")
    time = asked.time / 1_000
    alone = text_of(book_of(text.decode("ascii")))  # without the places and admissions of other tenants
    return {"tenant": tenant, "line": asked.number - 1, "time": time, "text": alone}


def before_now(folder: Path, tenant: str, number: int) -> Row:
    """Return the same while firmd runs. If a newer snapshot replaces the start meanwhile, try once more."""
    try:
        return before(folder, tenant, number)
    except (Fault, FirmStateError):
        return before(folder, tenant, number)


def lines_until(found: Found, tenant: str, number: int) -> Iterator[bytes]:
    for line in tenant_lines(found, tenant):
        if line.number >= number:
            return
        yield line.text + b"\n"


def first_line(start: Start, found: Found, tenant: str) -> tuple[int, int]:
    """Return the line of the tenant's last admission, or of the start, and the number of its commands up to there."""
    operators = [line for line in tenant_lines(found, tenant) if line.is_operators]
    named = re.compile(rb"admit[ \t]+%b," % tenant.encode())
    admissions: list[int] = []
    if any(named.search(line.text) for line in operators):
        words = [str(program_of("firm")), *start.opening.words(), "--workers", "1"]
        given = b"".join(line.text + b"\n" for line in operators)
        replies = subprocess.run(words, input=given, capture_output=True, check=True).stdout.splitlines()
        admitted = b"+ ok admitted %b" % tenant.encode()
        admissions = [line.number for line, reply in zip(operators, replies) if reply == admitted]
    return (admissions[-1], 0) if admissions else (found.base.lines, start.commands(tenant))


def command(found: Found, tenant: str, first: int, count: int, number: int) -> TenantLine:
    """Return the tenant's command of this number, which must be a round; it has `count` commands up to line `first`."""
    nearest = 0
    for line in tenant_lines(found, tenant):
        if line.is_operators or line.number <= first:
            continue
        count += 1
        is_wanted = is_round(line.text)
        if count == number:
            if is_wanted:
                return line
            break
        nearest = count if is_wanted else nearest
    what = "is not a round" if count == number else "does not exist"
    rest = f"; the last round before that is {nearest}" if nearest else ""
    raise Refused("no-such-round", f"command {number} of {tenant} {what}{rest}")
