"""Rosters: the limits of each tenant, and every fault of a file with its line, field and value."""

from __future__ import annotations

import codecs
import csv
import io
import re
from collections.abc import Iterator, Sequence
from dataclasses import astuple, dataclass

from .lines import NAME_FORM

MAX_BYTES, MAX_TENANTS = 65_536, 64  # of a roster, as firm reads them
MAX_PATIENCE = 1_000_000  # rounds; a tenant's, unless its record has another


def slot_cost(spread: int, slot: int) -> int:
    """Return a task's cost in a machine's slot of this number, counted from 0."""
    return slot * spread


@dataclass(frozen=True, slots=True)
class Limits:
    """A tenant's record in a roster, or in the operator's line that admits it."""

    tenant: str
    nodes: int
    arcs: int
    life: int
    spread: int
    churn: int
    remote: int = 0
    patience: int = MAX_PATIENCE

    @classmethod
    def of_fields(cls, fields: Sequence[str]) -> Limits:
        """Return the limits of a record that firm has accepted."""
        return cls(fields[0], *map(int, fields[1:]))

    @property
    def has_patience(self) -> bool:
        """Return whether the tenant's patience is not the default; only extended services allow that."""
        return self.patience < MAX_PATIENCE

    def row(self) -> str:
        """Return the record as in a roster with `remote`, or in an operator's line; omit the longest patience."""
        fields = astuple(self)
        return ",".join(map(str, fields if self.has_patience else fields[:-1]))


RANGES = {
    "nodes": (2, 4_096),
    "arcs": (0, 65_536),
    "life": (1, 2**40),
    "spread": (0, 1_000),
    "churn": (0, 1_000_000),
    "remote": (0, 1_000_000),
    "patience": (0, MAX_PATIENCE),
}
FULL_HEADING = ["tenant", *RANGES]
HEADINGS = [FULL_HEADING[:width] for width in (6, 7, 8)]  # the last two fields may be left out
WANTED_HEADING = f"it must be {','.join(HEADINGS[0])!r}, or that and ',remote', or that and ',remote,patience'"


@dataclass(frozen=True, slots=True)
class RosterFault:
    """A fault of a roster; `name` is firm's name of it."""

    line: int  # from 1
    name: str
    field: str
    value: str
    wanted: str

    def __str__(self) -> str:
        return f"{self.field} {self.value!r}: {self.wanted}"


class RosterError(Exception):
    """firm refuses a roster."""

    def __init__(self, faults: list[RosterFault]) -> None:
        super().__init__("; ".join(f"roster line {fault.line}: {fault}" for fault in faults))
        self.faults = faults


@dataclass(frozen=True, slots=True)
class RosterRecord:
    line: int  # where it begins, from 1
    fields: list[str]


def records_of(data: bytes) -> Iterator[RosterRecord]:
    """Yield the records that are not empty lines, after a byte order mark, if any; each byte is a character."""
    reader = csv.reader(io.StringIO(data.removeprefix(codecs.BOM_UTF8).decode("latin-1"), newline=""))
    line = 1
    for fields in reader:
        if fields:
            yield RosterRecord(line, fields)
        line = reader.line_num + 1


def is_extended(data: bytes) -> bool:
    """Return whether the heading has a patience, so that operators may set it too."""
    heading = next(records_of(data[:MAX_BYTES]), None)  # the csv module refuses longer fields
    return heading is not None and heading.fields == FULL_HEADING


def faults_of_fields(record: RosterRecord) -> Iterator[RosterFault]:
    """Yield the faults of a record with the right number of fields."""
    tenant, *numbers = record.fields
    if re.fullmatch(NAME_FORM, tenant) is None:
        yield RosterFault(record.line, "name", "tenant", tenant, "a name is 1 to 16 of a-z, 0-9 and -")
    for (field, (low, high)), value in zip(RANGES.items(), numbers):
        if re.fullmatch(r"[0-9]{1,13}", value) is None or not low <= int(value) <= high:
            wanted = f"a number from {low:,} to {high:,}, written as 1 to 13 digits"
            yield RosterFault(record.line, "number", field, value, wanted)


def faults_of_heading(record: RosterRecord) -> Iterator[RosterFault]:
    if record.fields not in HEADINGS:
        yield RosterFault(record.line, "header", "heading", ",".join(record.fields), WANTED_HEADING)


def faults_of_records(heading: RosterRecord, records: Iterator[RosterRecord]) -> Iterator[RosterFault]:
    width = min(max(len(heading.fields), len(HEADINGS[0])), len(FULL_HEADING))
    first_lines: dict[str, int] = {}
    for count, record in enumerate(records, 1):
        tenant = record.fields[0]
        if count > MAX_TENANTS:
            yield RosterFault(
                record.line, "count", "tenant", tenant, f"number {count}; a roster has {MAX_TENANTS} at most"
            )
            return
        if len(record.fields) != width:
            wanted = f"{len(record.fields)} fields; the heading has {width}"
            yield RosterFault(record.line, "row", "record", ",".join(record.fields), wanted)
            continue
        yield from faults_of_fields(record)
        if tenant in first_lines:
            yield RosterFault(
                record.line, "repeated-name", "tenant", tenant, f"line {first_lines[tenant]} has it already"
            )
        first_lines.setdefault(tenant, record.line)
    if not first_lines:
        yield RosterFault(heading.line, "count", "tenant", "", "a roster has one at least")


def faults_of(data: bytes) -> Iterator[RosterFault]:
    """Yield every fault of a roster; firm's refusal names the first."""
    if len(data) > MAX_BYTES:
        yield RosterFault(1, "row", "length", f"more than {MAX_BYTES:,} bytes", "a roster has no more")
        return
    records = records_of(data)
    heading = next(records, None)
    if heading is None:
        yield RosterFault(1, "header", "heading", "", WANTED_HEADING)
        return
    yield from faults_of_heading(heading)
    yield from faults_of_records(heading, records)


def read_roster(data: bytes) -> list[Limits]:
    """Return the tenants of a roster in its order. Raise `RosterError` if firm would refuse it."""
    faults = list(faults_of(data))
    if faults:
        raise RosterError(faults)
    _, *records = records_of(data)
    return [Limits.of_fields(record.fields) for record in records]
