"""The fields of a submission."""

from __future__ import annotations

from collections import Counter
from collections.abc import Mapping, Sequence
from dataclasses import dataclass, replace
from graphlib import CycleError, TopologicalSorter
from typing import Any

from ..common.fields import FLAG, NAME, Fields, absolute, bad, listed, matching, number, table, text_up_to
from ..common.fields import text_with, whole
from ..common.logs import short
from ..common.quantities import MAX_INDEXES, MAX_WEIGHT, TooMany, indexes_of
from ..common.refused import Refused
from .rows import DEFAULT_GRACE, MOST_INDEX, Spec

MOST_LETTERS, MOST_LABEL, MOST_REASON = 128 * 1024, 128, 200
WEIGHT, RETRIES, MEMORY = whole(1, MAX_WEIGHT), whole(0, 100), whole(1, 2**60)
GRACE, DURATION = number(0, 3_600), number(0, 10**9)
TIME, PROCESSORS = number(0, 10**9, is_above=True), number(0, 10**6, is_above=True)
PATH, LONG_PATH, WORD = absolute(4_096), absolute(MOST_LETTERS), text_up_to(MOST_LETTERS)
COMMAND, NEAR, NEEDS = listed(WORD, 10_000, 1), listed(NAME, 4), listed(text_up_to(MOST_LABEL + 1), 10_000)
ENVIRONMENT = table(matching("[A-Za-z_][A-Za-z0-9_]*", "a variable's name"), WORD, 1_000)
KEY, REASON = text_with(bool, 128, "a text, not an empty one,"), text_up_to(MOST_REASON)
LABEL, INDEXES, RANGE = text_up_to(MOST_LABEL), text_up_to(4_096), listed(whole(0, MOST_INDEX), 2, 2)


@dataclass(frozen=True, slots=True)
class Submit:
    """A submission that is asked for."""

    job: str | None
    weight: int | None
    indexes: Sequence[int] | None  # of an array, in order
    after: tuple[str, ...]
    after_any: tuple[str, ...]
    is_held: bool
    label: str | None
    spec: Spec

    @property
    def count(self) -> int:
        return 1 if self.indexes is None else len(self.indexes)


SUBMIT = "job weight command array after after_any time near env dir output retries grace memory processors hold"
SUBMIT_FIELDS = SUBMIT.split()


def submit_of(given: Mapping[str, Any], *others: str, most: int = MAX_INDEXES) -> Submit:
    """A submission, as a request has it; `others` are fields that are read elsewhere, `most` the bound of a list of
    indexes, which is in memory before the array's size is judged."""
    fields = Fields(given, [*SUBMIT_FIELDS, *others])
    after, after_any = (fields.read(field, NEEDS) or () for field in ("after", "after_any"))
    label = fields.read("label", LABEL) if "label" in others else None
    weight, (indexes, at_once) = fields.read("weight", WEIGHT), array_of(fields, most)
    has_gaps = indexes is not None and indexes[-1] - indexes[0] != len(indexes) - 1
    written = fields.get("array").partition("%")[0].strip() if has_gaps else None
    spec = replace(spec_of(fields), indexes=written, at_once=at_once)
    is_held = bool(fields.read("hold", FLAG))
    return Submit(fields.read("job", NAME), weight, indexes, after, after_any, is_held, label, spec)


def array_of(fields: Fields, most: int) -> tuple[Sequence[int] | None, int | None]:
    """Return the indexes of an array, and how many of its tasks may be in firm at a time."""
    value = fields.get("array")
    if value is None:
        return None, None
    if isinstance(value, str):
        try:
            return indexes_of(fields.need("array", INDEXES), most)
        except TooMany as error:
            raise Refused("array-too-large", str(error)) from None
        except ValueError as error:
            raise bad("array", str(error)) from None
    first, last = RANGE.maybe(value) or (1, 0)
    if last < first:
        raise bad("array", f"[FIRST, LAST] with 0 <= FIRST <= LAST <= {MOST_INDEX:,}, or a text as 1,3,5 or 1-40%10")
    return range(first, last + 1), None


def spec_of(fields: Fields) -> Spec:
    command, environment = fields.need("command", COMMAND), fields.read("env", ENVIRONMENT) or {}
    if not command[0]:
        raise bad("command", "a list of words, the first of them a program")
    for field, words in (("command", command), ("env", [*environment, *environment.values()])):
        if sum(map(len, words)) > MOST_LETTERS:
            raise bad(field, f"more than {MOST_LETTERS:,} letters")
    grace = fields.read("grace", GRACE)
    return Spec(
        command,
        fields.need("dir", PATH),
        environment,
        fields.read("output", PATH),
        tuple(dict.fromkeys(fields.read("near", NEAR) or ())),
        fields.read("time", TIME),
        DEFAULT_GRACE if grace is None else grace,
        fields.read("retries", RETRIES) or 0,
        fields.read("memory", MEMORY),
        fields.read("processors", PROCESSORS),
    )


def require_acyclic(asked: list[Submit]) -> None:
    """Refuses labels that are there twice, and submissions that wait for themselves."""
    counts = Counter(one.label for one in asked if one.label is not None)
    for label, count in counts.items():
        if count > 1:
            raise Refused("label-twice", f"{label}: {count} submissions have this label")
    graph = {
        one.label: {text[1:] for text in (*one.after, *one.after_any) if text.startswith("@")}
        for one in asked
        if one.label is not None
    }
    try:
        TopologicalSorter(graph).prepare()
    except CycleError as error:
        raise Refused("dependency-cycle", short(" waits for ".join(reversed(error.args[1])))) from error
