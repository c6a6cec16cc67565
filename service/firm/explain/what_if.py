"""Predicts the effects of a tenant's lines and of a round after them, without sending them."""

from __future__ import annotations

from collections.abc import Sequence
from dataclasses import dataclass

from ..common.lines import MAX_BYTES, first_word, gets_reply, is_round
from ..common.refused import Refused
from ..common.tables import printable
from .book_states import book_of, tenant_in
from .trials import PlacementChange, after, changes, firm, round_of


@dataclass(frozen=True, slots=True)
class LineFault:
    """A line that firm would refuse, or that is another tenant's."""

    line: int  # from 1
    text: str
    fault: str


@dataclass(frozen=True, slots=True)
class Forecast:
    """The tenant after the lines and a round."""

    replies: list[str]
    changes: list[PlacementChange]
    cost: int  # of the round
    cost_now: int  # of a round without the lines
    slots: int
    free: int
    waiting: int


class Faulty(Exception):
    """Some lines have faults, so none is tried."""

    def __init__(self, faults: list[LineFault]) -> None:
        super().__init__(f"lines with faults: {len(faults)}")
        self.faults = faults


def outcome_of(state: str, lines: Sequence[bytes]) -> Forecast:
    """Return the forecast for the tenant of a state after the lines, and after a round unless they end with one.

    Raise `Faulty` with every line that firm would refuse or that is another tenant's, `NotBuilt` and `Refused`.
    """
    tenant = tenant_in(state)
    numbered = [(number, line) for number, line in enumerate(lines, 1) if gets_reply(line)]
    own = [(number, line) for number, line in numbered if first_word(line) == tenant.encode()]
    tried = [line for _, line in own]
    if not tried or not is_round(tried[-1]):
        tried.append(round_of(tenant))
    with firm(state, tried) as trial, firm(state, [round_of(tenant)]) as now:
        book = book_of(state)  # while these run
        replies, (reply_now,) = trial.replies(), now.replies()
    found = {number: foreign(line) for number, line in numbered if first_word(line) != tenant.encode()}
    found |= {number: refusal for (number, _), reply in zip(own, replies) if (refusal := refusal_in(reply))}
    if found:
        texts = dict(numbered)
        raise Faulty([LineFault(number, shown(texts[number]), found[number]) for number in sorted(found)])
    if refusal_in(replies[-1]):
        raise Refused("no-round", f"a round of {tenant} would be refused: {replies[-1]}")
    later = after(book, tried, replies)
    return Forecast(
        replies,
        changes(book, later),
        cost_of(replies[-1]),
        cost_of(reply_now),
        later.slots,
        later.slots - later.running,
        later.waiting,
    )


def foreign(line: bytes) -> str:
    """Return the fault of a line that is not the tenant's."""
    word = first_word(line)
    if word is None:
        return "line-too-long"
    return "operator-only" if word == b"+" else "other-tenant"


def refusal_in(reply: str) -> str:
    """Return the name of a refusal, or an empty string for any other reply."""
    words = reply.split()
    return words[4] if words[2] == "no" else ""


def cost_of(reply: str) -> int:
    return int(reply.split()[5])


def shown(line: bytes) -> str:
    return printable(line[:MAX_BYTES].decode("utf-8", "backslashreplace"))
