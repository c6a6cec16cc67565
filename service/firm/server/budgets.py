"""Budgets of each tenant's and each socket's lines: bytes a second, and bytes of the disk a day.

Lines past the bytes a second wait; lines past the bytes a day are refused. A budget refills evenly, so a tenant with an
exhausted budget can still send a little.
"""

from __future__ import annotations

import argparse
from collections import Counter
from collections.abc import Callable
from dataclasses import dataclass, field

from .observers import Status
from .tenant_queues import OPERATORS, LineBatch, AdmissionDecision
from .tenant_register import TenantRegister

DAY_SECONDS = 86_400
WAIT_SECONDS = 0.005  # at least, for a queue or a socket that is ahead of its bytes a second
GO, SPLIT = AdmissionDecision(), AdmissionDecision(is_to_split=True)

JOURNAL_FULL = b"? journal-full: no further lines until firm restarts from a snapshot\n"
TENANT_FULL = b"? tenant-journal-full: %b: daily journal quota exceeded\n"
SOCKET_FULL = b"? socket-journal-full: daily journal quota of this socket exceeded\n"


@dataclass(frozen=True, slots=True)
class Rates:
    """Bytes of lines that a tenant or a socket may send."""

    second: int  # accepted
    day: int  # in the journal, with its headings: some 50 bytes for each write of lines


@dataclass(frozen=True, slots=True)
class Budgets:
    of_tenant: Rates
    of_socket: Rates


class Bucket:
    """A token bucket: bytes are added at a steady rate, up to a bound."""

    __slots__ = ("rate", "most", "left", "_at")

    def __init__(self, rate: float, most: float, now: float) -> None:
        self.rate, self.most, self.left, self._at = rate, most, most, now

    def has(self, size: int, now: float) -> bool:
        """Refill it, and return whether it has this many bytes."""
        self.left = min(self.most, self.left + (now - self._at) * self.rate)
        self._at = now
        return self.left >= size

    def wait(self) -> float:
        """Return the seconds until an empty bucket has bytes again."""
        return max(WAIT_SECONDS, -self.left / self.rate)


class Account:
    """The remaining budget of a tenant or a socket."""

    __slots__ = ("second", "day")

    def __init__(self, rates: Rates, now: float) -> None:
        self.second = Bucket(rates.second, rates.second, now)
        self.day = Bucket(rates.day / DAY_SECONDS, rates.day, now)


@dataclass(slots=True)
class BudgetCounters:
    """Counters since the start: firmd's own replies, and waits of lines."""

    # By socket, tenant (empty for none), and the reply's name.
    replies: Counter[tuple[bytes, bytes, bytes]] = field(default_factory=Counter)
    waits: Counter[tuple[bytes, bytes]] = field(default_factory=Counter)  # by socket and tenant, one of them empty

    def reply(self, socket: bytes, tenant: bytes, text: bytes, count: int) -> None:
        """Count replies with this text: `? NAME: ..`, `! NAME` or an exhausted tenant's."""
        name = text[2 : text.find(b":")] if text.startswith(b"?") else text.split()[-1]
        self.replies[socket, tenant, name] += count


class Accounts:
    """The admission policy for lines that leave their queues, by budgets."""

    def __init__(self, budgets: Budgets, register: TenantRegister, status: Status, clock: Callable[[], float]) -> None:
        self.budgets, self.counters = budgets, BudgetCounters()
        self.register, self.status, self._clock = register, status, clock
        self.of_tenant: dict[bytes, Account] = {}
        self.of_socket: dict[bytes, Account] = {}

    def tenant(self, name: bytes) -> Account:
        if name not in self.of_tenant:
            for other in set(self.of_tenant) - {OPERATORS}:
                if other not in self.register:  # retired tenants
                    del self.of_tenant[other]
            self.of_tenant[name] = Account(self.budgets.of_tenant, self._clock())
        return self.of_tenant[name]

    def socket(self, name: bytes) -> Account:
        if name not in self.of_socket:
            self.of_socket[name] = Account(self.budgets.of_socket, self._clock())
        return self.of_socket[name]

    def decide(self, batch: LineBatch, now: float) -> AdmissionDecision:
        """Decide whether a batch goes to firm, waits, or gets firmd's own reply."""
        socket = batch.owner.socket if batch.owner is not None else None
        is_operators = batch.queue == OPERATORS
        reply = None if is_operators else self.register.reply(batch.queue)
        if reply is not None:
            return self._refuse(reply, batch, socket)
        if self.status.journal_bytes + len(batch.text) > self.status.journal_limit:
            return SPLIT if batch.count > 1 else self._refuse(JOURNAL_FULL, batch, socket)
        if socket is not None:
            refused = self._debit(batch, socket, now)
            if refused is not None:
                return refused
        if is_operators:
            self.register.operate(batch.count)
        self.status.journal_bytes += len(batch.text)
        return GO

    def count_heading(self, batch: LineBatch) -> None:
        """Debit the journal's headings of a client's lines from the daily budgets."""
        socket = batch.owner.socket if batch.owner is not None else None
        if socket is not None and batch.heading:
            self.tenant(batch.queue).day.left -= batch.heading
            self.socket(socket).day.left -= batch.heading

    def _debit(self, batch: LineBatch, socket: bytes, now: float) -> AdmissionDecision | None:
        """Debit a client's lines from the budgets. Return None if the budgets suffice, otherwise the decision."""
        size, own, whole = len(batch.text), self.tenant(batch.queue), self.socket(socket)
        if own.second.left < 1 and not own.second.has(1, now):
            self.counters.waits[b"", batch.queue] += 1
            return AdmissionDecision(wait=own.second.wait())
        if own.day.left < size and not own.day.has(size, now):
            return SPLIT if batch.count > 1 else self._refuse(TENANT_FULL % batch.queue, batch, socket)
        if whole.day.left < size and not whole.day.has(size, now):
            return SPLIT if batch.count > 1 else self._refuse(SOCKET_FULL, batch, socket)
        own.second.left -= size
        own.day.left -= size
        whole.day.left -= size
        return None

    def _refuse(self, reply: bytes, batch: LineBatch, socket: bytes | None) -> AdmissionDecision:
        tenant = batch.queue if batch.queue in self.register else b""
        self.counters.reply(socket or b"firmd", tenant, reply, batch.count)
        return AdmissionDecision(reply)


def budgets_of(options: argparse.Namespace) -> Budgets:
    return Budgets(
        Rates(options.bytes_a_second_of_tenant, options.bytes_a_day_of_tenant),
        Rates(options.bytes_a_second_of_socket, options.bytes_a_day_of_socket),
    )
