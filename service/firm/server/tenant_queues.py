"""Queues of lines for firm: one for each tenant and one for the operator, all served in turn.

While a round of a tenant is under way, the tenant's further lines stay in its queue: firm would wait for the round at
the first of them, and delay all later lines. Since replies have the order of the lines, no more rounds are under way
than keep firm's workers busy. So another tenant's line waits at most for those, and for some lines of each other queue.

A client's lines reach firm in their order: the client puts lines of another tenant into that queue only once all
earlier ones have left theirs. `next` keeps this order among the batches that leave together.

Rounds are the last to leave. A tenant has few lines under way while others send any: LINES_BESIDE and a batch. If it is
alone, it has LINES_ALONE, which keep firm busy.
"""

from __future__ import annotations

import re
from collections import deque
from collections.abc import Callable, Sequence
from dataclasses import dataclass, field
from typing import Protocol

from .replay import Piece, Place

OPERATORS = b"+"  # the queue of the operator's lines
BATCH_LINES = 64  # at most, of a client's batch
# Lines of a queue under way to firm, in addition to a batch: if it is alone, to keep firm busy; else, to delay few.
LINES_ALONE, LINES_BESIDE = 1_024, 32
# Batches that leave one queue, and all queues, at a time, or are refused: some milliseconds' work, and more than the
# sockets for all tenants can put into queues in a turn, even if each line has another queue.
OF_QUEUE, AT_ONCE = 64, 256
BESIDE_SECONDS = 1.0  # after a line of another queue, for which a queue is not alone
MAX_IDLE_QUEUES = 128  # empty queues, more than the most tenants; unknown tenants may have any name

_RETIREMENT = re.compile(rb"[ \t]*\+[ \t]+retire[ \t]+([^ \t\r\n]+)")


class Owner(Protocol):
    """The sender of a batch."""

    @property
    def sender(self) -> bytes:
        """Return its name in the journal."""

    @property
    def socket(self) -> bytes | None:
        """Return its socket's name in the journal; None for firmd itself."""

    def given(self, batch: LineBatch, reply: bytes | None) -> None:
        """Record that its next batch is under way to firm, or that each line gets this reply of firmd."""

    def answered(self, replies: bytes, count: int) -> None:
        """Deliver the next replies to its lines, each with its LF."""

    def drop(self) -> None:
        """End the sender, since replies could not be delivered."""


@dataclass(slots=True, eq=False)
class LineBatch:
    """Lines of one owner, each with its LF, that get replies; a round, or an operator's line, is alone."""

    owner: Owner | None  # None in a replay
    text: bytes
    count: int
    queue: bytes = b""  # the tenant's name
    is_round: bool = False
    cost: int = 0  # bytes that its owner counts for it
    heading: int = 0  # bytes of its heading in the journal; 0 unless it is the first below one
    answered: int = 0
    taken: float = 0.0  # when it was put into its queue, by the monotonic clock
    sent: float | None = None  # time of passing it to firm, by the same clock; None in a replay
    place: Place | None = None  # in the journal, once it is written
    piece: Piece | None = None  # if it is a piece of the replay
    lines: Sequence[bytes] = ()  # set with the first reply
    parts: tuple[tuple[bytes, int], ...] = ()  # of a joined batch: each queue, and its lines

    def may_join(self, other: LineBatch) -> bool:
        """Return whether the owner's next batch may be joined to this one."""
        is_plain = not (self.is_round or other.is_round or OPERATORS in (self.queue, other.queue))
        return is_plain and self.owner is other.owner and self.count + other.count <= BATCH_LINES

    def join(self, other: LineBatch) -> None:
        self.parts = (*(self.parts or ((self.queue, self.count),)), (other.queue, other.count))
        self.text += other.text
        self.count += other.count

    def single(self) -> list[LineBatch]:
        """Return a batch for each line."""
        lines = [line + b"\n" for line in self.text.split(b"\n")[:-1]]
        found = [LineBatch(self.owner, line, 1, self.queue, cost=len(line), taken=self.taken) for line in lines]
        found[0].cost += self.cost - len(self.text)
        return found


@dataclass(frozen=True, slots=True)
class AdmissionDecision:
    """The decision about the next batch of a queue."""

    reply: bytes | None = None  # firmd's, to each line; None: the batch goes to firm
    is_to_split: bool = False  # decide about its lines one by one
    wait: float = 0.0  # seconds until the next decision


class AdmissionPolicy(Protocol):
    """Decides whether batches leave their queues, and counts them."""

    def decide(self, batch: LineBatch, now: float) -> AdmissionDecision:
        """Decide about a batch now."""


@dataclass(slots=True, eq=False)
class TenantQueue:
    """A tenant's waiting lines, and the number of lines under way."""

    name: bytes
    batches: deque[LineBatch] = field(default_factory=deque)
    lines: int = 0  # waiting
    size: int = 0  # their bytes
    under_way: int = 0  # lines
    is_away: bool = False  # a round is under way
    is_queued: bool = False  # among the queues to be served, or waiting for a round
    wakes: list[TenantQueue] = field(default_factory=list)  # waiting for the round's end


@dataclass(frozen=True, slots=True)
class TenantQueueLimits:
    queue_bytes: int  # waiting in a queue
    rounds: int  # under way at a time, of all tenants together


class TenantQueues:
    """All queues with lines, served in turn."""

    def __init__(
        self, policy: AdmissionPolicy, report: Callable[[LineBatch, bytes | None], None], bounds: TenantQueueLimits
    ) -> None:
        self._policy, self._report, self._bounds = policy, report, bounds
        self.by_name: dict[bytes, TenantQueue] = {}
        self.full: set[bytes] = set()  # queues that accept no lines until half of the bound has left
        self.on_room: Callable[[], None] = lambda: None  # called when one of them accepts lines again
        self._late: dict[bytes, float] = {}  # queues to be served again, each after this number of seconds
        self._ready: deque[TenantQueue] = deque()
        self._rounds: deque[TenantQueue] = deque()  # queues whose next line is a round
        self._rounds_under_way = 0
        self._last = b""  # the queue that was served last
        self._beside_until = 0.0  # by the clock of `now`
        self._left = 0  # batches that may still leave in this call

    @property
    def has_ready(self) -> bool:
        return bool(self._ready) or self._may_begin

    @property
    def _may_begin(self) -> bool:
        return bool(self._rounds) and self._rounds_under_way < self._bounds.rounds

    def take(self, batch: LineBatch) -> None:
        """Put a batch at the end of its queue."""
        queue = self.by_name.get(batch.queue)
        if queue is None:
            queue = self.by_name[batch.queue] = TenantQueue(batch.queue)
        queue.batches.append(batch)
        queue.lines += batch.count
        queue.size += len(batch.text)
        if queue.size > self._bounds.queue_bytes:
            self.full.add(queue.name)
        self._schedule(queue)

    def next(self, found: list[LineBatch], now: float) -> None:
        """Add the batches for firm in order, with rounds as late as possible, to delay other lines less. If more than
        AT_ONCE are ready, some stay, and `has_ready` is true."""
        self._left = AT_ONCE
        while self.has_ready and self._left > 0:
            if self._ready:
                self._serve(self._ready.popleft(), found, now)
            else:
                self._begin_round(self._rounds.popleft(), found, now)
        self._left = AT_ONCE
        while self._may_begin and self._left > 0:  # no flood of lines keeps rounds waiting
            self._begin_round(self._rounds.popleft(), found, now)

    def answered(self, batch: LineBatch) -> None:
        """Record that all lines of a batch have replies."""
        for name, count in batch.parts or ((batch.queue, batch.count),):
            queue = self.by_name[name]
            queue.under_way -= count
            if batch.is_round:
                self._end_round(queue)
            if queue.batches:
                self._schedule(queue)
            else:
                self._end_idle(queue)

    def late(self) -> list[tuple[bytes, float]]:
        """Return and forget the queues to wake, each with the seconds until then."""
        if not self._late:
            return []
        found = [(name, seconds) for name, seconds in self._late.items() if seconds > 0]
        self._late.update((name, 0.0) for name, _ in found)
        return found

    def wake(self, name: bytes) -> None:
        """Serve a queue again."""
        self._late.pop(name, None)
        if name in self.by_name:
            self._schedule(self.by_name[name])

    def clear(self) -> None:
        """Drop all waiting lines, without replies."""
        self._ready.clear()
        self._rounds.clear()
        for queue in self.by_name.values():
            queue.batches.clear()
            queue.lines = queue.size = 0

    def oldest(self) -> float | None:
        """Return the time at which the oldest waiting line was accepted, if any."""
        return min((queue.batches[0].taken for queue in self.by_name.values() if queue.batches), default=None)

    def _schedule(self, queue: TenantQueue) -> None:
        may_leave = not queue.is_away and queue.name not in self._late
        if may_leave and queue.batches and not queue.is_queued:
            queue.is_queued = True
            self._ready.append(queue)

    def _end_round(self, queue: TenantQueue) -> None:
        queue.is_away = False
        self._rounds_under_way -= 1
        for other in queue.wakes:
            self._schedule(other)
        queue.wakes.clear()

    def _end_idle(self, queue: TenantQueue) -> None:
        if not queue.batches and not queue.under_way and len(self.by_name) > MAX_IDLE_QUEUES:
            del self.by_name[queue.name]

    def _serve(self, queue: TenantQueue, found: list[LineBatch], now: float) -> None:
        """Send a queue's batches, up to its next round."""
        if queue.name != self._last:
            self._beside_until = now + BESIDE_SECONDS if self._last else 0.0
            self._last = queue.name
        most = LINES_BESIDE if now < self._beside_until else LINES_ALONE
        is_at_round, goes_on, least = False, True, max(0, self._left - OF_QUEUE)
        while queue.batches and queue.under_way < most and goes_on and not is_at_round and self._left > least:
            is_at_round = queue.batches[0].is_round
            goes_on = not is_at_round and self._give(queue, found, now)
        queue.is_queued = is_at_round  # not before: lines that are added meanwhile are served here
        if is_at_round:
            self._rounds.append(queue)
        elif goes_on and queue.under_way < most:
            self._schedule(queue)
        self._end_idle(queue)

    def _begin_round(self, queue: TenantQueue, found: list[LineBatch], now: float) -> None:
        goes_on = self._give(queue, found, now)
        queue.is_queued = False
        if goes_on:
            self._schedule(queue)
        self._end_idle(queue)

    def _give(self, queue: TenantQueue, found: list[LineBatch], now: float) -> bool:
        """Decide about a queue's first batch. Return whether the next one may follow at once."""
        batch = queue.batches[0]
        self._left -= 1
        if queue.name == OPERATORS and self._waits_for_round(queue, batch):
            return False
        decision = self._policy.decide(batch, now)
        if decision.wait:
            self._late[queue.name] = decision.wait
            return False
        if decision.is_to_split:
            queue.batches.popleft()
            queue.batches.extendleft(reversed(batch.single()))
            return True
        queue.batches.popleft()
        queue.lines -= batch.count
        queue.size -= len(batch.text)
        if queue.name in self.full and queue.size <= self._bounds.queue_bytes // 2:
            self.full.discard(queue.name)
            self.on_room()
        self._report(batch, decision.reply)
        if decision.reply is None:
            self._add(queue, batch, found)
        return not queue.is_away

    def _add(self, queue: TenantQueue, batch: LineBatch, found: list[LineBatch]) -> None:
        """Add a batch to those that go to firm."""
        queue.under_way += batch.count
        if batch.is_round:
            queue.is_away = True
            self._rounds_under_way += 1
        if found and found[-1].may_join(batch):
            found[-1].join(batch)
        else:
            found.append(batch)

    def _waits_for_round(self, queue: TenantQueue, batch: LineBatch) -> bool:
        """Return whether it retires a tenant with a round under way, for which firm would wait."""
        retired = _RETIREMENT.match(batch.text)
        other = self.by_name.get(retired[1]) if retired else None
        if other is None or not other.is_away:
            return False
        other.wakes.append(queue)
        return True
