"""What each user may have of the queue: turns of its time, and bytes of its memory, so that no other has to wait."""

from __future__ import annotations

import asyncio
import time
from collections import deque
from collections.abc import Callable
from dataclasses import dataclass

from ..common.bounds import MEBIBYTE, BytesBySocket, ByteLimits
from ..common.users import User

BOUNDS = ByteLimits(64 * MEBIBYTE, 256 * MEBIBYTE)  # of a user, and of all but operators
# A user whose requests take more of a processor in a turn of the loop rests for a multiple of that turn.
# A turn that is long only as other programs have the processors does not count.
LONG_SECONDS, PAUSES = 0.005, 4
CROWDED = "users have left too much unread: the connection of the fullest that has most is closed"


@dataclass(slots=True, eq=False)
class ConnectionQuota:
    """A connection's part of what its user has; an operator's connection has turns of its own, and no bound."""

    key: bytes
    is_bounded: bool
    end: Callable[[], None] = lambda: None  # closes the connection
    held: int = 0  # bytes of answers that are not read


def share_of(user: User, connection: object, end: Callable[[], None]) -> ConnectionQuota:
    """Return a connection's share of what its user has; an operator's connection has its own."""
    key = f"operator {id(connection)}" if user.is_operator else f"user {user.number}"
    return ConnectionQuota(key.encode(), not user.is_operator, end)


class Quotas:
    """All that have connections."""

    def __init__(self, bounds: ByteLimits, on_crowded: Callable[[], None]) -> None:
        self._account, self._on_crowded = BytesBySocket(bounds), on_crowded
        self._holding: dict[bytes, set[ConnectionQuota]] = {}  # those that are bounded and hold something, or did
        self._waiting: dict[bytes, deque[asyncio.Future[None]]] = {}  # for a turn, in the order of their turns
        self._bounded: set[bytes] = set()  # of these; the others are operators' connections
        self._begun: deque[set[bytes]] = deque([set(), set()], 2)  # users in the last two turns: a request takes two
        self._rests: dict[bytes, float] = {}  # until when users have no further turn, by the loop's clock
        self._at: float | None = None  # when the last turn began; None where nobody has one
        self._used = 0.0  # of a processor, by the loop's thread, until then
        self._rest: asyncio.TimerHandle | None = None  # the next turn, while all that wait rest
        self._freed = asyncio.Event()  # another one after each time that bytes are given back

    def add(self, share: ConnectionQuota, size: int) -> None:
        """Count bytes of an answer, or fewer. If that is too much, one connection of the fullest user is closed."""
        share.held += size
        if not share.is_bounded:
            return
        self._holding.setdefault(share.key, set()).add(share)
        self._account.add(share.key, size)
        if size <= 0:
            self._wake()
        elif (fullest := self._account.fullest()) is not None:
            self._on_crowded()
            max(self._holding[fullest], key=lambda one: one.held).end()

    def leave(self, share: ConnectionQuota) -> None:
        """Takes in that a connection has ended."""
        self.add(share, -share.held)
        if share.is_bounded:
            self._holding[share.key].discard(share)
            if not self._holding[share.key]:
                del self._holding[share.key]

    def _wake(self) -> None:
        self._freed.set()
        self._freed = asyncio.Event()

    async def turn(self, share: ConnectionQuota) -> None:
        """Returns once a further part of an answer may be made: in a turn of the loop one of a user, so that an agent
        waits for no more of many users' than of one's, and one of each connection of operators and agents."""
        await self._room(share)
        await self._turn(share)
        while self._is_crowded(share):  # by answers that were made while this one waited
            await self._room(share)
            await self._turn(share)

    async def _turn(self, share: ConnectionQuota) -> None:
        loop = asyncio.get_running_loop()
        future = loop.create_future()
        begins = self._rests.get(share.key, 0.0)
        if self._at is None:
            self._at, self._used = loop.time(), time.thread_time()
            loop.call_soon(self._begin)
        elif self._rest is not None and begins < self._rest.when():  # it waits for nobody else's rest
            self._rest.cancel()
            self._rest = loop.call_at(begins, self._begin)
        self._waiting.setdefault(share.key, deque()).append(future)
        if share.is_bounded:
            self._bounded.add(share.key)
        await future

    async def _room(self, share: ConnectionQuota) -> None:
        """Return once the user's answers are read, or their connections closed, but for half of what it may have."""
        while self._is_crowded(share):
            await self._freed.wait()

    def _is_crowded(self, share: ConnectionQuota) -> bool:
        return share.is_bounded and self._account.bytes[share.key] > self._account.bounds.of_socket // 2

    def _begin(self) -> None:
        """Begins a turn of the loop."""
        loop, self._rest = asyncio.get_running_loop(), None
        now, used = loop.time(), time.thread_time()
        if used - self._used > LONG_SECONDS:
            self._charge(now, now - (self._at or now))
        self._rests = {key: until for key, until in self._rests.items() if until > now}
        self._used = used
        begun, has_user = set[bytes](), False
        for key in [key for key in self._waiting if self._rests.get(key, 0.0) <= now]:
            is_user = key in self._bounded
            if not (is_user and has_user) and self._let(key):
                begun.add(key)
                has_user |= is_user
        self._begun.append(begun)
        if any(self._begun) or self._waiting.keys() - self._rests.keys():
            self._at = now
            loop.call_soon(self._begin)
        elif self._waiting:
            self._at = now
            self._rest = loop.call_at(min(self._rests[key] for key in self._waiting), self._begin)
        else:
            self._at = None

    def _charge(self, now: float, seconds: float) -> None:
        """Has those rest whose requests have made the last turn a long one."""
        users = set().union(*self._begun)
        for key in users:
            self._rests[key] = now + PAUSES * seconds / len(users)

    def _let(self, key: bytes) -> bool:
        """Lets the next request of a user begin; whether there was one. The user's further ones come after others'."""
        waiting = self._waiting.pop(key)
        future = waiting.popleft()
        while future.done() and waiting:  # its connection has gone
            future = waiting.popleft()
        if waiting:
            self._waiting[key] = waiting
        else:
            self._bounded.discard(key)
        if future.done():
            return False
        future.set_result(None)
        return True
