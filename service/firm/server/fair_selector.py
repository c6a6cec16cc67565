"""A selector that gives each group of descriptors a share of the loop's turns, however many are ready.

The clients of a socket and the socket itself are groups. Each group has a separate epoll, which is one descriptor in
the selector's: so the loop learns which groups are ready, and serves some descriptors of each. The system returns those
in turn. Otherwise a socket with 500 clients that send a byte at a time would have 500 callbacks in a turn.

A line takes several turns, and its way to the disk and to firm needs the interpreter in between. So while a group with
few lines has one under way, groups that have used more of the loop's time wait, for MAX_HOLD_SECONDS at most. They
begin nothing that the line would have to wait for.
"""

from __future__ import annotations

import math
import selectors
import time
from collections.abc import Callable, Iterator, Mapping
from contextlib import suppress
from dataclasses import dataclass
from select import EPOLLIN, EPOLLOUT, epoll
from selectors import EVENT_READ, EVENT_WRITE, SelectorKey
from typing import Any

Ready = list[tuple[SelectorKey, int]]

# Descriptors of a group in a turn: if it is alone, and at least if others are ready, or were within BESIDE_SECONDS. It
# is one if they take longer than TURN_SECONDS, and more if each other group has more: together many clients of each are
# served faster, and a single one sooner.
ALONE, BESIDE = 32, 2
BESIDE_SECONDS, TURN_SECONDS = 1.0, 0.0002
MEAN_TURNS = 16  # over which the time of a descriptor is averaged
# The most descriptors and bytes of lines of a group that others wait for; seconds after its last turn, since a round or
# the disk may take long; and seconds after which a waiting group has a turn.
FEW, FEW_BYTES = 4, 2_048
HOLD_SECONDS, MAX_HOLD_SECONDS = 0.001, 0.002


class SelectorKeys(Mapping[Any, SelectorKey]):
    """The keys by descriptor, or by an object with one."""

    def __init__(self) -> None:
        self.by_file: dict[int, SelectorKey] = {}

    def __getitem__(self, file: Any) -> SelectorKey:
        return self.by_file[file if isinstance(file, int) else file.fileno()]

    def __iter__(self) -> Iterator[int]:
        return iter(self.by_file)

    def __len__(self) -> int:
        return len(self.by_file)


@dataclass(eq=False, slots=True)
class SelectorGroup:
    """Descriptors that share turns."""

    name: bytes
    epoll: epoll
    seconds: float = 0.0  # of the loop's time, lately
    mean: float = 0.0  # seconds of a turn for each of its descriptors, lately
    ready: int = 0  # the most descriptors at a time, lately
    ready_at: float = 0.0
    served_at: float = 0.0
    waits_since: float | None = None  # for a group with few lines


class FairSelector(selectors.BaseSelector):
    """A selector like `selectors.EpollSelector`, with groups."""

    def __init__(self) -> None:
        self._keys = SelectorKeys()
        self._all = epoll()  # of each group's epoll, and the descriptors without a group
        self._groups: dict[bytes, SelectorGroup] = {}
        self._by_file: dict[int, SelectorGroup] = {}  # by the descriptors of their epolls
        self._group_of: dict[int, SelectorGroup] = {}
        self._recent: set[SelectorGroup] = set()  # that were ready within BESIDE_SECONDS
        self._served: dict[SelectorGroup, None] = {}  # within HOLD_SECONDS, the latest last
        self._unserved: set[SelectorGroup] = set()  # with ready descriptors that were not served
        self._held: set[SelectorGroup] = set()  # of these, whose epolls are not polled
        self._turn: dict[SelectorGroup, int] = {}  # descriptors of the current turn
        self._turned = self._halved = 0.0  # when it began, and when the groups' seconds were halved
        self.pending: Callable[[bytes], int] = lambda group: 0  # bytes of a group's unanswered lines

    def join(self, file: int, name: bytes) -> None:
        """Put a descriptor that is not registered into a group."""
        if name not in self._groups:
            made = self._groups[name] = SelectorGroup(name, epoll())
            self._by_file[made.epoll.fileno()] = made
            self._all.register(made.epoll.fileno(), EPOLLIN)
        self._group_of[file] = self._groups[name]

    def leave(self, file: int) -> None:
        """Remove a descriptor from its group, before it is closed."""
        self._group_of.pop(file, None)

    def register(self, fileobj: Any, events: int, data: Any = None) -> SelectorKey:
        file = fileobj if isinstance(fileobj, int) else fileobj.fileno()
        if file in self._keys.by_file:
            raise KeyError(f"{fileobj!r} is registered already")
        self._epoll(file).register(file, mask_of(events))
        key = self._keys.by_file[file] = SelectorKey(fileobj, file, events, data)
        return key

    def unregister(self, fileobj: Any) -> SelectorKey:
        key = self._keys[fileobj]
        del self._keys.by_file[key.fd]
        with suppress(OSError):  # it was closed before
            self._epoll(key.fd).unregister(key.fd)
        return key

    def modify(self, fileobj: Any, events: int, data: Any = None) -> SelectorKey:
        key = self._keys[fileobj]
        if events != key.events:
            self._epoll(key.fd).modify(key.fd, mask_of(events))
        changed = self._keys.by_file[key.fd] = SelectorKey(key.fileobj, key.fd, events, data)
        return changed

    def select(self, timeout: float | None = None) -> Ready:
        now = time.monotonic()
        if self._turn:
            self._charge(now)
        if self._unserved or self._held:
            self._hold(now)
        if self._held and (timeout is None or timeout > HOLD_SECONDS):
            timeout = HOLD_SECONDS
        seconds = -1.0 if timeout is None else max(0.0, math.ceil(timeout * 1e3) * 1e-3)
        ready: Ready = []
        with suppress(InterruptedError):
            polled = self._all.poll(seconds, max(1, len(self._keys) + len(self._groups)))
            self._add(ready, [found for found in polled if found[0] not in self._by_file])
            groups = [self._by_file[file] for file, _ in polled if file in self._by_file]
            if groups:
                self._serve(ready, groups)
        return ready

    def get_map(self) -> Mapping[Any, SelectorKey]:
        return self._keys

    def close(self) -> None:
        for group in self._groups.values():
            group.epoll.close()
        self._all.close()

    def _epoll(self, file: int) -> epoll:
        group = self._group_of.get(file)
        return self._all if group is None else group.epoll

    def _serve(self, ready: Ready, groups: list[SelectorGroup]) -> None:
        """Add some descriptors of each group that need not wait."""
        # The others of a group stay ready, and come first in the next poll.
        polled = [(group, group.epoll.poll(0, ALONE)) for group in groups]
        found = [(group, events) for group, events in polled if events]  # a client that waited to connect may have left
        now = self._turned = time.monotonic()
        self._count_ready({group: len(events) for group, events in found}, now)
        if len(self._recent) == len(found) == 1:
            [(group, events)] = found
            self._turn[group] = len(events)
            self._unserved.discard(group)
            return self._add(ready, events)
        first = self._lightest([*self._under_way(now), *(group for group, _ in found)])
        for group, events in found:
            some = [] if self._waits(group, first, now) else events[: self._share(group)]
            if len(some) < len(events):
                self._unserved.add(group)
            else:
                self._unserved.discard(group)
            if some:
                self._turn[group] = len(some)
                group.served_at, group.waits_since = now, None
                self._served.pop(group, None)
                self._served[group] = None
                self._add(ready, some)

    def _charge(self, now: float) -> None:
        """Charge the time of the last turn to the groups that were served in it."""
        count = sum(self._turn.values())
        for group, served in self._turn.items():
            seconds = (now - self._turned) / count  # for each descriptor
            group.seconds += seconds * served
            group.mean += (seconds - group.mean) / MEAN_TURNS
        self._turn.clear()
        if now - self._halved > BESIDE_SECONDS:
            self._halved = now
            for group in self._groups.values():
                group.seconds /= 2

    def _hold(self, now: float) -> None:
        """Choose the groups that wait in this turn."""
        first = self._lightest(self._under_way(now))
        held = {group for group in self._unserved if self._waits(group, first, now)}
        for group in held ^ self._held:
            self._all.modify(group.epoll.fileno(), 0 if group in held else EPOLLIN)
        self._held = held

    def _under_way(self, now: float) -> list[SelectorGroup]:
        """Return the groups that were served a moment ago and have unanswered lines."""
        while self._served and now - (oldest := next(iter(self._served))).served_at > HOLD_SECONDS:
            del self._served[oldest]
        return [group for group in self._served if self.pending(group.name)]

    def _lightest(self, groups: list[SelectorGroup]) -> SelectorGroup | None:
        """Return the group with few lines that has used the least of the loop's time."""
        light = [group for group in groups if group.ready <= FEW and self.pending(group.name) <= FEW_BYTES]
        return min(light, key=lambda group: group.seconds) if light else None

    def _waits(self, group: SelectorGroup, first: SelectorGroup | None, now: float) -> bool:
        """Return whether a group waits for another one. Of two with similar loads neither does."""
        if first is None or group.seconds <= first.seconds * (1 if group.ready >= 2 * first.ready else 2):
            return False
        if group.waits_since is None:
            group.waits_since = now
        return now - group.waits_since < MAX_HOLD_SECONDS

    def _count_ready(self, counts: dict[SelectorGroup, int], now: float) -> None:
        """Count the ready descriptors of each group."""
        for group in [group for group in self._recent if now - group.ready_at > BESIDE_SECONDS]:
            self._recent.discard(group)
            group.ready = 0
        for group, count in counts.items():
            self._recent.add(group)
            if count >= group.ready:
                group.ready, group.ready_at = count, now

    def _share(self, group: SelectorGroup) -> int:
        """Return a group's number of descriptors in this turn."""
        least = BESIDE if group.mean < TURN_SECONDS / BESIDE else 1
        return max(least, min((other.ready for other in self._recent if other is not group), default=ALONE))

    def _add(self, ready: Ready, found: list[tuple[int, int]]) -> None:
        for file, mask in found:
            key = self._keys.by_file.get(file)
            events = EVENT_WRITE * bool(mask & ~EPOLLIN) | EVENT_READ * bool(mask & ~EPOLLOUT)
            if key is not None and key.events & events:
                ready.append((key, key.events & events))


def mask_of(events: int) -> int:
    return EPOLLIN * bool(events & EVENT_READ) | EPOLLOUT * bool(events & EVENT_WRITE)
