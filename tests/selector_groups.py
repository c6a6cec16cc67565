"""Checks of the selector that gives each socket of firmd its turns, for isolation.py."""

from __future__ import annotations

import itertools
import selectors
import socket
from collections import Counter
from collections.abc import Iterator
from contextlib import ExitStack, contextmanager
from unittest import mock
from unittest.mock import Mock

from firmd_kit import Setup
from harness.checks import require
from firm.server import fair_selector
from firm.server.fair_selector import ALONE, BESIDE, HOLD_SECONDS, FairSelector

GROUPS = {b"light": 1, b"heavy": 40, b"other": 40}  # of descriptors


def fair_turns(setup: Setup) -> None:
    """However many descriptors of a group are ready, each look has one of another, and all come in turn."""
    del setup
    looks = itertools.count()
    with ExitStack() as held, mock.patch.object(fair_selector, "time", Mock(monotonic=lambda: 1e-4 * next(looks))):
        selector = FairSelector()
        pairs = [held.enter_context(pair()) for _ in range(200)]
        held.callback(selector.close)
        for number, (near, far) in enumerate(pairs):
            selector.join(near.fileno(), b"alpha" if number else b"beta")
            selector.register(near, selectors.EVENT_READ, number)
            if number:
                far.send(b"x")
        alone = [key.data for key, _ in selector.select(0)]
        require(len(alone) == ALONE, f"{len(alone)} of the one group that is ready")
        pairs[0][1].send(b"x")
        seen: list[int] = []
        for _ in range(2 * len(pairs)):
            found = [key.data for key, _ in selector.select(0)]
            require(0 in found and len(found) <= 1 + BESIDE, found)
            seen += found
        require(set(seen) == set(range(len(pairs))), f"{len(set(seen))} of {len(pairs)}")
        selector.modify(pairs[0][0], selectors.EVENT_WRITE, "changed")
        require((selector.get_key(pairs[0][0]).data, True) in changed(selector), "what was changed")
        for near, _ in pairs:
            selector.unregister(near)
            selector.leave(near.fileno())
        require(selector.select(0) == [] and not selector.get_map(), "nothing is left")


def held_turns(setup: Setup) -> None:
    """While a group with few lines has one under way, groups that have had more of the loop's time wait, not for
    long; of two groups with much to do neither waits."""
    del setup
    now, pending = [0.0], Counter[bytes]()
    with ExitStack() as held, mock.patch.object(fair_selector, "time", Mock(monotonic=lambda: now[0])):
        selector = FairSelector()
        held.callback(selector.close)
        selector.pending = pending.__getitem__
        groups = {name: [held.enter_context(pair()) for _ in range(count)] for name, count in GROUPS.items()}
        for name, pairs in groups.items():
            for near, far in pairs:
                selector.join(near.fileno(), name)
                selector.register(near, selectors.EVENT_READ, name)

        def served(milliseconds: float) -> set[bytes]:
            """Return the groups that are served in a turn of this length."""
            found = {key.data for key, _ in selector.select(0)}
            now[0] += milliseconds / 1e3
            return found

        light, heavy = groups[b"light"][0], groups[b"heavy"]
        for _, far in heavy:
            far.send(b"x")
        require(served(100) == {b"heavy"}, "alone")
        light[1].send(b"x")
        require(served(0.1) == {b"light"}, "the one that had less comes first")
        light[0].recv(1)
        pending[b"light"] = 600
        require([served(0.1) for _ in range(5)] == [set()] * 5, "the other waits for its line")
        pending[b"light"] = 0
        require(served(1) == {b"heavy"}, "until that is answered")
        pending[b"light"] = 600
        light[1].send(b"x")
        require(served(0.1) == {b"light"}, "again")
        light[0].recv(1)
        require(served(HOLD_SECONDS * 1e3) == set(), "again")
        require(served(1) == {b"heavy"}, "but not where its line takes long")
        light[1].send(b"x")
        turns = [served(0.5) for _ in range(40)]  # the light one is ready in each
        count = sum(b"heavy" in turn for turn in turns)
        require(8 <= count <= 12 and all(b"light" in turn for turn in turns), f"{count} turns beside a light one")
        pending[b"light"] = pending[b"heavy"] = pending[b"other"] = 100_000
        for _, far in groups[b"other"]:
            far.send(b"x")
        for _ in range(10):
            require(served(0.5) >= {b"heavy", b"other"}, "neither of two that have much to do waits")


def changed(selector: FairSelector) -> list[tuple[object, bool]]:
    return [(key.data, events == selectors.EVENT_WRITE) for key, events in selector.select(0)]


@contextmanager
def pair() -> Iterator[tuple[socket.socket, socket.socket]]:
    near, far = socket.socketpair()
    with near, far:
        yield near, far
