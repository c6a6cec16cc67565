"""Texts that are states, and texts with a fault, for states.py."""

from __future__ import annotations

from typing import NamedTuple

import statuses


class StateFault(NamedTuple):
    """The first fault of a state: its number, and that of its line."""

    number: int
    line: int


HEADING, EXTENDED_HEADING = b"firm state 1\n", b"firm state 1 extended\n"

# The lines of a state. Its tenant takes 7 nodes and 13 arcs, and 7 commands at least.
LINES = [
    HEADING,
    b"place admissions 1\n",
    b"tenant a nodes 8 arcs 20 life 100 spread 1 churn 2 remote 7 commands 9\n",
    b"costs 5 12\n",
    b"machine m1 1\n",
    b"machine m2 2\n",
    b"job j 10\n",
    b"task j x at m1\n",
    b"task j y waits 2 prefers m2\n",
    b"rows 8\n",
]
STATE = b"".join(LINES)

OF_PATIENCE = b"""\
firm state 1 extended
place admissions 1
tenant a nodes 9 arcs 0 life 1 spread 0 churn 0 remote 0 patience 0 commands 0
costs
place admissions 1
tenant b nodes 9 arcs 9 life 1000001 spread 0 churn 0 remote 0 patience 999999 commands 1000001
costs 1 2 3 4 5 6 7 8
job j 1
task j x waits 999999
rows 8
"""

OF_THE_GREATEST = b"""\
firm state 1
place admissions 7
place admissions 1
place admissions 32768
tenant abcdefghijklmnop nodes 4096 arcs 65536 life 1099511627776 \
spread 1000 churn 1000000 remote 1000000 commands 1099511627776
costs 0 1 2 3 4 5 6 12288000000
machine abcdefghijklmnop 64
machine - 1
machine m3 2
machine m4 1
job - 1000000
job unused 1
task - - at abcdefghijklmnop
task - t0 waits 0
task - t1 waits 1000000 prefers m4 m3 - abcdefghijklmnop
task - t2 at m3 prefers m3
task - t3 at m3 prefers m4
rows 16
"""


def with_line(number: int, line: bytes) -> bytes:
    """Return the state with a line changed to this."""
    return b"".join([*LINES[: number - 1], line, *LINES[number:]])


# The number of a line, its replacement, and the first fault, if any, by the numbers of docs/FORMATS.md.
CHANGES: list[tuple[int, bytes, StateFault | None]] = [
    (1, b"", StateFault(1, 1)),
    (1, b"firm state 2\n", StateFault(1, 1)),
    (1, b"firm state 1 \n", StateFault(1, 1)),
    (1, b"firm state 1\r\n", StateFault(1, 1)),
    (1, b"firm state 1\n\n", StateFault(2, 2)),
    (1, EXTENDED_HEADING, None),
    (1, b"firm state 1 extended \n", StateFault(1, 1)),
    (1, b"firm state 1  extended\n", StateFault(1, 1)),
    (1, b"firm state 1 extended\r\n", StateFault(1, 1)),
    (1, b"firm state 1 extend\n", StateFault(1, 1)),
    (1, b"firm state 1 plain\n", StateFault(1, 1)),
    (1, b"firm state 1 extended extended\n", StateFault(1, 1)),
    (1, b"firm state 2 extended\n", StateFault(1, 1)),
    (1, b"firm state extended 1\n", StateFault(1, 1)),
    (1, b"firm state 1\nextended\n", StateFault(2, 2)),
    (1, EXTENDED_HEADING + b"\n", StateFault(2, 2)),
    (1, EXTENDED_HEADING + HEADING, StateFault(2, 2)),
    (2, b"", StateFault(2, 2)),
    (2, b"place admissions 0\n", StateFault(4, 2)),
    (2, b"place admissions 32769\n", StateFault(4, 2)),
    (2, b"place admissions 01\n", StateFault(2, 2)),
    (2, b"place admissions  1\n", StateFault(4, 2)),
    (2, b"place admissions 1 \n", StateFault(2, 2)),
    (2, b"place admissions 1\r\n", StateFault(4, 2)),
    (2, b"place admissions\n", StateFault(2, 2)),
    (2, b"place retirements 1\n", StateFault(2, 2)),
    (2, b"place 1\n", StateFault(2, 2)),
    (2, b"Place admissions 1\n", StateFault(2, 2)),
    (10, b"", StateFault(13, 10)),
    (10, b"rows 7\n", StateFault(13, 10)),
    (10, b"rows 9\n", StateFault(13, 10)),
    (10, b"rows 8", StateFault(13, 10)),
    (10, b"rows 8\n\n", StateFault(13, 11)),
    (10, b"rows 8\nx", StateFault(13, 11)),
    (10, b"rows 8\nrows 9\n", StateFault(13, 11)),
    (10, b"place admissions 0\nrows 9\n", StateFault(4, 10)),
    (10, b"place admissions 1\nrows 8\n", StateFault(13, 11)),
    (3, b"", StateFault(2, 3)),
    (3, b"tenant a\n", StateFault(2, 3)),
    (3, b"tenant A nodes 8 arcs 20 life 9 spread 1 churn 2 remote 7 commands 9\n", StateFault(3, 3)),
    (3, b"tenant a nodes 1 arcs 20 life 9 spread 1 churn 2 remote 7 commands 9\n", StateFault(4, 3)),
    (3, b"tenant a nodes 8 arcs x life 9 spread 1 churn 2 remote 7 commands 9\n", StateFault(4, 3)),
    (3, b"tenant a arcs 20 nodes 8 life 9 spread 1 churn 2 remote 7 commands 9\n", StateFault(2, 3)),
    (3, b"tenant a nodes 8 arcs 20 life 8 spread 1 churn 2 remote 7 commands 9\n", StateFault(11, 3)),
    (3, b"tenant a nodes 8 arcs 20 life 9 spread 1 churn 2 remote 7 commands 6\n", StateFault(11, 9)),
    (3, b"tenant a nodes 6 arcs 20 life 9 spread 1 churn 2 remote 7 commands 9\n", StateFault(9, 9)),
    (3, b"tenant a nodes 8 arcs 12 life 9 spread 1 churn 2 remote 7 commands 9\n", StateFault(10, 9)),
    (4, b"", StateFault(2, 4)),
    (4, b"costs\n", StateFault(15, 8)),
    (4, b"costs 5 12\ncosts 5 12\n", StateFault(2, 5)),
    (4, b"costs 5 012\n", StateFault(2, 4)),
    (4, b"costs -5\n", StateFault(4, 4)),
    (4, b"costs 12288000001\n", StateFault(4, 4)),
    (4, b"costs 1 2 3 4 5 6 7 8 9\n", StateFault(2, 4)),
    (4, b"tenant a nodes 8 arcs 20 life 9 spread 1 churn 2 remote 7 commands 9\n", StateFault(2, 4)),
    (4, b"place admissions 1\n", StateFault(2, 4)),
    (10, b"costs\nrows 9\n", StateFault(2, 10)),
    (
        10,
        b"place admissions 1\n"
        b"tenant a nodes 2 arcs 0 life 1 spread 0 churn 0 remote 0 commands 0\n"
        b"costs\n"
        b"rows 11\n",
        StateFault(5, 11),
    ),
    (
        10,
        b"place admissions 1\n"
        b"tenant b nodes 2 arcs 0 life 1 spread 0 churn 0 remote 0 commands 2\n"
        b"costs\n"
        b"rows 11\n",
        StateFault(11, 11),
    ),
    (5, b"machine m1 1\nmachine m1 1\n", StateFault(5, 6)),
    (5, b"machine M1 1\n", StateFault(3, 5)),
    (5, b"machine m1 65\n", StateFault(4, 5)),
    (5, b"machine m1\n", StateFault(2, 5)),
    (5, b"machine m1 1 1\n", StateFault(2, 5)),
    (5, b"machine m3 1\n", StateFault(7, 8)),
    (6, b"machine m3 2\n", StateFault(7, 9)),
    (6, b"machine m2 64\n", StateFault(10, 6)),
    (7, b"", StateFault(6, 7)),
    (7, b"job k 10\n", StateFault(6, 8)),
    (7, b"job j 10\njob j 9\n", StateFault(5, 8)),
    (7, b"job J 10\n", StateFault(3, 7)),
    (7, b"job j 0\n", StateFault(4, 7)),
    (7, b"job j 10\nmachine m3 1\n", StateFault(2, 8)),
    (7, b"job j 10\njob k 1\ntask k z at m2 prefers m1\n", StateFault(16, 9)),
    (8, b"task j x at m1\ntask j x at m2\n", StateFault(5, 9)),
    (8, b"task j x at m1\ntask j z at m1\n", StateFault(8, 9)),
    (8, b"task j x at m1\nmachine m3 1\n", StateFault(2, 9)),
    (8, b"task j x at m1\njob k 10\n", StateFault(2, 9)),
    (8, b"task J x at m1\n", StateFault(3, 8)),
    (8, b"task j X at m1\n", StateFault(3, 8)),
    (8, b"task j x at M1\n", StateFault(3, 8)),
    (8, b"task j x at m3\n", StateFault(7, 8)),
    (8, b"task j x at\n", StateFault(2, 8)),
    (8, b"task j x on m1\n", StateFault(4, 8)),
    (8, b"task j x on 3\n", StateFault(2, 8)),
    (8, b"task j x waits 5\n", StateFault(15, 8)),
    (9, b"task j y waits 1000001\n", StateFault(4, 9)),
    (9, b"task j y waits 1000001 prefers m3\n", StateFault(4, 9)),
    (9, b"task j y waits 2 prefers m3\n", StateFault(7, 9)),
    (9, b"task j y waits 3 prefers m2\n", StateFault(15, 9)),
    (9, b"task j y waits 2 prefers M2\n", StateFault(3, 9)),
    (9, b"task j y waits 2 prefers m2 m2\n", StateFault(2, 9)),
    (9, b"task j y waits 2 prefers\n", StateFault(2, 9)),
    (9, b"task j y waits 2 likes m2\n", StateFault(2, 9)),
    (9, b"task j y waits 2 prefers a b c d e\n", StateFault(2, 9)),
    (9, b"\n", StateFault(2, 9)),
]

# The end of the tenant's row in the place of `remote 7 commands 9`, and the first fault, if any, in an extended state
# and in a plain one.
PATIENCES: list[tuple[bytes, StateFault | None, StateFault]] = [
    (b"remote 7 patience 2 commands 9", None, StateFault(2, 3)),
    (b"remote 7 patience 999999 commands 9", None, StateFault(2, 3)),
    (b"remote 7 patience 1 commands 9", StateFault(4, 9), StateFault(2, 3)),
    (b"remote 7 patience 1000000 commands 9", StateFault(2, 3), StateFault(2, 3)),
    (b"remote 7 patience 03 commands 9", StateFault(2, 3), StateFault(2, 3)),
    (b"remote 7 patience 1000001 commands 9", StateFault(4, 3), StateFault(2, 3)),
    (b"remote 7 patience commands 9", StateFault(4, 3), StateFault(4, 3)),
    (b"remote 7 commands 9 patience 3", StateFault(2, 3), StateFault(2, 3)),
    (b"patience 3 remote 7 commands 9", StateFault(2, 3), StateFault(2, 3)),
]


def of_patience(heading: bytes, words: bytes) -> bytes:
    """Return the state with this heading, and with these words at the end of the tenant's row."""
    return STATE.replace(HEADING, heading).replace(b"remote 7 commands 9", words)


def after_commands(number: int, cost: int) -> bytes:
    """Return the state after this many commands, with this cost of the last round."""
    text = STATE.replace(b"commands 9", b"commands %d" % number)
    return text.replace(b"costs 5 12", b"costs 12 %d" % cost)


def crowd(spread: int, churn: int) -> bytes:
    """Return two tasks of weight 10 that run on one machine after two rounds."""
    text = STATE.replace(b"spread 1 churn 2 remote 7 commands 9", b"spread %d churn %d remote 0 commands 100")
    return text.replace(b"x at m1", b"x at m2").replace(b"y waits 2", b"y at m2") % (spread, churn)


def bidding(weight: int, churn: int, remote: int) -> bytes:
    """Return a task of this weight that two rounds left waiting, beside one of weight 10 that runs."""
    return f"""\
firm state 1
place admissions 1
tenant a nodes 8 arcs 20 life 100 spread 0 churn {churn} remote {remote} commands 100
costs 12 5
machine m1 1
job k 10
job j {weight}
task k x at m1
task j y waits 2
rows 8
""".encode()


def of_places(count: int) -> bytes:
    """Return this many places, each given once and empty."""
    return b"firm state 1\n" + b"place admissions 1\n" * count + b"rows %d\n" % count


# Texts, each with its first fault, or None for a state.
TEXTS: list[tuple[bytes, StateFault | None]] = [
    *((with_line(number, line), fault) for number, line, fault in CHANGES),
    *((of_patience(EXTENDED_HEADING, words), fault) for words, fault, _ in PATIENCES),
    *((of_patience(HEADING, words), fault) for words, _, fault in PATIENCES),
    (STATE, None),
    (of_places(0), StateFault(12, 2)),
    (of_places(1), None),
    (of_places(64), None),
    (of_places(65), StateFault(12, 66)),
    (b"firm state 1\nplace admissions 32768\nrows 1\n", None),
    (statuses.STATE, None),
    (OF_PATIENCE, None),
    (OF_THE_GREATEST, None),
    # Each row and each round took a command, and a life has no more.
    (after_commands(7, 0), None),
    (after_commands(100, 12_288_000_000), None),
    (after_commands(6, 0), StateFault(11, 9)),
    (after_commands(101, 0), StateFault(11, 3)),
    (after_commands(7, 12_288_000_001), StateFault(4, 4)),
    # A slot costs no more than a wait.
    (crowd(11, 0), None),
    (crowd(12, 2), None),
    (crowd(12, 1), StateFault(16, 9)),
    (crowd(13, 2), StateFault(16, 9)),
    # It is worth no more to a task that waits.
    (bidding(10, 0, 0), None),
    (bidding(11, 0, 0), StateFault(16, 10)),
    (bidding(11, 2, 0), None),
    (bidding(12, 2, 0), StateFault(16, 10)),
    (bidding(14, 2, 3), None),
    (bidding(15, 2, 3), StateFault(16, 10)),
]
