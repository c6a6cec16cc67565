"""Services with the states that they leave, for states.py."""

from __future__ import annotations

from typing import NamedTuple

from state_texts import STATE
from statuses import HEADING, HEADING_OF_EIGHT, HEADING_OF_SEVEN, ROSTER_OF_64

UNKNOWN = b"! unknown-tenant\n"
MAX_ADMISSIONS = 32_768  # to a place, with the roster's row


class Served(NamedTuple):
    """A service, which opens with a roster or a state: its input and output, and its state then."""

    opening: bytes
    lines: bytes
    replies: bytes
    state: bytes


OF_ALPHA = b"""\
firm state 1
place admissions 1
tenant alpha nodes 9 arcs 24 life 100 spread 1 churn 2 remote 0 commands 0
costs
rows 3
"""

OF_SEVEN = Served(
    HEADING_OF_SEVEN + b"alpha,9,24,100,1,2,7\nbeta,8,30,100,0,3,1000000\n",
    b"gamma show\n",
    UNKNOWN,
    b"""\
firm state 1
place admissions 1
tenant alpha nodes 9 arcs 24 life 100 spread 1 churn 2 remote 7 commands 0
costs
place admissions 1
tenant beta nodes 8 arcs 30 life 100 spread 0 churn 3 remote 1000000 commands 0
costs
rows 6
""",
)

OF_EIGHT = Served(
    HEADING_OF_EIGHT + b"alpha,9,24,100,1,2,7,0\nbeta,8,30,100,0,3,0,1000000\n",
    b"gamma show\n",
    UNKNOWN,
    b"""\
firm state 1 extended
place admissions 1
tenant alpha nodes 9 arcs 24 life 100 spread 1 churn 2 remote 7 patience 0 commands 0
costs
place admissions 1
tenant beta nodes 8 arcs 30 life 100 spread 0 churn 3 remote 0 commands 0
costs
rows 6
""",
)

OF_64 = Served(
    ROSTER_OF_64,
    b"t64 show\n",
    UNKNOWN,
    b"firm state 1\n"
    + b"".join(
        b"place admissions 1\ntenant t%d nodes 2 arcs %d life 1 spread 0 churn 0 remote 0 commands 0\ncosts\n"
        % (number, number)
        for number in range(64)
    )
    + b"rows 192\n",
)

# Names may be as long as 16 bytes, numbers as 13; one name may be a machine's, a job's and a task's.
COMMANDS = Served(
    HEADING + b"a,9,90,100,0,0\nnobody,2,0,1,0,0\n",
    b"a show\n"
    b"nobody show\n"
    b"a machine m1 2\n"
    b"a machine abcdefghijklmnop 0000000000002 \n"
    b"a job m1 1\n"
    b"a task m1 a\n"
    b"a costs\n"
    b"a round \n",
    b"""\
a 1 ok machines 0 jobs 0 tasks 0 running 0 nodes 2 of 9 arcs 0 of 90
nobody 1 ok machines 0 jobs 0 tasks 0 running 0 nodes 2 of 2 arcs 0 of 0
a 2 ok
a 3 ok
a 4 ok
a 5 ok
a 6 ok costs
a 7 ok round cost 0 start a m1
""",
    b"""\
firm state 1
place admissions 1
tenant a nodes 9 arcs 90 life 100 spread 0 churn 0 remote 0 commands 7
costs 0
machine m1 2
machine abcdefghijklmnop 2
job m1 1
task m1 a at m1
place admissions 1
tenant nobody nodes 2 arcs 0 life 1 spread 0 churn 0 remote 0 commands 1
costs
rows 10
""",
)

COMMANDS_THAT_REMOVE = Served(
    HEADING + b"a,9,90,100,0,0\n",
    b"\ta\tmachine  m1\t02\n"
    b"a show\n"
    b"a drain m1\n"
    b"a machine m1 64\n"
    b"a machine abcdefghijklmnop 1\n"
    b"a drain abcdefghijklmnop\n"
    b"a job m1 1\n"
    b"a close m1\n"
    b"a job m1 1000000\n"
    b"a task m1 m1\n"
    b"a where m1\n"
    b"a done m1\n"
    b"a task m1 a\n",
    b"""\
a 1 ok
a 2 ok machines 1 jobs 0 tasks 0 running 0 nodes 3 of 9 arcs 3 of 90
a 3 ok evicted 0
a 4 ok
a 5 ok
a 6 ok evicted 0
a 7 ok
a 8 ok
a 9 ok
a 10 ok
a 11 ok waits 0
a 12 ok
a 13 ok
""",
    b"""\
firm state 1
place admissions 1
tenant a nodes 9 arcs 90 life 100 spread 0 churn 0 remote 0 commands 13
costs
machine m1 64
job m1 1000000
task m1 a waits 0
rows 6
""",
)

# A machine that is named twice is preferred once.
PREFERENCES = Served(
    HEADING + b"a,20,90,100,0,0\n",
    b"a machine m1 1\n"
    b"a machine m2 1\n"
    b"a machine m3 1\n"
    b"a machine m4 1\n"
    b"a job j 1\n"
    b"a task j t1 m1\n"
    b"a task j t2 m2 m1\n"
    b"a task j t3 m4 m3 m2 m1 \n"
    b"a task j t4 m1 m1\n"
    b"a task j t5 m1 m2\tm1  m2\n",
    b"".join(b"a %d ok\n" % number for number in range(1, 11)),
    b"""\
firm state 1
place admissions 1
tenant a nodes 20 arcs 90 life 100 spread 0 churn 0 remote 0 commands 10
costs
machine m1 1
machine m2 1
machine m3 1
machine m4 1
job j 1
task j t1 waits 0 prefers m1
task j t2 waits 0 prefers m2 m1
task j t3 waits 0 prefers m4 m3 m2 m1
task j t4 waits 0 prefers m1
task j t5 waits 0 prefers m1 m2
rows 13
""",
)

ADMISSIONS = Served(
    HEADING + b"a,2,0,1,0,0\n",
    b"+ admit b,2,0,5,0,0\n"
    b"+ admit c,3,2,5,0,0,0\n"
    b"\t+  admit\td,2,0,5,0,0 \n"
    b"+ admit e,0000000000003,2,5,0,1\n"
    b"+ admit -,2,0,1,0,0\n"
    b"+ admit --,2,0,1,0,0,7\n"
    b"+ admit abcdefghijklmnop,4096,65536,1099511627776,1000,1000000,1000000\n"
    b"+ admit f,3,2,5,0,1,7,0\n",
    b"""\
+ ok admitted b
+ ok admitted c
+ ok admitted d
+ ok admitted e
+ ok admitted -
+ ok admitted --
+ ok admitted abcdefghijklmnop
+ no 22 operator-row
""",
    b"""\
firm state 1
place admissions 1
tenant a nodes 2 arcs 0 life 1 spread 0 churn 0 remote 0 commands 0
costs
place admissions 1
tenant b nodes 2 arcs 0 life 5 spread 0 churn 0 remote 0 commands 0
costs
place admissions 1
tenant c nodes 3 arcs 2 life 5 spread 0 churn 0 remote 0 commands 0
costs
place admissions 1
tenant d nodes 2 arcs 0 life 5 spread 0 churn 0 remote 0 commands 0
costs
place admissions 1
tenant e nodes 3 arcs 2 life 5 spread 0 churn 1 remote 0 commands 0
costs
place admissions 1
tenant - nodes 2 arcs 0 life 1 spread 0 churn 0 remote 0 commands 0
costs
place admissions 1
tenant -- nodes 2 arcs 0 life 1 spread 0 churn 0 remote 7 commands 0
costs
place admissions 1
tenant abcdefghijklmnop nodes 4096 arcs 65536 life 1099511627776 spread 1000 churn 1000000 remote 1000000 commands 0
costs
rows 24
""",
)

ADMISSIONS_WITH_PATIENCE = Served(
    HEADING_OF_EIGHT + b"a,2,0,1,0,0,0,1000000\n",
    b"+ admit f,3,2,5,0,1,7,0\n"
    b"+ admit g,3,2,5,0,1,7,04\n"
    b"+ admit h,3,2,5,0,1,7,1000000\n"
    b"+ admit i,3,2,5,0,1,7\n"
    b"+ admit j,3,2,5,0,1,7,1000001\n",
    b"""\
+ ok admitted f
+ ok admitted g
+ ok admitted h
+ ok admitted i
+ no 24 operator-number
""",
    b"""\
firm state 1 extended
place admissions 1
tenant a nodes 2 arcs 0 life 1 spread 0 churn 0 remote 0 commands 0
costs
place admissions 1
tenant f nodes 3 arcs 2 life 5 spread 0 churn 1 remote 7 patience 0 commands 0
costs
place admissions 1
tenant g nodes 3 arcs 2 life 5 spread 0 churn 1 remote 7 patience 4 commands 0
costs
place admissions 1
tenant h nodes 3 arcs 2 life 5 spread 0 churn 1 remote 7 commands 0
costs
place admissions 1
tenant i nodes 3 arcs 2 life 5 spread 0 churn 1 remote 7 commands 0
costs
rows 15
""",
)

# It stays extended once nobody has a patience, or is there; a plain one takes none, whatever its tenants are.
NOBODY_LEFT = Served(
    HEADING_OF_EIGHT + b"a,2,0,1,0,0,0,5\n",
    b"+ retire a\n",
    b"+ ok retired a\n",
    b"firm state 1 extended\nplace admissions 1\nrows 1\n",
)
PATIENCE_COMES = Served(
    NOBODY_LEFT.state,
    b"+ admit a,2,0,1,0,0,0,3\n",
    b"+ ok admitted a\n",
    b"""\
firm state 1 extended
place admissions 2
tenant a nodes 2 arcs 0 life 1 spread 0 churn 0 remote 0 patience 3 commands 0
costs
rows 3
""",
)
PATIENCE_IS_REFUSED = Served(
    b"firm state 1\nplace admissions 1\nrows 1\n",
    b"+ admit a,2,0,1,0,0,0,3\n+ admit a,2,0,1,0,0,0,1000000\n+ admit ,,,,,,,\n",
    b"+ no 22 operator-row\n" * 3,
    b"firm state 1\nplace admissions 1\nrows 1\n",
)

# Two of three tasks run by the first round; the second leaves the third waiting, which would cost 3 to exchange.
TWO_ROUNDS = Served(
    HEADING_OF_SEVEN + b"alpha,9,30,100,1,2,7\nbeta,4,9,50,0,0,0\ngamma,2,0,2,0,0,0\n",
    b"""\
alpha machine m1 1
alpha machine m2 1
alpha job web 10
alpha job batch 1
alpha task web a m2
alpha task batch b
alpha task batch c m1 m2
beta show
+ retire gamma
alpha round
alpha round
""",
    b"""\
alpha 1 ok
alpha 2 ok
alpha 3 ok
alpha 4 ok
alpha 5 ok
alpha 6 ok
alpha 7 ok
beta 1 ok machines 0 jobs 0 tasks 0 running 0 nodes 2 of 4 arcs 0 of 9
+ ok retired gamma
alpha 8 ok round cost 1 start a m2 start b m1
alpha 9 ok round cost 2
""",
    b"""\
firm state 1
place admissions 1
tenant alpha nodes 9 arcs 30 life 100 spread 1 churn 2 remote 7 commands 9
costs 1 2
machine m1 1
machine m2 1
job web 10
job batch 1
task web a at m2 prefers m2
task batch b at m1
task batch c waits 2 prefers m1 m2
place admissions 1
tenant beta nodes 4 arcs 9 life 50 spread 0 churn 0 remote 0 commands 1
costs
place admissions 1
rows 14
""",
)

# Two equal tasks for one slot; the second waits for more rounds than the patience.
EQUALS = Served(
    HEADING_OF_EIGHT + b"alpha,9,30,100,0,2,0,2\n",
    b"""\
alpha machine m1 1
alpha job j 1
alpha task j a
alpha task j b
alpha round
alpha round
alpha round
alpha round
alpha round
""",
    b"""\
alpha 1 ok
alpha 2 ok
alpha 3 ok
alpha 4 ok
alpha 5 ok round cost 1 start a m1
alpha 6 ok round cost 2
alpha 7 ok round cost 3
alpha 8 ok round cost 3
alpha 9 ok round cost 3
""",
    b"""\
firm state 1 extended
place admissions 1
tenant alpha nodes 9 arcs 30 life 100 spread 0 churn 2 remote 0 patience 2 commands 9
costs 1 2 3 3 3
machine m1 1
job j 1
task j a at m1
task j b waits 2
rows 7
""",
)

EQUALS_GO_ON = Served(
    EQUALS.state,
    b"alpha round\n",
    b"alpha 10 ok round cost 3\n",
    EQUALS.state.replace(b"commands 9", b"commands 10").replace(b"costs 1 2 3 3 3", b"costs 1 2 3 3 3 3"),
)

RESTORED = STATE.replace(b"costs 5 12", b"costs 12 5")
ONE_RUNS = Served(
    RESTORED,
    b"a where x\na where y\na costs\na show\n",
    b"""\
a 10 ok at m1
a 11 ok waits 2
a 12 ok costs 12 5
a 13 ok machines 2 jobs 1 tasks 2 running 1 nodes 7 of 8 arcs 13 of 20
""",
    RESTORED.replace(b"commands 9", b"commands 13"),
)

BOTH_WAITED = STATE.replace(b"costs 5 12", b"costs 1 2 3 4 5").replace(b"x at m1", b"x waits 5")
BOTH_WAIT = Served(
    BOTH_WAITED.replace(b"commands 9", b"commands 10"),
    b"a where x\na where y\na show\n",
    b"""\
a 11 ok waits 5
a 12 ok waits 2
a 13 ok machines 2 jobs 1 tasks 2 running 0 nodes 7 of 8 arcs 13 of 20
""",
    BOTH_WAITED.replace(b"commands 9", b"commands 13"),
)

# The longest wait, and the last command of the longest life.
OF_A_LONG_LIFE = b"""\
firm state 1
place admissions 1
tenant alpha nodes 9 arcs 24 life 1099511627776 spread 0 churn 0 remote 0 commands 1099511627775
costs 1 2 3 4 5 6 7 8
job j 1
task j t waits 1000000
rows 5
"""
LONG_LIFE = Served(
    OF_A_LONG_LIFE,
    b"alpha where t\nalpha show\nalpha round\n",
    b"""\
alpha 1099511627776 ok waits 1000000
alpha 1099511627777 no 1 worn
alpha 1099511627777 no 1 worn
""",
    OF_A_LONG_LIFE.replace(b"commands 1099511627775", b"commands 1099511627776"),
)

TWO = HEADING + b"alpha,9,24,100,1,2\nbeta,8,30,100,0,3\n"
OF_TWO = b"""\
firm state 1
place admissions 1
tenant alpha nodes 9 arcs 24 life 100 spread 1 churn 2 remote 0 commands 0
costs
place admissions 1
tenant beta nodes 8 arcs 30 life 100 spread 0 churn 3 remote 0 commands 0
costs
rows 6
"""

EMPTY_PLACES = Served(
    TWO,
    b"""\
+ admit gamma,2,0,1,0,0
+ admit gamma,2,0,1,0,0
+ retire beta
+ retire beta
+ admit beta,2,0,1,0,0
""",
    b"""\
+ ok admitted gamma
+ no 25 tenant-exists
+ ok retired beta
+ no 26 no-such-tenant
+ ok admitted beta
""",
    b"""\
firm state 1
place admissions 1
tenant alpha nodes 9 arcs 24 life 100 spread 1 churn 2 remote 0 commands 0
costs
place admissions 2
tenant beta nodes 2 arcs 0 life 1 spread 0 churn 0 remote 0 commands 0
costs
place admissions 1
tenant gamma nodes 2 arcs 0 life 1 spread 0 churn 0 remote 0 commands 0
costs
rows 9
""",
)

AFTER_BETA = b"""\
firm state 1
place admissions 1
tenant alpha nodes 9 arcs 24 life 100 spread 1 churn 2 remote 0 commands 0
costs
place admissions 1
rows 4
"""
WITHOUT_BETA = Served(TWO, b"+ retire beta\n", b"+ ok retired beta\n", AFTER_BETA)
WITH_GAMMA = Served(
    AFTER_BETA,
    b"beta show\n+ admit gamma,2,0,1,0,0\nalpha show\n",
    b"""\
! unknown-tenant
+ ok admitted gamma
alpha 1 ok machines 0 jobs 0 tasks 0 running 0 nodes 2 of 9 arcs 0 of 24
""",
    b"""\
firm state 1
place admissions 1
tenant alpha nodes 9 arcs 24 life 100 spread 1 churn 2 remote 0 commands 1
costs
place admissions 2
tenant gamma nodes 2 arcs 0 life 1 spread 0 churn 0 remote 0 commands 0
costs
rows 6
""",
)

NUMBERS = [b"%02d" % number for number in range(2, 64)]
FULL_PLACES = Served(
    TWO,
    b"".join(b"+ admit %b,2,0,1,0,0\n" % name for name in NUMBERS)
    + b"+ admit gamma,2,0,1,0,0\n+ retire alpha\n+ admit gamma,2,0,1,0,0\n",
    b"".join(b"+ ok admitted %b\n" % name for name in NUMBERS)
    + b"+ no 27 operator-full\n+ ok retired alpha\n+ ok admitted gamma\n",
    b"""\
firm state 1
place admissions 2
tenant gamma nodes 2 arcs 0 life 1 spread 0 churn 0 remote 0 commands 0
costs
place admissions 1
tenant beta nodes 8 arcs 30 life 100 spread 0 churn 3 remote 0 commands 0
costs
"""
    + b"".join(
        b"place admissions 1\ntenant %b nodes 2 arcs 0 life 1 spread 0 churn 0 remote 0 commands 0\ncosts\n" % name
        for name in NUMBERS
    )
    + b"rows 192\n",
)

# The roster's row is the first admission to its place; the one after the last is to another.
COMES_AND_GOES = MAX_ADMISSIONS - 1
WORN_PLACE = Served(
    TWO,
    b"+ retire alpha\n" + COMES_AND_GOES * b"+ admit alpha,2,0,1,0,0\n+ retire alpha\n" + b"+ admit alpha,2,0,1,0,0\n",
    b"+ ok retired alpha\n" + COMES_AND_GOES * b"+ ok admitted alpha\n+ ok retired alpha\n" + b"+ ok admitted alpha\n",
    b"""\
firm state 1
place admissions 32768
place admissions 1
tenant beta nodes 8 arcs 30 life 100 spread 0 churn 3 remote 0 commands 0
costs
place admissions 1
tenant alpha nodes 2 arcs 0 life 1 spread 0 churn 0 remote 0 commands 0
costs
rows 7
""",
)

SERVED = {
    "a roster": Served(HEADING + b"alpha,9,24,100,1,2\n", b"beta show\n", UNKNOWN, OF_ALPHA),
    "zeros in front": Served(
        b"tenant,nodes,arcs,life,spread,churn\r\nalpha,09,024,0000000000100,01,2", b"beta show\n", UNKNOWN, OF_ALPHA
    ),
    "quotes and empty lines": Served(
        b'"tenant",nodes,"arcs",life,spread,churn\n\n"alpha","9",24,100,1,"2"\n\n', b"beta show\n", UNKNOWN, OF_ALPHA
    ),
    "records of seven": OF_SEVEN,
    "records of eight": OF_EIGHT,
    "64 records": OF_64,
    "commands": COMMANDS,
    "commands that remove": COMMANDS_THAT_REMOVE,
    "preferences": PREFERENCES,
    "admissions": ADMISSIONS,
    "admissions with a patience": ADMISSIONS_WITH_PATIENCE,
    "nobody left": NOBODY_LEFT,
    "a patience comes": PATIENCE_COMES,
    "a patience is refused": PATIENCE_IS_REFUSED,
    "two rounds": TWO_ROUNDS,
    "equals": EQUALS,
    "equals, from their state": EQUALS_GO_ON,
    "one of two runs": ONE_RUNS,
    "both wait": BOTH_WAIT,
    "a long life": LONG_LIFE,
    "the first places": Served(TWO, b"gamma show\n", UNKNOWN, OF_TWO),
    "empty places": EMPTY_PLACES,
    "without beta": WITHOUT_BETA,
    "with gamma": WITH_GAMMA,
    "full places": FULL_PLACES,
    "a worn place": WORN_PLACE,
}
