"""Tables of firm-slurm's pure rules: Slurm's words, the lines for firm, the orders for Slurm, and differences.

usage: tools/run tests/slurm_tables.py
The tables need no Slurm, no firm and no clock. Each check prints a line; the last line is 'N passed, M failed', and the
exit status is 1 if one failed.
"""

from __future__ import annotations

import argparse
from math import inf
from typing import Any

from harness.checks import Check, Suite, require, run_script, run_suites
from harness.deployed import Book, Observed, firm_lines, slurm
from slurm_checks import awaited, bounded, checked, sized, tables
from slurm_rows import (
    BOOKED,
    CLOSED,
    FAILED,
    GONE,
    HELD,
    JOB,
    KIND,
    LEAVING,
    MISSED,
    NOW,
    OPEN,
    OTHER,
    RELEASED,
    RUNNING,
)
from slurm_rows import STARTING, UNCLEAR, book_of, by_name, few_slots, job, node, partition, pinned, reading, running
from slurm_rows import waits

# The state of a node, as sinfo prints it, and its use.
USES = {
    "idle": OPEN,
    "mixed+completing": OPEN,
    "allocated": OPEN,
    "idle+drain": CLOSED,
    "mixed+drain+not_responding": CLOSED,
    "idle+maintenance": CLOSED,
    "idle+reserved": CLOSED,
    "idle+cloud+powered_down": OPEN,
    "idle+powering_down": UNCLEAR,
    "allocated+powering_up": UNCLEAR,
    "idle+not_responding": UNCLEAR,
    "allocated+not_responding": UNCLEAR,
    "unknown": UNCLEAR,
    "unknown+not_responding": UNCLEAR,
    "down+drain": GONE,
    "down+not_responding": GONE,
}
REQUEUED, LAUNCH_FAILED = "job requeued in held state", "launch failed requeued held"
NOT_PERMITTED = "Job's account not permitted to use this partition (firm allows a not light)"
# A line of squeue after its partition and name, and its differences from a job that the hook holds.
HELD_ROW = f"7|PENDING|0|JobHeldUser|light|(null)|(null)|(null)|||N/A|N/A|N/A|0|400|UNLIMITED|{KIND}|1|(null)"
WAITING = {"priority": 42, "reason": "Resources"}
SEVERAL = (*JOB.kind[:5], "2", *JOB.kind[6:])  # of a job of two nodes
JOBS: list[tuple[str, dict[str, Any]]] = [
    (HELD_ROW, {}),
    (HELD_ROW.replace("light|(null)", "(null)|high"), {"account": "", "qos": "high"}),
    (HELD_ROW.replace("JobHeldUser", "JobHeldAdmin"), {"hold": OTHER, "reason": "JobHeldAdmin"}),
    (HELD_ROW.replace("JobHeldUser", "BadConstraints"), {"hold": OTHER, "reason": "BadConstraints"}),
    (HELD_ROW.replace("JobHeldUser", "BadConstraints").replace("|||N/A", "|m1||N/A"),
     {"reason": "BadConstraints", "pinned": "m1"}),
    (HELD_ROW.replace("JobHeldUser", REQUEUED), {"reason": REQUEUED}),
    (HELD_ROW.replace("JobHeldUser", NOT_PERMITTED), {"reason": NOT_PERMITTED}),
    (HELD_ROW.replace("JobHeldUser", LAUNCH_FAILED), {"reason": LAUNCH_FAILED, "hold": FAILED}),
    (HELD_ROW.replace("JobHeldUser", LAUNCH_FAILED)[:-6] + "firm:held",
     {"reason": LAUNCH_FAILED, "hold": OTHER, "is_users": True}),
    (HELD_ROW[:-6] + "near=a firm:held", {"hold": OTHER, "near": ("a",), "is_users": True}),
    (HELD_ROW[:-6] + "firm:held-not near=a,b,a,c,d,e", {"near": ("a", "b", "c", "d")}),
    (HELD_ROW[:-6] + "firm:most=3", {"most": 3}),
    (HELD_ROW.replace("|1|(null)", "|0|(null)"), {"may_requeue": False}),
    (HELD_ROW[:-6] + "firm:admin", {"is_roots": True}),
    (HELD_ROW.replace("JobHeldUser", REQUEUED)[:-6] + "firm:admin",
     {"reason": REQUEUED, "hold": OTHER, "is_roots": True}),
    (HELD_ROW.replace("JobHeldUser", NOT_PERMITTED)[:-6] + "a firm:admin",
     {"reason": NOT_PERMITTED, "hold": OTHER, "is_roots": True}),
    (HELD_ROW[:-6] + "firm:most=0", {}),
    (HELD_ROW[:-6] + "a\u2003firm:most=9\u2003firm:held firm:most=3", {"most": 3}),
    (HELD_ROW[:-6] + "bear=a", {}),
    (HELD_ROW[:-6] + "a\u2028b\x85c\x0bd\re near=m1", {"near": ("m1",)}),
    (HELD_ROW[:-6] + "a|b| near=m1", {"near": ("m1",)}),
    (HELD_ROW.replace("|(null)|(null)|||", "|afterok:2(unfulfilled)|(null)|||"), {"has_needs": True}),
    (HELD_ROW.replace("JobHeldUser", "JobHeldAdmin").replace("|(null)|(null)|||", "|afterok:2(failed)|(null)|||"),
     {"has_needs": True, "hold": OTHER, "reason": "JobHeldAdmin", "has_failed": True}),
    (HELD_ROW.replace("|(null)|||", "|a:2,b|||"), {"licences": (("a", 2), ("b", 1))}),
    (HELD_ROW.replace("PENDING", "SPECIAL_EXIT"), {"hold": OTHER}),
    (HELD_ROW.replace("PENDING", "RESV_DEL_HOLD"), {"hold": OTHER}),
    (HELD_ROW.replace("PENDING", "REQUEUE_HOLD"), {"hold": OTHER}),
    (f"7|PENDING|42|Resources|light|(null)|(null)|(null)|m1||500|560|N/A|0|400|UNLIMITED|{KIND}|1|(null)",
     {**WAITING, "hold": RELEASED, "pinned": "m1", "eligible": 500.0, "evaluated": 560.0}),
    (f"7|PENDING|42|Resources|light|(null)|(null)|(null)|m1||500|560|N/A|0|400|UNLIMITED|{KIND}|1|firm:held",
     {**WAITING, "hold": MISSED, "is_users": True, "pinned": "m1", "eligible": 500.0, "evaluated": 560.0}),
    (f"7|RUNNING|42|None|light|(null)|(null)|(null)|m1|m1|500|501|501|0|400|UNLIMITED|{KIND}|1|(null)",
     {**{"priority": 42, "reason": "None", "hold": RELEASED, "state": RUNNING, "node": "m1", "pinned": "m1"},
      **{"eligible": 500.0, "evaluated": 501.0, "started": 501.0}}),
    (f"7|CONFIGURING|42|None|light|(null)|(null)|(null)|m1|m1|500|501|501|0|400|UNLIMITED|{KIND}|1|(null)",
     {**{"priority": 42, "reason": "None", "hold": RELEASED, "state": STARTING, "node": "m1", "pinned": "m1"},
      **{"eligible": 500.0, "evaluated": 501.0, "started": 501.0}}),
    (f"7|RUNNING|42|Prolog|light|(null)|(null)|(null)|m1|m1|500|501|501|0|400|UNLIMITED|{KIND}|1|(null)",
     {**{"priority": 42, "reason": "Prolog", "hold": RELEASED, "state": STARTING, "node": "m1", "pinned": "m1"},
      **{"eligible": 500.0, "evaluated": 501.0, "started": 501.0}}),
    (HELD_ROW.replace("|0|400|", "|2|500|"), {"requeued": 500.0}),
    (HELD_ROW.replace("big|1|", "big|2|"), {"hold": OTHER, "kind": SEVERAL, "is_users": True}),
    (HELD_ROW.replace("big|1|", "big|2|").replace("|0|JobHeldUser|", "|42|Resources|"),
     {**WAITING, "hold": MISSED, "kind": SEVERAL, "is_users": True}),
    (HELD_ROW.replace("UNLIMITED", "30:01"), {"limit": 1801.0}),
    (HELD_ROW.replace("UNLIMITED", "1:00:00"), {"limit": 3600.0}),
    (HELD_ROW.replace("UNLIMITED", "2-12:00:00"), {"limit": 216_000.0}),
    (f"7|COMPLETING|0|JobHeldUser|light|(null)|(null)|(null)||m1|N/A|N/A|501|0|400|UNLIMITED|{KIND}|1|(null)",
     {"hold": RELEASED, "state": LEAVING, "node": "m1", "started": 501.0}),
]  # fmt: skip
# Firm's rows, nodes, jobs, fields of the partition, and the lines for firm.
NEWS: list[tuple[str, Book, list[reading.Node], list[reading.SlurmJob], dict[str, Any], list[str]]] = [
    ("a node", book_of(), [node("m1")], [], {}, ["machine m1 4"]),
    ("slots of a table", book_of(), [node("m1")], [], {"slots": 2}, ["machine m1 2"]),
    ("a slot of two processors", book_of(), [node("m1")], [], {"cpus": 2}, ["machine m1 2"]),
    ("no name of firm", book_of(), [node("Rack_1")], [], {}, []),
    ("a node that is unclear", book_of(), [node("m1", UNCLEAR)], [], {}, []),
    ("a machine that is unclear", book_of("m1", "1:m1"), [node("m1", UNCLEAR)], [running("1", "m1")], {}, []),
    ("a node with others' jobs", book_of(), [node("m1", OPEN, 2)], [], {}, ["machine m1 2"]),
    ("a job with --no-requeue", book_of(), [node("m1", OPEN, 1)], [running("1", "m1", may_requeue=False)], {},
     ["machine m1 3"]),
    ("a node that others have", book_of(), [node("m1", OPEN, 4)], [], {}, []),
    ("others' jobs have ended", few_slots(2), [node("m1", OPEN, 1)], [], {}, ["drain m1", "machine m1 3"]),
    ("the same beside a task", few_slots(2, "1:m1"), [node("m1", OPEN, 1)], [running("1", "m1")], {}, []),
    ("not yet", few_slots(2), [node("m1", OPEN, 2)], [], {}, []),
    ("fewer slots, as of another table", book_of("m1"), [node("m1")], [], {"slots": 2}, ["drain m1"]),
    ("the same beside tasks", book_of("m1", "1:m1 2:m1"), [node("m1", OPEN, 1)], [running("1", "m1"), job("2")],
     {"slots": 2, "drain": "move"}, ["done 1", "drain m1"]),
    ("the same on an unclear node", book_of("m1"), [node("m1", UNCLEAR)], [], {"slots": 2}, []),
    ("a drain, finish", book_of("m1", "1:m1 2:m1"), [node("m1", CLOSED)], [running("1", "m1"), pinned("2", "m1")],
     {}, ["done 1", "drain m1"]),
    ("a drain, move", book_of("m1", "1:m1"), [node("m1", CLOSED)], [running("1", "m1")], {"drain": "move"},
     ["drain m1"]),
    ("a booked node, finish", book_of("m1", "1:m1 2:m1"), [node("m1", BOOKED)], [running("1", "m1"), job("2")],
     {}, ["done 1", "drain m1"]),
    ("a booked node, move", book_of("m1", "1:m1 2:m1"), [node("m1", BOOKED)], [running("1", "m1"), job("2")],
     {"drain": "move"}, ["done 1", "drain m1"]),
    ("a node that is down", book_of("m1", "1:m1"), [node("m1", GONE)], [job("1")], {}, ["drain m1"]),
    ("a node that is no more", book_of("m1", "1:m1"), [], [job("1")], {}, ["drain m1"]),
    ("a node that has left the partition, finish", book_of("m1", "1:m1"), [], [running("1", "m1")], {},
     ["done 1", "drain m1"]),
    ("a node that has left the partition, move", book_of("m1", "1:m1"), [], [running("1", "m1")], {"drain": "move"},
     ["drain m1"]),
    ("a drain while a job starts", book_of("m1", "1:m1"), [node("m1", CLOSED)],
     [running("1", "m1")._replace(state=STARTING)], {}, ["done 1", "drain m1"]),
    ("a new job", book_of(), [], [job()], {}, ["job light 10", "task light 1"]),
    ("a job of a known account", book_of("", "2:-"), [], [job("1"), job("2")], {}, ["task light 1"]),
    ("a weight", book_of(), [], [job(account="heavy")], {}, ["job heavy 1000", "task heavy 1"]),
    ("a weight of a QOS", book_of(), [], [job(qos="heavy")], {"weigh": "qos"}, ["job heavy 1000", "task heavy 1"]),
    ("an account that is not a name", book_of(), [], [job(account="Ab_c")], {}, ["job ab-c-8e73 10",
     "task ab-c-8e73 1"]),
    ("no account", book_of(), [], [job(account="")], {"default": 7}, ["job default 7", "task default 1"]),
    ("heavy jobs first", book_of("", "7:- heavy/8:-"), [], [job("1"), job("2", account="heavy"), job("7"),
     job("8", account="heavy")], {}, ["task heavy 2", "task light 1"]),
    ("a waiting job of another account now", book_of("m1", "heavy/1:- 2:-"), [node("m1")], [job("1"), job("2")], {},
     ["done 1"]),
    ("the same, which runs", book_of("m1", "heavy/1:m1"), [node("m1")], [running("1", "m1")], {}, []),
    ("the same, which firm has placed", book_of("m1", "heavy/1:m1"), [node("m1")], [job("1")], {}, []),
    ("a job near machines", book_of("m1 m3", "9:-"), [node("m1"), node("m2"), node("m3", GONE)],
     [job(near=("m1", "m2", "m3", "m4")), job("9")], {}, ["drain m3", "machine m2 4", "task light 1 m1 m2"]),
    ("a job that needs others", book_of(), [], [job(has_needs=True)], {}, []),
    ("a job of a later time", book_of(), [], [job(eligible=NOW + 1)], {}, []),
    ("a job whose time has come", book_of("", "9:-"), [], [job(eligible=NOW), job("9")], {}, ["task light 1"]),
    ("a job that its user holds", book_of(), [], [job(hold=OTHER)], {}, []),
    ("a job that Slurm requeued itself", book_of("", "9:-"), [], [job(hold=RELEASED), job("9")], {},
     ["task light 1"]),
    ("a job that ended", book_of("m1", "1:m1 2:-"), [node("m1")], [job("2")], {}, ["done 1"]),
    ("a job that leaves", book_of("m1", "1:m1"), [node("m1")], [job("1", state=LEAVING, node="m1")], {}, []),
    ("a task that its user holds", book_of("m1", "1:m1 2:-"), [node("m1")], [job("1", hold=OTHER), job("2")], {},
     ["done 1"]),
    ("a hold while it is released", book_of("m1", "1:m1 2:-"), [node("m1")], [pinned("1", "m1", hold=MISSED), job("2")],
     {}, ["done 1"]),
    ("a hold while it runs", book_of("m1", "1:m1"), [node("m1")], [running("1", "m1")], {}, []),
    ("a task that needs others now", book_of("m1", "1:-"), [node("m1")], [job("1", has_needs=True)], {}, ["done 1"]),
    ("a task that begins later now", book_of("m1", "1:-"), [node("m1")], [job("1", eligible=NOW + 6)], {}, ["done 1"]),
    ("a task that begins soon", book_of("m1", "1:m1 2:-"), [node("m1")], [job("1", eligible=NOW + 4), job("2")], {},
     ["done 1"]),
    ("the same, released", book_of("m1", "1:m1"), [node("m1")], [pinned("1", "m1", eligible=NOW + 4)], {}, []),
    ("a requeued task that begins later now", book_of("m1", "1:-"), [node("m1")],
     [job("1", requeued=NOW - 1, eligible=NOW + 60)], {}, ["done 1"]),
    ("a task that was just requeued", book_of("m1", "1:-"), [node("m1")],
     [job("1", requeued=NOW - 1, evaluated=NOW - 9, eligible=NOW + 120)], {}, []),
    ("put off", book_of("m1", "2:-"), [node("m1")], [job("1", eligible=NOW + 299), job("2")], {}, []),
    ("requeued in its launch", book_of("m1", "1:m1 2:-"), [node("m1")], [job("1", requeued=NOW - 9, evaluated=NOW - 9),
     job("2")], {}, ["done 1"]),
    ("at most so many tasks", book_of("", "9:-"), [], [job("1"), job("2"), job("9")], {"most": 2}, ["task light 1"]),
    ("two of an array at a time", book_of("m1", "5-1:m1"), [node("m1")], [running("5-1", "m1", most=2),
     job("5-2", most=2), job("5-3", most=2)], {}, ["task light 5-2"]),
    ("a full arena", book_of("", "9:-", "4,300,1000,0,9,5"), [], [job("1"), job("9")], {}, []),
    ("room in the arena", book_of("", "9:-", "5,300,1000,0,9,5"), [], [job("1"), job("2"), job("9")], {},
     ["task light 1"]),
    ("heavier ones take the room of lighter ones", book_of("", "7:- 8:-", "5,300,1000,0,9,5"), [],
     [job("1", account="heavy"), job("7"), job("8")], {}, ["done 8", "done 7", "job heavy 1000", "task heavy 1"]),
    ("equal ones do not", book_of("", "7:- 8:-", "5,300,1000,0,9,5"), [], [job("1"), job("7"), job("8")], {}, []),
    ("with a limit of tasks", book_of("", "7:- 8:-"), [], [job("1", account="heavy"), job("7"), job("8")], {"most": 2},
     ["done 8", "job heavy 1000", "task heavy 1"]),
    ("an idle job", book_of("m1", "x/1:m1 2:-"), [node("m1")], [job("2")], {}, ["done 1"]),
    ("jobs that run already", book_of(), [node("m1", OPEN, 2), node("m2")], [running("1", "m1"), running("2", "m1"),
     job("3")], {}, ["machine m1 4", "job light 10", "task light 1 m1", "task light 2 m1", "round", "machine m2 4"]),
    ("they run while another waits", book_of("m2", "9:-"), [node("m1", OPEN, 1), node("m2")], [running("1", "m1"),
     job("9")], {}, ["machine m1 3"]),
    ("they run beside others", book_of(), [node("m1", OPEN, 2)], [running("1", "m1")], {}, ["machine m1 2"]),
    ("they run, and crowding is dearer", book_of("", "", "30,300,1000,9,9,5"), [node("m1", OPEN, 2)],
     [running("1", "m1"), running("2", "m1")], {}, ["machine m1 2"]),
    ("a stranger leaves", book_of(), [node("m1", OPEN, 1)], [job("1", state=LEAVING, node="m1")], {}, []),
]  # fmt: skip
# Firm's rows, a job, and the orders for Slurm, phase by phase.
PIN = "update JobId=1 ReqNodeList=m1 StartTime=now"
DEEDS: list[tuple[str, str, list[reading.SlurmJob], list[list[str]]]] = [
    ("runs in firm, held", "1:m1", [job()], [[PIN], ["release 1"]]),
    ("runs in firm, pinned elsewhere", "1:m1", [pinned("1", "m2")], [["uhold 1"]]),
    ("runs in firm, will start", "1:m1", [pinned("1", "m1")], []),
    ("runs in firm, requeued by its user", "1:m1", [pinned("1", "m1", eligible=NOW + 120, requeued=NOW - 1)],
     [["update JobId=1 StartTime=now"]]),
    ("runs in firm, begins later now", "1:m1", [pinned("1", "m1", eligible=NOW + 120)], []),
    ("runs in firm, begins soon", "1:m1", [pinned("1", "m1", eligible=NOW + 4)], []),
    ("runs in firm, held, begins soon", "1:m1", [job(eligible=NOW + 4)], []),
    ("requeued by its user a moment ago", "1:m1", [pinned("1", "m1", eligible=NOW + 120.1, requeued=NOW - 0.9)], []),
    ("requeued a moment ago, held", "1:m1", [job(requeued=NOW - 0.9, evaluated=NOW - 9)], []),
    ("requeued a second ago, held", "1:m1", [job(requeued=NOW - 1, evaluated=NOW - 9)], [[PIN], ["release 1"]]),
    ("requeued in its launch, held", "1:m1", [job(requeued=NOW - 9, evaluated=NOW - 11)], []),
    ("the same, two minutes later", "1:m1", [job(requeued=NOW - 121, evaluated=NOW - 123)], [[PIN], ["release 1"]]),
    ("requeued, and looked at since", "1:m1", [job(requeued=NOW - 9, evaluated=NOW - 8)], [[PIN], ["release 1"]]),
    ("waits in firm, was just launched", "1:-", [running("1", "m1")._replace(started=NOW - 2)], []),
    ("the same, while squeue was slow", "1:-", [running("1", "m1")._replace(started=NOW + 60)], []),
    ("started before the clock was set back", "1:-", [running("1", "m1")._replace(started=NOW + 3600)],
     [["requeuehold Incomplete 1"]]),
    ("runs in both", "1:m1", [running("1", "m1")], []),
    ("runs elsewhere", "1:m1", [running("1", "m2")], [["requeuehold Incomplete 1"]]),
    ("starts elsewhere", "1:m1", [running("1", "m2")._replace(state=STARTING)], []),
    ("waits in firm, starts", "1:-", [running("1", "m1")._replace(state=STARTING)], []),
    ("leaves a node", "1:m1", [job("1", state=LEAVING, node="m2")], []),
    ("waits in firm, runs", "1:-", [running("1", "m1")], [["requeuehold Incomplete 1"]]),
    ("waits in firm, released", "1:-", [pinned("1", "m1")], [["uhold 1"]]),
    ("waits in both", "1:-", [job()], []),
    ("held by its user", "1:m1", [job(hold=OTHER)], []),
    ("firm has it no more", "", [running("1", "m1")], []),
    ("firm has it not, released", "", [pinned("1", "m1")], [["uhold 1"]]),
    ("firm has it not, held", "", [job()], []),
    ("held by its user while it was released", "", [pinned("1", "m1", hold=MISSED)], [["uhold 1"]]),
    ("the same, before firm is told", "1:m1", [pinned("1", "m1", hold=MISSED)], []),
    ("elements of an array", "5-1:m1 5-2:m2 6:m1", [job("5-1"), job("5-2"), job("6")], [
        ["update JobId=5_1 ReqNodeList=m1 StartTime=now", "update JobId=5_2 ReqNodeList=m2 StartTime=now",
         "update JobId=6 ReqNodeList=m1 StartTime=now"],
        ["release 5_[1,2]", "release 6"],
    ]),
    ("requeues before starts", "1:m1 2:- 3:-", [job(), running("2", "m1"), pinned("3", "m1")], [
        ["requeuehold Incomplete 2", "uhold 3"], [PIN], ["release 1"],
    ]),
]  # fmt: skip
DIFFERENCES: list[tuple[str, list[reading.SlurmJob], list[tuple[str, str, str, float | None]]]] = [
    ("1:m1 2:-", [running("1", "m1"), job("2")], []),
    ("1:m1", [], [("1", "m1", "ended", None)]),
    ("1:m1", [running("1", "m2")], [("1", "m1", "runs on m2", NOW - 5)]),
    ("1:-", [running("1", "m2")], [("1", "waits", "runs on m2", NOW - 5)]),
    ("1:m1", [job("1")], [("1", "m1", "held for firm", NOW - 5)]),
    ("1:m1", [pinned("1", "m1")], [("1", "m1", "released, for m1", NOW - 5)]),
    ("1:-", [pinned("1", "m1")], [("1", "waits", "released", NOW - 5)]),
    ("1:-", [job("1", state=LEAVING, node="m1")], [("1", "waits", "leaves m1", NOW - 5)]),
]


def launched() -> None:
    """A job is steady some seconds after its last start was seen, however long ago Slurm allocated its node."""
    launches, job = reading.Launches(), running("1", "m1")._replace(started=NOW - 60)
    for seconds, state, is_steady in (
        (0.0, STARTING, False),
        (1.0, STARTING, False),
        (1.5, RUNNING, False),
        (3.9, RUNNING, False),
        (4.0, RUNNING, True),
        (5.0, LEAVING, False),
        (6.0, RUNNING, True),
    ):
        found = launches.corrected(by_name([job._replace(state=state), running("2", "m1")]), NOW + seconds)
        require(found["1"].is_steady(NOW + seconds) is is_steady, f"{seconds}: {found}")
        require(found["2"] == running("2", "m1"), f"{seconds}: {found}")


def failed() -> None:
    """A job that Slurm holds since a dependency failed is firm's with another; an administrator's hold stays."""
    admin = job(hold=OTHER, reason="JobHeldAdmin")
    misheld = admin._replace(has_needs=True, has_failed=True)
    never = misheld._replace(reason="DependencyNeverSatisfied")
    for rows, hold in (
        ([never], OTHER),
        ([never, misheld], OTHER),
        ([misheld, admin], HELD),
        ([misheld, admin, admin], HELD),
        ([misheld, admin, job(), admin], OTHER),
        ([admin, misheld, admin], OTHER),
        ([admin, never, misheld, admin], OTHER),
        ([misheld, admin._replace(is_roots=True)], OTHER),
        ([admin, job(), misheld, admin], HELD),
        ([misheld._replace(is_users=True), admin._replace(is_users=True)], OTHER),
        ([running("1", "m1", reason="JobHeldAdmin"), misheld, admin], OTHER),
    ):
        failures = slurm.reading.Failures()
        found = [failures.corrected({"1": row})["1"].hold for row in rows][-1]
        require(found is hold, f"{rows}: {found} instead of {hold}")
    failures, marked = slurm.reading.Failures(), []
    for row in (job(), misheld, job(), admin, admin, job(), admin._replace(is_roots=True)):
        failures.corrected({"1": row})
        marked.append(sorted(failures.unmarked))
    require(marked == [[], [], [], ["1"], [], [], []], f"holds to be marked: {marked}")


def relaunched() -> None:
    """A job whose launch failed is held for firm once, two minutes later, and then until root releases it."""
    relaunches, failed = reading.Relaunches(), job(hold=FAILED, reason=LAUNCH_FAILED, evaluated=NOW - 1)
    for row, seconds, hold, is_due in (
        (failed._replace(requeued=NOW), 1, HELD, False),
        (failed._replace(requeued=NOW), 121, HELD, True),
        (running("1", "m2"), 130, RELEASED, False),
        (failed._replace(requeued=NOW + 140), 300, FAILED, False),
        (failed._replace(requeued=NOW + 140, hold=OTHER), 300, OTHER, False),
    ):
        found = relaunches.corrected({"1": row})["1"]
        wanted = found.hold is hold and found.is_due(NOW + seconds) == is_due
        require(wanted, f"{row} after {seconds} s: {found}")
    relaunches.corrected({})
    found = relaunches.corrected({"1": failed._replace(requeued=NOW + 140)})["1"]
    require(found.hold is HELD, f"another job of this name: {found}")


def ended(text: str) -> str:
    """Return lines of fields that end as squeue and sinfo end them."""
    return text.replace("|", reading.END)


def uses() -> None:
    for state, use in USES.items():
        found = reading.use_of(state)
        require(found is use, f"{state}: {found} instead of {use}")


# Fields that squeue has by these names alone, before those of a job's needs.
SQUEUE = "Partition JobArrayID JobID State PriorityLong Reason Account QOS Dependency Licenses ReqNodes NodeList"
SQUEUE += " EligibleTime LastSchedEval StartTime RestartCnt SubmitTime TimeLimit"
SINFO = "PartitionName NodeList CPUsState Available StateComplete"


def jobs() -> None:
    asked = " ".join(reading.JOB_FIELDS), " ".join(reading.NODE_FIELDS)
    require(asked[0].startswith(f"{SQUEUE} UserName Feature ") and asked[1] == SINFO, f"other fields: {asked}")
    for row, fields in JOBS:
        (found,) = reading.read_jobs(ended(f"batch|7_3|{row}|\n"))["batch"].values()
        account, qos, _, licences = row.split("|")[4:8]
        wanted = job("7-3", **{"kind": (account, qos, licences, *KIND.split("|")), **fields})
        require(found == wanted, f"{row}: {found} instead of {wanted}")
    text = "".join(
        f"a|{name}|{HELD_ROW}|\n" for name in ("10", "9_10", "9_2", "8_[0,3-4,7-11:2%2]", "7+1", "6|", "5_[")
    )
    names = ["8-0", "8-3", "8-4", "8-7", "8-9", "8-11", "9-2", "9-10", "10"]
    require(list(reading.read_jobs(ended(text))["a"]) == names, "the order of jobs, and all elements of an array")


def nodes() -> None:
    found = reading.read_nodes(
        ended("a|m1|1/3/0/4|up|mixed|\na|m2|0/4/0/4|up|idle+drain|\na|m3|0/4/0/4|down|idle|\nb|m1|1/3/0/4|up|mixed|\n")
    )
    wanted = {"a": [node("m1", OPEN, 1), node("m2", CLOSED), node("m3", UNCLEAR)], "b": [node("m1", OPEN, 1)]}
    require({name: list(rows.values()) for name, rows in found.items()} == wanted, found)
    alone = reading.without_shared(found, ["a", "b", "c"])
    require({name: list(rows) for name, rows in alone.items()} == {"a": ["m1", "m2", "m3"], "b": [], "c": []}, alone)
    text = "LicenseName=a Total=9 Used=1 Free=8 Reserved=0 Remote=no\nLicenseName=b@c Total=2 Used=2 Free=0 Remote=no\n"
    require(reading.read_licences(text) == {"a": 8, "b@c": 0}, reading.read_licences(text))


# Seconds until a node is reserved, the jobs, and the node's use until then.
RESERVED: list[tuple[float, list[reading.SlurmJob], Any]] = [
    (3600, [], OPEN),
    (3600, [job()], BOOKED),
    (3600, [job(limit=3600.0)], OPEN),
    (3600, [job(limit=3601.0)], BOOKED),
    (3600, [job("1"), job("2", limit=60.0)], OPEN),
    (3600, [job("1"), job("2", limit=60.0, has_needs=True)], BOOKED),
    (3600, [running("1", "m1")], OPEN),
    (-1, [job(limit=60.0)], BOOKED),
    (inf, [job()], OPEN),
]
RESERVATIONS = """\
ReservationName=a StartTime=500 EndTime=900 Duration=00:06:40 Nodes=m[1-2] NodeCnt=2 Users=root State=INACTIVE
ReservationName=b StartTime=400 EndTime=900 Duration=00:08:20 Nodes=(null) NodeCnt=0 Licenses=seat State=INACTIVE

ReservationName=c StartTime=300 EndTime=900 Duration=00:10:00 Nodes=m2 NodeCnt=1 Users=root State=INACTIVE
"""


def reserved() -> None:
    """A node is closed once no pending job would end before its reservation."""
    require(reading.read_reservations(RESERVATIONS) == [(500, "m[1-2]"), (300, "m2")], "what scontrol prints")
    require(reading.read_reservations("No reservations in the system\n") == [], "no reservation")
    for seconds, rows, wanted in RESERVED:
        found = reading.with_reservations(by_name([node("m1"), node("m2", CLOSED)]), rows, {"m1": NOW + seconds}, NOW)
        wanted_nodes = by_name([node("m1", wanted, reserved=NOW + seconds), node("m2", CLOSED)])
        require(found == wanted_nodes, f"{seconds} s, {rows}: {found} instead of {wanted}")


def said() -> None:
    for name, book, nodes, rows, fields, wanted in NEWS:
        found = firm_lines.news(
            Observed(book, frozenset(book.tasks), by_name(nodes), by_name(rows), NOW), partition(**fields)
        )
        require(found.lines == wanted, f"{name}: {found.lines} instead of {wanted}")
    seen = Observed(book_of("", "1:- 2:-"), frozenset({"1"}), {}, {}, NOW)
    require(firm_lines.news(seen, partition()).lines == ["done 1"], "a task that came after the look")
    seen = Observed(book_of(), frozenset(), {}, {"1": job()}, NOW)
    require(firm_lines.news(seen, partition(), has_room=False).lines == [], "no room a moment ago")
    idle = book_of("m1", "2:-")
    idle.jobs["old"] = 3
    seen = Observed(idle, frozenset({"2"}), {"m1": node("m1")}, {"2": job("2")}, NOW)
    require(firm_lines.news(seen, partition()).lines == ["close old"], "a job without tasks")
    seen = Observed(idle, frozenset({"2"}), {"m1": node("m1")}, {}, NOW)
    require(firm_lines.news(seen, partition()).lines == ["close old", "done 2"], "the same while a task ends")


# Firm's tasks, jobs, and the tasks that release their slots at each of some looks, half a second apart.
REFUSED: list[tuple[str, str, list[reading.SlurmJob], list[set[str]]]] = [
    ("not looked at yet", "1:m1", [waits("1", "m1", "None")], [set()]),
    ("behind another", "1:m1", [waits("1", "m1", "Priority")], [set()]),
    ("its partition is down", "1:m1", [waits("1", "m1", "PartitionDown")], [set()]),
    ("no room", "1:m1", [waits("1", "m1")], [set(), {"1"}]),
    ("a reserved node", "1:m1", [waits("1", "m1", "ReqNodeNotAvail, Reserved for maintenance")],
     [set(), {"1"}]),
    ("it is to be elsewhere", "1:m2", [waits("1", "m1")], [set()]),
    ("it waits in firm", "1:-", [waits("1", "m1")], [set()]),
    ("a node that is unclear", "1:m4", [waits("1", "m4")], [set()]),
    ("held as its node is not made for it", "1:m1", [waits("1", "m1", "BadConstraints", hold=HELD)], [{"1"}]),
    ("the same on another node", "1:m2", [waits("1", "m1", "BadConstraints", hold=HELD)], [set()]),
    ("a licence", "5-1:m1 5-2:m2", [waits("5-1", "m1", "Licenses"), waits("5-2", "m2", "Licenses")], [{"5-1", "5-2"}]),
    ("an account of other partitions", "1:m1", [waits("1", "m1", NOT_PERMITTED)], [{"1"}]),
    ("a limit of its user", "1:m1 2:m1",
     [waits("1", "m1", "QOSMaxJobsPerUserLimit"), waits("2", "m1", "MaxCpuPerAccount")], [{"1", "2"}]),
    ("the first of an array", "5-1:m1 5-2:m2 5-3:m3", [waits("5-2", "m2"), waits("5-1", "m1"), waits("5-3", "m3")],
     [set(), {"5-1"}, {"5-1", "5-2", "5-3"}]),
    ("the first on a node", "1:m1 2:m1 3:m2", [waits("1", "m1"), waits("2", "m1"), waits("3", "m2")],
     [set(), {"1", "3"}, {"1", "2", "3"}]),
]  # fmt: skip


def refused() -> None:
    nodes = by_name([node("m1"), node("m2"), node("m3"), node("m4", UNCLEAR)])
    for name, tasks, rows, looks in REFUSED:
        book, refusals = book_of("m1 m2 m3 m4", tasks), slurm.refusals.Refusals()
        found = [set(refusals.find(book, nodes, by_name(rows), NOW + look / 2)) for look in range(len(looks))]
        require(found == looks, f"{name}: {found} instead of {looks}")
    soon, both = by_name([node("m1", reserved=NOW + 60)]), by_name([job("1", limit=61.0), job("2", limit=60.0)])
    given = slurm.refusals.Refusals().find(book_of("m1", "1:m1 2:m1"), soon, both, NOW)
    require(given == {"1": 5}, f"a job that would not end before a reservation: {given}")
    book, refusals = book_of("m1", "1:m1"), slurm.refusals.Refusals()
    pauses = [refusals.find(book, nodes, {"1": waits("1", "m1", "Licenses")}, NOW + look)["1"] for look in range(8)]
    require(pauses == [5, 10, 20, 40, 80, 160, 300, 300], f"growing pauses: {pauses}")
    refusals.find(book, nodes, {"1": running("1", "m1")}, NOW + 9)
    pause = refusals.find(book, nodes, {"1": waits("1", "m1", "Licenses")}, NOW + 10)["1"]
    require(pause == 5, f"after it has run: {pause}")
    refusals, pauses = slurm.refusals.Refusals(), []
    for look, machine in enumerate(("m1", "m2", "m3", "m1", "m1")):
        book = book_of("m1 m2 m3", f"5-1:{machine}")
        refusals.find(book, nodes, {"5-1": waits("5-1", machine)}, NOW + look)
        pauses.append(refusals.find(book, nodes, {"5-1": waits("5-1", machine)}, NOW + look)["5-1"])
    require(pauses == [5, 5, 5, 10, 40], f"other nodes are tried first: {pauses}")
    require(refusals.avoided() == {"5": {"m1", "m2", "m3"}}, f"avoided: {refusals.avoided()}")
    refusals.find(book_of("m1", "5-1:-"), nodes, {"5-1": job("5-1")}, NOW + 303)
    require(refusals.avoided() == {"5": {"m1"}}, f"avoided five minutes later: {refusals.avoided()}")
    refusals.find(book_of("m1"), nodes, {}, NOW + 303)
    require(refusals.avoided() == {}, f"avoided after its end: {refusals.avoided()}")


def elsewhere() -> None:
    """A job that a node refused prefers others, those with free slots and its own first."""
    rows, nodes = [job("5-2", near=("m1", "m3")), job("5-3")], [node(f"m{number}") for number in range(1, 8)]
    book = book_of("m1 m2 m3 m4 m5 m6", "9:m2 8:m2 7:m2 6:m2 4:m4")
    seen = Observed(book, frozenset(), by_name(nodes), by_name(rows), NOW, avoided={"5": {"m1"}, "6": {"m2"}})
    found = firm_lines.news(seen, partition()).lines
    require(found[1:] == ["task light 5-2 m3 m5 m6 m4", "task light 5-3 m3 m5 m6 m4"], found)


def late() -> None:
    """A job that isn't started for half a minute releases its slot; time in which Slurm was away does not count."""
    book, nodes = book_of("m1", "1:m1 2:-"), by_name([node("m1")])
    for rows, wanted in (
        ([job("1")], 30.0),
        ([waits("1", "m1", "None")], 30.0),
        ([job("1"), running("2", "m1")], None),
        ([job("1"), job("3", state=LEAVING, node="m1")], None),
    ):
        refusals, found = slurm.refusals.Refusals(), None
        for look in range(80):
            if found is None and refusals.find(book, nodes, by_name(rows), NOW + look / 2):
                found = look / 2
        require(found == wanted, f"{rows}: after {found} s instead of {wanted}")
    silent = by_name([node("m1", UNCLEAR), node("m2")])
    stuck = by_name([waits("1", "m1", "ReqNodeNotAvail"), job("3", state=LEAVING, node="m1")])
    for there, is_late in ((silent, True), (by_name([node("m1", UNCLEAR), node("m2", CLOSED)]), False)):
        refusals = slurm.refusals.Refusals()
        ends = [look / 2 for look in range(80) if refusals.find(book, there, stuck, NOW + look / 2)]
        require(ends[:1] == ([30.0] if is_late else []), f"on a silent node: after {ends[:1]} s")
    refusals = slurm.refusals.Refusals()
    for at in (0.0, 10.0, 500.0):
        require(not refusals.find(book, nodes, {"1": job("1")}, NOW + at), "Slurm was away")
    refusals = slurm.refusals.Refusals()
    for look in range(11):
        at = NOW + look / 2  # its user sets a later time again and again
        later = refusals.find(book, nodes, {"1": waits("1", "m1", "BeginTime", eligible=at + 4)}, at)
        require(bool(later) == (look == 10), f"a job that begins later at each look: {later} at look {look}")


def tried() -> None:
    """Of jobs of a kind that was refused, firm has one to start, and one more for each that starts."""
    nodes, rows = by_name([node("m1"), node("m2")]), {str(number): job(str(number)) for number in range(1, 6)}
    rows |= {"9": job("9", kind=("other",)), "8": running("8", "m2")}
    refusals, book = slurm.refusals.Refusals(), book_of("m1 m2", "1:m1")
    looks: list[tuple[list[reading.SlurmJob], dict[Any, int]]] = [
        ([], {}),
        ([waits("1", "m1", "BadConstraints", hold=HELD)], {JOB.kind: 1}),
        ([waits("1", "m1", "None")], {JOB.kind: 1}),
        ([running("1", "m1"), running("2", "m1")], {JOB.kind: 3}),
        (
            [running("1", "m1"), running("2", "m1"), running("9", "m2", kind=("other",))],
            {JOB.kind: 3},
        ),
        ([waits("1", "m1", "Licenses"), running("2", "m1")], {JOB.kind: 1}),
        ([running("1", "m1"), running("2", "m1")], {JOB.kind: 2}),
        ([waits("1", "m1"), running("2", "m1")], {JOB.kind: 2}),
        ([waits("1", "m1"), running("2", "m1")], {JOB.kind: 1}),
        ([running(str(number), "m1") for number in range(1, 6)], {}),
    ]
    for changes, wanted in looks:
        refusals.find(book, nodes, rows | by_name(changes), NOW)
        require(refusals.tries(NOW) == wanted, f"{changes}: {refusals.tries(NOW)}")
    for tasks, count, lines in (
        ("", 2, ["task light 1", "task light 2", "task light 9"]),
        ("3:-", 2, ["task light 1", "task light 9"]),
        ("8:m2 3:m1 4:m1", 2, ["task light 9"]),
        ("9:- 1:- 2:- 3:m1", 2, ["done 2"]),
        ("1:- 2:m1 3:m1", 1, ["done 1", "task light 9"]),
    ):
        seen = Observed(book_of("m1 m2", tasks), frozenset(), nodes, rows, NOW, tries={JOB.kind: count})
        found = [line for line in firm_lines.news(seen, partition()).lines if not line.startswith("job")]
        require(found == lines, f"{count} to start of {tasks}: {found}")


def paused() -> None:
    """Jobs of a kind that was refused end no others but after ever longer pauses, until one of it starts."""
    refusals, nodes, book = slurm.refusals.Refusals(), by_name([node("m1")]), book_of("m1", "1:m1")
    other = running("8", "m1", kind=(*JOB.kind[:2], "seat", "user", "other"))
    bad = waits("1", "m1", "BadConstraints", hold=HELD)
    for seconds, rows, counts in (
        (0, [bad, other], {0: 0, 4: 0, 5: 1}),
        (1, [bad, other], {4: 0, 5: 1}),
        (5, [bad, other], {5: 0, 14: 0, 15: 1}),
        (15, [bad, other], {15: 0, 34: 0, 35: 1}),
        (16, [job("1"), other], {16: 0, 34: 0, 35: 1}),
        (17, [job("1")], {17: 1}),  # one of the same user has ended
        (18, [bad], {18: 0, 57: 0, 58: 1}),
        (19, [job("1"), running("2", "m1")], {19: 2}),
        (20, [bad, running("2", "m1")], {20: 0, 25: 1}),
    ):
        refusals.find(book, nodes, by_name(rows), NOW + seconds)
        found = {after: refusals.tries(NOW + after, {JOB.kind})[JOB.kind] for after in counts}
        require(found == counts, f"after {seconds} s: {found} instead of {counts}")
        alone = [refusals.tries(NOW + seconds), refusals.tries(NOW + seconds, {JOB.kind}, 9)]
        require(all(tries[JOB.kind] >= 1 for tries in alone), f"after {seconds} s, where it preempts none: {alone}")


def first() -> None:
    """Beyond the free slots one job of a kind preempts another, and three once one of it has started meanwhile."""
    kind = ("heavy", *JOB.kind[1:])
    rows = [job(f"7-{index}", account="heavy", kind=kind) for index in range(1, 4)] + [job("9")]
    refusals, nodes, full = slurm.refusals.Refusals(), by_name([node("m1")]), "1:m1 2:m1 3:m1 4:m1"
    started, every = running("7-4", "m1", account="heavy", kind=kind), ["7-1", "7-2", "7-3", "9"]
    earlier = started._replace(name="6")
    for what, tasks, other, wanted in (
        ("one runs at the first look", full, earlier, ["7-1", "9"]),
        ("it goes on", full, earlier, ["7-1", "9"]),
        ("a free slot", "1:m1 2:m1 3:m1", None, ["7-1", "7-2", "9"]),
        ("no free slot", full, None, ["7-1", "9"]),
        ("one has started", full, started, every),
        ("it has ended", full, None, every),
    ):
        book, found = book_of("m1", tasks), by_name([*rows, *([other] if other else [])])
        refusals.find(book, nodes, found, NOW)
        kinds = firm_lines.preempting(book, found.values(), partition())
        tries = refusals.tries(NOW, kinds, book.slots - len(book.tasks))
        lines = firm_lines.news(Observed(book, frozenset(), nodes, found, NOW, tries=tries), partition()).lines
        told = [line.split()[2] for line in lines if line.startswith("task")]
        require(told == wanted, f"{what}: {told} instead of {wanted}")


def blamed() -> None:
    """If jobs are refused together, Slurm has tried only the first of an array on its node: half as many of its kind
    may try."""
    nodes, book = by_name([node("m1"), node("m2")]), book_of("m1 m2", "1:m1 2:m1 3:m2")
    refusals = slurm.refusals.Refusals()
    rows = by_name([waits(str(number), f"m{1 + number // 3}", kind=(str(number),)) for number in (1, 2, 3)])
    for wanted in ({}, {("1",): 1, ("3",): 1}, {("1",): 1, ("3",): 1}):
        refusals.find(book, nodes, rows, NOW)
        require(refusals.tries(NOW) == wanted, f"{refusals.tries(NOW)} instead of {wanted}")
    refusals, book = slurm.refusals.Refusals(), book_of("m1 m2", "1:m1 5-2:m1 5-3:m2")
    rows = by_name([waits("1", "m1", kind=("1",)), waits("5-2", "m1"), waits("5-3", "m2")])
    for wanted in ({}, {("1",): 1}, {("1",): 1}):
        refusals.find(book, nodes, rows, NOW)
        require(
            refusals.tries(NOW) == wanted,
            f"an array behind another job on one of its nodes: {refusals.tries(NOW)}",
        )
    refusals, book, given = slurm.refusals.Refusals(), book_of("m1", "1:m1 2:m1"), []
    rows = by_name([waits("1", "m1"), waits("2", "m1")])
    for _ in range(5):
        pauses = refusals.find(book, by_name([node("m1")]), rows, NOW)
        given.append((pauses.get("1"), pauses.get("2")))
    require(given == [(None, None), (5, None), (10, 5), (20, 5), (40, 5)], f"behind another job, pauses: {given}")
    refusals, book = slurm.refusals.Refusals(), book_of("m1 m2", "1:m1 2:m1 3:m1 4:m2 5:m2 6:m2")
    rows = by_name([waits(str(number), f"m{1 + number // 4}") for number in range(1, 7)])
    counts = []
    for _ in range(4):
        refusals.find(book, nodes, rows, NOW)
        counts.append(refusals.tries(NOW).get(JOB.kind))
    require(counts == [None, 3, 1, 1], f"of six jobs of a kind that are refused: {counts}")


def merged() -> None:
    """Once four kinds of a user's jobs were refused, firm has one job of theirs to start, whatever else these ask
    for."""
    numbers = range(1, 9)
    nodes, book = by_name([node("m1")]), book_of("m1", "1:m1 2:m1 3:m1 4:m1 5:- 6:- 7:-")
    kinds = {str(number): (*JOB.kind[:3], "other" if number == 8 else "user", str(number)) for number in numbers}
    refusals = slurm.refusals.Refusals()

    def look(count: int) -> dict[str, reading.SlurmJob]:
        rows = [waits(name, "m1", "BadConstraints", hold=HELD, kind=kinds[name]) for name in "1234"[:count]]
        rows += [job(name, kind=kinds[name]) for name in "12345678"[count:]]
        found = refusals.merged(by_name(rows))
        refusals.find(book, nodes, found, NOW)
        return refusals.merged(by_name(rows))

    require([look(3)[name].kind for name in kinds] == list(kinds.values()), "three kinds are merged")
    found = look(4)
    require([found[name].kind for name in kinds] == [*[("user",)] * 7, kinds["8"]], "four kinds are not merged")
    require(refusals.tries(NOW)[("user",)] == 1, f"{refusals.tries(NOW)}")
    seen = Observed(book, frozenset(), nodes, found, NOW, tries=refusals.tries(NOW))
    lines = firm_lines.news(seen, partition()).lines
    require(lines == ["done 5", "done 6", "done 7", "task light 8"], f"four to start of one that may: {lines}")
    refusals.find(book_of("m1"), nodes, refusals.merged({}), NOW)
    rows = by_name([job("7", kind=kinds["7"])])
    require(refusals.merged(rows) == rows and not refusals.tries(NOW), "without pending jobs nothing is remembered")


def licences() -> None:
    """Firm gets at most as many jobs as licences are free."""
    rows = [job(str(number), licences=(("a", 2),) if number > 1 else ()) for number in range(1, 6)]
    for free, tasks, wanted in ((1, "", "1"), (4, "", "123"), (4, "2:-", "13"), (4, "2:m1", "13")):
        book = book_of("m1", tasks)
        seen = Observed(book, frozenset(), by_name([node("m1")]), by_name(rows), NOW, {"a": free})
        found = [line for line in firm_lines.news(seen, partition()).lines if line.startswith("task")]
        require(found == [f"task light {name}" for name in wanted], f"{free} free, {tasks}: {found}")
    heavy: dict[str, list[str]] = {"2:-": ["job heavy 1000", "task heavy 3"], "2:m1": []}
    for task, told in heavy.items():
        both = by_name([*rows[:2], job("3", account="heavy", licences=(("a", 2),))])
        seen = Observed(book_of("m1", f"1:- {task}"), frozenset(), {}, both, NOW, {"a": 2})
        found = firm_lines.news(seen, partition()).lines
        require(found == ["drain m1", *told], f"a heavy job behind a light one, {task}, with licences for one: {found}")
    gone = by_name([running("2", "m1")._replace(licences=(("a", 2),)), *rows[2:]])
    seen = Observed(book_of("m1", "2:m1"), frozenset(), by_name([node("m1")]), gone, NOW, {"a": 2})
    require(firm_lines.news(seen, partition()).lines == ["task light 3"], "what runs has its licences already")


def strays() -> None:
    book = book_of("m1 m2", "1:m1 2:m2 3:-")
    found = firm_lines.strays(book, {"1": "m1", "2": "m1", "3": "m1", "4": "m1"})
    require(found == ["done 2", "done 3"], found)


def done() -> None:
    for name, tasks, rows, wanted in DEEDS:
        found = deeds(book_of("m1 m2", tasks), rows)
        require(found == wanted, f"{name}: {found} instead of {wanted}")
    found = deeds(book_of("m1 m2"), [pinned("1", "m1")], put_off={"1": 20.0})
    require(found == [["uhold 1"], ["update JobId=1 StartTime=now+20"]], f"put off: {found}")
    for seconds in (9, 11):
        found = deeds(book_of("m1", "1:m1"), [job(limit=10.0)], node("m1", reserved=NOW + seconds))
        wanted = [] if seconds < 10 else [[PIN], ["release 1"]]
        require(found == wanted, f"a job of 10 s on a node that is reserved in {seconds} s: {found}")
    for free, nodes in (("no CPU", node("m1", allocated=4)), ("one CPU", node("m1", allocated=3))):
        found = deeds(book_of("m1", "1:m1 2:m1"), [job("1"), job("2")], nodes)
        require(found == ([] if free == "no CPU" else [[PIN], ["release 1"]]), f"{free} is free: {found}")
    found = deeds(book_of("m1", "1:- 2:-"), [running("1", "m1", reason="JobHeldAdmin"), running("2", "m1", priority=7)])
    require(found == [["requeuehold Incomplete 2", "requeue Incomplete 1"]], f"a job that root holds, running: {found}")
    found = deeds(book_of("m1", "1:m1"), [job(may_requeue=False)])
    require(found == [[f"{PIN} Requeue=1"], ["release 1"]], f"a job with --no-requeue: {found}")
    marked = [running("1", "m1", is_roots=True), job("2-3", hold=OTHER, reason="JobHeldAdmin")]
    found = deeds(book_of("m1", "1:-"), marked, unmarked=frozenset({"2-3"}))
    require(found == [["requeue Incomplete 1", "update JobId=2_3 Comment=firm:admin"]], f"root's holds: {found}")
    many = [job(f"5-{index}", hold=RELEASED) for index in range(250)]
    (holds,) = deeds(book_of(), many)
    require([line.count(",") + 1 for line in holds] == [100, 100, 50], "elements of an array in a command")
    names = [f"m{number}" for number in range(1, 101)]
    placed = {str(number): names[number // 4] for number in range(400)}
    book = book_of(" ".join(names), " ".join(f"{task}:{name}" for task, name in placed.items()))
    pins, releases = deeds(book, [job(task) for task in placed], *map(node, names))
    require(len(pins) == len(releases) == 300, f"at a look {len(pins)} pins, {len(releases)} releases")


def deeds(book: Book, rows: list[reading.SlurmJob], *nodes: reading.Node, **fields: Any) -> list[list[str]]:
    there = by_name(list(nodes) or [node("m1"), node("m2")])
    seen = Observed(book, frozenset(book.tasks), there, by_name(rows), NOW, **fields)
    return slurm.actions.deeds(seen, partition()).phases()


def settled() -> None:
    """The state after the orders needs no further order, and no further line for firm."""
    for name, tasks, rows, _ in DEEDS:
        book = book_of("m1 m2", tasks)
        after = [follow(row, book) for row in rows]
        again = deeds(book, after)
        require(again == [], f"{name}: then {again}")


def follow(row: reading.SlurmJob, book: Book) -> reading.SlurmJob:
    """Return the job once Slurm has obeyed."""
    task = book.tasks.get(row.name)
    machine = task.machine if task else None
    if row.state is LEAVING or row.hold is OTHER or task is None and not row.is_pending:
        return row
    return running(row.name, machine) if machine else job(row.name)


def differences() -> None:
    for tasks, rows, wanted in DIFFERENCES:
        found = slurm.differences.standing(book_of("m1 m2", tasks), by_name(rows), NOW).differences
        require([tuple(one) for one in found] == wanted, f"{tasks}: {found}")
    rows = [running("1", "m1"), job("2"), job("3", hold=OTHER), job("4", has_needs=True), job("5", eligible=NOW + 9)]
    standing = slurm.differences.standing(
        book_of("m1", "6:m1 7:-"), by_name([*rows, running("6", "m1"), job("7")]), NOW
    )
    counts = standing._replace(differences=[])
    require(counts == slurm.differences.Standing(1, 1, 1, 1, 2, 1, []), counts)


CHECKS: dict[str, Check] = {
    "states of nodes": uses,
    "jobs": jobs,
    "nodes": nodes,
    "reservations": reserved,
    "what is said": said,
    "commands of a look": awaited,
    "what was not taken over": strays,
    "what Slurm refuses": refused,
    "what starts late": late,
    "what starts elsewhere": elsewhere,
    "a few that try": tried,
    "what preempts rarely": paused,
    "what preempts first": first,
    "which of several is to blame": blamed,
    "a user of many kinds": merged,
    "licences": licences,
    "what is done": done,
    "what is done ends": settled,
    "what differs": differences,
    "faulty tables": tables,
    "what check tells": checked,
    "the sizes that the hook has": sized,
    "what the hook bounds": bounded,
    "jobs that were launched late": launched,
    "jobs whose dependencies failed": failed,
    "jobs whose launch failed": relaunched,
}


def main() -> int:
    argparse.ArgumentParser(description=(__doc__ or "").splitlines()[0]).parse_args()
    return run_suites(Suite(CHECKS))


if __name__ == "__main__":
    run_script(main)
