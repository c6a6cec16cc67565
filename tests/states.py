"""Cut services off between two lines, and require that they go on from their states as if uninterrupted.

usage: tools/run tests/states.py [--quick] [--program FILE] [--state FILE] [--explain FILE] [WORD..]
It also plays the services of state_services.py to their states, and checks the faults of state_texts.py. With words it
runs only the checks whose names have one of them. Each check prints a line; the exit status is 1 if one failed. Without
--quick there are 10,000 random streams, in some fifteen minutes. It needs a C compiler for refuse.c.
"""

from __future__ import annotations

import argparse
import os
import re
import subprocess
import tempfile
from collections import Counter
from functools import partial
from itertools import product
from pathlib import Path
from random import Random
from typing import Iterator, NamedTuple, Sequence

import faults
import worked
from harness import kinds, program, service
from harness.checks import Check, Missed, Suite, require, run_script, run_suites
from harness.small_streams import random_stream, with_noise
from state_services import SERVED
from state_texts import EXTENDED_HEADING, HEADING, STATE, TEXTS, StateFault
from statuses import HEADING_OF_EIGHT
from statuses import HEADING as HEADING_OF_SIX

FIRM_STATE = program.built("firm_state")
WORKERS = ("1", "2", "8")
MAX_PLACES = 64
MANY_WORDS = 6_000
LONG_PATH = ("x" * 200 + "/") * 18
ROSTER = b"tenant,nodes,arcs,life,spread,churn\nt01,2,0,1,0,0\n"
CUT_AT_EACH_LINE = ("evicted_as_others_come_and_go", "comes_back_between_rounds")  # by quick runs, of tests/services
FAULT = re.compile(rb"firm_state: state fault (\d+) ([a-z-]+) in line (\d+)\n")
NAMES = {
    1: "version",
    2: "row",
    3: "name",
    4: "number",
    5: "repeated-name",
    6: "no-such-job",
    7: "no-such-machine",
    8: "no-room",
    9: "arena-nodes",
    10: "arena-arcs",
    11: "commands",
    12: "places",
    13: "rows",
    15: "rounds",
    16: "crowded",
}


class Options(NamedTuple):
    quick: bool
    firm: str
    state: str
    explain: str


class Cut(NamedTuple):
    """A roster, the lines before a cut, and those after it."""

    roster: bytes
    lines: bytes
    more: bytes


class Folder:
    """A folder for a check's files, for as long as the `with` block lasts."""

    def __init__(self) -> None:
        self.folder = tempfile.TemporaryDirectory(prefix="firm-")

    def __enter__(self) -> Folder:
        return self

    def __exit__(self, *_: object) -> None:
        self.folder.cleanup()

    def file(self, name: str, content: bytes) -> str:
        path = Path(self.folder.name) / name
        path.parent.mkdir(parents=True, exist_ok=True)
        path.write_bytes(content)
        return str(path)


def output_of(words: Sequence[str], text: bytes) -> bytes:
    """Return the output of a run that must succeed."""
    done = program.run_words(words, text)
    require(done.status == 0 and not done.faults, f"{list(words)}: status {done.status}, {done.faults!r}")
    return done.output


def cuts_of(roster: bytes, text: bytes) -> list[Cut]:
    """Return the cuts of a stream before each line, the first among them, and after the last if it has an end."""
    ends = [0] + [place + 1 for place, byte in enumerate(text) if byte == ord("\n")]
    return [Cut(roster, text[:place], text[place:]) for place in ends]


def state_after(options: Options, words: list[str], lines: bytes) -> bytes:
    return output_of([options.state, *words], lines)


def goes_on(options: Options, cut: Cut, workers: Sequence[str]) -> bytes:
    """Require that the replies, and reasons, from the state are the rest of the whole's; return the state."""
    with Folder() as folder:
        roster = ["--roster", folder.file("roster.csv", cut.roster)]
        whole = output_of([options.firm, *roster], cut.lines + cut.more)
        first = output_of([options.firm, *roster], cut.lines)
        written = state_after(options, roster, cut.lines)
        state = ["--state", folder.file("state", written)]
        require(state_after(options, state, b"") == written, "a state is read and written as another")
        for count in workers:
            rest = output_of([options.firm, *state, "--workers", count], cut.more)
            require(first + rest == whole, f"{count} workers: other replies from the state")
        rest = output_of([*program.measuring(options.explain), *state], cut.more)
        require(first + rest == whole, "one thread: other replies from the state")
        last = state_after(options, state, cut.more)
        require(last == state_after(options, roster, cut.lines + cut.more), "another state in the end")
        before = output_of([options.explain, *roster], cut.lines)
        behind = output_of([options.explain, *state], cut.more)
        require(before + behind == output_of([options.explain, *roster], cut.lines + cut.more), "other reasons")
        require(first + worked.without_reasons(behind) == whole, "other replies beside reasons")
        require(behind.count(b"\n# least: ") == behind.count(b" ok round "), "a round without reasons")
    return written


def random_cut(seed: int) -> Cut:
    draw = Random(seed)
    roster, text = random_stream(draw)
    return draw.choice(cuts_of(roster, with_noise(draw, text) if seed % 5 == 0 else text))


def random_streams(options: Options, count: int) -> None:
    """Random streams of tenants that come and go, with bad lines, each cut at a random line; states are the model's."""
    for seed in range(count):
        cut = random_cut(seed)
        model = service.opened(cut.roster)
        for line in service.lines_of(cut.lines):
            service.answer_line(model, line)
        try:
            require(goes_on(options, cut, WORKERS) == service.state_of(model), "another state than the model's")
        except Missed as missed:
            raise Missed(f"seed {seed}: {missed}") from None


def lines_of_kind(kind: str, tasks: int, machines: int) -> tuple[bytes, list[bytes]]:
    """Return the roster of a stream of this kind, and the lines up to each round, with it."""
    stream = kinds.make(kind, tasks, machines)
    texts = ["".join(line + "\n" for line in [*lines, f"{kinds.TENANT} round"]) for lines in stream.parts]
    return stream.roster.encode(), [text.encode() for text in texts]


def kind_goes_on(options: Options, kind: str) -> None:
    """A stream of a kind with hundreds of tasks, cut before and after each round."""
    roster, parts = lines_of_kind(kind, *((60, 20) if options.quick else (600, 200)))
    for count in range(len(parts) + 1):
        cut = Cut(roster, b"".join(parts[:count]), b"".join(parts[count:]))
        goes_on(options, cut, WORKERS[1:2] if options.quick else WORKERS)


def cut_at_each_line(options: Options, names: Sequence[str]) -> None:
    """Services of tests/services that are cut before each of their lines; the last line has no end."""
    for name in names:
        played = worked.read_service(worked.SERVICES / f"{name}.txt")
        for cut in cuts_of(played.roster, played.text().removesuffix(b"\n")):
            try:
                goes_on(options, cut, WORKERS)
            except Missed as missed:
                raise Missed(f"{name}, before {cut.more.splitlines()[0]!r}: {missed}") from None


def replies_of(output: bytes, name: bytes) -> bytes:
    return b"".join(line for line in output.splitlines(keepends=True) if line.startswith(name + b" "))


def tenants_in(state: bytes) -> list[bytes]:
    return [line.split()[1] for line in state.splitlines() if line.startswith(b"tenant ")]


def without_operator(lines: bytes) -> bytes:
    return b"".join(line for line in lines.splitlines(keepends=True) if line.split()[:1] != [b"+"])


class Parts(NamedTuple):
    """The outputs of services that go on from a whole state, from a part of it, and from all parts joined."""

    whole: bytes
    part: bytes
    joined: bytes


def parts_are_whole(options: Options, count: int) -> None:
    """A tenant of a cut state, and of a joined one, replies as before; joined, the parts have all tenants again."""
    for seed in range(count):
        cut, draw = random_cut(seed), Random(seed)
        with Folder() as folder:
            whole = state_after(options, ["--roster", folder.file("roster.csv", cut.roster)], cut.lines)
            names = tenants_in(whole)
            kept = draw.sample(names, draw.randint(1, len(names))) if names else []
            if kept:
                path = folder.file("whole", whole)
                outputs = outputs_of_parts(
                    options, path, [kept, [name for name in names if name not in kept]], cut.more
                )
                replies_are_alike(outputs, names, kept, f"seed {seed}")


def outputs_of_parts(options: Options, path: str, groups: list[list[bytes]], more: bytes) -> Parts:
    """Return the outputs for the tenants' lines, with the tenants in these groups."""
    lines = without_operator(more)
    with Folder() as folder:
        files = [
            folder.file(f"part{len(names)}-{names[0].decode()}", part_of(options, path, names))
            for names in groups
            if names
        ]
        merged = ["--merge", *files[1:]] if files[1:] else []
        joined = state_after(options, ["--state", files[0], *merged], b"")
        require(sorted(tenants_in(joined)) == sorted(sum(groups, [])), "other tenants in the joined state")
        paths = [path, files[0], folder.file("joined", joined)]
        return Parts(*(output_of([options.firm, "--state", file], lines) for file in paths))


def replies_are_alike(outputs: Parts, names: list[bytes], kept: list[bytes], what: str) -> None:
    for name in names:
        require(replies_of(outputs.joined, name) == replies_of(outputs.whole, name), f"{what}: {name!r} joined")
    for name in kept:
        require(replies_of(outputs.part, name) == replies_of(outputs.whole, name), f"{what}: {name!r} alone")


def part_of(options: Options, path: str, names: list[bytes]) -> bytes:
    """Return the state of these tenants alone; require that it has no others."""
    part = state_after(options, ["--state", path, "--tenant", *(name.decode() for name in names)], b"")
    require(sorted(tenants_in(part)) == sorted(set(names)), f"other tenants than {names}")
    return part


def all_places(options: Options) -> None:
    """A state for each place, beside many that are empty, is joined, and the whole cut again, by words of any number
    and paths of any length."""
    names = [b"t%02d" % place for place in range(MAX_PLACES)]
    with Folder() as folder:
        files = [folder.file(LONG_PATH + name.decode(), with_rows(small_tenant(name))) for name in names]
        empty = [folder.file("empty", EMPTY)] * MANY_WORDS
        joined = state_after(options, ["--state", files[0], "--merge", *empty, *files[1:]], b"")
        require(joined == with_rows([row for name in names for row in small_tenant(name)]), "another joined state")
        path = folder.file(LONG_PATH + "joined", joined)
        part_of(options, path, [*names[2:]] * (MANY_WORDS // MAX_PLACES) + names[1:2])
        for words in (["--state", path], ["--roster", folder.file(LONG_PATH + "roster.csv", ROSTER)]):
            require(output_of([options.firm, *words], b"t01 show\n").startswith(b"t01 1 ok "), f"{words[0]}: no reply")


WORKED = b"""\
firm state 1
place admissions 1
tenant alpha nodes 9 arcs 24 life 1000000 spread 1 churn 2 remote 0 commands 6
costs 0 13
machine m1 2
job web 10
task web a at m1 prefers m1
task web c waits 1
place admissions 2
rows 8
"""


def changed(old: bytes, new: bytes) -> bytes:
    require(WORKED.count(old) == 1, old)
    return WORKED.replace(old, new)


def with_rows(rows: Sequence[bytes], heading: bytes = HEADING) -> bytes:
    """Return the text of a state of these rows."""
    return heading + b"".join(line + b"\n" for line in [*rows, b"rows %d" % len(rows)])


ROWS = WORKED.splitlines()[1:-1]
EMPTY = with_rows([b"place admissions 1"])

# After more than eight rounds, the last eight left their costs; the commands beside the rows tell how many there may
# be.
LONG_WAIT = (
    changed(b"costs 0 13", b"costs 0 1 2 3 4 5 6 7")
    .replace(b"commands 6", b"commands 13")
    .replace(b"waits 1", b"waits 9")
)

# Two tasks of weight 10 on one machine, after two rounds: the second slot costs up to the weight and churn, which is 2.
CROWD = changed(b"waits 1", b"at m1").replace(b"spread 1", b"spread 12")

# A task of weight 1 that a later one crowds, where the second slot costs 4.
LIGHT = (
    changed(b"web a at m1 prefers m1", b"low a at m1")
    .replace(b"web c waits 1", b"web c at m1")
    .replace(b"spread 1", b"spread 4")
    .replace(b"commands 6", b"commands 7")
    .replace(b"job web 10\n", b"job web 10\njob low 1\n")
    .replace(b"rows 8", b"rows 9")
)

# A task that one round of two left waiting, beside one of weight 10 that ran: churn, which is 2, is worth two rounds.
HEAVY = (
    changed(b"web c waits 1", b"high c waits 1")
    .replace(b"commands 6", b"commands 7")
    .replace(b"job web 10\n", b"job web 10\njob high 12\n")
    .replace(b"rows 8", b"rows 9")
)

# It may have preferred a machine that is gone: then this one cost it 5 more.
FAR = HEAVY.replace(b"remote 0", b"remote 5").replace(b"high 12", b"high 17")

FAULTY = [
    (b"", StateFault(1, 1)),
    (b"\n", StateFault(1, 1)),
    (b"tenant,nodes,arcs,life,spread,churn\na,2,0,1,0,0\n", StateFault(1, 1)),
    (b"firm state 1", StateFault(13, 2)),
    (b"firm state 1\n", StateFault(13, 2)),
    (b"firm state 1\nrows 0", StateFault(13, 2)),
    (b"firm state 1\nrows 1\n", StateFault(13, 2)),
    (WORKED + WORKED, StateFault(13, 11)),
    (changed(b"rows 8", b"rows 08"), StateFault(2, 10)),
    (changed(b"job web 10", b"job  web 10"), StateFault(3, 6)),
    (changed(b"job web 10", b"Job web 10"), StateFault(2, 6)),
    (with_rows([*ROWS[:3], ROWS[4], ROWS[3], *ROWS[5:]]), StateFault(2, 6)),
    (changed(b"admissions 2", b"admissions 32769"), StateFault(4, 9)),
    (with_rows([*ROWS[:7], b"place admissions 1", *ROWS[1:3]]), StateFault(5, 10)),
    (changed(b"job web 10", b"job web 10\njob web 10"), StateFault(5, 7)),
    (changed(b"web c", b"web a"), StateFault(5, 8)),
    (changed(b"task web c", b"task batch c"), StateFault(6, 8)),
    (changed(b"at m1 prefers", b"at m2 prefers"), StateFault(7, 7)),
    (changed(b"prefers m1", b"prefers m2"), StateFault(7, 7)),
    (with_rows([*ROWS[:6], b"task web b at m1", b"task web d at m1"]), StateFault(8, 9)),
    (changed(b"nodes 9", b"nodes 5"), StateFault(9, 8)),
    (changed(b"arcs 24", b"arcs 4"), StateFault(10, 7)),
    (changed(b"commands 6", b"commands 1000001"), StateFault(11, 3)),
    (changed(b"commands 6", b"commands 5"), StateFault(11, 8)),
    (LONG_WAIT.replace(b"waits 9", b"waits 10"), StateFault(11, 8)),
    (changed(b"costs 0 13", b"costs"), StateFault(15, 7)),
    (changed(b"waits 1", b"waits 3"), StateFault(15, 8)),
    (CROWD.replace(b"spread 12", b"spread 13"), StateFault(16, 8)),
    (CROWD.replace(b"costs 0 13", b"costs 13"), StateFault(16, 8)),
    (LIGHT, StateFault(16, 10)),
    (HEAVY.replace(b"high 12", b"high 13"), StateFault(16, 10)),
    (FAR.replace(b"high 17", b"high 18"), StateFault(16, 10)),
    (FAR.replace(b"waits 1", b"waits 1 prefers m1"), StateFault(16, 10)),
    (with_rows([*ROWS[:7], b"place admissions 0"]), StateFault(4, 9)),
    (changed(b"admissions 1", b"admissions 0"), StateFault(4, 2)),
]


def fault_of(options: Options, text: bytes, by_firm_state_alone: bool = False) -> StateFault | None:
    """Return the programs' fault of a text, or None for a state, which is written as it stands."""
    with Folder() as folder:
        path = folder.file("state", text)
        told = program.run_words([options.state, "--state", path], b"")
        for name in () if by_firm_state_alone else (options.firm, options.explain):
            served = program.run_words([name, "--state", path], b"")
            require(served.status == told.status and not served.output, f"{name}: {served}")
            behind = served.faults.partition(b": ")[2] == told.faults.partition(b": ")[2]
            require(behind, f"{name}: {served.faults!r}, and {told.faults!r}")
    if told.status == 0:
        require(told.output == text and not told.faults, "a state is read and written as another")
        return None
    found = FAULT.fullmatch(told.faults)
    require(told.status == 3 and not told.output and found, told)
    assert found is not None
    require(NAMES[int(found[1])] == found[2].decode(), told)
    return StateFault(int(found[1]), int(found[3]))


def hostile_states(options: Options) -> None:
    """Each fault has its number, its name and its line, and nothing is served."""
    states = (WORKED, LONG_WAIT, CROWD, LIGHT.replace(b"spread 4", b"spread 3"), HEAVY, FAR)
    texts = [*TEXTS, *FAULTY, *((state, None) for state in states)]
    for text, fault in texts:
        found = fault_of(options, text)
        require(found == fault, f"{text!r}: {found}, and not {fault}")
        if fault is None:
            is_cut_to_all(options, text)
    require({fault.number for _, fault in texts if fault} == set(NAMES), "a fault that no text has")


def is_cut_to_all(options: Options, state: bytes) -> None:
    """A state that is cut to all of its tenants stays as it is."""
    names = tenants_in(state)
    if names:
        with Folder() as folder:
            require(part_of(options, folder.file("state", state), names) == state, f"{state!r} is cut")


def served_states(options: Options) -> None:
    """Services write the replies of the table, and leave its states, which are read and written as they stand."""
    for name, served in SERVED.items():
        with program.opening(served.opening) as words:
            written, state = output_of([options.firm, *words], served.lines), state_after(options, words, served.lines)
        require(written == served.replies, f"{name}: {written[-400:]!r}")
        require(state == served.state, f"{name}: {state!r}")
        require(fault_of(options, state) is None, f"{name}: it leaves no state")


class Given(NamedTuple):
    """The number of times that a place was given, and whether a tenant stays there."""

    times: int
    stays: bool


def rows_of_place(number: int, place: Given) -> list[bytes]:
    tenant = small_tenant(b"t%d" % number)[1:] if place.stays else []
    return [b"place admissions %d" % place.times, *tenant]


def state_of_places(options: Options, places: Sequence[Given]) -> bytes:
    """Return the state of a service that has given its places this often: a tenant is the first to get its place."""
    rows = [b"t%d,2,0,1,0,0" % number for number in range(len(places))]
    lines = [
        line
        for row, place in zip(rows, places)
        for line in [b"+ retire " + row.partition(b",")[0], b"+ admit " + row] * (place.times - 1)
    ] + [b"+ retire t%d" % number for number, place in enumerate(places) if not place.stays]
    with Folder() as folder:
        roster = folder.file("roster.csv", b"\n".join([b"tenant,nodes,arcs,life,spread,churn", *rows, b""]))
        return state_after(options, ["--roster", roster], b"".join(line + b"\n" for line in lines))


def reached_places(options: Options, most: int) -> None:
    """Places that were each given once or more are those of some service; one that was never given is a fault."""
    kinds_of_place = [Given(count, stays) for count in range(3) for stays in (False, True)]
    for places in (places for count in range(1, most + 1) for places in product(kinds_of_place, repeat=count)):
        rows = [rows_of_place(number, place) for number, place in enumerate(places)]
        text, never = with_rows(sum(rows, [])), [at for at, place in enumerate(places) if not place.times]
        if never:
            wanted = StateFault(4, 2 + len(sum(rows[: never[0]], [])))
            require(fault_of(options, text) == wanted, f"{places}: not {wanted}")
        else:
            require(state_of_places(options, places) == text, f"{places} are no service's")
            require(fault_of(options, text) is None, f"{places} are no state")


def cut_states(options: Options, count: int) -> None:
    """A state cut at any byte after its version lacks its last row, in the line after the whole ones."""
    told_alike = Random(1).sample(range(len(STATE)), count) if options.quick else range(len(STATE))
    for place in range(len(STATE)):
        front = STATE[:place]
        wanted = StateFault(13, 1 + max(1, front.count(b"\n"))) if b"firm state 1" in front else StateFault(1, 1)
        found = fault_of(options, front, by_firm_state_alone=place not in told_alike)
        require(found == wanted, f"{place}: {found}, and not {wanted}")
    for place in range(len(HEADING), len(EXTENDED_HEADING) + 1):
        front = EXTENDED_HEADING[:place]
        wanted = StateFault(13, 2) if front.rstrip() == EXTENDED_HEADING.rstrip() else StateFault(1, 1)
        found = fault_of(options, front)
        require(found == wanted, f"{front!r}: {found}, and not {wanted}")


def changed_states(options: Options, count: int) -> None:
    """States of random streams, with rows doubled, left out or changed, are faults, or states that are written so."""
    seen = [fault_of(options, changed_state(options, seed)) is None for seed in range(count)]
    require(seen.count(False) > count // 2, f"{seen.count(False)} faults of {count}")


def changed_state(options: Options, seed: int) -> bytes:
    """Return a state of a random stream, with a row doubled, left out, changed, or exchanged with another."""
    draw, cut = Random(seed), random_cut(seed)
    with Folder() as folder:
        text = state_after(options, ["--roster", folder.file("roster.csv", cut.roster)], cut.lines)
    lines = text.splitlines(keepends=True)
    place, shape = draw.randrange(len(lines)), draw.randrange(4)
    if shape == 0:
        lines.insert(place, lines[place])
    elif shape == 1:
        del lines[place]
    elif shape == 2:
        lines[place] = with_noise(draw, lines[place])
    else:
        lines[place], lines[-1 - place] = lines[-1 - place], lines[place]
    return b"".join(lines)


def plain_and_extended(options: Options) -> None:
    """Joined states are extended if any of them is, and so is each part; lines are judged before the join."""
    one, other, both = small_tenant(b"a"), small_tenant(b"b"), [*small_tenant(b"a"), *small_tenant(b"b")]
    for first, second in product((HEADING, EXTENDED_HEADING), repeat=2):
        heading = EXTENDED_HEADING if EXTENDED_HEADING in (first, second) else HEADING
        with Folder() as folder:
            merged = ["--merge", folder.file("other", with_rows(other, second))]
            opened = ["--state", folder.file("one", with_rows(one, first)), *merged]
            joined = state_after(options, opened, b"")
            require(joined == with_rows(both, heading), joined)
            left = part_of(options, folder.file("joined", joined), [b"a"])
            require(left == with_rows([*one, b"place admissions 1"], heading), left)
            comes = state_after(options, opened, b"+ admit c,2,0,1,0,0,0,3\n")
            require((b"tenant c" in comes) == (first == EXTENDED_HEADING), comes)
            rosters = {EXTENDED_HEADING: HEADING_OF_EIGHT + b"a,2,0,1,0,0,0,1000000\n"}
            roster = rosters.get(first, HEADING_OF_SIX + b"a,2,0,1,0,0\n")
            found = state_after(options, ["--roster", folder.file("roster.csv", roster), *merged], b"")
            require(found == joined, found)


def joins_are_refused(options: Options) -> None:
    """A tenant of both states, want of a place, and a missing name are faults; nothing is written."""
    full = with_rows([row for number in range(MAX_PLACES) for row in small_tenant(b"t%d" % number)])
    cases = [
        (WORKED, ["--merge", "worked"], b"tenant fault 25 tenant-exists of alpha"),
        (full, ["--merge", "worked"], b"tenant fault 27 operator-full of alpha"),
        (WORKED, ["--tenant", "alpha", "beta"], b"tenant fault 26 no-such-tenant of beta"),
        (EMPTY, ["--tenant", "alpha"], b"tenant fault 26 no-such-tenant of alpha"),
        (WORKED, ["--merge", "none"], b"cannot read state"),
        (WORKED, ["--merge", "faulty"], b"state fault 13 rows in line 10"),
        (WORKED, ["--merge", "empty", "worked"], b"tenant fault 25 tenant-exists of alpha"),
        (WORKED, ["--merge", "empty", "faulty"], b"state fault 13 rows in line 10"),
    ]
    texts = {"worked": WORKED, "faulty": WORKED[:-1], "empty": EMPTY}
    for text, words, fault in cases:
        with Folder() as folder:
            files = {name: folder.file(name, content) for name, content in texts.items()}
            told = program.run_words(
                [options.state, "--state", folder.file("state", text), *(files.get(word, word) for word in words)], b""
            )
        require(told == (3, b"", b"firm_state: " + fault + b"\n"), f"{words}: {told}")


def small_tenant(name: bytes) -> list[bytes]:
    limits = b"nodes 2 arcs 0 life 1 spread 0 churn 0 remote 0"
    return [b"place admissions 1", b"tenant %s %s commands 0" % (name, limits), b"costs"]


def statuses(options: Options) -> None:
    """The exit statuses of firm_state, and its messages with them."""
    neither = b"no roster and no state: give --roster FILE or --state FILE"
    both = b"a roster and a state: give --roster FILE or --state FILE, not both"
    with Folder() as folder:
        roster = folder.file("roster.csv", b"tenant,nodes,arcs,life,spread,churn\na,2,0,1,0,0\n")
        state, faulty = folder.file("state", WORKED), folder.file("faulty", b"tenant\n")
        cases: list[tuple[list[str], int, bytes]] = [
            ([], 2, neither),
            (["--roster", roster, "--state", state], 2, both),
            (["--state", state, "--tenant", "A"], 2, b"a tenant's name is not valid"),
            (["--state", os.fsdecode(b"\xff")], 2, b"the command line is not UTF-8"),
            (["--roster", "/nonexistent"], 3, b"cannot read roster"),
            (["--state", "/nonexistent"], 3, b"cannot read state"),
            (["--roster", faulty], 3, b"roster fault 1 header"),
            (["--state", faulty], 3, b"state fault 1 version in line 1"),
        ]
        for words, status, said in cases:
            told = program.run_words([options.state, *words], b"a show\n")
            require(told == (status, b"", b"firm_state: " + said + b"\n"), f"{words}: {told}")
        for words in (
            ["--state", state, "--fly"],
            ["--state"],
            ["--state", state, "more"],
            ["--state", state, "--tenant"],
        ):
            told = program.run_words([options.state, *words], b"")
            require(told.status == 2 and not told.output and told.faults.startswith(b"error: "), f"{words}: {told}")
        texts = {"--help": (b"Writes the state", b"what stands\nin them.\n"), "--version": (b"firm_state ", b"0.1.0\n")}
        for word, (first, last) in texts.items():
            told = program.run_words([options.state, word], b"")
            is_whole = told.output.startswith(first) and told.output.endswith(last)
            require(told.status == 0 and is_whole and not told.faults, f"{word}: {told}")
        devices(options, state)


def devices(options: Options, state: str) -> None:
    """A read that fails, an input without an end, and a write that fails."""
    words = [options.state, "--state", state]
    for path, fault in (("/", b"read"), ("/dev/zero", b"input too long")):
        given = os.open(path, os.O_RDONLY)
        read = subprocess.run(words, stdin=given, capture_output=True)
        os.close(given)
        require((read.returncode, read.stdout, read.stderr) == (4, b"", b"firm_state: " + fault + b"\n"), read)
    with open("/dev/full", "wb") as full:
        failed = subprocess.run(words, stdin=subprocess.DEVNULL, stdout=full, stderr=subprocess.PIPE)
    require((failed.returncode, failed.stderr) == (5, b"firm_state: write\n"), failed)


def refused_memory(options: Options, step: int) -> None:
    """Requests for memory refused in turn: firm_state ends with status 6 and writes nothing, or writes the state."""
    lines = [b"a machine m 2", b"a job j 5", b"a task j x m", b"b job k 2", b"a round", b"a task j y", b"a round"]
    text = b"".join(line + b"\n" for line in lines)
    with Folder() as folder:
        roster = folder.file("roster.csv", b"tenant,nodes,arcs,life,spread,churn\na,60,400,100,3,5\nb,9,9,9,0,0\n")
        joined = ["--roster", roster, "--merge", folder.file("worked", WORKED), "--tenant", "a", "alpha"]
        runs = faults.Runs(faults.Options(options.state, "", "", None, 0), folder.folder.name)
        for words, given in ((joined, text), (["--state", folder.file("state", SERVED["two rounds"].state)], b"")):
            whole = state_after(options, words, given)
            requests, ends = runs.run_words(words, given)[1].memory, Counter[int]()
            for number in range(1, requests + 1, step):
                done, _ = runs.run_words(words, given, refuse_memory=number)
                wanted = (6, b"", b"firm_state: memory\n") if done.status else (0, whole, b"")
                require(done == wanted, f"{words[0]}, request {number}: {done}")
                ends[done.status] += 1
            print(f"{words[0]}: {requests} requests: {dict(ends)}", flush=True)
            require(ends[6] > 10, ends)


def checks(options: Options) -> dict[str, Check]:
    """Return each check's name and function; it passes if nothing is raised."""
    quick = options.quick
    return {
        "statuses": partial(statuses, options),
        "hostile states": partial(hostile_states, options),
        "served states": partial(served_states, options),
        "each line": partial(cut_at_each_line, options, [*services_of(quick)]),
        "reached places": partial(reached_places, options, 2 if quick else 3),
        "cut states": partial(cut_states, options, 20),
        "changed states": partial(changed_states, options, 40 if quick else 2000),
        "refused memory": partial(refused_memory, options, 5 if quick else 1),
        "plain and extended": partial(plain_and_extended, options),
        "joins that are refused": partial(joins_are_refused, options),
        "parts": partial(parts_are_whole, options, 20 if quick else 1000),
        "all places": partial(all_places, options),
        "random streams": partial(random_streams, options, 40 if quick else 10_000),
        **{f"kind, {kind}": partial(kind_goes_on, options, kind) for kind in kinds_of(quick)},
    }


def services_of(quick: bool) -> Iterator[str]:
    yield from CUT_AT_EACH_LINE if quick else sorted(path.stem for path in worked.SERVICES.glob("*.txt"))


def kinds_of(quick: bool) -> Iterator[str]:
    yield from ("steady", "overload", "local") if quick else kinds.KINDS


def main() -> int:
    parser = argparse.ArgumentParser(description=(__doc__ or "").splitlines()[0])
    parser.add_argument("words", nargs="*", metavar="WORD", help="run only checks whose names have one of these words")
    parser.add_argument("--quick", action="store_true", help="few and small streams, in some seconds")
    program.add_program(parser)
    parser.add_argument("--state", type=program.program_file, default=str(FIRM_STATE), metavar="FILE")
    parser.add_argument("--explain", type=program.program_file, default=str(program.EXPLAIN), metavar="FILE")
    given = parser.parse_args()
    options = Options(given.quick, given.program, given.state, given.explain)
    chosen = {
        name: check for name, check in checks(options).items() if not given.words or any(w in name for w in given.words)
    }
    return run_suites(Suite(chosen))


if __name__ == "__main__":
    run_script(main)
