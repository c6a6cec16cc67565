"""Check firm_explain from outside: its replies are firm's, and tests/certificates accepts its reasons.

usage: tools/run tests/explain.py [--quick] [--program FILE] [--explain FILE] [WORD..]
The checker accepts the reasons of each kind of stream at 3,000 tasks and 1,000 machines, also with --all, --why,
--machine and --rows, and those of 3,000 random streams and of 400 with noise. It refuses 1,000 outputs with one number
changed. It also refuses outputs with a comment line removed, doubled, moved or with another word; with replies changed,
cut off or without their reasons; and with another placement of the same cost, in whatever order. Further checks cover
--tenant, statuses, pieces, failed writes, refused and constant memory, and time. With words it runs only the checks
whose names have one of them. Each check prints a line; the exit status is 1 if one failed. The long run takes some ten
minutes. It needs a C compiler for refuse.c.
"""

from __future__ import annotations

import argparse
import errno
import math
import os
import random
import re
import subprocess
import tempfile
from collections import Counter
from functools import partial
from importlib.machinery import SourceFileLoader
from importlib.util import module_from_spec, spec_from_loader
from itertools import product
from pathlib import Path
from typing import Any, Iterator, Mapping, NamedTuple

import faults
from harness import kinds, program, service
from harness.checks import CannotRun, Check, Missed, Suite, require, run_script, run_suites
from harness.small_streams import random_stream, with_noise

WORKED = program.ROOT / "crates" / "firm_explain"  # with the rounds that docs/EXPLAIN.md works by hand
MAX_TIMES = 3  # firm's processor time
TIMED_SECONDS = 1.0  # of firm, about, for a timed stream
CHANGES = ("waits:", "preempted", "starts", "moves", "stays")  # the words after the name in a task's line

Choice = str | None  # a machine; None is to wait


class Options(NamedTuple):
    quick: bool
    firm: str
    explain: str


class Stream(NamedTuple):
    roster: bytes
    text: bytes


class Timed(NamedTuple):
    """A run's output, its user and system seconds, and its peak memory in kilobytes."""

    output: bytes
    seconds: float
    kilobytes: int


def load_checker() -> Any:
    """Return tests/certificates as a module."""
    loader = SourceFileLoader("certificates", str(Path(__file__).parent / "certificates"))
    spec = spec_from_loader("certificates", loader)
    if spec is None:
        raise CannotRun("there is no tests/certificates")
    module = module_from_spec(spec)
    loader.exec_module(module)
    return module


CHECKER = load_checker()


class Written:
    """The files of a stream and of an output, for as long as the `with` block lasts."""

    def __init__(self, stream: Stream, output: bytes) -> None:
        self.texts, self.folder = (stream.roster, stream.text, output), tempfile.TemporaryDirectory(prefix="firm-")

    def __enter__(self) -> list[str]:
        paths = [Path(self.folder.name) / name for name in ("roster.csv", "commands.txt", "output.txt")]
        for path, text in zip(paths, self.texts):
            path.write_bytes(text)
        return [str(path) for path in paths]

    def __exit__(self, *_: object) -> None:
        self.folder.cleanup()


def said_of(words: list[str]) -> str:
    """Return the checker's output."""
    try:
        return str(CHECKER.main(words))
    except SystemExit as reason:
        return str(reason.code)


def judge(stream: Stream, output: bytes, *words: str) -> str:
    """Return the checker's verdict on an output: the number of rounds shown, or the fault. The words are options."""
    with Written(stream, output) as paths:
        return said_of([*paths, *words])


def judge_alone(output: bytes, *words: str) -> str:
    """Return the same verdict on an output, or on a part of one, by its rows alone."""
    with Written(Stream(b"", b""), output) as paths:
        return said_of(["--rows", paths[-1], *words])


def require_refused(stream: Stream, output: bytes, what: object, *words: str) -> None:
    said = judge(stream, output, *words)
    require(said.startswith("NOT SHOWN"), f"{what}: {said}")


def run_timed(words: list[str], stream: Stream) -> Timed:
    """Run a program that must end well."""
    with program.Roster(stream.roster) as path, tempfile.TemporaryFile() as given, tempfile.TemporaryFile() as output:
        given.write(stream.text)
        given.seek(0)
        with subprocess.Popen([*words, "--roster", path], stdin=given, stdout=output) as started:
            _, status, used = os.wait4(started.pid, 0)
            started.returncode = os.waitstatus_to_exitcode(status)
        require(started.returncode == 0, f"{words}: status {started.returncode}")
        output.seek(0)
        return Timed(output.read(), used.ru_utime + used.ru_stime, used.ru_maxrss)


def without_comments(output: bytes) -> bytes:
    return b"".join(line for line in output.splitlines(keepends=True) if not line.startswith(b"#"))


def rounds_in(output: bytes) -> int:
    return len(re.findall(rb"^[a-z0-9-]+ \d+ ok round ", output, re.MULTILINE))


def explained(options: Options, stream: Stream, *words: str) -> bytes:
    """Return firm_explain's output, once its replies are firm's and the checker has accepted each round."""
    output = run_timed([options.explain, *words], stream).output
    require(without_comments(output) == run_timed([options.firm], stream).output, "other replies")
    require_shown(stream, output, *words)
    return output


def require_shown(stream: Stream, output: bytes, *words: str) -> None:
    """Require that the checker accepts each round and each word of its reasons; with rows also by these alone."""
    count = rounds_in(output)
    said = [judge(stream, output, *words)]
    said += [judge_alone(output, *words)] if count and "--rows" in words else []
    require(set(said) == {f"shown first: {count} of {count} rounds"}, said)


def size_of(options: Options) -> tuple[int, int]:
    return (150, 50) if options.quick else (3000, 1000)


def stream_of(kind: str, tasks: int, machines: int, seed: int = 1) -> Stream:
    made = kinds.make(kind, tasks, machines, seed)
    lines = [line for part in made.parts for line in [*part, f"{kinds.TENANT} round"]]
    return Stream(made.roster.encode(), "\n".join(lines).encode() + b"\n")


def kind_is_shown(options: Options, kind: str) -> None:
    """The checker accepts the rounds of a kind of bench/rounds.py's streams, with every option."""
    stream = stream_of(kind, *size_of(options))
    for words in ("", "--all", "--why t7 --machine 4", "--rows"):
        explained(options, stream, *words.split())


def repeated(stream: Stream, times: int) -> Stream:
    """Return a stream of one tenant, which is retired and admitted again before each further time."""
    row = stream.roster.splitlines()[1]
    again = b"+ retire %s\n+ admit %s\n" % (kinds.TENANT.encode(), row)
    return stream._replace(text=again.join([stream.text] * times))


def kind_is_quick(options: Options, kind: str) -> None:
    """The processor time of a stream, repeated until firm takes a second, is at most three times that of firm.

    The bound also holds with rows; the last number, with all choices of a task, has no bound.
    """
    once = stream_of(kind, *size_of(options))
    seconds = min(run_timed([options.firm], once).seconds for _ in range(3))
    stream = repeated(once, math.ceil(TIMED_SECONDS / seconds))
    firm = min(run_timed([options.firm], stream).seconds for _ in range(2))
    times = []
    for words in ("", "--rows", "--why t7"):
        runs = [run_timed([options.explain, *words.split()], stream) for _ in range(2)]
        times.append(min(run.seconds for run in runs) / firm)
        require(runs[0].output.count(b"\n# least: ") == rounds_in(runs[0].output), "rounds without reasons")
    print(f"| {kind} | {firm:.2f} | {' | '.join(f'{time:.1f}' for time in times)} |", flush=True)
    require(max(times[:2]) <= MAX_TIMES, times)


def has_roster(stream: Stream) -> bool:
    try:
        service.read_roster(stream.roster)
    except service.RosterFault:
        return False
    return True


def small_stream(seed: int, noise: bool = False) -> Stream:
    draw = random.Random(seed)
    roster, text = random_stream(draw, 6)
    return Stream(roster, with_noise(draw, text) if noise else text)


def random_words(draw: random.Random) -> list[str]:
    """Return random options of firm_explain."""
    words = ["--all"] if draw.random() < 0.3 else []
    words += ["--rows"] if draw.random() < 0.3 else []
    words += ["--why", draw.choice(["a", "b", "n1", "n2", "x-1"])] if draw.random() < 0.5 else []
    return words + (["--machine", str(draw.randint(1, 64))] if draw.random() < 0.5 else [])


def small_streams(options: Options, first: int, count: int, noise: bool) -> None:
    """Random streams of several tenants that come and go, with bad lines; with noise some bytes are changed."""
    for seed in range(first, first + count):
        stream = small_stream(seed, noise)
        if has_roster(stream):
            try:
                explained(options, stream, *random_words(random.Random(seed)))
            except BaseException:
                print(f"seed {seed}: {program.keep(f'explain-{seed}', stream.roster, stream.text)}", flush=True)
                raise


def changed(draw: random.Random, output: bytes) -> bytes | None:
    """Return an output with one number of a comment line changed, or None without any."""
    spots = [
        found.span()
        for line in re.finditer(rb"^#.*$", output, re.MULTILINE)
        for found in re.compile(rb"(?<![\w-])\d+(?![\w-])").finditer(output, line.start(), line.end())
    ]
    if not spots:
        return None
    first, end = draw.choice(spots)
    number = int(output[first:end])
    other = draw.choice([number + 1, number - 1 if number else 2, 10 * number + 7, number // 2 if number > 1 else 3])
    return output[:first] + b"%d" % other + output[end:]


def changes_are_refused(options: Options, count: int) -> None:
    """No output passes in which one number of a comment line is changed."""
    draw = random.Random(1)
    tried = seed = 0
    while tried < count:
        seed += 1
        kind = draw.choice([*kinds.KINDS, "small", "small"])
        stream = (
            small_stream(seed) if kind == "small" else stream_of(kind, draw.randint(5, 90), draw.randint(2, 20), seed)
        )
        if not has_roster(stream):
            continue
        words = ["--all"] if draw.random() < 0.5 else []
        words += ["--why", "a" if kind == "small" else "t3"] if draw.random() < 0.5 else []
        words += ["--machine", str(draw.randint(1, 64))] if draw.random() < 0.5 else []
        output = explained(options, stream, *words)
        for _ in range(5):
            other = changed(draw, output)
            if other is not None:
                tried += 1
                places = [at for at, (a, b) in enumerate(zip(output.split(b"\n"), other.split(b"\n"))) if a != b]
                what = f"{kind}, seed {seed}, {words}: {other.splitlines()[places[0]]!r}"
                require_refused(stream, other, what, *words)


def worked_stream() -> Stream:
    """Return the rounds that docs/EXPLAIN.md works by hand."""
    return Stream((WORKED / "data" / "roster.csv").read_bytes(), (WORKED / "stdin").read_bytes())


WRONG_WORDS = [
    (b"# b1 preempted from m1:", b"# b1 waits:"),
    (b"# b1 preempted from m1:", b"# b1 moves from m7 to m9:"),
    (b"# b1 preempted from m1:", b"# b1 preempted from m2:"),
    (b"# w2 starts on m1:", b"# w2 starts on m2:"),
    (b"; m2 at least as much, ranks after", b"; m2 at least as much"),
    (b"; m2 at least as much, ranks after", b"; m2 as much, ranks after"),
    (b"; m1 at least as much", b"; m1 at least as much, ranks after"),
    (b"; m1 at least as much", b"; m1 as much, an earlier task decides"),
    (b"; to wait as much, ranks after", b"; to wait as much"),
    (b"; to wait as much, ranks after", b"; to wait at least as much, ranks after"),
    (b"; m3 as much, an earlier task decides", b"; m3 as much"),
    (b"; m3 as much, an earlier task decides", b"; m3 at least as much"),
    (b"; m3 as much, an earlier task decides", b"; m3 as much, ranks after"),
    (b"; to stay at least 3 more", b""),
    (b"; to stay at least 3 more; m2 at least 8 more", b"; m2 at least 8 more; to stay at least 3 more"),
    (b"; m2 at least 8 more", b""),
    (b"; m1 at least 5 more", b"; m3 as much"),
    (b"; m1 at least 5 more", b"; m2 at least 5 more"),
    (b" of 2 slots ", b" of 3 slots "),
    (b": for w2 w3", b": for w3 w2"),
    (b": for w2 w3", b": for w2"),
    (b"# w1's rents: ", b"# w2's rents: "),
    (b"# w1 stays on m1", b"# w1 starts on m1"),
    (b", but m3 5", b""),
]
ORDER = b"# first: m1 < m2 < waiting\n"
WRONG_ORDERS = [
    "",
    "clear",
    "not shown here",
    "m2 < m1 < waiting",
    "waiting < m1 < m2",
    "m1 < waiting < m2",
    "m1 m2 < waiting",
    "m1 < m2 waiting",
    "m1 < m2",
    "m1 < m2 < waiting < m3",
    "m1 < m2 < waiting <",
    "m1 <  m2 < waiting",
    "m1 < .. < ..",
    "..",
]
WRONG_CROWDS = [
    (b"# t0 and 24 others wait", b"# t1 and 24 others wait"),
    (b"; each machine at least 2 more", b""),
    (b"; each machine at least 2 more", b"; a machine as much, earlier tasks decide"),
    (b"; a machine as much, earlier tasks decide", b"; each machine at least 1 more"),
    (b"; a machine as much, earlier tasks decide", b"; a machine as much"),
    (b" wait: 6 to 10 each", b" wait: 10 each"),
]


def wrong_outputs(output: bytes) -> Iterator[tuple[str, bytes]]:
    """Yield each wrong output that differs from this one in comment lines, with the fault."""
    lines = output.splitlines(keepends=True)
    for place, line in enumerate(lines):
        if line.startswith(b"#"):
            yield f"without {line!r}", b"".join(lines[:place] + lines[place + 1 :])
            yield f"twice {line!r}", b"".join(lines[:place] + [line] + lines[place:])
            if lines[place + 1 : place + 2] and lines[place + 1].startswith(b"#") and lines[place + 1] != line:
                yield f"later {line!r}", b"".join(lines[:place] + [lines[place + 1], line] + lines[place + 2 :])
    yield "without its tasks", b"".join(line for line in lines if not has_change(line.decode()))
    yield "without reasons", without_comments(output)


def replaced(output: bytes, old: bytes, new: bytes) -> bytes:
    """Return an output with the first of these words changed."""
    require(old in output, f"there is no {old!r}")
    return output.replace(old, new, 1)


def has_change(line: str) -> bool:
    """Return whether a line is that of a task."""
    return line.startswith("#") and line.split(" ")[2] in CHANGES


def wrong_outputs_are_refused(options: Options) -> None:
    """No output passes in which a line or a word of the reasons is missing, wrong, in another place or one too many."""
    words = ["--why", "w1", "--machine", "2"]
    stream = worked_stream()
    output = explained(options, stream, *words)
    for old, new in WRONG_WORDS:
        require_refused(stream, replaced(output, old, new), (old, new), *words)
    for what, other in wrong_outputs(output):
        require_refused(stream, other, what, *words)


def wrong_witnesses_are_refused(options: Options) -> None:
    """No placement passes whose cost differs from its line's, or whose line leaves out another task's changes."""
    stream = worked_stream()
    output = explained(options, stream, "--why", "w1")
    lines = list(re.finditer(rb"^# if .*: (\d+) more(: [^;\n]*)?(; .*)?$", output, re.MULTILINE))
    require(len(lines) == 7, lines)
    for line in lines:
        for number in (int(line[1]) + 1, int(line[1]) + 12):
            other = output[: line.start(1)] + b"%d" % number + output[line.end(1) :]
            require_refused(stream, other, f"{line[0]!r} as {number}", "--why", "w1")
        if line[2]:
            other = output[: line.start(2)] + output[line.end(2) :]
            require_refused(stream, other, f"{line[0]!r} without changes", "--why", "w1")
        for start in (b"# if w9 on ", b"# if w1 on m9 ", b"# if w1 goes "):
            other = output[: line.start()] + start + output[line.start() + len("# if w1 on ") :]
            require(other == output or judge(stream, other, "--why", "w1").startswith("NOT SHOWN"), start)


def wrong_orders_are_refused(options: Options) -> None:
    """No invalid order passes, and none that does not show the placement."""
    stream = worked_stream()
    output = explained(options, stream)
    for order in WRONG_ORDERS:
        require_refused(stream, replaced(output, ORDER, f"# first: {order}\n".encode()), order)


def wrong_crowds_are_refused(options: Options) -> None:
    """No such output passes if many tasks wait for the same reason."""
    stream = crowded_stream()
    output = explained(options, stream)
    for old, new in WRONG_CROWDS:
        require_refused(stream, replaced(output, old, new), (old, new))
    for word in ("", "--all"):
        for what, other in wrong_outputs(explained(options, stream, *word.split())):
            require_refused(stream, other, what, *word.split())


def crowded_stream() -> Stream:
    """Return a stream in which tasks of two jobs wait, in the first round for two reasons."""
    roster = b"tenant,nodes,arcs,life,spread,churn,remote\nalpha,60,400,100,3,5,2\n"
    rows = b"alpha machine m 1\nalpha machine n 1\nalpha job j 5\nalpha job k 9\n"
    tasks = b"".join(b"alpha task j t%d\nalpha task k u%d m\n" % (number, number) for number in range(25))
    return Stream(roster, rows + tasks + b"alpha round\n" * 2)


def wrong_sums_are_refused(options: Options) -> None:
    """No output passes with other rents or another sum by them, nor with another placement."""
    stream = worked_stream()
    output = explained(options, stream)
    require(judge(stream, output) == "shown first: 3 of 3 rounds", judge(stream, output))
    for line in re.finditer(rb"^# (low rents|high rents|least): .*$", output, re.MULTILINE):
        for found in re.compile(rb"(?<![\w-])\d+").finditer(output, line.start(), line.end()):
            for number in {int(found.group()) + 1, max(0, int(found.group()) - 1)} - {int(found.group())}:
                other = output[: found.start()] + b"%d" % number + output[found.end() :]
                require_refused(stream, other, f"{line.group()!r}: {found.group()!r} as {number}")
    for old, new in [
        (b"start w2 m1", b"start w2 m2"),
        (b"cost 21 preempt", b"cost 20 preempt"),
        (b" start b1 m3", b""),
    ]:
        require_refused(stream, replaced(output, old, new), (old, new))


def wrong_replies(output: bytes) -> Iterator[tuple[str, bytes]]:
    """Yield each output with another word in a reply, without a round's reasons, or cut off after a line."""
    lines = output.splitlines(keepends=True)
    for place, line in enumerate(lines):
        before, after = b"".join(lines[:place]), b"".join(lines[place + 1 :])
        if before:
            yield f"cut before {line!r}", before
        if not line.startswith(b"#"):
            words = line.split()
            for at, word in enumerate(words):
                other = b"%d" % (int(word) + 1) if word.isdigit() else word + b"s"
                yield f"{other!r} in {line!r}", before + b" ".join(
                    [*words[:at], other, *words[at + 1 :]]
                ) + b"\n" + after
        elif not lines[place - 1].startswith(b"#"):
            reasons = re.match(rb"(?:#.*\n)*", b"".join(lines[place:]))
            yield f"without {line!r} and its like", before + output[len(before) + (reasons.end() if reasons else 0) :]


def wrong_replies_are_refused(options: Options) -> None:
    """No output passes that lacks a reply's word, a round's reasons or its end."""
    replies = (
        b"alpha where w1\nalpha costs\nalpha show\nalpha where nobody\nalpha drain m1\nbeta show\n+ retire alpha\n"
    )
    stream = worked_stream()
    stream = stream._replace(text=stream.text + replies)
    output = explained(options, stream)
    for what, other in wrong_replies(output):
        require_refused(stream, other, what)
    patient = b"tenant,nodes,arcs,life,spread,churn,remote,patience\na,2,0,1,0,0,0,3\n"
    admitted = Stream(patient, b"+ admit b,2,0,1,0,0,0,3\n")
    require(judge(admitted, b"+ ok admitted b\n") == "shown first: 0 of 0 rounds", "a patience")
    plain = b"tenant,nodes,arcs,life,spread,churn\na,2,0,1,0,0\n"
    require_refused(admitted._replace(roster=plain), b"+ ok admitted b\n", "a patience beside a plain heading")


def least_placements(tenant: Any, cost: int) -> Iterator[dict[str, Choice]]:
    """Yield all placements of this cost, if none costs less."""
    names, load, to = list(tenant.tasks), dict.fromkeys(tenant.slots, 0), dict[str, Choice]()

    def place(number: int, left: int) -> Iterator[dict[str, Choice]]:
        if left < 0 or number == len(names):
            yield from [dict(to)] if left == 0 else []
            return
        for choice in [*tenant.slots, None]:
            if choice is None or load[choice] < tenant.slots[choice]:
                more = tenant.cost_of(names[number], choice) + (tenant.slot_cost(load[choice]) if choice else 0)
                to[names[number]] = choice
                if choice:
                    load[choice] += 1
                yield from place(number + 1, left - more)
                if choice:
                    load[choice] -= 1

    return place(0, cost)


def random_order(draw: random.Random, places: list[str]) -> str:
    """Return a random order of these places, which are in order of addition."""
    of = [draw.randrange(len(places)) for _ in places]
    groups = ([place for place, at in zip(places, of) if at == group] for group in range(len(places)))
    order = " < ".join(" ".join(names) for names in groups if names)
    return order if " < " in order else "clear"


def passes_as_first(found: Any, line: str) -> bool:
    """Return whether the checker accepts this line for the round."""
    forged = found._replace(comments=[*found.comments[:-1], line])
    try:
        forged.check_first(forged.proof(forged.comments[1]))
    except Missed:
        return False
    return True


def forged_orders_are_refused(options: Options, count: int) -> None:
    """No other placement of a round's cost passes, with the round's order or a random one."""
    forged = 0
    for seed in range(1, count + 1):
        stream, draw = small_stream(seed), random.Random(seed)
        if not has_roster(stream):
            continue
        with Written(stream, explained(options, stream)) as paths:
            for found in CHECKER.rounds_of(*paths):
                if len(found.tenant.slots) ** len(found.tenant.tasks) > 5000 or "waiting" in found.tenant.slots:
                    continue
                for other in least_placements(found.tenant, int(found.reply[5])):
                    if other == found.to:
                        continue
                    forged += 1
                    places = [*found.tenant.slots, "waiting"]
                    orders = [random_order(draw, places) for _ in range(5)]
                    for line in [found.comments[-1], *(f"# first: {order}" for order in orders)]:
                        require(not passes_as_first(found._replace(to=other), line), f"seed {seed}: {other}: {line}")
    print(f"{forged} forged placements", flush=True)
    require(forged > count, forged)


def least_cost(tenant: Any, slots: Mapping[str, int], fixed: Mapping[str, Choice]) -> int:
    """Return the cost of the cheapest placement with such slots and these choices of the fixed tasks."""
    names, best = list(tenant.tasks), 1 << 60
    load = dict.fromkeys(slots, 0)

    def place(number: int, cost: int) -> None:
        nonlocal best
        if cost >= best or number == len(names):
            best = min(best, cost)
            return
        name = names[number]
        for choice in [fixed[name]] if name in fixed else [*slots, None]:
            more = tenant.cost_of(name, choice)
            if choice is None:
                place(number + 1, cost + more)
            elif load[choice] < slots[choice]:
                load[choice] += 1
                place(number + 1, cost + more + tenant.slot_cost(load[choice] - 1))
                load[choice] -= 1

    place(0, 0)
    return best


def one_tenant(options: Options) -> None:
    """With --tenant the rounds of one tenant alone have reasons, and the replies are the same."""
    stream = Stream(
        b"tenant,nodes,arcs,life,spread,churn\na,9,24,100,1,2\nb,9,24,100,1,2\n",
        b"".join(b"%c machine m 1\n%c job j 5\n%c task j t\n%c round\n" % (name, name, name, name) for name in b"ab"),
    )
    both, one = explained(options, stream), run_timed([options.explain, "--tenant", "b"], stream).output
    require(without_comments(one) == without_comments(both), "other replies")
    said = judge(stream, one, "--tenant", "b")
    require(said == "shown first: 1 of 2 rounds", said)
    require_refused(stream, both, "reasons that are not asked for", "--tenant", "b")
    require_refused(stream, one, "reasons that are missing")


def is_of_constant_size(options: Options) -> None:
    """Ten thousand rounds take no more memory than a hundred."""
    start = b"tenant,nodes,arcs,life,spread,churn\na,60,400,1000000,1,2\n"
    rows = b"a machine m 3\na job j 5\n" + b"".join(b"a task j t%d\n" % task for task in range(40))
    few, many = (run_timed([options.explain], Stream(start, rows + b"a round\n" * count)) for count in (100, 10000))
    require(many.kilobytes < few.kilobytes + 1000, f"{few.kilobytes} kB, and then {many.kilobytes} kB")


def names_like_options(options: Options) -> None:
    """A tenant and a task may be called `--`, or as an option is: the checker takes such names as firm_explain does."""
    for name in ("--", "--all", "-x"):
        roster = f"tenant,nodes,arcs,life,spread,churn\n{name},9,24,100,1,2\n"
        text = "".join(f"{name} {line}\n" for line in ("machine m 1", "job j 5", f"task j {name}", "round"))
        asked = [f"--tenant={name}", f"--why={name}"]
        output = explained(options, Stream(roster.encode(), text.encode()), *asked)
        require(f"# {name}'s rents: " in output.decode(), output)


def statuses(options: Options) -> None:
    """The exit statuses are firm's, and so are the texts after the program's name."""
    roster = b"tenant,nodes,arcs,life,spread,churn\na,9,24,100,1,2\n"
    with program.Roster(roster) as path, program.Roster(b"tenant\n") as faulty:
        cases: list[tuple[list[str], int, bytes]] = [
            ([], 2, b""),
            (["--roster", path, "--fly"], 2, b""),
            (["--roster", os.fsdecode(b"\xff")], 2, b"firm_explain: the command line is not UTF-8\n"),
            (["--roster", path, "--tenant", "A"], 2, b"firm_explain: "),
            (["--roster", path, "--machine", "65"], 2, b""),
            (["--roster", "/nonexistent"], 3, b"firm_explain: cannot read roster\n"),
            (["--roster", faulty], 3, b"firm_explain: roster fault 1 header\n"),
            (["--help"], 0, b""),
            (["--roster", path], 0, b""),
        ]
        for words, status, said in cases:
            done = program.run_words([options.explain, *words], b"a show\n")
            require(done.status == status and done.faults.startswith(said), f"{words}: {done}")
        shown = program.run_words([options.explain, "--help"], b"").output
        is_whole = shown.startswith(b"Answers as firm does") and shown.endswith(b"see firm_explain measure --help.\n")
        require(is_whole, shown)
        folder = os.open("/", os.O_RDONLY)
        ended = subprocess.run([options.explain, "--roster", path], stdin=folder, capture_output=True)
        os.close(folder)
        require((ended.returncode, ended.stderr) == (4, b"firm_explain: read\n"), ended)
        with open("/dev/full", "wb") as full:
            words = [options.explain, "--roster", path]
            failed = subprocess.run(words, input=b"a show\n", stdout=full, stderr=subprocess.PIPE)
        require((failed.returncode, failed.stderr) == (5, b"firm_explain: write\n"), failed)


def faulty_stream() -> Stream:
    """Return a stream of two rounds, short enough to fail each of its requests."""
    roster = b"tenant,nodes,arcs,life,spread,churn\na,20,90,100,1,2\n"
    lines = "machine m 1; machine n 2; job j 5; task j x; task j y n; task j z; task j w; round; drain m; round; show"
    return Stream(roster, "".join(f"a {line.strip()}\n" for line in lines.split(";")).encode())


def refused_memory(options: Options) -> None:
    """Each request for memory refused in turn: the run ends with status 6 and the answers before it, or well.

    Then each line is answered as by firm, to which memory is refused for the same lines, and each round has reasons.
    """
    stream, asked = faulty_stream(), ["--rows", "--why", "x", "--machine", "2"]
    whole = run_timed([options.explain, *asked], stream).output
    with tempfile.TemporaryDirectory(prefix="firm-") as folder, program.Roster(stream.roster) as path:
        runs = faults.Runs(faults.Options(options.explain, "", "", None, 0), folder)
        words, ends = ["--roster", path, *asked], Counter[str]()
        requests = runs.run_words(words, stream.text)[1].memory
        for number in range(1, requests + 1):
            done, _ = runs.run_words(words, stream.text, refuse_memory=number)
            if done.status == 6:
                require(whole.startswith(done.output) and done.faults == b"firm_explain: memory\n", f"{number}: {done}")
            else:
                require((done.status, done.faults) == (0, b""), f"request {number}: {done}")
                marks = faults.marked_lines(stream.text, without_comments(done.output))
                wanted = b"".join(line + b"\n" for line in service.serve(stream.roster, stream.text, marks))
                require(without_comments(done.output) == wanted, f"request {number}: {done}")
                require_shown(stream, done.output, *asked)
            ends[
                f"status {done.status}{', lines without memory' if done.status == 0 and done.output != whole else ''}"
            ] += 1
    print(f"{requests} requests: {dict(ends)}", flush=True)
    require(ends["status 6"] > 10, ends)


def ends_at(whole: bytes, size: int) -> bytes:
    """Return all output if it fails once after this number of bytes, or in the line that they begin.

    After a reply that can't be written there is nothing; after a reason there are replies without reasons.
    """
    start = whole.rfind(b"\n", 0, size) + 1
    is_reason = whole[start : start + 1] == b"#"
    return whole[:size] + (without_comments(whole[start:].partition(b"\n")[2]) if is_reason else b"")


def failed_writes(options: Options, sizes: tuple[int, ...]) -> None:
    """Each write failed in turn: status 5, and after the reasons that could not be written the replies alone."""
    stream, asked = faulty_stream(), ["--rows", "--why", "x", "--machine", "2"]
    whole = run_timed([options.explain, *asked], stream).output
    ends = {ends_at(whole, size) for size in range(len(whole))}
    with tempfile.TemporaryDirectory(prefix="firm-") as folder, program.Roster(stream.roster) as path:
        runs = faults.Runs(faults.Options(options.explain, "", "", None, 0), folder)
        words = ["--roster", path, *asked]
        for most, error in product(sizes, (errno.EIO, errno.ENOSPC, errno.EINTR, 0)):
            writes = runs.run_words(words, stream.text, write_most=most)[1].writes
            for number in range(1, writes + 1):
                done, _ = runs.run_words(words, stream.text, fail_write=number, write_most=most, fail_with=error)
                what = f"write {number} of {most} bytes: {done}"
                require((done.status, done.faults) == (5, b"firm_explain: write\n"), what)
                require(done.output in ends if most > 1 else done.output == ends_at(whole, number - 1), what)


def in_pieces(options: Options, count: int) -> None:
    """Short reads and writes change nothing."""
    with tempfile.TemporaryDirectory(prefix="firm-") as folder:
        library = program.build_refusing(folder)
        for seed in range(1, count + 1):
            stream = small_stream(seed)
            if has_roster(stream):
                whole = run_timed([options.explain], stream).output
                for most in ("1", "7", "257"):
                    with program.Roster(stream.roster) as path:
                        environment = {"LD_PRELOAD": library, "READ_MOST": most, "WRITE_MOST": most}
                        done = program.run([options.explain], path, stream.text, environment)
                    require(done == (0, whole, b""), f"seed {seed}, {most} bytes")


def checks(options: Options) -> dict[str, Check]:
    """Return each check's name and function; it passes if nothing is raised."""
    quick = options.quick
    found: dict[str, Check] = {
        "one tenant": partial(one_tenant, options),
        "names like options": partial(names_like_options, options),
        "statuses": partial(statuses, options),
        "refused memory": partial(refused_memory, options),
        "failed writes": partial(failed_writes, options, (7, 4096) if quick else (1, 7, 4096)),
        "in pieces": partial(in_pieces, options, 10 if quick else 100),
        "constant memory": partial(is_of_constant_size, options),
        "random streams": partial(small_streams, options, 1, 60 if quick else 3000, False),
        "hostile streams": partial(small_streams, options, 10_001, 40 if quick else 400, True),
        "a number changed": partial(changes_are_refused, options, 100 if quick else 1000),
        "wrong reasons": partial(wrong_outputs_are_refused, options),
        "wrong reasons of crowds": partial(wrong_crowds_are_refused, options),
        "wrong orders": partial(wrong_orders_are_refused, options),
        "wrong witnesses": partial(wrong_witnesses_are_refused, options),
        "wrong sums": partial(wrong_sums_are_refused, options),
        "wrong replies": partial(wrong_replies_are_refused, options),
        "forged orders": partial(forged_orders_are_refused, options, 30 if quick else 1000),
    }
    tasks, machines = size_of(options)
    for kind in kinds.KINDS:
        found[f"{kind}, {tasks} x {machines}"] = partial(kind_is_shown, options, kind)
        if not quick:
            found[f"processor time, {kind}"] = partial(kind_is_quick, options, kind)
    return found


def main() -> int:
    parser = argparse.ArgumentParser(description=(__doc__ or "").splitlines()[0])
    parser.add_argument("words", nargs="*", metavar="WORD", help="run only checks whose names have one of these words")
    parser.add_argument("--quick", action="store_true", help="small streams alone, in half a minute")
    program.add_program(parser)
    parser.add_argument("--explain", type=program.program_file, default=str(program.EXPLAIN), metavar="FILE")
    given = parser.parse_args()
    options = Options(given.quick, given.program, given.explain)
    chosen = {
        name: check for name, check in checks(options).items() if not given.words or any(w in name for w in given.words)
    }
    return run_suites(Suite(chosen))


if __name__ == "__main__":
    run_script(main)
