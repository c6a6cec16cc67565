"""Refuse each request for memory and each thread of the built program in turn, and fail each read and write once.

usage: tools/run tests/faults.py [--program FILE] [--under COMMAND] [--workers N] [--only PART] [--random N]
Each run with an unexpected end prints a line, and the exit status is 1 then. It needs a C compiler (cc) for refuse.c,
which is preloaded into the program and refuses, fails or shortens chosen requests. It uses eight streams (on the
longest it only refuses memory):

- The Nth request for memory is refused, for each N, all growths of first rows and the blocks of an admission among
  them; then all from the Nth on: status 6, `firm: memory`, a prefix of the output; or status 0, `no 14 memory` or
  `+ no 28 operator-memory` on some lines, and all others as the plain service answers with memory refused to these.
- The Nth read of the input fails or is interrupted, in pieces of 1, 2, 7, 257 and 4,096 bytes: status 4, `firm: read`,
  the answers to the whole lines read; while rounds are away, a prefix of them.
- The Nth write fails, finds no space, is interrupted or takes nothing, in writes of 1, 4 and 4,096 bytes: status 5,
  `firm: write`, a prefix; with writes of one byte exactly N - 1 bytes.
- The Nth read of the roster fails: status 3, `firm: cannot read roster`, no output.
- Workers get no memory as they start: status 0, the whole output.
- The Nth thread can't be started: the first, which reads ahead: status 0, the whole output; a worker: status 6,
  `firm: memory`, no output.
- Nothing fails, with these pieces and writes: status 0, the whole output.
"""

from __future__ import annotations

import argparse
import errno
import random
import re
import struct
import tempfile
from collections import Counter
from dataclasses import dataclass
from functools import cache, partial
from itertools import count, product
from pathlib import Path
from typing import Callable, Iterator, Mapping, NamedTuple

from harness import program, service
from harness.checks import Missed, Suite, require, run_script, run_suites
from harness.small_streams import random_stream

HEADING = b",".join(service.HEADING) + b"\n"
MEMORY = (b" no 14 memory", b"+ no 28 operator-memory")
NO_MEMORY = program.Run(6, b"", b"firm: memory\n")


@dataclass(frozen=True)
class Options(program.ProgramOptions):
    only: str | None
    random: int


class Stream(NamedTuple):
    """A roster and an input, with the least numbers of refused requests for memory, each in a separate run, that
    these lines of it are answered for. A long stream is only refused memory."""

    roster: bytes
    text: bytes
    is_long: bool = False
    requests: Mapping[bytes, int] = {}


def commands(text: str) -> bytes:
    return b"".join(line.strip().encode() + b"\n" for line in text.split(";"))


def for_tenant(name: str, text: str) -> bytes:
    return commands(";".join(f"{name} {line.strip()}" for line in text.split(";")))


SPREAD = "machine m1 2; machine m2 2; job j 10; task j a; task j b; round"
DRAIN = (
    "machine m1 2; job j 9; task j x; task j y; round; where x; drain m1; where x; show; round; costs;"
    " machine m1 2; round"
)
TWO = (
    "alpha machine m1 2; beta machine m1 1; alpha machine m2 2; beta job low 2; alpha job j 10; beta task low l;"
    " alpha task j a; beta round; alpha task j b; alpha round; beta job high 20; beta task high h; alpha task j c;"
    " beta round; alpha round"
)
SHOW = "machine m1 2; job j 5; task j a; show"
STAYS = (
    "b show; a job j 5; + admit b,6,20,5,0,0; b machine m 1; b job j 5; b task j x; b round; + admit b,2,0,5,0,0;"
    " + retire b;"
    " b show; + admit b,3,2,5,0,0; b round; + admit c,6,9,9,1,1; c job k 5; + retire c; + retire b; + retire b; a show"
)
MANY = "; ".join(
    [f"machine m{n} {n % 64 + 1}" for n in range(60)]
    + [f"job j{n} 5" for n in range(30)]
    + [f"task j{n % 30} t{n}" for n in range(150)]
    + ["show", "where t149", "task j0 t150", "drain m3", "show"]
)

# A table's first row takes 4 requests, the case's list of machines or tasks 1; the graph's lists take 2 for a machine
# (its slots are one), 1 for a job, 2 for a task.
OF_FIRST_ROWS = {b"alpha machine m1 2": 7, b"alpha job j 5": 5, b"alpha task j a": 7}
# Both blocks of the tenant's net among them, and the tables in which its rounds are proposed.
OF_AN_ADMISSION = {b"+ admit b,6,20,5,0,0": 68}

STREAMS = {
    "one round": Stream(b"alpha,9,24,100,1,2\n", for_tenant("alpha", SPREAD)),
    "a round after a refused one": Stream(
        b"alpha,9,24,100,1,2\n", for_tenant("alpha", SPREAD + "; round; costs"), requests={b"alpha round": 1}
    ),
    "a drain": Stream(b"a,8,30,100,1,1\n", for_tenant("a", DRAIN)),
    "two tenants": Stream(b"alpha,9,24,100,1,2\nbeta,8,30,100,0,3\n", commands(TWO)),
    "many rows": Stream(b"a,300,4000,1000,1,1\n", for_tenant("a", MANY), is_long=True),
    "no round": Stream(b"alpha,6,11,100,1,2\n", for_tenant("alpha", SHOW), requests=OF_FIRST_ROWS),
    "tenants that come and go": Stream(b"a,4,9,10,0,0\n", commands(STAYS), requests=OF_AN_ADMISSION),
    "no rounds but faults": Stream(
        b"a,8,30,100,0,0\n", b"a fly\na machine M1 2\n\nnobody show\r\n#c\n" + b"x" * 300 + b"\na show"
    ),
}
STREAMS = {name: stream._replace(roster=HEADING + stream.roster) for name, stream in STREAMS.items()}


class Counts(NamedTuple):
    """A run's numbers of requests for memory, reads of the input, writes, reads of files and threads."""

    memory: int
    reads: int
    writes: int
    files: int
    threads: int


class Ends(NamedTuple):
    """The number of runs by their way of ending, and the number of injected faults."""

    counts: Counter[str]
    done: str


class Runs:
    """Runs of one program, with the orders for the preloaded library."""

    def __init__(self, options: Options, folder: str) -> None:
        self.command, self.library = options.command(), program.build_refusing(folder)
        self.workers = int(options.workers or program.WORKERS)
        self.counts_path = Path(folder) / "counts"

    def run(self, stream: Stream, **asked: int) -> tuple[program.Run, Counts]:
        """Return a run and its counts; the orders for the library have refuse.c's names."""
        with program.Roster(stream.roster) as roster_path:
            return self.run_words(["--roster", roster_path], stream.text, **asked)

    def run_words(self, words: list[str], text: bytes, **asked: int) -> tuple[program.Run, Counts]:
        environment = {"LD_PRELOAD": self.library, "COUNTS": str(self.counts_path)}
        environment.update({name.upper(): str(number) for name, number in asked.items()})
        found = program.run_words([*self.command, *words], text, environment)
        return found, Counts._make(struct.unpack("5Q", self.counts_path.read_bytes()))


def full_output(stream: Stream, marks: frozenset[int] = frozenset()) -> bytes:
    return served(stream.roster, stream.text, marks)


@cache
def served(roster: bytes, text: bytes, marks: frozenset[int]) -> bytes:
    """Return the plain service's output, computed once: most runs of a stream end alike."""
    return b"".join(line + b"\n" for line in service.serve(roster, text, marks))


def whole_run(stream: Stream) -> program.Run:
    """Return a run without a fault."""
    return program.Run(0, full_output(stream), b"")


def marked_lines(text: bytes, output: bytes) -> frozenset[int]:
    """Return the places of the input lines that were refused for want of memory; the output may end early."""
    answered = [
        place
        for place, line in enumerate(service.lines_of(text))
        if not line.startswith(b"#") and (len(line) > service.MOST_LINE or line.strip(b" \t"))
    ]
    lines = output.split(b"\n")[:-1]
    require(len(lines) <= len(answered), "more answers than lines")
    return frozenset(place for place, line in zip(answered, lines) if line.endswith(MEMORY))


def judge_memory(found: program.Run, stream: Stream) -> str:
    """Judge the end of a run that was refused memory; return it in words."""
    marks = marked_lines(stream.text, found.output)
    full = full_output(stream, marks)
    lines = f", {len(marks)} answered for want of memory" if marks else ""
    if found.status == 6:
        require(found.faults == b"firm: memory\n", f"faults {found.faults!r}")
        require(full.startswith(found.output), f"no prefix of the marked output: {found.output!r}")
        return ("status 6, a prefix" if found.output else "status 6, nothing written") + lines
    require(found.status == 0 and found.faults == b"", f"status {found.status}, faults {found.faults!r}")
    require(found.output == full, f"not the marked output: {found.output!r}")
    return "status 0" + (lines or ", as without a refusal")


def whole_lines(text: bytes, size: int) -> bytes:
    """Return the whole lines among the first bytes of an input."""
    return text[: text.rfind(b"\n", 0, size) + 1]


def refuse_memory(runs: Runs, stream: Stream) -> Ends:
    """Refuse the Nth request, from 1 until a run meets no refusal; then all requests from the Nth on."""
    found, counts = runs.run(stream)
    require(found == whole_run(stream), f"without a refusal: {found}")
    ends: Counter[str] = Counter()
    refused: Counter[bytes] = Counter()
    lines = service.lines_of(stream.text)
    ways: dict[str, dict[str, int]] = {"": {}, ", all from the Nth on": {"refuse_memory_last": 2**62}}
    for words, more in ways.items():
        for place in count(1):
            found, asked = runs.run(stream, refuse_memory=place, **more)
            end = judge_memory(found, stream)
            if place > asked.memory:
                require(found.output == full_output(stream), "no refusal, and another output")
                break
            ends[end + words] += 1
            refused.update(lines[marked] for marked in marked_lines(stream.text, found.output) if not more)
    for line, least in stream.requests.items():
        require(refused[line] >= least, f"{refused[line]} refusals and not {least} of {line.decode()}")
    return Ends(ends, f"{counts.memory} requests")


def refuse_memory_of_help(runs: Runs, _: Stream) -> Ends:
    """Refuse each request for memory of a run that asks for help; some come before it reads its words."""
    whole, counts = runs.run_words(["--help"], b"")
    require(whole.status == 0 and whole.output and not whole.faults, f"without a refusal: {whole}")
    ends: Counter[str] = Counter()
    for place in range(1, counts.memory + 1):
        found, _counts = runs.run_words(["--help"], b"", refuse_memory=place)
        require(found in (whole, NO_MEMORY), f"request {place}: {found}")
        ends[f"status {found.status}"] += 1
    return Ends(ends, f"{counts.memory} requests")


def refuse_warm_up(runs: Runs, stream: Stream) -> Ends:
    """Refuse the memory that workers request as they start, and would give back."""
    found, _counts = runs.run(stream, refuse_warm_up=1)
    require(found == whole_run(stream), f"no memory at the start: {found}")
    return Ends(Counter({"status 0": 1}), f"{runs.workers} workers")


def refuse_threads(runs: Runs, stream: Stream) -> Ends:
    """Refuse the Nth thread. The first reads ahead, and the service does without it; each other is a worker."""
    ends, whole = Counter[str](), whole_run(stream)
    for place in range(1, runs.workers + 3):
        found, counts = runs.run(stream, refuse_thread=place)
        is_worker = 1 < place <= runs.workers + 1
        require(found == (NO_MEMORY if is_worker else whole), f"thread {place}: {found}")
        wanted = place if is_worker else runs.workers + 1
        require(counts.threads == wanted, f"thread {place}: {counts.threads} were requested")
        ends["status 6, nothing written" if is_worker else "status 0"] += 1
    return Ends(ends, f"{runs.workers} workers")


def failing_runs(runs: Runs, stream: Stream, call: str, **asked: int) -> Iterator[tuple[int, program.Run]]:
    """Yield runs in which the Nth call of a kind fails, with N, from 1 until a run meets no failure, which must be
    whole."""
    for place in count(1):
        found, counts = runs.run(stream, **{f"fail_{call}": place}, **asked)
        if counts._asdict()[f"{call}s"] < place:
            require(found == whole_run(stream), f"no {call} failed, {asked}: {found}")
            return
        yield place, found


def fail_reads(runs: Runs, stream: Stream) -> Ends:
    """Fail each read of standard input once, in pieces of several sizes: all whole lines before it are answered."""
    ends: Counter[str] = Counter()
    for most, error in product((1, 2, 7, 257, 4096), (errno.EIO, errno.EINTR)):
        for place, found in failing_runs(runs, stream, "read", read_most=most, fail_with=error):
            require(found.status == 4 and found.faults == b"firm: read\n", f"read {place} of {most}: {found}")
            text = whole_lines(stream.text, (place - 1) * most)
            answers = full_output(stream._replace(text=text))
            # The answer to a round may still be under way.
            is_prefix = b" round\n" in text and answers.startswith(found.output)
            require(found.output == answers or is_prefix, f"read {place} of {most}: {found.output!r}")
            ends["status 4, the answers to the lines read"] += 1
    return Ends(ends, "pieces of 1, 2, 7, 257 and 4,096 bytes; EIO and EINTR")


def fail_writes(runs: Runs, stream: Stream) -> Ends:
    """Fail each write once, with writes of several sizes: the output before it is a prefix, exactly as long."""
    ends, full = Counter[str](), full_output(stream)
    for most, error in product((1, 4, 4096), (errno.EIO, errno.ENOSPC, errno.EINTR, 0)):
        for place, found in failing_runs(runs, stream, "write", write_most=most, fail_with=error):
            require(found.status == 5 and found.faults == b"firm: write\n", f"write {place} of {most}: {found}")
            require(full.startswith(found.output), f"no prefix: {found.output!r}")
            require(most != 1 or len(found.output) == place - 1, f"write {place}: {len(found.output)} bytes")
            ends["status 5, a prefix"] += 1
    return Ends(ends, "writes of 1, 4 and 4,096 bytes; EIO, ENOSPC, EINTR and 0")


def fail_files(runs: Runs, stream: Stream) -> Ends:
    """Fail each read of the roster's file once."""
    ends, unread = Counter[str](), program.Run(3, b"", b"firm: cannot read roster\n")
    for place, found in failing_runs(runs, stream, "file", fail_with=errno.EIO):
        require(found == unread, f"read {place} of the roster: {found}")
        ends["status 3, nothing written"] += 1
    return Ends(ends, "EIO")


def refuse_memory_anywhere(runs: Runs, seed: int) -> str:
    """Refuse some requests of a random stream, one or several in a row; return the run's end in words."""
    draw = random.Random(seed)
    stream = Stream(*random_stream(draw))
    most = runs.run(stream)[1].memory
    first = draw.randint(1 if draw.random() < 0.3 else min(50, most), most)
    found, _ = runs.run(stream, refuse_memory=first, refuse_memory_last=first + draw.choice([0, 0, 0, 1, 5, 30]))
    return judge_memory(found, stream)


def refuse_memory_of_streams(runs: Runs, streams: int) -> Counter[str]:
    ends: Counter[str] = Counter()
    for seed in range(streams):
        try:
            ends[re.sub("[0-9]+ answered", "some answered", refuse_memory_anywhere(runs, seed))] += 1
        except Missed as missed:
            raise Missed(f"random stream {seed}: {missed}") from missed
    return ends


Part = Callable[[Runs, Stream], Ends]
PARTS: dict[str, Part] = {
    "memory": refuse_memory,
    "reads": fail_reads,
    "writes": fail_writes,
    "reads of the roster": fail_files,
    "memory of workers as they start": refuse_warm_up,
    "threads": refuse_threads,
}


def is_kept(runs: Runs, stream: str, name: str, part: Part) -> None:
    """A part of a stream's runs ends as promised."""
    ends = part(runs, STREAMS[stream])
    told = "; ".join(f"{number} x {end}" for end, number in ends.counts.items())
    print(f"{stream}, {name} ({ends.done}): {told}", flush=True)


def read_options() -> Options:
    parser = argparse.ArgumentParser(description=(__doc__ or "").splitlines()[0])
    program.add_program(parser)
    program.add_under(parser)
    program.add_workers(parser)
    parser.add_argument("--only", choices=PARTS, help="run only this part")
    parser.add_argument(
        "--random", type=int, default=0, help="run this many random streams with refused memory instead"
    )
    return Options(**vars(parser.parse_args()))


def main() -> int:
    options = read_options()
    with tempfile.TemporaryDirectory(prefix="firm-") as folder:
        runs = Runs(options, folder)
        if options.random:
            print(f"{options.random} random streams: {dict(refuse_memory_of_streams(runs, options.random))}")
            return 0
        parts = [
            (stream, name, part)
            for stream in STREAMS
            for name, part in PARTS.items()
            if options.only in (None, name) and (name == "memory" or not STREAMS[stream].is_long)
        ]
        if options.only in (None, "memory"):
            parts.append(("a drain", "memory of a request for help", refuse_memory_of_help))
        checks = {f"{stream}, {name}": partial(is_kept, runs, stream, name, part) for stream, name, part in parts}
        return run_suites(Suite(checks))


if __name__ == "__main__":
    run_script(main)
