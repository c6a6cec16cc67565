"""Play worked services, in pieces and as a client that waits for replies: each line is answered as written here.

usage: tools/run tests/worked.py [--program FILE] [WORD..]
Each text of tests/services is a service: its roster, an empty line, and then the input; lines after '< ' are the
output. The services in this script have bytes that no such text can hold, or many tenants. Each is played with 1, 2 and
8 workers. If firm_explain is built, it plays them too, on one thread and without its reasons, and so does its measure.
With words it runs only the checks whose names have one of them. Each check prints a line; the exit status is 1 if one
failed. It needs a C compiler (cc) for refuse.c, which cuts the input.
"""

from __future__ import annotations

import argparse
import tempfile
from functools import partial
from pathlib import Path
from typing import Callable, Iterator, NamedTuple, Sequence

from harness import program
from harness.checks import CannotRun, Check, Missed, Suite, print_skipped, require, run_script, run_suites
from harness.program import EXPLAIN, ROOT

SERVICES = ROOT / "tests" / "services"
HEADING = b"tenant,nodes,arcs,life,spread,churn\n"
WRITTEN = b"< "
PIECES = (1, 2, 7, 257, 4096)
WORKERS = ("1", "2", "8")
MAX_TENANTS = 64
STAYS = 200  # of tenants one after another at one place


class Exchange(NamedTuple):
    """A line of input, with its end, and its output."""

    line: bytes
    answer: bytes


class Worked(NamedTuple):
    """A service: the text of its roster, its input and its output."""

    name: str
    roster: bytes
    exchanges: list[Exchange]

    def text(self) -> bytes:
        return b"".join(exchange.line for exchange in self.exchanges)

    def output(self) -> bytes:
        return b"".join(exchange.answer for exchange in self.exchanges)


LINES_OF_NO_TENANT = [
    *(Exchange(line + b"\n", b"") for line in (b"", b" ", b"\t \t", b" " * 256, b"#", b"# a show", b"#\xff\0")),
    *(
        Exchange(line + b"\n", b"! line-too-long\n")
        for line in (b" " * 257, b"A".ljust(257), b"a show".ljust(256) + b"\r\r", b"a " + b"x" * 600 + b"#")
    ),
    *(
        Exchange(line + b"\n", b"! unknown-tenant\n")
        for line in (
            b" # a",
            b"A show",
            b"\xff",
            b"\0",
            b"a\0 show",
            b"a_b",
            b"a\r\r",
            b"a\r show",
            b"abcdefghijklmnopq show",
        )
    ),
    Exchange(b"a costs\n", b"a 1 ok costs\n"),
    Exchange(b"abcdefghijklmnop costs\n", b"abcdefghijklmnop 1 ok costs\n"),
]

LINES_OF_EACH_FORM = [
    Exchange(b"a fly\n", b"a 1 no 2 bad-command\n"),
    Exchange(b"a machine M1 2\n", b"a 2 no 3 bad-name\n"),
    Exchange(b"a machine m1 0\n", b"a 3 no 4 bad-number\n"),
    Exchange(b"a machine m1 65\n", b"a 4 no 4 bad-number\n"),
    Exchange(b"a show" + b" " * 251 + b"\n", b"! line-too-long\n"),
    Exchange(b"nobody show\n", b"! unknown-tenant\n"),
    Exchange(b"\ta\tmachine  m1\t02\r\n", b"a 5 ok\n"),
    Exchange(b" \n", b""),
    Exchange(b"# a show\n", b""),
    Exchange(b" # a\n", b"! unknown-tenant\n"),
    Exchange(b"a\n", b"a 6 no 2 bad-command\n"),
    Exchange(b"a machine m1 2 3\n", b"a 7 no 2 bad-command\n"),
    Exchange(b"a machine m1 2\n", b"a 8 no 5 machine-exists\n"),
    Exchange(
        b"a show" + b" " * 250 + b"\r\n", b"a 9 ok machines 1 jobs 0 tasks 0 running 0 nodes 3 of 8 arcs 3 of 30\n"
    ),
    Exchange(b"a done x", b"a 10 no 10 no-such-task\n"),
]

NAMES_AND_NUMBERS_AT_THEIR_EDGES = [
    Exchange(b"a \xff\n", b"a 1 no 2 bad-command\n"),
    Exchange(b"a machine \xff 2\n", b"a 2 no 3 bad-name\n"),
    Exchange(b"a machine abcdefghijklmnopq 2\n", b"a 3 no 3 bad-name\n"),
    Exchange(b"a machine abcdefghijklmnop 00000000000002\n", b"a 4 no 4 bad-number\n"),
    Exchange(b"a machine abcdefghijklmnop 0000000000002\n", b"a 5 ok\n"),
    Exchange(b"a machine m -1\n", b"a 6 no 4 bad-number\n"),
    Exchange(b"a job j 1\n", b"a 7 no 12 arena-nodes\n"),
    Exchange(b"a round\n", b"a 8 ok round cost 0\n"),
    Exchange(b"a drain abcdefghijklmnop\n", b"a 9 ok evicted 0\n"),
    Exchange(b"a machine m2 2\n", b"a 10 ok\n"),
    Exchange(b"#" + b"x" * 70_000 + b"\n", b""),
    Exchange(b"\xff\n", b"! unknown-tenant\n"),
    Exchange(b"A show\n", b"! unknown-tenant\n"),
    Exchange(b"a show\r\r\n", b"a 11 no 2 bad-command\n"),
    Exchange(b"a machine m\0 1\n", b"a 12 no 3 bad-name\n"),
    Exchange(b"a show \0\n", b"a 13 no 2 bad-command\n"),
    Exchange(b"a task j t a b c \xff\n", b"a 14 no 3 bad-name\n"),
    Exchange(b"a done \xff\n", b"a 15 no 3 bad-name\n"),
]

OPERATORS_LINES_OF_EACH_FORM = [
    Exchange(b"\t+\tadmit  b,0000000000002,0,5,0,0 \t\n", b"+ ok admitted b\n"),
    Exchange(b"#+ retire b\n", b""),
    Exchange(b"# + retire b\n", b""),
    Exchange(b"+retire b\n", b"! unknown-tenant\n"),
    Exchange(b"++ retire b\n", b"! unknown-tenant\n"),
    Exchange(b"b show\n", b"b 1 ok machines 0 jobs 0 tasks 0 running 0 nodes 2 of 2 arcs 0 of 0\n"),
    Exchange(b'+ admit c,"2",0,5,0,0\n', b"+ no 24 operator-number\n"),
    Exchange(b"+ retire \xff\n", b"+ no 23 operator-name\n"),
    Exchange(b"a + retire b\n", b"a 1 no 2 bad-command\n"),
    Exchange(b"+ admit c, 2,0,5,0,0\n", b"+ no 21 operator-command\n"),
    Exchange(b" + \t\n", b"+ no 21 operator-command\n"),
    Exchange(b"+ \xff\n", b"+ no 21 operator-command\n"),
    Exchange(b"\xff+ retire b\n", b"! unknown-tenant\n"),
    Exchange(b"+ retire b\r\r\n", b"+ no 23 operator-name\n"),
    Exchange(b"+ retire b".ljust(257) + b"\n", b"! line-too-long\n"),
    Exchange(b" + retire b\n", b"+ ok retired b\n"),
    Exchange(b"b show\n", b"! unknown-tenant\n"),
    Exchange(b"+ admit b,2,0,5,0,0\n", b"+ ok admitted b\n"),
    Exchange(b" +\tretire  b\t\n", b"+ ok retired b\n"),
    Exchange(b"+ admit b,2,0,5,0,0\n", b"+ ok admitted b\n"),
    Exchange(b"+ retire b".ljust(256) + b"\r\n", b"+ ok retired b\n"),
    Exchange(b"+ admit abcdefghijklmnop,2,0,5,0,0\n", b"+ ok admitted abcdefghijklmnop\n"),
    Exchange(b"+ retire abcdefghijklmnop\n", b"+ ok retired abcdefghijklmnop\n"),
]

ONCE_64_ARE_THERE = [
    Exchange(b"+ admit z,2,0,1,0,0\n", b"+ no 27 operator-full\n"),
    Exchange(b"+ admit t64,2,0,1,0,0\n", b"+ no 25 tenant-exists\n"),
    Exchange(b"+ retire t64\n", b"+ ok retired t64\n"),
    Exchange(b"+ admit z,2,0,1,0,0\n", b"+ ok admitted z\n"),
    Exchange(b"+ admit t64,2,0,1,0,0\n", b"+ no 27 operator-full\n"),
    Exchange(b"z round\n", b"z 1 ok round cost 0\n"),
]


def sixty_four_tenants() -> Worked:
    """Return a service: each of 64 tenants adds a machine, and a 65th waits until one is retired."""
    numbers = range(1, MAX_TENANTS + 1)
    roster = HEADING + b"".join(b"t%d,3,65,10,0,0\n" % number for number in numbers)
    machines = [Exchange(b"t%d machine m 64\n" % number, b"t%d 1 ok\n" % number) for number in numbers]
    return Worked("64 tenants", roster, machines + ONCE_64_ARE_THERE)


def one_after_another() -> Worked:
    """Return a service: tenants come to one place; each is admitted, has one round, and is retired."""
    exchanges = [Exchange(b"+ retire a\n", b"+ ok retired a\n")]
    for number in range(1, STAYS + 1):
        name = b"t%d" % number
        exchanges += [
            Exchange(b"+ admit %b,2,0,1,0,0\n" % name, b"+ ok admitted %b\n" % name),
            Exchange(b"%b round\n" % name, b"%b 1 ok round cost 0\n" % name),
            Exchange(b"+ retire %b\n" % name, b"+ ok retired %b\n" % name),
        ]
    return Worked("200 tenants one after another", HEADING + b"a,2,0,1,0,0\n", exchanges)


def exchanges_in(lines: Sequence[bytes]) -> Iterator[Exchange]:
    """Return each line that is read, with the written ones after it."""
    place = 0
    while place < len(lines):
        line, answers = lines[place], []
        place += 1
        while place < len(lines) and lines[place].startswith(WRITTEN):
            answers.append(lines[place].removeprefix(WRITTEN) + b"\n")
            place += 1
        yield Exchange(line + b"\n", b"".join(answers))


def read_service(path: Path) -> Worked:
    """Return the service of a text."""
    roster, _, played = path.read_bytes().partition(b"\n\n")
    return Worked(path.stem, roster.rstrip(b"\n") + b"\n", list(exchanges_in(played.splitlines())))


def services() -> list[Worked]:
    """Return all worked services."""
    texts = [read_service(path) for path in sorted(SERVICES.glob("*.txt"))]
    if not texts:
        raise CannotRun(f"there is no text in {SERVICES}")
    return [
        *texts,
        Worked("lines of no tenant", HEADING + b"a,2,0,1,0,0\nabcdefghijklmnop,2,0,1,0,0\n", LINES_OF_NO_TENANT),
        Worked("lines of each form", HEADING + b"a,8,30,100,0,0\n", LINES_OF_EACH_FORM),
        Worked("names and numbers at their edges", HEADING + b"a,3,3,100,0,0\n", NAMES_AND_NUMBERS_AT_THEIR_EDGES),
        Worked("the operator's lines of each form", HEADING + b"a,8,30,100,0,0\n", OPERATORS_LINES_OF_EACH_FORM),
        sixty_four_tenants(),
        one_after_another(),
    ]


def without_reasons(output: bytes) -> bytes:
    return b"".join(line for line in output.splitlines(keepends=True) if not line.startswith(b"#"))


def in_pieces(library: str, command: list[str], worked: Worked) -> None:
    """The output is the service's, however many bytes come a read."""
    with program.Roster(worked.roster) as roster_path:
        for piece in PIECES:
            environment = {"LD_PRELOAD": library, "READ_MOST": str(piece)}
            found = program.run(command, roster_path, worked.text(), environment)
            require(found.status == 0 and not found.faults, f"pieces of {piece}: {found}")
            require(without_reasons(found.output) == worked.output(), f"pieces of {piece}: {found.output!r}")


def next_reply(client: program.Client) -> bytes | None:
    """Return the next line that is no reason."""
    reply = client.reply()
    while reply is not None and reply.startswith(b"#"):
        reply = client.reply()
    return reply


def line_by_line(command: list[str], worked: Worked) -> None:
    """Each answer is there before the next line is sent."""
    with program.Roster(worked.roster) as roster_path, program.Client(command, roster_path) as client:
        for line, answer in worked.exchanges:
            client.send(line)
            for wanted in answer.splitlines() if line.endswith(b"\n") else []:
                got = next_reply(client)
                require(got == wanted, f"{got!r} to {line!r} and not {wanted!r}")
        end = client.close()
    last = b"".join(answer for line, answer in worked.exchanges if not line.endswith(b"\n"))
    require(end.status == 0 and not end.faults and without_reasons(end.output) == last, f"at the end: {end}")


def play_all(play: Callable[[Worked], None]) -> None:
    for worked in services():
        try:
            play(worked)
        except Exception as error:  # a client of a program that ends too early meets a closed pipe
            raise Missed(f"{worked.name}: {error}") from error


def ways(path: str) -> dict[str, list[str]]:
    """Return the first words of each way of serving, by its name."""
    found = {f"workers {workers}": [path, "--workers", workers] for workers in WORKERS}
    if EXPLAIN.exists():
        found |= {"firm_explain": [str(EXPLAIN)], "firm_explain measure": program.measuring()}
    else:
        print_skipped("firm_explain", "it is not built: ./build.py firm_explain")
    return found


def checks(path: str, library: str) -> dict[str, Check]:
    """Return each check's name and function."""
    found: dict[str, Check] = {}
    for way, command in ways(path).items():
        found[f"in pieces, {way}"] = partial(play_all, partial(in_pieces, library, command))
        found[f"line by line, {way}"] = partial(play_all, partial(line_by_line, command))
    return found


def main() -> int:
    parser = argparse.ArgumentParser(description=(__doc__ or "").splitlines()[0])
    parser.add_argument("words", nargs="*", metavar="WORD", help="run only checks whose names have one of these words")
    program.add_program(parser)
    given = parser.parse_args()
    words: list[str] = given.words
    with tempfile.TemporaryDirectory(prefix="firm-") as folder:
        found = checks(given.program, program.build_refusing(folder))
        chosen = {name: check for name, check in found.items() if not words or any(word in name for word in words)}
        return run_suites(Suite(chosen))


if __name__ == "__main__":
    run_script(main)
