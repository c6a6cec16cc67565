"""Check the built program's exit statuses and messages, by words, rosters, states and inputs.

usage: tools/run tests/statuses.py [--program FILE]
Each check prints a line; the exit status is 1 if one failed.
"""

from __future__ import annotations

import argparse
import fcntl
import os
import subprocess
import tempfile
import threading
from functools import partial
from pathlib import Path
from typing import Iterator, NamedTuple, Sequence

from harness import program
from harness.checks import Check, Suite, require, run_script, run_suites
from harness.program import Run

HEADING = b"tenant,nodes,arcs,life,spread,churn\n"
HEADING_OF_SEVEN = HEADING.replace(b"\n", b",remote\n")
HEADING_OF_EIGHT = HEADING_OF_SEVEN.replace(b"\n", b",patience\n")
ROW = b"a,2,0,1,0,0\n"
ROSTER_OF_64 = HEADING + b"".join(b"t%d,2,%d,1,0,0\n" % (number, number) for number in range(64))
GREATEST = HEADING + b"a,4096,65536,1099511627776,1000,1000000\n"
MAX_ROSTER, MAX_STATE = 65_536, 41_943_040
LIMIT_SECONDS = 300  # for a run, on a busy host
SHOWN = b"a 1 ok machines 0 jobs 0 tasks 0 running 0 nodes 2 of 2 arcs 0 of 0\n"

HELP = """\
Decides where the tasks of a shared cluster run, at the lowest cost

Usage: firm [OPTIONS]

Options:
      --roster <FILE>  The roster of tenants, a CSV file
      --state <FILE>   The state to go on from, in place of a roster
      --workers <N>    How many threads solve rounds, from 1 to 8 [default: 2]
  -h, --help           Print help
  -V, --version        Print version

Input: one command per line, tenant first. Operator's lines begin with +.
Empty lines and lines that begin with # are skipped.
Output: one reply per line, in the order of the commands, with the name of the
tenant and how many commands it has given. At the end of the input firm ends.

Example:
  $ cat roster.csv
  tenant,nodes,arcs,life,spread,churn
  alpha,9,24,100,1,2
  beta,8,30,100,0,3
  $ cat commands.txt
  alpha machine m1 2
  alpha job web 10
  alpha task web a
  beta machine m1 1
  alpha round
  $ firm --roster roster.csv < commands.txt
  alpha 1 ok
  alpha 2 ok
  alpha 3 ok
  beta 1 ok
  alpha 4 ok round cost 0 start a m1

In firm's repository docs/FORMATS.md lists commands, replies and exit statuses;
docs/PLACEMENT.md says what a round decides, docs/OPERATING.md how to serve
many clients and keep a journal.
"""
VERSION = "firm 0.1.0\n"


# Arguments with files in one folder, and with missing files.
FILE_NAMES = ["roster.csv", "state", "t", "T", " t", "t ", "\tt", "t\n", "t.csv", "~", "*", "%74", "$HOME", "é"]
MISSING_NAMES = ["", "none", "t.", "t.cs", "roster", "state ", "E"]


class FaultyWords(NamedTuple):
    """Faulty words, and the first line of the message."""

    words: list[str]
    first_line: str


LONG_WORD = "--" + "x" * 10_000
FAULTY_WORDS = [
    FaultyWords(["--roster"], "a value is required for '--roster <FILE>' but none was supplied"),
    FaultyWords(["--state"], "a value is required for '--state <FILE>' but none was supplied"),
    FaultyWords(["--state", "s", "--state", "s"], "the argument '--state <FILE>' cannot be used multiple times"),
    FaultyWords(["--roster", "r.csv", "more"], "unexpected argument 'more' found"),
    FaultyWords(["--roster", "r.csv", "--fast"], "unexpected argument '--fast' found"),
    FaultyWords(["--roster", "r.csv", LONG_WORD], f"unexpected argument '{LONG_WORD}' found"),
    FaultyWords(
        ["--roster", "r.csv", "--roster", "r.csv"], "the argument '--roster <FILE>' cannot be used multiple times"
    ),
    FaultyWords(["--roster", "r.csv", "--workers"], "a value is required for '--workers <N>' but none was supplied"),
    FaultyWords(
        ["--roster", "r.csv", "--workers", ""],
        "invalid value '' for '--workers <N>': cannot parse integer from empty string",
    ),
    FaultyWords(["--roster", "r.csv", "--workers", "0"], "invalid value '0' for '--workers <N>': 0 is not in 1..=8"),
    FaultyWords(["--roster", "r.csv", "--workers", "9"], "invalid value '9' for '--workers <N>': 9 is not in 1..=8"),
    FaultyWords(
        ["--roster", "r.csv", "--workers", "257"], "invalid value '257' for '--workers <N>': 257 is not in 1..=8"
    ),
    FaultyWords(["--roster", "r.csv", "--workers", "-1"], "unexpected argument '-1' found"),
    FaultyWords(
        ["--roster", "r.csv", "--workers", "two"],
        "invalid value 'two' for '--workers <N>': invalid digit found in string",
    ),
]


# Words that name no file to open with, or two, and the message.
NOT_ONE: dict[str, list[list[str]]] = {
    "no roster and no state: give --roster FILE or --state FILE": [[], ["--workers", "2"]],
    "a roster and a state: give --roster FILE or --state FILE, not both": [
        ["--roster", "r.csv", "--state", "s"],
        ["--state=s", "--workers", "8", "--roster=r.csv"],
    ],
}


# Beginnings of a roster, and the possible continuations by their first fault.
FAULTY_ROSTERS: dict[bytes, dict[str, list[bytes]]] = {
    b"": {
        "1 header": [
            b"",
            b"\n\n",
            b"a,2,0,1,0,0\n",
            b"tenant,nodes,arcs,life,spread\n",
            b"tenant,nodes,arcs,life,spread,churn,remotes\n",
            b"tenant,nodes,arcs,life,spread,remote\n",
            b"tenant,nodes,arcs,life,spread,churn,remote,remote\n",
            b"tenant,nodes,arcs,life,spread,churn,patience\n",
            b"tenant,nodes,arcs,life,spread,churn,patience,remote\n",
            b"tenant,nodes,arcs,life,spread,churn,remote,patience,patience\n",
            b"tenant,arcs,nodes,life,spread,churn\n",
            b"Tenant,nodes,arcs,life,spread,churn\n",
            b"tenant, nodes,arcs,life,spread,churn\n",
            b"tenants,nodes,arcs,life,spread,churn\nA,1,0\n",
        ],
        "2 row": [b"x" * (MAX_ROSTER + 1), GREATEST.ljust(MAX_ROSTER + 1, b"\n")],
    },
    HEADING: {
        "2 row": [
            b"a,2,0,1,0\n",
            b"A,1,0,1,0\n",
            b"a,2,0,1,0,0,0\n",
            b"a\n",
            ROW + b"a,2,0,1,0\n",
            ROW + b"B,1\n",
        ],
        "3 name": [
            b"A,2,0,1,0,0\n",
            b"A,1,0,1,0,0\n",
            b'" a",2,0,1,0,0\n',
            b'"a""b",2,0,1,0,0\n',
            b"abcdefghijklmnopq,2,0,1,0,0\n",
            b",2,0,1,0,0\n",
            ROW + b"B,1,0,1,0,0\n",
            b"A,2,0,1,0,0\nb,2,0,1,0,0\n",
        ],
        "4 number": [
            b"a,1,0,1,0,0\n",
            b"a,4097,0,1,0,0\n",
            b"a,2,65537,1,0,0\n",
            b"a,2,0,0,0,0\n",
            b"a,2,0,1099511627777,0,0\n",
            b"a,2,0,1,1001,0\n",
            b"a,2,0,1,0,1000001\n",
            b"a,2,0,1,0,\n",
            b"a,2,0,1,0,-1\n",
            b"a,2,0,1,0, 0\n",
            b"a,00000000000002,0,1,0,0\n",
            b"a,2,0,00000000000001,0,0\n",
            ROW + b"a,1,0,1,0,0\n",
        ],
        "5 repeated-name": [ROW + ROW, ROW + b"b,2,0,1,0,0\na,3,1,9,1,1\n"],
        "6 count": [b"", b"\n\r\n"],
    },
    HEADING_OF_SEVEN: {
        "2 row": [ROW, b"A,1,0,1,0,0\n", b"a,2,0,1,0,0,0,0\n"],
        "3 name": [b"A,2,0,1,0,0,1000001\n"],
        "4 number": [b"a,2,0,1,0,0,1000001\n", b"a,2,0,1,0,0,\n"],
        "5 repeated-name": [b"a,2,0,1,0,0,0\na,2,0,1,0,0,1\n"],
        "6 count": [b""],
    },
    HEADING_OF_EIGHT: {
        "2 row": [b"a,2,0,1,0,0,0\n", b"A,1,0,1,0,0,0\n", b"a,2,0,1,0,0,0,0,0\n"],
        "3 name": [b"A,2,0,1,0,0,0,1000001\n"],
        "4 number": [b"a,2,0,1,0,0,0,1000001\n", b"a,2,0,1,0,0,0,\n"],
        "5 repeated-name": [b"a,2,0,1,0,0,0,0\na,2,0,1,0,0,0,1\n"],
        "6 count": [b""],
    },
    ROSTER_OF_64: {"6 count": [b"z,2,0,1,0,0\n", b"t0,2,0,1,0,0\n", b"Z,1,0,1,0,0\n", b"z,2,0\n"]},
}


# A state that opens as a roster of one tenant does, and one after a command and a retirement.
STATE = b"""\
firm state 1
place admissions 1
tenant a nodes 2 arcs 0 life 1 spread 0 churn 0 remote 0 commands 0
costs
rows 3
"""
LATER_STATE = (
    STATE.replace(b"life 1 ", b"life 2 ")
    .replace(b"commands 0", b"commands 1")
    .replace(b"rows 3", b"place admissions 2\nrows 4")
)

FAULTY_STATES = {
    b"": "1 version in line 1",
    HEADING + ROW: "1 version in line 1",
    STATE.replace(b"state 1", b"state 2"): "1 version in line 1",
    STATE.replace(b"state 1", b"state 1 extend"): "1 version in line 1",
    STATE.replace(b"remote 0", b"remote 0 patience 3"): "2 row in line 3",
    STATE.replace(b"costs\n", b"\n"): "2 row in line 4",
    STATE.replace(b"tenant a", b"tenant A"): "3 name in line 3",
    STATE.replace(b"nodes 2", b"nodes 1"): "4 number in line 3",
    STATE.replace(
        b"rows", b"place admissions 1\ntenant a nodes 2 arcs 0 life 1 spread 0 churn 0 remote 0 commands 0\nrows"
    ): ("5 repeated-name in line 6"),
    STATE.replace(b"costs\n", b"costs\nmachine m 1\n"): "9 arena-nodes in line 5",
    STATE.replace(b"commands 0", b"commands 2"): "11 commands in line 3",
    STATE.replace(b"costs\n", b"costs 0\n"): "11 commands in line 4",
    STATE.replace(b"admissions 1", b"admissions 0"): "4 number in line 2",
    b"firm state 1\nrows 0\n": "12 places in line 2",
    STATE[:-1]: "13 rows in line 5",
    STATE.replace(b"rows 3\n", b""): "13 rows in line 5",
    STATE + STATE: "13 rows in line 6",
}


class Served(NamedTuple):
    """The text of a roster, an input, and the output."""

    roster: bytes
    text: bytes
    output: bytes


def filled(machines: int, slots: int, exchanges: Sequence[tuple[bytes, bytes]]) -> Served:
    """Return a tenant of the largest arena that adds machines of this many slots, and then has these exchanges."""
    asked = [(b"machine m%d %d" % (number, slots), b"ok") for number in range(machines)] + [*exchanges]
    return Served(
        HEADING + b"a,4096,65536,10000,0,0\n",
        b"".join(b"a %b\n" % command for command, _ in asked),
        b"".join(b"a %d %b\n" % (number, reply) for number, (_, reply) in enumerate(asked, 1)),
    )


EVERY_NODE = [
    (b"job j 1", b"no 12 arena-nodes"),
    (b"show", b"ok machines 4094 jobs 0 tasks 0 running 0 nodes 4096 of 4096 arcs 8188 of 65536"),
]
EVERY_ARC = [
    (b"job j 1", b"ok"),
    *((b"task j %c" % name, b"ok") for name in b"abcde"),
    (b"job k 1", b"no 13 arena-arcs"),
    (b"show", b"ok machines 1008 jobs 1 tasks 5 running 0 nodes 1016 of 4096 arcs 65536 of 65536"),
]

SERVED = [
    Served(HEADING + ROW, b"", b""),
    Served(HEADING + ROW, b"a show\n", SHOWN),
    Served(GREATEST.ljust(MAX_ROSTER, b"\n"), b"a show", SHOWN.replace(b"2 arcs 0 of 0", b"4096 arcs 0 of 65536")),
    filled(4094, 1, EVERY_NODE),
    filled(1008, 64, EVERY_ARC),
    Served(
        HEADING + b"a,2,0,1000000,0,0\n",
        b"a fly\n" * 200_000,
        b"".join(b"a %d no 2 bad-command\n" % number for number in range(1, 200_001)),
    ),
]


def run(built: str, words: Sequence[str | bytes], text: bytes = b"", folder: Path | None = None) -> Run:
    done = subprocess.run([built, *words], input=text, capture_output=True, timeout=LIMIT_SECONDS, cwd=folder)
    return Run(done.returncode, done.stdout, done.stderr)


def faulty_words(built: str) -> None:
    """Faulty words are reported, with status 2, and nothing is written; so are words that are not text."""
    for words, first in FAULTY_WORDS:
        found = run(built, words, b"a show\n")
        require(found.status == 2 and not found.output, f"{words}: {found}")
        is_whole = found.faults.endswith(b"\n\nFor more information, try '--help'.\n")
        require(found.faults.startswith(f"error: {first}\n".encode()) and is_whole, f"{words}: {found.faults.decode()}")
    for said, all_words in NOT_ONE.items():
        for words in all_words:
            found = run(built, words, b"a show\n")
            require(found == (2, b"", f"firm: {said}\n".encode()), f"{words}: {found}")
    found = run(built, [b"--roster", b"\xff.csv"])
    require(found == (2, b"", b"firm: the command line is not UTF-8\n"), found)


def requests(built: str) -> None:
    """Help and version are written with status 0; if the words request both, the first counts."""
    asked: dict[str, list[list[str]]] = {
        HELP: [["--help"], ["-h"], ["--workers", "3", "--help"], ["--help", "--version"]],
        VERSION: [["--version"], ["-V"], ["--roster", "r.csv", "--version", "--help"]],
    }
    for text, requests_for_it in asked.items():
        for words in requests_for_it:
            found = run(built, words, b"a show\n")
            require(found == (0, text.encode(), b""), f"{words}: {found}")


def example_of_the_help(built: str, folder: Path) -> None:
    """The session in the help: firm writes that output for these files."""
    indented = [line[2:] for line in HELP.partition("Example:\n")[2].splitlines() if line.startswith("  ")]
    shown: dict[str, str] = {}
    for line in indented:
        if line.startswith("$ "):
            command = line[2:]
            shown[command] = ""
        else:
            shown[command] += line + "\n"
    for command in list(shown)[:-1]:
        (folder / command.removeprefix("cat ")).write_text(shown[command])
    done = subprocess.run(
        ["sh", "-c", command.replace("firm", '"$0"', 1), built], cwd=folder, capture_output=True, timeout=LIMIT_SECONDS
    )
    require(done.stdout.decode() == shown[command] and not done.stderr, f"{command}: {done}")


def faults_that_nobody_reads(built: str, folder: Path) -> None:
    """A fault that can't be written changes no status."""
    faulty: dict[int, list[str]] = {2: [], 3: ["--roster", f"{folder}/none"]}
    with open("/dev/full", "wb") as full:
        for status, words in faulty.items():
            done = subprocess.run([built, *words], stdin=subprocess.DEVNULL, stderr=full)
            require(done.returncode == status, f"{words}: full")
            done = subprocess.run([built, *words], stdin=subprocess.DEVNULL, preexec_fn=partial(os.close, 2))
            require(done.returncode == status, f"{words}: closed")


def faulty_rosters() -> Iterator[tuple[bytes, str]]:
    """Yield the text of each faulty roster, and its first fault."""
    for front, faulty in FAULTY_ROSTERS.items():
        for fault, ends in faulty.items():
            yield from ((front + end, fault) for end in ends)


def rosters(built: str, folder: Path) -> None:
    """A faulty roster gives status 3, and nothing is read or written; others are served, even the longest."""
    path = folder / "roster.csv"
    for text, fault in faulty_rosters():
        path.write_bytes(text)
        found = run(built, ["--roster", str(path)], b"a show\n")
        require(found == (3, b"", f"firm: roster fault {fault}\n".encode()), f"{text[-60:]!r}: {found}")
    for text, commands, output in SERVED:
        path.write_bytes(text)
        for words in (["--roster", str(path)], [f"--roster={path}", "--workers=8", "--"]):
            found = run(built, words, commands)
            require(found == (0, output, b""), f"{words}: {text[-40:]!r}: {commands[:40]!r}: {found.faults!r}")


def states(built: str, folder: Path) -> None:
    """A faulty state gives status 3, and nothing is read or written; firm continues from others."""
    path = folder / "state"
    for text, fault in FAULTY_STATES.items():
        path.write_bytes(text)
        found = run(built, ["--state", str(path)], b"a show\n")
        require(found == (3, b"", f"firm: state fault {fault}\n".encode()), f"{text!r}: {found}")
    for text, output in ((STATE, SHOWN), (LATER_STATE, SHOWN.replace(b"a 1 ", b"a 2 "))):
        path.write_bytes(text)
        for words in (["--state", str(path)], ["--workers=8", f"--state={path}", "--"]):
            found = run(built, words, b"a show\n")
            require(found == (0, output, b""), f"{words}: {text!r}: {found}")
    for words in (["--state", f"{folder}/none"], ["--state", str(folder)]):
        found = run(built, words, b"a show\n")
        require(found == (3, b"", b"firm: cannot read state\n"), found)
    found = run(built, ["--state", "/dev/zero"])
    require(found == (3, b"", b"firm: state too long\n"), found)


def names_of_files(built: str, folder: Path) -> None:
    """firm opens exactly the named file, letter by letter, and no other in place of a missing one."""
    for option, text, of_tenant in (("--roster", HEADING + ROW, b"\n%b,"), ("--state", STATE, b"tenant %b ")):
        tenants = [b"t%d" % number for number in range(len(FILE_NAMES))]
        for name, tenant in zip(FILE_NAMES, tenants):
            (folder / name).write_bytes(text.replace(of_tenant % b"a", of_tenant % tenant))
        for name, tenant in zip(FILE_NAMES, tenants):
            found = run(built, [option, name], tenant + b" show\n", folder)
            require(found == (0, SHOWN.replace(b"a ", tenant + b" ", 1), b""), f"{option} {name!r}: {found}")
        for name in MISSING_NAMES:
            found = run(built, [option, name], b"", folder)
            require(found == (3, b"", b"firm: cannot read %b\n" % option[2:].encode()), f"{option} {name!r}: {found}")


def bytes_of_the_files(built: str, folder: Path) -> None:
    """firm reads one byte more of a roster's or a state's file than it may have, and no further one."""
    whole_files = {
        "--roster": ((HEADING + ROW).ljust(200_000, b"\n"), MAX_ROSTER, b"roster fault 2 row"),
        "--state": (STATE.ljust(MAX_STATE + 200_000, b"\n"), MAX_STATE, b"state too long"),
    }
    for option, (text, most, fault) in whole_files.items():
        path = folder / f"fifo{option}"
        os.mkfifo(path)
        pipe = os.open(path, os.O_RDWR)
        fcntl.fcntl(pipe, fcntl.F_SETPIPE_SZ, 1 << 20)
        writer = threading.Thread(target=write_all, args=(pipe, text), daemon=True)
        writer.start()
        found = run(built, [option, str(path)], b"a show\n")
        require(found == (3, b"", b"firm: %b\n" % fault), found)
        writer.join(LIMIT_SECONDS)
        require(not writer.is_alive(), f"{option}: less was read than may be")
        os.set_blocking(pipe, False)
        left = len(os.read(pipe, 1 << 20))
        os.close(pipe)
        require(left == len(text) - most - 1, f"{option}: {len(text) - left} bytes were read")


def write_all(pipe: int, text: bytes) -> None:
    with open(pipe, "wb", closefd=False) as file:
        file.write(text)


def unread_input(built: str, folder: Path) -> None:
    """If the words, the roster or the state are faulty, no byte of the input is read."""
    none = f"{folder}/none"
    unserved: list[list[str]] = [[], ["--help"], ["--version"], ["--roster", none], ["--state", none]]
    for words in unserved:
        ours, theirs = os.pipe()
        os.write(theirs, b"a show\n")
        subprocess.run([built, *words], stdin=ours, capture_output=True, timeout=LIMIT_SECONDS)
        require(os.read(ours, 100) == b"a show\n", words)
        os.close(ours)
        os.close(theirs)


def main() -> int:
    parser = argparse.ArgumentParser(description=(__doc__ or "").splitlines()[0])
    program.add_program(parser)
    built: str = parser.parse_args().program
    with tempfile.TemporaryDirectory(prefix="firm-") as name:
        folder = Path(name)
        checks: dict[str, Check] = {
            "words at fault": partial(faulty_words, built),
            "requests": partial(requests, built),
            "example of the help": partial(example_of_the_help, built, folder),
            "faults that nobody reads": partial(faults_that_nobody_reads, built, folder),
            "rosters": partial(rosters, built, folder),
            "states": partial(states, built, folder),
            "names of files": partial(names_of_files, built, folder),
            "bytes of the files": partial(bytes_of_the_files, built, folder),
            "unread input": partial(unread_input, built, folder),
        }
        return run_suites(Suite(checks))


if __name__ == "__main__":
    run_script(main)
