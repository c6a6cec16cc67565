"""Processor time of the rounds of a stream, and of LEMON's solvers on one network."""

from __future__ import annotations

import fcntl
import os
import subprocess
import sys
import tempfile
import time
from pathlib import Path
from statistics import median
from typing import NamedTuple

from shared import TENANT, CannotRun, Roster, Stream, compile_source, hear, hear_round, network, open_rows, require, run

HERE = Path(__file__).resolve().parent
LONG = 45  # seconds after which a stream is not run again
SHORT = 2.0  # the least seconds of repeated runs of a stream
REST = 0.005  # seconds before a round, in which all threads of the program fall asleep
BATCH = 64  # lines
MAX_PIPED = 1 << 20  # bytes, Linux's maximum
SOLVED = "3"  # times that LEMON solves a network in each turn
ROUND = f"{TENANT} round"


class Round(NamedTuple):
    """A round's cost, its network and the network's size, and the number of tasks."""

    cost: int
    arcs: int
    tasks: int
    network: str


class Timed(NamedTuple):
    """A round, and the least seconds of each program and of each of LEMON's solvers for it."""

    round: Round
    programs: list[float]
    solvers: dict[str, float]


class Counts(NamedTuple):
    """A round's searches, the looks at arcs in them, and the looks of its proposal."""

    searches: int
    looks: int
    proposed: int


class Measured(NamedTuple):
    """The replies of each part of a stream, the round's last, and the processor time of each round."""

    replies: list[list[str]]
    seconds: list[float]


class Served:
    """A program, given by its first words, with some tenants of one stream; it reads a pipe and writes a pipe."""

    def __init__(self, words: list[str], stream: Stream, tenants: int) -> None:
        heading, row = stream.roster.splitlines()
        self.names = [f"{TENANT}{number}" for number in range(tenants)]
        self.stream = stream
        self.file = tempfile.NamedTemporaryFile("w", suffix=".csv")
        self.file.writelines(line + "\n" for line in [heading, *(of_tenant(row, name) for name in self.names)])
        self.file.flush()
        self.words = [*words, "--roster", self.file.name]

    def run(self) -> Measured:
        """Send the stream of all tenants, part by part, each part followed by a round of each tenant."""
        measured = Measured([], [])
        with subprocess.Popen(self.words, stdin=subprocess.PIPE, stdout=subprocess.PIPE) as process:
            assert process.stdin and process.stdout
            fcntl.fcntl(process.stdout, fcntl.F_SETPIPE_SZ, MAX_PIPED)
            clock = clock_of(process.pid)
            for part in self.stream.parts:
                replies = [self.ask_all(process, lines) for lines in batches(part)]
                time.sleep(REST)
                before = time.clock_gettime(clock)
                replies.append(self.ask_all(process, [ROUND]))
                measured.seconds.append((time.clock_gettime(clock) - before) / len(self.names))
                measured.replies.append([reply for batch in replies for reply in batch])
            process.stdin.close()
            require(process.wait() == 0, "the program failed")
        return measured

    def ask_all(self, process: subprocess.Popen[bytes], lines: list[str]) -> list[str]:
        """Return the replies to these lines of the stream, which must be the same for each tenant."""
        assert process.stdin and process.stdout
        process.stdin.write("".join(of_tenant(line, name) + "\n" for name in self.names for line in lines).encode())
        process.stdin.flush()
        replies = [[process.stdout.readline().decode() for _ in lines] for _ in self.names]
        wanted = [of_stream(reply, self.names[0]) for reply in replies[0]]
        for name, heard in zip(self.names, replies):
            require([of_stream(reply, name) for reply in heard] == wanted, f"{name} gets other replies")
        return wanted


class ReadWhole(Served):
    """A program that reads all its input before it answers. A round's time is that of a run from file to file that
    ends with the round, less that of one that ends a line earlier."""

    def run(self) -> Measured:
        measured, lines = Measured([], []), list[str]()
        for part in self.stream.parts:
            lines += part
            _, before = self.run_file(lines)
            lines.append(ROUND)
            replies, behind = self.run_file(lines)
            measured.seconds.append(behind - before)
            measured.replies.append(replies[-len(part) - 1 :])
        return measured

    def run_file(self, lines: list[str]) -> tuple[list[str], float]:
        """Return the replies to these lines of one tenant, and the processor time of the whole run."""
        (name,) = self.names
        with tempfile.TemporaryFile("w+") as text, tempfile.TemporaryFile("w+") as output:
            text.writelines(of_tenant(line, name) + "\n" for line in lines)
            text.seek(0)
            process = subprocess.Popen(self.words, stdin=text, stdout=output)
            _, status, used = os.wait4(process.pid, 0)
            process.returncode = os.waitstatus_to_exitcode(status)
            require(process.returncode == 0, "the program failed")
            output.seek(0)
            return [of_stream(reply, name) for reply in output], used.ru_utime + used.ru_stime


def of_tenant(text: str, name: str) -> str:
    """Return a row or a line of the stream as that of a tenant of this name."""
    return name + text.removeprefix(TENANT)


def of_stream(reply: str, name: str) -> str:
    """Return the stream's reply that corresponds to this tenant's reply."""
    require(reply.startswith(name) and reply.endswith("\n"), "the program ended, or left a line without a reply")
    return TENANT + reply[len(name) : -1]


def clock_of(pid: int) -> int:
    """Return the system's clock of the processor time of all threads of a process."""
    return (~pid << 3) | 2


def batches(lines: list[str]) -> list[list[str]]:
    """Return the lines in pieces whose replies fit into a pipe for all tenants."""
    return [lines[start : start + BATCH] for start in range(0, len(lines), BATCH)]


class Subjects(NamedTuple):
    """The measured programs by their first words, with this many tenants, and one over LEMON's solvers, if any."""

    programs: list[list[str]]
    tenants: int
    lemon: str | None
    read_whole: bool  # the input, before they answer


def time_stream(subjects: Subjects, stream: Stream, repeats: int) -> list[Timed]:
    """Return the rounds of a stream, with the least times of some turns, of more if they are short and of fewer if
    they take long: other load of a host only adds to a time. Load may also lessen a difference of two runs, so that
    is the median. All programs must give the same replies."""
    kind = ReadWhole if subjects.read_whole else Served
    services = [kind(words, stream, subjects.tenants) for words in subjects.programs]
    rounds = rounds_of(stream, services[0].run().replies)
    begun, turns = time.monotonic(), list[list[Measured]]()
    answers: list[list[dict[str, float]]] = []
    while len(turns) < repeats or time.monotonic() - begun < SHORT * len(services):
        turns.append([served.run() for served in services])
        require(all(found.replies == turns[0][0].replies for found in turns[-1]), "two runs gave two outputs")
        answers.append([solve(subjects.lemon, found) if subjects.lemon else {} for found in rounds])
        if time.monotonic() - begun > LONG * len(services):
            break
    timed = []
    for place, found in enumerate(rounds):
        times = [[turn[number].seconds[place] for turn in turns] for number in range(len(services))]
        programs = [median(each) if subjects.read_whole else min(each) for each in times]
        names = answers[0][place]
        timed.append(Timed(found, programs, {name: min(each[place][name] for each in answers) for name in names}))
    return timed


def rounds_of(stream: Stream, heard: list[list[str]]) -> list[Round]:
    """Return the rounds of a stream with these replies; each placement must be legal and cost what its reply says."""
    tenant, rounds = open_rows(stream.roster), []
    for lines, replies in zip(stream.parts, heard):
        for line, reply in zip(lines, replies):
            hear(tenant, line, reply)
        rows = network(tenant)
        cost = hear_round(tenant, replies[-1])
        rounds.append(Round(cost, len(rows.arcs), len(tenant.tasks), rows.text()))
    return rounds


def read_counts(words: list[str], stream: Stream) -> list[Counts]:
    """Return the counts of each round, by the program of these words, which writes them after the replies."""
    lines = [line for part in stream.parts for line in (*part, ROUND)]
    text = "".join(line + "\n" for line in lines).encode()
    with Roster(stream.roster.encode()) as path:
        done = run([*words, "--counts"], path, text)
    require(done.status == 0, f"{words[0]}: {done.faults.decode()}")
    counted = done.output.decode().splitlines()[len(lines) :]
    require(len(counted) == len(stream.parts), f"{words[0]}: counts of {len(counted)} rounds of {len(stream.parts)}")
    return [Counts(*map(int, line.split()[1:])) for line in counted]


def build_lemon(folder: str) -> str | None:
    """Build the program over LEMON's solvers; return None if LEMON is not installed."""
    program = str(Path(folder) / "lemon")
    try:
        compile_source(["g++", "-O2", "-std=c++14", "-w", "-o", program, str(HERE / "lemon.cc")])
    except CannotRun:
        print("LEMON is not measured: lemon.cc does not compile (Debian has LEMON as liblemon-dev)", file=sys.stderr)
        return None
    return program


def solve(lemon: str, found: Round) -> dict[str, float]:
    """Return the least seconds of each of LEMON's solvers for a round's network; each must find the round's cost."""
    done = subprocess.run([lemon, SOLVED], input=found.network, capture_output=True, text=True, check=True)
    seconds = {}
    for name, least, _, cost in map(str.split, done.stdout.splitlines()):
        require(int(cost) == found.cost, f"the cost is {found.cost}, and LEMON's {name} finds {cost}")
        seconds[name] = float(least)
    return seconds
