"""Runs the built program on a roster and an input."""

from __future__ import annotations

import argparse
import os
import select
import shlex
import subprocess
import tempfile
import time
from collections import Counter
from contextlib import contextmanager
from dataclasses import dataclass
from pathlib import Path
from types import TracebackType
from typing import IO, Iterator, Mapping, NamedTuple, Sequence

from harness.checks import compile_source, require
from harness.service import is_state

ROOT = Path(__file__).resolve().parents[2]
OUT = ROOT / "out" / "tests"
WORKERS = 2  # by default
LIMIT_SECONDS = 600  # for a run, on a busy host
REPLY_SECONDS = 300  # for a reply, and for an end, on a busy host
# The time for which an idle service is watched, the pause between looks at it, and the most watches.
IDLE_SECONDS, LOOKS, MAX_WATCHES = 0.4, 40, 20

Environment = Mapping[str, str]


def built(crate: str) -> Path:
    """Return the path of the built program of a crate."""
    return ROOT / "crates" / crate / "out" / crate


BUILT = built("firm")
EXPLAIN = built("firm_explain")


def measuring(explain: str | Path = EXPLAIN) -> list[str]:
    """Return the first words of a run of firm_explain that answers on one thread, and may report the cost of each
    round."""
    return [str(explain), "measure"]


class Run(NamedTuple):
    """A run's end: its exit status, negative for a signal, and its output."""

    status: int
    output: bytes
    faults: bytes


def program_file(path: str) -> str:
    """Return the path of an existing program, for an argument."""
    if not os.access(path, os.X_OK) or os.path.isdir(path):
        raise argparse.ArgumentTypeError(f"there is no program {path} (./firm builds the repository's own)")
    return path


@dataclass(frozen=True)
class ProgramOptions:
    """The program as a command line names it, by `add_program`, `add_under` and `add_workers`."""

    program: str
    under: str
    workers: str

    def command(self, workers: str | None = None) -> list[str]:
        """Return the first words of a run, by default with the program's number of workers."""
        count = self.workers if workers is None else workers
        return shlex.split(self.under) + [self.program] + (["--workers", count] if count else [])


def add_program(parser: argparse.ArgumentParser) -> None:
    named = "the built program (default: %(default)s)"
    parser.add_argument("--program", type=program_file, default=str(BUILT), metavar="FILE", help=named)


def add_under(parser: argparse.ArgumentParser) -> None:
    parser.add_argument("--under", default="", metavar="COMMAND", help="command that runs it, as 'valgrind -q'")


def add_workers(parser: argparse.ArgumentParser, default: str = "") -> None:
    named = "the number of its workers (default: the program's own)"
    parser.add_argument("--workers", default=default, metavar="N", help=named)


class Roster:
    """A temporary file with a roster or a state, for as long as the `with` block lasts."""

    def __init__(self, text: bytes) -> None:
        self.text = text

    def __enter__(self) -> str:
        handle, self.path = tempfile.mkstemp(prefix="firm-", suffix=".csv")
        with os.fdopen(handle, "wb") as file:
            file.write(self.text)
        return self.path

    def __exit__(self, *_: object) -> None:
        os.unlink(self.path)


@contextmanager
def opening(text: bytes) -> Iterator[list[str]]:
    """Write a temporary file and give the words that name it to a program."""
    with Roster(text) as path:
        yield ["--state" if is_state(text) else "--roster", path]


def run(
    command: Sequence[str],
    roster_path: str,
    text: bytes,
    environment: Environment | None = None,
    seconds: float = LIMIT_SECONDS,
) -> Run:
    """Run the program on a roster and an input."""
    return run_words([*command, "--roster", roster_path], text, environment, seconds)


def run_words(
    words: Sequence[str], text: bytes, environment: Environment | None = None, seconds: float = LIMIT_SECONDS
) -> Run:
    """Run it with all the words of the command line."""
    whole = {**os.environ, **(environment or {})}
    done = subprocess.run(words, input=text, capture_output=True, timeout=seconds, env=whole)
    return Run(done.returncode, done.stdout, done.stderr)


class Client:
    """A client of the program, over pipes that stay open."""

    def __init__(
        self,
        command: Sequence[str],
        roster_path: str,
        environment: Environment | None = None,
        stdin: int = subprocess.PIPE,
    ) -> None:
        self.process = subprocess.Popen(
            [*command, "--roster", roster_path],
            stdin=stdin,
            stdout=subprocess.PIPE,
            stderr=subprocess.PIPE,
            bufsize=0,
            env={**os.environ, **(environment or {})},
        )
        self.received = b""

    def __enter__(self) -> Client:
        return self

    def __exit__(self, kind: type[BaseException] | None, error: BaseException | None, _: TracebackType | None) -> None:
        self.process.kill()
        self.process.wait()
        for pipe in (self.process.stdin, self.process.stdout, self.process.stderr):
            if pipe is not None:
                pipe.close()

    @property
    def input(self) -> IO[bytes]:
        return opened(self.process.stdin)

    @property
    def output(self) -> IO[bytes]:
        return opened(self.process.stdout)

    def send(self, text: bytes) -> None:
        self.input.write(text)

    def reply(self, seconds: float = REPLY_SECONDS) -> bytes | None:
        """Return the next line of the output, without its end; None if none comes in time, or the output has ended."""
        ends = time.monotonic() + seconds
        while b"\n" not in self.received:
            if not select.select([self.output], [], [], max(0, ends - time.monotonic()))[0]:
                return None
            more = os.read(self.output.fileno(), 65536)
            if not more:
                return None
            self.received += more
        line, self.received = self.received.split(b"\n", 1)
        return line

    def ask(self, line: bytes, seconds: float = REPLY_SECONDS) -> bytes | None:
        """Return the reply to a line."""
        self.send(line + b"\n")
        return self.reply(seconds)

    def threads(self) -> set[str]:
        """Return its threads, by their numbers."""
        return set(os.listdir(f"/proc/{self.process.pid}/task"))

    def sleeping_threads(self) -> Iterator[str]:
        """Yield the threads that neither run nor would if a processor were free."""
        for stat in Path(f"/proc/{self.process.pid}/task").glob("*/stat"):
            if stat.read_text().rpartition(")")[2].split()[0] != "R":
                yield stat.parent.name

    def require_idle(self, awaited: str) -> None:
        """Require that each of its threads sleeps, soon after now, and that they take next to no processor time for a
        while.

        A thread that polls is never seen asleep, however little a busy host lets it run. One that sleeps may seem to
        wait for a processor, through a watch or two.
        """
        rested = set[str]()
        for _ in range(MAX_WATCHES):
            asleep, before = Counter[str](), self.processor_seconds()
            for _ in range(LOOKS):
                time.sleep(IDLE_SECONDS / LOOKS)
                asleep.update(self.sleeping_threads())
            rested.update(thread for thread, looks in asleep.items() if looks > LOOKS / 4)
            used, awake = self.processor_seconds() - before, self.threads() - rested
            if not awake and used < IDLE_SECONDS / 4:
                return
        require(False, f"{len(awake)} threads awake, {used:.2f} processor seconds used while it waits for {awaited}")

    def processor_seconds(self) -> float:
        """Return its processor time so far, user and system."""
        fields = Path(f"/proc/{self.process.pid}/stat").read_text().rpartition(")")[2].split()
        return (int(fields[11]) + int(fields[12])) / os.sysconf("SC_CLK_TCK")

    def end(self, seconds: float = REPLY_SECONDS) -> Run:
        """Return its end within the time, without a close of its input, with the rest of its output."""
        status = self.process.wait(seconds)
        left = b"" if self.output.closed else self.output.read()
        return Run(status, self.received + left, opened(self.process.stderr).read())

    def close(self, seconds: float = REPLY_SECONDS) -> Run:
        """Close its input, and return its end, as `end` does."""
        self.input.close()
        return self.end(seconds)


def opened(pipe: IO[bytes] | None) -> IO[bytes]:
    """Return a pipe to a process that was started with one."""
    if pipe is None:
        raise ValueError("the process has no such pipe")
    return pipe


def build_refusing(folder: str | Path) -> str:
    """Build the library that is preloaded to refuse memory and to fail or shorten reads and writes; return its path."""
    library = str(Path(folder) / "refuse.so")
    compile_source(["cc", "-O2", "-shared", "-fPIC", "-o", library, str(ROOT / "tests" / "refuse.c")])
    return library


def keep(name: str, opened: bytes, text: bytes) -> Path:
    """Store a roster or a state, and an input, under out/, to be run again by hand; return the path's beginning."""
    OUT.mkdir(parents=True, exist_ok=True)
    (OUT / f"{name}.{'state' if is_state(opened) else 'csv'}").write_bytes(opened)
    (OUT / f"{name}.txt").write_bytes(text)
    return OUT / name
