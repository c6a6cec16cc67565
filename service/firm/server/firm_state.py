"""Computes states of services with the program firm_state, from a roster or a state and the lines after it.

docs/FORMATS.md describes a state's text. Refusals have firm_state's wording.
"""

from __future__ import annotations

import fcntl
import os
import re
import selectors
import signal
import subprocess
from collections.abc import Iterable, Iterator, Sequence
from contextlib import contextmanager, suppress
from dataclasses import dataclass, field
from hashlib import blake2b
from pathlib import Path
from typing import IO, NamedTuple, NoReturn

from ..common.programs import NotBuilt, program_of
from ..common.roster import Limits

PROGRAM = "firm_state"
HEADING = b"firm state 1\n"
EXTENDED_HEADING = b"firm state 1 extended\n"  # of a service whose roster has a patience
DIGEST_BYTES = 16
CALLER_FAULTS = 3  # the exit status for a faulty roster, state or tenant
MAX_BYTES = 41_943_040  # of a state or a roster; none is longer
# A small pipe, since each line may take the time of a round: a working program reads the next ones soon.
PIPE_BYTES = 4_096
READ_BYTES = 262_144
SILENT_SECONDS = 3_600.0  # in which firm_state must read or write a byte, also on a busy host

_FAULT = re.compile(r"firm_state: (?P<of>roster|state|tenant) fault (?P<number>\d+) (?P<name>[a-z-]+)(?P<where>.*)")
_LINE = re.compile(r" in line (\d+)")


@dataclass(frozen=True, slots=True)
class Opening:
    """The file that a service begins with: a roster or a state."""

    path: Path
    is_state: bool = False

    def words(self) -> list[str]:
        """Return the option of firm, firm_state and firm_explain."""
        return ["--state" if self.is_state else "--roster", str(self.path)]


@dataclass(frozen=True, slots=True)
class StatePart:
    """Changes of a state after its lines: other states to merge, then the tenants to keep."""

    merged: Sequence[Path] = ()
    tenants: Sequence[str] = ()  # empty: all

    def words(self) -> list[str]:
        merged = ["--merge", *map(str, self.merged)] if self.merged else []
        return merged + (["--tenant", *self.tenants] if self.tenants else [])


WHOLE = StatePart()


class FirmStateError(Exception):
    """firm_state wrote no state: `str` is its message."""

    def __init__(self, status: int, said: str) -> None:
        super().__init__(said or f"firm_state ended with status {status}")
        self.status = status  # its exit status, or a signal's number below 0


class StateRefused(FirmStateError):
    """firm_state refused a roster, a state or a tenant by name."""

    def __init__(self, said: str, found: re.Match[str]) -> None:
        super().__init__(CALLER_FAULTS, said)
        line = _LINE.search(found["where"])
        self.of = found["of"]  # `roster`, `state` or `tenant`
        self.number, self.name = int(found["number"]), found["name"]
        self.line = int(line[1]) if line else None  # of a state


def fold(opening: Opening, lines: Iterable[bytes] = (), part: StatePart = WHOLE) -> bytes:
    """Return the text of the state after the lines, in pieces of any size. Raise `NotBuilt` and `FirmStateError`."""
    program = program_of(PROGRAM)
    words = [str(program), *opening.words(), *part.words()]
    pipe = subprocess.PIPE
    try:
        process = subprocess.Popen(words, stdin=pipe, stdout=pipe, stderr=pipe, bufsize=0)
    except OSError as error:
        raise NotBuilt(f"states come from {PROGRAM}, which can't be run: {program}: {error.strerror}") from error
    with process:
        try:
            text, said = Exchange(process, lines).ended()
        except BaseException:
            process.kill()
            raise
    if process.returncode:
        raise error_of(process.returncode, said.decode(errors="replace").strip())
    return text


class Exchange:
    """Writes a program's input and reads its output, while it makes progress."""

    def __init__(self, process: subprocess.Popen[bytes], lines: Iterable[bytes]) -> None:
        self._process, self._pipes = process, selectors.DefaultSelector()
        self._input, self._output, self._errors = map(required, (process.stdin, process.stdout, process.stderr))
        self._pieces, self._rest = filter(None, lines), memoryview(b"")
        self._said: dict[IO[bytes], bytearray] = {self._output: bytearray(), self._errors: bytearray()}
        os.set_blocking(self._input.fileno(), False)
        with suppress(OSError):  # if the system allows no such size
            fcntl.fcntl(self._input, fcntl.F_SETPIPE_SZ, PIPE_BYTES)

    def ended(self) -> tuple[bytes, bytes]:
        """Return its standard output and error at its end. Raise `FirmStateError` if it hangs."""
        with self._pipes:
            self._pipes.register(self._input, selectors.EVENT_WRITE)
            for pipe in self._said:
                self._pipes.register(pipe, selectors.EVENT_READ)
            while self._pipes.get_map():
                for key, _ in self._pipes.select(SILENT_SECONDS) or hangs():
                    if key.fileobj is self._input:
                        self._give()
                    else:
                        self._take(self._output if key.fileobj is self._output else self._errors)
        try:
            self._process.wait(SILENT_SECONDS)
        except subprocess.TimeoutExpired:
            hangs()
        return bytes(self._said[self._output]), bytes(self._said[self._errors])

    def _give(self) -> None:
        self._rest = self._rest or memoryview(next(self._pieces, b""))
        given = 0
        try:
            given = os.write(self._input.fileno(), self._rest) if self._rest else 0
        except BlockingIOError:
            return
        except BrokenPipeError:  # it has ended; its status has the reason
            pass
        self._rest = self._rest[given:]
        if not given:
            self._close(self._input)

    def _take(self, pipe: IO[bytes]) -> None:
        piece = os.read(pipe.fileno(), READ_BYTES)
        self._said[pipe] += piece
        if not piece:
            self._close(pipe)
        elif len(self._said[pipe]) > MAX_BYTES:
            raise FirmStateError(-signal.SIGKILL, "its output exceeds the size of a state: killing it")

    def _close(self, pipe: IO[bytes]) -> None:
        self._pipes.unregister(pipe)
        pipe.close()


def hangs() -> NoReturn:
    text = f"no input or output for {SILENT_SECONDS:g} s: killing it"
    raise FirmStateError(-signal.SIGKILL, text)


def required(pipe: IO[bytes] | None) -> IO[bytes]:
    if pipe is None:
        raise ValueError("a process without its pipes")
    return pipe


def error_of(status: int, said: str) -> FirmStateError:
    found = _FAULT.match(said) if status == CALLER_FAULTS else None
    return StateRefused(said, found) if found else FirmStateError(status, said)


def digest(text: bytes) -> str:
    """Return the digest of a state's text."""
    return blake2b(text, digest_size=DIGEST_BYTES).hexdigest()


@contextmanager
def state_file(text: bytes) -> Iterator[Opening]:
    """Yield a file in memory with a state's text, for the `with` block."""
    with open(os.memfd_create("firm-state"), "wb") as file:
        file.write(text)
        file.flush()
        yield Opening(Path(f"/proc/{os.getpid()}/fd/{file.fileno()}"), is_state=True)


# Reading a state's text.


def is_extended(text: bytes) -> bool:
    """Return whether a state's service allows tenants a patience."""
    return text.startswith(EXTENDED_HEADING)


def plain(text: bytes) -> bytes:
    """Return the same state with the heading of a service that doesn't allow one."""
    return HEADING + text.removeprefix(EXTENDED_HEADING) if is_extended(text) else text


class TaskRow(NamedTuple):
    name: str
    job: str
    machine: str | None  # None: it waits
    waits: int  # rounds that left it waiting; 0 if it runs
    prefers: tuple[str, ...]


@dataclass(slots=True)
class TenantRows:
    """A tenant's rows in a state, each kind in its order."""

    limits: Limits
    commands: int  # of the tenant so far
    costs: list[int] = field(default_factory=list)  # of its last rounds
    machines: dict[str, int] = field(default_factory=dict)  # slots by name
    jobs: dict[str, int] = field(default_factory=dict)  # weight by name
    tasks: list[TaskRow] = field(default_factory=list)


def tenants_of(text: bytes) -> list[TenantRows]:
    """Return the tenants of a state that firm_state wrote, by their places. Raise `ValueError` for any other text."""
    rows = text.decode("ascii").split("\n")
    is_known = text.startswith((HEADING, EXTENDED_HEADING))
    if not is_known or len(rows) < 3 or rows[-2:] != [f"rows {len(rows) - 3}", ""]:
        raise ValueError("this is not a complete state of a known version")
    found: list[TenantRows] = []
    for row in rows[1:-2]:  # at each start of firmd; takes a microsecond a row
        words = row.split(" ")
        kind = words[0]
        if kind == "task":
            where, prefers = words[4], tuple(words[6:])
            is_placed = words[3] == "at"
            at, waits = (where, 0) if is_placed else (None, int(where))
            found[-1].tasks.append(TaskRow(words[2], words[1], at, waits, prefers))
        elif kind == "machine":
            found[-1].machines[words[1]] = int(words[2])
        elif kind == "tenant":
            found.append(tenant_row(words[1:]))
        elif kind != "place":
            add_row(found[-1], kind, words[1:])
    return found


def tenant_row(words: list[str]) -> TenantRows:
    numbers = {name: int(number) for name, number in zip(words[1::2], words[2::2], strict=True)}
    commands = numbers.pop("commands")
    return TenantRows(Limits(words[0], **numbers), commands)


def add_row(tenant: TenantRows, kind: str, words: list[str]) -> None:
    """Add a row of a kind with few rows."""
    if kind == "job":
        tenant.jobs[words[0]] = int(words[1])
    elif kind == "costs":
        tenant.costs = [int(word) for word in words]
    else:
        raise ValueError(f"this is not a row of a state: {kind}")
