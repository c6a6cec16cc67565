"""The kit for checks of firmd: it starts, kills and queries the daemon, and plays clients with random lines."""

from __future__ import annotations

import random
import re
import signal
import socket
import subprocess
import sys
import tempfile
import threading
import time
from collections.abc import Callable, Iterator, Sequence
from contextlib import contextmanager, suppress
from dataclasses import dataclass, field
from pathlib import Path

from harness import program, service
from harness.checks import require
from harness.deployed import SERVICE
from harness.files import write_program
from harness.small_streams import Stream
from harness.waiting import pause_since

NO_LIMITS = service.Limits(2, 0, 1, 0, 0)
FIRMD = [sys.executable, str(SERVICE / "firmd")]
JOURNAL_TOOL = [sys.executable, str(SERVICE / "firmctl"), "journal"]
CHECKS_AT_A_TIME = 4
HEADING = b"tenant,nodes,arcs,life,spread,churn\n"
ROSTER = HEADING + b"alpha,30,300,1000000000,1,2\nbeta,30,300,1000000000,0,3\n"
START_SECONDS = 180  # for a start or an end, on a busy host
NOBODY = 65534  # a user and a group without rights
REPLY_SECONDS = 300  # for a reply, or any other wait, on a busy host
LAST_LETTERS = 2_000  # of a daemon's messages, if a check fails
ROWS = [
    b"alpha machine m1 2",
    b"alpha job j 10",
    b"alpha task j a",
    b"beta machine m1 1",
    b"beta job low 2",
    b"beta task low l",
]
SHOWN = b"ok machines 1 jobs 1 tasks 1 running %d nodes 5 of 30 arcs 7 of 300"


class Gone(Exception):
    """Signals that the daemon has left or closed the connection, with its last message."""


class Client:
    """A connection to a socket of firmd."""

    def __init__(self, path: Path) -> None:
        self.path = path
        self.socket = socket.socket(socket.AF_UNIX)
        self.socket.settimeout(REPLY_SECONDS)
        try:
            connect(self.socket, path)
        except OSError as error:
            raise self.gone() from error
        self.received = b""

    def __enter__(self) -> Client:
        return self

    def __exit__(self, *_: object) -> None:
        self.socket.close()

    def gone(self) -> Gone:
        """Return the exception for a daemon that has left, with its last words: its errors are in its folder, as is
        its state's folder."""
        return Gone(f"{self.path.name}: {last_words(*self.path.parents[:2])}")

    def send(self, text: bytes) -> None:
        try:
            self.socket.sendall(text)
        except ConnectionError as error:
            raise self.gone() from error

    def reply(self) -> bytes:
        """Return the next line, without its end."""
        while b"\n" not in self.received:
            try:
                more = self.socket.recv(65536)
            except ConnectionError as error:
                raise self.gone() from error
            if not more:
                raise self.gone()
            self.received += more
        line, self.received = self.received.split(b"\n", 1)
        return line

    def ask(self, line: bytes) -> bytes:
        self.send(line + b"\n")
        return self.reply()

    def rest(self) -> bytes:
        """Return all further bytes until the connection is closed."""
        with suppress(ConnectionError):
            while more := self.socket.recv(65536):
                self.received += more
        return self.received

    def end(self) -> bytes:
        """End the requests, and return all further bytes."""
        with suppress(OSError):  # it may have been closed
            self.socket.shutdown(socket.SHUT_WR)
        return self.rest()


def last_words(*folders: Path) -> str:
    """Return the last words of a daemon of one of these folders, if known."""
    logs = [folder / "errors" for folder in folders]
    said = next((log.read_text(errors="replace") for log in logs if log.exists()), "")
    return f"it said last: {said[-LAST_LETTERS:].strip()}"


def connect(client: socket.socket, path: Path) -> None:
    """Connect; try again while the queue of connections to accept is full."""
    ends = time.monotonic() + REPLY_SECONDS
    while True:
        try:
            return client.connect(str(path))
        except BlockingIOError:
            if time.monotonic() > ends:
                raise
            time.sleep(0.01)


@dataclass
class Daemon:
    """firmd, over a state in a separate folder."""

    folder: Path
    firm: str
    options: list[str] = field(default_factory=list)
    words: list[str] = field(default_factory=lambda: FIRMD)
    restored: Path | None = None  # the first state, instead of the roster
    process: subprocess.Popen[bytes] | None = None

    @property
    def state(self) -> Path:
        return self.folder / "state"

    @property
    def any(self) -> Path:
        return self.folder / "any"

    @property
    def operator(self) -> Path:
        return self.folder / "operator"

    def spawn(self) -> subprocess.Popen[bytes]:
        words = [*self.words, "--firm", self.firm, "--state", str(self.state)]
        words += ["--restore", str(self.restored)] if self.restored else ["--roster", str(self.folder / "roster.csv")]
        words += ["--socket", str(self.any), "--operator", str(self.operator), *self.options]
        with open(self.folder / "errors", "wb") as errors:
            self.process = subprocess.Popen(words, stdin=subprocess.DEVNULL, stderr=errors)
        return self.process

    def start(self) -> Daemon:
        """Start it and wait until it serves."""
        process, began = self.spawn(), time.monotonic()
        while b"firmd: ready" not in self.said():
            require(process.poll() is None, f"it ended with status {process.poll()}: {self.said().decode()}")
            require(time.monotonic() - began < START_SECONDS, "it is not ready in time")
            pause_since(began)
        return self

    def said(self) -> bytes:
        return (self.folder / "errors").read_bytes()

    def running(self) -> subprocess.Popen[bytes]:
        require(self.process is not None, "it was started")
        return self.process  # type: ignore[return-value]

    def status(self) -> int:
        """Return its exit status, once it ends by itself."""
        return self.running().wait(START_SECONDS)

    def refuses(self, status: int, *texts: str) -> None:
        """Require that it ends at its start, with this status and these words."""
        self.spawn()
        got = self.status()
        said = self.said().decode()
        require(got == status and all(text in said for text in texts), f"status {got}: {said}")

    def stop(self, number: int = signal.SIGTERM) -> None:
        self.running().send_signal(number)
        status, said = self.status(), self.said().decode()
        require(status == 0 and "Traceback" not in said, f"status {status} at its stop: {said}")

    def kill(self) -> None:
        process = self.running()
        process.kill()
        process.wait()

    def client(self) -> Client:
        return Client(self.any)

    def firm_process(self) -> int:
        pid = self.running().pid
        return int(Path(f"/proc/{pid}/task/{pid}/children").read_text().split()[0])

    def segments(self) -> list[Path]:
        return sorted((self.state / "journal").glob("*.lines"))

    def journal(self) -> bytes:
        """Return the lines, without the journal's own headings."""
        return b"".join(map(lines_of, self.segments()))


def lines_of(segment: Path) -> bytes:
    """Return the lines of a segment, without the journal's own headings."""
    return re.sub(rb"(?m)^#.*\n", b"", segment.read_bytes())


@dataclass(frozen=True)
class Setup:
    """The programs under check, and the size of the checks."""

    program: str
    is_quick: bool
    seed: int

    @contextmanager
    def daemon(self, *options: str, roster: bytes = ROSTER, firm: str | None = None) -> Iterator[Daemon]:
        """Yield a daemon in a new folder, not yet started; remove all of it afterwards.

        The child processes of a killed daemon may still write for a moment, and so leave a part of the folder.
        """
        with tempfile.TemporaryDirectory(prefix="firmd-", ignore_cleanup_errors=True) as name:
            folder = Path(name)
            (folder / "roster.csv").write_bytes(roster)
            daemon = Daemon(folder, firm or self.program, list(options))
            try:
                yield daemon
            except Exception as error:
                if daemon.process is not None:
                    error.add_note(f"firmd, status {daemon.process.poll()}: {last_words(folder)}")
                raise
            finally:
                if daemon.process is not None and daemon.process.poll() is None:
                    daemon.kill()

    def alone(self, roster: bytes, text: bytes) -> list[bytes]:
        """Return the replies of firm alone."""
        with program.Roster(roster) as path:
            done = program.run([self.program], path, text)
        require((done.status, done.faults) == (0, b""), f"firm alone: {done.status} {done.faults!r}")
        output: bytes = done.output
        return output.splitlines()


def stand_in(folder: Path, text: str) -> str:
    """Return a program in the place of firm."""
    path = folder / "stand-in"
    write_program(path, text)
    return str(path)


def wait_for(holds: Callable[[], bool], what: str, seconds: float = REPLY_SECONDS) -> None:
    began = time.monotonic()
    while not holds():
        require(time.monotonic() - began < seconds, f"{what}, in {seconds:g} s")
        pause_since(began)


def memory_kilobytes(pid: int) -> int:
    """Return a process's memory in kilobytes."""
    found = re.search(r"VmRSS:\s+([0-9]+)", Path(f"/proc/{pid}/status").read_text())
    return int(found[1]) if found else 0


# Random clients.


@dataclass(frozen=True)
class Answered:
    line: bytes
    reply: bytes


class Tenant:
    """The lines of one tenant, for several clients at a time."""

    def __init__(self, name: str, seed: int) -> None:
        self.name = name
        self.lock = threading.Lock()
        self.stream = Stream(random.Random(seed), [name], 6)
        self.stream.operators = 0
        self.opening = self.stream.opening()
        self.answered: list[Answered] = []

    def lines(self, count: int) -> list[bytes]:
        with self.lock:
            first, self.opening = self.opening, []
            found: list[bytes] = first + [self.stream.line() for _ in range(count)]
            return found

    def tell(self, answered: Answered) -> None:
        with self.lock:
            self.answered.append(answered)


def expected_note(line: bytes, is_bound: bool, tenant: str) -> bytes | None:
    """Return firmd's own reply to a line; None if firm answers it."""
    line = line.removesuffix(b"\r")
    words = re.split(rb"[ \t]+", line.strip(b" \t"))
    if len(line) > 256:
        return None
    if is_bound:
        return None if words[0] == tenant.encode() else b"? other-tenant"
    return b"? operator-only" if words[0] == b"+" else None


def converse(tenant: Tenant, client: Client, is_bound: bool, draw: random.Random, count: int) -> None:
    """Send a number of lines in bursts that are cut anywhere; require for each line its reply."""
    nobody = service.Service({})
    while count > 0:
        lines = tenant.lines(min(count, draw.choice([1, 1, 2, 5, 20])))
        count -= len(lines)
        text = b"".join(line + b"\n" for line in lines)
        cuts = sorted(draw.choices(range(len(text) + 1), k=draw.choice([0, 0, 1, 3])))
        for start, end in zip([0, *cuts], [*cuts, len(text)]):
            client.send(text[start:end])
        for line in lines:
            if service.answer_line(nobody, line.removesuffix(b"\r")) is None:
                continue
            reply = client.reply()
            note = expected_note(line, is_bound, tenant.name)
            require(reply.split(b":")[0] == note if note else not reply.startswith(b"?"), f"{reply!r} to {line!r}")
            if note is None:
                tenant.tell(Answered(line, reply))


def in_threads(works: Sequence[Callable[[], None]]) -> list[BaseException]:
    """Run all of them at once; return the exceptions."""
    raised: list[BaseException] = []

    def run(work: Callable[[], None]) -> None:
        try:
            work()
        except BaseException as error:
            raised.append(error)

    threads = [threading.Thread(target=run, args=(work,)) for work in works]
    for thread in threads:
        thread.start()
    for thread in threads:
        thread.join()
    return raised


def roster_of(tenants: list[Tenant]) -> bytes:
    return HEADING + b"".join(b"%s,30,300,1000000000,1,2\n" % tenant.name.encode() for tenant in tenants)


def extended(roster: bytes, patience: int) -> bytes:
    """Return the roster with this patience for each tenant."""
    heading, *rows = roster.splitlines()
    return b"\n".join([heading + b",remote,patience", *(row + b",0,%d" % patience for row in rows), b""])


def check_alone(setup: Setup, tenant: Tenant) -> None:
    """Require that a tenant's replies, which are complete, are those of a firm that holds it alone."""
    own = [answered for answered in tenant.answered if not answered.reply.startswith(b"!")]
    own.sort(key=lambda answered: int(answered.reply.split()[1]))
    alone = setup.alone(roster_of([tenant]), b"".join(answered.line + b"\n" for answered in own))
    require([answered.reply for answered in own] == alone, f"{tenant.name}: other replies than alone")
    for answered in tenant.answered:
        if answered.reply.startswith(b"!"):
            wanted = service.answer_line(
                service.Service({tenant.name: service.Tenant(tenant.name, NO_LIMITS)}),
                answered.line.removesuffix(b"\r"),
            )
            require(answered.reply == wanted, f"{answered.reply!r} to {answered.line!r}")


def check_kept(setup: Setup, journal: bytes, tenants: list[Tenant]) -> None:
    """Require that each answered line stands in the journal, and that firm alone answers it the same from there."""
    lines = journal.split(b"\n")[:-1]
    alone = setup.alone(roster_of(tenants), journal)
    require(len(lines) == len(alone), "a reply for each line of the journal")
    kept = {tuple(reply.split()[:2]): (line, reply) for line, reply in zip(lines, alone)}
    for tenant in tenants:
        for answered in tenant.answered:
            if not answered.reply.startswith(b"!"):
                found = kept.get(tuple(answered.reply.split()[:2]))
                require(found == (answered.line, answered.reply), f"{found} and not {answered}")
