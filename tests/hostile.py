"""Check that firmd serves all others whatever hostile tenants, hostile readers and a poor host do.

usage: tools/run tests/hostile.py [--quick] [--only WORDS] [--program FILE] [--seed N]
Each check prints a line; the last line is 'N passed, M failed', and the exit status is 1 if one failed. It needs Python
3 and the built program; HTTP needs python3-aiohttp and python3-prometheus-client, for this Python or Debian's, and
descriptors prlimit. A check that can't run here is skipped with a line. --quick sends fewer HTTP requests.
"""

from __future__ import annotations

import argparse
import json
import os
import random
import shutil
import signal
import socket
import subprocess
import sys
import time
from collections.abc import Iterator
from concurrent.futures import ThreadPoolExecutor
from contextlib import ExitStack, contextmanager, suppress
from functools import cache, partial
from pathlib import Path

import firmd_kit
from firmd_kit import FIRMD, REPLY_SECONDS, ROWS, Client, Daemon, Gone, Setup, wait_for
from harness import program
from harness.checks import Check, Skipped, Suite, require, run_script, run_suites
from harness.deployed import HIGH_WATER, TICK_SECONDS
from journal_kit import MOVED, QUESTIONS

CHECKS_AT_A_TIME = 4
UNREAD_LINES = 10_000
NO_HTTP = f"neither {sys.executable} nor /usr/bin/python3 has aiohttp and prometheus_client"
ALL_SECONDS = 120.0  # for a hundred thousand lines on a busy host
SOON_SECONDS = 0.3  # a forbidden event would have happened in this time
MEANWHILE_SECONDS = 120.0  # for events during a stop of firm, on a busy host
PATIENT = ("--firm-timeout", "600")  # for a check that stops firm


@cache
def python_with_http() -> str | None:
    """Return a Python with the packages for HTTP: this one, or Debian's."""
    for python in (sys.executable, "/usr/bin/python3"):
        words = [python, "-c", "import aiohttp, prometheus_client"]
        with suppress(FileNotFoundError):
            if subprocess.run(words, stdin=subprocess.DEVNULL, capture_output=True).returncode == 0:
                return python
    return None


def with_metrics(daemon: Daemon) -> None:
    """Run firmd with the Python that gives its view metrics."""
    python = python_with_http()
    if python is None:
        raise Skipped(NO_HTTP)
    daemon.words = [python, *daemon.words[1:]]


def metrics_text(daemon: Daemon) -> str:
    """Return the metrics of firmd's view."""
    with view_of(daemon) as view:
        return str(json.loads(view.ask(b'{"ask": "metrics"}'))["metrics"])


def metrics_of(daemon: Daemon) -> dict[str, float]:
    """Return the same by name and labels."""
    rows = [row for row in metrics_text(daemon).splitlines() if not row.startswith("#")]
    return {name: float(value) for name, _, value in (row.rpartition(" ") for row in rows)}


def faults_of(daemon: Daemon) -> dict[str, float]:
    """Return the metric of faults by part."""
    found = {name: value for name, value in metrics_of(daemon).items() if name.startswith("firm_faults_total{")}
    return {name.split('"')[1]: value for name, value in found.items()}


def is_served(daemon: Daemon) -> None:
    with daemon.client() as client:
        require(client.ask(b"beta show").startswith(b"beta "), "another's line is answered")


def ends_well(daemon: Daemon) -> None:
    """SIGTERM ends it with 0, whatever it has reported."""
    daemon.running().send_signal(signal.SIGTERM)
    status = daemon.status()
    require(status == 0, f"status {status} at its stop: {daemon.said().decode()}")


# Names.


def names_of_refusals(setup: Setup) -> None:
    """A round whose reply ends like a refusal of memory is obeyed in each replay."""
    for number in (signal.SIGKILL, signal.SIGTERM):
        with setup.daemon() as daemon:
            daemon.start()
            with daemon.client() as client:
                replies = [client.ask(line) for line in MOVED]
                require(replies[-1].endswith(b" move no 14 memory"), replies[-1])
            for _ in range(2):
                daemon.running().send_signal(number)
                daemon.status()
                daemon.start()
                with daemon.client() as client:
                    text = b"".join(line + b"\n" for line in [*daemon.journal().splitlines(), *QUESTIONS])
                    wanted = setup.alone(firmd_kit.ROSTER, text)[-len(QUESTIONS) :]
                    require([client.ask(line) for line in QUESTIONS] == wanted, "other replies than before")
                    require(wanted[-1].endswith(b" at memory"), wanted)
            daemon.stop()


def names_of_changes(setup: Setup) -> None:
    """Replies that end with a machine's name `ok` are no changes: no automatic round follows them."""
    with setup.daemon("--after", "1") as daemon:
        daemon.start()
        with daemon.client() as client:
            for line in [b"alpha machine ok 1", b"alpha job j 10", b"alpha task j a", b"alpha task j b"]:
                require(client.ask(line).endswith(b" ok"), line)
            wait_for(lambda: client.ask(b"alpha where a").endswith(b" at ok"), "a runs")
            for _ in range(20):
                require(client.ask(b"alpha where a").endswith(b" at ok"), "a runs")
                time.sleep(0.02)
            time.sleep(SOON_SECONDS)
            _, _, behind = daemon.journal().partition(b"alpha task j b\n")
            # One round that was requested before that line's reply, and one for the line.
            require(behind.count(b" round\n") <= 2, f"rounds without a change: {behind!r}")
        daemon.stop()


# Views.

PATCHED = """\
import sys
{patch}
from firm.{program} import main
sys.exit(main())
"""
FAULTY = """\
from firm.server import clients
def answered(self, replies, count, original=clients.Client.answered):
    if b"beta" in replies:
        raise KeyError("unforeseen")
    original(self, replies, count)
clients.Client.answered = answered
"""
FAULTY_VIEWER = """\
from firm.viewer import view
def fail(*_):
    raise KeyError("unforeseen")
view.status_of = view.Connection.send = fail
"""


def patched(daemon: Daemon, name: str, program: str, text: str) -> str:
    """Return a script that runs a program with some parts replaced."""
    script = daemon.folder / name
    script.write_text(PATCHED.format(program=program, patch=text))
    return str(script)


def patch(daemon: Daemon, text: str) -> None:
    """Run firmd with some parts replaced."""
    daemon.words = [daemon.words[0], patched(daemon, "patched.py", "server.daemon", text)]


def patch_viewer(daemon: Daemon, text: str, of_firmd: str = "") -> None:
    """Run its process for readers, and firmd, with some parts replaced."""
    viewer = patched(daemon, "firm-viewer", "viewer.daemon", text)
    replaced = f"import sys\nfeeder.program_words = lambda *_: [sys.executable, {viewer!r}]\n"
    patch(daemon, f"from firm.server import feeder\n{replaced}{of_firmd}")


def unforeseen_faults(setup: Setup) -> None:
    """A fault of a view, a watcher or a client closes its connection; it is reported once, and all else goes on."""
    with setup.daemon() as daemon:
        with_metrics(daemon)
        patch_viewer(daemon, FAULTY_VIEWER, FAULTY)
        daemon.start()
        with view_of(daemon) as watcher, daemon.client() as client:
            require(b'"book"' in watcher.ask(b'{"ask": "watch", "tenant": "alpha"}'), "the rows")
            for line in ROWS[:3]:
                require(client.ask(line).endswith(b" ok"), line)
            require(watcher.rest() == b"", "the watcher is closed")
            for _ in range(3):
                with view_of(daemon) as view:
                    view.send(b'{"ask": "status"}\n')
                    require(view.rest() == b"", "the view is closed")
                with daemon.client() as other:
                    other.send(b"beta show\n")
                    require(other.rest() == b"", "the client is closed")
            require(client.ask(b"alpha show").startswith(b"alpha 4 ok"), "other clients are answered")
        wait_for(
            lambda: faults_of(daemon) == {"client": 3, "view": 4}, "other questions are answered, and faults counted"
        )
        told = daemon.said().count(b"Traceback")
        require(told == 3, f"{told} told: {daemon.said().decode()}")
        ends_well(daemon)


# Shortages.


@contextmanager
def crowd(path: Path, count: int) -> Iterator[None]:
    """Hold this number of connections, most of which wait to be accepted."""
    with ExitStack() as held:
        for _ in range(count):
            client = held.enter_context(socket.socket(socket.AF_UNIX))
            client.settimeout(REPLY_SECONDS)
            firmd_kit.connect(client, path)
        yield


def needs_prlimit() -> None:
    if shutil.which("prlimit") is None:
        raise Skipped("there is no prlimit")


def used_up_descriptors(setup: Setup) -> None:
    """A tenant that takes all descriptors loses its newest connections; segments are begun, and others are served."""
    needs_prlimit()
    with setup.daemon("--segment-bytes", "10000") as daemon:
        for tenant in ("alpha", "beta"):
            daemon.options += ["--client", f"{tenant}={daemon.folder / tenant}"]
        daemon.words = ["prlimit", "--nofile=100:100", *FIRMD]
        daemon.start()
        with Client(daemon.folder / "beta") as client, crowd(daemon.folder / "alpha", 500):
            wait_for(lambda: b"out of file descriptors" in daemon.said(), "descriptors are used up")
            for number in range(1, 1_501):
                require(client.ask(b"beta show").startswith(b"beta %d ok" % number), number)
            with Client(daemon.folder / "beta") as other:
                require(other.ask(b"beta show").startswith(b"beta 1501 ok"), "a new connection of another tenant")
        require(len(daemon.segments()) > 5, "segments")
        wait_for(lambda: len(os.listdir(f"/proc/{daemon.running().pid}/fd")) < 40, "all are closed")
        is_served(daemon)
        daemon.stop()


FILLED = """\
import os, resource, sys
from pathlib import Path
from zlib import crc32
from firm.server.journal import Journal, SegmentLimit
from firm.server.records import JournalBatch
from firm.server.state import ServiceState
state = ServiceState(Path({state!r}))
state.roster_sum = crc32(state.roster_path.read_bytes())
journal = Journal(state, SegmentLimit(300))
journal.on_shortage = lambda: sys.exit(f"segment {{len(journal.found.segments) + 1}} has no descriptor")
resource.setrlimit(resource.RLIMIT_NOFILE, (64, 64))
def fill():
    try:
        while True:
            os.open(os.devnull, os.O_RDONLY)
    except OSError:
        pass
fill()
while len(journal.found.segments) < 5:
    journal.append([JournalBatch(b"*:0", b"alpha show\\n" * 5, 5)])
    fill()
print(len(journal.found.segments))
"""


def spare_descriptor(setup: Setup) -> None:
    """The descriptor reserved for segments is available for each, while others take all that become free."""
    with setup.daemon() as daemon:
        daemon.state.mkdir()
        (daemon.state / "roster.csv").write_bytes(firmd_kit.ROSTER)
        script = FILLED.format(state=str(daemon.state))
        done = subprocess.run([sys.executable, "-c", script], capture_output=True, text=True)
        require(done.stdout == "5\n", done.stderr)


LACKING = """\
import os
from firm.server import stream, tenant_queues
def lacking(*words, original={where}):
    if os.path.exists({flag!r}):
        raise MemoryError
    return original(*words)
{where} = lacking
"""


def lacking_memory(setup: Setup) -> None:
    """If firmd itself is refused memory, it ends with 1, and its next start has all answered lines."""
    for where in ("stream.journal_batches_of", "stream.Stream._answer_batch", "tenant_queues.TenantQueues.next"):
        with setup.daemon() as daemon:
            flag = daemon.folder / "flag"
            patch(daemon, LACKING.format(where=where, flag=str(flag)))
            daemon.start()
            with daemon.client() as client:
                require(client.ask(b"alpha machine m1 2").endswith(b" ok"), "it serves")
                flag.touch()
                with suppress(Gone):
                    client.ask(b"alpha show")
                require(daemon.status() == 1 and b"MemoryError" in daemon.said(), f"{where}: {daemon.said()!r}")
            flag.unlink()
            daemon.start()
            is_served(daemon)
            with daemon.client() as client:
                require(b" machines 1 " in client.ask(b"alpha show"), "what was answered is there")
            ends_well(daemon)


def view_of(daemon: Daemon) -> Client:
    return Client(daemon.state / "view")


def status_of(daemon: Daemon) -> dict[str, int]:
    """Return firmd's own status."""
    with view_of(daemon) as view:
        found: dict[str, int] = json.loads(view.ask(b'{"ask": "status"}'))["status"]
        return found


def leave_unread(daemon: Daemon, client: Client) -> bool:
    """Leave from 256 KiB to 560,000 bytes of replies to a client unread; return whether one was closed for it."""
    before = status_of(daemon)["unread_replies"]
    client.send(b"alpha show\n" * UNREAD_LINES)  # whose replies have 770,000 bytes, some of which the system buffers

    def is_closed() -> bool:
        return b"unread replies exceed their bound" in daemon.said()

    wait_for(lambda: is_closed() or status_of(daemon)["unread_replies"] > before + HIGH_WATER, "it is not read")
    return is_closed()


def bounded_replies(setup: Setup) -> None:
    """If clients together leave too much unread, the newest of the socket with most are closed, and no other."""
    for bound in ("--most-unread-of-socket", "--most-unread-in-all"):
        with setup.daemon(bound, "1500000") as daemon, ExitStack() as held:
            daemon.options += ["--client", f"alpha={daemon.folder / 'alpha'}"]
            daemon.start()
            other = held.enter_context(daemon.client())
            if bound == "--most-unread-in-all":
                require(not leave_unread(daemon, other), "the first of all")
            crowd = [held.enter_context(Client(daemon.folder / "alpha")) for _ in range(7)]
            ended = next(client for client in reversed(crowd) if leave_unread(daemon, client))
            asked = crowd[crowd.index(ended) :]
            require(len(asked) > 1, "one alone has more than 1,500,000 bytes")
            require(status_of(daemon)["unread_replies"] <= 1_500_000, status_of(daemon))
            replies = [client.end().count(b"\n") for client in asked]
            lost = [count < UNREAD_LINES for count in replies]
            require(lost == sorted(lost) and not lost[0] and lost[-1], f"replies from the oldest on: {replies}")
            if bound == "--most-unread-in-all":
                require(other.end().count(b"\n") == UNREAD_LINES, "that of the other socket has all replies")
            require(crowd[0].ask(b"alpha show").startswith(b"alpha "), "those that have read are served")
            is_served(daemon)
            ends_well(daemon)


def bounded_lines(setup: Setup) -> None:
    """Clients are not read while their tenant or socket is owed too many replies; others are, and all are answered."""
    text = (b"alpha show" + b" " * 240 + b"\n") * 1_000
    for bound in ("--most-waiting-of-tenant", "--most-unanswered-of-socket"):
        with setup.daemon(bound, "200000", *PATIENT) as daemon, ThreadPoolExecutor(30) as pool:
            daemon.options += ["--client", f"alpha={daemon.folder / 'alpha'}"]
            daemon.start()
            firm = daemon.firm_process()
            os.kill(firm, signal.SIGSTOP)

            def ask(client: Client) -> int:
                client.socket.settimeout(ALL_SECONDS)
                client.send(text)
                return client.end().count(b"\n")

            answers = [pool.submit(ask, Client(daemon.folder / "alpha")) for _ in range(30)]
            wait_for(lambda: status_of(daemon)["owed_bytes"] > 150_000, "lines are taken")
            time.sleep(SOON_SECONDS + TICK_SECONDS)
            taken = status_of(daemon)["owed_bytes"]
            require(taken < 1_500_000, f"{taken} bytes of lines are taken, of {30 * len(text)}")
            with daemon.client() as other:
                other.send(b"beta show\n")
                wait_for(lambda: b"beta show\n" in daemon.journal(), "a line of another socket is taken")
                os.kill(firm, signal.SIGCONT)
                require(other.reply().startswith(b"beta 1 ok"), "and answered")
            require([answer.result() for answer in answers] == [1_000] * 30, "each line is answered")
            ends_well(daemon)


def bounded_in_all(setup: Setup) -> None:
    """Sockets that are owed the bound of all keep out nobody with few pending replies: a tenant and the operator."""
    crowd = [b"alpha", b"gamma", b"delta", b"omega"]
    roster = firmd_kit.ROSTER + b"".join(b"%b,30,300,1000000000,1,2\n" % name for name in crowd[1:])

    def ask(name: bytes) -> int:
        with Client(daemon.folder / name.decode()) as client:
            client.socket.settimeout(ALL_SECONDS)
            client.send((b"%b show" % name + b" " * 240 + b"\n") * 1_000)
            return client.end().count(b"\n")

    options = ["--most-unanswered-in-all", "400000", *PATIENT]
    with setup.daemon(*options, roster=roster) as daemon, ThreadPoolExecutor(32) as pool:
        for name in (*crowd, b"beta"):
            daemon.options += ["--client", f"{name.decode()}={daemon.folder / name.decode()}"]
        daemon.start()
        firm = daemon.firm_process()
        os.kill(firm, signal.SIGSTOP)
        answers = [pool.submit(ask, name) for name in crowd * 8]
        try:
            wait_for(lambda: status_of(daemon)["owed_bytes"] > 400_000, "lines are taken")
            time.sleep(SOON_SECONDS + TICK_SECONDS)
            taken = status_of(daemon)["owed_bytes"]
            require(taken < 2_000_000, f"{taken} bytes of lines are taken, of {32 * 251_000}")
            with Client(daemon.folder / "beta") as other, Client(daemon.operator) as operator:
                other.send(b"beta show\n")
                operator.send(b"+ retire omega\n")
                for line in (b"beta show\n", b"+ retire omega\n"):
                    wait_for(lambda: line in daemon.journal(), f"{line!r} is taken", MEANWHILE_SECONDS)
                os.kill(firm, signal.SIGCONT)
                require(other.reply().startswith(b"beta 1 ok"), "and answered")
                require(operator.reply() == b"+ ok retired omega", "and answered")
        finally:
            os.kill(firm, signal.SIGCONT)
        require([answer.result() for answer in answers] == [1_000] * 32, "each line is answered")
        wait_for(lambda: status_of(daemon)["owed_bytes"] == 0, "none counts any more")
        ends_well(daemon)


def bounded_refusals(setup: Setup) -> None:
    """Lines that firmd itself refuses count too, while they wait after others of their client."""
    text = b"alpha round\n" * 2 + b"A\n+\n" * 500
    with setup.daemon("--most-unanswered-of-socket", "200000", *PATIENT) as daemon, ThreadPoolExecutor(10) as pool:
        daemon.start()
        firm = daemon.firm_process()
        os.kill(firm, signal.SIGSTOP)

        def ask(client: Client) -> int:
            client.socket.settimeout(ALL_SECONDS)
            client.send(text)
            return client.end().count(b"\n")

        answers = [pool.submit(ask, daemon.client()) for _ in range(10)]
        try:
            wait_for(lambda: status_of(daemon)["owed_bytes"] > 150_000, "they count")
            time.sleep(SOON_SECONDS + TICK_SECONDS)
            taken = status_of(daemon)["owed_bytes"]
            require(taken < 1_000_000, f"{taken} bytes are taken")
        finally:
            os.kill(firm, signal.SIGCONT)
        require([answer.result() for answer in answers] == [1_002] * 10, "each line is answered")
        wait_for(lambda: status_of(daemon)["owed_bytes"] == 0, "none counts any more")
        ends_well(daemon)


def refused_connections(setup: Setup) -> None:
    """Connections beyond a socket's bound, however many, leave nothing in memory once they are closed."""
    with setup.daemon("--most-clients", "2") as daemon, ExitStack() as held:
        daemon.start()
        for _ in range(2):
            held.enter_context(daemon.client())

        def refused(count: int) -> int:
            """Return firmd's memory after this number of connections."""
            for _ in range(count):
                with daemon.client() as client:
                    require(client.rest().startswith(b"? too-many-clients"), client.received)
            return firmd_kit.memory_kilobytes(daemon.running().pid)

        before = refused(200)
        grown = refused(3_000) - before
        require(grown < 1_000, f"{grown} kB more in memory")
        ends_well(daemon)


def gone_before_their_turn(setup: Setup) -> None:
    """Connections that end while they wait for their turn to be read, however many, leave nothing in memory."""
    with setup.daemon("--bytes-a-second-of-socket", "1") as daemon:
        daemon.start()

        def lost(count: int) -> int:
            """Return firmd's memory after this number of connections."""
            for _ in range(count):
                with daemon.client() as client:
                    client.socket.shutdown(socket.SHUT_RD)  # so its first reply can't be written
                    client.send(b"A\n")
            with daemon.client() as last:
                require(last.ask(b"A") == b"! unknown-tenant", last.received)
            return firmd_kit.memory_kilobytes(daemon.running().pid)

        before = lost(200)
        grown = lost(3_000) - before
        require(grown < 2_000, f"{grown} kB more in memory")
        ends_well(daemon)


def read_again(setup: Setup) -> None:
    """A client that fails just when firmd resumes reading it is lost alone: all others are read."""
    with setup.daemon() as daemon:
        patch(daemon, FAILING_CLIENT)
        daemon.start()
        with daemon.client() as first, daemon.client() as second:
            for client in (first, second):
                require(client.ask(b"alpha show").startswith(b"alpha "), "they are served")
            daemon.running().send_signal(signal.SIGUSR1)
            require(first.rest() == b"", "the one that failed is closed")
            require(second.ask(b"alpha show").startswith(b"alpha 3 ok"), "the other is read")
            is_served(daemon)
        ends_well(daemon)


def gone_as_it_reads(setup: Setup) -> None:
    """A client that leaves just as firmd resumes writing its replies is closed, and is no fault."""
    with setup.daemon() as daemon:
        patch(daemon, GONE)
        daemon.start()
        with daemon.client() as client:
            client.send(b"alpha show\n" * UNREAD_LINES)
            wait_for(lambda: status_of(daemon)["unread_replies"] > HIGH_WATER, "it has not read its replies")
            require(0 < client.rest().count(b"\n") < UNREAD_LINES, "it is closed")
        is_served(daemon)
        daemon.stop()


def repeated_faults(setup: Setup) -> None:
    """A reader that fails at each call ends firmd with 1, instead of a busy loop."""
    for module, name in (("server.stream", "READ_BYTES"), ("common.accept", "AT_ONCE")):
        with setup.daemon() as daemon:
            patch(daemon, f"import firm.{module}\nfirm.{module}.{name} = 'none'")
            daemon.start()
            with daemon.client() as client:
                with suppress(Gone):  # if `accept` fails, it may have ended before this
                    client.send(b"alpha show\n")
                require(daemon.status() == 1, daemon.said())
            require(b"fails each time: TypeError" in daemon.said(), daemon.said())


def failed_waits(setup: Setup) -> None:
    """A fault of a thread that waits for firm, or closes its input, does not keep firmd from its end."""
    for call, status in (("end", 6), ("close_input", 1)):
        with setup.daemon() as daemon:
            patch(daemon, FAILING.format(call=call))
            daemon.start()
            is_served(daemon)
            daemon.running().send_signal(signal.SIGTERM)
            require(daemon.status() == status and b"MemoryError" in daemon.said(), daemon.said())


THREADLESS = """\
import os, threading
def start(self, original=threading.Thread.start):
    if os.path.exists({flag!r}):
        raise RuntimeError("can't start new thread")
    original(self)
threading.Thread.start = start
"""
# SIGUSR1 starts the choice of clients to read, and the first one fails.
FAILING_CLIENT = """\
import asyncio, signal
from firm.server import clients
failing = []
def choose_reading(self, original=clients.Client.choose_reading):
    if failing:
        raise failing.pop()
    original(self)
def __init__(self, *words, original=clients.Clients.__init__):
    original(self, *words)
    def fail():
        failing.append(ValueError())
        self._choose_readings()
    asyncio.get_running_loop().add_signal_handler(signal.SIGUSR1, fail)
clients.Client.choose_reading, clients.Clients.__init__ = choose_reading, __init__
"""
# A client leaves just when it has read the system's buffer.
GONE = """\
import socket
from firm.server import clients
def resume_writing(self, original=clients.Client.resume_writing):
    self.transport.get_extra_info("socket").shutdown(socket.SHUT_WR)
    original(self)
clients.Client.resume_writing = resume_writing
"""
# All lines of a client are accepted, however many replies it has left unread when the later ones arrive.
NEVER_HELD = "from firm.server import clients\nclients.HIGH_WATER = 1 << 30\n"
FAILING = """\
from firm.server import stream
def fail(self, original=stream.FirmProcess.{call}):
    original(self)
    raise MemoryError
stream.FirmProcess.{call} = fail
"""


def refused_threads(setup: Setup) -> None:
    """A host without a further thread can't keep firmd from its end; at its start firmd reports it."""
    with setup.daemon() as daemon:
        flag = daemon.folder / "flag"
        patch(daemon, THREADLESS.format(flag=str(flag)))
        daemon.start()
        flag.touch()
        is_served(daemon)
        daemon.stop()
        daemon.refuses(1, "cannot start a thread")


def successors_socket(setup: Setup) -> None:
    """A firmd that ends slowly leaves the socket of its successor alone. A client that reads nothing delays no end
    for long."""
    with setup.daemon() as daemon, setup.daemon() as other:
        patch(daemon, NEVER_HELD + "clients.STOP_SECONDS = clients.LINGER_SECONDS = 600.0")
        patch(other, NEVER_HELD)
        daemon.start()
        with daemon.client() as slow:
            slow.send(b"alpha show\n" * 8_000)  # its replies are not read
            wait_for(lambda: daemon.journal().count(b"\n") == 8_000, "its lines are taken")
            daemon.running().send_signal(signal.SIGTERM)
            wait_for(lambda: b"stopping" in daemon.said(), "it stops")
            other.options = ["--client", f"beta={daemon.any}"]
            for _ in range(100):  # until the first no longer listens
                other.spawn()
                wait_for(lambda: other.running().poll() is not None or b"ready" in other.said(), "it starts")
                if b"ready" in other.said():
                    break
            require(daemon.running().poll() is None, "the first ends slowly")
        require(daemon.status() == 0, daemon.said())
        with Client(daemon.any) as client:
            require(client.ask(b"beta show").startswith(b"beta 1 ok"), "the successor serves")
        with other.client() as slow:
            slow.send(b"alpha show\n" * 8_000)
            wait_for(lambda: other.journal().count(b"\n") == 8_001, "its lines are taken")
            other.stop()


CHECKS = [
    names_of_refusals,
    names_of_changes,
    unforeseen_faults,
    used_up_descriptors,
    spare_descriptor,
    lacking_memory,
    bounded_replies,
    bounded_lines,
    bounded_in_all,
    bounded_refusals,
    refused_connections,
    gone_before_their_turn,
    read_again,
    gone_as_it_reads,
    repeated_faults,
    failed_waits,
    refused_threads,
    successors_socket,
]


def main() -> int:
    parser = argparse.ArgumentParser(description=(__doc__ or "").splitlines()[0])
    parser.add_argument("--quick", action="store_true", help="the part that tests/quick runs")
    program.add_program(parser)
    parser.add_argument("--only", default="", help="run only the checks whose names have these words")
    parser.add_argument(
        "--seed", type=int, default=random.randrange(10**6), help="seed of the requests (default: any)"
    )
    options = parser.parse_args()
    print(f"seed {options.seed}", flush=True)
    setup = Setup(options.program, options.quick, options.seed)
    named: dict[str, Check] = {check.__name__.replace("_", " "): partial(check, setup) for check in CHECKS}
    chosen = {name: check for name, check in named.items() if options.only in name}
    return run_suites(Suite(chosen, CHECKS_AT_A_TIME))


if __name__ == "__main__":
    run_script(main)
