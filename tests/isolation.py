"""Check that no tenant, and no client outside all tenants, can worsen firmd's service for the others.

usage: tools/run tests/isolation.py [--quick] [--only WORDS] [--program FILE] [--seed N]
Each check prints a line; the last line is 'N passed, M failed', and the exit status is 1 if one failed. It needs Python
3 and the built program; if only the load counts, tests/stand_in_firm.py takes its place. Checks that measure run one
after another. --quick has fewer lines and connections.
"""

from __future__ import annotations

import argparse
import os
import random
import signal
import subprocess
import sys
import tempfile
import time
import unittest
from collections.abc import Callable, Iterator, Sequence
from contextlib import AbstractContextManager, ExitStack, contextmanager, suppress
from dataclasses import dataclass
from functools import partial
from pathlib import Path
from statistics import median
from unittest.mock import Mock

from firmd_disks import unread
from firmd_kit import CHECKS_AT_A_TIME, FIRMD, REPLY_SECONDS, ROSTER, Client, Daemon, Gone, Setup, wait_for
from harness import program, service
from harness.checks import Check, Suite, require, run_script, run_suites
from harness.deployed import Books, ViewModel, Status, budgets, tenant_queues
from harness.program import ROOT
from harness.small_streams import random_stream, roster_of
from hostile import PATIENT, metrics_of, patch, with_metrics
from selector_groups import fair_turns, held_turns

STAND_IN = str(ROOT / "tests" / "stand_in_firm.py")
UNSAVED = ("--snapshot-lines", "0")  # the stand-in makes no snapshots
SHOW, SHOWS = b"beta show", "alpha show\\n"
# Bound on another tenant's slowest request in a hundred beside a hog: twice its time alone, plus this slack for a host
# with other work, whose own pauses are longer than firmd's.
SLACK_SECONDS, TRIES = 0.05, 8
FACTOR, WINDOWS = 2.0, 7  # of another's times beside small reads, and how often they are measured with and without
MEMORY = "/dev/shm"
SOON_SECONDS = 0.3
TURNS_SECONDS = 0.7  # of the search for the longest turn of a loop
MAX_SECONDS, ALL_SECONDS = 60, 300  # for one request, and for all that are measured together
HANGING_SECONDS = 5  # of a firm before it is killed

# A hog has plain priority and the checks a higher one: firmd does not answer for the hog's processor time.
PLAIN = "import os\nos.sched_setscheduler(0, os.SCHED_OTHER, os.sched_param(0))\n"
# Sends one text again and again over some connections, this number of bytes at a time, and reads all replies.
HOG = """\
import selectors, socket, sys
path, text, count = sys.argv[1], sys.argv[2].encode().decode("unicode_escape").encode("latin-1"), int(sys.argv[3])
size = int(sys.argv[4])
poll = selectors.DefaultSelector()
block = text * max(1, 60000 // len(text))
for _ in range(count):
    client = socket.socket(socket.AF_UNIX)
    client.connect(path)
    client.setblocking(False)
    poll.register(client, selectors.EVENT_READ | selectors.EVENT_WRITE, [0])
print("ready", flush=True)
while True:
    for key, events in poll.select():
        if events & selectors.EVENT_READ and not key.fileobj.recv(1 << 20):
            sys.exit("closed")
        if events & selectors.EVENT_WRITE:
            key.data[0] = (key.data[0] + key.fileobj.send(block[key.data[0]:][:size])) % len(block)
"""
# Connects, asks and leaves again and again, in this number of processes.
CHURN = """\
import os, socket, sys
path, text, count = sys.argv[1], sys.argv[2].encode().decode("unicode_escape").encode("latin-1"), int(sys.argv[3])
print("ready", flush=True)
for _ in range(count - 1):
    if not os.fork():
        break
while True:
    with socket.socket(socket.AF_UNIX) as client:
        client.connect(path)
        client.sendall(text)
        client.recv(1 << 16)
"""


def bound(daemon: Daemon, *tenants: str) -> None:
    """Give each tenant its own socket."""
    for tenant in tenants:
        daemon.options += ["--client", f"{tenant}={daemon.folder / tenant}"]


@contextmanager
def load(setup: Setup, *options: str, **environment: str) -> Iterator[Daemon]:
    """Start a daemon over the stand-in for firm, with a socket for each tenant."""
    with setup.daemon(*options, *PATIENT, *UNSAVED, firm=STAND_IN) as daemon:
        daemon.words = ["env", *(f"{name}={value}" for name, value in environment.items()), *FIRMD]
        bound(daemon, "alpha", "beta")
        yield daemon.start()


@dataclass(frozen=True)
class Hog:
    path: Path
    text: str  # as a Python expression
    connections: int
    size: int = 1 << 16  # bytes for each send
    script: str = HOG


@contextmanager
def running(hog: Hog) -> Iterator[None]:
    """Run another process that sends a text without end."""
    words = [sys.executable, "-c", PLAIN + hog.script, str(hog.path), hog.text, str(hog.connections), str(hog.size)]
    with subprocess.Popen(words, stdout=subprocess.PIPE, stderr=subprocess.DEVNULL, start_new_session=True) as process:
        try:
            require(process.stdout and process.stdout.readline() == b"ready\n", "the hog has its connections")
            time.sleep(SOON_SECONDS)
            yield
            require(process.poll() is None, "the hog was closed")
        finally:
            with suppress(ProcessLookupError):  # it has ended, with all processes that it started
                os.killpg(process.pid, signal.SIGKILL)


def times(client: Client, count: int) -> list[float]:
    """Return the times of consecutive requests, the shortest first."""
    client.socket.settimeout(MAX_SECONDS)
    seconds: list[float] = []
    for _ in range(count):
        began = time.monotonic()
        try:
            require(client.ask(SHOW).startswith(b"beta "), "a reply")
        except TimeoutError:
            require(False, f"another's request took more than {MAX_SECONDS} s")
        seconds.append(time.monotonic() - began)
        require(sum(seconds) < ALL_SECONDS, f"{len(seconds)} of another's requests took {ALL_SECONDS} s")
    return sorted(seconds)


def slowest(client: Client, count: int) -> float:
    """Return the time of the slowest request in a hundred, of consecutive ones."""
    return times(client, count)[count * 99 // 100 - 1]


def is_undisturbed(before: float, client: Client, count: int, slack: float = SLACK_SECONDS) -> bool:
    """Return whether another's requests take about as long as before."""
    meanwhile = slowest(client, count)
    print(
        f"    another's slowest request in a hundred: {1e3 * meanwhile:.1f} ms instead of {1e3 * before:.1f}",
        flush=True,
    )
    return meanwhile <= 2 * before + slack


def compare(
    client: Client,
    count: int,
    disturbing: Callable[[], AbstractContextManager[object]],
    more: float,
    slack: float = SLACK_SECONDS,
) -> None:
    """Require that another's requests take about as long as just before, or some seconds more, while somebody
    disturbs; measure both again if the host did other work meanwhile."""
    for _ in range(TRIES):
        before = slowest(client, count) + more
        with disturbing():
            if is_undisturbed(before, client, count, slack):
                return
    require(False, f"another's slowest request in a hundred took more than it may, {TRIES} times")


def beside(setup: Setup, daemon: Daemon, hog: Hog, seconds: float = 0.0) -> None:
    """Compare another's requests with and without a hog, whose own requests may cost them some seconds each."""
    with Client(daemon.folder / "beta") as other:
        slowest(other, 100)
        compare(other, 200 if setup.is_quick else 2_000, partial(running, hog), seconds / 2)


# Connections.


def held_connections(setup: Setup) -> None:
    """A tenant that holds all its connections, and opens more, keeps nobody else out."""
    most, more = (100, 200) if setup.is_quick else (1_000, 1_100)
    with load(setup, "--most-clients", str(most)) as daemon, ExitStack() as held:
        clients = [held.enter_context(Client(daemon.folder / "alpha")) for _ in range(most * 9 // 10)]
        for client in clients:
            require(client.ask(b"alpha show").startswith(b"alpha "), "they are served")
        others = [held.enter_context(Client(daemon.folder / "beta")) for _ in range(10)]
        with connections(daemon.folder / "alpha", more) as burst:
            refused = burst[most // 10 :]
            told = b"? too-many-clients: %d are connected\n" % most
            require(all(client.rest() == told for client in refused), "told")
            require(burst[most // 10 - 1].ask(b"alpha show").startswith(b"alpha "), "the last that had room")
            are_admitted(daemon)
        compare(others[0], 200, partial(connections, daemon.folder / "alpha", more), 0.0)
        are_admitted(daemon)
        daemon.stop()


@contextmanager
def connections(path: Path, count: int) -> Iterator[list[Client]]:
    with ExitStack() as held:
        yield [held.enter_context(Client(path)) for _ in range(count)]


def are_admitted(daemon: Daemon) -> None:
    """New clients of others are served."""
    for path in (daemon.folder / "beta", daemon.any, daemon.operator):
        with Client(path) as client:
            require(client.ask(SHOW).startswith(b"beta "), f"{path.name} has room")


def idle_connections(setup: Setup) -> None:
    """A thousand idle connections cost the others nothing."""
    with load(setup) as daemon, Client(daemon.folder / "beta") as other:
        compare(other, 200, partial(connections, daemon.folder / "alpha", 1_000), 0.0)
        with connections(daemon.folder / "alpha", 1_000):
            are_admitted(daemon)


# Lines.


def pipelined_rounds(setup: Setup) -> None:
    """A client's pipelined rounds delay another's line by one round at most; each is answered."""
    seconds, rounds = 0.002, 1_000 if setup.is_quick else 4_000
    with load(setup, ROUND_SECONDS=str(seconds)) as daemon:
        with Client(daemon.folder / "alpha") as client, Client(daemon.folder / "beta") as other:
            os.kill(daemon.firm_process(), signal.SIGSTOP)  # until both are there, however long that takes
            client.send(b"alpha round\n" * rounds)
            wait_for(lambda: b"alpha round\n" in daemon.journal(), "rounds are taken")
            other.send(SHOW + b"\n")
            wait_for(lambda: not unread(other), "another's line is read")
            os.kill(daemon.firm_process(), signal.SIGCONT)
            require(other.reply() == b"beta 1 " + SHOWN, "another's line")
            replies = [client.reply() for _ in range(rounds)]
            came = daemon.journal().partition(SHOW)[0].count(b"\n")
            require(came < 10, f"{came} of {rounds} rounds come before another's line")
            require(replies[-1] == b"alpha %d ok round cost 0" % rounds, replies[-1])
        beside(setup, daemon, Hog(daemon.folder / "alpha", "alpha round\\n", 1), seconds)
        daemon.stop()


def rounds_of_all(setup: Setup) -> None:
    """While a tenant's round runs, none of its lines reach firm, not even its retirement; all are answered in order."""
    with load(setup, ROUND_SECONDS="0.01", MISPLACED="misplaced") as daemon:
        daemon.stop()
        misplaced = daemon.folder / "misplaced"
        daemon.words = ["env", "ROUND_SECONDS=0.01", f"MISPLACED={misplaced}", *FIRMD]
        daemon.start()
        with ExitStack() as held:
            clients = {name: held.enter_context(Client(daemon.folder / name)) for name in ("alpha", "beta")}
            operator = held.enter_context(Client(daemon.operator))
            for name, client in clients.items():
                client.send(b"%b round\n%b show\n" % (name.encode(), name.encode()) * 20)
            for number in range(1, 6):
                time.sleep(0.02)
                require(operator.ask(b"+ retire alpha") == b"+ ok retired alpha", "the operator")
                require(operator.ask(b"+ admit alpha,30,300,1000,1,2") == b"+ ok admitted alpha", "the operator")
                require(operator.ask(b"alpha show").startswith(b"alpha "), number)
            for name, client in clients.items():
                replies = [client.reply() for _ in range(40)]
                require(all(reply.startswith((name.encode(), b"! unknown-tenant")) for reply in replies), replies)
        require(not misplaced.exists() or not misplaced.read_bytes(), "firm had to wait for a tenant that was away")
        daemon.stop()


def pipelined_questions(setup: Setup) -> None:
    """Fifty clients with pipelined requests take turns with another tenant's."""
    with load(setup) as daemon:
        beside(setup, daemon, Hog(daemon.folder / "alpha", "alpha show\\n", 50))
        daemon.stop()


def is_within_factor(client: Client, count: int, hog: Hog) -> bool:
    """Return whether another's median request, and its slowest in a hundred, take at most FACTOR times as long
    beside a hog. Windows with and without the hog alternate, as other work of the host slows both; their medians
    count."""
    quiet, beside_hog = list[list[float]](), list[list[float]]()
    for _ in range(WINDOWS):
        quiet.append(times(client, count))
        with running(hog):
            beside_hog.append(times(client, count))
        time.sleep(SOON_SECONDS)  # until its requests are answered and it is closed
    factors: list[float] = []
    for name, place in (("median", count // 2), ("slowest in a hundred", count * 99 // 100 - 1)):
        before, meanwhile = (median(seconds[place] for seconds in windows) for windows in (quiet, beside_hog))
        factors.append(meanwhile / before)
        print(f"    another's {name}: {1e3 * meanwhile:.2f} ms instead of {1e3 * before:.2f}", flush=True)
    return max(factors) <= FACTOR


def small_reads(setup: Setup) -> None:
    """Clients that send a byte at a time, or connect for each line, at most double another's times."""
    count = 200 if setup.is_quick else 400
    with load(setup) as daemon, Client(daemon.folder / "beta") as other:
        slowest(other, 100)
        path = daemon.folder / "alpha"
        for hog in (
            Hog(path, SHOWS, 500, size=1),
            Hog(path, SHOWS, 2, script=CHURN),
            Hog(path, SHOWS, 8, script=CHURN),
        ):
            is_met = any(is_within_factor(other, count, hog) for _ in range(TRIES))
            require(is_met, f"another's requests took more than {FACTOR:g} times as long, {TRIES} times")
        daemon.stop()


def slow_line(setup: Setup) -> None:
    """A line that arrives in pieces is answered soon, though 500 clients of its socket send a byte at a time."""
    with load(setup) as daemon, running(Hog(daemon.folder / "alpha", SHOWS, 500, size=1)):
        with Client(daemon.folder / "alpha") as client, Client(daemon.folder / "beta") as other:
            for piece in (b"alp", b"ha ", b"sho", b"w\n"):
                client.send(piece)
                times(other, 100)  # meanwhile firmd holds its socket back
            began = time.monotonic()
            require(client.reply().startswith(b"alpha "), "a reply")
            seconds = time.monotonic() - began
            print(f"    a line in pieces: {1e3 * seconds:.1f} ms", flush=True)
            require(seconds < MAX_SECONDS, f"a line in pieces was answered after {seconds:.1f} s")


def lines_of_nobody(setup: Setup) -> None:
    """Lines that name no tenant, comments and endless lines delay nobody and are not stored."""
    floods = ["#\\n", "nobody show\\n", "\\n", "alpha " + "x" * 300 + "\\n", "+ admit\\n", "x" * 1_000]
    with load(setup) as daemon:
        for text in floods[:2] if setup.is_quick else floods:
            beside(setup, daemon, Hog(daemon.any, text, 20))
        require(b"nobody" not in daemon.journal() and b"xxx" not in daemon.journal(), "the lines are in the journal")
        daemon.stop()


# Writes the processor seconds of the longest turn of its loop since SIGUSR1.
TURNS = """\
import os, signal, time
from firm.server.fair_selector import FairSelector
at, longest = [0.0], [1e9]
def select(self, timeout=None, original=FairSelector.select):
    turn = time.thread_time() - at[0]
    if turn > longest[0]:
        longest[0] = turn
        with open({path!r} + ".new", "w") as file:
            file.write(str(turn))
        os.replace({path!r} + ".new", {path!r})
    found = original(self, timeout)
    at[0] = time.thread_time()
    return found
FairSelector.select = select
signal.signal(signal.SIGUSR1, lambda *_: longest.__setitem__(0, 0.0))
"""
MAX_TURN_SECONDS = 0.010  # several times a turn's, for a slow host


def longest_turns(setup: Setup) -> None:
    """Neither many small reads, nor slow lines after quick ones, make a turn of firmd's loop long."""
    texts = ["#\\n" * 8_192 + "alpha\\nx\\n" * 2_048, "#\\n" * 8_192 + "a\\nb\\n" * 4_096]
    with setup.daemon(*PATIENT, firm=STAND_IN) as daemon:
        path = daemon.folder / "longest"
        patch(daemon, TURNS.format(path=str(path)))
        daemon.start()
        whole = 1 << 16
        for text, connections, size in (
            (texts[0], 1, whole),
            (texts[1], 1, whole),
            (texts[1], 50, whole),
            (SHOWS, 900, 1),
        ):
            daemon.running().send_signal(signal.SIGUSR1)
            with running(Hog(daemon.any, text, connections, size)):
                time.sleep(TURNS_SECONDS)
            seconds = float(path.read_text())
            print(f"    the longest turn: {1e3 * seconds:.1f} ms", flush=True)
            require(0 < seconds < MAX_TURN_SECONDS, f"a turn of {1e3 * seconds:.1f} ms")
        daemon.stop()


class Refusing:
    """Refuses the lines of all but two tenants."""

    def decide(self, batch: tenant_queues.LineBatch, now: float) -> tenant_queues.AdmissionDecision:
        return (
            tenant_queues.AdmissionDecision()
            if batch.queue in (b"alpha", b"beta")
            else tenant_queues.AdmissionDecision(b"! unknown-tenant\n")
        )


def lanes_of_nobody(setup: Setup) -> None:
    """However many lines of no tenant are ready, a tenant's round begins at once, and another's line soon; all are
    sent."""
    del setup
    told, found = list[bytes](), list[tenant_queues.LineBatch]()
    queues = tenant_queues.TenantQueues(
        Refusing(), lambda batch, reply: told.append(batch.queue), tenant_queues.TenantQueueLimits(10**9, 2)
    )
    queues.take(tenant_queues.LineBatch(None, b"alpha round\n", 1, b"alpha", is_round=True))
    for name in [b"x", *(b"x%d" % number for number in range(1_000)), b"beta"]:
        for _ in range(1_000 if name == b"x" else 1):
            queues.take(tenant_queues.LineBatch(None, name + b" show\n", 1, name))
    queues.next(found, 0.0)
    require([batch.text for batch in found] == [b"alpha round\n"], found)
    while queues.has_ready:
        before = len(told)
        queues.next(found, 0.0)
        require(len(told) <= before + tenant_queues.AT_ONCE, f"{len(told) - before} leave at a time")
    require([batch.text for batch in found] == [b"alpha round\n", b"beta show\n"], found)
    require(len(told) == 2_002 and told.index(b"beta") < 1_002 + tenant_queues.OF_QUEUE, told.index(b"beta"))


def asked_once(setup: Setup) -> None:
    """firmd calls watching readers once for each tenant of a message, not for each line: others' watchers cost
    little."""
    del setup
    books, lines = Books(), [b"alpha show", b"beta show"] * 500
    books.start(ROSTER)
    shown = ViewModel(books, Status(0.0, 0, 0, 0, 0, 0, 0, 0), "")
    watchers = [Mock(**{"wants.side_effect": lambda tenant: tenant == "beta"}) for _ in range(64)]
    shown.watchers += watchers
    shown.replied_all(lines, [b"%b 1 ok" % line.split()[0] for line in lines], None)
    require(all(watcher.wants.call_count == 2 for watcher in watchers), watchers[0].wants.call_count)
    require(all(watcher.send.call_args.args[0].count(b"beta show") == 500 for watcher in watchers), "its lines")


def bounded_stop(setup: Setup) -> None:
    """A stop answers the lines that left their queues, and does not wait for all pipelined rounds of a client."""
    with load(setup, ROUND_SECONDS="0.05") as daemon, Client(daemon.folder / "alpha") as client:
        client.send(b"alpha round\n" * 5_000)  # they take minutes
        require(client.reply() == b"alpha 1 ok round cost 0", "the first")
        firm = daemon.firm_process()
        os.kill(firm, signal.SIGSTOP)  # until firmd has its stop signal
        daemon.running().send_signal(signal.SIGTERM)
        wait_for(lambda: b"stopping" in daemon.said(), "it is to stop")
        given = daemon.journal().count(b"\n")
        os.kill(firm, signal.SIGCONT)
        require(daemon.status() == 0, daemon.said())
        *replies, last = client.rest().splitlines()
        further = len(replies) + 1 - given
        require(last == b"? stopping: no longer accepting lines" and further < 100, f"{further}, {last!r}")
        require(daemon.journal() == b"alpha round\n" * (len(replies) + 1), "a line in the journal has no answer")


# The journal.


def filled_journal(setup: Setup) -> None:
    """A tenant over its journal quota is refused; another's lines are accepted, and its own are later."""
    line = b"alpha show" + b" " * 200 + b"\n"
    limits = ["--bytes-a-day-of-tenant", "10000", "--journal-limit", "50000", "--snapshot-lines", "0"]
    with load(setup, *limits) as daemon:
        with Client(daemon.folder / "alpha") as client, Client(daemon.folder / "beta") as other:
            for text in (line, b"alpha " + b"y" * 250 + b"\n", b"alpha " + b"y" * 300 + b"\n"):
                client.send(text * 300)
                replies = [client.reply() for _ in range(300)]
            require(replies[-1] == b"! line-too-long", replies[-1])
            for reply in (client.ask(line[:-1]), client.ask(b"alpha round" + b" " * 200)):
                require(reply.startswith(b"? tenant-journal-full: "), reply)
            require(len(daemon.journal()) <= 10_000, f"{len(daemon.journal())} bytes of the journal")
            for number in range(1, 51):
                require(other.ask(SHOW) == b"beta %d " % number + SHOWN, "another's reply")
        daemon.stop()
    bucket = budgets.Bucket(rate=2.0, most=1_000.0, now=0.0)
    bucket.left -= 1_000
    require(not bucket.has(11, 5.0) and bucket.has(11, 5.5), "it may go on, little by little")
    require(bucket.has(1_000, 500.0) and not bucket.has(1_001, 5_000.0), "the bucket holds other than a day's bytes")


SHOWN = b"ok machines 0 jobs 0 tasks 0 running 0 nodes 2 of 30 arcs 0 of 300"


def socket_budget(setup: Setup) -> None:
    """A socket whose lines have used its journal quota is refused, whatever tenants they name."""
    with load(setup, "--bytes-a-day-of-socket", "1000") as daemon, daemon.client() as client:
        replies = [client.ask(b"%b show" % [b"alpha", b"beta"][number % 2]) for number in range(120)]
        require(replies[-1].startswith(b"? socket-journal-full: "), replies[-1])
        with Client(daemon.folder / "beta") as other:
            require(other.ask(SHOW).startswith(b"beta "), "the tenant's own socket")
        daemon.stop()


def disk_budget(setup: Setup) -> None:
    """A day's quota counts bytes on disk: lines that arrive one by one have headings, which count."""
    for of in ("tenant", "socket"):
        with load(setup, f"--bytes-a-day-of-{of}", "20000") as daemon, Client(daemon.folder / "alpha") as client:
            replies = [client.ask(b"alpha show") for _ in range(2_000)]
            require(replies[-1].startswith(b"? %b-journal-full: " % of.encode()), replies[-1])
            size = sum(path.stat().st_size for path in daemon.segments())
            require(18_000 < size < 20_500, f"{size} bytes on the disk")
            daemon.stop()


def own_replies(setup: Setup) -> None:
    """A reply that firmd gives in firm's place is the reply of firm, and each later line gets its right number."""
    draw = random.Random(setup.seed)
    for _ in range(3 if setup.is_quick else 60):
        seed = draw.randrange(10**6)
        roster, text = streams(random.Random(seed), 5)
        with setup.daemon(roster=roster) as daemon:
            daemon.start()
            with Client(daemon.operator) as client:
                client.socket.settimeout(REPLY_SECONDS)
                at = 0
                while at < len(text):
                    end = at + draw.choice([1, 10, 100, 5_000])
                    client.send(text[at:end])
                    at = end
                told = client.end().splitlines()
            wanted = setup.alone(roster, text)
            require(told == wanted, f"seed {seed}: {first_difference(told, wanted)}")
            kept = setup.alone(roster, daemon.journal())
            left_out = [reply for reply in wanted if reply.startswith(b"!") or b" no 1 worn" in reply]
            require(len(kept) >= len(wanted) - len(left_out), f"seed {seed}: lines are not kept")
            others = [reply for reply in wanted if reply not in left_out]
            require([reply for reply in kept if reply not in left_out] == others, f"seed {seed}: the journal's replies")
            daemon.stop()


def streams(draw: random.Random, count: int) -> tuple[bytes, bytes]:
    """Return a roster, and random streams in sequence: each stream's tenants replace the ones before."""
    roster, lines, names = b"", list[bytes](), set[bytes]()
    for number in range(count):
        found, text = random_stream(draw, 5)
        tenants = service.read_roster(found).values()
        rows = [[tenant.name.encode(), *(b"%d" % limit for limit in tenant.limits)] for tenant in tenants]
        if number:
            lines += [b"+ retire " + name for name in sorted(names)]
            lines += [b"+ admit " + b",".join(row) for row in rows]
        else:
            roster = roster_of(rows, service.FULL_HEADING)
        lines += text.split(b"\n")
        names |= {row[0] for row in rows} | {b"new", b"z"}  # the tenants that an operator admits in a stream
    return roster, b"".join(line + b"\n" for line in lines)


def first_difference(told: list[bytes], wanted: list[bytes]) -> str:
    for place, (one, other) in enumerate(zip(told, wanted)):
        if one != other:
            return f"reply {place}: {one!r} and not {other!r}"
    return f"{len(told)} replies and not {len(wanted)}"


def worn_tenants(setup: Setup) -> None:
    """The further lines of an exhausted tenant are not stored until it is retired; a restart forgets nothing."""
    roster = ROSTER + b"gamma,30,300,3,1,2\n"
    with setup.daemon(roster=roster) as daemon:
        for _ in range(2):
            daemon.start()
            with Client(daemon.operator) as client:
                replies = [client.ask(b"gamma show") for _ in range(10)]
                require(replies[4:] == [b"gamma 4 no 1 worn"] * 6, replies)
                size = len(daemon.journal())
                client.send(b"gamma show\n" * 1_000 + b"zeta show\n" * 1_000 + b"gamma " + b"x" * 300 + b"\n")
                found = [client.reply() for _ in range(2_001)]
                require(found[999:1_001] == [b"gamma 4 no 1 worn", b"! unknown-tenant"], found[999:1_001])
                require(found[-1] == b"! line-too-long", found[-1])
                require(len(daemon.journal()) == size, "the lines are in the journal")
            daemon.stop()
        daemon.start()
        with Client(daemon.operator) as client:
            client.send(b"+ retire gamma\ngamma show\n+ admit gamma,30,300,3,1,2\n" + b"gamma costs\n" * 5)
            found = [client.reply() for _ in range(8)]
            wanted = [b"+ ok retired gamma", b"! unknown-tenant", b"+ ok admitted gamma"]
            wanted += [b"gamma %d ok costs" % number for number in (1, 2, 3)] + [b"gamma 4 no 1 worn"] * 2
            require(found == wanted, found)
        daemon.stop()


def order_of_lines(setup: Setup) -> None:
    """The lines of one connection stand in the journal in the order they were sent, whatever tenants they name."""
    draw = random.Random(setup.seed)
    names = [b"t%d" % number for number in range(8)]
    roster = ROSTER + b"".join(b"%b,30,300,1000000,1,2\n" % name for name in names)
    with setup.daemon(roster=roster, firm=STAND_IN) as daemon:
        daemon.words = ["env", "ROUND_SECONDS=0.001", *FIRMD]
        daemon.start()
        sent: dict[int, list[bytes]] = {}
        with ExitStack() as held:
            clients = [held.enter_context(daemon.client()) for _ in range(6)]
            for place, client in enumerate(clients):
                verbs = [b"show", b"show", b"show", b"round"]
                sent[place] = [b"%b %b%b" % (draw.choice(names), draw.choice(verbs), b" " * place) for _ in range(300)]
                sent[place] = [line.rstrip() + b" " * place for line in sent[place]]
            for place, client in enumerate(clients):
                client.send(b"".join(line + b"\n" for line in sent[place]))
            for place, client in enumerate(clients):
                for line in sent[place]:
                    require(client.reply().split()[0] == line.split()[0], f"client {place}, {line!r}")
        kept = daemon.journal().splitlines()
        for place, lines in sent.items():
            own = [line for line in kept if len(line) - len(line.rstrip()) == place]
            require(own == lines, f"client {place}: {len(own)} lines of {len(lines)}, in another order")
        daemon.stop()


# Rates, a hung firm, and what is measured.


def bytes_a_second(setup: Setup) -> None:
    """A tenant, or a socket, over its bytes a second waits; others don't, and nothing is lost."""
    for budget in ("tenant", "socket"):
        with load(setup, f"--bytes-a-second-of-{budget}", "20000") as daemon:
            with Client(daemon.folder / "alpha") as client, Client(daemon.folder / "beta") as other:
                before = slowest(other, 100)
                began = time.monotonic()
                client.send(b"alpha show\n" * 5_000)  # 55,000 bytes: 20,000 and a turn's may come at once
                is_heeded = any(is_undisturbed(before, other, 100) for _ in range(TRIES))
                require(is_heeded, "another waits too")
                replies = [client.reply() for _ in range(5_000)]
                seconds = time.monotonic() - began
            require(replies[-1].startswith(b"alpha 5000 ok"), replies[-1])
            require(0.8 < seconds < MAX_SECONDS, f"55,000 bytes took {seconds:.2f} s")
            daemon.stop()


def hung_firm(setup: Setup) -> None:
    """A firm that owes replies, or its end, for too long is killed: status 4; a firm that owes nothing is left
    alone."""
    for is_asked, is_stopped in ((True, False), (False, True), (True, True)):
        with setup.daemon("--firm-timeout", str(HANGING_SECONDS)) as daemon:
            daemon.start()
            with daemon.client() as client:
                require(client.ask(SHOW).startswith(b"beta 1 ok"), "it serves")
                os.kill(daemon.firm_process(), signal.SIGSTOP)
                time.sleep(0 if is_asked else HANGING_SECONDS + 1)
                require(daemon.running().poll() is None, "it owes nothing")
                if is_asked:
                    client.send(SHOW + b"\n")
                    wait_for(lambda: daemon.journal().count(SHOW) == 2, "the line is taken")  # before its stop
                if is_stopped:
                    daemon.running().send_signal(signal.SIGTERM)
                with suppress(Gone):
                    require(b"beta 2" not in client.rest(), "no reply")
            told = b"firm has not answered for %d s" % HANGING_SECONDS
            require(daemon.status() == 4 and told in daemon.said(), daemon.said())
            daemon.options = []  # a busy host may take longer to start it
            daemon.start()
            with daemon.client() as client:
                number = 3 if is_asked else 2
                require(client.ask(SHOW).startswith(b"beta %d ok" % number), "the stored line is not obeyed")
            daemon.stop()


def measured(setup: Setup) -> None:
    """The metrics show the waiting lines by tenant, the seconds of firm's silence, and firmd's own replies."""
    with setup.daemon("--most-clients", "5", "--bytes-a-day-of-tenant", "1000", *PATIENT) as daemon:
        with_metrics(daemon)
        bound(daemon, "alpha", "beta")
        daemon.start()
        with ExitStack() as held:
            clients = [held.enter_context(Client(daemon.folder / "alpha")) for _ in range(5)]
            with Client(daemon.folder / "alpha") as more:
                require(more.rest().startswith(b"? too-many-clients"), "too many")
            require(clients[0].ask(b"alpha show").startswith(b"alpha 1 ok"), "a reply")
            require(clients[0].ask(b"x" * 300) == b"! line-too-long", "a long line")
            clients[1].send(b"alpha show\n" * 100)
            wait_for(lambda: b"tenant-journal-full" in clients[1].reply(), "its budget is used up")
            os.kill(daemon.firm_process(), signal.SIGSTOP)
            with Client(daemon.folder / "beta") as other:
                other.send(b"beta round\n" * 3)
                found: dict[str, float] = {}

                def is_shown() -> bool:
                    found.update(metrics_of(daemon))
                    return min(found["firm_oldest_line_seconds"], found["firm_silent_seconds"]) > 0.6

                wait_for(is_shown, "the metric of the oldest line")
                os.kill(daemon.firm_process(), signal.SIGCONT)
                require([other.reply()[:6] for _ in range(3)] == [b"beta 1", b"beta 2", b"beta 3"], "replies")
        for name, value in (
            ('firm_waiting_lines{tenant="beta"}', 2),
            ('firm_lines_under_way{tenant="beta"}', 1),
            ('firm_rounds_under_way{tenant="beta"}', 1),
            ('firm_waiting_lines{tenant="alpha"}', 0),
            ('firm_socket_clients{socket="alpha"}', 5),
            ('firm_own_replies_total{reply="too-many-clients",socket="alpha",tenant=""}', 1),
            ('firm_own_replies_total{reply="line-too-long",socket="alpha",tenant=""}', 1),
        ):
            require(found.get(name) == value, f"{name} is {found.get(name)}, not {value}")
        require(found['firm_own_replies_total{reply="tenant-journal-full",socket="alpha",tenant="alpha"}'] > 5, "told")
        require(found["firm_silent_seconds"] > 0.5 and found["firm_sync_seconds_count"] > 2, "silence and syncs")
        require(found['firm_journal_bytes_left{tenant="alpha"}'] < 20, "what is left of its budget")
        daemon.stop()


MEASURED = [
    held_connections,
    idle_connections,
    pipelined_rounds,
    pipelined_questions,
    small_reads,
    slow_line,
    lines_of_nobody,
    longest_turns,
    bytes_a_second,
]
OTHERS = [
    own_replies,
    hung_firm,
    rounds_of_all,
    lanes_of_nobody,
    fair_turns,
    held_turns,
    asked_once,
    bounded_stop,
    filled_journal,
    socket_budget,
    disk_budget,
    worn_tenants,
    order_of_lines,
    measured,
]


class First(Suite):
    """Gives the checks priority over all other work of the host, which would be measured too, if that is allowed."""

    def run(self, result: unittest.TestResult, debug: bool = False) -> unittest.TestResult:
        with suppress(OSError):
            os.sched_setscheduler(0, os.SCHED_RR, os.sched_param(1))
        try:
            return super().run(result, debug)
        finally:
            os.sched_setscheduler(0, os.SCHED_OTHER, os.sched_param(0))


def named(checks: Sequence[Callable[[Setup], None]], setup: Setup) -> dict[str, Check]:
    return {check.__name__.replace("_", " "): partial(check, setup) for check in checks}


def main() -> int:
    parser = argparse.ArgumentParser(description=(__doc__ or "").splitlines()[0])
    parser.add_argument("--quick", action="store_true", help="the part that tests/quick runs")
    program.add_program(parser)
    parser.add_argument("--only", default="", help="run only the checks whose names have these words")
    parser.add_argument("--seed", type=int, default=random.randrange(10**6), help="seed of the lines (default: any)")
    options = parser.parse_args()
    print(f"seed {options.seed}", flush=True)
    if os.access(MEMORY, os.W_OK):  # otherwise a disk's own pauses would be measured
        tempfile.tempdir = MEMORY
    setup = Setup(options.program, options.quick, options.seed)
    first = {name: check for name, check in named(MEASURED, setup).items() if options.only in name}
    others = {name: check for name, check in named(OTHERS, setup).items() if options.only in name}
    return run_suites(First(first), Suite(others, CHECKS_AT_A_TIME))


if __name__ == "__main__":
    run_script(main)
