"""Check that no reader of firmd can delay writers, and that each reader is shown the right rows.

usage: tools/run tests/readers.py [--quick] [--only WORDS] [--program FILE] [--seed N]
Each check prints a line; the last line is 'N passed, M failed', and the exit status is 1 if one failed. It needs Python
3, the built program, and python3-aiohttp and python3-prometheus-client, for this Python or Debian's; checks of rights
need root. A check that can't run here is skipped with a line. --quick has fewer kinds of readers, streams and tries.
"""

from __future__ import annotations

import argparse
import asyncio
import json
import os
import random
import shutil
import signal
import socket
import statistics
import subprocess
import tempfile
import threading
import time
from collections.abc import Callable, Iterator
from contextlib import ExitStack, contextmanager, suppress
from dataclasses import dataclass, field
from functools import partial
from pathlib import Path
from typing import Any

import firmd_kit
from firmd_kit import ROWS, Client, Daemon, Gone, Setup, wait_for
from harness import program, service
from harness.checks import Check, Missed, Skipped, Suite, require, run_script, run_suites
from harness.deployed import MOST_CLIENTS, Books, Follower, ViewModel, Status, feed, feeder
from harness.small_streams import random_stream
from hostile import is_served, metrics_of, patch_viewer, view_of, with_metrics
from reader_kit import KINDS, Readers, view_of as connect_view

ROSTER = firmd_kit.HEADING + b"alpha,4096,65536,1000000000,1,2\nbeta,30,300,1000000000,0,3\n"
TASKS = 2_500
FAST = Path("/dev/shm")  # syncs take no time here, so that firmd itself is measured
RATIO = 1.5
MANY_TIMES = 5  # firmd's work; other load of the host changes a figure by less
LONG_SECONDS = 120.0  # for readers' answers, on a busy host
TRIES = 6  # of a measurement: other load of the host may spoil some
WATCHERS = 64  # one agent for each tenant
MAX_GROWN_FIRMD = 32_000  # kilobytes, by readers that read nothing: 16 MiB for the viewer; 22,000 in all were seen
UNREAD_REQUESTS = "requests without reading"
MAX_GROWN = {  # of the viewer, by kind; those of the view have 64 MiB in all
    UNREAD_REQUESTS: 10_000,
    "watchers that do not read": 150_000,
    "views that do not read": 150_000,
}
SAID = 'firm_own_replies_total{reply="unknown-tenant",socket="*",tenant=""}'
TICKS = os.sysconf("SC_CLK_TCK")  # of a processor's second
VIEW, ALPHA = 61001, 61002  # a group, and a user


def metric(daemon: Daemon, name: str) -> float:
    return metrics_of(daemon)[name]


def rows_of(daemon: Daemon, tenant: str) -> Any:
    """Return all rows of a tenant; None if there is no such tenant."""
    return ask(daemon, {"ask": "watch", "tenant": tenant})["book"]


def children_of(daemon: Daemon) -> dict[int, str]:
    """Return the processes that firmd started, with their command lines."""
    pid = daemon.running().pid
    found = {}
    for child in Path(f"/proc/{pid}/task/{pid}/children").read_text().split():
        with suppress(OSError):
            found[int(child)] = Path(f"/proc/{child}/cmdline").read_bytes().replace(b"\0", b" ").decode()
    return found


def viewer_of(daemon: Daemon) -> int:
    """Return the process that answers readers; a new one has its command line a moment after its start."""

    def viewers() -> list[int]:
        return [pid for pid, words in children_of(daemon).items() if "firm-viewer" in words]

    wait_for(lambda: len(viewers()) == 1, "firmd has one process for readers")
    return viewers()[0]


def ask(daemon: Daemon, request: object) -> Any:
    with view_of(daemon) as view:
        return json.loads(view.ask(json.dumps(request).encode()))


def give(client: Client, lines: list[bytes]) -> list[bytes]:
    """Return the replies to lines that are sent together."""
    client.send(b"".join(line + b"\n" for line in lines))
    return [client.reply() for _ in lines]


# Readers' effect on others.


def seconds_of_requests(daemon: Daemon, seconds: float) -> list[float]:
    """Return a writer's seconds for each request, one after another, over this time."""
    found = []
    with daemon.client() as writer:
        ends = time.perf_counter() + seconds
        while (began := time.perf_counter()) < ends:
            require(writer.ask(b"beta show").startswith(b"beta "), "a reply")
            found.append(time.perf_counter() - began)
    return found


def percentile(times: list[float], part: float) -> float:
    return sorted(times)[min(int(part * len(times)), len(times) - 1)]


def shows_all(daemon: Daemon) -> None:
    """Require that all tasks are shown once the earlier requests are answered."""

    def are_shown() -> bool:
        with suppress(TimeoutError, Gone):
            return len(rows_of(daemon, "alpha")["tasks"]) == TASKS
        return False

    wait_for(are_shown, "all tasks are shown", LONG_SECONDS)


@contextmanager
def full_service(setup: Setup) -> Iterator[Daemon]:
    """Start a service with many tasks."""
    with setup.daemon(roster=ROSTER) as daemon:
        with_metrics(daemon)
        daemon.start()
        with daemon.client() as client:
            lines = [b"alpha machine m 64", b"alpha job j 10", *[b"alpha task j t%d" % task for task in range(TASKS)]]
            require(all(reply.endswith(b" ok") for reply in give(client, lines)), "rows")
        shows_all(daemon)
        yield daemon


class Deaths:
    """Kill the process that answers readers, again and again."""

    def __init__(self, daemon: Daemon) -> None:
        self.answers = 0
        self._daemon, self._is_paused, self._ended = daemon, threading.Event(), threading.Event()
        self._thread = threading.Thread(target=self._kill)
        self._thread.start()

    def __enter__(self) -> Deaths:
        return self

    def __exit__(self, *_: object) -> None:
        self._ended.set()
        self._thread.join()

    def pause(self) -> None:
        self._is_paused.set()

    def go_on(self) -> None:
        self._is_paused.clear()

    def _kill(self) -> None:
        while not self._ended.wait(0.2):
            with suppress(Missed, ProcessLookupError):
                if not self._is_paused.is_set():
                    os.kill(viewer_of(self._daemon), signal.SIGKILL)
                    self.answers += 1


@dataclass
class Measured:
    """A writer's seconds of requests, by rounds without readers and beside them."""

    slowest: list[float] = field(default_factory=list)  # the 99th percentile of each round, in seconds
    requests: int = 0
    processor: float = 0.0  # seconds of firmd itself

    def add(self, daemon: Daemon, seconds: float) -> None:
        began = processor_seconds(daemon)
        times = seconds_of_requests(daemon, seconds)
        self.processor += processor_seconds(daemon) - began
        self.requests += len(times)
        self.slowest.append(percentile(times, 0.99))

    def of_each(self) -> float:
        """Return firmd's seconds for a request."""
        return self.processor / self.requests

    def of_each_at_most(self) -> float:
        """Return the same with one tick more: the system counts in ticks and may have missed one."""
        return (self.processor + 1 / TICKS) / self.requests

    def __str__(self) -> str:
        p99 = statistics.median(self.slowest)
        return f"p99 {1e3 * p99:.2f} ms, {1e6 * self.of_each():.0f} us of firmd's processor time"


def processor_seconds(daemon: Daemon) -> float:
    """Return firmd's processor seconds so far."""
    fields = Path(f"/proc/{daemon.running().pid}/stat").read_text().rpartition(")")[2].split()
    return (int(fields[11]) + int(fields[12])) / TICKS


def unhurried(setup: Setup, kind: str) -> None:
    """Beside such readers, a writer's requests take at most half as long again as without them, and firmd does no more
    work.

    Other load of the host may spoil some tries; one must show both. "Without readers" includes the time before the
    first reader: otherwise readers whose requests are still answered during a pause would compare well.
    """
    rounds, seconds = (3, 0.5) if setup.is_quick else (8, 1.0)
    with full_service(setup) as daemon:
        before = Measured()
        before.add(daemon, seconds)
        readers: Deaths | Readers = Deaths(daemon) if kind == "deaths" else Readers(kind, daemon.state)
        with readers:
            for _ in range(TRIES):
                alone, beside = Measured(), Measured()
                for _ in range(rounds):
                    readers.pause()
                    time.sleep(0.2)  # until all requests are answered
                    alone.add(daemon, seconds)
                    readers.go_on()
                    time.sleep(0.1)
                    beside.add(daemon, seconds)
                ratio = statistics.median(beside.slowest) / statistics.median(alone.slowest)
                print(f"{kind}: without them {alone}; beside them {beside}", flush=True)
                if ratio <= RATIO and beside.of_each() <= RATIO * alone.of_each_at_most():
                    break
        require(readers.answers > 0, "they read something")
        require(ratio <= RATIO, f"{ratio:.2f} times")
        require(beside.of_each() <= RATIO * alone.of_each_at_most(), f"more work: {beside}, and not {alone}")
        is_over = alone.of_each() <= MANY_TIMES * before.of_each_at_most()
        require(is_over, f"what readers asked is still under way: {alone}, and before there were any {before}")
        is_served(daemon)
        shows_all(daemon)


def bounded_memory(setup: Setup) -> None:
    """Readers that read no reply take a bounded part of the memory, whatever they request, and none of firmd's."""
    for kind, most in MAX_GROWN.items():
        with full_service(setup) as daemon, daemon.client() as writer:
            processes = {"firmd": daemon.running().pid, "the viewer": viewer_of(daemon)}
            before = {name: firmd_kit.memory_kilobytes(pid) for name, pid in processes.items()}
            with Readers(kind, daemon.state):
                ends = time.monotonic() + (2 if setup.is_quick else 20)
                while time.monotonic() < ends:
                    give(writer, [b"beta show"] * 1_000)  # some megabytes for watchers
                grown = {name: firmd_kit.memory_kilobytes(pid) - before[name] for name, pid in processes.items()}
        print(f"{kind}: kB more: {grown}", flush=True)
        require(grown["firmd"] < MAX_GROWN_FIRMD and grown["the viewer"] < most, f"{kind}: {grown}")


def idle_views(setup: Setup) -> None:
    """An idle view without a request is closed after a while; a watcher is not."""
    with setup.daemon() as daemon, ExitStack() as held:
        patch_viewer(daemon, "from firm.viewer import view\nview.IDLE_SECONDS = 3.0")
        daemon.start()
        idle, watching = [held.enter_context(connect_view(str(daemon.state))) for _ in range(2)]
        watching.sendall(b'{"ask": "watch", "tenant": "alpha"}\n')
        require(watching.recv(1 << 16).endswith(b"\n"), "the rows")
        require(idle.recv(100) == b"", "an idle view is closed")
        with daemon.client() as client:
            client.ask(b"alpha show")
        require(b"alpha show" in watching.recv(1 << 16), "an idle watcher is not")
        daemon.stop()


def watched_lines(setup: Setup) -> None:
    """Pipelined lines of a client cost firmd about the same beside many watchers that don't read."""
    lines = [b"alpha show"] * 1_000

    def seconds_of_lines() -> float:
        began = processor_seconds(daemon)
        for _ in range(30):
            give(client, lines)
        return processor_seconds(daemon) - began

    with setup.daemon() as daemon, ExitStack() as held:
        client = held.enter_context(daemon.start().client())
        alone = seconds_of_lines()
        for _ in range(WATCHERS):
            watcher = held.enter_context(connect_view(str(daemon.state)))
            watcher.sendall(b'{"ask": "watch", "tenant": "alpha"}\n')
            require(watcher.recv(1 << 16, socket.MSG_PEEK), "it watches")
        beside = seconds_of_lines()
        told = f"{beside:.2f} s instead of {alone:.2f}"
        print(f"firmd's processor time beside {WATCHERS} watchers: {told}", flush=True)
        require(beside <= MANY_TIMES * (alone + 1 / TICKS), told)
        require("status" in ask(daemon, {"ask": "status"}), "others are shown what they ask")
        daemon.stop()


BOUNDS = ["view.MOST_UNREAD = 500_000", "view.MOST_UNREAD_IN_ALL = 3_000_000"]


def dropped_watchers(setup: Setup, bound: str) -> None:
    """Watchers that don't read are dropped at once: their places are free while they still hold their ends."""
    with setup.daemon() as daemon, ExitStack() as held:
        patch_viewer(daemon, f"from firm.viewer import view\nview.PATIENCE_SECONDS = 1_000\n{bound}", PATIENT)
        daemon.start()
        descriptors = Path(f"/proc/{viewer_of(daemon)}/fd")
        wait_for(lambda: "status" in ask(daemon, {"ask": "status"}), "it answers")
        before = len(list(descriptors.iterdir()))
        for _ in range(30):
            watcher = held.enter_context(connect_view(str(daemon.state)))
            watcher.sendall(b'{"ask": "watch", "tenant": "alpha"}\n')
        wait_for(lambda: len(list(descriptors.iterdir())) >= before + 29, "they watch")
        with daemon.client() as client:

            def are_dropped() -> bool:
                give(client, [b"alpha " + b"x" * 200] * 2_000)
                return len(list(descriptors.iterdir())) <= before + 1

            wait_for(are_dropped, "they are dropped")


UNREAD = json.dumps({"ask": "x" * 40_000}).encode() + b"\n"  # the refusal repeats these words


def closing_connections(setup: Setup) -> None:
    """Closed connections with unread replies count until they are read, so that descriptors remain."""
    with setup.daemon() as daemon, ExitStack() as held:
        patch_viewer(daemon, "from firm.viewer import view\nview.PATIENCE_SECONDS = 1_000", PATIENT)
        daemon.start()
        descriptors = Path(f"/proc/{viewer_of(daemon)}/fd")
        wait_for(lambda: "status" in ask(daemon, {"ask": "status"}), "it answers")
        before, readers = len(list(descriptors.iterdir())), list[socket.socket]()
        for _ in range(200):
            readers.append(held.enter_context(connect_view(str(daemon.state))))
            with suppress(OSError):  # firmd may have refused it
                readers[-1].sendall(UNREAD * 6)  # whose replies exceed the system's buffers, but not asyncio's
                readers[-1].shutdown(socket.SHUT_WR)
        require(all(reader.recv(1, socket.MSG_PEEK) == b"{" for reader in readers), "each is answered, or refused")

        def has_few() -> bool:
            """Return whether the bound holds; a refused connection is closed a moment after its message."""
            return len(list(descriptors.iterdir())) - before <= MOST_CLIENTS

        wait_for(has_few, f"no more than {MOST_CLIENTS} connections are open")
        for reader in readers[: MOST_CLIENTS // 2]:
            reader.close()

        def is_room() -> bool:
            with suppress(Gone):  # it was refused before its request
                return "status" in ask(daemon, {"ask": "status"})
            return False

        wait_for(is_room, "there is room again")


# The process.


def another_viewer(setup: Setup) -> None:
    """If the process for readers dies or hangs, firmd reports and counts it, and starts another that shows the same
    rows."""
    with setup.daemon() as daemon:
        with_metrics(daemon)
        patch_viewer(daemon, "", "feeder.SILENT_SECONDS = 12")
        daemon.start()
        with daemon.client() as client:
            give(client, [*ROWS, b"alpha round", b"beta done none", b"nobody show"])
            wait_for(lambda: bool(rows_shown(daemon, ["beta"])["beta"]["commands"] == 4), "all is shown")
            shown = rows_shown(daemon, ["alpha", "beta"])
            require(metric(daemon, "firm_viewer_restarts_total") == 0, "none was started again")
            wait_for(lambda: metrics_of(daemon).get(SAID) == 1, "what firmd says itself is counted")
            for number, end in enumerate([signal.SIGKILL, signal.SIGSTOP], 1):
                first = viewer_of(daemon)
                os.kill(first, end)
                require(client.ask(b"beta where l").startswith(b"beta "), "a writer")
                shown["beta"]["commands"] += 1
                wait_for(lambda: first not in children_of(daemon), "it is gone")
                wait_for(lambda: daemon.said().count(b"restarting in") == number, "the message on the restart")
                require(rows_shown(daemon, ["alpha", "beta"]) == shown, "other rows")
                require(metric(daemon, "firm_viewer_restarts_total") == number, "it is counted")
                require(metric(daemon, 'firm_refusals_total{reason="no-such-task",tenant="beta"}') == 1, "a refusal")
                wait_for(lambda: metric(daemon, "firm_status_age_seconds") < 5, "the age of what firmd told")
                require(metric(daemon, SAID) == 1, "what firmd said itself")
            last = viewer_of(daemon)
        daemon.kill()
        wait_for(lambda: not Path(f"/proc/{last}").exists(), "it ends with firmd")
        daemon.start().stop()


def rows_shown(daemon: Daemon, tenants: list[str]) -> dict[str, Any]:
    """Return all rows of tenants, without the fields that change by themselves."""
    found = {}
    for tenant in tenants:
        book = rows_of(daemon, tenant)
        for task in book["tasks"] if book else []:
            task.pop("seconds")
        found[tenant] = book
    return found


def row_of_model(tenant: service.Tenant) -> object:
    tasks = [(name, task.job, task.machine, task.waited, task.preferred) for name, task in tenant.tasks.items()]
    return list(tenant.machines.items()), list(tenant.jobs.items()), tasks, tenant.costs, tenant.given


def row_of_book(book: dict[str, Any]) -> object:
    tasks = [(row["task"], row["job"], row["machine"], row["waited"], row["prefers"]) for row in book["tasks"]]
    machines = [(row["machine"], row["slots"]) for row in book["machines"]]
    jobs = [(row["job"], row["weight"]) for row in book["jobs"]]
    return machines, jobs, tasks, book["costs"][-8:], book["commands"]


PATIENT = "feeder.SILENT_SECONDS = 600"  # so that only the check ends or stops a viewer
SMALL = f"""\
import socket
feeder.MAX_BEHIND, feeder.AHEAD, feeder.PAUSE_SECONDS = 2_500, 2_400, 0.01
{PATIENT}
def go_on(self, original=feeder.Feeder._go_on):
    self._loop.call_later(0.01, original, self)
feeder.Feeder._go_on = go_on
def pair(original=socket.socketpair):
    found = original()
    found[0].setsockopt(socket.SOL_SOCKET, socket.SO_SNDBUF, 1)
    return found
socket.socketpair = pair
"""


def shown_after_gaps(setup: Setup) -> None:
    """After random streams the viewer shows the rows of a plain service, though it was killed and fell behind."""
    draw = random.Random(setup.seed)
    gaps = 0
    for number in range(40):
        # On a busy host the viewer may keep up with some streams.
        if setup.is_quick and number >= 4 and gaps > 0:
            break
        roster, text = random_stream(draw, 5)
        model = service.opened(roster)
        told = [(line, service.answer_line(model, line)) for line in service.lines_of(text)]
        # firm removes one CR from the end of a line, and so does this line.
        lines = [line + b"\r" if line.endswith(b"\r") else line for line, reply in told if reply is not None]
        replies = [reply for _, reply in told if reply is not None]
        with setup.daemon(roster=roster) as daemon:
            patch_viewer(daemon, "", SMALL)
            daemon.start()
            kills = 0
            with Client(daemon.operator) as client:
                while lines:
                    part = draw.choice([1, 2, 5, 20])
                    require(give(client, lines[:part]) == replies[:part], "the replies")
                    kills += disturb(daemon, draw)
                    lines, replies = lines[part:], replies[part:]
            wait_for(lambda: is_shown(daemon, model), f"seed {setup.seed}: what is shown")
            status = ask(daemon, {"ask": "status"})["status"]
            require(status["viewer_restarts"] == kills, f"{kills} kills, and {status}: {daemon.said().decode()}")
            gaps += status["viewer_gaps"]
            daemon.stop()
    require(gaps > 0, "the viewer never fell behind")


def disturb(daemon: Daemon, draw: random.Random) -> bool:
    """Now and then stop the process for readers, continue it, or kill it; return whether it did."""
    action = draw.choice([None, signal.SIGSTOP, signal.SIGCONT, signal.SIGCONT, signal.SIGKILL])
    if action == signal.SIGKILL and draw.random() < 0.7:
        action = None
    try:
        if action is not None:
            viewer = viewer_of(daemon)
            os.kill(viewer, action)
            if action == signal.SIGKILL:
                wait_for(lambda: viewer not in children_of(daemon), "it is gone")
    except Missed:  # no viewer runs at this moment
        return False
    time.sleep(draw.choice([0, 0, 0.01, 0.1]))
    return action == signal.SIGKILL


def is_shown(daemon: Daemon, model: service.Service) -> bool:
    with suppress(Missed, ProcessLookupError):
        os.kill(viewer_of(daemon), signal.SIGCONT)
    try:
        shown = [row["tenant"] for row in ask(daemon, {"ask": "status"})["tenants"]]
        books = rows_shown(daemon, list(model.tenants))
    except (Gone, ValueError):  # the viewer was just killed
        return False
    if shown != list(model.tenants) or None in books.values():
        return False
    wanted = {name: row_of_model(tenant) for name, tenant in model.tenants.items()}
    found = {name: row_of_book(book) for name, book in books.items()}
    return bool(found == wanted)


def watchers_behind(setup: Setup) -> None:
    """A watcher of a viewer that fell behind gets a notice and is closed; firmd buffers a bounded amount for it."""
    with setup.daemon() as daemon:
        patch_viewer(daemon, "", f"feeder.MAX_BEHIND = 1_000_000\n{PATIENT}")
        daemon.start()
        with daemon.client() as client, view_of(daemon) as watcher:
            give(client, ROWS)
            wait_for(lambda: len(rows_of(daemon, "alpha")["tasks"]) == 1, "rows")
            require(b'"book"' in watcher.ask(b'{"ask": "watch", "tenant": "alpha"}'), "the rows")
            os.kill(viewer_of(daemon), signal.SIGSTOP)
            before = firmd_kit.memory_kilobytes(daemon.running().pid)
            for _ in range(200):
                give(client, [b"beta show"] * 300)
            require(firmd_kit.memory_kilobytes(daemon.running().pid) - before < MAX_GROWN_FIRMD, "firmd's memory")
            give(client, [b"alpha round"])
            os.kill(viewer_of(daemon), signal.SIGCONT)
            wait_for(lambda: bool(rows_of(daemon, "alpha")["machines"][0]["tasks"] == ["a"]), "the round is shown")
            require(json.loads(watcher.rest())["error"] == "behind", watcher.received)
        daemon.stop()


# The feed.


class Told:
    """Books, and a viewer's copy, which receives them in messages that are cut anywhere."""

    def __init__(self, draw: random.Random, roster: bytes) -> None:
        self.draw, self.books, self.heard = draw, Books(), Books()
        self.books.start(roster)
        self.shown = ViewModel(Books(), Status(0.0, 0, 0, 0, 0, 0, 0, 0), "")
        self.follower, self.messages = Follower(self.shown, lambda: None), feed.Messages()
        self.rows: list[str] | None = None  # tenants whose rows the viewer still lacks
        self.is_telling = False

    def take(self, lines: list[bytes], replies: list[bytes]) -> None:
        self.books.replied_all(lines, replies, None)
        if self.is_telling:
            self.tell(feed.LINES, feed.lines_text(lines, replies, None))
        self.go_on()

    def go_on(self) -> None:
        """Begin anew now and then; else send a tenant's rows, or the message that all are sent."""
        if self.draw.random() < 0.1 or not self.is_telling:
            self.is_telling, self.rows = True, list(self.books.tenants)
            self.tell(feed.BEGIN, feed.begin_text(self.books, "a state"))
        elif self.rows and self.draw.random() < 0.5:
            book = self.books.tenants.get(self.rows.pop(0))
            if book is not None:
                self.tell(feed.TENANT, feed.tenant_text(book))
        elif self.rows == []:
            self.rows = None
            self.tell(feed.END, b"")

    def tell(self, kind: int, text: bytes) -> None:
        message = feed.message(kind, text)
        cut = self.draw.randrange(len(message) + 1)
        for piece in (message[:cut], message[cut:]):
            for heard in self.messages.add(piece):
                self.follower.take(*heard)

    def compare(self, what: str) -> None:
        """Require that the viewer shows the rows as they are, unless some are still to be sent."""
        if self.rows is None and self.is_telling:
            mine, other = self.books, self.shown.books
            require(list(mine.tenants.items()) == list(other.tenants.items()), f"{what}: {other.tenants}")
            same = (mine.lines, mine.refusals, mine.round_times) == (other.lines, other.refusals, other.round_times)
            require(same, f"{what}: {vars(other)}")


def told_by_feed(setup: Setup) -> None:
    """Books that join the feed in the middle of a stream have the same rows once all are sent."""
    compared = 0
    for seed in range(setup.seed, setup.seed + (100 if setup.is_quick else 3_000)):
        draw = random.Random(seed)
        roster, text = random_stream(draw, 5)
        model = service.opened(roster)
        answers = [(line, service.answer_line(model, line)) for line in service.lines_of(text)]
        told = [(line, reply) for line, reply in answers if reply is not None]
        pair = Told(draw, roster)
        while told:
            size = draw.choice([1, 2, 5])
            part, told = told[:size], told[size:]
            pair.take([line for line, _ in part], [reply for _, reply in part])
            pair.compare(f"seed {seed}, at line {pair.books.lines}")
            compared += pair.rows is None
    require(compared > 1_000, f"compared {compared} times")


def whole_messages(setup: Setup) -> None:
    """A viewer that falls behind gets whole messages in their order, whichever of them firmd withdraws meanwhile."""

    async def converse(draw: random.Random) -> int:
        end, other = socket.socketpair()
        end.setsockopt(socket.SOL_SOCKET, socket.SO_SNDBUF, 1)
        other.setblocking(False)
        pipe = feeder.Pipe(end, lambda: None, lambda: None)
        messages, heard, kept, number, forgotten = feed.Messages(), list[int](), list[int](), 0, 0
        for step in range(400):
            match draw.randrange(4) if step < 300 else 3:
                case 0 | 1:
                    number += 1
                    kept.append(number)
                    pipe.put(feed.message(feed.LINES, b"%d " % number + b"x" * draw.choice([0, 100, 5_000])))
                case 2 if draw.random() < 0.1:
                    before = pipe.size
                    pipe.forget()
                    forgotten += pipe.size < before
                    kept.clear()
                case 3:
                    with suppress(BlockingIOError):
                        for _, text in messages.add(other.recv(100_000)):
                            heard.append(int(text.split()[0]))
            await asyncio.sleep(0)
        require(heard == sorted(set(heard)) and pipe.size == 0, f"{heard}, and {pipe.size} bytes are left")
        require(heard[len(heard) - len(kept) :] == kept, f"{heard}, and {kept} were sent last")
        pipe.close()
        other.close()
        return forgotten

    forgotten = sum(asyncio.run(converse(random.Random(setup.seed + number))) for number in range(20))
    require(forgotten > 20, f"{forgotten} were taken back")


# The rows of each reader.


CONNECT = """\
import socket, sys
socket.socket(socket.AF_UNIX).connect(sys.argv[1])
"""


def private_view(setup: Setup) -> None:
    """Users with access to the state folder can't connect to the view: firm-api serves them."""
    if os.geteuid() != 0 or shutil.which("setpriv") is None:
        raise Skipped("rights of others need root and setpriv")
    with setup.daemon("--socket-mode", "660") as daemon:
        daemon.folder.chmod(0o755)
        daemon.state.mkdir()
        os.chown(daemon.state, 0, VIEW)
        daemon.state.chmod(0o2750)
        daemon.start()
        wait_for(lambda: "status" in ask(daemon, {"ask": "status"}), "root is answered")
        words = ["setpriv", f"--reuid={ALPHA}", f"--regid={VIEW}", "--clear-groups", "/usr/bin/python3", "-I", "-c"]
        done = subprocess.run([*words, CONNECT, str(daemon.state / "view")], capture_output=True, text=True)
        require("PermissionError" in done.stderr, f"status {done.returncode}: {done.stderr}")
        daemon.stop()


CHECKS: list[Callable[[Setup], None]] = [
    bounded_memory,
    idle_views,
    closing_connections,
    another_viewer,
    told_by_feed,
    whole_messages,
    shown_after_gaps,
    watchers_behind,
    watched_lines,
    private_view,
]


def main() -> int:
    parser = argparse.ArgumentParser(description=(__doc__ or "").splitlines()[0])
    parser.add_argument("--quick", action="store_true", help="the part that tests/quick runs")
    program.add_program(parser)
    parser.add_argument("--only", default="", help="run only the checks whose names have these words")
    parser.add_argument(
        "--seed", type=int, default=random.randrange(10**6), help="seed of the streams (default: any)"
    )
    options = parser.parse_args()
    print(f"seed {options.seed}", flush=True)
    if os.access(FAST, os.W_OK):
        tempfile.tempdir = str(FAST)
    setup = Setup(options.program, options.quick, options.seed)
    kinds = ["all"] if setup.is_quick else [*KINDS, "deaths"]
    measured: dict[str, Check] = {f"unhurried beside {kind}": partial(unhurried, setup, kind) for kind in kinds}
    named: dict[str, Check] = {check.__name__.replace("_", " "): partial(check, setup) for check in CHECKS}
    named |= {f"dropped watchers, {bound}": partial(dropped_watchers, setup, bound) for bound in BOUNDS}
    alone = {name: check for name, check in measured.items() if options.only in name}
    chosen = {name: check for name, check in named.items() if options.only in name}
    return run_suites(Suite(alone), Suite(chosen, firmd_kit.CHECKS_AT_A_TIME))


if __name__ == "__main__":
    run_script(main)
