"""Clients of replicas while leaders, followers and members are killed or suspended, and a judge of their replies."""

from __future__ import annotations

import itertools
import os
import random
import signal
import socket
import threading
import time
from collections.abc import Iterator
from dataclasses import dataclass, field
from typing import NamedTuple

from etcd_kit import NAMES, Members, Replicas, until
from harness import program
from harness.checks import require

CLIENTS, TENANTS = 16, 8
ROSTER = b"tenant,nodes,arcs,life,spread,churn\n" + b"".join(
    b"t%d,4096,65536,1099511627776,1,500\n" % number for number in range(TENANTS)
)
SLEEP_SECONDS, QUORUM_SECONDS = 6.0, 4.0  # two leases; and the time for which most members are away
LEADER_SECONDS = 20.0
AROUND_SECONDS = 8.0  # after an event; a silence within it belongs to the event
PATIENCE = (2.0, 2 * SLEEP_SECONDS)  # of clients: some leave a leader that sleeps, some wait for its answer
KINDS = ["leader"] * 4 + ["sleep"] * 2 + ["follower", "member", "both", "quorum"]
KILLED, STOPPED = "leader killed", "leader stopped"


class Answer(NamedTuple):
    line: bytes
    reply: bytes
    asked: float
    answered: float


class Client(threading.Thread):
    """Tasks that come and go, one line at a time, at whichever replica listens."""

    def __init__(self, number: int, replicas: Replicas) -> None:
        super().__init__(daemon=True)
        self.number, self._replicas = number, replicas
        self.is_over = threading.Event()
        self.answers: list[Answer] = []
        self.unknown = 0  # lines without an answer
        self._stream: socket.SocketIO | None = None

    def run(self) -> None:
        for line in self._lines():
            while self._stream is None and not self.is_over.is_set():
                self._stream = self._connect()
                if self._stream is None:
                    time.sleep(0.02)
            if self.is_over.is_set():
                return
            self._ask(line.encode() + b"\n")

    def _lines(self) -> Iterator[str]:
        tenant, name = f"t{self.number % TENANTS}", self.number
        yield f"{tenant} machine m{name} 8"
        yield f"{tenant} job j{name} 10"
        for count in itertools.count(1):
            yield f"{tenant} task j{name} x{name}-{count}"
            if count % 5 == 0:
                yield f"{tenant} round"
            yield f"{tenant} where x{name}-{count}"
            if count > 3:
                yield f"{tenant} done x{name}-{count - 3}"

    def _ask(self, line: bytes) -> None:
        stream, asked = self._stream, time.monotonic()
        try:
            if stream is None:
                raise OSError("no replica listens")
            stream.write(line)
            stream.flush()
            reply = stream.readline()
            if not reply.endswith(b"\n") or reply.startswith(b"?"):
                raise OSError("no reply")
            self.answers.append(Answer(line, reply, asked, time.monotonic()))
        except OSError:  # the line may have been taken or not: go on with the next
            self._stream = None
            self.unknown += 1

    def _connect(self) -> socket.SocketIO | None:
        for name in random.sample(NAMES, len(NAMES)):
            tried = socket.socket(socket.AF_UNIX)
            tried.settimeout(random.choice(PATIENCE))
            try:
                tried.connect(str(self._replicas.socket(name)))
                return tried.makefile("rwb", buffering=0)
            except OSError:
                tried.close()
        return None


@dataclass
class Event:
    at: float
    what: str
    silence: float = 0.0  # the longest without any answer after it


@dataclass
class Verdict:
    answered: int
    lost: list[Answer]  # missing or different in the journal
    twice: int
    unknown: int
    are_equal: bool  # the replicas' journals
    events: list[Event] = field(default_factory=list)

    def __str__(self) -> str:
        journals = "equal" if self.are_equal else "DIFFERENT"
        return (
            f"{len(self.events)} events, {self.answered:,} answered, {len(self.lost):,} of them lost or otherwise,"
            f" {self.twice:,} twice, {self.unknown:,} lines without an answer, journals {journals}"
        )

    def longest(self, what: str) -> float:
        return max([event.silence for event in self.events if event.what == what], default=0.0)


class Chaos:
    def __init__(self, members: Members, replicas: Replicas, seed: int) -> None:
        self.members, self.replicas, self.draw = members, replicas, random.Random(seed)
        self.clients = [Client(number, replicas) for number in range(CLIENTS)]
        self.events: list[Event] = []

    def run(self, seconds: float, kinds: list[str]) -> Verdict:
        """Cause each kind of event in a random order, again and again for this time; return the verdict."""
        self.replicas.start(*NAMES)
        for client in self.clients:
            client.start()
        ends = time.monotonic() + seconds
        try:
            while time.monotonic() < ends:
                for kind in self.draw.sample(kinds, len(kinds)):
                    if time.monotonic() < ends:
                        time.sleep(self.draw.uniform(1, 3))
                        self.cause(kind)
            until(self._serves, "one leads at the end")
            time.sleep(2)
        finally:
            for client in self.clients:
                client.is_over.set()
            for client in self.clients:
                client.join(10)
        self._settle()
        return self.judge()

    def cause(self, kind: str) -> None:
        """Cause an event, and undo it; wait until a replica leads and answers."""
        until(self._serves, "one leads", LEADER_SECONDS)
        leader = self.replicas.leader()
        if leader is None:
            return
        if kind in ("leader", "both"):
            self._note(KILLED if kind == "leader" else "leader and a member killed")
            self.replicas.kill(leader)
        elif kind == "stop":
            self._note(STOPPED)
            self.replicas.processes[leader].send_signal(signal.SIGTERM)
            self.replicas.processes[leader].wait()
        elif kind == "sleep":
            self._note("leader asleep")
            os.kill(self.replicas.processes[leader].pid, signal.SIGSTOP)
            time.sleep(SLEEP_SECONDS)
            os.kill(self.replicas.processes[leader].pid, signal.SIGCONT)
        elif kind == "follower":
            self._note("follower killed")
            self.replicas.kill(self.replicas.follower())
        if kind in ("member", "both"):
            if kind == "member":
                self._note("member killed")
            self._without_members(self.draw.sample(range(3), 1), self.draw.uniform(1, 3))
        elif kind == "quorum":
            self._note("most members killed")
            self._without_members(self.draw.sample(range(3), 2), QUORUM_SECONDS)
        time.sleep(self.draw.uniform(0, 1))
        self.replicas.revive()

    def judge(self) -> Verdict:
        """Compare with firm's own replies to the longest journal: each answer must be there, with its line, once."""
        journals = [self.replicas.journal(name) for name in NAMES]
        longest = max(journals, key=len)
        with program.Roster(ROSTER) as path:
            done = program.run([self.replicas.firm], path, longest)
        require(done.status == 0, done.faults)
        lines, replies = longest.splitlines(keepends=True), done.output.splitlines(keepends=True)
        there = {number_of(reply): (line, reply) for line, reply in zip(lines, replies, strict=True)}
        answers = [answer for client in self.clients for answer in client.answers]
        lost = [answer for answer in answers if there.get(number_of(answer.reply)) != (answer.line, answer.reply)]
        twice = len(answers) - len({number_of(answer.reply) for answer in answers})
        self._measure(sorted(answer.answered for answer in answers))
        unknown = sum(client.unknown for client in self.clients)
        return Verdict(len(answers), lost, twice, unknown, len(set(journals)) == 1, self.events)

    def _serves(self) -> bool:
        self.replicas.revive()
        return self.replicas.leader() is not None

    def _settle(self) -> None:
        """Wait until all replicas have the same lines, or for a while if they never will."""
        ends = time.monotonic() + 15
        while time.monotonic() < ends:
            self.replicas.revive()
            if len({self.replicas.journal(name) for name in NAMES}) == 1:
                return
            time.sleep(0.2)

    def _note(self, what: str) -> None:
        self.events.append(Event(time.monotonic(), what))

    def _without_members(self, numbers: list[int], seconds: float) -> None:
        for number in numbers:
            self.members.kill(number)
        time.sleep(seconds)
        for number in numbers:
            self.members.start(number)

    def _measure(self, answered: list[float]) -> None:
        """Find the longest silence of each event, until the next one."""
        bounds = [*[event.at for event in self.events[1:]], answered[-1] if answered else 0.0]
        for event, bound in zip(self.events, bounds):
            ends = min(bound, event.at + AROUND_SECONDS)
            times = [event.at, *[at for at in answered if event.at < at < ends], ends]
            event.silence = max(after - before for before, after in zip(times, times[1:]))


def number_of(reply: bytes) -> tuple[bytes, ...]:
    """Return the tenant and the number of a reply, which no other one has."""
    return tuple(reply.split(b" ", 2)[:2])


def latencies(clients: list[Client]) -> tuple[float, float]:
    """Return the median and the 99th percentile of all answers, in milliseconds."""
    spent = sorted(answer.answered - answer.asked for client in clients for answer in client.answers)
    return spent[len(spent) // 2] * 1e3, spent[len(spent) * 99 // 100] * 1e3
