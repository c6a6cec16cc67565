"""Check the rules of replicas without engines: the contents and answers of etcd, and the right to append."""

from __future__ import annotations

import argparse
import http.server
import json
import random
import socket
import subprocess
import sys
import tempfile
import threading
import time
from collections.abc import Callable, Iterator
from contextlib import contextmanager
from pathlib import Path
from unittest.mock import patch

from etcd_kit import memory, until
from harness.checks import require
from stand_in_etcd import Connection, Memory

from firm.common import logs
from firm.common.faults import Exit, Fault
from firm.server.journal import Journal, SegmentLimit
from firm.server.records import Base, JournalBatch
from firm.server.replicated import journal as replicated_journal
from firm.server.replicated.beginning import Length, agree, compare_lengths
from firm.server.replicated.digests import EVERY_LINES, Chain, Digest, Digests
from firm.server.replicated.entries import Agreed, LogEntry, Keys, cut_off, parts_of
from firm.server.replicated.etcd import Access, KeyChange, Denied, Etcd, Full, Member, Put, DatabaseSize, Unfit, Unsure
from firm.server.replicated.faults import Anew
from firm.server.replicated.housekeeper import Housekeeper, DurablePosition
from firm.server.replicated.housekeeper import SyncedJournal as KeptJournal
from firm.server.replicated.journal import EtcdLink, ReplicatedJournal, position_of
from firm.server.replicated.offers import Offer
from firm.server.replicated.point import Point, Position, point_of
from firm.server.replicated.replica import warnings_of
from firm.server.snapshots import Snapshot
from firm.server.state import ServiceState

replicated_journal.PAUSE = 0.001  # so that a request is repeated at once
ROSTER = b"tenant,nodes,arcs,life,spread,churn\nalpha,30,300,1000,1,2\n"
KEYS = Keys("/firm")
ID = "0123456789abcdefabcd"


def refused(call: Callable[[], object], kind: type[Exception], *texts: str) -> Exception:
    """Return the exception that a call raises."""
    try:
        found = call()
    except kind as error:
        require(all(text in str(error) for text in texts), f"{texts}: {error}")
        return error
    require(False, f"{call} was not refused, but gave {found!r}")
    raise AssertionError


def batch(*lines: bytes, sender: bytes = b"alpha") -> JournalBatch:
    return JournalBatch(sender, b"".join(line + b"\n" for line in lines), len(lines))


# The contents of etcd.


def entries() -> None:
    """An entry is read as it was written; an incomplete entry is reported with its byte."""
    written = LogEntry(7, 1234, 99, 1_700_000_000_000, [batch(b"alpha show"), batch(b"alpha round", sender=b"firmd")])
    text = written.text(41)
    require(LogEntry.read(1234, text) == written, text)
    require(written.end == 1234 + len(b"alpha show\nalpha round\n"), written.end)
    for broken in (text[:-1], text.replace(b"show", b"shot"), b"7\n" + text, text.split(b"\n")[0], b""):
        fault = refused(lambda: LogEntry.read(1234, broken), Fault, "the entry of byte 1,234", "damaged")
        require(isinstance(fault, Fault) and fault.status == Exit.JOURNAL, fault)


def cuts() -> None:
    """Lines are cut into entries at line ends, in their order, with their senders; long batches too."""
    draw = random.Random(1)
    for _ in range(50):
        batches = [
            batch(*[b"x" * draw.randint(1, 30) for _ in range(draw.randint(1, 9))], sender=b"%d" % number)
            for number in range(draw.randint(1, 6))
        ]
        most = draw.randint(31, 120)
        parts = list(parts_of(batches, most))
        whole = [(one.sender, line) for one in batches for line in one.text.splitlines()]
        cut = [(one.sender, line) for part in parts for one in part for line in one.text.splitlines()]
        require(cut == whole and all(one.text.endswith(b"\n") for part in parts for one in part), parts)
        require(all(sum(len(one.text) for one in part) <= most for part in parts), (most, parts))
        require(all(one.lines == one.text.count(b"\n") for part in parts for one in part), parts)


def histories() -> None:
    """A journal appends the part of an entry that it lacks; a late, early or foreign entry is refused by name."""
    begin = Position().behind(b"alpha job j 10\n")
    entry = LogEntry(3, begin.size, begin.chain, 5, [batch(b"alpha show"), batch(b"beta show", b"beta round")])
    text = b"alpha show\nbeta show\nbeta round\n"
    for size in (0, len(b"alpha show\n"), len(b"alpha show\nbeta show\n"), len(text)):
        left = entry.left(begin.behind(text[:size]))
        require(b"".join(one.text for one in left) == text[size:], (size, left))
    require(list(cut_off(entry.batches, len(text))) == [], "nothing is left")
    for position, words in (
        (Position(), "late: bytes 0 to 15"),
        (begin.behind(text + b"alpha round\n"), "another history: its lines end at byte 47 in etcd, and at 59 here"),
        (Position().behind(b"alpha job j 20\n"), "another history: the lines before byte 15 differ"),
        (begin.behind(b"alpha shot\n"), "another history: the lines before byte 26 differ"),
    ):
        fault = refused(lambda: entry.left(position), Fault, words)
        require(isinstance(fault, Fault) and fault.status == Exit.JOURNAL, fault)


def agreements() -> None:
    """Of two states that begin at the same time, both replicas take the first."""
    memory = Memory()
    mine, other = Agreed(ID, ROSTER, Position()), Agreed(ID[::-1], b"other", Position(2, 30, 77))
    require(agree(Connection(memory), KEYS, mine) == mine, "the first")
    require(agree(Connection(memory), KEYS, other) == mine, "the second")
    memory.rows.clear()
    require(agree(Connection(memory), KEYS, other) == other, "one that goes on from a journal")
    for text in (b"what", mine.text() + b" 0123"):
        memory.set(Put(KEYS.state, text))
        refused(lambda: agree(Connection(memory), KEYS, mine), Fault, "no state of firmd")


# The right to append.


class Case:
    """Replicas over an etcd in memory."""

    def __init__(self, folder: Path) -> None:
        self.folder, self.memory = folder, Memory()
        self.agreed = agree(Connection(self.memory), KEYS, Agreed(ID, ROSTER, Position()))
        self.opened: list[ReplicatedJournal] = []
        self.states: list[ServiceState] = []

    def open(self, name: str) -> tuple[ReplicatedJournal, list[Connection]]:
        """Return a replica and its connections, the one for appends first."""
        state = ServiceState(self.folder / name)
        state.id_to_take = ID
        (self.folder / name / "roster.csv").write_bytes(ROSTER)
        connections: list[Connection] = []

        def connect() -> Connection:
            connections.append(Connection(self.memory))
            return connections[-1]

        journal = ReplicatedJournal(Journal(state, SegmentLimit(4096)), EtcdLink(connect, KEYS, name, 60), self.agreed)
        self.opened.append(journal)
        self.states.append(state)
        return journal, connections

    def leads(self, journal: ReplicatedJournal) -> bytes:
        """Make this replica the only leader; return the lines that its replay gives until then."""
        row = self.memory.rows.get(KEYS.leader)
        if row is not None:
            self.memory.end_lease(row[1])
        return b"".join(piece.text for piece in journal.pieces())

    def lines(self) -> bytes:
        """Return all lines in etcd."""
        rows = sorted(key for key in self.memory.rows if key.startswith(KEYS.lines))
        found = b""
        for key in rows:
            require(KEYS.offset(key) == len(found), f"{key!r} begins not at byte {len(found)}")
            value = self.memory.value(key) or b""
            found += b"".join(one.text for one in LogEntry.read(len(found), value).batches)
        return found


@contextmanager
def case() -> Iterator[Case]:
    with tempfile.TemporaryDirectory(prefix="firm-", dir=memory()) as name:
        found = Case(Path(name))
        try:
            yield found
        finally:
            for journal in found.opened:
                journal.leave()


def one_leader() -> None:
    """A leader appends; once another leads, its appends are refused and change nothing."""
    with case() as here:
        first, _ = here.open("a")
        second, _ = here.open("b")
        require(here.leads(first) == b"", "no lines yet")
        place = first.append([batch(b"alpha show"), batch(b"alpha round", sender=b"firmd")])
        require((place.number, place.end) == (1, 23), place)
        require(here.leads(second) == b"alpha show\nalpha round\n", "the second has them")
        before = here.lines()
        for _ in range(2):
            refused(lambda: first.append([batch(b"alpha costs")]), Fault, "another firmd leads by now")
        require(here.lines() == before, "nothing was changed")
        place = second.append([batch(b"beta show")])
        require((place.number, place.end) == (3, 33), place)
        require(here.lines() == b"alpha show\nalpha round\nbeta show\n", here.lines())


def lost_answers() -> None:
    """A request without an answer is repeated. It takes effect once, and the sender learns that, even under another
    leader."""
    with case() as here:
        first, connections = here.open("a")
        here.leads(first)
        appends = connections[0]
        for faults in (["done"], ["lost"], ["lost", "done"], ["done", "done", "lost"], ["again"], ["lost", "again"]):
            appends.faults = list(faults)
            first.append([batch(b"alpha " + faults[0].encode())])
        lines = b"alpha done\nalpha lost\nalpha lost\nalpha done\nalpha again\nalpha lost\n"
        require(here.lines() == lines, here.lines())
        # etcd does the request, its answer is lost, and before the repetition another replica leads.
        second, _ = here.open("b")
        appends.faults = ["done"]

        def take_over() -> None:
            if not appends.faults:
                appends.on_transaction = lambda: None
                require(here.leads(second) == lines + b"alpha last\n", "the second has it")

        appends.on_transaction = take_over
        first.append([batch(b"alpha last")])
        require(here.lines() == lines + b"alpha last\n", here.lines())
        refused(lambda: first.append([batch(b"alpha more")]), Fault, "another firmd leads by now")


def random_leaders() -> None:
    """Replicas lead in turn, asleep or not, while requests and answers are lost. Each acknowledged line stands in
    etcd once, in order, and in each replica's files."""
    for seed in range(6):
        draw = random.Random(seed)
        with case() as here:
            replicas = [here.open(name) for name in "abc"]
            acknowledged: list[bytes] = []
            has_led: list[ReplicatedJournal] = []
            for count in range(40):
                journal, connections = draw.choice(replicas)
                if draw.random() < 0.2 and journal not in has_led:
                    here.leads(journal)
                    has_led.append(journal)
                if journal not in has_led:
                    continue
                line = b"alpha task j t%d" % count
                connections[0].faults = draw.choice([[], [], ["lost"], ["done"], ["again"], ["done", "lost"]])
                try:
                    journal.append([batch(line)])
                    acknowledged.append(line)
                except Fault:
                    require(journal is not has_led[-1], f"seed {seed}: the leader was refused")
            lines = here.lines().splitlines()
            require(lines == acknowledged and lines, f"seed {seed}: {lines} {acknowledged}")
            for journal, _ in replicas:
                own = b"".join(piece.text for piece in journal._own.pieces())
                require(here.lines().startswith(own), f"seed {seed}: {own!r}")


def full_and_away() -> None:
    """Each of these is reported by name: an etcd that is full or doesn't answer, a late replica, and one with lines
    that etcd has lost."""
    with case() as here:
        first, connections = here.open("a")
        here.leads(first)
        first.append([batch(b"alpha show")])
        connections[0].faults = ["full"]
        fault = refused(lambda: first.append([batch(b"alpha show")]), Fault, "etcd is full", "alarm disarm")
        require(isinstance(fault, Fault) and fault.status == Exit.STATE, fault)
        first.append([batch(b"alpha costs")])
        here.memory.remove(KEYS.entry(0))
        late, _ = here.open("b")
        refused(lambda: here.leads(late), Fault, "late: bytes 0 to 11", "copy the state's folder")
        here.memory.set(Put(KEYS.snapshot, Offer(23, "none").text()))
        late, _ = here.open("c")
        refused(lambda: here.leads(late), Anew, "the lines after byte 0 are no longer in etcd")
        here.memory.remove(KEYS.snapshot)
        here.memory.remove(KEYS.entry(11))
        first.close()
        own = Journal(first._own.state, SegmentLimit(4096))
        again = ReplicatedJournal(own, EtcdLink(lambda: Connection(here.memory), KEYS, "a", 60), here.agreed)
        refused(lambda: here.leads(again), Fault, "another history: its lines end at byte 0 in etcd, and at 23 here")
        require(position_of(own).size == 23, "its files are as they were")


def old_changes() -> None:
    """A follower appends lines once, even if a watch repeats them: a member of etcd does so if it fell behind and
    got the store of another member."""
    with case() as here:
        first, _ = here.open("a")
        here.leads(first)
        for line in (b"alpha show", b"alpha costs"):
            first.append([batch(line)])
        second, connections = here.open("b")
        watch, pieces = connections[0].watch, second.pieces()

        def watch_from_the_first(key: bytes, end: bytes, revision: int, seconds: float) -> Iterator[list[KeyChange]]:
            first.append([batch(b"alpha round")])
            return watch(key, end, 0, seconds)

        setattr(connections[0], "watch", watch_from_the_first)
        found = [next(pieces).text for _ in range(3)]
        require(found == [b"alpha show\n", b"alpha costs\n", b"alpha round\n"], found)


# Digests, and the clean-up of etcd.


def digests() -> None:
    """However the replies are cut, all replicas have the same digests; a different digest is reported, early or
    late."""
    draw = random.Random(3)
    replies = [b"alpha %d ok" % number for number in range(3 * EVERY_LINES + 10)]
    faults: list[Fault] = []

    def summed(texts: list[bytes]) -> Digests:
        found = Digests(faults.append)
        at = 0
        while at < len(texts):
            count = draw.randint(1, 400)
            found.replied_all(texts[at : at + count], texts[at : at + count], None)
            at += count
        return found

    latest = summed(replies).latest()
    require(latest is not None and latest == summed(replies).latest(), latest)
    told = latest or Digest(0, "")
    require(told.lines == 3 * EVERY_LINES and Digest.read(told.text()) == told, told)
    summed(replies).compare(told)
    early = Digests(faults.append)
    early.compare(told)
    early.replied_all(replies, replies, None)
    require(not faults, faults)
    for number in (0, 100, 3 * EVERY_LINES - 1):
        others = [*replies[:number], b"alpha no", *replies[number + 1 :]]
        summed(others).compare(told)
        early = Digests(faults.append)
        early.compare(told)
        early.replied_all(others, others, None)
    require(len(faults) == 6 and all(fault.status == Exit.JOURNAL for fault in faults), faults)
    require("the replies to the first 768 lines are others than the leader's" in str(faults[0]), faults[0])


def points() -> None:
    """A replica continues from the byte positions of lines and replies in a snapshot, however both are cut."""
    draw = random.Random(5)
    replies = [b"alpha %d ok" % number for number in range(5 * EVERY_LINES)]
    whole = Chain()
    wanted = list(whole.add(replies))
    for size in (0, 1, EVERY_LINES - 1, EVERY_LINES, EVERY_LINES + 1, draw.randrange(len(replies)), len(replies)):
        point, at = Point(), 0
        while at < size:
            count = min(draw.randint(1, 400), size - at)
            point.add(b"alpha show\n" * count, replies[at : at + count])
            at += count
        base = Base(7, size, size * len(b"alpha show\n"), 0)
        books = json.dumps({"refusals": {}, "tenants": {}, **point.kept()}).encode()
        found = point_of(Snapshot(ID, 0, base, 0, books, b""))
        require(found is not None and found.position == Position().behind(b"alpha show\n" * size), found)
        rest = list((found or Point()).chain.add(replies[size:]))
        require(rest == [digest for digest in wanted if digest.lines > size], f"{size}: {rest}")
    require(point_of(Snapshot(ID, 0, base, 0, b'{"refusals":{},"tenants":{}}', b"")) is None, "a lone firmd's")


def housekeeper_of(memory: Memory, name: str, size: int, epoch: int) -> Housekeeper:
    found = Housekeeper(
        Connection(memory), KEYS, name, KeptJournal(lambda: size, lambda: None, lambda: epoch), Digests(print)
    )
    found._began = time.monotonic() - 60  # so that its name is free
    return found


def order() -> None:
    """The leader removes the lines that all replicas have, except the last ones, and the keys of replicas that are
    away too long."""
    memory = Memory()
    memory.set(Put(KEYS.leader, b"a"))
    epoch = memory.rows[KEYS.leader][0].made
    for offset in range(0, 1000, 100):
        memory.set(Put(KEYS.entry(offset), b""))

    def offsets() -> list[int]:
        return [KEYS.offset(key) for key in sorted(memory.rows) if key.startswith(KEYS.lines)]

    housekeeper_of(memory, "b", 450, 0).keep()
    leader = housekeeper_of(memory, "a", 1000, epoch)
    leader.retained = 800
    leader.keep()
    require(offsets() == list(range(200, 1000, 100)) and memory.compacted, offsets())
    leader.retained = 0
    leader.keep()
    require(offsets() == list(range(400, 1000, 100)), offsets())
    require(leader.told.kept == {"a": 1000, "b": 450}, leader.told)
    memory.set(Put(KEYS.kept + b"b", DurablePosition("x", 450, time.time() - 100).text()))
    leader.keep()
    require(offsets()[0] == 400, "one that is away for a while is waited for")
    memory.size = DatabaseSize(6, 10)
    for count in range(3):  # the replica is alive: its host's clock is slow
        memory.set(Put(KEYS.kept + b"b", DurablePosition("x", 450, time.time() - 100 + count).text()))
        leader.keep()
        require(offsets()[0] == 400, "one that lives is waited for, whatever its clock says")
    leader.quiet = 0.0
    leader.keep()
    require(offsets() == [900] and leader.told.kept == {"a": 1000}, "but not where etcd gets full")


def early_names() -> None:
    """A replica with much to replay reports the extent of its disk to etcd at once."""
    with case() as here:
        first, _ = here.open("a")
        here.leads(first)
        for number in range(3):
            first.append([batch(b"alpha where x%d" % number)])
        first.close()
        own = Journal(first._own.state, SegmentLimit(4096))
        again = ReplicatedJournal(own, EtcdLink(lambda: Connection(here.memory), KEYS, "a", 60), here.agreed)
        here.opened.append(again)
        pieces = again.pieces()
        next(pieces)
        again.housekeeper._began -= 60
        again.housekeeper.keep()
        found = here.memory.value(KEYS.kept + b"a")
        require(found is not None and DurablePosition.read(found).size == len(b"alpha where x0\n") * 3, found)
        require(again.housekeeper._thread.is_alive(), "it stops reporting its extent")


def secrets() -> None:
    """Secret files that all users can read are reported, and so is a password that crosses the network in the clear."""
    with tempfile.TemporaryDirectory(prefix="firm-") as name:
        password, key = Path(name) / "password", Path(name) / "key"
        for path in (password, key):
            path.write_text("firm:secret\n")
            path.chmod(0o644)
        options = argparse.Namespace(etcd_password=password, etcd_key=None, etcd_cert=key, etcd=(Member(True, "a", 1),))
        told = list(warnings_of(options))
        require(len(told) == 2 and str(password) in told[0] and str(key) in told[1], told)
        for path in (password, key):
            path.chmod(0o640)
        require(not list(warnings_of(options)), "files of an owner and a group")
        options.etcd += (Member(False, "b", 1),)
        told = list(warnings_of(options))
        require(len(told) == 1 and "is sent unencrypted" in told[0], told)
        options.etcd_password = None
        require(not list(warnings_of(options)), "no password")
        password.write_bytes(b"firm:\xff\n")
        refused(Access((), None, password).login, Denied, "is not text in UTF-8")


def names() -> None:
    """A replica whose name belongs to a live replica is refused with the reason; after a restart it has its own
    name."""
    memory = Memory()
    first = housekeeper_of(memory, "a", 10, 1)
    first.keep()
    first.keep()
    second = housekeeper_of(memory, "a", 10, 0)
    second._began = time.monotonic()
    second.keep()
    first.keep()
    second._began -= 60
    fault = refused(second.keep, Fault, "another firmd that is alive has the name a")
    require(isinstance(fault, Fault) and fault.status == Exit.STATE, fault)
    first.keep()
    housekeeper_of(memory, "a", 10, 1).keep()


def warnings() -> None:
    """The use of etcd's quota is reported, with a warning past half of it once a minute at most."""
    memory = Memory(size=DatabaseSize(400, 1000))
    housekeeper = housekeeper_of(memory, "a", 10, 1)
    with messages() as found:
        for used in (400, 600, 601, 400, 602):
            memory.size = DatabaseSize(used, 1000)
            housekeeper._check_quota()
            require(housekeeper.told.etcd_bytes == used and housekeeper.told.quota_bytes == 1000, housekeeper.told)
    require(found == ["warning: etcd uses 600 of the 1,000 bytes of its quota; at the end firmd can't append"], found)


def troubles() -> None:
    """A follower that can't lead, for example because etcd is full, reports each trouble once a minute at most."""
    with case() as here, messages() as found:
        journal, _ = here.open("a")
        pieces = journal.pieces()
        here.memory.is_full = True
        tries = [0]

        def wait(seconds: float) -> bool:
            tries[0] += 1
            return tries[0] > 20

        setattr(journal._is_stopping, "wait", wait)
        setattr(journal._is_stopping, "is_set", lambda: tries[0] > 20)
        require(list(pieces) == [], "nothing comes")
    told = [text for text in found if "does not serve" in text]
    require(len(told) == 1 and "etcd is full" in told[0] and tries[0] > 20, f"{tries[0]} tries: {found}")


@contextmanager
def messages() -> Iterator[list[str]]:
    """Collect the messages to the operator."""
    found: list[str] = []
    with patch.object(logs, "tell", lambda level, text, *_, **__: found.append(text)):
        yield found


def filled_store() -> None:
    """Past its share of the quota fewer lines stay in etcd, whatever `--etcd-retain` says; the last entry stays."""
    memory = Memory()
    memory.set(Put(KEYS.leader, b"a"))
    leader = housekeeper_of(memory, "a", 1000, memory.rows[KEYS.leader][0].made)

    def kept(used: int) -> list[int]:
        memory.size = DatabaseSize(used, 1000)
        leader.keep()
        return [KEYS.offset(key) for key in sorted(memory.rows) if key.startswith(KEYS.lines)]

    for offset in range(0, 1000, 100):
        memory.set(Put(KEYS.entry(offset), b""))
    memory.set(Put(KEYS.snapshot, Offer(700, "none").text()))
    require(kept(250) == list(range(0, 1000, 100)), "a quarter is not too much")
    require(kept(500) == list(range(500, 1000, 100)), "half of them go, where it is twice as much")
    require(kept(500) == [700, 800, 900], "those after the snapshot there stay")
    require(kept(501) == [800, 900], "not where etcd gets full")
    require(kept(900) == [900], "the last one stays")


def full_store() -> None:
    """Each replica removes from a full etcd the lines that all replicas have: a defragmentation then frees room."""
    memory = Memory()
    for offset in range(0, 1000, 100):
        memory.set(Put(KEYS.entry(offset), b""))
    replicas = [housekeeper_of(memory, name, size, 0) for name, size in (("a", 1000), ("b", 450), ("c", 100))]
    for replica in replicas:
        replica.keep()
    memory.set(Put(KEYS.kept + b"c", DurablePosition("x", 100, time.time() - 100).text()))
    memory.size, memory.is_full = DatabaseSize(1000, 1000), True
    for replica in replicas[:2]:
        replica._put, replica.quiet = 0.0, 0.0  # its own key is old
        for _ in range(5):
            replica.keep()
    offsets = [KEYS.offset(key) for key in sorted(memory.rows) if key.startswith(KEYS.lines)]
    require(offsets == list(range(400, 1000, 100)), offsets)
    names = sorted(key for key in memory.rows if key.startswith(KEYS.kept))
    require(names == [KEYS.kept + b"a", KEYS.kept + b"b"], f"no other is away: {names}")


def longest() -> None:
    """Each replica that finds no state in etcd records its length there, until one is set."""
    memory = Memory()
    lengths = {"a": Length(9, 99), "b": Length(10, 110), "c": Length(2, 30)}
    for name, length in lengths.items():
        found = compare_lengths(Connection(memory), KEYS, name, length)
    require(list(found.items()) == [("b", lengths["b"]), ("a", lengths["a"]), ("c", lengths["c"])], found)
    agree(Connection(memory), KEYS, Agreed(ID, ROSTER, Position()))
    require(not [key for key in memory.rows if key.startswith(KEYS.found)], "they are of no more use")
    require(list(compare_lengths(Connection(memory), KEYS, "a", lengths["a"])) == ["a"], "nor set again")


# Processes that a test leaves.

GUARDED = """\
import subprocess
from harness.guard import guard
guard()
daemon = subprocess.Popen(["sh", "-c", "sleep 600 & wait"], start_new_session=True)
print(daemon.pid, flush=True)
daemon.wait()
"""


def killed_test() -> None:
    """If a test is killed, all its processes are killed too, in whatever session they are."""
    with subprocess.Popen([sys.executable, "-c", GUARDED], stdout=subprocess.PIPE) as test:
        try:
            daemon = int((test.stdout or sys.stdin.buffer).readline())
            until(lambda: bool(children_of(daemon)), "the daemon has a child")
            started = [daemon, *children_of(daemon)]
        finally:
            test.kill()
    until(lambda: not any(Path(f"/proc/{process}").exists() for process in started), "all are gone")


def children_of(process: int) -> list[int]:
    return list(map(int, Path(f"/proc/{process}/task/{process}/children").read_text().split()))


# Answers of etcd.


class Answers(http.server.BaseHTTPRequestHandler):
    """A server in the place of etcd."""

    protocol_version = "HTTP/1.1"
    given: dict[str, tuple[int, object]] = {}
    tokens: list[str] = []  # of the requests

    def do_GET(self) -> None:
        self._give()

    def do_POST(self) -> None:
        self.rfile.read(int(self.headers.get("Content-Length", 0)))
        self.tokens.append(self.headers.get("Authorization", ""))
        self._give()

    def _give(self) -> None:
        status, answer = self.given.get(self.path, (404, {"error": "Not Found", "code": 5}))
        if self.path == "/v3/kv/range" and self.tokens[-1] == "old":
            status, answer = 401, {"error": "etcdserver: invalid auth token", "code": 16}
        text = json.dumps(answer).encode()
        self.send_response(status)
        self.send_header("Content-Length", str(len(text)))
        self.end_headers()
        self.wfile.write(text)

    def log_message(self, format: str, *arguments: object) -> None:
        pass


@contextmanager
def answering(given: dict[str, tuple[int, object]]) -> Iterator[Etcd]:
    Answers.given, Answers.tokens = given, []
    with http.server.ThreadingHTTPServer(("127.0.0.1", 0), Answers) as server, tempfile.NamedTemporaryFile() as file:
        file.write(b"firm:secret\n")
        file.flush()
        threading.Thread(target=server.serve_forever, args=(0.01,), daemon=True).start()
        member = Member(False, "127.0.0.1", server.server_address[1])
        etcd = Etcd(Access((member,), None, Path(file.name)))
        try:
            yield etcd
        finally:
            etcd.close()
            server.shutdown()


def versions() -> None:
    """An etcd of another version, a server that is no etcd, and a missing one are reported by name."""
    for answer, words in (
        ((200, {"etcdcluster": "3.3.0"}), "is etcd 3.3.0: 3.4, or a later one"),
        ((200, {"etcdcluster": "4.0.0"}), "is etcd 4.0.0"),
        ((200, {"hello": "you"}), "is not etcd"),
        ((404, {}), "status 404"),
    ):
        with answering({"/version": answer}) as etcd:
            refused(etcd.require_version, Unfit, words)
    with answering({"/version": (200, {"etcdcluster": "3.5.9"})}) as etcd:
        etcd.require_version()
        refused(lambda: etcd.range(b"k"), Denied, "refuses the user firm")
    refused(Etcd(Access((Member(False, "127.0.0.1", 9),))).require_version, Unsure, "http://127.0.0.1:9", "refused")


def refusals() -> None:
    """Each refusal of etcd is reported by name; a forgotten token is requested anew."""
    rows = {"header": {"revision": "5"}, "kvs": [{"key": "aw==", "value": "dg==", "create_revision": "3"}]}
    given: dict[str, tuple[int, object]] = {
        "/v3/auth/authenticate": (200, {"token": "new"}),
        "/v3/kv/range": (200, rows),
        "/v3/kv/txn": (429, {"error": "etcdserver: mvcc: database space exceeded", "code": 8}),
        "/v3/lease/grant": (403, {"error": "etcdserver: permission denied", "code": 7}),
        "/v3/kv/deleterange": (503, {"error": "etcdserver: no leader", "code": 14}),
        "/v3/kv/compaction": (400, {"error": "required revision has been compacted", "code": 11}),
    }
    with answering(given) as etcd:
        etcd._token = "old"
        found = etcd.range(b"k")
        require((found.revision, found.found[0].value, found.found[0].made) == (5, b"v", 3), found)
        require(Answers.tokens == ["old", "", "new"], Answers.tokens)
        refused(lambda: etcd.transact([], []), Full, "space exceeded")
        refused(lambda: etcd.grant(3), Denied, "permission denied")
        refused(lambda: etcd.delete(b"a", b"b"), Unsure, "no leader")
        etcd.compact(4)


def cut_answers() -> None:
    """A truncated answer counts as none, wherever it is cut: the next member is asked, and no answer is misread."""
    body = b'{"header": {"revision": "5"}, "succeeded": true}'
    answer = b"HTTP/1.1 200 OK\r\nContent-Type: application/json\r\nContent-Length: %d\r\n\r\n" % len(body) + body
    with socket.create_server(("127.0.0.1", 0)) as listening:
        cuts = iter([*range(0, len(answer), 3), len(answer)])

        def serve() -> None:
            for cut in cuts:
                near, _ = listening.accept()
                with near, near.makefile("rb") as request:
                    headings = iter(request.readline, b"\r\n")
                    sizes = [line.split()[1] for line in headings if line.lower().startswith(b"content-length:")]
                    request.read(int(sizes[0]))  # all of it: the connection could be reset else
                    near.sendall(answer[:cut])

        threading.Thread(target=serve, daemon=True).start()
        etcd = Etcd(Access((Member(False, "127.0.0.1", listening.getsockname()[1]),)))
        asked = 0
        while True:
            try:
                done = etcd.transact([], [])
                break
            except Unsure:
                asked += 1
        require(done.is_done and done.revision == 5 and next(cuts, None) is None and asked > 15, (done, asked))


RULES: list[Callable[[], None]] = [entries, cuts, histories, agreements, one_leader, lost_answers, random_leaders]
RULES += [full_and_away, old_changes, digests, points, order, early_names, names, secrets, warnings]
RULES += [troubles, filled_store, full_store, longest]
RULES += [versions, refusals, cut_answers, killed_test]
