"""Check firmd replicas of a journal in etcd over three real members, while processes are killed, stopped and cut off.

usage: tools/run tests/replicas.py [--quick] [--program FILE] [--only WORDS] [--seconds N] [--seed N]
--quick checks only the rules, without engines. The rest needs Debian's etcd-server, and openssl for certificates; a
check that can't run here is skipped with a line. Each check prints a line; the last line is 'N passed, M failed', and
the exit status is 1 if one failed.
"""

from __future__ import annotations

import argparse
import os
import random
import shutil
import signal
import socket
import subprocess
import sys
import tempfile
import threading
import time
from collections import Counter, deque
from collections.abc import Callable, Iterator, Sequence
from contextlib import contextmanager, suppress
from dataclasses import dataclass
from functools import partial
from pathlib import Path

import replica_apis
import replica_rules
import replica_states
import replica_stores
from front_kit import api_of
from etcd_kit import NAMES, Authority, Members, Replicas, cluster, memory, require_programs, until
from front_kit import samples_of
from firmd_disks import PATCHED
from firmd_kit import Client, Gone, stand_in
from slurm_kit import slowness
from harness.checks import Check, Skipped, Suite, require, run_script, run_suites
from harness.guard import guard
from harness.program import ROOT, Roster, add_program, run_words
from firm.common.programs import program_of
from firm.server.replicated.entries import MAX_BYTES, Keys
from firm.server.replicated.etcd import Access, Etcd, Member, Put, after
from firm.server.replicated.offers import offer_of
from firm.server.firm_state import Opening, fold
from replica_chaos import KILLED, KINDS, ROSTER, STOPPED, Chaos, latencies

CHECKS_AT_A_TIME = 3
CHAOS_SNAPSHOT_LINES, SNAPSHOT_LINES = 1_000, 300  # between snapshots
HUNG_SECONDS = 30.0  # of a client whose leader's disk hangs, on a busy host
KILL_SECONDS, STOP_SECONDS = 5.0, 0.5  # the longest silences after a kill of the leader, and after a stop
# Makes the loopback of a network namespace drop packets, each way; the first command that the host has is used.
LOSSES = {
    "2% of packets, 1 ms late": "tc qdisc add dev lo root netem loss 2% delay 1ms 1ms",
    "2% of packets, by nft": "nft add table ip firm"
    " && nft add chain ip firm lost '{ type filter hook input priority 0; }'"
    " && nft add rule ip firm lost numgen random mod 100 '<' 2 drop",
    "2% of packets, by iptables": "iptables -A INPUT -m statistic --mode random --probability 0.02 -j DROP",
}
# firmd without the fence: it appends whoever leads, and overwrites.
UNFENCED = """\
import sys
from firm.server.replicated import entries
from firm.server import daemon
fenced = entries.Append.of
entries.Append.of = lambda *words: entries.Append((), fenced(*words).put)
sys.exit(daemon.main())
"""
# A firm whose replies differ from the others', from its 300th line on.
OTHER_FIRM = """\
#!{python}
import subprocess, sys
firm = subprocess.Popen([{firm!r}, *sys.argv[1:]], stdout=subprocess.PIPE)
for number, reply in enumerate(firm.stdout, 1):
    if number > 300:
        reply = reply.replace(b"no 10 no-such-task", b"no 8 no-such-job").replace(b"no 2 bad-command", b"no 3 bad-name")
    sys.stdout.buffer.write(reply)
    sys.stdout.buffer.flush()
"""


@dataclass(frozen=True)
class Setup:
    program: str
    seconds: float
    seed: int

    @contextmanager
    def cluster(self, *options: str, members: tuple[str, ...] = ()) -> Iterator[tuple[Members, Replicas]]:
        with cluster(self.program, ROSTER, *options, members=members) as found:
            yield found


def ask(replicas: Replicas, *lines: bytes) -> list[bytes]:
    """Return the leader's replies."""
    with Client(replicas.socket(replicas.leads())) as client:
        return [client.ask(line) for line in lines]


def fill(replicas: Replicas, count: int) -> None:
    """Send this number of lines to the leader."""
    ask(replicas, *[b"t0 where nobody-%d" % number for number in range(count)])


def insist(replicas: Replicas, lines: Sequence[bytes]) -> Counter[bytes]:
    """Send each line to the leader, and again if its answer is lost; return how often each was sent."""
    left, sent = deque(lines), Counter[bytes]()
    while left:
        replicas.revive()
        with suppress(Gone, TimeoutError), Client(replicas.socket(replicas.leads())) as client:
            while left:
                sent[left[0]] += 1
                reply = client.ask(left[0])
                require(reply.startswith(b"t0 "), reply)
                left.popleft()
    return sent


# Lost replies.


def chaos(setup: Setup) -> None:
    """Leaders, followers and members of etcd are killed, stopped or suspended at random: no answer is lost or
    repeated."""
    with setup.cluster("--snapshot-lines", str(CHAOS_SNAPSHOT_LINES)) as (members, replicas):
        run = Chaos(members, replicas, setup.seed)
        verdict = run.run(setup.seconds, [*KINDS, "stop"])
        print(f"  seed {setup.seed}: {verdict}; p50 and p99 of an answer %.1f and %.1f ms" % latencies(run.clients))
        require(verdict.answered > 100 and len(verdict.events) > 3, f"too little: {verdict}")
        require(not verdict.lost and not verdict.twice and verdict.are_equal, f"{verdict}: {verdict.lost[:3]}")


def control(setup: Setup) -> None:
    """Without the fence, a leader that wakes up loses answers: so the judge of the other checks would notice."""
    with setup.cluster() as (members, replicas):
        script = replicas.folder / "unfenced.py"
        script.write_text(UNFENCED)
        replicas.firmd = [sys.executable, str(script)]
        for _ in range(3):
            verdict = Chaos(members, replicas, setup.seed).run(20, ["sleep"])
            print(f"  without the fence: {verdict}")
            if verdict.lost or verdict.twice:
                return
        require(False, "without the fence nothing was lost")


def silence(setup: Setup) -> None:
    """After a kill of the leader clients are answered within 5 s, after SIGTERM within half a second."""
    with setup.cluster() as (members, replicas):
        verdict = Chaos(members, replicas, setup.seed).run(30, ["leader", "stop"])
        for what, most in ((KILLED, KILL_SECONDS), (STOPPED, STOP_SECONDS)):
            found = sorted(event.silence for event in verdict.events if event.what == what)
            print(f"  {what}: silent for {', '.join(f'{seconds:.2f}' for seconds in found)} s")
            # One of the tries may have met a busy host.
            require(found and found[(len(found) - 1) // 2] <= most, f"{what}: {found}")
            require(found[-1] <= most * slowness(), f"{what}, on a host {slowness():.1f} times too busy: {found}")
        require(not verdict.lost and not verdict.twice, verdict)


class Cutter:
    """A lossy way to a member of etcd: connections stall, and are cut at any byte."""

    def __init__(self, port: int, seed: int) -> None:
        self._to, self._draw = port, random.Random(seed)
        self._listening = socket.create_server(("127.0.0.1", 0))
        self.url = f"http://127.0.0.1:{self._listening.getsockname()[1]}"
        self.is_cutting = threading.Event()
        threading.Thread(target=self._accept, daemon=True).start()

    def close(self) -> None:
        self._listening.close()

    def _accept(self) -> None:
        with suppress(OSError):
            while True:
                near, _ = self._listening.accept()
                try:
                    far = socket.create_connection(("127.0.0.1", self._to), 2)
                except OSError:
                    near.close()
                    continue
                for one, other in ((near, far), (far, near)):
                    threading.Thread(target=self._carry, args=(one, other), daemon=True).start()

    def _carry(self, source: socket.socket, target: socket.socket) -> None:
        with suppress(OSError):
            while data := source.recv(65536):
                chance = self._draw.random() if self.is_cutting.is_set() else 1.0
                if chance < 0.02:
                    time.sleep(1.5)  # longer than firmd waits for an answer
                if chance < 0.05:
                    target.sendall(data[: self._draw.randrange(len(data) + 1)])
                    break
                target.sendall(data)
        for one in (source, target):
            with suppress(OSError):
                one.shutdown(socket.SHUT_RDWR)


def begin_cutting(cutters: list[Cutter]) -> None:
    for cutter in cutters:
        cutter.is_cutting.set()


def cut_connections(setup: Setup) -> None:
    """Connections to etcd are cut in the middle of requests and answers: no answer is lost or repeated."""
    with setup.cluster() as (members, replicas):
        cutters = [Cutter(int(members.url(number).rpartition(":")[2]), setup.seed + number) for number in range(3)]
        replicas.urls = ",".join(cutter.url for cutter in cutters)
        run = Chaos(members, replicas, setup.seed)
        started = threading.Timer(4, begin_cutting, (cutters,))
        started.start()
        try:
            verdict = run.run(setup.seconds / 2, ["leader", "follower", "stop"])
        finally:
            started.cancel()
            for cutter in cutters:
                cutter.close()
        print(f"  with cut connections: {verdict}")
        require(verdict.answered > 100 and verdict.events, f"too little: {verdict}")
        require(not verdict.lost and not verdict.twice and verdict.are_equal, f"{verdict}: {verdict.lost[:3]}")


def dropped_packets(setup: Setup) -> None:
    """The same chaos in a network namespace that drops packets."""
    for what, command in LOSSES.items():
        script = f"ip link set lo up && {command}"
        if (
            not os.geteuid()
            and not subprocess.run(["unshare", "-n", "sh", "-c", script], capture_output=True).returncode
        ):
            break
    else:
        raise Skipped("it needs root, and a kernel and a program that drop packets: tc with netem, nft or iptables")
    words = [sys.executable, str(Path(__file__)), "--program", setup.program, "--only", "chaos"]
    more = ["--seconds", f"{setup.seconds:g}", "--seed", str(setup.seed)]
    with subprocess.Popen(
        ["unshare", "-n", "sh", "-c", f'{script} && exec "$@"', "sh", *words, *more],
        stdout=subprocess.PIPE,
        stderr=subprocess.STDOUT,
        text=True,
    ) as inside:
        said, _ = inside.communicate()
    require(inside.returncode == 0, said)
    print(f"  without {what}:", next((line for line in said.splitlines() if "seed" in line), "").strip())


# Joining and continuing.


def late_replica(setup: Setup) -> None:
    """A late replica is refused until it has a copied journal; then it goes on alone when all others have left."""
    with setup.cluster("--etcd-retain", "0") as (_, replicas):
        replicas.start("a", "b")
        fill(replicas, 600)
        replicas.settle("a", "b")
        time.sleep(2.5)  # until the leader has removed them from etcd
        ask(replicas, b"t0 show")
        replicas.refuses("c", 5, "late: bytes 0 to", "copy the state's folder of another replica")
        follower = replicas.follower()
        replicas.processes[follower].terminate()
        require(replicas.processes[follower].wait(20) == 0, "the follower stops")
        shutil.rmtree(replicas.folder / "c")
        shutil.copytree(
            replicas.folder / follower, replicas.folder / "c", ignore=shutil.ignore_patterns("lock", "view")
        )
        replicas.log("c").unlink()
        replicas.start("c", follower)
        replicas.settle()
        replicas.kill("a")
        replicas.kill("b")
        (reply,) = ask(replicas, b"t0 show")
        require(replicas.leader() == "c" and reply.startswith(b"t0 6"), reply)


def other_firm(setup: Setup) -> None:
    """A follower whose firm replies differently from the leader's ends with 5, and the others go on."""
    with setup.cluster() as (_, replicas):
        replicas.start("a")
        firm, replicas.firm = replicas.firm, stand_in(
            replicas.folder, OTHER_FIRM.format(python=sys.executable, firm=replicas.firm)
        )
        replicas.spawn("b")
        replicas.firm = firm
        replicas.start("c")
        with Client(replicas.socket("a")) as client:
            for number in range(900):
                client.ask(b"t0 done nobody-%d" % number)
        require(replicas.processes["b"].wait(20) == 5, replicas.said("b"))
        require("are others than the leader's: has it another firm?" in replicas.said("b"), replicas.said("b"))
        require(replicas.leader() == "a" and not replicas.has_ended("c"), "the others go on")


def work(replicas: Replicas, first: int, count: int) -> list[bytes]:
    """Submit and end tasks, with rounds; return the replies."""
    lines = [b"t0 machine m%d 2" % first, b"t0 job j%d 10" % first]
    for number in range(first, first + count):
        lines += [b"t0 task j%d x%d" % (first, number), b"t0 round", b"t0 where x%d" % number]
        lines += [b"t0 done x%d" % (number - 2)] * (number > first + 2)
    return ask(replicas, *lines)


def goes_on_from_snapshot(replicas: Replicas, name: str) -> bool:
    """Return whether the firm of a replica began with a snapshot's state."""
    process = replicas.processes[name].pid
    children = Path(f"/proc/{process}/task/{process}/children").read_text().split()
    return any(f"--state\0{replicas.folder / name}/snapshots/".encode() in cmdline_of(child) for child in children)


def cmdline_of(process: str) -> bytes:
    with suppress(OSError):
        return Path(f"/proc/{process}/cmdline").read_bytes()
    return b""


def has_snapshots(replicas: Replicas, name: str, count: int = 1) -> bool:
    return len(list((replicas.folder / name / "snapshots").glob("*.snapshot"))) >= count


def snapshots(setup: Setup) -> None:
    """A replica continues from its own snapshot, and a late one from the copied folder of another. They reply as
    firm alone does to the whole journal, and a replica with another firm is still reported."""
    require_state_program()
    with setup.cluster("--snapshot-lines", str(SNAPSHOT_LINES), "--etcd-retain", "0") as (_, replicas):
        replicas.start("a", "b")
        replies = work(replicas, 0, 300)
        until(lambda: all(has_snapshots(replicas, name, 2) for name in "ab"), "both have snapshots")
        follower = replicas.follower()
        replicas.processes[follower].terminate()
        require(replicas.processes[follower].wait(20) == 0, "the follower stops")
        copy = shutil.ignore_patterns("lock", "view")
        shutil.copytree(replicas.folder / follower, replicas.folder / "c", ignore=copy)
        replicas.start("c", follower)
        for name in ("c", follower):
            until(partial(goes_on_from_snapshot, replicas, name), f"{name} goes on from a snapshot")
        replies += work(replicas, 1_000, 300)
        replicas.settle()
        for name in [name for name in NAMES if name != "c"]:
            replicas.kill(name)
        until(lambda: replicas.leader() == "c", "the late one leads alone")
        replies += work(replicas, 2_000, 50)
        with Roster(ROSTER) as path:
            require_alone([replicas.firm, "--roster", path], replicas.journal("c"), replies)
        firm, replicas.firm = replicas.firm, stand_in(
            replicas.folder, OTHER_FIRM.format(python=sys.executable, firm=replicas.firm)
        )
        replicas.spawn("a", "--firm-timeout", "600")
        replicas.firm = firm
        until(lambda: "following" in replicas.said("a"), "it follows")
        fill(replicas, 1_200)
        require(replicas.processes["a"].wait(60) == 5, replicas.said("a"))
        require("are others than the leader's" in replicas.said("a"), replicas.said("a"))


def require_state_program() -> None:
    if not program_of("firm_state").exists():
        raise Skipped("firm_state is not built, which writes states")


def sleeping_leader(setup: Setup) -> None:
    """A leader that sleeps past its lease ends when it wakes up, and reports that another leads; its appends change
    nothing."""
    with setup.cluster() as (_, replicas):
        replicas.start(*NAMES)
        first = replicas.leads()
        with Client(replicas.socket(first)) as client:
            client.ask(b"t0 show")
            os.kill(replicas.processes[first].pid, signal.SIGSTOP)
            client.send(b"t0 machine m1 2\n")
            until(lambda: replicas.leader() not in (None, first), "another leads")
            before = ask(replicas, b"t0 show")
            os.kill(replicas.processes[first].pid, signal.SIGCONT)
            require(replicas.processes[first].wait(20) == 4, replicas.said(first))
            answers = [line for line in client.rest().splitlines() if not line.startswith(b"?")]
            require(not answers, f"it answered {answers}")
        require(
            "may lead by now" in replicas.said(first) or "leads by now" in replicas.said(first), replicas.said(first)
        )
        require(b"machines 0" in before[0] and b"machines 0" in ask(replicas, b"t0 show")[0], before)


def hung_disk(setup: Setup) -> None:
    """If the leader's disk hangs, the leader ends, and another replica leads with the lines in etcd."""
    with setup.cluster() as (_, replicas):
        plain, script, sign = replicas.firmd, replicas.folder / "patched.py", replicas.folder / "hangs"
        is_late = "sys.modules['firm.server.stream'].LATE_SECONDS = 0.5"
        hangs = f"{is_late}\n            while os.path.exists({str(sign)!r}): time.sleep(0.05)"
        script.write_text(PATCHED.format(log=str(replicas.folder / "syncs"), action=hangs))
        replicas.firmd = [sys.executable, str(script)]
        replicas.start("a")
        replicas.firmd = plain
        replicas.start("b", "c")
        with Client(replicas.socket("a")) as client:
            require(client.ask(b"t0 machine m1 2").endswith(b" ok"), "a reply")
            sign.touch()
            client.socket.settimeout(HUNG_SECONDS)
            with suppress(Gone):
                while client.ask(b"t0 where nobody"):  # they are answered until one needs the disk
                    time.sleep(0.05)
        until(lambda: replicas.leader() in ("b", "c"), "another leads")
        require(replicas.processes["a"].wait(20) == 4, replicas.said("a"))
        require("as on a disk that hangs" in replicas.said("a"), replicas.said("a"))
        require(b" ok machines 1 " in ask(replicas, b"t0 show")[0], "the state")
        sign.unlink()
        replicas.revive()
        replicas.settle()


def unread_replies(setup: Setup) -> None:
    """A leader that ends by a fault lets another one lead before its clients have read their replies."""
    with setup.cluster() as (_, replicas):
        replicas.start(*NAMES)
        first, count = replicas.leads(), 12_000
        process = replicas.processes[first].pid
        children = Path(f"/proc/{process}/task/{process}/children").read_text().split()
        with Client(replicas.socket(first)) as client, Client(replicas.socket(first)) as other:
            client.send(b"t0 where nobody\n" * count)
            until(lambda: int(other.ask(b"t0 show").split()[1]) > count, "all is answered")
            for firm in children:
                if setup.program.encode() in cmdline_of(firm).split(b"\0")[:1]:
                    os.kill(int(firm), signal.SIGKILL)
            until(lambda: replicas.leader() not in (None, first), "another leads")
            require(not replicas.has_ended(first), f"it had ended before: {replicas.said(first)}")


def state_at(path: Path, count: int) -> Path:
    """Write the state of a service of this number of tasks; return its file."""
    lines = [b"t0 machine y 2", b"t0 job y 10", *[b"t0 task y y%d" % number for number in range(count)], b"t0 round"]
    with Roster(ROSTER) as roster:
        path.write_bytes(fold(Opening(Path(roster)), [b"".join(line + b"\n" for line in lines)]))
    return path


def restored(setup: Setup) -> None:
    """Replicas begin with the state of another service; all but the first take it from etcd, late ones too. They
    reply as firm alone does that continues from it; another state, and a roster, is refused."""
    require_state_program()
    with setup.cluster() as (_, replicas):
        taken, other = [state_at(replicas.folder / name, count) for name, count in (("taken", 5), ("other", 6))]
        replicas.opening = ["--restore", str(taken)]
        replicas.start("a")
        replicas.opening = []
        replicas.start("b")
        kept = replicas.folder / "b" / "restored"
        require(kept.read_bytes() == taken.read_bytes() and kept.stat().st_mode & 0o777 == 0o600, "b's copy")
        refuses_others(replicas, other)
        replies = work(replicas, 0, 100)
        replicas.kill(replicas.leads())
        replies += work(replicas, 1_000, 100)
        replicas.revive()
        replicas.settle("a", "b")
        replicas.stop()
        replicas.options = ["--snapshot-lines", str(SNAPSHOT_LINES), "--etcd-retain", "0"]
        replicas.start("a", "b")
        replies += work(replicas, 2_000, 200)
        until(partial(lacks_lines, replicas), "a late replica needs the snapshot in etcd")
        replicas.start("c")
        require("begins anew from the snapshot in etcd" in replicas.said("c"), replicas.said("c"))
        for name in "ab":
            replicas.kill(name)
        until(lambda: replicas.leader() == "c", "the late one leads alone")
        replies += work(replicas, 3_000, 50)
        replicas.revive()
        until(lambda: replicas.journal("a").endswith(replicas.journal("c")), "the others have its lines")
        require_alone([replicas.firm, "--state", str(taken)], replicas.journal("a"), replies)


def refuses_others(replicas: Replicas, other: Path) -> None:
    """Require that replicas tell their first state from any other."""
    state, roster = ["--restore", str(other)], ["--roster", str(replicas.folder / "roster.csv")]
    broken = other.with_name("broken")
    broken.write_bytes(other.read_bytes().replace(b" at ", b" on "))
    for opening, changed in ((state, "changed-state"), (roster, "changed-roster")):
        replicas.opening = opening
        replicas.refuses("c", 3, changed, "is not the state that the other replicas began with")
    elsewhere = Replicas(replicas.folder, replicas.urls, replicas.firm, ["--etcd-prefix", "/other"])
    elsewhere.opening = ["--restore", str(broken)]
    elsewhere.refuses("c", 3, "state fault 4 number in line ")
    elsewhere.opening = None
    elsewhere.start("c")
    elsewhere.stop()
    elsewhere.opening = state
    elsewhere.refuses("c", 3, "changed-state", "is not the roster that the other replicas began with")
    replicas.opening = []
    replicas.refuses("c", 3, "changed-roster", "is not the state that etcd has")
    shutil.rmtree(replicas.folder / "c")
    replicas.log("c").unlink()
    del replicas.processes["c"]  # so that it is not revived with the others


def lacks_lines(replicas: Replicas) -> bool:
    """Return whether etcd has a snapshot in the place of the first lines."""
    keys, etcd = Keys("/firm"), Etcd(Access(tuple(map(Member.read, replicas.urls.split(",")))))
    try:
        first = etcd.range(keys.lines, after(keys.lines), limit=1).found
        return offer_of(etcd, keys) is not None and keys.offset(first[0].key) > 0
    finally:
        etcd.close()


def require_alone(command: list[str], journal: bytes, replies: list[bytes]) -> None:
    """Require the replies of firm alone to the whole journal."""
    alone = run_words(command, journal).output.splitlines()
    others = [reply for reply in alone if b" ok machines " not in reply]  # those requests found the leader
    wanted = [reply for reply in replies if b" ok machines " not in reply]
    require(others == wanted, [pair for pair in zip(others, wanted) if pair[0] != pair[1]][:3])


def from_one_host(setup: Setup) -> None:
    """A firmd that was alone continues as replicas, which begin from copies of its state, however it began."""
    go_on_from_one(setup, "--roster")
    require_state_program()
    go_on_from_one(setup, "--restore")


def go_on_from_one(setup: Setup, begins: str) -> None:
    with setup.cluster() as (_, replicas):
        before = 8 if begins == "--restore" else 0  # commands
        if before:
            replicas.opening = [begins, str(state_at(replicas.folder / "taken", before - 3))]
        opening = replicas.opening or [begins, str(replicas.folder / "roster.csv")]
        words = [*replicas.firmd, "--firm", setup.program, "--state", str(replicas.folder / "a")]
        words += ["--socket", str(replicas.socket("a")), *opening]
        with subprocess.Popen(words, stderr=subprocess.DEVNULL) as alone:
            until(replicas.socket("a").exists, "it serves")
            with Client(replicas.socket("a")) as client:
                replies = [client.ask(b"t0 machine m%d 2" % number) for number in range(20)]
            alone.terminate()
        for name in ("b", "c"):
            shutil.copytree(
                replicas.folder / "a", replicas.folder / name, ignore=shutil.ignore_patterns("lock", "view")
            )
        replicas.spawn("a", "--etcd-begin")
        until(lambda: replicas.leader() == "a", "it leads")
        replicas.start("b", "c")
        (reply,) = ask(replicas, b"t0 show")
        machines = 21 if before else 20
        require(replies[-1] == b"t0 %d ok" % (before + 20) and b"ok machines %d " % machines in reply, reply)
        replicas.settle()
        replicas.kill("a")
        done = subprocess.run(words, stderr=subprocess.PIPE, text=True)
        require(done.returncode == 4 and "is a replica's: name --etcd" in done.stderr, done)
        shutil.rmtree(replicas.folder / "a")
        replicas.refuses("a", 5, "late: bytes 0 to")


def histories(setup: Setup) -> None:
    """A state of another journal is refused, also after etcd was emptied or under another roster."""
    with setup.cluster() as (members, replicas):
        replicas.start("a", "b")
        fill(replicas, 5)
        replicas.settle("a", "b")
        (replicas.folder / "roster.csv").write_bytes(ROSTER.replace(b",500", b",400"))
        replicas.refuses("c", 3, "changed-roster")
        (replicas.folder / "roster.csv").write_bytes(ROSTER)
        other = Replicas(replicas.folder, replicas.urls, setup.program, ["--etcd-prefix", "/other"])
        other.start("c")
        other.stop()
        replicas.refuses("c", 5, "another history", "is the state")
        replicas.stop()
        members.stop()
        for number in range(3):
            shutil.rmtree(members.folder / f"m{number}")
        members.start_all()
        replicas.refuses("a", 5, "lines, and etcd none of them: start each replica once")
        replicas.spawn("a", "--etcd-begin")
        fill(replicas, 3)
        replicas.start("b")
        replicas.settle("a", "b")
        require(replicas.journal("a").count(b"nobody") == 8, replicas.journal("a"))


def one_name(setup: Setup) -> None:
    """Of two replicas with one name, the later one ends with the reason."""
    with setup.cluster() as (_, replicas):
        replicas.start("a")
        fill(replicas, 5)
        time.sleep(6)  # until the first has registered its name
        second = Replicas(replicas.folder / "other", replicas.urls, setup.program)
        second.folder.mkdir()
        (second.folder / "roster.csv").write_bytes(ROSTER)
        second.refuses("a", 4, "another firmd that is alive has the name a")
        fill(replicas, 5)


# etcd's credentials and failures.


def certificates(setup: Setup) -> None:
    """etcd is reached by TLS with a certificate, and with a password; without these firmd reports the refusal."""
    require_programs("openssl", "etcdctl")
    with tempfile.TemporaryDirectory(prefix="firm-", dir=memory()) as name:
        ours, others = Authority(Path(name) / "ours"), Authority(Path(name) / "others")
        server, client = ours.certificate("etcd"), ours.certificate("firmd")
        words = ("--cert-file", str(server), "--key-file", str(server), "--client-cert-auth")
        members = Members(Path(name) / "etcd", (*words, "--trusted-ca-file", str(ours.path)), "https").start_all()
        replicas = Replicas(Path(name), members.urls, setup.program)
        (replicas.folder / "roster.csv").write_bytes(ROSTER)
        password = Path(name) / "password"
        password.write_text("firm:secret\n")
        nameless = ours.certificate("nameless", "/O=firm")
        shown = ["--etcd-cert", str(nameless)]
        try:
            add_user(members, ours, client)
            replicas.options = ["--etcd-ca", str(others.path), *shown]
            replicas.refuses("a", 4, "certificate")
            replicas.options = ["--etcd-ca", str(ours.path), *shown]
            replicas.refuses("a", 4, "etcd: etcdserver: ")  # it words this in one of two ways
            replicas.options += ["--etcd-password", str(password)]
            replicas.refuses("a", 4, "a client certificate without a CN", options=("--etcd-cert", str(client)))
            password.write_text("firm:wrong\n")
            replicas.refuses("a", 4, "refuses the user firm", "authentication failed")
            password.write_text("firm:secret\n")
            replicas.start("a", "b")
            fill(replicas, 100)
            members.kill(1)  # so that it forgets who has logged in
            members.start(1)
            replicas.kill(replicas.leads())
            fill(replicas, 100)
            replicas.revive()
            replicas.settle("a", "b")
        finally:
            replicas.stop()
            members.stop()


def add_user(members: Members, authority: Authority, client: Path) -> None:
    """Make etcd require a user, `firm`, who may use only the keys below /firm/."""
    etcdctl = ["etcdctl", "--endpoints", members.urls, "--cacert", str(authority.path), "--cert", str(client)]
    etcdctl += ["--key", str(client), "--dial-timeout=20s", "--command-timeout=20s"]
    for words in (
        "user add root:root",
        "user grant-role root root",
        "role add firm",
        "role grant-permission firm readwrite --prefix=true /firm/",
        "user add firm:secret",
        "user grant-role firm firm",
        "auth enable",
    ):
        environment = {**os.environ, "ETCDCTL_API": "3"}
        done = subprocess.run([*etcdctl, *words.split()], capture_output=True, text=True, env=environment)
        require(done.returncode == 0 or "already exists" in done.stderr, f"{words}: {done.stderr}")


def fill_with_others(members: Members, size: int) -> None:
    """Store this many bytes of another service in etcd."""
    etcd = Etcd(Access((Member.read(members.url(0)),)))
    for number in range(size // MAX_BYTES + 1):
        etcd.transact([], [Put(b"/others/%d" % number, bytes(MAX_BYTES))])
    etcd.close()


def half_full(setup: Setup) -> None:
    """Once etcd has used half of its quota, firmd warns; firmctl and the metrics show the use and the late replicas."""
    quota = 24 << 20
    with setup.cluster(members=("--quota-backend-bytes", str(quota))) as (members, replicas):
        replicas.start("a")
        with Client(replicas.socket("a")) as client:
            for _ in range(10):
                client.send((b"t0 where " + b"x" * 200 + b"\n") * 600)
                for _ in range(600):
                    client.reply()
        fill_with_others(members, quota // 2)
        until(lambda: "of its quota; at the end firmd can't append" in replicas.said("a"), "it warns")
        with api_of(replicas.folder / "a", "t0") as server:
            words = [sys.executable, str(ROOT / "service" / "firmctl"), "--server", server, "status"]
            shown = subprocess.run(words, capture_output=True, text=True).stdout
        require(f" of {quota:,} bytes" in shown and "bytes behind: a " in shown, shown)
        samples = samples_of(replicas.folder / "a")
        require(samples["firm_etcd_quota_bytes", ""] == quota, samples)
        require(samples["firm_etcd_bytes", ""] > quota / 2, samples)
        require(samples["firm_replica_bytes", "replica=a"] > 1_000_000, samples)


def wiped_member(setup: Setup) -> None:
    """etcd refuses a member that has lost its disk; another takes its place and gets all data, and nothing is lost."""
    require_programs("etcdctl")
    with setup.cluster() as (members, replicas):
        replicas.start("a", "b")
        parts = [[b"t0 where nobody-%d-%d" % (part, number) for number in range(100)] for part in range(3)]
        sent = insist(replicas, parts[0])
        members.kill(1)
        shutil.rmtree(members.folder / "m1")
        members.start(1)
        require(members.processes[1].wait(60) != 0, "etcd takes a member that has lost its disk")
        sent += insist(replicas, parts[1])
        replace_member(members)
        members.kill(0)
        sent += insist(replicas, parts[2])
        replicas.settle("a", "b")
        there = Counter(replicas.journal("a").splitlines())
        require(sum(sent.values()) >= 300, sent)
        require(all(1 <= there[line] <= count for line, count in sent.items()), "lines are lost, or twice")


def replace_member(members: Members) -> None:
    """Replace the second member by an empty one, as an operator does."""
    environment = {**os.environ, "ETCDCTL_API": "3"}

    def etcdctl(*words: str) -> str:
        """Return etcdctl's output; empty if it fails, as it does while etcd is not sure of its other members."""
        command = ["etcdctl", "--endpoints", members.url(0), "--command-timeout=30s", *words]
        done = subprocess.run(command, capture_output=True, text=True, env=environment)
        return done.stdout if done.returncode == 0 else ""

    (lost,) = [line.split(",")[0] for line in etcdctl("member", "list").splitlines() if " m1," in line]
    until(lambda: "removed" in etcdctl("member", "remove", lost), "the lost member is removed")
    until(lambda: "added" in etcdctl("member", "add", "m1", f"--peer-urls={members.peers[1]}"), "another is added")
    members.start(1, "--initial-cluster-state", "existing")
    until(lambda: etcdctl("member", "list").count("started") == 3, "three members")


def unreachable(setup: Setup) -> None:
    """A firmd that reaches no member ends at its start with the reason; a follower waits for etcd."""
    with setup.cluster() as (members, replicas):
        replicas.start("a", "b")
        for number in range(3):
            members.kill(number)
        replicas.refuses("c", 4, "etcd is not reached: http://127.0.0.1")
        until(
            lambda: any(
                "does not answer" in replicas.said(name) or "lease was lost" in replicas.said(name) for name in "ab"
            ),
            "it ends",
        )
        members.start_all()
        replicas.revive()
        fill(replicas, 3)


RULES = [*replica_rules.RULES, *replica_states.RULES]
CHECKS: list[Callable[[Setup], None]] = [chaos, control, cut_connections, dropped_packets]
CHECKS += [late_replica, snapshots, restored, other_firm, sleeping_leader, from_one_host, histories, one_name]
CHECKS += [hung_disk, unread_replies, certificates, half_full, wiped_member, unreachable]


def main() -> int:
    parser = argparse.ArgumentParser(description=(__doc__ or "").splitlines()[0])
    add_program(parser)
    parser.add_argument("--quick", action="store_true", help="check only the rules, without engines")
    parser.add_argument("--only", default="", metavar="WORDS", help="only checks whose names have these words")
    parser.add_argument(
        "--seconds", type=float, default=60, metavar="N", help="seconds of chaos (default: %(default)g)"
    )
    parser.add_argument("--seed", type=int, default=random.randrange(10**6), metavar="N")
    options = parser.parse_args()
    guard()
    setup = Setup(options.program, options.seconds, options.seed)
    alone: dict[str, Check] = {f"rules, {name_of(rule)}": rule for rule in RULES}
    beside: dict[str, Check] = {}
    if not options.quick:
        alone[name_of(silence)] = partial(silence, setup)
        beside = {name_of(check): partial(check, setup) for check in CHECKS}
        others = [*replica_stores.CHECKS, *replica_apis.CHECKS]
        beside |= {name_of(check): partial(check, setup.program) for check in others}
    alone = {name: check for name, check in alone.items() if options.only in name}
    chosen = {name: check for name, check in beside.items() if options.only in name}
    return run_suites(Suite(alone), Suite(chosen, CHECKS_AT_A_TIME))


def name_of(check: Callable[..., None]) -> str:
    return check.__name__.replace("_", " ")


if __name__ == "__main__":
    run_script(main)
