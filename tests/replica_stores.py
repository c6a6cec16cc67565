"""Checks of replicas' lines in etcd, of a full or lost etcd, and of an upgrade; over real members."""

from __future__ import annotations

import os
import shutil
import subprocess
import sys
from collections.abc import Callable
from contextlib import suppress
from dataclasses import dataclass
from pathlib import Path

from etcd_kit import NAMES, Members, Replicas, cluster, require_programs, until
from firmd_kit import Client, Gone
from harness.checks import require
from harness.deployed import SERVICE
from replica_chaos import ROSTER, STOPPED, Chaos

from firm.server.replicated.etcd import Access, Etcd, Member

QUOTA = 8 << 20
LINE = b"t0 where " + b"x" * 200
AT_ONCE = 500  # lines
ALL_RETAINED = ("--etcd-retain", str(2**32))
# firmd as it was: whatever etcd has used, the lines that the option names stay there.
UNBOUND = """\
import sys
sys.path.insert(0, {service!r})
from firm.server.replicated import housekeeper
from firm.server import daemon
housekeeper.Housekeeper._room = lambda self, size: self.retained
sys.exit(daemon.main())
"""


def fill_until(replicas: Replicas, most: int) -> int:
    """Send lines to the leader until it ends, or has this number; return the number of replies."""
    leader, answered = replicas.leads(), 0
    with suppress(Gone), Client(replicas.socket(leader)) as client:
        while answered < most and not replicas.has_ended(leader):
            client.send((LINE + b"\n") * AT_ONCE)
            for _ in range(AT_ONCE):
                answered += client.reply().startswith(b"t0 ")
    return answered


def sizes(members: Members) -> tuple[int, int]:
    """Return the bytes that the first member uses, and its quota."""
    etcd = Etcd(Access((Member.read(members.url(0)),)))
    try:
        return etcd.size()
    finally:
        etcd.close()


def etcdctl(members: Members, *words: str) -> str:
    command = ["etcdctl", "--endpoints", members.urls, "--command-timeout=30s", *words]
    done = subprocess.run(command, capture_output=True, text=True, env={**os.environ, "ETCDCTL_API": "3"})
    require(done.returncode == 0, f"{words}: {done.stderr}")
    return done.stdout


def bounded_store(program: str) -> None:
    """Three times the quota of lines go through etcd, whatever `--etcd-retain` says, and both replicas have them."""
    with cluster(program, ROSTER, *ALL_RETAINED, members=("--quota-backend-bytes", str(QUOTA))) as (members, replicas):
        replicas.start("a", "b")
        count = 3 * QUOTA // len(LINE)
        answered = fill_until(replicas, count)
        require(answered >= count, f"{answered} of {count} lines: {replicas.said(replicas.leads())}")
        replicas.settle("a", "b")
        used, quota = sizes(members)
        print(f"  etcd uses {used:,} of {quota:,} bytes, for {answered * len(LINE):,} bytes of lines")
        until(lambda: sizes(members)[0] < quota // 2, "it uses less than half of its quota")
        require(not any("is full" in replicas.said(name) for name in "ab"), replicas.said("a"))


def full_store(program: str) -> None:
    """An etcd that an older firmd has filled has room again after the steps that firmd names; nothing is lost."""
    require_programs("etcdctl")
    with cluster(program, ROSTER, *ALL_RETAINED, members=("--quota-backend-bytes", str(QUOTA))) as (members, replicas):
        script, now = replicas.folder / "unbound.py", replicas.firmd
        script.write_text(UNBOUND.format(service=str(SERVICE)))
        replicas.firmd = [sys.executable, str(script)]
        replicas.start("a", "b")
        leader = replicas.leads()
        answered = fill_until(replicas, 2 * QUOTA // len(LINE))
        require(replicas.processes[leader].wait(20) == 4, replicas.said(leader))
        require("etcd is full: replicas that run remove old lines" in replicas.said(leader), replicas.said(leader))
        other = "b" if leader == "a" else "a"
        until(lambda: "etcd is full" in replicas.said(other), "the other one says so too")
        require(not replicas.has_ended(other) and replicas.journal(leader) == replicas.journal(other), "it waits")
        replicas.stop()
        replicas.firmd = now
        for name in "ab":
            replicas.log(name).unlink()
            replicas.spawn(name)
        until(lambda: any("were removed" in replicas.said(name) for name in "ab"), "old lines are removed")
        until(lambda: sizes(members)[0] < QUOTA // 2, "etcd uses less than half")
        told = [replicas.said(name).count("etcd does not serve this replica: etcd is full") for name in "ab"]
        require(max(told) == 1, f"told {told} times")
        etcdctl(members, "defrag")
        etcdctl(members, "alarm", "disarm")
        replicas.leads()
        lines = replicas.journal("a").count(LINE + b"\n")
        require(lines >= answered, f"{lines} lines, and {answered} replies")
        require(fill_until(replicas, 1_000) == 1_000, "further lines are taken")
        replicas.settle("a", "b")


def lost_store(program: str) -> None:
    """Once etcd is lost, each replica reports its number of lines, and etcd continues only from the longest."""
    with cluster(program, ROSTER) as (members, replicas):
        replicas.start("a")
        fill_until(replicas, AT_ONCE)
        replicas.start("b")
        replicas.settle("a", "b")
        replicas.kill("b")
        fill_until(replicas, AT_ONCE)
        replicas.stop()
        members.stop()
        for number in range(3):
            shutil.rmtree(members.folder / f"m{number}")
        members.start_all()
        a, b = [replicas.journal(name).count(b"\n") for name in "ab"]
        require(a > b >= AT_ONCE, (a, b))
        replicas.refuses("b", 5, f"b has {b:,} lines, and etcd none", "start each replica once", f"so far: b {b:,}\n")
        replicas.refuses("a", 5, f"then the longest with --etcd-begin; lines so far: a {a:,}, b {b:,}\n")
        lost = "start that one with --etcd-begin, or `etcdctl del /firm/found/a` if it is lost"
        replicas.refuses("b", 5, f"the replica a has more lines (a {a:,}, b {b:,}): {lost}", options=("--etcd-begin",))
        replicas.spawn("a", "--etcd-begin")
        until(lambda: replicas.leader() == "a", "the longest leads")
        require(f"etcd goes on from the lines of a; lines of each replica: a {a:,}" in replicas.said("a"), "it says so")
        replicas.refuses("b", 5, "late: bytes ", "copy the state's folder of another replica")


@dataclass
class Hosts(Replicas):
    """Replicas whose programs are installed in a folder of each host."""

    def host(self, name: str) -> Path:
        return self.folder / f"host-{name}"

    def install(self, name: str) -> None:
        """Install the service and the program there, over the running ones."""
        host = self.host(name)
        shutil.rmtree(host, ignore_errors=True)
        shutil.copytree(SERVICE, host / "service", ignore=shutil.ignore_patterns("__pycache__"))
        shutil.copy2(self.firm, host / "firm")

    def spawn(self, name: str, *options: str) -> subprocess.Popen[bytes]:
        self.firmd = [sys.executable, str(self.host(name) / "service" / "firmd")]
        return super().spawn(name, *options, "--firm", str(self.host(name) / "firm"))


class Upgrade(Chaos):
    """Installs and restarts one host after another: the leader last."""

    def __init__(self, members: Members, hosts: Hosts) -> None:
        super().__init__(members, hosts, seed=1)
        self.hosts, self.left = hosts, list(NAMES)

    def cause(self, kind: str) -> None:
        if not self.left:
            return
        leader = self.hosts.leads()
        name = next((other for other in self.left if other != leader), leader)
        self.left.remove(name)
        self._note(STOPPED if name == leader else "follower stopped")
        self.hosts.install(name)
        process = self.hosts.processes[name]
        process.terminate()
        require(process.wait(30) == 0, self.hosts.said(name))
        self.hosts.log(name).unlink()
        self.hosts.start(name)


def upgraded(program: str) -> None:
    """Each host's programs are replaced while they run, followers first: no answer is lost or repeated."""
    with cluster(program, ROSTER) as (members, replicas):
        hosts = Hosts(replicas.folder, replicas.urls, program, processes=replicas.processes)
        for name in NAMES:
            hosts.install(name)
        run = Upgrade(members, hosts)
        verdict = run.run(15, ["upgrade"])
        print(f"  upgraded: {verdict}; silent for {verdict.longest(STOPPED):.2f} s after the leader's stop")
        require(verdict.answered > 100 and not run.left, verdict)
        require(not verdict.lost and not verdict.twice and verdict.are_equal, f"{verdict}: {verdict.lost[:3]}")


CHECKS: list[Callable[[str], None]] = [bounded_store, full_store, lost_store, upgraded]
