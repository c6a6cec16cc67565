"""The kit for checks of replicas: real members of etcd and firmd replicas.

Each is a separate process on the loopback, which a check may kill.
"""

from __future__ import annotations

import os
import re
import shutil
import signal
import socket
import subprocess
import sys
import tempfile
import time
from collections.abc import Callable, Iterator
from contextlib import contextmanager
from dataclasses import dataclass, field
from pathlib import Path

from harness.checks import Skipped, require
from harness.deployed import SERVICE

NAMES = ("a", "b", "c")
START_SECONDS = 60
LED_STATUS, LOST_LEASE = 4, "the lease was lost"  # of a former leader, and its last message
QUOTA = 2 << 30
LAST_LINES, MAX_LINE = 30, 400  # of a log, after a failed check
PACKAGES = {"etcd": "etcd-server", "openssl": "openssl"}


def require_programs(*names: str) -> None:
    """Skip the check if the host lacks a program that it needs."""
    for name in names:
        if program_path(name) is None:
            raise Skipped(f"it needs {name} (apt-get install {PACKAGES.get(name, name)})")


def program_path(name: str) -> str | None:
    return shutil.which(name, path=f"{os.environ['PATH']}:/usr/sbin:/sbin")


def free_ports(count: int) -> list[int]:
    """Return free ports of the loopback."""
    taken = [socket.socket() for _ in range(count)]
    try:
        for one in taken:
            one.bind(("127.0.0.1", 0))
        return [one.getsockname()[1] for one in taken]
    finally:
        for one in taken:
            one.close()


def until(holds: Callable[[], bool], what: str, seconds: float = START_SECONDS) -> None:
    ends = time.monotonic() + seconds
    while not holds():
        require(time.monotonic() < ends, f"{what}, in {seconds:g} s")
        time.sleep(0.01)


def openssl(*words: str | Path) -> None:
    done = subprocess.run(["openssl", *words], capture_output=True, stdin=subprocess.DEVNULL)
    require(done.returncode == 0, done.stderr)


class Authority:
    """An authority of certificates, in a folder."""

    def __init__(self, folder: Path, name: str = "ca") -> None:
        self.folder, self.path, self._key = folder, folder / f"{name}.crt", folder / f"{name}.key"
        folder.mkdir(exist_ok=True)
        self._new("-x509", "-days", "2", "-keyout", self._key, "-out", self.path, "-subj", f"/CN={name}")

    def certificate(self, name: str, subject: str | None = None) -> Path:
        """Write a certificate for the loopback, and its key; return its file. By default the subject is the name."""
        parts = [self.folder / f"{name}.{ending}" for ending in ("csr", "crt", "key", "ext")]
        request, signed, key, extension = parts
        extension.write_text("subjectAltName=IP:127.0.0.1,DNS:localhost\n")
        self._new("-keyout", key, "-out", request, "-subj", subject or f"/CN={name}")
        by: list[str | Path] = ["-CA", self.path, "-CAkey", self._key, "-CAcreateserial"]
        openssl("x509", "-req", "-in", request, *by, "-days", "2", "-extfile", extension, "-out", signed)
        both = self.folder / f"{name}.pem"
        both.write_bytes(signed.read_bytes() + key.read_bytes())
        return both

    def _new(self, *words: str | Path) -> None:
        openssl("req", "-newkey", "ec", "-pkeyopt", "ec_paramgen_curve:prime256v1", "-nodes", *words)


class Members:
    """etcd with three members."""

    def __init__(self, folder: Path, options: tuple[str, ...] = (), scheme: str = "http") -> None:
        self.folder, self.options, self.scheme = folder, options, scheme
        self._ports = free_ports(6)
        self.processes: dict[int, subprocess.Popen[bytes]] = {}
        folder.mkdir(parents=True)

    def url(self, number: int) -> str:
        return f"{self.scheme}://127.0.0.1:{self._ports[number]}"

    @property
    def urls(self) -> str:
        return ",".join(map(self.url, range(3)))

    @property
    def peers(self) -> list[str]:
        return [f"http://127.0.0.1:{port}" for port in self._ports[3:]]

    def start(self, number: int, *options: str) -> None:
        peers = self.peers
        cluster = ",".join(f"m{place}={peer}" for place, peer in enumerate(peers))
        words = ["etcd", "--name", f"m{number}", "--data-dir", str(self.folder / f"m{number}")]
        words += ["--listen-client-urls", self.url(number), "--advertise-client-urls", self.url(number)]
        words += ["--listen-peer-urls", peers[number], "--initial-advertise-peer-urls", peers[number]]
        words += ["--initial-cluster", cluster, "--logger", "zap", "--log-outputs", "stderr", "--log-level", "warn"]
        with open(self.folder / f"m{number}.log", "ab") as log:
            self.processes[number] = subprocess.Popen(
                [*words, *self.options, *options], stdout=log, stderr=log, start_new_session=True
            )

    def start_all(self) -> Members:
        for number in range(3):
            self.start(number)
        return self

    def kill(self, number: int) -> None:
        process = self.processes.pop(number)
        process.kill()
        process.wait()

    def stop(self) -> None:
        for process in self.processes.values():
            process.kill()
        for process in self.processes.values():
            process.wait()


@dataclass
class Replicas:
    """firmd replicas of one journal."""

    folder: Path
    urls: str
    firm: str
    options: list[str] = field(default_factory=list)
    opening: list[str] | None = None  # options for their first state; None: the roster
    firmd: list[str] = field(default_factory=lambda: [sys.executable, str(SERVICE / "firmd")])
    processes: dict[str, subprocess.Popen[bytes]] = field(default_factory=dict)

    def spawn(self, name: str, *options: str) -> subprocess.Popen[bytes]:
        words = [
            *self.firmd,
            "--firm",
            self.firm,
            "--state",
            str(self.folder / name),
            "--socket",
            str(self.socket(name)),
        ]
        words += ["--operator", str(self.folder / f"{name}.operator")]
        words += ["--roster", str(self.folder / "roster.csv")] if self.opening is None else self.opening
        with open(self.log(name), "ab") as log:
            process = subprocess.Popen(
                [*words, "--etcd", self.urls, "--name", name, *self.options, *options],
                stdin=subprocess.DEVNULL,
                stderr=log,
                start_new_session=True,
            )
        self.processes[name] = process
        return process

    def start(self, *names: str) -> None:
        """Start them, and wait until each follows and one leads."""
        for name in names:
            self.spawn(name)
        for name in names:
            until(lambda: "following" in self.said(name) or self.has_ended(name), f"{name} follows")
            require(not self.has_ended(name), self.said(name))
        until(lambda: self.leader() is not None, "one leads")

    def has_ended(self, name: str) -> bool:
        return self.processes[name].poll() is not None

    def refuses(self, name: str, status: int, *texts: str, options: tuple[str, ...] = ()) -> None:
        """Require that one ends at its start with this status and these words."""
        self.log(name).unlink(missing_ok=True)
        ended = self.spawn(name, *options).wait(START_SECONDS)
        said = self.said(name)
        require(ended == status and all(text in said for text in texts), f"status {ended}: {said}")

    def log(self, name: str) -> Path:
        return self.folder / f"{name}.log"

    def said(self, name: str) -> str:
        return self.log(name).read_text()

    def socket(self, name: str) -> Path:
        return self.folder / f"{name}.sock"

    def revive(self) -> None:
        """Restart the ended ones, as systemd does."""
        for name in self.processes:
            if self.has_ended(name):
                self.spawn(name)

    def settle(self, *names: str) -> None:
        """Wait until they have the same lines. Restart a former leader that has ended, as systemd does: it loses its
        lease if the members of etcd take too long to elect their own leader."""
        chosen = names or NAMES

        def are_equal() -> bool:
            for name in chosen:
                if self.has_ended(name):
                    lost = self.processes[name].returncode == LED_STATUS and LOST_LEASE in self.said(name)
                    require(lost, f"{name} has ended: {self.said(name)}")
                    self.spawn(name)
            return len({self.journal(name) for name in chosen}) == 1

        until(are_equal, f"{', '.join(chosen)} have the same lines")

    def leader(self) -> str | None:
        tenant = (self.folder / "roster.csv").read_bytes().split(b"\n")[1].split(b",")[0]
        return next((name for name in self.processes if is_served(self.socket(name), tenant)), None)

    def leads(self) -> str:
        """Return the leader's name, once one leads."""
        found: list[str] = []

        def is_found() -> bool:
            found.extend(name for name in (self.leader(),) if name is not None)
            return bool(found)

        until(is_found, "one leads")
        return found[0]

    def follower(self) -> str:
        leader = self.leads()
        return next(name for name in self.processes if name != leader and not self.has_ended(name))

    def kill(self, name: str) -> None:
        self.processes[name].kill()
        self.processes[name].wait()

    def stop(self) -> None:
        for process in self.processes.values():
            process.send_signal(signal.SIGCONT)
            process.terminate()
        for process in self.processes.values():
            try:
                process.wait(START_SECONDS)
            except subprocess.TimeoutExpired:
                process.kill()
                process.wait()

    def journal(self, name: str) -> bytes:
        """Return a replica's lines, without the journal's own headings."""
        paths = sorted((self.folder / name / "journal").glob("*.lines"))
        return b"".join(re.sub(rb"(?m)^#.*\n", b"", path.read_bytes()) for path in paths)


def is_served(path: Path, tenant: bytes) -> bool:
    """Return whether a leading firmd answers there."""
    with socket.socket(socket.AF_UNIX) as tried:
        try:
            tried.settimeout(1)
            tried.connect(str(path))
            tried.sendall(b"%b show\n" % tenant)
            return tried.recv(100).startswith(tenant)
        except OSError:
            return False


def seen(members: Members, replicas: Replicas) -> str:
    """Return clues to a check's failure: running processes, each one's extent, the last lines of all logs, and
    etcd's keys."""
    found = [f"  load {os.getloadavg()[0]:.1f}"]
    for name, process in replicas.processes.items():
        status = process.poll()
        is_there = "runs" if status is None else f"ended with {status}"
        found.append(f"  replica {name} {is_there}, {len(replicas.journal(name)):,} bytes of lines")
        found += last_lines(replicas.log(name))
    for number, member in members.processes.items():
        status = member.poll()
        found.append(f"  member m{number} {'runs' if status is None else f'ended with {status}'}")
        found += last_lines(members.folder / f"m{number}.log")
    return "\n".join([*found, *keys_of(members)])


def last_lines(log: Path) -> list[str]:
    lines = log.read_text(errors="replace").splitlines() if log.exists() else ["(no log)"]
    return [f"    {line[:MAX_LINE]}" for line in lines[-LAST_LINES:]]


def keys_of(members: Members) -> Iterator[str]:
    """Yield the leader's key with its lease, and the replicas' extents, as etcd has them."""
    if program_path("etcdctl") is None or members.scheme != "http":
        return
    environment = {**os.environ, "ETCDCTL_API": "3"}
    command = ["etcdctl", "--endpoints", members.urls, "--command-timeout=5s"]
    for words in (("endpoint", "status"), ("get", "--prefix", "/firm/leader"), ("get", "--prefix", "/firm/kept/")):
        done = subprocess.run([*command, *words], capture_output=True, text=True, env=environment)
        yield f"  etcdctl {' '.join(words)}:"
        yield from (f"    {line[:MAX_LINE]}" for line in (done.stdout + done.stderr).splitlines())


def memory() -> str | None:
    """Return a folder in memory, if any: the checks kill processes, not hosts, so no disk is needed."""
    return "/dev/shm" if os.access("/dev/shm", os.W_OK) else None


@contextmanager
def cluster(
    firm: str, roster: bytes, *options: str, members: tuple[str, ...] = ()
) -> Iterator[tuple[Members, Replicas]]:
    """Start three members of etcd; yield them and firmd replicas that are not started yet, in a separate folder."""
    require_programs("etcd")
    with tempfile.TemporaryDirectory(prefix="firm-", dir=memory()) as name:
        folder = Path(name)
        (folder / "roster.csv").write_bytes(roster)
        etcd = Members(folder / "etcd", members)
        replicas = Replicas(folder, etcd.urls, firm, list(options))
        try:
            etcd.start_all()
            yield etcd, replicas
        except Skipped:
            raise
        except Exception:
            print(seen(etcd, replicas), flush=True)
            raise
        finally:
            replicas.stop()
            etcd.stop()
