"""A Slurm cluster on this host, firmd and firm-slurm over it, and a judge that reads only slurmd's logs."""

from __future__ import annotations

import json
import os
import random
import re
import shutil
import signal
import socket
import subprocess
import sys
import tempfile
import time
from collections import Counter, defaultdict
from collections.abc import Callable, Iterator, Sequence
from contextlib import ExitStack, contextmanager, suppress
from dataclasses import dataclass, field
from datetime import datetime
from pathlib import Path
from typing import Any, NamedTuple, Protocol

from firmd_kit import JOURNAL_TOOL, Daemon
from harness.checks import Missed, Skipped, require
from harness.deployed import SERVICE, slurm

reading = slurm.reading
PROGRAMS = ("munged", "slurmctld", "slurmd", "sbatch", "squeue", "sinfo", "scontrol", "scancel")
PLUGIN = "slurm-wlm/job_submit_lua.so"
BRIDGE = [sys.executable, str(SERVICE / "firm-slurm")]
HEADING = "tenant,nodes,arcs,life,spread,churn,remote\n"
LIMITS = "4096,65536,1099511627776,0,100000,5"  # as `firmctl make-roster` writes them by its recipe `pack`
USER = "nobody"
LIMIT_SECONDS = 90.0  # for any wait
LOOK_SECONDS, MOST_SLOWNESS = 0.1, 8.0
SLACK_SECONDS = 3.0  # slurmd may write the end of a job this much later than its end
FIRST_PORT, LAST_PORT = 20_000, 32_000
CONF = """\
ClusterName=loopback
SlurmctldHost={host}(127.0.0.1)
SlurmctldPort={port}
SlurmUser=root
SlurmdUser=root
AuthType=auth/munge
CredType=cred/munge
AuthInfo=socket={folder}/munge/socket
StateSaveLocation={folder}/state
SlurmdSpoolDir={folder}/spool/%n
SlurmctldPidFile={folder}/slurmctld.pid
SlurmdPidFile={folder}/slurmd.%n.pid
SlurmctldLogFile={folder}/log/slurmctld.log
SlurmdLogFile={folder}/log/slurmd.%n.log
ProctrackType=proctrack/linuxproc
TaskPlugin=task/none
SwitchType=switch/none
MpiDefault=none
MailProg=/bin/true
ReturnToService=2
SchedulerType=sched/backfill
SchedulerParameters=batch_sched_delay=0,sched_min_interval=50000,default_queue_depth=10000,sched_interval=5
SelectType=select/cons_tres
SelectTypeParameters=CR_CPU
SlurmdParameters=config_overrides
JobSubmitPlugins=lua
JobCompType=jobcomp/filetxt
JobCompLoc={folder}/log/jobcomp
{accounting}
JobAcctGatherType=jobacct_gather/none
MinJobAge=300
MaxJobCount=100000
MaxArraySize=100000
KillWait=5
SlurmctldTimeout=30
SlurmdTimeout=15
NodeName=node[1-{nodes}] NodeHostname=host[1-{nodes}] NodeAddr=127.0.0.1 Port=[{first}-{last}] \
CPUs={cpus} RealMemory=1000 {hardware}
{partitions}
{more}
"""
NO_ACCOUNTS = "AccountingStorageType=accounting_storage/none"
SCRIPT = """\
#!/bin/bash
say() {{ echo "$1 ${{SLURM_ARRAY_JOB_ID:-$SLURM_JOB_ID}} ${{SLURM_ARRAY_TASK_ID}} $SLURMD_NODENAME" >> {ledger}; }}
trap 'exit 143' TERM
sleep {seconds} & wait $! && say end
"""


def slowness() -> float:
    """Return this host's present slowness, as a factor over a host with a free processor."""
    return min(max(1.0, os.getloadavg()[0] / (os.cpu_count() or 1)), MOST_SLOWNESS)


def wait(holds: Callable[[], object], what: str, seconds: float = LIMIT_SECONDS) -> float:
    """Wait until a condition holds; return the seconds."""
    began = time.monotonic()
    while not holds():
        require(time.monotonic() - began < seconds * slowness(), f"{what}: not within {seconds:g} s")
        time.sleep(LOOK_SECONDS)
    return time.monotonic() - began


def require_packages() -> None:
    """Skip the check without Debian's packages."""
    missing = [name for name in PROGRAMS if shutil.which(name, path=f"{os.environ['PATH']}:/usr/sbin") is None]
    if missing:
        raise Skipped(f"there is no {', '.join(missing)}: apt-get install slurmctld slurmd slurm-client munge")
    if not list(Path("/usr/lib").glob(f"*/{PLUGIN}")):
        raise Skipped("there is no job_submit_lua.so: apt-get install slurm-wlm-basic-plugins")
    if os.geteuid() != 0:
        raise Skipped("slurmd needs root")


def free_ports(count: int) -> int:
    """Return the first of this number of consecutive ports that are free on this host."""
    for _ in range(100):
        first = random.randrange(FIRST_PORT, LAST_PORT - count)
        with ExitStack() as stack, suppress(OSError):
            for port in range(first, first + count):
                stack.enter_context(socket.create_server(("127.0.0.1", port)))
            return first
    raise Missed("no ports are free")


class Accounts(Protocol):
    """Accounts, users and QOS for Slurm, if any."""

    def conf(self, folder: Path) -> str:
        ...

    def start(self, cluster: Cluster) -> None:
        ...

    def stop(self, cluster: Cluster) -> None:
        ...


@dataclass
class Cluster:
    """munged, slurmctld and a slurmd for each node, on ports of loopback, below a folder."""

    folder: Path
    nodes: int
    cpus: int
    partitions: str = "PartitionName=firm Nodes=ALL Default=YES MaxTime=INFINITE State=UP"
    accounts: Accounts | None = None
    more: str = ""  # lines of slurm.conf
    hardware: str = ""  # further words of the nodes

    def __post_init__(self) -> None:
        names = [f"node{node}" for node in range(1, self.nodes + 1)]
        for name in ("munge", "state", "log", *(f"spool/{name}" for name in names)):
            (self.folder / name).mkdir(parents=True, exist_ok=True)
        for path in (self.folder, self.folder / "munge"):
            path.chmod(0o755)
        key = self.folder / "munge/key"
        key.write_bytes(os.urandom(128))
        key.chmod(0o600)
        port = free_ports(self.nodes + 1)
        self.conf.write_text(
            CONF.format(
                host=os.uname().nodename,
                port=port,
                folder=self.folder,
                nodes=self.nodes,
                cpus=self.cpus,
                hardware=self.hardware,
                accounting=self.accounts.conf(self.folder) if self.accounts else NO_ACCOUNTS,
                first=port + 1,
                last=port + self.nodes,
                partitions=self.partitions,
                more=self.more,
            )
        )

    @property
    def conf(self) -> Path:
        return self.folder / "slurm.conf"

    @property
    def environment(self) -> dict[str, str]:
        own = {"SLURM_CONF": str(self.conf), "SLURM_BITSTR_LEN": "0", "PATH": f"{os.environ['PATH']}:/usr/sbin"}
        return {**os.environ, **own}

    def try_run(self, *words: str, user: str | None = None, text: str = "") -> subprocess.CompletedProcess[str]:
        prefix = [] if user is None else ["runuser", "-u", user, "--"]
        return subprocess.run(
            [*prefix, *words],
            env=self.environment,
            cwd=self.folder,
            input=text,
            capture_output=True,
            text=True,
            timeout=LIMIT_SECONDS,
        )

    def run(self, *words: str, user: str | None = None) -> str:
        done = self.try_run(*words, user=user)
        require(done.returncode == 0, f"{' '.join(words)}: {done.returncode}: {done.stderr}")
        return done.stdout

    def start(self) -> None:
        there = self.folder / "munge"
        files = [f"--{name}={there}/{file}" for name, file in (("key-file", "key"), ("socket", "socket"))]
        files += [f"--{name}-file={there}/{name}" for name in ("pid", "log", "seed")]
        self.run("munged", "--force", *files)
        if self.accounts is not None:
            self.accounts.start(self)
        self.start_controller("-c")
        for node in range(1, self.nodes + 1):
            self.start_node(f"node{node}")
        wait(lambda: self.run("sinfo", "-h", "-t", "idle", "-o", "%D").split()[:1] == [str(self.nodes)], "idle nodes")

    def start_controller(self, *words: str) -> None:
        self.run("slurmctld", *words)
        wait(lambda: "is UP" in self.try_run("scontrol", "ping").stdout, "slurmctld")

    def start_node(self, name: str) -> None:
        self.run("slurmd", "-N", name)

    def kill(self, name: str, number: int = signal.SIGTERM) -> None:
        """Kill slurmctld or slurmd.NODE by its own pid file."""
        path = self.folder / f"{name}.pid"
        with suppress(FileNotFoundError, ProcessLookupError, ValueError):
            process = int(path.read_text())
            os.kill(process, number)
            wait(lambda: not Path(f"/proc/{process}").exists(), f"the end of {name}")
            path.unlink(missing_ok=True)

    def processes_of(self, name: str) -> set[int]:
        """Return a node's processes of jobs, with their supervisors: a power cut ends them together."""
        mark, found = f"SLURMD_NODENAME={name}\0".encode(), set()
        for path in Path("/proc").glob("[0-9]*"):
            with suppress(OSError):
                text = (path / "environ").read_bytes()
                if mark in text and bytes(self.folder) in text:
                    parent = int((path / "stat").read_text().rpartition(")")[2].split()[1])
                    found.add(int(path.name))
                    if b"slurmstepd" in Path(f"/proc/{parent}/cmdline").read_bytes():
                        found.add(parent)
        return found

    def cut_power(self, name: str) -> None:
        """Kill a slurmd and all processes on its node; tell the judge, as no log records it."""
        self.kill(f"slurmd.{name}", signal.SIGKILL)
        while victims := self.processes_of(name):
            for victim in sorted(victims):
                with suppress(ProcessLookupError):
                    os.kill(victim, signal.SIGKILL)
        with open(self.folder / "log/cuts", "a") as cuts:
            cuts.write(f"{time.time()} {name}\n")

    def stop(self) -> None:
        self.try_run("scancel", "--state=RUNNING,PENDING,SUSPENDED", "-u", "root")
        for node in range(1, self.nodes + 1):
            self.kill(f"slurmd.node{node}")
        self.kill("slurmctld")
        for node in range(1, self.nodes + 1):
            for victim in self.processes_of(f"node{node}"):
                with suppress(ProcessLookupError):
                    os.kill(victim, signal.SIGKILL)
        if self.accounts is not None:
            self.accounts.stop(self)
        with suppress(FileNotFoundError, ProcessLookupError):
            munged, number = int((self.folder / "munge/pid").read_text()), int(signal.SIGTERM)
            for _ in range(500):  # until it has removed its files of the job
                os.kill(munged, number)
                number = 0
                time.sleep(0.01)

    def squeue(self) -> dict[str, tuple[str, str]]:
        """Return the state and the node of each job that has not ended."""
        found: dict[str, tuple[str, str]] = {}
        for row in self.run("squeue", "-h", "--array-unique", "-o", "%i|%T|%N").splitlines():
            name, state, node = row.split("|")
            for number, index in reading.elements_of(name):
                found[f"{number}" if index is None else f"{number}-{index}"] = (state, node)
        return found


@dataclass
class Site:
    """A cluster whose jobs firm places."""

    folder: Path
    firm: str
    cluster: Cluster
    tenants: tuple[str, ...] = ("firm",)
    options: str = ""  # of the table
    partition_options: str = ""
    limits: str = LIMITS
    bridges: dict[str, subprocess.Popen[bytes]] = field(default_factory=dict)

    def __post_init__(self) -> None:
        (self.folder / "roster.csv").write_text(HEADING + "".join(f"{name},{self.limits}\n" for name in self.tenants))
        self.daemon = Daemon(self.folder, self.firm)
        self.write_table()
        (self.cluster.folder / "job_submit.lua").write_text(self.tool("hook"))

    @property
    def table(self) -> Path:
        return self.folder / "slurm.toml"

    @property
    def ledger(self) -> Path:
        return self.folder / "ledger"

    def write_table(self) -> None:
        text = f'view = "{self.daemon.state}/view"\nevery = 2.0\n{self.options}\n'
        for name in self.tenants:
            text += f'[partitions.{name}]\nsocket = "{self.daemon.any}"\n{self.partition_options}\n'
            text += f"[partitions.{name}.weights]\nheavy = 200000\n"
        self.table.write_text(text)

    def tool(self, *words: str) -> str:
        """Return firm-slurm's output; require status 0."""
        done = self.try_tool(*words)
        require(done.returncode == 0, f"{words}: {done.returncode}: {done.stderr}")
        return done.stdout

    def try_tool(self, verb: str, *words: str) -> subprocess.CompletedProcess[str]:
        return subprocess.run(
            [*BRIDGE, verb, "--table", str(self.table), *words],
            env=self.cluster.environment,
            capture_output=True,
            text=True,
            timeout=LIMIT_SECONDS,
        )

    def start_bridge(self, name: str = "bridge", table: Path | None = None) -> None:
        readies = self.count_said("ready: ", name)
        with open(self.folder / f"{name}.log", "ab") as log:
            command = [*BRIDGE, "run", "--table", str(table or self.table), "--log-format", "json"]
            self.bridges[name] = subprocess.Popen(command, env=self.cluster.environment, stderr=log)
        wait(lambda: self.count_said("ready: ", name) > readies, f"{name} is ready")

    def kill_bridge(self, name: str = "bridge", number: int = signal.SIGKILL) -> None:
        process = self.bridges.pop(name)
        process.send_signal(number)
        status = process.wait(LIMIT_SECONDS)
        require(status == (0 if number == signal.SIGTERM else -number), f"{name} ended with {status}")

    def said(self, name: str = "bridge") -> list[dict[str, Any]]:
        path = self.folder / f"{name}.log"
        lines = path.read_text().splitlines(keepends=True) if path.exists() else []
        return [json.loads(line) for line in lines if line.endswith("}\n")]

    def count_said(self, text: str, name: str = "bridge") -> int:
        return sum(text in line["message"] for line in self.said(name))

    def submit(self, count: int, seconds: float, account: str, *words: str, user: str | None = None) -> str:
        """Submit an array of jobs that sleep; return its number."""
        script = self.folder / f"sleep-{seconds:g}"
        script.write_text(SCRIPT.format(ledger=self.ledger, seconds=f"{seconds:g}"))
        array = [f"--array=1-{count}"] if count > 1 else []
        command = ["sbatch", "--parsable", "-o", "/dev/null", *array, "-A", account, *words, str(script)]
        return self.cluster.run(*command, user=user).strip()

    # firm's rows

    def rows(self) -> dict[str, Any]:
        """Return all rows of the first tenant, by the view."""
        with socket.socket(socket.AF_UNIX) as view:
            view.settimeout(LIMIT_SECONDS)
            view.connect(str(self.daemon.state / "view"))
            view.sendall(json.dumps({"ask": "watch", "tenant": self.tenants[0]}).encode() + b"\n")
            with view.makefile("rb") as answers:
                found: dict[str, Any] = json.loads(answers.readline())["book"]
                return found

    def places(self) -> dict[str, str | None]:
        """Return each task's machine, by `where`."""
        tasks = [row["task"] for row in self.rows()["tasks"]]
        with self.daemon.client() as client:
            client.send(b"".join(b"%b where %b\n" % (self.tenants[0].encode(), task.encode()) for task in tasks))
            replies = [client.reply().decode().split() for _ in tasks]
        return {task: reply[4] if reply[2:4] == ["ok", "at"] else None for task, reply in zip(tasks, replies)}

    def differences(self) -> dict[str, tuple[str | None, tuple[str, str]]]:
        """Return tasks that are elsewhere in Slurm than `where` says, and jobs that neither run nor are firm's."""
        places, jobs = self.places(), self.cluster.squeue()
        found = {}
        for task in {*places, *jobs}:
            state, node = jobs.get(task, ("ended", ""))
            is_same = places.get(task) == (node or None) if state in ("RUNNING", "PENDING") else False
            is_stranger = task not in places and state == "RUNNING"
            if not (is_same and task in places or is_stranger):
                found[task] = (places.get(task), (state, node))
        return found

    def settle(self, what: str, seconds: float = LIMIT_SECONDS) -> float:
        """Wait until squeue agrees with `where` about each task; return the seconds."""
        began = time.monotonic()
        while True:
            last: object = None
            with suppress(OSError, Missed, ValueError, KeyError):  # firmd or slurmctld may be away
                last = self.differences()
                if not last:
                    return time.monotonic() - began
            waited = time.monotonic() - began
            require(waited < seconds * slowness(), f"{what}: squeue differs from where: {last}")
            time.sleep(LOOK_SECONDS)

    def is_empty(self) -> bool:
        try:
            return not self.rows()["tasks"] and not self.cluster.squeue()
        except (OSError, Missed, ValueError):
            return False

    def stop(self) -> None:
        for process in self.bridges.values():
            process.terminate()
        for process in self.bridges.values():
            process.wait(LIMIT_SECONDS)
        if self.daemon.process is not None and self.daemon.process.poll() is None:
            self.daemon.kill()


def tell(text: str) -> None:
    print(f"         {text}", flush=True)


def running(place: Site) -> list[str]:
    return [name for name, (state, _) in place.cluster.squeue().items() if state == "RUNNING"]


def count_running(place: Site) -> int:
    return len(running(place))


def is_in_firm(place: Site, *jobs: str) -> bool:
    return set(jobs) <= place.places().keys()


def count_of_prologs(rows: str) -> int:
    return sum(row.split()[0] == "CONFIGURING" or row.split() == ["RUNNING", "Prolog"] for row in rows.splitlines())


def delayed(place: Site, user: str, most: float = 20.0) -> float:
    """Return the seconds for two jobs of 1 s after two that their user keeps deferring, once a slot is free."""
    first = place.submit(2, 60, "light", user=user)
    wait(lambda: all(state_of(place, f"{first}-{index}") == "RUNNING" for index in (1, 2)), "all slots in use")
    array = place.submit(2, 60, "light", user=user)
    wait(lambda: f"{array}-2" in place.places(), "tasks that wait")
    other = place.submit(2, 1, "light")

    def has_ended() -> bool:
        place.cluster.try_run("scontrol", "update", f"JobId={array}", "StartTime=now+4", user=user)
        return not any(name.startswith(f"{other}-") for name in place.cluster.squeue())

    has_ended()
    place.cluster.run("scancel", first, user=user)
    seconds = wait(has_ended, "jobs behind some that begin later", most)
    place.cluster.run("scancel", array, user=user)
    wait(place.is_empty, "the end of all jobs")
    return seconds


def state_of(place: Site, job: str) -> str:
    return place.cluster.squeue().get(job, ("ended", ""))[0]


def groups_of(place: Site) -> dict[str, str]:
    return {row["task"]: row["job"] for row in place.rows()["tasks"]}


@contextmanager
def site(firm: str, nodes: int, cpus: int, **words: Any) -> Iterator[Site]:
    """Start a site without a bridge."""
    require_packages()
    of_cluster = {name: words.pop(name) for name in ("partitions", "accounts", "more", "hardware") if name in words}
    with tempfile.TemporaryDirectory(prefix="firm-slurm-") as name:
        folder = Path(name)
        folder.chmod(0o755)
        cluster = Cluster(folder / "slurm", nodes, cpus, **of_cluster)
        found = Site(folder, firm, cluster, **words)
        found.ledger.touch()
        found.ledger.chmod(0o666)
        try:
            cluster.start()
            found.daemon.start()
            yield found
        finally:
            with ExitStack() as ends:
                ends.callback(cluster.stop)
                ends.callback(found.stop)
                keep(folder)


def keep(folder: Path) -> None:
    """Copy the logs to the folder that keeps them."""
    kept = os.environ.get("KEEP_LOGS")
    if kept is not None:
        ignored = shutil.ignore_patterns("socket*", "any", "view", "operator", "spool", "database", "*.new")
        shutil.copytree(folder, Path(kept) / folder.name, ignore=ignored)


# Random events


def set_node(place: Site, node: str, state: str) -> None:
    reason = ["Reason=test"] if state == "DRAIN" else []
    place.cluster.run("scontrol", "update", f"NodeName={node}", f"State={state}", *reason)


class Events:
    def __init__(self, place: Site, chance: random.Random) -> None:
        self.place, self.chance = place, chance
        self.counts: Counter[str] = Counter()
        self.submitted = 0
        self._drained: set[str] = set()

    def next(self) -> None:
        kinds: dict[Callable[[], None], float] = {self.submit: 5, self.drain: 1, self.resume: 2, self.cancel: 1}
        kinds |= {self.bridge: 1, self.firmd: 1, self.slurmctld: 1, self.power: 0.3}
        event = self.chance.choices(list(kinds), list(kinds.values()))[0]
        self.counts[event.__name__] += 1
        event()

    def submit(self) -> None:
        count, seconds = self.chance.randint(1, 8), self.chance.choice([0.2, 2, 6, 12])
        near = f"--comment=near=node{self.chance.randint(1, 5)}"
        self.place.submit(count, seconds, self.chance.choice(["a", "b", "c", "heavy"]), near)
        self.submitted += count

    def drain(self) -> None:
        if len(self._drained) < 3:
            node = f"node{self.chance.randint(1, 5)}"
            self._drained.add(node)
            set_node(self.place, node, "DRAIN")

    def resume(self) -> None:
        if self._drained:
            self.place.cluster.try_run("scontrol", "update", f"NodeName={self._drained.pop()}", "State=RESUME")

    def resume_all(self) -> None:
        while self._drained:
            self.resume()

    def cancel(self) -> None:
        jobs = sorted(self.place.cluster.squeue())
        if jobs:
            self.place.cluster.try_run("scancel", self.chance.choice(jobs).replace("-", "_"))

    def bridge(self) -> None:
        name = self.chance.choice(["bridge", "second"])
        self.place.kill_bridge(name)
        time.sleep(self.chance.uniform(0, 1.5))
        self.place.start_bridge(name)

    def firmd(self) -> None:
        self.place.daemon.kill()
        time.sleep(self.chance.uniform(0, 1))
        self.place.daemon.start()

    def slurmctld(self) -> None:
        self.place.cluster.kill("slurmctld")
        time.sleep(self.chance.uniform(0, 1))
        self.place.cluster.start_controller()

    def power(self) -> None:
        node = f"node{self.chance.randint(1, 5)}"
        self.place.cluster.cut_power(node)
        time.sleep(self.chance.uniform(0, 3))
        self.place.cluster.start_node(node)


# The judge


class Stay(NamedTuple):
    """A job's stay on a node."""

    node: str
    began: float
    ended: float
    is_whole: bool  # it ended by itself


class Change(NamedTuple):
    """A change in a round's reply, or a line that ends an earlier request."""

    at: float
    kind: str
    task: str
    machine: str | None


STAMP = re.compile(r"\[(\S+?)\] (.*)")
LAUNCH = re.compile(r"Launching batch job (\d+) for UID")
DONE = re.compile(r"\[(\d+)\.batch\] done with job")
KILLED = re.compile(r"error: \*\*\* JOB (\d+) ON ")
ALLOCATE = re.compile(r"(?:sched|backfill): (?:Allocate|Started) JobId=(\S+?)(?:\((\d+)\))? (?:NodeList=|.*on )(\S+)")
REQUEUE = re.compile(r"Requeuing JobId=(\S+?)(?:\(\d+\))?$")
HOLD = re.compile(r"sched: _hold_job_rec: hold on JobId=(\S+?)(?:\(\d+\))? by")


def stamped(path: Path) -> Iterator[tuple[float, str]]:
    for line in path.read_text(errors="replace").splitlines():
        if found := STAMP.match(line):
            with suppress(ValueError):
                yield datetime.fromisoformat(found[1]).timestamp(), found[2]


class Judge:
    """Reads the logs after the run."""

    def __init__(self, place: Site) -> None:
        self.site, self.log = place, place.cluster.folder / "log"
        self.stays = self._read_stays()

    def _read_stays(self) -> dict[str, list[Stay]]:
        """Return the stays by Slurm's own number of each job."""
        cuts: dict[str, list[float]] = defaultdict(list)
        if (self.log / "cuts").exists():
            for line in (self.log / "cuts").read_text().splitlines():
                at, name = line.split()
                cuts[name].append(float(at))
        found: dict[str, list[Stay]] = defaultdict(list)
        for path in self.log.glob("slurmd.*.log"):
            node = path.name.split(".")[1]
            for job, stay in stays_of(node, sorted([*stamped(path), *((when, "cut") for when in cuts[node])])):
                found[job].append(stay)
        return found

    def require_single(self) -> None:
        """Require that no job was on two nodes, or twice on one, at a time."""
        for job, stays in self.stays.items():
            stays.sort(key=lambda stay: stay.began)
            for first, second in zip(stays, stays[1:]):
                require(second.began >= first.ended - SLACK_SECONDS, f"job {job} ran twice: {first}, {second}")

    def most_at_a_time(self) -> int:
        """Return the most jobs on a node at a time; a job whose end slurmd wrote late counts as ended."""
        most = 0
        events: dict[str, list[tuple[float, int]]] = defaultdict(list)
        for stay in (stay for stays in self.stays.values() for stay in stays):
            if stay.ended - stay.began > SLACK_SECONDS:
                events[stay.node] += [(stay.began, 1), (stay.ended - SLACK_SECONDS, -1)]
        for changes in events.values():
            count = 0
            for _, step in sorted(changes):
                count += step
                most = max(most, count)
        return most

    def completed(self) -> Counter[str]:
        """Return how often each job ended by itself."""
        return Counter(job for job, stays in self.stays.items() for stay in stays if stay.is_whole)

    def works(self) -> Counter[str]:
        """Return how often each job wrote that its work is done."""
        rows = (line.split() for line in self.site.ledger.read_text().splitlines())
        return Counter("_".join(row[1:-1]) for row in rows)

    def cancelled(self) -> set[str]:
        """Return the jobs that slurmctld was asked to end, and that did not do their work."""
        text = (self.log / "slurmctld.log").read_text()
        return set(re.findall(r"REQUEST_KILL_JOB JobId=(\S+) ", text)) - self.works().keys()

    def require_ended_once(self, count: int) -> int:
        """Require that this many jobs ended, each once and with its work, or were cancelled; return the number
        cancelled."""
        completed, works, cancelled = self.completed(), self.works(), self.cancelled()
        require(len(works) + len(cancelled) == count, f"{len(works)} and {len(cancelled)} of {count} jobs have ended")
        for told, ends in (("ended", completed), ("did their work", works)):
            twice = [job for job, times in ends.items() if times > 1]
            require(not twice, f"jobs that {told} more than once: {twice}")
        require(len(completed) == len(works), f"{len(completed)} ended by slurmd's logs, {len(works)} did their work")
        return len(cancelled)

    # The effect of each change of a reply

    def changes(self) -> list[Change]:
        """Return the changes of all rounds, by a replay of the journal through firm."""
        state = self.site.daemon.state
        printed = subprocess.run([*JOURNAL_TOOL, "print", "--senders", str(state)], capture_output=True, check=True)
        lines = [line.split(b" ", 3) for line in printed.stdout.splitlines() if not line.startswith(b"#")]
        text = b"".join(line[3] + b"\n" for line in lines)
        command = [self.site.firm, "--roster", str(state / "roster.csv")]
        replies = subprocess.run(command, input=text, capture_output=True, check=True).stdout.splitlines()
        require(len(replies) == len(lines), f"{len(replies)} replies to {len(lines)} lines")
        found = []
        for (_, when, _, line), reply in zip(lines, replies):
            at = datetime.fromisoformat(when.decode()).timestamp()
            words, outcome = line.decode().split(), reply.decode().split()[2:]
            if words[1] == "done" and outcome == ["ok"]:
                found.append(Change(at, "done", words[2], None))
            elif words[1] == "drain" and outcome[:1] == ["ok"]:
                found.append(Change(at, "drain", "", words[2]))
            elif outcome[:2] == ["ok", "round"]:
                found += list(changes_of(at, outcome[4:]))
        return found

    def require_carried_out(self) -> dict[str, int]:
        """Require that each change took effect, unless firm withdrew it or the job ended first; return the counts."""
        done = self._done_by_slurm()
        follows = following(self.changes())
        counts: Counter[str] = Counter()
        for change, following_at, following_kind in follows:
            kind = "off" if change.kind == "preempt" else "on"
            hits = [
                at
                for at, did, node in done[change.task]
                if did == kind and node == change.machine and change.at - 1 <= at <= following_at + SLACK_SECONDS
            ]
            if hits:
                counts[change.kind] += 1
            else:
                require(following_kind is not None, f"not carried out: {change}; Slurm: {done[change.task]}")
                counts[f"{change.kind}, taken back by {following_kind}"] += 1
        return dict(counts)

    def _done_by_slurm(self) -> dict[str, list[tuple[float, str, str | None]]]:
        found: dict[str, list[tuple[float, str, str | None]]] = defaultdict(list)
        for when, text in stamped(self.log / "slurmctld.log"):
            if allocated := ALLOCATE.search(text):
                found[allocated[1].replace("_", "-")].append((when, "on", allocated[3]))
            elif gone := REQUEUE.search(text) or HOLD.search(text):
                found[gone[1].replace("_", "-")].append((when, "off", None))
        return found


def stays_of(node: str, events: list[tuple[float, str]]) -> Iterator[tuple[str, Stay]]:
    """Return each job with its stay, by a node's log and the cuts of its power."""
    began: dict[str, float] = {}
    killed: set[str] = set()
    for when, text in events:
        if launch := LAUNCH.search(text):
            began[launch[1]] = when
            killed.discard(launch[1])
        elif ended := KILLED.search(text):
            killed.add(ended[1])
        elif (done := DONE.search(text)) and done[1] in began:
            yield done[1], Stay(node, began.pop(done[1]), when, done[1] not in killed)
        elif text == "cut":
            for job in list(began):
                yield job, Stay(node, began.pop(job), when, False)
    require(not began, f"{node}: {began} have not left")


def changes_of(at: float, words: Sequence[str]) -> Iterator[Change]:
    """Return the changes of a round's reply."""
    place = 0
    while place < len(words):
        kind, task = words[place : place + 2]
        size = 4 if kind == "move" else 3
        yield Change(at, kind, task, None if kind == "preempt" else words[place + size - 1])
        place += size


def following(changes: list[Change]) -> Iterator[tuple[Change, float, str | None]]:
    """Return each change of a round, with the time and the cause of its withdrawal by firm."""
    for place, change in enumerate(changes):
        if change.kind in ("done", "drain"):
            continue
        for later in changes[place + 1 :]:
            if later.task == change.task or later.kind == "drain" and later.machine == change.machine:
                yield change, later.at, later.kind
                break
        else:
            yield change, float("inf"), None
