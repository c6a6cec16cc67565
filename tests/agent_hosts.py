"""Check tasks while agents, the server, the network between them and an agent's rights are lost.

usage: tools/run tests/agent_hosts.py [--quick] [--only WORDS] [--program FILE]
All are real: firmd with the built program, firm-api, firm-agent, and tasks that write their begin and end to a ledger.
Agents of other hosts are in network namespaces, and connect by TLS. Each check prints a line; the last line is 'N
passed, M failed', and the exit status is 1 if one failed. Namespaces need root and iproute2, certificates openssl:
checks without them are skipped.
"""

from __future__ import annotations

import argparse
import os
import shutil
import signal
import socket
import subprocess
import sys
import time
from collections import Counter
from collections.abc import Callable, Iterator, Sequence
from contextlib import contextmanager, suppress
from functools import partial

from agent_kit import LIMIT_SECONDS
from api_kit import certificate
from chaos import COMMAND, RealAgent
from harness import program
from harness.checks import CannotRun, Check, Skipped, Suite, print_skipped, require, run_script, run_suites
from harness.deployed import SERVICE
from queue_client import as_user
from queue_kit import Case

AT_A_TIME = 3  # checks, which mostly wait
LEASE_SECONDS, MARGIN_SECONDS = 15.0, 5.0
LONG_LEASE = 60.0  # for the restart of a service, and the return of an agent, on a busy host too
CUT_SECONDS = 7.5
PORT = 8443
GAMES = 5  # an account that each Debian host has
MAX_NETWORKS = 10_000
# An agent of root that takes accounts from a number on for people's.
OF_PEOPLE = """\
import pathlib, sys
from firm.agent import daemon as agent, work as agent_work
agent_work.LOGIN_DEFS = pathlib.Path(sys.argv.pop(1))
sys.exit(agent.main())
"""
# An agent that is killed before or after a step. Agents of one host can't tell it from a kill from outside.
DYING = """\
import inspect, os, pathlib, signal, sys
from firm.agent import daemon as agent, link as agent_link, queue as agent_queue, state as agent_state
from firm.agent import work as agent_work
agent_work.LOGIN_DEFS = pathlib.Path(sys.argv.pop(1))
owner, name, kind, moment = sys.argv.pop(1).split()
places = {"State": agent_state.State, "Link": agent_link.Link, "daemon": agent}
place = {**places, "Source": agent_queue.QueueSource}[owner]
real = getattr(place, name)
def die(wanted, words, more):
    if moment == wanted and kind in ("any", words[0] if words else more.get("event")):
        os.kill(os.getpid(), signal.SIGKILL)
def step(self, *words, **more):
    die("before", words, more)
    found = real(self, *words, **more)
    die("after", words, more)
    return found
async def awaited(self, *words, **more):
    die("before", words, more)
    found = await real(self, *words, **more)
    die("after", words, more)
    return found
setattr(place, name, awaited if inspect.iscoroutinefunction(real) else step)
sys.exit(agent.main())
"""
STEPS = [
    f"{step} {moment}"
    for step in (
        "State record start",
        "Link ask claim",
        "daemon begin_run any",
        "Source grant any",
        "State record running",
        "Link ask told",
        "State record ended",
    )
    for moment in ("before", "after")
]


# A task that goes on until it may end.
GATED = COMMAND.replace('sleep "$1" 9>&-', 'until [ -e "$CHAOS/$FIRM_ID.end" ]; do sleep 0.1 9>&-; done')
# A further attempt has other seconds.
FIRST = '[ "$FIRM_ATTEMPT" = 1 ] || set -- "$3" "$2"\n'


class Network:
    """A further host, as a network namespace, and the wire to it."""

    def __init__(self) -> None:
        self._held, number = held_number()
        self.name, self._wire = f"firm-tests-{number}", f"firm-tests-{number}"
        first = 4 * number
        self.server, self.agent = (f"10.231.{first // 256}.{first % 256 + place}" for place in (1, 2))

    def __enter__(self) -> Network:
        if os.geteuid() != 0 or shutil.which("ip") is None:
            raise Skipped("it needs root, and iproute2")
        self._remove()  # the remains of a killed run
        try:
            self._ip("netns", "add", self.name)
        except subprocess.CalledProcessError as error:
            raise Skipped(f"no network namespace can be made here: {error.stderr}") from None
        self._ip("link", "add", self._wire, "type", "veth", "peer", "name", "eth0", "netns", self.name)
        self._ip("addr", "add", f"{self.server}/30", "dev", self._wire)
        self._ip("-n", self.name, "addr", "add", f"{self.agent}/30", "dev", "eth0")
        for words in (("link", "set", self._wire), ("-n", self.name, "link", "set", "eth0")):
            self._ip(*words, "up")
        return self

    def __exit__(self, *_: object) -> None:
        self._remove()
        self._held.close()

    def _remove(self) -> None:
        for words in (("link", "del", self._wire), ("netns", "del", self.name)):
            subprocess.run(["ip", *words], capture_output=True)

    def cut(self) -> None:
        self._ip("link", "set", self._wire, "down")

    def heal(self) -> None:
        self._ip("link", "set", self._wire, "up")

    @staticmethod
    def _ip(*words: str) -> None:
        subprocess.run(["ip", *words], check=True, capture_output=True, text=True)


def held_number() -> tuple[socket.socket, int]:
    """Return a number that no other of these networks has while its socket is open: names of abstract sockets belong
    to the network namespace, as those of wires and addresses do."""
    held = socket.socket(socket.AF_UNIX)
    for number in range(MAX_NETWORKS):
        with suppress(OSError):
            held.bind(f"\0firm-tests-network-{number}")
            return held, number
    raise CannotRun(f"{MAX_NETWORKS} networks of tests are there already")


class Drill:
    """A service with its agents, and the ledger of their tasks."""

    def __init__(self, case: Case) -> None:
        self.case, self.folder = case, case.folder / "shared"
        self.folder.mkdir(mode=0o777)
        self.folder.chmod(0o777)
        case.folder.chmod(0o755)
        (case.folder / "login.defs").write_text(f"UID_MIN {GAMES}\n")
        self.agents: list[RealAgent] = []

    def agent(
        self, name: str, machines: str, text: str = OF_PEOPLE, words: Sequence[str] = (), server: Sequence[str] = ()
    ) -> RealAgent:
        """Return an agent, not yet started, that runs a Python text with words."""
        before = [sys.executable, "-c", text, str(self.case.folder / "login.defs"), *words]
        found = RealAgent(self.case, name, machines, before=before, server=[*server])
        self.agents.append(found)
        return found

    def far_agent(self, network: Network, name: str, machines: str) -> RealAgent:
        """Return an agent of another host, with a token."""
        server = [f"--server=https://{network.server}:{PORT}", f"--token={self.case.folder / name}.token"]
        server += [f"--ca={self.case.folder / 'server.pem'}"]
        self.grant(name)
        found = self.agent(name, machines, server=server)
        found.before = ["ip", "netns", "exec", network.name, *found.before]
        return found

    def grant(self, name: str) -> None:
        words = [sys.executable, str(SERVICE / "firm-api"), "token", f"--tokens={self.case.folder / 'tokens'}"]
        words += ["--user=root", "--role=agent", f"--tenants={self.case.tenant}"]
        done = subprocess.run(words, capture_output=True, text=True, timeout=LIMIT_SECONDS)
        require(done.returncode == 0, done.stderr)
        (self.case.folder / f"{name}.token").write_text(done.stdout)

    def submit(self, seconds: float, again: float = 0.5) -> int:
        """Submit a person's task, with the seconds of its first attempt, and of each further one."""
        return self._submit(FIRST + COMMAND, str(seconds), "0", str(again))

    def submit_gated(self) -> int:
        """Submit a person's task that goes on until it may end."""
        return self._submit(GATED, "", "0")

    def let_end(self, task: int) -> None:
        (self.folder / f"{task}.end").touch()

    def _submit(self, script: str, *words_of_it: str) -> int:
        words = ["env", f"CHAOS={self.folder}", "sh", "-c", script, "sh", *words_of_it]
        (answer,) = as_user(GAMES, self.case.place, [{"ask": "submit", "command": words, "dir": "/tmp", "grace": 0.5}])
        require("submit" in answer, answer)
        return int(answer["submit"]["number"])

    def state(self, task: int) -> str:
        with self.case.client() as client:
            return client.state(str(task))

    def until_state(self, task: int, state: str) -> None:
        with self.case.client() as client:
            self.case.until_state(client, str(task), state)

    def until_machines(self, **states: str) -> None:
        def are_so() -> bool:
            with self.case.client() as client:
                return {row["machine"]: row["state"] for row in client.ask("machines")} == states

        self.case.until(are_so, f"the machines are {states}")

    def lines(self, task: int) -> list[str]:
        """Return the lines of a task's processes in the ledger."""
        path = self.folder / "ledger"
        return [line.partition(" ")[2] for line in path.read_text().splitlines() if line.split()[0] == str(task)]

    def judge(self, task: int, *outcomes: str) -> None:
        """Require these ends of a task's attempts, and that its processes ran one at a time and did its work once."""
        with self.case.client() as client:
            found = client.ask("task", task=str(task))
        known = [attempt["outcome"] for attempt in found["attempts"]]
        require(found["state"] == "done" and known == [*outcomes], f"{task}: {found['state']}, {known}: {self.said()}")
        lines = Counter(self.lines(task))
        require(not [line for line in lines if line.endswith("doubled")], f"{task} ran twice at a time: {lines}")
        require(max(lines.values()) == 1, f"{task}: an attempt ran twice: {lines}")
        require(f"{len(outcomes)} end" in lines, f"{task}: {lines}")
        for number, outcome in enumerate(outcomes, 1):
            require(outcome != "void" or f"{number} begin" not in lines, f"{task}: {lines}")
            require(outcome == "done" or f"{number} end" not in lines, f"{task}: {lines}")

    def said(self) -> str:
        return self.case.said()[-3000:]


@contextmanager
def drill(program_path: str, *options: str) -> Iterator[Drill]:
    terms = [f"--lease={LEASE_SECONDS:g}", f"--margin={MARGIN_SECONDS:g}", "--socket-mode=666"]
    with Case(program_path, *terms, *options) as case:
        found = Drill(case)
        try:
            yield found
        finally:
            for agent in found.agents:
                agent.kill()


@contextmanager
def far_drill(program_path: str, *options: str) -> Iterator[tuple[Drill, Network]]:
    """Start a drill with a further host, which is reached by TLS."""
    with Network() as network, drill(program_path, *options) as found:
        folder = found.case.folder
        pem, key = certificate(folder, "server", f"IP:{network.server}")
        found.case.options += [f"--tls={network.server}:{PORT}", f"--certificate={pem}", f"--key={key}"]
        found.case.options += [f"--tokens={folder / 'tokens'}"]
        (folder / "tokens").touch(mode=0o600)
        found.case.start()
        yield found, network


def each_step(program_path: str) -> None:
    """An agent that is killed at a step of a start, or of an end, does the task once, and starts none twice."""
    with drill(program_path) as found:
        found.case.start()
        for step in STEPS:
            dying = found.agent("a1", "m1=1", DYING, [step])
            dying.start()
            task = found.submit(1.0)
            require(dying.status() == -signal.SIGKILL, f"{step}: it is not killed: {found.said()}")
            again = found.agent("a1", "m1=1")
            again.start()
            found.until_state(task, "done")
            with found.case.client() as client:
                attempts = [attempt["outcome"] for attempt in client.ask("task", task=str(task))["attempts"]]
            require(set(attempts[:-1]) <= {"void"} and len(attempts) <= 2, f"{step}: {attempts}")
            found.judge(task, *attempts)
            again.kill()


def server_restarts(program_path: str) -> None:
    """Tasks go on while the server is killed and started again, each with one attempt."""
    with drill(program_path, f"--lease={LONG_LEASE:g}") as found:
        found.case.start()
        found.agent("a1", "m1=8").start()
        tasks = [found.submit(seconds) for seconds in (0.5, 1, 2, 3, 4, 6, 8, 10)]
        for pause in (0.3, 0.9, 1.5, 2.5):
            time.sleep(pause)
            found.case.kill()
            time.sleep(0.3)
            found.case.start()
        for task in tasks:
            found.until_state(task, "done")
            found.judge(task, "done")


def cut_for_a_moment(program_path: str) -> None:
    """A network cut that is shorter than the lease ends nothing; ends meanwhile are reported afterwards."""
    with far_drill(program_path, f"--lease={LONG_LEASE:g}") as (found, network):
        found.far_agent(network, "a1", "m1=2").start()
        short, long = found.submit_gated(), found.submit_gated()
        for task in (short, long):
            found.until_state(task, "running")
        network.cut()
        found.let_end(short)
        time.sleep(CUT_SECONDS)
        found.case.until(lambda: "1 end" in found.lines(short), "it ends")
        require(found.state(short) == "running", f"its end is told: {found.said()}")
        network.heal()
        found.let_end(long)
        for task in (short, long):
            found.until_state(task, "done")
            found.judge(task, "done")
        with found.case.client() as client:
            told = client.refused("elsewhere", "log", task=str(short))
        require(told["host"] == socket.gethostname() and told["path"].endswith("/output"), told)


def cut_for_long(program_path: str) -> None:
    """Once a host is cut off for the lease its run ends by itself, and only then starts elsewhere; the returned host
    serves."""
    with far_drill(program_path) as (found, network):
        found.far_agent(network, "a1", "m1=1").start()
        task = found.submit(60)
        found.until_state(task, "running")
        found.agent("a2", "m2=1").start()
        network.cut()
        found.case.until(lambda: "2 begin" in found.lines(task), f"it begins on the other: {found.said()}")
        found.until_state(task, "done")
        network.heal()
        found.until_machines(m1="up", m2="up")
        found.judge(task, "lost", "done")
        tasks = [found.submit(2), found.submit(2)]
        for task in tasks:
            found.until_state(task, "done")
            found.judge(task, "done")


def revoked(program_path: str) -> None:
    """An agent whose token is revoked is served no longer; its run ends with the lease, and starts elsewhere."""
    with far_drill(program_path) as (found, network):
        agent = found.far_agent(network, "a1", "m1=1")
        agent.start()
        task = found.submit(60)
        found.until_state(task, "running")
        found.agent("a2", "m2=1").start()
        (found.case.folder / "tokens").write_text("")
        found.case.until(lambda: "refused with status 401" in found.case.said(), "it is refused")
        found.case.until(lambda: "2 begin" in found.lines(task), f"it begins on the other: {found.said()}")
        found.until_state(task, "done")
        found.judge(task, "lost", "done")
        found.grant("a1")  # in the same file, which the agent reads again
        found.until_machines(m1="up", m2="up")


def late_heartbeat(program_path: str) -> None:
    """No task starts on a host with a late heartbeat, and its runs go on if it is back within the lease."""
    with drill(program_path) as found:
        found.case.start()
        agent = found.agent("a1", "m1=2")
        agent.start()
        first = found.submit(12)
        found.until_state(first, "running")
        agent.send(signal.SIGSTOP)
        found.until_machines(m1="silent")
        second = found.submit(0.5)
        time.sleep(1.5)
        require(not found.lines(second), "it has begun")
        agent.send(signal.SIGCONT)
        for task in (first, second):
            found.until_state(task, "done")
            found.judge(task, "done")


CHECKS: list[Callable[[str], None]] = [
    each_step,
    server_restarts,
    cut_for_a_moment,
    cut_for_long,
    revoked,
    late_heartbeat,
]
QUICK = [server_restarts, cut_for_a_moment]


def name_of(check: Callable[[str], None]) -> str:
    return check.__name__.replace("_", " ")


def main() -> int:
    parser = argparse.ArgumentParser(description=(__doc__ or "").splitlines()[0])
    parser.add_argument("--quick", action="store_true", help="the part that tests/quick runs")
    parser.add_argument("--only", default="", help="nothing but the checks whose names have these words")
    program.add_program(parser)
    options = parser.parse_args()
    if options.quick:
        left_out = [name_of(check) for check in CHECKS if check not in QUICK]
        print_skipped(", ".join(left_out), "--quick leaves out what takes longer")
    chosen: dict[str, Check] = {
        name_of(check): partial(check, options.program)
        for check in CHECKS
        if options.only in name_of(check) and (check in QUICK or not options.quick)
    }
    return run_suites(Suite(chosen, AT_A_TIME))


if __name__ == "__main__":
    run_script(main)
