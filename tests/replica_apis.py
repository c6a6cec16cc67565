"""Checks of an API beside each replica's firmd: its clients name all servers, and go on with the leader's."""

from __future__ import annotations

import asyncio
import json
import os
import signal
import socket
import ssl
import subprocess
import sys
import tempfile
import threading
import time
from collections import Counter
from collections.abc import Callable, Iterator, Sequence
from contextlib import closing, contextmanager, suppress
from dataclasses import dataclass, field
from pathlib import Path
from typing import Any

from agent_hosts import GAMES, OF_PEOPLE, Network
from queue_client import Answer, Connection
from api_kit import certificate
from etcd_kit import NAMES, Replicas, cluster, free_ports, until
from front_kit import missing_of
from harness.checks import Skipped, require
from harness.deployed import SERVICE
from replica_chaos import ROSTER
from slurm_kit import slowness

from firm.client.asynchronous import AsyncApiClient
from firm.client.calls import lines, one_task, pages, submit
from firm.client.blocking import ApiClient, ApiError, LostAnswer, get, one

KILLS = 3
SILENT_SECONDS = 6.0  # of a client, after a kill of the leader
SECONDS = 60.0  # for anything else
API = [sys.executable, str(SERVICE / "firm-api")]
FIRMCTL = [sys.executable, str(SERVICE / "firmctl")]
# Requests that a firmd can't answer unless it leads.
READS = ["/v1/firmd", *[f"/v1/tenants/t0/{path}" for path in ("tasks", "machines", "jobs", "events", "state")]]
READS += ["/v1/tenants/t0/firm/tasks", "/v1/tenants/t0/tasks/x1/why"]


@dataclass
class Apis:
    """The APIs of replicas, with one certificate and one file of tokens."""

    replicas: Replicas
    tenant: str = "t0"
    ports: dict[str, int] = field(default_factory=lambda: dict(zip(NAMES, free_ports(len(NAMES)))))
    processes: dict[str, subprocess.Popen[bytes]] = field(default_factory=dict)

    def __post_init__(self) -> None:
        self.folder = self.replicas.folder
        self.certificate, self.key = certificate(self.folder, "server")
        self.tokens = self.folder / "tokens"
        self.token = self.grant("operator", "root")

    def grant(self, role: str, user: str) -> str:
        """Return a new token, which a file of the role's name has too."""
        words = [*API, "token", f"--tokens={self.tokens}", f"--user={user}", f"--role={role}"]
        words.append(f"--tenants={self.tenant}")
        made = subprocess.run(words, capture_output=True, text=True, check=True).stdout.strip()
        (self.folder / role).write_text(made)
        return made

    @property
    def servers(self) -> str:
        return ",".join(f"https://localhost:{self.ports[name]}" for name in NAMES)

    def start(self, *names: str, options: Sequence[str] = ()) -> None:
        for name in names:
            words = [*API, "run", f"--state={self.folder / name}", f"--socket={self.folder / name}.api"]
            words += [f"--lines={self.tenant}={self.replicas.socket(name)}", f"--tls=127.0.0.1:{self.ports[name]}"]
            words += [f"--certificate={self.certificate}", f"--key={self.key}", f"--tokens={self.tokens}", *options]
            with open(self.log(name), "wb") as log:
                self.processes[name] = subprocess.Popen(words, stdin=subprocess.DEVNULL, stderr=log)
        for name in names:
            until(lambda: b"firm-api: ready" in self.log(name).read_bytes(), f"the API of {name} is ready")

    def log(self, name: str) -> Path:
        return self.folder / f"{name}.api.log"

    def kill(self, name: str) -> None:
        self.processes[name].kill()
        self.processes[name].wait()

    def stop(self) -> None:
        for process in self.processes.values():
            process.kill()
        for process in self.processes.values():
            process.wait()

    def client(self, servers: str = "", token: str | None = None) -> ApiClient:
        shown = self.token if token is None else token
        return ApiClient(servers or self.servers, self.tenant, shown, str(self.certificate))

    def ask(self, name: str, method: str, path: str, body: Any = None, token: str = "") -> Answer:
        """Return the answer of one replica's API."""
        context = ssl.create_default_context(cafile=str(self.certificate))
        with closing(Connection(self.ports[name], context)) as connection:
            return connection.ask(method, path, body, Authorization=f"Bearer {token or self.token}")

    def firmctl(self, *words: str, text: str = "") -> subprocess.CompletedProcess[str]:
        server = ["--server", self.servers, "--token", str(self.folder / "operator"), "--ca", str(self.certificate)]
        return subprocess.run([*FIRMCTL, *server, *words], input=text, capture_output=True, text=True)


@contextmanager
def site(program: str) -> Iterator[tuple[Replicas, Apis]]:
    """Start three replicas, each with an API."""
    if lacking := missing_of(["aiohttp", "prometheus_client"]):
        raise Skipped(f"{lacking[0]} is not there")
    with cluster(program, ROSTER) as (_, replicas):
        apis = Apis(replicas)
        replicas.start(*NAMES)
        try:
            apis.start(*NAMES)
            yield replicas, apis
        except Exception as error:
            said = "\n".join(f"{name}: {apis.log(name).read_text()[-800:]}" for name in apis.processes)
            error.add_note(f"the APIs said: {said}")
            raise
        finally:
            apis.stop()


class Sender(threading.Thread):
    """Sends lines by the list of servers, one after another, each once."""

    def __init__(self, apis: Apis, number: int) -> None:
        super().__init__(daemon=True)
        self.number, self._client = number, apis.client()
        self.answered, self.unknown = dict[str, str](), list[str]()
        self.at = list[float]()  # the times of answers
        self.is_over = threading.Event()
        self.fault: Exception | None = None

    def run(self) -> None:
        count = 0
        while not self.is_over.is_set():
            count += 1
            line = f"t0 where x{self.number}-{count}"
            try:
                (self.answered[line],) = self._client.ask(lines("t0", [line]))
                self.at.append(time.monotonic())
            except ApiError as error:
                if "replies" not in error.more:
                    self.fault = error
                    return
                self.unknown.append(line)

    def silence(self, since: float) -> float:
        """Return the longest time without an answer, from then on."""
        times = [since, *[at for at in self.at if at > since], time.monotonic()]
        return max(after - before for before, after in zip(times, times[1:]))


def leader_killed(program: str) -> None:
    """While leaders are killed and stopped, clients that name all servers go on within seconds. Each answered line
    is in the journal once, and none is there twice."""
    with site(program) as (replicas, apis):
        senders = [Sender(apis, number) for number in range(4)]
        for sender in senders:
            sender.start()
        for number in [signal.SIGKILL] * KILLS + [signal.SIGTERM]:
            time.sleep(1)
            leader, began = replicas.leads(), time.monotonic()
            replicas.processes[leader].send_signal(number)
            replicas.processes[leader].wait()
            until(lambda: all(sender.at and sender.at[-1] > began + 1 for sender in senders), "all are answered again")
            silences = [sender.silence(began) for sender in senders]
            print(f"  {number.name}: clients silent for at most {max(silences):.2f} s")
            require(max(silences) < SILENT_SECONDS * slowness(), f"{number.name}: {silences}")
            replicas.revive()
        for sender in senders:
            sender.is_over.set()
            sender.join(SECONDS)
            require(sender.fault is None, f"a client gave up: {sender.fault!r}")
        replicas.settle()
        there = Counter(replicas.journal("a").decode().splitlines())
        answered = {line: reply for sender in senders for line, reply in sender.answered.items()}
        unknown = [line for sender in senders for line in sender.unknown]
        print(f"  {len(answered):,} lines answered, {len(unknown)} without an answer")
        require(len(answered) > 50, "too little")
        require(all(there[line] == 1 for line in answered), [line for line in answered if there[line] != 1][:5])
        require(all(there[line] <= 1 for line in unknown), [line for line in unknown if there[line] > 1][:5])
        numbers = [reply.split()[1] for reply in answered.values()]
        require(len(set(numbers)) == len(numbers) and all(reply.startswith("t0 ") for reply in answered.values()), "")


def followers_refuse(program: str) -> None:
    """A server whose firmd does not lead refuses firm's lines and rows by name, also rows that it knew earlier, and
    shows none in its metrics. No server takes a wrong token."""
    with site(program) as (replicas, apis):
        first = replicas.leads()
        apis.client().ask(lines("t0", ["t0 machine m1 2", "t0 job web 10", "t0 task web x1", "t0 round"]))
        until(lambda: len(apis.ask(first, "GET", "/v1/tenants/t0/tasks").json()["tasks"]) > 0, "it shows the task")
        events = apis.client().stream(get("events", lines=True))
        require(next(events).startswith(b":"), "they begin")
        replicas.kill(first)
        until(lambda: replicas.leader() not in (None, first), "another leads")
        with suppress(LostAnswer):
            for piece in events:
                require(b"data" not in piece or b"reset" in piece, piece)
        leader = replicas.leads()
        replicas.revive()
        for name in NAMES:
            for path in READS:
                if name != leader:
                    apis.ask(name, "GET", path).refused(503, "not-leading")
                elif path != "/v1/tenants/t0/events":
                    until(lambda: is_answered(apis.ask(name, "GET", path)), f"the leader answers {path}")
            body = {"tenant": "t0", "lines": ["t0 where refused"]}
            what_if = {"lines": ["t0 machine m2 2"]}
            if name != leader:
                apis.ask(name, "POST", "/v1/lines", body).refused(503, "not-leading")
                apis.ask(name, "POST", "/v1/tenants/t0/what-if", what_if).refused(503, "not-leading")
                (row,) = apis.ask(name, "GET", "/v1/tenants").good()["tenants"]
                require(not row["firm"]["is_there"] and "running" not in row, row)
            shown = b'firm_tasks{state="running",tenant="t0"}' in apis.ask(name, "GET", "/metrics").body
            require(shown == (name == leader), f"{name}: tasks of firm in its metrics: {shown}")
            for path, more in (("/v1/lines", body), ("/v1/tenants/t0/what-if", what_if)):
                apis.ask(name, "POST", path, more, token="x" * 40).refused(401, "bad-token")
            apis.ask(name, "GET", "/v1/tenants/t0/tasks", token="x" * 40).refused(401, "bad-token")
        began = time.monotonic()
        for token, refusal in (("x" * 40, "bad-token"), ("", "no-token")):
            try:
                apis.client(token=token).ask(lines("t0", ["t0 where refused"]))
                require(False, f"{refusal}: an answer")
            except ApiError as error:
                require(error.name == refusal, error)
        require(time.monotonic() - began < 20, "it tries again with a wrong token")
        require(b"t0 where refused" not in replicas.journal(leader), "a refused line is in the journal")


def is_answered(answer: Answer) -> bool:
    return answer.status == 200 or answer.json()["error"] == "not-built"


def command_line(program: str) -> None:
    """firmctl sends lines, and shows firm's rows, by whichever server leads."""
    with site(program) as (replicas, apis):
        for _ in range(2):
            done = apis.firmctl("send", "-", text="# rows\n\nt0 machine m1 2\nt0 job web 10\nt0 task web a\nt0 round\n")
            replies = done.stdout.splitlines()
            require(done.returncode == 0 and len(replies) == 4 and all(one.startswith("t0 ") for one in replies), done)
            until(lambda: "runs" in apis.firmctl("tasks", "t0").stdout, "the task is shown")
            require("firmd has run" in (done := apis.firmctl("status")).stdout, done)
            replicas.kill(replicas.leads())
        replicas.revive()
        done = apis.firmctl("--json", "send", "-", text="".join(f"t0 where y{number}\n" for number in range(2_500)))
        require(done.returncode == 0 and len(json.loads(done.stdout)["replies"]) == 2_500, done.stderr)
        for text, told in (("", "no line of a tenant"), ("t0 show\nt1 show\n", "each line begins with t0")):
            done = apis.firmctl("send", "-", text=text)
            require(done.returncode in (1, 2) and told in done.stderr, done)


def lost_server(program: str) -> None:
    """A client skips a server whose host does not answer; if an answer to lines is lost it reports that."""
    with site(program) as (replicas, apis), socket.create_server(("127.0.0.1", 0), backlog=0) as mute:
        silent = f"https://localhost:{mute.getsockname()[1]}"  # it takes connections, and sends nothing
        began = time.monotonic()
        client = apis.client(f"{silent},{apis.servers}")
        require(client.ask(lines("t0", ["t0 show"]))[0].startswith("t0 "), "a reply")
        require(time.monotonic() - began < 15 * slowness(), f"it took {time.monotonic() - began:.1f} s")
        for firmctl_or_program in (in_turn, at_once):
            firmctl_or_program(apis)
        leader = replicas.leads()
        os.kill(replicas.processes[leader].pid, signal.SIGSTOP)  # it takes lines, and answers none
        threading.Timer(1, apis.kill, (leader,)).start()
        began, client = time.monotonic(), apis.client(f"https://localhost:{apis.ports[leader]},{apis.servers}")
        try:
            client.ask(lines("t0", ["t0 where lost"]))
            require(False, "an answer of a firmd that sleeps")
        except ApiError as error:
            require(error.more == {"replies": []} and "may have obeyed" in str(error), repr(error))
        require(client.ask(lines("t0", ["t0 where found"]))[0].startswith("t0 "), "it goes on")
        os.kill(replicas.processes[leader].pid, signal.SIGCONT)
        replicas.processes[leader].wait(SECONDS)
        replicas.revive()
        replicas.settle()
        there = Counter(replicas.journal("a").decode().splitlines())
        require(there["t0 where found"] == 1 and there["t0 where lost"] <= 1, there)


# A client of another host, plain or asynchronous, that sends a line.
FAR = """\
import asyncio, sys, time
from firm.client.asynchronous import AsyncApiClient
from firm.client.calls import lines
from firm.client.blocking import ApiClient, ApiError
kind, server, ca = sys.argv[1:]
async def ask():
    async with AsyncApiClient(server, "t0", "token", ca) as client:
        await client.ask(lines("t0", ["t0 show"]))
try:
    asyncio.run(ask()) if kind == "asynchronous" else ApiClient(server, "t0", "token", ca).ask(lines("t0", ["t0 show"]))
except ApiError as error:
    print(error.more)
"""


def lost_host(_: str) -> None:
    """A client whose server's host is gone with its line reports that within half a minute."""
    with Network() as network, tempfile.TemporaryDirectory(prefix="firm-") as name:
        own, key = certificate(Path(name), "server", f"IP:{network.server}")
        context = ssl.SSLContext(ssl.PROTOCOL_TLS_SERVER)
        context.load_cert_chain(own, key)
        with socket.create_server((network.server, 0)) as listening:
            server = f"https://{network.server}:{listening.getsockname()[1]}"
            inside = ["ip", "netns", "exec", network.name, sys.executable, "-c", FAR]
            environment = {**os.environ, "PYTHONPATH": str(SERVICE)}
            clients, taken = list[subprocess.Popen[str]](), list[ssl.SSLSocket]()
            for kind in ("plain", "asynchronous"):
                words = [*inside, kind, server, str(own)]
                clients.append(subprocess.Popen(words, stdout=subprocess.PIPE, text=True, env=environment))
                taken.append(context.wrap_socket(listening.accept()[0], server_side=True))
                require(b"POST /v1/lines" in taken[-1].recv(1000), "a request")
            network.cut()
            began = time.monotonic()
            for client in clients:
                require(client.communicate(timeout=SECONDS)[0] == "{'replies': []}\n", client.returncode)
            seconds = time.monotonic() - began
            print(f"  reported after {seconds:.1f} s")
            require(seconds < 25 * slowness(), f"after {seconds:.1f} s")
            for connection in taken:
                connection.close()


def in_turn(apis: Apis) -> None:
    """A client requests rows by a list whose first server is away."""
    (port,) = free_ports(1)
    client = apis.client(f"https://localhost:{port},{apis.servers}")
    require(client.ask(pages("firm/machines", "rows")) == [], "rows")


def at_once(apis: Apis) -> None:
    """Many simultaneous requests of one asynchronous client use such a list too."""

    async def ask() -> list[Any]:
        (port,) = free_ports(1)
        servers, ca = f"https://localhost:{port},{apis.servers}", str(apis.certificate)
        async with AsyncApiClient(servers, "t0", apis.token, ca) as client:
            sent = [client.ask(lines("t0", [f"t0 where z{number}"])) for number in range(20)]
            return await asyncio.gather(*sent, client.ask(one(get("firm/tasks"))))

    found = asyncio.run(ask())
    require(len(found) == 21 and all(reply[0].startswith("t0 ") for reply in found[:20]), found)


def queue_moves(program: str) -> None:
    """While another host's firmd leads, a queue accepts work, and starts none. After a move of its folder to the
    leader's host it goes on, and so do a running task, and agents and clients that name all servers."""
    with site(program) as (replicas, apis):
        apis.folder.chmod(0o755)
        first, queue = replicas.leads(), [f"--queue=t0={apis.folder / 'queue'}"]
        apis.kill(first)
        apis.start(first, options=queue)
        client = apis.client(token=apis.grant("user", str(GAMES)))
        with agent_of(apis):
            long = submitted(client, "sleep", "25")
            until(lambda: state_of(client, long) == "running", "it runs")
            replicas.kill(first)
            until(lambda: replicas.leader() not in (None, first), "another leads")
            short = submitted(client, "true")
            time.sleep(3)
            require((state_of(client, long), state_of(client, short)) == ("running", "queued"), "what is new waits")
            replicas.revive()
            second = replicas.leads()
            for name in (first, second):
                apis.kill(name)
            apis.start(second, options=queue)
            for task in (long, short):
                until(lambda: state_of(client, task) == "done", f"{task} is done: {apis.log(second).read_text()}")
                found = client.ask(one_task(task))
                require([attempt["outcome"] for attempt in found["attempts"]] == ["done"], found)


@contextmanager
def agent_of(apis: Apis) -> Iterator[None]:
    """Start an agent that names all servers, and takes an account of each host for a person's."""
    folder = apis.folder
    (folder / "login.defs").write_text(f"UID_MIN {GAMES}\n")
    apis.grant("agent", "root")
    words = [sys.executable, "-c", OF_PEOPLE, str(folder / "login.defs"), "run", f"--server={apis.servers}"]
    words += ["--tenant=t0", "--name=a1", "--machines=m1=4", f"--state={folder / 'agent-state'}"]
    words += [f"--token={folder / 'agent'}", f"--ca={apis.certificate}"]
    environment = {**os.environ, "PYTHONPATH": str(SERVICE)}
    with open(folder / "agent.log", "wb") as log, subprocess.Popen(words, stderr=log, env=environment) as agent:
        try:
            yield
        except Exception as error:
            error.add_note(f"the agent said: {(folder / 'agent.log').read_text()[-3000:]}")
            raise
        finally:
            agent.kill()


def submitted(client: ApiClient, *command: str) -> str:
    (made,) = client.ask(submit([{"command": command, "dir": "/"}]))
    return str(made["number"])


def state_of(client: ApiClient, task: str) -> str:
    return str(client.ask(one_task(task))["state"])


CHECKS: list[Callable[[str], None]] = [leader_killed, followers_refuse, command_line, lost_server]
CHECKS += [lost_host, queue_moves]
