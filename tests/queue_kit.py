"""The kit for checks of the queue: firm-api with a queue over a real firmd, and stand-ins for agents."""

from __future__ import annotations

import asyncio
import itertools
import json
import secrets
import signal
import sqlite3
import subprocess
import sys
import tempfile
import threading
import time
from collections.abc import Callable, Coroutine, Iterator
from contextlib import closing, contextmanager, suppress
from dataclasses import dataclass, field
from pathlib import Path
from typing import Any, TypeVar

import aiohttp
from agent_kit import remove
from firmd_kit import Client as FirmdClient, Daemon
from harness.checks import Missed, require
from harness.deployed import SERVICE, FirmdSockets, Firm
from harness.waiting import pause_since
from queue_client import LIMIT_SECONDS, Answer, Client, Closed, Connection, Json, Place

FIRM_API = [sys.executable, str(SERVICE / "firm-api")]
# A queue whose commits, counts of commits, reads of all rows, or all accesses to the database fail while files of these
# names exist; such reads take long. While `hangs` exists, commits hang.
FAILING = """\
import os, sqlite3, sys, time
from firm.api import daemon
from firm.queue import queries
from firm.queue.commit_count import Reach
from firm.queue.store import Store
commit, read, load, folder = Store._commit, Store._read, queries.load, sys.argv.pop(1)
keep = Reach.keep
def require_no(sign):
    if os.path.exists(os.path.join(folder, sign)):
        raise sqlite3.OperationalError("disk I/O error")
def failing_commit(store, changes):
    while os.path.exists(os.path.join(folder, "hangs")):
        time.sleep(0.05)
    require_no("commits")
    commit(store, changes)
def failing_load(connection):
    require_no("reads")
    found = load(connection)
    time.sleep(0.3)
    return found
def failing_read(store, *query):
    require_no("looks")
    return read(store, *query)
def failing_keep(reach, number):
    if os.path.exists(os.path.join(folder, "counts")):
        raise OSError(28, "No space left on device")
    keep(reach, number)
Store._commit, Store._read, queries.load = failing_commit, failing_read, failing_load
Reach.keep = failing_keep
sys.exit(daemon.main(sys.argv[1:]))
"""
ANN, BOB = 61_101, 61_102  # users without names
FOREVER = ["forever"]  # the command of a task that never ends by itself
HEADING = "tenant,nodes,arcs,life,spread,churn\n"
LOOK_SECONDS = 0.02
ASK_AGAIN_SECONDS = 0.2  # at most, by a stand-in for an agent
MAX_RSS, CPU_SECONDS = 3 * 2**20, 0.25  # of each process of a stand-in for an agent
FAST = Path("/dev/shm")
Result = TypeVar("Result")


@dataclass
class Process:
    """A process that an agent has started."""

    task: str
    token: str
    machine: str
    seconds: float | None  # until it ends by itself; None: never
    status: int
    began: float
    ended: float | None = None
    is_asked: bool = False


class World:
    """The simulated processes, which outlive agents. A command gives a process's duration and status: SECONDS
    STATUS."""

    def __init__(self) -> None:
        self.processes: list[Process] = []
        self.by_token: dict[str, Process] = {}
        self.is_held = False  # no process ends by itself
        self.leases: dict[str, float] = {}  # by agent, in CLOCK_BOOTTIME
        self.owners: dict[str, str] = {}  # agents, by token

    def begin(self, agent: str, token: str, task: str, machine: str, command: list[str]) -> None:
        require(token not in self.by_token, f"{task}: begun twice with one token")
        seconds = None if command[0] == "forever" else float(command[0].replace("true", "0.01"))
        status = int(command[1]) if len(command) > 1 else 0
        process = Process(task, token, machine, seconds, status, time.monotonic())
        self.processes.append(process)
        self.by_token[token], self.owners[token] = process, agent

    def look(self) -> None:
        """End the processes whose time or whose agent's lease is over."""
        now, boot = time.monotonic(), time.clock_gettime(time.CLOCK_BOOTTIME)
        for process in list(self.by_token.values()):  # the agents' thread may add some meanwhile
            if process.ended is not None:
                continue
            over = now - (boot - self.leases.get(self.owners[process.token], boot))
            is_endless = process.seconds is None or self.is_held
            by_itself = now + 1 if is_endless else process.began + (process.seconds or 0)
            if min(by_itself, over) <= now:
                process.ended, process.is_asked = min(by_itself, over), over < by_itself

    def end(self, token: str) -> None:
        """End a process at its agent's request, if it has not ended."""
        self.look()
        process = self.by_token[token]
        if process.ended is None:
            process.ended, process.is_asked = time.monotonic(), True

    def running(self) -> dict[str, int]:
        """Return the number of processes of each task."""
        self.look()
        found: dict[str, int] = {}
        for process in list(self.by_token.values()):
            if process.ended is None:
                found[process.task] = found.get(process.task, 0) + 1
        return found

    def require_single(self) -> None:
        """Require that no task ever had two processes at a time."""
        self.look()
        by_task: dict[str, list[Process]] = {}
        for process in list(self.processes):
            by_task.setdefault(process.task, []).append(process)
        for task, processes in by_task.items():
            for first, second in zip(processes, processes[1:]):
                holds = first.ended is not None and first.ended <= second.began
                require(holds, f"{task} ran twice at a time: {first} {second}")

    def ends(self, task: str) -> list[int]:
        """Return the statuses with which a task's processes ended by themselves."""
        self.look()
        return [one.status for one in self.processes if one.task == task and one.ended and not one.is_asked]


@dataclass
class Disk:
    """The state of an agent that outlasts a kill."""

    id: str = field(default_factory=lambda: f"alpha-{secrets.token_hex(4)}")
    runs: dict[str, Json] = field(default_factory=dict)  # by token
    events: list[Json] = field(default_factory=list)  # unacknowledged ones
    kept: set[str] = field(default_factory=set)
    last_run: int = 0


class StandIn:
    """An agent by the API, whose processes exist only in the simulated world."""

    def __init__(self, case: Case, name: str, machines: dict[str, int], disk: Disk | None = None) -> None:
        self.case, self.name, self.machines = case, name, machines
        self.disk = disk or Disk()
        self.world = case.world
        self.firm = Firm(case.doors, lambda heard: None)
        self.refusals: list[Json] = []  # of registrations
        self.voids: list[Json] = []
        self.claims = 0
        self.ends: list[str] = []  # of its connections
        self.lease = self.beat = 1.0
        self.is_mute = False  # it sends no more heartbeats
        self._due: dict[str, float] = {}  # the time of the next claim, by task
        self._claiming: set[str] = set()
        self._task: asyncio.Future[None] | None = None

    def start(self) -> StandIn:
        self._task = self.case.begin(self._serve())
        return self

    def kill(self) -> None:
        """Kill the agent as SIGKILL does: its processes go on."""
        if self._task is not None:
            self.case.cancel(self._task)
            self._task = None

    async def _serve(self) -> None:
        async with asyncio.TaskGroup() as group:
            group.create_task(self.firm.watch())
            group.create_task(self._talk_for_ever())

    async def _talk_for_ever(self) -> None:
        url = f"http://localhost/v1/tenants/{self.case.tenant}/agents/connect"
        while True:
            self.owed: list[asyncio.Future[Json]] = []
            try:
                async with aiohttp.ClientSession(connector=aiohttp.UnixConnector(str(self.case.api))) as session:
                    self.link = await session.ws_connect(url, max_msg_size=0)
                    await self._work_on_link()
            except (OSError, aiohttp.ClientError):  # it is not there
                pass
            finally:
                self._claiming.clear()
            await asyncio.sleep(0.05)

    async def _work_on_link(self) -> None:
        try:
            async with asyncio.TaskGroup() as group:
                group.create_task(self._read())
                group.create_task(self._work())
        except* (OSError, EOFError, Closed, aiohttp.ClientError) as errors:
            self.ends.append(repr(errors.exceptions))

    async def _read(self) -> None:
        async for message in self.link:
            answer = json.loads(message.data)
            if "tell" not in answer:
                self.owed.pop(0).set_result(answer)
            elif answer["tell"] == "again":
                self._due.clear()
            elif answer["tell"] == "end":
                for token in answer["tokens"]:
                    self._end(token, "told")
            elif answer["tell"] == "keep":
                self.disk.kept.update(answer["tokens"])
                await self._send({"ask": "kept", "tokens": answer["tokens"]})
        raise EOFError

    async def _send(self, request: Json) -> asyncio.Future[Json]:
        """Send a request. Return the future of its answer."""
        future: asyncio.Future[Json] = asyncio.get_running_loop().create_future()
        self.owed.append(future)
        await self.link.send_json(request)
        return future

    async def _ask(self, request: Json) -> Json:
        return await (await self._send(request))

    async def _register(self) -> None:
        while True:
            runs = [{"token": token, **run} for token, run in self.disk.runs.items()]
            asked = time.clock_gettime(time.CLOCK_BOOTTIME)
            machines = {"agent": self.name, "id": self.disk.id, "machines": self.machines, "runs": runs}
            answer = await self._ask({"ask": "register", **machines})
            if "error" not in answer:
                break
            self.refusals.append(answer)
            await asyncio.sleep(0.1)
        found = answer["register"]
        self.lease, self.beat = found["lease"], found["beat"]
        self.world.leases[self.name] = asked + self.lease
        for token in found["end"]:
            self._end(token, "told")
        if found["keep"]:
            self.disk.kept.update(found["keep"])
            await self._ask({"ask": "kept", "tokens": found["keep"]})

    async def _work(self) -> None:
        await self._register()
        next_beat = time.monotonic() + self.beat
        async with asyncio.TaskGroup() as group:
            while True:
                if time.monotonic() >= next_beat and not self.is_mute:
                    next_beat = time.monotonic() + self.beat
                    group.create_task(self._beat())
                self._look_at_runs()
                if self.disk.events:
                    await self._tell()
                self._claim_new(group)
                with suppress(TimeoutError):
                    async with asyncio.timeout(LOOK_SECONDS):
                        await self.firm.changed.wait()
                self.firm.changed.clear()

    async def _beat(self) -> None:
        asked = time.clock_gettime(time.CLOCK_BOOTTIME)
        open_runs = [token for token, run in self.disk.runs.items() if run["state"] != "ended"]
        answer = await self._ask({"ask": "beat", "runs": open_runs})
        if "error" in answer:
            raise Closed(answer["error"])
        self.world.leases[self.name] = asked + answer["beat"]["lease"]

    def _claim_new(self, group: asyncio.TaskGroup) -> None:
        book = self.firm.book
        if book is None:
            return
        busy = {run["task"] for run in self.disk.runs.values() if run["state"] != "ended"} | self._claiming
        for name, row in book.tasks.items():
            if row.machine in self.machines and name not in busy and self._due.get(name, 0) <= time.monotonic():
                self._claiming.add(name)
                place = {"line": row.line, "state": self.firm.state, "machine": row.machine}
                group.create_task(self._claim(name, place))

    async def _claim(self, name: str, place: Json) -> None:
        token = secrets.token_hex(8)
        self.disk.last_run += 1
        run = {"task": name, "run": self.disk.last_run, "machine": place["machine"], "state": "claiming"}
        run |= {"line": place["line"], "firm": place["state"]}
        self.disk.runs[token] = run
        self.claims += 1
        answer = await self._ask({"ask": "claim", "token": token, "task": name, **place, "run": run["run"]})
        found = answer.get("claim", {"wait": answer.get("text")})
        if "work" in found:
            run["state"] = "running"
            work = found["work"]
            self.world.begin(self.name, token, work["task"], place["machine"], work["command"])
            self.disk.events.append({"token": token, "event": "running", "time": time.time(), "pid": 1})
            self.firm.changed.set()
        else:
            del self.disk.runs[token]
            self._due[name] = time.monotonic() + min(found.get("seconds", ASK_AGAIN_SECONDS), ASK_AGAIN_SECONDS)
            if "void" in found:
                self.voids.append({"task": name, **found})
        self._claiming.discard(name)

    def _look_at_runs(self) -> None:
        """End the runs that firm no longer wants, and record the ends."""
        self.world.look()
        book = self.firm.book
        for token, run in list(self.disk.runs.items()):
            if run["state"] == "claiming" and run["task"] not in self._claiming:  # of an earlier connection
                require(token not in self.world.by_token, "a process without its claim")
                run["state"] = "ended"
                self.disk.events.append({"token": token, "event": "void", "time": time.time()})
            if run["state"] != "running":
                continue
            row = book.tasks.get(run["task"]) if book is not None else None
            is_same = row is not None and (row.line, self.firm.state) == (run["line"], run["firm"])
            is_there = is_same and row is not None and row.machine == run["machine"]
            if book is not None and token not in self.disk.kept and not is_there:
                self._end(token, "moved" if is_same else "removed")
            process = self.world.by_token[token]
            if process.ended is not None and run["state"] == "running":
                self._note_end(token, "lease" if process.is_asked else None)

    def _end(self, token: str, why: str) -> None:
        run = self.disk.runs.get(token)
        if run is not None and run["state"] == "running":
            self.world.end(token)
            self._note_end(token, why if self.world.by_token[token].is_asked else None)

    def _note_end(self, token: str, why: str | None) -> None:
        self.disk.runs[token]["state"] = "ended"
        process = self.world.by_token[token]
        seconds = max(0.0, (process.ended or 0) - process.began)
        end = {"token": token, "event": "ended", "time": time.time(), "status": process.status, "seconds": seconds}
        used = {"max_rss": MAX_RSS, "cpu_seconds": CPU_SECONDS}
        self.disk.events.append({**end, **used, "asked": process.is_asked, "why": why})

    async def _tell(self) -> None:
        events = self.disk.events[:1000]
        answer = await self._ask({"ask": "told", "events": events})
        if "error" in answer:
            if answer["error"] != "not-written":
                raise Closed(str(answer))
            await asyncio.sleep(ASK_AGAIN_SECONDS)
            return
        del self.disk.events[: answer["told"]]
        for event in events:
            if event["event"] != "running":
                del self.disk.runs[event["token"]]


@dataclass
class Size:
    """The size of the tenant's arena, and the costs of preempting and of sharing a machine."""

    nodes: int = 4096
    arcs: int = 65_536
    churn: int = 1_000_000
    spread: int = 0

    def row(self, tenant: str) -> str:
        """Return the tenant's row of a roster."""
        return f"{tenant},{self.nodes},{self.arcs},1000000000,{self.spread},{self.churn}"


class Firmd:
    """A firmd that many cases share; each case has a separate tenant, and none disturbs the firmd."""

    def __init__(self, program: str) -> None:
        self.folder = Path(tempfile.mkdtemp(prefix="firm-queue-", dir=FAST))
        (self.folder / "roster.csv").write_text(f"{HEADING}{Size(2, 0).row('none')}\n")
        self.daemon = Daemon(self.folder, program)
        self._numbers = itertools.count(1)

    def __enter__(self) -> Firmd:
        self.daemon.start()
        return self

    def __exit__(self, *_: object) -> None:
        self.daemon.kill()
        remove(self.folder)

    def admit(self, size: Size) -> str:
        """Admit a tenant; return its name."""
        name = f"t{next(self._numbers)}"
        self._say(f"+ admit {size.row(name)}", f"+ ok admitted {name}")
        return name

    def retire(self, name: str) -> None:
        self._say(f"+ retire {name}", f"+ ok retired {name}")

    def _say(self, line: str, wanted: str) -> None:
        with FirmdClient(self.daemon.operator) as operator:
            reply = operator.ask(line.encode()).decode()
        require(reply == wanted, f"{line}: {reply}")


class Case:
    """A folder with a queue and stand-ins for agents, over a separate firmd or a tenant of a shared one."""

    def __init__(
        self, program: str, *options: str, size: Size = Size(), folder: Path = FAST, others: Firmd | None = None
    ) -> None:
        self.folder, self._others = Path(tempfile.mkdtemp(prefix="firm-queue-", dir=folder)), others
        (self.folder / "roster.csv").write_text(f"{HEADING}{size.row('alpha')}\n")
        self.firmd = Daemon(self.folder, program) if others is None else others.daemon
        self.tenant = "alpha" if others is None else others.admit(size)
        self.api, self.state = self.folder / "api", self.folder / "queue-state"
        self.place = Place(self.api, self.tenant)
        self.doors = FirmdSockets(self.tenant, self.firmd.state / "view", self.firmd.any)
        self.options = list(options)
        self.words = [*FIRM_API, "run"]
        self.has_queue = True
        self.world = World()
        self.agents: list[StandIn] = []
        self.queue: subprocess.Popen[bytes] | None = None
        self.log = open(self.folder / "log", "wb")
        self.loop = asyncio.new_event_loop()
        self.loop.set_exception_handler(lambda *_: None)  # connections of killed processes fail
        self.thread = threading.Thread(target=self.loop.run_forever, daemon=True)
        self.thread.start()
        if others is None:
            self.firmd.start()

    def __enter__(self) -> Case:
        return self

    def __exit__(self, *_: object) -> None:
        for agent in self.agents:
            agent.kill()
        self.kill()
        if self._others is not None:
            self._others.retire(self.tenant)
        elif self.firmd.process is not None:
            self.firmd.kill()
        self.loop.call_soon_threadsafe(self.loop.stop)
        self.thread.join()
        self.log.close()
        remove(self.folder)

    def begin(self, work: Coroutine[Any, Any, None]) -> asyncio.Future[None]:
        async def start() -> asyncio.Task[None]:
            return asyncio.get_running_loop().create_task(work)

        return asyncio.run_coroutine_threadsafe(start(), self.loop).result(LIMIT_SECONDS)

    def cancel(self, task: asyncio.Future[None]) -> None:
        async def stop() -> None:
            task.cancel()
            with suppress(asyncio.CancelledError):
                await task

        asyncio.run_coroutine_threadsafe(stop(), self.loop).result(LIMIT_SECONDS)

    def agent(self, name: str, disk: Disk | None = None, /, **machines: int) -> StandIn:
        agent = StandIn(self, name, machines, disk).start()
        self.agents.append(agent)
        return agent

    # The queue

    def start_failing(self, late: float | None = None) -> Case:
        """Start a queue whose disk fails during `failure`, and optionally delays commits by this many seconds."""
        first = "" if late is None else f"from firm.queue import store\nstore.LATE_SECONDS = {late}\n"
        self.words = [sys.executable, "-c", first + FAILING, str(self.folder), "run"]
        return self.start()

    @contextmanager
    def failure(self, what: str = "commits") -> Iterator[None]:
        sign = self.folder / what
        sign.touch()
        try:
            yield
        finally:
            sign.unlink()

    def spawn(self) -> subprocess.Popen[bytes]:
        places = {"lines": self.doors.lines}
        if self.has_queue:
            places |= {"queue": self.state}
        words = [f"--{name}={self.tenant}={path}" for name, path in places.items()]
        words = [*self.words, f"--state={self.doors.view.parent}", f"--socket={self.api}", *words, *self.options]
        null = subprocess.DEVNULL
        return subprocess.Popen(words, stdin=null, stdout=null, stderr=self.log)

    def start(self) -> Case:
        before, began = self.said().count("api: ready\n"), time.monotonic()
        self.queue = process = self.spawn()
        while self.said().count("api: ready\n") == before:
            require(process.poll() is None, f"it ended with status {process.poll()}: {self.said()}")
            require(time.monotonic() - began < LIMIT_SECONDS, "the queue is not ready in time")
            pause_since(began)
        return self

    def said(self) -> str:
        return (self.folder / "log").read_text()

    def is_away(self, *texts: str) -> None:
        """Require that firm-api serves, and gives the reason why it has no queue."""
        at = len(self.said())
        self.start()
        said = self.said()[at:]
        require(all(text in said for text in texts) and "have not ended" not in said, said)
        self.stop()

    def refuses(self, status: int, *texts: str) -> None:
        """Require that firm-api ends at its start, with this status and these words."""
        at = len(self.said())
        got = self.spawn().wait(LIMIT_SECONDS)
        said = self.said()[at:]
        require(got == status and all(text in said for text in texts), f"status {got}: {said}")

    def kill(self) -> None:
        if self.queue is not None:
            self.queue.kill()
            self.queue.wait()

    def stop(self) -> None:
        if self.queue is None:
            raise Missed("no queue was started")
        self.queue.send_signal(signal.SIGTERM)
        status = self.queue.wait(LIMIT_SECONDS)
        require(status == 0 and "Traceback" not in self.said(), f"status {status}: {self.said()}")

    def client(self) -> Client:
        return Client(self.place)

    def until(self, holds: Callable[[], object], what: str, seconds: float = LIMIT_SECONDS) -> None:
        began = time.monotonic()
        while not holds():
            require(time.monotonic() - began < seconds, f"{what}, in time; the queue said:\n{self.said()[-3000:]}")
            pause_since(began)

    def until_state(self, client: Client, task: str, state: str) -> None:
        seen = [""]

        def is_so() -> bool:
            seen[0] = client.state(task)
            return seen[0] == state

        try:
            self.until(is_so, "")
        except Missed as missed:
            raise Missed(f"{task} is {seen[0]}, not {state}{missed}") from None

    def firm_rows(self, kind: str) -> list[Json]:
        """Return firm's rows: tasks, machines or jobs."""
        answers = list[Answer]()

        def is_known() -> bool:
            with closing(Connection(self.api)) as connection:
                answers.append(connection.ask("GET", f"/v1/tenants/{self.tenant}/firm/{kind}?limit=1000"))
            return answers[-1].status != 503  # from an API that does not know firm's rows yet

        self.until(is_known, "firm's rows are known")
        return list(answers[-1].good()["rows"])

    def firm_tasks(self) -> list[str]:
        """Return the names of the tasks in firm."""
        return [row["task"] for row in self.firm_rows("tasks")]

    def rows(self, words: str) -> list[Any]:
        """Return the rows of a query to the queue's database, by another program than the queue."""
        with closing(sqlite3.connect(f"file:{self.state / 'queue.db'}?mode=ro", uri=True)) as connection:
            return connection.execute(words).fetchall()


@dataclass(frozen=True)
class Setup:
    program: str
    is_quick: bool
    seed: int
    firmd: Firmd | None = None

    def case(self, *options: str, size: Size = Size()) -> Case:
        """Return a case that does not disturb firmd; it shares a firmd with others if one is running."""
        return Case(self.program, *options, size=size, others=self.firmd)

    def case_alone(self, *options: str, size: Size = Size()) -> Case:
        return Case(self.program, *options, size=size)


def claim_place(case: Case, task: str | None = None) -> Json:
    """Return the first task that firm has placed, or the named one, in the form of a claim."""
    found: list[Json] = []

    def is_placed() -> bool:
        rows = case.firm_rows("tasks")
        found[:] = [row for row in rows if row["machine"] is not None and task in (None, row["task"])]
        return bool(found)

    case.until(is_placed, "it is placed")
    state = (case.firmd.state / "id").read_text().strip()
    return {"task": found[0]["task"], "line": found[0]["line"], "machine": found[0]["machine"], "state": state}


def numbers(names: list[str]) -> Iterator[int]:
    for name in names:
        yield int(name.partition("-")[0])
