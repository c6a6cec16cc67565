"""A stand-in for the queue beside agents: it accepts them, gives out work, and records their messages."""

from __future__ import annotations

import asyncio
import json
import os
import signal
import subprocess
import threading
import time
from collections.abc import Callable, Coroutine, Sequence
from contextlib import suppress
from dataclasses import dataclass, field
from math import inf
from pathlib import Path
from typing import Any, TypeVar

from aiohttp import WSMsgType, web

from agent_kit import AGENT, LIMIT_SECONDS, WAITS_FOR_GO, Case, Row, StandIn
from harness.checks import require
from harness.deployed import Refused, agent_events, reports

Result = TypeVar("Result")
MARGIN_SECONDS = 5.0  # added to the lease and the grace before a run counts as lost, on a busy host
LONG_SECONDS = 120.0  # a lease that does not end, on a busy host too
BOTH = "m1=4,m2=4"  # machines of one agent


def clock() -> float:
    return time.clock_gettime(time.CLOCK_BOOTTIME)


@dataclass
class Attempt:
    """A run that has its work."""

    task: str
    machine: str
    agent: str
    events: list[Row] = field(default_factory=list)
    is_open: bool = True
    over: float = inf  # the time at which it counts as lost, as its agent does not know it


@dataclass
class Registered:
    """An agent, by its name."""

    id: str
    machines: dict[str, int]
    answered: float
    socket: web.WebSocketResponse
    told: Row | None = None  # firm's rows as last sent


class QueueStandIn:
    """The stand-in; its knowledge outlasts its `close`, as a database does."""

    def __init__(self, folder: Path, firmd: StandIn, lease: float) -> None:
        self.path, self.firmd, self.lease, self.grace = folder / "queue", firmd, lease, 0.5
        self.work: dict[str, Row] = {}
        self.attempts: dict[str, Attempt] = {}
        self.agents: dict[str, Registered] = {}
        self.kept: list[str] = []
        self.told: list[Row] = []  # all events, with repetitions
        self.is_deaf = False  # to events
        self.is_full = False  # its disk
        self.is_hung = False  # also: the existing connections get no further answers
        self.mute: set[web.WebSocketResponse] = set()  # silent connections, on which it neither reads nor writes
        self.registrations = self.unanswered = 0
        self.runs: list[Row] = []  # of the last registration
        self.refuses: Callable[[Row], bool] = lambda event: False  # as a later queue may, beside invalid events
        self.says: dict[str, Any] = {}  # by request, in place of its answer; fields of an object beside others
        self.loop = asyncio.new_event_loop()
        self.loop.set_exception_handler(lambda *_: None)  # agents are killed, and so their connections fail
        self.thread = threading.Thread(target=self.loop.run_forever, daemon=True)
        self.thread.start()
        self.sockets: dict[web.WebSocketResponse, asyncio.BaseTransport] = {}
        firmd.on_change = self._begin_to_tell_rows
        self.open()

    def within(self, work: Coroutine[Any, Any, Result]) -> Result:
        return asyncio.run_coroutine_threadsafe(work, self.loop).result(LIMIT_SECONDS)

    def open(self) -> None:
        async def serve() -> web.AppRunner:
            app = web.Application()
            app.router.add_get("/v1/tenants/alpha/agents/connect", self._client)
            runner = web.AppRunner(app)
            await runner.setup()
            await web.UnixSite(runner, str(self.path)).start()
            return runner

        self.path.unlink(missing_ok=True)
        self.runner = self.within(serve())

    def close(self) -> None:
        async def close() -> None:
            for transport in self.sockets.values():
                transport.close()
            self.sockets.clear()
            for site in list(self.runner.sites):
                await site.stop()

        self.within(close())

    def end(self) -> None:
        """Close it for good."""

        async def cancel() -> None:
            others = asyncio.all_tasks() - {asyncio.current_task()}
            for task in others:
                task.cancel()
            await asyncio.gather(*others, return_exceptions=True)

        self.close()
        self.within(cancel())
        self.loop.call_soon_threadsafe(self.loop.stop)
        self.thread.join()
        self.loop.close()

    def tell(self, agent: str, **words: object) -> None:
        """Send an unsolicited message to an agent."""

        self.tell_text(agent, json.dumps(words))

    def tell_text(self, agent: str, text: str) -> None:
        self.within(self.agents[agent].socket.send_str(text))

    def _begin_to_tell_rows(self) -> None:
        self.loop.call_soon_threadsafe(self._tell_rows)

    def _tell_rows(self) -> None:
        """Send agents firm's rows, if they have changed."""
        for name, agent in [*self.agents.items()]:
            tasks = {attempt.task for attempt in self.attempts.values() if attempt.agent == name and attempt.is_open}
            rows = self.firmd.rows(agent.machines, tasks)
            if rows != agent.told:
                agent.told = rows
                self._send(agent.socket, {"tell": "firm", **rows})

    def _send(self, socket: web.WebSocketResponse, words: Row) -> None:
        """Send a frame; all are sent in the order of these calls."""

        async def send() -> None:
            with suppress(ConnectionError):
                await socket.send_str(json.dumps(words))

        self._last = asyncio.get_running_loop().create_task(send())

    def token(self, task: str) -> str:
        """Return the token of a task's last attempt."""
        return [token for token, attempt in [*self.attempts.items()] if attempt.task == task][-1]

    def ends(self, task: str) -> list[Row]:
        """Return the ends of a task's attempts."""
        return [event for event in self.events(task) if event["event"] != "running"]

    def events(self, task: str) -> list[Row]:
        """Return the events of a task. The loop may add attempts and events meanwhile."""
        attempts = [attempt for attempt in [*self.attempts.values()] if attempt.task == task]
        return [event for attempt in attempts for event in [*attempt.events]]

    def lose_silent(self) -> None:
        """Declare the runs of long silent agents lost, and drain their machines."""

        async def lose() -> None:  # in the loop, the only thread that changes attempts
            self._lose_silent()

        self.within(lose())

    def _lose_silent(self) -> None:
        for name, agent in [*self.agents.items()]:
            if clock() > agent.answered + self.lease + self.grace + MARGIN_SECONDS:
                del self.agents[name]
                for attempt in self.attempts.values():
                    attempt.is_open &= attempt.agent != name
                for machine in agent.machines:
                    self.firmd.say(f"drain {machine}", "ok evicted 0")

    def _lose_unknown(self) -> None:
        """Declare runs lost that their own agent does not know, once they can no longer run."""
        for attempt in self.attempts.values():
            attempt.is_open &= clock() < attempt.over

    async def _client(self, request: web.Request) -> web.WebSocketResponse:
        socket, name = web.WebSocketResponse(max_msg_size=1 << 23), ""
        await socket.prepare(request)
        if request.transport is not None:
            self.sockets[socket] = request.transport
        async for message in socket:
            require(message.type == WSMsgType.TEXT, message)
            if socket in self.mute:
                continue
            asked = json.loads(message.data)
            name = asked.get("agent", name)
            answer = self._answer(asked, name, socket)
            if answer is not None:
                self._send(socket, self._said(asked["ask"], answer))
            self._tell_rows()
        self.sockets.pop(socket, None)
        return socket

    def _said(self, ask: str, answer: Row) -> Row:
        """Return an answer as a queue of another version, or a faulty one, might give it."""
        if ask not in self.says or ask not in answer:
            return answer
        said, is_part = self.says[ask], ask in ("register", "beat")
        return {ask: {**answer[ask], **said} if is_part and isinstance(said, dict) else said}

    def _answer(self, request: Row, name: str, socket: web.WebSocketResponse) -> Row | None:
        match request["ask"]:
            case "register":
                return self._register(request, name, socket)
            case "beat" if name in self.agents:
                self.agents[name].answered = clock()
                if self.is_hung:
                    self._send(socket, {"tell": "lease", "lease": self.lease})
                    return None
                return {"beat": {"lease": self.lease}}
            case ask if self.is_hung:
                self.unanswered += ask == "claim"
                return None
            case "claim" if name in self.agents:
                return {"claim": self._claim(request, name)}
            case "told" | "kept" if self.is_full:
                return {"error": "not-written", "text": "disk I/O error"}
            case "told":
                return None if self.is_deaf else self._told(request)
            case "kept":
                self.kept += request["tokens"]
                return {"kept": len(request["tokens"])}
        return {"error": "not-registered", "text": "register first"}

    def _register(self, request: Row, name: str, socket: web.WebSocketResponse) -> Row:
        self.registrations += 1
        for other, agent in [*self.agents.items()]:
            taken = sorted(agent.machines.keys() & request["machines"].keys())
            if other != name and taken:
                told = {"text": f"the agent {other} has the machine {taken[0]}", "machine": taken[0], "agent": other}
                return {"error": "machine-taken", **told}
        for machine, slots in request["machines"].items():
            if machine not in self.firmd.books.tenants["alpha"].machines:
                self.firmd.say(f"machine {machine} {slots}")
        self.agents[name] = Registered(request["id"], request["machines"], clock(), socket)
        ends = []
        for run in request["runs"]:
            attempt = self.attempts.get(run["token"])
            if run["state"] in ("starting", "running") and (attempt is None or not attempt.is_open):
                ends.append(run["token"])
        self.runs = request["runs"]
        named = {run["token"] for run in self.runs}
        over = clock() + self.lease + self.grace + MARGIN_SECONDS
        for token, attempt in self.attempts.items():
            if attempt.agent == name:
                attempt.over = inf if token in named else min(attempt.over, over)
        return {"register": {"lease": self.lease, "beat": self.lease / 3, "end": ends, "keep": [], "state": None}}

    def _claim(self, request: Row, name: str) -> Row:
        task, token = request["task"], request["token"]
        self._lose_unknown()
        if token not in self.attempts:
            if task not in self.work:
                return {"void": "the queue has no such task"}
            if any(attempt.is_open and attempt.task == task for attempt in self.attempts.values()):
                return {"wait": "another run is open", "seconds": 0.3}
            self.attempts[token] = Attempt(task, request["machine"], name)
        return {"work": self.work[task]}

    def _told(self, request: Row) -> Row:
        events: list[Row] = request["events"]
        try:
            reports.told_of(request)
        except Refused as refusal:
            return refusal.answer()
        if any(map(self.refuses, events)):
            return {"error": "bad-field", "text": "events: one is not taken"}
        for event in events:
            self.told.append(event)
            attempt = self.attempts.get(event["token"])
            if attempt is None or not attempt.is_open:
                continue
            attempt.events.append(event)
            attempt.is_open = event["event"] == "running"
            if event["event"] == "ended" and (not event["asked"] or event["why"] == "timeout"):
                if attempt.task in self.firmd.books.tenants["alpha"].tasks:  # a check may have said so
                    self.firmd.say(f"done {attempt.task}")
                self.work.pop(attempt.task, None)
        return {"told": len(events)}


class Cluster(Case):
    """Agents of one tenant, with a state each in a folder of their name, and the queue."""

    def __init__(self, *tasks: str, lease: float = LONG_SECONDS) -> None:
        super().__init__()
        self.queue = QueueStandIn(self.folder, self.firmd, lease)
        self.agents: dict[str, subprocess.Popen[str]] = {}
        self.firmd.say("job j 10")
        for task in tasks:
            self.submit(task, WAITS_FOR_GO)

    def __enter__(self) -> Cluster:
        return self

    def __exit__(self, *_: object) -> None:
        for agent in self.agents.values():
            agent.send_signal(signal.SIGCONT)
            agent.kill()
            agent.wait()
        self.close()
        self.queue.end()

    def submit(self, task: str, command: list[str] | str, is_new: bool = True, **more: object) -> None:
        """Add a task to the queue and to firm; with `is_new` false, only replace the command of a task."""
        words = ["/bin/sh", "-c", command] if isinstance(command, str) else command
        work = {"task": task, "job": "j", "attempt": 1, "command": words, "dir": str(self.folder), "env": {}}
        work |= {"output": None, "time": None, "grace": 0.5, "memory": None, "processors": None}
        self.queue.work[task] = {**work, **more}
        if is_new:
            self.firmd.say(f"task j {task}")

    def start_agent(
        self,
        name: str = "a1",
        machines: str = "m1=4",
        before: list[str] | None = None,
        queue: Path = Path("queue"),
        more: Sequence[str] = (),
    ) -> None:
        options = [f"--server=unix:{self.folder / queue}", "--tenant=alpha", f"--state={self.folder / name}"]
        path = {**os.environ, "PATH": f"{self.folder}:{os.environ['PATH']}"}
        words = [*(before or AGENT), "run", *options, f"--name={name}", f"--machines={machines}", *more]
        self.agents[name] = subprocess.Popen(words, stdin=subprocess.DEVNULL, stderr=self.log, env=path, text=True)

    def start_registered(
        self, name: str = "a1", machines: str = "m1=4", before: list[str] | None = None, more: Sequence[str] = ()
    ) -> None:
        before_it = self.queue.registrations
        self.start_agent(name, machines, before, more=more)
        self.until(lambda: name in self.queue.agents and self.queue.registrations > before_it, f"{name} is registered")

    def status(self, name: str = "a1") -> int:
        """Return an agent's exit status, once it ends."""
        return self.agents[name].wait(LIMIT_SECONDS)

    def kill_agent(self, name: str) -> None:
        self.agents[name].kill()
        self.agents[name].wait()

    def until_told(self, event: str, task: str) -> Row:
        """Wait until the queue has an event of a task; return the last one."""
        found: list[Row] = []

        def is_told() -> bool:
            found[:] = [told for told in self.queue.events(task) if told["event"] == event]
            return bool(found)

        self.until(is_told, f"{event} of {task} is told")
        return found[-1]

    def until_silent(self, name: str) -> None:
        """Wait until the queue declares an agent's runs lost."""

        def is_lost() -> bool:
            self.queue.lose_silent()
            return name not in self.queue.agents

        self.until(is_lost, f"{name} is silent for too long")

    def until_acknowledged(self, name: str) -> None:
        """Wait until an agent has recorded the queue's acknowledgement of all its events."""

        def is_written() -> bool:
            rows = self.rows(f"{name}/events.jsonl")
            cursor = json.loads(self.text(f"{name}/{agent_events.CURSOR}") or '{"place": 0}')["place"]
            told = [place for place, row in enumerate(rows, 1) if row["event"] in agent_events.TOLD]
            return bool(rows and cursor == max(told, default=cursor))

        self.until(is_written, f"{name} has written what is acknowledged")
