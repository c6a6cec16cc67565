"""Check firm-api with agents, by its WebSocket, and with faulty and hostile ones.

usage: tools/run tests/api_agents.py [--quick] [--only WORD] [--program FILE]
Each check prints a line; the last line is 'N passed, M failed', and the exit status is 1 if one failed. It needs the
same packages as tests/api.py. --quick connects fewer agents.
"""

from __future__ import annotations

import argparse
import asyncio
import json
import os
import socket
import sqlite3
import ssl
import sys
import time
from collections.abc import AsyncIterator, Callable, Coroutine, Iterator
from contextlib import asynccontextmanager, closing, contextmanager, suppress
from functools import partial
from pathlib import Path
from typing import Any

import aiohttp
from api_kit import Site, certificate, port_of, site
from firmd_kit import memory_kilobytes
from harness import program
from harness.checks import Check, Skipped, Suite, require, run_script, run_suites
from harness.waiting import slowness
from queue_client import LIMIT_SECONDS, Connection, Json, as_user_does, connected
from queue_kit import ANN, BOB, Setup, claim_place

FRAME = 2**23  # the bound on a frame, in bytes
TOKEN = "aaaaaaaa"
AGENTS, QUICK_AGENTS = 600, 200
SMALL_SECONDS = 3.0
BEAT_SECONDS = 2.0  # for a heartbeat beside a flood, with nothing else to do
RATE, BURST, SLOW_FRAME, ANSWER_TIMES = 2**14, 2**15, 2**12, 16  # of frames in bytes, for agents on other hosts
FLOOD_SECONDS = 5.0
WIDE, CLAIMS = 40_000, 60  # letters of a task's work, each of which takes 12 bytes; simultaneous claims of it


def limited(modules: str, *changes: str) -> str:
    """Return a firm-api with other limits, as a program of Python."""
    lines = ["import sys", f"from firm.{modules}", *changes, "from firm.api import daemon"]
    return "\n".join([*lines, "sys.exit(daemon.main(sys.argv[1:]))", ""])


# It has memory for two long frames, and long time limits for reads.
TIGHT = limited("api import agents, bounded", "bounded.MAX_FRAMES, agents.WRITE_SECONDS = 2**24, 1_000.0")
# It reads little from agents on other hosts, and takes few of their connections.
SLOW = limited(
    "api import agents, bounded",
    f"agents.FRAME_RATE, agents.FRAME_BURST, agents.FRAME_BYTES = {RATE}, {BURST}, 0",
    "bounded.MAX_OF_TRUSTED, bounded.MAX_FRAMES = 4, 2**24",
)
# Its queue accepts few agents, with few machines, and keeps lost ones.
FEW = limited("queue import agents", "agents.MAX_KNOWN, agents.MAX_MACHINES = 2, 5")
# It forgets lost agents at once.
BRIEF = limited("queue import agents", "agents.LOST_SECONDS, agents.MAX_GONE = 0.0, 1")
# It takes few agents, each with little unread.
SMALL = limited(
    "api import agents, handlers",
    "agents.MAX_UNREAD, agents.WRITE_SECONDS, handlers.MAX_AGENTS = 100_000, 1.0, 3",
)


class Socket:
    """An agent's connection."""

    def __init__(self, socket: aiohttp.ClientWebSocketResponse) -> None:
        self.socket = socket
        self.told: list[Json] = []  # since the last answer

    async def ask(self, ask: str, **fields: Any) -> Json:
        """Send a request and return its answer; store the messages before it."""
        await self.socket.send_json({"ask": ask, **fields})
        return await self.answer()

    async def good(self, ask: str, **fields: Any) -> Any:
        answer = await self.ask(ask, **fields)
        require(ask in answer, f"{ask} {fields}: {answer}")
        return answer[ask]

    async def answer(self) -> Json:
        while "tell" in (found := await self.next()):
            self.told.append(found)
        return found

    async def next(self) -> Json:
        found: Json = await self.socket.receive_json(timeout=LIMIT_SECONDS)
        return found

    async def until(self, holds: Callable[[Json], bool]) -> Json:
        """Return the first message for which a condition holds."""
        for words in self.told:
            if holds(words):
                return words
        while not holds(found := await self.next()):
            pass
        return found

    async def firm(self, holds: Callable[[Json], bool]) -> Json:
        return await self.until(lambda words: words.get("tell") == "firm" and holds(words))

    async def register(self, name: str = "a1", **machines: int) -> Json:
        found: Json = await self.good("register", agent=name, id=f"of {name}", machines=machines, runs=[])
        return found

    async def code(self) -> int | None:
        """Return the code with which the server closes the connection; None if it just ends."""
        while True:
            message = await self.socket.receive(LIMIT_SECONDS)
            if message.type != aiohttp.WSMsgType.TEXT:
                return message.data if message.type == aiohttp.WSMsgType.CLOSE else None


@asynccontextmanager
async def agents_of(served: Site) -> AsyncIterator[Callable[[], Coroutine[Any, Any, Socket]]]:
    """Connect agents over the Unix socket."""
    url = f"http://localhost{served.of('agents/connect')}"
    async with aiohttp.ClientSession(connector=aiohttp.UnixConnector(str(served.socket), limit=0)) as session:

        async def connect() -> Socket:
            while True:
                try:
                    return Socket(await session.ws_connect(url, max_msg_size=0))
                except (aiohttp.ClientConnectionError, OSError):  # too many at once: it tries again, as agents do
                    await asyncio.sleep(0.05)

        yield connect


def raw(served: Site) -> socket.socket:
    """Return an agent's raw connection, which nobody reads, once there is room."""
    keys = "Upgrade: websocket\r\nConnection: Upgrade\r\nSec-WebSocket-Version: 13"
    key = "Sec-WebSocket-Key: AAAAAAAAAAAAAAAAAAAAAA=="
    head = f"GET {served.of('agents/connect')} HTTP/1.1\r\nHost: localhost\r\n{keys}\r\n{key}\r\n\r\n"
    ends = time.monotonic() + LIMIT_SECONDS
    while True:
        found = connected(served.socket)
        found.sendall(head.encode())
        answer = found.recv(1_000)
        if answer.startswith(b"HTTP/1.1 101 "):
            return found
        found.close()
        require(answer.startswith(b"HTTP/1.1 429 ") and time.monotonic() < ends, f"it is no WebSocket: {answer!r}")
        time.sleep(0.05)


def frame(text: bytes) -> bytes:
    """Return a frame with this text."""
    return b"\x81\xfe" + len(text).to_bytes(2) + bytes(4) + text


def flood(connection: socket.socket, text: bytes) -> None:
    """Send a text again and again, until the connection ends."""
    with suppress(OSError):
        while True:
            connection.sendall(text)


def running(check: Callable[[Site], Coroutine[Any, Any, None]], *options: str) -> Callable[[Setup], None]:
    """Return a check that plays an agent's side against a site."""

    def run(setup: Setup) -> None:
        with site(setup, *options) as served:
            asyncio.run(check(served))
            require("Traceback" not in served.said(), served.said())

    run.__doc__ = check.__doc__
    return run


# The protocol.


async def life(served: Site) -> None:
    """An agent learns its machines' placements and their changes, requests work, and reports its ends."""
    served.submit("x", "y")
    async with agents_of(served) as connect:
        agent = await connect()
        granted = await agent.register(m1=2)
        require(granted["lease"] == 600 and granted["end"] == granted["keep"] == [], granted)
        placed = await agent.firm(lambda words: bool(words["tasks"]))
        require(placed["machines"] == {"m1": 2} and placed["state"] == granted["state"], placed)
        (row,) = placed["tasks"]
        require((row["task"], row["job"], row["weight"], row["machine"]) == ("1", "root", 10, "m1"), row)
        place = {"task": "1", "line": row["line"], "machine": "m1", "state": placed["state"]}
        found = await agent.good("claim", token=TOKEN, run=1, **place)
        require(found["work"]["command"] == ["x", "y"], found)
        require(await agent.good("told", events=[{"token": TOKEN, "event": "running", "pid": 1, "time": 1.0}]) == 1, "")
        served.case.until(lambda: bool(served.get(served.of("tasks/1"))["state"] == "running"), "it runs")
        other = served.submit("z", job="heavy")
        await agent.firm(lambda words: {row["task"] for row in words["tasks"]} == {"1", str(other)})
        served.ask("POST", served.of("drain"), {"machines": ["m1"]}).good()
        left = await agent.firm(lambda words: not words["machines"])
        require([(row["task"], row["machine"]) for row in left["tasks"]] == [("1", None)], left)
        end = {"token": TOKEN, "event": "ended", "status": 0, "asked": True, "why": "drained", "seconds": 1.0}
        require(await agent.good("told", events=[end]) == 1, "its end")
        await agent.firm(lambda words: not words["tasks"])
        served.case.until(
            lambda: bool(served.get(served.of("tasks/1"))["attempts"][0]["outcome"] == "drained"), "its end"
        )
        served.case.firmd.kill()
        await agent.firm(lambda words: "state" in words and words["state"] is None)
        served.case.firmd.start()
        await agent.firm(lambda words: bool(words["state"] == placed["state"]))


async def copied(served: Site) -> None:
    """An agent with another name and a copied state ends no run of the original, and is told to end its copies."""
    served.submit("x")
    async with agents_of(served) as connect:
        agent, copy = await connect(), await connect()
        await agent.register(m1=1)
        placed = await agent.firm(lambda words: bool(words["tasks"]))
        place = {"task": "1", "line": placed["tasks"][0]["line"], "machine": "m1", "state": placed["state"]}
        await agent.good("claim", token=TOKEN, run=1, **place)
        runs = [{"token": TOKEN, "task": "1", "run": 1, "machine": "m1", "state": "running"}]
        found = await copy.good("register", agent="a2", id="of a1", machines={"m2": 1}, runs=runs)
        await copy.good("told", events=[{"token": TOKEN, "event": "lost"}])
        require(await copy.good("kept", tokens=[TOKEN]) == 0, "its run is kept")
        require(served.get(served.of("tasks/1"))["attempts"][0]["outcome"] is None, "its run has ended")
        require(found["end"] == [TOKEN], found)
        await agent.good("told", events=[{"token": TOKEN, "event": "ended", "status": 0, "asked": False}])
        require(served.get(served.of("tasks/1"))["state"] == "done", "its own end")


async def late_claim(served: Site) -> None:
    """An agent with a late heartbeat gets no work though its claims come; it gets the work after a heartbeat."""
    served.submit("x")
    async with agents_of(served) as connect:
        agent = await connect()
        await agent.register(m1=1)
        placed = await agent.firm(lambda words: bool(words["tasks"]))
        place = {"task": "1", "line": placed["tasks"][0]["line"], "machine": "m1", "state": placed["state"]}
        while served.get(served.of("agents"))["agents"][0]["state"] != "silent":
            await asyncio.sleep(0.1)
        found = await agent.good("claim", token=TOKEN, run=1, **place)
        require(found.get("wait") == "the heartbeat of a1 is late", found)
        async with asyncio.timeout(LIMIT_SECONDS):
            while "work" not in found:
                await agent.good("beat", runs=[])
                rows = [words for words in agent.told if words["tell"] == "firm" and words["tasks"]]
                lines = [words["tasks"][0]["line"] for words in rows]  # one more if its machine was taken from firm
                place["line"] = lines[-1] if lines else place["line"]
                found = await agent.good("claim", token=TOKEN, run=1, **place)
                await asyncio.sleep(0.1)


async def long_host(served: Site) -> None:
    """A host's own name, of any length, is shown beside the names that firm takes; a name that is not text is
    refused."""
    host = "node-" + "0" * 40 + ".hall-7.cluster.example.org"
    async with agents_of(served) as connect:
        agent = await connect()
        row: Json = {"agent": "a1", "id": "x", "machines": {"m1": 1}, "runs": []}
        for bad in (5, ["x"], "x\0", "x" * 2_000):
            found = await agent.ask("register", **row, host=bad)
            require(found.get("error") == "bad-field" and "host" in found["text"], f"{bad!r:.20}: {found}")
        await agent.good("register", **row, host=host)
        for kind in ("agents", "machines"):
            require([one["host"] for one in served.get(served.of(kind))[kind]] == [host], kind)
        require(f"a1 on {host}: registered with m1" in served.said(), served.said())


async def order(served: Site) -> None:
    """Answers come in the order of the requests, and other messages in between; an invalid request is refused."""
    async with agents_of(served) as connect:
        agent = await connect()
        for text, name in (
            ("x", "bad-request"),
            ("[]", "bad-request"),
            ("[" * 100_000, "bad-request"),
            ("{}", "bad-request"),
            ('{"ask": ["beat"]}', "bad-request"),
            ('{"ask": "submit-all", "submissions": []}', "bad-request"),
            ('{"ask": "cordon", "machines": ["m1"]}', "bad-request"),
            ('{"ask": "beat", "runs": []}', "not-registered"),
            ('{"ask": "register", "agent": "a1", "id": "x", "machines": 1, "runs": []}', "bad-field"),
            ('{"ask": "told", "events": [' + "{}," * 250_000 + "{}]}", "too-large"),
        ):
            await agent.socket.send_str(text)
            found = await agent.answer()
            require(found["error"] == name and found["text"], f"{text[:50]}: {found}")
        await agent.register(m1=1)
        claim = {"ask": "claim", "token": TOKEN, "run": 1, "task": "9", "line": 1, "machine": "m1", "state": "x"}
        for _ in range(100):
            await agent.socket.send_json(claim)
            await agent.socket.send_json({"ask": "beat"})
        answers = [next(iter(await agent.answer())) for _ in range(200)]
        require(answers == ["claim", "beat"] * 100, answers)
        require(sum(words["tell"] == "lease" for words in agent.told) == 100, f"{len(agent.told)} are told")


async def takes_over(served: Site) -> None:
    """An agent that returns after a kill of firm-api, with its runs, goes on; one with a copied state is refused
    while the original is connected."""
    served.submit("x")
    async with agents_of(served) as connect:
        agent, copy = await connect(), await connect()
        await agent.register(m1=1)
        found = await copy.ask("register", agent="a1", id="of a1", machines={"m1": 1}, runs=[])
        require(found["error"] == "agent-taken", found)
        place = await asyncio.to_thread(claim_place, served.case, "1")
        await agent.good("claim", token=TOKEN, run=1, **place)
        served.restart()
        require(await agent.code() is None, "it ends with firm-api")
        agent = await connect()
        run = {"token": TOKEN, "task": "1", "run": 1, "machine": "m1", "state": "running"}
        found = await agent.good("register", agent="a1", id="of a1", machines={"m1": 1}, runs=[run])
        require(found["end"] == [], found)
        require("work" in await agent.good("claim", token=TOKEN, run=1, **place), "the same answer")


# Rights.


def rights(setup: Setup) -> None:
    """Operators and tokens of agents may connect, each to its own tenants. An agent's token gives no other right,
    and ends with its line."""
    with site(setup) as served:
        found = served.ask("GET", served.of("agents/connect"))
        found.refused(400, "bad-request")
        for path, status, name in (
            ("/v1/tenants/other/agents/connect", 404, "no-such-tenant"),
            (served.of("agents/connect?x=1"), 400, "bad-field"),
        ):
            served.ask("GET", path).refused(status, name)
        served.ask("GET", served.of("agents/connect"), Origin="http://evil.example").refused(403, "wrong-host")
        if not os.geteuid():
            status = as_user_does(ANN, lambda: served.ask("GET", served.of("agents/connect")).status)
            require(status == 403, f"a user: {status}")
        server, key = certificate(served.case.folder, "server")
        tenant = served.case.tenant
        tokens = {role: served.token("root", role, tenant) for role in ("agent", "operator", "user")}
        tokens["foreign"] = served.token("root", "agent", "other")
        served.restart("--tls=127.0.0.1:0", f"--certificate={server}", f"--key={key}", f"--tokens={served.tokens}")
        asyncio.run(by_tokens(served, tokens, ssl.create_default_context(cafile=str(server))))


async def by_tokens(served: Site, tokens: dict[str, str], context: ssl.SSLContext) -> None:
    top = f"https://localhost:{port_of(served)}"
    async with aiohttp.ClientSession(connector=aiohttp.TCPConnector(ssl=context)) as session:

        async def connect(role: str) -> Socket:
            headers = {"Authorization": f"Bearer {tokens[role]}"}
            return Socket(await session.ws_connect(f"{top}{served.of('agents/connect')}", headers=headers))

        for role, status in (("user", 403), ("foreign", 404)):
            try:
                await connect(role)
                require(False, f"{role} may connect")
            except aiohttp.WSServerHandshakeError as error:
                require(error.status == status, f"{role}: {error.status}")
        agent, mute, other = await connect("agent"), await connect("agent"), await connect("operator")
        await agent.register("a1", m1=1)
        await mute.register("a3", m3=1)
        await other.register("a2", m2=1)
        headers = {"Authorization": f"Bearer {tokens['agent']}"}
        for method, path, status in (
            ("GET", served.of("tasks"), 404),
            ("GET", served.of("agents"), 404),
            ("POST", served.of("cancel"), 404),
            ("GET", "/metrics", 403),
            ("GET", "/v1/tenants", 200),
        ):
            async with session.request(
                method, f"{top}{path}", headers=headers, json={} if method == "POST" else None
            ) as got:
                require(got.status == status, f"{method} {path}: {got.status}")
                require(status != 200 or await got.json() == {"tenants": []}, "no tenant")
        lines = served.tokens.read_text().splitlines()
        served.tokens.write_text("".join(f"{line}\n" for line in lines if '"agent"' not in line))
        for ask in (partial(agent.good, "beat"), partial(mute.register, "a3", m3=1)):
            ends = time.monotonic() + LIMIT_SECONDS
            with suppress(ConnectionError, aiohttp.ClientError, TypeError):
                while True:
                    require(time.monotonic() < ends, f"its token is revoked: {ask}")
                    await ask()
                    await asyncio.sleep(0.1)
        await other.good("beat")


def outputs(setup: Setup) -> None:
    """An agent by TLS can name no file of the server's, whoever owns it: its outputs are on its own host."""
    if os.geteuid():
        raise Skipped("only root can be several users")
    with site(setup) as served:
        secret = served.case.folder / "secret"
        secret.write_text("of another")
        secret.chmod(0o600)
        os.chown(secret, BOB, BOB)
        server, key = certificate(served.case.folder, "server")
        token = served.token(str(BOB), "agent", served.case.tenant)
        served.restart("--tls=127.0.0.1:0", f"--certificate={server}", f"--key={key}", f"--tokens={served.tokens}")
        require(as_user_does(ANN, partial(served.submit, "x")) == 1, "its number")
        asyncio.run(names_file(served, token, ssl.create_default_context(cafile=str(server)), str(secret)))
        found = as_user_does(ANN, partial(status_and_text, served, "tasks/1/log"))
        require(found[0] == 409 and json.loads(found[1])["host"] == "a1", found)


def status_and_text(served: Site, path: str) -> tuple[int, str]:
    answer = served.ask("GET", served.of(path))
    return answer.status, answer.body.decode()


async def names_file(served: Site, token: str, context: ssl.SSLContext, path: str) -> None:
    """Run a task as an agent, with this output."""
    url = f"https://localhost:{port_of(served)}{served.of('agents/connect')}"
    async with aiohttp.ClientSession(connector=aiohttp.TCPConnector(ssl=context)) as session:
        agent = Socket(await session.ws_connect(url, headers={"Authorization": f"Bearer {token}"}))
        await agent.register("a1", m1=1)
        place = await asyncio.to_thread(claim_place, served.case, "1")
        require("work" in await agent.good("claim", token=TOKEN, run=1, **place), "it is begun")
        event = {"token": TOKEN, "time": time.time(), "event": "running", "pid": 1, "output": path, "host": None}
        require(await agent.good("told", events=[event]) == 1, "it is heard")


# Bounds.


async def frames(served: Site) -> None:
    """A frame of 8 MiB is read; a longer one, one that claims to be, and one of bytes end the connection."""
    async with agents_of(served) as connect:
        agent = await connect()
        await agent.socket.send_str("x" * FRAME)
        require((await agent.answer())["error"] == "bad-request", "it is read")
        before = memory_kilobytes(served.pid)
        with suppress(ConnectionError, aiohttp.ClientError):
            await agent.socket.send_str("x" * (FRAME + 1))
        require(await agent.code() in (None, 1009), "a longer frame")
        for head in (b"\x81\xff" + (2**62).to_bytes(8) + bytes(4), b"\x01\xff" + (2**24).to_bytes(8) + bytes(4)):
            with raw(served) as connection:
                connection.sendall(head)
                require(connection.recv(1_000)[:2] in (b"", b"\x88\x02"), "the head of a longer frame")
        agent = await connect()
        await agent.socket.send_bytes(b"{}")
        require(await agent.code() == 1003, "bytes")
        require(memory_kilobytes(served.pid) - before < 4 * FRAME // 1_024, "its memory")
        agent = await connect()
        await agent.register(m1=1)


async def pings(served: Site) -> None:
    """Endless pings, whose answers nobody reads, take little memory, and hold nobody up."""
    async with agents_of(served) as connect:
        agent = await connect()
        await agent.register(m1=1)
        before = memory_kilobytes(served.pid)
        with raw(served) as connection:
            flooding = asyncio.create_task(asyncio.to_thread(flood, connection, b"\x89\x80aaaa" * 10_000))
            took, slow = list[float](), await asyncio.to_thread(slowness)
            for _ in range(50):
                began = time.monotonic()
                await agent.good("beat")
                took.append(time.monotonic() - began)
                await asyncio.sleep(0.05)
            late, slow = sorted(took)[len(took) * 9 // 10], max(slow, await asyncio.to_thread(slowness))
            told = f"a beat took {late:.2f} s, nine times of ten; a program takes {slow:.1f} times its time"
            require(late < BEAT_SECONDS * slow, told)
            more = memory_kilobytes(served.pid) - before
            connection.shutdown(socket.SHUT_RDWR)
            await flooding
        require(more < 20_000, f"it took {more:,} kB")


async def mute(served: Site) -> None:
    """An agent that sends nothing, or only pings, is closed after the lease; one that sends heartbeats stays."""
    async with agents_of(served) as connect:
        mute, pings, beats = await connect(), await connect(), await connect()
        await beats.register(m1=1)
        began = time.monotonic()
        while not mute.socket.closed or not pings.socket.closed:
            require(time.monotonic() - began < 10 * SMALL_SECONDS, "they are not closed")
            await beats.good("beat")
            with suppress(ConnectionError, TimeoutError):
                await pings.socket.ping()
                await pings.socket.receive(0.1)
            with suppress(TimeoutError):
                await mute.socket.receive(0.1)
        require(mute.socket.close_code == pings.socket.close_code == 1008, mute.socket.close_code)
        await beats.good("beat")


def unfinished(setup: Setup) -> None:
    """Unfinished frames take memory up to a bound: the connections with most of it are closed, and no other."""
    with setup.case("--lease=600") as case:
        case.words = [sys.executable, "-c", TIGHT, "run"]
        asyncio.run(beside_unfinished(Site(case.start())))


async def beside_unfinished(served: Site) -> None:
    async with agents_of(served) as connect:
        agent = await connect()
        await agent.register(m1=1)
        held = [raw(served) for _ in range(4)]
        for connection in held:
            with suppress(OSError):
                # A fragment, after which a ping is no end of the message.
                connection.sendall(b"\x01\xff" + (7 * 2**20).to_bytes(8) + bytes(4) + b"x" * (7 * 2**20))
        require(answers_ping(held[-1]), "the last one is closed")  # by then the server has read all frames
        ended = sum(not answers_ping(connection) for connection in held)
        require(ended == 2, f"{ended} of 4 are closed")
        await agent.good("beat")
        for connection in held:
            connection.close()


def answers_ping(connection: socket.socket) -> bool:
    """Return whether the server still answers on a connection."""
    with suppress(OSError):
        connection.sendall(b"\x89\x80" + bytes(4))
        return connection.recv(100)[:1] == b"\x8a"
    return False


def small(setup: Setup) -> None:
    """A further agent is refused past the bound, and has room once one has left. One that leaves too much unread is
    closed, and the others are served."""
    with site(setup) as served:
        served.case.words = [sys.executable, "-c", SMALL, "run"]
        served.restart()
        asyncio.run(in_small(served))
        require("Traceback" not in served.said(), served.said())


async def with_room(connect: Callable[[], Coroutine[Any, Any, Socket]]) -> Socket:
    """Connect an agent once there is room: the server notices a departure a little later."""
    ends = time.monotonic() + LIMIT_SECONDS
    while True:
        try:
            return await connect()
        except aiohttp.WSServerHandshakeError as error:
            require(error.status == 429 and time.monotonic() < ends, f"no room: {error}")
        await asyncio.sleep(0.05)


async def in_small(served: Site) -> None:
    async with agents_of(served) as connect:
        held = [await connect() for _ in range(3)]
        try:
            await connect()
            require(False, "one too many")
        except aiohttp.WSServerHandshakeError as error:
            require(error.status == 429, error)
        await held.pop().socket.close()
        held.append(await with_room(connect))
        await held.pop().socket.close()
        await held[0].register(m1=1)
        with raw(served) as connection:
            await asyncio.to_thread(flood, connection, frame(b'{"ask": "%b"}' % (b"x" * 300)))
        await held[0].good("beat")


@contextmanager
def over_tls(setup: Setup, text: str, role: str = "agent") -> Iterator[tuple[Site, ssl.SSLContext, str]]:
    """Start a site of this program with TLS; return it, its context and a token of its tenant."""
    with site(setup) as served:
        server, key = certificate(served.case.folder, "server")
        token = served.token(str(BOB), role, served.case.tenant)
        served.case.words = [sys.executable, "-c", text, "run"]
        served.restart("--tls=127.0.0.1:0", f"--certificate={server}", f"--key={key}", f"--tokens={served.tokens}")
        yield served, ssl.create_default_context(cafile=str(server)), token
        require("Traceback" not in served.said(), served.said())


def rates(setup: Setup) -> None:
    """Agents of other hosts that send without end are read at a bounded rate, and unread frames take memory up to a
    bound; an agent of this host sends heartbeats meanwhile."""
    with over_tls(setup, SLOW) as (served, context, token):
        asyncio.run(beside_fast(served, context, token))


async def beside_fast(served: Site, context: ssl.SSLContext, token: str) -> None:
    url = f"https://localhost:{port_of(served)}{served.of('agents/connect')}"
    async with aiohttp.ClientSession(connector=aiohttp.TCPConnector(ssl=context)) as session, agents_of(served) as here:

        async def connect() -> Socket:
            return Socket(await session.ws_connect(url, headers={"Authorization": f"Bearer {token}"}, compress=0))

        agent = await here()
        await agent.register(m1=1)
        fast, answered, began = [await connect() for _ in range(3)], 0, time.monotonic()

        async def flood(one: Socket) -> None:
            nonlocal answered
            while True:
                await one.ask("beat", runs=["x" * SLOW_FRAME])
                answered += 1

        flooding = [asyncio.create_task(flood(one)) for one in fast]
        while (seconds := time.monotonic() - began) < FLOOD_SECONDS:
            await agent.good("beat")
            await asyncio.sleep(0.05)
        for task in flooding:
            task.cancel()
        await asyncio.gather(*flooding, return_exceptions=True)
        most = (BURST + RATE * seconds) / SLOW_FRAME + len(fast)
        require(0 < answered <= most, f"{answered} frames in {seconds:.1f} s, and not {most:.0f} at most")
        large = [await connect() for _ in range(4)]
        for one in large:  # the first one is read, and the others wait
            await one.socket.send_str("x" * (7 * 2**20))
        closing_codes = [asyncio.create_task(one.code()) for one in large]
        done, left = await asyncio.wait(closing_codes, timeout=LIMIT_SECONDS, return_when=asyncio.FIRST_COMPLETED)
        require(bool(done), "none is closed")
        await agent.good("beat")
        for waiting in left:
            waiting.cancel()


def wide_work(setup: Setup) -> None:
    """Claims of work with many letters are answered at a bounded rate to agents of other hosts, whose heartbeats go
    on. Unread answers take memory up to a bound."""
    with over_tls(setup, SLOW) as (served, context, token):
        asyncio.run(claims_wide_work(served, context, token))
    with site(setup) as served:
        served.case.words = [sys.executable, "-c", TIGHT, "run"]
        served.restart()
        asyncio.run(leaves_unread(served))


async def claimed_widely(served: Site, agent: Socket) -> Json:
    served.submit("x", "\U0010fffe" * WIDE)
    await agent.register(m1=1)
    place = await asyncio.to_thread(claim_place, served.case, "1")
    require("work" in await agent.good("claim", token=TOKEN, run=1, **place), "it is given no work")
    return {"ask": "claim", "token": TOKEN, "run": 1, **place}


async def claims_wide_work(served: Site, context: ssl.SSLContext, token: str) -> None:
    url = f"https://localhost:{port_of(served)}{served.of('agents/connect')}"
    async with aiohttp.ClientSession(connector=aiohttp.TCPConnector(ssl=context)) as session:
        made = partial(session.ws_connect, url, headers={"Authorization": f"Bearer {token}"}, max_msg_size=0)
        agent, other = Socket(await made()), Socket(await made())
        claim, began, answered = await claimed_widely(served, agent), time.monotonic(), 0
        await other.register("a2", m2=1)
        for _ in range(CLAIMS):
            await agent.socket.send_json(claim)
        while (seconds := time.monotonic() - began) < FLOOD_SECONDS:
            await asyncio.wait_for(other.good("beat"), LIMIT_SECONDS)
            with suppress(TimeoutError, asyncio.TimeoutError):
                await asyncio.wait_for(agent.answer(), 0.05)
                answered += 1
        most = ANSWER_TIMES * (BURST + RATE * seconds) / (12 * WIDE) + 2
        require(answered <= most, f"{answered} answers in {seconds:.1f} s, and not {most:.0f} at most")


async def leaves_unread(served: Site) -> None:
    async with agents_of(served) as connect:
        agent, other = await connect(), await connect()
        claim = await claimed_widely(served, agent)
        await other.register("a2", m2=1)
        await asyncio.gather(*(agent.socket.send_json(claim) for _ in range(CLAIMS)))
        while (state := served.get(served.of("agents"))["agents"][0]["state"]) != "away":
            require(state == "up", f"{state}: a connection that leaves much unread is closed")
            await other.good("beat")
            await asyncio.sleep(0.1)


def connections(setup: Setup) -> None:
    """An agent's token has a bounded number of connections, and keeps nobody else out."""
    with over_tls(setup, SLOW) as (served, context, token):
        port, headers = port_of(served), {"Authorization": f"Bearer {token}"}
        held = [Connection(port, context) for _ in range(5)]
        found = [one.ask("GET", "/v1/status", **headers).status for one in held]
        require(found == [200] * 4 + [429], found)
        served.submit("x")
        held.pop(0).close()
        served.case.until(lambda: held[-1].ask("GET", "/v1/status", **headers).status == 200, "a further one has room")
        for one in held:
            one.close()


def names(setup: Setup) -> None:
    """A connection has one agent. A queue accepts a bounded number of agents, with a bounded number of machines;
    lost ones make room for others."""
    with site(setup, f"--lease={SMALL_SECONDS}", "--margin=0.1") as served:
        served.case.words = [sys.executable, "-c", FEW, "run"]
        served.restart()
        asyncio.run(of_few(served))
        served.case.words = [sys.executable, "-c", BRIEF, "run"]
        served.restart()
        served.case.until(lambda: served.get(served.of("agents"))["agents"] == [], "lost agents are forgotten")
        asyncio.run(renames_machines(served))
        require("Traceback" not in served.said(), served.said())


async def of_few(served: Site) -> None:
    async with agents_of(served) as connect:
        first, second, third = await connect(), await connect(), await connect()
        await first.register("a1", m1=1)
        found = await first.ask("register", agent="a9", id="x", machines={}, runs=[])
        require((found["error"], found.get("field")) == ("bad-field", "agent"), found)
        await second.register("a2", m2=1)
        found = await third.ask("register", agent="a3", id="x", machines={}, runs=[])
        require(found["error"] == "too-many-agents", found)
        machines = {f"m2{place}": 1 for place in range(5)}
        found = await second.ask("register", agent="a2", id="of a2", machines=machines, runs=[])
        require(found["error"] == "too-many-machines", found)
        await second.register("a2", m2=1, m3=1)
        await first.socket.close()
        ends = time.monotonic() + LIMIT_SECONDS
        while "error" in (found := await third.ask("register", agent="a3", id="x", machines={"m9": 1}, runs=[])):
            require(found["error"] == "too-many-agents" and time.monotonic() < ends, found)
            await second.good("beat")
            await asyncio.sleep(0.2)
        rows = {row["agent"]: row["machines"] for row in served.get(served.of("agents"))["agents"]}
        require(rows == {"a2": ["m2", "m3"], "a3": ["m9"]}, rows)


async def renames_machines(served: Site) -> None:
    """Former machines of an agent are forgotten past a bound."""
    async with agents_of(served) as connect:
        agent = await connect()
        for place in range(6):
            await agent.register("a1", **{f"n{place}": 1})
        marks = served.case.state / "queue.db"
        ends = time.monotonic() + LIMIT_SECONDS
        while (count := number_of_rows(marks, "mark")) > 1:
            require(time.monotonic() < ends, f"{count} are left")
            await agent.good("beat")
            await asyncio.sleep(0.1)


def number_of_rows(path: Path, table: str) -> int:
    with closing(sqlite3.connect(f"file:{path}?mode=ro", uri=True)) as database:
        ((count,),) = database.execute(f"SELECT COUNT(*) FROM {table}")
    return int(count)


def many(setup: Setup) -> None:
    """Hundreds of agents at once register, send heartbeats and get their tasks, beside users who are served."""
    count = QUICK_AGENTS if setup.is_quick else AGENTS
    with site(setup) as served:
        asyncio.run(at_once(served, count))
        require("Traceback" not in served.said(), served.said())


async def at_once(served: Site, count: int) -> None:
    async with agents_of(served) as connect:
        agents = await asyncio.gather(*(connect() for _ in range(count)))
        machines = [f"m{number}" for number in range(count)]
        works = (agent.register(f"a{place}", **{name: 1}) for place, (agent, name) in enumerate(zip(agents, machines)))
        await asyncio.gather(*works)
        served.submit("x", array=[1, count])
        placed = await asyncio.gather(*(agent.firm(lambda words: bool(words["tasks"])) for agent in agents))
        names = sorted(int(row["task"].partition("-")[2]) for words in placed for row in words["tasks"])
        require(names == [*range(1, count + 1)], f"{len(names)} tasks are placed")
        began = time.monotonic()
        await asyncio.gather(*(agent.good("beat") for agent in agents))
        print(f"    {count} beats at once took {time.monotonic() - began:.2f} s", flush=True)
        rows = served.get(served.of("agents"))["agents"]
        require(len(rows) == count and all(row["state"] == "up" for row in rows), "they are up")


def main() -> int:
    parser = argparse.ArgumentParser(description=(__doc__ or "").splitlines()[0])
    parser.add_argument("--quick", action="store_true", help="connect fewer agents")
    parser.add_argument("--only", metavar="WORD", default="", help="only checks whose names have this word")
    program.add_program(parser)
    given = parser.parse_args()
    setup = Setup(given.program, given.quick, 0)
    checks: dict[str, Callable[[Setup], None]] = {
        "life": running(life),
        "copied": running(copied),
        "late claim": running(late_claim, f"--lease={3 * SMALL_SECONDS}"),  # silent, but not too long
        "long host": running(long_host),
        "order": running(order),
        "takes over": running(takes_over),
        "rights": rights,
        "outputs": outputs,
        "frames": running(frames),
        "pings": running(pings),
        "mute": running(mute, f"--lease={SMALL_SECONDS}"),
        "unfinished": unfinished,
        "small": small,
        "rates": rates,
        "wide work": wide_work,
        "connections": connections,
        "names": names,
        "many": many,
    }
    found: dict[str, Check] = {name: partial(check, setup) for name, check in checks.items() if given.only in name}
    return run_suites(Suite(found))


if __name__ == "__main__":
    run_script(main)
