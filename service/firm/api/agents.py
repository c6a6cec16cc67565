"""Agents, each with a WebSocket: a text frame is a JSON object, a request, an answer, or what the queue tells.

Answers come in the order of the requests. What is told, an object with `tell`, comes between them, whatever they wait
for. `queue/requests.py` has the words.
"""

from __future__ import annotations

import asyncio
import json
from collections.abc import Awaitable, Callable
from contextlib import suppress
from functools import partial
from typing import TYPE_CHECKING

from aiohttp import WSCloseCode, WSMessage, WSMsgType, web

from ..common.faults import Faults
from ..common.fields import Json, object_of
from ..common.peers import Peer
from ..common.users import User
from ..common.refused import Refused
from ..queue.service import Queue
from .bounded import WRITE_SECONDS
from .queues import refusal_of_error

if TYPE_CHECKING:  # `handlers` imports this module
    from .handlers import ApiCall

MAX_AGENTS = 1_024  # of a tenant
MAX_FRAME, LARGE_FRAME = 2**23, 2**16  # bytes; past which no other request is read until this one is answered
MAX_UNREAD = 2**22  # bytes of what is told
MAX_UNANSWERED = 256  # requests
# Of a tenant's agents on other hosts: bytes of small frames, and of large ones, that are read in a second; a burst of
# them; and bytes for which each frame counts beside its text. Answers to claims may have so many times as many bytes.
FRAME_RATE, FRAME_BURST, FRAME_BYTES, ANSWER_TIMES = 2**21, 2**23, 2**12, 16
MAX_CLAIMS = 256  # of a tenant's agents on other hosts, that are answered at a time
CLOSE_SECONDS = 1.0
ASKS = {"status", "register", "beat", "claim", "told", "kept"}


class FrameRate:
    """Frames of a tenant's agents, one after the other, at a bounded rate: whatever these send, the agents of other
    tenants, and users, have most of the time. Small frames, as beats, wait for no large ones."""

    def __init__(self) -> None:
        self._rates = (SteadyRate(), SteadyRate())
        self._claims, self._making, self._answers = asyncio.Semaphore(MAX_CLAIMS), asyncio.Lock(), SteadyRate()

    async def take(self, size: int) -> None:
        """Return once a frame of this size may be read."""
        await self._rates[size > LARGE_FRAME].take(size + FRAME_BYTES)

    async def claimed(self, answer: Callable[[], Awaitable[Json]]) -> str:
        """Return the answer to a claim, which may have megabytes of work: one after the other is made, at a bounded
        rate. Beats do not wait for them."""
        async with self._claims:
            found = await answer()
            async with self._making:
                text = json.dumps(found)
                await self._answers.take(len(text) // ANSWER_TIMES)
        return text


class SteadyRate:
    def __init__(self) -> None:
        self._left, self._at, self._turn = float(FRAME_BURST), 0.0, asyncio.Lock()

    async def take(self, size: int) -> None:
        async with self._turn:  # which is handed on in a further turn of the loop
            now = asyncio.get_running_loop().time()
            self._left, self._at = min(FRAME_BURST, self._left + (now - self._at) * FRAME_RATE), now
            self._left -= size
            if self._left < 0:
                await asyncio.sleep(-self._left / FRAME_RATE)


class AgentSession:
    """An agent's connection."""

    def __init__(self, user: User, socket: web.WebSocketResponse, call: ApiCall, faults: Faults) -> None:
        self.user, self._socket, self._gate, self._faults = user, socket, call.gate, faults
        self.rate: FrameRate | None = None  # at which its frames are read, if that is bounded
        self._next_turn, self._require_still = call.turn, call.require_still
        self.is_remote = not isinstance(call.gate.owner, Peer)
        self._told = asyncio.Queue[str]()
        self._unread = 0  # bytes of these
        self._answers = asyncio.Queue[asyncio.Task[str]](MAX_UNANSWERED)

    def tell(self, words: Json) -> None:
        text = json.dumps(words)
        self._unread += len(text)
        if self._unread > MAX_UNREAD:
            self.end()
        else:
            self._told.put_nowait(text)

    def end(self) -> None:
        self._gate.transport.abort()

    def is_gone(self) -> bool:
        return self._gate.transport.is_closing()

    async def turn(self) -> None:
        await self._next_turn()

    async def alone(self) -> None:
        """Do nothing: agents have no long answers."""

    async def serve(self, queue: Queue, seconds: float) -> None:
        """Serve the agent until it leaves, or says nothing for this long."""
        queue.sessions.add(self)
        try:
            async with asyncio.TaskGroup() as group:
                group.create_task(self._tell_all())
                group.create_task(self._answer_all())
                while True:
                    text = await self._next(seconds)
                    if self.rate is not None:
                        await self.rate.take(len(text))
                    await self._next_turn()
                    answer = group.create_task(self._answered(queue, text))
                    await self._answers.put(answer)
                    if len(text) > LARGE_FRAME:
                        await asyncio.wait([answer])
                    self._gate.end_frame(len(text))
        except* (ConnectionError, TimeoutError):
            pass
        finally:
            queue.sessions.discard(self)
            queue.placements.leave(self)
            queue.agents.leave(self)
            self.end()

    async def _next(self, seconds: float) -> str:
        """Return the next request. Raise ConnectionResetError at the end."""
        code = WSCloseCode.UNSUPPORTED_DATA
        try:
            async with asyncio.timeout(seconds):
                message = await self._message()
                while message.type in (WSMsgType.PING, WSMsgType.PONG):
                    await self._next_turn()
                    if message.type == WSMsgType.PING:
                        await self._socket.pong(message.data)
                    message = await self._message()
            if message.type == WSMsgType.TEXT:
                return str(message.data)
        except TimeoutError:
            code = WSCloseCode.POLICY_VIOLATION
        with suppress(TimeoutError):
            async with asyncio.timeout(CLOSE_SECONDS):
                await self._socket.close(code=code)
        raise ConnectionResetError("its end")

    async def _message(self) -> WSMessage:
        self._gate.read_on()
        return await self._socket.receive()

    async def _answered(self, queue: Queue, text: str) -> str:
        try:
            given = request_of(text)
            self._require_still()
            ask = partial(queue.requests.answer, self, given)
            if self.rate is not None and given["ask"] == "claim":
                return self._counted(await self.rate.claimed(ask))
            answer = await ask()
            if given["ask"] == "register":
                queue.placements.begin(self)
        except ConnectionError:
            raise
        except Exception as error:
            refusal = refusal_of_error(error)
            if refusal is None:
                self._faults.note("agent", error)
                refusal = Refused("internal", f"an error of firm-api's: {error!r}")
            answer = refusal.answer()
        return self._counted(json.dumps(answer))

    def _counted(self, text: str) -> str:
        """Return an answer, which takes memory until it is sent."""
        self._gate.begin_frame(len(text))
        return text

    async def _tell_all(self) -> None:
        while True:
            text = await self._told.get()
            await self._send(text)
            self._unread -= len(text)

    async def _answer_all(self) -> None:
        while True:
            text = await (await self._answers.get())
            await self._send(text)
            self._gate.end_frame(len(text))

    async def _send(self, text: str) -> None:
        async with asyncio.timeout(WRITE_SECONDS):
            await self._socket.send_str(text)


def agent_socket(request: web.Request) -> web.WebSocketResponse:
    """Return the answer to a request that becomes an agent's WebSocket."""
    found = web.WebSocketResponse(timeout=CLOSE_SECONDS, compress=False, max_msg_size=MAX_FRAME + 1, autoping=False)
    if "Origin" in request.headers:  # a page's, by a browser that reaches the server as its user
        raise Refused("wrong-host", "no page may connect an agent")
    if not found.can_prepare(request).ok:
        raise Refused("bad-request", "this endpoint is a WebSocket: ask with Upgrade: websocket")
    return found


def has_unread(socket: web.WebSocketResponse) -> bool:
    """Return whether messages wait to be read. aiohttp bounds their bytes alone, of which a ping need not have any."""
    return socket._reader is not None and bool(socket._reader._buffer)


def request_of(text: str) -> Json:
    """Return an agent's request."""
    given = object_of(text.encode())
    if not isinstance(given.get("ask"), str) or given["ask"] not in ASKS:
        raise Refused("bad-request", f"an agent's requests are {', '.join(sorted(ASKS))}")
    return given
