"""A WebSocket to the server: requests, and their answers in the same order."""

from __future__ import annotations

import asyncio
import json
import ssl
from collections import deque
from collections.abc import AsyncIterator, Callable
from contextlib import asynccontextmanager
from dataclasses import dataclass
from pathlib import Path

try:
    import aiohttp
except ModuleNotFoundError as error:
    raise SystemExit(f"firm-agent: a package is missing, {error.name}: apt-get install python3-aiohttp") from None

from ..common.logs import short
from ..common.peers import Peer
from .lease import clock
from .state import Event

MAX_FRAME = 1 << 23  # bytes, as the server takes them
CONNECT_SECONDS = 10.0


class Refusal(Exception):
    """The queue refuses a request."""

    def __init__(self, answer: Event) -> None:
        super().__init__(f"{answer['error']}: {answer.get('text', '')}")
        self.name, self.answer = str(answer["error"]), answer


def object_of(text: str) -> Event:
    """Return the object of a frame. Raise ValueError for anything else."""
    try:
        found = json.loads(text)
    except RecursionError:
        raise ValueError("a frame that is too deep") from None
    if not isinstance(found, dict):
        raise ValueError(f"a frame that is not an object: {short(text.strip())}")
    return found


@dataclass
class Server:
    """The servers' addresses, one after the other, and this agent's rights there."""

    addresses: list[str]  # one unix:PATH, or https://HOST:PORT
    tenant: str
    token: Path | None = None
    ca: Path | None = None  # certificates that may sign a server's; by default the system's
    turn: int = 0  # number of tries to connect

    def __str__(self) -> str:
        """Return the address that is tried, or was last."""
        return self.addresses[(self.turn - 1) % len(self.addresses)]

    @property
    def socket(self) -> Path | None:
        """The path of a Unix socket, None for servers that are reached by TLS."""
        first = self.addresses[0]
        return Path(first.removeprefix("unix:")) if first.startswith("unix:") else None

    @asynccontextmanager
    async def connected(self) -> AsyncIterator[Link]:
        """Yield a connection to the next server. Raise OSError, and ValueError for a faulty certificate file."""
        self.turn += 1
        headers = {"Authorization": f"Bearer {self.token.read_text().strip()}"} if self.token is not None else {}
        async with aiohttp.ClientSession(connector=self._connector(), headers=headers) as session:
            async with asyncio.timeout(CONNECT_SECONDS):
                found = await self._upgraded(session)
            yield Link(found)  # the session's end closes it without a handshake, as the server may be unreachable

    def _connector(self) -> aiohttp.BaseConnector:
        if self.socket is not None:
            return aiohttp.UnixConnector(str(self.socket))
        return aiohttp.TCPConnector(ssl=ssl.create_default_context(cafile=self.ca))

    async def _upgraded(self, session: aiohttp.ClientSession) -> aiohttp.ClientWebSocketResponse:
        url = f"{'http://localhost' if self.socket is not None else self}/v1/tenants/{self.tenant}/agents/connect"
        try:
            return await session.ws_connect(url, max_msg_size=MAX_FRAME)
        except aiohttp.WSServerHandshakeError as error:
            async with session.get(url) as response:  # the handshake's answer is not kept
                refusal = (await response.content.read(500)).decode(errors="replace")
            raise ConnectionError(f"refused with status {error.status}: {short(refusal)}") from None
        except aiohttp.ClientError as error:
            raise ConnectionError(str(getattr(error, "os_error", error)) or repr(error)) from error


class Link:
    """One connection; it can't be used again once it is lost."""

    def __init__(self, connection: aiohttp.ClientWebSocketResponse) -> None:
        self._connection = connection
        self._asked: deque[asyncio.Future[Event]] = deque()
        self._is_lost = False
        self.heard = clock()  # when the last frame came

    @property
    def owner(self) -> int:
        """The user of the server at the other end of a Unix socket."""
        return Peer.of(self._connection.get_extra_info("socket")).user

    async def ask(self, ask: str, **more: object) -> Event:
        """Raises `Refusal`, and ConnectionError where the connection is lost before the answer."""
        if self._is_lost:
            raise ConnectionError("the connection is lost")
        answered: asyncio.Future[Event] = asyncio.get_running_loop().create_future()
        self._asked.append(answered)
        await self._connection.send_str(json.dumps({"ask": ask, **more}))
        answer = await answered
        if "error" in answer:
            raise Refusal(answer)
        return answer

    async def hear(self, told: Callable[[Event], None]) -> None:
        """Takes in what comes, until the connection is lost; that raises OSError or ValueError."""
        try:
            async for message in self._connection:
                self.heard = clock()
                if message.type != aiohttp.WSMsgType.TEXT:
                    raise ValueError(f"a frame that is not text: {message.type!r}")
                answer = object_of(message.data)
                if "tell" in answer:
                    told(answer)
                elif self._asked:
                    self._answer(self._asked.popleft(), answer)
                elif "error" in answer:
                    raise ConnectionError(str(Refusal(answer)))
            raise ConnectionError("the server has closed the connection")
        finally:
            self._lose()

    @staticmethod
    def _answer(asked: asyncio.Future[Event], answer: Event) -> None:
        if not asked.done():  # who asked has not left
            asked.set_result(answer)

    def _lose(self) -> None:
        self._is_lost = True
        while self._asked:
            asked = self._asked.popleft()
            if not asked.done():
                asked.set_exception(ConnectionError("the connection is lost"))
                asked.exception()  # nobody may wait for it any more
