"""An asynchronous client of firm-api.

    async with AsyncApiClient("unix:/run/firm/api", "alpha") as client, asyncio.TaskGroup() as group:
        for frame in frames:
            group.create_task(client.ask(submit([{"command": ["render", frame], "dir": "/home/ann"}])))
"""

from __future__ import annotations

import asyncio
import ssl
from collections.abc import AsyncIterator
from typing import Any

import aiohttp
import yarl

from .blocking import ANSWER_SECONDS, CONNECT_SECONDS, ApiError, ApiRequest, EventText, Json, LostAnswer, Result
from .blocking import ServerAccess, ServerAddress, Steps, answer_of, get, one, probe, segment


class ProbingConnector(aiohttp.TCPConnector):
    """A connector that probes its connections, so that they are lost soon after their host."""

    async def connect(self, *words: Any, **more: Any) -> Any:
        found = await super().connect(*words, **more)
        if found.transport is not None:
            probe(found.transport.get_extra_info("socket"))
        return found


async def note_sent(_: aiohttp.ClientSession, context: Any, __: object) -> None:
    """Note in a request's context that a server may have it."""
    context.trace_request_ctx.append(True)


def session_of(server: ServerAddress, context: ssl.SSLContext) -> aiohttp.ClientSession:
    """Return a session with a server, each of whose requests has a new connection."""
    to: aiohttp.BaseConnector = ProbingConnector(ssl=context, force_close=True)
    if server.socket:
        to = aiohttp.UnixConnector(server.socket, force_close=True)
    base, tracing = "http://localhost" if server.socket else f"https://{server.url.netloc}", aiohttp.TraceConfig()
    tracing.on_request_headers_sent.append(note_sent)
    return aiohttp.ClientSession(base, connector=to, trace_configs=[tracing])


class AsyncApiClient(ServerAccess):
    """An asynchronous `ApiClient`: several tasks may have requests under way."""

    async def __aenter__(self) -> AsyncApiClient:
        context = ssl.create_default_context(cafile=self._ca)
        self._sessions = {server: session_of(server, context) for server in self.servers}
        self._errors = (aiohttp.ClientError, OSError, TimeoutError, LostAnswer, ApiError)
        return self

    async def __aexit__(self, *_: object) -> None:
        for session in self._sessions.values():
            await session.close()

    async def ask(self, steps: Steps[Result]) -> Result:
        try:
            exchange = next(steps)
            while True:
                exchange = steps.send(await self._answer(exchange))
        except StopIteration as end:
            result: Result = end.value
            return result

    async def stream(self, exchange: ApiRequest) -> AsyncIterator[bytes]:
        response = await self._streaming(exchange)
        try:
            async for piece in response.content.iter_any():
                yield piece
        except self._errors as error:
            raise LostAnswer(str(error)) from error
        finally:
            response.close()

    async def _streaming(self, exchange: ApiRequest) -> aiohttp.ClientResponse:
        """Return a streamed answer."""
        while True:
            asked = self.server
            try:
                response: aiohttp.ClientResponse = await self._request_of(exchange, None, [])
                if response.status >= 400:
                    async with response:
                        answer_of(response.status, await response.read())
                self._has_answer(is_whole=False)
                return response
            except self._errors as error:
                await asyncio.sleep(self._pause_after(error, asked))

    async def log(
        self, task: str, attempt: int | None = None, at: int = 0, follow: bool = False
    ) -> AsyncIterator[bytes]:
        while True:
            attempt = attempt or (await self.ask(one(get(f"tasks/{segment(task)}"))))["attempt"]
            try:
                path = f"tasks/{segment(task)}/log"
                async for piece in self.stream(get(path, attempt=attempt, from_=at, follow=follow)):
                    yield piece
                    at += len(piece)
                return
            except LostAnswer as lost:
                await asyncio.sleep(self._pause_after(lost, self.server))

    async def events(self, lines: bool = False) -> AsyncIterator[tuple[str, Json]]:
        text = EventText()
        async for piece in self.stream(get("events", lines=lines)):
            for event in text.take(piece):
                yield event
        raise LostAnswer("the events have ended")

    def _request_of(self, exchange: ApiRequest, seconds: float | None, sent: list[bool]) -> Any:
        method, path, body, headers = self._request(exchange)
        url, connecting = yarl.URL(path, encoded=True), CONNECT_SECONDS if len(self.servers) > 1 else None
        more: Any = {"data": body, "headers": headers, "allow_redirects": False}
        more |= {"timeout": aiohttp.ClientTimeout(seconds, sock_connect=connecting), "trace_request_ctx": sent}
        return self._sessions[self.server].request(method, url, **more)

    async def _answer(self, exchange: ApiRequest) -> Json:
        while True:
            asked, sent = self.server, list[bool]()
            try:
                async with self._request_of(exchange, ANSWER_SECONDS, sent) as response:
                    answer = answer_of(response.status, await response.read())
                self._has_answer(is_whole=True)
                return answer
            except self._errors as error:
                await asyncio.sleep(self._pause_after(error, asked, exchange.is_once and bool(sent)))
