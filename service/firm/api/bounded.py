"""Bounds on connections that aiohttp lacks: their number, and the time for a head, a body and an answer.

A gate stands before each of aiohttp's connections. It reads 16 KiB at a time, and passes nothing on while a request is
answered: what a client sends ahead waits in the kernel. In the process for reads it passes on single heads of GET and
HEAD without a body; any other request goes with its connection to the process for changes, at a boundary between two
requests, so a client notices nothing.
"""

from __future__ import annotations

import asyncio
import logging
import math
import os
import re
import select
import socket
from collections import Counter
from collections.abc import Callable, Hashable
from typing import Any

from aiohttp import web
from aiohttp.web_protocol import RequestHandler

from ..common.faults import Faults
from ..common.fd_pressure import Held
from ..common.peers import ROOT, Peer
from ..common.refused import Refused

MAX_CONNECTIONS, MAX_OF_OWNER = 2_048, 128  # in a process: of all, and of a user other than root
MAX_OF_TRUSTED = 512  # over TLS, of an operator or agent
MAX_STRANGERS = 512  # of callers that are not known yet: over TLS, before a token; of an address MAX_OF_OWNER
MAX_FRAMES = 2**28  # bytes of messages of all WebSockets that are not answered, and of answers that are not sent
FRAME_HEAD = 14  # bytes, at most
READ_BYTES, PIECE_BYTES = 2**14, 2**12  # read at a time; parsed in a turn of the loop
HEAD_SECONDS, BODY_SECONDS, IDLE_SECONDS, WRITE_SECONDS = 10.0, 30.0, 75.0, 30.0
LOOK_SECONDS, AGAIN_SECONDS = 1.0, 0.01
END_SECONDS = 3.0  # for answers that are made, at a stop
CLOSED_AT_ONCE = 20  # connections whose time is over, in a turn: to close hundreds together delays others
MANY_CLIENTS = "close a connection first"
HEAD_END = b"\r\n\r\n"
# A head for the process for reads: what it answers from rows, without an estimate of starts.
READ_PATHS = (
    rb"/(?:|v1/(?:openapi\.json|status|firmd|tenants(?:/[^/?\s]*/"
    rb"(?:tasks(?:/[^/?\s]*)?|history|events|state|firm/[^/?\s]*))?))"
)
READABLE = re.compile(
    rb"(?:GET|HEAD) " + READ_PATHS + rb"(?:\?(?!\S*start=)\S*)? "
    rb"(?!.*\r\n(?:content-length|transfer-encoding|upgrade|expect)[ \t]*:)",
    re.I | re.S,
)
Owner = Peer | str  # the user at a Unix socket, or an address


class Handler(RequestHandler):
    """aiohttp's connection, with errors as JSON."""

    def handle_error(
        self, request: web.BaseRequest, status: int = 500, exc: BaseException | None = None, message: str | None = None
    ) -> web.StreamResponse:
        """Answer a request that aiohttp can't read."""
        if request.writer.output_size > 0:
            raise ConnectionError("an answer has begun")
        lines = (message or "").splitlines() or ["it can't be read"]
        response = refusal_of(status, "bad-request" if status < 500 else "internal", lines[0])
        response.force_close()
        return response


def refusal_of(status: int, name: str, message: str, **more: Any) -> web.Response:
    return web.json_response({"error": name, "message": message, **more}, status=status)


class BoundedConnection(asyncio.BufferedProtocol):
    """A connection."""

    def __init__(self, gates: BoundedConnections, handler: Handler) -> None:
        self._gates, self._handler = gates, handler
        self.transport: asyncio.Transport
        self.owner: Owner = ""
        self.user: int | None = None  # for whom it counts, if it does
        self.ends = 0.0  # when it is closed, by the loop's clock; infinite while an answer is made
        self._buffer = bytearray(READ_BYTES)
        self._held = b""  # not parsed yet
        self.is_stream = False  # what it sends has no end of its own
        self.is_upgraded = False  # to a WebSocket
        self.frame_bytes = 0  # of its messages that are not answered, and of answers that are not sent
        self._has_unread: Callable[[], bool] = lambda: False
        self._is_busy = False  # with a request
        self._is_body = False  # of a request, that is read
        self._parsing: asyncio.Handle | None = None

    def connection_made(self, transport: asyncio.BaseTransport) -> None:
        if not isinstance(transport, asyncio.Transport):
            raise TypeError(f"{transport!r} is not a stream")
        self.transport, self.owner = transport, owner_of(transport)
        self._handler.connection_made(transport)
        self.end_after(HEAD_SECONDS)
        if not self._gates.add(self, self._handler):
            refusal = b'{"error": "too-many-clients", "message": "%b"}' % MANY_CLIENTS.encode()
            head = b"HTTP/1.1 503 Service Unavailable\r\nContent-Type: application/json\r\nConnection: close\r\n"
            transport.write(head + b"Content-Length: %d\r\n\r\n%b" % (len(refusal), refusal))
            transport.close()

    def get_buffer(self, sizehint: int) -> memoryview:
        return memoryview(self._buffer)  # TLS writes into slices of it

    def buffer_updated(self, nbytes: int) -> None:
        if self.is_upgraded:
            return self._pass_on(bytes(self._buffer[:nbytes]))
        if not self._held and not self._is_busy:
            self.end_after(HEAD_SECONDS)
        self.take(bytes(self._buffer[:nbytes]))

    def take(self, data: bytes) -> None:
        """Parse some bytes once those before them are parsed."""
        self._held += data
        self.transport.pause_reading()
        self._parse_soon()

    def eof_received(self) -> bool:
        """Answer what has come of a client that sends no more."""
        is_tls = self.transport.get_extra_info("ssl_object") is not None  # which can't be half closed
        if is_tls or self.is_upgraded or not self._held and not self._is_busy:
            return False
        self._gates.ending.add(self)
        return True

    def connection_lost(self, error: BaseException | None) -> None:
        self._gates.remove(self, self._handler)
        if self._parsing is not None:
            self._parsing.cancel()
        work = self._handler._task_handler
        self._handler.connection_lost(error)
        if work is not None:  # its answer would be made though nobody reads it
            work.cancel()

    def pause_writing(self) -> None:
        self._handler.pause_writing()

    def resume_writing(self) -> None:
        self._handler.resume_writing()

    @property
    def is_idle(self) -> bool:
        """Whether nobody loses an answer with it."""
        return self.is_stream or not math.isinf(self.ends)

    @property
    def is_unread(self) -> bool:
        """Whether nothing is read that would tell of its end."""
        return self.is_stream and not self.is_upgraded

    @property
    def is_left(self) -> bool:
        """Whether the client has closed the connection. While an answer is made nothing is read that would tell."""
        if self.transport.is_closing():
            return True
        is_tls = self.transport.get_extra_info("ssl_object") is not None
        found = select.poll()
        found.register(self.transport.get_extra_info("socket"), select.POLLRDHUP if is_tls else select.POLLHUP)
        return bool(found.poll(0))

    def end_after(self, seconds: float) -> None:
        self.ends = asyncio.get_running_loop().time() + seconds

    def begin(self) -> None:
        """Take in that a request is answered, which the connection's time is not for."""
        self._is_busy, self.ends = True, math.inf

    def read_body(self) -> None:
        """Pass on the body of the request that is answered."""
        self._is_busy, self._is_body = False, True
        self.end_after(BODY_SECONDS)
        self._parse_soon()

    def end_body(self) -> None:
        self._is_body = False
        self.begin()

    def rest(self) -> None:
        """Take in that the request is answered."""
        self._is_busy = self._is_body = False
        self.end_after(IDLE_SECONDS)
        if self in self._gates.ending and not self._held and not self._handler._messages:
            self.transport.close()
        self._parse_soon()

    def upgrade(self, has_unread: Callable[[], bool]) -> None:
        """Take in that the connection is a WebSocket from now on. Nothing is read while it has messages unread."""
        self._gates.release(self)
        self.is_upgraded = self.is_stream = True
        self._has_unread = has_unread
        held, self._held = self._held, b""
        self._pass_on(held)
        self.read_on()

    def _pass_on(self, data: bytes) -> None:
        self._gates.count_frame(self, len(data))
        self._handler.data_received(data)
        if self._has_unread():
            self.transport.pause_reading()

    def begin_frame(self, size: int) -> None:
        """Take in that a message to a WebSocket takes memory until it is sent."""
        if not self.transport.is_closing():  # otherwise nothing would end it
            self._gates.count_frame(self, size + FRAME_HEAD)

    def end_frame(self, size: int) -> None:
        """Take in that a message of a WebSocket takes no memory any more."""
        self._gates.count_frame(self, -min(self.frame_bytes, size + FRAME_HEAD))

    def read_on(self) -> None:
        """Read more of a WebSocket, whose messages may have been read."""
        if not self._has_unread():
            self.transport.resume_reading()

    def _parse_soon(self) -> None:
        if self._parsing is None:
            self._parsing = asyncio.get_running_loop().call_soon(self._parse)

    def _parse(self) -> None:
        self._parsing = None
        if self.transport.is_closing() or self._is_busy or self._handler._messages:
            return
        if self._held:
            piece = self._head() if self._gates.hand_over is not None else self._held[: self._piece_bytes]
            self._held = self._held[len(piece) :]
            if self.transport.is_closing():
                return
            self._handler.data_received(piece)
            self._is_busy = bool(self._handler._messages) and not self._is_body
            if piece and self._held and not self._is_busy:
                return self._parse_soon()
        if not self._is_busy and len(self._held) < READ_BYTES:
            self.transport.resume_reading()

    @property
    def _piece_bytes(self) -> int:
        return READ_BYTES if self._is_body else PIECE_BYTES

    def _head(self) -> bytes:
        """Return the next head, if it is whole. Hand the connection over before another kind of request."""
        end = self._held.find(HEAD_END) + len(HEAD_END)
        if end < len(HEAD_END):
            is_long = len(self._held) >= READ_BYTES
            is_other = self._held[:1] not in (b"G", b"H")
            if is_long or is_other:
                self._hand_over()
            return b""
        if READABLE.match(self._held[:end]):
            return self._held[:end]
        self._hand_over()
        return b""

    def _hand_over(self) -> None:
        """Give the connection to the process for changes, once its last answer is sent."""
        try:
            if self._gates.hand_over is None or self.transport.get_write_buffer_size():
                raise BlockingIOError
            self._gates.hand_over(self.transport.get_extra_info("socket"), self._held)
        except BlockingIOError:
            asyncio.get_running_loop().call_later(AGAIN_SECONDS, self._parse_soon)
        else:
            self.transport.abort()  # this process's descriptor; the other has its own


def owner_of(transport: asyncio.Transport) -> Owner:
    found: socket.socket = transport.get_extra_info("socket")
    return Peer.of(found) if found.family == socket.AF_UNIX else str(transport.get_extra_info("peername")[0])


def key_of(owner: Owner) -> Hashable:
    return owner.user if isinstance(owner, Peer) else owner


class BoundedConnections:
    """All connections of a process."""

    def __init__(self, server: web.Server, faults: Faults) -> None:
        self._server, self.faults = server, faults
        self.hand_over: Callable[[socket.socket, bytes], None] | None = None  # what is not for this process
        self.open: dict[RequestHandler, BoundedConnection] = {}
        self.ending: set[BoundedConnection] = set()  # whose clients send no more
        self._counts = Counter[int]()  # by user
        self._strangers: dict[BoundedConnection, None] = {}  # the newest last
        self._frame_bytes = 0  # of all WebSockets
        self._loop = asyncio.get_running_loop()
        logger = logging.Logger("api")
        logger.addHandler(FaultLog(faults))
        self._options: dict[str, Any] = {"access_log": None, "logger": logger, "auto_decompress": False}
        self._look()

    def connect(self) -> BoundedConnection:
        handler = Handler(self._server, loop=self._loop, lingering_time=0.0, tcp_keepalive=False, **self._options)
        return BoundedConnection(self, handler)

    def add(self, gate: BoundedConnection, handler: RequestHandler) -> bool:
        """Take in a connection. Return whether it may stay."""
        self.open[handler] = gate
        if isinstance(gate.owner, Peer):
            most = MAX_CONNECTIONS if gate.owner.user in (ROOT, os.geteuid()) else MAX_OF_OWNER
            return self._count(gate, gate.owner.user, most)
        self._strangers[gate] = None
        same = [one for one in self._strangers if one.owner == gate.owner]
        if len(same) > MAX_OF_OWNER or len(self._strangers) > MAX_STRANGERS:
            oldest = same[0] if len(same) > MAX_OF_OWNER else next(iter(self._strangers))
            del self._strangers[oldest]
            oldest.transport.abort()
        return True

    def know(self, gate: BoundedConnection, user: int, is_trusted: bool) -> None:
        """Count a connection for its caller, once a token names one: others may have the address too. Raise `Refused`
        if a user has too many."""
        if gate in self._strangers:
            if not self._count(gate, user, MAX_OF_TRUSTED if is_trusted else MAX_OF_OWNER):
                self.release(gate)
                raise Refused("too-many-clients", MANY_CLIENTS)
            del self._strangers[gate]

    def _count(self, gate: BoundedConnection, user: int, most: int) -> bool:
        """Count a connection for a user. Return whether it may stay; some places are reserved for root."""
        gate.user = user
        self._counts[user] += 1
        reserved = 0 if most == MAX_CONNECTIONS else MAX_OF_OWNER
        return self._counts[user] <= most and self._counts.total() <= MAX_CONNECTIONS - reserved

    def remove(self, gate: BoundedConnection, handler: RequestHandler) -> None:
        self.ending.discard(gate)
        self.count_frame(gate, -gate.frame_bytes)
        self._strangers.pop(gate, None)
        if self.open.pop(handler, None) is not None:
            self.release(gate)

    def release(self, gate: BoundedConnection) -> None:
        """Count a connection no more, as a WebSocket has bounds of its own."""
        if gate.user is not None:
            self._counts -= Counter([gate.user])
            gate.user = None

    def count_frame(self, gate: BoundedConnection, size: int) -> None:
        """Count bytes of a message of a WebSocket. If all have too many, close the connection that has most."""
        gate.frame_bytes += size
        self._frame_bytes += size
        if self._frame_bytes > MAX_FRAMES:
            fullest = max(self.open.values(), key=lambda one: one.frame_bytes)
            self.count_frame(fullest, -fullest.frame_bytes)
            fullest.transport.abort()

    def of(self, request: web.Request) -> BoundedConnection:
        """Return the connection of a request. Raise ConnectionResetError if it has gone."""
        gate = self.open.get(request.protocol)
        if gate is None:
            raise ConnectionResetError("its client has gone")
        return gate

    def held(self) -> Held:
        return {"api": [gate.transport for gate in self.open.values()]}

    async def close(self) -> None:
        """Close all connections; those with a request once it is answered, or after some time."""
        ends = self._loop.time() + END_SECONDS
        while self.open and self._loop.time() < ends + LOOK_SECONDS:
            for gate in list(self.open.values()):
                if gate.is_idle or self._loop.time() > ends:
                    gate.transport.abort()
            await asyncio.sleep(AGAIN_SECONDS)

    def _look(self) -> None:
        """Close connections whose time is over, and streams that nobody reads any more, some at a time."""
        now = self._loop.time()
        late = [gate for gate in self.open.values() if gate.ends < now or gate.is_unread and gate.is_left]
        for gate in late[:CLOSED_AT_ONCE]:
            gate.transport.abort()
        self._loop.call_later(LOOK_SECONDS / 20 if len(late) > CLOSED_AT_ONCE else LOOK_SECONDS, self._look)


class FaultLog(logging.Handler):
    """Counts what aiohttp would log."""

    def __init__(self, faults: Faults) -> None:
        super().__init__()
        self._faults = faults

    def emit(self, record: logging.LogRecord) -> None:
        error = record.exc_info[1] if record.exc_info else None
        self._faults.note("http", error or RuntimeError(record.getMessage()))
