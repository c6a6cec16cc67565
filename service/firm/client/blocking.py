"""A client of firm-api. docs/CLIENTS.md shows its use, docs/API.md what each request does.

    client = ApiClient("unix:/run/firm/api", "alpha")
    (made,) = client.ask(submit([{"command": ["./train.sh", "7"], "dir": "/home/ann"}]))
    ends = client.ask(wait([str(made["number"])]))

`calls.py` has the requests, and `asynchronous.py` an asynchronous client for the same requests. A client reconnects for
`patience` seconds, and repeats requests without an answer: a submission has a key, so a repetition makes nothing twice.
Lines for firm are sent once. Of several servers, `https://a:7443,https://b:7443`, a client stays with the first that
answers; of replicas, that is the leader.
"""

from __future__ import annotations

import json
import re
import select
import socket
import time
from collections.abc import Generator, Iterator, Mapping
from contextlib import closing
from typing import TYPE_CHECKING, Any, NamedTuple, TypeVar
from urllib.parse import quote, urlencode, urlsplit

if TYPE_CHECKING:
    import ssl

Json = dict[str, Any]
Result = TypeVar("Result")
DEFAULT_SERVER, PATIENCE = "unix:/run/firm/api", 30.0  # seconds: a restart of the server takes less
ANSWER_SECONDS, PIECE_BYTES, LINE_BYTES = 150.0, 2**16, 2**14
CONNECT_SECONDS = 5.0  # for a connection to one of several servers
PROBE_SECONDS, PROBES = 5, 3  # between probes of a silent host; number of unanswered ones after which it is lost
TCP_USER_TIMEOUT = 18  # Linux's option; Debian's types of `socket` lack it
FIRST_PAUSE, MAX_PAUSE, STEADY_SECONDS = (
    0.02,
    0.5,
    10.0,
)  # between tries; time after which a loss counts as the first again
PASSING = ("not-there", "not-leading", "stopping")  # refusals of a server that is stopping, or waits for another
ELSEWHERE = ("no-queue", "no-such-tenant")  # refusals for which to try another server


class ApiError(Exception):
    """A refusal: `name` is the API's name of the reason, `more` has the answer's other fields."""

    def __init__(self, name: str, message: str, more: Json | None = None) -> None:
        super().__init__(message)
        self.name, self.more = name, more or {}


class Unreachable(ApiError):
    """No answer. The server may have accepted a submission: it can be sent again with the same key."""

    def __init__(self, message: str) -> None:
        super().__init__("not-there", message)


class Unanswered(Unreachable):
    """No answer to lines, which are sent once: firm may have obeyed any of them."""

    def __init__(self, message: str) -> None:
        super().__init__(f"the connection is lost, and firm may have obeyed the lines: {message}")
        self.more = {"replies": []}


class LostAnswer(Exception):
    """The connection was lost before an answer."""


class Passing(LostAnswer):
    """The server is stopping, or waits for another server."""


class ApiRequest(NamedTuple):
    """A request. Its path is of the tenant unless it begins with a slash."""

    method: str
    path: str
    body: Json | None = None
    is_once: bool = False  # whether it is never repeated once a server may have received it


Steps = Generator[ApiRequest, Json, Result]  # requests, each made after the answer to the one before; and their result


def get(path: str, **query: object) -> ApiRequest:
    """Return a request without the parameters that are None or False. The final _ of a name is not sent."""
    pairs = ((name.rstrip("_"), value) for name, value in query.items() if value not in (None, False))
    given = {name: "true" if value is True else value for name, value in pairs}
    text = urlencode(given, errors="surrogateescape")  # a word of a command line may be any bytes
    return ApiRequest("GET", f"{path}?{text}" if given else path)


def segment(name: str) -> str:
    """Return a name as a part of a path. Raise `ApiError` if it is empty, and so would be none."""
    if not name.strip("."):
        raise ApiError("no-such-task", f"{name}: no such task")
    return quote(name, safe="", errors="surrogateescape")


def one(exchange: ApiRequest) -> Steps[Json]:
    return (yield exchange)


def answer_of(status: int, text: bytes) -> Json:
    try:
        found = json.loads(text)
    except ValueError:
        found = None
    if not isinstance(found, dict):
        raise Unreachable(f"what answers is not firm-api: status {status}, {text[:40]!r}")
    if status < 400:
        return found
    name, message = str(found.pop("error", status)), str(found.pop("message", ""))
    raise Passing(message) if name in PASSING and "replies" not in found else ApiError(name, message, found)


def reason_of(error: Exception) -> str:
    return getattr(error, "strerror", None) or str(error) or repr(error)


class EventText:
    """Splits received text into server-sent events."""

    def __init__(self) -> None:
        self._held = b""

    def take(self, piece: bytes) -> Iterator[tuple[str, Json]]:
        """Yield the kind and the data of each complete event."""
        *texts, self._held = (self._held + piece).split(b"\n\n")
        for text in texts:
            fields = dict(line.partition(": ")[::2] for line in text.decode().splitlines())
            if "data" in fields:
                yield fields.get("event", ""), json.loads(fields["data"])


class ServerAddress:
    """unix:PATH or https://HOST:PORT. Raise ValueError for anything else."""

    def __init__(self, text: str) -> None:
        kind, _, path = text.partition(":")
        self.text, self.url, self.socket = text, urlsplit(text), path if kind == "unix" else ""
        netloc, is_tls = self.url.netloc, kind == "https" and bool(self.url.hostname)
        if not self.socket and (not is_tls or "@" in netloc or "," in netloc or self.url.path.strip("/")):
            raise ValueError(f"{text!r} is not unix:PATH or https://HOST:PORT")
        self.host, self.port = self.url.hostname or "", self.url.port or 443


class ServerAccess:
    """One or several servers, and the caller's token for them. A Unix socket needs none, since the system reports the
    caller's user."""

    def __init__(self, server: str, tenant: str = "", token: str = "", ca: str | None = None) -> None:
        """Set the servers from addresses with commas between them."""
        self.servers = [ServerAddress(text) for text in re.split(",(?=unix:|https:|$)", server)]
        self.tenant, self.patience, self._ca = tenant, PATIENCE, ca
        if not token.isascii() or not token.isprintable() or " " in token:
            raise ValueError("a token has no such letters")
        if ca is not None:
            open(ca).close()  # so that an unreadable file is reported at once
        self._headers = {"Authorization": f"Bearer {token}"} if token else {}
        self._context: ssl.SSLContext | None = None
        self._at = 0  # index of the current server
        self._ends, self._pause, self._tried = 0.0, 0.0, -STEADY_SECONDS
        self._tries = self._refusals = 0  # since the first loss; of the last ones, those that patience does not cure

    @property
    def server(self) -> ServerAddress:
        """Return the server for the next request."""
        return self.servers[self._at]

    def _request(self, exchange: ApiRequest) -> tuple[str, str, bytes | None, dict[str, str]]:
        """Return method, path, body and headers."""
        prefix = (
            ""
            if exchange.path.startswith("/")
            else f"/v1/tenants/{quote(self.tenant, safe='', errors='surrogateescape')}/"
        )
        body = None if exchange.body is None else json.dumps(exchange.body).encode()
        kind = {} if body is None else {"Content-Type": "application/json"}
        return exchange.method, (prefix + exchange.path).rstrip("/") or "/", body, {**self._headers, **kind}

    def _pause_after(self, error: Exception, asked: ServerAddress, is_sent: bool = False) -> float:
        """Turn to the next server. Return the seconds until the next try. Raise `ApiError` if no further try is left,
        or if the request may not be repeated and was sent."""
        now, count = time.monotonic(), len(self.servers)
        if is_sent and (isinstance(error, Unreachable) or not isinstance(error, (ApiError, Passing))):
            raise Unanswered(reason_of(error)) from error
        if isinstance(error, ApiError) and (count == 1 or error.name not in ELSEWHERE):
            raise error
        if asked is not self.server:  # another request has turned to the next one
            return 0.0
        if now - self._tried > STEADY_SECONDS:
            self._ends, self._pause = now + self.patience, FIRST_PAUSE
        self._tries += 1
        self._refusals = self._refusals + 1 if is_final(error) else 0
        if self._refusals == count or self._tries >= count and now >= self._ends:
            self._tries = self._refusals = 0
            if isinstance(error, ApiError):
                raise error
            away = "" if isinstance(error, Passing) else f"no firm-api answers at {self.server.text}: "
            raise Unreachable(f"{away}{reason_of(error)}") from error
        self._at = (self._at + 1) % count
        pause = 0.0
        if self._tries % count == 0:
            pause = max(0.0, min(self._pause, self._ends - now))
            self._pause = min(2 * self._pause, MAX_PAUSE)
        self._tried = now + pause
        return pause

    def _has_answer(self, is_whole: bool) -> None:
        """Record an answer of the server. After a complete answer any loss counts as the first."""
        self._tries = self._refusals = 0
        if is_whole:
            self._tried = -STEADY_SECONDS


def is_final(error: Exception) -> bool:
    """Return whether the same server would give the same again."""
    text = str(error).upper()
    return isinstance(error, ApiError) or "CERTIFICATE" in text or "WRONG_VERSION" in text


def probe(connected: socket.socket) -> None:
    """Probe a connection, so that it is lost soon after its host, since a dead host closes nothing."""
    connected.setsockopt(socket.SOL_SOCKET, socket.SO_KEEPALIVE, 1)
    for option in (socket.TCP_KEEPIDLE, socket.TCP_KEEPINTVL):
        connected.setsockopt(socket.IPPROTO_TCP, option, PROBE_SECONDS)
    connected.setsockopt(socket.IPPROTO_TCP, socket.TCP_KEEPCNT, PROBES)
    connected.setsockopt(socket.IPPROTO_TCP, TCP_USER_TIMEOUT, 1_000 * PROBE_SECONDS * PROBES)


class ApiConnection:
    """A connection with HTTP/1.1 as firm-api uses it. Importing http.client would take as long as all of firmctl."""

    def __init__(self, connected: socket.socket) -> None:
        self._socket, self._answers = connected, connected.makefile("rb")
        self._length: int | None = None  # of the answer's body; None: it is in chunks

    def request(self, method: str, path: str, body: bytes | None, headers: Mapping[str, str]) -> int:
        """Send a request. Return the status of its answer."""
        fields = {"Host": "localhost", **headers, **({} if body is None else {"Content-Length": str(len(body))})}
        head = "".join(f"{name}: {value}\r\n" for name, value in fields.items())
        self._socket.sendall(f"{method} {path} HTTP/1.1\r\n{head}\r\n".encode() + (body or b""))
        line = self._line()
        if not line.startswith("HTTP/1."):
            raise Unreachable(f"what answers is not firm-api: {line[:40]!r}")
        found: dict[str, str] = {}
        while field := self._line():
            name, _, value = field.partition(":")
            found[name.lower()] = value.strip()
        self._length = int(found["content-length"]) if "content-length" in found else None
        return int(line.split()[1])

    def pieces(self) -> Iterator[bytes]:
        """Yield the parts of the answer's body as they come. Raise `LostAnswer` if it is cut off."""
        if self._length is not None:
            yield from self._read(self._length)
            return
        while size := int(self._line().partition(";")[0], 16):
            yield from self._read(size)
            self._line()
        self._line()

    def read(self) -> bytes:
        return b"".join(self.pieces())

    def is_usable(self) -> bool:
        """Return whether a further request may be sent: the server has not closed it or sent anything else."""
        poll = select.poll()
        poll.register(self._socket, select.POLLIN)
        return not poll.poll(0)

    def have_patience(self) -> None:
        """Wait without a limit for the next part, which may take days."""
        self._socket.settimeout(None)

    def close(self) -> None:
        self._answers.close()
        self._socket.close()

    def _line(self) -> str:
        line = self._answers.readline(LINE_BYTES)
        if not line.endswith(b"\n"):
            raise LostAnswer("it closed the connection")
        return line.decode("latin-1").strip()

    def _read(self, size: int) -> Iterator[bytes]:
        while size:
            piece = self._answers.read1(min(size, PIECE_BYTES))
            if not piece:
                raise LostAnswer("it closed the connection")
            size -= len(piece)
            yield piece


class ApiClient(ServerAccess):
    """A client for one thread. Requests over TLS use the connection of those before."""

    _kept: ApiConnection | None = None

    def ask(self, steps: Steps[Result]) -> Result:
        connection = self._reused()
        try:
            exchange = next(steps)
            while True:
                is_sent = False
                try:
                    connection = connection or self._connection()
                    is_sent = exchange.is_once
                    status = connection.request(*self._request(exchange))
                    answer = answer_of(status, connection.read())
                except (OSError, ValueError, LostAnswer, ApiError) as error:
                    if connection is not None:
                        connection.close()
                    connection = None
                    time.sleep(self._pause_after(error, self.server, is_sent))
                else:
                    self._has_answer(is_whole=True)
                    exchange = steps.send(answer)
        except StopIteration as end:
            result: Result = end.value
            if not self.server.socket:
                self._kept, connection = connection, None
            return result
        finally:
            if connection is not None:
                connection.close()

    def _reused(self) -> ApiConnection | None:
        """Return the connection of earlier requests, if it is still usable."""
        kept, self._kept = self._kept, None
        if kept is None or kept.is_usable():
            return kept
        kept.close()
        return None

    def stream(self, exchange: ApiRequest) -> Iterator[bytes]:
        """Yield the parts of an answer as they come. Raise `LostAnswer` if it is cut off."""
        with closing(self._streaming(exchange)) as connection:
            try:
                yield from connection.pieces()
            except (OSError, ValueError) as error:
                raise LostAnswer(reason_of(error)) from error

    def _streaming(self, exchange: ApiRequest) -> ApiConnection:
        """Return a connection with a streamed answer."""
        while True:
            connection: ApiConnection | None = None
            try:
                connection = self._connection()
                status = connection.request(*self._request(exchange))
                if status >= 400:
                    answer_of(status, connection.read())
                connection.have_patience()
                self._has_answer(is_whole=False)
                return connection
            except (OSError, ValueError, LostAnswer, ApiError) as error:
                if connection is not None:
                    connection.close()
                time.sleep(self._pause_after(error, self.server))

    def events(self, lines: bool = False) -> Iterator[tuple[str, Json]]:
        """Yield events, of the lines that firm gets too. Raise `LostAnswer` at their end."""
        text = EventText()
        for piece in self.stream(get("events", lines=lines)):
            yield from text.take(piece)
        raise LostAnswer("the events have ended")

    def log(self, task: str, attempt: int | None = None, at: int = 0, follow: bool = False) -> Iterator[bytes]:
        """Yield what an attempt, the last by default, has written; with `follow` until it has ended."""
        while True:
            attempt = attempt or self.ask(one(get(f"tasks/{segment(task)}")))["attempt"]
            try:
                for piece in self.stream(get(f"tasks/{segment(task)}/log", attempt=attempt, from_=at, follow=follow)):
                    yield piece
                    at += len(piece)
                return
            except LostAnswer as lost:
                time.sleep(self._pause_after(lost, self.server))

    def _connection(self) -> ApiConnection:
        server, seconds = self.server, CONNECT_SECONDS if len(self.servers) > 1 else ANSWER_SECONDS
        if server.socket:
            connected = socket.socket(socket.AF_UNIX)
            connected.settimeout(ANSWER_SECONDS)
            try:
                connected.connect(server.socket)
            except OSError:
                connected.close()
                raise
            return ApiConnection(connected)
        if self._context is None:
            import ssl  # here, since no Unix socket needs it

            self._context = ssl.create_default_context(cafile=self._ca)
        plain = socket.create_connection((server.host, server.port), seconds)
        probe(plain)
        secure = self._context.wrap_socket(plain, server_hostname=server.host)
        secure.settimeout(ANSWER_SECONDS)
        return ApiConnection(secure)
