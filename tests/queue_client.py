"""The queue's client for checks: a user, an operator or an agent at firm-api's Unix socket."""

from __future__ import annotations

import http.client
import json
import os
import socket
import ssl
import threading
from collections import deque
from collections.abc import Callable, Iterator, Mapping, Sequence
from contextlib import closing, suppress
from pathlib import Path
from queue import SimpleQueue
from typing import Any, NamedTuple

from firmd_kit import connect
from harness.checks import require

from firm.client import calls
from firm.client.blocking import ApiConnection, ApiRequest, Steps, get

LIMIT_SECONDS = 600.0  # for any wait, on a busy host
JSON_KIND = "application/json"
OF_AGENTS = {"register", "beat", "claim", "told", "kept"}
Json = dict[str, Any]


class Closed(Exception):
    """Signals that firm-api has closed the connection, or is not there."""


class Refusal(Exception):
    """A refused request, with the answer."""

    def __init__(self, answer: Json) -> None:
        super().__init__(str(answer))
        self.answer = answer


class Place(NamedTuple):
    """A tenant's queue, at a socket of firm-api's."""

    socket: Path
    tenant: str


class Answer(NamedTuple):
    status: int
    headers: Mapping[str, str]
    body: bytes

    def json(self) -> Any:
        return json.loads(self.body)

    def good(self, status: int = 200) -> Any:
        """Return the answer as JSON; require this status."""
        require(self.status == status, f"status {self.status}, not {status}: {self.body[:300]!r}")
        return self.json()

    def refused(self, status: int, name: str) -> Json:
        """Require a refusal by this name."""
        found: Json = self.json()
        require((self.status, found["error"]) == (status, name), f"status {self.status}: {found}, not {name}")
        require(bool(found["message"]), f"{name} without a message")
        return found


class Connection(http.client.HTTPConnection):
    """HTTP over a Unix socket, or with a context over TLS."""

    def __init__(self, place: Path | int, context: ssl.SSLContext | None = None) -> None:
        super().__init__("localhost", timeout=LIMIT_SECONDS)
        self._place, self._context = place, context

    def connect(self) -> None:
        self.sock = connected(self._place, self._context)

    def ask(self, method: str, path: str, body: Any = None, **headers: str) -> Answer:
        text = body if isinstance(body, bytes) or body is None else json.dumps(body).encode()
        kind = {} if body is None or "Content-Type" in headers else {"Content-Type": JSON_KIND}
        with suppress(BrokenPipeError, ConnectionResetError):  # its head is refused before its body has been sent
            self.request(method, path, text, {**kind, **headers})
        answer = self.getresponse()
        return Answer(answer.status, {name.lower(): value for name, value in answer.getheaders()}, answer.read())

    def raw(self) -> socket.socket:
        """Return a new raw connection."""
        self.connect()
        if not isinstance(self.sock, socket.socket):
            raise TypeError("no socket")
        return self.sock


def connected(place: Path | int, context: ssl.SSLContext | None = None) -> socket.socket:
    if isinstance(place, int):
        found = socket.create_connection(("127.0.0.1", place), LIMIT_SECONDS)
        return context.wrap_socket(found, server_hostname="localhost") if context is not None else found
    found = socket.socket(socket.AF_UNIX)
    found.settimeout(LIMIT_SECONDS)
    connect(found, place)
    return found


class WebSocket:
    """An agent's connection."""

    def __init__(self, place: Place) -> None:
        self.socket = connected(place.socket)
        self._stream = self.socket.makefile("rb")
        fields = "Host: localhost\r\nUpgrade: websocket\r\nConnection: Upgrade\r\nSec-WebSocket-Version: 13"
        path, key = f"/v1/tenants/{place.tenant}/agents/connect", "Sec-WebSocket-Key: AAAAAAAAAAAAAAAAAAAAAA=="
        self.socket.sendall(f"GET {path} HTTP/1.1\r\n{fields}\r\n{key}\r\n\r\n".encode())
        status, size = self._stream.readline(), 0
        while (field := self._stream.readline()).strip():
            name, _, value = field.partition(b":")
            size = int(value) if name.lower() == b"content-length" else size
        if not status:
            raise Closed("the connection has ended without an answer")
        if not status.startswith(b"HTTP/1.1 101 "):
            raise Refusal(refusal_of(json.loads(self._read(size))))

    def send(self, words: Json) -> None:
        text = json.dumps(words).encode()
        size = bytes([0x80 | len(text)]) if len(text) < 126 else b"\xfe" + len(text).to_bytes(2)
        if len(text) >= 2**16:
            size = b"\xff" + len(text).to_bytes(8)
        self.socket.sendall(b"\x81" + size + bytes(4) + text)  # a mask of zeros

    def next(self) -> Json:
        """Return the next answer or message, except firm's rows."""
        kind, size = self._read(2)
        if size >= 126:
            size = int.from_bytes(self._read(2 if size == 126 else 8))
        text = self._read(size)
        if kind != 0x81:
            raise Closed(f"frame {kind:#x}: {text!r}")
        found: Json = json.loads(text)
        return found if found.get("tell") != "firm" else self.next()

    def close(self) -> None:
        self._stream.close()
        self.socket.close()

    def _read(self, size: int) -> bytes:
        try:
            text = self._stream.read(size)
        except ConnectionError as error:
            raise Closed(str(error)) from error
        if len(text) < size:
            raise Closed("the connection has ended")
        return text


class Client:
    """Requests by the names that they have in the queue. An agent's requests use a separate connection."""

    def __init__(self, place: Place) -> None:
        self._place, self._agent = place, list[WebSocket]()
        self._owed: deque[Callable[[], Json]] = deque()
        self._connection().close()

    def __enter__(self) -> Client:
        return self

    def __exit__(self, *_: object) -> None:
        for agent in self._agent:
            agent.close()

    @property
    def link(self) -> WebSocket:
        if not self._agent:
            self._agent.append(WebSocket(self._place))
        return self._agent[0]

    def send(self, *requests: Json) -> None:
        """Begin requests. Those of an agent are sent in this order, others at the same time."""
        for request in requests:
            if request["ask"] in OF_AGENTS:
                try:
                    self.link.send(request)
                except Refusal as refusal:
                    self._owed.append(lambda answer=refusal.answer: answer)  # type: ignore[misc]
                except OSError as error:
                    raise Closed(str(error)) from error
                else:
                    self._owed.append(self._told)
            else:
                found: SimpleQueue[Json | Closed] = SimpleQueue()
                threading.Thread(target=self._answer_into, args=(found, request), daemon=True).start()
                self._owed.append(lambda found=found: one_of(found))  # type: ignore[misc]

    def answer(self) -> Json:
        """Return the answer to the first request that has none yet."""
        return self._owed.popleft()()

    def line(self) -> Json:
        """Return an agent's next answer or message."""
        found = self.link.next()
        if "tell" not in found:
            self._owed.popleft()
        return found

    def try_ask(self, ask: str, **fields: Any) -> Json:
        """Return the answer, also a refusal."""
        if ask in OF_AGENTS:
            self.send({"ask": ask, **fields})
            return self.answer()
        steps = steps_of(ask, fields)
        try:
            if ask == "log":
                return {"log": b"".join(self.log(**fields)).decode("latin-1")}
            request = next(steps)
            while True:
                request = steps.send(self._exchange(request))
        except StopIteration as end:
            return {ask: end.value}
        except Refusal as refusal:
            return refusal.answer

    def ask(self, ask: str, **fields: Any) -> Any:
        """Return the answer's value under the request's name."""
        answer = self.try_ask(ask, **fields)
        require("error" not in answer, f"{ask} {fields}: {answer}")
        return answer[ask]

    def refused(self, name: str, ask: str, **fields: Any) -> Json:
        """Require that a request is refused by this name."""
        answer = self.try_ask(ask, **fields)
        require(answer.get("error") == name and answer["text"], f"{ask} {fields}: {answer} instead of {name}")
        return answer

    def submit(self, *command: str, **fields: Any) -> int:
        found = self.ask("submit", command=list(command) or ["true"], dir="/tmp", **fields)
        return int(found["number"])

    def state(self, task: str) -> str:
        return str(self.ask("task", task=task)["state"])

    def states(self) -> dict[str, int]:
        return dict(self.ask("status")["states"])

    def log(self, task: str, **query: Any) -> Iterator[bytes]:
        """Yield a task's output as it comes; raise a refusal."""
        request = get(f"tasks/{task}/log", **query)
        with closing(ApiConnection(connected(self._place.socket))) as connection:
            if connection.request("GET", self._path(request), None, {}) >= 400:
                raise Refusal(refusal_of(json.loads(connection.read())))
            yield from connection.pieces()

    def _connection(self) -> Connection:
        found = Connection(self._place.socket)
        try:
            found.connect()
        except OSError as error:
            raise Closed(str(error)) from error
        return found

    def _path(self, request: ApiRequest) -> str:
        return request.path if request.path.startswith("/") else f"/v1/tenants/{self._place.tenant}/{request.path}"

    def _exchange(self, request: ApiRequest) -> Json:
        with closing(self._connection()) as connection:
            try:
                answer = connection.ask(request.method, self._path(request).rstrip("/"), request.body)
            except (OSError, http.client.HTTPException) as error:
                raise Closed(str(error)) from error
        found: Json = answer.json()
        if answer.status >= 400:
            raise Refusal(refusal_of(found))
        return found

    def _told(self) -> Json:
        while "tell" in (found := self.link.next()):
            pass
        return found

    def _answer_into(self, found: SimpleQueue[Json | Closed], request: Json) -> None:
        try:
            found.put(self.try_ask(**request))
        except Closed as closed:
            found.put(closed)


def one_of(found: SimpleQueue[Json | Closed]) -> Json:
    answer = found.get(timeout=LIMIT_SECONDS)
    if isinstance(answer, Closed):
        raise answer
    return answer


def refusal_of(answer: Json) -> Json:
    """Return a refusal as the queue has it."""
    return {"text" if key == "message" else key: value for key, value in answer.items()}


def steps_of(ask: str, fields: Json) -> Steps[Any]:
    """Return the steps by the API of a request with the queue's name."""
    match ask:
        case "submit":
            one = {key: value for key, value in fields.items() if key != "key"}
            (made,) = yield from steps_of("submit-all", {"key": fields.get("key"), "submissions": [one]})
            return {key: value for key, value in made.items() if key != "label"}
        case "submit-all":
            return (yield ApiRequest("POST", "submissions", fields))["submissions"]
        case "tasks":
            states = fields.get("states") or ()
            return (yield from calls.pages("tasks", "tasks", **{**fields, "states": ",".join(states) or None}))
        case "task":
            return (yield from calls.one_task(fields["task"]))
        case "why":
            return (yield from calls.why(fields["task"]))
        case "wait":
            return (yield from calls.wait(fields["tasks"], fields.get("seconds")))
        case "history":
            return (yield from calls.history(**{key: fields[key] for key in fields if key != "limit"}))
        case "machines" | "agents" | "jobs":
            return (yield from calls.rows_of(ask))
        case "status":
            return (yield get(""))
    return (yield ApiRequest("POST", ask, fields))


def as_user(user: int, place: Place, requests: Sequence[Json]) -> list[Json]:
    """Return the answers to another user's requests, one after the other, by a child of that user."""

    def ask() -> list[Json]:
        try:
            with Client(place) as client:
                return [client.try_ask(**request) for request in requests]
        except Exception as error:
            return [{"error": "child", "text": repr(error)}] * len(requests)

    found: list[Json] = as_user_does(user, ask)
    return found


def as_user_does(user: int, work: Callable[[], Any], groups: Sequence[int] = ()) -> Any:
    """Return a function's value, as JSON has it, from a child of another user with these further groups."""
    given, taken = os.pipe()
    child = os.fork()
    if child == 0:
        try:
            close_copies(taken)
            os.setgroups(groups)
            os.setgid(user)
            os.setuid(user)
            os.write(taken, json.dumps(work()).encode())
        finally:
            os._exit(0)
    os.close(taken)
    with open(given, "rb") as file:
        text = file.read()
    os.waitpid(child, 0)
    return json.loads(text)


def close_copies(kept: int) -> None:
    """Close the descriptors that a fork has copied, except one: otherwise a connection that another check closes
    meanwhile stays open until this child ends. Their numbers stay taken, since objects that are deleted here close
    them again."""
    null = os.open(os.devnull, os.O_RDWR)
    for number in map(int, os.listdir("/proc/self/fd")):
        if number not in (0, 1, 2, kept, null):
            os.dup2(null, number, inheritable=False)
