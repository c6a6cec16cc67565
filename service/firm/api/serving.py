"""Serves the endpoints: who calls, what a request has, and an answer to each, a refusal too."""

from __future__ import annotations

import asyncio
import math
import re
import time
from collections import Counter
from collections.abc import AsyncIterator, Awaitable, Callable, Iterator, Mapping
from contextlib import AsyncExitStack, asynccontextmanager, contextmanager
from functools import partial
from typing import TYPE_CHECKING, Any

from aiohttp import typedefs, web

from ..common.address import LOOPBACK, Address
from ..common.faults import Faults
from ..common.fields import FLAG, FieldKind, Json, bad, number, object_of, whole
from ..common.peers import Peer
from ..common.users import User
from ..common.refused import Refused
from ..queue.quotas import BOUNDS, CROWDED, ConnectionQuota, Quotas, share_of
from .bounded import WRITE_SECONDS, BoundedConnection, BoundedConnections, key_of, refusal_of
from .callers import Principal, Tokens, caller_of_peer
from .document import ENDPOINTS, Endpoint
from .handlers import BEGUN, HEADERS, Api, ApiCall
from .metrics import ApiMetrics
from .tenants import TellChanged, Tenants

if TYPE_CHECKING:
    from .daemon import ApiOptions

MAX_BODY = 2**23  # bytes
SMALL_BODY = 2**16  # bytes, with which a request is no large one
MAX_BODIES, MAX_STREAMS = 4, 32  # of a user at a time: requests with large bodies, and streams
ALONE = "alone"  # the key of a request that keeps other long answers of its user's from being made
NOBODY = -1
MAX_TOLD, MAX_NUMBER = 40, 10**12  # letters of an unknown name; a number whose schema has no bounds
SINGLE_HEADERS = ("Authorization", "Content-Length", "Content-Type", "Host", "Last-Event-ID", "Transfer-Encoding")
STATUSES = {
    **dict.fromkeys(["no-token", "bad-token"], 401),
    **dict.fromkeys(["operator-only", "other-tenant", "not-yours", "wrong-host"], 403),
    **dict.fromkeys(["no-queue", "no-output", "no-endpoint", "not-kept"], 404),
    **dict.fromkeys(["job-has-weight", "elsewhere"], 409),
    **{"method-not-allowed": 405, "too-large": 413, "not-json": 415, "internal": 500},
    **dict.fromkeys(
        ["quota", "budget", "too-many-questions", "too-many-streams", "too-many-clients", "too-many-agents"], 429
    ),
    **dict.fromkeys(["queue-full", "not-there", "not-leading", "not-written", "not-read", "stopping"], 503),
    **dict.fromkeys(["too-long", "failed", "not-built", "memory", "journal"], 503),
}
Handler = Callable[[ApiCall], Awaitable[web.StreamResponse]]


def status_of(name: str) -> int:
    """Return the status of a refusal by its name; one that is not known is the request's fault."""
    return STATUSES.get(name, 404 if name.startswith("no-such-") and name != "no-such-label" else 400)


class ApiServer:
    """The endpoints, as one process serves them."""

    def __init__(
        self,
        options: ApiOptions,
        name: str,
        faults: Faults,
        tokens: Tokens | None,
        tell_changed: TellChanged | None = None,
    ) -> None:
        self._options, self._faults, self._tokens = options, faults, tokens
        self.metrics = ApiMetrics(name, faults)
        self._shares = Quotas(BOUNDS, partial(faults.count, "client", CROWDED))
        self.tenants = Tenants(options, tell_changed)
        self._api = Api(self.tenants.all, options.state, self.metrics, faults, self.tenants.questions)
        self._bodies: dict[int, asyncio.Semaphore] = {}
        self._lists: dict[int, asyncio.Lock] = {}
        self._streams = Counter[int]()
        self.gates: BoundedConnections
        self.app: web.Application

    async def start(self) -> None:
        app = self.app = web.Application(client_max_size=MAX_BODY, middlewares=[self._guard])
        for endpoint in ENDPOINTS:
            app.router.add_route(endpoint.method, endpoint.path, partial(self._serve, endpoint))
            if endpoint.method == "GET" and not (endpoint.is_stream or endpoint.is_socket):
                app.router.add_route("HEAD", endpoint.path, partial(self._serve, endpoint))
        runner = web.AppRunner(app, access_log=None)
        await runner.setup()
        if runner.server is None:
            raise RuntimeError("the runner has no server")
        self.gates = BoundedConnections(runner.server, self._faults)

    # Requests

    @web.middleware
    async def _guard(self, request: web.Request, handler: typedefs.Handler) -> web.StreamResponse:
        """Answer a request, and send the answer within some time."""
        gate, began = self.gates.of(request), time.monotonic()
        gate.begin()
        operation = "none"
        try:
            try:
                response = await handler(request)
                operation = request.get("operation", operation)
            except Refused as refusal:
                response = refused(refusal)
            except web.HTTPException as error:
                response = refused_by_router(error)
            except (ConnectionError, asyncio.CancelledError):
                raise
            except Exception as error:
                self._faults.note("http", error)
                response = refused(Refused("internal", "an error of firm-api's"))
            if BEGUN in request and not response.prepared:  # its client sees that the rest is missing
                gate.transport.abort()
                raise ConnectionResetError("a stream ends before its end")
            await send(request, response)
            return response
        finally:
            self.metrics.count(request.get("operation", operation), request.get("status", 0), time.monotonic() - began)
            gate.rest()

    async def _serve(self, endpoint: Endpoint, request: web.Request) -> web.StreamResponse:
        request["operation"] = endpoint.name
        gate = self.gates.of(request)
        require_plain(request, gate)
        caller = Principal(NOBODY) if endpoint.is_open else self._caller(request, gate)
        if caller.number != NOBODY:
            self.gates.know(gate, caller.number, is_trusted(caller))
        share = share_of_caller(caller, gate, endpoint.is_socket)
        await self._shares.turn(share)
        if gate.is_left:
            raise ConnectionResetError("its client has gone")
        values, look = values_of(endpoint, request), partial(self._caller, request, gate)
        handler: Handler = getattr(self._api, endpoint.name)
        async with AsyncExitStack() as stack:
            alone = partial(self._alone, request, caller, stack)
            call = ApiCall(request, caller, values, look, gate, partial(self._shares.turn, share), alone)
            await stack.enter_async_context(self._place(endpoint, caller.number, request, gate))
            if endpoint.body is not None:
                data = await body_of(request, gate)
                await self._shares.turn(share)  # in which its parts are read: who takes long rests
                call.body = object_of(data)
                require_fields(call.body, endpoint.body)
            response = await handler(call)
            with self._held(share, response):
                await send(request, response)
        return response

    async def _alone(self, request: web.Request, caller: Principal, stack: AsyncExitStack) -> None:
        """Return once no other long answer of a user's is made. None is until the stack is closed. Operators may have
        several made."""
        if not is_trusted(caller) and not request.get(ALONE):
            request[ALONE] = True
            await stack.enter_async_context(self._lists.setdefault(caller.number, asyncio.Lock()))

    @contextmanager
    def _held(self, share: ConnectionQuota, response: web.StreamResponse) -> Iterator[None]:
        """Count an answer for its user until it is sent. A user who leaves much unread has no further turn."""
        if not isinstance(response, web.Response) or not isinstance(response.body, bytes):
            yield
            return
        self._shares.add(share, len(response.body))
        try:
            yield
        finally:
            response.body = None  # though an error, of a client that has gone, may keep the answer for some time
            self._shares.leave(share)

    def _caller(self, request: web.Request, gate: BoundedConnection) -> Principal:
        """Return who calls, by the socket's peer, the token or the certificate."""
        if isinstance(gate.owner, Peer):
            return caller_of_peer(gate.owner, self._options.operators, self._options.places.values())
        text, found = request.headers.get("Authorization"), None
        if self._tokens is not None and text is not None and text.startswith("Bearer "):
            found = self._tokens.of_token(text.removeprefix("Bearer ").strip())
        elif self._tokens is not None and text is None:
            found = self._tokens.of_certificate(gate.transport.get_extra_info("ssl_object"))
        if found is None and text is None:
            raise Refused("no-token", "name a token: Authorization: Bearer TOKEN")
        if found is None:
            raise Refused("bad-token", "this token is not known")
        return found.caller(self._options.places)

    @asynccontextmanager
    async def _place(
        self, endpoint: Endpoint, user: int, request: web.Request, gate: BoundedConnection
    ) -> AsyncIterator[None]:
        """A user has some streams and some large bodies at a time, and one list, which may be large."""
        if endpoint.is_stream:
            if self._streams[user] >= MAX_STREAMS:
                raise Refused("too-many-streams", f"{MAX_STREAMS} logs and events of yours are open; close one")
            self._streams[user] += 1
            gate.is_stream = True
            try:
                yield
            finally:
                gate.is_stream = False
                self._streams -= Counter([user])
        elif endpoint.name in ("tasks", "history", "machines", "jobs", "firm_rows", "state"):
            async with self._lists.setdefault(user, asyncio.Lock()):
                yield
        elif endpoint.body is not None and (request.content_length or MAX_BODY) > SMALL_BODY:
            async with self._bodies.setdefault(user, asyncio.Semaphore(MAX_BODIES)):
                yield
        else:
            yield


async def body_of(request: web.Request, gate: BoundedConnection) -> bytes:
    if request.content_type != "application/json" or "Content-Encoding" in request.headers:
        raise Refused("not-json", "a body is plain JSON: Content-Type: application/json")
    if (request.content_length or 0) > MAX_BODY:
        raise Refused("too-large", f"a body has at most {MAX_BODY:,} bytes")
    gate.read_body()
    try:
        return await request.read()
    finally:
        gate.end_body()


def share_of_caller(caller: Principal, gate: BoundedConnection, is_agent: bool) -> ConnectionQuota:
    """Return whose time a request takes: a user's, an operator's of other hosts, a connection's of an agent or of an
    operator of this host, or an unknown caller's address."""
    if caller.number == NOBODY:
        return ConnectionQuota(f"address {key_of(gate.owner)}".encode(), True)
    if is_trusted(caller) and not is_agent and not isinstance(gate.owner, Peer):
        return ConnectionQuota(f"operator {caller.number}".encode(), False, gate.transport.abort)
    return share_of(User(caller.number, is_trusted(caller)), gate, gate.transport.abort)


def is_trusted(caller: Principal) -> bool:
    """Return whether a caller is an operator or an agent."""
    return bool(caller.agents) or any(rights.operator for rights in caller.rights.values())


def require_fields(body: Json, schema: Mapping[str, Any]) -> None:
    """Refuse a body without a field that it needs, or with others than its schema names."""
    for name in body:
        if name not in schema["properties"]:
            raise bad(name[:MAX_TOLD], f"unknown; there are {', '.join(schema['properties'])}")
    for name in schema.get("required", ()):
        if body.get(name) is None:
            raise bad(name, "it is needed")


def require_plain(request: web.Request, gate: BoundedConnection) -> None:
    """Refuse what two readers could take for two things, and pages of other sites that rebind their names."""
    for name in SINGLE_HEADERS:
        if len(request.headers.getall(name, [])) > 1:
            raise Refused("bad-request", f"{name} is there twice")
    if isinstance(gate.owner, Peer) and not Address(LOOPBACK, 0).is_named(request.headers.get("Host", "")):
        raise Refused("wrong-host", "Host is not localhost")
    if len(request.headers.get("Last-Event-ID", "")) > 64:
        raise bad("Last-Event-ID", "at most 64 letters")


def values_of(endpoint: Endpoint, request: web.Request) -> Json:
    """Return a request's parameters as their schemas say. Refuse others."""
    known = {one.name: one for one in endpoint.takes if one.place != "header"}
    found: Json = {name: one.schema.get("default") for name, one in known.items()}
    given = [*request.query.items(), *request.match_info.items()]
    counts = Counter(name for name, _ in given)
    for name, text in given:
        if name not in known:
            raise bad(name[:MAX_TOLD], f"unknown; there are {', '.join(known) or 'none'}")
        if counts[name] > 1:
            raise bad(name, "it is there twice")
        found[name] = value_of(name, text, known[name].schema)
    return found


def value_of(name: str, text: str, schema: Mapping[str, Any]) -> Any:
    if schema["type"] == "string":
        form = schema.get("pattern")
        if len(text) > schema.get("maxLength", 100) or "\0" in text or form and not re.fullmatch(form, text):
            raise Refused(f"no-such-{name}", f"no {name} has this name") if form else bad(name, "not of its form")
        return text
    low, high = schema.get("minimum", -MAX_NUMBER), schema.get("maximum", MAX_NUMBER)
    kinds: dict[str, FieldKind[Any]] = {"boolean": FLAG, "integer": whole(low, high), "number": number(low, high)}
    try:
        return kinds[schema["type"]].of_text(text)
    except ValueError as error:
        raise bad(name, str(error)) from None


# Answers


def refused(refusal: Refused) -> web.Response:
    status = status_of(refusal.name)
    response = refusal_of(status, refusal.name, str(refusal), **refusal.more)
    if status == 401:
        response.headers["WWW-Authenticate"] = "Bearer"
    if "seconds" in refusal.more:
        response.headers["Retry-After"] = str(math.ceil(refusal.more["seconds"]))
    return response


def refused_by_router(error: web.HTTPException) -> web.Response:
    """Return the refusal of a path or a method that there is not, or of a body that is too large."""
    if isinstance(error, web.HTTPMethodNotAllowed):
        response = refused(Refused("method-not-allowed", f"{error.method} is not for this endpoint"))
        response.headers["Allow"] = error.headers["Allow"]
        return response
    if isinstance(error, web.HTTPRequestEntityTooLarge):
        return refused(Refused("too-large", f"a body has at most {MAX_BODY:,} bytes"))
    if isinstance(error, web.HTTPNotFound):
        return refused(Refused("no-endpoint", "there is no such endpoint; /v1/openapi.json has all"))
    return refusal_of(error.status, "bad-request", error.reason)


async def send(request: web.Request, response: web.StreamResponse) -> None:
    """Send an answer, once. A client that does not read it is closed."""
    if request.get("is_sent"):
        return
    request["is_sent"], request["status"] = True, response.status
    if not response.prepared:
        response.headers.update(HEADERS)
    is_over = False
    try:
        async with asyncio.timeout(WRITE_SECONDS):
            await response.prepare(request)
            await response.write_eof()
    except TimeoutError:
        is_over = True  # raised below: an error with this one as its context would keep the answer in memory
    if is_over:
        if isinstance(request.transport, asyncio.WriteTransport):  # which has the rest of the answer
            request.transport.abort()
        raise ConnectionResetError("its client reads nothing")
