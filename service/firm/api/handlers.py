"""The API's handlers: each takes a call, of a caller with rights on a tenant, and gives an answer."""

from __future__ import annotations

import asyncio
import json
import re
import time
from base64 import b64encode
from collections import Counter
from collections.abc import AsyncIterator, Awaitable, Callable, Mapping
from contextlib import aclosing
from dataclasses import dataclass, field, replace
from functools import partial
from hashlib import sha256
from itertools import islice
from pathlib import Path
from typing import Any

from aiohttp import web

from ..common.books import Book
from ..common.faults import Faults, reason
from ..common.fields import NAME, Fields, Json, bad, listed, text_up_to
from ..common.lines import MAX_BYTES, first_word, gets_reply
from ..common.threads import Threads
from ..common.users import User, know, number_of
from ..common.version import version
from ..explain.book_states import copy_of, text_of
from ..explain.questions import Questions
from ..common.refused import Refused
from ..queue.listing import FOREIGN
from ..queue.queries import TaskFilter
from ..queue.requests import name_from
from ..queue.rows import SINGLE, Name
from ..queue.states import TaskState
from ..viewer.view import LISTS, NAMED, summary_of
from .agents import MAX_AGENTS, AgentSession, FrameRate, agent_socket, has_unread
from .bounded import WRITE_SECONDS, BoundedConnection
from .callers import Principal, TenantRights
from .document import MAX_LINES, document
from .events import event_texts
from .links import NotReached, replies_to, view_of
from .metrics import ApiMetrics
from .queues import ANSWER_SECONDS, QueueCaller, ServedQueue
from .rows import QueueRows, Wanted, jobs_in, machines_in, tasks_in
from .tenants import Tenant, away

BEGUN = "begun"  # the key of a request whose answer is a stream
HEADERS = {
    "Cache-Control": "no-store",
    "Cross-Origin-Resource-Policy": "same-origin",
    "Referrer-Policy": "no-referrer",
    "Server": "firm-api",
    "X-Content-Type-Options": "nosniff",
}
PAGE = Path(__file__).with_name("page.html")
WHY_SECONDS = 180.0  # for reasons, which take a question of firm_explain's
ROWS_AT_ONCE = 500  # of a list, that are written as JSON in a turn of the loop
LONG_LINE = 2**12  # bytes of a line that is only tried, and told as one that is too long
MAX_EVENT_ROWS, EVENT_PAUSE, QUIET_SECONDS = 100, 0.2, 15.0  # made in a turn; between two writes; until a comment


@dataclass
class ApiCall:
    """A request that is answered."""

    request: web.Request
    caller: Principal
    values: Json  # of its parameters
    look: Callable[[], Principal]  # who calls, as of now; raises `Refused`
    gate: BoundedConnection
    turn: Callable[[], Awaitable[None]]  # returns once a further part of the answer may be made
    alone: Callable[[], Awaitable[None]]  # returns once no other long answer of the user's is made
    body: Json = field(default_factory=dict)

    @property
    def user(self) -> User:
        return self.caller.user_of(self.values["tenant"])

    @property
    def rights(self) -> TenantRights:
        return self.caller.of(self.values["tenant"])

    @property
    def queue_caller(self) -> QueueCaller:
        return QueueCaller(self.user, self.gate, self.turn, self.alone)

    def require_still(self) -> None:
        """End a stream whose caller has not the rights any more with which it began."""
        try:
            is_same = self.look() == self.caller
        except Refused:
            is_same = False
        if not is_same:
            raise ConnectionResetError("the caller has other rights now")

    def require_operator(self) -> None:
        if not self.rights.operator:
            raise Refused("operator-only", "operators of the tenant alone may do this")


class Api:
    """All endpoints, by the names of their operations."""

    def __init__(
        self, tenants: Mapping[str, Tenant], state: Path, metrics: ApiMetrics, faults: Faults, questions: Questions
    ) -> None:
        self._tenants, self._state, self._metrics, self._faults = tenants, state, metrics, faults
        self._questions, self._agents = questions, Counter[str]()  # agents connected, by tenant
        self._rates = {name: FrameRate() for name in tenants}
        self._threads, self._started = Threads(), time.time()
        self._document, self._version = json.dumps(document()), version()
        self._page = PAGE.read_text("utf-8")
        self._policy = policy_of(self._page)

    # The server

    async def page(self, _: ApiCall) -> web.StreamResponse:
        headers = {"Content-Security-Policy": self._policy}
        return web.Response(text=self._page, content_type="text/html", headers=headers)

    async def document(self, _: ApiCall) -> web.StreamResponse:
        return web.Response(text=self._document, content_type="application/json")

    async def metrics(self, call: ApiCall) -> web.StreamResponse:
        operated = [name for name, rights in call.caller.rights.items() if rights.operator]
        if not operated:
            raise Refused("operator-only", "metrics are for operators")
        all_of_firmd = await self._metrics_of_firmd() if len(operated) == len(self._tenants) else b""
        shown = {name: self._tenants[name].shown for name in operated if not all_of_firmd}
        books = {name: book for name, book in shown.items() if book is not None}
        served = {name: one for name in operated if (one := self._tenants[name].served) is not None}
        queues = {name: one.current for name, one in served.items() if one.current is not None}
        text, kind = self._metrics.text(books, queues)
        return web.Response(body=text + all_of_firmd, headers={"Content-Type": kind})

    async def _metrics_of_firmd(self) -> bytes:
        """Return firmd's metrics, of all tenants; none while it is away."""
        try:
            text: str = (await view_of(self._state / "view", "metrics"))["metrics"]
        except (NotReached, Refused):
            return b""
        return text.encode()

    async def status(self, call: ApiCall) -> web.StreamResponse:
        caller = call.caller
        await know(self._threads, caller.number, [caller.number])
        tenants = [rights_row(name, rights) for name, rights in caller.rights.items()]
        found: Json = {"version": self._version, "user": caller.name, "number": caller.number}
        return web.json_response({**found, "started": self._started, "tenants": tenants})

    async def firmd(self, call: ApiCall) -> web.StreamResponse:
        if not any(rights.lines for rights in call.caller.rights.values()):
            raise Refused("operator-only", "firmd's numbers are for those who may send a tenant's lines")
        try:
            return web.json_response((await view_of(self._state / "view", "status"))["status"])
        except NotReached as error:
            raise away(self._state, str(error)) from error

    # Tenants

    async def tenants(self, call: ApiCall) -> web.StreamResponse:
        return web.json_response({"tenants": [self._tenant_row(name, call.caller) for name in call.caller.rights]})

    async def tenant(self, call: ApiCall) -> web.StreamResponse:
        tenant, row = self._tenant(call), self._tenant_row(call.values["tenant"], call.caller)
        if not call.rights.queue:
            counts = summary_of(tenant.book)
            return web.json_response({**row, "states": {key: counts[key] for key in ("running", "waiting")}})
        found = await tenant.queue.ask(call.queue_caller, "status")
        row["firm"] = {**found.pop("firm"), **row["firm"]}
        return web.json_response({**found, **row})

    async def machines(self, call: ApiCall) -> web.StreamResponse:
        tenant = self._tenant(call)
        is_of_queue = call.rights.queue
        found = await tenant.queue.ask(call.queue_caller, "machines") if is_of_queue else machines_in(tenant.book)
        return await json_response("machines", found)

    async def jobs(self, call: ApiCall) -> web.StreamResponse:
        tenant = self._tenant(call)
        is_of_queue = call.rights.queue
        found = await tenant.queue.ask(call.queue_caller, "jobs") if is_of_queue else jobs_in(tenant.book)
        return await json_response("jobs", found)

    async def firm_rows(self, call: ApiCall) -> web.StreamResponse:
        self._require_lines(call, call.values["tenant"])
        book, kind, name = self._tenant(call).current, call.values["kind"], call.values["name"]
        if name is not None:
            return web.json_response({"rows": [*NAMED[kind](book, name)], "next": None})
        (at,) = numbers_of(call.values["cursor"], 1) or (0,)
        rows = [*islice(LISTS[kind](book), max(0, at), max(0, at) + call.values["limit"] + 1)]
        some = rows[: call.values["limit"]]
        following = str(max(0, at) + len(some)) if len(rows) > len(some) else None
        return web.json_response({"rows": some, "next": following})

    async def state(self, call: ApiCall) -> web.StreamResponse:
        self._require_lines(call, call.values["tenant"])
        if call.values["round"] is not None:
            return await self._answered(call, "state")
        tenant = self._tenant(call)
        line, copy = tenant.firm.line, copy_of(tenant.current)
        text = await asyncio.to_thread(text_of, copy)
        return web.json_response({"tenant": call.values["tenant"], "line": line, "time": None, "text": text})

    async def agents(self, call: ApiCall) -> web.StreamResponse:
        return await json_response("agents", await self._queue(call).ask(call.queue_caller, "agents"))

    async def connect(self, call: ApiCall) -> web.StreamResponse:
        """Serve an agent."""
        name, user = call.values["tenant"], call.caller.number
        if name not in call.caller.agents:
            call.rights  # refuses a tenant that the caller has no rights on
            raise Refused("operator-only", "agents are operators, or have a token of their own")
        queue, socket = self._tenants[name].queue.queue, agent_socket(call.request)
        if self._agents[name] >= MAX_AGENTS:
            raise Refused("too-many-agents", f"{name} has {MAX_AGENTS:,} agents already")
        self._agents[name] += 1
        try:
            call.request[BEGUN] = True
            await socket.prepare(call.request)
            call.gate.upgrade(partial(has_unread, socket))
            session = AgentSession(User(user, True), socket, call, self._faults)
            session.rate = self._rates[name] if session.is_remote else None
            await session.serve(queue, queue.agents.terms.lease)
        finally:
            self._agents[name] -= 1
        return socket

    # Tasks

    async def tasks(self, call: ApiCall) -> web.StreamResponse:
        tenant, values = self._tenant(call), call.values
        if tenant.rows is None or not call.rights.queue:
            return web.json_response(self._firm_tasks(tenant.book, call))
        states = frozenset(filter(None, (values["states"] or "").split(",")))
        if unknown := states - {*TaskState, FOREIGN}:
            raise bad("states", f"{min(unknown)!r}; there are {', '.join([*TaskState, FOREIGN])}")
        after, owner = numbers_of(values["cursor"], 2), await self._owner(call)
        wanted = Wanted(owner, values["job"], states, values["submission"], limit=values["limit"])
        wanted = wanted if after is None else replace(wanted, after=after)
        rows, last = await tenant.rows.page(wanted) if states != {FOREIGN} else ([], None)
        if last is None and call.user.is_operator and values["user"] is None and values["submission"] is None:
            if states & {FOREIGN} or not states:
                more, last = await tenant.rows.foreign(wanted, wanted.limit - len(rows))
                rows += more
        if values["start"]:
            await self._estimate(call, rows)
        return web.json_response({"tasks": rows, "next": ".".join(map(str, last)) if last is not None else None})

    async def _estimate(self, call: ApiCall, rows: list[Json]) -> None:
        """Add to rows of tasks when those that wait may start."""
        waiting = [row["task"] for row in rows if row["state"] in (TaskState.QUEUED, TaskState.WAITING)]
        starts = await self._queue(call).ask(call.queue_caller, "starts", tasks=waiting) if waiting else {}
        for row in rows:
            row["start"] = starts.get(row["task"])

    async def wait(self, call: ApiCall) -> web.StreamResponse:
        names, seconds = (call.values["tasks"] or "").split(","), call.values["seconds"]
        queue, patience = self._queue(call), seconds + ANSWER_SECONDS
        call.gate.is_stream = True  # it ends with its client
        try:
            ends = await queue.ask(call.queue_caller, "wait", patience, tasks=names, seconds=seconds)
        finally:
            call.gate.is_stream = False
        return await json_response("ends", ends)

    def _firm_tasks(self, book: Book, call: ApiCall) -> Json:
        """A page of firm's tasks, of a tenant without a queue, or of a caller without one there."""
        values = call.values
        (at,) = numbers_of(values["cursor"], 1) or (0,)
        chosen = [name for name, task in book.tasks.items() if values["job"] in (None, task.job)]
        some = chosen[max(at, 0) : max(at, 0) + values["limit"]]
        more = at + len(some)
        return {"tasks": [*tasks_in(book, some)], "next": str(more) if more < len(chosen) else None}

    async def task(self, call: ApiCall) -> web.StreamResponse:
        tenant, text = self._tenant(call), call.values["task"]
        if tenant.rows is not None and call.rights.queue:
            return web.json_response(await tenant.rows.task(name_from(text), call.user.sees))
        for row in tasks_in(tenant.book, [text]):
            return web.json_response({**row, "spec": None, "attempts": []})
        raise Refused("no-such-task", f"{text}: no such task")

    async def why(self, call: ApiCall) -> web.StreamResponse:
        tenant, values = self._tenant(call), call.values
        text, is_of_firm = values["task"], values["round"] is not None or values["reasons"]
        if call.rights.queue and not is_of_firm and (Name.read(text) is not None or not call.rights.lines):
            return web.json_response(await tenant.queue.ask(call.queue_caller, "why", WHY_SECONDS, task=text))
        self._require_lines(call, values["tenant"])
        seconds = None
        if values["round"] is None:
            task = tenant.current.tasks.get(text)
            if task is None:
                raise Refused("no-such-task", f"no task {text!r} is there")
            if task.since is not None:
                seconds = round(max(0.0, time.time() - task.since), 3)
        return await self._answered(call, "why", task=text, seconds=seconds, reasons=values["reasons"])

    async def _answered(self, call: ApiCall, ask: str, **fields: Any) -> web.StreamResponse:
        """Answer a question that runs firm's programs, about the rows as they are or as they were before a round."""
        name, past = call.values["tenant"], call.values.get("round")
        tenant = self._tenants[name]
        fields |= {"tenant": name, "round": past, "folder": str(self._state), "line": tenant.firm.line}
        book = tenant.current if past is None else None
        return web.json_response(await self._questions.ask(call.caller.number, ask, book, **fields))

    async def log(self, call: ApiCall) -> web.StreamResponse:
        fields = {name: call.values[name] for name in ("task", "attempt", "from", "follow")}
        async with aclosing(self._queue(call).output(call.queue_caller, **fields)) as pieces:
            piece = await anext(pieces, b"")  # a refusal has a status of its own
            response = await begun(call.request, "application/octet-stream")
            while piece:
                call.require_still()
                await write(call.request, response, piece)
                piece = await anext(pieces, b"")
        return response

    async def history(self, call: ApiCall) -> web.StreamResponse:
        values, rows = call.values, self._queue_rows(call)
        name, before = None, floats_of(values["cursor"])
        if values["task"] is not None:
            of_task = name_from(values["task"])
            name = (of_task.number, None if of_task.index == SINGLE else of_task.index)
        span = (values["since"], values["until"], name, values["limit"] + 1, before)
        found = (await rows.history(TaskFilter(await self._owner(call), values["job"], *span)))[::-1]
        last = found[values["limit"] - 1] if len(found) > values["limit"] else None
        index = SINGLE if last is None or last["index"] is None else last["index"]
        following = None if last is None else f"{last['ended']!r}_{last['number']}_{index}"
        await know(self._threads, call.caller.number, [row["user"] for row in found])
        shown = [{**row, "user": User(row["user"]).name} for row in found[: values["limit"]]]
        return web.json_response({"history": shown, "next": following})

    async def events(self, call: ApiCall) -> web.StreamResponse:
        tenant, sees = self._tenant(call), call.user.sees
        with_lines = call.values["lines"]
        if with_lines and not call.rights.lines:
            raise Refused("operator-only", "firm's lines are for those who may send the tenant's")
        is_of_firm = with_lines or not call.rights.queue
        if is_of_firm and tenant.is_elsewhere:
            raise tenant.away
        position = tenant.feed.position(call.request.headers.get("Last-Event-ID"))
        response = await begun(call.request, "text/event-stream")
        await write(call.request, response, b": events of this tenant\n\n")
        while not (is_of_firm and tenant.is_elsewhere):  # its client then goes on to the one that leads
            call.require_still()
            changes, was_lost = tenant.feed.since(position), position.is_lost
            position.is_lost, at = False, position.at
            first = [("reset", {"tenant": tenant.place.tenant})] if was_lost else []
            first += [("line", one.line) for one in changes if one.line and with_lines]
            names = {one.name for one in changes if one.name and sees in (None, one.user)}
            rows = changed_rows(call, tenant.rows if call.rights.queue else None, sorted(names))
            async for text in event_texts(first, rows, f"{tenant.feed.epoch}-{at}"):
                await write(call.request, response, text)
            if was_lost or changes:  # what comes soon is sent together
                await asyncio.sleep(EVENT_PAUSE)
            else:
                await tenant.feed.wait(QUIET_SECONDS)
                if tenant.feed.last == at:
                    await write(call.request, response, b": nothing has changed\n\n")
        return response

    # Changes

    async def submit(self, call: ApiCall) -> web.StreamResponse:
        words = {"key": call.body.get("key"), "submissions": call.body.pop("submissions")}
        made = await self._queue(call).ask(call.queue_caller, "submit-all", **words)
        is_again = bool(made and made[0].get("again"))
        return web.json_response({"submissions": made}, status=200 if is_again else 201)

    async def cancel(self, call: ApiCall) -> web.StreamResponse:
        ask = call.request.path.rpartition("/")[2]
        names = {name: call.body[name] for name in ("tasks", "jobs") if call.body.get(name) is not None}
        found = await self._queue(call).ask(call.queue_caller, ask, **names)
        texts = [await json_text(name, rows) for name, rows in found.items()]
        return web.Response(text=f"{{{', '.join(texts)}}}", content_type="application/json")

    hold = release = cancel

    async def cordon(self, call: ApiCall) -> web.StreamResponse:
        call.require_operator()
        ask = call.request.path.rpartition("/")[2]
        return web.json_response(await self._queue(call).ask(call.queue_caller, ask, **call.body))

    uncordon = drain = cordon

    async def what_if(self, call: ApiCall) -> web.StreamResponse:
        self._require_lines(call, call.values["tenant"])
        return await self._answered(call, "what-if", lines=lines_of(Fields(call.body, ["lines"]), LONG_LINE))

    async def lines(self, call: ApiCall) -> web.StreamResponse:
        fields = Fields(call.body, ["tenant", "lines"])
        name = fields.need("tenant", NAME)
        self._require_lines(call, name)
        lines = lines_of(fields)
        for at, line in enumerate(lines):
            data = line.encode()
            if first_word(data) != name.encode() or not gets_reply(data):
                raise Refused("other-tenant", f"each line begins with {name}", at=at)
        path = self._tenants[name].place.lines
        try:
            return web.json_response({"replies": await replies_to(path, lines) if path is not None else []})
        except NotReached as error:
            raise away(self._state, str(error)) from error

    # Common parts

    def _tenant(self, call: ApiCall) -> Tenant:
        call.rights  # refuses a tenant that the caller has no rights on
        return self._tenants[call.values["tenant"]]

    def _tenant_row(self, name: str, caller: Principal) -> Json:
        tenant, rights = self._tenants[name], caller.of(name)
        firm = {"is_there": not tenant.firm.trouble, "reason": tenant.firm.trouble}
        row: Json = {**rights_row(name, rights), "firm": firm}
        if rights.lines and (book := tenant.shown) is not None:
            counts = summary_of(book)
            row |= {key: value for key, value in counts.items() if key != "tenant"}
        return row

    def _queue(self, call: ApiCall) -> ServedQueue:
        self._require_queue(call)
        return self._tenant(call).queue

    @staticmethod
    def _require_queue(call: ApiCall) -> None:
        if not call.rights.queue:
            raise Refused("no-queue", f"{call.values['tenant']} has no queue for this user")

    def _queue_rows(self, call: ApiCall) -> QueueRows:
        self._require_queue(call)
        found = self._tenant(call).rows
        if found is None:
            raise Refused("no-queue", f"{call.values['tenant']} has no queue")
        return found

    @staticmethod
    def _require_lines(call: ApiCall, tenant: str) -> None:
        if not call.caller.of(tenant).lines:
            raise Refused("operator-only", "this user may not send the tenant's lines")

    async def _owner(self, call: ApiCall) -> int | None:
        """Return whose rows a list has: the caller's own, or for operators those of whom they name, or of all."""
        text, sees = call.values["user"], call.user.sees
        if text is None:
            return sees
        try:
            number = await self._threads.do(call.caller.number, lambda: number_of(text))
        except TimeoutError as error:
            raise bad("user", f"{text!r} can't be looked up: {reason(error)}") from error
        if number is None:
            raise bad("user", f"{text!r}: no such user")
        if sees not in (None, number):
            raise Refused("operator-only", "rows of other users are for operators")
        return number


def policy_of(page: str) -> str:
    """The Content-Security-Policy that lets the page's own style and script run, and nothing else."""
    sources = {"style": "", "script": ""}
    for tag in sources:
        for part in re.findall(rf"<{tag}>(.*?)</{tag}>", page, re.S):
            sources[tag] += f" 'sha256-{b64encode(sha256(part.encode()).digest()).decode()}'"
    own = "; ".join(f"{tag}-src{hashes}" for tag, hashes in sources.items())
    return f"default-src 'none'; {own}; connect-src 'self'; base-uri 'none'; form-action 'none'; frame-ancestors 'none'"


def rights_row(tenant: str, rights: TenantRights) -> Json:
    return {"tenant": tenant, "role": rights.named(), "lines": rights.lines, "queue": rights.queue}


def numbers_of(cursor: str | None, count: int) -> Any:
    """Read a cursor of whole numbers; None without one."""
    try:
        found = None if cursor is None else tuple(int(word) for word in cursor.split("."))
        if found is not None and (len(found) != count or any(abs(number) >= 2**62 for number in found)):
            raise ValueError("no cursor of this list")
    except ValueError:
        raise bad("cursor", f"{cursor!r} is not one of this list") from None
    return found


def floats_of(cursor: str | None) -> tuple[float, int, int] | None:
    """Read a cursor of the history."""
    if cursor is None:
        return None
    try:
        ended, number, index = cursor.split("_")
        found = float(ended), int(number), int(index)
        if not abs(found[0]) < 1e15 or max(abs(found[1]), abs(found[2])) >= 2**62:
            raise ValueError("no cursor of this list")
        return found
    except ValueError:
        raise bad("cursor", f"{cursor!r} is not one of this list") from None


def lines_of(fields: Fields, most_bytes: int = MAX_BYTES) -> tuple[str, ...]:
    """Return the lines of a body. None has a further line in it."""
    lines = fields.need("lines", listed(text_up_to(most_bytes), MAX_LINES, 1))
    for at, line in enumerate(lines):
        if "\n" in line or "\r" in line or len(line.encode()) > most_bytes:
            raise Refused("bad-field", f"lines: one of at most {MAX_BYTES} bytes each", field="lines", at=at)
    return lines


async def changed_rows(call: ApiCall, rows: QueueRows | None, names: list[Name]) -> AsyncIterator[Json]:
    """Yield the rows of tasks, some in a turn. End the stream if its caller has other rights meanwhile."""
    for at in range(0, len(names) if rows is not None else 0, MAX_EVENT_ROWS):
        await call.turn()
        call.require_still()
        if rows is not None:
            for row in await rows.named(names[at : at + MAX_EVENT_ROWS], call.user.sees):
                yield row


async def json_response(name: str, rows: list[Json] | Json) -> web.Response:
    """Return a list, or an object, as an answer."""
    return web.Response(text=f"{{{await json_text(name, rows)}}}", content_type="application/json")


async def json_text(name: str, rows: list[Any] | Json) -> str:
    """Return a list, or an object, by its name as JSON. Other requests have their turns while it is written."""
    entries, texts = iter(rows.items() if isinstance(rows, dict) else rows), []
    while some := [*islice(entries, ROWS_AT_ONCE)]:
        texts.append(json.dumps(dict(some) if isinstance(rows, dict) else some)[1:-1])
        await asyncio.sleep(0)
    text = ", ".join(texts)
    return f"{json.dumps(name)}: " + (f"{{{text}}}" if isinstance(rows, dict) else f"[{text}]")


async def begun(request: web.Request, kind: str) -> web.StreamResponse:
    """Begin an answer that is sent in parts. From here on no refusal can be sent."""
    response = web.StreamResponse(headers={**HEADERS, "Content-Type": kind})
    request[BEGUN] = True
    await response.prepare(request)
    return response


async def write(request: web.Request, response: web.StreamResponse, text: bytes) -> None:
    """Send a part of a stream. A client that reads nothing for some time is closed."""
    try:
        async with asyncio.timeout(WRITE_SECONDS):
            await response.write(text)
    except TimeoutError:
        if request.transport is not None and isinstance(request.transport, asyncio.WriteTransport):
            request.transport.abort()
        raise ConnectionResetError("its client reads nothing") from None
