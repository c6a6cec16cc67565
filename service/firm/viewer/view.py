"""The view socket: status and rows of the service as JSON, read-only.

A request is one object on a line, and so is its answer:

- {"ask": "status"}, and {"ask": "metrics"}, in Prometheus' text;
- {"ask": "watch", "tenant": "alpha"}: first {"state": ID, "line": N, "book": ..}, the state's id, the number of the
  last line before, and the rows, or null if there is no such tenant; then {"line": .., "reply": .., "number": ..} for
  each line of that tenant, and for each operator's line that admits or retires it.

Only firmd's own user and root can connect: firm-api and firm-slurm, which decide what each of their users may see.

`number` counts the lines with a reply since the journal's beginning. A task's `line` is the number of its submission,
which no other task of this state has. A request without an answer gives {"error": NAME, "text": ..}; one of more than
65,536 bytes closes its connection. So does {"error": "behind", ..}, which reports missing lines to a watcher. A reader
is dropped without a reason if it leaves 4 MiB unread, reads nothing of an answer for half a minute, or has the most
unread bytes when all readers exceed 64 MiB: the reason and the connection would wait for the bytes it does not read.
"""

from __future__ import annotations

import asyncio
import json
import socket
import time
from collections import Counter
from collections.abc import Callable, Iterator
from dataclasses import asdict

from ..common.books import Book
from ..common.bounds import MEBIBYTE
from ..common.refused import Refused
from .view_model import MOST_UNREAD_IN_ALL, ViewModel

MOST_CLIENTS = 128  # at a time: one for each tenant of firm-api, and more than bridges and operators open
MOST_UNREAD = 4 * MEBIBYTE  # of a watcher, in addition to the first rows; past it the watcher is dropped
IDLE_SECONDS = 60.0  # without a request, after which a connection that does not watch is closed
PATIENCE_SECONDS = 30.0  # for a client to read
MAX_REFUSED, REFUSAL_SECONDS = 64, 1.0  # refused clients that get a reason at a time; time for each
BACKLOG = 256  # connections that wait to be accepted

Json = dict[str, object]
Lists = dict[str, Callable[[Book], Iterator[Json]]]
Named = dict[str, Callable[[Book, str], Iterator[Json]]]


def summary_of(book: Book) -> Json:
    """Return a tenant in numbers."""
    return {
        "tenant": book.limits.tenant,
        "machines": len(book.machines),
        "jobs": len(book.jobs),
        "running": book.running,
        "waiting": book.waiting,
        "slots": book.slots,
        "free_slots": book.slots - book.running,
        "rounds": book.rounds,
        "last_cost": book.last_cost,
        "commands": book.commands,
        "life": book.limits.life,
    }


def machines_of(book: Book) -> Iterator[Json]:
    for name, machine in book.loads().items():
        yield {"tenant": book.limits.tenant, "machine": name, "slots": machine.slots, "tasks": machine.tasks}


def machine_named(book: Book, name: str) -> Iterator[Json]:
    if name in book.machines:
        yield from (row for row in machines_of(book) if row["machine"] == name)


def job_named(book: Book, name: str) -> Iterator[Json]:
    if name in book.jobs:
        yield from (row for row in jobs_of(book) if row["job"] == name)


def task_named(book: Book, name: str) -> Iterator[Json]:
    if name in book.tasks:
        yield task_of(book, name, time.time())


def jobs_of(book: Book) -> Iterator[Json]:
    running = Counter(task.job for task in book.tasks.values() if task.machine is not None)
    waiting = Counter(task.job for task in book.tasks.values() if task.machine is None)
    for name, weight in book.jobs.items():
        counts = {"running": running[name], "waiting": waiting[name]}
        yield {"tenant": book.limits.tenant, "job": name, "weight": weight, **counts}


def task_of(book: Book, name: str, now: float) -> Json:
    task = book.tasks[name]
    return {
        "tenant": book.limits.tenant,
        "task": name,
        "job": task.job,
        "state": "waits" if task.machine is None else "runs",
        "machine": task.machine,
        "waited": book.waited(task),
        "seconds": None if task.since is None else round(max(0.0, now - task.since), 3),
        "prefers": task.prefers,
        "line": task.line,
    }


def tasks_of(book: Book) -> Iterator[Json]:
    now = time.time()
    return (task_of(book, name, now) for name in book.tasks)


def rows_of(book: Book) -> Json:
    """Return a tenant with all its rows."""
    return {
        "tenant": book.limits.tenant,
        "limits": {name: limit for name, limit in asdict(book.limits).items() if name != "tenant"},
        "commands": book.commands,
        "rounds": book.rounds,
        "last_cost": book.last_cost,
        "costs": list(book.costs),
        "machines": list(machines_of(book)),
        "jobs": list(jobs_of(book)),
        "tasks": list(tasks_of(book)),
    }


def status_of(shown: ViewModel) -> Json:
    """Return the service and each tenant in numbers."""
    tenants = [summary_of(book) for book in shown.books.tenants.values()]
    return {"status": asdict(shown.status), "tenants": tenants}


def metrics_of(shown: ViewModel) -> str:
    """Return the metrics of the service and of all tenants, in Prometheus' text."""
    try:
        from .metrics import metrics_text
    except ImportError as error:
        raise Refused("no-package", f"apt-get install python3-prometheus-client: {error}") from error
    return metrics_text(shown)


def watched(shown: ViewModel, wanted: object) -> bytes:
    """Return the first message to a watcher of a tenant."""
    if not isinstance(wanted, str):
        raise Refused("bad-request", "a tenant is a string")
    book = shown.books.tenants.get(wanted)
    rows = rows_of(book) if book is not None else None
    return json.dumps({"state": shown.state, "line": shown.books.lines, "book": rows}).encode() + b"\n"


LISTS: Lists = {"tasks": tasks_of, "machines": machines_of, "jobs": jobs_of}  # of firm-api
NAMED: Named = {"tasks": task_named, "machines": machine_named, "jobs": job_named}  # the row of one name


class View:
    """Serves the connections of the view socket, within bounds."""

    def __init__(self, shown: ViewModel) -> None:
        self.shown = shown
        self.connections: set[Connection] = set()
        self._refused = 0  # clients that are getting a reason
        shown.on_sent = self.bound_unread

    async def serve(self, reader: asyncio.StreamReader, writer: asyncio.StreamWriter) -> None:
        """Serve a client until it leaves."""
        try:
            if len(self.connections) >= MOST_CLIENTS:
                refusal = Refused("too-many-clients", f"{MOST_CLIENTS} views are open; close one")
                await self._refuse(refusal, reader, writer)
                await closed(writer)
            else:
                await self._serve(reader, writer)
        except (OSError, ValueError):  # it has left or is slow, or its line is endless
            pass
        except asyncio.CancelledError:  # the service ends; asyncio would report a cancelled connection as an error
            pass
        except Exception as error:
            self.shown.faults.note("view", error)
        finally:
            writer.transport.abort()

    def bound_unread(self) -> None:
        """While all clients together exceed their bound, drop the one with the most unread bytes."""
        unread = {connection: connection.unread for connection in self.connections}
        while sum(unread.values()) > MOST_UNREAD_IN_ALL:
            most = max(unread, key=unread.__getitem__)
            del unread[most]
            most.end()

    async def _refuse(self, refusal: Refused, reader: asyncio.StreamReader, writer: asyncio.StreamWriter) -> None:
        """Send a client the reason, and read its request: a connection closed earlier would lose the reason."""
        if self._refused < MAX_REFUSED:
            self._refused += 1
            try:
                writer.write(refused(refusal))
                async with asyncio.timeout(REFUSAL_SECONDS):
                    await reader.readline()
            finally:
                self._refused -= 1

    async def _serve(self, reader: asyncio.StreamReader, writer: asyncio.StreamWriter) -> None:
        connection = Connection(self, writer)
        self.connections.add(connection)
        try:
            try:
                await connection.serve(reader)
            finally:
                connection.leave()
            await closed(writer)  # it counts until then, as it uses memory and a descriptor
        finally:
            self.connections.discard(connection)


class Connection:
    """A client of the view socket."""

    def __init__(self, view: View, writer: asyncio.StreamWriter) -> None:
        self._view, self._shown, self._writer = view, view.shown, writer
        self._wanted: object = None  # the watched tenant
        self._is_watching = False
        self._most_unread = MOST_UNREAD
        self._lingering: asyncio.TimerHandle | None = None  # its end, once it is closed

    @property
    def unread(self) -> int:
        """Return the bytes sent to it that it has not read."""
        return self._writer.transport.get_write_buffer_size()

    async def serve(self, reader: asyncio.StreamReader) -> None:
        while line := await self._next(reader):
            await self._serve_request(line)
            await asyncio.sleep(0)  # between two requests, so that lines are applied

    def wants(self, tenant: str | None) -> bool:
        return self._wanted == tenant

    def send(self, text: bytes) -> None:
        """Send lines, or drop the client if it has too many unread bytes."""
        if self.unread > self._most_unread:
            self.end()
        else:
            self._writer.write(text)

    def end_at_gap(self) -> None:
        """Report missing lines, and close the connection."""
        self._writer.write(refused(Refused("behind", "lines are missing: the viewer was too slow; watch anew")))
        self.finish()

    def finish(self) -> None:
        """Close it once it has read everything, or after PATIENCE_SECONDS."""
        self._writer.close()
        loop = asyncio.get_running_loop()
        self._lingering = loop.call_later(PATIENCE_SECONDS, self._writer.transport.abort)

    def leave(self) -> None:
        """End its watch; it has left, or sends no more requests."""
        self._shown.unwatch(self)
        if self._lingering is not None:  # it would keep the connection in memory
            self._lingering.cancel()

    def drop(self, error: Exception) -> None:
        self._shown.faults.note("view", error)
        self.end()

    def end(self) -> None:
        """Close it at once, whatever it has not read."""
        self._shown.unwatch(self)
        self._writer.transport.abort()

    async def _next(self, reader: asyncio.StreamReader) -> bytes:
        """Return the next request, empty at the end."""
        async with asyncio.timeout(None if self._is_watching else IDLE_SECONDS):
            return await reader.readline()

    async def _serve_request(self, line: bytes) -> None:
        """Answer a request."""
        try:
            request = json.loads(line)
            if not isinstance(request, dict):
                raise Refused("bad-request", "a request is an object")
            if request.get("ask") == "watch":
                self._watch(request.get("tenant"))
                await self._drain()
            else:
                await self._answer(request)
        except Refused as refusal:
            await self._write(refused(refusal))
        except (ValueError, RecursionError) as error:
            await self._write(refused(Refused("bad-request", f"not valid JSON: {error}")))

    async def _answer(self, request: Json) -> None:
        async with self._shown.turn:
            text = json.dumps(self._answer_to(request.get("ask"))).encode() + b"\n"
            await asyncio.sleep(0)
        await self._write(text)  # the turn is not held while it is read

    def _answer_to(self, ask: object) -> Json:
        if ask == "status":
            return status_of(self._shown)
        if ask == "metrics":
            return {"metrics": metrics_of(self._shown)}
        raise Refused("bad-request", f"unknown request: {ask!r}")

    def _watch(self, wanted: object) -> None:
        """Send the tenant's current rows, and then each line until the client leaves."""
        text = watched(self._shown, wanted)
        self._shown.unwatch(self)
        self._wanted, self._is_watching = wanted, True
        self._most_unread = MOST_UNREAD + len(text)
        self._writer.write(text)
        self._shown.watchers.append(self)
        self._view.bound_unread()

    async def _write(self, text: bytes) -> None:
        self._writer.write(text)
        self._view.bound_unread()
        await self._drain()

    async def _drain(self) -> None:
        async with asyncio.timeout(PATIENCE_SECONDS):
            await self._writer.drain()


async def closed(writer: asyncio.StreamWriter) -> None:
    """Close a connection once the client has read everything. Raise `TimeoutError` after PATIENCE_SECONDS."""
    writer.close()
    async with asyncio.timeout(PATIENCE_SECONDS):
        await writer.wait_closed()


def refused(refusal: Refused) -> bytes:
    return json.dumps(refusal.answer()).encode() + b"\n"


async def serve_view(listening: socket.socket, shown: ViewModel) -> asyncio.Server:
    """Begin to answer on a Unix socket."""
    return await asyncio.start_unix_server(View(shown).serve, sock=listening, backlog=BACKLOG)
