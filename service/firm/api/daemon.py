"""firm-api: HTTP and JSON for a firmd, and the queues of its tenants. docs/API.md says how to use it.

It has two processes. The one for reads accepts connections at the Unix socket, and answers what rows answer; a
connection with any other request goes to the one for changes, which has the queues, agents and TLS. So no submitter
delays a reader.
"""

from __future__ import annotations

import argparse
import asyncio
import json
import os
import signal
import socket
import ssl
import sys
from collections.abc import Coroutine, Mapping, Sequence
from contextlib import suppress
from dataclasses import dataclass
from functools import partial
from importlib import import_module
from pathlib import Path
from threading import Timer
from typing import IO, Any

from ..common import logs
from ..common.accept import Acceptor
from ..common.address import Address
from ..common.capabilities import withhold
from ..common.child import end_with, give_way
from ..common.faults import Exit, Fault, Faults, fault_in
from ..common.fd_pressure import FdPressure
from ..common.lines import is_name
from ..common.service_manager import allow_files, notify
from ..common.settings import GROUP, SettingsFile
from ..common.sockets import Names
from ..common.users import Operators, number_of
from ..common.version import add_version
from ..queue.agents import DAY_SECONDS, Terms
from ..queue.core import QueueLimits
from ..queue.placement_sync import SyncOptions
from ..queue.service import QueueOptions, TaskChange
from ..server.configuration import Configuration
from ..server.settings import API, BOUNDS
from .callers import ROLES, Grant, TenantPaths, Tokens, grant

READS, CHANGES = "reads", "changes"  # the processes
QUEUES_SECONDS = 10.0  # for all queues to end: one whose disk hangs may never
LOOK_SECONDS = 1.0  # between looks at the file of tokens, and counts that are sent
MESSAGE_BYTES, MESSAGE_ROWS = 2**18, 200  # of what the processes send each other
CONNECTION, CHANGED = b"+", b"~"  # the first byte of messages other than counts
OUT_OF_MEMORY_SCORE = 300  # of 1,000: where memory is lacking it ends before firmd, which starts it again
SWITCH_SECONDS = 0.001  # that a thread with a list has the interpreter
TLS_BYTES = 2**14  # of a connection's buffer, for which asyncio would take 256 KiB
EXITS = """\
exit statuses, each but 0 with the reason on standard error:
  0  stopped by SIGTERM or SIGINT
  1  an error of firm-api itself
  2  the command line, or a package that is missing
  4  the file of tokens can't be written, or another process has a queue's state
  7  a socket can't be had
A queue whose state can't be read, or is damaged, older than it was or incomplete, is away alone."""


@dataclass(frozen=True)
class Tls:
    """TCP, with TLS alone."""

    address: Address
    certificate: Path
    key: Path
    clients: Path | None  # who signs clients' certificates

    def context(self) -> ssl.SSLContext:
        found = ssl.SSLContext(ssl.PROTOCOL_TLS_SERVER)
        found.minimum_version = ssl.TLSVersion.TLSv1_2
        try:
            found.load_cert_chain(self.certificate, self.key)
            if self.clients is not None:
                found.load_verify_locations(self.clients)
                found.verify_mode = ssl.CERT_OPTIONAL
        except OSError as error:  # of ssl too
            raise Fault(Exit.WORDS, f"cannot use {self.certificate}, its key or --client-ca: {error}") from error
        return found


@dataclass(frozen=True)
class ApiOptions:
    socket: Path
    socket_mode: int
    state: Path  # firmd's folder
    places: dict[str, TenantPaths]
    operators: Operators
    queues: Mapping[str, QueueOptions]  # by tenant
    tls: Tls | None
    tokens: Path | None


class StopSignal(Exception):
    """A signal to stop has come."""


class ApiProcess:
    """One of the two processes."""

    def __init__(self, options: ApiOptions, name: str, peer: socket.socket) -> None:
        self._options, self._name, self._peer = options, name, peer
        self._faults = Faults()
        self._stopped = asyncio.Event()
        self._other_serves = asyncio.Event()
        self._missed: set[str] = set()  # tenants of which the other process has not been told all
        self._beginning: set[asyncio.Task[None]] = set()  # connections of the other process
        self._fault: Fault | None = None
        self._faults.give_up = self.give_up
        self._tokens = Tokens(options.tokens) if options.tokens is not None else None
        peer.setblocking(False)

    def give_up(self, fault: Fault) -> None:
        self._fault = fault
        self._stopped.set()

    async def run(self, listening: socket.socket | None) -> None:
        """Serve until a signal to stop. Raise the fault that ended it otherwise."""
        from .serving import ApiServer

        loop = asyncio.get_running_loop()
        for sign in (signal.SIGTERM, signal.SIGINT):
            loop.add_signal_handler(sign, self._stopped.set)
        tell_changed = self._tell_changed if self._name == CHANGES else None
        self._server = ApiServer(self._options, self._name, self._faults, self._tokens, tell_changed)
        await self._server.start()
        gates = self._server.gates
        relief = FdPressure(self._faults, b"")
        relief.look_at(gates.held)
        acceptors = []
        if listening is not None:
            gates.hand_over = self._hand_over
            acceptors.append(Acceptor(listening, "api", gates.connect, relief, self._faults))
        elif (tls := self._options.tls) is not None:
            ssl_protocol().max_size = TLS_BYTES
            context = tls.context()
            for one in await loop.run_in_executor(None, partial(listen, tls.address)):
                acceptors.append(Acceptor(one, "api", gates.connect, relief, self._faults))
                acceptors[-1].tls = context
        loop.add_reader(self._peer, self._receive)
        if self._tokens is not None:
            self._tokens.look()
        works: list[Coroutine[Any, Any, None]] = [self._look_for_ever(), *self._server.tenants.works()]
        works.append(self._report_ready())
        try:
            async with asyncio.TaskGroup() as tasks:
                for work in works:
                    tasks.create_task(work)
                status = Exit.INTERNAL  # of a work that fails
                try:
                    await self._stopped.wait()
                    end = self._fault or StopSignal()  # what it meets while it ends is none
                    status = Exit.SERVED if self._fault is None else self._fault.status
                    for acceptor in acceptors:
                        acceptor.close()
                    await gates.close()  # before the queues end
                    raise end
                finally:
                    end_within(QUEUES_SECONDS, status)
        except* StopSignal:
            pass
        finally:
            loop.remove_reader(self._peer)
            for acceptor in acceptors:
                acceptor.close()
            await gates.close()

    def _hand_over(self, connection: socket.socket, data: bytes) -> None:
        """Give a connection to the other process, with what has been read of it."""
        socket.send_fds(self._peer, [CONNECTION + data], [connection.fileno()])

    def _tell_changed(self, tenant: str, changes: Sequence[TaskChange] | str) -> None:
        """Tell the other process what a commit has changed, or later that it has missed some; or whether the rows are
        to be shown, which is told again."""
        if isinstance(changes, str):
            self._is_told(tenant, changes)
            return
        for at in range(0, len(changes), MESSAGE_ROWS):
            if tenant not in self._missed and not self._is_told(tenant, changes[at : at + MESSAGE_ROWS]):
                self._missed.add(tenant)

    def _is_told(self, tenant: str, changes: Sequence[TaskChange] | str | None) -> bool:
        try:
            self._peer.send(CHANGED + json.dumps([tenant, changes]).encode())
        except BlockingIOError:
            return False
        except OSError:  # it has ended
            return True
        return True

    def _receive(self) -> None:
        """Take a connection, or counts, of the other process."""
        try:
            message, files, _, _ = socket.recv_fds(self._peer, MESSAGE_BYTES, 1)
        except BlockingIOError:
            return
        except OSError as error:
            return self.give_up(Fault(Exit.INTERNAL, f"the other process: {error}"))
        if not message:
            asyncio.get_running_loop().remove_reader(self._peer)
            self.give_up(Fault(Exit.INTERNAL, "the other process has ended"))
        elif message.startswith(CHANGED):
            self._server.tenants.take_changed(*json.loads(message[1:]))
        elif message.startswith(CONNECTION) and not files:
            self._faults.count("client", "a connection had no descriptor here")
        elif files:
            task = asyncio.get_running_loop().create_task(self._begin(socket.socket(fileno=files[0]), message[1:]))
            self._beginning.add(task)
            task.add_done_callback(self._beginning.discard)
        else:
            self._server.metrics.take(message)
            self._other_serves.set()

    async def _report_ready(self) -> None:
        """Report once that both processes serve: the other sends its counts as soon as it does."""
        await self._other_serves.wait()
        await self._server.tenants.begun()
        if self._name == CHANGES:
            logs.tell(logs.INFO, "ready")
            notify(b"READY=1")

    async def _begin(self, connection: socket.socket, data: bytes) -> None:
        with suppress(OSError):
            connection.setblocking(False)
            loop = asyncio.get_running_loop()
            _, gate = await loop.connect_accepted_socket(self._server.gates.connect, connection)
            if not gate.transport.is_closing():
                gate.take(data)

    async def _look_for_ever(self) -> None:
        if self._name == READS:  # its first counts say that it can answer
            await self._server.tenants.known()
        while True:
            if self._tokens is not None:
                self._tokens.look()
            metrics = self._server.metrics
            metrics.connections = len(self._server.gates.open)
            self._missed -= {tenant for tenant in self._missed if self._is_told(tenant, None)}
            self._server.tenants.tell_away()
            with suppress(OSError):
                self._peer.send(metrics.message())
            await asyncio.sleep(LOOK_SECONDS)


def end_within(seconds: float, status: int) -> None:
    """Have this process end by then, though threads of queues hang: what was acknowledged is on the disk."""

    def end() -> None:
        logs.tell(logs.WARNING, "a queue has not ended in time; what it has acknowledged is on the disk")
        os._exit(status)  # the other process ends with this one

    timer = Timer(seconds, end)
    timer.daemon = True
    timer.start()


def ssl_protocol() -> Any:
    from asyncio import sslproto

    return sslproto.SSLProtocol


def listen(address: Address) -> list[socket.socket]:
    try:
        return address.listen()
    except OSError as error:
        raise Fault(Exit.SOCKET, f"cannot listen at {address.host} port {address.port}: {error}") from error


def place_of(text: str) -> tuple[str, Path]:
    name, equals, path = text.partition("=")
    if not equals or not path or not is_name(name.encode()):
        raise argparse.ArgumentTypeError(f"{text!r} is not TENANT=PATH")
    return name, Path(path)


def group_of(text: str) -> tuple[str, int]:
    name, path = place_of(text)
    return name, GROUP.argument(str(path))


def tenants_of(text: str) -> tuple[str, ...]:
    names = tuple(text.split(","))
    if not all(is_name(name.encode()) for name in names):
        raise argparse.ArgumentTypeError(f"{text!r} is not a list of tenants with commas between them")
    return names


def user_of(text: str) -> int:
    number = number_of(text)
    if number is None:
        raise argparse.ArgumentTypeError(f"there is no user {text}")
    return number


def parser() -> argparse.ArgumentParser:
    found = argparse.ArgumentParser(prog="firm-api", description=(__doc__ or "").splitlines()[0])
    add_version(found)
    verbs = found.add_subparsers(dest="verb", required=True)
    raw = argparse.RawDescriptionHelpFormatter
    run = verbs.add_parser("run", help="serve the API", epilog=EXITS, formatter_class=raw)
    add = run.add_argument
    add("--config", type=Path, metavar="FILE", help="firmd's configuration file, which has all other settings")
    told = "a process with which to end: firmd's, which starts it, and gives it the file's text as standard input"
    add("--parent", type=int, metavar="PID", help=told)
    add("--state", type=Path, metavar="DIR", help="firmd's state folder, with its view")
    told = "a tenant's client socket of firmd; who may connect to it may send lines here"
    add("--lines", type=place_of, action="append", default=[], metavar="TENANT=PATH", help=told)
    told = "a tenant's queue: the folder of its state; the tenant needs --lines"
    add("--queue", type=place_of, action="append", default=[], metavar="TENANT=DIR", help=told)
    told = "who may have work in a tenant's queue (default: all who reach the socket)"
    add("--users", type=group_of, action="append", default=[], metavar="TENANT=GROUP", help=told)
    for setting in API:
        setting.add(run, "600" if setting.key == "mode" else setting.default)
    bounds = run.add_argument_group("bounds of each queue")
    for setting in BOUNDS:
        if setting.option is not None:
            setting.add(bounds)
    bounds.add_argument("--no-rounds", action="store_true", help="ask for no rounds, where firmd has --after")
    logs.add_form(run)
    token = verbs.add_parser("token", help="make a token, and print it once")
    token.add_argument("--tokens", type=Path, required=True, metavar="FILE", help="the file to add it to")
    token.add_argument("--user", type=user_of, required=True, metavar="NAME", help="whose work it submits")
    token.add_argument("--role", choices=ROLES, default="user", help="what it may do (default: %(default)s)")
    token.add_argument("--tenants", type=tenants_of, required=True, metavar="NAME,..", help="with which tenants")
    told = "add the certificate of a client instead"
    token.add_argument("--client-certificate", type=Path, metavar="FILE", help=told)
    return found


def options_of(given: argparse.Namespace) -> ApiOptions:
    if given.socket is None or given.state is None:
        raise Fault(Exit.WORDS, "name --config, or --state and --socket")
    lines, queues, users = dict(given.lines), dict(given.queue), dict(given.users)
    if lacking := queues.keys() - lines.keys() or users.keys() - queues.keys():
        raise Fault(Exit.WORDS, f"{min(lacking)} has no --lines or no --queue")
    places = {name: TenantPaths(name, lines[name], queues.get(name), users.get(name)) for name in lines}
    if (given.tls is None) != (given.certificate is None) or (given.certificate is None) != (given.key is None):
        raise Fault(Exit.WORDS, "--tls, --certificate and --key go together")
    values = {setting.key: getattr(given, setting.attribute) for setting in BOUNDS if setting.option is not None}
    of_queues = queue_options({**values, "ask_rounds": not given.no_rounds})
    place = (given.socket, int(given.socket_mode, 8), given.state, places, Operators(given.operators))
    return ApiOptions(*place, dict.fromkeys(places, of_queues), tls_of(vars(given)), given.tokens)


def queue_options(values: Mapping[str, Any]) -> QueueOptions:
    """Return the bounds of a queue, of the values of its settings."""
    sizes = [values[key] for key in ("max_tasks_of_user", "max_tasks", "max_array", "budget", "max_weight", "shares")]
    terms = Terms(values["lease_seconds"], values["margin_seconds"], values["keep_history_days"] * DAY_SECONDS)
    return QueueOptions(QueueLimits(*sizes), SyncOptions(values["max_in_firm"], values["ask_rounds"]), terms)


def tls_of(values: Mapping[str, Any]) -> Tls | None:
    if values["tls"] is None:
        return None
    return Tls(values["tls"], values["certificate"], values["key"], values["client_ca"])


def configured(path: Path, file: IO[bytes] | None = None) -> ApiOptions:
    """Return the options of firmd's configuration file, or of its text in an open one. Raise `Fault` if something is
    wrong with it."""
    try:
        configuration = Configuration(SettingsFile.read(path) if file is None else SettingsFile.of(path, file))
    except (OSError, ValueError) as error:
        raise Fault(Exit.WORDS, f"cannot read {path}: {error}") from error
    for finding in configuration.file.findings:
        raise Fault(Exit.WORDS, f"{path}:{finding.line}: {finding}")
    logs.begin("firm-api", configuration[""]["log_format"])
    values, tenants = configuration["api"], configuration.tenants
    places = {
        name: TenantPaths(name, tenant.lines, tenant.queue, tenant.values["users"]) for name, tenant in tenants.items()
    }
    queues = {name: queue_options(tenant.values) for name, tenant in tenants.items()}
    socket, mode = configuration.socket("api", "socket"), int(values["mode"], 8)
    place = (socket, mode, configuration.state, places, Operators(values["operators"]))
    return ApiOptions(*place, queues, tls_of(values), values["tokens"])


def serve(options: ApiOptions) -> None:
    """Serve by two processes. The child has the socket; this one ends with it."""
    from .agents import MAX_AGENTS
    from .bounded import MAX_CONNECTIONS, MAX_STRANGERS

    import_module(".serving", __package__)  # before there are two processes, which share it
    if options.tls is not None:
        options.tls.context()  # a fault is told before anything is served
    queues = sum(place.queue is not None for place in options.places.values())
    allow_files(MAX_CONNECTIONS + MAX_STRANGERS + MAX_AGENTS * queues)
    names = Names()
    listening = names.listen(options.socket, options.socket_mode)
    own, others = socket.socketpair(socket.AF_UNIX, socket.SOCK_SEQPACKET)
    parent = os.getpid()
    child = os.fork()
    if child == 0:
        own.close()
        end_with(parent)
        sys.setswitchinterval(SWITCH_SECONDS)
        os._exit(run_child(options, listening, others))
    listening.close()
    others.close()
    sys.setswitchinterval(SWITCH_SECONDS)
    try:
        asyncio.run(run(options, CHANGES, own, None))
    finally:
        names.remove()
        with suppress(ProcessLookupError):
            os.kill(child, signal.SIGTERM)
        os.waitpid(child, 0)


def run_child(options: ApiOptions, listening: socket.socket, peer: socket.socket) -> int:
    try:
        asyncio.run(run(options, READS, peer, listening))
    except BaseException as error:
        fault = fault_in(error)
        logs.tell(logs.ERROR, f"the process for reads has failed: {fault or ''}", error if fault is None else None)
        return 1
    return 0


async def run(options: ApiOptions, name: str, peer: socket.socket, listening: socket.socket | None) -> None:
    await ApiProcess(options, name, peer).run(listening)


def main(arguments: list[str] | None = None) -> int:
    given = parser().parse_args(arguments)
    logs.begin("firm-api", getattr(given, "log_format", "text"))
    try:
        if getattr(given, "parent", None) is not None:
            end_with(given.parent)
            give_way(0, OUT_OF_MEMORY_SCORE)
        if given.verb == "token":
            made = grant(given.tokens, Grant(given.user, given.role, given.tenants), given.client_certificate)
            print(made, end="\n" if made else "")
        else:
            withhold()  # from what answers questions
            handed = None if given.parent is None else sys.stdin.buffer
            serve(options_of(given) if given.config is None else configured(given.config, handed))
    except ImportError as error:
        logs.tell(
            logs.ERROR, f"a package is missing, {error.name}: apt-get install python3-aiohttp python3-prometheus-client"
        )
        return Exit.WORDS
    except Exception as error:
        fault = fault_in(error)
        if fault is None:
            raise
        logs.tell(logs.ERROR, str(fault))
        return fault.status
    return Exit.SERVED


if __name__ == "__main__":
    sys.exit(main())
