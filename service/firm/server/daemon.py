"""firmd: firm as a service for many clients.

It runs one firm, writes a journal of its lines, and listens on Unix sockets. docs/OPERATING.md explains its use.
"""

from __future__ import annotations

import argparse
import asyncio
import gc
import os
import shutil
import signal
import socket
import sys
import time
from collections.abc import Callable, Iterator
from contextlib import contextmanager, suppress
from functools import partial
from pathlib import Path
from typing import TYPE_CHECKING

from ..common import logs
from ..common.accept import Acceptor
from ..common.books import Books
from ..common.bounds import ByteLimits
from ..common.capabilities import raised, withhold
from ..common.faults import Exit, Fault, Faults, reason, say
from ..common.fd_pressure import SHORTAGES, FdPressure, abort, note_uncaught, source_of
from ..common.lines import is_name
from ..common.service_manager import allow_files, notify
from ..common.sockets import Names
from ..common.version import add_version
from . import budgets
from .api_child import ApiChild
from .archive import Keeping
from .clients import Client, Clients, ClientLimits, Listener
from .fair_selector import FairSelector
from .feeder import Feeder, ViewerSources
from .firm_process import FirmProcess
from .firm_state import Opening
from .journal import Journal, SegmentLimit
from .measure import load_of
from .observers import WARNED_SHARE, Status
from .replicated.faults import Anew
from .replicated.options import require_lone
from .replicated.point import Point, has_point, opening_point, point_of
from .rights import Rights
from .rounds import Rounds, Times
from .settings import FILE, SECTIONS
from .snapshots import Snapshot, last, opening_of
from .snapshotting import Settings, Snapshots
from .state import JOURNAL, ServiceState
from .stored_books import opening_books, read_books
from .stream import Options, Stream
from .tenant_queues import TenantQueueLimits
from .tenant_register import TenantRegister

if TYPE_CHECKING:
    from .replicated.journal import ReplicatedJournal
    from .replicated.replica import Replica

SWITCH_SECONDS = 0.0002  # until a busy loop yields to the writer, which waits for it several times a line
TICK_SECONDS = 0.1  # between updates of the status
CLOSING_SECONDS = 0.05  # until dropped connections are closed
LOAD_SECONDS = 1.0  # between updates of the load of each tenant and socket
VIEW_MODE = 0o600  # other users read through firm-api, which decides what each may see
WORKERS = 2  # of firm, by default
ROUNDS_OF_WORKER = 2  # under way: one in the solver, and one on its way there
OPTIONS = ("rounds", "limits", "budgets", "snapshots", "etcd")  # sections with options of firmd
BESIDE_FILE = (
    "config",
    "restore",
    "etcd_begin",
    "firm",
)  # options of the command line that are allowed with a configuration file
# Defaults of the command line that differ from the file's.
COMMAND_LINE: dict[str, str | None] = {"--state": None, "--roster": None, "--socket-mode": "600"}
BUILT = Path(__file__).resolve().parents[3] / "crates" / "firm" / "out" / "firm"
EXITS = """\
exit statuses, each but 0 with the reason on standard error:
  0  stopped by SIGTERM or SIGINT; each accepted line is answered
  1  an internal error of firmd
  2  the command line
  3  the roster can't be read, firm refuses it, or it is not the state's
  4  the state can't be read or written, as on a full disk, or another firmd has it; or firm or etcd does not answer,
     or another replica leads
  5  a part of the state is missing, damaged or differs from etcd, or firm's replies differ from the stored ones
  6  firm can't be started, ended by itself, or ran out of memory in the replay
  7  a socket can't be made"""


class Daemon:
    """One service, from its start to its end."""

    def __init__(self, options: argparse.Namespace, selector: FairSelector) -> None:
        self._options, self._selector = options, selector
        self._state = ServiceState(options.state)
        self._replica = replica_of(options)
        self._program = [options.firm, *(["--workers", str(options.workers)] if options.workers is not None else [])]
        if self._replica is None:
            require_lone(self._state)
            self._opened = self._state.begin(options.opening, self._program)
        else:
            self._opened = self._replica.begin(self._state, self._program)
        self._names = Names()
        self._faults = Faults()
        self._api: ApiChild | None = None
        self._has_warned = self._is_stop_requested = False

    async def run(self) -> None:
        """Serve until a signal stops it. Raise the fault that ends it otherwise."""
        started = time.time()
        snapshot = last(self._state) if self._replica is None else last(self._state, fits=has_point)
        room = SegmentLimit(self._options.segment_bytes, self._options.snapshot_lines or None)
        own = Journal(self._state, room, snapshot.base if snapshot is not None else self._state.base)
        point = point_of(snapshot) if snapshot is not None else opening_point(self._state.renewed)
        self._replicated = self._replica.open(own, point or Point()) if self._replica is not None else None
        opening = opening_of(self._state, snapshot) if snapshot is not None else self._state.opening
        firm = FirmProcess([*self._program, *opening.words()])
        self._status = Status(
            started=started,
            firm_process=firm.process.pid,
            clients=0,
            unread_replies=0,
            journal_bytes=0,
            journal_limit=self._options.journal_limit,
            replayed_lines=0,
            lines=0,
            process=os.getpid(),
        )
        with uncollected():
            self._books = self._begin_books(snapshot)
        loop = asyncio.get_running_loop()
        register = TenantRegister(name.encode() for name in self._books.tenants)
        self._accounts = budgets.Accounts(budgets.budgets_of(self._options), register, self._status, loop.time)
        rounds = ROUNDS_OF_WORKER * (self._options.workers or WORKERS)
        bounds = TenantQueueLimits(self._options.most_waiting_of_tenant, rounds)
        options = Options(bounds, self._options.firm_timeout)
        self._stream = Stream(firm, self._replicated or own, self._accounts, self._faults, options)
        self._relief = FdPressure(self._faults)
        self._faults.give_up = self._stream.fail
        own.on_shortage = self._relief.relieve_soon
        loop.set_exception_handler(self._note_error)
        for number in (signal.SIGTERM, signal.SIGINT):
            loop.add_signal_handler(number, self._stop)
        self._stream.observe(self._books)
        if self._replicated is not None:
            self._follow(self._replicated, partial(self._keep_snapshots, own, snapshot))
        try:
            if self._replica is None:
                self._start_api()  # during the replay: it accepts submissions meanwhile
            self._stream.start()
            await asyncio.wait([self._stream.replayed, self._stream.ended], return_when=asyncio.FIRST_COMPLETED)
            if not self._stream.ended.done():
                if self._replicated is None:
                    self._keep_snapshots(own, snapshot)
                await self._serve()
            await self._stream.ended
        except Anew:
            if not self._is_stop_requested:
                raise
        finally:
            if self._replicated is not None:
                self._replicated.leave()  # also after a fault
            if self._api is not None:
                await self._api.close()

    def _start_api(self) -> None:
        """Start firm-api with the configuration file, if any."""
        if self._options.configuration is not None:
            self._api = ApiChild(self._options.configuration.file, self._faults)
            self._api.start()

    def _follow(self, journal: ReplicatedJournal, keep_snapshots: Callable[[], None]) -> None:
        """Replay until this replica leads, or is stopped."""
        loop = asyncio.get_running_loop()
        journal.on_fault = partial(call_soon, loop, self._stream.fail)
        journal.on_following = partial(call_soon, loop, self._report_following, keep_snapshots)
        self._stream.on_stop = journal.stop
        self._stream.observe(journal.digests)

    def _report_following(self, keep_snapshots: Callable[[], None]) -> None:
        say(f"following: {self._status.lines:,} lines so far", logs.INFO)
        notify(b"READY=1")
        keep_snapshots()

    def _begin_books(self, snapshot: Snapshot | None) -> Books:
        """Return the books before the lines of the replay."""
        if snapshot is None:
            return opening_books(self._state, self._opened)
        try:
            return read_books(snapshot.state, snapshot.books, snapshot.base.lines)
        except ValueError as error:
            what = f"the snapshot {snapshot.base.segment:08} in {self._state.snapshots_path}"
            raise Fault(Exit.JOURNAL, f"{what} is of another version of firmd, move it away: {error}") from error

    def _keep_snapshots(self, journal: Journal, snapshot: Snapshot | None) -> None:
        options = self._options
        if options.snapshot_lines:
            settings = Settings(
                options.snapshot_lines,
                options.snapshot_minutes * 60,
                Keeping(options.keep, options.archive),
                self._program,
                options.firm_timeout,
                options.log_format,
            )
            shared = self._replicated.shared if self._replicated is not None else None
            Snapshots(self._stream, journal, settings, self._faults, shared).start(snapshot)

    async def _serve(self) -> None:
        together = ByteLimits(self._options.most_unread_of_socket, self._options.most_unread_in_all)
        unanswered = ByteLimits(self._options.most_unanswered_of_socket, self._options.most_unanswered_in_all)
        limits = ClientLimits(self._options.most_clients, self._options.most_unread, together, unanswered)
        clients = Clients(self._stream, limits, self._accounts, self._faults, self._selector)
        self._relief.look_at(clients.of_sockets)
        rounds = Rounds(self._books, self._stream, Times(self._options.every, self._options.after), self._faults)
        if self._options.after is not None:
            self._stream.observe(rounds)
        self._stream.on_stop = partial(self._stop_accepting, clients, rounds)
        servers: list[Acceptor] = []
        feeder: Feeder | None = None
        try:
            sources = ViewerSources(self._books, self._status, self._faults, self._state.id or "")
            feeder = Feeder(sources, self._listen_view(), self._options.log_format)
            servers = self._listen(clients)
            self._stream.on_late = partial(self._give_way, clients, servers)
            self._stream.observe(feeder)
            feeder.start()
            rounds.start()
            if self._api is None:  # of a replica, once it leads
                self._start_api()
            seconds = time.time() - self._status.started
            say(f"ready: {self._status.replayed_lines:,} lines replayed in {seconds:.1f} s", logs.INFO)
            notify(b"READY=1")
            await self._tick(clients, feeder)
        except Fault as fault:
            self._stream.fail(fault)
        finally:
            if self._replicated is not None:
                self._replicated.leave()  # before clients may read on for some seconds
            self._names.remove()
            for server in servers:
                server.close()
            if self._api is not None:
                await self._api.close()  # which is a client too
            await clients.close()
            if feeder is not None:
                await feeder.close()

    async def _tick(self, clients: Clients, feeder: Feeder) -> None:
        """Update status and load until the stream ends."""
        async with asyncio.TaskGroup() as group:
            ticking = [
                group.create_task(self._repeat(partial(self._update_status, clients, feeder), TICK_SECONDS)),
                group.create_task(self._repeat(partial(self._update_load, clients, feeder), LOAD_SECONDS)),
            ]
            await asyncio.wait([self._stream.ended])
            for task in ticking:
                task.cancel()

    def _give_way(self, clients: Clients, servers: list[Acceptor]) -> None:
        """Let another replica lead if this one's disk hangs. Close clients first: while the disk holds a thread, the
        system closes no connection of an ending process."""
        if self._replicated is None:
            return
        for server in servers:
            server.close()
        for client in list(clients.connected):
            client.drop()
        say("ending, so that another replica leads", logs.ERROR)
        asyncio.get_running_loop().call_later(CLOSING_SECONDS, self._replicated.give_way)

    def _listen(self, clients: Clients) -> list[Acceptor]:
        servers: list[Acceptor] = []
        for listener in self._options.listeners:
            listening = self._names.listen(listener.path, self._options.socket_mode)
            client = partial(Client, clients, listener.rights)
            name = listener.rights.socket
            self._selector.join(listening.fileno(), name)
            servers.append(Acceptor(listening, name.decode(), client, self._relief, self._faults))
        return servers

    def _listen_view(self) -> socket.socket:
        """Listen for readers. Replace a dead firmd's socket: only this process has the state."""
        path = self._state.view_path
        with suppress(OSError):
            if path.is_socket():
                path.unlink()
        return self._names.listen(path, VIEW_MODE)

    def _stop(self) -> None:
        self._is_stop_requested = True
        say("stopping: draining accepted requests", logs.INFO)
        notify(b"STOPPING=1")
        self._stream.stop()

    def _stop_accepting(self, clients: Clients, rounds: Rounds) -> None:
        rounds.stop()
        if self._api is not None:
            self._api.end()
        clients.stop_reading()

    async def _repeat(self, update: Callable[[], None], seconds: float) -> None:
        """Repeat an update, even if one fails."""
        while True:
            try:
                update()
            except Exception as error:
                self._faults.note("status", error)
            await asyncio.sleep(seconds)

    def _update_load(self, clients: Clients, feeder: Feeder) -> None:
        feeder.send_load(load_of(self._stream, clients, self._accounts))

    def _update_status(self, clients: Clients, feeder: Feeder) -> None:
        """Update the status, and warn of a journal near its limit."""
        self._status.clients = len(clients.connected)
        self._status.unread_replies = clients.unread_bytes()
        self._status.owed_bytes = clients.backlog.account.total
        if self._replicated is not None:
            etcd = self._replicated.housekeeper.told
            self._status.etcd_bytes, self._status.etcd_quota = etcd.etcd_bytes, etcd.quota_bytes
            self._status.replicas = etcd.kept
        used, most = self._status.journal_bytes, self._status.journal_limit
        has_warned, self._has_warned = self._has_warned, used > most * WARNED_SHARE
        if self._has_warned and not has_warned:
            say(
                f"warning: the journal has {used:,} of {most:,} bytes that firm reads, "
                "and firm is not restarted from a snapshot yet; see 'Snapshots' in docs/OPERATING.md"
            )
        feeder.send_status()

    def _note_error(self, loop: asyncio.AbstractEventLoop, context: dict[str, object]) -> None:
        """Report an uncaught error. Stream and journal catch their own, so it ends one connection at most."""
        error = context.get("exception")
        if isinstance(error, OSError) and error.errno in SHORTAGES:
            self._relief.relieve()
            abort(context)
        else:
            note_uncaught(self._faults, "client" if isinstance(source_of(context), Client) else "loop", context)


def replica_of(options: argparse.Namespace) -> Replica | None:
    """Return this firmd as a replica, if the options name etcd."""
    if options.etcd is None:
        return None
    from .replicated.replica import Replica  # here, since a lone firmd needs none of it

    return Replica(options)


@contextmanager
def uncollected() -> Iterator[None]:
    """Exempt the objects of the block from garbage collection: they stay, and a collection would double the time."""
    gc.disable()
    try:
        yield
    finally:
        gc.freeze()
        gc.enable()


def call_soon(loop: asyncio.AbstractEventLoop, call: Callable[..., None], *arguments: object) -> None:
    """Call a function in the loop, from any thread; do nothing if the loop has ended."""
    with suppress(RuntimeError):
        loop.call_soon_threadsafe(call, *arguments)


def bound_listener(text: str) -> Listener:
    tenant, equals, path = text.partition("=")
    if not equals or not path or not is_name(tenant.encode()):
        raise argparse.ArgumentTypeError(f"{text!r} is not NAME=PATH, with the name of a tenant")
    return Listener(Path(path), Rights(tenant=tenant.encode()))


def default_firm() -> str:
    return str(BUILT) if BUILT.exists() else shutil.which("firm") or str(BUILT)


def add_settings(found: argparse._ActionsContainer, section: str) -> None:
    """Add the options of a section of the settings."""
    for setting in SECTIONS[section]:
        if setting.option is not None:
            setting.add(found, COMMAND_LINE.get(setting.option, setting.default))


def parser() -> argparse.ArgumentParser:
    found = argparse.ArgumentParser(
        prog="firmd",
        description="firm as a service for many clients; see docs/OPERATING.md",
        epilog=EXITS,
        formatter_class=argparse.RawDescriptionHelpFormatter,
    )
    add_version(found)
    add = found.add_argument
    explained = f"configuration file with all other settings (default without --state: {FILE})"
    add("--config", type=Path, metavar="FILE", help=explained)
    explained = "another service's state to begin with, as firm_state writes it"
    add("--restore", type=Path, metavar="FILE", help=explained)
    explained = "start an etcd without lines from this state's, if no other replica has more"
    add("--etcd-begin", action="store_true", help=explained)
    add("--firm", default=default_firm(), metavar="PROGRAM", help="the built program (default: %(default)s)")
    add_settings(found.add_argument_group("without a configuration file"), "")
    sockets = found.add_argument_group("sockets, at least one")
    add_settings(sockets, "sockets")
    add = sockets.add_argument
    explained = "socket for the lines of one tenant; may be repeated"
    add("--client", type=bound_listener, action="append", default=[], metavar="NAME=PATH", help=explained)
    for section in OPTIONS:
        add_settings(found.add_argument_group(section), section)
    return found


def read_options(arguments: list[str]) -> argparse.Namespace:
    found = parser()
    options = found.parse_args(arguments)
    options.configuration = None
    if options.config is not None or options.state is None:
        read_configuration(found, options)
    else:
        check_options(found, options)
    options.socket_mode = int(options.socket_mode, 8)
    if options.after is not None:
        options.after /= 1_000
    return options


def check_options(found: argparse.ArgumentParser, options: argparse.Namespace) -> None:
    """Exit with status 2 if options of the command line conflict."""
    open_listeners = [(options.socket, Rights()), (options.operator, Rights(is_operator=True))]
    options.listeners = [Listener(path, rights) for path, rights in open_listeners if path is not None]
    options.listeners += options.client
    if not options.listeners:
        found.error("name a socket: --socket, --operator or --client")
    if options.restore is not None and options.roster is not None:
        found.error("argument --roster: not allowed with argument --restore")
    options.opening = Opening(options.restore, True) if options.restore else None
    if options.roster is not None:
        options.opening = Opening(options.roster)
    if options.archive is not None and options.keep is None:
        found.error("--archive needs --keep")
    if options.archive is not None and options.archive.resolve() == (options.state / JOURNAL).resolve():
        found.error("--archive names the journal itself")
    paths = [listener.path for listener in options.listeners]
    if len(set(paths)) < len(paths):
        found.error("each socket needs its own path")
    if options.name is not None and options.etcd is None:
        found.error("--name needs --etcd")


def read_configuration(found: argparse.ArgumentParser, options: argparse.Namespace) -> None:
    """Read all settings from the configuration file. Exit with status 2 if it has a fault."""
    from .configuration import read_checked  # here, since only a start with a file needs its imports

    path = options.config or FILE
    for action in found._actions:
        if action.dest not in BESIDE_FILE and getattr(options, action.dest, action.default) != action.default:
            cure = f"set it in {path}, or name --state for a start without a file"
            found.error(f"{action.option_strings[-1]} and a configuration file exclude each other: {cure}")
    try:
        configuration = read_checked(path, os.geteuid(), options.restore is not None)
    except (OSError, ValueError) as error:
        found.error(f"cannot read {path}: {reason(error) if isinstance(error, OSError) else error}")
    logs.begin("firmd", configuration[""]["log_format"])
    for finding in configuration.file.findings:
        say(f"{path}:{finding.line}: {finding}", logs.WARNING if finding.is_warning else logs.ERROR)
    if not configuration.file.is_good:
        sys.exit(Exit.WORDS)
    for section in ("", "sockets", *OPTIONS):
        for setting in SECTIONS[section]:
            setattr(options, setting.attribute, configuration[section][setting.key])
    tenants = {tenant.lines: Rights(tenant.name.encode()) for tenant in configuration.tenants.values()}
    own = {configuration.socket("sockets", "any"): Rights()}
    own |= {configuration.socket("sockets", "operator"): Rights(is_operator=True)}
    options.listeners = [Listener(socket, rights) for socket, rights in (own | tenants).items()]
    options.opening = Opening(options.restore, True) if options.restore is not None else configuration.opening
    options.configuration = configuration


def main() -> int:
    options = read_options(sys.argv[1:])
    logs.begin("firmd", options.log_format)
    withhold()
    sys.setswitchinterval(SWITCH_SECONDS)
    allow_files(options.most_clients * len({listener.rights.socket for listener in options.listeners}))
    selector = FairSelector()
    try:
        with asyncio.Runner(loop_factory=partial(asyncio.SelectorEventLoop, selector)) as runner:
            runner.run(Daemon(options, selector).run())
    except Anew as anew:
        say(str(anew), logs.INFO)
        with raised():
            os.execv(sys.executable, [sys.executable, *sys.orig_argv[1:]])
    except Fault as fault:
        say(str(fault), logs.ERROR)
        return fault.status
    except KeyboardInterrupt:  # before the signals are handled
        return 128 + signal.SIGINT
    return Exit.SERVED
