"""`firmctl up`: a whole service on this host, for a first look and for development. Ctrl-C ends it.

It starts firmd, with firm-api, and one agent. Their configuration files and state stay in a folder, and a second start
continues from them. Operators start the same programs as units of systemd, which docs/OPERATING.md describes.
"""

from __future__ import annotations

import argparse
import fcntl
import json
import os
import shlex
import shutil
import signal
import subprocess
import sys
import time
from collections.abc import Iterator
from contextlib import contextmanager
from dataclasses import dataclass, field
from functools import partial
from pathlib import Path

from ..client.blocking import ApiClient, ApiError, LostAnswer, Unreachable
from ..client.calls import rows_of
from ..common.child import end_with
from ..common.fields import whole
from ..common.files import replace_synced, require_own
from ..common.roster import MAX_BYTES, faults_of, read_roster
from ..common.settings import MAX_SOCKET
from ..common.sizes import MAX_SLOTS, RECIPES, TenantSize, roster_of
from ..server.configuration import Configuration, read_checked
from .command_line import NOT_BUILT, NOT_THERE, NO_SERVICE, USAGE, Failure, Verbs
from .target import given, new_tenant

TENANT, MACHINE = "alpha", "m1"  # the defaults
JOBS, TASKS = 100, 1_000  # the size of firm's arena; more wait in the queue
START_SECONDS, STOP_SECONDS, POLL_SECONDS = 120.0, 30.0, 0.02
FILE, AGENT_FILE = "firm.toml", "agent.toml"
SERVER = """\
# The server of `firmctl up`, which keeps this file as it is. `firmctl check --defaults` prints all settings.
state = "firmd"
roster = "roster.csv"

[sockets]
folder = "."
mode = "600"

[api]
mode = "600"

[tenants.{tenant}]
"""
AGENT = """\
# The agent of `firmctl up`, which writes this file anew.
tenant = "{tenant}"
server = {server}
name = "host"
state = "agent"

[machines]
{machine} = {slots}
"""
MAX_NAME = 16  # of a tenant, whose socket is named after it
LAST_LINES = 5  # of a failed program's log, to show


@dataclass
class Service:
    """The programs of a service, started in order, and ended in the reverse order."""

    folder: Path
    server: str  # the API's address
    tenant: str
    slots: int
    programs: list[tuple[str, subprocess.Popen[bytes]]] = field(default_factory=list)

    def commands(self) -> Iterator[tuple[str, ...]]:
        """Yield the command lines of the programs."""
        yield "firmd", f"--config={self.folder / FILE}"
        agent = self.folder / AGENT_FILE
        server = json.dumps(self.server, ensure_ascii=False)
        agent.write_text(AGENT.format(server=server, tenant=self.tenant, machine=MACHINE, slots=self.slots))
        yield "firm-agent", "run", f"--config={agent}"

    def start(self) -> None:
        """Start the programs. Return once the agent's machine can run tasks."""
        for words in self.commands():
            with open(self.log(words[0]), "wb") as log:
                begun = subprocess.Popen(
                    [program_of(words[0]), *words[1:]],
                    stdin=subprocess.DEVNULL,
                    stdout=log,
                    stderr=log,
                    start_new_session=True,  # so that Ctrl-C doesn't reach them
                    preexec_fn=partial(end_with, os.getpid()),
                )
            self.programs.append((words[0], begun))
        ends = time.monotonic() + START_SECONDS
        while not self.is_up():
            self.require_all()
            if time.monotonic() > ends:
                raise Failure(NO_SERVICE, f"no machine is up after {START_SECONDS:.0f} s; {self.folder} has the logs")
            time.sleep(POLL_SECONDS)

    def is_up(self) -> bool:
        client = ApiClient(self.server, self.tenant)
        client.patience = 0.0
        try:
            return any(row["state"] == "up" for row in client.ask(rows_of("machines")))
        except (ApiError, LostAnswer, Unreachable):
            return False

    def require_all(self) -> None:
        """Raise `Failure` if a program has ended."""
        for name, program in self.programs:
            if program.poll() is not None:
                said = self.log(name).read_text(errors="replace").splitlines()[-LAST_LINES:]
                last = "".join(f"; {line}" for line in said)
                raise Failure(NOT_BUILT, f"{name} ended with status {program.returncode}{last}")

    def stop(self) -> None:
        for _, program in reversed(self.programs):
            program.terminate()
            try:
                program.wait(STOP_SECONDS)
            except subprocess.TimeoutExpired:
                program.kill()
                program.wait()

    def log(self, name: str) -> Path:
        return self.folder / f"{name}.log"


def program_of(name: str) -> str:
    """Return the path of another of these programs: next to firmctl, or on the PATH."""
    beside = Path(sys.argv[0]).resolve().with_name(name)
    found = str(beside) if beside.exists() else shutil.which(name)
    if found is None:
        raise Failure(NOT_BUILT, f"{name} is not installed")
    return found


def default_folder() -> Path:
    """Return the folder of state, as the XDG Base Directory Specification has it."""
    return Path(os.environ.get("XDG_STATE_HOME") or Path.home() / ".local" / "state") / "firm"


def prepared(options: argparse.Namespace) -> Service:
    """Return the service in the folder. Make a missing folder, with its roster."""
    folder = Path(options.state or default_folder()).absolute()
    if len(os.fsencode(folder / f"{'x' * MAX_NAME}.lines")) > MAX_SOCKET:
        raise Failure(USAGE, f"{folder}: too long for a Unix socket's path, which has at most {MAX_SOCKET} bytes")
    roster = folder / "roster.csv"
    try:
        folder.mkdir(mode=0o700, parents=True, exist_ok=True)
        require_own(folder)  # the logs are written there
        if not roster.exists():
            tenant = new_tenant(given(options, "tenant") or TENANT)
            limits = TenantSize(1, MAX_SLOTS, JOBS, TASKS).limits(tenant, RECIPES["pack"])
            replace_synced(roster, roster_of(limits).encode())
        with open(roster, "rb") as file:
            data = file.read(MAX_BYTES + 1)
    except OSError as error:
        raise Failure(USAGE, f"{folder}: {error.strerror}") from error
    for fault in faults_of(data):
        raise Failure(USAGE, f"{roster}:{fault.line}: {fault}")
    tenants = [limits.tenant for limits in read_roster(data)]
    named = given(options, "tenant") or next(iter(tenants), TENANT)
    if named not in tenants:
        raise Failure(USAGE, f"{folder} has the tenant {', '.join(tenants)}; for {named} name another --state")
    try:
        if not (folder / FILE).exists():
            replace_synced(folder / FILE, SERVER.format(tenant=named).encode())
    except OSError as error:
        raise Failure(USAGE, f"{folder / FILE}: {error.strerror}") from error
    return Service(folder, f"unix:{configured(folder / FILE).socket('api', 'socket')}", named, options.slots)


def configured(path: Path) -> Configuration:
    """Return the configuration of a file. Raise `Failure` if it has faults."""
    try:
        found = read_checked(path, os.geteuid())
    except (OSError, ValueError) as error:
        raise Failure(USAGE, f"cannot read {path}: {error}") from error
    if not found.file.is_good:
        raise Failure(USAGE, "\n  ".join(f"{path}:{finding.line}: {finding}" for finding in found.file.findings))
    return found


@contextmanager
def until_signalled() -> Iterator[None]:
    """End as at Ctrl-C if the terminal closes or the process is terminated, unless `nohup` ignores that."""

    def interrupt(*_: object) -> None:
        raise KeyboardInterrupt

    heeded = [number for number in (signal.SIGTERM, signal.SIGHUP) if signal.getsignal(number) != signal.SIG_IGN]
    before = {number: signal.signal(number, interrupt) for number in heeded}
    try:
        yield
    except KeyboardInterrupt:
        pass
    finally:
        for number, handler in before.items():
            signal.signal(number, handler)


@contextmanager
def alone_in(folder: Path) -> Iterator[None]:
    """Lock the folder against another `firmctl up`."""
    held = os.open(folder, os.O_RDONLY | os.O_DIRECTORY)
    try:
        fcntl.flock(held, fcntl.LOCK_EX | fcntl.LOCK_NB)
        yield
    except BlockingIOError as error:
        raise Failure(NOT_THERE, f"{folder}: another firmctl up serves it") from error
    finally:
        os.close(held)


def up(options: argparse.Namespace) -> None:
    service = prepared(options)
    try:
        with alone_in(service.folder):
            serve(service)
    except OSError as error:
        raise Failure(NOT_BUILT, f"{error.filename or service.folder}: {error.strerror}") from error


def serve(service: Service) -> None:
    """Run the service until a signal comes or a program ends."""
    try:
        with until_signalled():
            service.start()
            slots = f"{service.slots} slot{'' if service.slots == 1 else 's'}"
            print(f"firm serves the tenant {service.tenant}, with {slots}; Ctrl-C ends it. In another shell:\n")
            print(f"export FIRM_SERVER={shlex.quote(service.server)} FIRM_TENANT={service.tenant}")
            print("firmctl submit -- hostname", flush=True)
            os.waitid(os.P_ALL, 0, os.WEXITED | os.WNOWAIT)
            service.require_all()
    finally:
        service.stop()


def add_up(verbs: Verbs) -> None:
    if not verbs.has("up"):
        return
    slots = min(MAX_SLOTS, len(os.sched_getaffinity(0)))
    command = verbs.add(
        "up",
        up,
        "run a whole service on this host, to try it: firmd, firm-api and an agent, until Ctrl-C",
        "A minute after its end, running tasks are ended, unless it is up again by then. The same --state keeps the\n"
        "queue and the history. --tenant names a new service's tenant (default: alpha).",
    )
    command.add_argument("--state", metavar="DIR", help="folder of its state (default: ~/.local/state/firm)")
    explained = f"running tasks at a time, 1 to {MAX_SLOTS} (default: the processors, %(default)s)"
    command.add_argument("--slots", metavar="N", type=whole(1, MAX_SLOTS).argument, default=slots, help=explained)
