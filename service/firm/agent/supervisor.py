"""Supervisors: each run of a task has a process of `supervisor.c`, which outlives the agent and is the parent of the
run's processes.

A run's folder has `process` (the claim: the process that has the run, or null if nobody ever will), `lease` (a named
pipe, so that neither a full disk nor one that hangs lets a run outlive its lease), `output` and, once no process is
left, `status`. A run is begun only within a lease and ends by itself with it, by CLOCK_BOOTTIME; each line of the pipe
is a later end. `process` and `status` are objects of JSON with a checksum: a run with a damaged one is lost, once
nothing is left of it. A claim names a token of its run, as events that are put back give out the same numbers under the
same name.

If a cgroup v2 can be written, the command and all that it starts are in one of the run's, so that nothing of it
outlives a killed supervisor unseen. The supervisor stands beside it.

Calls here may wait for disks that hang: the agent makes them in threads of their own.
"""

from __future__ import annotations

import asyncio
import errno
import json
import os
import pwd
import select
import signal
import subprocess
import time
from collections.abc import Callable, Collection, Iterator, Sequence
from contextlib import suppress
from pathlib import Path
from typing import NamedTuple

from ..common.files import make_folder
from .cgroups import LOOK_SECONDS, Group, NoGroup, limits_of
from .event_file import opened
from .state import Event
from .work import NotAllowed, Work

SOURCE = Path(__file__).with_name("supervisor.c")
PROGRAM = SOURCE.with_name("firm-supervisor")  # where the package has it, and a checkout builds it
COMPILE = ("cc", "-std=gnu11", "-O2", "-Wall", "-Wextra", "-Werror")
PROCESS, LEASE, STATUS, OUTPUT = "process", "lease", "status", "output"  # names in a run's folder
NO_VARIABLES: dict[str, str] = {}  # of a supervisor: those of a task could have it load what the task's user likes
NOBODY = "null"  # the text of a claim for nobody
SHARED = ("PATH", "LANG", "LC_ALL", "TZ")  # variables of this process that another user's command has too


class NoSupervisor(Exception):
    """Why there is no supervisor's program."""


def build(program: Path = PROGRAM, words: Sequence[str] = COMPILE) -> None:
    """Compile the program, unless it is there and as new as its source. Raise `NoSupervisor`."""
    if program.exists() and not (SOURCE.exists() and SOURCE.stat().st_mtime > program.stat().st_mtime):
        return
    draft = program.with_name(f"{program.name}.{os.getpid()}")  # others may build it at the same time
    try:
        done = subprocess.run([*words, "-o", str(draft), str(SOURCE)], capture_output=True, text=True)
    except FileNotFoundError:
        raise NoSupervisor(f"{words[0]}, which builds {program}, is missing: apt-get install gcc libc6-dev") from None
    if done.returncode != 0:
        raise NoSupervisor(f"{words[0]} can't build {program}: {done.stderr.strip()}")
    draft.replace(program)


class Process(NamedTuple):
    """A process by what no later one shares: its number alone is given again."""

    pid: int
    start: int  # in clock ticks from the boot
    boot: str

    @staticmethod
    def of(pid: int) -> Process:
        """Raises OSError where there is no such process."""
        fields = Path(f"/proc/{pid}/stat").read_text().rpartition(")")[2].split()
        return Process(pid, int(fields[19]), boot_id())

    def open(self) -> int | None:
        """A descriptor of the process, None where it has ended. Raise OSError where there is no room for one: what runs
        would be taken for ended, and killed."""
        try:
            descriptor = os.pidfd_open(self.pid)
        except ProcessLookupError:
            return None
        try:
            if Process.of(self.pid) == self:  # asked while the descriptor holds whatever has the number
                return descriptor
        except (FileNotFoundError, ProcessLookupError):
            pass
        except OSError:
            os.close(descriptor)
            raise
        os.close(descriptor)
        return None


def boot_id() -> str:
    return Path("/proc/sys/kernel/random/boot_id").read_text().strip()


class Claim(NamedTuple):
    """Who has a run."""

    process: Process | None  # None: nobody, and nobody ever will
    token: str | None = None  # of the run that it was claimed for
    group: str | None = None  # the cgroup of what was started
    output: str | None = None  # where it goes

    @staticmethod
    def of(folder: Path) -> Claim:
        """Return the claim of a run. Raise OSError if there is none, ValueError if it is damaged."""
        text = (folder / PROCESS).read_bytes()
        if text == NOBODY.encode():
            return Claim(None)
        held = opened(text)
        if held is None:
            raise ValueError("a damaged claim")
        return Claim(Process(held["pid"], held["start"], held["boot"]), held["token"], held["group"], held["output"])


def forbid(folder: Path) -> None:
    """Claim a run for nobody, unless it is claimed already."""
    draft = folder / f"claim.{os.getpid()}"
    draft.write_text(NOBODY)
    with suppress(FileExistsError):
        os.link(draft, folder / PROCESS)
    draft.unlink()


class Supervised:
    """A run that its supervisor has."""

    def __init__(self, claim: Claim, process: int, folder: Path) -> None:
        """The process is a descriptor of the supervisor, which this closes. Raise OSError where there is no room for
        another one."""
        self.claim, self._process = claim, process
        self._lease: int | None = None
        try:
            self._lease = os.open(folder / LEASE, os.O_WRONLY | os.O_NONBLOCK)
        except OSError as error:
            if error.errno not in (errno.ENOENT, errno.ENXIO):  # it is ending
                os.close(process)
                raise

    def extend(self, until: float) -> None:
        """Let the run go on until then."""
        if self._lease is not None:
            with suppress(OSError):  # it has ended
                os.write(self._lease, b"%.3f\n" % until)

    def end(self) -> None:
        """Have the run end."""
        with suppress(ProcessLookupError):
            signal.pidfd_send_signal(self._process, signal.SIGTERM)

    async def ended(self) -> None:
        """Return once the supervisor has ended."""
        loop, has_ended = asyncio.get_running_loop(), asyncio.Event()
        loop.add_reader(self._process, has_ended.set)
        try:
            await has_ended.wait()
        finally:
            loop.remove_reader(self._process)
        with suppress(ChildProcessError):  # an earlier agent has started it
            os.waitid(os.P_PIDFD, self._process, os.WEXITED | os.WNOHANG)

    def close(self) -> None:
        for descriptor in (self._process, self._lease):
            if descriptor is not None:
                os.close(descriptor)


def begin(folder: Path, token: str, work: Work, until: float) -> str | None:
    """Begin a run that has its lease until then. Return why it has no cgroup, if it has none; `find` gives the rest.

    Raise NotAllowed if the run can't have its user or its limits, and OSError.
    """
    make_folder(folder.parent)  # else a power cut could take a status with it
    folder.mkdir(exist_ok=True)
    environment, user = environment_of(folder, work), user_words(work.bounds.get("user"))
    group, unkept, limits = None, None, limits_of(work.bounds)
    try:
        group = str(Group.make(f"firm-{folder.name}", limits).path)
    except NoGroup as reason:
        unkept = str(reason)
        if limits:
            raise NotAllowed(f"no limits can be kept here: {unkept}") from None
    output = work.bounds.get("output")
    claim = json.dumps({"token": token, "group": group, "output": output or str(folder / OUTPUT)})[1:-1]
    words = [claim, boot_id(), f"{until:.3f}", str(work.bounds.get("limit", "inf")), str(work.grace), group or ""]
    words += [user, work.directory, output or "", str(len(environment)), *environment, *work.command]
    is_claimed = False
    try:
        is_claimed = spawn(folder, b"".join(os.fsencode(word) + b"\0" for word in words))
    finally:
        if group is not None and not is_claimed:  # nothing else knows of it
            Group(Path(group)).end()
    return unkept


def environment_of(folder: Path, work: Work) -> list[str]:
    """Return the variables of a command: those of this process, or what a login gives another user, and its own."""
    user = work.bounds.get("user")
    if user is None:
        found = dict(os.environ)
    else:
        row = account(user)
        found = {name: os.environ[name] for name in SHARED if name in os.environ}
        found |= {"HOME": row.pw_dir, "USER": row.pw_name, "LOGNAME": row.pw_name, "SHELL": row.pw_shell or "/bin/sh"}
    found |= {**work.environment, "FIRM_RUN": str(folder)}
    return [f"{name}={value}" for name, value in found.items()]


def account(user: int) -> pwd.struct_passwd:
    try:
        return pwd.getpwuid(user)
    except KeyError:
        raise NotAllowed(f"no user has the number {user} here") from None


def user_words(user: int | None) -> str:
    """Return the numbers of a user, its group and all its groups; nothing for this process's own user."""
    if user is None:
        return ""
    row = account(user)
    return " ".join(map(str, (user, row.pw_gid, *os.getgrouplist(row.pw_name, row.pw_gid))))


def spawn(folder: Path, request: bytes) -> bool:
    """Start a supervisor. Return, once that is settled, whether it has claimed the run. Raise OSError if it can't be
    started."""
    text, (reading, writing) = os.memfd_create("request"), os.pipe()
    with open(reading, "rb") as ready:
        try:
            with open(text, "wb", closefd=False) as file:
                file.write(request)
            os.lseek(text, 0, os.SEEK_SET)
            files = [(os.POSIX_SPAWN_DUP2, text, 0), (os.POSIX_SPAWN_DUP2, writing, 1)]
            pid = os.posix_spawn(PROGRAM, [PROGRAM.name, str(folder)], NO_VARIABLES, file_actions=files)
        finally:
            os.close(text)
            os.close(writing)
        ready.read()
    with suppress(OSError, ValueError):
        claim = Claim.of(folder)
        if claim.process is not None and claim.process.pid == pid:
            return True
    os.kill(pid, signal.SIGKILL)
    os.waitpid(pid, 0)
    return False


def find(folder: Path, token: str) -> Supervised | Event:
    """Return what has a run, or how it ended: it has a claim from now on."""
    folder.mkdir(parents=True, exist_ok=True)
    if not (folder / PROCESS).exists():
        forbid(folder)
    try:
        claim = Claim.of(folder)
    except ValueError:
        end_left(folder, None)
        return {"event": "lost"}
    if claim.process is None:
        return {"event": "void"}
    if claim.token != token:  # the agent's events were put back to an older state, and its numbers come again
        end_unknown(folder, lambda process: None)
        return {"event": "void"}
    process = claim.process.open()
    return Supervised(claim, process, folder) if process is not None else outcome_of(folder, claim)


def outcome_of(folder: Path, claim: Claim) -> Event:
    """Return how a run ended whose supervisor has ended."""
    with suppress(FileNotFoundError):
        outcome = opened((folder / STATUS).read_bytes())
        if outcome is not None:
            return {"event": "ended", **outcome, "output": claim.output}
    end_left(folder, claim.group)
    return {"event": "lost"}


# What is left of runs.


def end_left(folder: Path, group: str | None) -> None:
    """Ends what a run has left: in its cgroup, and what has left that and kept its environment."""
    if group is not None:
        Group(Path(group)).end()
    while pids := list(strays(folder)):
        for pid in pids:
            with suppress(ProcessLookupError):
                os.kill(pid, signal.SIGKILL)
        time.sleep(LOOK_SECONDS)


def strays(folder: Path) -> Iterator[int]:
    """The processes that a run has left without a supervisor."""
    mark = f"FIRM_RUN={folder}".encode()
    for entry in Path("/proc").iterdir():
        try:
            if entry.name.isdecimal() and mark in (entry / "environ").read_bytes().split(b"\0"):
                yield int(entry.name)
        except OSError:
            continue  # it has ended, or is another user's


def open_runs(folders: Iterator[Path], known: Collection[str]) -> dict[str, list[Path]]:
    """Return the folders without a status that are not known, by task, as where an agent's events were put back."""
    found: dict[str, list[Path]] = {}
    for folder in folders:
        if f"{folder.parent.name}/{folder.name}" not in known and not (folder / STATUS).exists():
            found.setdefault(folder.name.rpartition(".")[0], []).append(folder)
    return found


def end_unknown(folder: Path, found: Callable[[int], None]) -> None:
    """End a run that the agent does not know, and name its supervisor's process first, if there is one."""
    if not (folder / PROCESS).exists():
        forbid(folder)
    try:
        claim = Claim.of(folder)
    except ValueError:
        return end_left(folder, None)
    if claim.process is None:
        return
    process = claim.process.open()
    if process is not None:
        found(claim.process.pid)
        with suppress(ProcessLookupError):
            signal.pidfd_send_signal(process, signal.SIGTERM)
        ended = select.poll()  # which takes descriptors of any number
        ended.register(process, select.POLLIN)
        ended.poll()
        os.close(process)
    end_left(folder, claim.group)
