"""Runs the processes of a tenant's tasks as firm's rounds say.

What firm wants is compared with what runs, and the difference is done, so it matters little what was missed meanwhile.
"""

from __future__ import annotations

import argparse
import asyncio
import os
import signal
import time
from collections import Counter
from collections.abc import Mapping
from dataclasses import replace
from enum import IntEnum
from functools import partial
from pathlib import Path
from typing import Any

from ..common.logs import ERROR, INFO, WARNING, begin, tell
from ..common.settings import SettingsFile
from ..common.version import add_version
from .cgroups import SCOPE, enter_scope
from .cleanup import folders
from .event_file import aside
from .link import Server
from .queue import QueueSource
from .rows import Row, Rows
from .settings import AGENT, AgentConfiguration, addresses_of, machines_of, memory_fault
from .state import DROPPED, EVENTS, Event, Key, Run, State, StateError
from .supervisor import NoSupervisor, Supervised, begin as begin_run, build, end_unknown, find, open_runs, outcome_of
from .work import NotAllowed, Work

TURN_SECONDS = 0.5  # in which runs are recorded, before beats have their turn: each waits for the disk
FAULT_SECONDS = 1.0  # until a run is looked for again whose folder is on a faulty disk
OVER = {
    "timeout": ", as its time was over",
    "lease": ", as the agent's lease was over",
    "memory": ", as its memory was used up",
}
# Settings without a default on the command line.
ALONE: dict[str, None] = {"server": None}
EXITS = """\
exit statuses:
  0  stopped
  2  the command line, or the configuration file
  4  the agent's own folder can't be read or written, or another agent has it
  5  the supervisor of tasks is not built, and can't be: of a checkout that has no C compiler"""


class AgentExit(IntEnum):
    """Exit statuses, as `firm-agent run --help` lists them."""

    DONE = 0
    WORDS = 2
    STATE = 4
    PROGRAM = 5


class Stop(Exception):
    """The agent is to end; what it has started goes on."""


class Agent:
    def __init__(self, source: QueueSource, state: State) -> None:
        self.source, self.state, self.history = source, state, state.history
        self.rows: Rows | None = None  # None while they are unknown
        self.folder = state.folder / "runs"
        self.supervised: dict[int, Supervised] = {}  # by run
        self.changed, self.stop = asyncio.Event(), asyncio.Event()
        self.is_unkept_told = False

    async def serve(self) -> int:
        """Serve until SIGTERM or SIGINT. Return the exit status."""
        for number in (signal.SIGTERM, signal.SIGINT):
            asyncio.get_running_loop().add_signal_handler(number, self.stop.set)
        try:
            async with asyncio.TaskGroup() as self.group:
                known = frozenset(run.folder for run in self.history.runs.values())
                self.unknown = self.group.create_task(aside(partial(open_runs, folders(self.folder), known)))
                for run in self.history.runs.values():
                    is_lacking = run in self.state.regained
                    lacking = f", and {EVENTS} lacks it" if is_lacking else ""
                    run.tell(f" was open when the agent ended{lacking}", WARNING if is_lacking else INFO)
                    self.group.create_task(self.drive(run, None))
                for work in (self.reconcile_for_ever(), *self.source.begin(self)):
                    self.group.create_task(work)
                await self.stop.wait()
                raise Stop
        except* Stop:
            pass
        return AgentExit.DONE

    # What firm wants

    async def reconcile_for_ever(self) -> None:
        while True:
            await self.changed.wait()
            self.changed.clear()
            if self.rows is not None:
                self.reconcile(self.rows)

    def reconcile(self, rows: Rows) -> None:
        """Ends what should not run, and starts what should."""
        for run in self.history.runs.values():
            if run.ends is None and (why := why_end(run, rows)) is not None:
                self.end(run, why)
        loads = Counter(run.machine for run in self.history.runs.values())
        open_names = {run.key.task for run in self.history.runs.values()}
        ends = time.monotonic() + TURN_SECONDS
        for name, row in rows.tasks.items():
            if time.monotonic() > ends:
                asyncio.get_running_loop().call_later(TURN_SECONDS, self.changed.set)
                break
            if (
                name not in open_names
                and row.machine is not None
                and loads[row.machine] < rows.machines.get(row.machine, 0)
            ):
                loads[row.machine] += self.source.try_start(key_of(name, row, rows), row)
        keys = {key_of(name, row, rows) for name, row in rows.tasks.items()}
        self.source.forget(keys | {run.key for run in self.history.runs.values()})

    def end(self, run: Run, why: str) -> None:
        self.state.record("end", run=run.number, why=why)
        run.tell(f" is ended: {why}")
        if run.number in self.supervised:
            self.supervised[run.number].end()
        self.source.is_ending(run)

    def record_start(self, key: Key, row: Row) -> Run:
        """A new run of a task that firm has placed."""
        return self.state.start(key, {"job": row.job, "machine": row.machine})

    def start(self, run: Run, work: Work) -> None:
        """Makes a start that is recorded."""
        self.group.create_task(self.drive(run, work))

    # A run

    async def drive(self, run: Run, work: Work | None) -> None:
        """Sees a run to its end through faults of the disk; with work it is begun first."""
        while True:
            outcome = None
            try:
                outcome = await self.attend(run, work)
            except NotAllowed as why:
                outcome = why.event()
            except OSError as error:
                run.tell(f": {error}; it is looked for again", WARNING)
            if outcome is not None and outcome["event"] == "void" and run.has_run:
                return self.drop(run, f"{run.machine} has no trace of it, though it has run there")
            if outcome is not None:
                return self.ended(run, outcome)
            work = None  # whether it was begun is found out first
            await asyncio.sleep(FAULT_SECONDS)

    def drop(self, run: Run, why: str) -> None:
        """Leaves a run to its lease."""
        self.state.record(DROPPED, run=run.number)
        self.source.leave()
        self.changed.set()
        run.tell(f": {why}; it is left to its lease", WARNING)

    async def attend(self, run: Run, work: Work | None) -> Event:
        """Return how a run ended; with work it is begun first, if its lease holds and its end is not asked for."""
        folder, is_old = self.folder / run.folder, work is None
        if work is not None and await self.source.may_begin(run):
            unknown = (await asyncio.shield(self.unknown)).get(run.key.task, [])
            await aside(partial(end_all, unknown, run))
            if (until := self.source.lease_of(run)) is not None:
                self.tell_unkept(await aside(partial(begin_run, folder, run.token, self.with_names(run, work), until)))
        found = await aside(partial(find, folder, run.token))
        if not isinstance(found, Supervised):
            return found
        self.supervised[run.number] = found
        try:
            self.follow(run, found, is_old)
            await found.ended()
        finally:
            del self.supervised[run.number]
            found.close()
        return await aside(partial(outcome_of, folder, found.claim))

    def follow(self, run: Run, found: Supervised, is_old: bool) -> None:
        """Take in that a run has a supervisor."""
        pid = found.claim.process.pid if found.claim.process is not None else None
        self.state.record("running", run=run.number, pid=pid, output=found.claim.output)
        run.tell(f" {'still runs' if is_old else 'runs'}, process {pid}")
        if run.ends is not None:
            found.end()
        self.source.grant(run)

    def tell_unkept(self, why: str | None) -> None:
        """Tells once that runs have no cgroups."""
        if why is not None and not self.is_unkept_told:
            self.is_unkept_told = True
            told = f"tasks have no cgroups ({why}), so a process that clears its environment can outlive"
            tell(WARNING, f"{told} a killed supervisor")

    def with_names(self, run: Run, work: Work) -> Work:
        """Return the work with the run's variables."""
        names = {"TENANT": self.source.server.tenant, "JOB": run.job, "TASK": run.key.task, "MACHINE": run.machine}
        names |= {"SLOT": str(run.slot)} if run.slot is not None else {}
        return replace(work, environment=work.environment | {f"FIRM_{name}": value for name, value in names.items()})

    def ended(self, run: Run, outcome: Event) -> None:
        """Takes in how a run ended."""
        self.state.record(run=run.number, **outcome)
        self.changed.set()
        if outcome["event"] != "ended":
            return run.tell(" was never begun" if outcome["event"] == "void" else "'s supervisor was lost", WARNING)
        if outcome["asked"]:
            return run.tell(f" was ended{OVER.get(outcome.get('over') or '', '')}, status {outcome['status']}")
        self.source.has_ended(run.key)
        if outcome["status"] == 0:
            return run.tell(" is done, status 0")
        run.tell(f" failed, {outcome.get('fault') or 'status {status}'.format_map(outcome)}", WARNING)


def end_all(unknown: list[Path], run: Run) -> None:
    """End the runs of a task that are unknown, before it is begun."""
    while unknown:
        told = f": {unknown[-1].name}, process %d, runs too and is unknown here: it is ended first"
        end_unknown(unknown[-1], lambda process: run.tell(told % process, WARNING))
        unknown.pop()


def key_of(name: str, row: Row, rows: Rows) -> Key:
    return Key(name, row.line, rows.state)


def why_end(run: Run, rows: Rows) -> str | None:
    """Why firm wants a run no longer, None where it does."""
    row = rows.tasks.get(run.key.task)
    if run.is_kept:
        return None
    if row is None or key_of(run.key.task, row, rows) != run.key:
        return "removed"
    if row.machine == run.machine:
        return None
    if run.machine not in rows.machines:
        return "drained"
    return "preempted" if row.machine is None else "moved"


def serve(source: QueueSource, folder: Path) -> int:
    """Run an agent with a state folder. Return the exit status."""
    try:
        unkept = enter_scope()
        os.environ.pop(SCOPE, None)
        build()
        agent = Agent(source, State(folder, source.name, source.events))
        agent.tell_unkept(unkept)
        return asyncio.run(agent.serve())
    except NoSupervisor as why:
        tell(ERROR, f"{why}; nothing can be started")
        return AgentExit.PROGRAM
    except (OSError, StateError) as error:
        fault: Exception = error
    except ExceptionGroup as group:  # of the state's file alone: all other faults of devices are met where they occur
        faults, others = group.split(OSError)
        if others is not None or faults is None:
            raise
        fault = faults.exceptions[0]
    tell(ERROR, f"{folder}: {fault}; what runs goes on")
    return AgentExit.STATE


def parser() -> argparse.ArgumentParser:
    found = argparse.ArgumentParser(prog="firm-agent", description=(__doc__ or "").splitlines()[0])
    add_version(found)
    commands = found.add_subparsers(dest="verb", required=True)
    raw = argparse.RawDescriptionHelpFormatter
    one = commands.add_parser("run", help="run the tasks of a tenant", epilog=EXITS, formatter_class=raw)
    told = "the configuration file, which has all other settings"
    one.add_argument("--config", type=Path, metavar="FILE", help=told)
    for setting in AGENT:
        setting.add(one, ALONE.get(setting.key, setting.default))
    listed = "this agent's machines with slots, as m1=4,m2=8"
    one.add_argument("--machines", type=machines_of, metavar="LIST", help=listed)
    one.set_defaults(fail=one.error)
    return found


def main() -> int:
    given = parser().parse_args()
    if given.config is not None:
        return serve_configured(given)
    for name in ("server", "tenant", "name", "machines", "state"):
        if getattr(given, name) is None:
            given.fail(f"name --{name}, or --config")
    if given.server.startswith("https:") != (given.token is not None):
        given.fail("https needs --token, and a Unix socket takes none: there the system knows the user")
    if (why := memory_fault(given.machines, given.memory)) is not None:
        given.fail(f"--memory: {why}")
    return serve_values(vars(given))


def serve_configured(given: argparse.Namespace) -> int:
    """Run an agent with a configuration file."""
    try:
        configuration = AgentConfiguration(SettingsFile.read(given.config))
    except (OSError, ValueError) as error:
        given.fail(f"cannot read {given.config}: {error}")
    begin("firm-agent", configuration.values["log_format"])
    for finding in configuration.file.findings:
        tell(WARNING if finding.is_warning else ERROR, f"{given.config}:{finding.line}: {finding}")
    return serve_values(configuration.values) if configuration.file.is_good else AgentExit.WORDS


def serve_values(values: Mapping[str, Any]) -> int:
    begin("firm-agent", values["log_format"])
    server = Server(addresses_of(values["server"]), values["tenant"], values["token"], values["ca"])
    source = QueueSource(server, values["name"], values["machines"], values["state"], values["memory"])
    return serve(source, values["state"])
