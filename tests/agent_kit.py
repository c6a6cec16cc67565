"""A stand-in for firm beside agents, and the processes of their runs in /proc. A check gives firm's replies itself."""

from __future__ import annotations

import contextlib
import json
import os
import shutil
import signal
import sys
import tempfile
import threading
import time
from collections.abc import Callable, Collection
from pathlib import Path
from typing import Any

from harness.checks import require
from harness.deployed import SERVICE, Books
from firm.agent.cgroups import Group
from firm.agent.supervisor import PROGRAM

NAME = PROGRAM.name
AGENT = [sys.executable, str(SERVICE / "firm-agent")]
Row = dict[str, Any]
LIMIT_SECONDS = 180.0  # for any wait
SOON_SECONDS = 0.3  # a forbidden event would have happened in this time
LOOK_SECONDS = 0.03  # between two looks of a wait
TOLD_LETTERS = 20_000
ROSTER = b"tenant,nodes,arcs,life,spread,churn\nalpha,4000,60000,1000000000,0,0\n"
ROUND = "ok round cost 0 "
WAITS_FOR_GO = (
    'echo "begin $FIRM_MACHINE" >> $FIRM_TASK.log; '
    "until [ -e $FIRM_TASK.go ]; do sleep 0.05; done; echo end >> $FIRM_TASK.log"
)


class StandIn:
    """The tenant's rows in firm, by its real books. The test gives firm's replies."""

    def __init__(self) -> None:
        self.on_change: Callable[[], None] = lambda: None
        self.is_away = False
        self._lock = threading.Lock()
        self.begin_state("first")

    def begin_state(self, name: str) -> None:
        """Begin as firmd with a new state does: with a new id, and without a line."""
        self.state, self.number, self.books = name, 0, Books()
        self.books.start(ROSTER)

    def say(self, words: str, outcome: str = "ok") -> None:
        """Add a line of the tenant, and firm's answer."""
        with self._lock:
            self.number += 1
            self.books.replied(f"alpha {words}".encode(), f"alpha {self.number} {outcome}".encode(), None)
        self.on_change()

    def round(self, changes: str) -> None:
        self.say("round", ROUND + changes)

    def close(self) -> None:
        """Close the stand-in, as firmd's end does."""
        self.is_away = True
        self.on_change()

    def open(self) -> None:
        self.is_away = False
        self.on_change()

    def rows(self, machines: Collection[str], tasks: Collection[str]) -> Row:
        """Return the rows of firm on machines, and those of tasks, as the queue sends them."""
        with self._lock:
            book = self.books.tenants["alpha"]
            found: list[Row] = [
                {"task": name, "line": task.line, "job": task.job, "weight": 10, "machine": task.machine}
                for name, task in book.tasks.items()
                if task.machine in machines or name in tasks
            ]
            there = {name: slots for name, slots in book.machines.items() if name in machines}
            return {"state": None if self.is_away else self.state, "machines": there, "tasks": found}


class Case:
    """A folder with the stand-in for firmd, and the runs of agents in it."""

    def __init__(self) -> None:
        self.folder = Path(tempfile.mkdtemp(prefix="firm-agent-"))
        self.firmd = StandIn()
        self.log = open(self.folder / "log", "a+")

    def close(self) -> None:
        """End all remaining processes after the last agent."""
        claims = [claim for path in self.folder.glob("**/process") if (claim := json.loads(path.read_text()))]
        for pid in [pid for pids in self.processes().values() for pid in pids] + supervisors(claims):
            with contextlib.suppress(ProcessLookupError):
                os.kill(pid, signal.SIGKILL)
        for claim in claims:
            if claim.get("group") is not None:
                Group(Path(claim["group"])).end()
                with contextlib.suppress(OSError):  # of a stand-in for systemd, which itself removes its scopes
                    Path(claim["group"]).parent.rmdir()
        self.log.close()
        remove(self.folder)

    def told(self) -> str:
        """Return the end of the agents' output so far."""
        return (self.folder / "log").read_text()[-TOLD_LETTERS:]

    def text(self, name: str) -> str:
        path = self.folder / name
        return path.read_text() if path.exists() else ""

    def go(self, *tasks: str) -> None:
        """Let tasks end by themselves."""
        for task in tasks:
            (self.folder / f"{task}.go").touch()

    def processes(self) -> dict[str, list[int]]:
        """Return the processes of runs in /proc, by task. A zombie has no environment, and so is not among them. Nor
        is a process during its exec, though its run is reported as running: `until_begun` waits for that."""
        found: dict[str, list[int]] = {}
        mark = f"FIRM_RUN={self.folder}/".encode()
        for entry in Path("/proc").iterdir():
            try:
                runs = [word for word in (entry / "environ").read_bytes().split(b"\0") if word.startswith(mark)]
            except OSError:
                continue
            if runs:
                found.setdefault(Path(os.fsdecode(runs[0])).name.rpartition(".")[0], []).append(int(entry.name))
        return found

    def run_folder(self, task: str, run: int) -> Path:
        """Return the folder of a run."""
        (found,) = self.folder.glob(f"*/runs/*/{task}.{run}")
        return found

    def supervisor(self, task: str, run: int) -> int:
        return int(json.loads((self.run_folder(task, run) / "process").read_text())["pid"])

    def events(self, kind: str, agent: str = "a1") -> list[dict[str, Any]]:
        """Return an agent's events of a kind."""
        return [event for event in self.rows(f"{agent}/events.jsonl") if event["event"] == kind]

    def rows(self, name: str) -> list[dict[str, Any]]:
        """Return the lines of JSON of a file, except an unfinished one."""
        whole, _, _ = self.text(name).rpartition("\n")
        return [json.loads(line) for line in whole.splitlines()]

    def until(self, holds: Callable[[], object], what: str) -> None:
        """Wait until a condition holds."""
        ends = time.monotonic() + LIMIT_SECONDS
        while not holds():
            require(time.monotonic() < ends, f"{what}; the agent said:\n{self.told()}")
            time.sleep(LOOK_SECONDS)

    def until_runs(self, *tasks: str) -> None:
        """Wait until exactly these tasks have processes."""
        self.until(lambda: self.processes().keys() == set(tasks), f"running: {tasks}")

    def until_begun(self, *tasks: str) -> None:
        """Wait until exactly these tasks have processes, whose commands have written to their logs."""
        self.until_runs(*tasks)
        for task in tasks:
            self.until(lambda: self.text(f"{task}.log"), f"{task} begins")


def remove(folder: Path) -> None:
    """Remove a folder, in which a process that was just killed may still make a file."""
    ends = time.monotonic() + LIMIT_SECONDS
    while True:
        try:
            return shutil.rmtree(folder)
        except OSError:
            if time.monotonic() > ends:
                raise
            time.sleep(LOOK_SECONDS)


def supervisors(claims: list[dict[str, Any]]) -> list[int]:
    """Return the live supervisors of runs, by the runs' claims."""
    return [claim["pid"] for claim in claims if words_of(claim["pid"]).startswith(NAME)]


def words_of(pid: int) -> str:
    """Return the command line of a process; empty if it has ended."""
    try:
        return Path(f"/proc/{pid}/cmdline").read_text()
    except OSError:
        return ""


def children(pid: int) -> list[int]:
    """Return the children of a process."""
    return [int(child) for child in Path(f"/proc/{pid}/task/{pid}/children").read_text().split()]


def is_there(pid: int) -> bool:
    """Return whether a process is there and has not ended."""
    try:
        return Path(f"/proc/{pid}/stat").read_text().rpartition(")")[2].split()[0] != "Z"
    except (FileNotFoundError, ProcessLookupError):  # the latter if it ends between the opening and the reading
        return False
