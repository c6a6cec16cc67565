"""Damage a queue's state in each way that a disk or an operator may, and check that the queue notices.

Each trial copies a state that a clean stop or a kill has left, changes one of its files, and reads the copy with the
queue's own parts. They must report the damage, or read the same as from an unchanged copy.
"""

from __future__ import annotations

import asyncio
import os
import random
import shutil
import signal
import sqlite3
import tempfile
import time
from collections import Counter
from collections.abc import Callable
from concurrent.futures import ProcessPoolExecutor
from dataclasses import dataclass, fields
from functools import cache, partial
from multiprocessing import get_context
from pathlib import Path
from threading import Timer
from typing import Any

from harness.checks import require
from harness.deployed import Attempt, FirmdSockets, Firm, Task
from firm.queue.rows import CORDONED, Mark
from firm.common.faults import Exit, Fault
from firm.queue import queries
from firm.queue.core import QueueLimits, Core
from firm.queue.fields import submit_of
from firm.queue.states import UserAction, End
from firm.queue.store import DATABASE, REACH, NotWritten, Store
from firm.common.users import User
from queue_kit import FAST, Setup

TRIALS, QUICK_TRIALS = 500, 20
ROUNDS = 120  # of changes that make a state
LOG = f"{DATABASE}-wal"
KEYS = 40
ANN, BOB = User(1_001), User(1_002)
FOREVER = {"command": ["/bin/rm", "-r", "/tmp/x"], "dir": "/tmp"}


class Parts:
    """The queue's database and its memory, without sockets."""

    def __init__(self, folder: Path) -> None:
        self.damage: list[Fault] = []
        self.store = Store(folder, "alpha")
        self.store.on_damage = self.damage.append
        doors = FirmdSockets("alpha", folder / "view", folder / "lines")
        self.core = Core(self.store, Firm(doors, lambda heard: None), QueueLimits(100_000, 200_000, 100_000))

    async def begin(self) -> queries.StoredState:
        await self.store.start()
        return await self.core.load()


def submit(core: Core, user: User, key: str | None = None, **more: Any) -> Task:
    (made,) = core.submit(user, [submit_of({**FOREVER, **more})], key, {})
    return next(iter(made.tasks.values()))


def attempt(core: Core, task: Task, status: int | None, token: int) -> None:
    """Add an attempt that ends with a status, or is open."""
    place = ("a1", "alpha-1", "m1", token, f"{token:032x}", time.time())
    made = Attempt(task.name, task.attempts + 1, *place, runs_as=ANN.number)
    core.begin_attempt(task, made)
    if status is not None:
        made.began, made.output = time.time(), f"/var/lib/firm/runs/{task.name}/output"
        core.end_attempt(made, End("ended", status), 1.5)


async def fill(folder: Path, rounds: int, keep: Callable[[int], None] = lambda at: None) -> None:
    """Make a state with all kinds of rows, by many commits, and call `keep` after each round."""
    parts = Parts(folder)
    await parts.begin()
    core, store = parts.core, parts.store
    store.save_agent("a1", "alpha-1", {"m1": 4, "m2": 8})
    store.save_agent("a2", "alpha-2", {"m3": 4})
    store.keep_lease(60.0)
    store.mark("m2", Mark(CORDONED, 7, "a new disk"))
    for at in range(rounds):
        first = submit(core, ANN, f"key-{at}" if at < KEYS else None, job="web", retries=2)
        submit(core, ANN, after=[str(first.name)], env={"SECRET": "x" * 50})
        array = submit(core, BOB, array=[1, 5], hold=at % 3 == 0)
        attempt(core, first, 0 if at % 2 else 3, 10 * at + 1)
        attempt(core, array, at % 4 or None, 10 * at + 2)
        if at % 5 == 0:
            core.change(BOB, UserAction.CANCEL, [task for task in array.submission.tasks.values() if task.index == 4])
        if at == rounds // 2:
            submit(core, ANN, command=["x" * 20_000, "y" * 30_000], job="long")
        await store.settled()
        keep(at)
    await store.close()


async def read_all(folder: Path) -> Any:
    """Return all that a queue over this state would serve, or raise `Fault`."""
    parts = Parts(folder)
    try:
        kept = await parts.begin()
        return await parts.store.read(partial(all_of, kept))
    except (sqlite3.Error, NotWritten) as error:
        raise parts.damage[0] if parts.damage else error
    finally:
        if hasattr(parts.store, "_reading"):
            await parts.store.close()


def all_of(kept: queries.StoredState, connection: sqlite3.Connection) -> Any:
    rows, last = kept.rows, kept.rows.last_number
    live = sorted((str(task.name), task.is_held, task.outcome, task.attempts) for task in rows.live_tasks())
    memory = (last, live, sorted(rows.open), kept.agents, kept.marks, kept.spent, kept.lease)
    whole = queries.submissions(connection, range(1, last + 1))
    details = [(one.number, one.user, one.job, one.spec, one.needs, one.live, one.failed, one.sent) for one in whole]
    tasks = [shown(task) for one in whole for task in one.tasks.values()]
    forgotten = queries.forgotten(connection, range(1, last + 1), None, 100_000)
    attempts = [
        list(map(shown, queries.attempts_of(connection, task.name))) for one in whole for task in one.tasks.values()
    ]
    history = queries.history(connection, queries.TaskFilter(limit=100_000))
    answers = [queries.answer_to(connection, ANN.number, f"key-{at}") for at in range(KEYS)]
    past = [(one.number, one.failed, sorted(one.tasks)) for one in forgotten]
    jobs = queries.own_jobs(connection, ["web", "long", "other", "u1002"])
    return memory, details, tasks, attempts, history, answers, past, jobs


def shown(row: Task | Attempt) -> tuple[Any, ...]:
    left_out = {"submission", "attempt"} if isinstance(row, Task) else set()
    return tuple(getattr(row, each.name) for each in fields(row) if each.name not in left_out)


# Trials.


@dataclass(frozen=True)
class Trial:
    """A change of one file in a copy of a state."""

    state: Path
    older: tuple[Path, ...]  # earlier copies of the same file, to replace it
    file: str
    seed: int


def flip(path: Path, older: Path, draw: random.Random) -> str:
    place = draw.randrange(8 * path.stat().st_size)
    with open(path, "r+b") as file:
        file.seek(place // 8)
        (byte,) = file.read(1)
        file.seek(place // 8)
        file.write(bytes([byte ^ 1 << place % 8]))
    return f"bit {place % 8} of byte {place // 8}"


def cut(path: Path, older: Path, draw: random.Random) -> str:
    size = draw.randrange(path.stat().st_size)
    with open(path, "r+b") as file:
        file.truncate(size)
    return f"cut to {size}"


def empty(path: Path, older: Path, draw: random.Random) -> str:
    path.write_bytes(b"")
    return "emptied"


def remove(path: Path, older: Path, draw: random.Random) -> str:
    path.unlink()
    return "removed"


def put_back(path: Path, older: Path, draw: random.Random) -> str:
    if not (older / path.name).exists():
        return remove(path, older, draw)
    shutil.copy(older / path.name, path)
    return f"as in {older.name}"


CHANGES = [flip] * 8 + [cut, empty, remove, put_back]


def tried(trial: Trial) -> tuple[str, str, str]:
    """Return the changed file, the change, and the result: `same`, `told`, or an error."""
    draw = random.Random(trial.seed)
    with tempfile.TemporaryDirectory(prefix="queue-damage-", dir=FAST) as name:
        folder = Path(name) / "state"
        shutil.copytree(trial.state, folder)
        change = draw.choice(CHANGES)
        what = f"{change.__name__}: {change(folder / trial.file, draw.choice(trial.older), draw)}"
        try:
            found = asyncio.run(read_all(folder))
        except Fault as fault:
            is_told = fault.status == Exit.JOURNAL and str(folder) in str(fault)
            return trial.file, what, "told" if is_told else f"{fault.status!r}: {fault}"
        except Exception as error:
            return trial.file, what, repr(error)
    return trial.file, what, "same" if found == whole(trial.state) else "served unseen"


@cache
def whole(state: Path) -> Any:
    """Return all that a queue over an unchanged copy of a state would serve."""
    with tempfile.TemporaryDirectory(prefix="queue-damage-", dir=FAST) as name:
        return asyncio.run(read_all(Path(shutil.copytree(state, Path(name) / "state"))))


def fill_until_killed(live: Path, base: Path) -> None:
    """Fill a state, copy it from time to time, and kill this process amid a further commit."""

    def keep(at: int) -> None:
        if at in (10, 30, 100, 117):
            shutil.copytree(live, base / f"at-{at}")
        if at == ROUNDS - 1:
            Timer(0.02, os.kill, (os.getpid(), signal.SIGKILL)).start()

    asyncio.run(fill(live, 10 * ROUNDS, keep))


def damaged(setup: Setup) -> None:
    """No changed bit, cut, missing or older file is served unnoticed, after a clean stop or a kill."""
    count = QUICK_TRIALS if setup.is_quick else TRIALS
    with tempfile.TemporaryDirectory(prefix="queue-damage-", dir=FAST) as name:
        stopped, killed = Path(name) / "stopped", Path(name) / "killed"
        for state in (stopped, killed):
            state.mkdir(mode=0o700)
        # Not a fork: it would copy the locks that other checks' threads hold, such as SQLite's.
        process = get_context("spawn").Process(target=fill_until_killed, args=(killed, Path(name)))
        process.start()
        asyncio.run(fill(stopped, ROUNDS))
        process.join()
        require(process.exitcode == -signal.SIGKILL, f"it ended with {process.exitcode}")
        require((killed / LOG).stat().st_size > 100_000 and not (stopped / LOG).exists(), "no log, or two")
        older = tuple(Path(name) / f"at-{at}" for at in (10, 30, 100, 117))
        files = [(killed, LOG), (killed, DATABASE), (killed, REACH), (stopped, DATABASE), (stopped, REACH)]
        trials = [Trial(files[at % 5][0], older, files[at % 5][1], setup.seed + at) for at in range(count)]
        with ProcessPoolExecutor(4, get_context("spawn")) as pool:
            results = list(pool.map(tried, trials))
    found = Counter((file, what.split(":")[0], result) for file, what, result in results)
    print(f"    seed {setup.seed}: {dict(found)}", flush=True)
    wrong = [result for result in results if result[2] not in ("same", "told")]
    require(not wrong, f"{len(wrong)} of {count}: {wrong[:10]}")
    require(all(result == "told" for file, _, result in results if file == REACH), f"changes of {REACH}: {found}")


CHECKS: tuple[Callable[[Setup], None], ...] = (damaged,)
