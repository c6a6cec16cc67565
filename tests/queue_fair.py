"""Users take turns: a newcomer's task has one of the next free slots, and shares count among those who have work."""

from __future__ import annotations

import os
import time
from collections import Counter
from collections.abc import Callable, Iterator
from contextlib import contextmanager

from harness.checks import Skipped, require
from queue_client import Client, Json, as_user
from queue_kit import ANN, BOB, Case, Setup

SLOTS, TASKS, TASK_SECONDS = 40, 400, 2
NEWCOMER_TASKS = 60  # of 360 of the other user, that begin before a newcomer's: 3 s of an idle host
HALF_SECONDS = 150.0  # until half of the tasks have begun, on a busy host
SHARE_SECONDS = 15.0  # of a run with shares


def submit(case: Case, user: int, *command: str, **fields: object) -> Json:
    """Return the answer to another user's submission."""
    (answer,) = as_user(user, case.place, [{"ask": "submit", "command": command, "dir": "/tmp", **fields}])
    require("submit" in answer, answer)
    return dict(answer["submit"])


def started(case: Case, setup: Setup) -> None:
    if os.geteuid():
        raise Skipped("it needs root, to be other users")
    case.start()
    os.chmod(case.folder, 0o755)
    case.agent("a1", m1=SLOTS // 2, m2=SLOTS // 2)


@contextmanager
def held(case: Case) -> Iterator[None]:
    """Let no task end by itself meanwhile: a busy host may start fewer tasks than end."""
    case.world.is_held = True
    yield
    case.world.is_held = False


def newcomer(setup: Setup) -> None:
    """While one user's tasks fill all slots, another user's begins in seconds; nobody is preempted, and no slot is
    left free for that."""
    with setup.case("--socket-mode=666") as case:
        started(case, setup)
        submit(case, ANN, str(TASK_SECONDS), array=[1, TASKS])
        with held(case):
            case.until(lambda: len(case.world.running()) == SLOTS, "all slots are used")
        time.sleep(1.5 * TASK_SECONDS)
        waits = [begun_after(case, number) for number in (2, 3, 4)]
        told = ", ".join(f"{seconds:.2f} behind {tasks} of the other's" for seconds, tasks in waits)
        print(f"figure   s until a newcomer's task began: {told}", flush=True)
        require(max(tasks for _, tasks in waits) < NEWCOMER_TASKS, waits)
        began = time.monotonic()
        case.until(lambda: len(case.world.processes) >= TASKS // 2, "half of them have begun")
        seconds = (time.monotonic() - case.world.processes[0].began) * SLOTS / len(case.world.processes)
        print(f"figure   s of a slot for each task of {TASK_SECONDS} s: {seconds:.2f}", flush=True)
        require(time.monotonic() - began < HALF_SECONDS, "it takes long")
        case.world.require_single()
        with case.client() as client:
            require({row["outcome"] for row in client.ask("history")} == {"done"}, "one was preempted")


def begun_after(case: Case, number: int) -> tuple[float, int]:
    """Return the seconds from a submission of the other user to its process, and the number of others' tasks that
    began meanwhile."""
    asked = time.monotonic()
    found = submit(case, BOB, "0.01")
    require(found["number"] == number, found)
    case.until(lambda: any(one.task == str(number) for one in case.world.processes), "it runs")
    began = next(one.began for one in case.world.processes if one.task == str(number))
    return began - asked, sum(asked < one.began < began for one in case.world.processes)


def shares(setup: Setup) -> None:
    """A user with twice the share has twice the slots, while both have work, and all of them alone."""
    with setup.case("--socket-mode=666", f"--shares={ANN}=1,{BOB}=2") as case:
        started(case, setup)
        submit(case, ANN, "1", array=[1, 2_000])
        with held(case):
            case.until(lambda: len(case.world.running()) == SLOTS, "one user has all")
        submit(case, BOB, "1", array=[1, 2_000])
        with case.client() as client:
            seen = Counter[str]()
            time.sleep(SHARE_SECONDS / 3)
            ends = time.monotonic() + SHARE_SECONDS
            while time.monotonic() < ends:
                seen.update(task.partition("_")[0] for task in case.world.running())
                time.sleep(0.1)
            part = seen["2"] / seen.total()
            require(0.6 < part < 0.73, f"a part of {part:.2f} instead of 0.67: {seen}")
            require_reasons(client)
            client.ask("cancel", tasks=["2"])
            with held(case):
                case.until(lambda: Counter(task[0] for task in case.world.running())["1"] == SLOTS, "the other has all")
        case.world.require_single()


def faulty_shares(setup: Setup) -> None:
    """Invalid shares, or shares of unknown users, are refused as the server starts."""
    faults = {"ann": "'ann' is not a list of users", "0=0": "above 0", "0=1001": "up to 1,000", "0=-1": "above 0"}
    faults |= {"nobody-here=2": "there is no user nobody-here", "0=1,root=2": "root is there twice", "": "not a list"}
    with setup.case() as case:
        for text, told in faults.items():
            case.options = [f"--shares={text}"]
            case.refuses(2, told)


def require_reasons(client: Client) -> None:
    """Require that a queued task is shown as queued, with the reason."""
    rows = [row for row in client.ask("tasks") if row["state"] == "queued"]
    require(len(rows) > 1_000 and {row["reason"] for row in rows} <= {"no free slot", "before its turn"}, rows[:3])
    lines = client.ask("why", task=rows[-1]["task"])["text"]
    require(any("take turns" in line and "for a share of 2" in line for line in lines), lines)


CHECKS: tuple[Callable[[Setup], None], ...] = (newcomer, shares, faulty_shares)
