"""Tasks that firm places on a busy machine whose agent is away run elsewhere; their rows there are placeholders."""

from __future__ import annotations

import random
import shutil
import sys
import threading
import time
from collections.abc import Callable
from string import ascii_lowercase

from harness.checks import require
from harness.deployed import Book, Spec, Submission, Task, backlog, books, rows
from firm.queue.placeholders import Placeholders, newest_letters
from queue_kills import Plan, Submitter, judge_all, kill_one
from queue_client import LIMIT_SECONDS, Client
from queue_kit import FOREVER, Case, Setup, Size, StandIn
from queue_tables import book_of

AWAY_SECONDS = 5.0  # after which an agent is away
SOON_SECONDS = 120.0  # for a task's start: within 3 on an idle host, and after 300 in vain
FEW = 10  # absences, in which perhaps no task is placed where it can't begin
QUIET_SECONDS = 1.0  # in which firm's rows would change again, if they did
HASTY = """\
import sys
from firm.api import daemon
from firm.queue import agents
agents.AWAY_SECONDS = agents.LOOK_SECONDS = 0.05
sys.exit(daemon.main(sys.argv[1:]))
"""
CLOSED = backlog.Machines({"m1": 4, "m2": 4}, set(), {"m1"})
OPEN = backlog.Machines({"m1": 4, "m2": 4}, set())


def begun(case: Case, client: Client, **first: int) -> StandIn:
    """An agent with a machine on which a task runs, and which is away; another one comes afterwards."""
    agent = case.agent("a1", m1=4)
    client.submit(*FOREVER, job="first")
    case.until(lambda: len(case.world.running()) == 1, "a task runs")
    case.agent("a2", **(first or {"m2": 4}))
    case.until(lambda: len(case.firm_rows("machines")) == 2, "both are there")
    agent.kill()
    case.until(lambda: client.ask("agents")[0]["silent"] > AWAY_SECONDS, "it is away")
    time.sleep(QUIET_SECONDS)
    return agent


def in_firm(case: Case) -> dict[str, str | None]:
    """Return the machines of the rows in firm, by their names."""
    return {row["task"]: row["machine"] for row in case.firm_rows("tasks")}


def machines_of(case: Case) -> dict[str, str]:
    """Return the machine of the last process of each task."""
    return {process.task: process.machine for process in case.world.processes}


def busy_away(setup: Setup) -> None:
    """A task runs on another machine within seconds, keeps its process when the queue restarts and when the agent is
    back, and nothing runs twice. Until then, each free slot of the machine holds a placeholder."""
    with setup.case("--lease=300").start() as case:
        with case.client() as client:
            agent = begun(case, client)
            client.submit(*FOREVER)
            case.until(lambda: "2" in case.world.running(), "it runs", SOON_SECONDS)
            require(machines_of(case)["2"] == "m2", case.world.processes)
            require(in_firm(case) == {"1": "m1", "2": "m1", "2a": "m1", "2b": "m1", "2c": "m2"}, in_firm(case))
            row = client.ask("task", task="2")
            require((row["state"], row["machine"], row["firm"]) == ("running", "m2", "2c"), row)
            status = client.ask("status")
            require(status["states"] == {"running": 2}, status["states"])
            require(not any("not the queue's" in told for told in status["differences"]), status["differences"])
            tasks = {row["machine"]: row["tasks"] for row in client.ask("machines")}
            require(tasks == {"m1": ["1"], "m2": ["2"]}, tasks)
            client.submit(*FOREVER)
            case.until(lambda: "3" in case.world.running(), "the next one runs", SOON_SECONDS)
            require(in_firm(case)["3"] == "m2", "it needs no further placeholder")
        case.kill()
        case.start()
        with case.client() as client:
            case.until(lambda: client.ask("agents")[1]["state"] == "up", "the other agent is back")
            client.submit(*FOREVER)
            case.until(lambda: "4" in case.world.running(), "it runs behind a restart", AWAY_SECONDS + SOON_SECONDS)
            require(machines_of(case)["4"] == "m2" and len(case.world.processes) == 4, case.world.processes)
            case.agent("a1", agent.disk, m1=4)
            case.until(lambda: len(in_firm(case)) == 4, "the placeholders go", SOON_SECONDS)
            client.submit(*FOREVER, array=[1, 4])
            case.until(lambda: len(case.world.running()) == 8, "both machines are used", SOON_SECONDS)
            case.world.require_single()
            require(len(case.world.processes) == 8, "what ran was ended")


def full_elsewhere(setup: Setup) -> None:
    """Without room elsewhere a task stays, with few further rounds, until there is room: first on the other machine,
    then on its own, as the agent is back."""
    with setup.case("--lease=300").start() as case, case.client() as client:
        agent = begun(case, client, m2=1)
        client.submit(*FOREVER)
        case.until(lambda: "2" in case.world.running(), "the other machine has room", SOON_SECONDS)
        for _ in range(2):
            client.submit(*FOREVER)
        case.until(lambda: client.state("4") in ("starting", "waiting"), "it is full", SOON_SECONDS)
        time.sleep(QUIET_SECONDS)
        before = commands_of(case)
        time.sleep(QUIET_SECONDS)
        require(commands_of(case) - before <= 1, f"{commands_of(case) - before} commands")
        client.ask("cancel", tasks=["2"])
        case.until(lambda: "2" not in case.world.running(), "its slot is free")
        case.until(lambda: len(case.world.running()) == 2, "one of them runs", SOON_SECONDS)
        case.agent("a1", agent.disk, m1=4)
        case.until(lambda: len(case.world.running()) == 3, "so does the other one", SOON_SECONDS)
        case.until(lambda: len(in_firm(case)) == 3, "the placeholders go")
        require(sorted(machines_of(case).values()) == ["m1", "m1", "m2", "m2"], case.world.processes)
        case.world.require_single()


def turns(setup: Setup) -> None:
    """Resubmitted tasks take no slots in turn from running ones, even if a preemption costs nothing."""
    with setup.case("--lease=300", size=Size(churn=0, spread=2)).start() as case, case.client() as client:
        begun(case, client)
        for _ in range(8):
            client.submit(*FOREVER)
        case.until(lambda: len(case.world.running()) == 5, "the other machine is full", SOON_SECONDS)
        time.sleep(3 * QUIET_SECONDS)  # tasks resubmitted before it was full may change places with others once
        before, processes = commands_of(case), len(case.world.processes)
        time.sleep(5 * QUIET_SECONDS)
        require(commands_of(case) - before <= 4, f"{commands_of(case) - before} commands")
        require(len(case.world.processes) <= processes + 1, case.world.processes)


def alone_away(setup: Setup) -> None:
    """Nothing is resubmitted without another machine."""
    with setup.case("--lease=300").start() as case, case.client() as client:
        agent = case.agent("a1", m1=2)
        client.submit(*FOREVER)
        case.until(lambda: len(case.world.running()) == 1, "a task runs")
        agent.kill()
        case.until(lambda: client.ask("agents")[0]["silent"] > AWAY_SECONDS, "it is away")
        client.submit(*FOREVER)
        case.until(lambda: client.state("2") == "starting", "it is placed", SOON_SECONDS)
        before = commands_of(case)
        time.sleep(QUIET_SECONDS)
        require(in_firm(case) == {"1": "m1", "2": "m1"} and commands_of(case) == before, in_firm(case))


def ended_elsewhere(setup: Setup) -> None:
    """Placeholders outlive their tasks, keep no job's weight, and go with a machine whose agent is lost."""
    with setup.case("--lease=45", "--margin=0.1").start() as case, case.client() as client:
        agent = case.agent("a1", m1=3)
        client.submit(*FOREVER, job="first", grace=0)
        case.until(lambda: len(case.world.running()) == 1, "a task runs")
        case.agent("a2", m2=2)
        case.until(lambda: len(case.firm_rows("machines")) == 2, "both are there")
        agent.kill()
        case.until(lambda: client.ask("agents")[0]["silent"] > AWAY_SECONDS, "it is away")
        client.submit("0.01", job="short", weight=5)
        client.ask("wait", tasks=["2"])
        require(list(in_firm(case).values()).count("m1") == 3, in_firm(case))
        client.submit("0.01", job="short", weight=6)
        client.ask("wait", tasks=["3"], seconds=SOON_SECONDS)
        agent_row = client.ask("agents")[0]
        require(client.state("3") == "done" and agent_row["state"] != "lost", f"another weight: {agent_row}")
        case.until(lambda: client.ask("agents")[0]["state"] == "lost", "it is lost")
        case.until(lambda: set(in_firm(case)) == {"1"}, "the placeholders are gone")
        case.until(lambda: machines_of(case)["1"] == "m2", "the first task runs again")
        case.world.require_single()


def long_grace(setup: Setup) -> None:
    """A task with a long grace does not delay others of its agent, once that is silent."""
    with setup.case("--lease=10", "--margin=0.1").start() as case, case.client() as client:
        agent = case.agent("a1", m1=3)
        client.submit(*FOREVER, grace=3_600)
        client.submit(*FOREVER, grace=0)
        case.until(lambda: len(case.world.running()) == 2, "they run")
        case.agent("a2", m2=2)
        case.until(lambda: len(case.firm_rows("machines")) == 2, "both are there")
        agent.kill()
        case.until(lambda: machines_of(case)["2"] == "m2", "it runs elsewhere")
        require(client.ask("task", task="2")["attempts"][0]["outcome"] == "lost", "its first attempt")
        row = client.ask("task", task="1")
        require((row["attempt"], row["attempts"][0]["outcome"]) == (1, None), row)
        case.agent("a1", agent.disk, m1=3)
        case.until(lambda: len(case.world.running()) == 2, "so does the other one, once its agent is back")
        case.world.require_single()


def new_state(setup: Setup) -> None:
    """With a new state of firmd each task has one row again."""
    with setup.case_alone("--lease=300").start() as case, case.client() as client:
        begun(case, client)
        client.submit(*FOREVER)
        case.until(lambda: "2" in case.world.running(), "it runs", SOON_SECONDS)
        case.firmd.kill()
        shutil.rmtree(case.firmd.state)
        case.firmd.start()
        case.until(lambda: len(case.world.processes) == 3 and "2" in case.world.running(), "it runs again")
        require(machines_of(case)["2"] == "m2", case.world.processes)
        case.world.require_single()


class Steady(Submitter):
    """A client whose tasks take about half of the slots: machines are busy, and others have room."""

    pause = 0.3

    def command(self) -> list[str]:
        return [str(self.draw.choice([0.3, 1, 3])), str(self.draw.choice([0, 0, 0, 7]))]


def absences(case_of: Callable[..., Case], plan: Plan) -> None:
    """Agents are away for a while repeatedly, and queue and firmd are killed meanwhile: each task ends once."""
    draw = random.Random(plan.seed)
    with case_of("--lease=4", "--margin=0.2", size=Size(churn=20)) as case:
        case.words = [sys.executable, "-c", HASTY, "run"]
        case.start()
        agents = [case.agent("a1", m1=4, m2=3), case.agent("a2", m3=4, m4=1), case.agent("a3", m5=2)]
        submitter = Steady(case, plan.seed)
        thread = threading.Thread(target=submitter.serve)
        thread.start()
        found = 0
        try:
            for _ in range(plan.kills):
                agent = agents.pop(draw.randrange(len(agents)))
                agent.kill()
                ends = time.monotonic() + draw.choice([0.1, 0.5, 1.0])
                while time.monotonic() < ends:
                    found += any(set(name) & {*ascii_lowercase} for name in in_firm(case))
                kill_one(case, agents, draw)
                agents.append(case.agent(agent.name, agent.disk, **agent.machines))
                time.sleep(draw.choice([0, 0.2]))
        finally:
            submitter.is_over.set()
            thread.join(LIMIT_SECONDS)
        judge_all(case, submitter, agents)
        require(found or plan.kills < FEW, "no task was given again")


def commands_of(case: Case) -> int:
    """Return the number of commands of the tenant."""
    with case.client() as client:
        return int(client.ask("status")["commands"])


def table_of_rows() -> None:
    """Choose a task's own row among several."""
    cases: list[tuple[str, dict[str, str | None], str | None, str, backlog.Machines]] = [
        ("", {}, None, "1", CLOSED),
        ("a", {}, None, "1", CLOSED),
        ("", {"1": "m1"}, None, "1", CLOSED),
        ("", {"1": "m1", "1a": None}, None, "1a", CLOSED),
        ("", {"1": "m1", "1a": "m2"}, None, "1a", CLOSED),
        ("a", {"1": "m1", "1a": None}, None, "1", OPEN),
        ("a", {"1": "m1", "1a": "m2"}, None, "1a", OPEN),
        ("", {"1": "m1", "1a": "m1"}, None, "1a", CLOSED),
        ("", {"1": "m1", "1a": "m2"}, "m1", "1", CLOSED),
        ("", {"1": "m1", "1b": "m2", "1a": "m1"}, "m2", "1b", CLOSED),
        ("a", {"1": "m1", "1a": None}, None, "1a", backlog.Machines({"m2": 4}, {"m1"})),
    ]
    for letters, found, attempt, expected, machines in cases:
        task, book = Task(Submission(1, 0, "j", 5, Spec(("x",), "/"), None, None, 0.0), rows.SINGLE), book_of(64, 256)
        task.letters, book.machines, book.jobs = letters, {"m1": 4, "m2": 4}, {"j": 5}
        if attempt is not None:
            task.attempt = rows.Attempt(task.name, 1, "a", "a", attempt, 1, "t", 0.0)
        for line, (name, machine) in enumerate(found.items()):
            book.tasks[name] = books.FirmTask("j", line, (), 0, None, machine)
        placeholders = of(book, machines)
        row = placeholders.choose(task, placeholders.rows_of(task.name, task, book))
        require((task.firm, row) == (expected, book.tasks.get(expected)), f"{letters} {found} {attempt}: {task.firm}")
        if machines is not OPEN:  # a reader of firm's rows alone doesn't know which machines are open
            require(newest_letters(task, book) == task.letters, f"{letters} {found} {attempt}: another row to readers")


def of(book: Book, machines: backlog.Machines) -> Placeholders:
    placeholders = Placeholders()
    for name in book.tasks:
        task = rows.Name.of_firm(name)
        if task is not None:
            placeholders.enter(name, task)
    list(placeholders.look(machines, book, {}))
    return placeholders


def longest_names() -> None:
    """Names with letters are submitted as far as firm accepts them."""
    last = Submission(99_999_999, 0, "j", 5, Spec(("x",), "/"), 9_999_999, 9_999_999, 0.0)
    book, task = book_of(64, 256), Task(last, 9_999_999)
    book.machines, book.jobs = {"m1": 4, "m2": 4}, {"j": 5}
    for line in range(28):
        book.tasks[task.firm] = row = books.FirmTask("j", line, (), 0, None, "m1")
        is_given = of(book, CLOSED).replace(task, row, book)
        require(is_given == (line < 26) and len(task.firm) == 16, task.firm)


CHECKS: tuple[Callable[[Setup], None], ...] = (
    busy_away,
    full_elsewhere,
    turns,
    alone_away,
    ended_elsewhere,
    long_grace,
    new_state,
)
TABLES: dict[str, Callable[[], None]] = {"table of rows": table_of_rows, "longest names": longest_names}
