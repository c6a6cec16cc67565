"""Check the queue after lost or late messages of firmd or an agent, and when nobody requests a round."""

from __future__ import annotations

import socket
import sys
import threading
import time
from collections.abc import Callable, Iterator
from contextlib import closing, contextmanager, suppress
from math import inf

from harness.checks import require
from harness.deployed import Book, FirmdSockets, Limits, books, bound, fair_order
from firm.viewer import view, view_books as viewed
from firm.queue import placement_sync as giving
from firmd_kit import Client as FirmdClient
from queue_client import Json
from queue_kit import FOREVER, Case, Setup, Size, claim_place
from queue_tables import Plans

SOON_SECONDS = 180.0  # for events within one, on a busy host
LOOK_SECONDS = 1.0  # between two looks for jobs that firm has
# A queue whose waits age 50 times as fast.
SOON = """\
import sys
from firm.api import daemon
from firm.queue import placement_sync as giving
giving.AGING_SECONDS = 0.1
sys.exit(daemon.main(sys.argv[1:]))
"""


def kept_ends(setup: Setup) -> None:
    """A kept run ends once it is cancelled, or its machine drained, though the cordon that kept it is gone. Agents
    hear nothing of a cordon that is taken back at once."""
    tokens = {"1": "aaaaaaaa", "2": "bbbbbbbb"}
    with setup.case("--lease=300").start_failing() as case, case.client() as client, case.client() as agent:
        register: Json = {"agent": "a1", "id": "x", "machines": {"m1": 2}}
        agent.ask("register", **register, runs=[])

        def told() -> list[Json]:
            agent.send({"ask": "beat"})
            lines = iter(agent.line, {"beat": {"lease": 300.0}})
            return [{"tell": line["tell"], "tokens": line["tokens"]} for line in lines if "tokens" in line]

        for number, (task, token) in enumerate(tokens.items(), 1):
            client.submit(*FOREVER)
            agent.ask("claim", token=token, run=number, **claim_place(case, task))
        with case.failure("hangs"):  # so that the cordon is gone before its report
            for change, state in (("cordon", "cordoned"), ("uncordon", "up")):
                client.send({"ask": change, "machines": ["m1"]})
                case.until(lambda: [row["state"] for row in client.ask("machines")] == [state], change)
        require([*client.answer(), *client.answer()] == ["cordon", "uncordon"], "both are done")
        require((found := told()) == [], f"behind a cordon that is not there any more: {found}")
        require(agent.ask("kept", tokens=["aaaaaaaa"]) == 1, "what the agent has recorded holds")
        require(client.ask("cancel", tasks=["1"])["changed"] == ["1"], "it is cancelled")
        require((found := told()) == [{"tell": "end", "tokens": ["aaaaaaaa"]}], f"of what is cancelled: {found}")
        ended: Json = {"event": "ended", "status": 143, "asked": True, "why": "told"}
        agent.ask("told", events=[{**ended, "token": "aaaaaaaa"}])
        require(client.state("1") == "cancelled", client.ask("task", task="1"))
        client.ask("cordon", machines=["m1"])
        require((found := told())[:1] == [{"tell": "keep", "tokens": ["bbbbbbbb"]}], found)
        require(agent.ask("kept", tokens=["bbbbbbbb"]) == 1, "it is kept")
        case.until(lambda: case.firm_rows("machines") == [], "firm has m1 no more")
        client.ask("drain", machines=["m1"])
        require((found := told()) == [{"tell": "end", "tokens": ["bbbbbbbb"]}], f"behind the drain: {found}")
        run = {"token": "bbbbbbbb", "task": "2", "run": 2, "machine": "m1", "state": "running"}
        require(agent.ask("register", **register, runs=[run])["end"] == ["bbbbbbbb"], "as it registers again")
        agent.ask("told", events=[{**ended, "token": "bbbbbbbb"}])
        case.until(lambda: case.firm_tasks() == ["2"], "it is to start elsewhere")


def kept_alone(setup: Setup) -> None:
    """While a removed cordon still keeps all runs of a machine, firm gives its slots to nobody; then firm has the
    machine."""
    with setup.case("--lease=300").start() as case, case.client() as client, case.client() as agent:
        agent.ask("register", agent="a1", id="x", machines={"m1": 1}, runs=[])
        client.submit(*FOREVER)
        agent.ask("claim", token="aaaaaaaa", run=1, **claim_place(case))
        for ask in ("cordon", "uncordon"):
            client.ask(ask, machines=["m1"])
        agent.ask("kept", tokens=["aaaaaaaa"])
        client.submit(*FOREVER)
        case.until(lambda: case.firm_rows("machines") == [], "firm has m1 no more", SOON_SECONDS)
        case.until_state(client, "2", "waiting")
        agent.ask("told", events=[{"token": "aaaaaaaa", "event": "ended", "status": 0, "asked": False}])
        require(claim_place(case)["task"] == "2", "it has the slot then")


def first_round(setup: Setup) -> None:
    """If an earlier queue gave rows to firm and ended before it requested a round, the next queue requests one at
    its start."""
    with setup.case() as case, case.firmd.client() as firm:
        for line in ("machine m 2", "job j 3", "task j mine"):
            require(firm.ask(f"{case.tenant} {line}".encode()).endswith(b" ok"), line)
        case.start()
        case.until(lambda: case.firm_rows("tasks")[0]["machine"] == "m", "a round places it", SOON_SECONDS)


def ages(setup: Setup) -> None:
    """A task beside a slot that costs more than its wait gets the slot in the end, though nothing else changes."""
    with setup.case(size=Size(spread=3)) as case:
        case.words = [sys.executable, "-c", SOON, "run"]
        case.start()
        with case.client() as client:
            case.agent("a1", m1=2)
            client.submit(*FOREVER, weight=1, array=[1, 2])
            case.until(lambda: len(case.world.running()) == 2, "both run", SOON_SECONDS)


def book_of(limits: Limits, *tasks: tuple[str | None, tuple[str, ...], int]) -> Book:
    """Return a book: machines with 3 slots and 1, and tasks of weight 1 with their places, preferences and waits."""
    found = Book(limits, {"m": 3, "n": 1}, {"j": 1})
    for number, (machine, prefers, waited) in enumerate(tasks):
        found.tasks[f"t{number}"] = books.FirmTask("j", number, prefers, -waited, None, machine)
        found.waiting += machine is None
    return found


def rounds_that_age() -> None:
    """The queue requests rounds to age waits only if that gives a task a slot in some time, and nobody else requests
    one."""
    limits, dear = Limits("alpha", 64, 400, 1_000, 2, 0, 7), Limits("alpha", 64, 400, 1_000, 2, 0, 50_000)
    on_both = (("m", (), 0), ("n", (), 0))
    cases = {
        1.0: book_of(limits, *on_both, (None, (), 0)),
        0.0: book_of(limits, *on_both, (None, (), 9)),
        8.0: book_of(limits, *on_both, (None, ("n",), 0)),
        5.0: book_of(limits, *on_both, (None, ("n",), 3), (None, ("n",), 0)),
        inf: book_of(Limits("alpha", 64, 400, 1_000, 2, 0, 7, 5), *on_both, (None, ("n",), 0)),
        50_001.0: book_of(dear, *on_both, (None, ("n",), 0)),
    }
    found = {wanted: giving.rounds_to_start(book) for wanted, book in cases.items()}
    require(all(wanted == rounds for wanted, rounds in found.items()), found)
    require(giving.Aging().seconds_left(cases[50_001.0], 0.0) is None, "without an end in sight")
    require(giving.Aging().seconds_left(book_of(limits, *on_both), 0.0) is None, "nothing waits")
    full = book_of(limits, *on_both, *[("m", (), 0)] * 2, (None, (), 0))
    require(giving.Aging().seconds_left(full, 0.0) is None, "no slot is free")
    aging, book = giving.Aging(), cases[8.0]
    require(aging.seconds_left(book, 100.0) == 0, "at first")
    aging.asked(100.0, True)
    book.rounds = 1
    require(aging.seconds_left(book, 101.0) == giving.AGING_SECONDS, "behind its own")
    book.rounds = 2
    require(aging.seconds_left(book, 103.0) == giving.OTHERS_SECONDS, "behind another's")
    require(aging.seconds_left(book, 103.0 + giving.OTHERS_SECONDS) == 0, "others ask no more")
    aging.asked(200.0, False)
    require(aging.seconds_left(book, 200.0) == giving.AGING_SECONDS, "one that was refused is not asked for at once")


class Door:
    """A proxy for firmd's socket for lines; it cuts the connection after the first `job`, before its reply."""

    def __init__(self, case: Case) -> None:
        self.is_lost, self._lines = False, case.doors.lines
        path = case.folder / "door"
        case.doors = FirmdSockets(case.tenant, case.doors.view, path)
        self.listening = bound(path)
        self.listening.listen()
        threading.Thread(target=self._serve, daemon=True).start()

    def _serve(self) -> None:
        with suppress(OSError):
            while True:
                self._pass_on(self.listening.accept()[0])

    def _pass_on(self, client: socket.socket) -> None:
        with closing(client), closing(socket.socket(socket.AF_UNIX)) as firm:
            firm.connect(str(self._lines))
            replies = firm.makefile("rb")
            for line in client.makefile("rb"):
                firm.sendall(line)
                reply = replies.readline()
                if line.split()[1] == b"job" and not self.is_lost:
                    self.is_lost = True
                    return
                client.sendall(reply)


@contextmanager
def losing(case: Case) -> Iterator[Door]:
    door = Door(case)
    try:
        yield door
    finally:
        door.listening.shutdown(socket.SHUT_RDWR)
        door.listening.close()


def lost_reply(setup: Setup) -> None:
    """A job whose reply was lost belongs to the queue as any other: the queue closes it, and can submit it with
    another weight."""
    with setup.case() as case, losing(case) as door, case.start().client() as client:
        time.sleep(1.5 * LOOK_SECONDS)  # it has looked for jobs of an earlier run
        client.submit(*FOREVER, job="web", weight=10)
        case.until(lambda: case.firm_tasks() == ["1"], "it is in firm")
        require(door.is_lost, "a reply was lost")
        client.ask("cancel", tasks=["1"])
        case.until(lambda: case.firm_rows("jobs") == [], "its job is closed", SOON_SECONDS)
        client.submit(*FOREVER, job="web", weight=20)
        case.until(lambda: case.firm_tasks() == ["2"], "it is in firm, with another weight", SOON_SECONDS)


def told_waits() -> None:
    """Rows that are sent anew keep the waits that firmd reports: tasks that are lighter by these waits take no place
    of theirs."""
    for weight, expected in {20: [], 502: [], 503: ["done 1-1", "job heavy 503", "task heavy 2-1"]}.items():
        plans = Plans()
        plans.book.jobs["light"] = 2
        plans.want(1, "light", 2)
        plans.backlog = fair_order.Backlog()
        plans.has("1-1", "light")
        plans.book.rounds, plans.book.waiting = 500, 1
        (plans.book,) = viewed.books_of("alpha", view.rows_of(plans.book)).tenants.values()
        require(plans.book.waited(plans.book.tasks["1-1"]) == 500, plans.book)
        plans.want(2, "heavy", weight)
        require((found := plans.lines(most=1)) == expected, f"weight {weight}: {found}")


def admitted_again(setup: Setup) -> None:
    """The tasks of a tenant that is retired and admitted again are submitted to it, whatever its earlier replies
    were."""
    with setup.case_alone().start() as case, case.client() as client, FirmdClient(case.firmd.operator) as operator:
        case.agent("a1", m1=4)
        client.submit(*FOREVER, array=[1, 3])
        case.until(lambda: len(case.world.running()) == 3, "three run")
        require(operator.ask(b"+ retire alpha") == b"+ ok retired alpha", "retired")
        admission = f"+ admit {Size(churn=50_000).row('alpha')}"
        require(operator.ask(admission.encode()) == b"+ ok admitted alpha", "admitted")
        case.until(lambda: len(case.world.processes) == 6 and len(case.world.running()) == 3, "they run again")
        client.submit(*FOREVER)
        case.until(lambda: len(case.world.running()) == 4, "so does a further one")
        case.world.require_single()


def late_agent(setup: Setup) -> None:
    """Nothing waits for an absent agent while another has room."""
    with setup.case("--lease=300").start() as case, case.client() as client:
        first = case.agent("a1", m1=4)
        case.agent("a2", m2=4)
        case.until(lambda: len(case.firm_rows("machines")) == 2, "both are there")
        first.kill()
        client.submit(*FOREVER, array=[1, 4])
        case.until(lambda: len(case.world.running()) == 4, "all run on the other one")
        require({process.machine for process in case.world.processes} == {"m2"}, case.world.processes)
        case.agent("a1", first.disk, m1=4)
        client.submit(*FOREVER, array=[1, 4])
        case.until(lambda: len(case.world.running()) == 8, "it has them again once it is back")
        case.world.require_single()


CHECKS = (kept_ends, kept_alone, first_round, ages, lost_reply, admitted_again, late_agent)
TABLES: dict[str, Callable[[], None]] = {"rounds that age": rounds_that_age, "told waits": told_waits}
