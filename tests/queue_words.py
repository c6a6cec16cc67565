"""Checks of agents whose queue, or firmd, sends malformed messages, which tests/supervision.py runs."""

from __future__ import annotations

from collections.abc import Iterator
from contextlib import contextmanager

from harness.checks import require
from queue_stand_in import Cluster

# In place of rows.
MALFORMED_ROWS: list[dict[str, object]] = [
    {},
    {"state": 5, "machines": {}, "tasks": []},
    {"state": "first", "machines": [], "tasks": []},
    {"state": "first", "machines": {"m1": "4"}, "tasks": []},
    {"state": "first", "machines": {}, "tasks": 5},
    {"state": "first", "machines": {}, "tasks": [{"task": "A", "line": 1, "job": "j", "machine": "m1"}]},
    {"state": "first", "machines": {}, "tasks": [{"task": "a", "line": True, "job": "j", "machine": "m1"}]},
    {"state": "first", "machines": {}, "tasks": [{"task": "a", "line": 1, "job": "j"}]},
    {"state": "first", "machines": {}, "tasks": [[]]},
]


def malformed_rows() -> None:
    """If the queue sends malformed rows of firm, the agent connects anew, and runs go on."""
    with Cluster("a") as case:
        case.start_registered()
        case.firmd.round("start a m1")
        case.until_told("running", "a")
        for rows in MALFORMED_ROWS:
            with named(case, "malformed rows of firm", again=True):
                case.queue.tell("a1", tell="firm", **rows)
        require(case.processes().keys() == {"a"} and case.agents["a1"].poll() is None, case.told())
        case.go("a")
        require(case.until_told("ended", "a")["status"] == 0, "how a ended")


def malformed_words() -> None:
    """A malformed message of the queue is named and refused, whatever it is part of: the agent and its runs go on."""
    nan, endless = float("nan"), float("inf")
    others: list[object] = [None, "soon", nan, endless, -1, 10**400, True, [1], {"a": 1}]
    lists: list[object] = [None, 5, "0123456789abcdef", {"a": 1}]
    said: list[tuple[str, object, str]] = [("register", [[]], "register is a list"), ("beat", 5, "beat is 5")]
    said += [("register", {"lease": value}, "register: lease is ") for value in others]
    said += [("register", {"beat": value}, "register: beat is ") for value in others[:3]]
    said += [("register", {word: value}, f"register: {word} is ") for word in ("end", "keep") for value in lists]
    said += [("register", {word: [[1], None, 5, "zz"]}, f"register: one of {word} is ") for word in ("end", "keep")]
    said += [("beat", {"lease": value}, "beat: lease is ") for value in others[:3]]
    with Cluster("a", "b", "c") as case:
        case.start_registered()
        case.firmd.round("start a m1 start b m1")
        for task in "ab":
            case.until_told("running", task)
        for ask, words, told in said:
            case.queue.says = {"register": {"beat": 0.2}, ask: words}
            with named(case, told, again=True):
                case.queue.close()
                case.queue.open()
        malformed_answers(case)
        malformed_tells(case)
        case.go("a", "b", "c")
        for task in "abc":
            case.until(lambda: [end for end in case.queue.ends(task) if end["status"] == 0], f"{task} is done")
        require("Traceback" not in case.told() and case.agents["a1"].poll() is None, case.told())
        logs = [case.text(f"{task}.log") for task in "abc"]
        require(logs == ["begin m1\nend\n"] * 2 + ["begin m1\nbegin m1\nend\n"], logs)


@contextmanager
def named(case: Cluster, words: str, again: bool = False) -> Iterator[None]:
    """Require that an agent names a malformed word, and optionally registers again once the queue's messages are
    valid."""
    log = case.folder / "log"
    size = log.stat().st_size
    yield
    case.until(lambda: words in log.read_text()[size:] or case.agents["a1"].poll() is not None, f"{words} is told")
    require(case.agents["a1"].poll() is None, f"it ends at {words}: {case.told()}")
    if again:
        case.queue.says = {}
        case.until(lambda: "registered as a1" in log.read_text()[size:], f"it is registered again after {words}")


def malformed_answers(case: Cluster) -> None:
    """Malformed answers to claims and events are named and refused."""
    with named(case, "claim is 5"):
        case.queue.says = {"claim": 5}
        case.firmd.round("start c m1")
    waits: dict[str, object] = {" is a list": [], ": seconds is not there": {"wait": "x"}}
    waits[": seconds is nan"] = {"wait": "x", "seconds": float("nan")}
    for words, value in waits.items():
        with named(case, f"claim{words}"):
            case.queue.says = {"claim": value}
            case.queue.tell("a1", tell="again")
    with named(case, "told: told is 'all'"):
        case.queue.says = {"told": "all"}
        case.queue.tell("a1", tell="again")
    for words, value in {"not there": None, "0": 0, "1000": 1_000, "1.0": 1.0}.items():
        with named(case, f"told: told is {words};"):
            case.queue.says = {"told": value}
    case.queue.says = {}
    case.until_acknowledged("a1")


def malformed_tells(case: Cluster) -> None:
    """Malformed unsolicited messages, and lines that are no objects, are named and refused."""
    for tell in ("end", "keep"):
        for words, value in {"not there": None, "5": 5, "'0123456789abcdef'": "0123456789abcdef"}.items():
            with named(case, f"tell '{tell}': tokens is {words}"):
                case.queue.tell("a1", tell=tell, tokens=value)
    with named(case, "tell 'end': one of tokens is a list"):
        case.queue.tell("a1", tell="end", tokens=[[1], case.queue.token("c")])
    require(case.until_told("ended", "c")["why"] == "told", "one is a token")
    case.until(lambda: case.text("c.log").count("begin") == 2, "firm still wants c")
    with named(case, "registered as a1"):
        case.queue.says = {"register": {"beat": 0.2}}
        case.queue.close()
        case.queue.open()
    lease, case.queue.lease = case.queue.lease, float("nan")
    with named(case, "tell 'lease': lease is nan"):
        case.queue.is_hung = True  # so that a heartbeat's answer waits
    case.queue.lease, case.queue.is_hung = lease, False
    for line in ("5", "[]", '"tell"', "[" * 100_000):
        with named(case, "a frame that is ", again=True):
            case.queue.tell_text("a1", line)
