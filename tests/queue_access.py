"""Check the rights of the queue's users, invalid requests, and access to the files of tasks' outputs."""

from __future__ import annotations

import os
import shutil
import sys
import threading
import time
from collections.abc import Callable
from functools import partial
from typing import Any

from harness.checks import Skipped, require
from harness.deployed import SERVICE
from queue_client import LIMIT_SECONDS, Client, Json, as_user
from queue_kit import ANN, BOB, FOREVER, Case, Setup, claim_place

CAROL = 61_103  # a user without a name, of a queue
SOON_SECONDS = 0.3  # a refusal would have come in this time
# A firm-api of another user, from a copy of the package, as this one may be in a folder that the user can't read.
BY_USER = """\
import os, sys
folder, user = sys.argv[1], int(sys.argv[2])
os.setgroups([])
os.setgid(user)
os.setuid(user)
sys.path.insert(0, folder)
from firm.api import daemon
sys.exit(daemon.main(sys.argv[3:]))
"""


def users(setup: Setup) -> None:
    """Each user sees and changes only the user's own tasks, up to a bound; operators see and change all."""
    if os.geteuid():
        raise Skipped("it needs root, to be other users")
    with setup.case("--most-of-user=10", "--socket-mode=666").start() as case, case.client() as root:
        os.chmod(case.folder, 0o755)
        submit: Json = {"ask": "submit", "command": ["forever"], "dir": "/tmp"}
        ask = partial(as_user, place=case.place)
        answers = as_user(ANN, case.place, [submit, {**submit, "array": [1, 9]}, submit, {"ask": "status"}])
        require([answer.get("submit", {}).get("number") for answer in answers[:2]] == [1, 2], answers)
        require(answers[0]["submit"]["job"] == f"u{ANN}", answers)
        require(answers[2]["error"] == "quota", answers)
        status = answers[3]["status"]
        require((status["is_operator"], status["quota"], status["user"]) == (False, 10, str(ANN)), status)
        bob: list[Json] = [{"ask": "tasks"}, {"ask": "cancel", "tasks": ["1"]}, {"ask": "task", "task": "1"}]
        bob += [{"ask": "wait", "tasks": ["1"]}, {"ask": "log", "task": "1"}, {**submit, "after": ["1"]}]
        bob += [{**submit, "job": f"u{ANN}"}, {"ask": "cordon", "machines": ["m1"]}, {"ask": "beat"}]
        bob += [{"ask": "cancel", "jobs": [f"u{ANN}"]}, submit, {"ask": "tasks"}, {"ask": "history", "user": str(ANN)}]
        found = ask(BOB, requests=bob)
        require(found[0]["tasks"] == [], found[0])
        names = [answer.get("error") for answer in found[1:10]]
        others = ["not-yours", "operator-only", "operator-only", "no-such-job"]
        require(names == ["no-such-task"] * 5 + others, names)
        require(
            [row["task"] for row in found[11]["tasks"]] == ["3"] and found[12].get("error") == "operator-only",
            found[11:],
        )
        require(len(root.ask("tasks")) == 11, root.ask("tasks"))
        require({row["user"] for row in root.ask("tasks", user=str(ANN))} == {str(ANN)}, "the rows of a user")
        require(root.ask("cancel", tasks=["1", "3"])["changed"] == ["1", "3"], "an operator may")
        require("submit" in ask(ANN, requests=[submit])[0], "there is room again")


def heavy(setup: Setup) -> None:
    """Users other than operators have no job above --most-weight, and can't go on with an earlier one; by default
    none is heavier than usual."""
    if os.geteuid():
        raise Skipped("it needs root, to be other users")
    submit: Json = {"ask": "submit", "command": FOREVER, "dir": "/tmp", "hold": True}
    with setup.case("--socket-mode=666") as case:
        case.folder.chmod(0o755)
        case.start()
        answers = as_user(ANN, case.place, [{**submit, "weight": 11}, {**submit, "job": f"u{BOB}"}])
        require([answer["error"] for answer in answers] == ["weight-too-large", "not-yours"], answers)
        (found,) = as_user(BOB, case.place, [submit])
        require(found["submit"] == {"number": 1, "first": None, "last": None, "count": 1, "job": f"u{BOB}"}, found)
        case.kill()
        case.options.append("--most-weight=1000000")
        case.start()
        (found,) = as_user(ANN, case.place, [{**submit, "job": "old", "weight": 1_000_000}])
        require("submit" in found, found)
        case.kill()
        case.options.append("--most-weight=5")
        case.start()
        given: list[Json] = [{"weight": 6}, {"weight": 5, "job": "a"}, {}, {"job": "old"}, {"weight": 10**7}]
        answers = as_user(ANN, case.place, [{**submit, **fields} for fields in given])
        names = [answer.get("error") for answer in answers]
        require(names == ["weight-too-large", None, None, "weight-too-large", "bad-field"], answers)
        require("weight 6; a job of yours may have 5" in answers[0]["text"], answers[0])
        two: list[Json] = [{"command": FOREVER, "dir": "/"}, {"command": FOREVER, "dir": "/", "job": "b", "weight": 9}]
        (refused,) = as_user(ANN, case.place, [{"ask": "submit-all", "submissions": two}])
        require((refused.get("error"), refused.get("at")) == ("weight-too-large", 1), refused)
        with case.client() as root:
            root.submit(*FOREVER, hold=True, job="c", weight=1_000_000)
            root.submit(*FOREVER, hold=True)
            weights = {row["job"]: row["weight"] for row in root.ask("jobs")}
        require(weights == {f"u{BOB}": 10, "old": 1_000_000, "a": 5, f"u{ANN}": 5, "c": 1_000_000, "root": 10}, weights)


def faulty(setup: Setup) -> None:
    """Each faulty request is refused by name, and has no effect."""
    with setup.case().start() as case, case.client() as client:
        good: Json = {"command": ["x"], "dir": "/"}
        commands: list[Any] = [None, [], "x", [1], [""], ["a\0"], ["x" * 200_000], ["\ud800"]]
        bad: list[Json] = [
            *({**good, "command": value} for value in commands),
            *({**good, "dir": value} for value in (None, "relative", 7, "/" + "x" * 5_000)),
            *({**good, "array": value} for value in ([1], [2, 1], [-1, 2], ["1", "2"], [0, 10**7], 5)),
            *({**good, "job": value} for value in ("", "Web", "x" * 17, 3)),
            *({**good, "weight": value} for value in (0, 1_000_001, 1.5, True)),
            *({**good, "time": value} for value in (0, -1, "5", 10**400)),
            *({**good, "near": value} for value in (["m"] * 5, ["M"], "m1")),
            *({**good, "env": value} for value in ([], {"1x": "a"}, {"A": 1}, {"A": "\0"})),
            *({**good, "retries": value} for value in (-1, 101, 1.0)),
            *({**good, "grace": value} for value in (-1, 3_601)),
            *({**good, "memory": value} for value in (0, 1.5)),
            *({**good, "processors": value} for value in (0, "2")),
            *({**good, "output": value} for value in ("out", 1, "/" + "x" * 5_000)),
            *({**good, "hold": value} for value in (1, "no")),
            *({**good, "key": value} for value in ("", "k" * 129, 1)),
            {**good, "unknown": 1},
        ]
        for request in bad:
            answer = client.refused("bad-field", "submit", **request)
            require(answer["text"].startswith(answer["field"]), (request, answer))
        client.refused("bad-request", "submit", **good, time=float("inf"))
        client.refused("bad-field", "tasks", states=["nowhere"])
        client.refused("bad-field", "tasks", user="nobody-of-this-name")
        client.refused("no-such-task", "wait", tasks=["x"])
        client.refused("no-such-machine", "cordon", machines=["m9"])
        require(client.ask("status")["last_number"] == 0 and client.ask("tasks") == [], "something was made")
        require(client.submit() == 1, "it still serves")


def logs(setup: Setup) -> None:
    """A task's output is read from any place, and followed until its attempt has ended."""
    with setup.case().start() as case, case.client() as client, case.client() as agent:
        agent.ask("register", agent="a1", id="x", machines={"m1": 1}, runs=[])
        client.submit(*FOREVER)
        client.refused("no-output", "log", task="1")
        agent.ask("claim", token="aaaaaaaa", run=1, **claim_place(case))
        path = case.folder / "output"
        path.write_bytes(b"first\n" + bytes(range(256)) * 1_000)
        followed = [Following(client, task="1", attempt=1), Following(client, task="1")]
        time.sleep(SOON_SECONDS)
        running = {"token": "aaaaaaaa", "event": "running", "pid": 1, "time": time.time(), "host": None}
        agent.ask("told", events=[{**running, "output": str(path)}])
        followed.append(Following(client, task="1", from_=256_000))
        for following in followed:
            case.until(lambda: path.read_bytes().endswith(following.text) and following.text, "it is followed")
        require(b"".join(client.log("1")) == path.read_bytes(), "as a whole")
        for more in (b"more", b"last"):
            with open(path, "ab") as file:
                file.write(more)
            case.until(lambda: all(one.text.endswith(more) for one in followed), "what is added")
        require(client.state("1") == "running", client.state("1"))
        ended = {"token": "aaaaaaaa", "event": "ended", "status": 5, "asked": False}
        agent.ask("told", events=[ended])
        for following in followed:
            following.join(LIMIT_SECONDS)
            require(not following.is_alive() and path.read_bytes().endswith(following.text), "it has ended")
        require([len(one.text) for one in followed] == [256_014, 256_014, 14], [len(one.text) for one in followed])
        require((client.state("1"), client.ask("task", task="1")["status"]) == ("failed", 5), "how it ended")
        path.unlink()
        client.refused("no-output", "log", task="1", attempt=1)
        client.refused("no-such-attempt", "log", task="1", attempt=2)
        os.mkfifo(path)
        client.refused("no-output", "log", task="1")
        client.submit(*FOREVER)
        agent.ask("claim", token="bbbbbbbb", run=2, **claim_place(case, "2"))
        (case.folder / "quick").write_text("quick")
        output = {"output": str(case.folder / "quick"), "host": None}
        agent.ask("told", events=[{**ended, **output, "token": "bbbbbbbb", "status": 0}])
        require(b"".join(client.log("2")) == b"quick", "the output of what ended before it was seen to run")


def others_files(setup: Setup) -> None:
    """The queue, which runs as root here, reads a file for a user only if the user's or the run's own user owns it."""
    if os.geteuid():
        raise Skipped("it needs root, to be other users")
    with setup.case("--socket-mode=666").start() as case, case.client() as agent:
        os.chmod(case.folder, 0o755)
        agent.ask("register", agent="a1", id="x", machines={"m1": 1}, runs=[])
        secret, path = case.folder / "secret", case.folder / "output"
        secret.write_text("secret")
        path.symlink_to(secret)
        ask = partial(as_user, ANN, case.place)
        ask([{"ask": "submit", "command": FOREVER, "dir": "/tmp", "output": str(path)}])
        agent.ask("claim", token="aaaaaaaa", run=1, **claim_place(case))
        running = {"token": "aaaaaaaa", "event": "running", "pid": 1, "time": time.time(), "output": str(path)}
        agent.ask("told", events=[running])
        for owned, what in ((0, "a link to root's file"), (ANN, "the user's own file")):
            os.chown(path, owned, owned)
            found = ask([{"ask": "log", "task": "1"}])[0]
            require((found.get("error") == "no-output") == (owned == 0), (what, found))


def files_of_the_queue(setup: Setup) -> None:
    """If root's agent runs a task as its user, no file of the queue's own user is shown; if the queue's own agent
    runs it, its files are that user's. Both hold after a restart too."""
    if os.geteuid():
        raise Skipped("it needs root, to be other users")
    with setup.case_alone("--socket-mode=666", "--lease=600") as case:
        case.words = [sys.executable, "-c", BY_USER, str(case.folder), str(CAROL), "run"]
        package = shutil.copytree(SERVICE / "firm", case.folder / "firm")
        (package / "RELEASE").write_text("of a copy")
        case.state.mkdir()
        secret = case.folder / "secret"
        secret.write_text("secret")
        for owned in (case.folder, case.state, case.firmd.state, case.doors.view, case.doors.lines, secret):
            os.chown(owned, CAROL, CAROL)
        case.folder.chmod(0o755)
        for name in ("linked-1", "linked-3"):
            (case.folder / name).symlink_to(secret)
        case.start()
        begin(case, partial(as_user, 0, case.place), "a1", {"1": "linked-1", "2": "absent"})
        begin(case, partial(as_user, CAROL, case.place), "a2", {"3": "linked-3"})
        for _ in range(2):
            found = as_user(ANN, case.place, [{"ask": "log", "task": task} for task in "12"] + [{"ask": "status"}])
            require([answer.get("error") for answer in found] == ["no-output", "no-output", None], found)
            texts = [answer["text"].replace(name, "") for answer, name in zip(found, ("linked-1", "absent"))]
            require(texts[0] == texts[1], f"a refusal tells what is there: {texts}")
            found = as_user(ANN, case.place, [{"ask": "log", "task": "3"}])
            require(found[0].get("log") == "secret", found)
            case.kill()
            case.start()


def begin(case: Case, ask: Callable[[list[Json]], list[Json]], name: str, outputs: dict[str, str]) -> None:
    """Start tasks of a user with these outputs, by their names, at an agent with a separate machine."""
    agent: Json = {"ask": "register", "agent": name, "id": name, "machines": {f"m{name}": len(outputs)}}
    for task, output in outputs.items():
        submit = {"ask": "submit", "command": FOREVER, "dir": "/tmp", "output": str(case.folder / output)}
        (answer,) = as_user(ANN, case.place, [submit])
        require(str(answer["submit"]["number"]) == task, answer)
    ask([{**agent, "runs": []}])
    runs: list[Json] = []
    for number, task in enumerate(outputs):
        place = claim_place(case, task)
        run: Json = {"token": f"{name}{number:06}", "task": task, "run": number, "machine": place["machine"]}
        answers = ask([{**agent, "runs": runs}, {"ask": "claim", **run, **place}])
        require("work" in answers[1].get("claim", {}), answers)
        runs.append({**run, "state": "starting"})
    events = [
        {"token": run["token"], "event": "running", "output": str(case.folder / output)}
        for run, output in zip(runs, outputs.values())
    ]
    answers = ask([{**agent, "runs": runs}, {"ask": "told", "events": events}])
    require(answers[1] == {"told": len(events)}, answers)


class Following(threading.Thread):
    """Follows a task's output."""

    def __init__(self, client: Client, task: str, **query: Any) -> None:
        super().__init__(daemon=True)
        self._pieces, self.text = client.log(task, follow=True, **query), b""
        self.start()

    def run(self) -> None:
        for piece in self._pieces:
            self.text += piece


CHECKS = (users, heavy, faulty, logs, others_files, files_of_the_queue)
