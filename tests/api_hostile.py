"""Check that hostile clients of firm-api, with requests of any bytes and with floods, affect no other user.

usage: tools/run tests/api_hostile.py [--quick] [--only WORD] [--seed N] [--program FILE]
Each check prints a line; the last line is 'N passed, M failed', and the exit status is 1 if one failed. It needs the
same packages as tests/api.py. --quick ends the fuzzed requests after some time.
"""

from __future__ import annotations

import argparse
import http.client
import json
import os
import random
import re
import resource
import signal
import socket
import ssl
import sys
import time
import zlib
from collections.abc import Callable, Iterator
from concurrent.futures import ThreadPoolExecutor
from contextlib import AbstractContextManager, closing, contextmanager, suppress
from functools import partial
from pathlib import Path
from typing import Any

import api_faults
from queue_client import LIMIT_SECONDS, Connection, as_user_does, connected
from api_kit import Events, Site, certificate, port_of, site
from firmd_kit import memory_kilobytes
from harness import program
from harness.checks import Check, Skipped, Suite, require, run_script, run_suites
from harness.waiting import slowness
from queue_kit import ANN, BOB, Setup

FUZZED, QUICK_SECONDS, LEAST = 10_000, 45.0, 300  # requests; their seconds with --quick, and their least number
SERVED_SECONDS = 8.0  # for another user's request beside a flood, with nothing else to do
ASKED, MAX_ASKED = 20, 100  # such requests
MAX_KILOBYTES = 250_000  # of a process, whatever is sent
CLIENTS = 160  # of a user, more than the bound
PIPELINED = 20_000
HEADERS = 20_000
BOMB_BYTES = 2**26
NEEDS, WAITING = 5_000, 20  # tasks that each of the others waits for; the number of the others
LONG, LONG_WORD, MAX_ANSWER = 40, 1_000 * "\U0001f600", 2**23  # tasks of an array; of their command; bytes of a page
UNREAD_SECONDS, TOGETHER = 20.0, 10  # of unread answers; long ones that are requested at once
LONG_REFUSAL = 10_000  # bytes
UNMET, MAX_TURN = 400, 2.0  # submissions that wait for a task which has failed; of a processor, for all of them
ARRAYS, ARRAY, LONG_TURN = 3, 20_000, 0.45  # of ended tasks; of a processor: less than a look at all of them takes
SMALL_SECONDS = 2.0
# A firm-api whose clients have little time.
SMALL = f"""\
import sys
from firm.api import bounded
bounded.HEAD_SECONDS = bounded.BODY_SECONDS = bounded.WRITE_SECONDS = {SMALL_SECONDS}
from firm.api import daemon
sys.exit(daemon.main(sys.argv[1:]))
"""
# A firm-api whose clients have all the time that they need.
PATIENT = f"""\
import sys
from firm.api import bounded
bounded.HEAD_SECONDS = bounded.IDLE_SECONDS = {LIMIT_SECONDS}
from firm.api import daemon
sys.exit(daemon.main(sys.argv[1:]))
"""
ONE: dict[str, Any] = {"submissions": [{"command": ["x"], "dir": "/tmp", "hold": True}]}
# A firm-api that reports each turn of a loop with much processor time.
TIMED = f"""\
import sys, time
from asyncio import events
def timed(handle, run=events.Handle._run):
    began = time.thread_time()
    run(handle)
    if (took := time.thread_time() - began) > {LONG_TURN}:
        print(f"a turn of {{took:.2f}} s", file=sys.stderr, flush=True)
events.Handle._run = timed
from firm.api import daemon
sys.exit(daemon.main(sys.argv[1:]))
"""
GET = b"GET /v1/status HTTP/1.1\r\nHost: localhost\r\n\r\n"
SiteOf = Callable[[Setup], AbstractContextManager[Site]]
STATUSES = {100, 200, 201, 400, 401, 403, 404, 405, 408, 409, 413, 415, 417, 429, 501, 503, 505}


# Requests of any bytes.


def fuzz(setup: Setup) -> None:
    """Each request gets one of the known statuses, or its connection is closed. None is logged as a fault, and the
    next one is answered."""
    draw = random.Random(setup.seed)
    with site(setup) as served:
        document = served.get("/v1/openapi.json")
        ends, count = time.monotonic() + QUICK_SECONDS, 0
        while count < FUZZED and not (setup.is_quick and time.monotonic() > ends and count >= LEAST):
            with closing(connected(served.socket)) as connection:
                connection.settimeout(LIMIT_SECONDS)
                for _ in range(20):
                    count += 1
                    text = fuzzed(draw, document, served.case.tenant)
                    if not asked(connection, text):
                        break
            if count % 1_000 < 20:
                served.get("/v1/status")
        served.get(served.of("tasks"))
        require("Traceback" not in served.said() and "fault" not in served.said(), served.said())
        print(f"fuzzed requests: {count:,}", flush=True)


def asked(connection: socket.socket, text: bytes) -> bool:
    """Send a request of any bytes. Return whether the connection can take another one."""
    with suppress(ConnectionError):
        connection.sendall(text)
        connection.shutdown(socket.SHUT_WR)
        answer = b""
        while more := connection.recv(65_536):
            answer += more
        for status in re.findall(rb"(?m)^HTTP/1.1 ([0-9]{3}) ", answer):
            require(int(status) in STATUSES, f"status {status!r} to {text[:500]!r}: {answer[:500]!r}")
    return False


def fuzzed(draw: random.Random, document: dict[str, Any], tenant: str) -> bytes:
    """Return a request that is almost one of the document's."""
    path, item = draw.choice([*document["paths"].items()])
    if path.endswith("/events"):
        path = path.removesuffix("s")
    method = draw.choice([*item, "get", "post", "delete", "x"]).upper()
    names = {"tenant": draw.choice([tenant, tenant, tenant, "..", "%2e%2e", "x" * 20, ""]), "task": word(draw)}
    for name, text in names.items():
        path = path.replace(f"{{{name}}}", text)
    query = "&".join(f"{word(draw)}={word(draw)}" for _ in range(draw.choice([0, 0, 0, 1, 2])))
    body = json.dumps(value(draw, 3)).encode() if draw.random() < 0.8 else draw.randbytes(draw.randrange(200))
    head = [f"{method} {path}{'?' if query else ''}{query} HTTP/1.1", "Host: localhost"]
    if method == "POST" or draw.random() < 0.05:
        head += ["Content-Type: application/json", f"Content-Length: {len(body)}"]
    else:
        body = b""
    if draw.random() < 0.2:
        head.append(draw.choice(EXTRA))
    return mutated(draw, "\r\n".join(head).encode() + b"\r\n\r\n" + body)


def mutated(draw: random.Random, text: bytes) -> bytes:
    """Return a text with some bytes changed, left out or doubled."""
    for _ in range(draw.choice([0, 0, 0, 0, 1, 3])):
        at = draw.randrange(len(text))
        text = draw.choice(
            [text[:at] + draw.randbytes(1) + text[at + 1 :], text[:at] + text[at + 1 :], text[:at] + text[at:] * 2]
        )
    return text


EXTRA = [
    "Host: localhost",
    "Content-Length: 5",
    "Transfer-Encoding: chunked",
    "Content-Encoding: gzip",
    "Expect: 100-continue",
    "Upgrade: websocket",
    "Connection: upgrade",
    "Authorization: Bearer x",
    "Last-Event-ID: " + "9" * 4_000,
    "X: " + "y" * 9_000,
    "Cookie: \x01",
]
WORDS = (
    "1 2_1 -1 0 x limit cursor states user job since until tasks jobs lines submissions command dir key ../x %00 nan"
)


def word(draw: random.Random) -> str:
    return draw.choice([*WORDS.split(), str(draw.randrange(10**18)), "é", "a" * draw.randrange(300), ""])


def value(draw: random.Random, depth: int) -> Any:
    """Return random JSON."""
    kind = draw.randrange(8 if depth else 5)
    if kind == 0:
        return draw.choice([None, True, 1, -1, 1.5, 10**30, 0])
    if kind < 4:
        return word(draw)
    if kind == 4:
        return []
    if kind == 5:
        return [value(draw, depth - 1) for _ in range(draw.randrange(4))]
    return {word(draw): value(draw, depth - 1) for _ in range(draw.randrange(5))}


# Floods.


@contextmanager
def small_site(setup: Setup) -> Iterator[Site]:
    """Start a site whose clients have little time."""
    with site(setup) as served:
        served.case.words = [sys.executable, "-c", SMALL, "run"]
        served.restart()
        yield served


@contextmanager
def patient_site(setup: Setup) -> Iterator[Site]:
    """Start a site whose clients keep their connections, however long a busy host takes to make many."""
    with site(setup) as served:
        served.case.words = [sys.executable, "-c", PATIENT, "run"]
        served.restart()
        yield served


@contextmanager
def hostile(work: Callable[[], Iterator[None]]) -> Iterator[None]:
    """Run a hostile process of another user, once it has begun."""
    given, taken = os.pipe()
    child = os.fork()
    if child == 0:
        try:
            os.setgroups([])
            os.setgid(ANN)
            os.setuid(ANN)
            turns = work()
            next(turns)
            os.write(taken, b".")
            for _ in turns:
                pass
        finally:
            os._exit(1)
    try:
        os.close(taken)
        with open(given, "rb") as ready:
            require(ready.read(1) == b".", "it has begun")
        yield
    finally:
        os.kill(child, signal.SIGKILL)
        os.waitpid(child, 0)


def beside(work: Callable[[Path], Iterator[None]], setup: Setup, seconds: float = 3 * SMALL_SECONDS) -> None:
    """Another user is answered soon beside a flood, for reads and changes, and the processes stay small."""
    with small_site(setup) as served, closing(Connection(served.socket)) as connection:
        with hostile(partial(work, served.socket)):
            slow = slowness()
            ends, took = time.monotonic() + slow * seconds, list[float]()
            while time.monotonic() < ends and len(took) < MAX_ASKED or len(took) < ASKED // 2:
                began = time.monotonic()
                require(served.get("/v1/status")["user"] == "root", "an answer")
                served.submit("x", hold=True)
                took.append(time.monotonic() - began)
                time.sleep(0.05)
            late, slow = sorted(took)[(len(took) - 1) * 9 // 10], max(slow, slowness())
            told = f"two requests took {late:.1f} s, nine times of ten; a program takes {slow:.1f} times its time"
            print(f"    {told}", flush=True)
            require(late < SERVED_SECONDS * slow, told)
            sizes = [memory_kilobytes(served.pid), memory_kilobytes(served.reads_process())]
            require(max(sizes) < MAX_KILOBYTES, f"the processes have {sizes} kB")
        require(connection.ask("GET", "/v1/status").status == 200, "an answer afterwards")
        require("Traceback" not in served.said(), served.said())


def drip(path: Path, text: bytes) -> Iterator[None]:
    """Hold many connections that send a byte at a time, for ever."""
    held = [connected(path) for _ in range(CLIENTS)]
    at = 0
    while True:
        for place, one in enumerate(held):
            try:
                one.sendall(text[at : at + 1] or b"x")
            except OSError:
                held[place] = connected(path)
        at += 1
        yield
        time.sleep(0.05)


def slow_heads(path: Path) -> Iterator[None]:
    yield from drip(path, GET[:-4] + b"\r\nX: ")


def slow_bodies(path: Path) -> Iterator[None]:
    kind = b"Content-Type: application/json\r\nContent-Length: 100000"
    head = b"POST /v1/lines HTTP/1.1\r\nHost: localhost\r\n%b\r\n\r\n" % kind
    held = [connected(path) for _ in range(CLIENTS)]
    for one in held:
        with suppress(OSError):
            one.sendall(head)
    while True:
        for one in held:
            with suppress(OSError):
                one.sendall(b"x")
        yield
        time.sleep(0.05)


def mute(path: Path) -> Iterator[None]:
    held = [connected(path) for _ in range(CLIENTS)]
    while True:
        held = [connected(path), *held[: 3 * CLIENTS]]
        yield
        time.sleep(0.005)


def pipelining(path: Path) -> Iterator[None]:
    """Send requests without reading an answer, as fast as the server reads."""
    while True:
        with connected(path) as connection:
            connection.settimeout(1.0)
            with suppress(OSError):
                for _ in range(PIPELINED // 100):
                    connection.sendall(100 * GET)
                    yield
        yield


def endless_heads(path: Path) -> Iterator[None]:
    while True:
        with connected(path) as connection, suppress(OSError):
            connection.sendall(GET[:-2])
            for number in range(HEADERS):
                connection.sendall(b"X-%d: %b\r\n" % (number, 500 * b"y"))
        yield


def bombs(path: Path) -> Iterator[None]:
    packed = zlib.compress(b" " * BOMB_BYTES, 9)
    many = b'{"lines": [' + b"{}," * 2**20 + b"1]}"
    keys = b"{" + b",".join(b'"%d":1' % number for number in range(240_000)) + b"}"
    head = (
        "POST /v1/lines HTTP/1.1\r\nHost: localhost\r\nContent-Type: application/json\r\nContent-Length: {}\r\n{}\r\n"
    )
    while True:
        for text, more in ((packed, "Content-Encoding: deflate\r\n"), (many, ""), (keys, "")):
            with connected(path) as connection, suppress(OSError):
                connection.settimeout(LIMIT_SECONDS)
                connection.sendall(head.format(len(text), more).encode() + text)
                connection.recv(10)
        yield


def comers(path: Path) -> Iterator[None]:
    """Open connections that change between reads and changes, and leave before their answers."""
    post = b"POST /v1/lines HTTP/1.1\r\nHost: localhost\r\nContent-Length: 2\r\n\r\n{}"
    while True:
        for text in (GET, post, GET + post + GET):
            with connected(path) as connection, suppress(OSError):
                connection.sendall(text)
        yield


def closed_in_time(setup: Setup) -> None:
    """A client that sends too little, or reads nothing, is closed; so are connections past the bound."""
    with small_site(setup) as served:
        for text in (b"", GET[:20], b"POST /v1/lines HTTP/1.1\r\nHost: localhost\r\n"):
            began = time.monotonic()
            with connected(served.socket) as connection:
                connection.sendall(text)
                require(connection.recv(1) == b"", f"an answer to {text!r}")
                took = time.monotonic() - began
                require(SMALL_SECONDS / 2 < took < 30 * SMALL_SECONDS, f"{text!r}: closed after {took:.1f} s")
    with patient_site(setup) as served:
        refused = as_user_does(ANN, partial(refused_in_crowd, served.socket)) if not os.geteuid() else 10
        require(refused == 10, f"{refused} of 10 are refused past the bound")


def half_closed(setup: Setup) -> None:
    """A client that sends requests ahead, and then no more, gets the answer to each."""
    with site(setup) as served:
        body = json.dumps({"submissions": [{"command": [6_000 * "x"], "dir": "/tmp", "hold": True}]}).encode()
        head = f"POST {served.of('submissions')} HTTP/1.1\r\nHost: localhost\r\nContent-Type: application/json\r\n"
        post = f"{head}Content-Length: {len(body)}\r\n\r\n".encode() + body
        for turn in range(ASKED):
            with connected(served.socket) as connection:
                connection.sendall(turn % 3 * GET + post + GET + post + 2 * GET)
                connection.shutdown(socket.SHUT_WR)
                answer = b""
                while more := connection.recv(65_536):
                    answer += more
            count = answer.count(b"HTTP/1.1 20")
            require(count == turn % 3 + 5, f"{count} answers: {answer!r}")


def refused_in_crowd(path: Path) -> int:
    """Return the number of refused connections among ten, beside a user's bound of open ones."""
    held = [connected(path) for _ in range(CLIENTS)]
    return sum(map(is_refused, held[-10:]))


def is_refused(connection: socket.socket) -> bool:
    with suppress(ConnectionError):
        connection.sendall(GET)
        return b"503" in connection.recv(100)
    return True


def slow_readers(setup: Setup) -> None:
    """A stream whose client reads nothing is closed, and takes little memory meanwhile."""
    with small_site(setup) as served:
        with connected(served.socket) as connection:
            connection.setsockopt(socket.SOL_SOCKET, socket.SO_RCVBUF, 4_096)
            connection.sendall(f"GET {served.of('events')} HTTP/1.1\r\nHost: localhost\r\n\r\n".encode())
            require(connection.recv(12) == b"HTTP/1.1 200", "it begins")
            before = memory_kilobytes(served.reads_process())
            words = ["x" * 20_000]

            def is_closed() -> bool:
                served.submit(*words, hold=True)
                return open_streams(served) == 0

            served.case.until(is_closed, "the stream is closed")
            more = memory_kilobytes(served.reads_process()) - before
            require(more < MAX_KILOBYTES / 5, f"it took {more:,} kB")


def open_streams(served: Site) -> int:
    """Return the number of connections of the process for reads, as it last reported them, at most a second ago. It
    does not count the one that asks, which it has handed over."""
    text = served.ask("GET", "/metrics").body.decode()
    return int(float(re.findall(r'firm_api_connections\{process="reads"\} (\S+)', text)[0]))


def long_commands(setup: Setup) -> None:
    """Rows of an array with a long command take little memory: lists come in short pages, events in pieces."""
    with site(setup) as served:
        with Events(served) as events:
            served.submit("x", hold=True)
            events.state("1", "held")
            last = events.last
        served.submit(*[LONG_WORD] * 131, array=[0, LONG - 1], hold=True)
        wanted = [f"2_{index}" for index in range(LONG)]
        found, query = list[str](), "tasks?limit=1000&submission=2"
        while query:
            answer = served.ask("GET", served.of(query))
            require(len(answer.body) < MAX_ANSWER, f"{len(answer.body):,} bytes")
            found += [row["task"] for row in answer.good()["tasks"]]
            query = answer.json()["next"] and f"tasks?limit=1000&submission=2&cursor={answer.json()['next']}"
        require(found == wanted, f"each task once: {found}")
        served.ask("POST", served.of("release"), {"tasks": wanted}).good()
        with Events(served, last=last) as events:
            events.until(lambda kind, data: kind == "task" and data["task"] == wanted[-1])
            require({data["task"] for data in events.seen} >= set(wanted), "a task has no event")
        for pid in (served.pid, served.reads_process()):
            status = Path(f"/proc/{pid}/status").read_text()
            require(int(re.findall(r"VmHWM:\s+([0-9]+)", status)[0]) < MAX_KILOBYTES, status)


def unread_answers(setup: Setup) -> None:
    """A user who reads no answers takes little memory, and gets the answers that are read later."""
    with site(setup) as served:
        with hostile(partial(reading_nothing, served.socket, served.of)):
            ends = time.monotonic() + UNREAD_SECONDS
            while time.monotonic() < ends:
                require(served.get("/v1/status")["user"] == "root", "an answer")
                time.sleep(0.1)
            kilobytes = memory_kilobytes(served.reads_process())
        require(kilobytes < MAX_KILOBYTES, f"it took {kilobytes:,} kB")
        answers = as_user_does(ANN, partial(read_together, served.socket, served.of)) if not os.geteuid() else [200]
        require(set(answers) == {200}, f"statuses {answers}")


def reading_nothing(path: Path, of: Callable[[str], str]) -> Iterator[None]:
    """Request a task with long words by a user's bound of connections."""
    words = {"command": ["x", LONG_WORD * 131], "env": {"X": LONG_WORD * 131}, "dir": "/tmp", "hold": True}
    with closing(Connection(path)) as connection:
        connection.ask("POST", of("submissions"), {"submissions": [words]}).good(201)
    asking = f"GET {of('tasks/1')} HTTP/1.1\r\nHost: localhost\r\n\r\n".encode()
    held = [connected(path) for _ in range(CLIENTS * 3 // 4)]
    for one in held:
        one.setsockopt(socket.SOL_SOCKET, socket.SO_RCVBUF, 4_096)
        one.sendall(asking)
    while held:
        yield
        time.sleep(0.1)


def read_together(path: Path, of: Callable[[str], str]) -> list[int]:
    """Return the statuses of answers that together exceed the bytes that a user may leave unread."""
    with ThreadPoolExecutor(TOGETHER) as pool:

        def ask(_: int) -> int:
            with closing(Connection(path)) as connection:
                answer = connection.ask("GET", of("tasks/1"))
            return answer.status if len(answer.json()["command"][1]) == 131_000 else 0

        return [*pool.map(ask, range(TOGETHER))]


def many_ended(setup: Setup) -> None:
    """A request that names tens of thousands of ended tasks takes no long turn, and is answered for each."""
    with site(setup) as served:
        served.case.words = [sys.executable, "-c", TIMED, "run"]
        served.restart("--most-of-user=1000000")
        names = [str(1 + place) for place in range(ARRAYS)]
        found = as_user_does(ANN, partial(ended_arrays, served.socket, served.of)) if not os.geteuid() else names
        require(found == names, found)
        begun = len(served.said())
        waited = partial(answer_of, served.socket, "GET", served.of(f"wait?tasks={','.join(names)}&seconds=1"))
        ends: dict[str, Any] = as_user_does(ANN, waited)["ends"]
        require(len(ends) == ARRAYS * ARRAY and {end["state"] for end in ends.values()} == {"cancelled"}, "each end")
        for change in ("cancel", "hold"):
            changed = partial(answer_of, served.socket, "POST", served.of(change), {"tasks": names})
            answer: dict[str, Any] = as_user_does(ANN, changed)
            require(not answer["changed"] and set(answer["unchanged"].values()) == {"has ended: cancelled"}, change)
            require(answer["unchanged"].keys() == ends.keys(), "each task")
        require("a turn of" not in served.said()[begun:], served.said()[begun:])


def many_unmet(setup: Setup) -> None:
    """Whoever submits thousands of tasks that wait for the last one of a large cancelled array takes no long turn."""
    with site(setup) as served:
        served.case.words = [sys.executable, "-c", TIMED, "run"]
        served.restart()
        (number,) = ended_arrays(served.socket, served.of, 1)
        begun, late = len(served.said()), {"command": ["x"], "dir": "/tmp", "after": [f"{number}_{ARRAY}"]}
        made = served.ask("POST", served.of("submissions"), {"submissions": [late] * UNMET}).good(201)["submissions"]
        turns = map(float, re.findall("a turn of ([0-9.]+) s", served.said()[begun:]))
        require(max(turns, default=0.0) < MAX_TURN, served.said()[begun:])
        found = served.get(served.of(f"tasks/{made[-1]['number']}"))
        require((found["state"], found["reason"]) == ("unmet", f"{number}_{ARRAY} cancelled"), found)


def long_refusals(setup: Setup) -> None:
    """The refusal of a body of megabytes is short, whatever has its length: many unread ones would fill the memory."""
    word = "\x7f" * 1_000_000
    one = {"command": ["x"], "dir": "/tmp"}
    more: list[dict[str, Any]] = [{"job": word}, {"job": [1] * 200_000}, {"env": {word: ""}}, {word: 1}]
    labels = [f"{place}{120 * word[0]}" for place in range(2_000)]
    circle = [{**one, "label": to, "after": [f"@{label}"]} for to, label in zip(labels, [*labels[1:], labels[0]])]
    with site(setup) as served:
        for body in [*({"submissions": [{**one, **fields}]} for fields in more), {word: 1}, {"submissions": circle}]:
            answer = served.ask("POST", served.of("submissions"), body)
            require(answer.status == 400 and len(answer.body) < LONG_REFUSAL, f"{answer.status}, {len(answer.body)}")


def ended_arrays(path: Path, of: Callable[[str], str], count: int = ARRAYS) -> list[str]:
    """Submit large arrays, and cancel them."""
    found = []
    with closing(Connection(path)) as connection:
        for _ in range(count):
            one = {"command": ["x"], "dir": "/tmp", "hold": True, "array": [1, ARRAY]}
            made = connection.ask("POST", of("submissions"), {"submissions": [one]}).good(201)
            found.append(str(made["submissions"][0]["number"]))
            connection.ask("POST", of("cancel"), {"tasks": found[-1:]}).good()
    return found


def answer_of(path: Path, method: str, name: str, body: Any = None) -> Any:
    with closing(Connection(path)) as connection:
        return connection.ask(method, name, body).good()


def many_needs(setup: Setup) -> None:
    """Tasks that wait for thousands of others are shown, in pages, and delay no list of others."""
    with site(setup) as served:
        served.submit("x", array=[1, NEEDS], hold=True)
        after = [f"1_{index}" for index in range(1, NEEDS + 1)]
        for _ in range(WAITING):
            served.submit("y", after=after, job="late")
        cursor, rows, took, slow = "", list[Any](), list[float](), slowness()
        while cursor is not None:
            began = time.monotonic()
            found = served.get(served.of(f"tasks?job=late&limit=1000{cursor and f'&cursor={cursor}'}"))
            took.append(time.monotonic() - began)
            rows, cursor = rows + found["tasks"], found["next"]
        require(max(took) < SERVED_SECONDS * max(slow, slowness()), f"pages took {took} s")
        require([row["task"] for row in rows] == [str(number) for number in range(2, WAITING + 2)], "each row once")
        wanted = f"waits for 1_1, 1_2, 1_3, 1_4 and {NEEDS - 4:,} more"
        require(all((row["state"], row["reason"]) == ("blocked", wanted) for row in rows), rows[0])
        require(len(served.get(served.of("tasks/3"))["spec"]["after"]) == NEEDS, "all that it waits for")


def same_keys(setup: Setup) -> None:
    """Simultaneous requests with one key make one submission, and all get its answer."""
    with site(setup) as served, ThreadPoolExecutor(ASKED) as pool:
        for key in ("a", "b", "c"):
            body = {"key": key, "submissions": [{**ONE["submissions"][0], "array": [1, 100]}] * 3}
            answers = [*pool.map(lambda _: served.ask("POST", served.of("submissions"), body), range(ASKED))]
            require(sorted(answer.status for answer in answers) == [200] * (ASKED - 1) + [201], "one makes them")
            made = {tuple(row["number"] for row in answer.json()["submissions"]) for answer in answers}
            require(len(made) == 1, f"they differ: {made}")
        require(served.get(f"/v1/tenants/{served.case.tenant}")["last_number"] == 9, "made twice")


def killed(setup: Setup) -> None:
    """Acknowledged submissions survive kills at any moment, and a repetition with the key gets the same answer."""
    draw = random.Random(setup.seed)
    with site(setup) as served:
        acknowledged = dict[str, int]()
        for turn in range(3 if setup.is_quick else 10):
            with ThreadPoolExecutor(ASKED) as pool:
                works = [pool.submit(submitter, served, f"{turn}-{place}", acknowledged) for place in range(ASKED)]
                wanted = len(acknowledged) + ASKED // 2
                try:
                    served.case.until(lambda: len(acknowledged) > wanted, "some are acknowledged")
                    time.sleep(draw.uniform(0.1, 1.0))
                finally:
                    served.case.kill()  # this ends the submitters
                for work in works:
                    work.result()
            served.case.start()
        require(len(acknowledged) > ASKED, f"{len(acknowledged)} were acknowledged")
        require(len({*acknowledged.values()}) == len(acknowledged), "one number twice")
        for key, number in acknowledged.items():
            again = served.ask("POST", served.of("submissions"), {**ONE, "key": key}).good()["submissions"][0]
            require((again["number"], again["again"]) == (number, True), f"{key}: {again}, not {number}")
        print(f"    {len(acknowledged):,} submissions beside kills", flush=True)


def submitter(served: Site, name: str, acknowledged: dict[str, int]) -> None:
    """Submit until the server is gone."""
    with suppress(OSError, http.client.HTTPException), closing(Connection(served.socket)) as connection:
        for turn in range(100_000):
            key = f"{name}-{turn}"
            answer = connection.ask("POST", served.of("submissions"), {**ONE, "key": key})
            acknowledged[key] = int(answer.good(201)["submissions"][0]["number"])


@contextmanager
def tls_site(setup: Setup, kind: SiteOf = site) -> Iterator[tuple[Site, int, ssl.SSLContext]]:
    """Start a site that also serves TLS; yield it, its port and a client's context."""
    with kind(setup) as served:
        server, key = certificate(served.case.folder, "server")
        tls = ["--tls=127.0.0.1:0", f"--certificate={server}", f"--key={key}"]
        served.restart(*tls, f"--tokens={served.tokens}")
        yield served, port_of(served), ssl.create_default_context(cafile=str(server))


def tls_floods(setup: Setup) -> None:
    """Clients that are mute before a handshake, or send other bytes, keep nobody out."""
    with tls_site(setup) as (served, port, context):
        token = served.token("root", "operator", served.case.tenant)
        held = [socket.create_connection(("127.0.0.1", port)) for _ in range(300)]
        try:
            for connection in held[::3]:
                with suppress(OSError):
                    connection.sendall(GET)
            began = time.monotonic()
            with closing(Connection(port, context)) as client:
                answer = client.ask("GET", "/v1/status", Authorization=f"Bearer {token}")
            require(answer.status == 200, answer)
            took = time.monotonic() - began
            require(took < SERVED_SECONDS * slowness() * 3, f"it took {took:.1f} s")
        finally:
            for connection in held:
                connection.close()
        require("Traceback" not in served.said(), served.said())


def shared_address(setup: Setup) -> None:
    """Clients without a token, or with another user's, keep nobody with the same address out."""
    with tls_site(setup, patient_site) as (served, port, context):
        tokens = [served.token(user, "user", served.case.tenant) for user in (str(ANN), str(BOB))]

        def asked_by(token: str, connection: Connection) -> int:
            return connection.ask("GET", "/v1/status", Authorization=f"Bearer {token}").status

        held = [Connection(port, context) for _ in range(3 * CLIENTS)]
        for connection in held[:CLIENTS]:
            require(connection.ask("GET", "/").status == 200, "the page is for all")
        found = [asked_by(tokens[0], connection) for connection in held[CLIENTS : 2 * CLIENTS]]
        require(set(found[:128]) == {200} and set(found[128:]) == {429}, f"statuses {found}")
        for connection in held[2 * CLIENTS : 2 * CLIENTS + 100]:
            require(asked_by(tokens[1], connection) == 200, "another user of this address is answered")
        for connection in held:
            connection.close()


def crowd(setup: Setup) -> None:
    """Many users together leave connections for root, and so for agents."""
    if os.geteuid():
        raise Skipped("only root can be several users")
    _, most = resource.getrlimit(resource.RLIMIT_NOFILE)
    resource.setrlimit(resource.RLIMIT_NOFILE, (most, most))
    with patient_site(setup) as served:
        held = list[socket.socket]()
        for user in range(ANN, ANN + 17):
            os.seteuid(user)
            held += [connected(served.socket) for _ in range(128)]
            os.seteuid(0)
        require(is_refused(held[-1]), "all have more than there may be")
        require(served.get("/v1/status")["user"] == "root" and served.submit("x") == 1, "root is answered")
        for connection in held:
            connection.close()


def main() -> int:
    parser = argparse.ArgumentParser(description=(__doc__ or "").splitlines()[0])
    parser.add_argument("--quick", action="store_true", help="end the fuzzed requests after some time")
    parser.add_argument("--only", metavar="WORD", default="", help="only checks whose names have this word")
    parser.add_argument("--seed", type=int, default=1, metavar="N", help="of the fuzzed requests")
    program.add_program(parser)
    given = parser.parse_args()
    setup = Setup(given.program, given.quick, given.seed)
    checks = [
        fuzz,
        closed_in_time,
        half_closed,
        slow_readers,
        long_commands,
        unread_answers,
        many_ended,
        many_unmet,
        long_refusals,
        many_needs,
        same_keys,
        killed,
        *api_faults.CHECKS,
        tls_floods,
        shared_address,
        crowd,
    ]
    found: dict[str, Check] = {check.__name__.replace("_", " "): partial(check, setup) for check in checks}
    for work in (slow_heads, slow_bodies, mute, pipelining, endless_heads, bombs, comers):
        found[work.__name__.replace("_", " ")] = partial(beside, work, setup)
    return run_suites(Suite({name: check for name, check in found.items() if given.only in name}))


if __name__ == "__main__":
    run_script(main)
