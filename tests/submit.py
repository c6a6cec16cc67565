"""Check firmctl's verbs and the Python clients, over firmd and firm-api, with tasks that are processes.

usage: tools/run tests/submit.py [--quick] [--only WORDS] [--program FILE]
Each check prints a line; the last line is 'N passed, M failed', and the exit status is 1 if one failed. It needs Python
3 and the built program. --quick has fewer kills.
"""

from __future__ import annotations

import argparse
import csv
import os
import re
import subprocess
import sys
import time
from collections.abc import Callable, Mapping
from concurrent.futures import ThreadPoolExecutor
from contextlib import closing, suppress
from functools import partial
from pathlib import Path
from typing import Any

import submit_servers
from queue_client import Connection, as_user_does
from harness import program
from harness.checks import Check, Skipped, Suite, require, run_script, run_suites
from harness.deployed import SERVICE, forms
from harness.program import ROOT
from harness.sessions import blocks_of
from queue_kit import ANN
from submit_kit import Cluster, cluster, python_of_clients

from firm.client import calls
from firm.client.blocking import ApiClient, ApiError

CHECKS_AT_A_TIME = 4
LIMIT_SECONDS = 600  # for any wait, on a busy host
ESTIMATE_SECONDS = 120  # between an estimate and its event


def wait_until(holds: Callable[[], object], what: str) -> None:
    ends = time.monotonic() + LIMIT_SECONDS
    while not holds():
        require(time.monotonic() < ends, what)
        time.sleep(0.02)


def forms_are_read() -> None:
    """Times, sizes and arrays in people's notation are read, and invalid ones refused."""
    minute, hour, day = 60, 3_600, 86_400
    times = {"90": 90, "90s": 90, "2h": 2 * hour, "1h30m": 90 * minute, "1.5d": 1.5 * day, "0": 0, "1:30": 90}
    times |= {"1:30:00": 90 * minute, "1-12": 1.5 * day, "1-12:30": 36.5 * hour, "1-12:00:30": 1.5 * day + 30}
    for text, seconds in times.items():
        require(forms.seconds_of(text) == seconds, f"{text}: {forms.seconds_of(text)}")
    sizes = {"2G": 2 << 30, "512M": 512 << 20, "1.5k": 1_536, "10": 10, "1TiB": 1 << 40, "3GB": 3 << 30}
    for text, size in sizes.items():
        require(forms.bytes_of(text) == size, f"{text}: {forms.bytes_of(text)}")
    arrays = {"1-500": (1, 500), "7": (7, 7), "3,1,2": (1, 3), "1,3,5": "1,3,5", " 1-40%10": "1-40%10"}
    for text, array in arrays.items():
        require(forms.array_of(text) == array, f"{text}: {forms.array_of(text)}")
    require(forms.indexes_of("0-20:5,7%4") == ([0, 5, 7, 10, 15, 20], 4), "a list, in steps, with a limit")
    now = forms.instant_of("2026-11-26T12:00")
    instants = {"2h": now - 2 * hour, "1d": now - day, "09:30": now - 2.5 * hour, "2026-11-26": now - 12 * hour}
    for text, instant in instants.items():
        require(forms.instant_of(text, now) == instant, text)
    faulty: dict[Callable[[str], object], str] = {
        forms.seconds_of: ",x,-1,1:60,1h2,1-2-3,inf,1e3",
        forms.bytes_of: ",2X,-1",
    }
    faulty |= {
        forms.array_of: ",5-1,1-,a,1-2-3,12345678,1%0,1%,%3,1-5:0,1-5:",
        forms.instant_of: ",26.11.,25:00,soon,7",
    }
    for read, texts in faulty.items():
        for text in texts.split(","):
            with suppress(ValueError):
                require(False, f"{read} took {text!r}: {read(text)}")


def statuses_of_waits(found: Cluster) -> None:
    """wait ends as the task does: its status, 128 + a signal; of several the first that is not done."""
    cases = {
        "exit 0": (0, ""),
        "exit 3": (3, "failed, status 3"),
        "kill -9 $$": (137, "failed, status 137"),
    }
    submitted = {script: found.submit("--", "sh", "-c", script) for script in cases}
    for script, (status, told) in cases.items():
        done = found.run("firmctl", "wait", submitted[script])
        require(done.status == status and told in done.faults.decode() and not done.output, f"{script}: {done}")
    several = [submitted["exit 0"], submitted["kill -9 $$"], submitted["exit 3"]]
    require(found.run("firmctl", "wait", *several).status == 137, "several")
    slow = found.submit("--", "sleep", "1000")
    require(found.run("firmctl", "wait", "--seconds", "0.2", slow).status == 124, "its time is over")
    found.firmctl("cancel", slow)
    done = found.run("firmctl", "wait", slow)
    require(done.status == 125 and "cancelled" in done.faults.decode(), done)
    require(found.run("firmctl", "wait", "99999").status == 125, "no such task")
    ends = found.json("wait", several[0])["tasks"]
    require(ends == {several[0]: {"state": "done", "status": 0}}, ends)


def arrays(found: Cluster) -> None:
    """An array's tasks know their indexes; its neighbouring waiting tasks are one row."""
    number = found.submit(
        "--job", "arrayed", "--array", "3-5", "--output", "of-%a", "--", "sh", "-c", "echo $FIRM_INDEX"
    )
    found.firmctl("wait", number)
    for index in (3, 4, 5):
        require((found.folder / f"of-{index}").read_text() == f"{index}\n", f"{index}")
    number = found.submit("--job", "arrayed", "--hold", "--array", "1-2000", "--", "true")
    lines = found.firmctl("ps", "--job", "arrayed").splitlines()
    require(len(lines) == 2 and lines[1].split()[:4] == [f"{number}_[1-2000]", "root", "arrayed", "held"], lines)
    found.firmctl("cancel", f"{number}_7")
    names = [line.split()[0] for line in found.firmctl("ps", "--job", "arrayed").splitlines()[1:]]
    require(names == [f"{number}_[1-6]", f"{number}_[8-2000]"], names)
    require(len(found.json("ps", "--job", "arrayed")["tasks"]) == 1_999, "JSON has each task")
    require(len(found.firmctl("cancel", number).split()) == 1_999, "cancelled")


def listed_arrays(built: str) -> None:
    """An array of listed indexes has these alone, and with % no more of its tasks run at a time, over a restart too."""
    with cluster(built, m1=8) as found:
        limit_an_array(found)


def limit_an_array(found: Cluster) -> None:
    script = "echo + >> limited; until [ -e go ]; do sleep 0.05; done; touch limited-$FIRM_INDEX; echo - >> limited"
    number = found.submit("--job", "limited", "--array", "2,5-9%2", "--", "sh", "-c", script)
    wait_until(lambda: is_written(found.folder / "limited", "+\n+\n"), "two begin")
    queued = {row["task"]: row["reason"] for row in found.json("ps", "--states", "queued")["tasks"]}
    require(queued == {f"{number}_{index}": "at most 2 of the array at a time" for index in (6, 7, 8, 9)}, queued)
    require(found.firmctl("cancel", f"{number}_8") == f"{number}_8\n", "one that waits outside firm")
    found.kill_queue()
    found.start_queue()
    (found.folder / "go").touch()
    require(found.run("firmctl", "wait", number).status == 125, "one was cancelled")
    running = [0]
    for line in (found.folder / "limited").read_text().split():
        running.append(running[-1] + (1 if line == "+" else -1))
    require(max(running) == 2 and running[-1] == 0, running)
    written = sorted(path.name for path in found.folder.glob("limited-*"))
    require(written == [f"limited-{index}" for index in (2, 5, 6, 7, 9)], written)
    ask, work = found.client().ask, {"command": ["true"], "dir": "/", "job": "listed", "array": "1,3,5", "hold": True}
    (made,) = ask(calls.submit([work]))  # type: ignore[list-item]
    require((made["count"], made["array"]) == (3, "1,3,5"), made)
    names = [f"{made['number']}_{index}" for index in (1, 3, 5)]
    require([row["task"] for row in ask(calls.tasks(job="listed"))] == names, "its tasks")
    require(ask(calls.one_task(names[1]))["spec"]["array"] == "1,3,5", "its specification")
    ask(calls.change("cancel", jobs=["listed"]))


def is_written(path: Path, text: str) -> bool:
    return path.exists() and path.read_text() == text


FILE = """\
{"label": "train", "command": ["sh", "-c", "cat prepared; echo $FIRM_INDEX"], "array": "1-2", "after": ["@prepare"]}

{"label": "prepare", "command": ["sh", "-c", "sleep 0.1; echo prepared >> prepared"], "time": "2h", "memory": "64M"}
{"command": ["sh", "-c", "cat of-train* > result"], "after": ["@train"], "output": "result-log"}
"""


def files(found: Cluster) -> None:
    """Many submissions of a file, in the order of its lines, with labels and dependencies; all of them or none."""
    path = found.folder / "work.jsonl"
    path.write_text(FILE.replace('"array"', '"output": "of-train-%a", "array"'))
    done = found.run("firmctl", "submit", "--dir", str(found.folder), "--job", "filed", "--file", str(path))
    numbers = done.output.decode().split()
    require(done.status == 0 and len(numbers) == 3, done)
    found.firmctl("wait", *numbers)
    result = (found.folder / "result").read_text()
    require(result == "prepared\n1\nprepared\n2\n", result)
    spec = found.json("ps", "--all", numbers[1])["tasks"][0]
    require((spec["job"], spec["time"]) == ("filed", 7_200), spec)
    cycle = (
        '{"label": "a", "command": ["true"], "after": ["@b"]}\n{"label": "b", "command": ["true"], "after": ["@a"]}\n'
    )
    cases = [
        (cycle, 1, "dependency-cycle"),
        ('{"command": ["true"]}\n\n{"command": ["true"], "near": ["M1"]}\n', 1, ":3: "),
        ('{"command": ["true"]}\n{"command": ["true"], "nice": 5}\n', 2, ":2: 'nice' is not a field"),
        ('{"command": "true"}\n', 2, ":1: command: a list of words"),
        ('{"command": ["true"], "time": "soon"}\n', 2, ":1: 'soon' is not a time"),
        ("[]\n", 2, ":1: a submission is an object"),
        ("{\n", 2, ":1: "),
        ("\n", 2, "no submission"),
        ("\xff", 2, "UTF-8"),
    ]
    for text, status, told in cases:
        path.write_bytes(text.encode("latin-1"))
        done = found.run("firmctl", "submit", "--job", "faulty", "--file", str(path))
        require(done.status == status and told in done.faults.decode() and not done.output, f"{text}: {done}")
    require(not found.json("ps", "--all", "--job", "faulty")["tasks"], "a part of a file was taken")
    done = found.run("firmctl", "submit", "--job", "filed", "--file", "-", text='{"command": ["true"], "dir": "/"}')
    require(done.status == 0 and len(done.output.split()) == 1, done)


def words_are_judged(found: Cluster) -> None:
    """Each fault of a command line is named, with status 2 by the program and 1 by the queue."""
    cases: list[tuple[list[str], int, str]] = [
        (["--time", "soon", "--", "true"], 2, "'soon' is not a time"),
        (["--time", "0", "--", "true"], 1, "time: "),
        (["--weight", "0", "--", "true"], 1, "weight: "),
        (["--weight", "heavy", "--", "true"], 2, "'heavy' is not a whole number"),
        (["--array", "5-1", "--", "true"], 2, "ends before it begins"),
        (["--array", "0-99999999", "--", "true"], 2, "indexes end at 9,999,999"),
        (["--array", "0-9999999", "--", "true"], 1, "array-too-large"),
        (["--memory", "much", "--", "true"], 2, "'much' is not a size"),
        (["--env", "NOT_THERE", "--", "true"], 2, "not in the environment"),
        (["--job", "Web", "--", "true"], 1, "bad-field"),
        (["--after", "99999", "--", "true"], 1, "no-such-task"),
        (["--near", "m1,nosuch", "--", "true"], 1, "near: no such machine: nosuch (no-such-machine)"),
        (["--array", "0-99,1-9999999", "--", "true"], 2, "lists more than 1,000,000 indexes"),
        (
            ["echo", "a", "-b"],
            2,
            "unrecognized arguments: -b; write -- before the command: firmctl .. -- echo a -b",
        ),
        (
            ["echo", "--hold"],
            2,
            "an option follows 'echo'; write it, or --, before the command: firmctl ..",
        ),
        ([], 2, "name a command"),
        (["--file", "/nonexistent"], 2, "cannot read /nonexistent"),
        (["--file", "-", "--", "true"], 2, "has its commands itself"),
    ]
    for words, status, told in cases:
        done = found.run("firmctl", "submit", *words)
        require(done.status == status and told in done.faults.decode() and not done.output, f"{words}: {done}")
    other = found.run("firmctl", "submit", "--server", "unix:/nonexistent", "--patience", "0.1", "--", "true")
    require(other.status == 3 and b"no firm-api answers at unix:/nonexistent: No such file" in other.faults, other)
    foreign = found.run("firmctl", "submit", "--server", f"unix:{found.daemon.any}", "--", "true")
    require(foreign.status == 3 and b"! unknown-tenant" in foreign.faults, foreign)
    cases_of_server = [
        ("ps", "--server", "/nonexistent"),
        ("ps", "--server", "http://localhost:1"),
        ("ps", "--token", "/none"),
    ]
    for at in cases_of_server:
        require(found.run("firmctl", *at).status == 2, at)
    nobody = found.run("firmctl", "ps", "--tenant", "gamma")
    require(
        nobody.status == 1 and b"no tenant 'gamma' is there for this user (no-such-tenant)" in nobody.faults, nobody
    )
    for words, status in [(["ps", "--server", "unix:/nonexistent"], 3), (["logs", "99999"], 1), (["cancel"], 2)]:
        require(found.run("firmctl", *words).status == status, words)
    keyed = [found.run("firmctl", "submit", "--dir", "/", "--key", "mine", "--", "true") for _ in range(2)]
    require(keyed[0] == keyed[1] and keyed[0].status == 0 and keyed[0].output.strip().isdigit(), keyed)


ODD = (
    b"a\xff",
    b"..",
    b"../x",
    b"1/../2",
    b"1%2e",
    b"1?x=1",
    b"\x1b[2J",
    b"",
    b"1\n2",
    b"1_",
    b"1_99999999999",
    b"x" * 3_000,
)


def odd_names(found: Cluster) -> None:
    """No bytes of a name lead to another request, end firmctl by an unexpected error, or steer a terminal."""
    words = [[verb.encode(), name] for name in ODD for verb in ("show", "why", "logs", "wait", "cancel", "ps")]
    words += [[b"history", b"--user", name] for name in ODD] + [[b"ps", b"--tenant", name] for name in ODD if name]
    program_words = [os.fsencode(sys.executable), os.fsencode(SERVICE / "firmctl")]
    environment = {**os.environ, "FIRM_SERVER": found.server, "FIRM_TENANT": "alpha"}

    def ask(some: list[bytes]) -> subprocess.CompletedProcess[bytes]:
        found: subprocess.CompletedProcess[bytes] = subprocess.run(
            [*program_words, *some],
            env=environment,
            stdin=subprocess.DEVNULL,
            capture_output=True,
            timeout=LIMIT_SECONDS,
        )
        return found

    with ThreadPoolExecutor(2) as pool:
        for some, done in zip(words, pool.map(ask, words)):
            said = done.stdout + done.stderr
            statuses = (1, 125) if done.stderr or some[0] != b"ps" else (0,)  # a table without rows
            require(done.returncode in statuses and b"Traceback" not in said and b"\x1b" not in said, f"{some}: {done}")
            require(done.returncode == 0 or done.stderr.startswith(b"firmctl: "), f"{some}: {done}")


def logs(found: Cluster) -> None:
    """A task's output, as it comes with -f, from before its start; bytes are unchanged."""
    number = found.submit(
        "--hold",
        "--env",
        "TEXT=a b",
        "--",
        "sh",
        "-c",
        r'echo "$TEXT"; until [ -e go ]; do sleep 0.05; done; printf "\377\033[2J"',
    )
    require(found.run("firmctl", "logs", number).status == 1, "nothing has begun")
    words = [sys.executable, str(SERVICE / "firmctl"), "--server", found.server, "logs", "-f", number]
    with subprocess.Popen(words, stdout=subprocess.PIPE) as following:
        found.firmctl("release", number)
        output = program.opened(following.stdout)
        require(output.readline() == b"a b\n", "the first line")
        require(found.task(number)["state"] == "running", "it comes while the task runs")
        (found.folder / "go").touch()
        require(output.read() == b"\xff\x1b[2J" and following.wait() == 0, "the rest")
    done = found.run("firmctl", "logs", "--attempt", "1", number)
    require(done == (0, b"a b\n\xff\x1b[2J", b""), done)


def changes(found: Cluster) -> None:
    """hold, release and cancel, of tasks and of jobs, report their changes, and reasons for the others."""
    one, other = (found.submit("--job", "changed", "--hold", "--", "sleep", "1000") for _ in range(2))
    require(found.firmctl("release", one) == f"{one}\n", "release")
    wait_until(lambda: found.task(one)["state"] == "running", "it does not run")
    done = found.run("firmctl", "hold", one, other)
    require(done.status == 1 and f"{one}: ".encode() in done.faults, f"both are as they are: {done}")
    require(set(found.firmctl("cancel", "changed").split()) == {one, other}, "the job")
    require(found.run("firmctl", "wait", one, other).status == 125, "they have ended")
    require(found.run("firmctl", "cancel", one).status == 1, "it has ended")
    require(found.run("firmctl", "cancel", "--job", "nojob").status == 1, "no such job")
    number = found.submit("--job", "left", "--", "sleep", "1000")
    done = found.run("firmctl", "cancel", "render", "left", "99999")
    told = [b"firmctl: render: no such job with tasks that have not ended", b"firmctl: 99999: no such task"]
    require(done.output == f"{number}\n".encode() and all(line in done.faults for line in told), done)
    require(done.status == 1 and b"not changed: 99999, render\n" in done.faults, done)
    done = found.run("firmctl", "submit", "echo", "a", "-b")
    require(done.status == 2 and b"write -- before the command: firmctl .. -- echo a -b" in done.faults, done)
    require(found.firmctl("cordon", "--reason", "a new disk", "spare") == "spare\n", "cordon")
    spare = found.machine("spare")
    require(spare["state"] == "cordoned" and spare["reason"].endswith(": a new disk"), spare)
    done = found.run("firmctl", "drain", "spare")
    require(done.status == 2 and b"add --kill, or cordon" in done.faults, done)
    require(found.machine("spare")["state"] == "cordoned", "it is drained")
    require(found.run("firmctl", "cordon", "--reason", "x" * 201, "spare").status == 1, "too long a reason")
    require(found.firmctl("uncordon", "spare") == "spare\n", "uncordon")
    wait_until(lambda: found.machine("spare")["state"] == "up", "the machine is not back")
    require(found.run("firmctl", "drain", "--kill", "nomachine").status == 1, "no such machine")


def history(found: Cluster) -> None:
    """Ended attempts, one by one, as CSV, and their sums."""
    began = time.strftime("%Y-%m-%d")
    for script in ("exit 0", "exit 0", "exit 5"):
        found.run("firmctl", "wait", found.submit("--job", "past", "--", "sh", "-c", script))
    rows = found.json("history", "--job", "past")["history"]
    require([row["outcome"] for row in rows] == ["done", "done", "failed"] and rows[2]["status"] == 5, rows)
    require([(row["max_rss"], row["cpu_seconds"]) for row in rows] == [(3 * 2**20, 0.25)] * 3, rows)
    for told in (found.firmctl("history", "--job", "past"), found.firmctl("show", rows[0]["task"])):
        require("CPU" in told and "MAXRSS" in told and " 3M " in told, told)
    text = found.firmctl("history", "--job", "past", "--csv")
    read = list(csv.DictReader(text.splitlines()))
    require(len(read) == 3 and read[2]["status"] == "5" and list(read[0])[:2] == ["task", "number"], read)
    require([row["max_rss"] for row in read] == [str(row["max_rss"]) for row in rows], read)
    head, line = found.firmctl("history", "--by", "job", "--job", "past").splitlines()
    require(head.split() == ["KEY", "ATTEMPTS", "DONE", "FAILED", "AGAIN", "OTHERS", "TIME", "CPU"], head)
    require(line.split()[:6] == ["past", "3", "2", "1", "0", "0"], line)
    keys = {
        by: found.json("history", "--job", "past", "--by", by)["history"][0]["key"] for by in ("user", "day", "tenant")
    }
    require(keys.pop("day") in (began, time.strftime("%Y-%m-%d")), "the day, or that before midnight")
    require(keys == {"user": "root", "tenant": "alpha"}, keys)
    require(not found.json("history", "--job", "past", "--until", "1h")["history"], "an hour ago")
    require(found.json("history", rows[0]["task"])["history"] == rows[:1], "one task")


def tables(found: Cluster) -> None:
    """Each list as a table and as JSON; no text of a user steers a terminal; firmd's own lists stay."""
    found.submit("--job", "shown", "--hold", "--", "sh", "-c", "\x1b[2J", "x" * 100)
    told = found.firmctl("ps", "--job", "shown")
    require("\x1b" not in told and "\\x1b" in told and ".." in told, told)
    for verb, head in [("machines", "MACHINE"), ("jobs", "JOB"), ("agents", "AGENT")]:
        require(found.firmctl(verb).startswith(f"{head} ") and found.json(verb)[verb], verb)
    machine = {row["machine"]: row for row in found.json("machines")["machines"]}["spare"]
    require((machine["slots"], machine["agent"]) == (1, "a1"), machine)
    status = found.firmctl("status")
    require(status.startswith("tenant alpha: ") and " of 60 nodes" in status, status)
    require(found.firmctl("top").startswith("tenant alpha: "), "top")
    require(set(found.json("top")) == {"machines", "tasks", "status"}, "top as JSON")
    require(found.firmctl("machines", "alpha").startswith("TENANT "), "firm's machines")
    alone = {"FIRM_SERVER": found.server, "FIRM_TENANT": ""}
    done = program.run_words([sys.executable, str(SERVICE / "firmctl"), "status"], b"", alone)
    require(b"firmd has run for" in done.output, f"firmd's status: {done}")
    found.firmctl("cancel", "shown")


def reasons(built: str) -> None:
    """`why` explains to each user, under the queue's names, the wait of a held, blocked, queued or waiting task, and
    a running one; it names no other's task. `ps` has a reason, `--start` an estimate, and `show` all of a task."""
    if not program.built("firm_explain").exists():
        raise Skipped("firm_explain is not built: ./build.py firm_explain")
    with cluster(built, m1=1) as found:
        job = ("--job", "known", "--time", "1h")
        found.run("firmctl", "wait", found.submit("--job", "known", "--", "sleep", "1"))
        first = found.submit(*job, "--", "sleep", "1000")
        wait_until(lambda: found.task(first)["state"] == "running", "it does not run")
        number = found.submit(*job, "--array", "1-2", "--env", "A=b c", "--output", "%t.out", "--", "true")
        held, blocked = found.submit("--hold", "--", "true"), found.submit("--after", first, "--", "true")
        wait_until(lambda: is_without_slot(found.task(f"{number}_1")), "why it waits")
        told = {name: found.firmctl("why", name) for name in (held, blocked, first)}
        require(f"is held\nit does not start before `firmctl release {held}`\n" in told[held], told)
        require(told[blocked].endswith(f" is blocked: waits for {first}\n"), told)
        require(told[first].startswith(f"{first} (job known, weight 10) is running on m1 for "), told)
        told[first] = found.firmctl("why", f"{number}_1")
        require(f"{number}_1 (job known, weight 10) is waiting: no free slot\n" in told[first], told)
        require("a round now would cost " in told[first] and " by an estimate\n" in told[first], told)
        heads, *lines = found.firmctl("ps", "--start").splitlines()
        started = {line.split()[0]: heads.index("START") < len(line) and line[heads.index("START") :] for line in lines}
        require(re.match(r"\d\d-\d\d \d\d:\d\d:\d\d +no free slot", str(started[f"{number}_[1-2]"])), started)
        rows = {row["task"]: row["start"] for row in found.json("ps", "--start")["tasks"]}
        require(
            abs(rows[f"{number}_1"] - time.time()) < ESTIMATE_SECONDS, f"at once, as what runs is late already: {rows}"
        )
        require(0.5 <= rows[f"{number}_2"] - rows[f"{number}_1"] < ESTIMATE_SECONDS, f"a run of the job later: {rows}")
        require((rows[first], rows[held], rows[blocked]) == (None, None, None), rows)
        shown = found.firmctl("show", f"{number}_1")
        for line in (
            f"task: {number}_1\n",
            "array: 1-2\n",
            "env: 'A=b c'\n",
            "time: 1:00:00\n",
            f"output: {found.folder}/%t.out\n",
        ):
            require(line in shown, f"{line} is not in {shown}")
        require(
            "ATTEMPT" in found.firmctl("show", first) and found.json("show", first)["attempts"][0]["attempt"] == 1,
            "attempts",
        )
        for verb in ("why", "show"):
            require(found.run("firmctl", verb, "99999").status == 1, f"{verb} of no task")
        if os.geteuid() == 0:
            as_another_user(found, first)


def as_another_user(found: Cluster, other: str) -> None:
    """A user's `why` names no task of another, and refuses such a task."""
    for path in (found.folder, found.folder / "api"):
        path.chmod(0o777)
    lines, refusal = as_user_does(ANN, partial(why_of_user, found.client(), other))
    told = " ".join(lines)
    require("would run on m1; a task of another user would wait" in told, told)
    names = re.sub(r"\b(rounds|slots|weight|cost|costs it|least) \d+", "", told)
    require(not re.search(rf"\b{other}\b", names) and refusal == "no-such-task", f"{told}; {refusal}")


def is_without_slot(task: Mapping[str, Any]) -> bool:
    """Return whether a task waits in firm: a queued one may have the same reason."""
    return (task["state"], task["reason"]) == ("waiting", "no free slot")


def why_of_user(client: ApiClient, other: str) -> list[object]:
    """Return the reasons of the user's own waiting task, and the refusal for another user's task."""
    (made,) = client.ask(calls.submit([{"command": ["true"], "dir": "/"}]))
    number = str(made["number"])
    wait_until(lambda: is_without_slot(client.ask(calls.one_task(number))), "it does not wait")
    try:
        return [client.ask(calls.why(number))["text"], client.ask(calls.why(other))["text"]]
    except ApiError as refusal:
        return [client.ask(calls.why(number))["text"], refusal.name]


def shown_words(found: Cluster) -> None:
    """`ps` prints the words of commands quoted, shortened and without control characters; an array's tasks as one."""
    letters = 'a "b" \\ \N{GREEK SMALL LETTER ALPHA} \N{FIRE} \t'
    found.submit("--job", "words", "--hold", "--", "echo", letters)
    found.submit("--job", "words", "--hold", "--array", "1-9", "--", "x" * 100)
    text = found.firmctl("ps", "--job", "words")
    require("'a \"b\" \\ \N{GREEK SMALL LETTER ALPHA} \N{FIRE} \\t'" in text, text)
    require("_[1-9]" in text and f"{'x' * 30}..  " in text, text)
    found.firmctl("cancel", "words")


def altered(work: calls.SubmissionFields, **fields: Any) -> Any:
    """Return the same work with other fields."""
    return {**work, **fields}


def clients(found: Cluster) -> None:
    """The synchronous client: rows, errors by name, a log, a wait, and lists with ended tasks."""
    ask = found.client().ask
    work: calls.SubmissionFields = {
        "command": ["sh", "-c", "echo $X; exit 4"],
        "dir": "/",
        "job": "typed",
        "retries": 1,
    }
    (made,) = ask(calls.submit([altered(work, env={"X": "y"})]))
    number = str(made["number"])
    require(made["job"] == "typed" and ask(calls.wait([number])) == {number: {"state": "failed", "status": 4}}, made)
    detail = ask(calls.one_task(number))
    require(detail["state"] == "failed" and [one["status"] for one in detail["attempts"]] == [4, 4], detail)
    require(b"".join(found.client().log(number)) == b"y\n", "log")
    past = ask(calls.history(job="typed"))
    require([one["attempt"] for one in past] == [1, 2] and past[0]["user"] == "root", past)
    for name, more, steps in (
        ("no-such-task", {}, calls.one_task("99999")),
        ("no-such-task", {}, calls.wait([number, "99999"])),
        ("bad-field", {"field": "dir", "at": 0}, calls.submit([altered(work, dir="relative")])),
    ):
        try:
            ask(steps)
            require(False, f"{name} is taken")
        except ApiError as refusal:
            require((refusal.name, refusal.more) == (name, more), f"{refusal.name}: {refusal.more}")
    two = ask(calls.submit([work, {"command": ["true"], "dir": "/", "job": "typed", "array": "1-2", "hold": True}]))
    held = [f"{two[1]['number']}_{index}" for index in (1, 2)]
    require([row["task"] for row in ask(calls.tasks(["held"], job="typed"))] == held, "in a state")
    require([row["task"] for row in ask(calls.tasks(of=str(two[1]["number"])))] == held, "of a submission")
    ask(calls.change("cancel", jobs=["typed"]))
    ask(calls.wait([str(two[0]["number"])]))
    names = [row["task"] for row in ask(calls.tasks(["failed", "cancelled"], user="root", job="typed"))]
    require(names[:1] == [number] and set(held) < set(names), f"what has ended: {names}")
    require([row["task"] for row in ask(calls.tasks(["cancelled", "held"], job="typed"))][-2:] == held, "both kinds")
    waits = ask(calls.wait([str(ask(calls.submit([altered(work, hold=True)]))[0]["number"])], 0.1))
    require([end["state"] for end in waits.values()] == ["held"], waits)
    ask(calls.change("cancel", jobs=["typed"]))


ASYNCHRONOUS = """\
import asyncio, sys
from firm.client import calls
from firm.client.asynchronous import AsyncApiClient
from firm.client.blocking import ApiError

async def ask() -> None:
    async with AsyncApiClient(sys.argv[1], "alpha") as client:
        work = {"command": ["sh", "-c", "echo one; sleep 0.2; echo two"], "dir": "/", "job": "async"}
        events = client.events()
        following = asyncio.create_task(anext(events))
        made = await asyncio.gather(*[client.ask(calls.submit([work])) for _ in range(5)])
        names = [str(one["number"]) for (one,) in made]
        assert len(set(names)) == 5, names
        pieces = [piece async for piece in client.log(names[0], follow=True)]
        assert b"".join(pieces) == b"one\\ntwo\\n", pieces
        ends = await client.ask(calls.wait(names))
        assert {end["state"] for end in ends.values()} == {"done"}, ends
        kind, row = await following
        assert kind in ("task", "reset"), (kind, row)
        try:
            await client.ask(calls.change("cancel", ["99999"]))
        except ApiError as refusal:
            assert refusal.name == "no-such-task", refusal.name
        else:
            raise AssertionError("there is no such task")
        assert len(await client.ask(calls.history(job="async"))) == 5
        (made,) = await AsyncApiClient.ask(client, calls.submit([{**work, "hold": True}], "again"))
        print(made["number"])

asyncio.run(ask())
"""


def asynchronous_client(found: Cluster) -> None:
    """The asynchronous client does the same, and sends requests of several tasks at a time."""
    done = python_of_clients(found, ASYNCHRONOUS, found.server)
    require(done.status == 0 and done.output.strip().isdigit(), done)
    found.client().ask(calls.change("cancel", jobs=["async"]))


def client_of_the_page(found: Cluster) -> None:
    """The example of docs/CLIENTS.md runs."""
    (example,) = [
        block.text for block in blocks_of((ROOT / "docs" / "CLIENTS.md").read_text()) if block.kind == "python"
    ]
    for text, here in [("unix:/run/firm/api", found.server), ("/home/ann", "/"), ('"./train.sh"', '"echo"')]:
        require(text in example, f"{text} is not in the example")
        example = example.replace(text, here)
    done = python_of_clients(found, example)
    require((done.status, done.output) == (0, b"7\n0\n"), done)


def kills(built: str, count: int) -> None:
    """The server is killed again and again while clients submit and wait: nothing is lost or doubled."""
    with cluster(built) as found:
        with ThreadPoolExecutor() as pool:
            submitting = [pool.submit(submit_many, found.client(), f"k{number}", 60 * count) for number in range(3)]
            for _ in range(count):
                time.sleep(0.4)
                found.kill_queue()
                time.sleep(0.1)
                found.start_queue()
            numbers = [number for future in submitting for number in future.result()]
        tasks = found.client().ask(calls.tasks())
        require(len(numbers) == 180 * count == len(set(numbers)), f"{len(numbers)} answers")
        require(sorted(numbers) == sorted(row["task"] for row in tasks), f"{len(tasks)} tasks, {len(numbers)} answers")


WRITER = "i=0; while [ $i -lt 600 ]; do i=$((i + 1)); echo line $i; [ $((i % 20)) = 0 ] && sleep 0.1; done; exit 7"


def deaths(built: str) -> None:
    """A followed log and a wait go on over kills of the server: each byte comes once."""
    with cluster(built, m1=1) as found:
        number = found.submit("--", "sh", "-c", WRITER)
        at = [sys.executable, str(SERVICE / "firmctl"), "--server", found.server]
        with subprocess.Popen([*at, "logs", "-f", number], stdout=subprocess.PIPE) as following:
            with subprocess.Popen([*at, "wait", number], stderr=subprocess.PIPE) as waiting:
                output = program.opened(following.stdout)
                said = output.readline()
                wait_until(lambda: has_answered_wait(found), "the wait has not begun")
                for _ in range(2):
                    found.kill_queue()
                    time.sleep(0.2)
                    found.start_queue()
                said += output.read()
                require(waiting.wait(LIMIT_SECONDS) == 7, program.opened(waiting.stderr).read())
            require(following.wait(LIMIT_SECONDS) == 0, "its end")
        wanted = "".join(f"line {place}\n" for place in range(1, 601)).encode()
        require(said == wanted, f"{len(said)} bytes and not {len(wanted)}")


def has_answered_wait(found: Cluster) -> bool:
    """Return whether a wait is answered. firmctl's first wait, for no time, finds out whether a server is there."""
    with closing(Connection(found.folder / "api")) as connection:
        text = connection.ask("GET", "/metrics").body.decode()
    return re.search(r'(?m)^firm_api_requests_total\{.*operation="wait"', text) is not None


def submit_many(client: ApiClient, job: str, count: int) -> list[str]:
    client.patience = LIMIT_SECONDS  # a start takes long on a busy host
    work: calls.SubmissionFields = {"command": ["true"], "dir": "/", "job": job, "hold": True}
    return [str(client.ask(calls.submit([work]))[0]["number"]) for _ in range(count)]


def help_names_the_statuses() -> None:
    for words in (["firmctl"], ["firmctl", "wait"], ["firmctl", "submit"]):
        done = program.run_words([sys.executable, str(SERVICE / words[0]), *words[1:], "--help"], b"")
        require(done.status == 0 and b"exit statuses:\n  0 " in done.output, words)


SHARED: list[Callable[[Cluster], None]] = [
    statuses_of_waits,
    arrays,
    files,
    words_are_judged,
    odd_names,
    logs,
    changes,
    history,
    tables,
    shown_words,
    clients,
]
SHARED += [client_of_the_page, asynchronous_client, *submit_servers.CHECKS]


def checks(built: str, found: Cluster, is_quick: bool) -> dict[str, Check]:
    """Return the checks by name, the slow ones first, as several run at a time."""
    count = 2 if is_quick else 20
    own: dict[str, Check] = {f"{count} kills of the queue": partial(kills, built, count)}
    own["deaths of the server"] = partial(deaths, built)
    own |= {"listed arrays": partial(listed_arrays, built), "reasons": partial(reasons, built)}
    own |= {check.__name__.replace("_", " "): partial(check, found) for check in SHARED}
    return own | {"forms": forms_are_read, "help": help_names_the_statuses}


def main() -> int:
    parser = argparse.ArgumentParser(description=(__doc__ or "").splitlines()[0])
    program.add_program(parser)
    parser.add_argument("--quick", action="store_true", help="the part that tests/quick runs")
    parser.add_argument("--only", default="", help="run only the checks whose names have these words")
    options = parser.parse_args()
    with cluster(options.program, m1=8, m2=8, spare=1) as found:
        named = checks(options.program, found, options.quick)
        chosen = {name: check for name, check in named.items() if options.only in name}
        return run_suites(Suite(chosen, CHECKS_AT_A_TIME))


if __name__ == "__main__":
    run_script(main)
