"""Start a whole service by `firmctl up`, and end it in several ways.

usage: tools/run tests/up.py [--quick] [--only WORD]
Each check prints a line; the last line is 'N passed, M failed', and the exit status is 1 if one failed. It needs Python
3, the built program and python3-aiohttp. --quick leaves out checks that wait for a lease.
"""

from __future__ import annotations

import argparse
import contextlib
import os
import signal
import subprocess
import sys
import tempfile
import time
from collections.abc import Callable, Iterator, Sequence
from functools import partial
from pathlib import Path
from typing import Any

from agent_kit import is_there, words_of
from harness.checks import Check, Suite, require, run_script, run_suites
from harness.deployed import SERVICE
from harness.waiting import pause_since, slowness

FIRMCTL = [sys.executable, str(SERVICE / "firmctl")]
LIMIT_SECONDS, LEASE_SECONDS = 600.0, 90.0
FIRST_SECONDS = 5.0  # from the start to the first task's output, on an idle host
OTHER_USER = 61_101
READY = b"firmctl submit -- hostname\n"  # the last line once it runs


def set_signals(hangup: signal.Handlers) -> None:
    """Set the signals of a terminal: a shell makes the programs that it starts in the background ignore Ctrl-C."""
    signal.signal(signal.SIGINT, signal.SIG_DFL)
    signal.signal(signal.SIGHUP, hangup)


class Up:
    """A running `firmctl up`."""

    def __init__(self, state: Path, *options: str, hangup: signal.Handlers = signal.SIG_DFL) -> None:
        self.state, self.began = state, time.monotonic()
        words = [*FIRMCTL, "up", f"--state={state}", *options]
        self.program = subprocess.Popen(
            words,
            stdin=subprocess.DEVNULL,
            stdout=subprocess.PIPE,
            stderr=subprocess.STDOUT,
            preexec_fn=partial(set_signals, hangup),
        )
        self.said: list[bytes] = []
        for line in self.program.stdout or ():
            self.said.append(line)
            if line == READY:
                break
        require(READY in self.said, self.said)
        self.environment = {**os.environ, "FIRM_SERVER": f"unix:{state / 'api'}", "FIRM_TENANT": "alpha"}

    def firmctl(self, *words: str) -> str:
        done = subprocess.run(
            [*FIRMCTL, *words], env=self.environment, capture_output=True, text=True, timeout=LIMIT_SECONDS
        )
        require(done.returncode == 0, done)
        return done.stdout

    def children(self) -> list[int]:
        found = Path(f"/proc/{self.program.pid}/task/{self.program.pid}/children").read_text()
        return [int(text) for text in found.split()]

    def end(self, number: int, status: int = 0) -> str:
        """End it by a signal. Return its output since it was ready."""
        children = self.children()
        self.program.send_signal(number)
        said, _ = self.program.communicate(timeout=LIMIT_SECONDS)
        require(self.program.returncode == status, (self.program.returncode, said))
        until(lambda: not any(map(is_there, children)), "its programs end with it")
        return said.decode()


@contextlib.contextmanager
def folder() -> Iterator[Path]:
    with tempfile.TemporaryDirectory(prefix="firm-", ignore_cleanup_errors=True) as name:
        yield Path(name) / "up"


def until(holds: Callable[[], object], what: str, seconds: float = LIMIT_SECONDS) -> None:
    began = time.monotonic()
    while not holds():
        require(time.monotonic() - began < seconds, what)
        pause_since(began)


def refused(status: int, told: str, *words: str, begin: Sequence[str] = ()) -> None:
    done = subprocess.run(
        [*begin, *FIRMCTL, "up", *words],
        capture_output=True,
        text=True,
        timeout=LIMIT_SECONDS,
    )
    require(done.returncode == status and told in done.stderr and "Traceback" not in done.stderr, done)


def long_time() -> str:
    """Return a number of seconds that no other run of this script uses for a `sleep`."""
    return f"86399.{int.from_bytes(os.urandom(4)):010}"


def runs(seconds: str) -> bool:
    """Return whether a `sleep` of this length runs."""
    return any(words_of(int(path.name)) == f"sleep\0{seconds}\0" for path in Path("/proc").glob("[0-9]*"))


def first_task() -> None:
    """A task's output is there some seconds after the start; Ctrl-C ends everything, and a second start goes on."""
    with folder() as state:
        slow = slowness()
        service = Up(state, "--slots", "2")
        require(service.firmctl("submit", "--", "echo", "first output") == "1\n", "it is the first")
        service.firmctl("wait", "1")
        require(service.firmctl("logs", "1") == "first output\n", "it has run")
        took = time.monotonic() - service.began
        slow = max(slow, slowness())
        print(f"first output after {took:.1f} s (goal {FIRST_SECONDS:.0f} s on an idle host; this one is {slow:.1f})")
        require(
            took < 4 * FIRST_SECONDS * slow, f"it takes {took:.1f} s where a program takes {slow:.1f} times its time"
        )
        require(" 2 slots; " in service.said[0].decode(), service.said)
        service.firmctl("submit", "--hold", "--", "echo", "second output")
        service.end(signal.SIGINT)
        again = Up(state)
        require("first" in again.firmctl("logs", "1"), "its output is lost")
        again.firmctl("release", "2")
        again.firmctl("wait", "2")
        require(again.firmctl("logs", "2") == "second output\n", "it waited over the restart")
        again.end(signal.SIGTERM)


def running_task() -> None:
    """A task runs on over a restart."""
    seconds = long_time()
    with folder() as state:
        service = Up(state)
        service.firmctl("submit", "--", "sleep", seconds)
        until(lambda: runs(seconds), "it begins")
        service.end(signal.SIGHUP)
        require(runs(seconds), "it ran on")
        again = Up(state)
        until(lambda: " running " in again.firmctl("ps"), "the running task")
        require(
            "running" in again.firmctl("ps", "1") and " 1  " in again.firmctl("show", "1"), again.firmctl("show", "1")
        )
        again.firmctl("cancel", "1")
        until(lambda: not runs(seconds), "it is cancelled")
        again.end(signal.SIGTERM)


def ignored_hangup() -> None:
    """Under nohup it outlives its terminal."""
    with folder() as state:
        service = Up(state, hangup=signal.SIG_IGN)
        service.program.send_signal(signal.SIGHUP)
        require(service.firmctl("submit", "--", "true") == "1\n", "it serves on")
        service.firmctl("wait", "1")
        service.end(signal.SIGTERM)


def lease() -> None:
    """A task ends with its lease if the service stays away."""
    seconds = long_time()
    with folder() as state:
        service = Up(state)
        service.firmctl("submit", "--", "sleep", seconds)
        until(lambda: runs(seconds), "it begins")
        service.end(signal.SIGTERM)
        until(lambda: not runs(seconds), "it ends with its lease", LEASE_SECONDS)


def killed() -> None:
    """Its programs end with it if it is killed; a later start goes on."""
    with folder() as state:
        service = Up(state)
        service.firmctl("submit", "--hold", "--", "true")
        service.end(signal.SIGKILL, -signal.SIGKILL)
        again = Up(state)
        require("held" in again.firmctl("ps"), "the submission is lost")
        again.end(signal.SIGINT)


def ended_program() -> None:
    """If one of its programs ends, all end, with the name and the last lines of that one."""
    with folder() as state:
        for place, name in enumerate(("firmd", "firm-agent")):
            service = Up(state)
            os.kill(service.children()[place], signal.SIGKILL)
            said, _ = service.program.communicate(timeout=LIMIT_SECONDS)
            require(service.program.returncode == 4 and f"{name} ended with status -9" in said.decode(), said)
            require(service.program.poll() is not None, "it ends")


def files() -> None:
    """It writes configuration files, accepts changes to the server's, and names a faulty line."""
    with folder() as state:
        Up(state).end(signal.SIGTERM)
        file = state / "firm.toml"
        done = subprocess.run([*FIRMCTL, "check", file], capture_output=True, text=True, timeout=LIMIT_SECONDS)
        require(done.returncode == 0, done)
        text = file.read_text().replace("[api]\n", '[api]\nsocket = "other"\n')
        file.write_text(text)
        again = Up(state, "--slots", "3")
        require(f"FIRM_SERVER=unix:{state / 'other'} " in again.said[2].decode(), again.said)
        require("m1 = 3\n" in (state / "agent.toml").read_text(), "the agent's file is this start's")
        again.end(signal.SIGTERM)
        require(file.read_text() == text, "the changed file is overwritten")
        file.write_text(f"{text}[limits]\nmax_clients = 0\n")
        line = len(text.splitlines()) + 2
        refused(2, f"{file}:{line}: limits.max_clients: 0 is not", f"--state={state}")


def refusals() -> None:
    """A second service in the folder, too long paths, other tenants and faulty options are refused by name."""
    with folder() as state:
        service = Up(state)
        refused(1, "another firmctl up serves it", f"--state={state}")
        require(service.firmctl("machines").count(" up ") == 1, "the first one is left alone")
        service.end(signal.SIGTERM)
        refused(2, "for beta name another --state", f"--state={state}", "--tenant=beta")
        refused(2, "too long for a Unix socket's path", f"--state={state / ('x' * 100)}")
        refused(2, "is not a whole number from 1 to 64", f"--state={state}", "--slots=65")
        refused(2, "is not a name", f"--state={state / 'new'}", "--tenant=A B")
        file = state / "file"
        file.write_text("")
        refused(2, f"{file}: ", f"--state={file}")
        (state / "roster.csv").write_text("tenant,nodes\n")
        refused(2, "roster.csv:1: ", f"--state={state}")
        if not os.geteuid():  # root would write at a place of its owner's choice
            other, target = state / "other", state / "target"
            target.write_text("kept")
            other.mkdir()
            (other / "firmd.log").symlink_to(target)
            os.chown(other, OTHER_USER, OTHER_USER)
            refused(2, f"it belongs to user {OTHER_USER}", f"--state={other}")
            require(target.read_text() == "kept", "a file is overwritten")


def full_disk() -> None:
    """A file that a full disk truncates is not used; once there is room the service starts."""
    with folder() as state:
        for size, file in ((20, "roster.csv"), (200, "firm.toml")):
            refused(2, ": File too large", f"--state={state}", begin=("prlimit", f"--fsize={size}"))
            require(not (state / file).exists(), f"a part of {file} is left")
        Up(state).end(signal.SIGTERM)
        (state / "agent.toml").unlink()
        refused(4, ": File too large", f"--state={state}", begin=("prlimit", "--fsize=20"))
        Up(state).end(signal.SIGTERM)


def odd_folder() -> None:
    """Its folder may have any name."""
    with folder() as state:
        odd = state / 'a "b" \\c \u00e9\U0001f600'
        service = Up(odd)
        require(f"FIRM_SERVER='unix:{odd / 'api'}' " in service.said[2].decode(), service.said)
        service.end(signal.SIGTERM)


def default_state() -> None:
    """By default its state is below XDG_STATE_HOME."""
    with folder() as state:
        os.environ["XDG_STATE_HOME"] = str(state.parent)
        words = [*FIRMCTL, "up"]
        started = subprocess.Popen(words, stdin=subprocess.DEVNULL, stdout=subprocess.PIPE)
        del os.environ["XDG_STATE_HOME"]
        until(lambda: (state.parent / "firm" / "api").exists(), "it serves there")
        started.terminate()
        started.communicate(timeout=LIMIT_SECONDS)
        require(started.returncode == 0, started.returncode)


def main() -> int:
    parser = argparse.ArgumentParser(description=(__doc__ or "").splitlines()[0])
    parser.add_argument("--quick", action="store_true", help="leave out checks that wait for a lease")
    parser.add_argument("--only", metavar="WORD", default="", help="run only the checks whose names have this word")
    given = parser.parse_args()
    checks: list[Callable[[], Any]] = [first_task, running_task, ignored_hangup, killed, ended_program, files]
    checks += [refusals, full_disk, odd_folder, default_state] + ([] if given.quick else [lease])
    named: dict[str, Check] = {check.__name__.replace("_", " "): check for check in checks}
    return run_suites(Suite({name: check for name, check in named.items() if given.only in name}))


if __name__ == "__main__":
    run_script(main)
