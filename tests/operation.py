"""Check an operator's view of the programs: the form of their messages, and the owners of their sockets and folders.

usage: tools/run tests/operation.py [--quick] [--only WORDS] [--program FILE]
Each check prints a line; the last line is 'N passed, M failed', and the exit status is 1 if one failed. It needs Python
3 and the built program. A check that can't run here is skipped with a line. --quick changes nothing.
"""

from __future__ import annotations

import argparse
import asyncio
import errno
import fcntl
import json
import os
import re
import signal
import socket
import subprocess
import sys
import tempfile
from collections.abc import Callable
from contextlib import ExitStack
from functools import partial
from pathlib import Path

from firmd_kit import FIRMD, JOURNAL_TOOL, NOBODY, START_SECONDS, Client, Daemon, Setup, stand_in, wait_for
from harness import program
from harness.checks import Check, Skipped, Suite, require, run_script, run_suites
from harness.deployed import LOCK_SECONDS, SERVICE
from hostile import patch, patch_viewer
from queue_kit import FIRM_API

from firm.common.files import replace_synced
from firm.slurm.bridge import lock_alone

AGENT = [sys.executable, str(SERVICE / "firm-agent")]
FAULTY_AGENT = [
    "--server=unix:q",
    "--tenant=alpha",
    "--state=/dev/null/a",
    "--name=a1",
    "--machines=m1=1",
]  # options of an agent
CHECKS_AT_A_TIME = 4
SLOW_SECONDS = 10.0
# A firm whose last words would clear a terminal, and look like other messages.
FORGING = """#!/bin/sh
[ "$1" = --help ] && exit
read line || exit 0
printf '\\033[2J\\rfirmd: forged \\302\\205end\\nfirmd: forged\\n' >&2
exit 9
"""
# A firmd that takes over the name of a dead socket only once another one waits for it, or after a long time.
SLOW_TO_TAKE = f"""\
import pathlib, time
def unlink(self, missing_ok=False, original=pathlib.Path.unlink):
    if str(self) == {{taken!r}}:
        self.with_name("taking").touch()
        ends = time.monotonic() + {SLOW_SECONDS}
        while not self.with_name("waiting").exists() and time.monotonic() < ends:
            time.sleep(0.01)
    original(self, missing_ok)
pathlib.Path.unlink = unlink
"""
# A firmd that reports its wait for the lock of a folder, however long it takes.
PATIENT = f"""\
import pathlib
from firm.common import sockets
def is_locked(folder, original=sockets.is_locked):
    found = original(folder)
    if not found:
        pathlib.Path({{waiting!r}}).touch()
    return found
sockets.is_locked, sockets.LOCK_SECONDS = is_locked, {2 * SLOW_SECONDS}
"""
# A firmd that ends on a signal, once it no longer listens and its clients have left.
SLOW_TO_END = """\
import asyncio, pathlib
from firm.server import clients
async def close(self, original=clients.Clients.close):
    await original(self)
    while not pathlib.Path({may_end!r}).exists():
        await asyncio.sleep(0.01)
clients.Clients.close = close
"""
FAULTY = """\
from firm.viewer import view
def fail(*_):
    raise RuntimeError("made by the test\\nfirmd: forged")
view.rows_of = fail
"""
UNCAUGHT = """\
import threading
from firm.server import daemon
def fail(what):
    raise RuntimeError(f"of {what}\\nfirmd: forged")
async def run(self):
    thread = threading.Thread(target=fail, args=("a thread",))
    thread.start()
    thread.join()
    fail("the program")
daemon.Daemon.run = run
"""


# Messages.


def stream_of(errors: Path) -> str:
    """Return a file's name in the form of systemd's JOURNAL_STREAM; the file stands in for the journal."""
    errors.touch()
    found = errors.stat()
    return f"JOURNAL_STREAM={found.st_dev}:{found.st_ino}"


def as_journal(daemon: Daemon) -> Path:
    """Make firmd take its standard error for systemd's journal; return the file that stands in."""
    errors = daemon.folder / "errors"
    daemon.words = ["env", stream_of(errors), *daemon.words]
    return errors


def run_in_journal(words: list[str], errors: Path) -> None:
    """Run a program that takes its standard error for systemd's journal."""
    with open(errors, "wb") as file:
        words = ["env", stream_of(errors), *words]
        subprocess.run(words, stdin=subprocess.DEVNULL, stderr=file, cwd=errors.parent, timeout=300)


def priorities(setup: Setup) -> None:
    """If standard error is systemd's journal, each line begins with its priority; otherwise no line does."""
    with setup.daemon() as daemon:
        errors = as_journal(daemon)
        daemon.start()
        daemon.stop()
        said = daemon.said().splitlines()
        require(len(said) == 2, said)
        require(said[0].startswith(b"<6>firmd: ready: 0 lines") and said[1].startswith(b"<6>firmd: stopping"), said)
        (daemon.folder / "roster.csv").unlink()
        daemon.refuses(3, "<3>firmd: cannot read the roster ")
        daemon.words[1] += "0"  # the number of another file
        daemon.refuses(3)
        require(daemon.said().startswith(b"firmd: cannot read the roster "), daemon.said())
        run_in_journal([*AGENT, "run", *FAULTY_AGENT], errors)
        require(daemon.said().startswith(b"<3>firm-agent: /dev/null/a: "), daemon.said())


def records(setup: Setup) -> None:
    """With --log-format json each line is an object with the time, the level, the program and the message."""
    with setup.daemon("--log-format", "json") as daemon:
        daemon.spawn()
        wait_for(lambda: b"ready" in daemon.said(), "it serves")
        daemon.stop()
        ready, stopping = map(json.loads, daemon.said().splitlines())
        require(re.fullmatch(r"20..-..-..T..:..:..\....Z", ready["time"]), ready)
        require((ready["level"], ready["program"]) == ("info", "firmd"), ready)
        require(ready["message"].startswith("ready: 0 lines replayed"), ready)
        require(stopping["message"] == "stopping: draining accepted requests", stopping)
        errors = daemon.folder / "errors"
        with open(errors, "wb") as file:
            words = [*AGENT, "run", *FAULTY_AGENT, "--log-format", "json"]
            subprocess.run(words, stderr=file, cwd=daemon.folder, timeout=300)
        told = json.loads(daemon.said())
        require(told["level"] == "error" and told["message"].startswith("/dev/null/a: "), told)


def safe_to_print(setup: Setup) -> None:
    """No message steers a terminal or looks like another one, whatever words of others it quotes."""
    with setup.daemon() as daemon:
        daemon.firm = stand_in(daemon.folder, FORGING)
        daemon.start()
        with daemon.client() as client:
            client.send(b"alpha show\n")
            require(daemon.status() == 6, daemon.said())
        text = daemon.said().decode()
        require("\\x1b[2J\\rfirmd: forged \\x85end" in text, text)
        require(all(line.isprintable() for line in text.split("\n")), text)
        require(not re.search(r"(?m)^firmd: forged", text), text)
        name = daemon.folder / "\x1b[2J\nfirmd: ready"
        daemon.options = ["--roster", str(name)]
        daemon.refuses(3)
        told = daemon.said().decode().splitlines()
        require("\x1b" not in told[0] and [line for line in told[1:] if not line.startswith("  ")] == [], told)


def tracebacks(setup: Setup) -> None:
    """A traceback belongs to its message: it is indented, after the priority too, or in one object."""
    for options, begins in (((), "  "), ((), "<4>  "), (("--log-format", "json"), "")):
        with setup.daemon(*options) as daemon:
            patch_viewer(daemon, FAULTY)
            if begins.startswith("<"):
                as_journal(daemon)
            daemon.spawn()
            wait_for(lambda: b"ready" in daemon.said(), "it serves")
            with Client(daemon.state / "view") as client:
                client.send(b'{"ask": "watch", "tenant": "alpha"}\n')
                require(client.rest() == b"", "the view is closed")
            daemon.running().send_signal(signal.SIGTERM)
            require(daemon.status() == 0, daemon.said())
            lines = daemon.said().decode().splitlines()
            if options:
                (told,) = [row for row in map(json.loads, lines) if row["level"] == "warning"]
                require(told["traceback"].startswith("Traceback") and told["part"] == "view", told)
                require(told["program"] == "firm-viewer", told)
            else:
                require("firm-viewer: fault of view" in lines[1], lines)
                require(lines[2] == f"{begins}Traceback (most recent call last):", lines)
                require(all(line.startswith(begins) for line in lines[2:-1]) and len(lines) > 6, lines)


def uncaught(setup: Setup) -> None:
    """An uncaught error, in a thread too, is reported in the same form as all messages."""
    with setup.daemon() as daemon:
        patch(daemon, UNCAUGHT)
        daemon.refuses(1, "firmd: an error that nothing has caught", "\n  RuntimeError: of a thread", "of the program")
        lines = daemon.said().decode().splitlines()
        require(all(line.startswith(("firmd: an error", "  ")) for line in lines), lines)


def unheard(setup: Setup) -> None:
    """A service whose standard error has no reader any more goes on."""
    reading, writing = os.pipe()
    with setup.daemon() as daemon:
        words = [*daemon.words, "--firm", daemon.firm, "--state", str(daemon.state)]
        words += ["--roster", str(daemon.folder / "roster.csv"), "--socket", str(daemon.any)]
        daemon.process = subprocess.Popen(words, stdin=subprocess.DEVNULL, stderr=writing)
        os.close(writing)
        with os.fdopen(reading, "rb") as pipe:
            require(pipe.readline().startswith(b"firmd: ready"), "it serves")
        with daemon.client() as client:
            require(client.ask(b"alpha show").startswith(b"alpha 1 ok"), "it answers")
        daemon.running().send_signal(signal.SIGTERM)
        require(daemon.status() == 0, "its end")


# Owners of sockets.


def with_its_number(path: Path, inode: int) -> socket.socket:
    """Return a socket of that name whose file has the number of a removed one."""
    for place in range(2_000):
        filler = path.with_name(f"filler-{place}")
        filler.touch()
        if filler.stat().st_ino == inode:
            filler.unlink()
            bound = socket.socket(socket.AF_UNIX)
            bound.bind(str(path))
            if path.lstat().st_ino == inode:
                bound.listen()
                return bound
            bound.close()
            path.unlink()
    raise Skipped("this file system gives no number of a file again, or another process has it")


def number_of_a_successor(setup: Setup) -> None:
    """A firmd that ends slowly leaves the socket of its successor alone, though both files have the same number."""
    with setup.daemon() as daemon:
        may_end = daemon.folder / "may-end"
        patch(daemon, SLOW_TO_END.format(may_end=str(may_end)))
        daemon.start()
        inode = daemon.any.lstat().st_ino
        daemon.running().send_signal(signal.SIGTERM)
        wait_for(lambda: not is_served(daemon.any), "it does not listen any more")
        daemon.any.unlink(missing_ok=True)
        with with_its_number(daemon.any, inode):
            require(daemon.running().poll() is None, "it ends slowly")
            may_end.touch()
            require(daemon.status() == 0, daemon.said())
            require(is_served(daemon.any), "the successor's socket is gone")


def is_served(path: Path) -> bool:
    with socket.socket(socket.AF_UNIX) as probe:
        try:
            probe.connect(str(path))
        except (ConnectionRefusedError, FileNotFoundError):
            return False
        return True


def two_at_a_time(setup: Setup) -> None:
    """Of two that find a dead daemon's socket at the same time, one gets the name, and the other an error."""
    with setup.daemon() as dead, setup.daemon() as slow, setup.daemon() as other:
        dead.start().kill()
        for daemon in (slow, other):
            daemon.options = ["--client", f"beta={dead.any}"]
        patch(slow, SLOW_TO_TAKE.format(taken=str(dead.any)))
        patch(other, PATIENT.format(waiting=str(dead.folder / "waiting")))
        slow.spawn()
        wait_for((dead.folder / "taking").exists, "the first finds the socket dead")
        other.spawn()
        for daemon in (slow, other):
            wait_for(
                lambda: daemon.running().poll() is not None or b"ready" in daemon.said(),
                "it starts or ends",
                START_SECONDS,
            )
        ready = [daemon for daemon in (slow, other) if daemon.running().poll() is None]
        require(len(ready) == 1, f"{len(ready)} of two have the name")
        with Client(dead.any) as client:
            require(client.ask(b"beta show").startswith(b"beta 1 ok"), "it is served")
        refused = other if slow in ready else slow
        require(refused.status() == 7 and b"somebody serves it" in refused.said(), refused.said())
        ready[0].stop()
        require(not dead.any.exists(), "its socket is removed")


def locked_folders(setup: Setup) -> None:
    """Clients that keep the folders of their sockets locked delay a start by little, and an end not at all."""
    with setup.daemon() as daemon, ExitStack() as held:
        folders = [daemon.folder / f"client-{place}" for place in range(190)]
        require(LOCK_SECONDS * len(folders) > 2 * START_SECONDS, "a wait for each would be too long")
        for folder in folders:
            folder.mkdir()
            file = os.open(folder, os.O_RDONLY)
            held.callback(os.close, file)
            fcntl.flock(file, fcntl.LOCK_EX)
            daemon.options += ["--client", f"alpha={folder / 'lines'}"]
        daemon.start()
        with Client(folders[-1] / "lines") as client:
            require(client.ask(b"alpha show").startswith(b"alpha 1 ok"), "it is served")
        daemon.stop()
        require(not any((folder / "lines").exists() for folder in folders), "its sockets are removed")


def messages_until_ready(command: list[str]) -> str:
    """Return a service's messages until it serves; then end it."""
    with subprocess.Popen(command, stdin=subprocess.DEVNULL, stderr=subprocess.PIPE) as service:
        said = b""
        while not said.endswith(b": ready\n") and (line := program.opened(service.stderr).readline()):
            said += line
        service.terminate()
    return said.decode()


def folders_of_others(setup: Setup) -> None:
    """Root writes nothing in a folder of another user, who could redirect it by a link: each program names the
    folder's owner, and ends; firm-api serves other tenants."""
    if os.geteuid():
        raise Skipped("it needs root, to have other users' folders")
    with tempfile.TemporaryDirectory(prefix="firm-") as name:
        folder, victim = Path(name, "state"), Path(name, "victim")
        folder.mkdir()
        (folder / "lock").symlink_to(victim)
        verbs = (["state"], ["rewrite", "--extent"], ["new-id"])
        commands = [[*JOURNAL_TOOL, *words, str(folder)] for words in verbs]
        commands += [
            [*FIRMD, "--firm", setup.program, "--roster", "r", "--state", str(folder), "--socket", f"{name}/s"]
        ]
        agent = ["--server=unix:q", "--tenant=alpha", "--name=a1", "--machines=m1=1", f"--state={folder}"]
        commands += [[*AGENT, "run", *agent]]
        api = [*FIRM_API, "run", "--state", "s", f"--socket={name}/s", "--lines=alpha=f", f"--queue=alpha={folder}"]
        for owner in (NOBODY, 0):  # in a folder of root's the link alone is refused
            os.chown(folder, owner, owner)
            victim.write_text("victim")
            told = f"it belongs to user {NOBODY}: run this as that user" if owner else "symbolic links"
            for command in commands:
                done = subprocess.run(command, stdin=subprocess.DEVNULL, capture_output=True, text=True, timeout=60)
                require(done.returncode == 4 and victim.read_text() == "victim", (command, done))
                require(told in done.stderr, (command, done.stderr))
            said = messages_until_ready(api)
            require(told in said and victim.read_text() == "victim", said)
        command = [*FIRMD, "--firm", setup.program, "--roster", "r", "--socket", f"{name}/s", "--state"]
        for state, told in led_by_others(Path(name)).items():
            done = subprocess.run([*command, str(state)], stdin=subprocess.DEVNULL, capture_output=True, text=True)
            require(done.returncode == 4 and told in done.stderr, (state, done))
            require(not (state / "lock").exists() and not (Path(name) / "made").exists(), f"{state} is written")


def led_by_others(folder: Path) -> dict[Path, str]:
    """Return folders of root's, and some to be made, that others could redirect, with the reason for each refusal."""
    way, target, shared = folder / "way", folder / "target", folder / "shared"
    for one in (way, target, shared):
        one.mkdir()
    shared.chmod(0o1777)
    for link, goal in (("link", "way/state"), ("way/state", "../target"), ("way/new", "../made")):
        (folder / link).symlink_to(goal)
    os.chown(way, NOBODY, NOBODY)
    whose = f"it belongs to user {NOBODY}, who could put a link in the place of "
    found = {way / "state": f"{whose}state", folder / "link": f"{whose}state", way / "new/state": f"{whose}new"}
    return {**found, shared: "all users may write there", shared / "x": "all users may write there"}


def links_in_the_place_of_files(setup: Setup) -> None:
    """A symbolic link in the place of a draft or of a lock is refused, not followed."""
    with tempfile.TemporaryDirectory(prefix="firm-") as name:
        victim, path = Path(name, "victim"), Path(name, "file")
        writes: dict[str, Callable[[], object]] = {
            "file.new": partial(replace_synced, path, b"x"),
            "slurm.lock": lambda: asyncio.run(lock_alone(Path(name, "slurm.lock"))),
        }
        for link, write in writes.items():
            Path(name, link).symlink_to(victim)
            victim.write_text("victim")
            try:
                write()
            except OSError as error:
                require(error.errno == errno.ELOOP, f"{link}: {error}")
            else:
                require(False, f"{link} is followed: {victim.read_text()!r}")
            require(victim.read_text() == "victim", f"{link}: {victim.read_text()!r}")


CHECKS = [
    priorities,
    records,
    safe_to_print,
    tracebacks,
    uncaught,
    unheard,
    number_of_a_successor,
    two_at_a_time,
    locked_folders,
    folders_of_others,
    links_in_the_place_of_files,
]


def main() -> int:
    parser = argparse.ArgumentParser(description=(__doc__ or "").splitlines()[0])
    parser.add_argument("--quick", action="store_true", help="the part that tests/quick runs")
    program.add_program(parser)
    parser.add_argument("--only", default="", help="run only the checks whose names have these words")
    options = parser.parse_args()
    setup = Setup(options.program, options.quick, 0)
    named: dict[str, Check] = {check.__name__.replace("_", " "): partial(check, setup) for check in CHECKS}
    chosen = {name: check for name, check in named.items() if options.only in name}
    return run_suites(Suite(chosen, CHECKS_AT_A_TIME))


if __name__ == "__main__":
    run_script(main)
