"""Checks of firmd's disks, which tests/firmd.py runs: full disks, rights, and the times of syncs."""

from __future__ import annotations

import fcntl
import os
import select
import shutil
import stat
import subprocess
import sys
import termios
import time
from collections.abc import Callable
from contextlib import suppress
from pathlib import Path

from firmd_kit import FIRMD, NOBODY, ROWS, SHOWN, Client, Daemon, Gone, Setup, stand_in, wait_for
from harness.checks import Skipped, require
from harness.deployed import SERVICE

SOON_SECONDS = 0.2  # a reply that comes too early would be there in this time


def full_disk(setup: Setup, make_full: Callable[[Daemon], Callable[[], None]]) -> None:
    """A journal that can't grow stops the service with a clear error; answered lines are there once there is room."""
    with setup.daemon() as daemon:
        make_room = make_full(daemon)
        try:
            daemon.start()
            answered = []
            with daemon.client() as client, suppress(Gone):
                for number in range(100_000):
                    answered.append(client.ask((b"alpha machine x%d 65" % number if number else ROWS[0]).ljust(250)))
            require(daemon.status() == 4 and b"cannot write the journal" in daemon.said(), daemon.said())
            require(len(answered) > 10 and answered[-1] != b"", "lines were answered")
            require(
                daemon.journal().count(b"\n") == len([reply for reply in answered if not reply.startswith(b"?")]),
                "its lines",
            )
            daemon.start()  # this needs no room
            daemon.kill()
            make_room()
            daemon.words = FIRMD
            daemon.start()
            with daemon.client() as client:
                number = len([reply for reply in answered if not reply.startswith(b"?")]) + 1
                require(client.ask(b"alpha show").startswith(b"alpha %d ok machines 1 " % number), "the state")
            daemon.stop()
        finally:
            make_room()


def limit_files(daemon: Daemon) -> Callable[[], None]:
    """Limit firmd's files to 30,000 bytes; return a function that ends the limit."""
    if shutil.which("prlimit") is None:
        raise Skipped("there is no prlimit")
    daemon.words = ["prlimit", "--fsize=30000", *FIRMD]
    return lambda: None


def mount(path: Path, *options: str) -> None:
    done = subprocess.run(["mount", *options, str(path)], capture_output=True, text=True)
    if done.returncode:
        raise Skipped(f"no file system can be mounted here: {done.stderr.strip()}")


def small_file_system(daemon: Daemon) -> Callable[[], None]:
    """Put the state on a file system of 128 kB; return a function that enlarges it."""
    daemon.state.mkdir()
    mount(daemon.state, "-t", "tmpfs", "-o", "size=128k,mode=755", "tmpfs")
    rooms: list[str] = []

    def make_room() -> None:
        if not rooms:
            mount(daemon.state, "-o", "remount,size=8m")
            rooms.append("made")
        else:
            subprocess.run(["umount", "-l", str(daemon.state)], check=True)

    return make_room


def no_rights(setup: Setup) -> None:
    """A state or a journal that can't be written or read is refused."""
    with setup.daemon() as daemon:
        daemon.state.write_bytes(b"")
        daemon.refuses(4, "cannot use the state", "Not a directory")
        daemon.state.unlink()
        daemon.start().stop()
        journal = daemon.state / "journal"
        journal.rename(daemon.folder / "away")
        journal.write_bytes(b"")
        daemon.refuses(4, "cannot open the journal", "Not a directory")
        journal.unlink()
        (daemon.folder / "away").rename(journal)
        (journal / "00000001.lines").unlink()
        (journal / "00000001.lines").mkdir()
        daemon.refuses(4, "cannot open the journal", "Is a directory")


def unprivileged(daemon: Daemon) -> list[str]:
    """Give the daemon's folder to another user; return the words in front of a program that run it without root's
    rights."""
    if os.geteuid() != 0:
        return []
    words = ["setpriv", f"--reuid={NOBODY}", f"--regid={NOBODY}", "--clear-groups"]
    if shutil.which("setpriv") is None:
        raise Skipped("root has all rights, and there is no setpriv")
    for path in (SERVICE / "firmd", Path(daemon.firm)):
        if subprocess.run([*words, "test", "-r", str(path)]).returncode:
            raise Skipped(f"others than root can't read {path}")
    for path in (daemon.folder, *daemon.folder.iterdir()):
        os.chown(path, NOBODY, NOBODY)
    return words


def denied_rights(setup: Setup) -> None:
    """A state, a journal and a segment whose mode denies access, before the start and while it serves."""
    with setup.daemon("--segment-bytes", "1000") as daemon:
        daemon.words = [*unprivileged(daemon), *FIRMD]
        daemon.start()
        journal = daemon.state / "journal"
        replies = []
        with daemon.client() as client, suppress(Gone):
            replies += [client.ask(line) for line in ROWS]
            journal.chmod(0o500)  # existing files can be read and grow, and no segment can be begun
            while not replies[-1].startswith(b"?"):
                replies.append(client.ask(b"alpha show"))
        require(daemon.status() == 4 and b"cannot write the journal" in daemon.said(), daemon.said())
        require(b"Permission denied" in daemon.said() and len(replies) > len(ROWS), daemon.said())
        journal.chmod(0o700)
        denied = [
            (daemon.segments()[-1], "cannot open the journal"),
            (daemon.state, "cannot use the state"),
            (journal, "cannot open the journal"),
            (daemon.state / "lock", "cannot use the state"),
        ]
        for path, text in denied[:2] if setup.is_quick else denied:
            mode = stat.S_IMODE(path.stat().st_mode)
            path.chmod(0)
            daemon.refuses(4, text, "Permission denied")
            path.chmod(mode)
        daemon.start()
        with daemon.client() as client:
            answered = [reply for reply in replies if reply.startswith(b"alpha ")]
            require(client.ask(b"alpha show") == b"alpha %d " % (len(answered) + 1) + SHOWN % 0, "the rows")
        daemon.stop()


def read_only(setup: Setup) -> None:
    """A state on a write-protected file system, before the start and while it serves."""
    with setup.daemon() as daemon:
        make_room = small_file_system(daemon)
        try:
            daemon.start()
            with daemon.client() as client:
                require(client.ask(ROWS[0]) == b"alpha 1 ok", "a reply")
            daemon.stop()
            mount(daemon.state, "-o", "remount,ro")
            daemon.refuses(4, "cannot use the state", "Read-only file system")
        finally:
            make_room()
            make_room()


PATCHED = """\
import os, sys, time
count = 0
def patched(name, real):
    def sync(file):
        global count
        path = os.path.basename(os.readlink(f"/proc/self/fd/{{file}}"))
        is_of_lines = name == "fdatasync" and path != "extent"
        count += is_of_lines
        with open({log!r}, "a") as log:
            print(name, path, file=log)
        if is_of_lines:
            {action}
        real(file)
    return sync
os.fsync, os.fdatasync = patched("fsync", os.fsync), patched("fdatasync", os.fdatasync)
from firm.server.daemon import main
sys.exit(main())
"""


def patch_sync(daemon: Daemon, action: str) -> Path:
    """Insert an action before each sync of lines; return the file with a line for each sync: its call and the file."""
    script, log = daemon.folder / "patched.py", daemon.folder / "syncs"
    script.write_text(PATCHED.format(log=str(log), action=action))
    daemon.words = [sys.executable, str(script)]
    return log


def group_commit(setup: Setup) -> None:
    """Lines that wait share a sync, and none is answered before its own."""
    with setup.daemon() as daemon:
        ends = daemon.folder / "ends"  # has a byte for each sync that may end
        ends.touch()
        log = patch_sync(daemon, f"while os.path.getsize({str(ends)!r}) < count: time.sleep(0.01)")
        daemon.start()
        clients = [daemon.client() for _ in range(20)]
        for client in clients:
            client.send(b"alpha show\n")
        wait_for(lambda: not any(map(unread, clients)), "the lines are read")
        synced = syncs = 0
        while synced < 20:
            syncs += 1
            wait_for(lambda: log.read_text().count("fdatasync 0") == syncs, f"sync {syncs} begins")
            written = daemon.journal().count(b"\n")
            wait_for(lambda: answered(clients) >= synced, f"replies to {synced} lines")
            time.sleep(SOON_SECONDS)
            require(answered(clients) == synced, f"{answered(clients)} replies before the end of sync {syncs}")
            ends.write_bytes(bytes(syncs))
            synced = written
        replies = [client.reply() for client in clients]
        require(len(set(replies)) == 20, replies)
        require(syncs <= 3, f"{syncs} syncs")
        ends.write_bytes(bytes(99))  # a stop syncs too
        daemon.stop()


def unread(client: Client) -> bool:
    """Return whether firmd has left some of its input unread."""
    return fcntl.ioctl(client.socket, termios.TIOCOUTQ, bytes(4)) != bytes(4)


def answered(clients: list[Client]) -> int:
    """Return the number of clients with a reply."""
    return len(select.select([client.socket for client in clients], [], [], 0)[0])


def hung_sync(setup: Setup) -> None:
    """A hung sync is reported and readers are answered; lines wait, and are answered once it ends."""
    with setup.daemon() as daemon:
        sign = daemon.folder / "hangs"
        is_late = "sys.modules['firm.server.stream'].LATE_SECONDS = 0.5"
        patch_sync(daemon, f"{is_late}\n            while os.path.exists({str(sign)!r}): time.sleep(0.05)")
        daemon.start()
        with daemon.client() as client, daemon.client() as other:
            require(client.ask(ROWS[0]) == b"alpha 1 ok", "a reply")
            sign.touch()
            client.send(ROWS[1] + b"\n")
            wait_for(lambda: b"no journal write has completed for 0.5 s" in daemon.said(), "the report of the hang")
            other.send(b"alpha show\n")
            with Client(daemon.state / "view") as reader:
                shown = reader.ask(b'{"ask": "watch", "tenant": "alpha"}')
                require(b'"machine": "m1"' in shown, shown)
            time.sleep(SOON_SECONDS)
            require(answered([client, other]) == 0, "a line is answered before its sync")
            sign.unlink()
            require(client.reply() == b"alpha 2 ok" and other.reply().startswith(b"alpha 3 ok"), "replies")
            wait_for(lambda: b"journal writes complete again" in daemon.said(), "the report of its end")
        daemon.stop()


def failed_sync(setup: Setup) -> None:
    """A sync that fails stops the service; the line is neither answered, by firmd itself either, nor obeyed."""
    with setup.daemon() as daemon:
        patch_sync(daemon, 'if count == 3: raise OSError(5, "Input/output error")')
        daemon.start()
        with daemon.client() as client:
            require([client.ask(line) for line in ROWS[:2]] == [b"alpha 1 ok", b"alpha 2 ok"], "replies")
            client.send(ROWS[2] + b"\n")
            require(client.rest() == b"", client.received)
        require(daemon.status() == 4 and b"cannot write the journal" in daemon.said(), daemon.said())
        daemon.words = FIRMD
        daemon.start()
        with daemon.client() as client:
            require(b" tasks 0 " in client.ask(b"alpha show"), "the line was obeyed")


def syncs_of_starts(setup: Setup) -> None:
    """A start syncs a killed daemon's unsynced writes, and its name, before firm has a line of it."""
    with setup.daemon("--segment-bytes", "40") as daemon:
        log = patch_sync(daemon, "time.sleep(1000) if count == 3 else None")
        daemon.start()
        with daemon.client() as client:
            require([client.ask(line) for line in ROWS[:2]] == [b"alpha 1 ok", b"alpha 2 ok"], "replies")
            client.send(ROWS[2] + b"\n")
            wait_for(lambda: log.read_text().endswith("fdatasync 00000003.lines\n"), "a line that is not synced")
            daemon.kill()
        require(daemon.journal().endswith(ROWS[2] + b"\n") and len(daemon.segments()) == 3, "it is written")
        log.unlink()
        daemon.firm = stand_in(daemon.folder, f"#!/bin/sh\necho firm >>'{log}'\nexec '{setup.program}' \"$@\"\n")
        daemon.start()
        before, _, behind = log.read_text().partition("firm\n")
        wanted = {"fsync 00000003.lines", "fsync journal", "fdatasync extent"}
        require(wanted <= set(before.splitlines()), f"{before!r}, then {behind!r}")
        with daemon.client() as client:
            require(client.ask(ROWS[2]).startswith(b"alpha 4 no 9 "), "the line is obeyed")
        daemon.stop()
