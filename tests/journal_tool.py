"""Checks of `firmctl journal`, which tests/journal.py runs: its output, its rewrites, and crashes during them."""

from __future__ import annotations

import os
import pty
import shutil
import signal
import subprocess
import sys
import threading
from pathlib import Path
from subprocess import PIPE

import firmd_kit
from front_kit import api_of
from firmd_kit import JOURNAL_TOOL, Setup
from harness.checks import require
from harness.deployed import SERVICE, found_now, stored_lines
from harness.program import opened
from journal_kit import QUESTIONS, ROUNDS, answered, ask_all, serves, tool


def cut_rewrites(setup: Setup) -> None:
    """A crash during a rewrite of the journal leaves the former one or the new one in its place."""
    with setup.daemon("--segment-bytes", "4000") as daemon:
        said = answered(daemon, is_killed=True)
        journal = daemon.state / "journal"
        (daemon.state / "journal.new").mkdir()
        (daemon.state / "journal.new" / "00000001.lines").write_bytes(b"#firm-jour")
        tool("rewrite", "--forget-replies", daemon.state)
        new, old = daemon.state / "journal.new", daemon.state / "journal.old"
        journal.rename(new)  # as between the two renames
        serves(daemon, said, setup)
        require(not new.exists(), "the new one is in its place")
        daemon.stop()
        shutil.copytree(journal, new)
        serves(daemon, said + QUESTIONS, setup)
        daemon.stop()
        shutil.rmtree(old)
        journal.rename(old)  # so the new one is of an earlier moment
        daemon.refuses(5, f"{new} lacks lines of {old}")


def cut_renewals(setup: Setup) -> None:
    """A state whose new id was not stored before a crash gets it at its start; otherwise a former id is no id."""
    with setup.daemon() as daemon:
        daemon.start()
        ask_all(daemon, ROUNDS)
        daemon.kill()
        path = daemon.state / "id"
        before = path.read_bytes()
        tool("new-id", daemon.state)
        after = path.read_bytes()
        path.write_bytes(before)
        serves(daemon, ROUNDS, setup)
        require(path.read_bytes() == after != before, "the new id")
        daemon.kill()
        path.write_bytes(before)
        daemon.refuses(5, str(path))


def mended_extents(setup: Setup) -> None:
    """A damaged or missing extent is rewritten from the segments, and all lines are served; nothing else is
    repaired."""
    with setup.daemon("--segment-bytes", "4000") as daemon:
        said = answered(daemon, is_killed=True)
        path, first = daemon.state / "journal" / "extent", daemon.segments()[0]
        whole, text = path.read_bytes(), first.read_bytes()
        for damage in (whole[:-20] + b"X" + whole[-19:], b"", None):
            path.unlink() if damage is None else path.write_bytes(damage)
            daemon.refuses(5, str(path))
            place = len(text) // 2
            first.write_bytes(text[:place] + b"\0" + text[place + 1 :])
            mends(daemon, 5, f"{first}, at byte ")
            require((path.read_bytes() if path.exists() else None) == damage, "the extent is as it was")
            first.write_bytes(text)
            mends(daemon, 0, f"{path}: it reaches to line {len(said):,}. If later lines may be lost, run")
            serves(daemon, said, setup)
            daemon.kill()
            mends(daemon, 2, f"{path} is whole")
            said += QUESTIONS


def mends(daemon: firmd_kit.Daemon, status: int, words: str) -> None:
    """Require this result of a try to rewrite the extent."""
    command = [*JOURNAL_TOOL, "rewrite", "--extent", str(daemon.state)]
    done = subprocess.run(command, capture_output=True, text=True)
    told = (done.stdout + done.stderr).removeprefix("firmctl: ")
    require(done.returncode == status and told.startswith(words), f"status {done.returncode}: {told}")


def new_ids(setup: Setup) -> None:
    """A restored copy gets a separate id, and goes on with all its lines."""
    with setup.daemon() as daemon:
        daemon.start()
        ask_all(daemon, ROUNDS)
        daemon.stop()
        before = (daemon.state / "id").read_text()
        require(before.strip() in tool("new-id", daemon.state), "it tells")
        require((daemon.state / "id").read_text() != before, "its id")
        serves(daemon, ROUNDS, setup)
        done = subprocess.run([*JOURNAL_TOOL, "new-id", str(daemon.state)], capture_output=True, text=True)
        require(done.returncode == 4 and "is in use by process" in done.stderr, done)
        daemon.stop()


def printed(*words: str | Path) -> tuple[int, str, str]:
    """Return the status, the lines and the faults of `firmctl journal print`."""
    done = subprocess.run([*JOURNAL_TOOL, "print", *words], capture_output=True, text=True)
    return done.returncode, done.stdout, done.stderr


def printed_damage(setup: Setup) -> None:
    """`firmctl journal print` and `why --round` report a damaged or missing state, and print no part of it."""
    with setup.daemon("--segment-bytes", "3000") as daemon:
        answered(daemon, True)
        first, second, *_, last = daemon.segments()
        texts = {path: path.read_bytes() for path in (first, second, last)}
        changed = texts[first].replace(b"alpha task j a", b"Blpha task j a", 1)
        rows = [(first, changed), (first, texts[first][:-9]), (second, texts[first]), (last, texts[last][:-1])]
        for path, text in [*rows, (last, b"")]:
            path.write_bytes(text)
            status, lines, told = printed(daemon.state)
            require((status, lines) == (5, "") and str(path.parent) in told, f"{path.name}: {status} {told}")
            path.write_bytes(texts[path])
        last.unlink()
        require(printed(daemon.state)[:2] == (5, ""), "a segment is missing")
        last.write_bytes(texts[last] + texts[last][-40:-2])  # a torn end
        require(printed("--senders", daemon.state)[1].count("\n") == daemon.journal().count(b"\n") - 1, "all lines")
        status, _, told = printed(daemon.folder / "none")
        require(status == 4 and "not a state" in told, told)
        last.write_bytes(texts[last])
        daemon.start()
        with api_of(daemon.state, "alpha") as server:
            words: list[str | Path] = [sys.executable, SERVICE / "firmctl", "--server", server]
            words += ["why", "a", "alpha", "--round", "4"]
            for path in (first, second):
                path.unlink()
                path.mkdir() if path == first else path.write_bytes(b"")
                done = subprocess.run(words, capture_output=True, text=True)
                told = f"{path.name}: status {done.returncode}: {done.stderr}"
                is_told = done.stderr.startswith("firmctl: ") and path.name in done.stderr
                require(done.returncode == 3 and is_told, told)
                path.rmdir() if path == first else path.unlink()
                path.write_bytes(texts[path])


def printed_meanwhile(setup: Setup) -> None:
    """A journal is printed as of one moment, while firmd goes on and begins segments."""
    with setup.daemon("--segment-bytes", "1500") as daemon:
        daemon.start()
        with daemon.client() as client:
            client.ask(b"alpha show")
            found = found_now(daemon.state)
            client.ask(b"alpha show")  # it may be refused for want of memory, which the print does not know yet
        require([kept.lines for kept in stored_lines(found)] == [[b"alpha show"]], "the lines of that moment")
        is_over = threading.Event()

        def ask() -> None:
            with daemon.client() as client:
                while not is_over.is_set():
                    client.send(b"alpha show\n" * 20)
                    require(all(client.reply().startswith(b"alpha ") for _ in range(20)), "replies")

        def look() -> None:
            try:
                counts = [0]
                for _ in range(4 if setup.is_quick else 40):
                    status, lines, told = printed(daemon.state)
                    require(status == 0, told)
                    counts.append(lines.count("alpha show\n"))
                    require(len(lines) == counts[-1] * len("alpha show\n"), lines[-100:])
                require(counts == sorted(counts) and counts[-1] > counts[1], counts)
            finally:
                is_over.set()

        require(firmd_kit.in_threads([ask, look]) == [], "they end well")
        daemon.stop()


def shown_on_terminals(setup: Setup) -> None:
    """No line of a client steers the terminal on which a journal is printed; elsewhere each is printed as it is."""
    line = b"alpha \x1b]0;title\x07\xc2\x9b2J\xff \\ end\r"
    with setup.daemon() as daemon:
        daemon.start()
        with daemon.client() as client:
            require(client.ask(line) == b"alpha 1 no 2 bad-command", "the line is not in the journal")
        daemon.stop()
        for option in (list[str](), ["--senders"]):
            words = [*JOURNAL_TOOL, "print", *option, str(daemon.state)]
            require(subprocess.run(words, capture_output=True).stdout.endswith(line + b"\n"), "it is as it was sent")
            terminal, end = pty.openpty()
            subprocess.run(words, stdout=end, check=True)
            text = os.read(terminal, 1_000)
            os.close(terminal)
            os.close(end)
            shown = rb"alpha \x1b]0;title\x07\xc2\x9b2J\xff \ end\r"
            require(text.endswith(shown + b"\r\n") and text.count(b"\n") == 1, f"{option}: {text!r}")


NO_TENANT = "firm_state: tenant fault 4 unknown-tenant ALPHA"
REFUSING = f"""#!{sys.executable} -IS
import sys
sys.exit(sys.stderr.write({NO_TENANT!r}) and 3)
"""
ENDING = f"""#!{sys.executable} -IS
import os
os.kill(os.getpid(), 9)
"""


def ended_states(setup: Setup) -> None:
    """If firm_state ends before it has read all lines, `firmctl journal state` gives the reason and a status."""
    with setup.daemon("--snapshot-lines", "0") as daemon:
        daemon.start()
        with daemon.client() as client:
            client.send(b"alpha show\n" * 1_000)
            require(all(client.reply().startswith(b"alpha ") for _ in range(1_000)), "replies")
        daemon.stop()
        for text, status, words in ((REFUSING, 3, NO_TENANT), (ENDING, 6, "firm_state ended with status -9")):
            environment = {**os.environ, "FIRM_STATE_PROGRAM": firmd_kit.stand_in(daemon.folder, text)}
            command = [*JOURNAL_TOOL, "state", str(daemon.state), "--tenant", "ALPHA"]
            done = subprocess.run(command, env=environment, capture_output=True, text=True)
            require((done.returncode, done.stdout, done.stderr) == (status, "", f"firmctl: {words}\n"), done)
        with subprocess.Popen([*JOURNAL_TOOL, "print", str(daemon.state)], stdout=PIPE, stderr=PIPE) as printing:
            opened(printing.stdout).close()  # as of `firmctl journal print | head`
            require((opened(printing.stderr).read(), printing.wait()) == (b"", -signal.SIGPIPE), printing)


SHORT = [
    cut_rewrites,
    cut_renewals,
    mended_extents,
    new_ids,
    printed_damage,
    printed_meanwhile,
    shown_on_terminals,
    ended_states,
]
