"""Checks of services that begin with a state in the place of a roster, which tests/snapshots.py runs.

The state is that of another service, of a tenant that moves, or one with another heading than a snapshot.
"""

from __future__ import annotations

import shutil
import subprocess
from dataclasses import replace
from pathlib import Path

import firmd_kit
from firmd_kit import HEADING, ROSTER, Daemon, Setup
from harness.checks import require
from harness.deployed import service_states, snapshots
from harness.service import LONGEST_PATIENCE
from journal_kit import ROUNDS, ask_all, tool
from snapshot_kit import MORE, goes_on, has_snapshots, named, replayed, shown, text_of, with_snapshots


def restores(setup: Setup) -> None:
    """A service begins with the state of another: placements, waits and numbers go on; so does a tenant that moves."""
    with with_snapshots(setup) as (daemon, said), setup.daemon("--snapshot-lines", "20") as other:
        done = subprocess.run([*firmd_kit.JOURNAL_TOOL, "state", daemon.state], capture_output=True, text=True)
        require((done.returncode, done.stdout) == (4, "") and "is in use by process" in done.stderr, done)
        before = shown(daemon, len(said))
        daemon.stop()
        with setup.daemon("--snapshot-lines", "20") as copy:
            shutil.copytree(daemon.state, copy.state)
            copy.start()
            found = shown(copy, len(said))
            require(found == before, f"tasks have other lines, so agents end them: {found}")
            require((copy.state / "id").read_text() == (daemon.state / "id").read_text(), "agents know it")
            copy.stop()
        state = daemon.folder / "taken"
        state.write_text(tool("state", daemon.state))
        whole = service_states.fold(service_states.Opening(daemon.folder / "roster.csv"), [daemon.journal()])
        require(state.read_bytes() == whole, "the state behind a snapshot and its tail is that of the whole")
        begin_with(other, state)
        mode = (other.state / "restored").stat().st_mode & 0o777
        require(mode == 0o600, f"a tenant's users may read the rows of others: {mode:o}")
        goes_on(setup, other, said)
        more = [*MORE, *[b"alpha show"] * 30]
        goes_on(setup, other, said, more)
        has_snapshots(other, 1)
        other.kill()
        other.start()
        goes_on(setup, other, said)
        other.stop()
        changed = other.folder / "changed"
        changed.write_bytes(state.read_bytes().replace(b" at ", b" on "))
        other.restored = changed
        other.refuses(3, "changed-state")
        shutil.rmtree(other.state)
        other.refuses(3, "state fault 4 number in line ")
        other.restored = Path("/dev/zero")
        other.refuses(3, "has more than 41,943,040 bytes, so it is not a state")
    moves(setup)


def begin_with(daemon: Daemon, state: Path) -> None:
    """Start it with a state in its roster's place."""
    daemon.restored = state
    daemon.start()


def moves(setup: Setup) -> None:
    """A tenant moves to another service by two commands, with its whole state."""
    with setup.daemon() as here, setup.daemon(roster=HEADING + b"gamma,30,300,1000,0,0\n") as there:
        said = [*ROUNDS, b"alpha task j waits", b"alpha round"]
        here.start()
        there.start()
        ask_all(here, said)
        gammas = [b"gamma machine m 1", b"gamma job j 1", b"gamma task j t", b"gamma round"]
        ask_all(there, gammas)
        here.stop()
        there.stop()
        left, joined = here.folder / "left", there.folder / "joined"
        left.write_text(tool("state", here.state, "--tenant", "alpha"))
        joined.write_text(tool("state", there.state, "--merge", left))
        with setup.daemon() as new:
            begin_with(new, joined)
            replies = ask_all(new, [b"alpha where a", b"alpha costs", b"gamma where t", b"alpha round"])
            wanted = setup.alone(ROSTER, text_of([*said, b"alpha where a", b"alpha costs", b"alpha round"]))[-3:]
            require([replies[0], replies[1], replies[3]] == wanted, replies)
            require(replies[2] == b"gamma 5 ok at m", replies)
            new.stop()


def patience(setup: Setup) -> None:
    """Snapshots and restored states record in their first line whether a service accepts a patience. A snapshot that
    differs from its service in this is reported and not used."""
    comes = [b"+ admit gamma,30,300,1000,1,2,0,2", b"gamma job j 5", b"gamma task j t", *[b"gamma round"] * 4]
    asked = [b"gamma round", b"gamma costs", b"+ admit delta,2,0,9,0,0,0,7", b"+ retire delta"]
    for roster in (ROSTER, firmd_kit.extended(ROSTER, LONGEST_PATIENCE)):
        with setup.daemon("--snapshot-lines", "20", roster=roster) as daemon:
            said: list[bytes] = []

            def goes_on(lines: list[bytes]) -> None:
                said.extend(lines)
                replies, wanted = ask_all(daemon, lines), setup.alone(roster, text_of(said))[-len(lines) :]
                require(replies == wanted, f"other replies: {replies}, and not {wanted}")

            daemon.start()
            goes_on([*ROUNDS, *comes, *[b"alpha show"] * 30])
            has_snapshots(daemon, 1)
            daemon.kill()
            daemon.start()
            require(replayed(daemon) < daemon.journal().count(b"\n"), f"{replayed(daemon)} lines")
            goes_on(asked)
            daemon.stop()
            state = tool("state", daemon.state).encode()
            require(service_states.is_extended(state) == (roster != ROSTER), state[:40])
            begins_with_patience(setup, b"firm state 1 extended\n" + state.partition(b"\n")[2])
            folder = daemon.state / "snapshots"
            for segment in named(daemon):
                kept = snapshots.read(folder, segment)
                heading, _, rows = kept.state.partition(b"\n")
                other = b"firm state 1" if heading == b"firm state 1 extended" else b"firm state 1 extended"
                snapshots.write(folder, replace(kept, state=other + b"\n" + rows))
            daemon.start()
            require(b"has another heading than" in daemon.said(), daemon.said())
            require(replayed(daemon) == daemon.journal().count(b"\n"), f"{replayed(daemon)} lines")
            goes_on(asked)
            daemon.stop()


def begins_with_patience(setup: Setup, state: bytes) -> None:
    """A service restored from an extended state accepts a patience."""
    with setup.daemon() as other:
        path = other.folder / "begun"
        path.write_bytes(state)
        begin_with(other, path)
        replies = ask_all(other, [b"+ admit epsilon,2,0,9,0,0,0,7", b"+ retire epsilon"])
        require(replies == [b"+ ok admitted epsilon", b"+ ok retired epsilon"], replies)
        other.stop()
