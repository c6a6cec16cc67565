"""Check snapshots of firmd, starts from them and changes to a fresh firm; damage them, and kill firmd meanwhile.

usage: tools/run tests/snapshots.py [--quick] [--program FILE] [--state FILE] [--only WORDS] [--kills N] [--seed N]
Each check prints a line; the last line is 'N passed, M failed', and the exit status is 1 if one failed. It needs the
built firm and firm_state. firm alone, over all lines of the journal from its beginning, is the judge of each reply.
"""

from __future__ import annotations

import argparse
import os
import random
import shutil
import subprocess
import sys
import tempfile
import time
from collections import Counter
from collections.abc import Callable
from concurrent.futures import ThreadPoolExecutor
from contextlib import suppress
from dataclasses import dataclass
from functools import partial
from pathlib import Path

import firmd_disks
import firmd_kit
import snapshot_restores
from agent_kit import remove
from firmd_kit import ROSTER, Client, Daemon, Gone, Setup, Tenant, in_threads, roster_of, wait_for
from harness import program
from harness.checks import Check, Suite, require, run_script, run_suites
from harness.deployed import Limits, archive, kept_books, records, service_states, snapshots
from hostile import patch
from journal_kit import QUESTIONS, ROUNDS, ask_all, tool
from snapshot_kit import (
    LINES,
    MORE,
    PATIENT,
    books_of,
    children,
    failures,
    goes_on,
    has_snapshots,
    holds,
    last_lines,
    named,
    processes,
    replayed,
    settles,
    shown,
    text_of,
    with_snapshots,
)

CHECKS_AT_A_TIME = 4
MOMENT_SECONDS = 30.0  # the longest wait before a kill
LIMIT = 8_000  # bytes that firm may read before a fresh one takes over


@dataclass(frozen=True)
class Options(Setup):
    state: str
    kills: int


# States, by firm_state.


def folds(setup: Options) -> None:
    """States are folded, joined and cut as firm continues from them; faults have the words of firm_state."""
    with setup.daemon() as daemon:
        roster, first, rest = daemon.folder / "roster.csv", [*ROUNDS, *MORE], [*QUESTIONS, *MORE]
        opening = service_states.Opening(roster)
        text = service_states.fold(opening, [text_of(first)])
        whole = setup.alone(ROSTER, text_of([*first, *rest]))
        with service_states.state_file(text) as state:
            done = program.run_words([setup.program, *state.words()], text_of(rest))
            require(done.output.splitlines() == whole[len(first) :], done)
            require(service_states.fold(state) == text, "it is written as it is read")
            pieces = [text_of(rest)[place : place + 7] for place in range(0, len(text_of(rest)), 7)]
            require(
                service_states.fold(state, pieces) == service_states.fold(opening, [text_of([*first, *rest])]), "law"
            )
            parts = [
                service_states.fold(state, part=service_states.StatePart(tenants=[name])) for name in ("beta", "alpha")
            ]
            require([len(service_states.tenants_of(part)) for part in parts] == [1, 1], "cut")
            refused(service_states.StatePart(tenants=["gamma"]), state, ("tenant", 26, "no-such-tenant", None))
            refused(service_states.StatePart(merged=[state.path]), state, ("tenant", 25, "tenant-exists", None))
        with service_states.state_file(parts[1]) as alpha, service_states.state_file(parts[0]) as beta:
            joined = service_states.fold(alpha, part=service_states.StatePart(merged=[beta.path]))
            both = [service_states.tenants_of(parts[1]), service_states.tenants_of(parts[0])]
            require(service_states.tenants_of(joined) == both[0] + both[1] == service_states.tenants_of(text), joined)
        with service_states.state_file(text.replace(b" at ", b" on ", 1)) as state:
            line = 1 + text[: text.index(b" at ")].count(b"\n")
            refused(service_states.WHOLE, state, ("state", 4, "number", line))
        rows = service_states.tenants_of(text)
        require([tenant.limits for tenant in rows][1] == Limits("beta", 30, 300, 10**9, 0, 3), rows)
        require(kept_books.difference(books_of(setup, first), text) is None, "the books have the same rows")
        other = kept_books.difference(books_of(setup, first[:-7]), text)
        require(other is not None, "other books have others")


def hangs(setup: Options) -> None:
    """A firm_state that reads nothing, is silent, doesn't end or writes without end is killed and reported."""
    del setup
    with tempfile.TemporaryDirectory(prefix="firm-") as name:
        for script, seconds, said in HANGING:
            named = {**os.environ, "FIRM_STATE_PROGRAM": firmd_kit.stand_in(Path(name), f"#!/bin/sh\n{script}\n")}
            words = [sys.executable, "-c", HUNG, name, str(seconds)]
            done = subprocess.run(words, capture_output=True, text=True, env=named, timeout=PATIENT)
            require((done.returncode, done.stdout.strip()) == (0, said), f"{script}: {done}")


def files_of_killed(setup: Options) -> None:
    """No file that a killed process leaves has a state's text."""
    del setup
    with tempfile.TemporaryDirectory(prefix="firm-") as name:
        words = [sys.executable, "-c", KILLED]
        done = subprocess.run(words, capture_output=True, text=True, env={**os.environ, "TMPDIR": name})
        require((done.returncode, done.stdout) == (-9, "firm state 1\nplace admissions 1\nrows 1\n\n"), done)
        require(not os.listdir(name), os.listdir(name))


KILLED = """\
import os, subprocess, sys
from firm.server import firm_state as states
with states.state_file(b"firm state 1\\nplace admissions 1\\nrows 1\\n") as opening:
    print(subprocess.run(["cat", opening.path], capture_output=True, text=True).stdout, flush=True)
    os.kill(os.getpid(), 9)
"""
SILENCE = "-9 no input or output for 1 s: killing it"
# For each case: a program in the place of firm_state, its allowed seconds of silence, and the expected words. A program
# that writes or ends has a minute, as it may begin late on a busy host.
HANGING = [
    ("exec sleep 600", 1, SILENCE),
    ("cat > /dev/null; exec sleep 600", 1, SILENCE),
    ("cat > /dev/null; exec >&- 2>&-; exec sleep 600", 1, SILENCE),
    ("exec <&-; exec sleep 600", 1, SILENCE),
    ("exec yes", 60, "-9 its output exceeds the size of a state: killing it"),
    ("echo firm_state: no >&2; exit 7", 60, "7 firm_state: no"),
]
HUNG = """\
import sys
from pathlib import Path
from firm.server import firm_state as states
states.SILENT_SECONDS = float(sys.argv[2])
try:
    states.fold(states.Opening(Path(sys.argv[1])), [b"alpha round\\n"] * 100_000)
except states.FirmStateError as error:
    print(error.status, error)
"""


def refused(
    part: service_states.StatePart, opening: service_states.Opening, fault: tuple[str, int, str, int | None]
) -> None:
    try:
        service_states.fold(opening, part=part)
    except service_states.StateRefused as error:
        got = (error.of, error.number, error.name, error.line)
        require(got == fault and str(error).startswith("firm_state: "), f"{got}: {error}")
    else:
        require(False, f"{fault}: it is not refused")


# Starts.


def starts(setup: Options) -> None:
    """A start continues from the last snapshot and its tail, after a kill and a stop, and shows all as before."""
    with with_snapshots(setup) as (daemon, said):
        for is_killed in (True, False):
            before, lines = shown(daemon, len(said)), last_lines(daemon)
            daemon.kill() if is_killed else daemon.stop()
            daemon.start()
            require(0 < replayed(daemon) <= len(said) - 40 and lines >= 40, f"{replayed(daemon)} of {len(said)} lines")
            found = shown(daemon, len(said))
            require(found == before, f"{found}, and was {before}")
            goes_on(setup, daemon, said)
        settles(daemon, said)
        daemon.stop()
        folder = daemon.state / "snapshots"
        held = snapshots.read(folder, named(daemon)[0])
        wanted = books_of(setup, said[: held.base.lines])
        books = kept_books.read_books(held.state, held.books, held.base.lines)
        require(kept_books.books_text(books) == kept_books.books_text(wanted), "what firmd knows beside firm")
        require([lines.number for lines in books.tenants.values()] != [], "tenants")
        require(tool("snapshots", daemon.state).count(" lines, ") == 2, tool("snapshots", daemon.state))
        shutil.rmtree(folder)
        daemon.start()
        require(replayed(daemon) == len(said), "all lines are replayed without snapshots")
        shown(daemon, len(said))  # all lines are counted
        goes_on(setup, daemon, said)
        daemon.stop()


def refused_memory(setup: Options) -> None:
    """A line that was refused for want of memory takes no effect in a snapshot, nor after one."""
    with setup.daemon("--snapshot-lines", "30") as daemon:
        daemon.start()
        ask_all(daemon, [*ROUNDS, *[b"alpha show"] * 20])
        daemon.kill()  # before the digest of the replies is stored
        mark_refused(daemon, 3)  # `alpha task j a`
        daemon.start()
        require(ask_all(daemon, [b"alpha where a"])[0].endswith(b" no 10 no-such-task"), "before a snapshot")
        ask_all(daemon, [b"alpha show"] * 30)
        has_snapshots(daemon, 1)
        daemon.kill()
        daemon.start()
        require(ask_all(daemon, [b"alpha where a"])[0].endswith(b" no 10 no-such-task"), "in a snapshot")
        ask_all(daemon, [b"alpha task j tail"])
        lines = daemon.journal().count(b"\n")
        daemon.kill()
        require(last_lines(daemon) < lines, "the line is in the snapshot")
        mark_refused(daemon, lines)
        daemon.start()
        require(ask_all(daemon, [b"alpha where tail"])[0].endswith(b" no 10 no-such-task"), "behind a snapshot")
        daemon.stop()


MARKED = """\
import sys
from pathlib import Path
from firm.server.journal import Journal, SegmentLimit
from firm.server.journal_reader import first_base
from firm.server.state import ServiceState
state = ServiceState(Path({state!r}))
state.read_opening()
journal = Journal(state, SegmentLimit(10**7), first_base(state.folder))
journal.keep_refused([{number}])
journal.close()
"""


def mark_refused(daemon: Daemon, number: int) -> None:
    """Mark a line in the journal as refused for want of memory."""
    script = MARKED.format(state=str(daemon.state), number=number)
    done = subprocess.run([sys.executable, "-c", script], capture_output=True, text=True)
    require(done.returncode == 0, done.stderr)


# Damage.


def damage(path: Path, draw: random.Random) -> str:
    """Change a file at random; return the change in words."""
    text = path.read_bytes()
    place = draw.randrange(len(text))
    kind = draw.choice(["flip", "flip", "cut", "empty", "remove", "repeat"])
    if kind == "remove":
        path.unlink()
    else:
        flipped = text[:place] + bytes([text[place] ^ 1 << draw.randrange(8)]) + text[place + 1 :]
        changed = {"flip": flipped, "cut": text[:place], "empty": b"", "repeat": text + text[place:]}
        path.write_bytes(changed[kind])
    return f"{kind} of {path.name} at {place}"


def damages(setup: Options) -> None:
    """A damaged snapshot is reported and not used; the one before it and a longer tail are, or the whole journal."""
    draw = random.Random(setup.seed)
    with with_snapshots(setup) as (daemon, said):
        daemon.kill()
        kept = daemon.folder / "kept"
        shutil.copytree(daemon.state, kept, ignore=shutil.ignore_patterns("view"))
        first, second = [snapshots.paths_of(daemon.state / "snapshots", segment) for segment in named(daemon)[:2]]
        for trial in range(2 if setup.is_quick else 100):
            paths = [draw.choice(first)] + ([draw.choice(second)] if trial % 2 else [])
            what = [damage(path, draw) for path in paths]
            daemon.start()
            told = daemon.said().count(b"a snapshot is not used")
            wanted = sum(not word.startswith("remove") or word.split(".")[1].startswith("state") for word in what)
            require(told == wanted, f"{what}: {daemon.said().decode()}")
            goes_on(setup, daemon, list(said))
            require(trial % 2 == 0 or replayed(daemon) == len(said), f"{what}: {replayed(daemon)} lines")
            daemon.kill()
            remove(daemon.state)  # a snapshot may just have been made in it
            shutil.copytree(kept, daemon.state)
        for segment, other in zip(first, second):
            segment.write_bytes(other.read_bytes())  # that of another segment
        daemon.start()
        require(b"of another segment" in daemon.said(), daemon.said())
        goes_on(setup, daemon, list(said))
        daemon.kill()


# Stored lines and snapshots.


def whole_journal(daemon: Daemon, archive: Path) -> bytes:
    """Return the lines of the archive and the journal: a killed daemon may leave a segment in both."""
    segments = {path.name: path for path in archive.glob("*.lines")}
    for path in daemon.segments():
        archived = segments.setdefault(path.name, path)
        require(archived.read_bytes() == path.read_bytes(), f"{path.name} is another segment in the archive")
    return b"".join(firmd_kit.lines_of(segments[name]) for name in sorted(segments))


def keeps(setup: Options) -> None:
    """Old segments are archived or deleted; a start then needs one of the snapshots, and no other line is missing."""
    for is_archived in (True, False):
        with setup.daemon("--snapshot-lines", "20", "--keep", "0") as daemon:
            archive = daemon.folder / "archive"
            if is_archived:
                daemon.options += ["--archive", str(archive)]
            said: list[bytes] = []
            daemon.start()
            for lines in (ROUNDS, MORE, MORE, MORE):
                goes_on(setup, daemon, said, [*lines, *[b"alpha show"] * 20])
                holds(daemon, len(said) // 20 * 20 - 20)
            wait_for(lambda: int(daemon.segments()[0].stem) > 1, "segments are away", PATIENT)
            daemon.kill()
            daemon.start()
            goes_on(setup, daemon, said)
            settles(daemon, said)
            needed = named(daemon)[-1] + 1
            wait_for(lambda: int(daemon.segments()[0].stem) == needed, f"all before {needed} are away", PATIENT)
            whole = whole_journal(daemon, archive)
            require(whole == text_of(said) if is_archived else text_of(said).endswith(whole), "the lines")
            require(tool("print", daemon.state).encode() == daemon.journal(), "it prints what is there")
            daemon.stop()
            for segment in named(daemon):
                for path in snapshots.paths_of(daemon.state / "snapshots", segment):
                    path.write_bytes(b"")
            daemon.refuses(5, "segments are missing", "a snapshot is not used")
    with setup.daemon("--keep", "0") as daemon:
        daemon.options += ["--archive", str(daemon.folder / "link" / "journal")]
        (daemon.folder / "link").symlink_to(daemon.state)
        daemon.refuses(2, "--archive names the journal itself")


def clocks_jump(setup: Options) -> None:
    """A clock that is set ahead removes no segment, and its times keep none for long; nor does a clock that is set
    back."""
    del setup
    now, day = time.time(), 86_400.0
    for times, taken in [
        ([-9, -8, -7, -0.5, -0.1], 2),  # days from now, when each segment was begun
        ([-400, -399.9, -399.8, -399.7, -399.6], 0),  # it is set ahead
        ([-9, 400, -8, -7, -0.1], 3),  # it was ahead
        ([-9, -8, -7, -0.1, 400], 2),
        ([-0.3, -0.2, -9, -9, -8.9], 0),  # it is set back
    ]:
        with tempfile.TemporaryDirectory(prefix="firm-") as name:
            journal = Path(name)
            for number, days in enumerate(times, 1):
                header = records.Header("state", number, 0, 0, 0, 0, int((now + days * day) * 1_000))
                (journal / f"{number:08}.lines").write_bytes(header.text())
            count = archive.clear(journal, archive.Keeping(days=1.0), len(times) - 1)
            require(count == taken == len(times) - len(list(journal.glob("*.lines"))), f"{times}: {count} are taken")
    clock_is_ahead()


def clock_is_ahead() -> None:
    """While a clock is ahead for some seconds, no segment is removed that is seconds old; a lasting change counts."""
    day, ahead, steady = 86_400.0, [0.0], [0.0]
    clock = archive.Clock(lambda: 1e9 + steady[0] + ahead[0], lambda: steady[0])
    keeping = archive.Keeping(days=1.0, clock=clock)
    with tempfile.TemporaryDirectory(prefix="firm-") as name:
        journal, ten_years = Path(name), 3_650 * day
        for number, begun in enumerate((-2.0 * day, -1.0, ten_years, ten_years), 1):
            header = records.Header("state", number, 0, 0, 0, 0, int((1e9 + begun) * 1_000))
            (journal / f"{number:08}.lines").write_bytes(header.text())
        for at, is_ahead, taken in (
            (1.0, True, 0),
            (6.0, True, 0),
            (7.0, False, 0),
            (8.0, True, 0),
            (4_000.0, True, 1),
        ):
            steady[0], ahead[0] = at, ten_years if is_ahead else 0.0
            count = archive.clear(journal, keeping, 3)
            require(count == taken, f"{count} are taken after {at:g} s, with a clock {ahead[0] / day:g} days ahead")


def archive_away(setup: Options) -> None:
    """An archive that can't be written delays no snapshot; once it can, segments go there without a further
    snapshot."""
    with setup.daemon("--snapshot-lines", "20", "--keep", "0") as daemon:
        away = daemon.folder / "archive"
        away.write_bytes(b"")
        daemon.options += ["--archive", str(away)]
        said: list[bytes] = []
        daemon.start()
        for lines in (ROUNDS, MORE, MORE, MORE):
            goes_on(setup, daemon, said, [*lines, *[b"alpha show"] * 20])
            holds(daemon, (len(said) - 1) // LINES * LINES)
        wait_for(lambda: failures(daemon) >= 2, f"failures: {daemon.said().decode()}", PATIENT)
        made = named(daemon)[:2]  # the others go when the archive is tried again
        require(int(daemon.segments()[0].stem) == 1, "a segment is away")
        away.unlink()
        wait_for(lambda: b" segments of the journal are in " in daemon.said(), "all are away that may be", PATIENT)
        require(int(daemon.segments()[0].stem) > 1, "segments are away")
        require(named(daemon) == made, f"{named(daemon)}, and it had {made}")
        whole = b"".join(map(firmd_kit.lines_of, sorted(away.glob("*.lines")))) + daemon.journal()
        require(whole == text_of(said), "the lines")
        daemon.stop()


def leaves_nothing(setup: Options) -> None:
    """The next snapshot removes the parts that a crash left, and no other file; a failed snapshot leaves none."""
    with setup.daemon("--snapshot-lines", "20") as daemon:
        folder = daemon.state / "snapshots"
        folder.mkdir(parents=True)
        for name in LEFT:
            (folder / name).write_bytes(b"left")
        (folder / "notes").write_bytes(b"an operator's")
        said: list[bytes] = []
        daemon.start()
        for count in (1, 2, 3):
            goes_on(setup, daemon, said, [*(ROUNDS if count == 1 else MORE), *[b"alpha show"] * 20])
            holds(daemon, (len(said) - 1) // LINES * LINES)
        wanted = [path.name for segment in named(daemon)[:2] for path in snapshots.paths_of(folder, segment)]
        wait_for(
            lambda: sorted(path.name for path in folder.iterdir()) == sorted([*wanted, "notes"]),
            f"{wanted} alone: {sorted(folder.iterdir())}",
            PATIENT,
        )
        require(
            not [path for path in folder.iterdir() if path.stat().st_mode & 0o077 and path.name != "notes"], "modes"
        )
        daemon.stop()
        held = snapshots.read(folder, named(daemon)[0])
        for script, told in [(TOO_LITTLE, "bytes free"), (TOO_LARGE, "File too large")]:
            words = [sys.executable, "-c", script, str(folder), str(held.base.segment)]
            done = subprocess.run(words, capture_output=True, text=True)
            require(told in done.stdout, done)
            require(not any(folder.glob("*.new")), f"{sorted(folder.iterdir())}")


LEFT = ["00000000.state", "99999999.state.new", "00000000.snapshot.new", "99999999.state"]
WRITTEN = """\
import os, resource, sys
from pathlib import Path
from firm.server import snapshots
folder = Path(sys.argv[1])
snapshot = snapshots.read(folder, int(sys.argv[2]))
{}
try:
    snapshots.write(folder, snapshot)
except OSError as error:
    print(error)
"""
TOO_LARGE = WRITTEN.format("resource.setrlimit(resource.RLIMIT_FSIZE, (100, 100))")
TOO_LITTLE = WRITTEN.format(
    """\
found = os.statvfs(folder)
os.statvfs = lambda path: os.statvfs_result((*found[:4], 1, *found[5:10]))
"""
)


def fails(setup: Options) -> None:
    """A failed snapshot is reported and counted; the service goes on, and makes one once it can."""
    with setup.daemon("--snapshot-lines", "20") as daemon:
        blocked = daemon.state / "snapshots"
        daemon.state.mkdir()
        blocked.write_bytes(b"")
        said: list[bytes] = []
        daemon.start()
        goes_on(setup, daemon, said, [*ROUNDS, *[b"alpha show"] * 30])
        wait_for(lambda: b"no snapshot was made" in daemon.said(), daemon.said().decode(), PATIENT)
        goes_on(setup, daemon, said)
        blocked.unlink()
        has_snapshots(daemon, 1)
        goes_on(setup, daemon, said)
        daemon.stop()
    with setup.daemon("--snapshot-lines", "20") as daemon:
        daemon.words = ["env", f"FIRM_STATE_PROGRAM={daemon.folder / 'none'}", *firmd_kit.FIRMD]
        said = []
        daemon.start()
        goes_on(setup, daemon, said, [*ROUNDS, *[b"alpha show"] * 30])
        wait_for(lambda: b"states come from firm_state" in daemon.said(), daemon.said().decode(), PATIENT)
        goes_on(setup, daemon, said)
        daemon.stop()


def seals_once(setup: Options) -> None:
    """However often snapshots fail, they leave no more segments than one that succeeds."""
    with setup.daemon("--snapshot-minutes", "0.0001") as daemon:
        daemon.words = ["env", f"FIRM_STATE_PROGRAM={daemon.folder / 'none'}", *firmd_kit.FIRMD]
        said: list[bytes] = []
        daemon.start()
        goes_on(setup, daemon, said, ROUNDS)
        for count in (1, 2, 3):
            wait_for(lambda: failures(daemon) >= count, f"{count} failures: {daemon.said().decode()}", PATIENT)
            goes_on(setup, daemon, said)
        require(len(daemon.segments()) == 2, f"{len(daemon.segments())} segments")
        daemon.stop()


LARGE = firmd_kit.HEADING + b"alpha,4096,65536,1000000000,1,500\n"
HASTY = "from firm.server import snapshotting\nsnapshotting.WORK_SECONDS = 0.02\n"


def costly_lines(setup: Options) -> None:
    """A few lines of long work for firm, such as rounds of many tasks, get a snapshot: so a start does not repeat
    the work."""
    with setup.daemon(roster=LARGE) as daemon:
        patch(daemon, HASTY)
        daemon.start()
        lines = [b"alpha machine m%d 4" % number for number in range(100)] + [b"alpha job j 10"]
        lines += [line for number in range(600) for line in (b"alpha task j t%d" % number, b"alpha round")]
        with daemon.client() as client:
            client.send(b"".join(line + b"\n" for line in lines))
            require(all(client.reply().startswith(b"alpha ") for _ in lines), "replies")
        wait_for(lambda: len(named(daemon)) > 0, f"a snapshot: {daemon.said().decode()}", PATIENT)
        daemon.stop()


def full_disk(setup: Options) -> None:
    """On a full disk no segment is begun for a snapshot, and no snapshot takes the room reserved for lines: firmd
    goes on."""
    with setup.daemon("--snapshot-minutes", "0.0001") as daemon:
        daemon.state.mkdir()
        firmd_disks.mount(daemon.state, "-t", "tmpfs", "-o", "size=4m,mode=755", "tmpfs")
        try:
            filling = daemon.state / "filling"
            filling.write_bytes(bytes(4 * 2**20 - 2**16))  # the rest has room for lines, and not for a segment
            said: list[bytes] = []
            daemon.start()
            goes_on(setup, daemon, said, ROUNDS)
            wait_for(lambda: failures(daemon) >= 2, f"failures: {daemon.said().decode()}", PATIENT)
            require(b"no segment is begun for a snapshot" in daemon.said(), daemon.said().decode())
            os.truncate(filling, 3 * 2**20)  # room for a segment, and not for a snapshot
            wait_for(lambda: b"no snapshot was made" in daemon.said(), daemon.said().decode(), PATIENT)
            require(len(daemon.segments()) == 2 and not named(daemon), f"{daemon.segments()}")
            goes_on(setup, daemon, said)
            filling.unlink()
            has_snapshots(daemon, 1)
            goes_on(setup, daemon, said)
            daemon.stop()
        finally:
            subprocess.run(["umount", "-l", str(daemon.state)], check=True)


def gives_way(setup: Options) -> None:
    """The process that makes a snapshot has a lower priority than firmd and firm, in their session: across sessions,
    priorities of processes have no effect."""
    with setup.daemon("--snapshot-lines", "20") as daemon:
        daemon.start()
        session, found = os.getsid(daemon.running().pid), set[tuple[bool, int]]()
        ends = time.monotonic() + PATIENT
        with daemon.client() as client:
            while not any(nice > 0 for _, nice in found):
                require(time.monotonic() < ends, f"a process that makes a snapshot, of low priority: {found}")
                client.ask(b"alpha show")
                for pid in processes(daemon):
                    with suppress(OSError):  # it has ended meanwhile
                        if b"firm-snapshot" in Path(f"/proc/{pid}/cmdline").read_bytes():
                            found.add((os.getsid(pid) == session, os.getpriority(os.PRIO_PROCESS, pid)))
        require(all(is_same for is_same, _ in found), found)
        require(os.getsid(daemon.firm_process()) == session, "firm is of another session")
        daemon.stop()


# A fresh firm.


def changes_over(setup: Options) -> None:
    """firmd accepts far more than firm may read: fresh firms take over, and each reply is that of one that reads
    all."""
    with setup.daemon("--snapshot-lines", "100", "--journal-limit", str(LIMIT)) as daemon:
        said: list[bytes] = []
        daemon.start()
        goes_on(setup, daemon, said, ROUNDS)

        def fresh_firms() -> int:
            return daemon.said().count(b"restarted firm from the snapshot")

        with daemon.client() as client:
            ends, number, replies = time.monotonic() + 2 * PATIENT, 0, list[bytes]()
            fresh = 1 if setup.is_quick else 4
            while fresh_firms() < fresh or number % 50 or len(text_of(said)) <= LIMIT:
                require(time.monotonic() < ends, f"{fresh_firms()} fresh firms")
                line = (b"alpha round", b"alpha where a", b"beta where l", b"alpha task j x%d" % number)[number % 4]
                reply = client.ask(line)
                if not reply.startswith(b"? journal-full"):  # so slow is the host
                    said.append(line)
                    replies.append(reply)
                    number += 1
            require(replies == setup.alone(ROSTER, text_of(said))[-len(replies) :], "other replies")
        daemon.kill()
        daemon.start()
        goes_on(setup, daemon, said)
        daemon.stop()


def firms_hang(setup: Options) -> None:
    """A fresh firm that hangs is killed, and the running one goes on; so is a former one that doesn't end."""
    limits = ["--snapshot-lines", "100", "--journal-limit", str(LIMIT), "--firm-timeout", "5"]
    with setup.daemon(*limits) as daemon:
        hanging, daemon.firm = daemon.folder / "hanging", firmd_kit.stand_in(
            daemon.folder, HUNG_FIRM.format(setup.program)
        )
        hanging.write_bytes(b"")
        said: list[bytes] = []
        daemon.start()
        goes_on(setup, daemon, said, ROUNDS)
        first = daemon.firm_process()
        with daemon.client() as client:
            until_said(daemon, client, said, b"cannot restart firm from the snapshot")
            require(b"firm has not answered for 5 s" in daemon.said(), daemon.said().decode())
            hanging.unlink()
            until_said(daemon, client, said, b"restarted firm from the snapshot")
        wait_for(lambda: not Path(f"/proc/{first}").exists(), "the former firm is killed", PATIENT)
        goes_on(setup, daemon, said)
        daemon.stop()


# In the place of firm. The one that begins with the roster doesn't end with its input; one that begins with a snapshot
# for firmd itself hangs while a file exists.
HUNG_FIRM = """\
#!/bin/sh
case "$*" in
*roster.csv*) {0} "$@"; exec sleep 600 ;;
*snapshots*) grep -q firm-snapshot /proc/$PPID/cmdline || [ ! -e "${{0%/*}}/hanging" ] || exec sleep 600 ;;
esac
exec {0} "$@"
"""


def until_said(daemon: Daemon, client: Client, said: list[bytes], words: bytes) -> None:
    """Send it lines until it writes this message."""
    ends = time.monotonic() + PATIENT
    while words not in daemon.said():
        require(time.monotonic() < ends, f"{words!r}: {daemon.said().decode()}")
        if not client.ask(b"alpha round").startswith(b"? journal-full"):
            said.append(b"alpha round")


def kills(setup: Options, part: int) -> None:
    """kill -9 or a stop at any moment of a snapshot, a change to a fresh firm and a segment's move: no answered line is
    lost.

    The long form goes on until each of these moments has occurred during a kill.
    """
    seed = setup.seed + 1000 * (part + 1)
    draw = random.Random(seed)
    tenants = [Tenant(f"t{place}", seed + place) for place in range(3)]
    limits = ["--segment-bytes", "20000", "--snapshot-lines", "60", "--journal-limit", "40000", "--keep", "0"]
    with setup.daemon(*limits, "--after", "1", roster=roster_of(tenants)) as daemon:
        archive = daemon.folder / "archive"
        daemon.options += ["--archive", str(archive)]
        met: Counter[str] = Counter()
        count = 0
        while count < setup.kills or not setup.is_quick and len(met) < len(MOMENTS) and count < 4 * setup.kills:
            left = list(MOMENTS) if count < setup.kills else [name for name in MOMENTS if name not in met]
            name = left[count % len(left)]
            met += Counter({name: kill_amid(daemon, tenants, draw, MOMENTS[name])})
            count += 1
        daemon.start()
        with daemon.client() as client:
            for tenant in tenants:
                for command in ("show", "costs"):
                    line = f"{tenant.name} {command}".encode()
                    tenant.tell(firmd_kit.Answered(line, client.ask(line)))
        daemon.stop()
        firmd_kit.check_kept(setup, whole_journal(daemon, archive), tenants)
        print(f"{count} kills, of which it met {dict(met)}", flush=True)
        require(setup.is_quick or set(met) == set(MOMENTS), f"never met: {set(MOMENTS) - set(met)}")


def kill_amid(daemon: Daemon, tenants: list[Tenant], draw: random.Random, moment: Moment) -> bool:
    """Start it with clients, and kill it at a moment, or now and then stop it; return whether the moment came."""
    if draw.random() < 0.2:  # at any moment of its start
        daemon.spawn()
        time.sleep(draw.uniform(0.05, 0.5))
        daemon.kill()
    daemon.start()
    works = [partial(talk, tenant, daemon.client(), random.Random(draw.random())) for tenant in tenants for _ in "ab"]
    with ThreadPoolExecutor(1) as pool:
        end = partial(daemon.stop) if draw.random() < 0.2 else partial(daemon.kill)
        ended = pool.submit(end_at, daemon, moment, draw.uniform(0.0, moment.most_seconds), end)
        raised = in_threads(works)
    require(all(isinstance(error, Gone) for error in raised), raised)
    require(b"Traceback" not in daemon.said(), daemon.said().decode())
    return ended.result()


@dataclass(frozen=True)
class Moment:
    """The moment of a daemon's kill."""

    has_come: Callable[[Daemon], bool]
    most_seconds: float = 0.03  # after that


# The quick form uses the first of them.
MOMENTS = {
    "a snapshot is made": Moment(lambda daemon: any(b"firm-snapshot" in words for words in children(daemon)), 0.3),
    "a fresh firm is given lines": Moment(
        lambda daemon: sum(words.startswith(daemon.firm.encode()) for words in children(daemon)) > 1
    ),
    "a fresh firm goes on": Moment(lambda daemon: b"restarted firm from the snapshot" in daemon.said()),
    "a snapshot is written": Moment(lambda daemon: any((daemon.state / "snapshots").glob("*.new"))),
    "a further snapshot is there": Moment(lambda daemon: len(named(daemon)) > 2),
    "segments are archived": Moment(lambda daemon: b"segments of the journal are in" in daemon.said()),
    "any moment": Moment(lambda daemon: True, 0.3),
}


def end_at(daemon: Daemon, moment: Moment, seconds: float, end: Callable[[], None]) -> bool:
    """End it this long after a moment, which it has some time to reach; return whether the moment came."""
    ends = time.monotonic() + MOMENT_SECONDS
    try:
        while not (has_come := moment.has_come(daemon)) and time.monotonic() < ends:
            time.sleep(0.001)
        time.sleep(seconds)
    finally:  # the clients go on until then
        end()
    return has_come


def talk(tenant: Tenant, client: Client, draw: random.Random) -> None:
    """Send lines until the connection ends; repeat the lines that firm can't read yet."""
    with client:
        while True:
            for line in tenant.lines(draw.choice([1, 2, 5])):
                if line.split() and not line.startswith(b"#") and len(line) <= 256:
                    reply = client.ask(line)
                    if not reply.startswith(b"?"):
                        tenant.tell(firmd_kit.Answered(line, reply))


# Services that begin with a state.


SHORT = [
    folds,
    hangs,
    files_of_killed,
    starts,
    refused_memory,
    damages,
    keeps,
    archive_away,
    clocks_jump,
    leaves_nothing,
    fails,
    seals_once,
    costly_lines,
    full_disk,
    gives_way,
    changes_over,
    firms_hang,
    snapshot_restores.restores,
    snapshot_restores.patience,
]


def checks(setup: Options) -> dict[str, Check]:
    found: dict[str, Check] = {check.__name__.replace("_", " "): partial(check, setup) for check in SHORT}
    for part in range(1 if setup.is_quick else CHECKS_AT_A_TIME):
        found[f"kills, part {part}"] = partial(kills, setup, part)
    return found


def main() -> int:
    parser = argparse.ArgumentParser(description=(__doc__ or "").splitlines()[0])
    parser.add_argument("--quick", action="store_true", help="the part that tests/quick runs")
    program.add_program(parser)
    state = str(program.built("firm_state"))
    parser.add_argument("--state", type=program.program_file, default=state, metavar="FILE")
    parser.add_argument("--only", default="", help="run only the checks whose names have these words")
    parser.add_argument("--kills", type=int, help="kills in each part (default: 3 with --quick, else 60)")
    parser.add_argument(
        "--seed", type=int, default=random.randrange(10**6), help="seed of all random choices (default: any)"
    )
    options = parser.parse_args()
    print(f"seed {options.seed}", flush=True)
    os.environ["FIRM_STATE_PROGRAM"] = options.state  # for firmd too
    count = options.kills or (3 if options.quick else 60)
    setup = Options(options.program, options.quick, options.seed, options.state, count)
    chosen = {name: check for name, check in checks(setup).items() if options.only in name}
    return run_suites(Suite(chosen, CHECKS_AT_A_TIME))


if __name__ == "__main__":
    run_script(main)
