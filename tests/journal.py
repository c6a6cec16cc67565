"""Damage the state of firmd, and check that the next start reports each damage.

usage: tools/run tests/journal.py [--quick] [--only WORDS] [--program FILE] [--trials N] [--seed N]
Each check prints a line; the last line is 'N passed, M failed', and the exit status is 1 if one failed. It needs Python
3 and the built program. --quick makes fewer trials of damage at random places.
"""

from __future__ import annotations

import argparse
import json
import os
import random
import re
import shutil
import subprocess
import sys
import time
import zlib
from collections.abc import Callable
from dataclasses import dataclass
from functools import partial
from pathlib import Path

import firmd_kit
import journal_tool
from firmd_kit import ROSTER, ROWS, Daemon, Setup
from harness import program, service
from harness.checks import Check, Missed, Suite, require, run_script, run_suites
from harness.waiting import pause_since
from journal_kit import QUESTIONS, ROUNDS, answered, ask_all, serves, tool

CHECKS_AT_A_TIME = 4


# The records.


@dataclass(frozen=True)
class Lines:
    """A record of lines."""

    number: int
    time: float
    sender: str
    text: bytes


def records_of(data: bytes) -> list[Lines]:
    """Return the records of lines in a segment, after a comparison of each checksum, by the forms of records.py
    alone."""
    found, place = list[Lines](), 0
    while place < len(data):
        heading = data[place : data.index(b"\n", place) + 1]
        begins = re.fullmatch(rb"#(firm-journal 2|lines|replies|refused) ([0-9a-f]{8}) (.*\n)", heading, re.S)
        if begins is None:
            raise Missed(f"no heading at {place}: {heading!r}")
        kind, checksum, rest = begins.groups()
        end = place + len(heading)
        if kind == b"lines":
            length, number, _, clock, sender = rest.split()
            end += int(length)
            found.append(Lines(int(number), int(clock) / 1_000, sender.decode(), data[place + len(heading) : end]))
        wanted = zlib.crc32(kind + rest + data[place + len(heading) : end])
        require(int(checksum, 16) == wanted, f"the checksum at {place}: {heading!r}")
        place = end
    return found


def senders(setup: Setup) -> None:
    """Each record has its checksum, its time, and its sender: a socket and its user, or firmd for its own rounds."""
    with setup.daemon("--after", "1") as daemon:
        daemon.options += ["--client", f"alpha={daemon.folder / 'alpha'}"]
        begun = time.time()
        daemon.start()
        with firmd_kit.Client(daemon.folder / "alpha") as alpha, firmd_kit.Client(daemon.operator) as operator:
            require(all(alpha.ask(line).endswith(b" ok") for line in ROWS[:3]), "alpha's rows")
            require(operator.ask(b"+ retire beta") == b"+ ok retired beta", "the operator")
            firmd_kit.wait_for(lambda: alpha.ask(b"alpha where a").endswith(b"at m1"), "a round")
        with daemon.client() as client:
            client.ask(b"alpha show")
        ended = time.time()
        daemon.stop()
        records = [record for path in daemon.segments() for record in records_of(path.read_bytes())]
        require([record.number for record in records] == list(range(1, len(records) + 1)), "the numbers")
        require(all(begun - 0.01 <= record.time <= ended for record in records), "the times")
        user = os.geteuid()
        told = {(record.sender, record.text.split()[0]) for record in records}
        wanted = {(f"alpha:{user}", b"alpha"), (f"+:{user}", b"+"), (f"*:{user}", b"alpha"), ("firmd", b"alpha")}
        require(told == wanted, told)
        printed = tool("print", daemon.state)
        require(printed.encode() == daemon.journal(), printed)
        printed = tool("print", "--senders", daemon.state)
        clock = r"20\d\d-\d\d-\d\dT\d\d:\d\d:\d\d\.\d{3}Z"
        require(re.search(rf"(?m)^1 {clock} alpha:{user} alpha machine m1 2$", printed), printed)
        as_it_is = b"".join(path.read_bytes() for path in daemon.segments())
        require(setup.alone(ROSTER, as_it_is) == setup.alone(ROSTER, daemon.journal()), "it is an input of firm")


def other_versions(setup: Setup) -> None:
    """A segment of another version is refused by name."""
    with setup.daemon("--segment-bytes", "4000") as daemon:
        said = answered(daemon, is_killed=True)
        first = daemon.segments()[0]
        kept = first.read_bytes()
        kind, (_, _, rest) = b"firm-journal 3", kept.partition(b"\n")[0].split(b" ", 3)[1:]
        first.write_bytes(b"#%b %08x %b\n" % (kind, zlib.crc32(kind + rest + b"\n"), rest))
        daemon.refuses(5, f"{first}: it is of version 3, of a later firmd", "`journal state`", "--restore")
        first.write_bytes(kept)
        serves(daemon, said, setup)
        daemon.stop()


REFUSING = """\
#!{python}
import sys
for number, line in enumerate(sys.stdin, 1):
    print("alpha", number, "no 14 memory" if "refused" in line else "ok", flush=True)
"""


def kept_refusals(setup: Setup) -> None:
    """A line that was refused for want of memory counts and changes nothing, in each replay and in a rewritten
    journal."""
    lines = [b"alpha machine m1 2", b"alpha machine refused 2", b"alpha job j 10", b"alpha task j a"]
    with setup.daemon() as daemon:
        plain, daemon.firm = daemon.firm, firmd_kit.stand_in(daemon.folder, REFUSING.format(python=sys.executable))
        daemon.start()
        require(ask_all(daemon, lines)[1] == b"alpha 2 no 14 memory", "memory is refused")
        daemon.kill()
        daemon.firm = plain
        for is_rewritten in (False, True):
            if is_rewritten:
                tool("rewrite", "--forget-replies", daemon.state)
            daemon.start()
            wanted = service.serve(ROSTER, b"".join(line + b"\n" for line in [*lines, *QUESTIONS]), (1,))
            require(ask_all(daemon, QUESTIONS) == wanted[len(lines) :], "the refusal stays")
            lines += QUESTIONS
            daemon.kill()


# Missing pieces.


def missing_pieces(setup: Setup) -> None:
    """firmd does not serve a state that lacks a piece: a segment, the extent, the id, all segments, the whole
    journal."""
    for is_killed in (True,) if setup.is_quick else (False, True):
        with setup.daemon("--segment-bytes", "4000") as daemon:
            said = answered(daemon, is_killed)
            journal, away = daemon.state / "journal", daemon.folder / "away"
            pieces = [daemon.segments()[-1], daemon.segments()[1], daemon.segments()[0], journal / "extent", journal]
            for piece in [*pieces, daemon.state / "id"]:
                piece.rename(away)
                daemon.refuses(5, str(piece) if piece.name in ("extent", "id") else str(journal))
                away.rename(piece)
            for path in daemon.segments():
                path.rename(daemon.folder / path.name)
            daemon.refuses(5, "segments are missing")
            for path in daemon.folder.glob("*.lines"):
                path.rename(journal / path.name)
            serves(daemon, said, setup)
            daemon.stop()


def damaged_ids(setup: Setup) -> None:
    """A changed id is reported, whatever its bytes are."""
    with setup.daemon() as daemon:
        daemon.start()
        ask_all(daemon, ROUNDS)
        daemon.stop()
        path = daemon.state / "id"
        kept = path.read_bytes()
        changed = [bytes([kept[0] ^ 1 << bit]) + kept[1:] for bit in ((0, 7) if setup.is_quick else range(8))]
        for text in [*changed, b"", b"\n", kept[:-2], kept[:-1] + b" 7\n", b"0123456789abcdef\n"]:
            path.write_bytes(text)
            daemon.refuses(5, str(path))
        path.write_bytes(kept)
        serves(daemon, ROUNDS, setup)
        daemon.stop()


def lost_beginnings(setup: Setup) -> None:
    """firmd does not begin anew from a state that lost several pieces, so that the rest looks like a beginning."""
    with setup.daemon() as daemon:
        daemon.start()
        ask_all(daemon, ROUNDS)
        daemon.stop()
        kept, journal, roster = daemon.folder / "kept", daemon.state / "journal", daemon.state / "roster.csv"
        shutil.copytree(daemon.state, kept)
        first, extent = daemon.segments()[0], journal / "extent"
        size = first.stat().st_size
        rows: list[tuple[list[Path], dict[Path, bytes], Path]] = [
            ([roster], {}, roster),
            ([roster, daemon.state / "id"], {}, roster),
            ([roster, journal], {}, roster),
            ([journal], {}, journal),
            ([first, extent], {}, journal),
            ([extent], {first: b""}, journal),
            ([extent], {first: bytes(size)}, journal),
            ([extent], {first: bytes(100)}, journal),
            ([], {journal / "00000001 (copy).lines": b"x"}, journal / "00000001 (copy).lines"),
            ([], {journal / "1.lines": b"x"}, journal / "1.lines"),
        ]
        for away, written, told in rows:
            for path in away:
                shutil.rmtree(path) if path.is_dir() else path.unlink()
            for path, text in written.items():
                path.write_bytes(text)
            for _ in range(1 if setup.is_quick else 2):  # nor after the report
                daemon.refuses(5, str(told))
            shutil.rmtree(daemon.state)
            shutil.copytree(kept, daemon.state)
        serves(daemon, ROUNDS, setup)
        daemon.stop()


def other_pieces(setup: Setup) -> None:
    """firmd does not serve a state with a piece of another state or of an older one."""
    with setup.daemon("--segment-bytes", "4000") as daemon, setup.daemon("--segment-bytes", "4000") as other:
        said = answered(daemon, True)
        shutil.copytree(daemon.state, daemon.folder / "copy", ignore=shutil.ignore_patterns("view", "lock"))
        more = [b"alpha show"] * 200
        daemon.start()
        ask_all(daemon, more)
        daemon.kill()
        answered(other, True)
        journal, copy = daemon.state / "journal", daemon.folder / "copy"
        pieces = [(path, copy / "journal" / path.name) for path in sorted((copy / "journal").iterdir())[-2:]]
        pieces += [(path, other.state / "journal" / path.name) for path in daemon.segments()[1:3]]
        pieces += [(journal / "extent", other.state / "journal" / "extent"), (daemon.state / "id", other.state / "id")]
        for _, foreign in pieces:
            name = foreign.relative_to(copy if copy in foreign.parents else other.state)
            own = (daemon.state / name).read_bytes()
            (daemon.state / name).write_bytes(foreign.read_bytes())
            daemon.refuses(5, str(journal) if name.parent.name else str(daemon.state / name))
            (daemon.state / name).write_bytes(own)
        first, second = daemon.segments()[:2]
        texts = [second.read_bytes(), first.read_bytes()]
        first.write_bytes(texts[0]), second.write_bytes(texts[1])
        daemon.refuses(5, "00000001.lines")
        first.write_bytes(texts[1]), second.write_bytes(texts[0])
        serves(daemon, said + more, setup)
        daemon.stop()


def changed_roster(setup: Setup) -> None:
    """A changed copy of the roster is reported if no roster is named to compare it with."""
    with setup.daemon() as daemon:
        daemon.start().stop()
        kept = daemon.state / "roster.csv"
        kept.write_bytes(ROSTER.replace(b"1000000000,1,2", b"1000000000,1,3"))
        with open(daemon.folder / "errors", "wb") as errors:
            words = [*firmd_kit.FIRMD, "--firm", daemon.firm, "--state", str(daemon.state), "--socket", str(daemon.any)]
            status = subprocess.run(words, stderr=errors, timeout=firmd_kit.START_SECONDS).returncode
        require(status == 5 and b"not the roster that the state began with" in daemon.said(), daemon.said())


# Crashes, which are no damage.


def begun_segments(setup: Setup) -> None:
    """A kill while a segment begins leaves nothing in the way, however much of its header is written."""
    with setup.daemon("--segment-bytes", "4000") as daemon:
        said = answered(daemon, True)
        following = daemon.state / "journal" / f"{len(daemon.segments()) + 1:08}.lines"
        header = daemon.segments()[-1].read_bytes().split(b"\n")[0] + b"\n"
        for text in (b"", header[:5], header[:40], header, b"\0" * 100, b"\0" * 20 + header[20:]):
            following.write_bytes(text)
            serves(daemon, said, setup)
            said += QUESTIONS
            daemon.kill()
            following = daemon.state / "journal" / f"{len(daemon.segments()) + 1:08}.lines"
    with setup.daemon() as daemon:  # the first one
        (daemon.state / "journal").mkdir(parents=True)
        (daemon.state / "roster.csv").write_bytes(ROSTER)
        for text in (b"", header[:40], header, b"\0" * 20 + header[20:]):
            (daemon.state / "journal" / "00000001.lines").write_bytes(text)
            serves(daemon, [], setup)
            daemon.kill()
            shutil.rmtree(daemon.state / "journal")
            (daemon.state / "journal").mkdir()
            (daemon.state / "id").unlink()


def power_cuts(setup: Setup) -> None:
    """An extent that is older than its segment loses nothing. After its offset a torn end is cut off, and a damage
    is reported."""
    with setup.daemon() as daemon:
        daemon.start()
        ask_all(daemon, ROUNDS)
        daemon.kill()
        extent, path = daemon.state / "journal" / "extent", daemon.segments()[-1]
        early = extent.read_bytes()
        said = [*ROUNDS, *[b"alpha show"] * 50]
        daemon.start()
        ask_all(daemon, said[len(ROUNDS) :])
        daemon.kill()
        late, whole = extent.read_bytes(), path.read_bytes()
        places = [found.start() + 1 for found in re.finditer(rb"\n#lines ", whole)]

        def cut(text: bytes, kept: bytes) -> None:
            extent.write_bytes(kept)
            path.write_bytes(text)

        cut(whole, early)
        serves(daemon, said, setup)
        daemon.kill()
        cut(whole[:-1], early)  # the last write is torn: it was not answered
        serves(daemon, said[:-1], setup)
        daemon.kill()
        cut(whole[:-3] + b"\0\0\0", early)
        serves(daemon, said[:-1], setup)
        daemon.kill()
        cut(whole[:-1], late)
        daemon.refuses(5, f"{path}: {len(whole) - 1} bytes, and {len(whole)} were answered")
        at = places[-10]
        line = whole.index(b"\n", at) + 3
        cut(whole[:line] + b"X" + whole[line + 1 :], early)  # it was answered, as others were written after it
        daemon.refuses(5, f"{path}, at byte {at} of {len(whole)}", "others follow")
        cut(whole[: places[-10]] + whole[places[-9] :], early)  # a whole record is missing
        daemon.refuses(5, f"{path}, at byte {at}")
        cut(whole, late)
        serves(daemon, said, setup)
        daemon.stop()


SHADOWED = """\
import json, os, sys
def keep(name, data):
    draft = os.path.join({shadow!r}, "draft")
    with open(draft, "wb") as file:
        file.write(data)
    os.replace(draft, os.path.join({shadow!r}, name))
def shadowed(real):
    def sync(file):
        real(file)
        path = os.readlink(f"/proc/self/fd/{{file}}")
        if not os.path.isdir(path):
            with open(f"/proc/self/fd/{{file}}", "rb") as copied:
                keep(str(os.fstat(file).st_ino), copied.read())
        elif path.endswith("/journal"):
            keep("names", json.dumps({{entry.name: entry.inode() for entry in os.scandir(path)}}).encode())
    return sync
os.fsync, os.fdatasync = shadowed(os.fsync), shadowed(os.fdatasync)
from firm.server.daemon import main
sys.exit(main())
"""


def cut_power(daemon: Daemon, shadow: Path, draw: random.Random) -> None:
    """Leave of the journal only synced parts: names by their folder's sync, contents by the file's.

    Later writes survive at random: perhaps the extent, and any part of the last segment's end.
    """
    journal = daemon.state / "journal"
    names: dict[str, int] = json.loads((shadow / "names").read_text())
    extent, last = (journal / "extent").read_bytes(), daemon.segments()[-1]
    unsynced = last.read_bytes()
    for path in journal.iterdir():
        path.unlink()
    for name, inode in names.items():
        kept = shadow / str(inode)
        (journal / name).write_bytes(kept.read_bytes() if kept.exists() else b"")
    if draw.random() < 0.5:
        (journal / "extent").write_bytes(extent)
    if last.exists() and draw.random() < 0.7:
        synced = last.read_bytes()
        rest = unsynced[len(synced) :][: draw.randrange(200)]
        last.write_bytes(synced + draw.choice([rest, bytes(len(rest)), rest[:-1] + bytes(len(rest[-1:]))]))
    shutil.rmtree(shadow)
    shadow.mkdir()
    for path in journal.iterdir():  # they are on the disk now, and their numbers may be those of former files
        shutil.copy(path, shadow / str(path.stat().st_ino))
    names = {path.name: path.stat().st_ino for path in journal.iterdir()}
    (shadow / "names").write_text(json.dumps(names))


def kill_behind(daemon: Daemon, tenants: list[firmd_kit.Tenant], lines: int) -> None:
    """Kill the daemon after this number of answered lines."""
    try:
        firmd_kit.wait_for(lambda: sum(len(tenant.answered) for tenant in tenants) >= lines, "lines are answered", 120)
    finally:
        daemon.kill()


def power_cuts_at_any_moment(setup: Setup) -> None:
    """Whatever unsynced data is lost, each answered line is there, with its reply; and no loss counts as a damage."""
    draw = random.Random(setup.seed)
    tenants = [firmd_kit.Tenant(f"t{place}", setup.seed + place) for place in range(3)]
    with setup.daemon("--segment-bytes", "15000", "--after", "1", roster=firmd_kit.roster_of(tenants)) as daemon:
        shadow, script = daemon.folder / "shadow", daemon.folder / "shadowed.py"
        shadow.mkdir()
        script.write_text(SHADOWED.format(shadow=str(shadow)))
        daemon.words = [sys.executable, str(script)]
        for _ in range(4 if setup.is_quick else 40):
            daemon.start()
            works = [
                partial(firmd_kit.converse, tenant, daemon.client(), False, random.Random(draw.random()), 10**9)
                for tenant in tenants
            ]
            answered_lines = sum(len(tenant.answered) for tenant in tenants) + draw.randrange(30, 300)
            works.append(partial(kill_behind, daemon, tenants, answered_lines))
            raised = firmd_kit.in_threads(works)
            require(all(isinstance(error, firmd_kit.Gone) for error in raised), raised)
            cut_power(daemon, shadow, draw)
        daemon.start().stop()
        require(sum(len(tenant.answered) for tenant in tenants) > 100, "lines were answered")
        firmd_kit.check_kept(setup, daemon.journal(), tenants)


FAILING = """\
import os, sys
from pathlib import Path
from zlib import crc32
from firm.common.faults import Fault
from firm.server.journal import Journal, SegmentLimit
from firm.server.records import JournalBatch
from firm.server.state import ServiceState
state = ServiceState(Path({state!r}))
state.roster_sum = crc32(state.roster_path.read_bytes())
journal = Journal(state, SegmentLimit(400))
def append(line):
    journal.append([JournalBatch(b"*:0", line + b"\\n", 1)])
append(b"alpha machine m1 2")
append(b"alpha job j 10")
real = os.{call}
def fail(*words):
    os.{call} = real
    raise OSError(5, "it failed")
os.{call} = fail
told = 0
for work in [lambda: append({line!r}), lambda: journal.keep_refused([2]), lambda: append(b"alpha show"), journal.close]:
    try:
        work()
    except Fault as fault:
        told += str(fault).endswith("it failed")
print(told)
"""


def failed_writes(setup: Setup) -> None:
    """After a failed write or sync nothing more is written, and the state starts with the answered lines."""
    rows = [("fdatasync", b"alpha task j a"), ("fsync", b"x" * 400), ("write", b"x"), ("pwrite", b"x")]
    for call, line in rows:
        with setup.daemon() as daemon:
            daemon.state.mkdir()
            (daemon.state / "roster.csv").write_bytes(ROSTER)
            script = FAILING.format(state=str(daemon.state), call=call, line=line)
            done = subprocess.run([sys.executable, "-c", script], capture_output=True, text=True)
            require(done.stdout == "4\n", f"{call}: {done.stdout} {done.stderr}")
            daemon.start()
            lines = daemon.journal().splitlines()
            require(lines[:2] == [b"alpha machine m1 2", b"alpha job j 10"], f"{call}: {lines}")
            require(len(lines) == 2 or lines[2:] == [line] and call == "pwrite", f"{call}: {lines}")
            daemon.kill()


# Damage at random places.


def flip(path: Path, draw: random.Random) -> None:
    """Flip a bit; a second call with the same numbers restores it."""
    data = bytearray(path.read_bytes())
    data[draw.randrange(len(data))] ^= 1 << draw.randrange(8)
    path.write_bytes(data)


def cut_end(path: Path, draw: random.Random) -> None:
    data = path.read_bytes()
    path.write_bytes(data[: draw.randrange(len(data))])


def cut_out(path: Path, draw: random.Random) -> None:
    data = path.read_bytes()
    start, end = sorted(draw.choices(range(len(data) + 1), k=2))
    path.write_bytes(data[:start] + data[end:])


def cut_records(path: Path, draw: random.Random) -> None:
    """Remove whole records."""
    data = path.read_bytes()
    places = [0, *(found.start() + 1 for found in re.finditer(rb"\n(?=#)", data)), len(data)]
    start, end = sorted(draw.choices(places, k=2))
    path.write_bytes(data[:start] + data[end:])


def repeat(path: Path, draw: random.Random) -> None:
    data = path.read_bytes()
    start, end = sorted(draw.choices(range(len(data) + 1), k=2))
    path.write_bytes(data[:end] + data[start:])


def empty(path: Path, draw: random.Random) -> None:
    """Write zeros over some bytes, as a file system may leave."""
    data = path.read_bytes()
    start, end = sorted(draw.choices(range(len(data) + 1), k=2))
    path.write_bytes(data[:start] + bytes(end - start) + data[end:])


def remove(path: Path, _: random.Random) -> None:
    path.unlink()


DAMAGES: list[Callable[[Path, random.Random], None]] = [flip, flip, flip, cut_end, cut_out, cut_records, repeat, empty]
DAMAGES.append(remove)


def random_damage(setup: Setup, part: int, trials: int) -> None:
    """Any damage to any file of a state, stopped or killed, is reported at the start, or has no effect."""
    draw = random.Random(setup.seed + part)
    with setup.daemon("--segment-bytes", "3000") as daemon:
        is_killed = part % 2 == 0
        said = answered(daemon, is_killed, 200)
        alone = setup.alone(ROSTER, b"".join(line + b"\n" for line in [*said, *QUESTIONS]))[len(said) :]
        kept = daemon.folder / "kept"
        shutil.copytree(daemon.state, kept, ignore=shutil.ignore_patterns("view"))
        least, told = (trials - 6) // 3, 0  # of six trials perhaps one is reported
        for trial in range(3 * trials):
            if trial >= trials and told > least:  # otherwise chance has chosen damages without effect
                break
            shutil.rmtree(daemon.state)
            shutil.copytree(kept, daemon.state)
            path = draw.choice([path for path in sorted(daemon.state.rglob("*")) if path.is_file()])
            damage = draw.choice(DAMAGES)
            damage(path, draw)
            what = f"trial {trial}: {damage.__name__} of {path.relative_to(daemon.state)}"
            told += is_reported(daemon, said, alone, what)
        require(told > least, f"{told} of {3 * trials} were reported")


def is_reported(daemon: Daemon, said: list[bytes], alone: list[bytes], what: str) -> bool:
    """Return whether a start reports a damage; if it doesn't, require that nothing is lost or changed."""
    process, began = daemon.spawn(), time.monotonic()
    while process.poll() is None and b"firmd: ready" not in daemon.said():
        require(time.monotonic() - began < firmd_kit.START_SECONDS, f"{what}: it neither starts nor ends")
        pause_since(began)
    if process.poll() is not None:
        require(process.poll() in (3, 5) and b"Traceback" not in daemon.said(), f"{what}: {daemon.said().decode()}")
        return True
    require(daemon.journal() == b"".join(line + b"\n" for line in said), f"{what}: it serves other lines")
    require(ask_all(daemon, QUESTIONS) == alone, f"{what}: it serves another state")
    daemon.kill()
    return False


SHORT = [
    senders,
    other_versions,
    kept_refusals,
    missing_pieces,
    damaged_ids,
    lost_beginnings,
    other_pieces,
    changed_roster,
    begun_segments,
    power_cuts,
    power_cuts_at_any_moment,
    failed_writes,
    *journal_tool.SHORT,
]


def checks(setup: Setup, trials: int) -> dict[str, Check]:
    """Return each check by name."""
    found: dict[str, Check] = {check.__name__.replace("_", " "): partial(check, setup) for check in SHORT}
    for part in range(CHECKS_AT_A_TIME):
        name = f"random damage, {trials // CHECKS_AT_A_TIME} trials, part {part}"
        found[name] = partial(random_damage, setup, part, trials // CHECKS_AT_A_TIME)
    return found


def main() -> int:
    parser = argparse.ArgumentParser(description=(__doc__ or "").splitlines()[0])
    parser.add_argument("--quick", action="store_true", help="the part that tests/quick runs")
    program.add_program(parser)
    parser.add_argument("--only", default="", help="run only the checks whose names have these words")
    parser.add_argument("--trials", type=int, help="trials of damage at random places")
    parser.add_argument("--seed", type=int, default=random.randrange(10**6), help="seed of the damage (default: any)")
    options = parser.parse_args()
    print(f"seed {options.seed}", flush=True)
    setup = Setup(options.program, options.quick, options.seed)
    trials = options.trials or (24 if options.quick else 600)
    chosen = {name: check for name, check in checks(setup, trials).items() if options.only in name}
    return run_suites(Suite(chosen, CHECKS_AT_A_TIME))


if __name__ == "__main__":
    run_script(main)
