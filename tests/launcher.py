"""Checks of the launcher ./firm in a folder with crates of one line each; a stand-in proves and builds them."""

from __future__ import annotations

import contextlib
import os
import pty
import re
import shutil
import signal
import subprocess
import sys
import tempfile
import time
import tomllib
from pathlib import Path
from typing import IO, Any, Callable

from harness.checks import Skipped, require
from harness.program import ROOT, Run

SCRIPTS = ("firm", "build.py", "prover.py", "pyproject.toml", "unproved.py")
TOOLS = ("awk", "bash", "cat", "dirname", "env", "find", "realpath")
KIT_TOOLS = ("rt", "rattle", "rattle-link")
KIT_FILES = ("START-HERE.md", "c/libos_c.a", "c/liblibc_c.a", "rattle/logic/antt-project.json", "logic_built/one")
PROGRAMS = ("firm", "firm_explain")
LIMIT_SECONDS = 180  # for each run of the launcher
LOGIC = re.findall(r'^LOGIC = "(\w+)"$', (ROOT / "prover.py").read_text(), re.M)[0]
ONE_LINE, TWO_LINES = "one line\n", "one line\nand one more\n"
TEXT = b"alpha show\n"
REPLY = b"the program: --roster day.csv\n" + TEXT
ROSTER = "tenant\nalpha\n"
TRIAL = f"the trial: --roster opened {ROSTER} ".encode() + TEXT
MAX_BYTES = 64 << 20  # of commands for an unproved answer


def listed() -> dict[str, list[str]]:
    """Return the crates of crates.txt, each with the names after it."""
    lines = [line.split(":") for line in (ROOT / "crates.txt").read_text().splitlines() if line[:1].isalpha()]
    return {name: libraries.split() for name, libraries in lines}


def family(name: str, lines: dict[str, list[str]]) -> set[str]:
    """Return a crate and all that it depends on in the repository."""
    found, left = set(), [name]
    while left:
        crate = left.pop()
        if crate in lines and crate not in found:
            found.add(crate)
            left += lines[crate]
    return found


def restore_signals() -> None:
    """Let a started process end at an interrupt, also if the tests run in the background, which ignores it."""
    for number in (signal.SIGINT, signal.SIGTERM):
        signal.signal(number, signal.SIG_DFL)


class Place:
    """A repository in a separate folder, with the launcher and a path on which rt is the stand-in or absent."""

    def __init__(self, folder: str) -> None:
        self.room, self.top, self.crates = Path(folder), Path(folder) / "repository", listed()
        self.needed = family("firm", self.crates)
        self.top.mkdir()
        for name in (*SCRIPTS, "crates.txt", "README.md"):
            shutil.copy2(ROOT / name, self.top)
        for crate in self.crates:
            for file in (source(crate), "must-fail/one.edit", "more-edits/two.edit"):
                self.write(f"crates/{crate}/{file}")
        self.record = self.top / "asked"
        self.record.write_text("")
        self.temporary = self.room / "temporary"
        self.temporary.mkdir()
        (self.room / "day.csv").write_text(ROSTER)
        self.make_kit()
        self.make_paths()

    def make_kit(self) -> None:
        self.kit = self.room / "kit"
        libraries = {library for names in self.crates.values() for library in names} - set(self.crates)
        for name in (*KIT_FILES, *(f"rlibs/{library}.rlib/format" for library in {"std", *libraries})):
            (self.kit / name).parent.mkdir(parents=True, exist_ok=True)
            (self.kit / name).write_text(ONE_LINE)
        (self.kit / "bin").mkdir()
        for tool in KIT_TOOLS:
            (self.kit / "bin" / tool).symlink_to(ROOT / "tests/stand_in_kit.py")
        self.name_kit(LOGIC)

    def name_kit(self, logic: str) -> None:
        (self.kit / "KIT-ID").write_text(f"rattle-kit-0a logic {logic}\n")

    def make_paths(self) -> None:
        self.paths = {True: self.room / "with-rt", False: self.room / "without"}
        for has_rt, path in self.paths.items():
            path.mkdir()
            for tool in TOOLS:
                (path / tool).symlink_to(str(shutil.which(tool)))
            (path / "python3").symlink_to(sys.executable)
            if has_rt:
                (path / "rt").symlink_to(self.kit / "bin/rt")

    def above(self, name: str) -> set[str]:
        """Return the crate and the program's crates that depend on it."""
        return {crate for crate in self.needed if name in family(crate, self.crates)}

    def write(self, name: str, text: str = ONE_LINE) -> None:
        """Write a file, newer than all existing ones, also if the clock of the files ticks slowly."""
        file = self.top / name
        file.parent.mkdir(parents=True, exist_ok=True)
        file.write_text(text)
        programs = [self.top / f"crates/{program}/out/{program}" for program in PROGRAMS]
        newest = max((program.stat().st_mtime_ns for program in programs if program.exists()), default=0)
        while file.stat().st_mtime_ns <= newest:
            time.sleep(0.001)
            file.touch()

    def start(
        self,
        *words: str | Path,
        has_rt: bool = True,
        stdin: int | IO[bytes] = subprocess.PIPE,
        **behaviour: str,
    ) -> subprocess.Popen[bytes]:
        """Start the launcher, or with words another command."""
        environment = {**os.environ, "PATH": str(self.paths[has_rt]), "TMPDIR": str(self.temporary), **behaviour}
        command: list[str | Path] = list(words) or [self.top / "firm", "--roster", "day.csv"]
        return subprocess.Popen(
            command,
            cwd=self.room,
            env=environment,
            preexec_fn=restore_signals,
            stdin=stdin,
            stdout=subprocess.PIPE,
            stderr=subprocess.PIPE,
        )

    def end(self, launched: subprocess.Popen[bytes]) -> Run:
        with launched:
            try:
                output, faults = launched.communicate(TEXT if launched.stdin else None, timeout=LIMIT_SECONDS)
            except subprocess.TimeoutExpired:
                launched.kill()
                raise
        return Run(launched.returncode, output, faults)

    def run(
        self,
        *words: str | Path,
        has_rt: bool = True,
        stdin: int | IO[bytes] = subprocess.PIPE,
        **behaviour: str,
    ) -> Run:
        return self.end(self.start(*words, has_rt=has_rt, stdin=stdin, **behaviour))

    def wait_for(self, line: str, launched: subprocess.Popen[bytes]) -> None:
        """Wait until the stand-in has written the line down."""
        ends = time.monotonic() + LIMIT_SECONDS
        while line not in self.record.read_text().splitlines():
            if time.monotonic() > ends:
                launched.kill()
                raise TimeoutError(f"no line: {line}")
            time.sleep(0.02)

    def still_runs(self) -> bool:
        """Return whether a process of a crate's check is left."""
        for folder in Path("/proc").glob("[0-9]*/cwd"):
            with contextlib.suppress(FileNotFoundError, PermissionError, ProcessLookupError):  # one that ends meanwhile
                if os.readlink(folder).startswith(f"{self.top}/crates/"):
                    return True
        return False

    def until_none_runs(self) -> None:
        """Wait until no process of a crate's check is left: a killed one is gone a moment later."""
        ends = time.monotonic() + LIMIT_SECONDS
        while self.still_runs():
            require(time.monotonic() < ends, "a check goes on")
            time.sleep(0.02)

    def standing(self) -> set[str]:
        """Return the crates that a run has recorded as proved: one whose check ends as its run is killed may be
        missing."""
        return {stamp.parts[-4] for stamp in self.top.glob("crates/*/out/statements/stamp")}

    def notes(self) -> list[list[str]]:
        """Return the stand-in's notes since the last call, each line a word and a crate."""
        lines = self.record.read_text().splitlines()
        self.record.write_text("")
        return [line.split() for line in lines]

    def made(self) -> list[str]:
        return [crate for word, crate in self.notes() if word == "made"]

    def files(self) -> set[Path]:
        """Return all files except the stand-in's record."""
        return set(self.room.rglob("*")) - {self.record}

    def build(self) -> None:
        done = self.run()
        require(done.status == 0, done)
        self.notes()


def source(crate: str) -> str:
    """Return the root file of a crate."""
    return "src/main.rt" if crate in PROGRAMS else "src/lib.rt"


def require_reply(done: Run) -> None:
    """Require that the program ran on the words and the input of the run."""
    require(done.status == 0 and done.output == REPLY, done)


def require_quiet_reply(done: Run) -> None:
    """Require the same without a build: standard error is empty."""
    require(done == (0, REPLY, b""), done)


def require_kit_unused(place: Place) -> None:
    notes = place.notes()
    require(not notes, f"the kit was called: {notes}")


def require_made(place: Place, wanted: set[str]) -> None:
    made = place.made()
    require(set(made) == wanted, f"made: {made}, and not {wanted}")


def first_run(place: Place) -> None:
    """The first run proves the crates below the program, each once and after those below it, and tries nothing."""
    done = place.run()
    require_reply(done)
    ended: set[str] = set()
    for word, crate in place.notes():
        require(word in ("begin", "made", "end"), f"{word} {crate}")
        if word == "begin":
            require(crate not in ended, f"{crate} twice")
            require(family(crate, place.crates) - {crate} <= ended, f"{crate} too early")
        elif word == "end":
            ended.add(crate)
    require(ended == place.needed, ended)
    require(f"0 of {len(ended)} left".encode() in done.faults, done.faults)
    first = done.faults.splitlines()[0]
    require(b"--unproved" in first and b"warning" not in done.faults, done.faults)


def side_by_side(place: Place) -> None:
    """Independent crates are proved at the same time, if there are processors for it."""
    if len(os.sched_getaffinity(0)) < 2:
        raise Skipped("there is one processor")
    launched = place.start(KIT_WAITS="firm_arena")
    place.wait_for("end firm_rules", launched)
    place.write("go")
    require_reply(place.end(launched))
    words = place.notes()
    require(words.index(["end", "firm_rules"]) < words.index(["end", "firm_arena"]), words)


def current(place: Place) -> None:
    """An up-to-date program runs at once and writes nothing, also by a link from elsewhere."""
    place.build()
    link = place.room / "linked"
    link.symlink_to(place.top / "firm")
    for launcher in (place.top / "firm", link):
        require_quiet_reply(place.run(launcher, "--roster", "day.csv"))
    require_kit_unused(place)


def newer_documents(place: Place) -> None:
    """Newer documents, tests, edits and crates that the program does not depend on cause no build."""
    place.build()
    others = [f"crates/{crate}/{source(crate)}" for crate in set(place.crates) - place.needed]
    edits = ["crates/firm_net/must-fail/one.edit", "crates/firm_net/more-edits/two.edit"]
    for name in ["README.md", "docs/FORMATS.md", "tests/quick", "crates/firm/stdin", *edits, *others]:
        place.write(name, TWO_LINES)
    (place.top / "crates.txt").touch()
    require_quiet_reply(place.run())
    require_kit_unused(place)


def newer_source(place: Place) -> None:
    """A changed source of a crate below is proved with all above it, and the program is current then."""
    place.build()
    for text in (TWO_LINES, ONE_LINE):
        place.write("crates/firm_net/src/lib.rt", text)
        require_reply(place.run())
        require_made(place, place.above("firm_net"))
        require_quiet_reply(place.run())
    place.write("crates/firm_hall/proofs/Answers.antt")
    require_reply(place.run())
    require_made(place, place.above("firm_hall"))


def newer_date(place: Place) -> None:
    """A source that is newer by its date alone is looked at once: nothing is rebuilt, and then the program starts at
    once."""
    place.build()
    place.write("crates/firm_net/src/lib.rt")
    for _ in range(2):
        require_quiet_reply(place.run())
        require_kit_unused(place)


def reverted_source(place: Place) -> None:
    """Crates above a changed one that were not proved anew yet count as proved again once the change is reverted."""
    place.build()
    for broken, proved in (("firm_net", set[str]()), ("firm_paths", {"firm_net"})):
        place.write("crates/firm_net/src/lib.rt", TWO_LINES)
        done = place.run(KIT_BROKEN=broken)
        require(done.status == 1, done)
        require_made(place, proved)
        place.write("crates/firm_net/src/lib.rt")
        require_reply(place.run())
        require_made(place, proved)


def edit_during_build(place: Place) -> None:
    """A source that is edited while the program is being built is newer than the program."""
    launched = place.start()
    place.wait_for("end firm_net", launched)
    place.write("crates/firm_net/src/lib.rt", TWO_LINES)
    require_reply(place.end(launched))
    place.notes()
    require_reply(place.run())
    require_made(place, place.above("firm_net"))


def edit_during_check(place: Place) -> None:
    """A source that differed during its crate's check, for a moment only, is proved again with all above it."""
    launched = place.start(KIT_WAITS="firm_net")
    place.wait_for("begin firm_net", launched)
    for text in (TWO_LINES, ONE_LINE):
        place.write("crates/firm_net/src/lib.rt", text)
    place.write("go")
    require_reply(place.end(launched))
    place.notes()
    require_reply(place.run())
    require_made(place, place.above("firm_net"))


def lost_rlib(place: Place) -> None:
    """A crate whose rlib is lost is built again, and nothing above it; a program that was replaced is put back."""
    place.build()
    shutil.rmtree(place.top / "crates/firm_net/out")
    place.write("crates/firm/out/firm", "another program\n")
    place.write("crates/firm_net/src/lib.rt")
    require_reply(place.run())
    require_made(place, {"firm_net"})


def other_kit(place: Place) -> None:
    """Another kit proves all anew; if its logic is not the crates' own, a line says so first."""
    place.build()
    place.name_kit("0123456789abcdef")
    place.write("crates/firm_net/src/lib.rt")
    done = place.run()
    require_reply(done)
    require_made(place, place.needed)
    warning, *others = done.faults.splitlines()
    require(all(word in warning for word in (b"warning", LOGIC.encode(), b"0123456789abcdef")), warning)
    require(not any(b"warning" in line for line in others), others)
    require(LOGIC in (ROOT / "README.md").read_text(), f"README.md does not name the kit's logic, {LOGIC}")


def no_rt(place: Place) -> None:
    """Without rt the existing program runs, with a note if a source is newer; without either, status 127."""
    done = place.run(has_rt=False)
    require(done.status == 127 and done.output == b"", done)
    require(all(word in done.faults for word in (b"rt", b"PATH", b"README.md", LOGIC.encode())), done.faults)
    place.build()
    require_quiet_reply(place.run(has_rt=False))
    place.write("crates/firm_hall/src/lib.rt", TWO_LINES)
    done = place.run(has_rt=False)
    require_reply(done)
    require(done.faults.count(b"\n") == 1 and b"rt" in done.faults, done.faults)
    done = place.run(sys.executable, place.top / "build.py", has_rt=False)
    require(done.status == 127 and b"PATH" in done.faults, done)
    require_kit_unused(place)


def interrupted(place: Place) -> None:
    """An interrupted run ends the processes that it started, and the next goes on from there."""
    for number in (signal.SIGINT, signal.SIGTERM):
        stood = place.standing()
        launched = place.start(KIT_SLOW="firm_graph")
        place.wait_for("begin firm_graph", launched)
        launched.send_signal(number)
        done = place.end(launched)
        require(done.status == 128 + number and done.output == b"", done)
        require(b"goes on from here" in done.faults, done.faults)
        place.until_none_runs()
        require(not stood & set(place.made()), f"proved twice, of {stood}")
    require_goes_on(place)


def killed(place: Place) -> None:
    """A run after a killed one goes on from there too."""
    launched = place.start(KIT_SLOW="firm_graph")
    place.wait_for("begin firm_graph", launched)
    launched.kill()
    place.end(launched)
    place.until_none_runs()
    place.notes()
    require_goes_on(place)


def require_goes_on(place: Place) -> None:
    """After a run that ended at firm_graph, the next proves the rest, and nothing else."""
    stood = place.standing()
    require("firm_flow" in stood and "firm_graph" not in stood, stood)
    require_reply(place.run())
    require_made(place, place.needed - stood)


def failing_crate(place: Place) -> None:
    """A crate that is not proved ends the run with its log's name; nothing above it is tried, and no program runs."""
    done = place.run(KIT_BROKEN="firm_paths")
    log = place.top / "crates/firm_paths/out/statements/log"
    require(done.status == 1 and done.output == b"", done)
    require(str(log).encode() in done.faults, done.faults)
    require("a goal is open" in log.read_text(), log.read_text())
    made = place.made()
    require(not {"firm_paths", "firm_flow", "firm"} & set(made), made)


def two_at_once(place: Place) -> None:
    """Of two simultaneous runs one builds; the other waits, and both are served."""
    both = [place.start(), place.start()]
    for launched in both:
        require_reply(place.end(launched))
    begun = sorted(crate for word, crate in place.notes() if word == "begin")
    require(begun == sorted(place.needed), begun)


def named_programs(place: Place) -> None:
    """build.py builds the named programs and libraries, each crate once, and runs none."""
    build = place.top / "build.py"
    for names, made in ((("firm_explain",), {"firm_explain"}), (("firm", "firm_explain"), {"firm"}), ((), set[str]())):
        done = place.run(build, *names)
        require(done.status == 0 and done.output == b"", done)
        families = [family(name, place.crates) for name in made]
        require(set(place.made()) <= set[str]().union(*families), f"{names} makes more than {made}")
        require(all(os.access(place.top / f"crates/{name}/out/{name}", os.X_OK) for name in names), names)
    require_quiet_reply(place.run())
    require(place.run(build, "firm_net").status == 0, "a library that stands")
    done = place.run(build, "firm_none")
    require(done.status == 2 and b"firm_explain" in done.faults, done)
    require_kit_unused(place)


def ask_unproved(place: Place, *words: str, **how: Any) -> Run:
    return place.run(place.top / "firm", *words, "--unproved", **how)


def unproved(place: Place) -> None:
    """An unproved answer is announced before and after, ends as the program did, and stores nothing."""
    before = place.files()
    for status in (0, 3):
        for words in (("--roster", "day.csv"), ("--roster=day.csv",)):
            done = ask_unproved(place, *words, KIT_STATUS=str(status))
            require(done.status == status and done.output == TRIAL, done)
            first, said, last = done.faults.splitlines()
            require(said == b"a word of the program", said)
            require(all(b"UNPROVED" in label and b"no proof" in label for label in (first, last)), done.faults)
    done = ask_unproved(place, "--workers", "8", "--roster", "day.csv")
    require(done.output.startswith(b"the trial: --roster opened --workers 8 "), done.output)
    done = ask_unproved(place, "--state", "day.csv")
    require(done.output.startswith(b"the trial: --state opened "), done.output)
    require(place.notes() == [["try", "firm"]] * 6, "it is tried once for each")
    require(place.files() == before, place.files() - before)


def unproved_without_answer(place: Place) -> None:
    """If the trial has no answer, the status is none of the program's; an interrupted one stores nothing either."""
    before = place.files()
    done = ask_unproved(place, "--roster", "day.csv", KIT_NO_ANSWER="firm")
    require(done.status == 70 and done.output == b"" and b"no answer" in done.faults, done)
    place.notes()
    words = (place.top / "firm", "--unproved", "--roster", "day.csv")
    launched = place.start(*words, stdin=subprocess.DEVNULL, KIT_SLOW="firm")
    place.wait_for("try firm", launched)
    launched.send_signal(signal.SIGTERM)
    done = place.end(launched)
    require(done.status == 128 + signal.SIGTERM and done.output == b"", done)
    require(place.files() == before, place.files() - before)


def unproved_refused(place: Place) -> None:
    """It refuses unanswerable runs: no roster, a terminal, too many commands, no rt."""
    terminal, other = pty.openpty()
    with tempfile.TemporaryFile() as long, os.fdopen(terminal, "wb"), os.fdopen(other, "rb") as typed:
        long.truncate(MAX_BYTES + 1)
        refusals = {
            b"roster": ask_unproved(place),
            b"one of the two": ask_unproved(place, "--roster", "day.csv", "--state", "day.csv"),
            b"no roster": ask_unproved(place, "--roster", "none.csv"),
            b"no state": ask_unproved(place, "--state", "none"),
            b"< FILE": ask_unproved(place, "--roster", "day.csv", stdin=typed),
            b"64 MiB": ask_unproved(place, "--roster", "day.csv", stdin=long),
            b"PATH": ask_unproved(place, "--roster", "day.csv", has_rt=False),
        }
    for word, done in refusals.items():
        require(done.status == 2 and done.output == b"" and word in done.faults, f"{word!r}: {done}")
    require_kit_unused(place)


def unproved_never_by_default(place: Place) -> None:
    """Only the launcher's own word requests an unproved answer; the service never does."""
    require_reply(place.run(FIRM_UNPROVED="1", UNPROVED="1"))
    require(["try", "firm"] not in place.notes(), "it was tried")
    names = (path for path in (ROOT / "service").rglob("*") if path.suffix != ".pyc" and path.is_file())
    naming = [path for path in names if b"unproved" in path.read_bytes()]
    require(not naming, f"these name it: {naming}")


def version(place: Place) -> None:
    """The release, the commit and whether it is proved are those of the present sources; nothing is built to print
    them."""

    def version_of(*words: str) -> str:
        done = place.run(place.top / "firm", *words, stdin=subprocess.DEVNULL)
        require(done.status == 0 and not done.faults, done)
        return done.output.decode()

    release = tomllib.loads((ROOT / "pyproject.toml").read_text())["project"]["version"]
    require(version_of("--version") == f"firm {release}, commit unknown, not proved\n", "it is not built")
    require_kit_unused(place)
    place.build()
    require(version_of("-V") == f"firm {release}, commit unknown, proved\n", "it is built")
    for words in (["--unproved", "--version"], ["--version", "--unproved"]):
        require(version_of(*words) == f"firm {release}, commit unknown, not proved\n", words)
    require(
        version_of("--version", "--roster").startswith("the program: --version --roster\n"), "the program's own words"
    )
    for path in place.paths.values():
        (path / "git").symlink_to(str(shutil.which("git")))
    (place.top / ".gitignore").write_text("out/\nasked\n")
    git = ["git", "-C", str(place.top), "-c", "user.name=one", "-c", "user.email=one@example.org"]
    for step in (["init", "-q"], ["add", "-A"], ["commit", "-q", "-m", "one"]):
        subprocess.run([*git, *step], check=True)
    commit = subprocess.run([*git, "rev-parse", "HEAD"], capture_output=True, text=True, check=True).stdout[:10]
    require(version_of("--version") == f"firm {release}, commit {commit}, proved\n", "a commit")
    place.write("crates/firm/src/main.rt", TWO_LINES)
    require(version_of("--version") == f"firm {release}, commit {commit}, changed, not proved\n", "an edit")


CHECKS: list[Callable[[Place], None]] = [
    first_run,
    side_by_side,
    current,
    newer_documents,
    newer_source,
    newer_date,
    reverted_source,
    edit_during_build,
    edit_during_check,
    lost_rlib,
    other_kit,
    no_rt,
    interrupted,
    killed,
    failing_crate,
    two_at_once,
    named_programs,
    unproved,
    unproved_without_answer,
    unproved_refused,
    unproved_never_by_default,
    version,
]


def run_in_place(check: Callable[[Place], None]) -> None:
    """Run a check in a new repository."""
    with tempfile.TemporaryDirectory(prefix="firm-") as folder:
        check(Place(folder))
