#!/usr/bin/env python3
"""Prove the crates that a program depends on, and build the program.

usage: build.py [CRATE..]            proves and builds these programs and libraries, by default firm
       build.py --run ARGUMENT..     does so with firm, and then becomes it, as ./firm does

Crates are proved lowest first. The crate with the longest chain of proofs after it gets all processors. Others go on
beside it if it leaves some idle, at lower priority and with fewer jobs, as memory allows. The proofs of an interrupted
run stand, and the next run continues from there: a crate is proved again if its sources, or those of a crate below,
have changed. crates/NAME/out/statements has a crate's library or program, and the log of its check. Exit status: 0, 1
if a crate could not be proved or built, 2 for a wrong word, 127 without the kit, 128 plus the number of a signal.
"""

from __future__ import annotations

import fcntl
import os
import re
import shutil
import signal
import subprocess
import sys
import time
from pathlib import Path
from typing import NamedTuple

sys.dont_write_bytecode = True

import prover  # noqa: E402 (this leaves no file behind)
from prover import ROOT, Crate  # noqa: E402

PROGRAM = "firm"
# Measured maxima of a check's memory, and of each further job of it: jobs share memory that they only read.
CHECK_BYTES = 4_000_000_000
JOB_BYTES = 500_000_000
MAX_JOBS = 8  # the kit's documentation: more seldom help
NICENESS = 5  # of a check, for each check beside it on which more depends
# A check also reads the crates below, in about the time of this many bytes of its source.
BELOW_PER_OWN = 20
GLANCE_SECONDS = 0.1
NEWS_SECONDS = 30
STOPS = (signal.SIGINT, signal.SIGTERM, signal.SIGHUP)
USAGE_STATUS = 2
NO_KIT_STATUS = 127


class Failed(Exception):
    """Signals that a crate is not proved, or its program not built."""


class Stopped(Exception):
    """Signals a request to end."""

    def __init__(self, number: int) -> None:
        super().__init__(number)
        self.number = number


# Pending signals. They are handled between steps, so that no started check is lost.
come: list[int] = []


def glance() -> None:
    """Wait a moment, and raise if a signal is pending."""
    time.sleep(GLANCE_SECONDS)
    if come:
        raise Stopped(come[0])


def say(text: str) -> None:
    """Write a line to standard error. That may be closed: the build goes on without it."""
    try:
        print(f"firm: {text}", file=sys.stderr, flush=True)
    except OSError:
        pass


def elapsed(since: float) -> str:
    minutes, seconds = divmod(round(time.monotonic() - since), 60)
    return f"{minutes} min {seconds:02} s" if minutes else f"{seconds} s"


def program_file(crate: Crate) -> Path:
    """Return the path that the program is run from."""
    return crate.folder / "out" / crate.name


def size(crate: Crate) -> int:
    """Return a rough measure of its check's time."""
    return own_bytes(crate) + sum(map(own_bytes, crate.below)) // BELOW_PER_OWN


def own_bytes(crate: Crate) -> int:
    return sum(file.stat().st_size for file in crate.folder.glob("src/**/*.rt"))


def in_order_of_chains(crates: list[Crate]) -> list[Crate]:
    """Return the crates, first those with the longest chain of proofs after them, which decides the time of the
    whole build."""
    chain: dict[Crate, int] = {}
    for crate in reversed(crates):
        above = [chain[other] for other in crates if crate in other.below]
        chain[crate] = size(crate) + max(above, default=0)
    return sorted(crates, key=lambda crate: -chain[crate])


def free_bytes() -> int:
    """Return Linux's count of free memory; enough for one check if it can't be read."""
    try:
        found = re.search(r"MemAvailable:\s+(\d+) kB", Path("/proc/meminfo").read_text())
    except OSError:
        found = None
    return 1024 * int(found[1]) if found else CHECK_BYTES


class Sources(NamedTuple):
    """Return a stamp of a crate's sources, to see whether a check's are still current; empty if they can't be read."""

    content: str
    dates: str

    @staticmethod
    def of(crate: Crate) -> Sources:
        try:
            return Sources(prover.sum_of_sources(crate), prover.sum_of_dates(crate))
        except FileNotFoundError:  # a file vanished meanwhile, as an editor's do
            return Sources("", "")


class Group:
    """The process group of all checks, which ends with this process, however this one ends.

    The shell's read returns when this end of the pipe closes, and the shell then kills its group.
    """

    def __init__(self) -> None:
        guard = ["/bin/sh", "-c", "read _; kill -9 0"]
        self.guard = subprocess.Popen(guard, stdin=subprocess.PIPE, stderr=subprocess.DEVNULL, process_group=0)

    def start(self, words: list[str], crate: Crate, log: Path, temporary: Path) -> subprocess.Popen[bytes]:
        """Start a command in a crate's folder, which writes to the log."""
        with open(log, "ab") as file:
            return subprocess.Popen(
                words,
                cwd=crate.folder,
                env={**os.environ, "TMPDIR": str(temporary)},
                stdin=subprocess.DEVNULL,
                stdout=file,
                stderr=file,
                process_group=self.guard.pid,
            )

    def end(self) -> None:
        os.killpg(self.guard.pid, signal.SIGKILL)
        self.guard.communicate()

    def pause(self) -> None:
        """Stop this process and all checks, until this one is continued."""
        os.killpg(self.guard.pid, signal.SIGSTOP)
        self.guard.send_signal(signal.SIGCONT)  # it still ends the checks if this process is killed
        os.kill(os.getpid(), signal.SIGSTOP)
        os.killpg(self.guard.pid, signal.SIGCONT)


class Check:
    """A running check of a crate, which makes its rlib or its program in a separate folder."""

    def __init__(self, crate: Crate, jobs: int, ahead: int, group: Group) -> None:
        self.crate, self.jobs, self.ahead, self.group = crate, jobs, ahead, group
        self.began, self.sources = time.monotonic(), Sources.of(crate)
        self.made = prover.made(crate)
        self.work, self.log = self.made.with_name("work"), self.made.with_name("log")
        self.clear()
        self.work.mkdir(parents=True)
        self.log.write_bytes(b"")
        self.new = self.work / self.made.name
        words = prover.words(crate, prover.made)
        self.process = self.start("rattle", ["build", *words, "--jobs", str(jobs), *self.aim()])
        if ahead:
            niceness = os.getpriority(os.PRIO_PROCESS, 0) + NICENESS * ahead
            os.setpriority(os.PRIO_PROCESS, self.process.pid, niceness)

    def clear(self) -> None:
        shutil.rmtree(self.work, ignore_errors=True)

    def aim(self) -> list[str]:
        """Return rattle's words for what it makes, and where."""
        if self.crate.is_program:
            return ["--toolchain", f"{prover.kit()}/toolchain", "--backend", "llvm", "-o", f"{self.new}.o"]
        return ["--statements", "-o", str(self.new)]

    @property
    def most_bytes(self) -> int:
        """Return the most memory that it takes."""
        return CHECK_BYTES + (self.jobs - 1) * JOB_BYTES

    def start(self, tool: str, words: list[str]) -> subprocess.Popen[bytes]:
        return self.group.start([f"{prover.kit()}/bin/{tool}", *words], self.crate, self.log, self.work)

    def is_well(self) -> bool:
        """Return whether the crate is proved and, for a program, linked: rattle reports it only by its status."""
        if self.process.returncode == 0 and self.crate.is_program:
            kit = prover.kit()
            words = ["--target", "x86_64-unknown-linux-gnu", "--toolchain", f"{kit}/toolchain", "-o", str(self.new)]
            libraries = [f"{kit}/c/{name}" for name in ("libos_c.a", "liblibc_c.a")]
            self.process = self.start("rattle-link", [*words, f"{self.new}.o", *libraries])
            self.process.wait()
        return self.process.returncode == 0 and self.new.exists()

    def keep(self, below: list[str]) -> str:
        """Put the product into its place, over rlibs with these stamps; return its own stamp, empty if unknown.

        It is unknown if a source was edited during the check, or one of a crate below during its own.
        """
        prover.stamp_file(self.crate).unlink(missing_ok=True)  # before the product itself changes
        if self.made.is_dir():
            shutil.rmtree(self.made)
        self.new.replace(self.made)
        self.clear()
        if not all(below) or not self.sources.content or Sources.of(self.crate) != self.sources:
            return ""
        stamp = prover.stamp(self.sources.content, below)
        prover.stamp_file(self.crate).write_text(stamp)
        return stamp


class Build:
    """The checks of the needed crates: those left, those running, and the stamps of the proved ones."""

    def __init__(self, wanted: list[Crate]) -> None:
        needed = dict.fromkeys(crate for each in wanted for crate in (*each.below, each))
        self.programs = [crate for crate in wanted if crate.is_program]
        self.order = in_order_of_chains(list(needed))
        self.left = list(self.order)
        self.running: list[Check] = []
        self.stamps: dict[Crate, str] = {}
        self.began, self.reported = time.monotonic(), time.monotonic()
        self.processors, self.memory = len(os.sched_getaffinity(0)), free_bytes()
        self.most_checks = max(self.processors, 2)
        self.take_standing()
        self.count = len(self.left)

    def run(self, advice: str) -> None:
        """Prove all crates left and build the programs, or raise at the first crate that is not proved."""
        if self.left:
            warn_of_logic()
            names = " and ".join(program.name for program in self.programs)
            aim = f" before {names} can be built" if names else ""
            say(f"to be proved{aim}: {self.count} of {self.count + len(self.stamps)} crates{advice}")
            self.prove()
            say(f"{names or 'all of them'} can {'run' if names else 'be used'} ({elapsed(self.began)} in all)")
        for program in self.programs:
            install(program)

    def prove(self) -> None:
        group = Group()
        if signal.getsignal(signal.SIGTSTP) == signal.SIG_DFL:
            signal.signal(signal.SIGTSTP, lambda _number, _frame: group.pause())
        try:
            while self.left or self.running:
                self.start_checks(group)
                glance()
                self.take_ended(group)
                self.take_standing()
                self.report_progress()
        finally:
            group.end()
            for check in self.running:
                check.process.wait()
                check.clear()

    def stamps_below(self, crate: Crate) -> list[str]:
        return [self.stamps[library] for library in crate.below]

    def startable(self) -> list[Crate]:
        """Return the crates whose libraries are proved."""
        return [crate for crate in self.left if self.stamps.keys() >= set(crate.below)]

    def take_standing(self) -> None:
        """Remove from those left the crates that an earlier run has proved, from the same sources over the same
        libraries."""
        while standing := [crate for crate in self.startable() if self.stands(crate)]:
            for crate in standing:
                self.left.remove(crate)
                self.stamps[crate] = prover.stamp_of_made(crate)

    def stands(self, crate: Crate) -> bool:
        below, made = self.stamps_below(crate), prover.stamp_of_made(crate)
        return bool(made) and all(below) and made == prover.stamp(Sources.of(crate).content, below)

    def start_checks(self, group: Group) -> None:
        """Start as many checks as the memory allows: the first in the order of chains with a job a processor, the
        next with three for four, and later ones with half as many. More would idle less at times, but a check of
        several jobs takes up to a third more processor time than one of one."""
        startable = self.startable()
        for place, crate in enumerate(startable):
            spare = self.memory - sum(check.most_bytes for check in self.running) - CHECK_BYTES
            more = self.most_checks - len(self.running) - 1  # that may start beside it
            if self.running and (spare < 0 or more < 0):
                return
            kept = CHECK_BYTES * min(more, len(startable) - place - 1)
            ahead = sum(self.order.index(check.crate) < self.order.index(crate) for check in self.running)
            most_jobs = max(min(self.processors, MAX_JOBS) * max(4 - ahead, 2) // 4, 1)
            jobs = min(1 + max(spare - kept, 0) // JOB_BYTES, most_jobs)
            self.left.remove(crate)
            self.running.append(Check(crate, jobs, ahead, group))

    def take_ended(self, group: Group) -> None:
        for check in [check for check in self.running if check.process.poll() is not None]:
            self.running.remove(check)
            if check.is_well():
                self.stamps[check.crate] = check.keep(self.stamps_below(check.crate))
                self.report(f"{check.crate.name} is proved, in {elapsed(check.began)}")
            elif check.process.returncode == -signal.SIGKILL and check.jobs > 1:
                self.running.append(Check(check.crate, 1, check.ahead, group))
                self.report(f"{check.crate.name} was killed, most likely for memory: once more, with one job")
            else:
                check.clear()
                raise Failed(f"{check.crate.name} could not be proved and built: {check.log} says why")

    def report(self, news: str) -> None:
        self.reported = time.monotonic()
        left = len(self.left) + len(self.running)
        say(f"{news}; {left} of {self.count} left, {elapsed(self.began)} so far")

    def report_progress(self) -> None:
        if self.running and time.monotonic() - self.reported > NEWS_SECONDS:
            at = (f"{check.crate.name} for {elapsed(check.began)}" for check in self.running)
            self.report("at " + " and ".join(at))


def warn_of_logic() -> None:
    """Warn if the kit's logic is not the one in which the crates' proofs were recorded."""
    logic = prover.kit_logic()
    if logic != prover.LOGIC:
        found = f"logic {logic}" if logic else "a logic that it does not tell"
        say(f"warning: the kit in {prover.kit()} has {found}, and not {prover.LOGIC}: proofs may fail with it")


def install(program: Crate) -> None:
    """Put a program into the place that it is run from, if it is missing there; a running one is not disturbed."""
    made, file = prover.made(program), program_file(program)
    if not file.exists() or file.read_bytes() != made.read_bytes():
        new = made.with_name("new")
        shutil.copy2(made, new)
        new.replace(file)


def wait_for_turn() -> None:
    """Wait until no other run builds. Others wait until this one ends or becomes the program."""
    turn = os.open(ROOT / "crates.txt", os.O_RDONLY)
    has_said = False
    while True:
        try:
            fcntl.flock(turn, fcntl.LOCK_EX | fcntl.LOCK_NB)
            return
        except BlockingIOError:
            if not has_said:
                say("another run is building the program: waiting for it")
                has_said = True
        glance()


def become(file: Path, arguments: list[str]) -> None:
    """Run the file in place of this process."""
    for number in (signal.SIGPIPE, signal.SIGXFSZ):
        signal.signal(number, signal.SIG_DFL)  # Python ignores them, and a program would inherit that
    os.execv(file, [str(file), *arguments])


def build(wanted: list[Crate], advice: str) -> None:
    """Build the crates. Programs get the date of the build's start: a later edit is newer."""
    wait_for_turn()
    began = time.time()
    build = Build(wanted)
    build.run(advice)
    for program in build.programs:
        os.utime(program_file(program), (began, began))
    glance()


def read_crates(names: list[str]) -> list[Crate]:
    """Return the crates of these names."""
    crates = prover.crates_of_repository()
    wrong = [name for name in names if name not in crates]
    if wrong:
        programs = ", ".join(crate.name for crate in crates.values() if crate.is_program)
        say(f"there is no crate {wrong[0]}: the programs are {programs}")
        sys.exit(USAGE_STATUS)
    return [crates[name] for name in names]


def main(arguments: list[str]) -> int:
    for number in STOPS:
        if signal.getsignal(number) != signal.SIG_IGN:
            signal.signal(number, lambda number, _frame: come.append(number))
    if arguments[:1] in (["-h"], ["--help"]):
        print(__doc__)
        return 0
    runs = arguments[:1] == ["--run"]
    wanted = read_crates([PROGRAM] if runs else arguments or [PROGRAM])
    advice = ". For one answer without proof: ./firm --unproved --roster FILE < COMMANDS" if runs else ""
    try:
        build(wanted, advice)
    except prover.NoKit as reason:
        say(str(reason))
        return NO_KIT_STATUS
    except Failed as failed:
        say(str(failed))
        return 1
    except OSError as error:
        say(f"the build cannot go on: {error}")
        return 1
    except Stopped as stopped:
        say("stopped; the next run goes on from here")
        return 128 + stopped.number
    if runs:
        become(program_file(wanted[0]), arguments[1:])
    return 0


if __name__ == "__main__":
    sys.exit(main(sys.argv[1:]))
