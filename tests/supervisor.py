"""Check the supervisor of a run, service/firm/agent/supervisor.c: by itself, with faults, and under checkers.

usage: tools/run tests/supervisor.py [--quick] [--only WORDS]
Each check prints a line; the last line is 'N passed, M failed', and the exit status is 1 if one failed. It needs a C
compiler. It uses sanitizers and valgrind if they are installed; a check that can't run here is skipped with a line.
--quick leaves out checks of more than a second or two.
"""

from __future__ import annotations

import argparse
import os
import shutil
import signal
import subprocess
import sys
import tempfile
import threading
import time
from collections.abc import Callable, Iterator, Sequence
from contextlib import contextmanager
from dataclasses import dataclass, field, replace
from functools import partial
from pathlib import Path
from typing import Any

from agent_kit import LIMIT_SECONDS, is_there
from harness.checks import Check, Missed, Skipped, Suite, print_skipped, require, run_script, run_suites
from firm.agent import supervisor
from firm.agent.event_file import opened
from firm.agent.lease import clock
from firm.agent.work import Work

AT_A_TIME = 4  # checks
FAULTS = Path(__file__).with_name("supervisor_faults.c")
SANITIZERS = ["-g", "-fsanitize=address,undefined", "-fno-sanitize-recover=all"]
VALGRIND = ["--quiet", "--error-exitcode=99", "--leak-check=full"]
BUILDING = threading.Lock()
DEAF = "trap '' TERM; echo > begun; while :; do sleep 0.05; done"
LOOK_SECONDS = 0.02
MAX_CALLS = 60  # a kill comes before one of these calls; a supervisor makes fewer
# Finds a run with room for no further descriptor, then for one more each time.
FEW = """\
import os, resource, sys
from pathlib import Path
from firm.agent import supervisor
_, most = resource.getrlimit(resource.RLIMIT_NOFILE)
lowest = os.dup(0)
os.close(lowest)
for free in range(4):
    resource.setrlimit(resource.RLIMIT_NOFILE, (lowest + free, most))
    try:
        found = supervisor.find(Path(sys.argv[1]), "t")
    except OSError:
        print("none")
    else:
        print(found["event"] if isinstance(found, dict) else "found" if found._lease is not None else "no-lease")
        isinstance(found, dict) or found.close()
"""
Outcome = dict[str, Any]


@dataclass
class Run:
    """One run of a supervisor, in a folder."""

    folder: Path
    command: list[str]
    until: float = field(default_factory=lambda: clock() + LIMIT_SECONDS)
    limit: str = "inf"
    grace: float = 0.3
    group: str = ""
    output: str = ""
    directory: Path | None = None
    program: Sequence[str] = (str(supervisor.PROGRAM),)
    variables: dict[str, str] = field(default_factory=dict)  # of the supervisor

    def begin(self) -> subprocess.Popen[bytes]:
        """Start it; on return it has claimed the run."""
        self.folder.mkdir(exist_ok=True)
        words = ['"token": "t", "group": null, "output": "o"', supervisor.boot_id(), str(self.until), self.limit]
        words += [str(self.grace), self.group, "", str(self.directory or self.folder), self.output]
        words += ["2", "PATH=/usr/bin:/bin", f"FIRM_RUN={self.folder}", *self.command]
        pipe = subprocess.PIPE
        started = subprocess.Popen(
            [*self.program, str(self.folder)], stdin=pipe, stdout=pipe, stderr=pipe, env=self.variables
        )
        if started.stdin is None or started.stdout is None:
            raise RuntimeError("a process without the pipes that it was given")
        started.stdin.write(b"".join(os.fsencode(word) + b"\0" for word in words))
        started.stdin.close()
        started.stdout.read()
        return started

    def end(self, started: subprocess.Popen[bytes], status: int = 0) -> Outcome:
        """Return its outcome, once it has ended with this status."""
        try:
            found = started.wait(LIMIT_SECONDS)
        finally:
            started.kill()
        told = started.stderr.read() if started.stderr is not None else b""
        output = self.folder / "output"  # its standard error goes there too, once it has claimed the run
        told += output.read_bytes() if found != status and output.exists() else b""
        require(found == status and not told, f"status {found}: {told.decode(errors='replace')}")
        outcome = opened((self.folder / "status").read_bytes())
        require(outcome is not None, "its status is damaged")
        require(not (self.folder / "lease").exists(), "its lease is left")
        return outcome or {}

    def whole(self) -> Outcome:
        return self.end(self.begin())

    def until_there(self, name: str) -> None:
        ends = time.monotonic() + LIMIT_SECONDS
        while not (self.folder / name).exists():
            require(time.monotonic() < ends, f"{name} is not there")
            time.sleep(LOOK_SECONDS)


@contextmanager
def a_folder() -> Iterator[Path]:
    with tempfile.TemporaryDirectory(prefix="firm-supervisor-") as name:
        yield Path(name)


def shell(folder: Path, script: str, **more: Any) -> Run:
    return Run(folder, ["/bin/sh", "-c", script], **more)


def short_of(outcome: Outcome) -> tuple[object, ...]:
    return tuple(outcome[name] for name in ("status", "asked", "over", "fault"))


# Each check of this kind runs with the plain program and under checkers.


def plain_ends(program: Sequence[str]) -> None:
    """The status records a command's exit status or signal, its output, and its use of memory and processors."""
    with a_folder() as folder:
        run = shell(folder / "a", "echo out; echo err >&2; exit 3", program=program)
        outcome = run.whole()
        require(short_of(outcome) == (3, False, None, None), outcome)
        require((run.folder / "output").read_text() == "out\nerr\n", "its output")
        require(outcome["max_rss"] > 100_000 and 0 <= outcome["cpu_seconds"] < 60, outcome)
        require(short_of(shell(folder / "b", "kill -9 $$", program=program).whole())[0] == -9, "a signal")
        run = shell(folder / "c", "echo x", program=program, output=str(folder / "own"))
        require(short_of(run.whole())[0] == 0 and (folder / "own").read_text() == "x\n", "the separate output")


def faults(program: Sequence[str]) -> None:
    """A command that can't start is reported by name, cut between letters, and in valid JSON whatever letters it
    has."""
    with a_folder() as folder:
        (folder / "bare").write_text("#!/no/such/shell\n")
        (folder / "bare").chmod(0o755)
        for place, (word, told) in enumerate(
            {
                "no-such": (127, "no such command: no-such"),
                'a"\\\n\x7f': (127, 'no such command: a"\\\n\x7f'),
                "\udcff": (127, "no such command: \ufffd"),
                "é" * 150: (126, f"{'é' * 100} ..: File name too long"),
                "x" + "é" * 150: (126, f"x{'é' * 99} ..: File name too long"),
                str(folder): (126, f"{folder}: Permission denied"),
                f"{folder}/bare": (126, f"{folder}/bare: its interpreter is not there"),
            }.items()
        ):
            outcome = Run(folder / str(place), [word], program=program).whole()
            require((outcome["status"], outcome["fault"]) == told, outcome)
            require(outcome["seconds"] is None and outcome["max_rss"] is None, outcome)
        outcome = shell(folder / "z", "true", directory=Path("/no/such"), program=program).whole()
        require(short_of(outcome) == (126, False, None, "no such folder: /no/such"), outcome)


def ends_by_itself(program: Sequence[str]) -> None:
    """A command ends with its time limit or its lease, which the pipe can extend; a deaf command is killed after its
    grace."""
    with a_folder() as folder:
        require(
            short_of(shell(folder / "a", "sleep 600", limit="0.5", program=program).whole()) == over("timeout"), "a"
        )
        run = shell(folder / "b", "sleep 600", until=clock() + 3, program=program)
        require(short_of(run.whole()) == over("lease") and clock() >= run.until, "b")
        run = shell(folder / "c", "sleep 6; exit 4", until=clock() + 3, program=program)
        started = run.begin()
        for seconds in (5, 60):
            (run.folder / "lease").write_text(f"{clock() + seconds:.3f}\n")
        require(short_of(run.end(started)) == (4, False, None, None), "a longer lease")
        run = shell(folder / "d", DEAF, program=program)
        started = run.begin()
        run.until_there("begun")
        began = clock()
        started.send_signal(signal.SIGTERM)
        require(short_of(run.end(started)) == (-9, True, None, None), "d")
        require(clock() - began >= run.grace, "it was killed before its grace was over")


def over(why: str) -> tuple[object, ...]:
    return (-signal.SIGTERM, True, why, None)


def what_it_leaves(program: Sequence[str]) -> None:
    """Processes that a command leaves, deaf and in separate sessions, are ended before its status is written."""
    leaves = (
        f"(setsid sh -c 'echo $$ > left; {DEAF.replace(chr(39), chr(34))}' &); until [ -e begun ]; do sleep 0.05; done"
    )
    with a_folder() as folder:
        run = shell(folder / "a", f"{leaves}; exit 5", program=program)
        require(short_of(run.whole()) == (5, False, None, None), "its status")
        require(not is_there(int((run.folder / "left").read_text())), "what it has left is there")


def one_claim(program: Sequence[str]) -> None:
    """A claimed run is not started by another supervisor, nor is one whose lease is over."""
    with a_folder() as folder:
        run = shell(folder / "a", "echo x; until [ -e go ]; do sleep 0.05; done", program=program)
        started = run.begin()
        for until in (run.until, 1.0):
            second = replace(run, until=until).begin()
            require(second.wait(LIMIT_SECONDS) == 1, "a second one claims it")
        (run.folder / "go").touch()
        require(short_of(run.end(started))[0] == 0 and (run.folder / "output").read_text() == "x\n", "it ran once")
        late = shell(folder / "b", "true", until=clock() - 1, program=program)
        require(late.begin().wait(LIMIT_SECONDS) == 1, "one without a lease")
        require(list(late.folder.iterdir()) == [], "it has claimed it")


def cgroup_files(program: Sequence[str]) -> None:
    """A cgroup's files take precedence over wait4, if the kernel has them; an out-of-memory kill is reported."""
    files = {"memory.peak": "123456789\n", "cpu.stat": "usage_usec 1500250\nuser_usec 1000000\n", "cgroup.procs": ""}
    files |= {"memory.events": "low 0\noom 1\noom_kill 1\noom_group_kill 0\n", "cgroup.events": "populated 0\n"}
    with a_folder() as folder:
        for place, name in enumerate(("", *files)):
            group = folder / f"group{place}"
            group.mkdir()
            for other, text in files.items():
                (group / other).write_text(text if other != name else "\n" if other != "cgroup.procs" else text)
            outcome = shell(folder / f"{place}", "exit 9", group=str(group), program=program).whole()
            require((outcome["max_rss"] == 123_456_789) == (name != "memory.peak"), outcome)
            require((outcome["cpu_seconds"] == 1.5) == (name != "cpu.stat"), outcome)
            require((outcome["over"] == "memory") == (name != "memory.events"), outcome)
            require((group / "cgroup.procs").read_text() == "0", "its command is in the cgroup")


UNHURRIED = [plain_ends, what_it_leaves, one_claim, cgroup_files]
OF_ALL = [*UNHURRIED, faults, ends_by_itself]  # not under valgrind: slow, and reports glibc's execvp


# Faults of the system.


def preloaded(folder: Path, **variables: object) -> dict[str, str]:
    """Return variables with which the calls of a program fail."""
    library = folder / "faults.so"
    if not library.exists():
        subprocess.run(["cc", "-shared", "-fPIC", "-O1", "-o", str(library), str(FAULTS), "-ldl"], check=True)
    return {"LD_PRELOAD": str(library), **{name: str(value) for name, value in variables.items()}}


def no_room_for_processes() -> None:
    """A command that can't start while others have all processes is started later, and does not fail by that;
    meanwhile the end of its lease ends it."""
    with a_folder() as folder:
        outcome = shell(folder / "a", "exit 6", variables=preloaded(folder, NO_FORK=3)).whole()
        require(short_of(outcome) == (6, False, None, None), outcome)
        run = shell(folder / "b", "true", until=clock() + 1.5, variables=preloaded(folder, NO_FORK=10**6))
        require(short_of(run.whole()) == (-signal.SIGKILL, True, "lease", None), "its lease")


def held_up() -> None:
    """A command whose folder's disk hangs ends with its time limit, or on request, before it has started."""
    with a_folder() as folder:
        outcome = shell(folder / "a", "true", limit="0.5", variables=preloaded(folder, HANGS=1)).whole()
        require(short_of(outcome) == (-signal.SIGKILL, True, "timeout", None), outcome)
        run = shell(folder / "b", "true", variables=preloaded(folder, HANGS=1), grace=600)
        started = run.begin()
        started.send_signal(signal.SIGTERM)
        require(short_of(run.end(started)) == (-signal.SIGKILL, True, None, None), "b")


def late_claim() -> None:
    """A run whose claim reached the disk after the end of its lease does not start: it may run elsewhere by then."""
    with a_folder() as folder:
        run = shell(folder / "a", "touch begun", until=clock() + 5, variables=preloaded(folder, SLOW=6))
        require(short_of(run.whole()) == (-signal.SIGKILL, True, "lease", None), "its lease")
        require(not (run.folder / "begun").exists(), "it was begun")


def storm() -> None:
    """Processes that end faster than their supervisor reaps them do not delay a command's end."""
    with a_folder() as folder:
        variables = preloaded(folder, STORM=10_000)
        run = shell(folder / "a", "while :; do (: &); done", limit="1", variables=variables)
        require(short_of(run.whole()) == over("timeout"), "its limit")


def descriptors() -> None:
    """A command inherits no descriptor of the agent's own parent, and runs without those that the parent closed."""
    words = ("/bin/sh", "-c", 'exec 7< /dev/null 2>&-; exec "$0" "$@"', str(supervisor.PROGRAM))
    with a_folder() as folder:
        run = Run(folder / "a", ["/bin/ls", "/proc/self/fd"], program=words)
        require(short_of(run.whole()) == (0, False, None, None), "its end")
        found = (run.folder / "output").read_text().split()
        require(found == ["0", "1", "2", "3"], f"{found}, and the last is of the folder that is listed")


def full_disk() -> None:
    """A status that a full disk refuses is written once there is room; a refused claim counts as none."""
    with a_folder() as folder:
        full = shell(folder / "a", "true", variables=preloaded(folder, FULL=1))
        started = full.begin()
        names = {path.name for path in full.folder.iterdir()} if started.wait(LIMIT_SECONDS) == 1 else set()
        require(names == {"lease", "output"}, f"it has claimed it: {names}")
        run = shell(folder / "b", "exit 7")
        run.begin().wait()
        for name in ("process", "status", "output"):
            (run.folder / name).unlink()
        run.variables = preloaded(folder, FULL=0)
        require(short_of(run.whole())[0] == 7, "the disk has room again")


def found_at_its_claim() -> None:
    """An agent that starts just as a run is claimed extends its lease as that of any other."""
    with a_folder() as folder:
        run = shell(folder / "r", "sleep 600", variables=preloaded(folder, STOPS=1))
        beginning = threading.Thread(target=lambda: started.append(run.begin()))
        started: list[subprocess.Popen[bytes]] = []
        beginning.start()
        run.until_there("process")
        found = supervisor.find(run.folder, "t")
        if isinstance(found, dict) or found.claim.process is None:
            raise Missed(f"nobody has it: {found}")
        found.extend(clock() + 2 * LIMIT_SECONDS)
        found.end()
        os.kill(found.claim.process.pid, signal.SIGCONT)
        beginning.join()
        run.end(started[0])
        require(found._lease is not None, "it has no lease")
        found.close()


def no_files() -> None:
    """A run whose own files can't be made is not begun, and its agent may begin it anew: the command has no part in
    that."""
    for name in ("lease", "output"):
        with a_folder() as folder:
            run = shell(folder / "r", "touch begun")
            (run.folder / name).mkdir(parents=True)
            started = run.begin()
            told = started.stderr.read() if started.stderr is not None else b""
            status = started.wait(LIMIT_SECONDS)
            require(status == 1 and told.startswith(f"firm-supervisor: {name}: ".encode()), f"{status}: {told!r}")
            require(supervisor.find(run.folder, "t") == {"event": "void"}, "it was begun")
            require(not (run.folder / "begun").exists(), "its command has run")


def no_descriptors() -> None:
    """An agent without a free descriptor takes no live run for ended, and loses no lease."""
    with a_folder() as folder:
        run = shell(folder / "r", "sleep 600")
        started = run.begin()
        done = subprocess.run([sys.executable, "-c", FEW, str(run.folder)], capture_output=True, text=True)
        require(done.returncode == 0, done.stderr)
        require(done.stdout.split() == ["none", "none", "found", "found"], done.stdout)
        require(started.poll() is None, "it has ended")
        started.terminate()
        run.end(started)


def killed_at_each_call() -> None:
    """Wherever a supervisor is killed, its files are whole or missing, its command ends, and the agent finds out."""
    with a_folder() as folder:
        seen = set()
        for call in range(1, MAX_CALLS):
            run = shell(folder / f"r.{call}", "echo $$ > pid; exit 8", variables=preloaded(folder, KILL_AT=call))
            status = run.begin().wait(LIMIT_SECONDS)
            for name in ("process", "status"):
                path = run.folder / name
                require(not path.exists() or opened(path.read_bytes()) is not None, f"call {call}: {name} is damaged")
            found = supervisor.find(run.folder, "t")
            kind = found["event"] if isinstance(found, dict) else "running"
            seen.add(kind)
            pid = run.folder / "pid"
            require(not pid.exists() or not is_there(int(pid.read_text() or 0)), "its command runs on")
            require(kind != "void" or not pid.exists(), f"call {call}: it is taken for one that was never begun")
            require(kind != "ended" or isinstance(found, dict) and found["status"] == 8, f"call {call}: {found}")
            if status == 0:
                break
        require(seen == {"void", "lost", "ended"} and status == 0, f"{seen}, {status}")


# The agent's side.


def builds() -> None:
    """A checkout builds the program once, and reports a missing tool if it can't."""
    with a_folder() as folder:
        program = folder / "firm-supervisor"
        supervisor.build(program)
        first = program.stat()
        require(first.st_size < 100_000, f"it has {first.st_size} bytes")
        supervisor.build(program)
        require(program.stat().st_ino == first.st_ino, "it is built again")
        os.utime(program, (0, 0))
        supervisor.build(program)
        require(program.stat().st_ino != first.st_ino, "it is older than its source")
        program.unlink()
        for words, told in {"no-such-cc": "no-such-cc, which builds", "false": "false can't build"}.items():
            try:
                supervisor.build(program, [words])
            except supervisor.NoSupervisor as why:
                require(str(why).startswith(told) and str(program) in str(why), why)
            else:
                raise Missed(f"{words} builds it")


def clean_variables() -> None:
    """A supervisor has no variables of its task, by which the task's user could load code into it."""
    with a_folder() as folder:
        library, mark = folder / "mine.so", folder / "loaded"
        source = "#include <stdio.h>\n#include <unistd.h>\n__attribute__((constructor)) void f(void) { FILE *file = "
        source += f'fopen("{mark}", "a"); fprintf(file, "%d\\n", getppid()); fclose(file); }}\n'
        words = ["cc", "-shared", "-fPIC", "-o", str(library), "-xc", "-"]
        subprocess.run(words, input=source, text=True, check=True)
        work = Work(["/bin/true"], "/", 0.5, {"LD_PRELOAD": str(library)})
        supervisor.begin(folder / "h" / "a.1", "t", work, clock() + LIMIT_SECONDS)
        claim = supervisor.Claim.of(folder / "h" / "a.1")
        ends = time.monotonic() + LIMIT_SECONDS
        while not (folder / "h" / "a.1" / "status").exists() and time.monotonic() < ends:
            time.sleep(LOOK_SECONDS)
        pid = claim.process.pid if claim.process is not None else 0
        require(mark.read_text() == f"{pid}\n", f"{mark.read_text()!r}, and the supervisor is {pid}")
        os.waitpid(pid, 0)


def large_commands() -> None:
    """A command of many words and variables is started; one that the system refuses is reported by name."""
    with a_folder() as folder:
        many = Run(folder / "a", ["/bin/sh", "-c", "exit $(( $# % 256 ))", "sh", *["w" * 100] * 5000])
        require(short_of(many.whole())[0] == 5000 % 256, "many words")
        large = Run(folder / "b", ["/bin/true", "x" * 200_000])
        require(short_of(large.whole()) == (126, False, None, "/bin/true: Argument list too long"), "a large one")


def plain(_: Path) -> Sequence[str]:
    return (str(supervisor.PROGRAM),)


def sanitized(folder: Path) -> Sequence[str]:
    """Build the program once with sanitizers of memory and arithmetic; return its command."""
    program = folder / "sanitized"
    words = [*supervisor.COMPILE, *SANITIZERS, "-o", str(program), str(supervisor.SOURCE)]
    with BUILDING:
        if not program.exists() and subprocess.run(words, capture_output=True).returncode != 0:
            raise Skipped("the compiler has no sanitizers")
    return (str(program),)


def under_valgrind(_: Path) -> Sequence[str]:
    valgrind = shutil.which("valgrind")
    if valgrind is None:
        raise Skipped("valgrind is not installed")
    return (valgrind, *VALGRIND, str(supervisor.PROGRAM))


def asked_of(check: Callable[[Sequence[str]], None], make: Callable[[Path], Sequence[str]], folder: Path) -> None:
    check(make(folder))


def name_of(check: object) -> str:
    return str(getattr(check, "__name__")).replace("_", " ")


def checks(is_quick: bool, folder: Path) -> dict[str, Check]:
    """Return each check by name."""
    supervisor.build()
    ways = [("", plain, OF_ALL), (", sanitized", sanitized, OF_ALL)]
    ways += [] if is_quick else [(", under valgrind", under_valgrind, UNHURRIED)]
    found: dict[str, Check] = {}
    for name, make, asked in ways:
        found |= {f"{name_of(check)}{name}": partial(asked_of, check, make, folder) for check in asked}
    others = [no_room_for_processes, held_up, late_claim, storm, descriptors, full_disk, no_descriptors]
    others += [found_at_its_claim, no_files]
    others += [killed_at_each_call]
    others += [builds, clean_variables, large_commands]
    return found | {name_of(check): check for check in others}


def main() -> int:
    parser = argparse.ArgumentParser(description=(__doc__ or "").splitlines()[0])
    parser.add_argument("--quick", action="store_true", help="the part that tests/quick runs")
    parser.add_argument("--only", default="", help="run only the checks whose names have these words")
    options = parser.parse_args()
    if options.quick:
        print_skipped("valgrind", "--quick leaves out slow checks")
    with a_folder() as folder:
        chosen = {name: check for name, check in checks(options.quick, folder).items() if options.only in name}
        return run_suites(Suite(chosen, AT_A_TIME))


if __name__ == "__main__":
    run_script(main)
