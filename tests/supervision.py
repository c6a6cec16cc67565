"""Check a task's processes after the loss of its supervisor, agent or events, and agents of a late, full or hung queue.

usage: tools/run tests/supervision.py [--quick] [--only WORDS]
Each check prints a line; the last line is 'N passed, M failed', and the exit status is 1 if one failed. It needs Python
3. Checks of cgroups need a writable cgroup v2, and some of them root; a check that can't run here is skipped with a
line. --quick leaves out checks of more than a second or two.
"""

from __future__ import annotations

import argparse
import json
import os
import shutil
import signal
import subprocess
import sys
import time
from collections.abc import Iterator
from contextlib import contextmanager, suppress
from functools import partial
from pathlib import Path

from agent_kit import AGENT, SOON_SECONDS, WAITS_FOR_GO, Case, is_there
from firm.agent.queue import MOST_CLAIMS
from harness.checks import Check, Skipped, Suite, print_skipped, require, run_script, run_suites
from harness.files import write_program
from queue_stand_in import BOTH, Cluster
from queue_words import malformed_rows, malformed_words

AT_A_TIME = 6  # checks, which mostly wait
LEASE_SECONDS = 3.0  # for the end of a lease
LOOK_SECONDS = 1.0  # a hidden process changes its number within this time, also on a busy host
UNKEPT = "tasks have no cgroups"  # the agent's warning
# Nothing identifies this process as the run's: it has no environment, another session and parent, and a number that
# changes.
HIDDEN = """import os, time
os.setsid()
while True:
    if os.fork():
        os._exit(0)
    with open("hidden.new", "w") as file:
        file.write(str(os.getpid()))
    os.rename("hidden.new", "hidden")
    time.sleep(0.01)
"""
# An agent that waits for a file before it asks for a run's lease.
WAITING = """\
import asyncio, os, sys
from firm.agent import daemon as agent
from firm.agent.queue import QueueSource
sign, may_begin = sys.argv.pop(1), QueueSource.may_begin
async def waiting(source, run):
    while not os.path.exists(sign):
        await asyncio.sleep(0.05)
    return await may_begin(source, run)
QueueSource.may_begin = waiting
sys.exit(agent.main())
"""
LEAVES_HIDDEN = "env -i {python} -S hidden.py & "
# A stand-in for systemd's part: a scope is a delegated cgroup, in which systemd-run becomes the command.
SYSTEMD_RUN = """#!{python}
import os, sys
from pathlib import Path
words = sys.argv[1:]
with open("{folder}/scopes", "a") as file:
    print(*words, file=file)
if os.path.exists("{folder}/broken"):
    sys.exit("no bus")
first = next(place for place, word in enumerate(words) if not word.startswith("--"))
if words[first:] == ["true"]:
    sys.exit()
path = Path("{base}", next(word for word in words if word.startswith("--unit="))[len("--unit="):])
path.mkdir()
os.setxattr(path, "trusted.delegate", b"1")
(path / "cgroup.procs").write_text("0")
os.execvp(words[first], words[first:])
"""


def own_cgroup() -> Path:
    """Return this process's cgroup v2, in which it may create others."""
    paths = [row[3:] for row in Path("/proc/self/cgroup").read_text().splitlines() if row.startswith("0::")]
    mounts = [row.split() for row in Path("/proc/self/mountinfo").read_text().splitlines() if " - cgroup2 " in row]
    if not paths or not mounts:
        raise Skipped("no cgroup v2 is mounted")
    found = Path(mounts[0][4]) / paths[0].removeprefix(mounts[0][3]).lstrip("/")
    probe = found / f"firm-test-{os.urandom(4).hex()}"
    try:
        probe.mkdir()
        probe.rmdir()
    except OSError as error:
        raise Skipped(f"no cgroup can be made in {found}: {error.strerror}") from None
    return found


def needs_mounts() -> None:
    """Skip the check without the right to create a mount namespace."""
    words = ["unshare", "--mount", "true"]
    if os.getuid() != 0 or shutil.which("unshare") is None or subprocess.run(words, capture_output=True).returncode:
        raise Skipped("it needs root, and util-linux's unshare")


def without_mounts() -> list[str]:
    """Return the prefix of a command that hides the cgroups from it; empty on a host without usable cgroups."""
    try:
        own_cgroup()
    except Skipped:
        return []
    needs_mounts()
    unmount = "for at in $(awk '/ - cgroup2 / { print $5 }' /proc/self/mountinfo); do umount $at; done; exec \"$@\""
    return ["unshare", "--mount", "sh", "-c", unmount, "sh"]


class Hidden:
    """The hidden process of a case's task, and the folder it runs in."""

    def __init__(self, folder: Path) -> None:
        folder.mkdir(exist_ok=True)
        (folder / "hidden.py").write_text(HIDDEN)
        self.file = folder / "hidden"

    def pid(self) -> int:
        return int(self.file.read_text()) if self.file.exists() else 0

    def is_there(self) -> bool:
        """Return whether the process is alive, under whatever number."""
        before, ends = self.pid(), time.monotonic() + LOOK_SECONDS
        while self.pid() == before and time.monotonic() < ends:
            time.sleep(0.01)
        return self.pid() != before

    def end(self) -> None:
        while self.is_there():
            with suppress(ProcessLookupError):
                os.kill(self.pid(), signal.SIGKILL)


@contextmanager
def hidden_task() -> Iterator[tuple[Cluster, Hidden]]:
    """Run a task with a hidden process; end that process after the check, passed or failed."""
    with Cluster() as case:
        case.submit("a", LEAVES_HIDDEN.format(python=sys.executable) + WAITS_FOR_GO, grace=0.2)
        hidden = Hidden(case.folder)
        try:
            yield case, hidden
        finally:
            case.kill_agent("a1")
            hidden.end()


def claims_of(case: Case) -> list[dict[str, object]]:
    """Return the claims of all runs, in their order."""
    found = sorted(case.folder.glob("**/a.*/process"), key=lambda path: int(path.parent.name.rpartition(".")[2]))
    return [json.loads(path.read_text()) for path in found]


def begins(case: Cluster, hidden: Hidden) -> None:
    """Wait until the task runs, its hidden process exists, and the task has reported its start."""
    case.until_told("running", "a")
    case.until(lambda: hidden.is_there() and case.text("a.log"), "a runs and has left a process")


def is_done(case: Cluster) -> None:
    """Let the task end by itself, and wait until the queue has recorded the end."""
    case.go("a")
    require(case.until_told("ended", "a")["status"] == 0, case.queue.told)


def has_left_none(case: Case) -> None:
    """Require that each run had a cgroup, and that it is removed."""
    claims = claims_of(case)
    groups = [claim["group"] for claim in claims]
    require(groups and all(groups), f"a run had no cgroup: {claims}")
    require(not any(Path(str(group)).exists() for group in groups), f"they are left: {groups}")


# Cgroups.


def killed_supervisor(is_watched: bool) -> None:
    """The processes that a killed supervisor leaves are ended before the task starts again, however well they hide."""
    own_cgroup()
    with hidden_task() as (case, hidden):
        case.start_registered()
        case.firmd.round("start a m1")
        begins(case, hidden)
        if not is_watched:
            case.kill_agent("a1")
        os.kill(case.supervisor("a", 1), signal.SIGKILL)
        if not is_watched:
            case.firmd.round("preempt a m1")
            case.start_registered()
        case.until_told("lost", "a")
        if not is_watched:
            require(not hidden.is_there(), "its process is still there")
            return
        case.until(lambda: case.text("a.log").count("begin") == 2, "a begins again")
        is_done(case)
        require(not hidden.is_there(), "a process is left of a task that is done")
        has_left_none(case)


def hidden_ends() -> None:
    """After a task's end, and after its preemption, no process and no cgroup is left."""
    own_cgroup()
    with hidden_task() as (case, hidden):
        case.start_registered()
        case.firmd.round("start a m1")
        begins(case, hidden)
        case.firmd.round("preempt a m1")
        case.until_told("ended", "a")
        require(not hidden.is_there(), "it is there when a is preempted")
        case.firmd.round("start a m1")
        case.until(hidden.is_there, "a begins again")
        case.go("a")
        case.until(lambda: len(case.queue.ends("a")) == 2, "a is done")
        require(not hidden.is_there(), "it is there when a is done")
        has_left_none(case)


def leaves_its_group() -> None:
    """A task that moves to another cgroup, as with systemd-run, is found by its environment."""
    leaves = f"echo $$ > {own_cgroup()}/cgroup.procs; "
    with Cluster() as case:
        case.submit("a", leaves + WAITS_FOR_GO)
        case.start_registered()
        case.firmd.round("start a m1")
        case.until_told("running", "a")
        case.until(lambda: case.text("a.log"), "a runs")
        old = case.processes()["a"]
        group = claims_of(case)[0]["group"]
        case.until(lambda: Path(f"{group}/cgroup.procs").read_text() == "", "it has left its cgroup")
        os.kill(case.supervisor("a", 1), signal.SIGKILL)
        case.until(lambda: case.text("a.log").count("begin") == 2, "a begins again")
        require(not any(map(is_there, old)), "what the supervisor left is still there")
        is_done(case)
        has_left_none(case)


def without_a_group() -> None:
    """An agent that can't create a cgroup warns at its start, and finds processes by their environment."""
    before = without_mounts()
    with Cluster("a") as case:
        case.start_registered(before=[*before, *AGENT])
        case.until(lambda: UNKEPT in case.told(), "the warning at the start")
        require(not before or "no cgroup v2 is mounted" in case.told(), case.told())
        case.firmd.round("start a m1")
        case.until_begun("a")
        case.until_told("running", "a")
        old = case.processes()["a"]
        os.kill(case.supervisor("a", 1), signal.SIGKILL)
        case.until(lambda: case.text("a.log").count("begin") == 2, "a begins again")
        require(not any(map(is_there, old)), "what the supervisor left is still there")
        is_done(case)
        require([claim["group"] for claim in claims_of(case)] == [None, None], claims_of(case))
        require(case.told().count(UNKEPT) == 1, case.told())


def start_under_systemd(case: Cluster) -> Path:
    """Start the agent where systemd seems to own the cgroups; return the cgroup that has its scopes."""
    needs_mounts()
    base = own_cgroup()
    write_program(case.folder / "systemd-run", SYSTEMD_RUN.format(python=sys.executable, folder=case.folder, base=base))
    systemd = 'mount -t tmpfs none /run && mkdir -p /run/systemd/system && exec "$@"'
    case.start_registered(before=["unshare", "--mount", "sh", "-c", systemd, "sh", *AGENT])
    return base


def scope_of_systemd() -> None:
    """If systemd owns the cgroups, each run gets a scope."""
    with hidden_task() as (case, hidden):
        base = start_under_systemd(case)
        case.firmd.round("start a m1")
        begins(case, hidden)
        claim, asked = claims_of(case)[0], case.text("scopes")
        require("--scope" in asked and "Delegate=yes" in asked and "--user" not in asked, asked)
        scope = Path(str(claim["group"])).parent
        require(scope.parent == base and scope.name.endswith(".scope"), claim)
        os.kill(int(str(claim["pid"])), signal.SIGKILL)
        case.until(lambda: case.text("a.log").count("begin") == 2, "a begins again")
        is_done(case)
        require(not hidden.is_there(), "a process is left of a task that is done")
        has_left_none(case)
        require(UNKEPT not in case.told(), case.told())


def no_scope() -> None:
    """If systemd refuses scopes, the agent reports that, and tasks run without."""
    with Cluster() as case:
        case.submit("a", ["true"])
        (case.folder / "broken").touch()
        start_under_systemd(case)
        case.until(lambda: f"{UNKEPT} (systemd-run: no bus)" in case.told(), "the warning at the start")
        case.firmd.round("start a m1")
        require(case.until_told("ended", "a")["status"] == 0, case.queue.told)
        require(claims_of(case)[0]["group"] is None and case.told().count(UNKEPT) == 1, case.told())


def threads_alone() -> None:
    """A threaded cgroup can have no child for processes; the agent detects that before any task starts."""
    outer = own_cgroup() / f"firm-test-{os.urandom(4).hex()}"  # a separate one: it can hold no processes then
    inner = outer / "threads"
    inner.mkdir(parents=True)
    try:
        (inner / "cgroup.type").write_text("threaded")
        ask = "from firm.agent import cgroups; print(cgroups.group_trouble())"
        words = f"echo 0 > {outer}/cgroup.procs && echo 0 > {inner}/cgroup.threads"
        words += f" && exec {sys.executable} -c '{ask}'"
        asked = subprocess.run(["sh", "-c", words], capture_output=True, text=True, timeout=300)
        require(asked.stdout == f"{inner} has threads alone\n", asked)
        require([path for path in inner.iterdir() if path.is_dir()] == [], "a cgroup is left")
    finally:
        inner.rmdir()
        outer.rmdir()


# Events that are reset to an earlier copy.


def goes_on() -> None:
    """A task that firm still places on its machine runs on, though its events are lost; an ended task stays ended."""
    with Cluster("a", "b", "c") as case:
        case.start_registered(machines=BOTH)
        early = case.text("a1/events.jsonl")
        case.firmd.round("start a m1 start b m1 start c m2")
        case.until_begun("a", "b", "c")
        for task in "abc":
            case.until_told("running", task)
        old = sorted(case.processes()["a"])
        case.go("c")
        case.until_told("ended", "c")
        case.kill_agent("a1")
        case.go("b")
        case.until_runs("a")
        (case.folder / "a1/events.jsonl").write_text(early)
        case.start_registered(machines=BOTH)
        require(case.until_told("ended", "b")["status"] == 0, case.queue.told)
        require("a on m1 (run 1) was open when the agent ended, and events.jsonl lacks it" in case.told(), case.told())
        require(old == sorted(case.processes()["a"]) or is_there(case.supervisor("a", 1)), "a goes on")
        is_done(case)
        counts = {task: case.text(f"{task}.log").count("begin") for task in "abc"}
        require(counts == {"a": 1, "b": 1, "c": 1}, counts)
        case.until(lambda: list((case.folder / "a1/open").iterdir()) == [], "no notes of open runs are left")


def noted_twice() -> None:
    """A run whose end was recorded ends once, though a kill left its note in place."""
    with Cluster() as case:
        case.submit("a", "exit 3")
        case.start_registered()
        case.firmd.round("start a m1")
        require(case.until_told("ended", "a")["status"] == 3, case.queue.told)
        case.kill_agent("a1")
        start = case.events("start")[0]
        (case.folder / f"a1/open/{start['token']}").write_text(json.dumps(start))
        (case.folder / "a1/open/0badc0de").write_text('{"event": "start", "ru')  # torn
        case.start_registered()
        require(len(case.events("start")) == 1 and len(case.events("ended")) == 1, case.text("a1/events.jsonl"))
        require(list((case.folder / "a1/open").iterdir()) == [], "the notes are left")


def records_of_runs() -> None:
    """With --log-format json a message about a run names the run, its task, job and machine."""
    with Cluster() as case:
        case.submit("a", ["true"])
        case.start_registered(more=["--log-format", "json"])
        case.firmd.round("start a m1")
        case.until(lambda: '"message": "a on m1 (run 1) is done' in case.told(), "the message on the end")
        told = [row for row in case.rows("log") if "run" in row]
        require([row["message"].split(" (run 1) ")[1][:7] for row in told] == ["runs, p", "is done"], told)
        row = {"level": "info", "program": "firm-agent", "run": 1, "task": "a", "job": "j", "machine": "m1"}
        require(all(told_row.items() >= row.items() for told_row in told), told)


# The lease, and the queue that grants it.


def ended_as_it_begins() -> None:
    """A run that is to end between its claim and its start does not start."""
    with Cluster("a") as case:
        case.start_registered(before=[sys.executable, "-c", WAITING, str(case.folder / "go")])
        case.firmd.round("start a m1")
        case.until(lambda: case.queue.attempts, "it is claimed")
        case.queue.tell("a1", tell="end", tokens=[case.queue.token("a")])
        case.until(lambda: case.events("end"), "the request to end")
        case.firmd.round("preempt a m1")  # otherwise the task would start again
        (case.folder / "go").touch()
        case.until(lambda: case.queue.told, "the report on the run")
        require([event["event"] for event in case.queue.told] == ["void"], case.queue.told)
        require(not case.text("a.log"), "it was begun")


def lost_before_it_began() -> None:
    """A run that was declared lost before its first lease does not start after its agent registers again."""
    with Cluster("a", lease=LEASE_SECONDS) as case:
        case.start_registered(before=[sys.executable, "-c", WAITING, str(case.folder / "go")])
        case.firmd.round("start a m1")
        case.until(lambda: case.queue.attempts, "it is claimed")
        case.queue.close()
        time.sleep(2 * LEASE_SECONDS)
        (case.folder / "go").touch()
        time.sleep(SOON_SECONDS)
        case.queue.attempts[case.queue.token("a")].is_open = False
        case.queue.work.clear()  # otherwise the task would start again: a further claim is void too
        case.queue.open()
        case.until(lambda: case.queue.told, "the report on the run")
        require({event["event"] for event in case.queue.told} == {"void"}, case.queue.told)
        require(not case.text("a.log"), "it was begun")


def queue_full() -> None:
    """While the queue's disk is full, its agents keep their connections; they report all events once it has room."""
    with Cluster("a", "b") as case:
        case.start_registered()
        case.firmd.round("start a m1")
        case.until_told("running", "a")
        case.queue.is_full = True
        case.queue.tell("a1", tell="keep", tokens=[case.queue.token("a")])
        case.firmd.round("start b m1")
        case.until_begun("a", "b")
        case.go("a")
        case.until_runs("b")
        case.until(lambda: "not-written" in case.told(), "the message on an event")
        time.sleep(SOON_SECONDS)
        require(case.queue.registrations == 1, f"it has registered {case.queue.registrations} times")
        case.queue.is_full = False
        require(case.until_told("ended", "a")["status"] == 0, "how a ended")
        case.until_told("running", "b")
        case.until(lambda: case.queue.kept, "the report on a")


def queue_hung() -> None:
    """Runs go on while the queue receives heartbeats but its hung disk delays every answer."""
    with Cluster("a", "b", lease=LEASE_SECONDS) as case:
        case.start_registered()
        case.firmd.round("start a m1")
        case.until_told("running", "a")
        case.until_begun("a")
        case.queue.is_hung = True
        case.firmd.round("start b m1")
        time.sleep(3 * LEASE_SECONDS)
        require(case.processes().keys() == {"a"}, case.processes())
        case.queue.close()
        case.queue.is_hung = False
        case.queue.open()
        case.go("a", "b")
        for task in "ab":
            require(case.until_told("ended", task)["status"] == 0, f"how {task} ended")
        require(case.text("a.log") == "begin m1\nend\n", case.text("a.log"))


def claims_at_a_time() -> None:
    """However many tasks are placed, only a few claims wait for answers, so that later heartbeats reach the queue."""
    tasks = [f"t{at}" for at in range(160)]
    with Cluster(*tasks) as case:
        case.start_registered(machines="m1=64,m2=64,m3=64")
        case.queue.is_hung = True
        case.firmd.round(" ".join(f"start {task} m{at % 3 + 1}" for at, task in enumerate(tasks)))
        case.until(lambda: case.queue.unanswered >= MOST_CLAIMS, "the claims")
        time.sleep(SOON_SECONDS)
        require(case.queue.unanswered == MOST_CLAIMS, f"{case.queue.unanswered} claims wait")


def name_of(check: Check) -> str:
    return check.__name__.replace("_", " ")


def checks(is_quick: bool) -> dict[str, Check]:
    """Return each check by name."""
    found: dict[str, Check] = {}
    for is_watched, who in ((True, "supervisor"), (False, "supervisor and agent")):
        found[f"killed {who}"] = partial(killed_supervisor, is_watched)
    for check in (
        hidden_ends,
        leaves_its_group,
        scope_of_systemd,
        no_scope,
        without_a_group,
        threads_alone,
        goes_on,
        noted_twice,
        records_of_runs,
        ended_as_it_begins,
        lost_before_it_began,
        malformed_words,
        malformed_rows,
        queue_full,
        queue_hung,
        claims_at_a_time,
    ):
        found[name_of(check)] = check
    return {name: check for name, check in found.items() if not (is_quick and name in LONG)}


LONG = ["scope of systemd"]


def main() -> int:
    parser = argparse.ArgumentParser(description=(__doc__ or "").splitlines()[0])
    parser.add_argument("--quick", action="store_true", help="the part that tests/quick runs")
    parser.add_argument("--only", default="", help="run only the checks whose names have these words")
    options = parser.parse_args()
    if options.quick:
        print_skipped(", ".join(LONG), "--quick leaves out slow checks")
    chosen = {name: check for name, check in checks(options.quick).items() if options.only in name}
    return run_suites(Suite(chosen, AT_A_TIME))


if __name__ == "__main__":
    run_script(main)
