"""Kill and stop firmd, firm, the queue, agents and supervisors at random while users submit, and judge the runs.

usage: tools/run tests/chaos.py [--quick] [--seconds S] [--seed N] [--program FILE]
All are real: firmd with the built program, firm-api, two of firm-agent, and the tasks' processes. Each attempt writes
its start and its end to a separate ledger. From the ledgers and the database alone, the judge requires that each
submission was made once, that no two attempts of a task ran at a time, and that each task ended once or is reported as
lost. The last line is 'N passed, M failed', and the exit status is 1 if one failed. --quick goes on for five seconds.
"""

from __future__ import annotations

import argparse
import json
import os
import random
import signal
import subprocess
import threading
import time
from collections import Counter
from contextlib import suppress
from dataclasses import dataclass, field
from functools import partial
from pathlib import Path

from agent_kit import AGENT, is_there
from harness import program
from harness.checks import Suite, require, run_script, run_suites
from queue_kills import Book, Submitter, judged_book
from queue_client import LIMIT_SECONDS
from queue_kit import Case, Size

LEASE_SECONDS, MARGIN_SECONDS = 6, 20  # a busy host may delay a supervisor by this much
END_SECONDS = 300.0  # for all submitted tasks, after the last kill
MAX_LIVE = 40  # tasks, beyond which none is submitted
# The lock is the shell's alone, which ends with its supervisor.
COMMAND = """\
exec 9> "$CHAOS/$FIRM_ID.lock"
flock -n 9 || echo "$FIRM_ID $FIRM_ATTEMPT doubled" >> "$CHAOS/ledger"
echo "$FIRM_ID $FIRM_ATTEMPT begin" >> "$CHAOS/ledger"
sleep "$1" 9>&-
echo "$FIRM_ID $FIRM_ATTEMPT end" >> "$CHAOS/ledger"
exit "$2"
"""


class RealSubmitter(Submitter):
    """Submits tasks with processes, up to a bound of live ones."""

    pause = 0.2

    def command(self) -> list[str]:
        self._wait_for_room()
        seconds, status = self.draw.choice(["0.05", "0.3", "1.5"]), self.draw.choice(["0", "0", "0", "7"])
        return ["env", f"CHAOS={self.case.folder}", "sh", "-c", COMMAND, "sh", seconds, status]

    def _wait_for_room(self) -> None:
        while not self.is_over.is_set():
            with suppress(Exception):  # the queue is away
                with self.case.client() as client:
                    if sum(client.states().values()) < MAX_LIVE:
                        return
            time.sleep(self.pause)


@dataclass
class RealAgent:
    """A firm-agent with a separate state."""

    case: Case
    name: str
    machines: str
    before: list[str] = field(default_factory=list)  # words of another program, in the place of the agent's
    server: list[str] = field(default_factory=list)  # options, in the place of the Unix socket
    process: subprocess.Popen[bytes] | None = None

    def start(self) -> None:
        words = [*(self.before or AGENT), "run", *(self.server or [f"--server=unix:{self.case.api}"])]
        words += [f"--tenant={self.case.tenant}"]
        words += [f"--name={self.name}", f"--machines={self.machines}", f"--state={self.case.folder / self.name}"]
        self.process = subprocess.Popen(words, stdin=subprocess.DEVNULL, stderr=self.case.log)

    def kill(self) -> None:
        if self.process is not None:
            self.process.kill()
            self.process.wait()

    def send(self, number: int) -> None:
        if self.process is not None:
            self.process.send_signal(number)

    def status(self) -> int | None:
        """Return the exit status, once it ends."""
        return self.process.wait(LIMIT_SECONDS) if self.process is not None else None

    def supervisors(self) -> list[int]:
        """Return the live processes that have claimed runs."""
        found = []
        for path in (self.case.folder / self.name / "runs").glob("*/*/process"):
            with suppress(OSError, ValueError):
                claim = json.loads(path.read_text())
                if claim is not None and not (path.parent / "status").exists() and is_there(claim["pid"]):
                    found.append(int(claim["pid"]))
        return found


@dataclass
class Chaos:
    """The kinds of kills, and the count of each."""

    case: Case
    agents: list[RealAgent]
    draw: random.Random
    counts: Counter[str] = field(default_factory=Counter)

    def strike(self) -> None:
        kinds = ["queue", "firmd", "firm", "agent", "long agent", "supervisor", "supervisor", "stop", "stop", "stop"]
        kind = self.draw.choice(kinds)
        self.counts[kind] += 1
        getattr(self, f"_{kind.replace(' ', '_')}")()

    def _queue(self) -> None:
        self.case.kill()
        time.sleep(self.draw.choice([0, 0.05, 0.5]))
        self.case.start()

    def _firmd(self) -> None:
        self.case.firmd.kill()
        time.sleep(self.draw.choice([0, 0.05, 0.5]))
        self.case.firmd.start()

    def _firm(self) -> None:
        """Kill firm, which ends firmd; start firmd again."""
        os.kill(self.case.firmd.firm_process(), signal.SIGKILL)
        self.case.firmd.status()
        self.case.firmd.start()

    def _agent(self, seconds: float = 0.0) -> None:
        agent = self.draw.choice(self.agents)
        agent.kill()
        time.sleep(seconds or self.draw.choice([0, 0.1, 1.0]))
        agent.start()

    def _long_agent(self) -> None:
        """Keep an agent away for about the length of its lease."""
        self._agent(self.draw.uniform(0.8, 1.5) * LEASE_SECONDS)

    def _supervisor(self) -> None:
        found = self.draw.choice(self.agents).supervisors()
        if found:
            with suppress(ProcessLookupError):
                os.kill(self.draw.choice(found), signal.SIGKILL)

    def _stop(self) -> None:
        """Suspend one for a while; a supervisor for less than the lease, which it could not keep."""
        processes = [self.case.firmd.running().pid, self.case.firmd.firm_process()]
        processes += [
            one.pid for one in (self.case.queue, *(agent.process for agent in self.agents)) if one is not None
        ]
        supervisors = [pid for agent in self.agents for pid in agent.supervisors()]
        victim = self.draw.choice([*processes, *supervisors[:2]])
        with suppress(ProcessLookupError):
            os.kill(victim, signal.SIGSTOP)
            time.sleep(self.draw.choice([0.1, 0.5, 2.0]))
            os.kill(victim, signal.SIGCONT)


def chaos(program_path: str, seed: int, seconds: float) -> None:
    """Each submission ends exactly once, or is reported as lost."""
    draw = random.Random(seed)
    options = (f"--lease={LEASE_SECONDS}", f"--margin={MARGIN_SECONDS}")
    with Case(program_path, *options, size=Size(churn=200)).start() as case:
        found = Chaos(case, [RealAgent(case, "a1", "m1=4,m2=2"), RealAgent(case, "a2", "m3=4")], draw)
        submitter = RealSubmitter(case, seed)
        thread = threading.Thread(target=submitter.serve)
        try:
            for agent in found.agents:
                agent.start()
            thread.start()
            with case.client() as client:
                case.until(
                    lambda: [row["state"] for row in client.ask("machines")] == ["up"] * 3, "the machines are there"
                )
            ends = time.monotonic() + seconds
            while time.monotonic() < ends:
                time.sleep(draw.choice([0.05, 0.3, 1.0]))
                found.strike()
            submitter.is_over.set()
            thread.join(LIMIT_SECONDS)
            require(not thread.is_alive(), "the last submission is answered")
            with case.client() as client:
                case.until(lambda: client.states() == {}, f"all have ended (seed {seed})", END_SECONDS)
                case.until(lambda: case.firm_tasks() == [], "firm has none of them")
            case.until(lambda: not any(agent.supervisors() for agent in found.agents), "no run is left")
        finally:
            submitter.is_over.set()
            for agent in found.agents:
                agent.kill()
        book = judged_book(case, submitter, "lost")
        judge_ledger(book, case.folder / "ledger")
        outcomes = Counter(book.tasks.values()), Counter(one.outcome for all in book.attempts.values() for one in all)
        print(f"    seed {seed}: {sum(found.counts.values())} strikes {dict(found.counts)}", flush=True)
        print(f"    {len(submitter.answers)} submissions, tasks {dict(outcomes[0])}", flush=True)
        print(f"    attempts {dict(outcomes[1])}", flush=True)


def judge_ledger(book: Book, path: Path) -> None:
    """Require, from the processes' own ledgers, that no attempt began twice, no two ran at a time, and each ended
    attempt has ended."""
    lines = Counter(path.read_text().splitlines()) if path.exists() else Counter[str]()
    doubled = [line for line in lines if line.endswith("doubled")]
    require(not doubled, f"ran twice at a time: {doubled}")
    twice = [line for line, count in lines.items() if count > 1]
    require(not twice, f"written twice: {twice}")
    for task, records in book.attempts.items():
        for record in records:
            has_ended = f"{task} {record.number} end" in lines
            if record.outcome == "done":
                require(has_ended, f"{task} is done without its end")
            if record.outcome == "void":
                require(f"{task} {record.number} begin" not in lines, f"{record} has begun")
    known = {f"{record.task} {record.number}" for records in book.attempts.values() for record in records}
    strangers = {line.rpartition(" ")[0] for line in lines} - known
    require(not strangers, f"processes of no attempt: {strangers}")


def main() -> int:
    parser = argparse.ArgumentParser(description=(__doc__ or "").splitlines()[0])
    parser.add_argument("--quick", action="store_true", help="go on for five seconds")
    parser.add_argument("--seconds", type=float, default=180.0, metavar="S", help="duration (default: %(default)g)")
    parser.add_argument(
        "--seed", type=int, default=random.randrange(10**6), metavar="N", help="seed of all random choices"
    )
    program.add_program(parser)
    given = parser.parse_args()
    run = partial(chaos, given.program, given.seed, 5.0 if given.quick else given.seconds)
    return run_suites(Suite({f"chaos, seed {given.seed}": run}))


if __name__ == "__main__":
    run_script(main)
