"""Check the built program with live clients, which hold its input open and wait for each reply.

usage: tools/run tests/live.py [--program FILE] [--under COMMAND] [--only WORDS] [--streams N] [--first SEED]
With 1, 2 and 8 workers, random streams get the same replies line by line as in one go. During long rounds it sends more
of another tenant's lines than a pipe holds; their replies follow in order. Meanwhile the output closes (status 5), the
input ends (all replies, status 0), a terminal hangs up (status 4), and the program is stopped and continued. While it
waits, for input or for rounds, it takes no processor time. With 1 to 8 workers it has two threads more than workers,
and one less if the thread that reads ahead can't be started.

Each check prints a line; the exit status is 1 if one failed. It needs a C compiler (cc) for refuse.c, which makes a
round as long as a check wants it.
"""

from __future__ import annotations

import argparse
import os
import pty
import random
import select
import signal
import subprocess
import tempfile
import threading
import time
import tty
from contextlib import contextmanager
from dataclasses import dataclass
from functools import partial
from pathlib import Path
from typing import Callable, Iterator

from harness import program, service
from harness.checks import Check, Suite, require, run_script, run_suites
from harness.small_streams import random_stream

ROSTER = b"tenant,nodes,arcs,life,spread,churn\nalpha,9,24,1000,1,2\nbeta,8,30,1000000,0,3\n"
ROWS = [
    b"alpha machine m1 2",
    b"alpha machine m2 2",
    b"alpha job j 10",
    b"alpha task j a",
    b"beta machine m1 1",
    b"beta job low 2",
    b"beta task low l",
]
FIRST_ROUND, ROUND_OF_BETA = b"alpha 5 ok round cost 0 start a m1", b"beta 4 ok round cost 0 start l m1"
# A worker's wait for each request for memory in a round, the longest wait for a held one, and the time limit of lines
# after a round.
DELAY_SECONDS, HOLD_SECONDS = 0.3, 120
AT_ONCE_SECONDS = 20
# A pause in which the service has gone to sleep.
PAUSE_SECONDS = 0.05
# More than a pipe holds, in fewer lines than answers are held.
LINES_MEANWHILE, LINE_BYTES = 1000, 250
# Answers after two rounds, with which there is room for one more.
HELD = 1_021


@dataclass(frozen=True)
class Options(program.ProgramOptions):
    only: str
    streams: int
    first: int


class Starter:
    """Start clients of the program, each with its roster."""

    def __init__(self, options: Options, folder: str) -> None:
        self.options, self.library = options, program.build_refusing(folder)
        self.hold = Path(folder) / "hold"

    def client(
        self,
        roster_path: str,
        workers: str,
        stdin: int = subprocess.PIPE,
        is_slow: bool = False,
        **asked: int | Path,
    ) -> program.Client:
        """Start a client, whose rounds may take a while; the orders for refuse.c have its names."""
        if is_slow:
            asked["delay_memory"] = int(1000 * DELAY_SECONDS)
        environment = {"LD_PRELOAD": self.library} if asked else {}
        environment.update({name.upper(): str(number) for name, number in asked.items()})
        return program.Client(self.options.command(workers), roster_path, environment, stdin)

    @contextmanager
    def held_client(self, roster_path: str, workers: str) -> Iterator[program.Client]:
        """Start a client whose rounds do not end before they are let go, or for a long time."""
        self.hold.touch()
        letting_go = threading.Timer(HOLD_SECONDS, self.let_go)
        letting_go.start()
        try:
            with self.client(roster_path, workers, hold_memory=self.hold) as client:
                yield client
        finally:
            letting_go.cancel()

    def let_go(self) -> None:
        self.hold.unlink(missing_ok=True)


def add_rows(client: program.Client) -> None:
    for line in ROWS:
        require(is_ok(client.ask(line)), line)


def is_ok(reply: bytes | None) -> bool:
    return reply is not None and reply.endswith(b" ok")


def is_waiting(client: program.Client) -> bool:
    """Return whether no reply is there yet."""
    return not client.received and not select.select([client.output], [], [], 0)[0]


def line_by_line(starter: Starter, workers: str) -> None:
    """Each reply of a random stream comes before the next line is sent; all are those of the whole stream in one go."""
    options = starter.options
    for seed in range(options.first, options.first + options.streams):
        roster, text = random_stream(random.Random(seed))
        plain = service.opened(roster)
        with program.Roster(roster) as roster_path, starter.client(roster_path, workers) as client:
            replies: list[bytes] = []
            *lines, rest = text.split(b"\n")
            for raw, line in zip(lines, service.lines_of(text)):
                wanted = service.answer_line(plain, line)
                client.send(raw + b"\n")
                if wanted is not None:
                    got = client.reply()
                    require(got == wanted, f"seed {seed}: {got!r} to {raw!r} and not {wanted!r}")
                    replies.append(wanted + b"\n")
            client.send(rest)
            end = client.close()
            whole = program.run(options.command(workers), roster_path, text)
            require(whole == (0, b"".join(replies) + end.output, b""), f"seed {seed}: {whole} in one go")
            require(end == (0, end.output, b""), f"seed {seed}: {end} at the end")


def lines_during_a_round(starter: Starter, workers: str) -> None:
    """While a round is solved another tenant's lines are answered; the replies follow its own at once."""
    with program.Roster(ROSTER) as roster_path, starter.held_client(roster_path, workers) as client:
        add_rows(client)
        client.send(b"alpha round\n")
        time.sleep(PAUSE_SECONDS)
        client.send(b"".join(b"beta where l".ljust(LINE_BYTES) + b"\n" for _ in range(LINES_MEANWHILE)))
        require(is_waiting(client), "the lines were read, but not while the round was solved")
        starter.let_go()
        require(client.reply() == FIRST_ROUND, "the round's reply comes first")
        solved = time.monotonic()
        for number in range(LINES_MEANWHILE):
            require(client.reply() == b"beta %d ok waits 0" % (number + 4), f"reply {number + 4}")
        behind = time.monotonic() - solved
        require(behind < AT_ONCE_SECONDS, f"the replies came {behind:.3f} s after the round")
        require(client.close() == (0, b"", b""), "its end")


def idle(starter: Starter, workers: str) -> None:
    """A service sleeps that waits for input, for one round or for two, also with many answers held, or for input
    that it already reads ahead."""
    with program.Roster(ROSTER) as roster_path, starter.held_client(roster_path, workers) as client:
        add_rows(client)
        client.require_idle("input")
        awaited = {"a round": b"alpha round\n", "two rounds": b"beta round\n", "many answers": b"beta where l\n" * HELD}
        for name, lines in awaited.items():
            client.send(lines)
            client.require_idle(name)
        starter.let_go()
        require((client.reply(), client.reply()) == (FIRST_ROUND, ROUND_OF_BETA), "the replies to the rounds")
        for number in range(HELD):
            require(client.reply() == b"beta %d ok at m1" % (number + 5), f"reply {number + 5}")
        client.require_idle("input that it already reads ahead")
        require(client.close() == (0, b"", b""), "its end")


def closed_output(starter: Starter, workers: str, line: bytes) -> None:
    """If nobody reads the replies any more the service ends with the next one, while its input is still open."""
    with program.Roster(ROSTER) as roster_path, starter.client(roster_path, workers) as client:
        add_rows(client)
        client.output.close()
        client.send(line)
        require(client.end() == (5, b"", b"firm: write\n"), "its end")


def closed_meanwhile(starter: Starter, workers: str) -> None:
    """The service ends in the same way if the output closes while a round is solved."""
    with program.Roster(ROSTER) as roster_path, starter.held_client(roster_path, workers) as client:
        add_rows(client)
        client.send(b"alpha round\n")
        time.sleep(PAUSE_SECONDS)
        client.output.close()
        starter.let_go()
        require(client.end() == (5, b"", b"firm: write\n"), "its end")


def rest_of_the_input(starter: Starter, workers: str) -> None:
    """The bytes after the last line feed are answered at the end of the input, after the rounds."""
    with program.Roster(ROSTER) as roster_path, starter.client(roster_path, workers, is_slow=True) as client:
        add_rows(client)
        client.send(b"alpha round\nbeta round\nalpha where a")
        wanted = b"%s\n%s\nalpha 6 ok at m1\n" % (FIRST_ROUND, ROUND_OF_BETA)
        require(client.close() == (0, wanted, b""), "the replies at the end")


def terminal(starter: Starter, workers: str, is_hung_up: bool) -> None:
    """A terminal's end of input ends the service well, its hang-up as a failed read, also while a round is solved."""
    for is_slow in (False, True):
        ours, theirs = pty.openpty()
        if is_hung_up:
            tty.setraw(theirs)
        with program.Roster(ROSTER) as roster_path, starter.client(
            roster_path, workers, stdin=theirs, is_slow=is_slow
        ) as client:
            os.close(theirs)
            for line in ROWS:
                os.write(ours, line + b"\n")
                require(is_ok(client.reply()), line)
            os.write(ours, b"alpha round\n")
            if not is_slow:
                require(client.reply() == FIRST_ROUND, "the round's reply")
            time.sleep(PAUSE_SECONDS)
            if not is_hung_up:
                os.write(ours, b"\x04")
                end = client.end()
                require(end == (0, FIRST_ROUND + b"\n" if is_slow else b"", b""), f"at the end of input: {end}")
            os.close(ours)
            if is_hung_up:
                end = client.end()
                require((end.status, end.faults) == (4, b"firm: read\n"), f"at the hang-up: {end}")
                require(end.output in ([b"", FIRST_ROUND + b"\n"] if is_slow else [b""]), f"at the hang-up: {end}")


def suspended(starter: Starter, workers: str) -> None:
    """A program that is stopped and continued, as by a shell, goes on with its reads."""
    with program.Roster(ROSTER) as roster_path, starter.client(roster_path, workers, is_slow=True) as client:
        add_rows(client)
        for line, wanted in ((b"beta where l\n", b"beta 4 ok waits 0"), (b"alpha round\n", FIRST_ROUND)):
            for number in (signal.SIGSTOP, signal.SIGCONT):
                client.process.send_signal(number)
                time.sleep(PAUSE_SECONDS)
            client.send(line)
            time.sleep(PAUSE_SECONDS)  # the round begins meanwhile
            for number in (signal.SIGSTOP, signal.SIGCONT):
                client.process.send_signal(number)
                time.sleep(PAUSE_SECONDS)
            require(client.reply() == wanted, wanted)
        require(client.close() == (0, b"", b""), "its end")


def threads(starter: Starter, workers: str) -> None:
    """Beside the workers there are two threads: the one that serves, and the one that reads ahead."""
    with program.Roster(ROSTER) as roster_path, starter.client(roster_path, workers) as client:
        require(client.ask(b"alpha costs") == b"alpha 1 ok costs", "a reply")
        count = len(client.threads())
        require(count == int(workers) + 2, f"{count} threads with {workers} workers")
        require(client.close() == (0, b"", b""), "its end")


def no_reading_thread(starter: Starter, workers: str) -> None:
    """Without the thread that reads ahead all replies come before the next line is read."""
    with program.Roster(ROSTER) as roster_path, starter.client(roster_path, workers, refuse_thread=1) as client:
        add_rows(client)
        require(len(client.threads()) == int(workers) + 1, "the threads")
        require(client.ask(b"alpha round") == FIRST_ROUND, "the round's reply")
        client.send(b"alpha round\nalpha where a\n")
        require((client.reply(), client.reply()) == (b"alpha 6 ok round cost 0", b"alpha 7 ok at m1"), "the replies")
        require(client.close() == (0, b"", b""), "its end")


def checks(starter: Starter) -> Iterator[tuple[str, Check]]:
    """Yield each check by name."""
    for workers in map(str, range(1, 9)):
        yield f"threads, workers {workers}", partial(threads, starter, workers)
    for workers in ("1", "2", "8"):
        named: dict[str, Callable[[Starter, str], None]] = {
            "line by line": line_by_line,
            "lines during a round": lines_during_a_round,
            "idle": idle,
            "closed output, a line": partial(closed_output, line=b"alpha show\n"),
            "closed output, a round": partial(closed_output, line=b"alpha round\n"),
            "closed output while a round is solved": closed_meanwhile,
            "rest of the input": rest_of_the_input,
            "terminal, end of input": partial(terminal, is_hung_up=False),
            "terminal, hang-up": partial(terminal, is_hung_up=True),
            "suspended": suspended,
            "no reading thread": no_reading_thread,
        }
        for name, check in named.items():
            yield f"{name}, workers {workers}", partial(check, starter, workers)


def read_options() -> Options:
    parser = argparse.ArgumentParser(description=(__doc__ or "").splitlines()[0])
    program.add_program(parser)
    program.add_under(parser)
    parser.set_defaults(workers="")
    parser.add_argument("--only", default="", help="run only the checks whose names have these words")
    parser.add_argument("--streams", type=int, default=20, help="number of random streams that go line by line")
    parser.add_argument("--first", type=int, default=1, help="first seed of the streams")
    return Options(**vars(parser.parse_args()))


def main() -> int:
    options = read_options()
    with tempfile.TemporaryDirectory(prefix="firm-") as folder:
        found = checks(Starter(options, folder))
        return run_suites(Suite({name: check for name, check in found if options.only in name}))


if __name__ == "__main__":
    run_script(main)
