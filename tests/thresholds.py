"""Run the built program at its limits, to find faults that small inputs miss.

usage: tools/run tests/thresholds.py [--program FILE] [--under COMMAND] [--only WORDS]
It checks the longest roster and the longest states, joined and cut too, states of full tenants, and 64 admissions of
the largest tenant; rounds of 3,000 tasks on 1,000 machines, their reasons, their counts and that a service proposes
them; 200,000 rounds of one worker, six megabytes of rounds and 40 of input after one that is held, input in 400,000
pieces, rounds of each place after one and alone, and the memory that repeated lines request. The plain service judges,
or a property of every right placement. Each check prints a line; the exit status is 1 if one failed. It needs a C
compiler (cc) for refuse.c, which holds a round.
"""

from __future__ import annotations

import argparse
import mmap
import random
import re
import resource
import socket
import struct
import tempfile
import threading
import time
from contextlib import contextmanager
from dataclasses import dataclass
from functools import partial
from pathlib import Path
from typing import Callable, Iterator, Sequence

from harness import program, service
from harness.checks import Check, Missed, Suite, require, run_script, run_suites
from harness.kinds import TENANT, Stream, make
from harness.program import built

HEADING = b"tenant,nodes,arcs,life,spread,churn\n"
LIFE = 1_099_511_627_776
MAX_NODES, MAX_ARCS = 4_096, 65_536
# Of a tenant with four machines and a job, beside the hub and the sink.
MAX_TASKS = MAX_NODES - 7
PLACES = range(64)
RETIRED = "t62"
MAX_STATE, MAX_ADMISSIONS = 41_943_040, 32_768
# Of a full tenant: its machines and tasks, of which each can run at once.
MACHINES, TASKS = 1_000, 3_000
JOBS, JOB_TASKS = 1_000, 2_000  # of a tenant with as many machines
ROUNDS = 200_000
# Before each multiple of this, rounds are sent one by one to a service that sleeps.
PAUSED_AT, PAUSED, PAUSE_SECONDS = 100_000, 8, 0.02
# Full rounds that are held, each with some 120,000 bytes of changes. Once 4,000,000 are held, eight rounds more are in
# the queue and two are being solved; no further one is requested meanwhile.
HELD_ROUNDS, MIN_SOLVED, MAX_SOLVED = 55, 33, 45
# Further lines of each of 62 places behind a held round, so that 994 of at most 1,024 answers are held.
SHOWN = 7
HOLD_SECONDS, SOON_SECONDS = 1_200, 120  # on a busy host
LOOK_SECONDS = 0.02  # between two looks at the threads
# Lines without an answer behind a held round: 10,000 pieces of 4,096 bytes.
COMMENT, COMMENTS = b"#".ljust(255, b".") + b"\n", 160_000
PIECES = 400_000  # of the input, each of which a read gives alone
# Repetitions of lines, and the most memory requests of each repetition: a round has a few, and no other line any once
# the lists that it fills have grown.
REPEATED, MAX_GROWTHS = (200, 1_000), 20
MAX_REQUESTS = {"a show\n": 0, "a where a\n": 0, "a costs\n": 0, "a done a\na task j a\n": 0, "a round\n": 5}
MAX_REQUESTS["a done a\na task j a\na round\n"] = 6
# Machines of a chain in which prices fall by one machine a pass, more often than a proposal lets them; and of its two
# rounds the searches, their looks, and the looks of proposals, with proposals and by searches alone.
CHAIN = 70
CHAIN_COUNTS = {"": [(0, 0, 9_501), (0, 0, 7_310)], "--search": [(133, 23_922, 0), (70, 699, 0)]}
# The looks of proposals that all rounds count of a stream of harness/kinds.py with these tasks and machines; and the
# searches and their looks of smaller ones by searches alone, in one of them some 40,000 looks a search.
PROPOSED = {
    "fresh": 201_977,
    "dense": 203_014,
    "overload": 344_706,
    "rising": 376_320,
    "steady": 446_320,
    "levels": 394_987,
    "ties": 311_569,
    "close": 323_186,
    "moves": 421_531,
    "returns": 311_411,
    "crowded": 633_958,
    "packed": 736_736,
    "apart": 1_149_675,
    "local": 420_685,
}
SEARCHED = {("dense", 200): (599, 24_628_033), ("returns", 300): (1_930, 4_758_598)}
# The stream whose rounds a service may take this many times the processor time for of `measure`, which proposes them;
# by searches alone they take a hundred times as much.
TIMED, MAX_TIMES = "packed", 10
THREAD = re.compile(r"^(?:State|(?:non)?voluntary_ctxt_switches):\t(\w+)", re.MULTILINE)
STARTED = re.compile(rb"full (\d+) ok round cost (\d+)((?: start \S+ \S+)+)")


@dataclass(frozen=True)
class Options(program.ProgramOptions):
    only: str


class Starter:
    """Start the program, with or without refuse.c."""

    def __init__(self, options: Options, folder: str) -> None:
        self.options, self.folder, self.library = options, Path(folder), program.build_refusing(folder)

    def answers(self, words: list[str], text: bytes, workers: str = "2") -> list[bytes]:
        """Return the replies to an input that is served to its end."""
        done = program.run_words([*self.options.command(workers), *words], text)
        require((done.status, done.faults) == (0, b""), f"status {done.status}: {done.faults!r}")
        return done.output.splitlines()

    def requests(self, roster_path: str, text: bytes) -> int:
        """Return the number of memory requests of a service that ends well."""
        counts = self.folder / "counts"
        asked = {"LD_PRELOAD": self.library, "COUNTS": str(counts)}
        done = program.run_words([*self.options.command("2"), "--roster", roster_path], text, asked)
        require((done.status, done.faults) == (0, b""), f"status {done.status}: {done.faults!r}")
        return memory_requests(counts)

    @contextmanager
    def held_client(self, roster_path: str, delay: int = 0) -> Iterator[tuple[program.Client, Path, Callable[[], int]]]:
        """Yield a client whose first round waits while a file exists, the file, and a counter of memory requests, each
        of which takes a worker this many milliseconds.
        """
        hold, counts = self.folder / "hold", self.folder / "counts"
        hold.touch()
        letting_go = threading.Timer(HOLD_SECONDS, partial(hold.unlink, missing_ok=True))
        letting_go.start()
        asked = {"LD_PRELOAD": self.library, "HOLD_MEMORY": str(hold), "HOLD_ONE": "1", "COUNTS": str(counts)}
        asked["DELAY_MEMORY"] = str(delay)
        try:
            with program.Client(self.options.command("2"), roster_path, asked) as client:
                yield client, hold, partial(memory_requests, counts)
        finally:
            letting_go.cancel()


def memory_requests(counts: Path) -> int:
    """Return the number of memory requests, the first number of the file."""
    with open(counts, "rb") as file, mmap.mmap(file.fileno(), 0, access=mmap.ACCESS_READ) as shared:
        (asked,) = struct.unpack_from("@L", shared)
        return int(asked)


def row(name: str, *limits: int) -> bytes:
    return ",".join([name, *map(str, limits)]).encode() + b"\n"


def longest_roster(starter: Starter) -> None:
    """A roster of 65,536 bytes, in which empty lines part 64 tenants, admits them all; a byte more is refused."""
    rows = [row(f"t{place}", 9, 20 + place, 100, 0, place) for place in PLACES]
    gap = (service.MOST_ROSTER - len(HEADING) - sum(map(len, rows))) // len(rows)
    whole = HEADING + b"".join(line.rjust(len(line) + gap, b"\n") for line in rows)
    whole += b"\n" * (service.MOST_ROSTER - len(whole))
    text = b"".join(b"t%d show\n" % place for place in PLACES)
    with program.Roster(whole) as path:
        found = starter.answers(["--roster", path], text)
        require(found == service.serve(whole, text), f"{len(found)} replies, the last {found[-1]!r}")
    repeated = whole.replace(b"\nt63,", b"\nt62,")
    for faulty, fault in ((repeated, b"5 repeated-name"), (whole + b"\n", b"2 row")):
        with program.Roster(faulty) as path:
            refused = program.run(starter.options.command(), path, text)
            require(refused == (3, b"", b"firm: roster fault %b\n" % fault), refused)


def longest_row(job: str, task: int) -> str:
    """Return the longest row of a state: a task with the longest wait and four preferences."""
    return f"task {job} {task:016} waits 1000000 prefers " + " ".join(f"{machine:016}" for machine in range(4)) + "\n"


def longest_tenant(place: int, admissions: int) -> str:
    """Return the rows of a place with the maximum number of tasks."""
    job = "j" * 16
    limits = f"nodes {MAX_NODES} arcs {MAX_ARCS} life {LIFE} spread 1000 churn 1000000 remote 1000000"
    rows = [
        f"place admissions {admissions}\n",
        f"tenant {place:016} {limits} commands {LIFE - 9}\n",
        "costs" + " 12288000000" * 8 + "\n",
        *(f"machine {machine:016} 1\n" for machine in range(4)),
        f"job {job} 1000000\n",
        *(longest_row(job, task) for task in range(MAX_TASKS)),
    ]
    return "".join(rows)


def state_of(rows: str, heading: str = "firm state 1") -> bytes:
    return f"{heading}\n{rows}rows {rows.count(chr(10))}\n".encode()


def longest_rows(places: range, admissions: int) -> str:
    """Return the rows of such places, each given this often; those of all 64 have 33 million bytes."""
    return "".join(longest_tenant(place, admissions) for place in places)


def long_states(starter: Starter) -> None:
    """A service goes on from the longest state, all of it, and firm_state writes it again; a fault of its last line is
    found, and a longer file is refused.
    """
    state = state_of(longest_rows(PLACES, MAX_ADMISSIONS))
    require(len(state) > 33_000_000, f"a state of {len(state)} bytes")
    last = MAX_TASKS - 1
    text = b"".join(b"%016d show\n%016d where %016d\n" % (place, place, last) for place in PLACES)
    text += b"%016d round\n" % PLACES[-1]
    with program.Roster(state) as path:
        found = starter.answers(["--state", path], text)
        wanted = [line for place in PLACES for line in longest_answers(place)]
        wanted.append(longest_round(PLACES[-1]))
        require(found == wanted, f"{len(found)} replies, the last {found[-1]!r}")
        if built("firm_state").exists():
            require_state(["--state", path], b"", state)
    refusals = [
        (state[:-1], b"state fault 13 rows in line %d" % state.count(b"\n")),
        (b"firm state 1\n".ljust(MAX_STATE, b"\n"), b"state fault 2 row in line 2"),
        (b"firm state 1\n".ljust(MAX_STATE + 1, b"\n"), b"state too long"),
    ]
    for faulty, fault in refusals:
        with program.Roster(faulty) as path:
            refused = program.run_words([*starter.options.command(), "--state", path], b"")
            require(refused == (3, b"", b"firm: %s\n" % fault), refused)


def long_changes(starter: Starter) -> None:
    """firm_state joins two halves of such a state, of which one is extended, and cuts the whole again."""
    if not built("firm_state").exists():
        return
    heading = "firm state 1 extended"
    first, second = (longest_rows(places, 1) for places in (PLACES[:32], PLACES[32:]))
    whole = state_of(first + second, heading)
    with program.Roster(state_of(first)) as path, program.Roster(state_of(second, heading)) as other:
        require_state(["--state", path, "--merge", other], b"", whole)
    with program.Roster(whole) as path:
        names = [f"{place:016}" for place in PLACES[32:]]
        cut = state_of("place admissions 1\n" * 32 + second, heading)
        require_state(["--state", path, "--tenant", *names], b"", cut)


def require_state(words: list[str], text: bytes, state: bytes) -> None:
    """Require that firm_state writes this state after the lines of a text."""
    done = program.run_words([str(built("firm_state")), *words], text)
    require((done.status, done.faults) == (0, b""), f"status {done.status}: {done.faults!r}")
    require(done.output == state, f"{words[0]}: another state")


def full_states(starter: Starter) -> None:
    """A tenant with a thousand machines and jobs, of whose tasks most run, goes on from its extended state; another is
    that after 200,000 commands.
    """
    if not built("firm_state").exists():
        return
    lines, more = job_lines(), b"full show\nfull costs\nfull round\nfull round\n"
    text = b"".join(b"%b\n" % line.encode() for line in lines)
    roster = HEADING.rstrip() + b",remote,patience\n" + row("full", MAX_NODES, MAX_ARCS, LIFE, 3, 7, 2, 50)
    with program.Roster(roster) as path:
        state = program.run_words([str(built("firm_state")), "--roster", path], text).output
        whole = starter.answers(["--roster", path], text + more)
    with program.Roster(state) as path:
        require_state(["--state", path], b"", state)
        require(starter.answers(["--state", path], more) == whole[len(lines) :], "other replies from the state")
    limits = f"nodes 2 arcs 0 life {ROUNDS} spread 0 churn 0 remote 0"
    with program.Roster(HEADING + row("a", 2, 0, ROUNDS, 0, 0)) as path:
        after = state_of(f"place admissions 1\ntenant a {limits} commands {ROUNDS}\ncosts\n")
        require_state(["--roster", path], b"a fly\n" * ROUNDS, after)


def job_lines() -> list[str]:
    """Return the lines that add 1,000 machines, 1,000 jobs and 2,000 tasks that prefer two machines each, with a round
    before the last hundred.
    """
    machines = [f"machine-{machine:08}" for machine in range(MACHINES)]
    tasks = [
        f"full task job-{task % JOBS:04} task-{task:011} {machines[task % MACHINES]} {machines[-1]}"
        for task in range(JOB_TASKS)
    ]
    return [
        *(f"full machine {name} {1 + machine % 3}" for machine, name in enumerate(machines)),
        *(f"full job job-{job:04} {1 + job}" for job in range(JOBS)),
        *tasks[:-100],
        "full round",
        *tasks[-100:],
    ]


def longest_answers(place: int) -> list[bytes]:
    arcs = 4 * 2 + 1 + MAX_TASKS * 7
    return [
        b"%016d %d ok machines 4 jobs 1 tasks %d running 0 nodes %d of %d arcs %d of %d"
        % (place, LIFE - 8, MAX_TASKS, MAX_NODES, MAX_NODES, arcs, MAX_ARCS),
        b"%016d %d ok waits 1000000" % (place, LIFE - 7),
    ]


def longest_round(place: int) -> bytes:
    """Return the reply to its round: four tasks start, and each other costs its weight and the rounds it has waited."""
    starts = b"".join(b" start %016d %016d" % (number, number) for number in range(4))
    return b"%016d %d ok round cost %d%s" % (place, LIFE - 6, (MAX_TASKS - 4) * 2_000_000, starts)


def full_rows(name: str, slots: list[int], tasks: int) -> list[str]:
    """Return the lines that add these machines and this many tasks."""
    return [
        *(f"{name} machine machine-{machine:08} {count}\n" for machine, count in enumerate(slots)),
        f"{name} job j 1000000\n",
        *(f"{name} task j task-{task:011}\n" for task in range(tasks)),
    ]


def full_rounds(starter: Starter) -> None:
    """A round starts 3,000 tasks for the least cost, in their order and within the slots; the next changes nothing."""
    draw = random.Random(1)
    slots = [draw.randint(1, 64) for _ in range(MACHINES)]
    lines = [*full_rows("full", slots, TASKS), "full round\n", "full round\n", "full costs\n"]
    text = "".join(lines).encode()
    with program.Roster(HEADING + row("full", MAX_NODES, MAX_ARCS, LIFE, 3, 7)) as path:
        found = starter.answers(["--roster", path], text)
        if built("firm_explain").exists():
            require_explained(path, text, found)
            require_proposed(path, text)
    *grown, first, second, costs = found
    require(all(line.endswith(b" ok") for line in grown), "a row was refused")
    started = STARTED.fullmatch(first)
    if started is None:
        raise Missed(f"the round: {first[:100]!r}")
    require(int(started[1]) == len(grown) + 1, started[1])
    # The cheapest slots of all, each the dearer the more are taken before it.
    least = sum(sorted(3 * slot for count in slots for slot in range(count))[:TASKS])
    require(int(started[2]) == least, f"cost {started[2]!r}, and the least is {least}")
    words = started[3].split()
    tasks, machines = words[1::3], [int(word.rpartition(b"-")[2]) for word in words[2::3]]
    require(tasks == [b"task-%011d" % task for task in range(TASKS)], "each task starts once, in order")
    loads = [machines.count(machine) for machine in range(MACHINES)]
    require(all(load <= count for load, count in zip(loads, slots)), "more tasks than slots")
    require(sum(3 * slot for load in loads for slot in range(load)) == least, "another cost than the placement has")
    require(second == b"full %d ok round cost %d" % (len(grown) + 2, least), second[:100])
    require(costs == b"full %d ok costs %d %d" % (len(grown) + 3, least, least), costs)


def require_explained(path: str, text: bytes, replies: list[bytes]) -> None:
    """Require that firm_explain gives these replies, and reasons after each of the two rounds."""
    shown = program.run_words([str(built("firm_explain")), "--roster", path], text).output.splitlines()
    require([line for line in shown if not line.startswith(b"#")] == replies, "other replies with reasons")
    reasons = sum(line.startswith(b"# least: ") for line in shown)
    require(reasons == 2, f"{reasons} of two rounds have reasons")


def require_proposed(path: str, text: bytes) -> None:
    """Require that the two rounds are proposed, so that neither makes a search in the network."""
    found = program.run_words([*program.measuring(), "--counts", "--roster", path], text)
    counts = found.output.splitlines()[-2:]
    require(all(line.startswith(b"full 0 0 ") for line in counts), f"tenant, searches, looks, proposed: {counts}")


def counted_rounds(starter: Starter) -> None:
    """Each search and look of two rounds is counted whose prices fall until the proposal gives that up."""
    if not built("firm_explain").exists():
        return
    lines = [f"chain machine m{number:02} 1\n" for number in range(CHAIN + 1)] + ["chain job j 1000000\n"]
    lines += [f"chain task j t{number:02} m{number:02} m{number + 1:02}\n" for number in range(CHAIN)]
    text = "".join([*lines, "chain round\n" * 2]).encode()
    with program.Roster(HEADING.rstrip() + b",remote\n" + row("chain", 300, 3_000, LIFE, 0, 1, 1_000)) as path:
        for option, wanted in CHAIN_COUNTS.items():
            words = [*program.measuring(), "--counts", "--roster", path, *option.split()]
            found = program.run_words(words, text).output.splitlines()[-2:]
            require(found == [b"chain %d %d %d" % counts for counts in wanted], f"{option}: {found}")


def large_counts(starter: Starter) -> None:
    """Rounds of large streams count each look, of proposals and of searches alone."""
    if not built("firm_explain").exists():
        return
    for kind, looks in PROPOSED.items():
        require_counts(kind, TASKS, "", (0, 0, looks))
    for (kind, tasks), counts in SEARCHED.items():
        require_counts(kind, tasks, "--search", (*counts, 0))


def proposed_rounds(starter: Starter) -> None:
    """The rounds of a service are proposed, as those of `measure` are: searches would take far longer."""
    if not built("firm_explain").exists():
        return
    stream, text = large_stream(TIMED, TASKS)
    with program.Roster(stream.roster.encode()) as path:
        served, measured = (
            processor_seconds([*words, "--roster", path], text)
            for words in (starter.options.command("1"), program.measuring())
        )
    require(served < MAX_TIMES * measured, f"{served:.2f} processor seconds, and {measured:.2f} of `measure`")


def processor_seconds(words: list[str], text: bytes) -> float:
    """Return the processor time of a run that ends well."""
    before = resource.getrusage(resource.RUSAGE_CHILDREN)
    done = program.run_words(words, text)
    after = resource.getrusage(resource.RUSAGE_CHILDREN)
    require((done.status, done.faults) == (0, b""), f"status {done.status}: {done.faults!r}")
    return after.ru_utime + after.ru_stime - before.ru_utime - before.ru_stime


def large_stream(kind: str, tasks: int) -> tuple[Stream, bytes]:
    """Return a stream of these tasks on 1,000 machines, and its lines."""
    stream = make(kind, tasks, MACHINES)
    return stream, "".join(f"{line}\n" for part in stream.parts for line in [*part, f"{TENANT} round"]).encode()


def require_counts(kind: str, tasks: int, option: str, wanted: tuple[int, ...]) -> None:
    """Require that all rounds of a stream count this many searches, looks of these, and looks of proposals."""
    stream, text = large_stream(kind, tasks)
    with program.Roster(stream.roster.encode()) as path:
        done = program.run_words([*program.measuring(), "--counts", "--roster", path, *option.split()], text)
    rounds = [map(int, line.split()[1:]) for line in done.output.splitlines()[-len(stream.parts) :]]
    found = tuple(map(sum, zip(*rounds)))
    require(found == wanted, f"{kind}, {tasks} tasks {option}: {found} and not {wanted}")


def many_rounds(starter: Starter) -> None:
    """One worker solves 200,000 rounds, in bursts, and singly when a counter might end while all are asleep."""
    with program.Roster(HEADING + row("a", 9, 20, LIFE, 0, 0)) as path:
        with program.Client(starter.options.command("1"), path) as client:
            number = 0
            while number < ROUNDS + PAUSED:
                left = PAUSED_AT - PAUSED - number % PAUSED_AT
                if 0 < left and number < ROUNDS:
                    number = burst(client, number, left)
                else:
                    time.sleep(PAUSE_SECONDS)
                    number = burst(client, number, 1)
            client.require_idle("input behind its last round")
            require(client.close() == (0, b"", b""), "its end")


def burst(client: program.Client, number: int, count: int) -> int:
    """Send this many rounds at once, check the replies, and return the new total."""
    sender = threading.Thread(target=client.send, args=(b"a round\n" * count,), daemon=True)
    sender.start()
    for place in range(number + 1, number + count + 1):
        reply = client.reply(SOON_SECONDS)
        require(reply == b"a %d ok round cost 0" % place, f"round {place}: {reply!r}")
    sender.join()
    return number + count


def held_rounds(starter: Starter) -> None:
    """If a round is held, as many full rounds after it are solved as may be held, and all once it is let go."""
    names = [f"t{place}" for place in range(HELD_ROUNDS)]
    roster = HEADING + row("first", 9, 20, LIFE, 0, 0)
    roster += b"".join(row(name, MAX_NODES, MAX_ARCS, LIFE, 0, 0) for name in names)
    slots = [64] * (TASKS // 64 + 1)
    with program.Roster(roster) as path, starter.held_client(path) as (client, hold, asked):
        rows = [line for name in names for line in full_rows(name, slots, TASKS)]
        require(ask_all(client, [*small_rows("first"), *rows]), "a row was refused")
        before = asked()
        client.send(b"first round\n" + b"".join(b"%s round\n" % name.encode() for name in names))
        wait_until_asleep(client)
        solved = asked() - before
        hold.unlink()
        require(client.reply() == b"first 4 ok round cost 0 start a m", "the reply to the first")
        for name in names:
            reply = client.reply(SOON_SECONDS) or b""
            require(
                reply.startswith(b"%s %d ok round cost 0 start " % (name.encode(), len(slots) + TASKS + 2)), reply[:99]
            )
            require(reply.count(b" start ") == TASKS, f"{name}: {reply.count(b' start ')} tasks start")
        whole = asked() - before
        few, many = MIN_SOLVED * whole, MAX_SOLVED * whole
        require(few < solved * HELD_ROUNDS < many, f"{solved} of {whole} memory requests behind a held round")
        require(client.close() == (0, b"", b""), "its end")


def repeated_lines(starter: Starter) -> None:
    """Lines ask for no memory once there is room, and rounds for few lists, however often they are repeated."""
    with program.Roster(HEADING + row("a", 9, 20, LIFE, 0, 0)) as path:
        for lines, most in MAX_REQUESTS.items():
            few, many = (
                starter.requests(path, "".join([*small_rows("a"), lines * count]).encode()) for count in REPEATED
            )
            more = REPEATED[1] - REPEATED[0]
            require(many - few <= more * most + MAX_GROWTHS, f"{many - few} requests of {more} times {lines!r}")


def small_rows(name: str) -> list[str]:
    """Return the lines that add a machine and a task, so that a round takes memory."""
    return [f"{name} machine m 1\n", f"{name} job j 9\n", f"{name} task j a\n"]


def ask_all(client: program.Client, lines: list[str]) -> bool:
    """Send lines and return whether each is answered by ok."""
    sender = threading.Thread(target=client.send, args=("".join(lines).encode(),), daemon=True)
    sender.start()
    found = all((client.reply() or b"").endswith(b" ok") for _ in lines)
    sender.join()
    return found


def wait_until_asleep(client: program.Client) -> None:
    """Wait until all threads sleep, and only that of the held round has woken up since the look before.

    A thread with work to do is awake, however long a busy host lets it wait for a processor.
    """
    before = dict[str, list[str]]()
    while True:
        time.sleep(LOOK_SECONDS)
        threads = Path(f"/proc/{client.process.pid}/task").iterdir()
        now = {thread.name: THREAD.findall((thread / "status").read_text()) for thread in threads}
        are_asleep = all(state == "S" for state, *_ in now.values())
        if are_asleep and sum(before.get(name) != found for name, found in now.items()) <= 1:
            return
        before = now


def behind_a_held_round(
    starter: Starter, places: Sequence[int], tasks: str, held_place: int = 0, most: int | None = None
) -> int:
    """Return the number of memory requests of each of these places' rounds, one place after the other, while another
    place's round is held: each has a round for each task. Another tenant is retired before them, which waits for no
    round but its own. Require this many of each place, if any.
    """
    roster = HEADING + b"".join(row(f"t{other}", 9, 20, LIFE, 0, 0) for other in PLACES)
    held, requests = f"t{held_place}", 0
    # A round takes so long that the service sleeps until its end is reported.
    with program.Roster(roster) as path, starter.held_client(path, delay=1) as (client, hold, asked):
        rows = [line for place in (held_place, *places) for line in small_rows(f"t{place}")]
        require(ask_all(client, rows), "a row was refused")
        client.send(f"{held} round\n".encode())
        wait_until_asleep(client)
        client.send(f"+ retire {RETIRED}\n".encode())
        for place in places:
            before, name = asked(), f"t{place}"
            rounds = [f"{name} round\n{name} done {task}\n{name} task j {after}\n" for task, after in zip(tasks, "bca")]
            client.send("".join([*rounds, f"{name} show\n" * SHOWN]).encode())
            wait_until_asleep(client)
            requests = asked() - before
            require(most in (None, requests), f"{requests} memory requests at place {place}, and not {most}")
        hold.unlink()
        require(client.reply() == f"{held} 4 ok round cost 0 start a m".encode(), "the reply to the first")
        require(client.reply() == f"+ ok retired {RETIRED}".encode(), "the reply to the operator")
        for place in places:
            for number, task in enumerate(tasks.encode()):
                replies = [client.reply() for _ in range(3)]
                texts = [b"ok round cost 0 start %c m" % task, b"ok", b"ok"]
                wanted = [b"t%d %d %s" % (place, 3 * number + 4 + at, text) for at, text in enumerate(texts)]
                require(replies == wanted, f"{replies}")
            for number in range(SHOWN):
                shown = b"t%d %d ok machines 1 " % (place, 3 * len(tasks) + 4 + number)
                require((client.reply() or b"").startswith(shown), f"no {shown!r}")
        require(client.close() == (0, b"", b""), "its end")
    return requests


def all_places(starter: Starter) -> None:
    """While a round is held, the rounds and commands of each other place go on alike, from the first to the last."""
    alone = behind_a_held_round(starter, [1], "a")
    require(alone, "no memory request of a round")
    behind_a_held_round(starter, [place for place in PLACES[1:] if f"t{place}" != RETIRED], "abc", 0, 3 * alone)
    behind_a_held_round(starter, [0], "abc", 1, 3 * alone)


def lone_rounds(starter: Starter) -> None:
    """At each place a round is answered while no other is away."""
    roster = HEADING + b"".join(row(f"t{place}", 9, 20, LIFE, 0, 0) for place in PLACES)
    with program.Roster(roster) as path, program.Client(starter.options.command("2"), path) as client:
        for place in PLACES:
            reply = client.ask(b"t%d round" % place)
            require(reply == b"t%d 1 ok round cost 0" % place, f"place {place}: {reply!r}")
        require(client.close() == (0, b"", b""), "its end")


def long_input(starter: Starter) -> None:
    """While a round is held, input of 40 megabytes is read, and the line after it is answered."""
    roster = HEADING + row("a", 9, 20, LIFE, 0, 0) + row("b", 9, 20, LIFE, 0, 0)
    with program.Roster(roster) as path, starter.held_client(path) as (client, hold, asked):
        require(ask_all(client, [*small_rows("a"), *small_rows("b")]), "a row was refused")
        client.send(b"a round\n")
        wait_until_asleep(client)
        before = asked()
        sender = threading.Thread(target=client.send, args=(COMMENT * COMMENTS + b"b round\n",), daemon=True)
        sender.start()
        sender.join(SOON_SECONDS)
        require(not sender.is_alive(), "the input is not read")
        wait_until_asleep(client)
        require(before < asked(), "the round after it is not solved")
        hold.unlink()
        for name in (b"a", b"b"):
            require(client.reply() == b"%s 4 ok round cost 0 start a m" % name, "the replies to the rounds")
        require(client.close() == (0, b"", b""), "its end")


def many_pieces(starter: Starter) -> None:
    """Input is read to its end, in however many pieces it comes."""
    roster = HEADING + row("a", 9, 20, LIFE, 0, 0)
    ours, read = socket.socketpair(socket.AF_UNIX, socket.SOCK_SEQPACKET)
    with ours, program.Roster(roster) as path:
        with read:
            client = program.Client(starter.options.command("2"), path, stdin=read.fileno())
        with client:
            for _piece in range(PIECES):
                ours.send(b"#\n")
            ours.send(b"a round\n")
            require(client.reply(SOON_SECONDS) == b"a 1 ok round cost 0", "the line after them is not answered")


def admissions(starter: Starter) -> None:
    """At each place the largest tenant is admitted while the service runs."""
    limits = f"{MAX_NODES},{MAX_ARCS},{LIFE},1000,1000000"
    admitted = "".join(f"+ admit t{place},{limits}\n" for place in PLACES)
    retired = "".join(f"+ retire t{place}\n" for place in PLACES)
    wanted = [b"+ ok %s t%d" % (word, place) for word in (b"admitted", b"retired") for place in PLACES]
    with program.Roster(HEADING + row("first", 9, 20, LIFE, 0, 0)) as path:
        text = f"+ retire first\n{admitted}{retired}"
        _first, *found = starter.answers(["--roster", path], text.encode())
    require(found == wanted, f"{len(found)} replies: {[line for line in found if line not in wanted][:1]}")


CHECKS: dict[str, Callable[[Starter], None]] = {
    "longest roster": longest_roster,
    "long states": long_states,
    "long changes": long_changes,
    "full states": full_states,
    "full rounds": full_rounds,
    "counted rounds": counted_rounds,
    "large counts": large_counts,
    "proposed rounds": proposed_rounds,
    "many rounds": many_rounds,
    "held rounds": held_rounds,
    "all places": all_places,
    "lone rounds": lone_rounds,
    "long input": long_input,
    "many pieces": many_pieces,
    "admissions": admissions,
    "repeated lines": repeated_lines,
}


def read_options() -> Options:
    parser = argparse.ArgumentParser(description=(__doc__ or "").splitlines()[0])
    program.add_program(parser)
    program.add_under(parser)
    parser.set_defaults(workers="")
    parser.add_argument("--only", default="", help="run only the checks whose names have these words")
    return Options(**vars(parser.parse_args()))


def main() -> int:
    options = read_options()
    with tempfile.TemporaryDirectory(prefix="firm-") as folder:
        starter = Starter(options, folder)
        found: dict[str, Check] = {name: partial(check, starter) for name, check in CHECKS.items()}
        return run_suites(Suite({name: check for name, check in found.items() if options.only in name}))


if __name__ == "__main__":
    run_script(main)
