"""Check firmd with many clients, kill it, fill its disk, end its firm, and look for lost lines.

usage: tools/run tests/firmd.py [--quick] [--program FILE] [--only WORDS] [--seed N]
Each check prints a line; the last line is 'N passed, M failed', and the exit status is 1 if one failed. --quick needs
Python 3 and the built program alone; the rest needs a C compiler for refuse.c, and root for a small file system to fill
and one to write-protect. A check that can't run here is skipped with a line.
"""

from __future__ import annotations

import argparse
import os
import random
import shutil
import signal
import socket
import stat
import subprocess
import sys
import tempfile
import threading
import time
from collections import Counter
from collections.abc import Callable
from contextlib import ExitStack, suppress
from functools import partial

from firmd_disks import (
    denied_rights,
    failed_sync,
    full_disk,
    group_commit,
    hung_sync,
    limit_files,
    no_rights,
    read_only,
    small_file_system,
    syncs_of_starts,
)
from firmd_kit import (
    CHECKS_AT_A_TIME,
    FIRMD,
    HEADING,
    JOURNAL_TOOL,
    REPLY_SECONDS,
    ROSTER,
    ROWS,
    SHOWN,
    Answered,
    Client,
    Daemon,
    Gone,
    Setup,
    Tenant,
    check_alone,
    check_kept,
    converse,
    extended,
    in_threads,
    memory_kilobytes,
    roster_of,
    stand_in,
    wait_for,
)
from harness import program, service
from harness.checks import Suite, print_skipped, require, run_script, run_suites
from harness.deployed import SERVICE, Books
from harness.small_streams import random_stream
from hostile import MEANWHILE_SECONDS, patch, status_of


STOPPING = b"? stopping: no longer accepting lines\n"
HELD_SECONDS = 5.0  # nobody was held up below this; a client that is held up waits as long as the other does not read
# A firmd that gives its clients more time, at its end, to read their replies: they may be slow on a busy host.
PATIENT = """\
import sys
from firm.server import clients, daemon
clients.STOP_SECONDS = 60.0
sys.exit(daemon.main())
"""


def many_clients(setup: Setup) -> None:
    """Fifty clients with random lines: each tenant's replies are firm's alone, and the journal gives them again."""
    tenants = [Tenant(f"t{place}", setup.seed + place) for place in range(10)]
    with setup.daemon("--segment-bytes", "20000", roster=roster_of(tenants)) as daemon:
        for tenant in tenants:
            daemon.options += ["--client", f"{tenant.name}={daemon.folder / tenant.name}"]
        daemon.start()
        with_clients = []
        for place in range(50):
            tenant, is_bound = tenants[place % 10], place % 3 == 0
            client = Client(daemon.folder / tenant.name if is_bound else daemon.any)
            draw = random.Random(setup.seed + 100 + place)
            with_clients.append(partial(converse, tenant, client, is_bound, draw, 60 if setup.is_quick else 1000))
        raised = in_threads(with_clients)
        require(not raised, raised[:3])
        for tenant in tenants:
            check_alone(setup, tenant)
        require(len(daemon.segments()) > 1, "segments")
        daemon.stop()
        daemon.start().stop()
        replies = [answered.reply for tenant in tenants for answered in tenant.answered]
        told = sorted(reply for reply in replies if not reply.startswith(b"!"))  # those stand in no journal
        require(sorted(setup.alone(roster_of(tenants), daemon.journal())) == told, "the journal gives other replies")


def kills(setup: Setup, part: int) -> None:
    """kill -9 at random moments, in a replay too: then each answered line is there, and the replay's state."""
    seed = setup.seed + 1000 * (part + 1)
    draw = random.Random(seed)
    tenants = [Tenant(f"t{place}", seed + place) for place in range(4)]
    with setup.daemon("--segment-bytes", "30000", "--after", "1", roster=roster_of(tenants)) as daemon:
        kills_left = (12 if setup.is_quick else 200) // CHECKS_AT_A_TIME
        # A slow host may answer few lines before each kill, and a kill before any answer shows nothing: so each further
        # kill is later.
        while kills_left > 0 or sum(len(tenant.answered) for tenant in tenants) < 200:
            kills_left -= 1
            latest = 0.15 * 2 ** max(0, -kills_left)
            if draw.random() < 0.2:  # at any moment of its start
                daemon.spawn()
                time.sleep(draw.uniform(0.05, 0.5))
                daemon.kill()
            daemon.start()
            works = [
                partial(converse, tenant, daemon.client(), False, random.Random(draw.random()), 10**9)
                for tenant in tenants
                for _ in range(2)
            ]
            killer = threading.Timer(draw.uniform(0.0, latest), daemon.kill)
            killer.start()
            raised = in_threads(works)
            killer.join()
            require(all(isinstance(error, Gone) for error in raised), raised)
        daemon.start()
        with daemon.client() as client:
            for tenant in tenants:
                names = [f"where {task}" for task in tenant.stream.held[tenant.name]["task"]]
                for command in ["show", "costs", *names]:
                    line = f"{tenant.name} {command}".encode()
                    tenant.tell(Answered(line, client.ask(line)))
        daemon.stop()
        check_kept(setup, daemon.journal(), tenants)


def torn_line(setup: Setup) -> None:
    """A last record that is incomplete is cut off, wherever it was torn; answered lines stay."""
    with setup.daemon() as daemon:
        daemon.start()
        with daemon.client() as client:
            for line in ROWS:
                require(client.ask(line).endswith(b" ok"), line)
        daemon.kill()
        whole, torn = daemon.journal(), b"#lines 00000000 19 7 0 1795659975220 *:0\nalpha task j other\n"
        for length in (1, 30, len(torn) - 9, len(torn)) if setup.is_quick else range(1, len(torn) + 1):
            with open(daemon.segments()[-1], "ab") as segment:
                segment.write(torn[:length])
            daemon.start()
            require(daemon.journal() == whole, f"{length} bytes of a torn record are still there")
            with daemon.client() as client:
                require(client.ask(b"alpha show").endswith(SHOWN % 0), "the rows")
            whole = daemon.journal()
            daemon.kill()
        daemon.start().stop()


def other_firm(setup: Setup) -> None:
    """A firm whose replies differ from the recorded digests stops the start, unless the operator discards these."""
    with setup.daemon("--segment-bytes", "2000") as daemon:
        daemon.start()
        with daemon.client() as client:
            for line in [*ROWS, *[b"alpha show"] * 200, *[b"alpha round"] * 10]:
                client.ask(line)
        daemon.stop()
        other = stand_in(daemon.folder, f'#!/bin/sh\n"{setup.program}" "$@" | sed -u "s/round cost 0/round cost 1/"\n')
        right, daemon.firm = daemon.firm, other
        daemon.refuses(5, "differ from the stored ones")
        daemon.firm = right
        daemon.start().stop()
        forget = [*JOURNAL_TOOL, "rewrite", "--forget-replies", str(daemon.state)]
        done = subprocess.run(forget, capture_output=True, text=True)
        require(done.returncode == 0, done.stderr)
        daemon.firm = other
        daemon.start()
        with daemon.client() as client:
            require(client.ask(b"alpha costs").startswith(b"alpha "), "it serves")
        daemon.stop()


def books_at_once(setup: Setup) -> None:
    """Books that take in many lines by one call equal books that take in one line after another."""
    for seed in range(setup.seed, setup.seed + (40 if setup.is_quick else 400)):
        draw = random.Random(seed)
        roster, text = random_stream(draw, 5)
        model = service.opened(roster)
        answers = [(line, service.answer_line(model, line)) for line in service.lines_of(text)]
        told = [(line, reply) for line, reply in answers if reply is not None]
        single, many = Books(), Books()
        single.start(roster)
        many.start(roster)
        while told:
            part = told[: draw.choice([1, 2, 10, 100])]
            told = told[len(part) :]
            for line, reply in part:
                single.replied(line, reply, None)
            many.replied_all([line for line, _ in part], [reply for _, reply in part], None)
            same = (single.tenants, single.refusals, single.lines) == (many.tenants, many.refusals, many.lines)
            require(same, f"seed {seed}, up to line {single.lines}")


def dying_firm(setup: Setup) -> None:
    """A firm that dies, can't be started, or writes an unrequested reply: a clear error, and nothing is lost."""
    with setup.daemon() as daemon:
        daemon.start()
        with daemon.client() as client:
            for line in ROWS:
                require(client.ask(line).endswith(b" ok"), line)
            os.kill(daemon.firm_process(), signal.SIGKILL)
            require(client.rest() == STOPPING, client.received)
        require(daemon.status() == 6 and b"firm ended with signal 9" in daemon.said(), daemon.said())
        right = daemon.firm
        daemon.firm = str(daemon.folder / "none")
        daemon.refuses(6, "cannot start", "No such file")
        daemon.firm = stand_in(daemon.folder, "#!/bin/sh\necho 'firm: memory' >&2\nexit 6\n")
        daemon.refuses(6, "firm ended with status 6, and said: firm: memory")
        surprise = f"echo surprise\nexec '{setup.program}' \"$@\"\n"
        daemon.firm = stand_in(daemon.folder, f"#!/bin/sh\nread -r line\n{surprise}")  # in the place of its first reply
        daemon.refuses(1, "can't apply b'surprise'")
        daemon.firm = stand_in(daemon.folder, f"#!/bin/sh\n{surprise}")
        kept = daemon.state.rename(daemon.folder / "kept")
        daemon.refuses(6, "unexpected reply from firm: surprise")
        shutil.rmtree(daemon.state)
        kept.rename(daemon.state)
        daemon.firm = right
        daemon.start()
        with daemon.client() as client:
            require(client.ask(b"alpha show").endswith(SHOWN % 0), "the rows")
        daemon.stop()


def unanswered_lines(setup: Setup) -> None:
    """A line in the journal gets its own reply or none: firmd never reports it as refused."""
    with setup.daemon() as daemon, ExitStack() as held:
        daemon.start()
        clients = [held.enter_context(daemon.client()) for _ in range(30)]
        idle, firm = held.enter_context(daemon.client()), daemon.firm_process()
        require(all(client.ask(b"alpha show").startswith(b"alpha ") for client in [*clients, idle]), "replies")
        os.kill(firm, signal.SIGSTOP)
        before = daemon.journal().count(b"\n")
        for client in clients:
            client.send(b"beta show\n")
        wait_for(lambda: daemon.journal().count(b"\n") == before + len(clients), "the lines stand in the journal")
        os.kill(firm, signal.SIGKILL)
        told = Counter(client.rest() for client in clients)
        require(told == {b"": len(clients)}, told)
        require(idle.rest() == STOPPING, idle.received)
        require(daemon.status() == 6, daemon.said())


def who_may_speak(setup: Setup) -> None:
    """Lines of the operator, and of another tenant, are refused on sockets that may not send them."""
    with setup.daemon() as daemon:
        daemon.options += ["--client", f"beta={daemon.folder / 'beta'}", "--socket-mode", "660"]
        daemon.start()
        for path in (daemon.any, daemon.operator, daemon.folder / "beta"):
            require(stat.S_IMODE(path.stat().st_mode) == 0o660, f"the mode of {path.name}")
        require(stat.S_IMODE((daemon.state / "view").stat().st_mode) == 0o600, "the view is its user's alone")
        refused = [b"+ admit gamma,9,24,100,1,2", b"+", b"\t+ retire beta\r"]
        with daemon.client() as client, Client(daemon.folder / "beta") as bound, Client(daemon.operator) as operator:
            for line in refused:
                require(client.ask(line).startswith(b"? operator-only: "), line)
                require(bound.ask(line).startswith(b"? other-tenant: "), line)
            for line in (b"alpha show", b"betas show", b"bet", b"gamma show", b"BETA show", b" alpha show"):
                require(bound.ask(line).startswith(b"? other-tenant: "), line)
            require(
                bound.ask(b"  beta \tjob j 1\r") == b"beta 1 ok" and bound.ask(b"beta") == b"beta 2 no 2 bad-command",
                "its own",
            )
            require(bound.ask(b"alpha" + b" " * 300) == b"! line-too-long", "a long line is firm's")
            require(operator.ask(refused[0]) == b"+ ok admitted gamma", "the operator")
            require(
                operator.ask(b"gamma job j 1") == b"gamma 1 ok" and client.ask(b"gamma") == b"gamma 2 no 2 bad-command",
                "gamma",
            )
            bound.send(b"beta close j\nalpha show\n# nothing\n\nbeta where x\n+\nbeta where y\n")
            found = [bound.reply().split(b":")[0] for _ in range(5)]
            require(
                found
                == [
                    b"beta 3 ok",
                    b"? other-tenant",
                    b"beta 4 no 10 no-such-task",
                    b"? other-tenant",
                    b"beta 5 no 10 no-such-task",
                ],
                found,
            )
        require(b"alpha" not in daemon.journal().replace(b"alpha  ", b""), "a refused line stands in the journal")
        daemon.stop()


def slow_client(setup: Setup) -> None:
    """A client that doesn't read holds nobody up, and is closed with a reason once it leaves too much unread."""
    with setup.daemon("--most-unread", "100000") as daemon:
        daemon.start()
        with daemon.client() as slow, daemon.client() as other:
            slow.socket.settimeout(1)
            with suppress(Gone, TimeoutError):  # firmd closes it meanwhile and reads no further
                slow.send(b"alpha show\n" * 20_000)
            slow.socket.settimeout(REPLY_SECONDS)
            seconds = []
            for number in range(100):
                began = time.monotonic()
                require(other.ask(b"beta show").startswith(b"beta %d ok " % (number + 1)), "another's reply")
                seconds.append(time.monotonic() - began)
            require(sorted(seconds)[90] < HELD_SECONDS, f"another's replies took {sorted(seconds)[90]:.2f} s")
            wait_for(lambda: b"more than 100000 bytes of unread replies" in daemon.said(), "it is closed")
            *replies, last = slow.rest().splitlines()
            require(last.startswith(b"? unread-replies: more than 100000 bytes"), last)
            require(
                [int(reply.split()[1]) for reply in replies] == list(range(1, len(replies) + 1)),
                "its replies are a prefix",
            )
        daemon.stop()


def backpressure(setup: Setup) -> None:
    """firmd stops reading a client that sends and doesn't read, in bounded memory; later it gets every reply."""
    with setup.daemon() as daemon:
        daemon.start()
        before = memory_kilobytes(daemon.running().pid)
        with daemon.client() as client:
            client.socket.setblocking(False)
            sent, text, quiet = 0, b"alpha show\n" * 5_000, time.monotonic()
            while time.monotonic() - quiet < 1:
                try:
                    sent += client.socket.send(text[sent % len(text) :])
                    quiet = time.monotonic()
                except BlockingIOError:
                    time.sleep(0.01)
                require(sent < 50 * 2**20, "it is read without end")
            grown = memory_kilobytes(daemon.running().pid) - before
            require(grown < 100_000, f"{grown} kB more in memory")
            client.socket.settimeout(REPLY_SECONDS)
            require(client.end().count(b"\n") == sent // len(b"alpha show\n"), "its replies")
        daemon.stop()


def dead_clients(setup: Setup) -> None:
    """Half a line of a client that leaves is dropped; whole ones are done, and their replies go to nobody else."""
    with setup.daemon() as daemon:
        daemon.start()
        with daemon.client() as other:
            for number in range(50):
                client = daemon.client()
                client.send(b"alpha machine x%d 1\nalpha show\nalpha drain x%d" % (number, number))
                if number % 2:
                    client.socket.shutdown(socket.SHUT_RDWR)
                client.socket.close()
            wait_for(lambda: daemon.journal().count(b"show\n") == 50, "their lines are taken")
            reply = other.ask(b"alpha show")
            # Each machine takes one of the tenant's 30 nodes, two of which exist without any.
            require(reply.startswith(b"alpha 101 ok machines 28 jobs 0 tasks 0 running 0 nodes 30 of 30 "), reply)
            require(reply == setup.alone(ROSTER, daemon.journal())[-1], "the reply is its own line's")
            require(b"drain" not in daemon.journal(), "half a line was taken")
            with daemon.client() as half:
                half.send(b"alpha show\nalpha show")
                require(half.end().count(b"\n") == 1, "a half line at the end")
        daemon.stop()


def endless_line(setup: Setup) -> None:
    """A line without an end fills no memory, and firm refuses it once it ends."""
    with setup.daemon() as daemon:
        daemon.start()
        with daemon.client() as client, daemon.client() as other:
            before = memory_kilobytes(daemon.running().pid)
            for _ in range(20 if setup.is_quick else 500):
                client.send(b"alpha" + b"x" * 2**20)
            require(other.ask(b"beta show").startswith(b"beta 1 ok"), "another's reply")
            grown = memory_kilobytes(daemon.running().pid) - before
            require(grown < 10_000, f"{grown} kB more in memory")
            require(client.ask(b"") == b"! line-too-long", "its reply")
            require(client.ask(b"#" * 2**20 + b"\nalpha show").startswith(b"alpha 1 ok"), "a long comment is none")
        require(max(map(len, daemon.journal().split(b"\n"))) <= 258, "the journal holds all of it")
        daemon.stop()


def limits(setup: Setup) -> None:
    """Too many clients, and a journal beyond firm's limit, are reported; half of that limit gives a warning."""
    with setup.daemon("--most-clients", "3", "--journal-limit", "1000", "--snapshot-lines", "0") as daemon:
        daemon.start()
        clients = [daemon.client() for _ in range(3)]
        require([client.ask(b"alpha") for client in clients][0] == b"alpha 1 no 2 bad-command", "three clients")
        with daemon.client() as fourth:
            require(fourth.rest() == b"? too-many-clients: 3 are connected\n", fourth.received)
        clients.pop().socket.close()
        line = b"beta show" + b" " * 40 + b"\n"
        fits = (1000 - len(b"alpha\n" * 3)) // len(line)
        clients[0].send(line * 30)
        found = [clients[0].reply().split(b":")[0] for _ in range(30)]
        require(all(reply.startswith(b"beta ") for reply in found[:fits]), found)
        require(found[fits:] == [b"? journal-full"] * (30 - fits), found)
        require(clients[1].ask(b"#\nalpha").startswith(b"alpha 4 no 2"), "a short line still fits")
        for _ in range(2):
            wait_for(lambda: b"warning: the journal has " in daemon.said(), "a warning")
            daemon.stop()
            daemon.start()


def one_daemon(setup: Setup) -> None:
    """One daemon owns the state; another roster is refused; sockets are replaced only if nobody serves them."""
    with setup.daemon() as daemon:
        (daemon.folder / "roster.csv").write_bytes(HEADING + b"alpha,1,24,100,1,2\n")
        daemon.refuses(3, "roster fault 4 number", "firmctl check-roster")
        (daemon.folder / "roster.csv").write_bytes(ROSTER)
        daemon.start()
        first, said = daemon.running(), daemon.said()
        daemon.refuses(4, f"is in use by process {first.pid}")
        (daemon.folder / "errors").write_bytes(said)
        state = daemon.folder / "state"
        other = Daemon(daemon.folder / "other", daemon.firm)
        other.folder.mkdir()
        (other.folder / "roster.csv").write_bytes(ROSTER)
        other.any.symlink_to(daemon.any)
        other.refuses(7, "something else stands there")
        other.any.unlink()
        other.options = ["--client", f"alpha={daemon.any}"]
        other.refuses(7, "somebody serves it")
        other.options = ["--client", f"alpha={daemon.folder / 'roster.csv'}"]
        other.refuses(7, "something else stands there")
        daemon.process = first
        with daemon.client() as client:
            require(client.ask(b"alpha show").startswith(b"alpha 1 ok"), "the first still serves")
        daemon.kill()
        require(daemon.any.is_socket() and (state / "view").is_socket(), "stale sockets")
        daemon.start().stop()
        require(not daemon.any.exists() and not (state / "view").exists(), "sockets are removed")
        (daemon.folder / "roster.csv").write_bytes(ROSTER.replace(b"beta", b"gamma"))
        daemon.refuses(3, "changed-roster", "not the roster that the state began with", "admit and retire tenants")
        for patience in (5, service.LONGEST_PATIENCE):
            (daemon.folder / "roster.csv").write_bytes(extended(ROSTER, patience))
            daemon.refuses(3, "changed-roster", "a patience needs a new state")
        (daemon.folder / "roster.csv").unlink()
        daemon.refuses(3, "cannot read the roster", "No such file")


def stops(setup: Setup) -> None:
    """SIGTERM and SIGINT: accepted lines are answered, then each client is notified, and the status is 0."""
    for number in (signal.SIGTERM, signal.SIGINT):
        with setup.daemon() as daemon:
            daemon.words = [sys.executable, "-c", PATIENT]
            daemon.start()
            with daemon.client() as client, daemon.client() as idle:
                client.send(b"alpha show\n" * 3_000)
                require(client.reply().startswith(b"alpha 1 ok"), "a reply")
                daemon.running().send_signal(number)
                *replies, last = client.rest().splitlines()
                require(last + b"\n" == idle.rest() == STOPPING, last)
                require(daemon.journal().count(b"\n") == len(replies) + 1, "each line that was taken is answered")
                require(daemon.status() == 0, daemon.said())
            daemon.start()
            with daemon.client() as client:
                require(client.ask(b"alpha show").startswith(b"alpha %d ok" % (len(replies) + 2)), "the count")
            daemon.stop()


def notifications(setup: Setup) -> None:
    """firmd notifies the manager of services when it is ready, and when it stops."""
    with setup.daemon() as daemon, socket.socket(socket.AF_UNIX, socket.SOCK_DGRAM) as manager:
        path = daemon.folder / "manager"
        manager.bind(str(path))
        manager.settimeout(REPLY_SECONDS)
        daemon.words = ["env", f"NOTIFY_SOCKET={path}", *FIRMD]
        daemon.start()
        require(manager.recv(100) == b"READY=1" and daemon.any.is_socket(), "ready")
        daemon.stop()
        require(manager.recv(100) == b"STOPPING=1", "stopping")


def own_rounds(setup: Setup) -> None:
    """Automatic rounds place waiting tasks soon after a change or at intervals, and nobody gets their replies."""
    for options in (["--after", "5"], ["--every", "0.05"]):
        with setup.daemon(*options) as daemon:
            daemon.start()
            with daemon.client() as client:
                replies = [client.ask(line) for line in ROWS]
                require(all(reply.endswith(b" ok") for reply in replies), replies)
                wait_for(lambda: client.ask(b"alpha where a").endswith(b" ok at m1"), "alpha's task runs")
                wait_for(lambda: client.ask(b"beta where l").endswith(b" ok at m1"), "beta's task runs")
                rounds = daemon.journal().count(b" round\n")
                time.sleep(0.3)
                require(daemon.journal().count(b" round\n") == rounds, "rounds where nothing waits")
                require(client.ask(b"beta task low second").endswith(b" ok"), "a task")
                least = 2 if "--after" in options else 4
                wait_for(lambda: daemon.journal().count(b"beta round\n") >= least, f"{least} rounds of beta")
                time.sleep(0.3)
                more = daemon.journal().count(b"beta round\n")
                require(more == 2 if "--after" in options else more >= 4, f"{more} rounds of beta")
                require(
                    b"waits" in client.ask(b"beta where second") + client.ask(b"beta where l"),
                    "there is no room for both",
                )
                require(client.received == b"", "a reply that nobody asked for")
            daemon.stop()
            daemon.options = []
            daemon.start()
            with daemon.client() as client:
                require(client.ask(b"alpha where a").endswith(b" ok at m1"), "the replay has the rounds")


SLOW = """\
#!/bin/bash
while IFS= read -r line; do
    if [ "$line" = "beta slow" ]; then until [ -e '{go}' ]; do sleep 0.05; done; fi
    printf '%s\\n' "$line"
done | '{program}' "$@"
"""


def shortest_times(setup: Setup) -> None:
    """A time between rounds that would leave firmd time for nothing else is refused."""
    for options in (["--after", "0"], ["--after", "0.9"], ["--every", "0.0009"]):
        with setup.daemon(*options) as daemon:
            daemon.refuses(2, f"{options[0]}: '{options[1]}' is not a number from ")


def rounds_of_another(setup: Setup) -> None:
    """A tenant that is retired while its round is pending, and admitted anew, has its rounds as before."""
    with setup.daemon("--after", "2000") as daemon:
        go = daemon.folder / "go"
        daemon.firm = stand_in(daemon.folder, SLOW.format(program=setup.program, go=go))
        daemon.start()
        with daemon.client() as client, Client(daemon.operator) as operator:
            # All at once, so that the retirement is taken before the round is due, however slow the host is.
            operator.send(b"".join(line + b"\n" for line in [*ROWS[:3], b"beta slow", b"+ retire alpha"]))
            wait_for(lambda: b"+ retire alpha\nalpha round\n" in daemon.journal(), "a round is requested meanwhile")
            go.touch()
            require([operator.reply() for _ in range(5)][4] == b"+ ok retired alpha", "the operator")
            require(operator.ask(b"+ admit alpha,30,300,1000,1,2") == b"+ ok admitted alpha", "the operator")
            for line in ROWS[:3]:
                require(client.ask(line).endswith(b" ok"), line)
            wait_for(lambda: client.ask(b"alpha where a").endswith(b" ok at m1"), "the task runs")
        daemon.stop()
        require(b"+ retire alpha\nalpha round\n+ admit" in daemon.journal(), "no earlier round")


MEMORY_LINES = [
    *ROWS,
    b"alpha round",
    b"+ admit gamma,100,200,100,1,2",
    b"gamma job j 1",
    b"alpha task j b",
    b"alpha show",
]


def refused_memory(setup: Setup) -> None:
    """A line that was refused for want of memory stays refused in a replay, though memory is there."""
    text = b"".join(line + b"\n" for line in MEMORY_LINES)
    places: dict[bytes, int] = {}  # the requests for memory to refuse, by the reply that each gives
    with tempfile.TemporaryDirectory(prefix="firmd-") as name, program.Roster(ROSTER) as roster_path:
        library = program.build_refusing(name)
        for place in range(1, 400):
            environment = {"LD_PRELOAD": library, "REFUSE_MEMORY": str(place)}
            replies = program.run([setup.program], roster_path, text, environment).output.splitlines()
            places |= {reply: place for reply in replies if reply.endswith(b"memory")}
        refused = {line for place in places.values() for line in refuse_and_replay(setup, library, place)}
    require(len(refused) > 5, f"memory was refused to {refused} alone")


def refuse_and_replay(setup: Setup, library: str, place: int) -> set[bytes]:
    """Refuse firm a request for memory, then replay with all its memory; return the refused lines."""
    with setup.daemon() as daemon:
        # The roster is tried by a firm with all its memory.
        condition = f"[ -e '{daemon.state / 'roster.csv'}' ] && export LD_PRELOAD='{library}' REFUSE_MEMORY={place}"
        daemon.firm = stand_in(daemon.folder, f"#!/bin/sh\n{condition}\nexec '{setup.program}' \"$@\"\n")
        daemon.start()
        with Client(daemon.operator) as client:
            try:
                replies = [client.ask(line) for line in MEMORY_LINES]
                if replies[-1].startswith(b"? stopping"):
                    raise client.gone()
            except Gone:  # line by line it was another request, without which firm can't go on
                require(daemon.status() == 6 and b"firm: memory" in daemon.said(), daemon.said())
                return set()
        daemon.stop() if place % 2 else daemon.kill()  # with the digests of its replies, and without
        marks = {number for number, reply in enumerate(replies) if reply.endswith(b"memory")}
        text = b"".join(line + b"\n" for line in MEMORY_LINES)
        require(replies == service.serve(ROSTER, text, marks), replies)
        daemon.firm = setup.program
        daemon.start()
        again = [b"alpha show", b"gamma show", b"alpha where b", b"alpha where a"]
        with daemon.client() as client:
            wanted = service.serve(ROSTER, text + b"".join(line + b"\n" for line in again), marks)[len(MEMORY_LINES) :]
            got = [client.ask(line) for line in again]
        require(got == wanted, f"{got} and not {wanted}, after {replies}")
        daemon.stop()
        return {MEMORY_LINES[number] for number in marks}


# firmd makes a socket just when a snapshot is begun.
MASKING = """\
import os, sys
from firm.server import snapshotting
snapshotting.program_words = lambda *_: [sys.executable, {program!r}]
def _make(self, sealed, original=snapshotting.Snapshots._make):
    os.umask(0o177)
    original(self, sealed)
snapshotting.Snapshots._make = _make
"""


def masked_snapshots(setup: Setup) -> None:
    """The umask for a socket that is made just then changes no rights of the folders of snapshots, or of others."""
    with setup.daemon("--snapshot-lines", "5", "--segment-bytes", "300") as daemon:
        maker, told = daemon.folder / "maker.py", daemon.folder / "umask"
        maker.write_text(f"import os\nopen({str(told)!r}, 'a').write(f'{{os.umask(0):o}} ')\n")
        patch(daemon, MASKING.format(program=str(maker)))
        daemon.start()
        with daemon.client() as client:
            require(all(client.ask(b"alpha show").startswith(b"alpha ") for _ in range(50)), "segments")
        wait_for(lambda: told.exists() and told.read_text() != "", "a snapshot is begun")
        require(told.read_text().split()[0] == "77", told.read_text())
        daemon.kill()
        archive = daemon.folder / "archive" / "of" / "alpha"
        made = "import os, pathlib\nfrom firm.common import files\nos.umask(0o177)\n"
        made += f"files.make_folder(pathlib.Path({str(archive)!r}), 0o700)\n"
        subprocess.run([sys.executable, "-c", made], env={**os.environ, "PYTHONPATH": str(SERVICE)}, check=True)
        modes = [folder.stat().st_mode & 0o700 for folder in (archive, *archive.parents[:2])]
        require(modes == [0o700] * 3, modes)


# Snapshots of nothing, as this check needs no fresh firm, and an archive on a host that is gone.
HANGING = """\
import time
from firm.server import archive, snapshotting
from firm.server.snapshots import Snapshot, write
archive.LATE_SECONDS = 0.5
archive.copy_into = lambda folder, path: time.sleep(1_000)
def _make(self, sealed):
    made = Snapshot(self._state.id, self._state.roster_sum, sealed, 0, b"{}", b"")
    write(self._state.snapshots_path, made)
    self._take(made)
    self._stream.call_in_loop(self._status.count, "snapshots")
snapshotting.Snapshots._make = _make
"""


def hung_archive(setup: Setup) -> None:
    """A hung archive is reported and counted, and delays no further snapshot."""
    options = ["--snapshot-lines", "5", "--segment-bytes", "300", "--keep", "0"]
    with setup.daemon(*options) as daemon:
        daemon.options += ["--archive", str(daemon.folder / "archive")]
        patch(daemon, HANGING)
        daemon.start()

        def goes_on() -> bool:
            with daemon.client() as client:
                require(all(client.ask(b"alpha show").startswith(b"alpha ") for _ in range(10)), "replies")
            status = status_of(daemon)
            return status["snapshots"] > 5 and status["snapshot_failures"] == 1

        wait_for(goes_on, "snapshots are made, and it is counted", MEANWHILE_SECONDS)
        require(f"{daemon.folder / 'archive'} hangs" in daemon.said().decode(), daemon.said())
        daemon.stop()


SHORT = [
    many_clients,
    torn_line,
    other_firm,
    no_rights,
    denied_rights,
    group_commit,
    hung_sync,
    failed_sync,
    syncs_of_starts,
    books_at_once,
    dying_firm,
    unanswered_lines,
    who_may_speak,
]
SHORT += [
    slow_client,
    dead_clients,
    endless_line,
    limits,
    one_daemon,
    stops,
    notifications,
    own_rounds,
    rounds_of_another,
    shortest_times,
    masked_snapshots,
    hung_archive,
]
LONG = [read_only, backpressure, refused_memory]


def checks(setup: Setup) -> dict[str, Callable[[], None]]:
    """Return each check by name."""
    found: dict[str, Callable[[Setup], None]] = {
        f"kills, part {part}": partial(kills, part=part) for part in range(CHECKS_AT_A_TIME)
    }
    found |= {name_of(check): check for check in SHORT + ([] if setup.is_quick else LONG)}
    disks = {"a limit": limit_files} if setup.is_quick else {"a limit": limit_files, "a file system": small_file_system}
    found |= {f"full disk, {name}": partial(full_disk, make_full=make_full) for name, make_full in disks.items()}
    return {name: partial(check, setup) for name, check in found.items()}


def name_of(check: Callable[[Setup], None]) -> str:
    return check.__name__.replace("_", " ")


def main() -> int:
    parser = argparse.ArgumentParser(description=(__doc__ or "").splitlines()[0])
    parser.add_argument("--quick", action="store_true", help="the part that tests/quick runs")
    program.add_program(parser)
    parser.add_argument("--only", default="", help="run only the checks whose names have these words")
    parser.add_argument(
        "--seed", type=int, default=random.randrange(10**6), help="seed of the random lines (default: any)"
    )
    options = parser.parse_args()
    setup = Setup(options.program, options.quick, options.seed)
    print(f"seed {options.seed}", flush=True)
    if setup.is_quick:
        left_out = [*map(name_of, LONG), "full disk, a file system"]
        print_skipped(", ".join(left_out), "--quick asks nothing that needs root, a C compiler or a minute")
    chosen = {name: check for name, check in checks(setup).items() if options.only in name}
    return run_suites(Suite(chosen, CHECKS_AT_A_TIME))


if __name__ == "__main__":
    run_script(main)
