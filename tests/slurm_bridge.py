"""Check firm-slurm over Debian's Slurm on this host: Slurm does what firm decides, whatever is killed meanwhile.

usage: tools/run tests/slurm_bridge.py [--program FILE] [--only WORDS] [--chaos RUNS] [--seed N]
It needs root, the built program, and Debian's packages slurmctld, slurmd, slurm-client, slurm-wlm-basic-plugins and
munge; without them its checks are skipped. The check of accounts also needs slurmdbd, mariadb-server and
slurm-wlm-mysql-plugin. Each check prints a line; the last line is 'N passed, M failed', and the exit status is 1 if one
failed. --chaos adds RUNS runs of random events, with seeds from N on. KEEP_LOGS names a folder for the logs of all
daemons.
"""

from __future__ import annotations

import argparse
import random
import signal
import socket
import subprocess
import tempfile
import time
import urllib.request
from collections import Counter
from collections.abc import Callable
from contextlib import ExitStack, suppress
from functools import partial
from pathlib import Path

from harness import program, sessions
from harness.checks import Check, Missed, Skipped, Suite, require, run_script, run_suites
from harness.deployed import SERVICE
from harness.guard import guard
from slurmdbd_kit import OTHERS, Slurmdbd
from slurm_kit import (
    BRIDGE,
    LIMITS,
    USER,
    Cluster,
    Events,
    Judge,
    Site,
    count_of_prologs,
    count_running,
    free_ports,
    groups_of,
    is_in_firm,
    require_packages,
    running,
    set_node,
    site,
    slowness,
    state_of,
    tell,
)
from slurm_kit import wait
from slurm_users import bounded, changes, earlier, refusals

EQUAL_SECONDS, START_SECONDS = 2.0, 5.0  # in which squeue has what firm decided, and 160 jobs run, on an idle host
RETRY_SECONDS = 2.0  # at most, until firmd is found again
FIRST_SECONDS = 2.0  # for jobs of a kind to preempt others and start, on an idle host; twice as many follow
PLACED_SECONDS = 30.0  # until a job is put off whose slot is not free
AT_A_TIME = 4  # checks
PAGE = program.ROOT / "docs" / "CLUSTER.md"
MOVING = "4096,65536,1099511627776,10,5,0"  # a third task on a machine costs more than a move
LIGHT, ROUNDS = 32, 6  # jobs that are preempted repeatedly, and the number of times
LAUNCHED, PAUSE_SECONDS = 16, 160.0  # jobs that are requeued as they start, and the time until all run again
STEADY_SECONDS = 4.0  # of running before their owner requeues some, so that no launch is disturbed
REQUEUE_SECONDS = 25.0  # within which these run again on an idle host; Slurm by itself takes 121
PREPARED_SECONDS = 12  # of PrologSlurmctld: longer than a preemption
CROWD = 80  # jobs that need a feature of one node
DOWN_SECONDS = 120.0  # for Slurm to give a node up
DESCRIPTORS = 64  # that firm-slurm may have open
PAGE_SECONDS = 900.0  # from the first command of the page to the end of a job, once the packages are there


def settle(place: Site, what: str, most: float = EQUAL_SECONDS) -> None:
    """Require that squeue soon equals firm's decisions, in two seconds on an idle host."""
    seconds = place.settle(what)
    tell(f"{what}: squeue equals where after {seconds:.1f} s")
    require(seconds <= most * slowness() + 1, f"{what}: equal only after {seconds:.1f} s")


def drained(place: Site, node: str) -> bool:
    return node not in [row["machine"] for row in place.rows()["machines"]]


def places_of(place: Site) -> set[str | None]:
    return set(place.places().values())


def decided(firm: str) -> None:
    """Five nodes, 86 jobs: a drain, preemption, kills of bridge, firmd and slurmctld, and a dead node."""
    with site(firm, 5, 4) as place:
        place.start_bridge()
        place.submit(32, 12, "light")
        place.submit(8, 12, "light", "--comment=near=node3")
        wait(lambda: len(place.places()) == 40, "40 tasks")
        settle(place, "40 jobs of 12 s")
        set_node(place, "node2", "DRAIN")
        wait(lambda: drained(place, "node2"), "the drain of node2")
        place.submit(6, 6, "heavy")
        wait(lambda: place.count_said("preempt"), "a preemption")
        settle(place, "heavy jobs preempt light ones", EQUAL_SECONDS + 2 * FIRST_SECONDS)  # one, then three, then two
        set_node(place, "node2", "RESUME")
        wait(lambda: "node2" in places_of(place), "node2 again")
        settle(place, "node2 is there again")
        place.kill_bridge()
        time.sleep(2)
        place.start_bridge()
        settle(place, "the bridge was killed")
        place.submit(20, 8, "light")
        time.sleep(0.7)
        place.daemon.kill()
        time.sleep(2)
        place.daemon.start()
        settle(place, "firmd was killed", EQUAL_SECONDS + RETRY_SECONDS)
        place.cluster.kill("slurmctld")
        time.sleep(3)
        place.cluster.start_controller()
        settle(place, "slurmctld was stopped")
        place.submit(20, 8, "light")
        wait(lambda: "node4" in places_of(place), "jobs on node4")
        place.cluster.cut_power("node4")
        wait(lambda: drained(place, "node4"), "node4 is given up", DOWN_SECONDS)
        settle(place, "node4 is dead")
        wait(place.is_empty, "the end of all jobs", 180)
        judge(place, 86, 4)


def judge(place: Site, count: int, slots: int) -> dict[str, int]:
    """Require from the logs that all jobs ended once, none ran twice at a time, and all changes took effect; return
    the counts."""
    found = Judge(place)
    found.require_single()
    cancelled = found.require_ended_once(count)
    most = found.most_at_a_time()
    require(most <= slots, f"{most} jobs on a node of {slots}")
    told = f"{count - cancelled} jobs ended once, {cancelled} were cancelled, {most} of {slots} on a node at most"
    carried_out = found.require_carried_out()
    tell(f"{told}; carried out: {carried_out}")
    return carried_out


def large(firm: str) -> None:
    """40 nodes of 4 and 400 jobs: 160 run within five seconds of an idle host."""
    with site(firm, 40, 4) as place:
        place.start_bridge()
        wait(lambda: len(place.rows()["machines"]) == 40, "40 machines")
        began = time.monotonic()
        place.submit(400, 20, "light")
        wait(lambda: count_running(place) == 160, "160 jobs that run")
        seconds = time.monotonic() - began
        tell(
            f"160 of 400 jobs run {seconds:.1f} s after they were submitted, on a host {slowness():.1f} times too busy"
        )
        require(seconds <= START_SECONDS * slowness(), f"160 jobs run only after {seconds:.1f} s")
        settle(place, "400 jobs on 40 nodes")


# Users' rights


def holds(firm: str) -> None:
    """A user's hold is the user's own until the user releases the job, or an administrator's; nobody releases firm's
    holds."""
    with site(firm, 1, 2) as place:
        run = partial(place.cluster.run, user=USER)
        first = place.submit(1, 60, "light", "--hold", user=USER)
        array = place.submit(3, 60, "light", user=USER)
        run("scontrol", "hold", f"{array}_3")
        waiting = place.submit(1, 1, "light", user=USER)
        place.start_bridge()
        wait(lambda: is_in_firm(place, f"{array}-1", f"{array}-2", waiting), "the tasks that nobody holds")
        wait(lambda: count_running(place) == 2, "two jobs that run")
        require(not place.places().keys() & {first, f"{array}-3"}, f"held jobs are firm's: {place.places()}")
        done = place.cluster.try_run("scontrol", "release", waiting, user=USER)
        require(done.returncode != 0 and state_of(place, waiting) == "PENDING", f"a user releases: {done}")
        run("scontrol", "hold", waiting)
        wait(lambda: not is_in_firm(place, waiting), "a hold of a task")
        for held in (waiting, first, f"{array}_3"):
            run("scontrol", "release", held)
        wait(lambda: is_in_firm(place, waiting, first, f"{array}-3"), "released jobs are firm's")
        place.cluster.run("scontrol", "hold", waiting)
        wait(lambda: not is_in_firm(place, waiting), "a hold of an administrator")
        place.cluster.run("scontrol", "uhold", waiting)
        wait(lambda: is_in_firm(place, waiting), "it is firm's again")
        require_kept_hold(place)
        run("scancel", array, first, waiting)
        require_kept_runs(place)
        wait(lambda: place.is_empty(), "the end of all jobs")


def require_kept_hold(place: Site) -> None:
    """Asks that a user ends no hold of an administrator, as by a dependency that fails, for which Slurm has it too."""
    run = partial(place.cluster.run, user=USER)
    held = place.submit(1, 60, "light", "--begin=now+1hour", user=USER)
    place.cluster.run("scontrol", "hold", held)
    fails = place.folder / "fails"
    fails.write_text("#!/bin/sh\nexit 1\n")
    needed = run("sbatch", "--parsable", "-o", "/dev/null", "-A", "heavy", str(fails)).strip()
    ask = partial(place.cluster.run, "squeue", "-h", "-j", held, "-O")
    run("scontrol", "update", f"JobId={held}", f"Dependency=afterok:{needed}", "StartTime=now")
    wait(lambda: "failed" in ask("Dependency:80") and "Admin" in ask("Reason"), "a dependency that has failed")
    run("scontrol", "update", f"JobId={held}", "Dependency=", "Comment=mine")
    time.sleep(START_SECONDS)
    require(ask("Reason").strip() == "JobHeldAdmin" and not is_in_firm(place, held), f"a hold is lost: {ask('Reason')}")
    place.cluster.run("scontrol", "uhold", held)
    wait(lambda: is_in_firm(place, held), "it is firm's again")
    run("scancel", held)


def require_kept_runs(place: Site) -> None:
    """Asks the same where root holds an array that runs in part, and a job with a long comment."""
    run, ask = partial(place.cluster.run, user=USER), partial(place.cluster.run, "squeue", "-h", "--array-unique", "-O")
    long = place.submit(1, 60, "light", "--begin=now+1hour", f"--comment={'x' * 1_020}", user=USER)
    place.cluster.run("scontrol", "hold", long)
    require("firm:admin" in ask("Comment:1100", "-j", long), "a hold of a job with a long comment is not marked")
    array = place.submit(3, 3_600, "light", user=USER)
    wait(lambda: count_running(place) == 2, "two elements that run")
    place.cluster.run("scontrol", "hold", array)
    wait(lambda: ask("Comment:100", "-j", array).split() == ["firm:admin"] * 3, "marks of root's holds")
    time.sleep(STEADY_SECONDS)
    run("scontrol", "requeuehold", f"{array}_1")
    run("scontrol", "requeue", f"{array}_2")
    wait(lambda: not count_running(place), "the end of both runs")
    time.sleep(START_SECONDS)
    require(ask("State,PriorityLong", "-j", array).split() == ["PENDING", "0"] * 3, f"lost: {ask('Reason:40,Comment')}")
    place.cluster.run("scontrol", "uhold", array)
    wait(lambda: count_running(place) == 2, "two of the elements that root has given back")
    run("scancel", array, long)


def orders(firm: str) -> None:
    """Dependencies, a time to begin, an array's limit of running elements, preferred nodes and weights are obeyed."""
    with site(firm, 2, 2) as place:
        place.start_bridge()
        near = place.submit(1, 8, "light", "--comment=near=node2")
        few = place.submit(4, 3, "light", "--array=1-4%1")
        place.submit(2, 1, "light", "--array=1-2%0")  # without a limit
        later = place.submit(1, 1, "light", f"--dependency=afterok:{near}")
        begins = place.submit(1, 1, "light", "--begin=now+12")
        wait(lambda: place.places().get(near) == "node2", "a preferred node")
        most = 0
        while state_of(place, near) == "RUNNING" or count_of(place, few):
            running = [job for job, (state, _) in place.cluster.squeue().items() if state == "RUNNING"]
            most = max(most, sum(job.startswith(f"{few}-") for job in running))
            require(later not in running or near not in running, "a job before the one that it needs")
            require(not is_in_firm(place, begins) or not place.cluster.squeue().get(near), "a job before its time")
            time.sleep(0.3)
        require(most == 1, f"{most} elements of an array at a time")
        wait(place.is_empty, "the end of all jobs")
        judge(place, 9, 2)


# Other behaviour


def moved(firm: str) -> None:
    """A job that firm moves is requeued, and runs to its end on its new node; a kill of the bridge does no harm."""
    with site(firm, 3, 4, limits=MOVING) as place:
        place.start_bridge()
        wait(lambda: len(place.rows()["machines"]) == 3, "three machines")
        for node in ("node2", "node3"):
            set_node(place, node, "DRAIN")
        wait(lambda: drained(place, "node2") and drained(place, "node3"), "one machine")
        place.submit(3, round(12 + 8 * slowness()), "heavy")
        wait(lambda: count_running(place) == 3, "three jobs on node1")
        for node in ("node2", "node3"):
            set_node(place, node, "RESUME")
        wait(lambda: place.count_said(" move "), "a move")
        place.kill_bridge()  # the next bridge carries out its unfinished orders
        place.start_bridge()
        wait(lambda: places_of(place) == {"node1", "node2", "node3"}, "a job on each node")
        settle(place, "firm moved two jobs", EQUAL_SECONDS + RETRY_SECONDS)
        wait(place.is_empty, "the end of all jobs")
        carried_out = judge(place, 3, 4)
        require(carried_out.get("move", 0) >= 2, f"moves: {carried_out}")


def preempted(firm: str) -> None:
    """Jobs that are preempted, or requeued by their owner, run again at once where they ran; none is lost."""
    with site(firm, 2, 16) as place:
        place.start_bridge()
        wait(lambda: len(place.rows()["machines"]) == 2, "two machines")
        array = place.submit(LIGHT, 3600, "light", user=USER)
        runs = partial(all_run, place, array)
        wait(runs, "all light jobs")
        chance, slowest = random.Random(1), 0.0
        for _ in range(ROUNDS):
            heavy = place.submit(LIGHT, 3600, "heavy")
            wait(lambda: not any(name.startswith(f"{array}-") for name in running(place)), "all of them are preempted")
            time.sleep(chance.uniform(0, 1.5))
            place.cluster.run("scancel", heavy)
            wait(runs, "the light jobs again")
            time.sleep(STEADY_SECONDS)
            chosen = chance.sample(range(1, LIGHT + 1), LIGHT // 2)
            place.cluster.run("scontrol", "requeue", f"{array}_[{','.join(map(str, chosen))}]", user=USER)
            slowest = max(slowest, wait(runs, "the requeued jobs", REQUEUE_SECONDS))
        told = f"{ROUNDS * LIGHT} preemptions and {ROUNDS * (LIGHT // 2)} requeues, none lost"
        tell(f"{told}; at most {slowest:.1f} s after a requeue all run")
        place.cluster.run("scancel", array)
        wait(place.is_empty, "the end of all jobs")
        Judge(place).require_single()


def launched(firm: str) -> None:
    """Jobs that their owner requeues as they start run again after Slurm's own pause; none is lost, none runs twice."""
    with site(firm, 2, 8) as place:
        place.start_bridge()
        wait(lambda: len(place.rows()["machines"]) == 2, "two machines")
        array = place.submit(LAUNCHED, 3600, "light", user=USER)
        requests = "".join(f"requeue {array}_{index}\n" for index in range(1, LAUNCHED + 1)) * 20
        restarts = partial(place.cluster.run, "squeue", "-h", "--array-unique", "-O", "RestartCnt")

        def are_requeued() -> bool:
            place.cluster.try_run("scontrol", user=USER, text=requests)  # Slurm refuses those that don't run
            return "0" not in restarts().split()

        wait(are_requeued, "a requeue of each")
        seconds = wait(partial(all_run, place, array, LAUNCHED), "all jobs again", PAUSE_SECONDS)
        tell(f"{LAUNCHED} jobs that were requeued as they started all run {seconds:.0f} s later")
        place.cluster.run("scancel", array)
        wait(place.is_empty, "the end of all jobs")
        Judge(place).require_single()


def prepared(firm: str) -> None:
    """A job is not requeued while a prolog runs: Slurm would hold it as an administrator does."""
    with tempfile.TemporaryDirectory(prefix="firm-slurm-") as name:
        prolog = Path(name) / "prolog"
        prolog.write_text(f"#!/bin/sh\nsleep {PREPARED_SECONDS}\n")
        for path in (prolog.parent, prolog):
            path.chmod(0o755)
        for more in (f"PrologSlurmctld={prolog}", f"Prolog={prolog}\nPrologFlags=Alloc"):
            with site(firm, 1, 4, more=more) as place:
                place.start_bridge()
                look = partial(place.cluster.run, "squeue", "-h", "-A", "light", "-O", "State:20,Reason")
                place.submit(4, 5, "light", user=USER)
                wait(lambda: count_of_prologs(look()) == 4, "four jobs whose prolog runs")
                place.submit(4, 1, "heavy")
                wait(lambda: place.count_said("preempt"), "a preemption")
                while count_of_prologs(look()):
                    require(not place.count_said("requeuehold"), "a job is requeued while its prolog runs")
                    time.sleep(0.3)
                wait(place.is_empty, "the end of all jobs")
                judge(place, 8, 4)


def all_run(place: Site, array: str, count: int = LIGHT) -> bool:
    """Return whether all elements of an array run; require that none is lost."""
    try:
        jobs = place.cluster.squeue()
    except Missed:  # slurmctld may be busy
        return False
    states = [state for name, (state, _) in jobs.items() if name.startswith(f"{array}-")]
    require(len(states) == count, f"{count - len(states)} of {count} jobs are lost")
    return states.count("RUNNING") == count


def put_off(firm: str) -> None:
    """A job that Slurm doesn't start releases its slot, and is put off; also if another partition's job has the
    slot."""
    others = "PartitionName=firm Nodes=node1 Default=YES State=UP\nPartitionName=other Nodes=node1 State=UP"
    with site(firm, 1, 2, partitions=others, limits=LIMITS.removesuffix("5") + "0") as place:
        place.start_bridge()
        wait(lambda: place.rows()["machines"], "a machine")
        place.submit(1, 300, "light", "-p", "other", "-n2")
        wait(lambda: count_running(place) == 1, "the other partition's job")
        job = place.submit(1, 1, "light")
        wait(lambda: place.places().get(job) == "node1", "firm places the job")
        wait(lambda: place.count_said("put off"), "its slot is given back", 2 * PLACED_SECONDS)
        wait(lambda: place.count_said("remote is 0"), "that preferences have no effect")
        place.cluster.run("scancel", "-p", "other")
        wait(place.is_empty, "its end")


def blocked(firm: str) -> None:
    """Jobs that Slurm can't start, for want of a licence, a feature or an unreserved node, keep no others waiting."""
    with site(firm, 3, 4, more="Licenses=seat:1") as place:
        run = place.cluster.run
        reserve = ["ReservationName=r", "StartTime=now", "Duration=60", "Users=root", "Flags=IGNORE_JOBS"]
        run("scontrol", "create", "reservation", "Nodes=node3", *reserve)
        place.start_bridge()
        place.submit(24, 1, "light", user=USER)
        tell(f"24 jobs of 1 s, 8 slots and a reserved node: {wait(place.is_empty, 'their end'):.1f} s")
        run("scontrol", "delete", "ReservationName=r")
        wait(lambda: len(place.rows()["machines"]) == 3, "the reserved node again")
        booked(place)
        seats = place.submit(100, 3, "light", "--licenses=seat", user=USER)
        wait(lambda: count_running(place) == 1, "the licence's first job")
        other = place.submit(44, 1, "light", "--array=2-88:2", user=USER)
        seconds = wait(lambda: not count_of(place, other), "jobs without a licence")
        tell(f"44 jobs of 1 s behind 100 that have one licence, 12 slots: {seconds:.1f} s")
        require(count_of(place, seats) > 60, f"{count_of(place, seats)} of 100 jobs have not had the licence")
        run("scancel", seats)
        wait(place.is_empty, "the end of all jobs")
        run("scontrol", "update", "NodeName=node3", "AvailableFeatures=big", "ActiveFeatures=big")
        first = place.submit(4, 20, "light", "--comment=near=node3")
        wait(lambda: set(place.places().values()) == {"node3"}, "the node with the feature is in use")
        big = place.submit(2, 1, "light", "-C", "big")
        wait(lambda: place.count_said("put off"), "a node that a job is not made for")
        run("scancel", first)
        wait(place.is_empty, "the end of the jobs with a feature", 150)
        require(Judge(place).works()[f"{big}_1"] == 1, "a job with a feature has not run")
        crowded(place)


def crowded(place: Site) -> None:
    """Jobs that need the same busy node, each by itself, leave the other nodes to others."""
    before = place.count_said("StartTime=now+")
    for _ in range(CROWD):
        place.submit(1, 300, "light", "-C", "big", user=USER)
    other = place.submit(44, 1, "light", user=USER)
    seconds = wait(lambda: not count_of(place, other), "jobs without a feature")
    tries = place.count_said("StartTime=now+") - before
    tell(f"44 jobs of 1 s behind {CROWD} for a node of 4 slots: {seconds:.1f} s, {tries} times put off")
    require(tries < CROWD // 2, f"{tries} times a job was put off that needs a busy node")
    place.cluster.run("scancel", "-u", USER)
    wait(place.is_empty, "the end of all jobs")


def booked(place: Site) -> None:
    """A node with a future reservation takes only jobs that end before; others don't wait for it."""
    reserve = ["ReservationName=later", "StartTime=now+1hour", "Duration=60", "Users=root", "Nodes=node3"]
    place.cluster.run("scontrol", "create", "reservation", *reserve)
    place.submit(24, 1, "light", user=USER)
    tell(f"24 jobs of 1 s without a limit, 8 slots and a booked node: {wait(place.is_empty, 'their end'):.1f} s")
    require(not place.count_said("put off"), "a job was placed on a node that is booked")
    place.submit(24, 1, "light", user=USER)
    short = place.submit(24, 2, "light", "-t", "30", user=USER)
    tell(f"with 24 of 2 s and 30 minutes at most: {wait(place.is_empty, 'their end'):.1f} s")
    ends = [row.split() for row in place.ledger.read_text().splitlines()]
    require(any(row[1] == short and row[-1] == "node3" for row in ends), "no short job ran on the booked node")
    place.cluster.run("scontrol", "delete", "ReservationName=later")


def asleep(firm: str) -> None:
    """A node that Slurm has powered down is a machine, and is woken for its jobs."""
    more = "SuspendProgram=/bin/true\nResumeProgram=/bin/true\nSuspendTime=3600\nSuspendTimeout=3\nResumeTimeout=300"
    with site(firm, 2, 2, more=more) as place:
        look = partial(place.cluster.run, "sinfo", "-h", "-N", "-n", "node2", "-O", "StateComplete:100")
        set_node(place, "node2", "POWER_DOWN")
        place.cluster.kill("slurmd.node2")
        wait(lambda: "powered_down" in look(), "a node without power")
        place.start_bridge()
        wait(lambda: len(place.rows()["machines"]) == 2, "it is a machine")
        place.submit(4, 3, "light")
        wait(lambda: "powering_up" in look(), "it is woken")
        place.cluster.run("slurmd", "-N", "node2", "-b")  # as if its host had been started
        wait(place.is_empty, "the end of all jobs")
        judge(place, 4, 2)


def count_of(place: Site, array: str) -> int:
    return sum(name.startswith(f"{array}-") for name in place.cluster.squeue())


def taken_over(firm: str) -> None:
    """Jobs that run before the bridge's first start go on, as tasks of their nodes."""
    with site(firm, 3, 2) as place:
        job = place.submit(3, 25, "light")
        for index, node in ((1, "node1"), (2, "node2"), (3, "node2")):
            place.cluster.run("scontrol", "update", f"JobId={job}_{index}", f"ReqNodeList={node}", "StartTime=now")
            place.cluster.run("scontrol", "release", f"{job}_{index}")
        wait(lambda: count_running(place) == 3, "three jobs that run")
        place.submit(4, 1, "light")
        place.start_bridge()
        wanted = {f"{job}-1": "node1", f"{job}-2": "node2", f"{job}-3": "node2"}
        wait(lambda: wanted.items() <= place.places().items(), "tasks where their jobs run")
        wait(place.is_empty, "the end of all jobs")
        require(not place.count_said("requeuehold"), "a job was requeued")
        judge(place, 7, 2)


def resized(firm: str) -> None:
    """A node has no more slots than a later table says; its running jobs go on."""
    with site(firm, 1, 4) as place:
        place.start_bridge()
        first = place.submit(3, 3600, "light")
        wait(lambda: count_running(place) == 3, "three jobs that run")
        place.kill_bridge(number=signal.SIGTERM)
        place.partition_options = "slots = 2"
        place.write_table()
        place.start_bridge()
        second = place.submit(3, 3600, "light")
        wait(lambda: not place.rows()["machines"], "the machine of four slots leaves")
        require(count_running(place) == 3, f"of three jobs that ran: {running(place)}")
        place.cluster.run("scancel", first)
        wait(lambda: count_running(place) == 2, "two of the other jobs run")
        require([row["slots"] for row in place.rows()["machines"]] == [2], f"slots: {place.rows()['machines']}")
        require(not place.count_said("requeuehold"), "a job was requeued")
        place.cluster.run("scancel", second)
        wait(place.is_empty, "the end of all jobs")


def rivals(firm: str) -> None:
    """A second bridge waits for the first one's end; one by another table does no harm, and reports the first."""
    with site(firm, 2, 4) as place:
        place.start_bridge("first")
        wait(lambda: place.count_said("machine node", "first") == 2, "two machines")
        place.start_bridge("second")
        wait(lambda: place.count_said("another bridge has", "second"), "the second waits")
        place.kill_bridge("first")
        place.submit(4, 0.5, "light")
        wait(lambda: place.count_said("4 task", "second"), "the second has taken over")
        other = place.folder / "other.toml"
        other.write_text(place.table.read_text())
        place.start_bridge("third", other)
        count = 4
        while not any(place.count_said("another bridge or client speaks", name) for name in ("second", "third")):
            require(count < 200, "neither bridge says that there is another")
            place.submit(4, 0.5, "light")
            count += 4
            time.sleep(0.7)
        wait(place.is_empty, "the end of all jobs")
        judge(place, count, 4)


def several(firm: str) -> None:
    """One bridge has several partitions, each with a tenant."""
    two = "PartitionName=a Nodes=node1 Default=YES State=UP\nPartitionName=b Nodes=node2 State=UP"
    with site(firm, 2, 2, partitions=two, tenants=("a", "b")) as place:
        place.start_bridge()
        # They run until they are cancelled: on a busy host the first may end before the last one starts.
        first, second = place.submit(2, 3600, "light"), place.submit(2, 3600, "light", "-p", "b")
        wait(lambda: count_running(place) == 4, "four jobs that run")
        nodes = {job: node for job, (_, node) in place.cluster.squeue().items()}
        require(nodes == {f"{first}-{k}": "node1" for k in (1, 2)} | {f"{second}-{k}": "node2" for k in (1, 2)}, nodes)
        place.cluster.run("scancel", first, second)
        wait(lambda: not place.cluster.squeue(), "the end of all jobs")


def accounts(firm: str) -> None:
    """Over slurmdbd a job has the weight of its QOS, or its account, in the table; a user has only the user's own."""
    with site(firm, 1, 2, accounts=Slurmdbd(), partition_options='weigh = "qos"') as place:
        script = place.folder / "job"
        script.write_text("#!/bin/sh\n")
        for words, said in ((["--qos", OTHERS], "Invalid qos"), (["-A", OTHERS], "Invalid account")):
            done = place.cluster.try_run("sbatch", *words, str(script), user=USER)
            require(done.returncode != 0 and said in done.stderr, f"{words}: {done}")
        require("may name any" not in place.tool("check"), "slurmdbd says which accounts are a user's")
        waiting = preempts(place, {"normal": 10, "heavy": 200_000}, "light", "--qos=heavy")
        place.cluster.run("scontrol", "update", f"JobId={waiting}", "QOS=heavy", user=USER)
        wait(lambda: groups_of(place).get(waiting) == "heavy", "a waiting job of another QOS")
        wait(place.is_empty, "the end of all jobs")
        place.kill_bridge(number=signal.SIGTERM)
        place.partition_options = ""
        place.write_table()
        preempts(place, {"light": 10, "heavy": 200_000}, "heavy")
        wait(place.is_empty, "the end of all jobs")
        judge(place, 8, 2)
        wanted = Counter({"COMPLETED|light|normal": 5, "COMPLETED|light|heavy": 2, "COMPLETED|heavy|normal": 1})
        ask = partial(place.cluster.run, "sacct", "-n", "-X", "-P", "-a", "-S", "now-1hours", "-o", "State,Account,QOS")
        wait(lambda: Counter(ask().split()) == wanted, "all jobs in slurmdbd")


def preempts(place: Site, weights: dict[str, int], account: str, *words: str) -> str:
    """Preempt one of two light jobs by a heavy one; return the number of a further light one, which waits."""
    before = place.count_said("preempt")
    place.start_bridge()
    wait(lambda: place.rows()["machines"], "a machine")
    place.submit(2, round(4 + 4 * slowness()), "light", user=USER)
    wait(lambda: count_running(place) == 2, "two light jobs")
    waiting = place.submit(1, 2, "light", user=USER)
    wait(lambda: is_in_firm(place, waiting), "one that waits")
    place.submit(1, 8, account, *words, user=USER)
    wait(lambda: place.count_said("preempt") > before, "a preemption")
    settle(place, f"a heavy job by {' '.join(words) or account} preempts a light one")
    wait(lambda: {row["job"]: row["weight"] for row in place.rows()["jobs"]} == weights, f"the weights {weights}")
    return waiting


def shown(firm: str) -> None:
    """`status` shows differences with their times, `check` the lines to write, and /metrics the same as numbers."""
    with site(firm, 1, 2) as place:
        looked = place.tool("check")
        require("nothing is to be changed" in looked and "a user may name any account" in looked, f"check: {looked}")
        place.start_bridge()
        job = place.submit(1, 60, "light")
        wait(lambda: count_running(place) == 1, "a job that runs")
        require(f"\nfirm       {job}" not in place.tool("status"), "a difference where none is")
        place.kill_bridge(number=signal.SIGTERM)
        place.cluster.run("scancel", job)
        wait(lambda: state_of(place, job) == "ended", "its end")
        told = place.tool("status").split()
        require(told[-5:-1] == ["firm", job, "node1", "ended"], f"status: {told}")
        metrics(place)
        place.partition_options = 'weigh = "qos"'
        place.write_table()
        conf = place.cluster.conf
        text = conf.read_text().replace("=lua", "=")
        for good, bad in (("default_queue_depth=10000,", ""), ("batch_sched_delay=0,", ""), ("50000", "2000000")):
            text = text.replace(good, bad)
        text = text.replace("NodeName=node[1-1]", "NodeName=Node_[1-1]")
        (place.folder / "slurm.conf").write_text(f"{text}PartitionName=spare Nodes=none Alternate=firm\n")
        done = place.try_tool("check", "--conf", str(place.folder / "slurm.conf"))
        names = ["default_queue_depth=10000", "batch_sched_delay=0", "sched_min_interval=50000"]
        names += ["no job has a QOS", "JobSubmitPlugins=lua", "firm-slurm hook", "node Node_1", "without Alternate"]
        for advice in names:
            require(done.returncode == 1 and advice in done.stdout, f"{advice}: {done}")


def metrics(place: Site) -> None:
    python, port = "/usr/bin/python3", free_ports(1)
    if subprocess.run([python, "-c", "import prometheus_client"], capture_output=True).returncode:
        return tell("no metrics: there is no python3-prometheus-client")
    command = [python, *BRIDGE[1:], "run", "--table", str(place.table), "--http", str(port)]
    with subprocess.Popen(command, env=place.cluster.environment, stderr=subprocess.DEVNULL) as bridge:
        try:
            wait(lambda: 'firm_slurm_nodes{partition="firm",use="open"} 1.0' in scraped(port), "the metrics")
            wait(lambda: 'firm_slurm_different{partition="firm"} 0.0' in scraped(port), "no difference")
            require('firm_slurm_lines_total{partition="firm",verb="done"} 1.0' in scraped(port), scraped(port))
        finally:
            bridge.terminate()


def flooded(firm: str) -> None:
    """Idle connections to /metrics leave firm-slurm the descriptors that it needs for Slurm's commands."""
    python, port = "/usr/bin/python3", free_ports(1)
    if subprocess.run([python, "-c", "import prometheus_client"], capture_output=True).returncode:
        raise Skipped("there is no python3-prometheus-client")
    with site(firm, 1, 2) as place, ExitStack() as stack:
        command = ["prlimit", f"--nofile={DESCRIPTORS}", python, *BRIDGE[1:], "run", "--table", str(place.table)]
        bridge = subprocess.Popen(
            [*command, "--http", str(port)], env=place.cluster.environment, stderr=subprocess.DEVNULL
        )
        stack.callback(bridge.wait)
        stack.callback(bridge.terminate)
        wait(lambda: 'firm_slurm_nodes{partition="firm",use="open"} 1.0' in scraped(port), "the metrics")
        with suppress(TimeoutError):  # it can take no more
            for _ in range(DESCRIPTORS):
                stack.enter_context(socket.create_connection(("127.0.0.1", port), START_SECONDS))
        for _ in range(3):
            place.submit(2, 0.1, "light", user=USER)
            wait(place.is_empty, "the end of jobs", 3 * START_SECONDS)
        stack.pop_all().close()
        require(bridge.returncode == 0, f"firm-slurm ended with {bridge.returncode}")


def scraped(port: int) -> str:
    with suppress(OSError), urllib.request.urlopen(f"http://127.0.0.1:{port}/metrics", timeout=10) as answer:
        return bytes(answer.read()).decode()
    return ""


# Chaos


def chaos(seed: int, firm: str, seconds: float = 60.0) -> None:
    """Two bridges, and random submissions, drains, cancels and kills."""
    chance = random.Random(seed)
    drain = chance.choice(["finish", "move"])
    with site(firm, 5, 4, partition_options=f'drain = "{drain}"') as place:
        for name in ("bridge", "second"):
            place.start_bridge(name)
        events = Events(place, chance)
        ends = time.monotonic() + seconds
        while time.monotonic() < ends:
            events.next()
            time.sleep(chance.uniform(0.1, 1.5))
        events.resume_all()
        place.settle("after all events")
        wait(place.is_empty, "the end of all jobs", 240)
        tell(f"seed {seed}, drain {drain}: {dict(events.counts)}")
        judge(place, events.submitted, 4)


# The page


def page(firm: str) -> None:
    """The commands and the table of docs/CLUSTER.md take an operator to a job that ran."""
    require_packages()
    typed, table = (sessions.block_with(PAGE, words).text for words in ("firm-slurm check", "[partitions.batch]"))
    partition = "PartitionName=batch Nodes=ALL Default=YES State=UP"
    with tempfile.TemporaryDirectory(prefix="firm-slurm-") as name:
        folder = Path(name)
        cluster = Cluster(folder / "slurm", 2, 8, partition)
        names = {
            "/var/lib/firm/state": f"{folder}/state",
            "/run/firm/": f"{folder}/",
            "/etc/slurm": str(cluster.folder),
        }
        names |= {"service/": f"{SERVICE}/", " --http 9181": ""}
        for old, new in names.items():
            typed, table = typed.replace(old, new), table.replace(old, new)
        (folder / "slurm.toml").write_text(table)
        (folder / "job.sh").write_text(f"#!/bin/sh\n#SBATCH -o /dev/null\necho done >> {folder}/ledger\n")
        served: list[subprocess.Popen[bytes]] = []
        began = time.monotonic()
        try:
            for line in typed.splitlines():
                follow(line, folder, cluster, served, firm)
            wait(lambda: (folder / "ledger").exists(), "the first job")
            seconds = time.monotonic() - began
            tell(f"the page's first job has run {seconds:.0f} s after the first command")
            require(seconds <= PAGE_SECONDS, f"the first job has run only after {seconds:.0f} s")
            wait(lambda: (folder / "ledger").read_text().count("done") == 100, "all 100 jobs", 180)
        finally:
            for process in served:
                process.terminate()
                process.wait()
            cluster.stop()


def follow(line: str, folder: Path, cluster: Cluster, served: list[subprocess.Popen[bytes]], firm: str) -> None:
    """Do what a line of the page says."""
    words, environment = ["/bin/sh", "-euc", line], cluster.environment
    if line.startswith("apt-get"):
        return
    if "firmd" in line or "firm-slurm run" in line:
        command = f"exec {line}" + (f" --firm {firm}" if "firmd" in line else "")
        served.append(subprocess.Popen([*words[:2], command], cwd=folder, env=environment, stderr=subprocess.DEVNULL))
        if "firmd" in line:
            wait(lambda: (folder / "state/view").exists(), "firmd")
        return
    done = subprocess.run(words, cwd=folder, env=environment, capture_output=True, text=True)
    require(done.returncode == 0, f"{line}: {done}")
    if "check" in line:
        cluster.start()


CHECKS: dict[str, Callable[[str], None]] = {
    "large": large,
    "decided": decided,
    "moved": moved,
    "preempted": preempted,
    "launched": launched,
    "prepared": prepared,
    "put off": put_off,
    "blocked": blocked,
    "asleep": asleep,
    "accounts": accounts,
    "orders": orders,
    "taken over": taken_over,
    "holds": holds,
    "resized": resized,
    "rivals": rivals,
    "several": several,
    "shown": shown,
    "flooded": flooded,
    "refusals": refusals,
    "bounded": bounded,
    "changes": changes,
    "earlier": earlier,
    "page": page,
}


def main() -> int:
    parser = argparse.ArgumentParser(description=(__doc__ or "").splitlines()[0])
    parser.add_argument("--program", type=program.program_file, default=str(program.BUILT), help="(default: the built)")
    parser.add_argument("--only", nargs="*", metavar="WORD", help="checks whose names begin so")
    parser.add_argument("--chaos", type=int, default=0, metavar="RUNS", help="of random events too")
    parser.add_argument("--seed", type=int, default=1, metavar="N", help="of the first")
    options = parser.parse_args()
    guard()
    found: dict[str, Check] = {name: partial(check, options.program) for name, check in CHECKS.items()}
    for seed in range(options.seed, options.seed + options.chaos):
        found[f"chaos, seed {seed}"] = partial(chaos, seed, options.program)
    if options.only is not None:
        found = {name: check for name, check in found.items() if name.startswith(tuple(options.only))}
    alone = {"large": found.pop("large")} if "large" in found else {}  # its time is measured
    return run_suites(Suite(alone), Suite(found, AT_A_TIME))


if __name__ == "__main__":
    run_script(main)
