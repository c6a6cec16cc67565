"""Checks of tests/slurm_bridge.py on a user's options for a job, at its submission and later."""

from __future__ import annotations

import time
from functools import partial

from harness.checks import require
from slurm_checks import SUBMIT, hooked
from slurm_kit import USER, Site, count_running, delayed, is_in_firm, set_node, site, state_of, tell, wait

MANY = ":1" * 2_048  # jobs that another depends on
NO_HOOK = "function slurm_job_submit() return 0 end function slurm_job_modify() return 0 end return 0"
# Several GPUs: as Slurm counts, by type, and for each task or socket.
GPUS = ["--gpus=2", "--gpus=+2", "--gpus= 2", "--gres=gpu:1k", "--gpus-per-node=a:+2", "--gres=gpu:a:1,gpu:b:1"]
GPUS += ["--gres=gpu:a,gpu:b", "--gpus=a:1!--gpus-per-node=b:1", "--gpus-per-socket=1!--sockets-per-node=2"]
MEMORY_AND_GPUS = "SelectTypeParameters=CR_CPU_Memory\nDefMemPerCPU=500\nGresTypes=gpu"
# Changes of a job that its user may not make: of its size, its node, when it runs, and whether firm may preempt it.
CHANGES = ["NumCPUs=4", "NumNodes=2", "NumTasks=3", "CPUsPerTask=3", "MinCPUsNode=2", "Requeue=0"]
CHANGES += ["MinMemoryNode=501", "MinMemoryNode=0", "MinMemoryCPU=501", "ReqThreads=1", "ReqSockets=2", "Nice=1"]
CHANGES += [
    "CpusPerTres=gres:gpu:2",
    f"CpusPerTres={'1' * 20_000}x",
    *(f"{name}=gres:gpu:1" for name in ("TresPerJob", "TresPerNode", "TresPerSocket", "TresPerTask")),
    "Gres=gpu:a\nb:1",
    "NumTasks=70000",
    f"Dependency=afterany{MANY}",
    "ReqNodeList=node1",
    "ReqNodeList=",
    "ExcNodeList=node1",
    "ReservationName=r",
    "Comment=a|b",
    "Comment=a\nb",
    "Account=a|b",
    "QOS=a\nb",
]


def refusals(firm: str) -> None:
    """A job that needs more than one slot, or chooses its node, is refused with Slurm's own words."""
    others = "PartitionName=firm Nodes=ALL Default=YES State=UP\nPartitionName=other Nodes=node2 State=UP"
    with site(firm, 2, 2, more=MEMORY_AND_GPUS, partitions=others) as place:
        script = place.folder / "job"
        script.write_text("#!/bin/sh\n")
        reserve = ["ReservationName=r", "StartTime=now", "Duration=60", f"Users={USER}", "Nodes=node2"]
        place.cluster.run("scontrol", "create", "reservation", *reserve)
        for words, said in (
            (["-N2"], "one slot"),
            (["-N1-2"], "one slot"),
            (["-n2"], "one slot"),
            (["-c2"], "one slot"),
            (["--exclusive"], "one slot"),
            (["--exclusive=user"], "one slot"),
            (["--cpus-per-gpu=2"], "one slot"),
            (["--mem=501"], "MB of memory 500 at most"),
            (["--mem=0"], "MB of memory 500 at most"),
            (["--mem-per-cpu=501"], "MB of memory 500 at most"),
            (["-n1", ":", "-n1"], "one component"),
            (["-w", "node1"], "firm chooses the node"),
            (["-x", "node1"], "firm chooses the node"),
            (["--reservation=r"], "reserved nodes"),
            (["--comment=a\nb"], "control characters"),
            ([f"--dependency=afterany{MANY}"], "letters"),
            (["--container=" + "x" * 4_097], "letters"),
            (["-p", "other", "--container=" + "x" * 4_097], "letters"),
            (["-p", "other", f"--dependency=afterany{MANY}"], "letters"),
            (["-A", "a|b"], "control characters"),
            (["--licenses=a|b"], "control characters"),
            (["--gres=gpu:a\nb:1"], "control characters"),
            (["--gpus=a\x1fb:1"], "control characters"),
            *((words.split("!"), "one slot") for words in GPUS),
        ):
            done = place.cluster.try_run("sbatch", *words, str(script), user=USER)
            require(done.returncode != 0 and said in done.stderr, f"{words}: {done}")
        done = place.cluster.try_run("sbatch", "-p", "other", str(script), "x" * 4_097, user=USER)
        require(done.returncode != 0 and "arguments" in done.stderr, f"long arguments: {done}")
        done = place.cluster.try_run("srun", "true", user=USER)
        require(done.returncode != 0 and "use sbatch" in done.stderr, f"srun: {done}")
        require(not place.cluster.squeue(), "a refused job is there")


def bounded(firm: str) -> None:
    """Jobs of several CPUs have one slot too: whole cores of one node, and no CPUs for more memory."""
    more = "SelectTypeParameters=CR_Core\nMaxMemPerCPU=500\nDefMemPerCPU=400\nGresTypes=gpu"
    hardware = "CoresPerSocket=4 ThreadsPerCore=2"
    with site(firm, 2, 8, more=more, hardware=hardware, partition_options="cpus = 2") as place:
        for words in (
            ["-n2", "--ntasks-per-node=1"],
            ["-c2", "--hint=nomultithread"],
            ["-n2", "--hint=memory_bound"],
            ["-n2", "--ntasks-per-core=1"],
            ["-n2", "--gpus-per-task=1"],
            ["-n2", "--ntasks-per-gpu=1"],
            ["--mem=1001"],
            ["--mem-per-cpu=501"],
        ):
            done = place.cluster.try_run("sbatch", *words, "--wrap=true", user=USER)
            require(done.returncode != 0 and "one slot" in done.stderr, f"{words}: {done}")
        for fields, is_taken in (
            ("num_tasks = 2", True),
            ("num_tasks = 4294967294, ntasks_per_node = 2", True),
            ("num_tasks = 4294967294, ntasks_per_node = 3", False),
            ("ntasks_per_node = 2, cpus_per_task = 2", False),
            ("ntasks_per_node = 2, tres_per_task = 'gres:gpu:1'", False),
            ("num_tasks = 1, ntasks_per_node = 4", True),
        ):
            said = hooked(place.tool("hook"), SUBMIT.format(partition="firm", fields=fields))
            require(is_taken == (said == "") and (is_taken or "one slot" in said), f"{fields}: {said}")
        wholes: list[list[str]] = [
            [],
            ["-n2"],
            ["-c2"],
            ["--hint=nomultithread"],
            ["--mem=1000"],
            ["-n2", "--ntasks-per-node=2"],
        ]
        for words in wholes:
            place.submit(1, 60, "light", *words, user=USER)
        place.start_bridge()
        wait(lambda: count_running(place) == len(wholes), "jobs of one slot")
        rows = place.cluster.run("squeue", "-h", "-O", "NumNodes:9,NumCPUs:9").splitlines()
        require([row.split() for row in rows] == [["1", "2"]] * len(wholes), f"nodes and CPUs: {rows}")


def earlier(firm: str) -> None:
    """Of the jobs that have waited since before the hook, those of several nodes stay held, and firm has the others."""
    with site(firm, 2, 2) as place:
        for node in ("node1", "node2"):
            set_node(place, node, "DRAIN")
        text = place.tool("hook")
        set_hook(place, NO_HOOK)
        several = [place.submit(1, 60, "light", *words, user=USER) for words in (["-N2"], ["-n3"])]
        one = place.submit(1, 1, "light", user=USER)
        set_hook(place, text)
        place.start_bridge()
        reasons = partial(place.cluster.run, "squeue", "-h", "-O", "Reason")
        wait(lambda: reasons().split() == ["JobHeldUser"] * 3, "three held jobs")
        for node in ("node1", "node2"):
            set_node(place, node, "RESUME")
        wait(lambda: state_of(place, one) == "ended", "the end of a job of one node")
        require(reasons().split() == ["JobHeldUser"] * 2, f"jobs of several nodes: {reasons()}")
        for job in several:
            require(not place.count_said(f"JobId={job} "), f"{job}, of several nodes, was to start")
        place.cluster.run("scancel", *several)


def set_hook(place: Site, text: str) -> None:
    """Change slurmctld's hook at a submission: it reads a file of a later second anew."""
    time.sleep(1.1)
    (place.cluster.folder / "job_submit.lua").write_text(text)


def changes(firm: str) -> None:
    """Whatever its user changes of a job, it has one slot, firm may preempt it, and the user's own hold stays."""
    with site(firm, 1, 2, more=MEMORY_AND_GPUS) as place:
        # Slurm takes these for the partition, and shows them as they are written.
        held = place.submit(1, 60, "light", "--hold", "--partition=firm,", user=USER)
        array = place.submit(4, 60, "light", "--array=1-4%1", "--partition=,firm", user=USER)
        update = partial(place.cluster.try_run, "scontrol", "update", user=USER)
        for job in (held, array):
            for change in CHANGES:
                done = update(f"JobId={job}", change)
                require(done.returncode != 0, f"a user changes {change} of {job}: {done}")
        require(update(f"JobId={array}", "Priority=77").returncode != 0, "a user releases an array")
        ended = place.submit(1, 0.1, "light", user=USER)
        place.cluster.run("scontrol", "release", ended)
        wait(lambda: state_of(place, ended) == "ended", "the end of a job")
        place.cluster.run("scontrol", "requeue", ended, user=USER)  # Slurm defers it for two minutes
        require(update(f"JobId={ended}", "StartTime=now").returncode != 0, "a user starts a job that has ended")
        place.cluster.run("scancel", ended)
        for job in (held, array):
            for words in ("firm:most=9", "mine", "near=node1 \u2028 \x85"):
                require(update(f"JobId={job}", f"Comment={words}").returncode == 0, f"a comment: {words!r}")
        place.start_bridge()
        wait(lambda: count_running(place) == 1, "an element of the array")
        place.submit(2, 6, "heavy")  # longer than the first seconds of a job, in which none is requeued
        wait(lambda: place.count_said("preempt"), "a preemption of a job that its user has changed")
        wait(lambda: place.count_said("requeuehold"), "it is carried out")
        require(set(place.places()) & {held} == set(), "a held job whose comment has changed is firm's")
        require(sum(name.startswith(array) for name in place.places()) == 1, f"elements at a time: {place.places()}")
        for verb, is_there in (("hold", False), ("release", True)):
            place.cluster.run("scontrol", verb, array, user=USER)
            wait(lambda: is_there == any(name.startswith(array) for name in place.places()), f"{verb} of an array")
        for most, count in ((2, 2), (0, 4)):
            require(update(f"JobId={array}", f"ArrayTaskThrottle={most}").returncode == 0, "elements at a time")
            wait(lambda: sum(name.startswith(array) for name in place.places()) == count, f"{count} elements")
        place.cluster.run("scontrol", "release", held, user=USER)
        wait(lambda: is_in_firm(place, held), "it is released")
        place.cluster.run("scancel", array, held, user=USER)
        tell(f"2 jobs behind 2 that their user has begin later: {delayed(place, USER):.1f} s")
