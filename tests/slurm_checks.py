"""Tables of tests/slurm_tables.py: faulty tables of a site, the advice of `firm-slurm check`, the bounds of its hook,
and how a look ends.
"""

from __future__ import annotations

import asyncio
import ctypes
import tempfile
import time
from contextlib import suppress
from pathlib import Path
from typing import Any

from harness.checks import Missed, Skipped, require
from harness.deployed import slurm
from slurm_rows import partition

PARTITION_A = "view = 'v'\n[partitions.a]\nsocket = 's'\n"
FAULTY_TABLES = {
    "view": "[partitions.a]\nsocket = 's'",
    "no partition": "view = 'v'",
    "wiew: unknown key; did you mean view?": "wiew = 'v'",
    "partitions.a.socket: name": "view = 'v'\n[partitions.a]",
    "'A' is not a name": "view = 'v'\n[partitions.A]\nsocket = 's'",
    "of 2": "view = 'v'\n[partitions.a]\nsocket = 's'\n[partitions.b]\nsocket = 's'\ntenant = 'a'",
    'line 4: partitions.a.drain: "stop" is not one of finish, move': f"{PARTITION_A}drain = 'stop'",
    'partitions.a.weigh: "user" is not one of account, qos': f"{PARTITION_A}weigh = 'user'",
    "line 5: partitions.a.weights.x: 0 is not a whole number from 1": f"{PARTITION_A}[partitions.a.weights]\nx = 0",
    "partitions.a.slots: 65 is not a whole number from 1 to 64": f"{PARTITION_A}slots = 65",
    "not TOML": "view",
}
LUA = "liblua5.1.so.0"  # Slurm's own
LONG_SECONDS = 20.0  # for the hook to refuse a long text; repeated looks at each letter would take minutes
# The hook's words on slurmctld's request, as of a client other than sbatch and scontrol.
HOOKED = """\
local function tell(...) said = string.format(...) end
slurm = {{ SUCCESS = 0, ERROR = -1, NO_VAL = 4294967294, log_user = tell, log_info = tell, log_error = tell }}
local function hook() {hook} end
hook()
return {call} == slurm.SUCCESS and "" or said
"""
SUBMIT = 'firm_submit({{ partition = "{partition}", script = "true", {fields} }}, {{}}, 1000)'
MODIFY = 'firm_modify({{ {fields} }}, {{ partition = "{partition}", priority = 0 }}, {{}}, 1000)'
LONG = 'string.rep("1", {})'
# Requests of a user, and the end of the hook's refusal, empty if it accepts them.
BOUNDED: list[tuple[str, str, str, str]] = [
    (SUBMIT, "firm", 'argv = { [0] = "job.sh", "a", "b" }', ""),
    (SUBMIT, "firm", f"argv = {{ {LONG.format(2048)}, {LONG.format(2049)} }}", "at most 4096 letters"),
    (SUBMIT, "other", f"argv = {{ {LONG.format(4095)} }}", ""),
    (SUBMIT, "other", f"argv = {{ {LONG.format(4096)} }}", "at most 4096 letters"),
    (SUBMIT, "other", "argv = { " + "'', " * 4097 + "}", "at most 4096 letters"),
    (SUBMIT, "other", f"dependency = {LONG.format(4097)}", "at most 4096 letters"),
    (SUBMIT, "other", f"container = {LONG.format(4097)}", "at most 4096 letters"),
    (MODIFY, "other", f"dependency = {LONG.format(4097)}", "at most 4096 letters"),
    (MODIFY, "other", 'dependency = "afterok:1"', ""),
    (MODIFY, "firm", 'cpus_per_tres = "gres:gpu:2"', ""),
    (MODIFY, "firm", 'cpus_per_tres = "3"', "keeps its size"),
    (MODIFY, "firm", "sockets_per_node = 2", "keeps its size"),
    (MODIFY, "firm", "sockets_per_node = 65534", ""),
    (SUBMIT, "firm", 'features = "a|b"', ""),
    (SUBMIT, "firm", 'features = "a\\n7"', "the first four no |"),
    # Slurm takes a job after an error of the hook.
    (SUBMIT, "firm", "num_tasks = {}", "with number"),
    (MODIFY, "firm", "num_tasks = {}", "with number"),
    # Slurm bounds these texts once the hook has looked at them.
    (MODIFY, "firm", f'cpus_per_tres = {LONG.format(20_000)} .. "x"', ""),
    (SUBMIT, "firm", f'cpus_per_tres = {LONG.format(20_000)} .. "x"', ""),
    (SUBMIT, "firm", f'tres_per_job = {LONG.format(20_000)} .. ":"', ""),
    (SUBMIT, "firm", f'array_inx = "%" .. {LONG.format(20_000)} .. "x"', ""),
]


# Lines of slurm.conf, the words of its node m1, fields of the partition, and the lines to write.
THREADS = "Sockets=1 CoresPerSocket=4 ThreadsPerCore=2 RealMemory=8000"
CHECKED: list[tuple[str, str, str, dict[str, Any], list[str]]] = [
    ("a CPU is what Slurm counts", "SelectTypeParameters=CR_CPU", "CPUs=8", {}, []),
    ("no default of memory", "SelectTypeParameters=CR_Core_Memory", "CPUs=8 RealMemory=8000", {},
     ["DefMemPerCPU=1000"]),
    ("the same, slots of two CPUs", "SelectTypeParameters=CR_CPU_Memory", "CPUs=8 RealMemory=8000", {"cpus": 2},
     ["DefMemPerCPU=1000"]),
    ("the same, slots of a table", "SelectTypeParameters=CR_CPU_Memory", "CPUs=8 RealMemory=8000", {"slots": 2},
     ["DefMemPerCPU=4000"]),
    ("a default of memory", "SelectTypeParameters=CR_Core_Memory\nDefMemPerCPU=1000", "CPUs=8 RealMemory=8000", {}, []),
    ("too much", "SelectTypeParameters=CR_Core_Memory\nDefMemPerCPU=1001", "CPUs=8 RealMemory=8000", {},
     ["DefMemPerCPU=1000"]),
    ("too much for a node", "SelectTypeParameters=CR_Core_Memory\nDefMemPerNode=8000", "CPUs=8 RealMemory=8000", {},
     ["DefMemPerCPU=1000"]),
    ("Slurm's own resources", "", "CPUs=8 RealMemory=8000", {}, ["DefMemPerCPU=1000"]),
    ("the same, with other words", "SelectTypeParameters=CR_LLN", "CPUs=8 RealMemory=8000", {}, ["DefMemPerCPU=1000"]),
    ("memory for a GPU", "DefMemPerCPU=500\nJobDefaults=DefMemPerGPU=2001", "CPUs=8 RealMemory=8000 Gres=gpu:4",
     {"slots": 4}, ["JobDefaults=.. with DefMemPerGPU=2000 at most"]),
    ("memory is not counted", "SelectTypeParameters=CR_Core", "CPUs=8 RealMemory=8000", {}, []),
    ("two threads a core", "SelectTypeParameters=CR_Core", THREADS, {},
     ["cpus = 2 in [partitions.batch] of the table, or NodeName=m1 CPUs=.. alone"]),
    ("slots of three CPUs", "SelectTypeParameters=CR_Core", THREADS, {"cpus": 3},
     ["cpus = 4 in [partitions.batch] of the table, or NodeName=m1 CPUs=.. alone"]),
    ("slots of whole cores", "SelectTypeParameters=CR_Core", THREADS, {"cpus": 2}, []),
    ("a CPU for each core", "SelectTypeParameters=CR_Core", f"CPUs=4 {THREADS}", {}, []),
    ("a core for each task", "SelectTypeParameters=CR_Core,CR_ONE_TASK_PER_CORE", THREADS, {"cpus": 4},
     ["SelectTypeParameters=.. without CR_ONE_TASK_PER_CORE"]),
    ("a core of a CPU for each task", "SelectTypeParameters=CR_Core,CR_ONE_TASK_PER_CORE", "CPUs=8", {"cpus": 4}, []),
    ("CPUs for a GPU", "SelectTypeParameters=CR_CPU\nJobDefaults=DefMemPerGPU=9,DefCpuPerGPU=3", "CPUs=8 Gres=gpu:4",
     {"cpus": 2}, ["JobDefaults=.. with DefCpuPerGPU=2 at most"]),
    ("no GPUs", "SelectTypeParameters=CR_CPU\nJobDefaults=DefCpuPerGPU=3", "CPUs=8", {"cpus": 2}, []),
    ("as many as a slot has", "SelectTypeParameters=CR_CPU\nJobDefaults=DefCpuPerGPU=2", "CPUs=8 Gres=gpu:4",
     {"cpus": 2}, []),
    ("more, on few slots", "SelectTypeParameters=CR_CPU\nPartitionName=DEFAULT JobDefaults=DefCpuPerGPU=2",
     "CPUs=8 Gres=gpu:4", {"slots": 4}, []),
    ("the same by CR_CPU", "SelectTypeParameters=CR_CPU", THREADS, {},
     ["cpus = 2 in [partitions.batch] of the table, or NodeName=m1 CPUs=.. alone"]),
    ("slots of a table, each on a core", "SelectTypeParameters=CR_CPU", THREADS, {"slots": 8},
     ["slots = 4 in [partitions.batch] of the table"]),
    ("whole sockets", "SelectTypeParameters=CR_Socket", "Sockets=2 CoresPerSocket=4", {},
     ["cpus = 4 in [partitions.batch] of the table, or NodeName=m1 CPUs=.. alone"]),
    ("a limit of memory, and no default", "SelectTypeParameters=CR_CPU\nMaxMemPerCPU=500", "CPUs=8", {},
     ["DefMemPerCPU=500"]),
    ("a limit of memory, and a default", "SelectTypeParameters=CR_CPU\nMaxMemPerCPU=500\nDefMemPerCPU=400", "CPUs=8",
     {}, []),
    ("few CPUs of a node", "SelectTypeParameters=CR_CPU\nPartitionName=DEFAULT MaxCPUsPerNode=6", "CPUs=8",
     {"cpus": 2}, ["slots = 3 in [partitions.batch] of the table, or no MaxCPUsPerNode"]),
    ("the same, as many slots", "SelectTypeParameters=CR_CPU\nPartitionName=DEFAULT MaxCPUsPerNode=6", "CPUs=8",
     {"cpus": 2, "slots": 3}, []),
    ("CPUs that Slurm keeps", "SelectTypeParameters=CR_CPU", "CPUs=8 CoreSpecCount=2", {},
     ["slots = 6 in [partitions.batch] of the table"]),
    ("the same, fewer slots", "SelectTypeParameters=CR_CPU", "CPUs=8 CoreSpecCount=2", {"slots": 6}, []),
    ("a core of two threads", "SelectTypeParameters=CR_Core", f"{THREADS} CoreSpecCount=1", {"cpus": 2},
     ["slots = 3 in [partitions.batch] of the table"]),
    ("a list of CPUs", "SelectTypeParameters=CR_CPU", "CPUs=8 CPUSpecList=0,2-3", {"cpus": 2},
     ["slots = 2 in [partitions.batch] of the table"]),
    ("more slots than CPUs", "SelectTypeParameters=CR_CPU", "CPUs=4", {"slots": 8},
     ["slots = 4 in [partitions.batch] of the table"]),
    ("memory that Slurm keeps", "SelectTypeParameters=CR_CPU_Memory\nDefMemPerCPU=1000",
     "CPUs=8 RealMemory=8000 MemSpecLimit=800", {}, ["DefMemPerCPU=900"]),
    ("a set of nodes", "SelectTypeParameters=CR_CPU_Memory\nNodeSet=some Nodes=m1", "CPUs=8 RealMemory=8000", {},
     ["DefMemPerCPU=1000"]),
    ("nodes of a feature", "SelectTypeParameters=CR_CPU_Memory\nNodeSet=some Feature=big",
     "CPUs=8 RealMemory=8000 Features=old,big", {}, ["DefMemPerCPU=1000"]),
    ("other nodes", "SelectTypeParameters=CR_CPU_Memory\nNodeSet=some Feature=big", "CPUs=8 Feature=bigger", {}, []),
    ("many slots", "SelectTypeParameters=CR_CPU", "CPUs=130", {},
     ["cpus = 3 in [partitions.batch] of the table, or slots = 64"]),
    ("many CPUs, slots of a table", "SelectTypeParameters=CR_CPU", "CPUs=128", {"slots": 64}, []),
    ("many CPUs, slots of two", "SelectTypeParameters=CR_CPU", "CPUs=128", {"cpus": 2}, []),
    ("many nodes", "SelectTypeParameters=CR_CPU\nNodeName=DEFAULT CPUs=64\n"
     + "\n".join(f"NodeName=n{number}" for number in range(60)), "CPUs=64", {}, ["several partitions"]),
]  # fmt: skip


def checked() -> None:
    """`check` names each cause of unused slots with its remedy, and nothing else."""
    named, slurm.check.names_of = slurm.check.names_of, lambda listed: listed.split(",")
    try:
        with tempfile.TemporaryDirectory() as name:
            path = Path(name) / "slurm.conf"
            for what, lines, words, fields, wanted in CHECKED:
                listed = "some" if "NodeSet=some" in lines else "ALL"
                path.write_text(f"{lines}\nNodeName=m1 {words}\nPartitionName=batch Nodes={listed}\n")
                found = list(slurm.check.of_nodes(partition(**fields), slurm.check.Conf.read(path)))
                require([advice.write for advice in found] == wanted, f"{what}: {found} instead of {wanted}")
    finally:
        slurm.check.names_of = named


# Lines of slurm.conf that hold for all partitions, and the lines to write instead.
OPTIONS: dict[str, list[str]] = {
    "AuthType=auth/munge": [],
    "AuthInfo=socket=/s,cred_expire=120": [],
    "AuthInfo=cred_expire=600": ["AuthInfo=.. without cred_expire, or with cred_expire=120"],
    "AllowSpecResourcesUsage=NO": [],
    "AllowSpecResourcesUsage=YES": ["AllowSpecResourcesUsage=no"],
    "SchedulerType=sched/backfill": [],
    "SchedulerType=sched/builtin": ["SchedulerType=sched/backfill"],
    "CompleteWait=0": [],
    "SlurmdTimeout=30": [],
    "SlurmdTimeout=0": ["SlurmdTimeout=300"],
    "SchedulerParameters=bf_max_time=3,assoc_limit_stop": ["SchedulerParameters=.. without assoc_limit_stop"],
    "CompleteWait=32": ["CompleteWait=0"],
    "SchedulerParameters=partition_job_depth=0,sched_max_job_start=10000": [],
    "SchedulerParameters=partition_job_depth=9,sched_max_job_start=9": [
        "SchedulerParameters=.. without partition_job_depth",
        "SchedulerParameters=.. without sched_max_job_start",
    ],
}
# Lines of slurm.conf, the words of its node m1, CPUs of a slot, its MB and the CPUs of a core; 0: the hook has none.
SIZES: list[tuple[str, str, int, int, int]] = [
    ("SelectTypeParameters=CR_CPU", THREADS, 2, 0, 2),
    ("SelectTypeParameters=CR_CPU\nMaxMemPerCPU=500\nDefMemPerCPU=400", THREADS, 2, 1000, 2),
    ("SelectTypeParameters=CR_CPU_Memory\nMaxMemPerCPU=500\nDefMemPerCPU=400", THREADS, 2, 800, 2),
    ("SelectTypeParameters=CR_CPU_Memory\nMaxMemPerCPU=500", THREADS, 2, 1000, 2),
    ("SelectTypeParameters=CR_Core", THREADS, 2, 0, 2),
    ("DefMemPerCPU=400", THREADS, 2, 800, 2),
    ("SelectTypeParameters=CR_Core", "CPUs=8", 2, 0, 0),
    ("SelectTypeParameters=CR_Socket", THREADS, 8, 0, 8),
]


def sized() -> None:
    """The hook has the memory of a slot and the CPUs of a core, and `check` names options that void its bounds."""
    named, slurm.check.names_of = slurm.check.names_of, lambda listed: listed.split(",")
    try:
        with tempfile.TemporaryDirectory() as name:
            path, text = Path(name) / "slurm.conf", "view = 'v'\n[partitions.batch]\nsocket = 's'\ncpus = {}\n"
            for lines, words, cpus, memory, core in SIZES:
                path.write_text(f"{lines}\nNodeName=m1 {words}\nPartitionName=batch Nodes=ALL\n")
                (path.parent / "table").write_text(text.format(cpus))
                table = slurm.table.Table.read(path.parent / "table")
                found = slurm.hook.hook(table, slurm.check.sizes_of(table, slurm.check.Conf.read(path)))
                for key, number in (("CPUS", cpus), ("MEMORY", memory), ("CORES", core)):
                    wanted = f'local {key} = {{ ["batch"] = {number} }}' if number else f"local {key} = {{  }}"
                    require(wanted in found, f"{lines}, {words}: no {wanted} in {found[:900]}")
            for line, remedies in OPTIONS.items():
                path.write_text(f"{line}\n")
                told = [advice.write for advice in slurm.check.of_options(slurm.check.Conf.read(path))]
                require(told == remedies, f"{line}: {told} instead of {remedies}")
    finally:
        slurm.check.names_of = named


def hooked(hook: str, call: str) -> str:
    """Return the hook's refusal of a call, by Slurm's own Lua; empty if it accepts it."""
    try:
        lua = ctypes.CDLL(LUA)
    except OSError:
        raise Skipped(f"there is no {LUA}: apt-get install slurmctld") from None
    lua.luaL_newstate.restype, lua.lua_tolstring.restype = ctypes.c_void_p, ctypes.c_char_p
    state = ctypes.c_void_p(lua.luaL_newstate())
    lua.luaL_openlibs(state)
    text = HOOKED.format(hook=hook, call=call).encode()
    is_wrong = lua.luaL_loadstring(state, text) or lua.lua_pcall(state, 0, 1, 0)
    found = lua.lua_tolstring(state, -1, None).decode()
    lua.lua_close(state)
    require(not is_wrong, found)
    return str(found)


def bounded() -> None:
    """The hook refuses long texts that Slurm sends at each look, in any partition, and reads none of them slowly."""
    hook = slurm.hook.SOURCE.read_text().replace("CPUS = {}", 'CPUS = { ["firm"] = 2 }', 1)
    for call, name, fields, end in BOUNDED:
        began = time.monotonic()
        said = hooked(hook, call.format(partition=name, fields=fields))
        seconds = time.monotonic() - began
        require(said.endswith(end) and bool(said) == bool(end), f"{name}, {fields}: {said!r} instead of {end!r}")
        require(seconds < LONG_SECONDS, f"{name}, {fields}: only after {seconds:.1f} s")


def awaited() -> None:
    """A look in which a command fails ends once the others have: else each look leaves slow ones to slurmctld."""
    commands, ended = slurm.commands, []

    async def answer(*words: str) -> str:
        if words[0] == "sinfo":
            raise commands.NoSlurm("sinfo: no answer")
        await asyncio.sleep(0.05)
        ended.append(words[0])
        return ""

    given, commands.answer = commands.answer, answer
    try:
        with suppress(commands.NoSlurm):
            asyncio.run(commands.look(["a"]))
            raise Missed("a failure is not told")
    finally:
        commands.answer = given
    require(ended == ["squeue", "scontrol", "scontrol"], f"at the end of a look only {ended} have ended")


def tables() -> None:
    """Each fault of a site's table is named."""
    with tempfile.TemporaryDirectory() as name:
        path = Path(name) / "slurm.toml"
        for fault, text in FAULTY_TABLES.items():
            path.write_text(text)
            try:
                slurm.table.Table.read(path)
            except slurm.table.TableError as error:
                require(fault in str(error), f"{error} instead of {fault}")
            else:
                require(False, f"{fault}: it is taken")
        path.write_text("view = 'v'\n[partitions.a]\nsocket = 's'\n[partitions.b]\nsocket = 't'\ntenant = 'c'\n")
        found = slurm.table.Table.read(path)
        require([(one.name, one.tenant) for one in found.partitions] == [("a", "a"), ("b", "c")], found)
