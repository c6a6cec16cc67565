"""Looks at slurm.conf before the first start, and says what to write."""

from __future__ import annotations

import re
import subprocess
from collections.abc import Iterator
from dataclasses import dataclass, field
from itertools import chain
from pathlib import Path
from typing import NamedTuple

from ..common.lines import is_name
from ..common.sizes import HUBS, MAX_NODES, MAX_SLOTS
from ..queue.backlog import RESERVED_PART
from .hook import Sizes, hook
from .reading import PART
from .table import Partition, Table, Weigh

DEPTH = 10_000  # jobs that a cycle of Slurm's scheduler looks at: with its own 100, pinned jobs start late
SCHEDULER = {"batch_sched_delay": (0, 0), "sched_min_interval": (1, 50_000), "sched_interval": (1, 5)}
SCHEDULER |= {"default_queue_depth": (DEPTH, 10**9)}
CYCLE_LIMITS = ("partition_job_depth", "sched_max_job_start")  # of jobs in a cycle; 0, Slurm's own, is no limit
STOP, ONE_TASK = "assoc_limit_stop", "cr_one_task_per_core"
BY_GPU, MEMORY_BY_GPU = (re.compile(rf"\b{key}=([0-9]+)", re.IGNORECASE) for key in ("DefCpuPerGPU", "DefMemPerGPU"))
LINE = re.compile(r"\s*([A-Za-z]+)\s*=\s*(.*)", re.DOTALL)
WORD = re.compile(r'([A-Za-z]+)=("[^"]*"|\S+)')
MAX_INCLUDED = 100  # files
CRED_EXPIRE = "120"  # Slurm's own, in seconds: what it requeues waits a second longer (PAUSE_SECONDS)
YES = ("yes", "up", "true", "1")
SLURMDBD = "accounting_storage/slurmdbd"
DEFAULTS = {"selecttype": "select/linear", "preempttype": "preempt/none"}  # Slurm's own
RESOURCES, ITS_RESOURCES = ("cr_cpu", "cr_core", "cr_socket", "memory"), "cr_core_memory"  # named, and without a name
# What AccountingStorageEnforce has where slurmdbd says which accounts, or which QOS, are a user's.
ENFORCED = {Weigh.QOS: {"qos", "all"}}
ENFORCED[Weigh.ACCOUNT] = ENFORCED[Weigh.QOS] | {"associations", "limits", "safe", "wckeys"}


class Advice(NamedTuple):
    """Something to be changed: what is wrong, and what to write."""

    what: str
    write: str


class Hardware(NamedTuple):
    """CPUs and memory of a node."""

    cpus: int
    core: int  # CPUs of a core
    socket: int  # CPUs of a socket
    memory: int  # MB that jobs may have
    usable: int  # CPUs that jobs may have
    has_gpus: bool

    @classmethod
    def read(cls, row: dict[str, str]) -> Hardware:
        """From the words of a NodeName line; what it leaves out is 1, or follows from the others."""
        numbers = {key: int(text) for key, text in row.items() if text.isdigit()}
        threads, cores = numbers.get("threadspercore", 1), numbers.get("corespersocket", 1)
        sockets = numbers.get("sockets", numbers.get("socketsperboard", 1)) * numbers.get("boards", 1)
        cpus = numbers.get("cpus", numbers.get("procs", sockets * cores * threads))
        core = threads if cpus >= sockets * cores * threads else 1  # with fewer CPUs, each is a core
        spans = PART.findall(row.get("cpuspeclist", ""))
        listed = sum(int(last or first) - int(first) + 1 for first, last, _ in spans)
        kept = max(numbers.get("corespeccount", 0), -(-listed // core)) * core
        memory = numbers.get("realmemory", 1) - numbers.get("memspeclimit", 0)
        return cls(cpus, core, core * cores, memory, cpus - kept, "gpu" in row.get("gres", "").lower())


@dataclass
class Conf:
    """slurm.conf, as far as it matters here. The keys are in lower case."""

    path: Path
    values: dict[str, str] = field(default_factory=dict)
    nodes: list[dict[str, str]] = field(default_factory=list)
    partitions: dict[str, dict[str, str]] = field(default_factory=dict)
    sets: dict[str, dict[str, str]] = field(default_factory=dict)  # of nodes

    @classmethod
    def read(cls, path: Path) -> Conf:
        """Raises `OSError`."""
        found = cls(path)
        common: dict[str, dict[str, str]] = {"nodename": {}, "partitionname": {}, "nodeset": {}}
        for line in lines_of(path):
            first = LINE.match(line)
            if first is None:
                continue
            key, value = first[1].lower(), first[2].strip()
            if key not in common:
                found.values[key] = value.strip('"')
                continue
            words = {word.lower(): text.strip('"') for word, text in WORD.findall(line)}
            if words[key].upper() == "DEFAULT":
                common[key] |= words
            elif key == "nodename":
                found.nodes.append(common[key] | words)
            elif key == "nodeset":
                found.sets[words[key]] = words
            else:
                found.partitions[words[key]] = common[key] | words
        return found

    def options(self, key: str) -> dict[str, str]:
        """A list like a=1,b as a dictionary."""
        parts = (part.partition("=") for part in self.values.get(key, "").split(",") if part)
        return {name.strip().lower(): value for name, _, value in parts}

    def value(self, partition: str, key: str) -> str:
        """Return what a partition has, by its own line or else by the common one."""
        return self.partitions.get(partition, {}).get(key, self.values.get(key, ""))

    def resources(self, partition: str) -> str:
        """Return what Slurm counts on a partition's nodes, in lower case; it counts memory unless told otherwise."""
        found = self.value(partition, "selecttypeparameters").lower()
        return found if any(name in found for name in RESOURCES) else f"{found},{ITS_RESOURCES}"

    def node_names(self) -> list[str]:
        return [name for row in self.nodes for name in names_of(row["nodename"])]

    def hardware(self) -> dict[str, Hardware]:
        """By node."""
        return {name: Hardware.read(row) for row in self.nodes for name in names_of(row["nodename"])}

    def names_in(self, partition: str) -> list[str]:
        listed = self.partitions[partition].get("nodes", "")
        if listed.upper() == "ALL":
            return self.node_names()
        return list(dict.fromkeys(chain.from_iterable(map(self._members, names_of(listed)))))

    def _members(self, name: str) -> list[str]:
        """Return the nodes of a set, or a node itself."""
        if name not in self.sets:
            return [name]
        row = self.sets[name]
        rows = (one for one in self.nodes if row.get("feature") in features_of(one))
        return names_of(row.get("nodes", "")) + [node for one in rows for node in names_of(one["nodename"])]


def features_of(row: dict[str, str]) -> list[str]:
    return row.get("features", row.get("feature", "")).split(",")


def lines_of(path: Path, depth: int = 0) -> Iterator[str]:
    """The lines of a file and of those that it includes, without comments, continued ones as one."""
    text = re.sub(r"\\\n", " ", path.read_text())
    for line in text.splitlines():
        line = line.partition("#")[0].strip()
        words = line.split(None, 1)
        if len(words) == 2 and words[0].lower() == "include" and depth < MAX_INCLUDED:
            yield from lines_of(path.parent / words[1], depth + 1)
        elif line:
            yield line


def names_of(listed: str) -> list[str]:
    """The nodes of a list like node[1-3], as Slurm's own command has them."""
    if not listed:
        return []
    done = subprocess.run(["scontrol", "show", "hostnames", listed], capture_output=True, text=True, timeout=60)
    return done.stdout.split() if done.returncode == 0 else [listed]


def advice(table: Table, conf: Conf) -> Iterator[Advice]:
    """All that is to be changed."""
    yield from of_scheduler(conf)
    yield from of_options(conf)
    yield from of_hook(table, conf)
    for key, wanted, bad in (
        ("selecttype", "SelectType=select/cons_tres", "select/linear"),
        ("preempttype", "PreemptType=preempt/none", "preempt/"),
    ):
        value = conf.values.get(key, DEFAULTS[key]).lower()
        if value.startswith(bad) and value not in wanted.lower():
            yield Advice(f"{value}: Slurm must give single slots, and preempt nothing itself", wanted)
    owners: dict[str, str] = {}
    for partition in table.partitions:
        yield from of_partition(partition, conf, owners)
    yield from of_shared(table, conf, owners)


def remarks(table: Table, conf: Conf) -> Iterator[str]:
    """What is to be known, and may stay."""
    enforced = conf.options("accountingstorageenforce").keys()
    for partition in table.partitions:
        if partition.weights and not ENFORCED[partition.weigh] & enforced:
            wanted = "associations" if partition.weigh is Weigh.ACCOUNT else "qos"
            told = f"a user may name any {partition.weigh}, of any weight, without slurmdbd"
            yield f"{partition.name}: {told} and AccountingStorageEnforce={wanted}"


def of_scheduler(conf: Conf) -> Iterator[Advice]:
    options = conf.options("schedulerparameters")
    wrong = {name: bounds for name, bounds in SCHEDULER.items() if not is_within(options.get(name), *bounds)}
    if wrong:
        wanted = {name: str(low if name == "default_queue_depth" else high) for name, (low, high) in wrong.items()}
        text = ",".join(f"{name}={value}" if value else name for name, value in (options | wanted).items())
        told = f"{', '.join(wrong)}: decided jobs would start late"
        yield Advice(told, f"SchedulerParameters={text}")


def of_options(conf: Conf) -> Iterator[Advice]:
    expire = conf.options("authinfo").get("cred_expire", CRED_EXPIRE)
    if expire != CRED_EXPIRE:
        told = f"cred_expire={expire}: the pause after a requeue, which firm-slurm ends, would be taken for its user's"
        yield Advice(told, f"AuthInfo=.. without cred_expire, or with cred_expire={CRED_EXPIRE}")
    if conf.values.get("allowspecresourcesusage", "").lower() in YES:
        yield Advice("a job with --core-spec would take a whole node", "AllowSpecResourcesUsage=no")
    if conf.values.get("schedulertype", "").lower() == "sched/builtin":
        yield Advice(
            "sched/builtin: a job that can't start keeps all later ones waiting", "SchedulerType=sched/backfill"
        )
    if number_of(conf.values.get("completewait", "")):
        yield Advice("CompleteWait: no job would start while another's epilog runs", "CompleteWait=0")
    if conf.values.get("slurmdtimeout") == "0":
        yield Advice("SlurmdTimeout=0: jobs of a node that is lost would never run elsewhere", "SlurmdTimeout=300")
    options = conf.options("schedulerparameters")
    if STOP in options:
        told = f"{STOP}: a job above a limit of its account would keep all later ones waiting"
        yield Advice(told, f"SchedulerParameters=.. without {STOP}")
    for name in CYCLE_LIMITS:
        if 0 < number_of(options.get(name, "")) < DEPTH:
            told = f"{name}={options[name]}: decided jobs would start late"
            yield Advice(told, f"SchedulerParameters=.. without {name}")


def is_within(text: str | None, low: int, high: int) -> bool:
    return text is not None and text.isdigit() and low <= int(text) <= high


def of_hook(table: Table, conf: Conf) -> Iterator[Advice]:
    plugins = [name for name in conf.values.get("jobsubmitplugins", "").split(",") if name]
    if "lua" not in plugins:
        yield Advice("jobs would not be held for firm", f"JobSubmitPlugins={','.join([*plugins, 'lua'])}")
    path = conf.path.parent / "job_submit.lua"
    if not path.exists():
        yield Advice(f"{path} is not there", f"firm-slurm hook --table TABLE > {path}")
    elif hook(table, sizes_of(table, conf)).strip() not in path.read_text():
        told = f"{path} has not the hook of this table, or one of an older firm-slurm"
        yield Advice(told, f"firm-slurm hook --table TABLE > {path}, or into a site's own file")


def of_partition(partition: Partition, conf: Conf, owners: dict[str, str]) -> Iterator[Advice]:
    name = partition.name
    if name not in conf.partitions:
        yield Advice(f"partition {name} is not there", f"PartitionName={name} Nodes=..")
        return
    names = conf.names_in(name)
    for node in names:
        if not is_name(node.encode()):
            told = f"node {node} can't be a machine of firm: names have 1 to 16 of a to z, 0 to 9 and -"
            yield Advice(told, f"NodeName={re.sub('[^a-z0-9-]', '-', node.lower())[:16]} NodeHostname={node} ..")
        if node in owners:
            yield Advice(f"node {node} is in {owners[node]} and {name}; only {owners[node]} has it", "one of them")
        owners.setdefault(node, name)
    yield from of_nodes(partition, conf)
    if partition.weigh is Weigh.QOS and conf.values.get("accountingstoragetype", "").lower() != SLURMDBD:
        yield Advice(f"{name}: no job has a QOS without slurmdbd", f"AccountingStorageType={SLURMDBD}")
    row = conf.partitions[name]
    for key, bad, wanted in (("oversubscribe", "EXCLUSIVE", "NO"), ("exclusiveuser", "YES", "NO")):
        if row.get(key, "").upper() == bad:
            yield Advice(f"{name}: a job would take a whole node", f"PartitionName={name} .. {key}={wanted}")


def of_nodes(partition: Partition, conf: Conf) -> Iterator[Advice]:
    """Yield each cause of unused slots of a partition once, for the first node that has it."""
    name, memory = partition.name, memory_of(partition, conf)
    nodes = hardware_of(partition, conf)
    most, by_cpu = (number_of(conf.value(name, key)) for key in ("maxcpuspernode", "maxmempercpu"))
    slots = {node: partition.slots or max(1, one.cpus // partition.cpus) for node, one in nodes.items()}
    causes: dict[str, Advice] = {}
    for node, one in nodes.items():
        whole = core_of(partition, conf, one)
        found = [of_cores(partition, node, whole), of_slots(partition, node, slots[node])]
        found.append(of_usable(partition, node, slots[node], one, whole))
        found.append(of_most(partition, node, slots[node], most))
        found += [of_tasks(partition, conf, node, one), of_gpus(partition, conf, slots[node], one)]
        if memory is not None:
            found.append(of_memory(partition, memory, node, one))
            found.append(of_gpu_memory(partition, conf, min(slots[node], MAX_SLOTS), one))
        elif by_cpu and not default_memory(partition, conf):
            told = f"{name}: a job without --mem asks for all memory of a node, and gets a CPU for each {by_cpu:,} MB"
            found.append(Advice(told, f"DefMemPerCPU={by_cpu}"))
        for advice in filter(None, found):
            causes.setdefault(advice.write.partition("=")[0], advice)
    yield from causes.values()
    used = MAX_NODES - MAX_NODES // RESERVED_PART - HUBS - len(nodes)
    total = sum(min(count, MAX_SLOTS) for count in slots.values())
    if total > used:
        sizes = f"{name} has {len(nodes):,} nodes with {total:,} slots"
        told = f"{sizes}; a tenant with this many machines has room for {max(used, 0):,} tasks"
        yield Advice(told, "several partitions")


def hardware_of(partition: Partition, conf: Conf) -> dict[str, Hardware]:
    """Return the nodes of a partition for which slurm.conf says what they have."""
    if partition.name not in conf.partitions:
        return {}
    hardware = conf.hardware()
    return {node: hardware[node] for node in conf.names_in(partition.name) if node in hardware}


def core_of(partition: Partition, conf: Conf, one: Hardware) -> int:
    """Return the CPUs that Slurm gives together: of a core, by CR_CPU too, or of a socket."""
    is_socket = "cr_socket" in conf.resources(partition.name)
    return one.socket if is_socket else one.core


def of_cores(partition: Partition, node: str, whole: int) -> Advice | None:
    """Name slots that are not of whole cores, or sockets."""
    if partition.slots is not None or partition.cpus % whole == 0:
        return None
    wanted = -(-partition.cpus // whole) * whole
    told = (
        f"{partition.name}: Slurm gives a job {whole} CPUs of node {node} together, as of a core; a slot has"
        f" {partition.cpus}"
    )
    table = f"cpus = {wanted} in [partitions.{partition.name}] of the table"
    return Advice(told, f"{table}, or NodeName={node} CPUs=.. alone")


def of_tasks(partition: Partition, conf: Conf, node: str, one: Hardware) -> Advice | None:
    """Name slots beyond which several tasks of a job would go, as each has a core."""
    if one.core == 1 or ONE_TASK not in conf.resources(partition.name):
        return None
    told = f"{partition.name}: a job of several tasks has {one.core} CPUs of node {node} for each, more than its slot"
    return Advice(told, f"SelectTypeParameters=.. without {ONE_TASK.upper()}")


def of_gpus(partition: Partition, conf: Conf, slots: int, one: Hardware) -> Advice | None:
    """Name CPUs that a job has for its GPU, without a word of its user, beyond those of a slot."""
    found = BY_GPU.search(conf.value(partition.name, "jobdefaults"))
    wanted = int(found[1]) if found else 0
    if not one.has_gpus or wanted <= partition.cpus or slots * wanted <= one.usable:
        return None
    told = f"{partition.name}: a job of a GPU has {wanted} CPUs by DefCpuPerGPU; a slot has {partition.cpus}"
    return Advice(told, f"JobDefaults=.. with DefCpuPerGPU={partition.cpus} at most")


def of_gpu_memory(partition: Partition, conf: Conf, slots: int, one: Hardware) -> Advice | None:
    """Name memory that a job has for its GPU, without a word of its user, and a node not as often as slots."""
    found = MEMORY_BY_GPU.search(conf.value(partition.name, "jobdefaults"))
    if found is None or not one.has_gpus or slots * int(found[1]) <= one.memory:
        return None
    told = (
        f"{partition.name}: a job of a GPU has {int(found[1]):,} MB of memory by DefMemPerGPU; {slots} slots of a node"
    )
    return Advice(f"{told} have {one.memory:,}", f"JobDefaults=.. with DefMemPerGPU={one.memory // slots} at most")


def of_most(partition: Partition, node: str, slots: int, most: int) -> Advice | None:
    """Name slots for which a partition may not use enough CPUs of a node; `most` is 0 without a limit."""
    if most == 0 or slots * partition.cpus <= most:
        return None
    told = f"{partition.name}: MaxCPUsPerNode={most} leaves some of the {slots} slots of node {node} idle"
    wanted = max(1, most // partition.cpus)
    return Advice(told, f"slots = {wanted} in [partitions.{partition.name}] of the table, or no MaxCPUsPerNode")


def of_usable(partition: Partition, node: str, slots: int, one: Hardware, whole: int) -> Advice | None:
    """Name slots for which Slurm has too few CPUs, as with CoreSpecCount: jobs placed there would wait."""
    taken = partition.cpus if partition.slots is None else -(-partition.cpus // whole) * whole
    wanted = one.usable // taken
    if wanted == 0 or slots <= wanted:
        return None
    told = f"{partition.name}: Slurm gives jobs {one.usable} of {one.cpus} CPUs of node {node}, {taken} to each"
    told += f"; the node has {slots} slots"
    return Advice(told, f"slots = {wanted} in [partitions.{partition.name}] of the table")


def of_slots(partition: Partition, node: str, slots: int) -> Advice | None:
    if partition.slots is not None or slots <= MAX_SLOTS:
        return None
    told = (
        f"{partition.name}: node {node} has {slots} slots; a machine of firm has {MAX_SLOTS} at most, others stay idle"
    )
    wanted = -(-slots * partition.cpus // MAX_SLOTS)
    return Advice(told, f"cpus = {wanted} in [partitions.{partition.name}] of the table, or slots = {MAX_SLOTS}")


def sizes_of(table: Table, conf: Conf) -> Sizes:
    """Return the MB of a slot and the CPUs of a core of each partition for which slurm.conf says them.

    Under MaxMemPerCPU a job of more memory gets more CPUs, whether Slurm counts memory or not.
    """
    sizes = Sizes()
    for partition in table.partitions:
        name, most = partition.name, number_of(conf.value(partition.name, "maxmempercpu")) * partition.cpus
        sizes.memory.update({name: memory} if (memory := memory_of(partition, conf) or most) else {})
        cores = [core_of(partition, conf, one) for one in hardware_of(partition, conf).values()]
        sizes.cores.update({name: max(cores)} if max(cores, default=1) > 1 else {})
    return sizes


def memory_of(partition: Partition, conf: Conf) -> int | None:
    """Return the MB that a job takes by default, 0 for all of a node, None if Slurm counts no memory."""
    if "memory" not in conf.resources(partition.name):
        return None
    return default_memory(partition, conf)


def default_memory(partition: Partition, conf: Conf) -> int:
    by_cpu, by_node = (number_of(conf.value(partition.name, key)) for key in ("defmempercpu", "defmempernode"))
    return by_node or by_cpu * partition.cpus


def of_memory(partition: Partition, needed: int, node: str, one: Hardware) -> Advice | None:
    """Name a slot's memory that a node doesn't have as often as it has slots."""
    slots = min(partition.slots or max(1, one.cpus // partition.cpus), MAX_SLOTS)
    if 0 < needed * slots <= one.memory:
        return None
    takes = f"takes {needed:,} of {one.memory:,} MB" if needed else "takes all memory"
    told = f"{partition.name}: a job without --mem {takes} of node {node}, which has {slots} slots"
    return Advice(told, f"DefMemPerCPU={max(1, one.memory // (slots * partition.cpus))}")


def number_of(text: str) -> int:
    return int(text) if text.isdigit() else 0


def of_shared(table: Table, conf: Conf, owners: dict[str, str]) -> Iterator[Advice]:
    """Yield nodes of firm's in partitions that firm doesn't decide, and partitions whose jobs come to firm's."""
    ours = {partition.name for partition in table.partitions}
    for name, row in conf.partitions.items():
        if row.get("alternate") in ours:
            told = f"{name}: once it is drained, its jobs come to {row['alternate']} without the hook"
            yield Advice(told, f"PartitionName={name} .. without Alternate")
        shared = [node for node in conf.names_in(name) if name not in ours and node in owners]
        if shared:
            told = f"{name} has {len(shared)} nodes of firm's, as {shared[0]}: its jobs take slots that firm gives away"
            yield Advice(told, f"PartitionName={name} with nodes of its own")
