"""The table of firm-slurm: which partitions firm decides, for which tenants, and what their jobs weigh."""

from __future__ import annotations

import re
from collections import Counter
from dataclasses import dataclass
from enum import StrEnum
from pathlib import Path
from typing import NamedTuple
from zlib import crc32

from ..common.fields import NAME, number, text_up_to, whole
from ..common.lines import is_name
from ..common.quantities import DEFAULT_WEIGHT, MAX_WEIGHT
from ..common.settings import Setting, SettingsFile, path, word
from ..common.sizes import MAX_SLOTS
from .reading import SlurmJob, Node

MAX_BYTES = 2**20  # of a file, which may have the weights of all accounts
MAX_STEM = 11  # of a name of firm that is made from another word
PARTITIONS, WEIGHTS = "partitions", "weights"
PARTITION = re.compile(r"[A-Za-z0-9_.-]+")
WEIGHT, SECONDS = whole(1, MAX_WEIGHT), number(0, 10**9)


class TableError(Exception):
    """A table that can't be used; the text names the line and the key."""


class Drain(StrEnum):
    """What becomes of the jobs of a drained node."""

    FINISH = "finish"  # they run to their end there
    MOVE = "move"  # they are ended, and run elsewhere


class Weigh(StrEnum):
    """What a job's weight is of."""

    ACCOUNT = "account"
    QOS = "qos"


class FirmJob(NamedTuple):
    """The job of firm that a job of Slurm is a task of."""

    name: str
    weight: int


@dataclass(frozen=True, slots=True)
class Partition:
    name: str
    tenant: str
    socket: Path  # firmd's, for the lines of the tenant
    drain: Drain
    weigh: Weigh
    weights: dict[str, int]
    default: int  # weight of what the weights don't name
    cpus: int  # of a slot
    slots: int | None  # of each node, where its CPUs don't say it
    most: int | None  # tasks that firm has at a time, where its arena has room for more

    def group(self, job: SlurmJob) -> FirmJob:
        word = job.account if self.weigh is Weigh.ACCOUNT else job.qos
        return FirmJob(name_of(word or "default"), self.weights.get(word or "default", self.default))

    def slots_of(self, node: Node) -> int:
        return max(1, min(self.slots or node.cpus // self.cpus, MAX_SLOTS))


@dataclass(frozen=True, slots=True)
class Table:
    view: Path  # firmd's
    user: str  # that firm-slurm runs as
    pause: float  # seconds between two looks at Slurm
    every: float  # seconds between rounds while a task waits
    partitions: tuple[Partition, ...]

    @classmethod
    def read(cls, path: Path) -> Table:
        """Raises `TableError`, and OSError where the file can't be read."""
        try:
            file = SettingsFile.read(path, MAX_BYTES)
        except ValueError as error:
            raise TableError(str(error)) from error
        values = file.values((), TABLE, (PARTITIONS,))
        partitions = tuple(partition_of(file, name) for name in file.section((PARTITIONS,)))
        if values["view"] is None:
            file.note(("view",), "name the path of firmd's view")
        if not partitions:
            file.note((PARTITIONS,), "the table has no partition, as [partitions.batch]")
        for tenant, count in Counter(one.tenant for one in partitions).items():
            if count > 1:
                file.note((PARTITIONS,), f"the tenant {tenant} is of {count}; each needs another")
        for finding in file.findings:
            raise TableError(f"line {finding.line}: {finding}" if finding.line else str(finding))
        return cls(**values, partitions=partitions)


TABLE = (
    Setting("view", path(), "firmd's view"),
    Setting("user", text_up_to(100), "user that firm-slurm runs as", "root"),
    Setting("pause", SECONDS, "seconds between two looks at Slurm", 0.5),
    Setting("every", SECONDS, "seconds between rounds while a task waits", 5.0),
)
OF_PARTITION = (
    Setting("tenant", NAME, "tenant, by default of the partition's name"),
    Setting("socket", path(), "firmd's socket for the tenant's lines"),
    Setting("drain", word(Drain, f"one of {', '.join(Drain)}", "WORD"), "jobs of a drained node", Drain.FINISH),
    Setting("weigh", word(Weigh, f"one of {', '.join(Weigh)}", "WORD"), "what has a weight", Weigh.ACCOUNT),
    Setting("default", WEIGHT, "weight of what the weights don't name", DEFAULT_WEIGHT),
    Setting("cpus", whole(1, 4_096), "CPUs of a slot", 1),
    Setting("slots", whole(1, MAX_SLOTS), "slots of each node, by default what its CPUs say"),
    Setting("most", whole(1, 1_000_000), "tasks in firm at a time, by default what its arena holds"),
)


def partition_of(file: SettingsFile, name: str) -> Partition:
    place = (PARTITIONS, name)
    values = file.values(place, OF_PARTITION, (WEIGHTS,))
    if PARTITION.fullmatch(name) is None:
        file.note(place, f"{name!r} is not a partition's name")
    values["tenant"] = values["tenant"] or name
    if not is_name(values["tenant"].encode()):
        file.note((*place, "tenant"), f"{name!r} is not {NAME.wanted}: name a tenant")
    if values["socket"] is None:
        file.note((*place, "socket"), f"name the path of firmd's socket for {values['tenant']}")
    return Partition(name, **values, weights=file.entries((*place, WEIGHTS), WEIGHT))


def name_of(word: str) -> str:
    """The name of firm for an account or a QOS: itself, or where it is none, one that is like it and of it alone."""
    if is_name(word.encode()):
        return word
    stem = re.sub(r"[^a-z0-9-]", "-", word.lower())[:MAX_STEM]
    return f"{stem}-{crc32(word.encode()) & 0xFFFF:04x}"
