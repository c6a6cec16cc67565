"""The hook that holds jobs for firm, with the partitions of a table."""

from __future__ import annotations

import pwd
from collections.abc import Mapping
from dataclasses import dataclass, field
from pathlib import Path

from .table import Table

SOURCE = Path(__file__).with_name("job_submit.lua")


@dataclass(frozen=True, slots=True)
class Sizes:
    """Limits that slurm.conf sets, by partition."""

    memory: dict[str, int] = field(default_factory=dict)  # MB of a slot, where a job's memory is limited
    cores: dict[str, int] = field(default_factory=dict)  # CPUs of a core, where Slurm gives a job whole cores


def hook(table: Table, sizes: Sizes) -> str:
    """Return its text; raises `KeyError` if the table's user does not exist."""
    users = ", ".join(f"[{user}] = true" for user in sorted({0, pwd.getpwnam(table.user).pw_uid}))
    text = SOURCE.read_text()
    for name, filled in (
        ("CPUS", filling({partition.name: partition.cpus for partition in table.partitions})),
        ("CORES", filling(sizes.cores)),
        ("MEMORY", filling(sizes.memory)),
        ("BRIDGE", users),
    ):
        text = text.replace(f"{name} = {{}}", f"{name} = {{ {filled} }}", 1)
    return text


def filling(numbers: Mapping[str, int]) -> str:
    return ", ".join(f'["{name}"] = {number}' for name, number in numbers.items())
