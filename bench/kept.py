"""Records of measurements in out/bench: one line of JSON for each."""

from __future__ import annotations

import json
from dataclasses import asdict, dataclass
from pathlib import Path
from typing import Any, Iterable, TextIO, TypeVar

from shared import ROOT, CannotRun

FOLDER = ROOT / "out" / "bench"
ROUNDS = "rounds.jsonl"
SEARCHED = "searched.jsonl"
RATES = "workers.jsonl"


@dataclass
class RoundRecord:
    """A measured round; times are in seconds, None without another program or without LEMON."""

    kind: str
    size: str
    round: int  # from 0, the cold one
    tasks: int
    arcs: int
    cost: int
    searches: int
    looks: int  # of the searches
    proposed: int  # looks of the proposal
    firm: float
    beside: float | None
    simplex: float | None = None
    scaling: float | None = None
    seed: int = 1  # of the stream

    @property
    def all_looks(self) -> int:
        return self.looks + self.proposed

    @property
    def ratio(self) -> float | None:
        """Return the round's time as a part of that of LEMON's faster solver."""
        return self.part_of_lemon(self.firm)

    @property
    def beside_ratio(self) -> float | None:
        """Return the same of the other program's time."""
        return None if self.beside is None else self.part_of_lemon(self.beside)

    def part_of_lemon(self, seconds: float) -> float | None:
        solvers = [each for each in (self.simplex, self.scaling) if each is not None]
        return seconds / min(solvers) if solvers else None

    def times(self) -> dict[str, float | None]:
        return {"firm": self.firm, "beside": self.beside, "simplex": self.simplex, "scaling": self.scaling}


@dataclass
class RateRecord:
    """Rounds a second of a program with a number of workers, none if it serves on one thread."""

    program: str
    workers: int | None
    tenants: int
    tasks: int
    machines: int
    rate: float
    processor: float  # seconds a round


Record = TypeVar("Record", RoundRecord, RateRecord)


def begin(name: str) -> TextIO:
    """Open the file of this name, and empty it."""
    FOLDER.mkdir(parents=True, exist_ok=True)
    return open(FOLDER / name, "w")


def keep(file: TextIO, records: Iterable[RoundRecord | RateRecord]) -> None:
    file.writelines(json.dumps(asdict(record)) + "\n" for record in records)
    file.flush()


def read(name: str, record: type[Record], folder: Path = FOLDER) -> list[Record]:
    """Return the records of the last run."""
    path = folder / name
    lines = path.read_text().splitlines() if path.exists() else []
    if not lines:
        raise CannotRun(f"no records in {path}")
    fields: list[dict[str, Any]] = [json.loads(line) for line in lines]
    return [record(**each) for each in fields]
