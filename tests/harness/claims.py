"""The names in docs/results/claims.md: the files of definitions and the edits in its tables."""

from __future__ import annotations

import re
from pathlib import Path
from typing import Iterable, Iterator

from harness.program import ROOT

CLAIMS = Path("docs/results/claims.md")
FIRST_TABLE = "\n## "  # before it the page names the definitions that need no belief
COLUMNS = 4  # claim, contract, definition, edits
QUOTED = re.compile(r"`([^`\n]+)`")


def cells_of(column: int) -> list[str]:
    """Yield the cells of a column of the tables, row by row."""
    rows = [line.strip("|").split(" | ") for line in (ROOT / CLAIMS).read_text().splitlines() if line.startswith("| ")]
    return [row[column] for row in rows if len(row) == COLUMNS and row[0].strip() != "Claim"]


def definitions_in(text: str) -> Iterator[Path]:
    """The files of definitions that a text names; one without a folder is in the folder named before it."""
    folder = Path()
    for name in QUOTED.findall(text):
        path = Path(name)
        if path.suffix not in (".antt", ".rt"):
            continue
        if path.parent != Path():
            folder = Path("crates") / path.parent
        yield folder / path.name


def edits_in(cells: Iterable[str]) -> set[str]:
    return {name for cell in cells for name in QUOTED.findall(cell)}


def definitions_of(files: Iterable[Path]) -> set[Path]:
    """Return the files of the crates' specs/ except those of specs/inner, which nobody has to believe."""
    specs = {path for path in files if path.suffix == ".antt" and path.parent.name == "specs"}
    return {path for path in specs if path.stem not in ("Lib", "inner")}


def claim_faults(files: Iterable[Path]) -> Iterator[str]:
    """Return the names in the tables that don't exist, and those that exist and are in no table."""
    found = set(files)
    edits = {path.stem for path in found if path.suffix == ".edit"}
    tried = {path.stem: path for path in found if path.suffix == ".edit" and path.parent.name in ("must-fail", "edits")}
    named = {path for cell in cells_of(2) for path in definitions_in(cell)}
    known = named | set(definitions_in((ROOT / CLAIMS).read_text().split(FIRST_TABLE)[0]))
    named_edits = edits_in(cells_of(3))
    yield from (f"{CLAIMS} names {path}, which is not there" for path in sorted(named - found))
    yield from (f"{CLAIMS} names the edit {name}, which is not there" for name in sorted(named_edits - edits))
    yield from (f"{path} stands in no table of {CLAIMS}" for path in sorted(definitions_of(found) - known))
    yield from (f"{tried[name]} stands in no table of {CLAIMS}" for name in sorted(tried.keys() - named_edits))
