"""Play rounds with a proposer whose tables index, so that an index out of range ends the program.

usage: tools/run tests/indices.py [--sizes 24x8,300x100] [--control]
No proof says that the proposer's indices are in range: past its end a table reads as a default value, and nothing is
written (crates/firm_proposals/src/column.rt). Here a copy of the crates indexes in those places instead. `rt try` runs
it, which proves nothing, on a tenant for each kind and size of harness/kinds.py. As a control, --control makes the
number of the outside too high by one. The exit status is 1 if the program didn't answer each round, or with --control
did.
"""

from __future__ import annotations

import argparse
import subprocess
import sys
import tempfile
from pathlib import Path

from hammer import Edit, apply, copy_to
from harness.kinds import KINDS, make, read_size

SIZES = "24x8,300x100"
COLUMN = "firm_proposals/src/column.rt"
INDEXING = [
    Edit(COLUMN, "items.get(number as usize).copied().unwrap_or_default()", "items[number as usize]"),
    Edit(COLUMN, "    items.get_mut(number as usize)\n", "    Some(&mut items[number as usize])\n"),
    Edit(COLUMN, "let end = items.len().min(count as usize);", "let end = count as usize;"),
]
TOO_HIGH = Edit("firm_proposals/src/round.rt", "Place(self.machines.saturating_add(1))", "Place(1 << 20)")


def write_books(sizes: str, folder: Path) -> int:
    """Write the roster and the lines of all tenants; return the number of rounds."""
    rows, lines = [], []
    heading = "tenant,nodes,arcs,life,spread,churn,remote"
    for size in sizes.split(","):
        for kind in KINDS:
            stream = make(kind, *read_size(size))
            name = f"{kind}-{size}"
            row = stream.roster.splitlines()[1].split(",")
            rows.append(",".join([name, *row[1:], *["0"] * (7 - len(row))]))
            for part in stream.parts:
                lines += [f"{name} {line.partition(' ')[2]}" for line in part] + [f"{name} round"]
    (folder / "roster").write_text("\n".join([heading, *rows]) + "\n")
    (folder / "lines").write_text("\n".join(lines) + "\n")
    return sum(line.endswith(" round") for line in lines)


def play(sizes: str, edits: list[Edit]) -> bool:
    """Return whether the edited program answers each round."""
    with tempfile.TemporaryDirectory(prefix="firm-indices-") as name:
        folder = Path(name)
        copy_to(folder)
        apply(edits, folder)
        rounds = write_books(sizes, folder)
        with open(folder / "lines", "rb") as given:
            done = subprocess.run(
                ["rt", "try", "--seconds", "60", "--data", f"roster={folder}/roster", "--", "--roster", "roster"],
                cwd=folder / "crates" / "firm",
                stdin=given,
                stdout=subprocess.PIPE,
                stderr=subprocess.PIPE,
                text=True,
            )
    answered = sum(" ok round " in line for line in done.stdout.splitlines())
    print(f"{answered} of {rounds} rounds answered, status {done.returncode}")
    if done.returncode:
        print(done.stderr[-2000:])
    return done.returncode == 0 and answered == rounds


def main() -> int:
    parser = argparse.ArgumentParser(description=__doc__.splitlines()[0])
    parser.add_argument("--sizes", default=SIZES, help="tasks x machines (default: %(default)s)")
    parser.add_argument("--control", action="store_true", help="use a too high index, which must be found")
    options = parser.parse_args()
    answers = play(options.sizes, [*INDEXING, *([TOO_HIGH] if options.control else [])])
    return 1 if answers == options.control else 0


if __name__ == "__main__":
    sys.exit(main())
