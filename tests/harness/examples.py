"""The Rust on the pages, which has to stand in the crates."""

from __future__ import annotations

import re
from pathlib import Path
from typing import Iterator

BLOCK = re.compile(r"^```rust\n(.*?)^```$", re.DOTALL | re.MULTILINE)
CUT = ".."  # a line that leaves something out


def parts_of(block: str) -> list[list[str]]:
    """Return the runs of lines between those that leave something out, without their indents."""
    parts: list[list[str]] = [[]]
    for line in block.splitlines():
        if line.strip() == CUT:
            parts.append([])
        else:
            parts[-1].append(line.strip())
    return [part for part in parts if part]


def stands_in(parts: list[list[str]], lines: list[str]) -> bool:
    """Return whether the runs stand in a source, one after another."""
    start = 0
    for part in parts:
        places = range(start, len(lines) - len(part) + 1)
        found = next((place for place in places if lines[place : place + len(part)] == part), None)
        if found is None:
            return False
        start = found + len(part)
    return True


def example_faults(files: dict[Path, list[str]]) -> Iterator[str]:
    """Yield the blocks of Rust on the pages that stand in no source, or in part only."""
    sources = [[line.strip() for line in lines] for path, lines in files.items() if path.suffix == ".rt"]
    for page in (path for path in files if path.suffix == ".md"):
        text = "\n".join(files[page]) + "\n"
        for block in BLOCK.finditer(text):
            parts = parts_of(block.group(1))
            if not any(stands_in(parts, lines) for lines in sources):
                yield f"{page}:{text.count(chr(10), 0, block.start()) + 1}: this Rust stands in no source"
