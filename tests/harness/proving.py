"""The parts of the scripts at the top of the repository that tests use."""

from __future__ import annotations

import subprocess
import sys
from pathlib import Path
from typing import Callable, Iterable

from build import free_bytes
from prover import ROOT, Crate, NoKit, crates_of_repository, kit, kit_identity, made, words

__all__ = [
    "Crate",
    "NoKit",
    "build_libraries",
    "crates_of_repository",
    "free_bytes",
    "kit",
    "kit_identity",
    "made",
    "prover_words",
]


def prover_words(verb: str, crate: Crate, library: Callable[[Crate], Path]) -> list[str]:
    """Return the first words of a call of the prover, to be run in a crate's folder or in a copy of it."""
    return [str(kit() / "bin" / "rattle"), verb, *words(crate, library)]


def build_libraries(crates: Iterable[Crate]) -> int:
    """Build the libraries that these crates depend on, if they have changed; return the status of the build."""
    below = dict.fromkeys(library.name for crate in crates for library in crate.below)
    return subprocess.call([sys.executable, str(ROOT / "build.py"), *below]) if below else 0
