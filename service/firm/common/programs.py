"""Finds the programs that the service runs: the proved ones, and its own."""

from __future__ import annotations

import os
import shutil
import sys
from pathlib import Path

SERVICE = Path(__file__).resolve().parents[2]
CRATES = SERVICE.parent / "crates"
# The environment variable with the path of each program.
VARIABLES = {"firm": "FIRM", "firm_explain": "FIRM_EXPLAIN", "firm_state": "FIRM_STATE_PROGRAM"}


class NotBuilt(Exception):
    """A program is missing, or doesn't work."""


def program_of(name: str) -> Path:
    """Return the program that the environment names; otherwise the repository's, or that on the PATH."""
    named, built = os.environ.get(VARIABLES[name]), CRATES / name / "out" / name
    if named is None and not built.exists():
        named = shutil.which(name)
    return Path(named or built)


def program_words(name: str, module: str) -> list[str]:
    """Return the words that start a program of the service: its script, or its module where the package is installed
    without scripts beside it."""
    script = SERVICE / name
    return [sys.executable, *([str(script)] if script.exists() else ["-P", "-m", module])]
