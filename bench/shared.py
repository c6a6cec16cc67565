"""The parts of tests/harness that these programs use."""

from __future__ import annotations

from harness import kinds
from harness.checks import CannotRun, Missed, compile_source, require, run_script
from harness.kinds import TENANT, Stream, read_size
from harness.program import BUILT, EXPLAIN, ROOT, Roster, built, measuring, opened, program_file, run
from harness.rows import hear, hear_round, network, open_rows

__all__ = [
    "BUILT",
    "CannotRun",
    "EXPLAIN",
    "Missed",
    "ROOT",
    "Roster",
    "Stream",
    "TENANT",
    "built",
    "compile_source",
    "hear",
    "hear_round",
    "kinds",
    "measuring",
    "network",
    "open_rows",
    "opened",
    "program_file",
    "read_size",
    "require",
    "run",
    "run_script",
]
