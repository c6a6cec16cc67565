"""Results for readers: a script's output, also written to a page of docs/results, with the date, command and host."""

from __future__ import annotations

import io
import os
import sys
from collections.abc import Callable
from contextlib import redirect_stdout
from datetime import date
from pathlib import Path
from typing import TextIO

from shared import ROOT

FOLDER = ROOT / "docs" / "results"
HELP = "also write what is printed to a page of docs/results"


class Copied(io.StringIO):
    """Text that also goes to an output."""

    def __init__(self, output: TextIO) -> None:
        super().__init__()
        self.output = output

    def write(self, text: str, /) -> int:
        self.output.write(text)
        self.output.flush()
        return super().write(text)


def processor() -> str:
    """Return the name of the host's processors."""
    lines = Path("/proc/cpuinfo").read_text().splitlines()
    return next((line.partition(": ")[2] for line in lines if line.startswith("model name")), "unknown")


def heading(name: str) -> str:
    command = " ".join([f"tools/run bench/{Path(sys.argv[0]).name}", *sys.argv[1:]])
    return f"# {name.capitalize()}\n\n`{command}`\non {date.today()}, {os.cpu_count()} processors: {processor()}\n\n"


def show_and_keep(name: str, is_kept: bool, show: Callable[[], int]) -> int:
    """Run a script's output function; on request, and if all is well, write the output to the page of this name."""
    if not is_kept:
        return show()
    text = Copied(sys.stdout)
    with redirect_stdout(text):
        status = show()
    if status == 0:
        FOLDER.mkdir(parents=True, exist_ok=True)
        (FOLDER / f"{name}.md").write_text(heading(name) + text.getvalue())
    return status
