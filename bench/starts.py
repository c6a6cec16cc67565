"""Measure the time of a start of firmd from a snapshot and the lines after it.

usage: tools/run bench/starts.py [--firm FILE] [--state FILE] [--tenants N] [--tasks N] [--machines N] [--lines N]
                                 [--every N]
firm_state saves a service of tenants with this many tasks and machines, each after a round, and firmd begins with it.
Then lines of all tenants come, one in `every` a round, and firmd is killed before it makes a snapshot of them: a start
reads the state and replays the lines. As many lines before them are in a snapshot. Prints the lines, the bytes of the
state, and the seconds from the start of the process to `ready`. The processor time of firmd and of firm until then is
printed too: on a busy host it alone predicts the time elsewhere.
"""

from __future__ import annotations

import argparse
import os
import re
import socket
import subprocess
import sys
import tempfile
import time
from pathlib import Path
from typing import NamedTuple

from shared import ROOT, TENANT, built, kinds, program_file, require, run_script

FIRMD = [sys.executable, str(ROOT / "service" / "firmd")]
READY = re.compile(rb"ready: ([0-9,]+) lines replayed in ([0-9.]+) s")
SECONDS = 600  # for all lines, and for a snapshot
BURST = 1_000  # lines that wait for their replies


class Seconds(NamedTuple):
    """A start's seconds: by the clock, and of the processor for firmd and for firm, which run beside each other."""

    clock: float
    firmd: float
    firm: float

    def __str__(self) -> str:
        return f"{self.clock:.2f} s, of the processor {self.firmd:.2f} s for firmd and {self.firm:.2f} s for firm"


def processor_seconds(process: int) -> float:
    fields = Path(f"/proc/{process}/stat").read_text().rpartition(")")[2].split()
    return (int(fields[11]) + int(fields[12])) / os.sysconf("SC_CLK_TCK")


class Service:
    """firmd, over a state in a folder."""

    def __init__(self, options: argparse.Namespace, folder: Path) -> None:
        self.options, self.folder = options, folder
        self.process: subprocess.Popen[bytes] | None = None

    def start(self, restored: Path | None, lines: int) -> Seconds:
        """Start it, with a snapshot due after this many lines; return its cost until it serves."""
        words = [*FIRMD, "--firm", self.options.firm, "--state", str(self.folder / "served")]
        words += ["--socket", str(self.folder / "any"), "--snapshot-lines", str(lines)]
        words += ["--restore", str(restored)] if restored else []
        began = time.monotonic()
        with open(self.folder / "errors", "wb") as errors:
            self.process = subprocess.Popen(words, stdin=subprocess.DEVNULL, stderr=errors)
        while READY.search(self.said()) is None:
            require(self.process.poll() is None and time.monotonic() < began + SECONDS, self.said().decode())
            time.sleep(0.002)
        clock, pid = time.monotonic() - began, self.process.pid
        firm = Path(f"/proc/{pid}/task/{pid}/children").read_text().split()[0]
        return Seconds(clock, processor_seconds(pid), processor_seconds(int(firm)))

    def said(self) -> bytes:
        return (self.folder / "errors").read_bytes()

    def kill(self) -> None:
        if self.process is not None:
            self.process.kill()
            self.process.wait()

    def has_snapshot(self) -> bool:
        return any((self.folder / "served" / "snapshots").glob("*.snapshot"))

    def send(self, count: int) -> None:
        """Send it lines of all tenants, in turn."""
        options = self.options
        with socket.socket(socket.AF_UNIX) as client:
            client.connect(str(self.folder / "any"))
            replies = client.makefile("rb")
            for first in range(0, count, BURST):
                numbers = range(first, min(first + BURST, count))
                client.sendall(b"".join(line_of(number, options).encode() for number in numbers))
                for _ in numbers:
                    require(b" no 1 " not in replies.readline(), "a worn tenant")


def line_of(number: int, options: argparse.Namespace) -> str:
    tenant, count = f"{TENANT}{number % options.tenants}", number // options.tenants
    if number % options.every == 0:
        return f"{tenant} round\n"
    return f"{tenant} done x{count}\n" if number % 2 else f"{tenant} show\n"


def full_state(options: argparse.Namespace, folder: Path) -> bytes:
    """Return the state of tenants that differ in their names alone, each after its first round."""
    stream = kinds.make(options.kind, options.tasks, options.machines)
    roster, state = folder / "roster.csv", [options.state, "--roster", str(folder / "roster.csv")]
    roster.write_text(stream.roster)
    lines = "".join(f"{line}\n" for line in [*stream.parts[0], f"{TENANT} round"])
    done = subprocess.run(state, input=lines.encode(), capture_output=True, check=True)
    rows = done.stdout.decode().splitlines()[1:-1]
    many = [
        row.replace(f"tenant {TENANT} ", f"tenant {TENANT}{number} ", 1)
        for number in range(options.tenants)
        for row in rows
    ]
    return "".join(f"{row}\n" for row in ["firm state 1", *many, f"rows {len(many)}"]).encode()


def measure(options: argparse.Namespace, folder: Path) -> None:
    restored = folder / "restored"
    restored.write_bytes(full_state(options, folder))
    service = Service(options, folder)
    try:
        first = service.start(restored, options.lines)
        service.send(options.lines + 1)  # the last of them begins a segment
        ends = time.monotonic() + SECONDS
        while not service.has_snapshot():
            require(time.monotonic() < ends, "no snapshot")
            time.sleep(0.1)
        service.kill()
        service.start(None, 0)
        service.send(options.lines)
        service.kill()
        seconds = service.start(None, 0)
        told = READY.search(service.said())
        replayed = told[1].decode() if told else "no"
        size = restored.stat().st_size / 2**20
        print(f"{options.tenants} tenants, {size:.1f} MiB of state: {replayed} lines replayed, ready in {seconds}")
        print(f"without a line {first}")
    finally:
        service.kill()


def main() -> int:
    parser = argparse.ArgumentParser(description=(__doc__ or "").splitlines()[0])
    parser.add_argument("--firm", type=program_file, default=str(built("firm")), metavar="FILE")
    parser.add_argument("--state", type=program_file, default=str(built("firm_state")), metavar="FILE")
    parser.add_argument("--kind", choices=kinds.KINDS, default="fresh")
    parser.add_argument("--tenants", type=int, default=64)
    parser.add_argument("--tasks", type=int, default=300)
    parser.add_argument("--machines", type=int, default=100)
    parser.add_argument("--lines", type=int, default=100_000)
    parser.add_argument("--every", type=int, default=1_000, help="one line of this many requests a round")
    options = parser.parse_args()
    with tempfile.TemporaryDirectory(prefix="firm-") as name:
        measure(options, Path(name))
    return 0


if __name__ == "__main__":
    run_script(main)
