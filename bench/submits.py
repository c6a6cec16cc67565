"""Measure the time from a submission to its process: by firmd, firm-api and firm-agent, as a user has them.

usage: tools/run bench/submits.py [--firm FILE] [--count N]
One client submits a command, waits until it has ended, and submits the next. Prints the milliseconds from `submit` to
the first instruction of the process, which prints the clock's time, with the load of the host.
"""

from __future__ import annotations

import argparse
import os
import statistics
import subprocess
import sys
import tempfile
import time
from collections.abc import Iterator
from contextlib import contextmanager
from pathlib import Path

from firm.client.calls import submit, wait
from firm.client.blocking import ApiClient

from shared import ROOT, built, compile_source, program_file, require, run_script

SERVICE = ROOT / "service"
ROSTER = "tenant,nodes,arcs,life,spread,churn\nalpha,60,400,1000000000,0,1000\n"
SECONDS = 60.0  # for all to be there
# A process that prints its time of start, with as little before that as possible.
SOURCE = """\
#include <stdio.h>
#include <time.h>
int main(void) {
    struct timespec now;
    clock_gettime(CLOCK_MONOTONIC, &now);
    printf("%lld.%09ld\\n", (long long)now.tv_sec, now.tv_nsec);
}
"""


@contextmanager
def started(*commands: list[str]) -> Iterator[None]:
    """Start programs that run until the `with` block ends."""
    processes = [subprocess.Popen(words, stdin=subprocess.DEVNULL, stderr=subprocess.DEVNULL) for words in commands]
    try:
        yield
    finally:
        for process in processes:
            process.terminate()
        for process in processes:
            process.wait()


def firmctl(server: str, *words: str) -> str:
    at = ["--server", server, "--tenant", "alpha"]
    done = subprocess.run([sys.executable, SERVICE / "firmctl", *words, *at], capture_output=True, text=True)
    require(done.returncode == 0, f"{words}: {done.stderr}")
    return done.stdout


def measure(firm: str, count: int, folder: Path) -> None:
    (folder / "roster.csv").write_text(ROSTER)
    (folder / "clock.c").write_text(SOURCE)
    clock = folder / "clock"
    compile_source(["cc", "-O1", "-o", str(clock), str(folder / "clock.c")])
    lines = folder / "lines"
    words = [[str(SERVICE / "firmd"), "--firm", firm, "--roster", f"{folder}/roster.csv", "--state", f"{folder}/state"]]
    words[0] += ["--socket", str(lines)]
    words += [[str(SERVICE / "firm-api"), "run", "--state", f"{folder}/state", "--socket", f"{folder}/api"]]
    places = {"lines": lines, "queue": folder / "queue-state"}
    words[1] += [f"--{name}=alpha={path}" for name, path in places.items()]
    words += [[str(SERVICE / "firm-agent"), "run", f"--server=unix:{folder}/api", "--tenant=alpha", "--name=a1"]]
    words[2] += ["--machines=m1=4", f"--state={folder}/agent"]
    server = f"unix:{folder / 'api'}"
    with started(*words):
        ends = time.monotonic() + SECONDS
        while not (folder / "api").exists() or " up " not in firmctl(server, "machines"):
            require(time.monotonic() < ends, "they are not there in time")
            time.sleep(0.2)
        took = []
        client = ApiClient(server, "alpha")
        for _ in range(count):
            sent = time.monotonic()
            (made,) = client.ask(submit([{"command": [str(clock)], "dir": str(folder)}]))
            number = str(made["number"])
            client.ask(wait([number]))
            took.append(1_000 * (float(b"".join(client.log(number))) - sent))
    load = ", ".join(f"{one:.1f}" for one in os.getloadavg())
    middle, least, most = statistics.median(took), min(took), max(took)
    print(f"{count} submissions: {middle:.0f} ms by median, {least:.0f} at least, {most:.0f} at most; load {load}")


def main() -> int:
    parser = argparse.ArgumentParser(description=(__doc__ or "").splitlines()[0])
    parser.add_argument("--firm", type=program_file, default=str(built("firm")), metavar="FILE")
    parser.add_argument("--count", type=int, default=25)
    options = parser.parse_args()
    with tempfile.TemporaryDirectory(prefix="firm-") as name:
        measure(options.firm, options.count, Path(name))
    return 0


if __name__ == "__main__":
    run_script(main)
