#!/usr/bin/env python3
"""A stand-in for Slurm's sbatch: it runs the tasks of an array on this machine, one after the other.

usage: stand_in_sbatch.py --wait --array=0-LAST --wrap COMMAND
The exit status is 1 if a task failed, as sbatch gives it with --wait.
"""

from __future__ import annotations

import argparse
import os
import re
import subprocess
import sys


def array_of(text: str) -> range:
    found = re.fullmatch(r"0-(\d+)", text)
    if found is None:
        raise argparse.ArgumentTypeError(f"no array from 0: {text}")
    return range(int(found[1]) + 1)


def is_done(command: str, task: int) -> bool:
    environment = {**os.environ, "SLURM_ARRAY_TASK_ID": str(task)}
    return subprocess.run(["sh", "-c", command], env=environment, stdin=subprocess.DEVNULL).returncode == 0


def main() -> int:
    parser = argparse.ArgumentParser(description=(__doc__ or "").splitlines()[0])
    parser.add_argument("--wait", action="store_true", required=True)
    parser.add_argument("--array", type=array_of, required=True)
    parser.add_argument("--wrap", required=True, metavar="COMMAND")
    options = parser.parse_args()
    ends = [is_done(options.wrap, task) for task in options.array]
    return 0 if all(ends) else 1


if __name__ == "__main__":
    sys.exit(main())
