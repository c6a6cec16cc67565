"""The files of the repository, and programs that a test writes."""

from __future__ import annotations

import subprocess
from pathlib import Path

from harness.checks import CannotRun
from harness.program import ROOT


def tracked_files() -> list[Path]:
    """Return the files that git tracks, and new ones that it does not ignore, by their paths in the repository."""
    words = ["git", "ls-files", "-z", "--cached", "--others", "--exclude-standard"]
    done = subprocess.run(words, cwd=ROOT, stdin=subprocess.DEVNULL, capture_output=True, text=True)
    if done.returncode:
        raise CannotRun(f"git does not list the files: {done.stderr.strip()}")
    return [Path(name) for name in done.stdout.split("\0") if name and (ROOT / name).exists()]


def write_program(path: Path, text: str) -> None:
    """Write a program by a separate process: a file that is open here is open too in each child that another thread
    forks meanwhile, and a program that is open for writing can't be started."""
    subprocess.run(["install", "-m", "755", "/dev/stdin", path], input=text.encode(), check=True)


def commit_here() -> str:
    """Return the commit that is checked out; None outside a checkout."""
    words = ["git", "rev-parse", "HEAD"]
    done = subprocess.run(words, cwd=ROOT, stdin=subprocess.DEVNULL, capture_output=True, text=True)
    return done.stdout.strip() if done.returncode == 0 else ""


def lines_of(path: Path) -> list[str]:
    """Return the lines of a file of the repository, without their ends; none if it is not text."""
    try:
        return (ROOT / path).read_text().splitlines()
    except (UnicodeDecodeError, IsADirectoryError):
        return []


def first_line(path: Path) -> str:
    return next(iter(lines_of(path)), "")
