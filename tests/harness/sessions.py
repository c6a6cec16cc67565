"""The sessions in the documents: fenced blocks that a reader can type, each with its output right after it.

A block of `sh` or `python` is run in a folder where ./firm is the launcher, and crates/, examples/ and tests/ are those
of the repository; a block of `firm` is the input of ./firm. So are the lines of a table whose first column is Line and
whose last is Reply. The roster, roster.csv, is the block of `csv` right above, or else the page's first. A block of
`console` has commands after `$ `, each with its output below it, errors included. Times may differ. A command that only
looks is typed again until the service shows its latest answers. A block without output is only to be read, and is not
run. `./firm --unproved`, which takes minutes, is run as ./firm: tests/launcher.py tries an unproved answer, and the
replies are the same.
"""

from __future__ import annotations

import itertools
import os
import re
import select
import shutil
import signal
import subprocess
import sys
import tempfile
import time
from contextlib import suppress
from pathlib import Path
from typing import Any, Callable, Iterator, NamedTuple

from harness.checks import Skipped, require
from harness.program import ROOT, built, opened

LIMIT_SECONDS = 300
CONSOLE_SECONDS = 600  # for a console's command with output, and the silent ones before it
LOOK_SECONDS = 0.2  # until a command that only looks is typed again
LOOKS = re.compile(r"\bfirmctl (?:--server \S+ )?(?:tasks|ps|status|why|what-if|plan|machines|history)\b")
END = "that-was-all"  # is written after such a command
FENCE = "```"
TABLE = re.compile(r"\| Line \|.*\| Reply[^|]*\|")
FIRST_AND_LAST = re.compile(r"\| `([^`]+)` \|.*\| `([^`]+)`[^|]*\|")


class Block(NamedTuple):
    """A fenced block: the line of its first fence, from 1, and of its last; its kind; its text."""

    first_line: int
    last_line: int
    kind: str
    text: str


class Session(NamedTuple):
    """Input, its roster, if the page has one, and its output."""

    page: str
    typed: Block
    roster: str | None
    output: str

    @property
    def name(self) -> str:
        return f"{self.page}, line {self.typed.first_line}"


def blocks_of(text: str) -> list[Block]:
    blocks: list[Block] = []
    opened: tuple[int, str] | None = None
    lines = text.splitlines(keepends=True)
    for number, line in enumerate(lines, 1):
        if not line.startswith(FENCE):
            continue
        if opened is None:
            opened = number, line[len(FENCE) :].strip()
        else:
            first_line, kind = opened
            blocks.append(Block(first_line, number, kind, "".join(lines[first_line : number - 1])))
            opened = None
    return blocks


class Pair(NamedTuple):
    """Input and its output."""

    typed: Block
    output: str


def are_adjoined(lines: list[str], first: Block, second: Block) -> bool:
    """Return whether only empty lines stand between two blocks."""
    return not "".join(lines[first.last_line : second.first_line - 1]).strip()


def fenced_pairs(text: str) -> Iterator[Pair]:
    """Return the blocks that are followed by their output."""
    lines, blocks = text.splitlines(), blocks_of(text)
    for typed, output in zip(blocks, blocks[1:]):
        if typed.kind in COMMANDS and output.kind == "" and are_adjoined(lines, typed, output):
            yield Pair(typed, output.text)


def table_pairs(text: str) -> Iterator[Pair]:
    """Yield the tables of lines and replies, as blocks of commands. The replies stand there without tenant and
    number."""
    lines = text.splitlines()
    for place, heading in enumerate(lines):
        if TABLE.fullmatch(heading) is None:
            continue
        rows = itertools.takewhile(lambda line: line.startswith("|"), lines[place + 2 :])
        found = [FIRST_AND_LAST.fullmatch(row) for row in rows]
        typed = [row[1] for row in found if row]
        require(len(typed) == len(found), f"the table in line {place + 1} has a row without a line or a reply")
        replies = [f"{row[1].split()[0]} {number} {row[2]}" for number, row in enumerate(found, 1) if row]
        block = Block(place + 1, place + 2 + len(found), "firm", "".join(line + "\n" for line in typed))
        yield Pair(block, "".join(reply + "\n" for reply in replies))


def roster_for(typed: Block, text: str) -> str | None:
    """Return the roster right above a block, or else the page's first."""
    lines = text.splitlines()
    rosters = [block for block in blocks_of(text) if block.kind == "csv"]
    own = [roster for roster in rosters if roster.last_line < typed.first_line and are_adjoined(lines, roster, typed)]
    chosen = own or rosters
    return chosen[0].text if chosen else None


def sessions_of(page: Path) -> list[Session]:
    """Return the sessions of a page."""
    text, name = page.read_text(), str(page.relative_to(ROOT))
    pairs = [*fenced_pairs(text), *table_pairs(text)]
    return [Session(name, typed, roster_for(typed, text), output) for typed, output in pairs]


INSTALLING = "import ensurepip, setuptools, venv, wheel"  # the needs of a session that installs the package
COMMANDS = {
    "sh": ["bash", "-eu"],
    "python": [sys.executable, "-"],
    "firm": ["./firm", "--roster", "roster.csv"],
}


def play(session: Session) -> None:
    """Type a session; require the page's output. Skip it if a program that it names is missing."""
    for path in re.findall(r"\bcrates/\w+/out/\w+", session.typed.text):
        if not (ROOT / path).exists():
            raise Skipped(f"{path} is not built")
    with tempfile.TemporaryDirectory(prefix="firm-") as folder:
        for name in ("firm", "crates", "examples", "tests"):
            (Path(folder) / name).symlink_to(ROOT / name)
        if session.roster is not None:
            (Path(folder) / "roster.csv").write_text(session.roster)
        done = subprocess.run(
            COMMANDS[session.typed.kind],
            input=session.typed.text.replace("./firm --unproved", "./firm"),
            cwd=folder,
            capture_output=True,
            text=True,
            timeout=LIMIT_SECONDS,
        )
    require(done.returncode == 0, f"status {done.returncode}: {done.stderr}")
    require(done.stdout == session.output, f"it gives\n{done.stdout}and not\n{session.output}")


def consoles_of(page: Path) -> list[Block]:
    """Return the blocks of a page that show a console."""
    return [block for block in blocks_of(page.read_text()) if block.kind == "console"]


def story_of(page: Path) -> Block:
    """Return all consoles of a page, one after the other, as one that a reader types from first to last."""
    consoles = consoles_of(page)
    text = "".join(console.text for console in consoles)
    return consoles[0]._replace(last_line=consoles[-1].last_line, text=text)


def commands_of(console: Block) -> Iterator[Pair]:
    """Yield the commands of a console, which may go on after `> `, each with its output."""
    for text in re.split(r"^\$ ", console.text, flags=re.M)[1:]:
        lines = text.splitlines(keepends=True)
        count = 1 + len(list(itertools.takewhile(lambda line: line.startswith("> "), lines[1:])))
        typed = "".join(line.removeprefix("> ") for line in lines[:count])
        yield Pair(console._replace(text=typed), "".join(lines[count:]))


def play_console(console: Block, path: str | None = None) -> None:
    """Type each command once the page's output of the one before has come; with a path, only by its programs."""
    if "nc -" in console.text and shutil.which("nc") is None:
        raise Skipped("it needs nc (apt-get install netcat-openbsd)")
    if re.search(r"firmctl .*\bwhy\b", console.text) and not built("firm_explain").exists():
        raise Skipped("firm_explain is not built")
    words = ["python3", "-c", "import aiohttp, prometheus_client"]
    if "firm-api" in console.text and not path and subprocess.run(words, capture_output=True).returncode:
        raise Skipped("it needs aiohttp (apt-get install python3-aiohttp python3-prometheus-client)")
    if re.search(r"\broot\b", console.text) and os.geteuid():
        raise Skipped("it shows what root has")
    is_installing = "pip install" in console.text
    if is_installing and subprocess.run(["/usr/bin/python3", "-c", INSTALLING], capture_output=True).returncode:
        raise Skipped("it needs venv, setuptools and wheel (apt-get install python3-venv python3-wheel)")
    with tempfile.TemporaryDirectory(prefix="firm-", ignore_cleanup_errors=True) as folder:
        for name in () if path else ("firm", "crates", "examples", *([] if is_installing else ["service"])):
            (Path(folder) / name).symlink_to(ROOT / name)
        if is_installing:  # pip writes beside the sources
            shutil.copytree(ROOT / "service", Path(folder) / "service", ignore=shutil.ignore_patterns("__pycache__"))
            shutil.copy(ROOT / "pyproject.toml", folder)
        how: dict[str, Any] = {"stdin": subprocess.PIPE, "stdout": subprocess.PIPE, "stderr": subprocess.STDOUT}
        how["env"] = {"PATH": path} if path else None
        with subprocess.Popen(["/bin/bash", "-eu"], cwd=folder, start_new_session=True, bufsize=0, **how) as shell:
            try:
                for typed, output in commands_of(console):
                    said = answer(shell, typed.text, output)
                    require(without_times(said) == without_times(output), f"{typed.text}gives\n{said}")
            finally:
                with suppress(ProcessLookupError):  # it has ended, with all processes that it started
                    os.killpg(shell.pid, signal.SIGKILL)


def answer(shell: subprocess.Popen[bytes], typed: str, wanted: str) -> str:
    """Return a command's output; one that only looks is typed again until it is as expected, for some time."""
    if not LOOKS.search(typed):
        opened(shell.stdin).write(typed.encode())
        return next_lines(shell, lambda said: said.count(b"\n") >= wanted.count("\n"))
    ends = time.monotonic() + CONSOLE_SECONDS
    while True:
        opened(shell.stdin).write(f"{typed}echo {END}\n".encode())
        said = next_lines(shell, lambda said: said.endswith(f"{END}\n".encode()))
        said = said.removesuffix(f"{END}\n")
        if without_times(said) == without_times(wanted) or shell.poll() is not None or time.monotonic() > ends:
            return said
        time.sleep(LOOK_SECONDS)


def next_lines(shell: subprocess.Popen[bytes], are_all: Callable[[bytes], bool]) -> str:
    """Return lines of a shell until they are complete, or no more come in time: a process that it started may
    outlive it with its pipe open."""
    pipe, said, ends = opened(shell.stdout), b"", time.monotonic() + CONSOLE_SECONDS
    while not are_all(said) and time.monotonic() < ends:
        if select.select([pipe], [], [], LOOK_SECONDS)[0]:
            more = os.read(pipe.fileno(), 65536)
            if not more:
                break
            said += more
        elif shell.poll() is not None:
            break
    return said.decode()


def without_times(text: str) -> str:
    return re.sub(r"\b\d+:\d\d\b|\b\d+\.\d s\b", "TIME", text)


def block_with(page: Path, words: str) -> Block:
    """Return the only block of a page that has these words."""
    found = [block for block in blocks_of(page.read_text()) if re.search(re.escape(words), block.text)]
    require(len(found) == 1, f"{page.name} has {len(found)} blocks with {words}")
    return found[0]
