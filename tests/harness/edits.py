"""Must-fail edits: the form of their files, their changes, and the function of each change.

An edit breaks a meaning, so that the prover must refuse the function that it changes. Its file names a file of the
crate and pairs of texts, each of them on one line and with exactly one occurrence in that file:

    file: src/bounds.rt
    old: arcs <= MOST_ARCS
    new: arcs < MOST_ARCS
"""

from __future__ import annotations

import re
from pathlib import Path
from typing import Iterator, Mapping, NamedTuple

Texts = dict[str, str]  # the files that edits change, by their path in the crate
PARTS = ("src", "specs", "proofs")
FUNCTION = re.compile(r"^(?P<indent>\s*)(?:pub(?:\([a-z]+\))? )?(?:const )?(?:unsafe )?fn (?P<name>\w+)")
ABOVE = ("#[", "//")  # lines above a function's head that belong to it
BLOCK = re.compile(r"^(?:pub )?(?:unsafe )?(?:impl|trait)\b")


class BadEdit(Exception):
    """Signals that the edit can't be applied, or shows nothing of a contract."""


class Pair(NamedTuple):
    """A text of a file, and its replacement."""

    path: str
    old: str
    new: str


class Function(NamedTuple):
    """A function by its file, the head of its `impl` or `trait` (or empty), and its name."""

    path: str
    block: str
    name: str

    @property
    def module(self) -> list[str]:
        """Return the names of its module below the crate."""
        parts = self.path.removeprefix("src/").removesuffix(".rt").split("/")
        return [] if parts[-1] in ("lib", "main") else [part for part in parts if part != "mod"]

    @property
    def kind(self) -> str:
        """Return the type or trait that it belongs to; empty for a free function."""
        return last_name(without_brackets(self.block).rpartition(" for ")[2])

    @property
    def owner(self) -> str:
        """Return the same as the prover names it: with the trait after a type."""
        return self.kind + last_name(without_brackets(self.block).rpartition(" for ")[0])

    def __str__(self) -> str:
        return "::".join([*self.module, *([self.owner] if self.owner else []), self.name])


class Edit(NamedTuple):
    """An edit of a crate."""

    crate: str
    name: str
    pairs: tuple[Pair, ...]

    def __str__(self) -> str:
        return f"{self.crate}/{self.name}"


def without_brackets(head: str) -> str:
    """Return the head of a block without the texts in angle brackets, `where` and the words before the names."""
    plain, depth = "", 0
    for at, letter in enumerate(head):
        is_arrow = letter == ">" and head[at - 1] in "-="
        if letter == "<":
            depth += 1
        elif letter == ">" and not is_arrow:
            depth -= 1
        elif depth == 0:
            plain += letter
    words = re.split(r"\bwhere\b|\{", plain)[0]
    return " ".join(re.sub(r"^(?:pub |unsafe )*(?:impl|trait)\b", "", words).split())


def last_name(path: str) -> str:
    """Return the last name of a path, as Debug of fmt::Debug."""
    names: list[str] = re.findall(r"\w+", path.split(":")[-1] if "::" in path else path)
    return names[0] if names else ""


def read_edit(file: Path) -> Edit:
    """Read the edit of a file in a folder of its crate; raise if it has no pair, or a pair without a file."""
    path, old, pairs = "", "", []
    for line in file.read_text().split("\n"):
        if line.startswith("file: "):
            path = line.removeprefix("file: ").strip()
        elif line.startswith("old: "):
            old = line.removeprefix("old: ")
        elif line.startswith("new:"):
            if not path or not old:
                raise BadEdit("a line 'new:' stands before any 'file:' or 'old:'")
            pairs.append(Pair(path, old, line.removeprefix("new:").removeprefix(" ")))
            old = ""
    if not pairs:
        raise BadEdit("it has no pair of 'old:' and 'new:'")
    return Edit(file.parent.parent.name, file.stem, tuple(pairs))


def read_file(crate: Path, path: str) -> str:
    inside = Path(path)
    if inside.is_absolute() or ".." in inside.parts or inside.parts[0] not in PARTS:
        raise BadEdit(f"{path} is not a file below src/, specs/ or proofs/")
    try:
        return (crate / path).read_text()
    except OSError:
        raise BadEdit(f"there is no file {path}") from None


def applied(edit: Edit, crate: Path, before: Mapping[str, str]) -> Texts:
    """Return the texts with this edit on top; raise unless each text of it stands there exactly once."""
    texts = dict(before)
    for path, old, new in edit.pairs:
        text = texts.get(path) or read_file(crate, path)
        if text.count(old) != 1:
            raise BadEdit(f"a text 'old:' stands in {path} {text.count(old)} times, and not once")
        texts[path] = text.replace(old, new)
    return texts


def changed_functions(edit: Edit, crate: Path) -> set[Function]:
    """Return the functions in which the edit changes something; none if it changes definitions."""
    found: set[Function] = set()
    texts: Texts = {}
    for path, old, new in edit.pairs:
        text = texts.get(path) or read_file(crate, path)
        if text.count(old) != 1:
            raise BadEdit(f"a text 'old:' stands in {path} {text.count(old)} times, and not once")
        texts[path] = text.replace(old, new)
        function = function_at(path, text.split("\n"), text.count("\n", 0, text.index(old)))
        if function is not None and old.strip("(){} ") != new.strip("(){} "):
            found.add(function)
    return found


def function_at(path: str, lines: list[str], number: int) -> Function | None:
    """Return the function of a line, counted from 0; None for a line outside, and in files of definitions."""
    if not path.endswith(".rt"):
        return None
    while number < len(lines) - 1 and lines[number].lstrip().startswith(ABOVE):
        number += 1
    for first in range(min(number, len(lines) - 1), -1, -1):
        head = FUNCTION.match(lines[first])
        if head and last_line(lines, first, head["indent"]) >= number:
            block = block_of(lines, first) if head["indent"] else ""
            return Function(path, block, head["name"])
    return None


def last_line(lines: list[str], first: int, indent: str) -> int:
    """Return the line that ends the function that begins at a line, in the layout of `rt fmt`."""
    for number in range(first, len(lines)):
        line = lines[number]
        if line == f"{indent}}}" or (number == first and line.endswith("}")):
            return number
    return first


def block_of(lines: list[str], first: int) -> str:
    """Return the head of the `impl` or `trait` around a line, on one line."""
    for number in range(first, -1, -1):
        if BLOCK.match(lines[number]):
            return " ".join(head_lines(lines[number:]))
    return ""


def head_lines(lines: list[str]) -> Iterator[str]:
    for line in lines:
        yield line.strip()
        if "{" in line:
            return
