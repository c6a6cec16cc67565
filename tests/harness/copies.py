"""Copies of a function under other names in a crate's text, so that one check tries several edits of it.

A copy follows its function, with the function's contract and proof. One copy of each function stays unedited: a refused
copy refutes its edit only if the unedited one has no open goal.
"""

from __future__ import annotations

from pathlib import Path
from typing import Iterable, NamedTuple

from harness.edits import ABOVE, FUNCTION, Edit, Function, Texts, applied, block_of, last_line, read_file

MARK = "_copy"


class Copy(NamedTuple):
    """A function's copy by its own name, the function, and the copy's text."""

    function: Function
    of: Function
    text: str


class Place(NamedTuple):
    """The lines of a function in a file: the first line that belongs to its head, the head, and the last one."""

    first: int
    head: int
    last: int


def plain(name: str) -> str:
    """Return the name of a function, given its own name or a copy's."""
    return name.partition(MARK)[0]


def place_of(function: Function, lines: list[str]) -> Place | None:
    """Return a function's place, or None unless the file has exactly one."""
    heads = [at for at, line in enumerate(lines) if (head := FUNCTION.match(line)) and head["name"] == function.name]
    places = []
    for at in heads:
        indent = lines[at][: len(lines[at]) - len(lines[at].lstrip())]
        if (block_of(lines, at) if indent else "") != function.block:
            continue
        first = at
        while first and lines[first - 1].lstrip().startswith(ABOVE):
            first -= 1
        places.append(Place(first, at, last_line(lines, at, indent)))
    return places[0] if len(places) == 1 else None


def copy_of(function: Function, number: int, crate: Path, edit: Edit | None = None) -> Copy | None:
    """Return a copy with an edit, or without any; None if the function is a trait's, has closures with separate
    proofs, or the edit changes more than it."""
    if " for " in function.block or function.block.startswith(("trait", "pub trait")):
        return None
    before = read_file(crate, function.path)
    texts = applied(edit, crate, {}) if edit else {function.path: before}
    old, new = before.split("\n"), texts.get(function.path, before).split("\n")
    was, place = place_of(function, old), place_of(function, new)
    if was is None or place is None or set(texts) != {function.path}:
        return None
    if old[: was.first] != new[: place.first] or old[was.last + 1 :] != new[place.last + 1 :]:
        return None
    copied = function._replace(name=f"{function.name}{MARK}{number}")
    lines = new[place.first : place.last + 1]
    head = place.head - place.first
    lines[head] = lines[head].replace(f"fn {function.name}", f"fn {copied.name}", 1)
    return Copy(copied, function, "\n".join(lines))


def with_copies(texts: Texts, copies: Iterable[Copy], crate: Path) -> Texts:
    """Return the texts with each copy after its function."""
    found = dict(texts)
    for copy in copies:
        lines = (found.get(copy.of.path) or read_file(crate, copy.of.path)).split("\n")
        place = place_of(copy.of, lines)
        assert place is not None, copy.of
        found[copy.of.path] = "\n".join([*lines[: place.last + 1], "", copy.text, *lines[place.last + 1 :]])
    return found


def proof_folder(room: Path, module: tuple[str, ...], function: Function) -> Path:
    """Return the folder of a function's proof that the prover names by this module."""
    return room.joinpath("proofs", *module, *([function.owner] if function.owner else []), function.name)


def has_closures(crate: Path, module: tuple[str, ...], function: Function) -> bool:
    """Return whether closures of the function have separate proofs."""
    own = [name for name in (function.owner, function.name) if name]
    return crate.joinpath("proofs", *module, "fn", *own).exists()


def copy_proof(room: Path, module: tuple[str, ...], copy: Copy) -> None:
    """Give a copy the proof of its function, if that has one in this module."""
    source, target = (proof_folder(room, module, function) for function in (copy.of, copy.function))
    old, new = (".".join(["", *folder.relative_to(room).parts, ""]) for folder in (source, target))
    for file in sorted(source.glob("*.antt")):
        target.mkdir(parents=True, exist_ok=True)
        (target / file.name).write_text(file.read_text().replace(old, new))
