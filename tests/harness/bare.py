"""A copy of a crate in which only some functions have a body, for checks of only these.

A check of some functions also proves the functions that they call, which the edits leave as they are. So in the copy
each function that no edit changes has only its contract: its body is `unreachable!()`, whose one goal is a hole, and a
check with --allow-holes passes holes. Its callers are judged by its contract, as ever. A program loses its `main` too:
as a library it links nothing, and each of its functions is judged, called or not.
"""

from __future__ import annotations

from pathlib import Path
from typing import Callable, Container, Iterable, NamedTuple

from harness.edits import ABOVE, FUNCTION, Function, block_of, last_line

BODY = "    unreachable!()"
MAIN = Function("src/main.rt", "", "main")
PROOFS = ("Answers.antt", "Invariants.antt", "Proof.antt")
HOLE = """use Rattle.{crate}.proofs.{function}.Goals as goal

pub unreachable-requires : goal.unreachable-requires
unreachable-requires c = ?
"""


class Body(NamedTuple):
    """The lines of a function's body, from the one with its first bracket to the one with its last."""

    first: int
    last: int
    indent: str


def body_of(lines: list[str], at: int) -> Body | None:
    """Return the body of the function whose head begins at a line, in the layout of `rt fmt`; None without one."""
    head = FUNCTION.match(lines[at])
    indent = head["indent"] if head else ""
    for number in range(at, len(lines) if head else at):
        line = lines[number]
        ends_head = number == at or line.startswith(f"{indent})")
        if line == f"{indent}{{}}" or (ends_head and line.endswith(" {}")):
            return Body(number, number, indent)
        if line == f"{indent}{{" or (ends_head and line.endswith(" {")):
            return Body(number, last_line(lines, number, indent), indent)
        if line == f"{indent}}}" or line.endswith(";") or (number == at and line.endswith("}")):
            break
    return None


def function_at_head(path: str, lines: list[str], at: int) -> Function | None:
    """Return the function whose head begins at a line, unless it is a trait's."""
    head = FUNCTION.match(lines[at])
    block = block_of(lines, at) if head and head["indent"] else ""
    if head is None or " for " in block or block.startswith(("trait", "pub trait")):
        return None
    return Function(path, block, head["name"])


def without_bodies(path: str, text: str, but: Container[Function]) -> tuple[str, list[Function]]:
    """Return the text of a source file without `main`, in which only these functions have a body; and the others."""
    lines = text.split("\n")
    found: list[str] = []
    bare: list[Function] = []
    at = 0
    while at < len(lines):
        function, body = function_at_head(path, lines, at), body_of(lines, at)
        if function is None or body is None or function in but:
            found.append(lines[at])
            at += 1
            continue
        if function == MAIN:
            while found and found[-1].startswith(ABOVE):
                found.pop()
        else:
            rest = [lines[body.first].removesuffix("}"), body.indent + BODY, f"{body.indent}}}"]
            found += [*lines[at : body.first], *rest]
            bare.append(function)
        at = body.last + 1
    return "\n".join(found), bare


def strip(
    room: Path, crate: str, but: Container[Function], modules: Callable[[Function], Iterable[tuple[str, ...]]]
) -> None:
    """Remove the bodies, and their proofs, from a copy of a crate; `modules` are those in which a proof may stand."""
    for file in sorted((room / "src").rglob("*.rt")):
        text, bare = without_bodies(str(file.relative_to(room)), file.read_text(), but)
        file.write_text(text)
        for function in bare:
            for module in modules(function):
                put_hole(room, crate, [*module, *([function.owner] if function.owner else []), function.name])


def put_hole(room: Path, crate: str, function: list[str]) -> None:
    """Put a hole in the place of a function's proof."""
    folder = room.joinpath("proofs", *function)
    for name in PROOFS:
        (folder / name).unlink(missing_ok=True)
    folder.mkdir(parents=True, exist_ok=True)
    (folder / "Answers.antt").write_text(HOLE.format(crate=crate, function=".".join(function)))
