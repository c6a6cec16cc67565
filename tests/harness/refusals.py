"""The prover's reasons for refusing functions: the open goals of each, read from a check's output.

The prover judges each function against the contracts of those that it calls, and prints its reasons by function: a note
at a line of `src/` for each goal that a search left open, and an error in a file of `proofs/` for each answer that does
not fit its goal. So a check of several edits at once tells for each whether it is refused, as long as no two change one
function. A message that concerns no contract does not count: that a function calls a refused one, and that a proof
names something that the edit removed. If an answer is lost so, and a search for a goal of the same clause is in vain,
the answer may be that goal's under its old name: then only goals that the search finds to be false count.
"""

from __future__ import annotations

import re
from pathlib import PurePath
from typing import Mapping, NamedTuple

from harness.edits import Function, function_at

OPEN_GOAL = re.compile(r"^note: (?P<path>src/\S+\.rt):(?P<line>\d+):\d+: it is not proved that (?P<what>.*)")
BROKEN_ANSWER = re.compile(r"^(?:\./)?proofs/(?P<path>\S+)\.antt:\d+:\d+: error: (?P<what>.*)")
UNREADABLE = re.compile(r"^(?:error.*)?(?:\./)?(?P<path>src/\S+\.rt):(?P<line>\d+):\d+: error\b(?P<what>.*)")
JUDGED = re.compile(r"^fn \w+::(?P<function>\S+): (?P<what>.*)")
GOAL = re.compile(r"`([^`]+)`")
# The values of a search that the known facts allow.
FALSE = re.compile(r"allow values at which this goal is false")
# The proof names a variable, a call or a goal that the edit removed.
SHAPE = re.compile(r"that can be named from here|is not in scope|has no field|has no `|no constructor")
# The answer depends on another one, which has its own error.
FOLLOWS = re.compile(r"declarations? that depends? on|was not admitted")


class Refusal(NamedTuple):
    """A function's goals that are false or whose answers don't fit, those for which a search was in vain, and the
    missing names in its proof."""

    failed: list[str]
    searched: list[str]
    missing: list[str]

    @staticmethod
    def none() -> Refusal:
        return Refusal([], [], [])

    def add(self, other: Refusal) -> None:
        for own, more in zip(self, other):
            own.extend(more)

    @property
    def goals(self) -> list[str]:
        """Return the goals that count as refused, each once."""
        lost = {clause_of(name) for name in self.missing}
        return list(dict.fromkeys([*self.failed, *(goal for goal in self.searched if clause_of(goal) not in lost)]))


def clause_of(goal: str) -> str:
    """Return the clause that a goal is for, as `few` of `returns-in-On-clause-few`; it may be left in several ways."""
    return goal.rpartition("-clause-" if "-clause-" in goal else "-")[2]


class Outcome(NamedTuple):
    """A check's messages: by function, by folder of a proof, of functions as a whole, and the unreadable ones."""

    at_functions: dict[Function, Refusal]
    in_folders: dict[tuple[str, ...], Refusal]
    judged: dict[str, str]
    unreadable: list[tuple[Function | None, str]]
    said: str

    def against(self, function: Function, modules: set[tuple[str, ...]]) -> Refusal:
        """Return the messages against a function whose type stands in one of the modules."""
        found = Refusal.none()
        found.add(self.at_functions.get(function, Refusal.none()))
        for folder, refusal in self.in_folders.items():
            if any(is_of(folder, module, function) for module in modules):
                found.add(refusal)
        return found


def is_of(folder: tuple[str, ...], module: tuple[str, ...], function: Function) -> bool:
    """Return whether a folder of proofs/ is that of the function, or of a closure in it."""
    own = tuple(name for name in (function.owner, function.name) if name)
    if folder[: len(module)] != module:
        return False
    inside = folder[len(module) :]
    return inside == own or (inside[:1] == ("fn",) and inside[1 : 1 + len(own)] == own)


def read_outcome(said: str, texts: Mapping[str, str]) -> Outcome:
    """Read the output of a check of these sources."""
    outcome = Outcome({}, {}, {}, [], said)
    for line in said.splitlines():
        if found := OPEN_GOAL.match(line):
            function = at_line(texts, found)
            if function is not None:
                note_search(outcome.at_functions.setdefault(function, Refusal.none()), found["what"])
        elif found := BROKEN_ANSWER.match(line):
            folder = PurePath(found["path"]).parts[:-1]
            note_answer(outcome.in_folders.setdefault(folder, Refusal.none()), found["what"])
        elif found := UNREADABLE.match(line):
            outcome.unreadable.append((at_line(texts, found), line))
        elif found := JUDGED.match(line):
            outcome.judged[found["function"]] = found["what"]
    return outcome


def at_line(texts: Mapping[str, str], found: re.Match[str]) -> Function | None:
    """Return the function at a line that a message names."""
    text = texts.get(found["path"])
    return function_at(found["path"], text.split("\n"), int(found["line"]) - 1) if text is not None else None


def note_search(refusal: Refusal, what: str) -> None:
    """Record a goal that a search has left open."""
    (refusal.failed if FALSE.search(what) else refusal.searched).append(goal_in(what))


def note_answer(refusal: Refusal, what: str) -> None:
    """Record an answer that does not fit, by its message."""
    if not FOLLOWS.search(what):
        (refusal.missing if SHAPE.search(what) else refusal.failed).append(goal_in(what))


def goal_in(what: str) -> str:
    """Return the goal that a message names: in parentheses after its meaning, else first."""
    named: list[str] = re.findall(r"\(`([^`]+)`\)", what) or GOAL.findall(what) or [what]
    return named[0]
