"""Try the edits of a crate, several in one check, until each is refused for its own goal or is tried alone.

The first checks read only the bodies of the functions that the edits change, and try several edits of a function on
copies of it. An edit that these checks don't refuse is tried with all bodies, and then alone.
"""

from __future__ import annotations

import re
import shutil
import subprocess
import tempfile
from pathlib import Path
from typing import Callable, Iterable, Iterator, NamedTuple

from harness.bare import MAIN, strip
from harness.copies import Copy, copy_of, copy_proof, has_closures, plain, with_copies
from harness.edits import PARTS, BadEdit, Edit, Function, Texts, applied, changed_functions
from harness.proving import Crate, prover_words
from harness.refusals import Outcome, read_outcome

TYPE = re.compile(r"^(?:pub(?:\([a-z]+\))? )?(?:struct|enum|union|trait|type) (\w+)", re.M)
GOALS_SHOWN = 3
STILL_PROVED = "NOT REFUSED"
SHAPE_ALONE = "refused for the shape of its proof alone"


class Verdict(NamedTuple):
    """The outcome of an edit: whether it is refused for its meaning, and the line about it."""

    edit: Edit
    is_refused: bool
    reason: str

    def __str__(self) -> str:
        return f"{'refused' if self.is_refused else 'FAILED '}  {self.edit}: {self.reason}"


class Planned(NamedTuple):
    """An edit, and the functions that it changes: none if it changes definitions."""

    edit: Edit
    functions: frozenset[Function]


class Batch(NamedTuple):
    """The edits of one check, the crate's files with all of them, and the copies of functions in these."""

    planned: list[Planned]
    texts: Texts
    copies: list[Copy]
    unedited: list[Copy]

    def edits(self) -> set[Edit]:
        return {planned.edit for planned in self.planned}


class Trial:
    """The tries of a crate's edits: their libraries, and the folder for their proofs."""

    def __init__(self, crate: Crate, libraries: Callable[[Crate], Path], kept: Path) -> None:
        self.crate, self.libraries, self.kept = crate, libraries, kept
        self.checks = 0
        self.uncopied: set[Function] = set()  # an unedited copy of these has an open goal
        self.sources = {
            str(file.relative_to(crate.folder)): file.read_text() for file in crate.sources() if file.suffix == ".rt"
        }
        self.types: dict[str, set[tuple[str, ...]]] = {}
        for path, text in self.sources.items():
            for name in TYPE.findall(text):
                self.types.setdefault(name, set()).add(tuple(Function(path, "", "").module))

    def modules_of(self, function: Function) -> set[tuple[str, ...]]:
        """Return the modules by which the prover may name a function: its type's, else its own."""
        return self.types.get(function.kind, set()) | {tuple(function.module)}

    def run(self, edits: Iterable[Edit]) -> list[Verdict]:
        """Try all edits."""
        verdicts, left = [], []
        for edit in edits:
            try:
                applied(edit, self.crate.folder, {})
                left.append(Planned(edit, frozenset(changed_functions(edit, self.crate.folder))))
            except BadEdit as bad:
                verdicts.append(Verdict(edit, False, f"BAD EDIT: {bad}"))
        bare = [planned for planned in left if planned.functions and MAIN not in planned.functions]
        ended = [*self.rounds(bare, is_bare=True)]
        ended += self.rounds([one for one in self.without(bare, ended) if one.functions & self.uncopied], is_bare=True)
        ended += self.rounds(self.without(left, ended), is_bare=False)
        for planned in self.without(left, ended):
            ended += self.judge(self.batch_of([planned]), is_bare=False)
        return sorted([*verdicts, *ended])

    def rounds(self, left: list[Planned], is_bare: bool) -> Iterator[Verdict]:
        """Try each edit once, beside others; yield the verdicts that these checks decide."""
        while left:
            batch = self.batch_of(left, is_bare)
            yield from self.judge(batch, is_bare)
            left = [planned for planned in left if planned.edit not in batch.edits()]

    @staticmethod
    def without(left: list[Planned], verdicts: list[Verdict]) -> list[Planned]:
        """Return the edits without a verdict."""
        done = {verdict.edit for verdict in verdicts}
        return [planned for planned in left if planned.edit not in done]

    def batch_of(self, left: list[Planned], is_copied: bool = False) -> Batch:
        """Return the first edits that change different functions and leave one another's texts as they are; on
        request with further edits of these functions on copies."""
        chosen: list[Planned] = []
        copies: list[Copy] = []
        texts: Texts = {}
        taken: set[Function] = set()
        for planned in left:
            if chosen and (not planned.functions or not chosen[0].functions):
                continue
            if planned.functions & taken:
                copy = self.copy_of(planned, len(copies) + 1) if is_copied else None
                if copy is not None:
                    copies.append(copy)
                    chosen.append(Planned(planned.edit, frozenset({copy.function})))
                continue
            try:
                texts = applied(planned.edit, self.crate.folder, texts)
            except BadEdit:
                continue
            chosen.append(planned)
            taken |= planned.functions
        unedited = [self.unedited(function) for function in dict.fromkeys(copy.of for copy in copies)]
        return Batch(chosen, with_copies(texts, [*copies, *unedited], self.crate.folder), copies, unedited)

    def copy_of(self, planned: Planned, number: int) -> Copy | None:
        """Return a copy of the function that an edit changes, with that edit; None if it can't be tried on a copy."""
        if len(planned.functions) != 1 or planned.functions & self.uncopied:
            return None
        (function,) = planned.functions
        if any(has_closures(self.crate.folder, module, function) for module in self.modules_of(function)):
            return None
        return copy_of(function, number, self.crate.folder, planned.edit)

    def unedited(self, function: Function) -> Copy:
        """Return a copy of a function as it stands."""
        copy = copy_of(function, 0, self.crate.folder)
        assert copy is not None, function
        return copy

    def check(self, batch: Batch, is_bare: bool) -> Outcome:
        """Check the functions that the batch changes, or the whole crate if the prover can't name one."""
        functions = {function for planned in batch.planned for function in planned.functions}
        functions |= {copy.function for copy in batch.unedited}
        names = sorted({name for function in functions for name in self.names_of(function)})
        said, texts = self.ask(batch, names, functions if is_bare else None)
        if names and said.returncode == 2 and "has no function" in said.stdout:
            said, texts = self.ask(batch, [], functions if is_bare else None)
        return read_outcome(said.stdout, texts)

    def names_of(self, function: Function) -> list[str]:
        """Return the names that the prover may have for a function."""
        own = [name for name in (function.owner, function.name) if name]
        return ["::".join([*module, *own]) for module in self.modules_by_name(function)]

    def modules_by_name(self, function: Function) -> set[tuple[str, ...]]:
        """Return the modules of its type, if the crate declares that, else its own."""
        return self.types.get(function.kind) or {tuple(function.module)}

    def ask(
        self, batch: Batch, only: list[str], changed: set[Function] | None
    ) -> tuple[subprocess.CompletedProcess[str], Texts]:
        """Run the prover on a copy of the crate with the batch's texts; with `changed`, only these functions have
        bodies. Return its output, and the sources that it read."""
        self.checks += 1
        with tempfile.TemporaryDirectory(prefix="firm-edits-") as name:
            room = Path(name)
            for part in PARTS:
                if (self.crate.folder / part).is_dir():
                    shutil.copytree(self.crate.folder / part, room / part)
            for path, text in batch.texts.items():
                (room / path).write_text(text)
            for copy in [*batch.copies, *batch.unedited]:
                for module in self.modules_of(copy.of):
                    copy_proof(room, module, copy)
            words = [*prover_words("check", self.crate, self.libraries), "--jobs", "1", "--incremental", str(self.kept)]
            if changed is not None:
                strip(room, self.crate.name, changed, self.modules_by_name)
                words.append("--allow-holes")
            for function in only:
                words += ["--only", function]
            said = subprocess.run(
                words,
                cwd=room,
                stdin=subprocess.DEVNULL,
                stdout=subprocess.PIPE,
                stderr=subprocess.STDOUT,
                text=True,
                errors="replace",
            )
            return said, {str(file.relative_to(room)): file.read_text() for file in room.rglob("*.rt")}

    def judge(self, batch: Batch, is_bare: bool) -> list[Verdict]:
        """Return the verdicts on the edits of the batch that a check decides."""
        outcome = self.check(batch, is_bare)
        self.uncopied |= {copy.of for copy in batch.unedited if not self.is_whole(copy.function, outcome)}
        untold = {copy.function for copy in batch.copies if copy.of in self.uncopied}
        found = []
        for planned in batch.planned:
            if planned.functions & untold:
                continue
            verdict = self.verdict(planned, outcome, len(batch.planned) == 1 and not is_bare)
            # Without the other bodies, the copy itself may be unreadable.
            if verdict is not None and (verdict.is_refused or not is_bare):
                found.append(verdict)
        return found

    def is_whole(self, function: Function, outcome: Outcome) -> bool:
        """Return whether a check judged a function, and found no fault except a call to a refused function."""
        refusal = outcome.against(function, self.modules_of(function))
        return not any(refusal) and any(name in outcome.judged for name in self.names_of(function))

    def verdict(self, planned: Planned, outcome: Outcome, is_alone: bool) -> Verdict | None:
        """Return the verdict on an edit; None if it must be tried with fewer others."""
        edit, functions = planned
        refusals = {function: outcome.against(function, self.modules_of(function)) for function in functions}
        goals = [f"{plain(str(at))}: {goal}" for at, refusal in sorted(refusals.items()) for goal in refusal.goals]
        unreadable = [line for at, line in outcome.unreadable if at in functions or is_alone]
        if unreadable:
            return Verdict(edit, False, f"BAD EDIT: the prover can't read it: {unreadable[0]}")
        if goals:
            more = f" and {len(goals) - GOALS_SHOWN} more" if len(goals) > GOALS_SHOWN else ""
            return Verdict(edit, True, ", ".join(goals[:GOALS_SHOWN]) + more)
        if not is_alone:
            return None
        missing = [name for refusal in refusals.values() for name in refusal.missing]
        return Verdict(edit, *self.lone_reason(planned, outcome, missing))

    def lone_reason(self, planned: Planned, outcome: Outcome, missing: list[str]) -> tuple[bool, str]:
        """Return whether an edit that was tried alone is refused without an open goal of its own function, and the
        reason."""
        last = outcome.said.rstrip().rpartition("\n")[2]
        if not planned.functions and last.startswith("logic=not-proved"):
            return True, "the crate is not proved with this definition"
        if missing:
            return False, f"BAD EDIT: {SHAPE_ALONE}, at {missing[0]}: change a value and keep the names"
        if last.startswith("logic=proved") or re.match(r"only=(\d+) proved=\1$", last):
            return False, f"{STILL_PROVED}: it is still proved"
        return False, f"BAD EDIT: no goal of its own is open; the prover ended in: {last[:200]}"
