"""The control of the trials: edits with known results, so that no wrong edit counts as refused."""

from __future__ import annotations

from typing import NamedTuple

from harness.edits import Edit, Pair
from harness.trials import STILL_PROVED, SHAPE_ALONE, Verdict

CRATE = "firm_arena"
SOURCE = "src/lib.rt"


class Control(NamedTuple):
    """An edit, whether it must be refused, and the expected verdict if not."""

    edit: Edit
    is_refused: bool
    word: str = ""

    def is_kept(self, verdict: Verdict) -> bool:
        return verdict.is_refused == self.is_refused and self.word in verdict.reason


def control(name: str, old: str, new: str, is_refused: bool, word: str = "") -> Control:
    return Control(Edit(CRATE, f"control, {name}", (Pair(SOURCE, old, new),)), is_refused, word)


# `take` calls `get`: tried beside the broken one, it can't be proved either. The second edits of `get` and `take` are
# tried on copies of these.
CONTROLS = [
    control("broken", "if *stamp == id.stamp => Some(value),", "if *stamp <= id.stamp => Some(value),", True),
    control("broken, on a copy", "if id.place >= self.used {", "if id.place > self.used {", True),
    control("broken beside a copy", "self.first_free = Some(id.place);", "self.first_free = None;", True),
    control("only a caller, on a copy", "self.len -= 1;", "self.len = self.len - 1;", False, STILL_PROVED),
    control("another name", "if place >= self.used {", "let used = self.used; if place >= used {", False, SHAPE_ALONE),
]


def faults(verdicts: list[Verdict]) -> list[str]:
    """The differences from the expected results."""
    by_edit = {verdict.edit: verdict for verdict in verdicts}
    return [f"FAILED   {by_edit[each.edit]}" for each in CONTROLS if not each.is_kept(by_edit[each.edit])]
