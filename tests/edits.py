"""Try the edits of the crates: each breaks a meaning, so the prover must refuse the function that it changes.

usage: tests/edits [--all | NAME..] [--more] [--record] [--libraries FOLDER] [--commit HASH]
The edits are those of crates/NAME/must-fail and crates/NAME/edits, with --more also those of more-edits/. Several edits
of a crate are tried in one check, over the libraries below it, and each must be refused for an open goal of the
function that it changes. The first checks read only the bodies of the changed functions, and judge these by the
contracts of the others. An edit that they don't refuse is tried with all bodies, and alone if a check of several can't
tell.

With names it tries those crates, with --all all of them. With neither it tries each crate whose sum is not the one in
tests/edits.tried, and a quarter of the others, picked by the commit. The sum covers all inputs of the prover's verdicts
on a crate's edits: the kit, the crate's files, its edits, and the statements of the libraries below it. --record writes
down the sums of the crates whose edits were all refused.

It begins with edits of known results, such as one that changes nothing, and one that only its proof's names refuse:
none of these may count as refused. The libraries below are built if they have changed, as for ./firm; rlibs in another
folder of each crate's out/ are used as they are. Each edit prints a line; the last line is 'N passed, M failed', and
the exit status is 1 if one failed.
"""

from __future__ import annotations

import argparse
import hashlib
import os
import tempfile
from concurrent.futures import ThreadPoolExecutor
from functools import partial
from pathlib import Path
from typing import Callable, Iterable, NamedTuple

from harness.checks import CannotRun, run_script
from harness import control
from harness.edits import BadEdit, read_edit
from harness.files import commit_here
from harness.program import ROOT
from harness.proving import Crate, NoKit, build_libraries, crates_of_repository, free_bytes, kit_identity, made
from harness.trials import Trial

TRIED = ROOT / "tests" / "edits.tried"
HEADING = "# Each crate's sum when all of its edits were refused; written by tests/edits --record.\n"
GATE_FOLDERS = ("must-fail", "edits")
MORE_FOLDER = "more-edits"
# An rlib's statements to the crates above, whatever its bodies and its proofs.
STATEMENTS = ("interface", "lang/src", "lang/antt/specs")
ONE_IN = 4  # of the crates that have not changed
CHECK_BYTES = 4_000_000_000  # measured maximum of a check's memory


class Plan(NamedTuple):
    """The crates whose edits are tried, the folders of edits, and the path of each crate's library."""

    crates: list[Crate]
    folders: tuple[str, ...]
    library: Callable[[Crate], Path]


class Tried(NamedTuple):
    """The numbers of a crate's refused edits, and of the others."""

    crate: Crate
    passed: int
    failed: int


def library_in(folder: str, crate: Crate) -> Path:
    """Return the library's place in a folder of the crate's out/."""
    return crate.folder / "out" / folder / f"{crate.name}.rlib"


def edit_files(crate: Crate, folders: Iterable[str]) -> list[Path]:
    return [file for folder in folders for file in sorted((crate.folder / folder).glob("*.edit"))]


def sum_of_edits(crate: Crate, library: Callable[[Crate], Path]) -> str:
    """Return a sum over all inputs of the prover's verdicts on the crate's edits."""
    total = hashlib.sha256(kit_identity().encode())
    files = [(file, crate.folder) for file in [*crate.sources(), *edit_files(crate, GATE_FOLDERS)]]
    for below in crate.below:
        stated = (file for part in STATEMENTS for file in sorted((library(below) / part).rglob("*")))
        files += [(file, library(below).parent) for file in stated if file.is_file()]
    for file, folder in files:
        for text in (str(file.relative_to(folder)).encode(), file.read_bytes()):
            total.update(hashlib.sha256(text).digest())
    return total.hexdigest()


def recorded() -> dict[str, str]:
    """Return the sum of each crate when all of its edits were last refused."""
    lines = TRIED.read_text().splitlines() if TRIED.exists() else []
    return dict(line.split() for line in lines if not line.startswith("#"))


def record(sums: dict[str, str]) -> None:
    lines = [f"{name} {value}\n" for name, value in sorted({**recorded(), **sums}.items())]
    TRIED.write_text(HEADING + "".join(lines))


def is_picked(crate: Crate, commit: str) -> bool:
    """Return whether the commit picks the crate, among those that have not changed; without a commit all are."""
    return not commit or hashlib.sha256(f"{commit} {crate.name}".encode()).digest()[0] % ONE_IN == 0


def due(plan: Plan, commit: str) -> list[Crate]:
    """Return the crates whose edits are to be tried; print for each the reason for or against."""
    known, found = recorded(), []
    for crate in plan.crates:
        has_changed = known.get(crate.name) != sum_of_edits(crate, plan.library)
        if not has_changed and not is_picked(crate, commit):
            print(f"left     {crate.name}: all its edits were refused as it stands", flush=True)
            continue
        why = "it or what it stands on has changed since they were tried" if has_changed else "the commit picks it"
        print(f"to try   {crate.name}: {why}", flush=True)
        found.append(crate)
    return found


def try_edits(crate: Crate, plan: Plan) -> Tried:
    """Try the edits of a crate and print the result of each."""
    edits, faults = [], []
    for file in edit_files(crate, plan.folders):
        try:
            edits.append(read_edit(file))
        except BadEdit as bad:
            faults.append(f"FAILED   {crate.name}/{file.stem}: BAD EDIT: {bad}")
    with tempfile.TemporaryDirectory(prefix="firm-kept-") as kept:
        trial = Trial(crate, plan.library, Path(kept))
        verdicts = trial.run(edits)
    checks = f"{trial.checks} check{'s' if trial.checks > 1 else ''}"
    lines = [f"== {crate.name}: {len(edits)} edits in {checks}", *faults, *map(str, verdicts)]
    print("\n".join(lines), flush=True)
    passed = sum(verdict.is_refused for verdict in verdicts)
    return Tried(crate, passed, len(edits) - passed + len(faults))


def try_control(plan: Plan) -> Tried:
    """Try the edits of the control, and print those with an unexpected result."""
    crate = crates_of_repository()[control.CRATE]
    with tempfile.TemporaryDirectory(prefix="firm-kept-") as kept:
        faults = control.faults(Trial(crate, plan.library, Path(kept)).run(each.edit for each in control.CONTROLS))
    for fault in faults:
        print(fault, flush=True)
    passed = len(control.CONTROLS) - len(faults)
    print(f"== the control: {passed} of {len(control.CONTROLS)} edits came out as they must", flush=True)
    return Tried(crate, passed, len(faults))


def try_all(crates: list[Crate], plan: Plan) -> list[Tried]:
    """Try the edits of these crates, as many side by side as there are processors and memory, the largest first."""
    lanes = max(1, min(len(os.sched_getaffinity(0)), free_bytes() // CHECK_BYTES))
    largest_first = sorted(crates, key=lambda crate: -sum(file.stat().st_size for file in crate.sources()))
    with ThreadPoolExecutor(lanes) as pool:
        asked = pool.submit(try_control, plan)
        return [*pool.map(partial(try_edits, plan=plan), largest_first), asked.result()]


def read_words() -> argparse.Namespace:
    parser = argparse.ArgumentParser(description=(__doc__ or "").splitlines()[0])
    parser.add_argument("names", nargs="*", metavar="NAME", help="crate whose edits to try")
    parser.add_argument("--all", action="store_true", help="try the edits of all crates")
    parser.add_argument("--more", action="store_true", help="also try those of more-edits/")
    parser.add_argument("--record", action="store_true", help="write down which crates' edits were all refused")
    parser.add_argument("--libraries", metavar="FOLDER", help="folder of each crate's out/ with its library")
    parser.add_argument(
        "--commit", default=commit_here(), metavar="HASH", help="commit that picks a quarter of the crates"
    )
    return parser.parse_args()


def plan_of(options: argparse.Namespace) -> Plan:
    """Return the plan that the words describe, over libraries that it builds."""
    folders = (*GATE_FOLDERS, *([MORE_FOLDER] if options.more else []))
    all_crates = crates_of_repository()
    for name in options.names:
        if name not in all_crates or not edit_files(all_crates[name], folders):
            raise CannotRun(f"there are no edits in crates/{name}")
    crates = [
        crate
        for crate in all_crates.values()
        if edit_files(crate, folders) and (not options.names or crate.name in options.names)
    ]
    folder: str | None = options.libraries
    if folder is None:
        if build_libraries(crates):
            raise CannotRun("the libraries below are not built")
        return Plan(crates, folders, made)
    return Plan(crates, folders, partial(library_in, folder))


def main() -> int:
    options = read_words()
    try:
        plan = plan_of(options)
    except NoKit as reason:
        raise CannotRun(str(reason)) from None
    crates = plan.crates if options.all or options.names else due(plan, options.commit)
    tried = try_all(crates, plan)
    if options.record:
        *of_crates, _control = tried
        record({one.crate.name: sum_of_edits(one.crate, plan.library) for one in of_crates if not one.failed})
    passed, failed = sum(one.passed for one in tried), sum(one.failed for one in tried)
    print(f"{passed} passed, {failed} failed")
    return 1 if failed else 0


if __name__ == "__main__":
    run_script(main)
