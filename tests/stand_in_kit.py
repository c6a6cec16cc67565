#!/usr/bin/env python3
"""A stand-in for the kit in the launcher's checks, under the names rt, rattle and rattle-link; it writes a record.

It makes in a moment the files of a proof. The file `asked` at the top of the repository gets a line at each start and
each end of a check that makes something, and for each `rt try`. By a crate's name, the environment can make the crate's
check fail (KIT_BROKEN), take very long (KIT_SLOW) or wait for the file `go` at the top (KIT_WAITS). It can make `rt
try` end with a status (KIT_STATUS), without an answer (KIT_NO_ANSWER), or take very long (KIT_SLOW, firm).
"""

from __future__ import annotations

import os
import shutil
import sys
import time
from pathlib import Path

TOP = Path.cwd().parent.parent
NAME = Path.cwd().name
LONG_SECONDS = 120
# It prints its words and its input, and whether it was started with broken pipes ignored, as Python does.
PROGRAM = """#!/usr/bin/env bash
echo "the program: $*"
cat
trap -p PIPE
"""


def note(word: str) -> None:
    with open(TOP / "asked", "a") as file:
        file.write(f"{word} {NAME}\n")


def is_set(behaviour: str) -> bool:
    return os.environ.get(behaviour) == NAME


def take_long() -> None:
    """Run two processes that do not end, as rattle forks copies of itself."""
    os.fork()
    time.sleep(LONG_SECONDS)


def value(flag: str) -> str:
    return sys.argv[sys.argv.index(flag) + 1]


def fault_of_words() -> str:
    """Return the fault that a check would find in its words: a missing file or library, an rlib with proofs."""
    libraries = [word.partition("=")[2] for flag, word in zip(sys.argv, sys.argv[1:]) if flag == "--extern"]
    kit = Path(sys.argv[0]).parent.parent
    given = [value("--antt-project"), value("--logic-built"), sys.argv[4], *libraries]
    missing = [file for file in [f"{kit}/rlibs/std.rlib", *given] if not Path(file).exists()]
    if missing or value("--crate-name") != NAME:
        return f"there is no {missing}"
    is_program = sys.argv[4] == "src/main.rt"
    flags = ["--toolchain", "--backend"] if is_program else ["--statements"]
    return "" if all(flag in sys.argv for flag in flags) else f"without {flags}"


def rattle() -> int:
    note("begin")
    if sys.stdin.read():
        note("robbed")
    fault = fault_of_words()
    if fault or is_set("KIT_BROKEN"):
        print(f"error: {fault or 'a goal is open'}")
        return 1
    if is_set("KIT_SLOW"):
        take_long()
    while is_set("KIT_WAITS") and not (TOP / "go").exists():
        time.sleep(0.02)
    note("made")
    made = Path(value("-o"))
    if "--statements" in sys.argv:
        made.mkdir()
        made /= "format"
    made.write_text(PROGRAM)
    note("end")
    return 0


def rattle_link() -> int:
    program, *files = sys.argv[sys.argv.index("-o") + 1 :]
    missing = [file for file in files if not Path(file).exists()]
    if missing:
        print(f"there is no {missing}")
        return 1
    shutil.copy(files[0], program)
    Path(program).chmod(0o755)
    return 0


def rt_try() -> int:
    """Write the result to standard error, as rt does, after the program's own lines there."""
    note("try")
    if is_set("KIT_SLOW"):
        time.sleep(LONG_SECONDS)
    if is_set("KIT_NO_ANSWER"):
        print("checked: no-answer", "run=none proved=no", sep="\n", file=sys.stderr)
        return 6
    words, roster = sys.argv[sys.argv.index("--") + 1 :], value("--data").partition("=")[2]
    print("the trial:", *words, Path(roster).read_text(), sys.stdin.read(), end="")
    status = os.environ.get("KIT_STATUS", "0")
    said = ["a word of the program", f"checked: ended status={status}", f"run=ended status={status} proved=no"]
    print(*said, sep="\n", file=sys.stderr)
    return int(status)


def rt() -> int:
    if sys.argv[1] == "doc":
        print(Path(os.readlink(sys.argv[0])).parent.parent / "START-HERE.md")
        return 0
    return rt_try()


def main() -> int:
    return {"rt": rt, "rattle": rattle, "rattle-link": rattle_link}[Path(sys.argv[0]).name]()


if __name__ == "__main__":
    sys.exit(main())
