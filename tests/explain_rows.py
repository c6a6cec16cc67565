"""Check firm_explain --rows from outside: each round stands on its rows alone, for tests/certificates and for firm.

usage: tools/run tests/explain_rows.py [--quick] [--program FILE] [--explain FILE] [WORD..]
`tests/certificates --rows` accepts a round that is cut out of an output, and a firm that opens with the round's rows
gives the same answer. A changed number in a round's rows, reply or reasons is refused if it bears on the round. So are
rows removed, doubled, moved or of another round, rows or states that firm can't have, and reasons without rows. In a
whole output the checker refuses any row that the commands do not give. Options or files that the checker can't use give
status 2. With words it runs only the checks whose names have one of them. Each check prints a line; the exit status is
1 if one failed.
"""

from __future__ import annotations

import argparse
import io
import re
import tempfile
from contextlib import redirect_stderr
from functools import partial
from typing import Iterator

from explain import (
    Options,
    Stream,
    explained,
    has_roster,
    judge,
    judge_alone,
    require_refused,
    run_timed,
    said_of,
    small_stream,
    worked_stream,
)
from harness import program
from harness.checks import Check, Suite, require, run_script, run_suites
from harness.service import EXTENDED_STATE_HEADING, STATE_HEADING

NUMBER = re.compile(rb"(?<![\w-])\d+(?![\w-])")


def rows_stream() -> Stream:
    """Return a stream in which tasks run, wait, have waited for the longest wait that counts, and prefer machines."""
    roster = b"tenant,nodes,arcs,life,spread,churn,remote,patience\nalpha,60,400,1000000,3,5,2,2\n"
    rows = (
        "machine m1 2; machine m2 1; machine m3 1; job web 12; job batch 4; job late 1; task web w1 m2; task batch b1"
    )
    more = "task batch b2 m3 m1; round; task late l1; round; round; task web w2; task web w3 m1; round; drain m3; round"
    return Stream(roster, "".join(f"alpha {line}\n" for line in f"{rows}; {more}".split("; ")).encode())


def rounds_of(output: bytes) -> list[bytes]:
    """Return each round of an output, with its comment lines."""
    return re.findall(rb"^[a-z0-9-]+ \d+ ok round .*\n(?:#.*\n)*", output, re.MULTILINE)


def state_of(found: bytes) -> bytes:
    """Return the state with the rows of a round."""
    _, *comments = found.splitlines()
    rows = [line[2:] for line in comments[: next(at for at, line in enumerate(comments) if b"# rows " in line)]]
    heading = EXTENDED_STATE_HEADING if b" patience " in rows[0] else STATE_HEADING
    return heading + b"".join(row + b"\n" for row in [b"place admissions 1", *rows, b"rows %d" % (len(rows) + 1)])


def answered_alone(options: Options, found: bytes) -> bytes:
    """Return firm's reply to the round if it opens with the rows."""
    with tempfile.NamedTemporaryFile(prefix="firm-") as file:
        file.write(state_of(found))
        file.flush()
        return program.run_words([options.firm, "--state", file.name], found.split()[0] + b" round\n").output


def rows_in(found: bytes) -> list[bytes]:
    """Return the lines of a round's rows."""
    lines = found.splitlines(keepends=True)[1:]
    return lines[: 1 + next(at for at, line in enumerate(lines) if line.startswith(b"# rows "))]


def numbers_changed(text: bytes) -> Iterator[tuple[str, bytes]]:
    """Yield each text with one of its numbers changed, and the change."""
    for number in NUMBER.finditer(text):
        value = int(number.group())
        for other in {value + 1, max(0, value - 1)} - {value}:
            start = text[: number.start()]
            what = f"{start.rpartition(b'#')[2].decode()}{value} as {other}"
            yield what, start + b"%d" % other + text[number.end() :]


def rows_changed(rows: list[bytes]) -> Iterator[tuple[str, list[bytes]]]:
    """Yield the rows with a line removed or doubled, or two lines in the other order."""
    for at, row in enumerate(rows):
        yield f"without {row!r}", rows[:at] + rows[at + 1 :]
        yield f"twice {row!r}", rows[: at + 1] + rows[at:]
        if rows[at + 1 :]:
            yield f"later {row!r}", [*rows[:at], rows[at + 1], row, *rows[at + 2 :]]


def require_refused_alone(text: bytes, what: object, *words: str) -> None:
    said = judge_alone(text, *words)
    require(said.startswith("NOT SHOWN"), f"{what}: {said}")


def stand_alone(options: Options, output: bytes, *words: str) -> None:
    """Each round of an output, cut out, is accepted by its rows, and firm answers it from them."""
    for found in rounds_of(output):
        said = judge_alone(found, *words)
        require(said == "shown first: 1 of 1 rounds", said)
        answer = answered_alone(options, found)
        require(answer == found.splitlines(keepends=True)[0], f"{answer!r} from the rows of {found!r}")


def rounds_stand_alone(options: Options) -> None:
    """Rounds whose rows have each possible word stand alone."""
    for stream in (rows_stream(), worked_stream()):
        output = explained(options, stream, "--rows", "--all")
        stand_alone(options, output, "--all")


def random_rounds_stand_alone(options: Options, count: int) -> None:
    """Rounds of random streams, of several tenants that come and go, stand alone."""
    rounds = 0
    for seed in range(1, count + 1):
        stream = small_stream(seed)
        if has_roster(stream):
            output = explained(options, stream, "--rows")
            rounds += len(rounds_of(output))
            stand_alone(options, output)
    require(rounds > count, rounds)


def changes_are_refused(options: Options) -> None:
    """No round passes alone with a row removed, nor with a number changed unless firm answers the changed rows alike.

    Many numbers of rows bear on no round, as those of the arena.
    """
    refused = 0
    for stream in (rows_stream(), worked_stream()):
        for found in rounds_of(explained(options, stream, "--rows", "--all")):
            rows, start = rows_in(found), found.index(b"#")
            end = start + sum(map(len, rows))
            for what, other in numbers_changed(found[:start]):
                require_refused_alone(other + found[start:], what, "--all")
            for what, other in numbers_changed(found[end:]):
                require_refused_alone(found[:end] + other, what, "--all")
            for what, other in numbers_changed(b"".join(rows)):
                if judge_alone(found[:start] + other + found[end:], "--all").startswith("NOT SHOWN"):
                    refused += 1
                else:
                    require(answered_alone(options, found[:start] + other) == found[:start], what)
            for what, others in rows_changed(rows):
                if not what.startswith("later"):
                    require_refused_alone(found[:start] + b"".join(others) + found[end:], what, "--all")
    print(f"{refused} changed numbers of rows refused", flush=True)
    require(refused > 100, refused)


def other_rows_are_refused(options: Options) -> None:
    """No round passes alone with the rows of another, without rows or with nothing but these."""
    output = explained(options, rows_stream(), "--rows")
    rounds = rounds_of(output)
    for found in rounds:
        rows, start = b"".join(rows_in(found)), found.index(b"#")
        reply, reasons = found[:start], found[start + len(rows) :]
        require_refused_alone(reply + reasons, "no rows")
        require_refused_alone(reply + rows, "no reasons")
        require_refused_alone(reply, "neither")
        for another in rounds:
            if another != found:
                require_refused_alone(reply + b"".join(rows_in(another)) + reasons, "rows of another round")


def whole_outputs_have_their_rows(options: Options) -> None:
    """Beside the commands, each row must be the one that they give."""
    stream = rows_stream()
    output = explained(options, stream, "--rows")
    for found in rounds_of(output):
        rows = rows_in(found)
        text = b"".join(rows)
        others = [(what, b"".join(changed)) for what, changed in rows_changed(rows)]
        for what, other in [*others, *numbers_changed(text), ("no rows", b"")]:
            changed = output.replace(found, found.replace(text, other, 1), 1)
            require_refused(stream, changed, what, "--rows")
    require_refused(stream, output, "rows that are not asked for")


# Texts in rows, each with one that no state has in its place, though the round fits it.
FORGED_ROWS: list[tuple[tuple[bytes, bytes], ...]] = [
    ((b"# costs 0 ", b"# costs -7 "),),
    ((b"# costs 0 ", b"# costs 0 0 "),),
    ((b"job j 9\n", b"job j 14\n"), (b"a waits 0", b"a waits -5")),
    ((b"prefers m1", b"prefers m1 m1"),),
]


def rows_of_no_state(options: Options) -> None:
    """Rows that no state has are refused, of a round alone and as the state that opens the service."""
    roster = b"tenant,nodes,arcs,life,spread,churn\nalpha,60,400,1000,3,5\n"
    rows = ["round"] * 9 + ["machine m1 1", "job j 9", "job k 12", "task j a m1", "task k b", "round"]
    stream = Stream(roster, "".join(f"alpha {row}\n" for row in rows).encode())
    for forged in ((), *FORGED_ROWS):
        found = rounds_of(explained(options, stream, "--rows"))[-1]
        for old, new in forged:
            require(old in found, (old, found))
            found = found.replace(old, new)
        opened = Stream(state_of(found), b"alpha round\n")
        for said in (judge_alone(found), judge(opened, found, "--rows")):
            require(said.startswith("NOT SHOWN" if forged else "shown first: 1 of 1"), (forged, said))


MARK = b"\xef\xbb\xbf"  # a byte order mark, which a roster may have and a state may not
# Texts in a state, each with one that no state has in its place.
FORGED_STATES: list[tuple[bytes, bytes]] = [
    (b"admissions 1", b"admissions 0"),
    (b"admissions 1", b"admissions -1"),
    (b"admissions 1", b"admissions 32769"),
    (b"\nrows 4", b"\nrows 5"),
    (b"commands 1\n", b"patience 3 commands 1\n"),
    (b"machine m 1\n", b"machine m 1\r\n"),
    (b"machine m 1\n", b"machine m 01\n"),
]


def states_that_are_none(options: Options) -> None:
    """Beside an invalid state, which firm would not open, no output is accepted."""
    roster = b"tenant,nodes,arcs,life,spread,churn\nalpha,60,400,1000,3,5\n"
    found = rounds_of(explained(options, Stream(roster, b"alpha machine m 1\nalpha round\n"), "--rows"))[-1]
    state = state_of(found)
    said = judge(Stream(state, b"alpha round\n"), found, "--rows")
    require(said == "shown first: 1 of 1 rounds", said)
    for old, new in FORGED_STATES:
        require(old in state, (old, state))
        require_refused(Stream(state.replace(old, new), b"alpha round\n"), found, new, "--rows")
    with redirect_stderr(io.StringIO()):
        for opening in (MARK + state, MARK + state.replace(b"admissions 1", b"admissions 77777")):
            require(judge(Stream(opening, b"alpha round\n"), found, "--rows") == "2", opening)
    require_refused(Stream(b"firm state 1\nmachine m 1\nrows 1\n", b"alpha round\n"), found, "no tenant", "--rows")


def other_statuses(options: Options) -> None:
    """The checker ends with 2 for options that firm_explain refuses, for a missing file and for a faulty roster."""
    stream = rows_stream()
    output = explained(options, stream, "--rows")
    with redirect_stderr(io.StringIO()):
        for words in (["--machine", "0"], ["--machine", "65"], ["--machine", "-1"], ["--why", "A"], ["--tenant", ""]):
            require(judge(stream, output, "--rows", *words) == "2", words)
        require(judge(stream, output, "--row") == "2", "part of an option's name")
        require(said_of(["--rows", "/nonexistent"]) == "2", "a missing file")
        require(judge(stream._replace(roster=b"tenant\n"), output, "--rows") == "2", "a faulty roster")


def nothing_is_shown(options: Options) -> None:
    """A part of an output without a round with reasons shows nothing; firm numbers commands from 1."""
    round_alone = rounds_of(explained(options, rows_stream(), "--rows"))[-1]
    reply, *_ = round_alone.splitlines(keepends=True)
    require_refused_alone(b"", "an empty file")
    require_refused_alone(b"alpha 1 ok\n", "no round")
    require_refused_alone(reply, "a round of another tenant", "--tenant", "beta")
    require_refused_alone(b"alpha 0 ok\n" + round_alone, "a command's number is 0")
    require(judge_alone(b"alpha 1 ok\n" + round_alone) == "shown first: 1 of 1 rounds", "a reply and a round")
    require(judge(rows_stream()._replace(text=b""), b"", "--rows") == "shown first: 0 of 0 rounds", "no commands")


def one_tenant(options: Options) -> None:
    """With --tenant the rounds of one tenant alone have rows."""
    roster = b"tenant,nodes,arcs,life,spread,churn\na,9,24,100,1,2\nb,9,24,100,1,2\n"
    text = b"".join(b"%c machine m 1\n%c job j 5\n%c task j t\n%c round\n" % (name, name, name, name) for name in b"ab")
    stream = Stream(roster, text)
    output = run_timed([options.explain, "--tenant", "b", "--rows"], stream).output
    for said in (judge(stream, output, "--rows", "--tenant", "b"), judge_alone(output, "--tenant", "b")):
        require(said == "shown first: 1 of 2 rounds", said)
    require_refused_alone(output, "a round without rows")


def checks(options: Options) -> dict[str, Check]:
    """Return each check's name and function; it passes if nothing is raised."""
    return {
        "rounds by their rows": partial(rounds_stand_alone, options),
        "random rounds by their rows": partial(random_rounds_stand_alone, options, 40 if options.quick else 1000),
        "changed rounds": partial(changes_are_refused, options),
        "rows of other rounds": partial(other_rows_are_refused, options),
        "rows beside commands": partial(whole_outputs_have_their_rows, options),
        "rows of no state": partial(rows_of_no_state, options),
        "states that are none": partial(states_that_are_none, options),
        "other statuses": partial(other_statuses, options),
        "parts that show nothing": partial(nothing_is_shown, options),
        "one tenant's rows": partial(one_tenant, options),
    }


def main() -> int:
    parser = argparse.ArgumentParser(description=(__doc__ or "").splitlines()[0])
    parser.add_argument("words", nargs="*", metavar="WORD", help="run only checks whose names have one of these words")
    parser.add_argument("--quick", action="store_true", help="40 random streams in place of 1,000")
    program.add_program(parser)
    parser.add_argument("--explain", type=program.program_file, default=str(program.EXPLAIN), metavar="FILE")
    given = parser.parse_args()
    options = Options(given.quick, given.program, given.explain)
    chosen = {
        name: check for name, check in checks(options).items() if not given.words or any(w in name for w in given.words)
    }
    return run_suites(Suite(chosen))


if __name__ == "__main__":
    run_script(main)
