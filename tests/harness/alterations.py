"""Random alterations of a line or a word in firm_explain's outputs, made without regard to meaning."""

from __future__ import annotations

import random
import re
from typing import Callable

from harness.service import FIRST_OPERATOR_REFUSAL, OPERATOR_REFUSALS, REFUSALS

Output = list[str]  # the lines
Alter = Callable[[random.Random, Output, Output], str | None]  # from the lines of an output and of another one, a text

MEMORY = "no 14 memory"


def text_of(lines: Output) -> str:
    return "".join(f"{line}\n" for line in lines)


def is_round(line: str) -> bool:
    return line.split(" ")[2:4] == ["ok", "round"] and not line.startswith("#")


def spots(pattern: str, lines: Output) -> list[tuple[int, re.Match[str]]]:
    """Return all places in the lines that match."""
    return [(at, found) for at, line in enumerate(lines) for found in re.finditer(pattern, line)]


def put(lines: Output, at: int, found: re.Match[str], new: str) -> str:
    """Return the text with another word in a place."""
    line = lines[at]
    return text_of([*lines[:at], line[: found.start()] + new + line[found.end() :], *lines[at + 1 :]])


def other_number(draw: random.Random, lines: Output, _: Output) -> str | None:
    numbers = spots(r"(?<![\w-])\d+(?![\w-])", lines)
    if not numbers:
        return None
    at, found = draw.choice(numbers)
    number = int(found[0])
    others = [str(number + 1), str(max(0, number - 1)), f"0{number}", str(10 * number + 7), "", f"+{number}", "x"]
    return put(lines, at, found, draw.choice(others[:2] * 3 + others))


def other_name(draw: random.Random, lines: Output, _: Output) -> str | None:
    found = spots(r"(?<=[ ])[a-z][a-z0-9-]*(?=[ ,:;']|$)", lines)
    if not found:
        return None
    at, word = draw.choice(found)
    return put(lines, at, word, draw.choice(found)[1][0])


PHRASES = [
    ("as much", "at least 1 more"),
    (", ranks after", ""),
    ("as much", "as much, ranks after"),
    ("at least ", ""),
    (" waits", " preempted from m"),
    ("; ", ", "),
    (" < ", " "),
    (" ", "  "),
    (" ", "\t"),
    ("to wait", "to stay"),
    ("low rents", "high rents"),
    ("ok", "OK"),
    (": ", ":"),
    ("# ", "#"),
    ("start ", "move "),
    (" waiting", ""),
    (" < ", " < .. < "),
    (" more", " more: "),
    (" more", " more; m ranks before n"),
    ("", " "),
    ("each", "each, but m 1"),
]


def other_phrase(draw: random.Random, lines: Output, _: Output) -> str | None:
    old, new = draw.choice(PHRASES)
    found = spots(re.escape(old), lines)
    return put(lines, *draw.choice(found), new) if found else None


def removed_line(draw: random.Random, lines: Output, _: Output) -> str | None:
    at = draw.randrange(len(lines))
    return text_of(lines[:at] + lines[at + 1 :])


def repeated_line(draw: random.Random, lines: Output, _: Output) -> str | None:
    at = draw.randrange(len(lines))
    return text_of(lines[: at + 1] + lines[at:])


def swapped_lines(draw: random.Random, lines: Output, _: Output) -> str | None:
    at = draw.randrange(len(lines))
    return text_of([*lines[:at], *reversed(lines[at : at + 2]), *lines[at + 2 :]])


def moved_line(draw: random.Random, lines: Output, _: Output) -> str | None:
    at = draw.randrange(len(lines))
    left = lines[:at] + lines[at + 1 :]
    to = draw.randrange(len(lines))
    return text_of([*left[:to], lines[at], *left[to:]])


def kind_of(line: str) -> str:
    """Return the form of a line, without its numbers."""
    return re.sub(r"\d+", "", " ".join(line.split(" ")[: 3 if line.startswith("#") else 4]))


def taken_line(draw: random.Random, lines: Output, others: Output) -> str | None:
    """Put a line in the place of another one of its kind, from the same output or another one."""
    at = draw.randrange(len(lines))
    alike = [line for line in lines + others if line != lines[at] and line[:1] == lines[at][:1]]
    near = [line for line in alike if kind_of(line) == kind_of(lines[at])]
    found = near or alike
    return text_of([*lines[:at], draw.choice(found), *lines[at + 1 :]]) if found else None


def blocks(lines: Output) -> list[tuple[int, int]]:
    """Return the first line of each round's comments, and the line after them."""
    starts = [at + 1 for at, line in enumerate(lines) if is_round(line)]
    ends = [next((at for at in range(start, len(lines)) if lines[at][:1] != "#"), len(lines)) for start in starts]
    return list(zip(starts, ends))


def taken_block(draw: random.Random, lines: Output, others: Output) -> str | None:
    """Put in the comments of another round, with its reply or without."""
    if not blocks(lines) or not blocks(others):
        return None
    (start, end), source = draw.choice(blocks(lines)), draw.choice([lines, others])
    first, last = draw.choice(blocks(source))
    with_reply = draw.choice([0, 1])
    return text_of(lines[: start - with_reply] + source[first - with_reply : last] + lines[end:])


def other_changes(draw: random.Random, lines: Output, _: Output) -> str | None:
    """Put the changes of a round in another order, one twice, split in two, or add an empty one."""
    found = [at for at, line in enumerate(lines) if is_round(line)]
    if not found:
        return None
    at = draw.choice(found)
    start, changes = lines[at].split(" ")[:6], re.findall(r"(?:start|preempt) \S+ \S+|move \S+ \S+ \S+", lines[at])
    machine, task = "m", "t"
    if changes:
        one = draw.choice(changes)
        _, task, *_, machine = one.split(" ")
        changes = draw.choice([changes[::-1], [*changes, one], [*changes[1:]], changes])
    more = [
        f"move {task} {machine} {machine}",
        f"preempt {task} {machine} start {task} {machine}",
        f"start {task} {machine}",
    ]
    place = draw.randrange(len(changes) + 1)
    changes = changes[:place] + draw.choice([[], [draw.choice(more)]]) + changes[place:]
    return text_of([*lines[:at], " ".join(start + changes), *lines[at + 1 :]])


def other_reply(draw: random.Random, lines: Output, _: Output) -> str | None:
    """Replace a reply, with nothing else changed but its comments."""
    found = [at for at, line in enumerate(lines) if not line.startswith("#")]
    at = draw.choice(found[-1:] * 3 + found)
    start = " ".join(lines[at].split(" ")[:2])
    code = draw.randrange(len(REFUSALS))
    operator = draw.randrange(len(OPERATOR_REFUSALS))
    replies = [
        f"{start} ok",
        f"{start} no {code + 1} {REFUSALS[code]}",
        f"{start} no {code + 1} {REFUSALS[code]}",
        f"{start} {MEMORY}",
        "! unknown-tenant",
        "! line-too-long",
        f"+ no {operator + FIRST_OPERATOR_REFUSAL} {OPERATOR_REFUSALS[operator]}",
        f"{start} ok round cost 0",
    ]
    end = next((end for end in range(at + 1, len(lines)) if lines[end][:1] != "#"), len(lines))
    return text_of([*lines[:at], draw.choice(replies), *lines[draw.choice([at + 1, end]) :]])


def other_end(draw: random.Random, lines: Output, others: Output) -> str | None:
    text = text_of(lines)
    return draw.choice([text[:-1], text + "\n", text_of(lines[: draw.randrange(len(lines))]), text + text_of(others)])


ALTER: dict[str, Alter] = {
    "other number": other_number,
    "other name": other_name,
    "other phrase": other_phrase,
    "removed line": removed_line,
    "repeated line": repeated_line,
    "swapped lines": swapped_lines,
    "moved line": moved_line,
    "taken line": taken_line,
    "taken comments": taken_block,
    "other changes": other_changes,
    "other reply": other_reply,
    "other end": other_end,
}
