"""Reads times, sizes and arrays as users write them."""

from __future__ import annotations

import re
import time
from collections.abc import Sequence

SECONDS = {"": 1, "s": 1, "m": 60, "h": 3_600, "d": 86_400}
UNITS = {"": 0, "K": 1, "M": 2, "G": 3, "T": 4}
_CLOCK = re.compile(r"(?:(\d+)-)?(\d+)(?::(\d{1,2}))?(?::(\d{1,2}))?")
_PARTS = re.compile(r"(?:\d+(?:\.\d+)?[smhd])+")
_PART = re.compile(r"(\d+(?:\.\d+)?)([smhd])")
_SIZE = re.compile(r"(\d+(?:\.\d+)?)([KMGT]?)(?:i?B)?", re.IGNORECASE)
_RANGE = re.compile(r"(\d+)(?:-(\d+)(?::(\d+))?)?")
DEFAULT_WEIGHT, MAX_WEIGHT = 10, 1_000_000  # of a job
MAX_INDEXES = 1_000_000  # of an array as a list
MAX_DIGITS = 7  # of an index
_TASK = re.compile(r"[1-9]\d*(?:_\d+)?")
FORMS = ("%Y-%m-%d", "%Y-%m-%dT%H:%M", "%Y-%m-%d %H:%M", "%Y-%m-%dT%H:%M:%S", "%Y-%m-%d %H:%M:%S")


def seconds_of(text: str) -> float:
    """Return seconds of 90 or 90s, 2h, 1h30m, 1.5d, or squeue's 1:30 (minutes), 2:00:00, 1-12, 1-12:00:00."""
    text = text.strip()
    if re.fullmatch(r"\d+(?:\.\d+)?", text):
        return float(text)
    if _PARTS.fullmatch(text):
        return sum(float(number) * SECONDS[unit] for number, unit in _PART.findall(text))
    clock = _CLOCK.fullmatch(text)
    if clock is None:
        raise ValueError(f"{text!r} is not a time; write 90, 90s, 30m, 2h, 1d, 1:30:00 or 1-12:00:00")
    days, *rest = clock.groups()
    parts = [int(part) for part in rest if part is not None]
    if any(part > 59 for part in parts[1:]):
        raise ValueError(f"{text!r} has more than 59 minutes or seconds")
    # behind days hours come first; without them seconds come last
    hours, minutes, seconds = (parts + [0, 0])[:3] if days is not None else ([0, 0] + parts)[-3:]
    return float(((int(days or 0) * 24 + hours) * 60 + minutes) * 60 + seconds)


def whole_of(text: str) -> int:
    if re.fullmatch(r"\d+", text.strip(), re.ASCII) is None:
        raise ValueError(f"{text!r} is not a whole number")
    return int(text)


def number_of(text: str) -> float:
    if re.fullmatch(r"\d+(?:\.\d+)?", text.strip(), re.ASCII) is None:
        raise ValueError(f"{text!r} is not a number")
    return float(text)


def bytes_of(text: str) -> int:
    """Return bytes of 2G, 512M, 1.5T or a plain number; K is 1,024."""
    size = _SIZE.fullmatch(text.strip())
    if size is None:
        raise ValueError(f"{text!r} is not a size; write 512M, 2G or bytes")
    return int(float(size[1]) * 1_024 ** UNITS[size[2].upper()])


def array_of(text: str) -> tuple[int, int] | str:
    """Return the first and last index of a plain array, or the checked text of another one."""
    indexes, at_once = indexes_of(text)
    is_plain = at_once is None and indexes[-1] - indexes[0] == len(indexes) - 1
    return (indexes[0], indexes[-1]) if is_plain else text.strip()


class TooMany(ValueError):
    """A list has more indexes than an array may have."""


def indexes_of(text: str, most: int = MAX_INDEXES) -> tuple[Sequence[int], int | None]:
    """Return the indexes of an array, and the most tasks of it at a time, written as for sbatch: 1-500; 1,3,5;
    0-20:5 in steps; 1-40%10 with at most 10 at a time. Raise `TooMany` for a list of more than `most` indexes."""
    words, percent, at_once = text.strip().partition("%")
    ranges = [range_of(word, text) for word in words.split(",")]
    if percent and not re.fullmatch(r"[1-9]\d{0,6}", at_once, re.ASCII):
        raise ValueError(f"{text!r}: a number above 0 follows %")
    if len(ranges) == 1:
        return ranges[0], int(at_once) if percent else None
    if sum(map(len, ranges)) > most:
        raise TooMany(f"{text!r} lists more than {most:,} indexes")
    return sorted({index for one in ranges for index in one}), int(at_once) if percent else None


def range_of(word: str, text: str) -> range:
    found = _RANGE.fullmatch(word)
    if found is None:
        raise ValueError(f"{text!r} is not an array; write 1-500, 1,3,5, 0-20:5 or 1-40%10")
    if any(len(number) > MAX_DIGITS for number in found.groups(default="")):
        raise ValueError(f"{text!r}: indexes end at {10**MAX_DIGITS - 1:,}")
    first, last, step = int(found[1]), int(found[2] or found[1]), int(found[3] or 1)
    if last < first or not step:
        raise ValueError(f"{text!r} {'ends before it begins' if step else 'has steps of 0'}")
    return range(first, last + 1, step)


def instant_of(text: str, now: float | None = None) -> float:
    """Return the Unix time of a day or minute (2026-11-26, 2026-11-26T09:00), 09:00 today, or a time ago (2h)."""
    from datetime import datetime, timedelta  # here, as its import takes as long as all of this module

    text, moment = text.strip(), datetime.fromtimestamp(time.time() if now is None else now)
    for form in FORMS:
        try:
            return datetime.strptime(text, form).timestamp()
        except ValueError:
            pass
    if re.fullmatch(r"\d{1,2}:\d{2}", text):
        try:
            return datetime.combine(moment.date(), datetime.strptime(text, "%H:%M").time()).timestamp()
        except ValueError:
            pass
    elif _PARTS.fullmatch(text):
        return (moment - timedelta(seconds=seconds_of(text))).timestamp()
    raise ValueError(f"{text!r} is not a moment; write 2026-11-26, 2026-11-26T09:00, 09:00 or 2h (ago)")


def names_of(text: str) -> tuple[str, ...]:
    """Return names that are separated by commas."""
    return tuple(name for name in text.split(",") if name)


def is_task(text: str) -> bool:
    """Return whether it names a task or a submission rather than a job."""
    return _TASK.fullmatch(text) is not None
