"""Answers one question by running firm's programs: why, what if, or a state before a round.

usage: python -m firm.explain.process PARENT
It reads a question as an object of JSON (`questions.py`), and prints the answer as another, or {"error": NAME,
"text": ..}. It runs at a low priority, with bounds on its time and memory, and ends with the process that started it.
"""

from __future__ import annotations

import json
import subprocess
import sys
from dataclasses import asdict
from pathlib import Path

from ..common.books import Book
from ..common.child import OVER_TIME, end_with
from ..common.faults import Fault
from ..common.programs import NotBuilt
from ..common.refused import Refused
from ..common.tables import Row
from ..server.firm_state import FirmStateError
from .book_states import book_of
from .trials import restrict_process


def state(asked: Row) -> Row:
    """Return a tenant's state: the one in the question, or the one before a past round."""
    if asked.get("round") is None:
        return {"tenant": asked["tenant"], "line": asked["line"], "time": None, "text": asked["text"]}
    from .history import before_now

    return before_now(Path(asked["folder"]), asked["tenant"], asked["round"])


def why(asked: Row) -> Row:
    """Return the reasons for a task's place in a round now or in a past one."""
    from .why import reasons
    from .why_text import sentences

    found, name, past = state(asked), asked["task"], asked.get("round")
    book = book_of(found["text"])
    if name not in book.tasks:
        when = "has just ended" if past is None else f"did not exist in round {past}"
        raise Refused("no-such-task", f"the task {name!r} {when}")
    known = facts(book, name, found, asked)
    try:
        reasoned = reasons(found["text"], book, name)
    except (NotBuilt, Refused) as error:
        return {**refusal_of(error), "facts": known}
    text = [*sentences(reasoned, known, past), *(reasoned.lines if asked.get("reasons") else [])]
    outcome = asdict(reasoned)
    return {**known, "round": outcome, "reasons": outcome.pop("lines"), "text": text}


def facts(book: Book, name: str, found: Row, asked: Row) -> Row:
    """Return the facts of a task, without reasons."""
    task, past = book.tasks[name], asked.get("round")
    return {
        "tenant": book.limits.tenant,
        "task": name,
        "job": task.job,
        "weight": book.jobs[task.job],
        "state": "waiting" if task.machine is None else "running",
        "machine": task.machine,
        "waited": book.waited(task),
        "seconds": asked.get("seconds"),
        "prefers": list(task.prefers),
        "line": found["line"],
        "past": past and {"number": past, "time": found["time"]},
    }


def what_if(asked: Row) -> Row:
    """Return the effects of lines and of a round after them."""
    from .what_if import Faulty, outcome_of

    try:
        outcome = outcome_of(asked["text"], [line.encode() for line in asked["lines"]])
    except Faulty as faulty:
        faults = [asdict(fault) for fault in faulty.faults]
        return {"error": "bad-lines", "text": f"nothing is tried, {faulty}", "faults": faults}
    return {"tenant": asked["tenant"], "line": asked["line"], **asdict(outcome)}


def refusal_of(error: Exception) -> Row:
    return {"error": error.name if isinstance(error, Refused) else "not-built", "text": str(error)}


def answer(asked: Row) -> Row:
    try:
        return {"state": state, "why": why, "what-if": what_if}[asked["ask"]](asked)
    except (NotBuilt, Refused) as error:
        return refusal_of(error)
    except (FirmStateError, subprocess.CalledProcessError) as error:
        is_stopped = isinstance(error, FirmStateError) and error.status in OVER_TIME
        return {"error": "too-long" if is_stopped else "not-built", "text": str(error)}
    except (Fault, OSError) as error:
        return {"error": "journal", "text": str(error)}
    except MemoryError:
        return {"error": "memory", "text": "the question exceeds its memory limit"}


def main() -> int:
    end_with(int(sys.argv[1]))
    restrict_process()
    json.dump(answer(json.load(sys.stdin)), sys.stdout)
    return 0


if __name__ == "__main__":
    sys.exit(main())
