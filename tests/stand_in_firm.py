#!/usr/bin/env python3
"""A stand-in for firm in checks of the load on firmd: it answers each line at once, with numbers as firm's.

A round takes the seconds of ROUND_SECONDS, and as in firm no later reply comes before its own. A line of a tenant whose
round is running goes into the file MISPLACED, if given: firm would wait for it.
"""

from __future__ import annotations

import os
import select
import sys
import time
from pathlib import Path

PIECE_BYTES = 1 << 16
SHOWN = b"ok machines 0 jobs 0 tasks 0 running 0 nodes 2 of 30 arcs 0 of 300"


class StandIn:
    def __init__(self, roster: Path) -> None:
        self.numbers = {record.split(b",")[0]: 0 for record in roster.read_bytes().splitlines()[1:]}
        self.seconds = float(os.environ.get("ROUND_SECONDS", "0"))
        self.misplaced = os.environ.get("MISPLACED", "")
        self.input = b""
        self.is_over = False

    def read(self) -> None:
        more = os.read(0, PIECE_BYTES)
        self.input += more
        self.is_over = not more

    def serve(self) -> None:
        while not self.is_over:
            self.read()
            *lines, self.input = self.input.split(b"\n")
            replies: list[bytes] = []
            for place, line in enumerate(lines):
                if line.endswith(b" round"):
                    write(replies)
                    replies.clear()
                    self.rest(line, lines[place + 1 :])
                replies.append(self.answer(line))
            write(replies)

    def answer(self, line: bytes) -> bytes:
        tenant, _, command = line.partition(b" ")
        if tenant == b"+":
            verb, _, row = command.partition(b" ")
            name = row.split(b",")[0]
            if verb == b"admit":
                self.numbers[name] = 0
                return b"+ ok admitted " + name
            self.numbers.pop(name, None)
            return b"+ ok retired " + name
        if tenant not in self.numbers:
            return b"! unknown-tenant"
        self.numbers[tenant] += 1
        done = {b"show": SHOWN, b"round": b"ok round cost 0"}.get(command.strip(), b"no 2 bad-command")
        return b"%b %d %b" % (tenant, self.numbers[tenant], done)

    def rest(self, line: bytes, behind: list[bytes]) -> None:
        """Take the time of a round, and record lines that came meanwhile and would have to wait for it."""
        if self.seconds:
            time.sleep(self.seconds)
        if self.misplaced:
            while select.select([0], [], [], 0)[0] and not self.is_over:
                before = self.input
                self.read()
                behind += (before + self.input[len(before) :]).split(b"\n")
            tenant = line.split(b" ")[0]
            found = [other for other in behind if tenant in other.split(b" ")[:3]]
            with open(self.misplaced, "ab") as file:
                file.writelines(line + b", then " + other + b"\n" for other in found)


def write(replies: list[bytes]) -> None:
    text = b"".join(reply + b"\n" for reply in replies)
    while text:
        text = text[os.write(1, text) :]


if __name__ == "__main__":
    StandIn(Path(sys.argv[sys.argv.index("--roster") + 1])).serve()
