"""Random small streams: rosters and inputs that meet every verb, every refusal and every kind of bad line.

They have up to four tenants with six tasks each, all refusals but memory, and names, numbers and lines at the ends of
their ranges. The rosters have headings of six, seven and eight fields, and the operator's rows five to nine.
"""

from __future__ import annotations

from random import Random
from typing import Sequence

from harness.service import HEADINGS

Record = list[bytes]  # the fields of a roster's row
Held = dict[str, dict[str, str]]  # by kind: the names, each task's with its job

NAMES = ["a", "b", "c0", "-", "x-1", "abcdefghijklmnop"]
BAD_NAMES = [b"A", b"a_b", b"abcdefghijklmnopq", b"\xff", b"a\x00", b"m1\r", b"a,b", "é".encode(), b"a\x0b", b"+"]
BAD_NUMBERS = (
    b"0 65 1000001 -1 +1 1.0 0x1 00000000000001 99999999999999 18446744073709551617 1_0 two \xb2 9999999999999"
).split(b" ")
BAD_LINES = [
    b"",
    b" ",
    b"\t \t",
    b"#",
    b"# a show",
    b"#" + b"x" * 300,
    b"x" * 257,
    b"nobody show",
    b"A show",
    b"\xff",
    b" # a",
    b"! unknown-tenant",
    b"a\x00b show",
    b"\r",
    b"\x00",
    b"#" + b"x" * 9000,
    b"a show" + b" " * 5000,
    b"+",
    b"+ show",
    b"+ admit",
    b"+ retire",
    b"+ retire a b",
    b"+ admit a,2,0,1,0,0 b",
    b"++ retire a",
    b"+a show",
    b"+ Admit a,2,0,1,0,0",
    b"+" + b" " * 300,
    b'+ admit "a",2,0,1,0,0',
    b"+ admit ,,,,,,,",
    b"+ admit new,2,0,1,0,0,0,1000001",
]
BAD_VERBS = [
    b"",
    b"fly",
    b"Show",
    b"shows",
    b"round 1",
    b"machine",
    b"machine m",
    b"machine m 1 2",
    b"job j",
    b"task j",
    b"task j t u v w x y",
    b"task j t U",
    b"task J t m",
    b"where",
    b"done a b",
    b"show\r",
    b"costs \x0b",
    b"\xff",
    b"drain",
    b"close",
]


def roster_of(records: Sequence[Record], heading: Record) -> bytes:
    return b"".join(b",".join(record) + b"\n" for record in [heading, *records])


def quoted(draw: Random, record: Record) -> Record:
    """Return the record with quotes around some of its fields."""
    return [b'"%b"' % field if draw.random() < 0.5 else field for field in record]


def random_roster(draw: Random) -> tuple[bytes, list[str]]:
    """Return a roster of some tenants, and their names. The first has much room, as a rule."""
    records: list[Record] = []
    names = draw.sample(["a", "b", "t-1", "abcdefghijklmnop", "0"], draw.choice([1, 1, 1, 2, 4]))
    heading = draw.choice(HEADINGS)
    for name in names:
        roomy = draw.random() < 0.8
        nodes = draw.randint(10, 30) if roomy else draw.randint(2, 9)
        arcs = draw.randint(60, 300) if roomy else draw.randint(0, 20)
        life = draw.choice([1, 5, 20, 10**6, 2**40]) if draw.random() < 0.1 else 1000
        spread = draw.choice([0, 1, 5, 10, 20, 1000])
        churn = draw.choice([0, 0, 1, 1, 2, 3, 20, 1000000])
        remote = draw.choice([0, 1, 1, 2, 5, 10, 50, 1000000])
        patience = draw.choice([0, 1, 2, 3, 5, 20, 1000000])
        numbers = [nodes, arcs, life, spread, churn, remote, patience]
        fields = [name.encode(), *(b"%d" % number for number in numbers)]
        records.append(fields[: len(heading)])
    if draw.random() < 0.1:
        heading, *records = [quoted(draw, record) for record in [heading, *records]]
    return roster_of(records, heading), names


def nothing_held() -> Held:
    return {"machine": {}, "job": {}, "task": {}}


class Stream:
    """Makes the lines of one input; it only guesses the tenants' rows, so that many commands fit and some don't."""

    def __init__(self, draw: Random, tenants: list[str], most_tasks: int) -> None:
        self.draw, self.tenants, self.most_tasks = draw, tenants, most_tasks
        self.held = {tenant: nothing_held() for tenant in tenants}
        self.weights = draw.choice([[1, 2, 3], [5, 50], [1, 1000000], [10, 20, 21, 22], [60, 61], [100], [3000]])
        self.slots = draw.choice([[1], [1, 2], [2, 3], [1, 2, 64], [5]])
        self.operators = draw.choice([0, 0.02, 0.05, 0.15])  # the operator's part of the lines

    def name(self, held: dict[str, str], new: bool) -> str:
        """Return an existing name or a new one, usually of the requested kind."""
        if held and self.draw.random() < (0.15 if new else 0.9):
            return self.draw.choice(list(held))
        pool = NAMES + [f"n{number}" for number in range(12)]
        return self.draw.choice(pool)

    def add(self, tenant: str, kind: str) -> str:
        held = self.held[tenant]
        if kind == "task" and len(held["task"]) >= self.most_tasks or kind == "machine" and len(held["machine"]) >= 4:
            return self.remove(tenant, kind)
        if kind == "task" and not held["job"] and self.draw.random() < 0.8:
            kind = "job"
        name = self.name(held[kind], True)
        if kind == "task":
            job = self.name(held["job"], False)
            if job in held["job"]:
                held["task"].setdefault(name, job)
            return " ".join(["task", job, name] + self.preferred(held))
        number = self.draw.choice(self.slots if kind == "machine" else self.weights)
        held[kind].setdefault(name, "")
        return f"{kind} {name} {number}"

    def preferred(self, held: Held) -> list[str]:
        """Return a task's preferred machines: mostly existing ones, now and then a missing one, or one twice."""
        if self.draw.random() < 0.4:
            return []
        return [self.name(held["machine"], self.draw.random() < 0.05) for _ in range(self.draw.choice([1, 1, 2, 3, 4]))]

    def remove(self, tenant: str, kind: str) -> str:
        held = self.held[tenant]
        name = self.name(held[kind], False)
        if kind == "job" and name in held["task"].values():
            return f"close {name}"
        held[kind].pop(name, None)
        return {"machine": "drain", "job": "close", "task": "done"}[kind] + " " + name

    def opening(self) -> list[bytes]:
        """Return lines that give each tenant some machines and jobs to begin with."""
        kinds = self.draw.choice(["", "job", "machine job", "machine job machine job machine"]).split()
        return [f"{tenant} {self.add(tenant, kind)}".encode() for tenant in self.tenants for kind in kinds]

    def command(self, tenant: str) -> str:
        shape = self.draw.random()
        if shape < 0.5:
            return self.add(tenant, self.draw.choices(["machine", "job", "task"], [3, 1, 8])[0])
        if shape < 0.6:
            return self.remove(tenant, self.draw.choices(["machine", "job", "task"], [4, 1, 3])[0])
        if shape < 0.9:
            return "round"
        return self.draw.choice(["show", "costs", "where " + self.name(self.held[tenant]["task"], False)])

    def bad(self, tenant: str) -> bytes:
        draw, name = self.draw, self.name({}, True).encode()
        if draw.random() < 0.3:
            return draw.choice(BAD_LINES)
        if draw.random() < 0.4:
            return tenant.encode() + b" " + draw.choice(BAD_VERBS)
        bad, number = draw.choice(BAD_NAMES), draw.choice(BAD_NUMBERS)
        words = draw.choice(
            [
                [b"machine", bad, b"2"],
                [b"machine", name, number],
                [b"job", name, number],
                [b"job", bad, number],
                [b"task", bad, name],
                [b"task", name, bad],
                *([verb, bad] for verb in (b"drain", b"close", b"done", b"where")),
                [b"machine", bad, number],
            ]
        )
        return tenant.encode() + b" " + b" ".join(words)

    def operator(self) -> bytes:
        """Return a line of the operator: it retires a tenant, or admits a present or an absent one; now and then it
        is faulty."""
        draw, name = self.draw, self.draw.choice(self.tenants + ["new", "z"]).encode()
        if draw.random() < 0.1:
            name = draw.choice([*BAD_NAMES, b"", b'"b"'])
        if draw.random() < 0.3:
            return b"+ retire " + name
        row = [
            name,
            b"%d" % draw.randint(2, 30),
            b"%d" % draw.randint(0, 200),
            b"%d" % draw.choice([1, 5, 1000]),
            b"%d" % draw.choice([0, 1, 20]),
            b"%d" % draw.choice([0, 1, 3, 20]),
            b"%d" % draw.choice([0, 1, 5]),
            b"%d" % draw.choice([0, 2, 1000000]),
        ]
        if draw.random() < 0.15:
            row[draw.randint(1, 7)] = draw.choice([*BAD_NUMBERS, b"", b'"2"'])
        if name in (b"new", b"z") and draw.random() < 0.5 and name.decode() not in self.tenants:
            self.tenants.append(name.decode())
            self.held[name.decode()] = nothing_held()
        width = draw.choice([6, 7, 8]) if draw.random() < 0.9 else draw.choice([1, 5, 9])
        return b"+ admit " + b",".join([*row, b"0"][:width])

    def line(self) -> bytes:
        if self.draw.random() < self.operators:
            return self.operator()
        tenant = self.draw.choice(self.tenants)
        if self.draw.random() < 0.12:
            return self.bad(tenant)
        line = (tenant + " " + self.command(tenant)).encode()
        shape = self.draw.random()
        if shape < 0.9:
            return line
        if shape < 0.93:
            return b" \t" + line.replace(b" ", b" \t ") + b"\t"
        if shape < 0.96:
            return line + b"\r"
        # Exactly as long as a line may be, or a byte or two longer, with a carriage return or without.
        return line + b" " * (256 + self.draw.randint(0, 2) - len(line)) + self.draw.choice([b"", b"\r"])


def random_stream(draw: Random, most_tasks: int = 6) -> tuple[bytes, bytes]:
    """Return a roster and an input of twenty to two hundred lines."""
    roster, tenants = random_roster(draw)
    stream = Stream(draw, tenants, most_tasks)
    lines = stream.opening() + [stream.line() for _ in range(draw.choice([20, 60, 100, 200]))]
    return roster, b"\n".join(lines) + draw.choice([b"\n", b"\n", b"", b"\r", b"\n\r"])


def with_noise(draw: Random, text: bytes) -> bytes:
    """Return the text with up to eight bytes changed, put in, taken out or moved to another place."""
    found = bytearray(text)
    for _ in range(draw.randint(1, 8)):
        place, byte = draw.randrange(len(found) + 1), draw.choice(b"\n\r\t #0129a-z\x00\xff\x0b!Z")
        shape = draw.randrange(4)
        if shape < 2 and place < len(found):
            taken = found.pop(place)
            byte = taken if shape == 0 else byte
            place = draw.randrange(len(found) + 1) if shape == 0 else place
        if shape < 3:
            found.insert(place, byte)
        else:
            del found[place : place + draw.randint(1, 3)]
    return bytes(found)


def random_bad_roster(draw: Random) -> bytes:
    """Return a roster with a fault or two somewhere, or none."""
    heading = list(draw.choice(HEADINGS))
    records = [
        [b"a%d" % place, b"9", b"24", b"100", b"1", b"2", b"3", b"4"][: len(heading)]
        for place in range(draw.choice([0, 1, 2, 3, 64, 65]))
    ]
    for _ in range(draw.choice([0, 1, 1, 2])):
        row = draw.choice(records + [heading])
        shape = draw.randrange(4)
        if shape == 0:
            row[draw.randrange(len(row))] = draw.choice(BAD_NAMES[:4] + BAD_NUMBERS + [b"", b"a0", b"1", b"4097", b"2"])
        elif shape == 1 and len(row) > 1:
            row.pop()
        elif shape == 2:
            row.append(b"0")
        else:
            row[0] = b"a0"
    ends = draw.choice([b"\n", b"\r\n", b"\r", b"\n\n"])
    text = ends.join(b",".join(row) for row in [heading] + records)
    return draw.choice([text, text + ends, text + ends, b"", ends + text, text + ends + b" " * 65536])
