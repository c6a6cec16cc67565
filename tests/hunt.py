"""Hunt for books for which the proposal of a round gives up, and compare each round with one found by searches alone.

usage: tools/run tests/hunt.py [--measure FILE] [--minutes M] [--seed S] [--sizes 6x4,..]
It breeds books of near ties, full machines and many preferences (harness/bred.py). Of books with a like tenant and
length, it selects those whose rounds' proposals took most looks for each row, and changes and crosses them. A book for
which a proposal gave up is made smaller as long as one does, and stored under out/tests. The time is shared equally by
the sizes, each the most tasks and machines of a new book, and by layers and crowds, as large as a tenant may be. The
last table has the number of rounds, and the most looks of a proposal as a part of the allowed ones. Of large books one
in a hundred is compared. The exit status is 1 if a round differs, a proposal gave up, or one took more than three
quarters of the allowed looks.
"""

from __future__ import annotations

import argparse
import random
import sys
import time
from collections.abc import Callable, Iterator, Sequence
from dataclasses import dataclass, field
from functools import partial
from typing import NamedTuple

from harness import program
from harness.bred import Book, Seed, Size, bred, new_book, random_crowd, random_layers
from harness.checks import require, run_script
from harness.kinds import read_size
from harness.service import FULL_HEADING

SIZES = "6x4,24x8,120x40,1000x350"
MAX_LOOKS = 1 << 26  # for a proposal, by firm_tenant
MAX_TENANTS = 64
LINES_AT_A_TIME = 4_000  # of all books that are played in one run
MAX_LINES = 30_000  # of a book
LARGE = 500  # tasks; searches alone take a hundred times as long there as proposals
COMPARED_OF_LARGE = 0.01
KEPT = 12  # in each group
MAX_TOLD = 20  # abandoned rounds, of a kind
LIMIT_SECONDS = 600

Group = tuple[bool, bool, bool, int]


@dataclass(frozen=True)
class Options:
    measure: str
    minutes: float
    seed: int
    sizes: str


class Round(NamedTuple):
    """A round's work: searches, if its proposal gave up, and looks of its proposal."""

    searches: int
    proposed: int


class Played(NamedTuple):
    """A book's rounds, and whether some reply differs from that of searches alone; None without that comparison."""

    seed: Seed
    book: Book
    rounds: list[Round]
    differs: bool | None

    def gave_up(self) -> bool:
        return any(each.searches for each in self.rounds)

    def most_looks(self) -> int:
        return max((each.proposed for each in self.rounds), default=0)

    def score(self) -> float:
        """Return the most looks of a round for each line of the book that adds a row; small books count less."""
        rows = sum(line[0] in ("machine", "task") for line in self.book.lines)
        return self.most_looks() / (rows + 10)

    def is_different(self) -> bool:
        return self.differs is True

    def group(self) -> Group:
        """Return the group of books for comparisons."""
        spread, churn, remote, _ = self.book.numbers
        return spread > 0, churn > 0, remote > 0, len(self.book.lines).bit_length()


def answers(words: list[str], roster: str, text: str) -> list[str]:
    """Return the output of a run of the program that measures."""
    done = program.run(words, roster, text.encode(), seconds=LIMIT_SECONDS)
    require(done.status == 0, f"{words}: status {done.status}, {done.faults.decode()}")
    return done.output.decode().splitlines()


def play(measure: str, seeds: Sequence[Seed], is_compared: bool = True) -> list[Played]:
    """Play some books, each for its tenant, by proposals and, to compare them, by searches alone."""
    books = [seed.book() for seed in seeds]
    names = [f"t{number}" for number in range(len(books))]
    records = [b",".join(FULL_HEADING).decode(), *(book.record(name) for name, book in zip(names, books))]
    text = "".join(book.text(name) for name, book in zip(names, books))
    with program.Roster("".join(f"{record}\n" for record in records).encode()) as roster:
        replies = answers([*program.measuring(measure), "--counts"], roster, text)
        others = answers([*program.measuring(measure), "--search"], roster, text) if is_compared else []
    require(len(others) == (text.count("\n") if is_compared else 0), f"{len(others)} replies by searches")
    rounds: dict[str, list[Round]] = {name: [] for name in names}
    for line in replies[text.count("\n") :]:
        name, searches, _, proposed = line.split()
        rounds[name].append(Round(int(searches), int(proposed)))
    played, begin = [], 0
    for name, seed, book in zip(names, seeds, books):
        end = begin + len(book.lines)
        differs = replies[begin:end] != others[begin:end] if is_compared else None
        played.append(Played(seed, book, rounds[name], differs))
        begin = end
    return played


def smaller_books(book: Book, length: int) -> Iterator[Book]:
    """Yield the book without each run of lines of this length."""
    for begin in range(0, len(book.lines), length):
        lines = book.lines[:begin] + book.lines[begin + length :]
        if lines:
            yield Book(book.numbers, lines)


def made_smaller(measure: str, book: Book, is_wanted: Callable[[Played], bool]) -> Book:
    """Return the book without every line that it can lose and still be wanted."""
    length = (len(book.lines) + 1) // 2
    while length:
        found = None
        books = list(smaller_books(book, length))
        for begin in range(0, len(books), MAX_TENANTS):
            played = play(measure, books[begin : begin + MAX_TENANTS])
            found = next((each.book for each in played if is_wanted(each)), None)
            if found is not None:
                break
        if found is None:
            length //= 2
        else:
            book, length = found, min(length, (len(found.lines) + 1) // 2)
    return book


def keep(name: str, book: Book) -> str:
    """Store a book under out/tests, where it can be played by hand; return the path."""
    roster = b",".join(FULL_HEADING) + b"\n" + book.record("t").encode() + b"\n"
    return str(program.keep(f"hunt-{name}", roster, book.text("t").encode()))


@dataclass
class Hunt:
    """The hunt among the books of one kind."""

    name: str
    measure: str
    draw: random.Random
    make: Callable[[random.Random], Seed]
    most_lines: int
    compares: float  # the part of its runs in which rounds are compared
    seconds: float = 0.0
    books: int = 0
    rounds: int = 0
    shown: int = 0
    gave_up: int = 0
    compared: int = 0
    different: int = 0
    best: dict[Group, list[Played]] = field(default_factory=dict)
    hardest: Played | None = None  # of the most looks for each row
    longest: Played | None = None  # of the most looks

    def step(self) -> None:
        """Play some books, and keep those that are harder than others."""
        began = time.monotonic()
        seeds = [self.next_seed()]
        lines = len(seeds[0].book().lines)
        while len(seeds) < MAX_TENANTS and lines < LINES_AT_A_TIME:
            seeds.append(self.next_seed())
            lines += len(seeds[-1].book().lines)
        for played in play(self.measure, seeds, self.draw.random() < self.compares):
            self.count(played)
            self.rank(played)
        self.seconds += time.monotonic() - began

    def next_seed(self) -> Seed:
        """Return a new seed, or one that is bred from the kept ones."""
        if not self.best or self.draw.random() < 0.2:
            return self.make(self.draw)
        one, other = self.kept_seed(), self.kept_seed()
        found = bred(self.draw, one, other)
        return found if len(found.book().lines) <= self.most_lines else one

    def kept_seed(self) -> Seed:
        return self.draw.choice(self.best[self.draw.choice(list(self.best))]).seed

    def count(self, played: Played) -> None:
        self.books += 1
        self.rounds += len(played.rounds)
        self.shown += sum(each.proposed > 0 and not each.searches for each in played.rounds)
        gave_up = sum(each.searches > 0 for each in played.rounds)
        self.gave_up += gave_up
        self.compared += 0 if played.differs is None else len(played.rounds)
        self.different += played.is_different()
        if gave_up and self.gave_up < MAX_TOLD:
            self.tell("GAVE UP", played.book)
            self.tell("GAVE UP", made_smaller(self.measure, played.book, Played.gave_up))
        if played.is_different():
            self.tell("DIFFERENT", made_smaller(self.measure, played.book, Played.is_different))

    def tell(self, what: str, book: Book) -> None:
        where = keep(f"{self.name}-{self.gave_up}-{self.different}", book)
        print(f"{what}: {where}, {len(book.lines)} lines", flush=True)

    def rank(self, played: Played) -> None:
        group = self.best.setdefault(played.group(), [])
        group.append(played)
        group.sort(key=Played.score, reverse=True)
        del group[KEPT:]
        if self.hardest is None or played.score() > self.hardest.score():
            self.hardest = played
            keep(f"{self.name}-hardest", played.book)
        if self.longest is None or played.most_looks() > self.longest.most_looks():
            self.longest = played
            keep(f"{self.name}-longest", played.book)

    def most_looks(self) -> int:
        return self.longest.most_looks() if self.longest else 0

    def row(self) -> str:
        """Return the hunt as a row of the table."""
        looks = self.most_looks()
        score = self.hardest.score() if self.hardest else 0
        numbers = [self.books, self.rounds, self.shown, self.gave_up, self.compared, self.different, looks]
        cells = [self.name, *(f"{number:,}" for number in numbers), f"{looks / MAX_LOOKS:.3%}", f"{score:.1f}"]
        return f"| {' | '.join(cells)} |"


def read_options() -> Options:
    parser = argparse.ArgumentParser(description=(__doc__ or "").splitlines()[0])
    named = "the built firm_explain, which measures rounds (default: %(default)s)"
    default = str(program.EXPLAIN)
    parser.add_argument("--measure", type=program.program_file, default=default, metavar="FILE", help=named)
    parser.add_argument("--minutes", type=float, default=10)
    parser.add_argument("--seed", type=int, default=1)
    parser.add_argument("--sizes", default=SIZES)
    return Options(**vars(parser.parse_args()))


def hunts_of(options: Options) -> list[Hunt]:
    """Return a hunt for each size, one for layers, and one for crowds."""
    found = []
    for size in map(read_size, options.sizes.split(",")):
        draw, name = random.Random(f"{options.seed} {size}"), f"{size[0]}x{size[1]}-{options.seed}"
        compares = 1.0 if size[0] < LARGE else COMPARED_OF_LARGE
        found.append(Hunt(name, options.measure, draw, partial(new_book, size=Size(*size)), 40 + 6 * size[0], compares))
    large: dict[str, Callable[[random.Random], Seed]] = {"layers": random_layers, "crowds": random_crowd}
    for kind, make in large.items():
        draw = random.Random(f"{options.seed} {kind}")
        found.append(Hunt(f"{kind}-{options.seed}", options.measure, draw, make, MAX_LINES, COMPARED_OF_LARGE))
    return found


def main() -> int:
    options = read_options()
    hunts = hunts_of(options)
    ends = time.monotonic() + options.minutes * 60
    told = time.monotonic()
    while time.monotonic() < ends:
        min(hunts, key=lambda hunt: hunt.seconds).step()
        if time.monotonic() > told + 60:
            told = time.monotonic()
            found = ", ".join(f"{hunt.name} {hunt.rounds} ({hunt.gave_up}, {hunt.different})" for hunt in hunts)
            print(f"rounds (given up, different): {found}", file=sys.stderr, flush=True)
    heads = ("books", "rounds", "shown", "gave up", "compared", "different", "most looks", "of those allowed", "a row")
    print(f"| kind | {' | '.join(heads)} |")
    print("| --- |" + " ---: |" * len(heads))
    for hunt in hunts:
        print(hunt.row())
    wrong = sum(hunt.gave_up + hunt.different for hunt in hunts)
    near = sum(hunt.most_looks() > MAX_LOOKS // 4 * 3 for hunt in hunts)
    print(f"{sum(hunt.rounds for hunt in hunts):,} rounds, {wrong} wrong; in {near} kinds one nearly gave up")
    return 1 if wrong or near or not all(hunt.rounds for hunt in hunts) else 0


if __name__ == "__main__":
    run_script(main)
