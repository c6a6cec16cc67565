"""Models of threads that share words, and a search through all their interleavings, one atomic step at a time.

A thread is a generator of steps: an act on the words, which is atomic, or a step of the kinds below. The search sends
it the result of each. All steps are sequentially consistent, as the code's are. The kernel compares the word and puts
the thread to sleep in one step; a wake of one takes any sleeper.
"""

from __future__ import annotations

from itertools import chain
from typing import Any, Callable, Generator, Iterable, Iterator, NamedTuple, Union

Words = dict[str, int]
Act = Callable[[Words], object]  # an atomic step on the words, and its result for the thread


class Sleep(NamedTuple):
    """Sleep if the word has the value, until a wake; then, or at once, the thread learns whether it slept."""

    word: str
    value: int
    compares: bool = True
    awaits: str = ""  # the subject of its wait, if that differs among the sleepers on the word


class Wake(NamedTuple):
    """Wake one that sleeps on the word, or all."""

    word: str
    takes_all: bool = False


class Join(NamedTuple):
    """Wait until no thread is in such a turn."""

    turn: Turn


class Again(NamedTuple):
    """Step back, to look again for a partial result: another thread is in the middle of its steps."""

    act: Act


Step = Union[Act, Sleep, Wake, Join, Again]
Steps = Generator[Step, Any, Any]
Turn = Callable[..., Steps]


def load(word: str) -> Act:
    return lambda words: words[word]


def store(word: str, value: int) -> Act:
    return lambda words: words.update({word: value})


def add(word: str, number: int) -> Act:
    return lambda words: words.update({word: words[word] + number})


def fetch_add(word: str, number: int) -> Act:
    """Add; return the number before."""

    def act(words: Words) -> int:
        words[word] += number
        return words[word] - number

    return act


def swap(word: str, value: int) -> Act:
    """Store the value; return the one before."""

    def act(words: Words) -> int:
        before = words[word]
        words[word] = value
        return before

    return act


def exchange(word: str, old: int, new: int) -> Act:
    """Store the new value if the word has the old one; return whether it had."""

    def act(words: Words) -> bool:
        is_there = words[word] == old
        words[word] = new if is_there else words[word]
        return is_there

    return act


def push(word: str, room: int) -> Act:
    """Add one to a queue, if there is room; return whether there was."""

    def act(words: Words) -> bool:
        has_room = words[word] < room
        words[word] += has_room
        return has_room

    return act


def pop(word: str) -> Act:
    """Take one from a queue, if any; return whether there was one."""

    def act(words: Words) -> bool:
        is_there = words[word] > 0
        words[word] -= is_there
        return is_there

    return act


class Thread(NamedTuple):
    """A thread's position: a turn, which is a generator of steps, and the results so far in it."""

    turn: Turn
    arguments: tuple[Any, ...]
    learnt: tuple[object, ...] = ()
    is_asleep: bool = False

    def replay(self) -> tuple[Steps, Step]:
        """Return the turn, at its next step."""
        steps = self.turn(*self.arguments)
        step = next(steps)
        for lesson in self.learnt:
            step = steps.send(lesson)
        return steps, step

    def behind(self, lesson: object) -> Thread | None:
        """Return the thread after that step: in the same turn, in the next one, or gone."""
        steps, _ = self.replay()
        try:
            steps.send(lesson)
        except StopIteration as end:
            following: Thread | None = end.value
            return following
        return Thread(self.turn, self.arguments, (*self.learnt, lesson))


def place_of(steps: Steps) -> object:
    """Return the position of a turn, and of each turn that it takes steps from, by the variables: a result that a
    thread does not store makes no difference. So a turn stores all that it needs in variables."""
    places: list[object] = []
    inner: Steps | None = steps
    while inner is not None:
        frame = inner.gi_frame
        places.append((frame.f_code, frame.f_lasti, tuple(frame.f_locals.items())))
        inner = inner.gi_yieldfrom
    return tuple(places)


def begin(turn: Turn, *arguments: object) -> Thread:
    return Thread(turn, arguments)


def has_changed(words: Words, sleep: Sleep) -> object:
    return words[sleep.word] != sleep.value


class Model(NamedTuple):
    """The words and threads at the start; whether a sleeper's condition holds; and whether something is left once no
    thread can step, by the words and the number of threads then."""

    words: Words
    threads: list[Thread]
    is_there: Callable[[Words, Sleep], object]
    is_left: Callable[[Words, int], object] = lambda *_: False


Numbers = tuple[int, ...]
State = Numbers  # the number of the words' values, and those of the threads, in order
GONE = -1


class Search:
    """All states that a model reaches. Threads in the same position share one number: which is which does not
    matter."""

    def __init__(self, model: Model, until_lost: bool = False) -> None:
        self.model, self.names = model, list(model.words)
        self.values: list[Numbers] = []
        self.numbers_of_values: dict[Numbers, int] = {}
        self.threads: list[tuple[Thread, Step]] = []
        self.numbers: dict[object, int] = {}
        self.moves: dict[tuple[int, int], tuple[int, int]] = {}
        self.lessons: dict[tuple[int, object], int] = {}
        self.sleepers: dict[int, int] = {}
        self.backward: set[int] = set()  # that step back
        self.following: list[list[int]] = []  # of each state those after a step
        self.again: dict[int, list[int]] = {}  # and those after a step back
        self.lost = 0
        self.reach((self.number_of(model.words), *self.in_order(map(self.number, model.threads))), until_lost)

    def reach(self, first: State, until_lost: bool) -> None:
        numbers, states = {first: 0}, [first]
        for number, state in enumerate(states):
            following: list[int] = []
            again: list[int] = []
            for other, is_again in self.steps(state[0], state[1:]):
                found = numbers.get(other)
                if found is None:
                    found = numbers[other] = len(states)
                    states.append(other)
                (again if is_again else following).append(found)
            self.following.append(following)
            if again:
                self.again[number] = again
            elif not following and self.is_lost(state[0], state[1:]):
                self.lost += 1
                if until_lost:
                    return

    def number_of(self, words: Words) -> int:
        """Return the number of the words' values."""
        values = tuple(words.values())
        if values not in self.numbers_of_values:
            self.numbers_of_values[values] = len(self.values)
            self.values.append(values)
        return self.numbers_of_values[values]

    def named(self, values: int) -> Words:
        return dict(zip(self.names, self.values[values]))

    def number(self, thread: Thread | None) -> int:
        if thread is None:
            return GONE
        steps, step = thread.replay()
        place = place_of(steps), thread.is_asleep
        if place not in self.numbers:
            self.numbers[place] = len(self.threads)
            self.threads.append((thread, step))
        return self.numbers[place]

    @staticmethod
    def in_order(numbers: Iterable[int]) -> list[int]:
        """Return the numbers of the threads that are not gone, in order."""
        ordered = sorted(numbers)
        return ordered[ordered.count(GONE) :]

    def steps(self, words: int, numbers: Numbers) -> Iterator[tuple[State, bool]]:
        """Yield the states after one step of one thread, and whether it is a step back."""
        before = GONE
        for place, number in enumerate(numbers):
            if number == before:
                continue
            before = number
            move = self.moves.get((number, words))
            if move is not None:
                others = numbers[:place] + numbers[place + 1 :]
                yield (move[1], *self.in_order((*others, move[0]))), number in self.backward
                continue
            thread, step = self.threads[number]
            others = numbers[:place] + numbers[place + 1 :]
            if isinstance(step, Wake):
                for left in self.woken(step, others):
                    yield (words, *self.in_order((*left, self.behind(number, None)))), False
            elif isinstance(step, Join):
                if all(self.threads[other][0].turn is not step.turn for other in others):
                    yield (words, *self.in_order((*others, self.behind(number, None)))), False
            elif not thread.is_asleep:
                move = self.moves[number, words] = self.move(number, step, words)
                if isinstance(step, Again):
                    self.backward.add(number)
                yield (move[1], *self.in_order((*others, move[0]))), number in self.backward

    def behind(self, number: int, lesson: object) -> int:
        """Return the thread after its step, with this result."""
        key = number, lesson
        if key not in self.lessons:
            self.lessons[key] = self.number(self.threads[number][0].behind(lesson))
        return self.lessons[key]

    def asleep(self, number: int) -> int:
        """Return the thread once it sleeps."""
        if number not in self.sleepers:
            self.sleepers[number] = self.number(self.threads[number][0]._replace(is_asleep=True))
        return self.sleepers[number]

    def move(self, number: int, step: Act | Sleep | Again, words: int) -> tuple[int, int]:
        """Return a thread and the words after a step that leaves the others alone."""
        named = self.named(words)
        if isinstance(step, Sleep):
            if step.compares and named[step.word] != step.value:
                return self.behind(number, False), words
            return self.asleep(number), words
        lesson = step.act(named) if isinstance(step, Again) else step(named)
        return self.behind(number, lesson), self.number_of(named)

    def woken(self, wake: Wake, numbers: Numbers) -> list[list[int]]:
        """Return the other threads after a wake, for each choice of the one that wakes."""
        sleeps = {number: self.sleep_of(number) for number in numbers}
        asleep = [number for number, sleep in sleeps.items() if sleep is not None and sleep.word == wake.word]
        behind = {number: self.behind(number, True) for number in asleep}
        if wake.takes_all:
            return [[behind.get(number, number) for number in numbers]]
        choices = []
        for chosen in behind:
            place = numbers.index(chosen)
            choices.append([*numbers[:place], behind[chosen], *numbers[place + 1 :]])
        return choices or [list(numbers)]

    def sleep_of(self, number: int) -> Sleep | None:
        """Return the object that a thread sleeps on, if it does."""
        thread, step = self.threads[number]
        return step if thread.is_asleep and isinstance(step, Sleep) else None

    def is_lost(self, words: int, numbers: Numbers) -> bool:
        """Return whether a thread sleeps although its condition holds, or something is left."""
        named = self.named(words)
        if self.model.is_left(named, len(numbers)):
            return True
        sleeps = (sleep for sleep in map(self.sleep_of, numbers) if sleep is not None)
        return any(self.model.is_there(named, sleep) for sleep in sleeps)

    def ends(self) -> bool:
        """Return whether each run ends in which a thread that steps back lets the others go on: no state leads back
        to itself without a step back, and each leads to an end."""
        entering = [0] * len(self.following)
        for state in chain.from_iterable(self.following):
            entering[state] += 1
        left = [state for state, count in enumerate(entering) if not count]
        ended = 0
        while left:
            ended += 1
            for state in self.following[left.pop()]:
                entering[state] -= 1
                if not entering[state]:
                    left.append(state)
        return ended == len(self.following) and (not self.again or self.each_leads_to_an_end())

    def each_leads_to_an_end(self) -> bool:
        leading: list[list[int]] = [[] for _ in self.following]
        for state, others in chain(enumerate(self.following), self.again.items()):
            for other in others:
                leading[other].append(state)
        left = [state for state, others in enumerate(self.following) if not others and state not in self.again]
        reached = set(left)
        while left:
            found = [state for state in leading[left.pop()] if state not in reached]
            reached.update(found)
            left += found
        return len(reached) == len(self.following)
