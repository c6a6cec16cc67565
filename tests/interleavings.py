"""Try every interleaving of the code's waits for another thread's wake-up, one atomic step at a time.

usage: tools/run tests/interleavings.py [--large]
A model has the steps of the code on the words that its threads share. A wake-up is lost if no thread can step any more
and one sleeps although its condition holds. A round is lost if it is left after the last worker of a closed hall has
ended. The code's form must lose nothing in any interleaving. Each of its runs must end, unless a thread keeps looking
for another one's step, which does not come. Each wrong form is a control, in which something must be lost. Each form
prints a line; the exit status is 1 if one fails. With `--large` the largest halls are tried instead, with four workers,
with three callers, and with all that sleep, which takes minutes and a gigabyte.

harness/interleaving.py defines a step, and searches. A spurious wake-up leads to one more look, and is left out. So are
all looks except one before each announcement.
"""

from __future__ import annotations

import argparse
from functools import partial
from typing import Any, Callable, NamedTuple

from harness.checks import Check, Suite, require, run_script, run_suites
from harness.interleaving import Act, Again, Join, Model, Numbers, Search, Sleep, Steps, Thread, Wake, Words
from harness.interleaving import add, begin, exchange, fetch_add, has_changed, load, pop, push, store, swap

# An event count: the announced waits, and the notifications.

NO_COMPARE = "no compare at the sleep"
NO_LOOK = "no look after the announcement"
EARLY_NOTIFICATION = "a notification before the change"
ONE_AT_A_TIME = "no notification while one that was woken has not looked"


def event_count(name: str = "") -> Words:
    return {name + "waiters": 0, name + "epoch": 0, name + "woken": 0}


def announce(name: str = "") -> Steps:
    """Announce a wait; return the key to wait by."""
    yield add(name + "waiters", 1)
    return (yield take_key(name))


def take_key(name: str) -> Act:
    """Return the number of notifications, counted from 0 again if nobody else has a key to compare with."""

    def act(words: Words) -> int:
        words[name + "epoch"] *= words[name + "waiters"] > 1
        return words[name + "epoch"]

    return act


def cancel(name: str = "") -> Steps:
    yield leave(name)


def leave(name: str) -> Act:
    """Remove a waiter; notifications are counted from 0 again if no key is left."""

    def act(words: Words) -> None:
        words[name + "waiters"] -= 1
        words[name + "epoch"] *= words[name + "waiters"] > 0

    return act


def waiting(form: str, key: int, then: Thread, name: str = "") -> Steps:
    """Sleep until a notification after the announcement that gave the key."""
    if form == NO_COMPARE and (yield load(name + "epoch")) == key:
        yield Sleep(name + "epoch", key, compares=False)
    elif form != NO_COMPARE and (yield Sleep(name + "epoch", key)):
        return begin(waiting, form, key, then, name)
    if form == ONE_AT_A_TIME:
        yield store(name + "woken", 0)
    yield from cancel(name)
    return then


def notify(form: str, name: str = "") -> Steps:
    if not (yield load(name + "waiters")):
        return
    if form == ONE_AT_A_TIME and not (yield exchange(name + "woken", 0, 1)):
        return
    yield add(name + "epoch", 1)
    yield Wake(name + "epoch")


def change(form: str, *acts: Act) -> Steps:
    """Make a change, and notify."""
    if form == EARLY_NOTIFICATION:
        yield from notify(form)
    for act in acts:
        yield act
    if form != EARLY_NOTIFICATION:
        yield from notify(form)


# The workers of a hall, which rest until they are woken for a round or the hall is shut; callers, which may sleep at a
# full queue; and the clerk, which sleeps until there is room for a round, or an answer. That each step keeps the rule
# of the bell's words is proved (`crates/firm_bell/specs/Bell.antt`), and that they count the queue's rounds; here is
# what no clause sees: the event counts, and the kernel, which suspends threads and wakes them.
#
# The model omits steps that change nothing: the notifications of a queue with room for all rounds and of a missing
# clerk, which find no waiter; answers and the stop word, if workers stay in their gates; and each read by which a
# worker only decides whether to look once more. A load and an exchange of its value are one step if the thread looks
# again when the exchange fails: it then changed nothing, and might as well have come later.

EVERYONE = 1 << 16
ROOM, ANSWERS = "room ", "answers "  # the event counts of the queue and of the clerk
LATE_STOP = "the stop word is read after the look"
SHUT_WAKES_ONE = "a shut that leaves one wake"
NO_RING = "callers that never ring"
ALONE = "a worker that was woken and calls nobody"
NO_CALL = "a round that wakes nobody"
ONE_KERNEL_CALL = "a wake that is left without a call of the kernel"
LATE_COUNT = "a round is counted behind its put and the call"
ROOM_UNTOLD = "a worker that takes a round from a full queue and does not tell the clerk"


class Hall(NamedTuple):
    """A hall's workers; its callers, by the rounds that each puts; and the rounds that its clerk puts. Workers stay
    in their gates for ever, unless the hall is shut at the end."""

    workers: int
    callers: Numbers = ()
    rounds: int = 0
    is_shut: bool = False
    most: int = 4  # this many rounds may wait without a wake
    room: int = 8
    form: str = ""

    @property
    def may_be_full(self) -> bool:
        return self.room < sum(self.callers) + self.rounds


def maximum(word: str, least: int) -> Act:
    """Raise the word to this; return the number before."""

    def act(words: Words) -> int:
        before = words[word]
        words[word] = max(before, least)
        return before

    return act


def use(word: str) -> Act:
    """Use up a wake, unless they are for everyone; return whether there was one."""

    def act(words: Words) -> bool:
        is_there = words[word] > 0
        words[word] -= 0 < words[word] < EVERYONE
        return is_there

    return act


def call_if_waiting(hall: Hall) -> Steps:
    """Wake a worker if a round waits and one rests."""
    if (yield load("waiting")):
        yield from call(hall, (yield load("resting")))


def call(hall: Hall, resting: int) -> Steps:
    """Leave a wake for one of the resting workers, if any, unless each has one."""
    if not resting:
        return
    wakes = min((yield load("wakes")) + 1, resting, hall.workers)
    del resting
    calls = wakes - (yield maximum("wakes", wakes))
    del wakes
    while calls > 0 and hall.form != ONE_KERNEL_CALL:
        yield Wake("wakes")
        calls -= 1


def worker(hall: Hall, owes_call: bool = False) -> Steps:
    """Look for a round. End if the hall was shut before and no round waits."""
    is_shut = hall.is_shut and hall.form != LATE_STOP and (yield from is_hall_shut())
    if (yield pop("queue")):
        return begin(worker_with_round, hall, owes_call)
    if is_shut or hall.form == LATE_STOP:
        waits = yield load("waiting")
        if not waits and (is_shut or (yield from is_hall_shut())):
            return None
    return begin(idle_worker, hall, owes_call)


def is_hall_shut() -> Steps:
    """Return whether the stop word is set, and then the bell shut."""
    return (yield load("stop")) and (yield load("wakes")) == EVERYONE


def worker_with_round(hall: Hall, owes_call: bool) -> Steps:
    """Go into its gate, for ever; or answer, if the hall is shut at the end."""
    was_full = (yield fetch_add("waiting", -1)) == hall.room
    if owes_call and hall.form != ALONE:
        yield from call_if_waiting(hall)
    if hall.may_be_full:
        yield from notify(hall.form, ROOM)
    if was_full and hall.rounds and hall.form != ROOM_UNTOLD:
        yield from notify(hall.form, ANSWERS)
    if not hall.is_shut:
        return None
    return begin(answering_worker, hall) if hall.rounds else begin(worker, hall)


def answering_worker(hall: Hall) -> Steps:
    yield add("answers", 1)
    yield from notify(hall.form, ANSWERS)
    return begin(worker, hall)


def idle_worker(hall: Hall, owes_call: bool) -> Steps:
    """Announce a rest, and sleep unless a round waits."""
    yield add("resting", 1)
    if hall.form != NO_LOOK and (yield load("waiting")):
        yield Again(add("resting", -1))
        return begin(worker, hall, owes_call)
    return begin(resting_worker, hall)


def resting_worker(hall: Hall) -> Steps:
    """Sleep until a wake, and use it."""
    if not (yield use("wakes")):
        yield Sleep("wakes", 0, compares=hall.form != NO_COMPARE)
        return begin(resting_worker, hall)
    yield add("resting", -1)
    return begin(worker, hall, True)


def caller(hall: Hall, puts: int, owes: bool = False) -> Steps:
    """Put rounds, and ring after the last, before it waits."""
    owes = (yield from put(hall)) or owes
    if puts > 1:
        return begin(caller, hall, puts - 1, owes)
    yield from ring(hall, owes)
    return None


def put(hall: Hall) -> Steps:
    """Return whether a wake is owed for the round."""
    owes = False
    many_wait = yield from count_and_put(hall)
    if hall.form != NO_CALL:
        resting, owes = yield from resting_to_call(hall, many_wait)
        yield from call(hall, resting)
    if hall.form == LATE_COUNT:
        yield add("waiting", 1)
    return owes


def count_and_put(hall: Hall) -> Steps:
    """Put a round; return whether many rounds waited before."""
    many_wait = hall.form != LATE_COUNT and hall.most <= (yield fetch_add("waiting", 1))
    if not (yield push("queue", hall.room)):
        yield from put_in_full_queue(hall)
    return many_wait


def resting_to_call(hall: Hall, many_wait: bool) -> Steps:
    """Return the number of resting workers if one is to be woken, as all rest or many rounds wait; and whether a
    wake is owed."""
    resting = yield load("resting")
    if many_wait or resting in (0, hall.workers):
        return resting, False
    yield store("owes", 1)
    return 0, True


def put_in_full_queue(hall: Hall) -> Steps:
    """Sleep until there is room, and put the round."""
    is_put = False
    while not is_put:
        key = yield from announce(ROOM)
        is_put = yield push("queue", hall.room)
        if not is_put:
            yield from sleep_by(key, ROOM)
        del key
        yield from cancel(ROOM)


def sleep_by(key: int, name: str, awaits: str = "") -> Steps:
    """Sleep until a notification after the announcement that gave the key."""
    is_woken = True
    while is_woken:
        is_woken = yield Sleep(name + "epoch", key, awaits=awaits)


def ring(hall: Hall, owes: bool) -> Steps:
    """Wake a worker if this caller left a wake that is owed, and a round waits."""
    if owes and hall.form != NO_RING and (yield swap("owes", 0)):
        yield from call_if_waiting(hall)


def shutter(hall: Hall) -> Steps:
    """Shut the hall once all callers have ended."""
    yield Join(caller)
    yield store("stop", 1)
    yield store("wakes", 1 if hall.form == SHUT_WAKES_ONE else EVERYONE)
    yield Wake("wakes", takes_all=True)


def hall_clerk(hall: Hall, rounds: int, away: int = 0) -> Steps:
    """Put rounds, each once there is room, and take the answers. Shut the hall once all are back."""
    rounds, away, owes = yield from looks(hall, rounds, away)
    if not rounds and not away:
        return begin(shutter, hall)
    yield from ring(hall, owes)
    del owes
    return begin(waiting_clerk, hall, rounds, away)


def waiting_clerk(hall: Hall, rounds: int, away: int) -> Steps:
    """Sleep until there is room for a remaining round, or an answer, unless all are back."""
    key = yield from announce(ANSWERS)
    owes = False
    if hall.form != NO_LOOK:
        rounds, away, owes = yield from looks(hall, rounds, away)
    if rounds or away:
        yield from ring(hall, owes)
        yield from sleep_by(key, ANSWERS, ROOM * (rounds > 0) + ANSWERS * (away > 0))
    del key, owes
    yield from cancel(ANSWERS)
    return begin(hall_clerk, hall, rounds, away) if rounds or away else begin(shutter, hall)


def looks(hall: Hall, rounds: int, away: int) -> Steps:
    """Take the available answers, and put rounds while there is room; return the number of rounds left, the number
    away, and whether a wake is owed."""
    owes = False
    while away and (yield pop("answers")):
        away -= 1
    while rounds and (yield load("waiting")) < hall.room:
        owes = (yield from put(hall)) or owes
        rounds, away = rounds - 1, away + 1
    return rounds, away, owes


def open_hall(form: str, hall: Hall) -> Model:
    """Return a hall with a thread for each worker, each caller and the clerk, if any, who shuts the hall. All must
    leave a hall that is shut."""
    hall = hall._replace(form=form)
    threads = [begin(worker, hall)] * hall.workers + [begin(caller, hall, puts) for puts in hall.callers]
    if hall.rounds:
        threads.append(begin(hall_clerk, hall, hall.rounds))
    elif hall.is_shut:
        threads.append(begin(shutter, hall))
    words = dict.fromkeys(["queue", "waiting", "owes", "resting", "wakes", "stop", "answers"], 0)
    return Model(
        {**words, **event_count(ROOM), **event_count(ANSWERS)},
        threads,
        partial(is_hall_served, hall),
        lambda words, threads: hall.is_shut and (words["queue"] or threads),
    )


def is_hall_served(hall: Hall, words: Words, sleep: Sleep) -> object:
    if sleep.word == "wakes":
        return words["queue"] or words["stop"]
    if sleep.awaits:
        return ANSWERS in sleep.awaits and words["answers"] or ROOM in sleep.awaits and words["waiting"] < hall.room
    return words["queue"] < hall.room


# A tray: its word is 0, 1 once it was answered, and 2 once the answer was taken.

EARLY_WAKE = "a wake before the answer"
NO_WAKE = "an answer that wakes nobody"


def asker(form: str) -> Steps:
    if (yield exchange("word", 1, 2)):
        return None
    yield Sleep("word", 0, compares=form != NO_COMPARE)
    return begin(asker, form)


def answerer(form: str) -> Steps:
    if form == EARLY_WAKE:
        yield Wake("word")
    yield store("word", 1)
    if form not in (EARLY_WAKE, NO_WAKE):
        yield Wake("word")


def tray(form: str, _: None) -> Model:
    return Model({"word": 0}, [begin(asker, form), begin(answerer, form)], has_changed)


# The room in the queue; puts sleep until there is some.

FULL_ALONE = "a pop that notifies only where the queue was full"


def putter(form: str, room: int, puts: int) -> Steps:
    then = begin(putter, form, room, puts - 1) if puts > 1 else None
    if (yield push("queue", room)):
        return then
    return begin(announced_putter, form, room, then)


def announced_putter(form: str, room: int, then: Thread | None) -> Steps:
    key = yield from announce()
    if form != NO_LOOK and (yield push("queue", room)):
        yield from cancel()
        return then
    return begin(waiting, form, key, begin(announced_putter, form, room, then))


def popper(form: str, room: int, pops: int) -> Steps:
    """Try this often to get a job, and then stay in its gate for ever. The hall's model has the wait for a job."""
    was_full = (yield load("queue")) == room if form == FULL_ALONE else True
    if form == EARLY_NOTIFICATION:
        yield from notify(form)
    if (yield pop("queue")) and was_full and form != EARLY_NOTIFICATION:
        yield from notify(form)
    return begin(popper, form, room, pops - 1) if pops > 1 else None


def queue(form: str, room: int, puts: Numbers, pops: Numbers) -> Model:
    """Return a queue that is full at first, a thread for each number of puts, and one for each number of tries to
    pop."""
    threads = [begin(putter, form, room, count) for count in puts] + [
        begin(popper, form, room, count) for count in pops
    ]
    return Model({"queue": room, **event_count()}, threads, lambda words, *_: words["queue"] < room)


# The clerk, which sleeps until there is an answer or input. A separate thread reads the input when the clerk requests
# it.

IDLE, ASKED, READ = 0, 1, 2
LATE_WAKER = "the waker comes after the last look at the reader"
EARLY_READER = "a reader that notifies before it stores its turn"
EARLY_ANSWER = "a worker that notifies before it answers"


def clerk(form: str, away: int) -> Steps:
    """Look for answers while rounds are away."""
    left = yield from take_answers(away)
    return begin(announced_clerk, form, left) if left else begin(clerk_reads, form, 0)


def take_answers(away: int) -> Steps:
    """Take answers, one after the other, until none is there; return the number of rounds still away."""
    while away and (yield pop("answers")):
        away -= 1
    return away


def announced_clerk(form: str, away: int) -> Steps:
    """Look for answers and input after the announcement; only these looks may lead to a sleep."""
    key = yield from announce()
    if form == NO_LOOK:
        return begin(waiting, form, key, begin(clerk, form, away))
    left = yield from take_answers(away)
    if form != LATE_WAKER:
        yield store("waker", 1)
    if left and (yield exchange("turn", IDLE, ASKED)):
        yield Wake("turn", takes_all=True)
    if left and (yield load("turn")) != READ:
        if form == LATE_WAKER:
            yield store("waker", 1)
        return begin(waiting, form, key, begin(clerk, form, left))
    yield from cancel()
    return begin(clerk_reads, form, left)


def clerk_reads(form: str, away: int) -> Steps:
    """Take input that was read ahead, or read, and then look for answers. Without input it stays in the read for
    ever."""
    turn = yield load("turn")
    if turn == ASKED:
        yield Sleep("turn", ASKED)
        return begin(clerk_reads, form, away)
    if turn == READ:
        yield store("turn", IDLE)
    elif not (yield pop("input")):
        return None
    return begin(clerk, form, away) if away else begin(clerk_reads, form, 0)


def reader(form: str) -> Steps:
    """Read a piece on request. Without more input it stays in the read for ever."""
    turn = yield load("turn")
    if turn != ASKED:
        yield Sleep("turn", turn)
        return begin(reader, form)
    if not (yield pop("input")):
        return None
    if form == EARLY_READER and (yield exchange("waker", 1, 0)):
        yield from notify(form)
    yield store("turn", READ)
    yield Wake("turn", takes_all=True)
    if form != EARLY_READER and (yield exchange("waker", 1, 0)):
        yield from notify(form)
    return begin(reader, form)


def solving_worker(form: str) -> Steps:
    if form == EARLY_ANSWER:
        yield from notify(form)
    yield add("answers", 1)
    if form != EARLY_ANSWER:
        yield from notify(form)


def is_served(words: Words, sleep: Sleep) -> object:
    """The clerk sleeps on the turn while the reader has a request, and the reader until it has one."""
    if sleep.word == "turn":
        return (words["turn"] == ASKED) != (sleep.value == ASKED)
    return words["answers"] or words["turn"] == READ


def service(form: str, away: int, answers: int, pieces: int) -> Model:
    """Return a service: rounds that are away, the answers among them that come, and the pieces of input that come."""
    threads = [begin(clerk, form, away), begin(reader, form), *[begin(solving_worker, form)] * answers]
    words = {"answers": 0, "input": pieces, "turn": IDLE, "waker": 0, **event_count()}
    return Model(words, threads, is_served)


class Subject(NamedTuple):
    """A model's subject, the cases in which no wake-up may be lost, and for each wrong form one in which it must be."""

    name: str
    model: Callable[[str, Any], Model]
    cases: list[Any]
    wrong: dict[str, Any]


LARGE_HALLS = [Hall(4, (1, 1)), Hall(3, (1, 1, 1)), Hall(2, (1,), rounds=1, is_shut=True, room=1)]

SUBJECTS = [
    Subject(
        "workers that rest until they are woken for a round, callers at a full queue, and a clerk",
        open_hall,
        [
            *(Hall(2, callers) for callers in ((1,), (2,), (3,), (1, 1), (2, 1), (1, 1, 1))),
            *(Hall(3, callers) for callers in ((1,), (2,), (3,), (1, 1))),
            *(Hall(workers, (puts,), most=1) for workers in (2, 3) for puts in (2, 3)),
            *(Hall(workers, (1,), is_shut=True) for workers in (1, 2, 3)),
            *(Hall(workers, (2,), is_shut=True) for workers in (1, 2, 3)),
            Hall(2, (1, 1), is_shut=True),
            *(Hall(workers, (1, 1), is_shut=True, room=1) for workers in (1, 2)),
            *(Hall(1, rounds=rounds, is_shut=True, room=room) for rounds in (1, 2, 3) for room in (1, 2)),
            *(Hall(2, rounds=2, is_shut=True, room=room) for room in (1, 2)),
            Hall(2, rounds=3, room=1),
            Hall(1, (1,), rounds=1, is_shut=True, room=1),
        ],
        {
            NO_LOOK: Hall(2, (2,)),
            NO_COMPARE: Hall(2, (2,)),
            LATE_STOP: Hall(1, (1,), is_shut=True),
            SHUT_WAKES_ONE: Hall(2, (2,), is_shut=True),
            NO_CALL: Hall(2, (2,)),
            NO_RING: Hall(2, (2,)),
            ALONE: Hall(3, (3,)),
            ONE_KERNEL_CALL: Hall(2, (2,)),
            LATE_COUNT: Hall(2, (2,)),
            ROOM_UNTOLD: Hall(1, rounds=2, room=1),
        },
    ),
    Subject(
        "an asker that sleeps until its tray is answered",
        tray,
        [None],
        {EARLY_WAKE: None, NO_COMPARE: None, NO_WAKE: None},
    ),
    Subject(
        "puts that sleep until there is room",
        lambda form, case: queue(form, *case),
        [
            (room, puts, pops)
            for room in (1, 2)
            for puts in ((1, 1), (2, 1), (1, 1, 1))
            for pops in ((1,), (2,), (1, 1), (2, 2))
        ],
        {
            NO_LOOK: (1, (1, 1), (2,)),
            EARLY_NOTIFICATION: (1, (1, 1), (2,)),
            NO_COMPARE: (1, (1, 1), (2,)),
            ONE_AT_A_TIME: (2, (1, 1), (2,)),
            FULL_ALONE: (2, (1, 1), (2,)),
        },
    ),
    Subject(
        "a clerk that sleeps until there is an answer or input",
        lambda form, case: service(form, *case),
        [(away, answers, pieces) for away in (1, 2) for answers in range(away + 1) for pieces in (0, 1, 2)],
        {
            NO_LOOK: (1, 1, 0),
            EARLY_ANSWER: (1, 1, 0),
            EARLY_READER: (1, 0, 1),
            LATE_WAKER: (1, 0, 1),
            NO_COMPARE: (1, 1, 0),
        },
    ),
]


def holds(subject: Subject) -> None:
    """The code's form loses nothing in all its cases, and each of its runs ends."""
    count = sum(lost_in_none(subject.model("", case), case) for case in subject.cases)
    print(f"{subject.name}: {len(subject.cases)} cases, {count:,} states", flush=True)


def lost_in_none(model: Model, case: object) -> int:
    """Nothing is lost in any state, and each run ends; return the number of states."""
    search = Search(model)
    require(not search.lost, f"something is lost in the case {case}")
    require(search.ends(), f"a run never ends in the case {case}")
    return len(search.following)


def large_hall_holds(hall: Hall) -> None:
    print(f"{lost_in_none(open_hall('', hall), hall):,} states", flush=True)


def is_refuted(subject: Subject, form: str) -> None:
    """A wake-up or a round is lost in the wrong form, as it must be."""
    require(Search(subject.model(form, subject.wrong[form]), until_lost=True).lost, "nothing is lost")


def main() -> int:
    parser = argparse.ArgumentParser(description="Tries every interleaving of the places where a thread sleeps.")
    parser.add_argument("--large", action="store_true", help="try the largest halls instead, for minutes")
    if parser.parse_args().large:
        return run_suites(Suite({str(hall): partial(large_hall_holds, hall) for hall in LARGE_HALLS}))
    checks: dict[str, Check] = {}
    for subject in SUBJECTS:
        checks[subject.name] = partial(holds, subject)
        for form in subject.wrong:
            checks[f"{subject.name}, wrong: {form}"] = partial(is_refuted, subject, form)
    return run_suites(Suite(checks))


if __name__ == "__main__":
    run_script(main)
