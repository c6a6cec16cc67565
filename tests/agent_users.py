"""Checks of the users under whom an agent runs a queue's tasks, which tests/agents.py runs."""

from __future__ import annotations

import contextlib
import ctypes
import errno
import os
import pwd
import sys
import tempfile
from collections.abc import Iterator
from pathlib import Path
from typing import Any

from agent_kit import Row
from harness.checks import Skipped, require
from harness.deployed import NotAllowed, agent_work, work_of
from queue_stand_in import Cluster

GAMES = 5  # an account that each Debian host has, and whose number is a system account's unless UID_MIN says otherwise
# An agent with other groups than its tasks' users have, for which accounts from a number on are people's.
OF_PEOPLE_FROM = """\
import os, pathlib, sys
from firm.agent import daemon as agent, work as agent_work
agent_work.LOGIN_DEFS = pathlib.Path(sys.argv.pop(1))
os.setgroups([0, 4])
sys.exit(agent.main())
"""
KEYCTL = {"x86_64": 250, "aarch64": 219, "riscv64": 219, "ppc64le": 271, "s390x": 280}  # the system call, by machine
# Looks for a key of the session, or adds one.
KEYS = """\
import ctypes, sys
call, what, name = int(sys.argv[1]), sys.argv[2], sys.argv[3].encode()
libc = ctypes.CDLL(None)
if what == "add":
    sys.exit(libc.syscall(call - 2, b"user", name, name, len(name), -3) < 0)
sys.exit(3 if libc.syscall(call, 10, -3, b"user", name, 0) < 0 else 0)
"""
# An agent whose session has a key of root's, as by a login; it is for the accounts from a number on.
WITH_KEYS = """\
import ctypes, pathlib, sys
from firm.agent import daemon as agent, work as agent_work
call, libc = int(sys.argv.pop(1)), ctypes.CDLL(None)
libc.syscall(call, 1, None)
libc.syscall(call - 2, b"user", b"roots", b"roots", 5, -3)
agent_work.LOGIN_DEFS = pathlib.Path(sys.argv.pop(1))
sys.exit(agent.main())
"""
WORK: Row = {"command": ["true"], "grace": 5, "dir": "/"}


def other_user() -> None:
    """Under root's agent, a task is its user's process, with that user's rights, groups, home and output. A system
    account, and a number without an account, have none."""
    if os.getuid() != 0:
        raise Skipped("it needs root")
    with Cluster() as case:
        case.folder.chmod(0o755)
        (case.folder / "secret").write_text("x")
        (case.folder / "secret").chmod(0o600)
        account = pwd.getpwuid(GAMES)
        words = "id -u; id -g; id -G; echo $HOME $USER; cat secret 2>&1 || :; env | grep -c ^SUDO_SECRET || :"
        case.submit("a", words, user=GAMES, gid=0, groups=[0])
        case.submit("b", ["true"], user=GAMES, output=str(case.folder / "out"))
        case.submit("c", ["true"], user=123456)
        (case.folder / "closed").mkdir(mode=0o700)
        case.submit("d", ["true"], user=GAMES, dir=str(case.folder / "closed"))
        case.submit("e", ["true"], user=GAMES - 1)
        (case.folder / "login.defs").write_text(f"# comment\nUID_MIN\t{GAMES}\nUID_MAX 60000\n")
        words_of_agent = [sys.executable, "-c", OF_PEOPLE_FROM, str(case.folder / "login.defs")]
        case.start_registered(before=words_of_agent, machines="m1=5")
        case.firmd.round("start a m1 start b m1 start c m1 start d m1 start e m1")
        require(case.until_told("ended", "a")["status"] == 0, case.told())
        output = Path(case.until_told("running", "a")["output"])
        lines = output.read_text().splitlines()
        expected = [str(GAMES), str(account.pw_gid), f"{account.pw_dir} {account.pw_name}"]
        require([lines[0], lines[1], lines[3]] == expected, lines)
        groups = os.getgrouplist(account.pw_name, account.pw_gid)
        require({*map(int, lines[2].split())} == {*groups}, f"groups {lines[2]}, not {groups}")
        require(output.stat().st_uid == GAMES and "Permission denied" in lines[4], lines)
        faults = {
            "b": f"{case.folder}/out: Permission denied",
            "c": "no user has the number 123456 here",
            "d": f"{case.folder}/closed: Permission denied",
            "e": f"the queue names user {GAMES - 1}: system accounts run no tasks",
        }
        for task, fault in faults.items():
            end = case.until_told("ended", task)
            require((end["status"], end["fault"]) == (126, fault), end)


def others_keys() -> None:
    """Under root's agent, a task finds no key in its session: neither root's nor one of another user's task."""
    if os.getuid() != 0:
        raise Skipped("it needs root")
    call = KEYCTL.get(os.uname().machine, 0)
    libc = ctypes.CDLL(None, use_errno=True)
    if libc.syscall(call, 0, -4, 0) < 0 and ctypes.get_errno() in (errno.ENOSYS, errno.EPERM):
        raise Skipped("there are no keys here")
    with Cluster() as case:
        case.folder.chmod(0o755)
        (case.folder / "login.defs").write_text(f"UID_MIN {GAMES}\n")
        asked = {"a": (GAMES, "find", "roots"), "b": (GAMES, "add", "games"), "c": (GAMES + 1, "find", "games")}
        for task, (user, what, name) in asked.items():
            case.submit(task, [sys.executable, "-c", KEYS, str(call), what, name], user=user)
        case.start_registered(before=[sys.executable, "-c", WITH_KEYS, str(call), str(case.folder / "login.defs")])
        statuses = {}
        for task in asked:
            case.firmd.round(f"start {task} m1")
            statuses[task] = case.until_told("ended", task)["status"]
        require(statuses == {"a": 3, "b": 0, "c": 3}, f"another user's key is readable: {statuses}")


def whose_work() -> None:
    """An agent of root runs work as the user that the queue names, or as the queue's own: as root for root's queue
    alone, and as no system account for any."""
    if os.getuid() != 0:
        raise Skipped("it needs root")
    system, people = [1, 33, 999, 65_534, 65_535], [1_000, 60_001, 123_456, 2**31, 2**32 - 2]
    with tempfile.TemporaryDirectory(prefix="firm-") as name:
        definitions = Path(name, "login.defs")
        with replaced(agent_work, "LOGIN_DEFS", definitions):  # there is none: the numbers from 1,000 on are people's
            for owner in (0, 33, 1_000):
                found = {user: user_of_work(owner, user) for user in (0, *system, *people)}
                expected: dict[int, object] = {user: f"user {user}" for user in (0, *system)}
                for user in people if owner else [0, *people]:
                    expected[user] = user
                require(found == expected, f"{owner}'s queue: {found}")
            unnamed = [user_of_work(owner, None) for owner in (0, 33, 65_534, 1_000)]
            require(unnamed == [0, "user 33", "user 65534", 1_000], unnamed)
            for text, least in (("UID_MIN 500\n", 500), ("#UID_MIN 5\nUID_MIN x\n", 1_000), ("UID_MIN 0x64 #", 100)):
                definitions.write_text(text)
                found = {user: user_of_work(7, user) for user in (0, least - 1, least, 65_534)}
                expected = {least: least, **{user: f"user {user}" for user in (0, least - 1, 65_534)}}
                require(found == expected, f"{text!r}: {found}")
            for text in ("UID_MIN 0\n", "UID_MIN -1\n", "UID_MIN 5\nUID_MIN 1000\n"):  # no file makes root a person
                definitions.write_text(text)
                found = {user: user_of_work(7, user) for user in (0, 5)}
                expected = {0: "user 0", 5: 5 if "1000" not in text else "user 5"}
                require(found == expected, f"{text!r}: {found}")
    others: list[object] = [0, False, True, 0.0, 7.0, -1, 2**32 - 1, 2**32, "0", "7", [0], {}]
    taken = [user for user in others if is_work({**WORK, "user": user})]
    require(not taken, f"taken for users: {taken}")
    with replaced(os, "geteuid", lambda: 1_000):  # an agent that is not root's can't become another, and need not
        require(work_of({**WORK, "user": 1_001}, 0).bounds == {}, "of an agent that is not root's")


def replaced_socket() -> None:
    """An agent of root takes no work from a socket that a third user could replace: that user could run it as any."""
    if os.getuid() != 0:
        raise Skipped("it needs root")
    with Cluster() as case:
        others = case.folder / "others"
        others.mkdir()
        (others / "queue").symlink_to(case.folder / "queue")
        os.chown(others, GAMES, GAMES)
        case.start_agent(queue=others / "queue")
        fault = f"it belongs to user {GAMES}, who could put a link in the place of queue"
        case.until(lambda: fault in (case.folder / "log").read_text(), "the agent says whose the folder is")
        require("a1" not in case.queue.agents, "it is registered")
        os.chown(others, 0, 0)
        case.until(lambda: "a1" in case.queue.agents, "it is registered once the folder is root's")


def user_of_work(owner: int, user: int | None) -> int | str:
    """Return the user under whom an agent of root runs a user's work of an owner's queue, or the user that the
    refusal names."""
    try:
        return int(work_of({**WORK, "user": user}, owner).bounds.get("user", 0))
    except NotAllowed as refusal:
        require(str(refusal).endswith(": system accounts run no tasks"), refusal)
        return str(refusal).removeprefix("the queue names ").partition(":")[0]


@contextlib.contextmanager
def replaced(place: Any, name: str, value: object) -> Iterator[None]:
    """Replace a value of a module meanwhile."""
    before = getattr(place, name)
    setattr(place, name, value)
    try:
        yield
    finally:
        setattr(place, name, before)


def is_work(row: object) -> bool:
    """Return whether an agent accepts the work of another user's queue."""
    try:
        work_of(row, 1_000)
    except NotAllowed:
        return False
    return True
