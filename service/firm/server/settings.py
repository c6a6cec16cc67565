"""The server's settings, by section of its configuration file; firmd's and firm-api's options are the same ones.

docs/OPERATING.md describes the file, and `firmctl check --defaults` prints all of it.
"""

from __future__ import annotations

import re
from pathlib import Path
from typing import Any

from ..common.bounds import MEBIBYTE
from ..common.fields import FLAG, NAME, FieldKind, choice, listed, number, whole
from ..common.logs import FORMS
from ..common.quantities import DEFAULT_WEIGHT, MAX_WEIGHT
from ..common.settings import ADDRESS, GROUP, Setting, path, size, word
from ..common.users import number_of
from .journal import SEGMENT_BYTES
from .replicated.options import LEASE_SECONDS, MAX_LEASE, RETAINED, member, prefix

FILE = Path("/etc/firm/firm.toml")
MAX_INPUT = 2**32  # bytes that firm reads
MAX_BYTES = 2**40  # of any limit
MAX_SECONDS, LEAST_TIMEOUT = 1e9, 0.1
MAX_TASKS = 10_000_000
MAX_MEMBERS = 100  # of etcd
MAX_SHARE = 1_000  # of a user; the default is 1
WANTED_SHARES = f"a list of users with shares above 0, up to {MAX_SHARE:,}, as {{ann = 2, bob = 0.5}}"


def shares_of(value: Any) -> dict[int, float]:
    """Return shares by the numbers of users. Raise `ValueError`."""
    found: dict[int, float] = {}
    for name, share in value.items() if isinstance(value, dict) else [("", None)]:
        if type(share) not in (int, float) or not 0 < share <= MAX_SHARE:
            raise ValueError(WANTED_SHARES)
        if (user := number_of(name)) is None:
            raise ValueError(f"{WANTED_SHARES}: there is no user {name}")
        if user in found:
            raise ValueError(f"{WANTED_SHARES}: {name} is there twice")
        found[user] = float(share)
    return found


def shares_in(text: str) -> dict[int, float]:
    """Return shares from a list on the command line, such as ann=2,bob=0.5. Raise `ValueError`."""
    pairs = [re.fullmatch(r"([^=]+)=(\d{1,4}(?:\.\d{1,3})?)", part, re.ASCII) for part in text.split(",")]
    named = {pair[1]: float(pair[2]) for pair in pairs if pair is not None}
    if len(named) < len(pairs):
        raise ValueError(WANTED_SHARES)
    return shares_of(named)


BYTES, INPUT = size(1, MAX_BYTES), size(1, MAX_INPUT)
TIMEOUT = number(LEAST_TIMEOUT, MAX_SECONDS, "SECONDS")
TASKS, FOLDER = whole(1, MAX_TASKS), path("DIR")
SHARES = FieldKind(WANTED_SHARES, shares_of, shares_in, "USER=N,..")

SERVER = (
    Setting("state", FOLDER, "folder of roster, journal and snapshots", Path("/var/lib/firm/state"), "--state"),
    Setting("roster", path(), "roster to begin with; the state stores it", Path("/etc/firm/roster.csv"), "--roster"),
    Setting("workers", whole(1, 8), "threads of firm that solve rounds, by default 2", None, "--workers"),
    Setting("log_format", choice(*FORMS), "form of lines on standard error", FORMS[0], "--log-format"),
)
SOCKETS = (
    Setting("folder", FOLDER, "folder of sockets", Path("/run/firm")),
    Setting("any", path(), "socket for lines of any tenant, by default `any` in the folder", None, "--socket"),
    Setting("operator", path(), "socket for the operator's lines too, by default `operator` there", None, "--operator"),
    Setting("mode", choice("600", "660"), "mode of sockets for lines", "660", "--socket-mode"),
)
ROUNDS = (
    Setting("every_seconds", number(0.001, MAX_SECONDS, "SECONDS"), "request rounds this often", None, "--every"),
    Setting("after_milliseconds", number(1, 1e9, "MILLISECONDS"), "and this long after a change", None, "--after"),
)
# Unread replies: eight clients of a socket, and four sockets, can reach their limits without reaching the next one.
# Lines: each limit is some seconds of firmd's work; more lines would only wait here instead of in the clients.
LIMITS = (
    Setting("max_clients", whole(1, 10**5), "clients of a socket", 1_000, "--most-clients"),
    Setting("max_unread", BYTES, "unread replies of a client", 8 * MEBIBYTE, "--most-unread"),
    Setting("max_unread_of_socket", BYTES, "of a socket's clients", 64 * MEBIBYTE, "--most-unread-of-socket"),
    Setting("max_unread_in_all", BYTES, "of all clients", 256 * MEBIBYTE, "--most-unread-in-all"),
    Setting(
        "max_waiting_of_tenant",
        BYTES,
        "a tenant's waiting lines; more are not read",
        4 * MEBIBYTE,
        "--most-waiting-of-tenant",
    ),
    Setting(
        "max_unanswered_of_socket",
        BYTES,
        "unanswered lines of a socket's clients",
        16 * MEBIBYTE,
        "--most-unanswered-of-socket",
    ),
    Setting("max_unanswered_in_all", BYTES, "of all clients", 64 * MEBIBYTE, "--most-unanswered-in-all"),
    Setting("max_journal", INPUT, "segments of the journal; firm reads no more", MAX_INPUT, "--journal-limit"),
    Setting("segment", INPUT, "a segment of the journal", SEGMENT_BYTES, "--segment-bytes"),
    Setting("firm_timeout_seconds", TIMEOUT, "firm's silence before it is killed", 60.0, "--firm-timeout"),
)
# firmd accepts some 10 MiB a second in all, and firm reads 4 GiB in its life: one tenant needs 15 days for that.
BUDGETS = (
    Setting(
        "second_of_tenant",
        BYTES,
        "a tenant's lines a second; further ones wait",
        8 * MEBIBYTE,
        "--bytes-a-second-of-tenant",
    ),
    Setting(
        "day_of_tenant",
        BYTES,
        "a tenant's part of the journal a day; further lines are refused",
        256 * MEBIBYTE,
        "--bytes-a-day-of-tenant",
    ),
    Setting("second_of_socket", BYTES, "a socket's lines a second", 16 * MEBIBYTE, "--bytes-a-second-of-socket"),
    Setting("day_of_socket", BYTES, "its part of the journal a day", 1024 * MEBIBYTE, "--bytes-a-day-of-socket"),
)
SNAPSHOTS = (
    Setting("lines", whole(0, 10**9), "lines between snapshots; 0: no snapshots", 100_000, "--snapshot-lines"),
    Setting(
        "minutes", number(0, 1e9, "MINUTES"), "time between snapshots, if there were lines", 30.0, "--snapshot-minutes"
    ),
    Setting("keep_days", number(0, 1e9, "DAYS"), "delete older lines that no start needs", None, "--keep"),
    Setting("archive", FOLDER, "folder to move them to instead", None, "--archive"),
)
ETCD = (
    Setting(
        "members",
        listed(word(member, "a URL, as https://HOST:PORT", "URL"), MAX_MEMBERS, 1),
        "members of etcd for the lines",
        None,
        "--etcd",
    ),
    Setting("name", NAME, "replica's own name", None, "--name"),
    Setting("prefix", word(prefix, "a prefix of keys", "TEXT"), "prefix of the keys", "/firm", "--etcd-prefix"),
    Setting("ca", path(), "authority of the members' certificates", None, "--etcd-ca"),
    Setting("certificate", path(), "client certificate for them", None, "--etcd-cert"),
    Setting("key", path(), "its key", None, "--etcd-key"),
    Setting("password", path(), "file with a line USER:PASSWORD", None, "--etcd-password"),
    Setting(
        "lease_seconds",
        whole(1, MAX_LEASE, "SECONDS"),
        "time until another leads in the place of one that is gone",
        LEASE_SECONDS,
        "--etcd-lease",
    ),
    Setting(
        "retain",
        size(0, MAX_INPUT),
        "lines that stay in etcd for late replicas; fewer past a quarter of its quota",
        RETAINED,
        "--etcd-retain",
    ),
)
API = (
    Setting("socket", path(), "Unix socket of the API, by default `api` in the folder of sockets", None, "--socket"),
    Setting("mode", choice("600", "660", "666"), "its mode", "666", "--socket-mode"),
    Setting("operators", GROUP, "group of operators, besides root and the server's user", None, "--operators"),
    Setting("tls", ADDRESS, "address for TLS", None, "--tls"),
    Setting("certificate", path(), "server's certificate in PEM, with its chain", None, "--certificate"),
    Setting("key", path(), "its private key", None, "--key"),
    Setting("client_ca", path(), "authority of clients' certificates", None, "--client-ca"),
    Setting("tokens", path(), "file of tokens", None, "--tokens"),
)
BOUNDS = (
    Setting("max_tasks_of_user", TASKS, "unfinished tasks of a user", 20_000, "--most-of-user"),
    Setting("max_tasks", TASKS, "of all users", 200_000, "--most-in-all"),
    Setting("max_array", TASKS, "of an array", 100_000, "--most-in-array"),
    Setting(
        "max_weight", whole(1, MAX_WEIGHT), "weight of a job, except operators' jobs", DEFAULT_WEIGHT, "--most-weight"
    ),
    Setting("budget", size(1, MAX_BYTES), "disk space for a user's work, and again each week", 2**30, "--budget"),
    Setting(
        "keep_history_days",
        whole(1, 36_500, "DAYS"),
        "retention of ended tasks and their outputs",
        30,
        "--keep-history",
    ),
    Setting("shares", SHARES, "shares of users in the order of work; each other user has 1", {}, "--shares"),
    Setting(
        "max_in_firm", TASKS, "tasks in firm at a time, by default as many as its arena holds", None, "--most-in-firm"
    ),
    Setting("ask_rounds", FLAG, "whether the queue requests rounds", True),
    Setting("lease_seconds", TIMEOUT, "silence of an agent after which its runs end", 60.0, "--lease"),
    Setting("margin_seconds", TIMEOUT, "time from then until they start elsewhere", 10.0, "--margin"),
)
QUEUES = (Setting("folder", FOLDER, "folder of the queues, by default `queues` beside the state"), *BOUNDS)
# Of a tenant, in addition to the bounds of queues.
TENANT = (
    Setting("lines", path(), "socket for the tenant's lines, by default NAME.lines in the folder of sockets"),
    Setting("queue", FLAG, "whether this tenant has a queue", True),
    Setting("users", GROUP, "group whose members may use the queue, by default everyone"),
)
SECTIONS = {
    "": SERVER,
    "sockets": SOCKETS,
    "rounds": ROUNDS,
    "limits": LIMITS,
    "budgets": BUDGETS,
    "snapshots": SNAPSHOTS,
    "etcd": ETCD,
    "api": API,
    "queues": QUEUES,
    "tenants.NAME": (*TENANT, *BOUNDS),
}
