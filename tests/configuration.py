"""Check that one file configures the server: faults are named by line, and a correct file is served.

usage: tools/run tests/configuration.py [--program FILE] [--only WORD]
Each check prints a line; the last line is 'N passed, M failed', and the exit status is 1 if one failed. It needs Python
3, the built program, openssl and python3-aiohttp; some checks need root.
"""

from __future__ import annotations

import argparse
import json
import os
import re
import shutil
import signal
import socket
import subprocess
import sys
import tempfile
import time
import tomllib
from collections.abc import Callable, Iterator, Sequence
from contextlib import contextmanager, suppress
from dataclasses import dataclass
from functools import partial
from pathlib import Path

from queue_client import Connection
from api_kit import certificate
from firmd_kit import FIRMD, Client
from harness import program
from harness.checks import Check, Skipped, Suite, require, run_script, run_suites
from harness.deployed import SERVICE
from harness.waiting import pause_since

from firm.agent.settings import AgentConfiguration
from firm.server.configuration import read_checked
from firm.server.settings import FILE, SECTIONS
from firm.common.settings import SettingsFile, lines_of

FIRMCTL = [sys.executable, str(SERVICE / "firmctl")]
ROSTER = "tenant,nodes,arcs,life,spread,churn\nalpha,30,300,1000000000,1,2\nbeta,30,300,1000000000,0,3\n"
LEAST = 'state = "state"\nroster = "roster.csv"\n[sockets]\nfolder = "run"\n'  # below the file's own folder
LIMIT_SECONDS = 120.0  # for any wait, on a busy host
NOBODY = 65534
READ_ALL = 1 << 2  # CAP_DAC_READ_SEARCH among a process's rights
GIVEN = ("--inh-caps=+dac_read_search", "--ambient-caps=+dac_read_search", "--bounding-set=-all,+dac_read_search")
# firmd, whose restarted replica runs a program that prints its rights.
ANEW = f"""
import sys
sys.path.insert(0, {str(SERVICE)!r})
from firm.server import daemon
from firm.server.replicated.faults import Anew
class Replica:
    def __init__(self, *_): pass
    async def run(self): raise Anew("anew")
daemon.Daemon = Replica
sys.argv = ["firmd", "--state=x", "--socket=y"]
sys.orig_argv = [sys.executable, "-c", "print(open('/proc/self/status').read())"]
daemon.main()
"""
# Faulty files: the text after LEAST, and each finding, as LINE: NAME: WORDS.
FAULTS: list[tuple[str, list[str]]] = [
    ("max_wieght = 3\n", ["5: sockets.max_wieght: unknown key; here may be folder, any, operator, mode"]),
    ("[limts]\n", ["5: limts: unknown key; did you mean limits?"]),
    ("[limits]\nmax_client = 5\n", ["6: limits.max_client: unknown key; did you mean max_clients?"]),
    ("[limits]\nmax_clients = 0\n", ["6: limits.max_clients: 0 is not a whole number from 1 to 100,000"]),
    ("[limits]\nmax_clients = true\n", ["6: limits.max_clients: true is not a whole number from 1 to 100,000"]),
    ('[limits]\nmax_clients = "5"\n', ['6: limits.max_clients: "5" is not a whole number from 1 to 100,000']),
    ("limits.max_unread = 0\n", ["5: sockets.limits: unknown key; "]),
    ('[limits]\n\n"max_unread" = [\n 1,\n 2]\n', ["7: limits.max_unread: [1, 2] is not a size from 1 to "]),
    ('[limits]\nmax_unread = "8Q"\n', ['6: limits.max_unread: "8Q" is not a size from 1 to ']),
    (
        f"[limits]\nfirm_timeout_seconds = 1{'0' * 400}\n",
        ["6: limits.firm_timeout_seconds: 1000", "is not a number from"],
    ),
    ("[limits]\nfirm_timeout_seconds = nan\n", ["6: limits.firm_timeout_seconds: NaN is not a number from 0.1 to "]),
    ("[api]\nmode = 660\n", ["6: api.mode: 660 is not one of 600, 660, 666"]),
    (
        "[api]\ntls = '8443:x'\n",
        ['6: api.tls: "8443:x" is not an address, as HOST:PORT', "6: api.tls: it needs certificate and key"],
    ),
    (
        f"[api]\ntls = '{'h' * 64}:8443'\n",
        ['6: api.tls: "hhh', "is not an address", "6: api.tls: it needs certificate and key"],
    ),
    ("[api]\ntls = '0.0.0.0:8443'\n", ["6: api.tls: it needs certificate and key", "6: api.tls: nobody can use it"]),
    (
        "[api]\noperators = 'no-such-group'\n",
        ['6: api.operators: "no-such-group" is not a group of this host: addgroup'],
    ),
    ("[api]\nclient_ca = ''\n", ['6: api.client_ca: "" is not a path']),
    ("[etcd]\nname = 'a'\n", ["6: etcd.name: it needs members"]),
    ("[etcd]\nname = 'a'\nmembers = 'x'\n", ['7: etcd.members: "x" is not a list of 1 to 100, each a URL, as https:']),
    ("[etcd]\nname = 'a'\nmembers = ['x']\n", ['7: etcd.members: ["x"] is not a URL, as https://HOST:PORT']),
    ("[etcd]\npassword = 'none'\n", ["6: etcd.password: there is no file "]),
    ("[snapshots]\narchive = 'old'\n", ["6: snapshots.archive: it needs keep_days"]),
    ("[snapshots]\nkeep_days = 1\narchive = 'state/journal'\n", ["7: snapshots.archive: it is the journal itself"]),
    ("[tenants.Alpha]\n", ["5: tenants.Alpha: 'Alpha' is not a name: "]),
    ("[tenants.gamma]\n", ["5: tenants.gamma: no such tenant: the roster has alpha, beta"]),
    ("[tenants]\nalpha = 3\n", ["6: tenants.alpha: a table, begun by [tenants.alpha]"]),
    ("[tenants.alpha]\nqueue = 'no'\n", ['6: tenants.alpha.queue: "no" is not true or false']),
    ("[tenants.alpha]\nmax_weight = 2_000_000\n", ["6: tenants.alpha.max_weight: 2000000 is not a whole number "]),
    ("[tenants.alpha]\nlines = 'run/any'\n", ["6: tenants.alpha.lines: ", "is the path of sockets.any too"]),
    ("[tenants.alpha]\nlines = 'roster.csv'\n", ["6: tenants.alpha.lines: ", "is something else than a socket"]),
    ("[tenants.alpha]\nlines = 'gone/lines'\n", ["6: tenants.alpha.lines: there is no folder "]),
    (f"[tenants.alpha]\nlines = 'run/{'x' * 100}'\n", ["6: tenants.alpha.lines: ", "too long for a socket"]),
    ("[queues]\nfolder = 'roster.csv'\n[tenants.alpha]\n", ["6: queues.folder: ", "is not a folder"]),
    ('x = """\n[limits]\n"""\n[limits]\nmax_clients = 0\n', ["5: sockets.x: unknown", "9: limits.max_clients: 0 is"]),
    ("[limits\n", ["5: this is not TOML: "]),
    ("a = [1,\n2\n[limits]\n", ["5: this is not TOML: "]),
    ("[limits]\n[limits]\n", ["1: this is not TOML: Cannot declare ('limits',) twice (at line 6"]),
]
AGENT_FAULTS: list[tuple[str, list[str]]] = [
    ("", ["0: tenant: name the tenant"]),
    ("tenant = 'alpha'\nserver = 'unix'\n", ['2: server: "unix" is not unix:PATH or https://HOST:PORT']),
    ("tenant = 'alpha'\nserver = 'https://h:1'\n", ["2: server: https needs a token"]),
    ("tenant = 'alpha'\ntoken = 'none'\n", ["0: server: https needs", "2: token: there is no file "]),
    ("tenant = 'alpha'\n[machines]\nm1 = 65\n", ["3: machines.m1: 65 is not a whole number from 1 to 64"]),
    ("tenant = 'alpha'\n[machines]\nM1 = 4\n", ["3: machines.M1: 'M1' is not a name"]),
    ("tenant = 'alpha'\nmachnes = 3\n", ["2: machnes: unknown key; did you mean machines?"]),
]


@dataclass
class Place:
    """A folder with a roster, a folder of sockets and a configuration file."""

    folder: Path
    built: str

    @property
    def file(self) -> Path:
        return self.folder / "firm.toml"

    @property
    def api(self) -> Path:
        return self.folder / "run" / "api"

    def write(self, text: str, begin: str = LEAST) -> Path:
        self.file.write_text(begin + text)
        return self.file

    def check(self, status: int, *words: str) -> str:
        """Return the output of `firmctl check` on the file."""
        done = subprocess.run(
            [*FIRMCTL, "check", *words, str(self.file)], capture_output=True, text=True, timeout=LIMIT_SECONDS
        )
        require(done.returncode == status and "Traceback" not in done.stderr, done)
        return done.stdout + done.stderr

    def start(self, *begin: str, options: Sequence[str] = ()) -> subprocess.Popen[bytes]:
        words = [*begin, *FIRMD, f"--config={self.file}", f"--firm={self.built}", *options]
        with open(self.folder / "log", "ab") as log:
            return subprocess.Popen(words, stdin=subprocess.DEVNULL, stderr=log)

    def is_ready(self) -> bool:
        return "firmd: ready" in self.said() and "firm-api: ready" in self.said()

    def has_begun_api(self, times: int) -> bool:
        return self.said().count("firm-api: ready") == times

    def said(self) -> str:
        return (self.folder / "log").read_text()

    @contextmanager
    def served(self, *begin: str, options: Sequence[str] = ()) -> Iterator[subprocess.Popen[bytes]]:
        """Start a firmd that serves, with its API."""
        process = self.start(*begin, options=options)
        try:
            self.until(lambda: process.poll() is not None or self.is_ready(), "it serves")
            require(process.poll() is None, self.said())
            yield process
            process.send_signal(signal.SIGTERM)
            require(process.wait(LIMIT_SECONDS) == 0, self.said())
        finally:
            process.kill()
            process.wait()

    def child(self, firmd: subprocess.Popen[bytes], name: str) -> int:
        """Return firmd's child that runs this program, once it does: before its exec it looks like firmd itself."""
        found: list[int] = []

        def is_there() -> bool:
            found[:] = [child_of(firmd.pid, name)]
            return found[0] > 0

        self.until(is_there, f"{name} runs")
        return found[0]

    def until(self, holds: Callable[[], object], what: str) -> None:
        began = time.monotonic()
        while not holds():
            require(time.monotonic() - began < LIMIT_SECONDS, f"{what}; said: {self.said()[-3000:]}")
            pause_since(began)


def child_of(pid: int, name: str) -> int:
    """Return a process's child that runs this program; 0 if none does."""
    for child in map(int, Path(f"/proc/{pid}/task/{pid}/children").read_text().split()):
        with suppress(FileNotFoundError, ProcessLookupError):  # it has ended meanwhile
            if f"/{name}\0".encode() in Path(f"/proc/{child}/cmdline").read_bytes():
                return child
    return 0


@contextmanager
def place(built: str) -> Iterator[Place]:
    with tempfile.TemporaryDirectory(prefix="firm-") as name:
        folder = Path(name)
        (folder / "run").mkdir()
        (folder / "roster.csv").write_text(ROSTER)
        (folder / "log").touch()
        yield Place(folder, built)


def findings_of(file: SettingsFile) -> str:
    """Return the findings on a file, as a check prints them without the file's name."""
    return "".join(f"{finding.line}: {finding}\n" for finding in file.findings)


def require_findings(said: str, wanted: list[str], text: str) -> None:
    """Require these findings of a check in this order, each on its own line unless it is continued."""
    firsts = [words for words in wanted if re.match(r"\d+: ", words)]
    found = said.splitlines()
    require(len(found) == len(firsts), f"{text!r}: {said}")
    require(all(line.startswith(words) for line, words in zip(found, firsts)), f"{text!r}: {said} not {wanted}")
    require(all(words in said for words in wanted), f"{text!r}: {said} not {wanted}")


def faults(built: str) -> None:
    """Each fault is reported by file, line and name, with the accepted values; firmd ends with 2 and the same
    report."""
    with place(built) as here:
        for text, wanted in FAULTS:
            require_findings(findings_of(read_checked(here.write(text)).file), wanted, text)
        here.write("[limits]\nmax_clients = 0\n[tenants.gamma]\n")
        process = here.start()
        require(process.wait(LIMIT_SECONDS) == 2, here.said())
        lines = here.said().splitlines()
        require([line.partition(": ")[2] for line in lines] == here.check(1).splitlines()[:2], lines)
        require(not (here.folder / "state").exists(), "nothing is begun")


def least(built: str) -> None:
    """An empty file is enough if its default places exist."""
    with place(built) as here:
        for text in ("", "[tenants.alpha]\n", "[tenants]\nalpha = {}\nbeta.queue = false\n"):
            here.write(text)
            require("nothing is wrong" in here.check(0), text)
        here.write("", "")
        said = here.check(1)
        require(":0: roster: /etc/firm/roster.csv does not exist" in said, said)


def units(_: str) -> None:
    """The default folders are the server's from the start: before that, root's check asks for their owner."""
    made = (SERVICE / "systemd" / "firm.tmpfiles").read_text()
    for folder in (SECTIONS[""][0].default.parent, SECTIONS["sockets"][0].default):
        require(re.search(rf"(?m)^d {folder} 0755 firm firm$", made), made)
    require(f"--config {FILE}\n" in (SERVICE / "systemd" / "firm.service").read_text(), "the unit has the default file")


def unreadable(built: str) -> None:
    """A file that can't be read gives status 2."""
    with place(built) as here:
        require("No such file" in here.check(2), "a file that is missing")
        here.file.write_bytes(b"\xff")
        require("utf-8" in here.check(2), "bytes that are no text")
        here.file.write_text("#" * 2**17)
        require("more than" in here.check(2), "a file that is too long")
        here.file.write_text("x = " + "[" * 5_000)
        require("nested too deeply" in here.check(2), "more values in values than the stack has room for")
        here.file.unlink()
        require(here.start().wait(LIMIT_SECONDS) == 2 and f"cannot read {here.file}" in here.said(), here.said())


def lines(_: str) -> None:
    """Keys have the lines of the file, whatever their form."""
    text = 'a = 1\nb.c = """\nd = 1\n""" # x\n[e."f.g"]\nh = [\n  1,\n]\n\n[[i]]\nj = {k = 1}\n'
    found = {".".join(key): line for key, line in lines_of(text).items()}
    wanted = {"a": 1, "b": 2, "b.c": 2, "e.f.g": 5, "e.f.g.h": 6, "i": 10, "i.j": 11, "i.j.k": 11}
    require(found == wanted, found)


def defaults(built: str) -> None:
    """All settings are printed with their defaults, as a file that changes nothing."""
    with place(built) as here:
        for words in ((), ("--agent",)):
            done = subprocess.run([*FIRMCTL, "check", "--defaults", *words], capture_output=True, text=True, check=True)
            require(tomllib.loads(done.stdout) == {}, done.stdout)
            uncommented = re.sub(r"(?m)^#(?=[a-z_]+ = [\[\"0-9tf]|\[)", "", done.stdout)
            found = tomllib.loads(uncommented.replace("[tenants.NAME]", "[tenants.alpha]"))
            require(len(found) > 1, uncommented)
            here.write(uncommented.replace("[tenants.NAME]", "[tenants.alpha]"), "")
            said = here.check(1, *words)
            require("unknown key" not in said and " is not " not in said, said)


def owners(built: str) -> None:
    """A check reports folders of other users, with the cure; root's check reports those that are not the server's."""
    if os.geteuid():
        raise Skipped("it needs root, to have other users' folders")
    with place(built) as here:
        here.folder.chmod(0o755)
        state = here.folder / "state"
        for name in ("state", "queues", "queues/beta", "old"):
            (here.folder / name).mkdir()
        for name in ("state", "run", "queues"):
            os.chown(here.folder / name, NOBODY, NOBODY)
        here.write("[snapshots]\nkeep_days = 1\narchive = 'old'\n[tenants.beta]\n")
        said = here.check(1)
        for name in ("queues/beta", "old"):
            require(f"nobody may not write in {here.folder / name}: chown nobody" in said, said)
        for name in ("queues/beta", "old"):
            os.chown(here.folder / name, NOBODY, NOBODY)
        require("nothing is wrong" in here.check(0), "all are the server's")
        here.file.chmod(0o666)
        os.chown(here.file, 1, 1)
        said = here.check(0)
        require(":0: warning: daemon, who owns it, " in said and ":0: warning: all users may write it" in said, said)
        os.chown(here.folder / "queues/beta", 1, 1)
        said = here.check(1)
        require(
            f"{here.folder / 'queues/beta'} belongs to daemon, and the server runs as nobody: chown -R" in said, said
        )
        os.chown(here.folder / "queues/beta", NOBODY, NOBODY)
        (here.folder / "roster.csv").chmod(0o600)
        require("nobody may not read" in here.check(1), "a roster of root's alone")
        process = here.start()  # as root, who does not own the state
        require(process.wait(LIMIT_SECONDS) == 2, here.said())
        require(f"{state} belongs to nobody, and the server runs as root" in here.said(), here.said())


def certificates(built: str) -> None:
    """A certificate that does not fit its key, or a file without one, is reported."""
    with place(built) as here:
        (one, key), (_, other) = certificate(here.folder, "one"), certificate(here.folder, "other")
        begin = "[api]\ntls = 'localhost:8443'\ntokens = 'tokens'\n"
        for of, by, wanted in [
            (one, key, ""),
            (one, other, f"{one} does not fit the key {other}"),
            (here.folder / "roster.csv", key, f"can't be used with {key}"),
            (here.folder / "none", key, f"there is no file {here.folder / 'none'}"),
        ]:
            here.write(f"{begin}certificate = '{of}'\nkey = '{by}'\n")
            said = here.check(1 if wanted else 0)
            require(wanted in said and (not wanted or ":8: api.certificate: " in said), said)
        here.write(f"{begin}certificate = '{one}'\nkey = '{key}'\nclient_ca = 'roster.csv'\n")
        require(":10: api.client_ca: " in here.check(1), "it has no certificate")


def agents(built: str) -> None:
    """An agent's file is checked as well; its defaults follow from the host."""
    with place(built) as here:
        for text, wanted in AGENT_FAULTS:
            here.write(text, "")
            said = findings_of(AgentConfiguration(SettingsFile.read(here.file)).file)
            if not re.fullmatch(r"[a-z0-9-]{1,16}", socket.gethostname().partition(".")[0]):
                said = re.sub(r"(?m)^.*: name: .*\n", "", said)
            require_findings(said, wanted, text)
        require(f"{here.file}:2: machnes: unknown key" in here.check(1, "--agent"), "firmctl tells the same")
        here.write("tenant = 'alpha'\nname = 'a1'\n", "")
        require("nothing is wrong" in here.check(0, "--agent"), "the rest has defaults")
        here.write("machines = 3\n", "")
        done = subprocess.run(
            [sys.executable, SERVICE / "firm-agent", "run", f"--config={here.file}"], capture_output=True
        )
        require(done.returncode == 2 and f"{here.file}:".encode() in done.stderr, done)


def serves(built: str) -> None:
    """The API is served beside lines, with a queue for each tenant that the file names, and each has its bounds."""
    from firm.api.daemon import configured

    with place(built) as here:
        group = json.dumps(Path("/etc/group").read_text().partition(":")[0])
        own = f"max_weight = 20\nusers = {group}\nbudget = '5M'"
        here.write(f"[queues]\nmax_weight = 7\n[tenants.alpha]\n{own}\n[tenants.beta]\n")
        found = configured(here.file)
        weights = {name: options.bounds.weight for name, options in found.queues.items()}
        require(weights == {"alpha": 20, "beta": 7} and found.queues["alpha"].bounds.budget == 5 << 20, found)
        require((found.places["alpha"].users, found.places["beta"].users) == (0, None), found.places)
        with here.served():
            for name in ("alpha.lines", "beta.lines", "any", "operator"):
                tenant = name.partition(".")[0].encode() if "." in name else b"alpha"
                with Client(here.folder / "run" / name) as client:
                    require(client.ask(tenant + b" show").startswith(tenant + b" "), name)
            with Client(here.folder / "run" / "alpha.lines") as client:
                require(client.ask(b"beta show").startswith(b"? other-tenant"), "a tenant's socket is its own")
            require(
                [name for name in sorted(served_tenants(here)) if served_tenants(here)[name]] == ["alpha", "beta"], ""
            )
            require((here.folder / "queues/beta/queue.db").exists(), "its queue is beside the state")
        require(not any((here.folder / "run").iterdir()), "its sockets are removed")
        here.write("[tenants.beta]\nqueue = false\n")
        (here.folder / "log").write_text("")
        with here.served():
            require(served_tenants(here) == {"alpha": False, "beta": False}, served_tenants(here))


def served_tenants(here: Place) -> dict[str, bool]:
    """Return the tenants of the API, and whether each has a queue."""
    found = Connection(here.api).ask("GET", "/v1/tenants").good()
    return {row["tenant"]: row["queue"] for row in found["tenants"]}


def api_dies(built: str) -> None:
    """If the API is killed, lines are still answered and firmd restarts it; while it can't start, the pauses between
    attempts grow."""
    with place(built) as here:
        here.write("")
        with here.served() as firmd, Client(here.folder / "run" / "any") as client:
            begun = here.child(firmd, "firm-api")
            here.api.unlink()
            here.api.write_text("in its way")
            os.kill(begun, signal.SIGKILL)
            here.until(lambda: here.said().count("firm-api exited with status") > 3, "it is tried again")
            require(client.ask(b"alpha show").startswith(b"alpha "), "lines are answered meanwhile")
            pauses = [float(text) for text in re.findall(r"restarting in ([0-9.]+) s", here.said())]
            require(pauses[1:4] == sorted(set(pauses[1:4])), pauses)
            here.api.unlink()
            here.until(lambda: here.said().count("firm-api: ready") > 1, "it serves again")
            require(here.child(firmd, "firm-api") != begun, "another process")
            require(set(served_tenants(here)) == {"alpha", "beta"}, "it answers")


def changed(built: str) -> None:
    """A restarted API has firmd's settings, even if the file has changed meanwhile."""
    with place(built) as here:
        here.write("[tenants.alpha]\n")
        with here.served() as firmd:
            for number, text in enumerate(("[tenants.beta]\n", "[tenants.alpha\n", None), 2):
                here.file.unlink() if text is None else here.write(text)
                os.kill(here.child(firmd, "firm-api"), signal.SIGKILL)
                here.until(partial(here.has_begun_api, number), "it serves again")
                require(served_tenants(here) == {"alpha": True, "beta": False}, served_tenants(here))


def restored(built: str) -> None:
    """A server that begins with another one's state needs no roster, and has the same sockets at each start."""
    with place(built) as here:
        here.write("[tenants.alpha]\n")
        with here.served():
            pass
        words = [*FIRMCTL, "journal", "state", str(here.folder / "state")]
        (here.folder / "saved").write_bytes(subprocess.run(words, capture_output=True, check=True).stdout)
        for roster in (ROSTER, None):
            shutil.rmtree(here.folder / "state")
            (here.folder / "roster.csv").unlink() if roster is None else None
            for options in ((f"--restore={here.folder / 'saved'}",), ()):
                (here.folder / "log").write_text("")
                with here.served(options=options):
                    found = sorted(path.name for path in (here.folder / "run").iterdir())
                    require(found == ["alpha.lines", "any", "api", "operator"], (roster, options, found))


def end_together(built: str) -> None:
    """The API ends with firmd, also if firmd is killed."""
    with place(built) as here:
        here.write("")
        with here.served() as firmd:
            process = here.child(firmd, "firm-api")
        require(not Path(f"/proc/{process}").exists(), "it has ended before firmd")
        try:
            (here.folder / "log").write_text("")
            with here.served() as firmd:
                process = here.child(firmd, "firm-api")
                firmd.kill()
                here.until(lambda: not Path(f"/proc/{process}/exe").exists(), "it ends")
                raise Killed
        except Killed:
            pass


class Killed(Exception):
    """Signals that firmd was killed."""


def words(built: str) -> None:
    """A file excludes the options that it can set, and they exclude it."""
    with place(built) as here:
        here.write("")
        for option, told in (
            ("--socket=x", "--socket and a configuration file"),
            ("--workers=9", "'9' is not a whole"),
        ):
            done = subprocess.run([*FIRMD, f"--config={here.file}", option], capture_output=True, text=True)
            require(done.returncode == 2 and told in done.stderr, done)
        done = subprocess.run(FIRMD, capture_output=True, text=True)
        if not Path("/etc/firm/firm.toml").exists():
            require(done.returncode == 2 and "cannot read /etc/firm/firm.toml" in done.stderr, done)


def rights(built: str) -> None:
    """Of firmd's programs, only the API may read outputs in users' folders, and the programs that it starts may not.
    A restarted firmd keeps that right."""
    if os.geteuid() or shutil.which("setpriv") is None:
        raise Skipped("it needs root and setpriv, to give a right to another user")
    as_nobody = ("setpriv", f"--reuid={NOBODY}", f"--regid={NOBODY}", "--clear-groups", *GIVEN)
    with place(built) as here:
        here.folder.chmod(0o755)
        for path in (here.folder, here.folder / "run"):
            os.chown(path, NOBODY, NOBODY)
        here.write("")
        wanted = {"firm-api": (READ_ALL, 0), "firm-viewer": (0, 0)}
        with here.served(*as_nobody) as firmd:
            found = {name: rights_of(here.child(firmd, name)) for name in wanted}
            require(found == wanted, found)
        done = subprocess.run([*as_nobody, sys.executable, "-c", ANEW], capture_output=True, text=True)
        require(f"CapEff:\t{READ_ALL:016x}" in done.stdout, done)


def rights_of(pid: int) -> tuple[int, int]:
    """Return a process's own rights, and those of programs that it starts."""
    status = Path(f"/proc/{pid}/status").read_text()
    own, others = (int(re.findall(rf"(?m)^{name}:\s*(\S+)$", status)[0], 16) for name in ("CapEff", "CapAmb"))
    return own, others


CHECKS = [faults, least, units, unreadable, lines, defaults, owners, certificates, agents, serves, api_dies]
CHECKS += [changed, restored, end_together, words, rights]


def main() -> int:
    parser = argparse.ArgumentParser(description=(__doc__ or "").splitlines()[0])
    program.add_program(parser)
    parser.add_argument("--only", default="", help="run only the checks whose names have these words")
    given = parser.parse_args()
    named: dict[str, Check] = {check.__name__.replace("_", " "): partial(check, given.program) for check in CHECKS}
    return run_suites(Suite({name: check for name, check in named.items() if given.only in name}))


if __name__ == "__main__":
    run_script(main)
