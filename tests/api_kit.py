"""The kit for checks of firm-api: the API over a firmd and a queue, and clients of it."""

from __future__ import annotations

import importlib
import json
import os
import re
import subprocess
import time
from collections.abc import Callable, Iterator
from contextlib import closing, contextmanager, suppress
from dataclasses import dataclass
from pathlib import Path
from typing import Any

from harness.checks import Skipped, require
from queue_client import Answer, Connection, Json
from queue_kit import FIRM_API, Case, Setup

CERTIFICATE_DAYS = "30"
JSON_KIND = "application/json"
EVENT_SECONDS = 60.0  # for a further event


@dataclass
class Site:
    """The firm-api of a case, as its clients see it."""

    case: Case

    @property
    def socket(self) -> Path:
        return self.case.api

    @property
    def tokens(self) -> Path:
        return self.case.folder / "tokens"

    @property
    def pid(self) -> int:
        """Return the process for changes."""
        return self.case.queue.pid if self.case.queue is not None else 0

    def reads_process(self) -> int:
        """Return the process for reads."""
        return int(Path(f"/proc/{self.pid}/task/{self.pid}/children").read_text().split()[0])

    def restart(self, *options: str) -> None:
        """Start it again, with further options."""
        self.case.kill()
        self.case.options += options
        self.case.start()
        self.until_known()

    def until_known(self) -> None:
        """Wait until both processes know the tenant's rows in firm: firmd's view sends them to each, and a stream of
        events then begins anew."""
        tenant = self.case.tenant

        def is_known() -> bool:
            found = [row for row in self.get("/v1/tenants")["tenants"] if row["tenant"] == tenant]  # for reads
            answer = self.ask("GET", f"/v1/tenants/{tenant}")
            if answer.status == 200:
                found.append(answer.json())
            elif not self.case.has_queue:  # refused while there are no rows; with a queue, while that is away
                return False
            return all(row["firm"]["is_there"] for row in found)

        self.case.until(is_known, "firm's rows are known")

    def said(self) -> str:
        return self.case.said()

    def ask(self, method: str, path: str, body: Any = None, **headers: str) -> Answer:
        """Return the answer over a new connection."""
        with closing(Connection(self.socket)) as connection:
            return connection.ask(method, path, body, **headers)

    def get(self, path: str, status: int = 200) -> Any:
        return self.ask("GET", path).good(status)

    def of(self, path: str) -> str:
        """Return a path of the tenant."""
        return f"/v1/tenants/{self.case.tenant}/{path}"

    def submit(self, *command: str, **fields: Any) -> int:
        one = {"command": list(command) or ["true"], "dir": "/tmp", **fields}
        found = self.ask("POST", self.of("submissions"), {"submissions": [one]}).good(201)
        return int(found["submissions"][0]["number"])

    def token(self, user: str, role: str, *tenants: str) -> str:
        words = [*FIRM_API, "token", f"--tokens={self.tokens}", f"--user={user}", f"--role={role}"]
        made = subprocess.run([*words, f"--tenants={','.join(tenants)}"], capture_output=True, text=True)
        require(made.returncode == 0, made.stderr)
        return made.stdout.strip()


def plain_schema(found: Any) -> Any:
    """Return a schema of the document in JSON Schema's form: `nullable` is OpenAPI's alone."""
    if isinstance(found, list):
        return [plain_schema(one) for one in found]
    if not isinstance(found, dict):
        return found
    rest = {key: plain_schema(value) for key, value in found.items() if key != "nullable"}
    return {"anyOf": [rest, {"type": "null"}]} if found.get("nullable") is True else rest


class Events:
    """A stream of events."""

    def __init__(self, served: Site, query: str = "", last: str | None = None) -> None:
        self._connection = Connection(served.socket)
        headers = {} if last is None else {"Last-Event-ID": last}
        self._connection.request("GET", served.of(f"events{query}"), headers=headers)
        self._answer = self._connection.getresponse()
        require(self._answer.status == 200, self._answer.status)
        self.last, self.seen = "", list[Json]()
        require(self._answer.readline().startswith(b":"), "it begins at once")

    def __enter__(self) -> Events:
        return self

    def __exit__(self, *_: object) -> None:
        self._connection.close()

    def next(self) -> tuple[str, Json]:
        """Return the kind of the next event, and its data."""
        kind, ends = "", time.monotonic() + EVENT_SECONDS
        while True:
            require(time.monotonic() < ends, f"no further event; {self.seen[-5:]}")
            line = self._answer.readline().decode().rstrip("\n")
            name, _, value = line.partition(": ")
            if name == "id":
                self.last = value
            elif name == "event":
                kind = value
            elif name == "data":
                self.seen.append(json.loads(value))
                return kind, self.seen[-1]

    def is_closed(self) -> bool:
        """Return whether the stream ends, after any further events."""
        ends = time.monotonic() + EVENT_SECONDS
        while time.monotonic() < ends:
            if not self._answer.readline():
                return True
        return False

    def until(self, holds: Callable[[str, Json], bool]) -> Json:
        """Return the data of the first event for which this holds."""
        ends = time.monotonic() + EVENT_SECONDS
        while time.monotonic() < ends:
            kind, data = self.next()
            if holds(kind, data):
                return data
        raise AssertionError("no such event")

    def state(self, task: str, state: str) -> None:
        self.until(lambda kind, data: kind == "task" and (data["task"], data["state"]) == (task, state))


class Judge:
    """Compares answers with the document."""

    def __init__(self, document: Json) -> None:
        self.document, self.asked = document, set[tuple[str, str]]()
        self._plain = {**document, "components": {"schemas": plain_schema(document["components"]["schemas"])}}
        self._forms = {
            path: re.compile(re.sub(r"\\\{\w+\\\}", "[^/]+", re.escape(path)).replace("{tenant}", "[^/]+"))
            for path in document["paths"]
        }

    def path_of(self, path: str) -> str:
        """Return the path of the document that fits a request's."""
        bare = path.partition("?")[0]
        found = [name for name, form in self._forms.items() if form.fullmatch(bare)]
        require(bare in found or len(found) == 1, f"{bare} is {found} in the document")
        return bare if bare in found else str(found[0])

    def judge(self, method: str, path: str, answer: Answer) -> Answer:
        """Require that an answer is as its operation says."""
        jsonschema = importlib.import_module("jsonschema")
        name = self.path_of(path)
        self.asked.add((method, name))
        answers = self.document["paths"][name][method.lower()]["responses"]
        said = answers.get(str(answer.status)) or answers["default"]
        require(answer.status < 400 or said is answers["default"], f"{method} {path}: {answer.status}")
        ((media, content),) = said["content"].items()
        require(answer.headers["content-type"].startswith(media), f"{path}: {answer.headers}")
        if media == "application/json":
            resolver = jsonschema.RefResolver("", self._plain)
            judge = jsonschema.Draft4Validator(plain_schema(content["schema"]), resolver=resolver)
            faults = [f"{error.json_path}: {error.message[:200]}" for error in judge.iter_errors(answer.json())]
            require(not faults, f"{method} {path}: {faults}")
        return answer


@contextmanager
def site(setup: Setup, *options: str) -> Iterator[Site]:
    """Start a firm-api with a queue, which any user may reach."""
    with setup.case("--lease=600", "--socket-mode=666", *options) as case:
        case.folder.chmod(0o755)
        try:
            served = Site(case.start())
            served.until_known()
            yield served
            case.stop()
        except Exception as error:
            error.add_note(f"firm-api said: {case.said()[-3000:]}")
            raise


def certificate(folder: Path, name: str, place: str = "DNS:localhost") -> tuple[Path, Path]:
    """Write a self-signed certificate of a host, and its key; return their files."""
    found, key = folder / f"{name}.pem", folder / f"{name}.key"
    words = ["openssl", "req", "-x509", "-newkey", "ec", "-pkeyopt", "ec_paramgen_curve:prime256v1", "-nodes"]
    words += ["-keyout", str(key), "-out", str(found), "-days", CERTIFICATE_DAYS, "-subj", f"/CN={name}"]
    try:
        made = subprocess.run([*words, "-addext", f"subjectAltName={place}"], capture_output=True, text=True)
    except FileNotFoundError:
        raise Skipped("it needs openssl (apt-get install openssl)") from None
    require(made.returncode == 0, made.stderr)
    return found, key


def expire(found: Path, key: Path) -> None:
    """Make a certificate expire."""
    words = ["openssl", "x509", "-in", str(found), "-signkey", str(key), "-days", "-1", "-out", f"{found}.old"]
    made = subprocess.run(words, capture_output=True, text=True)
    require(made.returncode == 0, made.stderr)
    Path(f"{found}.old").rename(found)


def port_of(site: Site) -> int:
    """Return the port of a site's TLS, as the system knows it."""
    inodes = set[str]()
    for path in Path(f"/proc/{site.pid}/fd").iterdir():
        with suppress(FileNotFoundError):  # it was closed meanwhile
            inodes.add(os.readlink(path))
    for line in Path("/proc/net/tcp").read_text().splitlines()[1:]:
        fields = line.split()
        if fields[3] == "0A" and f"socket:[{fields[9]}]" in inodes:
            return int(re.split(":", fields[1])[1], 16)
    raise AssertionError("it does not listen")
