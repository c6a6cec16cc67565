"""A client of etcd over its JSON gateway, with the few requests that a replicated journal needs."""

from __future__ import annotations

import base64
import http.client
import json
import re
import socket
import ssl
from collections.abc import Iterator, Sequence
from contextlib import suppress
from dataclasses import dataclass
from pathlib import Path
from typing import Any, NamedTuple
from urllib.parse import urlsplit

SECONDS = 1.0  # for an answer, before it turns to the next member
MIN_VERSION = (3, 4)
RESOURCE_EXHAUSTED, PERMISSION_DENIED, UNAUTHENTICATED = 8, 7, 16  # codes of gRPC
OUT_OF_RANGE = 11
TRANSIENT = {408, 429, 500, 502, 503, 504}
DEFAULT_QUOTA = 2 << 30  # etcd's own
QUOTA = re.compile(r"^etcd_server_quota_backend_bytes (\S+)$", re.M)

Json = dict[str, Any]


class EtcdError(Exception):
    """etcd did not do a request, or may not have done it."""


class Unsure(EtcdError):
    """No member answered in time; the request may have been done."""


class Full(EtcdError):
    """etcd accepts no further keys: its quota is exhausted."""


class Denied(EtcdError):
    """etcd rejects this user, or shows an unexpected certificate."""


class Unfit(EtcdError):
    """The server isn't etcd, or is an unsupported version of it."""


class Member(NamedTuple):
    is_secure: bool
    host: str
    port: int

    @classmethod
    def read(cls, url: str) -> Member:
        """Return the member of an address. Raise `ValueError` for any other text."""
        found = urlsplit(url)
        if found.scheme not in ("http", "https") or not found.hostname or found.path.strip("/") or found.query:
            raise ValueError(f"{url!r} is not http://HOST:PORT or https://HOST:PORT")
        return cls(found.scheme == "https", found.hostname, found.port or 2379)

    def __str__(self) -> str:
        return f"http{'s' if self.is_secure else ''}://{self.host}:{self.port}"


@dataclass(frozen=True)
class Access:
    """The members, with the client's certificate and password."""

    members: tuple[Member, ...]
    context: ssl.SSLContext | None = None
    password_file: Path | None = None  # with a line USER:PASSWORD; read at each login, so it may change

    def login(self) -> Json | None:
        if self.password_file is None:
            return None
        try:
            name, colon, password = self.password_file.read_text().strip().partition(":")
        except OSError as error:
            raise Denied(f"cannot read {self.password_file}: {error.strerror}") from error
        except ValueError as error:
            raise Denied(f"{self.password_file} is not text in UTF-8") from error
        if not colon:
            raise Denied(f"{self.password_file} has no line USER:PASSWORD")
        return {"name": name, "password": password}


class EtcdRow(NamedTuple):
    key: bytes
    value: bytes
    made: int  # the revision that made the key


class EtcdRows(NamedTuple):
    revision: int  # of the store
    found: list[EtcdRow]


class Condition(NamedTuple):
    """A condition on a key: that this revision made it (0: that it doesn't exist), or that it has this value."""

    key: bytes
    made: int | None = None
    value: bytes | None = None

    def message(self) -> Json:
        if self.value is not None:
            return {"key": code(self.key), "target": "VALUE", "result": "EQUAL", "value": code(self.value)}
        return {"key": code(self.key), "target": "CREATE", "result": "EQUAL", "create_revision": str(self.made)}


class Put(NamedTuple):
    key: bytes
    value: bytes
    lease: int = 0

    def message(self) -> Json:
        return {"requestPut": {"key": code(self.key), "value": code(self.value), "lease": self.lease}}


class Span(NamedTuple):
    """The keys from `key` to before `end`."""

    key: bytes
    end: bytes

    def message(self) -> Json:
        return {"requestDeleteRange": {"key": code(self.key), "range_end": code(self.end)}}


class Done(NamedTuple):
    """The result of a transaction: whether its conditions held, and the store's revision."""

    is_done: bool
    revision: int


class KeyChange(NamedTuple):
    key: bytes
    value: bytes | None  # None: the key was deleted


class DatabaseSize(NamedTuple):
    used: int
    quota: int


def code(data: bytes) -> str:
    return base64.b64encode(data).decode()


def decode(text: str) -> bytes:
    return base64.b64decode(text)


def after(prefix: bytes) -> bytes:
    """Return the first key after all that begin with the prefix."""
    return prefix[:-1] + bytes([prefix[-1] + 1])


class Etcd:
    """A client for one thread. It has one connection at a time, to the first member that answers."""

    def __init__(self, access: Access, seconds: float = SECONDS) -> None:
        self._access, self._members, self._seconds = access, list(access.members), seconds
        self._connection: http.client.HTTPConnection | None = None
        self._watching: http.client.HTTPConnection | None = None
        self._token: str | None = None
        self._quota: int | None = None  # of the connected member

    @property
    def member(self) -> Member:
        """Return the member for the next request."""
        return self._members[0]

    def close(self) -> None:
        if self._connection is not None:
            self._connection.close()
        self._connection = self._quota = None

    # Requests.

    def range(self, key: bytes, end: bytes | None = None, limit: int = 0, is_last_first: bool = False) -> EtcdRows:
        """Return the rows from `key` to before `end`, or the row of `key`."""
        request: Json = {"key": code(key), "limit": limit}
        if end is not None:
            request["range_end"] = code(end)
        if is_last_first:
            request |= {"sort_order": "DESCEND", "sort_target": "KEY"}
        answer = self._ask("kv/range", request)
        return EtcdRows(revision_of(answer), [row_of(row) for row in answer.get("kvs", [])])

    def last_key(self, key: bytes, end: bytes) -> bytes | None:
        """Return the last key from `key` to before `end`, if any."""
        request: Json = {"key": code(key), "range_end": code(end), "limit": 1, "keys_only": True}
        answer = self._ask("kv/range", request | {"sort_order": "DESCEND", "sort_target": "KEY"})
        return next((decode(row["key"]) for row in answer.get("kvs", [])), None)

    def transact(self, conditions: Sequence[Condition], puts: Sequence[Put], gone: Sequence[Span] = ()) -> Done:
        """Set keys and remove spans of others in one transaction, if all conditions hold."""
        compare = [one.message() for one in conditions]
        success = [put.message() for put in puts] + [span.message() for span in gone]
        answer = self._ask("kv/txn", {"compare": compare, "success": success})
        return Done(bool(answer.get("succeeded", False)), revision_of(answer))

    def delete(self, key: bytes, end: bytes) -> int:
        """Delete the keys from `key` to before `end`. Return the store's revision."""
        return revision_of(self._ask("kv/deleterange", {"key": code(key), "range_end": code(end)}))

    def compact(self, revision: int) -> None:
        """Discard the values before a revision, if that isn't done already."""
        self._ask("kv/compaction", {"revision": str(revision)}, is_harmless=True)

    def grant(self, seconds: int) -> int:
        return int(self._ask("lease/grant", {"TTL": seconds})["ID"])

    def keep_alive(self, lease: int) -> float:
        """Renew a lease. Return its seconds from now on; 0 if it has expired."""
        return float(self._ask("lease/keepalive", {"ID": str(lease)}).get("result", {}).get("TTL", 0))

    def revoke(self, lease: int) -> None:
        self._ask("lease/revoke", {"ID": str(lease)}, is_harmless=True)

    def size(self) -> DatabaseSize:
        """Return the bytes that the member's store uses, without the free pages of its file, and its quota."""
        status = self._ask("maintenance/status", {})
        if self._quota is None:
            quota = QUOTA.search(self._get("/metrics").decode(errors="replace"))
            self._quota = int(float(quota[1])) if quota else DEFAULT_QUOTA
        return DatabaseSize(int(status.get("dbSizeInUse", status["dbSize"])), self._quota)

    def require_version(self) -> None:
        """Raise `Unfit` unless the member is etcd of a supported version."""
        text = self._get("/version")
        try:
            version = str(json.loads(text)["etcdcluster"])
            if version == "not_decided":
                raise Unsure(f"{self.member} has not found the other members yet")
            numbers = tuple(map(int, version.split(".")[:2]))
        except (ValueError, KeyError, TypeError):
            raise Unfit(f"{self.member} is not etcd: unexpected answer to /version: {text[:60]!r}") from None
        if numbers[0] != MIN_VERSION[0] or numbers < MIN_VERSION:
            raise Unfit(f"{self.member} is etcd {version}: 3.4, or a later one of version 3, is needed")

    def watch(self, key: bytes, end: bytes, revision: int, seconds: float) -> Iterator[list[KeyChange]]:
        """Yield changes from a revision on. Raise `Unsure` after this many seconds without any."""
        member = self.member
        try:
            self._watching = connection = self._connect(seconds)
            request = {"create_request": {"key": code(key), "range_end": code(end), "start_revision": str(revision)}}
            connection.request("POST", "/v3/watch", json.dumps(request).encode(), self._headers())
            response = connection.getresponse()
            while line := response.readline():
                answer = json.loads(line)
                result = answer.get("result", {})
                if "error" in answer or result.get("canceled"):
                    self._token = None
                    raise Unsure(f"{member} has ended the watch: {line[:200]!r}")
                yield [change_of(event) for event in result.get("events", [])]
            raise Unsure(f"{member} has ended the watch")
        except (OSError, http.client.HTTPException, ValueError) as error:
            self._next()
            raise Unsure(f"{member}: {error or type(error).__name__}") from error
        finally:
            if self._watching is not None:
                self._watching.close()
            self._watching = None

    def end_watch(self) -> None:
        """End another thread's watch at once."""
        connection = self._watching
        if connection is not None and connection.sock is not None:
            with suppress(OSError):
                connection.sock.shutdown(socket.SHUT_RDWR)

    # Transport.

    def _ask(self, path: str, request: Json, is_harmless: bool = False) -> Json:
        """Send a request to one member after the other; it may be done twice. `is_harmless` accepts that."""
        status, text = self._each("POST", "/v3/" + path, json.dumps(request).encode())
        answer = parsed(text)
        if status == 200:
            return answer
        if is_harmless and answer.get("code") in (5, OUT_OF_RANGE):  # not found, or before the last compaction
            return answer
        raise refusal(status, answer or {"error": text[:120].decode(errors="replace").strip()})

    def _get(self, path: str) -> bytes:
        status, text = self._each("GET", path, None)
        if status != 200:
            raise Unfit(f"{self.member}{path}: status {status}")
        return text

    def _each(self, method: str, path: str, body: bytes | None) -> tuple[int, bytes]:
        why = "no member was reached"
        for _ in range(len(self._members) + 1):
            try:
                if self._connection is None:
                    self._connection = self._connect(self._seconds)
                if self._token is None and path.startswith("/v3/"):
                    self._log_in()
                status, text = self._exchange(method, path, body)
                if parsed(text).get("code") == UNAUTHENTICATED and self._token is not None:
                    self._token = None  # it has expired at the member
                    continue
                if status not in TRANSIENT or parsed(text).get("code") == RESOURCE_EXHAUSTED:
                    return status, text
                why = f"{self.member}: status {status}: {text[:120].decode(errors='replace')}"
            except ssl.SSLCertVerificationError as error:
                raise Denied(f"{self.member}: {error.verify_message}") from error
            except (OSError, http.client.HTTPException) as error:
                why = f"{self.member}: {error or type(error).__name__}"
            self._next()
        raise Unsure(why)

    def _exchange(self, method: str, path: str, body: bytes | None) -> tuple[int, bytes]:
        if self._connection is None:
            raise http.client.NotConnected
        self._connection.request(method, path, body, self._headers())
        response = self._connection.getresponse()
        if not {"content-length", "transfer-encoding"} & {name.lower() for name in response.headers}:
            raise http.client.HTTPException(
                "its answer was truncated"
            )  # in the headers, which http.client doesn't notice
        return response.status, response.read()

    def _log_in(self) -> None:
        login = self._access.login()
        if login is None:
            return
        status, text = self._exchange("POST", "/v3/auth/authenticate", json.dumps(login).encode())
        answer = parsed(text)
        if status != 200 and status not in TRANSIENT:
            said = answer.get("error") or refusal(status, {"error": text[:120].decode(errors="replace").strip()})
            raise Denied(f"{self.member} refuses the user {login['name']}: {said}")
        self._token = answer.get("token")

    def _headers(self) -> dict[str, str]:
        return {} if self._token is None else {"Authorization": self._token}

    def _next(self) -> None:
        """Turn to the next member."""
        self.close()
        self._members.append(self._members.pop(0))

    def _connect(self, seconds: float) -> http.client.HTTPConnection:
        member = self.member
        if member.is_secure:
            context = self._access.context
            found: http.client.HTTPConnection = http.client.HTTPSConnection(
                member.host, member.port, timeout=seconds, context=context
            )
        else:
            found = http.client.HTTPConnection(member.host, member.port, timeout=seconds)
        found.connect()
        found.sock.setsockopt(socket.IPPROTO_TCP, socket.TCP_NODELAY, 1)
        return found


def parsed(text: bytes) -> Json:
    try:
        found = json.loads(text)
    except ValueError:
        return {}
    return found if isinstance(found, dict) else {}


def refusal(status: int, answer: Json) -> EtcdError:
    text = str(answer.get("error", f"status {status}"))
    kind = answer.get("code")
    if kind == RESOURCE_EXHAUSTED and "space" in text:
        return Full(text)
    if kind in (PERMISSION_DENIED, UNAUTHENTICATED) or "user name is empty" in text:
        return Denied(text)
    if text.startswith("CommonName"):
        return Denied(f"users with passwords need a client certificate without a CN: {text}")
    if status == 404:
        return Unfit(f"it has no JSON gateway of version 3: {text}")
    return Unsure(text)


def revision_of(answer: Json) -> int:
    return int(answer["header"]["revision"])


def row_of(row: Json) -> EtcdRow:
    return EtcdRow(decode(row["key"]), decode(row.get("value", "")), int(row["create_revision"]))


def change_of(event: Json) -> KeyChange:
    pair = event["kv"]
    return KeyChange(decode(pair["key"]), None if event.get("type") == "DELETE" else decode(pair.get("value", "")))
