"""The start of a replica: it compares its state and its beginning with those in etcd."""

from __future__ import annotations

import argparse
import secrets
import ssl
import time
from collections.abc import Iterator, Sequence
from functools import partial

from ...common import logs
from ...common.faults import Exit, Fault, reason, say
from ...common.files import is_open
from ..firm_state import Opening
from ..journal import Journal
from ..state import ID_BYTES, REPLICA, ServiceState, kind_of, read
from .beginning import Length, agree, agreed_of, beginning_of, compare_lengths
from .entries import Agreed, Keys, another_history
from .etcd import Access, Denied, Etcd, EtcdError, Full, Unfit
from .journal import FULL, EtcdLink, ReplicatedJournal, position_of
from .point import Point, Position
from .renewal import renew

START_SECONDS = 10.0  # for an answer of etcd at a start
PAUSE = 0.2


def access_of(options: argparse.Namespace) -> Access:
    """Return the access to etcd. Its options are checked before the first request."""
    if options.name is None:
        raise Fault(Exit.WORDS, "--etcd needs --name: each replica has its own")
    if options.etcd_key is not None and options.etcd_cert is None:
        raise Fault(Exit.WORDS, "--etcd-key needs --etcd-cert")
    has_files = options.etcd_ca is not None or options.etcd_cert is not None
    if has_files and not all(member.is_secure for member in options.etcd):
        raise Fault(Exit.WORDS, "--etcd-ca and --etcd-cert are for members with https:// alone")
    for warning in warnings_of(options):
        say(f"warning: {warning}")
    context = None
    if any(member.is_secure for member in options.etcd):
        try:
            context = ssl.create_default_context(cafile=options.etcd_ca)
            if options.etcd_cert is not None:
                context.load_cert_chain(options.etcd_cert, options.etcd_key)
        except OSError as error:  # also for files that are no certificates
            raise Fault(Exit.WORDS, f"cannot use the certificates of --etcd: {reason(error)}") from error
    return Access(options.etcd, context, options.etcd_password)


def warnings_of(options: argparse.Namespace) -> Iterator[str]:
    """Yield the ways in which others may learn the credentials for etcd."""
    for path in (options.etcd_password, options.etcd_key or options.etcd_cert):
        if path is not None and is_open(path):
            yield f"all users of this host may read {path}: chmod o-rwx"
    if options.etcd_password is not None and not all(member.is_secure for member in options.etcd):
        yield "the password of --etcd-password is sent unencrypted: name members with https://"


class Replica:
    """This firmd as one of the replicas that share a journal."""

    def __init__(self, options: argparse.Namespace) -> None:
        self._options, access = options, access_of(options)
        self._keys = Keys(options.etcd_prefix)
        self._agreed: Agreed | None = None
        self._etcd = Etcd(access)
        self._link = EtcdLink(partial(Etcd, access), self._keys, options.name, options.etcd_lease)

    def begin(self, state: ServiceState, firm: Sequence[str]) -> bytes:
        """Return the text that the state begins with: etcd's, if it has one."""
        try:
            self._reach()
            self._agreed = agreed_of(self._etcd, self._keys)
            given: Opening | None = self._options.opening
            if self._agreed is None:
                text = state.begin(given, firm)
                if state.id is None:
                    self._agreed = self._agree(state, secrets.token_hex(ID_BYTES), Position())
            else:
                text = state.begin(given, firm, beginning_of(self._etcd, self._keys, self._agreed))
            if self._agreed is not None:
                self._require_same(state, self._agreed)
                renew(self._etcd, self._keys, state, self._agreed)
        except EtcdError as error:
            raise fault_of(error) from error
        return text if state.renewed is None else state.read_opening()

    def open(self, own: Journal, begin: Point) -> ReplicatedJournal:
        """Return the replicated journal over the own files, which begin at this point. An etcd without lines continues
        from these files."""
        if self._agreed is None:
            try:
                if own.found.lines:
                    self._require_longest(Length(own.found.lines, own.found.size))
                self._agreed = self._agree(own.state, own.state.id or "", position_of(own, begin.position))
            except EtcdError as error:
                raise fault_of(error) from error
            self._require_same(own.state, self._agreed)
        self._etcd.close()
        try:
            (own.state.folder / REPLICA).touch(mode=0o600)
        except OSError as error:
            raise Fault(Exit.STATE, f"cannot use the state {own.state.folder}: {reason(error)}") from error
        journal = ReplicatedJournal(own, self._link, self._agreed, begin)
        journal.housekeeper.retained = self._options.etcd_retain
        return journal

    def _require_longest(self, own: Length) -> None:
        """Raise a fault unless etcd, which has no lines, is to continue from the longest replica's."""
        name = self._options.name
        found = compare_lengths(self._etcd, self._keys, name, own)
        lengths = ", ".join(f"{other} {length.lines:,}" for other, length in found.items())
        if not self._options.etcd_begin:
            what = f"the replica {name} has {own.lines:,} lines, and etcd none of them"
            how = f"start each replica once, then the longest with --etcd-begin; lines so far: {lengths}"
            raise Fault(Exit.JOURNAL, f"{what}: {how}")
        longest, length = next(iter(found.items()))
        if length.size > own.size:
            key = (self._keys.found + longest.encode()).decode()
            how = f"start that one with --etcd-begin, or `etcdctl del {key}` if it is lost"
            raise Fault(Exit.JOURNAL, f"the replica {longest} has more lines ({lengths}): {how}")
        say(f"etcd goes on from the lines of {name}; lines of each replica: {lengths}", logs.INFO)

    def _agree(self, state: ServiceState, name: str, begin: Position) -> Agreed:
        text = read(state.first)
        if state.first.is_state:
            return agree(self._etcd, self._keys, Agreed(name, b"", begin), text)
        return agree(self._etcd, self._keys, Agreed(name, text, begin))

    def _require_same(self, state: ServiceState, agreed: Agreed) -> None:
        common, first = beginning_of(self._etcd, self._keys, agreed), state.first
        if not common.is_text(first):
            text = f"{first.path} is not the {kind_of(common.is_state)} that etcd has"
            raise Fault(Exit.ROSTER, f"changed-{kind_of(first.is_state)}: {text}")
        if state.id is None:
            state.id_to_take = agreed.id
        elif state.id != agreed.id:
            raise another_history(f"{state.folder} is the state {state.id}, and etcd has the lines of {agreed.id}")

    def _reach(self) -> None:
        """Wait for a member that answers, and check its version."""
        ends = time.monotonic() + START_SECONDS
        while True:
            try:
                return self._etcd.require_version()
            except (Unfit, Denied):
                raise
            except EtcdError:
                if time.monotonic() > ends:
                    raise
                time.sleep(PAUSE)


def fault_of(error: EtcdError) -> Fault:
    if isinstance(error, Full):
        return Fault(Exit.STATE, FULL)
    if isinstance(error, (Denied, Unfit)):
        return Fault(Exit.STATE, f"etcd: {error}")
    return Fault(Exit.STATE, f"etcd is not reached: {error}")
