"""The state's folder: its lock, its id, the roster or state that the service began with, and the journal.

The id is written after the durable offset, and a new id after the segment that begins with it: so it shows how far a
beginning or a renewal got. A state with an id that lacks its roster or segments has lost them.
"""

from __future__ import annotations

import re
import subprocess
from collections.abc import Callable, Sequence
from dataclasses import dataclass
from pathlib import Path
from zlib import crc32

from ..common import roster
from ..common.faults import RESTORE, Exit, Fault, reason
from ..common.files import PRIVATE, replace_synced, sync_folder, write_synced
from ..common.lock import lock_alone
from . import firm_state
from .firm_state import MAX_BYTES, Opening, digest
from .records import BEGINNING, Base
from .replicated.renewed import Renewed, read as read_renewed, require_same

ROSTER, JOURNAL, VIEW, ID = "roster.csv", "journal", "view", "id"
RESTORED, SNAPSHOTS = "restored", "snapshots"
REPLICA = "replica"  # exists if the lines are in etcd too
OLD_JOURNAL, NEW_JOURNAL = "journal.old", "journal.new"  # before and during a rewrite
ROSTER_SECONDS = 60  # for firm to check a roster
ID_BYTES = 10


@dataclass(frozen=True, slots=True)
class InitialState:
    """The beginning of other replicas, for a new state."""

    is_state: bool
    digest: str  # of its text
    text: Callable[[], bytes]

    def is_text(self, opening: Opening) -> bool:
        """Return whether a file has this beginning."""
        return opening.is_state == self.is_state and digest(read(opening)) == self.digest


class StateFolder:
    """A state's folder, without its journal, for any process."""

    def __init__(self, folder: Path) -> None:
        self.folder = folder
        self.roster_path, self.journal_path, self.view_path = folder / ROSTER, folder / JOURNAL, folder / VIEW
        self.id_path, self.restored_path, self.snapshots_path = folder / ID, folder / RESTORED, folder / SNAPSHOTS
        self.renewed = read_renewed(folder)  # of a replica that began anew
        # Checksum of the opening, once that is read, and whether it allows tenants a patience.
        self.roster_sum, self.is_extended = 0, False
        self.id = self._read_id()  # None until the first start has completed

    @property
    def first(self) -> Opening:
        """Return its opening: a roster, or the state of an earlier service."""
        is_restored = self.restored_path.exists()
        return Opening(self.restored_path if is_restored else self.roster_path, is_restored)

    @property
    def opening(self) -> Opening:
        """Return the base of a start without a snapshot."""
        return self.first if self.renewed is None else self.renewed.opening(self.folder)

    @property
    def base(self) -> Base:
        """Return the base after the opening."""
        return BEGINNING if self.renewed is None else self.renewed.base

    def read_opening(self) -> bytes:
        """Return the text of the opening, and record its checksum."""
        text = read(self.opening)
        if self.renewed is not None:
            require_same(self.renewed, text, self.opening.path)
        self._know(text)
        return text

    def go_on_from(self, renewed: Renewed, text: bytes) -> None:
        """Record that the replica has begun anew from this state."""
        self.renewed = renewed
        self._know(text)

    def _know(self, text: bytes) -> None:
        """Record the opening's checksum and heading."""
        self.roster_sum, self.is_extended = crc32(text), is_extended(self.opening, text)

    def _read_id(self) -> str | None:
        try:
            name = id_of(self.folder)
        except FileNotFoundError:
            return None
        except OSError as error:
            raise Fault(Exit.STATE, f"cannot read {self.id_path}: {reason(error)}") from error
        if re.fullmatch(r"[0-9a-z-]{1,40}", name) is None:
            raise Fault(Exit.JOURNAL, f"{self.id_path}: this is not an id of a state; {RESTORE}")
        return name


class ServiceState(StateFolder):
    """A state's folder that this process has locked for its lifetime."""

    def __init__(self, folder: Path) -> None:
        self._lock = lock_alone(folder)
        self.id_to_take: str | None = None  # for a new state, if other replicas have one
        super().__init__(folder)

    def begin(self, given: Opening | None, firm: Sequence[str], common: InitialState | None = None) -> bytes:
        """Return the text that the state continues from.

        The state stores the first opening that firm accepts, and refuses any other from then on. If other replicas
        have begun, a new state gets their beginning.
        """
        text = self._choose(given, firm) if common is None else self._take(common, given, firm)
        if self.renewed is not None:
            return self.read_opening()
        self._know(text)
        return text

    def keep_id(self, name: str) -> None:
        """Write the state's id."""
        self.id = name
        try:
            if self._read_id() != name:
                replace_synced(self.id_path, f"{name}\n".encode())
        except OSError as error:
            raise Fault(Exit.STATE, f"cannot keep an id in {self.folder}: {reason(error)}") from error

    def _choose(self, given: Opening | None, firm: Sequence[str]) -> bytes:
        kept = read(self.first) if self.first.path.exists() else None
        if kept is None:
            self._require_new()
        if given is None:
            if kept is None:
                raise Fault(Exit.ROSTER, f"the state {self.folder} is new: name a roster, --roster FILE")
            return kept
        text = read(given)
        if kept is None:
            self._keep(text, given, firm)
        elif kept != text:
            what = kind_of(given.is_state)
            cure = "admit and retire tenants with the operator's lines, or begin a new state"
            if is_extended(given, text) and not is_extended(self.first, kept):
                cure = "a patience needs a new state: see 'Move a tenant, back up' in docs/OPERATING.md"
            message = f"changed-{what}: {given.path} is not the {what} that the state began with, {self.first.path}"
            raise Fault(Exit.ROSTER, f"{message}; {cure}")
        return text

    def _take(self, common: InitialState, given: Opening | None, firm: Sequence[str]) -> bytes:
        if given is not None and not common.is_text(given):
            what = f"is not the {kind_of(common.is_state)} that the other replicas began with"
            raise Fault(Exit.ROSTER, f"changed-{kind_of(given.is_state)}: {given.path} {what}")
        if not self.first.path.exists():
            self._require_new()
            own = Opening(self.restored_path if common.is_state else self.roster_path, common.is_state)
            self._keep(common.text(), given or own, firm)
        return read(self.first)

    def _require_new(self) -> None:
        """Raise a fault if an earlier start has begun the journal."""
        folders = [self.folder / name for name in (JOURNAL, OLD_JOURNAL, NEW_JOURNAL)]
        if self.id is not None or any(path for folder in folders for path in folder.glob("*.lines")):
            what = f"{self.roster_path} or {self.restored_path.name}"
            raise Fault(Exit.JOURNAL, f"{what} is missing, which the state began with; {RESTORE}")

    def _keep(self, text: bytes, given: Opening, firm: Sequence[str]) -> None:
        path = self.restored_path if given.is_state else self.roster_path
        new = path.with_suffix(".new")
        try:
            write_synced(new, text, PRIVATE if given.is_state else 0o666)
            try_opening(Opening(new, given.is_state), given.path, firm)
            new.replace(path)
            sync_folder(self.folder)
        except OSError as error:
            raise Fault(Exit.STATE, f"cannot keep {given.path} in {self.folder}: {reason(error)}") from error


def try_opening(opening: Opening, given: Path, firm: Sequence[str]) -> None:
    """Have firm check a roster or a state, with an empty input."""
    words = [*firm, *opening.words()]
    try:
        done = subprocess.run(
            words, stdin=subprocess.DEVNULL, capture_output=True, text=True, errors="replace", timeout=ROSTER_SECONDS
        )
    except subprocess.TimeoutExpired as error:
        raise Fault(Exit.STATE, f"firm has not checked {given} after {ROSTER_SECONDS} s: killing it") from error
    except OSError as error:
        raise Fault(Exit.FIRM, f"cannot start {words[0]}: {reason(error)}") from error
    said = done.stderr.strip()
    if done.returncode == 3 and not opening.is_state:
        raise Fault(Exit.ROSTER, f"{given}: {said}; firmctl check-roster {given} names line, field and value")
    if done.returncode == 3:
        raise Fault(Exit.ROSTER, f"{given}: {said}")
    if done.returncode:
        raise Fault(Exit.FIRM, f"firm ended with status {done.returncode}, and said: {said}")


def is_extended(opening: Opening, text: bytes) -> bool:
    """Return whether an opening allows tenants a patience."""
    return firm_state.is_extended(text) if opening.is_state else roster.is_extended(text)


def id_of(folder: Path) -> str:
    """Return a new unique id of a state, which distinguishes its line numbers from another's."""
    return (folder / ID).read_text("ascii", "replace").strip()


def kind_of(is_state: bool) -> str:
    return "state" if is_state else "roster"


def read(opening: Opening) -> bytes:
    what = kind_of(opening.is_state)
    try:
        with open(opening.path, "rb") as file:
            text = file.read(MAX_BYTES + 1)
    except OSError as error:
        raise Fault(Exit.ROSTER, f"cannot read the {what} {opening.path}: {reason(error)}") from error
    if len(text) > MAX_BYTES:
        raise Fault(Exit.ROSTER, f"{opening.path} has more than {MAX_BYTES:,} bytes, so it is not a {what}")
    return text
