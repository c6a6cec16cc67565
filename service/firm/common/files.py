"""Writes files so that their contents and names survive a crash, and checks who may change a folder."""

from __future__ import annotations

import errno
import os
import stat
from collections.abc import Iterator
from contextlib import suppress
from pathlib import Path
from typing import IO

PRIVATE = 0o600  # of files with rows of several tenants
OWNERS = 0o700  # of a folder
MAX_LINKS = 40  # on the way to a file, as in Linux


def sync_folder(path: Path) -> None:
    """Sync the names in a folder."""
    folder = os.open(path, os.O_RDONLY | os.O_DIRECTORY)
    try:
        os.fsync(folder)
    finally:
        os.close(folder)


def make_folder(path: Path, mode: int = 0o777) -> None:
    """Make a missing folder and those above it, and sync their names.

    Grant the owner all rights, since another thread that makes a socket may have set a umask without them.
    """
    if not path.exists():
        make_folder(path.parent)
        path.mkdir(mode=mode, exist_ok=True)
        rights = stat.S_IMODE(path.stat().st_mode)
        if rights & OWNERS != OWNERS:
            path.chmod(rights | OWNERS)
        sync_folder(path.parent)


def open_lock(path: Path) -> IO[bytes]:
    """Open a file to be locked, and create it if it is missing. Refuse a symbolic link with ELOOP."""
    flags = os.O_RDWR | os.O_CREAT | os.O_NOFOLLOW
    return open(os.open(path, flags, PRIVATE), "r+b", buffering=0)


def require_own(folder: Path) -> None:
    """Raise `PermissionError` for a folder of another user than root: by a link in the place of a file, its owner could
    make this process write elsewhere with this process's rights. Root needs all folders above it too."""
    with suppress(FileNotFoundError):
        owner = folder.stat().st_uid
        if owner not in (0, os.geteuid()):
            raise PermissionError(errno.EPERM, f"it belongs to user {owner}: run this as that user", str(folder))
        if os.geteuid() == 0 and folder.stat().st_mode & stat.S_IWOTH:
            raise PermissionError(errno.EPERM, "all users may write there", str(folder))
    if os.geteuid() == 0:
        require_kept(folder, 0)


def require_kept(path: Path, user: int) -> None:
    """Raise `PermissionError` if another user than root and this one can redirect a path: the owner of a folder on its
    way can, and so can anybody in a folder open to all, such as /tmp, unless root owns the next name."""
    for folder, name in steps_of(path):
        found = folder.stat()
        is_shared = bool(found.st_mode & stat.S_IWOTH) and not is_roots(folder / name, found.st_mode)
        if is_shared or found.st_uid not in (0, user):
            whose = "all users may write there" if is_shared else f"it belongs to user {found.st_uid}"
            raise PermissionError(errno.EPERM, f"{whose}, who could put a link in the place of {name}", str(folder))


def steps_of(path: Path) -> Iterator[tuple[Path, str]]:
    """Yield the existing folders on the way to a path with the names in them, through links."""
    at, left, links = Path("/"), [*reversed(path.absolute().parts[1:])], 0
    while left and at.is_dir():
        name = left.pop()
        yield at, name
        here = at / name
        if here.is_symlink() and links < MAX_LINKS:
            target, links = here.readlink(), links + 1
            at = Path("/") if target.is_absolute() else at
            left += reversed(target.parts[1:] if target.is_absolute() else target.parts)
        else:
            at = at.parent if name == ".." else here


def is_roots(path: Path, mode: int) -> bool:
    """Return whether only root can remove a name from a folder of this mode."""
    with suppress(FileNotFoundError):
        return bool(mode & stat.S_ISVTX) and path.lstat().st_uid == 0
    return False


def write_synced(path: Path, text: bytes, mode: int = 0o666) -> None:
    """Write a file, and return once its text is on the disk; its name may not be. Refuse a symbolic link with ELOOP."""
    with open(os.open(path, os.O_WRONLY | os.O_CREAT | os.O_TRUNC | os.O_NOFOLLOW, mode), "wb") as file:
        file.write(text)
        file.flush()
        os.fsync(file.fileno())


def replace_synced(path: Path, text: bytes, mode: int = 0o666) -> None:
    """Replace a file's text, as a whole or not at all, and sync it."""
    new = path.with_name(f"{path.name}.new")
    try:
        write_synced(new, text, mode)
        new.replace(path)
    except OSError:
        with suppress(OSError):
            new.unlink()
        raise
    sync_folder(path.parent)


def require_room(folder: Path, size: int) -> None:
    """Raise OSError unless a disk has this number of bytes free."""
    found = os.statvfs(folder)
    if found.f_bavail * found.f_frsize < size:
        raise OSError(errno.ENOSPC, f"less than {size:,} bytes free", str(folder))


def is_open(path: Path) -> bool:
    """Return whether a file exists that all users may read."""
    with suppress(OSError):
        return bool(path.stat().st_mode & stat.S_IROTH)
    return False
