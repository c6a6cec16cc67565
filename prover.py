"""Facts about the prover for scripts: the kit's folder, the crates, a crate's words for `rattle`, stamps.

A crate is built into an *rlib*, which the crates above it are proved over. A *stamp* is a sum over all inputs of an
rlib: if a crate's stamp is unchanged, so is its rlib, and nothing needs to be proved.
"""

from __future__ import annotations

import functools
import hashlib
import re
import subprocess
from dataclasses import dataclass
from pathlib import Path
from typing import Callable, Iterable

ROOT = Path(__file__).resolve().parent
# The logic in which the crates are proved. It identifies a kit: two kits of one logic prove the same.
LOGIC = "dac8208d650f15bf"
PARTS = ("src", "specs", "proofs")  # the folders of a crate that the prover reads


class NoKit(Exception):
    """Signals that there is no kit: rt is not on the PATH, or names none."""


@functools.cache
def kit() -> Path:
    """Return the kit's folder: that of the page which `rt doc` names."""
    try:
        done = subprocess.run(["rt", "doc"], stdin=subprocess.DEVNULL, capture_output=True, text=True)
    except FileNotFoundError:
        raise NoKit("rt of the Rattle kit is not on the PATH") from None
    page = Path(done.stdout.strip())
    if done.returncode or not (page.parent / "bin" / "rattle").exists():
        raise NoKit(f"rt doc names no page of a Rattle kit: {done.stdout or done.stderr}")
    return page.parent


def kit_identity() -> str:
    """Return the kit's identity, as `rattle-kit-13b logic dac8208d650f15bf`."""
    for name in ("KIT-ID", "WHAT"):
        if (kit() / name).exists():
            return (kit() / name).read_text().strip()
    raise NoKit(f"{kit()} has no file KIT-ID")


def kit_logic() -> str:
    """Return the kit's logic, by its own word; empty if it does not report one."""
    found = re.search(r"\blogic (\w+)", kit_identity())
    return found[1] if found else ""


@dataclass(frozen=True, eq=False)
class Crate:
    """A crate of the repository, with the libraries of its line in crates.txt: the repository's, and the kit's."""

    name: str
    libraries: tuple[Crate, ...]
    of_kit: tuple[str, ...]

    @property
    def folder(self) -> Path:
        return ROOT / "crates" / self.name

    @functools.cached_property
    def below(self) -> tuple[Crate, ...]:
        """Return all crates of the repository that it depends on, lowest first."""
        found: dict[Crate, None] = {}
        for library in self.libraries:
            found.update(dict.fromkeys([*library.below, library]))
        return tuple(found)

    @property
    def is_program(self) -> bool:
        return (self.folder / "src" / "main.rt").exists()

    def sources(self) -> list[Path]:
        """Return the files that the prover reads of it."""
        return sorted(file for part in PARTS for file in (self.folder / part).rglob("*") if file.is_file())


def crates_of_repository() -> dict[str, Crate]:
    """Return the crates of crates.txt by their names, each after its dependencies."""
    lines = (line.partition("#")[0].partition(":") for line in (ROOT / "crates.txt").read_text().splitlines())
    listed = {name.split()[0]: libraries.split() for name, _, libraries in lines if name.strip()}
    found: dict[str, Crate] = {}

    def add(name: str) -> Crate:
        if name not in found:
            own = tuple(add(library) for library in listed[name] if library in listed)
            found[name] = Crate(name, own, tuple(library for library in listed[name] if library not in listed))
        return found[name]

    for name in listed:
        add(name)
    return found


def words(crate: Crate, libraries: Callable[[Crate], Path]) -> list[str]:
    """Return the words of `rattle check` and `rattle build`, run in the crate's folder, for the crate and its
    dependencies.

    `libraries` returns the path of each crate's rlib.
    """
    place = kit()
    found = ["--crate-name", crate.name, "src/main.rt" if crate.is_program else "src/lib.rt"]
    for name in ("std", *crate.of_kit):
        found += ["--extern", f"{name}={place}/rlibs/{name}.rlib"]
    found += ["-L", f"dependency={place}/rlibs"]
    for library in crate.libraries:
        found += ["--extern", f"{library.name}={libraries(library)}"]
    for folder in dict.fromkeys(libraries(library).parent for library in crate.below):
        found += ["-L", f"dependency={folder}"]
    found += ["--antt-project", f"{place}/rattle/logic/antt-project.json", "--logic-built", f"{place}/logic_built"]
    return [*found, "--links", f"{crate.name}="]


def made(crate: Crate) -> Path:
    """Return the folder of build.py's results for a crate: its rlib, of statements alone, or the program."""
    return crate.folder / "out" / "statements" / (crate.name if crate.is_program else f"{crate.name}.rlib")


def stamp_file(crate: Crate) -> Path:
    """Return the file with the stamp of a crate's product; the file exists only beside that product."""
    return made(crate).with_name("stamp")


def stamp_of_made(crate: Crate) -> str:
    """Return the stamp of a crate's product; empty without a product, or if it may be of other sources."""
    file = stamp_file(crate)
    return file.read_text() if file.exists() and made(crate).exists() else ""


def sum_of_sources(crate: Crate) -> str:
    """Return a sum over the crate's name, its line in crates.txt, and its files by path and content."""
    libraries = sorted([*(library.name for library in crate.libraries), *crate.of_kit])
    parts = [crate.name.encode(), " ".join(libraries).encode()]
    for file in crate.sources():
        parts += [str(file.relative_to(crate.folder)).encode(), file.read_bytes()]
    return sum_of(parts)


def sum_of_dates(crate: Crate) -> str:
    """Return a sum that changes if a file of the crate is written, even with its former content."""
    return sum_of(f"{file} {file.stat().st_mtime_ns}".encode() for file in crate.sources())


def stamp(sources: str, below: Iterable[str]) -> str:
    """Return the stamp of the kit's product of a crate with this sum of its sources, over rlibs with these stamps."""
    return sum_of(part.encode() for part in (kit_identity(), sources, *sorted(below)))


def sum_of(parts: Iterable[bytes]) -> str:
    """Return a sum that no other list of parts has."""
    total = hashlib.sha256()
    for part in parts:
        total.update(hashlib.sha256(part).digest())
    return total.hexdigest()
