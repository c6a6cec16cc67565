"""Make a release of a proved tree: a tarball, and a package for Debian.

usage: tools/release [--folder FOLDER]      (default: out/release)

The programs are those that ./build.py has proved from the committed sources. If one is not proved, or a file was
changed since, nothing is made. Both files hold the same: programs, service, units for systemd, man pages, completions,
the pages, and `proved.tsv`, which lists each crate with the sum of its sources and the prover's verdict. A second run
of one commit makes the same bytes. It needs git, dpkg-deb, gcc, help2man and python3-shtab, Debian's packages. Exit
status: 0, 1 if a tool fails, 2 for a wrong word, 3 if there is nothing to release.
"""

from __future__ import annotations

import argparse
import gzip
import io
import os
import shutil
import subprocess
import sys
import tarfile
import tempfile
import tomllib
from pathlib import Path
from typing import Mapping, NamedTuple

sys.dont_write_bytecode = True
ROOT = Path(__file__).resolve().parents[1]

import prover  # noqa: E402 (this leaves no file behind)
from build import Build  # noqa: E402

PROGRAMS = {
    "firm": "places the tasks of many tenants at the lowest cost",
    "firm_explain": "explains each placement of a stream of commands",
    "firm_state": "writes the state behind a stream, a part of it, or two as one",
}
SERVICES = {
    "firmd": "serves firm to many clients",
    "firmctl": "shows what firmd and firm-api do, and submits work",
    "firm-agent": "runs the tasks that firm places",
    "firm-api": "serves firmd as HTTP and JSON, and takes work from users",
    "firm-slurm": "has Slurm run what firm decides",
}
PARSERS = {  # modules with the parsers of command lines; the others' completions come from their help
    "firmd": "firm.server.daemon",
    "firmctl": "firm.cli.firmctl",
    "firm-agent": "firm.agent.daemon",
    "firm-api": "firm.api.daemon",
    "firm-slurm": "firm.slurm.daemon",
}
SERVICE = "lib/firm/service"  # not beside the program firm, since the package has that name too
SYSTEMD = {".service": "lib/systemd/system", ".conf": "lib/sysusers.d", ".tmpfiles": "lib/tmpfiles.d"}
DERIVE = ROOT / "tools" / "parsers.py"
SHTAB = """
import importlib, shtab, sys
print(shtab.complete(importlib.import_module(sys.argv[1]).parser(), "zsh"))
"""
SUPERVISOR = "from firm.agent import supervisor; supervisor.build()"
# Programs in lib/firm are the proved ones, byte for byte, so they can't name their commit.
WRAPPER = """#!/bin/sh
case $* in
    --version | -V)
        echo "{program} {release}, commit {commit}, proved"
        exit
        ;;
esac
file=$(PATH=$PATH:/usr/bin:/bin readlink -f "$0")
exec "${{file%/bin/*}}/lib/firm/{program}" "$@"
"""
PYTHON = "/usr/bin/python3"  # Debian's, which has its packages
PACKAGES = "lib/python3/dist-packages"  # its folder for packages
NOTHING_STATUS = 3
LAST_COMMIT = ("git", "log", "-1", "--date=format:%Y%m%d", "--format=%H %ct %cd %an <%ae>")


class Refused(Exception):
    """Signals that there is nothing to release, for this reason."""


class Version(NamedTuple):
    """The release's name, its commit, the commit's date in seconds since 1970, and its author."""

    name: str
    commit: str
    date: int
    author: str


def output_of(*words: str | Path, folder: Path = ROOT, **environment: str) -> str:
    """Return a command's output."""
    done = subprocess.run(
        words,
        cwd=folder,
        env={**os.environ, "PYTHONDONTWRITEBYTECODE": "1", **environment},
        stdin=subprocess.DEVNULL,
        stdout=subprocess.PIPE,
        text=True,
        check=True,
    )
    return done.stdout


def version() -> Version:
    """Return the commit's version; refuse if the files are not those of a commit."""
    try:
        changed = output_of("git", "status", "--porcelain")
        commit, date, day, author = output_of(*LAST_COMMIT).rstrip("\n").split(" ", 3)
    except subprocess.CalledProcessError:
        raise Refused(f"{ROOT} is not a checkout of a commit") from None
    if changed:
        raise Refused(f"files differ from the commit's:\n{changed.rstrip()}")
    number = tomllib.loads((ROOT / "pyproject.toml").read_text())["project"]["version"]
    return Version(f"{number}+git{day}.{commit[:10]}", commit, int(date), author)


def proved(commit: str) -> str:
    """Return the list of proved crates; refuse if a program, or a crate that it depends on, is not proved."""
    crates = prover.crates_of_repository()
    build = Build([crates[name] for name in PROGRAMS])
    if build.left:
        names = ", ".join(crate.name for crate in build.left)
        raise Refused(f"not proved: {names}; ./build.py {' '.join(PROGRAMS)} proves what is left")
    rows = [("commit", commit, ""), ("kit", prover.kit_identity(), "")]
    for crate in build.stamps:
        log = prover.made(crate).with_name("log").read_text(errors="replace").splitlines()
        verdict = next(line for line in reversed(log) if line.startswith("logic=proved "))
        rows.append((crate.name, prover.sum_of_sources(crate), verdict))
    return "".join("\t".join(row) + "\n" for row in rows)


def copy(source: Path, to: Path, mode: int = 0o644) -> None:
    to.parent.mkdir(parents=True, exist_ok=True)
    shutil.copyfile(source, to)
    to.chmod(mode)


def write(to: Path, text: str) -> None:
    to.parent.mkdir(parents=True, exist_ok=True)
    to.write_text(text)


def add_programs(top: Path, programs: Mapping[str, Path], release: Version) -> None:
    for name, file in programs.items():
        copy(file, top / "lib/firm" / name, 0o755)
        write(top / "bin" / name, WRAPPER.format(program=name, release=release.name, commit=release.commit))
        (top / "bin" / name).chmod(0o755)


def add_service(top: Path, release: Version) -> None:
    """Add the service, with a link to each program that users call, and one for Python programs that import it."""
    for name in output_of("git", "ls-files", "-z", "service").split("\0")[:-1]:
        source, within = ROOT / name, Path(name).relative_to("service")
        to = top / SERVICE / within
        if within.parts[0] == "systemd":
            to = top / SYSTEMD[within.suffix] / within.name.replace(".tmpfiles", ".conf")
        copy(source, to, 0o755 if os.access(source, os.X_OK) else 0o644)
    for name in SERVICES:
        (top / "bin" / name).symlink_to(f"../{SERVICE}/{name}")
    output_of(PYTHON, "-c", SUPERVISOR, PYTHONPATH=str(top / SERVICE))
    write(top / SERVICE / "firm/RELEASE", f"{release.name}\n")
    (top / PACKAGES).mkdir(parents=True)
    (top / PACKAGES / "firm").symlink_to("../../firm/service/firm")


def add_pages(top: Path) -> None:
    """README and the pages, examples among them, and each setting of the server."""
    for name in output_of("git", "ls-files", "-z", "README.md", "CHANGELOG.md", "docs", "examples").split("\0")[:-1]:
        mode = 0o755 if os.access(ROOT / name, os.X_OK) else 0o644
        copy(ROOT / name, top / "share/doc/firm" / name, mode)
    write(top / "share/doc/firm/firm.toml", output_of(top / "bin/firmctl", "check", "--defaults"))


def derived(top: Path, form: str, program: str) -> Path:
    """Return a file beside the release with the output of its installed parser, in one of the forms of
    tools/parsers.py."""
    path = top.with_name(f"{program}.{form}")
    path.write_text(output_of(PYTHON, DERIVE, form, PARSERS[program], PYTHONPATH=str(top / SERVICE)))
    return path


def add_manual(top: Path, release: Version) -> None:
    """Add man pages: each program's own help, and the options of its verbs."""
    pages = top / "share/man/man1"
    pages.mkdir(parents=True, exist_ok=True)
    for program, purpose in (PROGRAMS | SERVICES).items():
        words = ["--no-info", "--section", "1", "--source", f"firm {release.name}", "--name", purpose]
        words += ["--version-string", release.name]
        if program in PARSERS and (verbs := derived(top, "man", program)).stat().st_size:
            words.append(f"--include={verbs}")
        path, epoch = f"{top}/bin:{os.environ['PATH']}", str(release.date)
        text = output_of("help2man", *words, top / "bin" / program, PATH=path, SOURCE_DATE_EPOCH=epoch)
        (pages / f"{program}.1.gz").write_bytes(gzip.compress(text.encode(), mtime=0))


def add_completions(top: Path) -> None:
    """Add completions of bash and zsh."""
    bash, zsh = top / "share/bash-completion/completions", top / "share/zsh/vendor-completions"
    for program in PROGRAMS | SERVICES:
        if program in PARSERS:
            found = [
                derived(top, "bash", program).read_text(),
                output_of(PYTHON, "-c", SHTAB, PARSERS[program], PYTHONPATH=str(top / SERVICE)),
            ]
        else:
            found = [f"complete -F _longopt {program}\n", f"#compdef {program}\n_gnu_generic\n"]
        write(bash / program, found[0])
        write(zsh / f"_{program}", found[1])


def lay_out(top: Path, programs: Mapping[str, Path], release: Version, proofs: str) -> None:
    """Put all files of the release below a folder that stands for /usr, with these files as the programs."""
    add_programs(top, programs, release)
    add_service(top, release)
    add_pages(top)
    add_manual(top, release)
    add_completions(top)
    write(top / "share/doc/firm/proved.tsv", proofs)


def make_tarball(top: Path, release: Version, to: Path) -> None:
    """Pack the folder, so that the same files give the same bytes."""

    def plain(entry: tarfile.TarInfo) -> tarfile.TarInfo:
        entry.uid = entry.gid = 0
        entry.uname = entry.gname = "root"
        entry.mtime = release.date
        return entry

    packed = io.BytesIO()
    with tarfile.open(fileobj=packed, mode="w") as archive:
        for path in sorted(top.rglob("*")):
            name = Path(f"firm-{release.name}") / path.relative_to(top)
            archive.add(path, str(name), recursive=False, filter=plain)
    to.write_bytes(gzip.compress(packed.getvalue(), mtime=release.date))


def make_package(top: Path, release: Version, to: Path) -> None:
    """Make Debian's package, of the same files below /usr."""
    root = to.with_suffix(".root")
    shutil.copytree(top, root / "usr", symlinks=True)
    size = sum(path.lstat().st_size for path in root.rglob("*") if path.is_file()) // 1024
    control = {
        "Package": "firm",
        "Version": release.name,
        "Architecture": "amd64",
        "Maintainer": release.author,
        "Installed-Size": str(size),
        "Depends": "libc6 (>= 2.34), python3 (>= 3.11), python3-aiohttp",
        "Recommends": "python3-prometheus-client",
        "Section": "admin",
        "Priority": "optional",
        "Description": "scheduling service for shared clusters, proved correct\n"
        " firm places the tasks of many tenants at the lowest possible cost. The scheduler is\n"
        " proved; the service around it, in Python, is tested.",
    }
    write(root / "DEBIAN/control", "".join(f"{key}: {value}\n" for key, value in control.items()))
    epoch = str(release.date)
    output_of("dpkg-deb", "--root-owner-group", "--build", root, to, SOURCE_DATE_EPOCH=epoch)
    shutil.rmtree(root)


def make(folder: Path) -> list[Path]:
    """Make both files, and return their paths."""
    release = version()
    proofs = proved(release.commit)
    crates = prover.crates_of_repository()
    programs = {name: prover.made(crates[name]) for name in PROGRAMS}
    folder.mkdir(parents=True, exist_ok=True)
    with tempfile.TemporaryDirectory(dir=folder) as name:
        os.umask(0o022)
        top = Path(name) / "usr"
        lay_out(top, programs, release, proofs)
        made = [Path(name) / f"firm-{release.name}.tar.gz", Path(name) / f"firm_{release.name}_amd64.deb"]
        make_tarball(top, release, made[0])
        make_package(top, release, made[1])
        return [path.replace(folder / path.name) for path in made]


def main() -> int:
    parser = argparse.ArgumentParser(description=(__doc__ or "").splitlines()[0])
    parser.add_argument("--folder", type=Path, default=ROOT / "out/release", help="folder for the files")
    folder = parser.parse_args().folder.resolve()
    try:
        print(*make(folder), sep="\n")
    except (Refused, prover.NoKit) as reason:
        print(f"release: {reason}", file=sys.stderr)
        return NOTHING_STATUS
    except FileNotFoundError as error:
        print(f"release: there is no {error.filename}", file=sys.stderr)
        return 1
    except subprocess.CalledProcessError as error:
        print(f"release: {error}", file=sys.stderr)
        return 1
    return 0


if __name__ == "__main__":
    sys.exit(main())
