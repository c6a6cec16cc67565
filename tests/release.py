"""Make a release of the built programs, install it into an empty root, and play the tutorial there, without a kit.

usage: tools/run tests/release.py
Each check prints a line; the last line is 'N passed, M failed', and the exit status is 1 if one failed. It needs
dpkg-deb, help2man and python3-shtab, Debian's packages; a check that can't run here is skipped with a line.
"""

from __future__ import annotations

import argparse
import gzip
import importlib
import importlib.machinery
import importlib.util
import os
import shutil
import subprocess
import sys
import tempfile
import tomllib
from functools import partial
from pathlib import Path
from types import ModuleType

import firmd_kit
import launcher
from front_kit import api_of
from harness import sessions
from harness.checks import Check, Skipped, Suite, require, run_script, run_suites
from harness.program import ROOT, built
from tools import parsers

TOOL = ROOT / "tools" / "release.py"
NEEDED = ("dpkg-deb", "dpkg", "help2man")
SECONDS = 600
EXAMPLES = ROOT / "examples"
TUTORIAL = ROOT / "docs" / "TUTORIAL.md"
# Completes each line of words, with tabs between them, as bash does the last one when TAB is pressed.
COMPLETE = r"""
source "$1"
[[ $(complete -p "$2") =~ -F\ ([^ ]+) ]]
function=${BASH_REMATCH[1]}
complete -p "$2"
while IFS= read -r line; do
    mapfile -t -d $'\t' COMP_WORDS < <(printf %s "$line")
    [[ $line == *$'\t' ]] && COMP_WORDS+=('')
    COMP_CWORD=$((${#COMP_WORDS[@]} - 1)) COMPREPLY=()
    "$function"
    echo "${COMPREPLY[*]}"
done
"""
NAME = "0.1.0+git20260102.0123456789"
DIST = "usr/lib/python3/dist-packages"
UNITS = ["firm-agent@.service", "firm.service"]
PROOFS = "firm_rules\tsum\tlogic=proved\n"


def tool() -> ModuleType:
    """Return the script as a module."""
    loader = importlib.machinery.SourceFileLoader("release_tool", str(TOOL))
    spec = importlib.util.spec_from_loader("release_tool", loader)
    assert spec
    found = importlib.util.module_from_spec(spec)
    loader.exec_module(found)
    return found


def output_of(words: list[str | Path], stdin: bytes = b"", **environment: str) -> bytes:
    """Return a command's output, in an environment that has only its path."""
    done = subprocess.run(words, input=stdin, capture_output=True, cwd="/", env=environment, timeout=SECONDS)
    require(done.returncode == 0, f"{words}: status {done.returncode}: {done.stderr.decode()}")
    return done.stdout


def needs(release: ModuleType) -> None:
    missing = [name for name in NEEDED if shutil.which(name) is None]
    if subprocess.run([release.PYTHON, "-c", "import shtab"], capture_output=True).returncode:
        missing.append("python3-shtab")
    if missing:
        raise Skipped(f"there is no {' and no '.join(missing)}")


def installed() -> None:
    """The package installs into an empty root; its programs answer there, and its service serves."""
    release = tool()
    needs(release)
    programs = {name: built(name) for name in release.PROGRAMS}
    if missing := [name for name, file in programs.items() if not file.exists()]:
        raise Skipped(f"not built: ./build.py {' '.join(missing)}")
    with tempfile.TemporaryDirectory(prefix="firm-") as name:
        folder = Path(name)
        version = release.Version(NAME, "0" * 40, 1767312000, "One <one@example.org>")
        release.lay_out(folder / "usr", programs, version, PROOFS)
        packs_alike(release, folder, version)
        root = unpack(folder / "firm.deb", folder)
        files_are_there(release, root)
        programs_answer(release, root)
        serves(root)
        if os.geteuid() == 0:  # the tutorial is written for root
            plays_tutorial(root)


def packs_alike(release: ModuleType, folder: Path, version: object) -> None:
    """The same files give the same bytes; the package is left as firm.deb."""
    for make, name in ((release.make_tarball, "firm.tar.gz"), (release.make_package, "firm.deb")):
        for file in (folder / name, folder / f"again-{name}"):
            make(folder / "usr", version, file)
        require((folder / name).read_bytes() == (folder / f"again-{name}").read_bytes(), name)
    packed = output_of(["tar", "-tzf", folder / "firm.tar.gz"], PATH=os.environ["PATH"]).decode()
    require(f"firm-{NAME}/bin/firmd\n" in packed, packed)


def unpack(package: Path, folder: Path) -> Path:
    """Install the package into a separate root."""
    root = folder / "root"
    (root / "var/lib/dpkg").mkdir(parents=True)
    (root / "var/lib/dpkg/status").touch()
    flags = ["--force-depends", "--force-not-root", f"--root={root}", "--log=/dev/null"]
    output_of(["dpkg", *flags, "--install", package], PATH=f"{os.environ['PATH']}:/usr/sbin:/sbin")  # with ldconfig
    return root


def files_are_there(release: ModuleType, root: Path) -> None:
    """Each program has its page and its completions, systemd takes the units, and tasks have their supervisor."""
    supervisor = root / "usr" / release.SERVICE / "firm/agent/firm-supervisor"
    require(os.access(supervisor, os.X_OK) and supervisor.stat().st_size < 100_000, "the supervisor")
    share = root / "usr/share"
    for program in release.PROGRAMS | release.SERVICES:
        page = gzip.decompress((share / f"man/man1/{program}.1.gz").read_bytes()).decode()
        require(page.startswith('.\\" DO NOT MODIFY') and ".SH NAME" in page and "0.1.0+git" in page, page[:200])
        if program in release.SERVICES:
            completes(release, program, share / f"bash-completion/completions/{program}")
            for verb, one in parsers.verbs_of(parser_of(release, program)).items():
                require(f".SS {verb}\n".replace("-", "\\-") in page.replace('"', ""), f"{program} {verb}: {page}")
                lacking = [word for word in parsers.options_of(one) if shown_in(page, word) is None]
                require(not lacking, f"{program} {verb}: its page lacks {lacking}")
        require((share / f"zsh/vendor-completions/_{program}").read_text().startswith("#compdef "), program)
    require((share / "doc/firm/proved.tsv").read_text() == PROOFS, "what was proved")
    units = sorted((root / "usr/lib/systemd/system").iterdir())
    require([unit.name for unit in units] == UNITS, units)
    for folder in ("sysusers.d", "tmpfiles.d"):
        require((root / f"usr/lib/{folder}/firm.conf").exists(), folder)
    settings = (share / "doc/firm/firm.toml").read_text()
    require(tomllib.loads(settings) == {} and "#state = " in settings, settings)
    if shutil.which("systemd-analyze"):
        takes_units(root, [unit.name.replace("@.", "@alpha.") for unit in units])


def parser_of(release: ModuleType, program: str) -> argparse.ArgumentParser:
    found: argparse.ArgumentParser = importlib.import_module(release.PARSERS[program]).parser()
    return found


def shown_in(page: str, action: argparse.Action) -> str | None:
    """Return the option's last form if a page shows it."""
    form = action.option_strings[-1]
    return form if form.replace("-", "\\-") in page else None


def completes(release: ModuleType, program: str, file: Path) -> None:
    """bash completes each verb, option and choice of a program, and file names where there are none of these."""
    parser, expected = parser_of(release, program), list[tuple[tuple[str, ...], set[str]]]()
    verbs = parsers.verbs_of(parser)
    for word in ("", *(verb[:2] for verb in verbs)):
        expected.append(((program, word), {verb for verb in verbs if verb.startswith(word)}))
    for begin, one in [((program,), parser), *(((program, verb), one) for verb, one in verbs.items())]:
        options = {word for action in parsers.options_of(one) for word in action.option_strings}
        for word in ("-", "--", *options):
            expected.append(((*begin, word), {option for option in options if option.startswith(word)}))
        for action in parsers.options_of(one):
            if action.nargs != 0:
                choices = set(map(str, action.choices or ()))
                expected.append(((*begin, action.option_strings[-1], ""), choices))
    lines = "".join("\t".join(words) + "\n" for words, _ in expected)
    found = subprocess.run(["bash", "-c", COMPLETE, "-", file, program], input=lines, capture_output=True, text=True)
    require(found.returncode == 0 and not found.stderr, found)
    first, *answers = found.stdout.splitlines()
    require(" -o default " in first and len(answers) == len(expected), found.stdout)
    for (words, wanted), answer in zip(expected, answers):
        require(set(answer.split()) == wanted, f"{' '.join(words)}<TAB>: {answer!r}, not {' '.join(sorted(wanted))!r}")


def completions() -> None:
    """Completions that are made of the tree's own parsers complete in bash."""
    release = tool()
    with tempfile.TemporaryDirectory(prefix="firm-") as name:
        for program in release.PARSERS:
            file = Path(name) / program
            file.write_text(parsers.bash(parser_of(release, program)))
            completes(release, program, file)
        file = Path(name) / "firmctl"
        words = (
            "firmctl\t--server\ts\tcancel\t--j\nfirmctl\tsubmit\t--job\tweb\t--\tbas\nfirmctl\tsubmit\t--\tls\t--j\n"
        )
        found = subprocess.run(
            ["bash", "-c", COMPLETE, "-", file, "firmctl"], input=words, capture_output=True, text=True
        )
        _, option, command, word = found.stdout.split("\n")[:4]
        require((option, word) == ("--json --job", "") and "bash" in command.split(), found)


def takes_units(root: Path, units: list[str]) -> None:
    """Require that systemd would start these; in an empty root only its own targets may be missing."""
    words = ["systemd-analyze", "verify", f"--root={root}", "--man=no", *units]
    done = subprocess.run(words, stdin=subprocess.DEVNULL, capture_output=True, text=True, timeout=SECONDS)
    lines = [line for line in done.stderr.splitlines() if ".target" not in line and ".slice" not in line]
    require(not [line for line in lines if "firm" in line], done.stderr)


def programs_answer(release: ModuleType, root: Path) -> None:
    """firm answers the examples, firm_explain and firm_state too, with only the root on the path."""
    path = f"{root}/usr/bin"
    opened = ["--roster", str(EXAMPLES / "roster.csv")]
    commands = (EXAMPLES / "commands.txt").read_bytes()
    system = f"{path}:/usr/bin:/bin"
    told = f"firm {NAME}, commit {'0' * 40}, proved\n".encode()
    require(output_of([f"{path}/firm", "--version"], PATH=system) == told, "its release")
    for program in release.PROGRAMS:
        require(
            output_of([f"{path}/{program}", "--version"], PATH=system) == told.replace(b"firm", program.encode(), 1),
            program,
        )
    for program in release.SERVICES:
        require(output_of([f"{path}/{program}", "--version"], PATH=system) == f"{program} {NAME}\n".encode(), program)
    imported = "from firm.client import ApiClient; import firm; print(firm.__file__)"
    place = output_of(
        [release.PYTHON, "-E", "-c", f"import sys; sys.path.append(sys.argv[1]); {imported}", root / DIST], PATH=system
    )
    require(place.decode().startswith(f"{root}/usr/lib/"), place)
    require(
        output_of(["firm", "--help", "--version"], PATH=system).startswith(b"Decides where"), "the program's own words"
    )
    output = output_of([f"{path}/firm", *opened], commands, PATH=system)
    require(output == (EXAMPLES / "expected.txt").read_bytes(), output)
    require(b"# least" in output_of([f"{path}/firm_explain", *opened], commands, PATH=path), "the reasons")
    require(output_of([f"{path}/firm_state", *opened], commands, PATH=path).startswith(b"firm state"), "the state")


def path_of(root: Path) -> str:
    """Return the path of a root's programs, then the system's."""
    return f"{root}/usr/bin:{Path(sys.executable).parent}:/usr/bin:/bin"


def plays_tutorial(root: Path) -> None:
    """The installed programs play the tutorial, except its first console, which installs others."""
    installing, *consoles = sessions.consoles_of(TUTORIAL)
    text = "$ mkdir out\n" + "".join(console.text for console in consoles)
    sessions.play_console(installing._replace(text=text), path_of(root))


def serves(root: Path) -> None:
    """The installed firmd finds the installed firm, and the installed firmctl reaches it by firm-api."""
    path = path_of(root)
    with firmd_kit.Setup(f"{root}/usr/bin/firm", True, 1).daemon() as daemon:
        daemon.words = [f"{root}/usr/bin/firmd"]
        daemon.start()
        with daemon.client() as client:
            require(client.ask(b"alpha job web 10") == b"alpha 1 ok", "a reply")
        with api_of(daemon.state, "alpha") as server:
            jobs = output_of([f"{root}/usr/bin/firmctl", "--server", server, "jobs"], PATH=path)
        require(b"web" in jobs, jobs)
        daemon.stop()


def refused(place: launcher.Place) -> None:
    """Without a commit, after a change, and before a proof the release is refused with the reason."""
    (place.top / "tools").mkdir()
    for name in ("tools/release", "tools/release.py", "tools/run", "pyproject.toml"):
        shutil.copy2(ROOT / name, place.top / name)
    (place.top / ".gitignore").write_text("out/\nasked\n")
    git = ["git", "-c", "user.name=one", "-c", "user.email=one@example.org"]
    path = f"{place.paths[True]}:{os.environ['PATH']}"

    def refusal() -> str:
        done = subprocess.run(
            [place.top / "tools/release"],
            env={**os.environ, "PATH": path, "GIT_CEILING_DIRECTORIES": str(place.room)},
            stdin=subprocess.DEVNULL,
            capture_output=True,
            text=True,
            timeout=SECONDS,
        )
        require(done.returncode == 3 and not done.stdout, done)
        require(not (place.top / "out/release").exists(), "a folder is left")
        return done.stderr

    require("is not a checkout" in refusal(), refusal())
    for words in (["init", "-q"], ["add", "-A"], ["commit", "-q", "-m", "one"]):
        subprocess.run([*git, *words], cwd=place.top, check=True)
    require("not proved: firm_arena, " in refusal(), refusal())
    place.write("crates/firm/src/main.rt", launcher.TWO_LINES)
    require("crates/firm/src/main.rt" in refusal(), refusal())


def main() -> int:
    argparse.ArgumentParser(description=(__doc__ or "").splitlines()[0]).parse_args()
    os.environ.pop("PYTHONPATH", None)  # the installed programs must find their own package
    checks: dict[str, Check] = {
        "refused": partial(launcher.run_in_place, refused),
        "completions": completions,
        "installed": installed,
    }
    return run_suites(Suite(checks))


if __name__ == "__main__":
    run_script(main)
