"""The version that `--version` prints."""

from __future__ import annotations

import argparse
from pathlib import Path
from typing import Any

RELEASE = Path(__file__).parents[1] / "RELEASE"  # written by tools/release
PROJECT = Path(__file__).parents[3] / "pyproject.toml"  # of a checkout


def version() -> str:
    """Return the release's name; otherwise the version of the checkout, or of the installed Python package."""
    if RELEASE.exists():
        return RELEASE.read_text().strip()
    if PROJECT.exists():
        import tomllib  # here, since its import takes long

        return str(tomllib.loads(PROJECT.read_text())["project"]["version"])
    from importlib import metadata  # here, as above

    return metadata.version("firm-service")


class Version(argparse.Action):
    """An option that prints the version, which is read only if it is given."""

    def __init__(self, option_strings: list[str], dest: str, **_: Any) -> None:
        super().__init__(option_strings, argparse.SUPPRESS, nargs=0, help="print the version and exit")

    def __call__(self, parser: argparse.ArgumentParser, *_: Any) -> None:
        print(f"{parser.prog} {version()}")
        parser.exit()


def add_version(parser: argparse.ArgumentParser) -> None:
    parser.add_argument("--version", action=Version)
