"""Debian's packages for the tests of service/, beside Python and a C compiler."""

from __future__ import annotations

import os
import subprocess

NAMES = ("python3-aiohttp", "python3-prometheus-client", "python3-jsonschema", "openapi-specification")
COMMAND = f"apt-get install {' '.join(NAMES)}"
MODULES = "aiohttp, jsonschema, prometheus_client"
DEBIANS = "/usr/bin"  # the folder of Debian's Python
LOCK_SECONDS = 300  # for another run of apt-get to end


def find_packages() -> bool:
    """Return whether a Python has them: the first on the PATH, or else Debian's, which then becomes the first."""
    if has_packages():
        return True
    path = os.environ.get("PATH", os.defpath)
    os.environ["PATH"] = f"{DEBIANS}:{path}"
    if has_packages():
        return True
    os.environ["PATH"] = path
    return False


def has_packages() -> bool:
    words = ["python3", "-c", f"import {MODULES}"]
    try:
        done = subprocess.run(words, stdin=subprocess.DEVNULL, stdout=subprocess.DEVNULL, stderr=subprocess.DEVNULL)
    except FileNotFoundError:
        return False
    return done.returncode == 0


def install_packages() -> bool:
    """Install them, as root; return whether they are there then."""
    options = ["--yes", "-o", "Acquire::Retries=3", "-o", f"DPkg::Lock::Timeout={LOCK_SECONDS}"]
    environment = {**os.environ, "DEBIAN_FRONTEND": "noninteractive"}
    for words in (["update"], ["install", "--no-install-recommends", *NAMES]):
        try:
            subprocess.run(["apt-get", *options, *words], stdin=subprocess.DEVNULL, env=environment)
        except FileNotFoundError:
            return False
    return find_packages()
