"""Finds the programs that tests need, where a machine may lack them."""
from __future__ import annotations

import os
import shutil
import unittest

# The package of Debian that has each program.
PACKAGES = {
    "chromium": "chromium",
    "firefox-esr": "firefox-esr",
    "fish": "fish",
    "git": "git",
    "groff": "groff",
    "jq": "jq",
    "man": "man-db",
    "node": "nodejs",
    "tsc": "node-typescript",
    "valgrind": "valgrind",
    "zsh": "zsh",
}


class NotThere(unittest.SkipTest):
    """Says what is missing, so that a test can't be run."""


def pass_over(what: str) -> None:
    """Adds the line `what` to the file that COUNTYGROUPS_NOT_RUN names, if it names one.

    `./test.sh` prints these lines at its end, and fails by them with --require-all.
    """
    path = os.environ.get("COUNTYGROUPS_NOT_RUN")
    if path:
        with open(path, "a", encoding="utf-8") as file:
            file.write(f"{what}\n")


def program_there(*names: str) -> str:
    """Returns the path of the first program of these names that is installed.

    Raises `NotThere` if none is. It says which package of Debian has the first one.
    """
    for name in names:
        path = shutil.which(name)
        if path:
            return path
    what = f"there is no `{names[0]}`: Debian has it as the package {PACKAGES[names[0]]}"
    pass_over(what)
    raise NotThere(what)
