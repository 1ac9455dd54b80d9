#!/usr/bin/env python3
"""Prints the version of the packages, once all places that name it agree.

usage: python3 tools/versions.py

The version stands in `python/countygroups/version.py`. The places that have to agree are that of R
(`r/DESCRIPTION` and the first heading of `r/NEWS.md`), `CITATION.cff`, and the newest release in
`CHANGELOG.md`, whose heading also has the day, and the program's own. npm's and Debian's packages
take it from here.
Statuses: 0 all agree, 1 some differ, and standard error says which, 2 these are no words of it.
"""
from __future__ import annotations

import re
import sys
from pathlib import Path

TOP = Path(__file__).resolve().parent.parent
NUMBER = r"([0-9]+\.[0-9]+\.[0-9]+)"
FIRST = "python/countygroups/version.py"
# In which files the version stands, and in what line.
PLACES = {
    FIRST: rf'^VERSION = "{NUMBER}"$',
    "r/DESCRIPTION": rf"^Version: {NUMBER}$",
    "r/NEWS.md": rf"^# countygroups {NUMBER}$",
    "CITATION.cff": rf"^version: {NUMBER}$",
    "CHANGELOG.md": rf"^## \[{NUMBER}\] - [0-9]{{4}}-[0-9]{{2}}-[0-9]{{2}}$",
    "crates/cli_words/specs/Version.antt": rf'codes "{NUMBER} \(logic ',
}


def versions(top: Path) -> dict[str, str]:
    """Returns the version that each place of the repository at `top` has, or "none"."""
    found = {}
    for name, pattern in PLACES.items():
        match = re.search(pattern, (top / name).read_text(encoding="utf-8"), re.M)
        found[name] = match[1] if match else "none"
    return found


def main(words: list[str]) -> int:
    """Prints the version."""
    if words:
        print(__doc__, end="", file=sys.stderr)
        return 2
    found = versions(TOP)
    wanted = found[FIRST]
    for name, version in found.items():
        if version != wanted or version == "none":
            print(f"versions.py: {name} has the version {version}, not {wanted}", file=sys.stderr)
    if set(found.values()) != {wanted} or wanted == "none":
        return 1
    print(wanted)
    return 0


if __name__ == "__main__":
    sys.exit(main(sys.argv[1:]))
