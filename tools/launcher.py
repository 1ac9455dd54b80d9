#!/usr/bin/env python3
"""Writes the launchers that run the program's WebAssembly by Node.

usage: python3 tools/launcher.py FOLDER

FOLDER/countygroups.mjs is the launcher, packed of web/host/launcher.mjs. On Windows it is called by
FOLDER/countygroups.cmd. Both need FOLDER/countygroups.wasm beside them, which tools/wasm.sh makes.
"""
from __future__ import annotations

import sys
from pathlib import Path

import bundle
from refusal import status_of

ENTRY = bundle.HOST / "launcher.mjs"
FOR_WINDOWS = '@node "%~dp0countygroups.mjs" %*\r\n@exit /b %errorlevel%\r\n'


def write_launchers(folder: Path, entry: Path = ENTRY) -> None:
    """Writes both launchers to `folder`, which has to be there. Node's is packed of `entry`."""
    launcher = folder / "countygroups.mjs"
    launcher.write_text(bundle.node_module(entry), encoding="utf-8", newline="\n")
    launcher.chmod(0o755)
    (folder / "countygroups.cmd").write_text(FOR_WINDOWS, encoding="ascii", newline="")


def main(words: list[str]) -> int:
    """Writes the launchers. 1 if that can't be done, 2 if the words are no folder."""
    if len(words) != 1 or words[0].startswith("-"):
        print(__doc__, end="", file=sys.stderr)
        return 2
    return status_of(lambda: write_launchers(Path(words[0])))


if __name__ == "__main__":
    sys.exit(main(sys.argv[1:]))
