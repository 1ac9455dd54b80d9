"""What the tests of web/ work on: the program's WebAssembly, the launcher, what is installed."""
from __future__ import annotations

import random
import shutil
import subprocess
import sys
from collections.abc import Sequence
from dataclasses import dataclass
from pathlib import Path

TOP = Path(__file__).resolve().parent.parent.parent
WEB = TOP / "web"
HOST = WEB / "host"
DATA = TOP / "data" / "nc2020"
CASES = TOP / "cases"
SECONDS = 300

for folder in ("tools", "cases"):
    sys.path.insert(0, str(TOP / folder))

import launcher  # noqa: E402
from installed import NotThere, program_there  # noqa: E402


@dataclass
class Setting:
    """What a run of the tests was asked for. `refusing` and `native` may be left out."""

    wasm: Path = TOP / "dist" / "countygroups.wasm"
    refusing: Path | None = None
    native: Path | None = None
    is_all: bool = False
    seed: int = 1
    jobs: int = 2


SETTING = Setting()


def wasm() -> Path:
    """Returns the file of the program's WebAssembly."""
    if not SETTING.wasm.is_file():
        raise NotThere(f"{SETTING.wasm} isn't there: tools/wasm.sh makes it, --wasm names another")
    return SETTING.wasm


def native() -> Path:
    """Returns the program that is built for this machine."""
    if SETTING.native is None:
        raise NotThere("no program of this machine was named (--native)")
    return SETTING.native


def run_node(*words: str | Path, timeout: float = SECONDS) -> "subprocess.CompletedProcess[str]":
    """Runs Node with these words, and returns what it said."""
    called = [program_there("node"), *map(str, words)]
    return subprocess.run(called, capture_output=True, text=True, timeout=timeout, check=False)


def chosen(among: Sequence[str], count: int, what: str) -> list[str]:
    """Returns `count` of these by the seed and by `what`, or all of them with `--all`."""
    if SETTING.is_all or count >= len(among):
        return list(among)
    return sorted(random.Random(f"{SETTING.seed} {what}").sample(sorted(among), count))


def make_launcher(room: Path, host: Path = HOST) -> Path:
    """Makes dist/ with launcher and module in `room`, and returns a program that runs the launcher.

    `host` is the folder with the host's modules. The program is a script that needs no
    environment: it names Node by its path.
    """
    dist = room / "dist"
    dist.mkdir()
    shutil.copy(wasm(), dist / "countygroups.wasm")
    launcher.write_launchers(dist, host / "launcher.mjs")
    program = room / "countygroups"
    node, module = program_there("node"), dist / "countygroups.mjs"
    program.write_text(f'#!/bin/sh\nexec "{node}" "{module}" "$@"\n')
    program.chmod(0o755)
    return program
