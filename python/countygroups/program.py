"""Finds the program, runs it, and tells its progress."""
from __future__ import annotations

import importlib.util
import os
import platform
import re
import shutil
import sys
import time
from dataclasses import dataclass
from pathlib import Path
from typing import Callable, Sequence

from .errors import ProgramNotFound
from .running import HAS_TERMINALS, run_on_terminal, run_watched

VARIABLE = "COUNTYGROUPS"
# Where the program lies: in the package that was installed, or in the repository of this folder.
INSIDE = Path(__file__).resolve().parent / "bin"
DIST = Path(__file__).resolve().parents[2] / "dist"
NATIVE = "countygroups-x86_64-linux"
BY_NODE = "countygroups.mjs"
WASM = "countygroups.wasm"
# Runs the script that `wasm_host.py` is, with the folder of wasmtime. The folder that Python is
# started in has none of its modules.
BY_WASMTIME = """
import runpy, sys
sys.path = [*filter(None, sys.path), sys.argv.pop(1)]
runpy.run_path(sys.argv.pop(1), run_name="__main__")
"""

# What the program writes before a line of progress: to the beginning of the line, and clear it.
CLEAR = b"\r\x1b[K"
PROGRESS = re.compile(
    r"countygroups: groups of up to ([0-9]+) counties, best counts so far((?: [0-9]+)*)( \.\.)?, "
    r"([0-9]+) of ([0-9]+) steps"
)


@dataclass(frozen=True)
class Progress:
    """Says how far a search is.

    `most_counties` is the greatest size of the round's groups, `counts` has the counts of the best
    grouping so far (of groups of up to 16 counties), `steps` were taken of `allowed` ones. `line`
    is what the program wrote. As long as it wrote nothing, numbers are 0 and `line` is empty.
    """

    most_counties: int
    counts: tuple[int, ...]
    steps: int
    allowed: int
    line: str


Tell = Callable[[Progress], object]
NOTHING_YET = Progress(0, (), 0, 0, "")


@dataclass(frozen=True)
class Run:
    """Is what a run of the program wrote: status, standard output, lines of standard error."""

    status: int
    output: str
    messages: tuple[str, ...]


def progress_of(line: str) -> Progress | None:
    """Returns what a line of progress says, or `None` if it is none."""
    found = PROGRESS.fullmatch(line)
    if not found:
        return None
    counts = tuple(int(number) for number in found[2].split())
    return Progress(int(found[1]), counts, int(found[4]), int(found[5]), line)


class TerminalText:
    """Takes what the program writes to a terminal, and tells each line of progress once."""

    def __init__(self, tell: Tell) -> None:
        self.tell = tell
        self.kept: list[bytes] = []
        self.line = b""
        self.is_told = False
        self.last = NOTHING_YET
        self.told_at = time.monotonic()

    def idle(self) -> None:
        """Tells the last progress again if nothing was told for a second."""
        if time.monotonic() - self.told_at >= 1:
            self.told_at = time.monotonic()
            self.tell(self.last)

    def write(self, text: bytes) -> None:
        """Takes the next bytes."""
        *ended, self.line = (self.line + text).split(CLEAR)
        for part in ended:
            self._tell(part)
            if not progress_of(part.decode(errors="replace")):
                self.kept.append(part)
            self.is_told = False
        self._tell(self.line)

    def _tell(self, part: bytes) -> None:
        """Tells a line of progress that wasn't told yet."""
        found = None if self.is_told else progress_of(part.decode(errors="replace"))
        if found:
            self.is_told = True
            self.last, self.told_at = found, time.monotonic()
            self.tell(found)

    def text(self) -> bytes:
        """Returns all that was written, without the lines of progress."""
        is_progress = progress_of(self.line.decode(errors="replace"))
        return b"".join(self.kept if is_progress else [*self.kept, self.line])


@dataclass(frozen=True)
class Program:
    """Is the program, as the words by which it is started."""

    command: tuple[str, ...]

    def run(
        self,
        words: Sequence[str],
        folder: Path,
        tell: Tell | None = None,
        seconds: float | None = None,
    ) -> Run:
        """Runs the program in `folder` and returns what it wrote.

        If `tell` is given, it is called about once a second with the progress, where the system
        has pseudo terminals. If it raises an error, the run ends and the error is raised. Whatever
        ends this process ends the program, too, and removes `folder`. Raises `TimeLimitError` if
        there is no answer after `seconds`, and `ProgramNotFound` if it can't be started.
        """
        whole = [*self.command, *words]
        try:
            if tell and HAS_TERMINALS:
                terminal = TerminalText(tell)
                status, output = run_on_terminal(
                    whole, folder, seconds, terminal.write, terminal.idle
                )
                errors = terminal.text()
            else:
                status, output, errors = run_watched(whole, folder, seconds)
        except TimeoutError:
            raise
        except OSError as fault:
            told = f"The program {self.command[0]} can't be started: {fault.strerror}."
            raise ProgramNotFound(told) from fault
        messages = errors.decode(errors="replace").splitlines()
        return Run(status, output.decode(errors="replace"), tuple(messages))


def find_program(given: str | os.PathLike[str] | None = None) -> Program:
    """Returns the program that is run.

    It is the one that is given, or that of the variable `COUNTYGROUPS`, or that inside this
    package, or that of `dist/` of the repository in which this package lies, or `countygroups` on
    the path. What ends in `.mjs` is run by Node, or where there is no Node by the Python module
    wasmtime. Raises `ProgramNotFound` if there is none.
    """
    found = program_without_path(given)
    on_path = shutil.which("countygroups")
    if found is None and on_path:
        found = _started(on_path)
    if found is None:
        told = "There is no program in this package, and no countygroups on the path"
        raise ProgramNotFound(f"{told}: {VARIABLE} in the environment, or program=, names one.")
    return found


def program_without_path(given: str | os.PathLike[str] | None = None) -> Program | None:
    """Returns the program that is run if none on the path is looked for, or `None`."""
    named = os.fspath(given) if given is not None else os.environ.get(VARIABLE)
    if named:
        path = shutil.which(named)
        found = path or (named if os.path.isfile(named) else None)
        if not found:
            raise ProgramNotFound(f"There is no program {named}.")
        return _started(os.path.abspath(found))
    is_linux = (platform.system(), platform.machine()) == ("Linux", "x86_64")
    names = [NATIVE, BY_NODE] if is_linux else [BY_NODE]
    for file in (folder / name for folder in (INSIDE, DIST) for name in names):
        if file.is_file():
            return _started(str(file))
    return None


def _started(path: str) -> Program:
    """Returns the program of a path. The WebAssembly is run by Node, or else by wasmtime."""
    if not path.endswith(".mjs"):
        return Program((path,))
    node = shutil.which("node")
    if node:
        return Program((node, path))
    wasm = Path(path).with_name(WASM)
    found = importlib.util.find_spec("wasmtime")
    if found and found.origin and wasm.is_file():
        host = Path(__file__).resolve().with_name("wasm_host.py")
        folder = Path(found.origin).resolve().parents[1]
        words = (sys.executable, "-c", BY_WASMTIME, str(folder), str(host), str(wasm))
        return Program(words)
    told = "needs Node 20 or later, or the Python module wasmtime, and neither is there"
    raise ProgramNotFound(f"{path} {told}: nodejs.org has Node.")
