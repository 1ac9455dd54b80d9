"""Measures solve, check and list of both chambers of 2020 by WebAssembly and natively, in one run.

usage: python3 bench/web_speed.py COUNTYGROUPS.wasm PROGRAM

PROGRAM is the program that is built for this machine. Each is run three times, in turn, and the
least of the wall-clock seconds counts: of a process by PROGRAM and by Node, with the start of each,
and of a run in a headless Chromium, with the start of its worker. All three have to give the same
text. It needs Node and Chromium.
"""
import subprocess
import sys
import tempfile
import time
import unittest
from pathlib import Path
from typing import Any

sys.path.insert(0, str(Path(__file__).resolve().parent.parent / "web" / "test"))
from web_setting import DATA, SETTING, make_launcher  # noqa: E402
from test_in_browser import FILES, PROBLEM, Chambers  # noqa: E402

TURNS = 3
COMMANDS = (("solve", "--certificate"), ("check", "--certificate"), ("list", "--certificate"))


def run_program(program: Path, words: list[str], folder: Path) -> tuple[float, bytes]:
    """Returns the seconds and the text of a process in `folder`."""
    began = time.perf_counter()
    done = subprocess.run([str(program), *words], cwd=folder, stdout=subprocess.PIPE, check=True)
    return time.perf_counter() - began, done.stdout


def run_page(page: Chambers, words: list[str], files: dict[str, bytes]) -> tuple[float, bytes]:
    """Returns the seconds and the text of a run in the page. What it stores is put into `files`."""
    made: Any = page.run_words(words, files)
    files.update(made["stored"])
    return made["milliseconds"] / 1000, made["output"]


def measure(page: Chambers, native: Path, launcher: Path, chamber: str, room: Path) -> None:
    """Prints a line for each command of a chamber."""
    files = {name: (DATA / name).read_bytes() for name in FILES}
    folders = [Path(tempfile.mkdtemp(dir=room)) for _ in range(2)]
    for folder in folders:
        for name, held in files.items():
            (folder / name).write_bytes(held)
    for command, option in COMMANDS:
        words = [command, *PROBLEM, "--chamber", chamber, option, "certificate"]
        least = [float("inf")] * 3
        for _ in range(TURNS):
            pairs = zip((native, launcher), folders)
            made = [run_program(program, words, folder) for program, folder in pairs]
            made.append(run_page(page, words, files))
            if len({text for _, text in made}) != 1:
                sys.exit(f"{command} {chamber}: other texts")
            least = [min(pair) for pair in zip(least, (seconds for seconds, _ in made))]
        told = ", ".join(f"{who} {it:.2f} s" for who, it in zip(("native", "Node", "page"), least))
        print(f"{command} {chamber}: {told}", flush=True)


def main() -> None:
    """Measures both chambers."""
    if len(sys.argv) != 3:
        sys.exit(__doc__)
    SETTING.wasm, native = Path(sys.argv[1]).resolve(), Path(sys.argv[2]).resolve()
    Chambers.setUpClass()
    try:
        with tempfile.TemporaryDirectory() as name:
            launcher = make_launcher(Path(name))
            for chamber in ("120", "50"):
                measure(Chambers(), native, launcher, chamber, Path(name))
    finally:
        Chambers.doClassCleanups()


if __name__ == "__main__":
    try:
        main()
    except unittest.SkipTest as missing:
        sys.exit(str(missing))
