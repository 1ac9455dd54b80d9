#!/usr/bin/env python3
"""Tests that small chambers are solved and checked about as fast as when their bars were stored.

usage: bench/speed_bars.py PROGRAM [--jobs N] [--store]

It counts the machine instructions of `solve` and `check` on small chambers by callgrind, which is
part of valgrind. That takes less than a minute, and the count doesn't depend on what else the
machine does. The bars stand in bench/speed_bars.json. Without valgrind it passes over.

A run fails if it takes more than half as many instructions again as its bar. So a loss by a factor
of two is seen, and what the C library or the compiler changes isn't. If `check` isn't far below
`solve`, that fails too: it may take at most half of the instructions of `solve`.

--store: stores what is counted as the new bars. Do that with the proved program, in a change that
says why.
Statuses: 0 all runs are within their bars, 1 one isn't, 2 these words can't be followed.
"""
from __future__ import annotations

import json
import os
import re
import subprocess
import sys
import tempfile
from concurrent.futures import ThreadPoolExecutor
from dataclasses import dataclass

from chambers import DATA, words_of

sys.path.insert(0, os.path.join(os.path.dirname(DATA), "tools"))
from installed import NotThere, program_there  # noqa: E402
from script_words import ScriptWords  # noqa: E402

BARS = os.path.join(os.path.dirname(os.path.abspath(__file__)), "speed_bars.json")
# How many times its bar a run may take.
MOST = 1.5
# The part of the instructions of `solve` that `check` may take.
MOST_OF_CHECK = 0.5
CAROLINA = [
    f"{DATA}/nc2020/{it}" for it in ("nc2020geo.pl", "nc000012020.pl", "county_borders.txt")
]
COUNTED = re.compile(rb"Collected : (\d+)")


def files_of(state: str) -> list[str]:
    """Returns the three files of a state in data/states."""
    return [f"{DATA}/states/{state}.{it}" for it in ("geo", "segment", "adjacency")]


# Each of these is solved in less than a second. The last three have many weights, long lists and
# lists that serve again.
CHAMBERS = {
    "North Carolina 50": words_of(CAROLINA, 37, 50),
    "North Carolina 120": words_of(CAROLINA, 37, 120),
    "Alabama 35": words_of(files_of("alabama"), 1, 35),
    "Iowa 50": words_of(files_of("iowa"), 19, 50),
    "Kansas 125": words_of(files_of("kansas"), 20, 125),
}


@dataclass(frozen=True)
class Count:
    """The instructions of `solve` and of `check` on a chamber."""

    solve: int
    check: int


def instructions(program: str, folder: str, words: list[str]) -> int:
    """Returns how many machine instructions the program takes with `words`."""
    called = ["valgrind", "--tool=callgrind", "--callgrind-out-file=/dev/null", program, *words]
    done = subprocess.run(called, cwd=folder, capture_output=True, check=False)
    found = COUNTED.search(done.stderr)
    if done.returncode != 0 or not found:
        raise SystemExit(f"speed_bars.py: `{' '.join(words)}` ended with {done.returncode}")
    return int(found[1])


def count(program: str, words: list[str]) -> Count:
    """Counts the instructions of a chamber."""
    with tempfile.TemporaryDirectory() as folder:
        certificate = ["--certificate", "certificate"]
        solve = instructions(program, folder, ["solve", *words, *certificate])
        return Count(solve, instructions(program, folder, ["check", *words, *certificate]))


def read_bars() -> dict[str, dict[str, int]]:
    """Returns the stored bars: for each chamber the instructions of its commands."""
    with open(BARS, encoding="utf-8") as file:
        bars: dict[str, dict[str, int]] = json.load(file)
    return bars


def faults(name: str, now: Count, bars: dict[str, dict[str, int]]) -> list[str]:
    """Returns what is wrong with the counts of a chamber, a line each."""
    found = []
    for command in ("solve", "check"):
        taken, bar = getattr(now, command), bars.get(name, {}).get(command, 0)
        if taken > MOST * bar:
            found.append(f"{command} of {name} took {taken} instructions, and its bar is {bar}")
    if now.check > MOST_OF_CHECK * now.solve:
        found.append(f"check of {name} took {now.check / now.solve:.2f} of what solve took")
    return found


def main() -> int:
    """Counts, and compares or stores."""
    parser = ScriptWords(__doc__)
    parser.add_argument("program")
    parser.add_argument("--jobs", type=int, default=2)
    parser.add_argument("--store", action="store_true")
    given = parser.parse_args()
    try:
        program_there("valgrind")
    except NotThere as why:
        print(f"speed_bars.py: passed over: {why}")
        return 0
    program = os.path.realpath(given.program)
    with ThreadPoolExecutor(given.jobs) as pool:
        runs = pool.map(lambda words: count(program, words), CHAMBERS.values())
        counts = dict(zip(CHAMBERS, runs))
    for name, now in counts.items():
        print(f"{name}: solve {now.solve}, check {now.check}, {now.check / now.solve:.2f} of it")
    if given.store:
        with open(BARS, "w", encoding="utf-8") as file:
            json.dump({name: vars(now) for name, now in counts.items()}, file, indent=4)
            file.write("\n")
        return 0
    bars = read_bars()
    wrong = [line for name, now in counts.items() for line in faults(name, now, bars)]
    print("\n".join(wrong) or "all runs are within their bars")
    return 1 if wrong else 0


if __name__ == "__main__":
    sys.exit(main())
