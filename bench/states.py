"""The chambers of ten states and of North Carolina, solved within the default steps, and each
certificate checked.

usage: python3 bench/states.py PROGRAM [--jobs N] [--only WORD] [--steps N] [--no-least]

A row has the answer, the least number of steps that suffices (to within a hundredth), the seconds
of processor time with the files' reading in them, the lines of the certificate, and whether `check`
printed what `solve` printed, with its seconds. If `solve` stays open, the last column is what
`judge` says of the grouping so far. The problems are in data/states and in data/nc2020.
"""
from __future__ import annotations

import argparse
import concurrent.futures
import os
import tempfile
from typing import Iterator

from chambers import DATA, DEFAULT_STEPS, solve_and_check, words_of

Problem = tuple[str, int, list[str]]

NAMES = ("nc2020geo.pl", "nc000012020.pl", "county_borders.txt")
CAROLINA = [f"{DATA}/nc2020/{name}" for name in NAMES]
STATES = [
    ("Alabama", 1, (35, 105)),
    ("Florida", 12, (40, 120)),
    ("Georgia", 13, (56, 180)),
    ("Iowa", 19, (50, 100)),
    ("Kansas", 20, (40, 125)),
    ("Kentucky", 21, (38, 100)),
    ("Missouri", 29, (34, 163)),
    ("Ohio", 39, (33, 99)),
    ("Texas", 48, (31, 150)),
    ("Wisconsin", 55, (33, 99)),
]
HEADS = ["State", "Seats", "Answer", "Steps", "Seconds", "Lines", "Checked, seconds"]


def problems() -> Iterator[Problem]:
    """Yields the name, the chamber and the words of each."""
    for chamber in (50, 120):
        yield "North Carolina", chamber, words_of(CAROLINA, 37, chamber)
    for name, state, chambers in STATES:
        kinds = ("geo", "segment", "adjacency")
        files = [f"{DATA}/states/{name.lower()}.{kind}" for kind in kinds]
        for chamber in chambers:
            yield name, chamber, words_of(files, state, chamber)


def row(asked: argparse.Namespace, problem: Problem) -> str:
    """Returns a row of the table."""
    name, chamber, words = problem
    program, least = os.path.abspath(asked.program), not asked.no_least
    with tempfile.TemporaryDirectory() as folder:
        cells = solve_and_check(program, words, folder, asked.steps, least)
    return f"| {name} | {chamber} | " + " | ".join(cells) + " |"


def main() -> None:
    """Prints the table."""
    parser = argparse.ArgumentParser(
        description=__doc__, formatter_class=argparse.RawDescriptionHelpFormatter
    )
    parser.add_argument("program")
    parser.add_argument("--jobs", type=int, default=1)
    parser.add_argument("--only", default="")
    parser.add_argument("--steps", type=int, default=DEFAULT_STEPS)
    parser.add_argument("--no-least", action="store_true")
    asked = parser.parse_args()
    print(f"| {' | '.join(HEADS)} |\n{'|---' * len(HEADS)}|")
    chosen = [problem for problem in problems() if asked.only in f"{problem[0]} {problem[1]}"]
    with concurrent.futures.ThreadPoolExecutor(asked.jobs) as pool:
        for text in pool.map(lambda problem: row(asked, problem), chosen):
            print(text, flush=True)


if __name__ == "__main__":
    main()
