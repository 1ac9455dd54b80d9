#!/usr/bin/env python3
"""Tells which borders decide an answer: those that change the best groupings if they are left out.

usage: python3 tools/deciding_borders.py --program FILE COUNTS --adjacency FILE --chamber SEATS
           [--grouping FILE] [--state CODE] [--tolerance TOLERANCE] [--jobs JOBS]
       COUNTS is --geo FILE --segment FILE, or --people FILE.
       TOLERANCE is a percentage, a decimal or a fraction, as 5%, 0.05 or 1/20 (the default).

Each border between two counties of the state is left out alone, and the chamber is solved and
listed without it.

Standard output is a CSV table: a line for the borders as they are, and one for each border without
which the counts of groups, the number of best groupings, or the list of their groups is another. A
line has both counties, the number of best groupings, the counts, what changes, and whether the
groups of --grouping are best, lawful, or not lawful then. The first line has the number of borders
that were tried in the place of a county. If a file can't be used, a sentence on standard error says
why, and the status is 1.
"""
from __future__ import annotations

import argparse
import csv
import os
import sys
from concurrent.futures import ThreadPoolExecutor
from typing import Tuple

import border_check
import what_if
from refusal import Refused
from script_words import ScriptWords

HEADER = ["COUNTY", "NEIGHBOR", "BEST_GROUPINGS", "COUNTS", "CHANGES", "GROUPING"]
# A border by the codes of its counties, and the answer without it.
Cut = Tuple[border_check.Pair, what_if.Answer]


def arguments(words: list[str]) -> argparse.Namespace:
    """Returns the words of the command, with those of `what_if.Runs` that it doesn't take."""
    parser = ScriptWords(__doc__)
    for name in ("program", "adjacency", "chamber"):
        parser.add_argument(f"--{name}", required=True)
    parser.add_counts()
    parser.add_argument("--grouping")
    parser.add_argument("--state", default="37")
    parser.add_tolerance()
    parser.add_argument("--jobs", type=int, default=os.cpu_count() or 1)
    parser.set_defaults(links=None, withdrawn=None)
    given = parser.parse_args(words)
    parser.check_counts(given)
    parser.check_tolerance(given)
    return given


def borders_of(adjacency: str, state: str) -> list[border_check.Pair]:
    """Returns the borders of an adjacency file between counties of `state`, a code such as 37."""
    pairs = border_check.read_borders(adjacency).pairs
    return sorted(pair for pair in pairs if all(code[:2] == state for code in pair))


def cuts(runs: what_if.Runs, borders: list[border_check.Pair], jobs: int) -> list[Cut]:
    """Returns each border with the answer without it."""
    links = [f"-|{pair.first}|{pair.second}\n".encode() for pair in borders]
    found: list[Cut] = []
    with ThreadPoolExecutor(max(1, jobs)) as pool:
        for pair, answer in zip(borders, pool.map(runs.answer, links)):
            if not answer.best and answer.counts != "impossible":
                told = f"without the border of {pair.first} and {pair.second}"
                raise Refused(f"The search {told} wasn't finished.")
            found.append((pair, answer))
            told = f"\rdeciding_borders.py: {len(found)} of {len(borders)} borders tried"
            print(told, end="", file=sys.stderr, flush=True)
    print(file=sys.stderr)
    return found


def main(words: list[str]) -> int:
    """Prints the table. 1 if a file can't be used, 2 if the words are others."""
    given = arguments(words)
    try:
        borders = borders_of(given.adjacency, given.state.zfill(2))
        runs = what_if.Runs(given)
        base = runs.answer(b"")
        found = cuts(runs, borders, given.jobs)
    except (Refused, OSError) as fault:
        print(f"deciding_borders.py: {fault}", file=sys.stderr)
        return 1
    table = csv.writer(sys.stdout, lineterminator="\n")
    table.writerow(HEADER)
    table.writerow(["", len(borders), base.best, base.counts, "nothing", base.grouping])
    for pair, answer in found:
        changes = answer.changes(base)
        if changes != "nothing":
            best = answer.best or "0"
            table.writerow([*pair, best, answer.counts, changes, answer.grouping])
    return 0


if __name__ == "__main__":
    sys.exit(main(sys.argv[1:]))
