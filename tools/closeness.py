#!/usr/bin/env python3
"""Tells how close an answer is: how many people more or fewer in one county change it.

usage: python3 tools/closeness.py --program FILE COUNTS --adjacency FILE --chamber SEATS
           --within PEOPLE [--grouping FILE] [--state CODE] [--tolerance TOLERANCE]
           [--jobs JOBS]
       COUNTS is --geo FILE --segment FILE, or --people FILE.
       TOLERANCE is a percentage, a decimal or a fraction, as 5%, 0.05 or 1/20 (the default).

Each county is tried alone, with up to PEOPLE more and up to PEOPLE fewer. The people of the state
change with the county's. If the farthest change leaves the list of best groupings as it is, none
below it is looked for. Else the least change with another list is found by halving, so that one
person less leaves the list as it is. Between both ends the list may also change and change back,
which isn't looked for.

Standard output is a CSV table: a line for the counts as they are, and one for each such change, the
least first. A line has the county, the change, the number of best groupings, the counts of groups,
and whether the groups of --grouping are best, lawful, or not lawful by then. The first line has
PEOPLE in the place of a change. If a file can't be used, a sentence on standard error says why, and
the status is 1.
"""
from __future__ import annotations

import argparse
import csv
import os
import re
import subprocess
import sys
import tempfile
from concurrent.futures import ThreadPoolExecutor
from dataclasses import dataclass
from pathlib import Path

from people_file import read_people_file
from refusal import Refused
from script_words import ScriptWords, tolerance_words

HEADER = ["COUNTY", "CHANGE", "BEST_GROUPINGS", "COUNTS", "GROUPING"]
LEVEL, CODE, STATE, PEOPLE = 2, 9, 12, 5
PEOPLE_OF_GROUP = re.compile(r"^(group seats [0-9 to]+) people [0-9]+", re.M)


@dataclass(frozen=True)
class Answer:
    """What the program says of counts of people: the list, and what it says of the grouping."""

    best: str
    counts: str
    groups: frozenset[str]
    grouping: str = ""

    def is_as(self, other: "Answer") -> bool:
        """Returns whether the best groupings are the same."""
        return (self.best, self.groups) == (other.best, other.groups)


@dataclass(frozen=True)
class Threshold:
    """The least change of a county's people with another list, and the answer then."""

    county: str
    change: int
    answer: Answer


def line_of(text: str, word: str) -> str:
    """Returns what stands behind `word` in the first line of `text` that begins with it."""
    found = re.search(rf"^{word} (.*)$", text, re.M)
    return found[1] if found else ""


def census_counts(geo: str, segment: str, state: str) -> dict[str, int]:
    """Returns the people of each county of a state, by its code such as 37001, in the census files.

    `geo` and `segment` have the same places, line by line. `state` is the code of the state.
    """
    places = [line.split("|") for line in read_lines(geo)]
    counts = [line.split("|") for line in read_lines(segment)]
    if len(places) != len(counts):
        raise Refused(f"{geo} and {segment} don't have the same number of lines.")
    return {
        place[CODE]: int(numbers[PEOPLE])
        for place, numbers in zip(places, counts)
        if place[LEVEL] == "050" and place[STATE] == state
    }


def read_lines(path: str) -> list[str]:
    """Returns the lines of a file."""
    try:
        return Path(path).read_text(encoding="utf-8").splitlines()
    except (OSError, UnicodeDecodeError) as fault:
        raise Refused(f"{path} can't be read: {fault}.") from fault


def counts_of(given: argparse.Namespace) -> dict[str, int]:
    """Returns the people of each county by the words of the command."""
    state = given.state.zfill(2)
    if given.people:
        return read_people_file(given.people, state)[1]
    return census_counts(given.geo, given.segment, state)


class Runs:
    """Runs of the program over the counts with one county changed."""

    def __init__(self, given: argparse.Namespace) -> None:
        """Takes the words of the command, and solves the counts as they are."""
        self.program = str(Path(given.program).resolve())
        self.words = ["--adjacency", given.adjacency, "--chamber", given.chamber]
        self.words += ["--state", given.state, *tolerance_words(given.tolerance)]
        self.grouping = given.grouping
        self.counts = counts_of(given)
        self.within = int(given.within)
        self.certificate = b""
        self.base = self.answer("", 0)

    def run(self, command: str, words: list[str]) -> tuple[int, str]:
        """Returns the status and the text of one run."""
        called = [self.program, command, *words]
        done = subprocess.run(called, capture_output=True, check=False)
        return done.returncode, done.stdout.decode()

    def answer(self, county: str, change: int) -> Answer:
        """Returns the answer with `change` more people in a county.

        The certificate of the counts as they are is tried first, since the program reads it faster
        than it solves.
        """
        people = {code: held + change * (code == county) for code, held in self.counts.items()}
        if min(people.values(), default=0) < 0:
            raise Refused(f"County {county} has fewer than {-change} people.")
        with tempfile.TemporaryDirectory() as room:
            files = {name: os.path.join(room, name) for name in ("people", "certificate")}
            text = "".join(f"{code},{held}\n" for code, held in people.items())
            Path(files["people"]).write_text(text, encoding="ascii")
            problem = ["--people", files["people"], *self.words]
            proof = ["--certificate", files["certificate"]]
            Path(files["certificate"]).write_bytes(self.certificate)
            status, listed = self.run("list", [*problem, *proof])
            if not self.certificate or status != 0:
                status, said = self.run("solve", [*problem, *proof])
                if status != 0:
                    return Answer("0", line_of(said, "answer"), frozenset(), "no grouping")
                status, listed = self.run("list", [*problem, *proof])
            if not self.certificate:
                self.certificate = Path(files["certificate"]).read_bytes()
            if status != 0:
                raise Refused(f"The list stayed open with {change} people in {county}.")
            groups = frozenset(re.findall(r"^group .*$", PEOPLE_OF_GROUP.sub(r"\1", listed), re.M))
            best, counts = line_of(listed, "best groupings"), line_of(listed, "counts")
            return Answer(best, counts, groups, self.judged([*problem, *proof]))

    def judged(self, words: list[str]) -> str:
        """Returns whether the grouping is best, lawful, or not lawful, or nothing if there is
        none."""
        if not self.grouping:
            return ""
        status, said = self.run("judge", [*words, "--grouping", self.grouping])
        if status == 0 or line_of(said, "greater"):
            return "best" if line_of(said, "answer") == "best" else "lawful"
        if status == 1:
            return "not lawful"
        raise Refused(f"The grouping can't be judged: {said.strip()}")

    def threshold(self, task: tuple[str, int]) -> Threshold | None:
        """Returns the least change of a county's people, more (1) or fewer (-1), that changes the
        list, or None if the farthest one doesn't."""
        county, sign = task
        high = min(self.within, self.counts[county]) if sign < 0 else self.within
        answer = self.answer(county, sign * high)
        if answer.is_as(self.base):
            return None
        low = 0
        while high - low > 1:
            middle = (low + high) // 2
            tried = self.answer(county, sign * middle)
            if tried.is_as(self.base):
                low = middle
            else:
                high, answer = middle, tried
        return Threshold(county, sign * high, answer)


def arguments(words: list[str]) -> argparse.Namespace:
    """Returns the words of the command."""
    parser = ScriptWords(__doc__)
    for name in ("program", "adjacency", "chamber", "within"):
        parser.add_argument(f"--{name}", required=True)
    parser.add_counts()
    parser.add_argument("--grouping")
    parser.add_argument("--state", default="37")
    parser.add_tolerance()
    parser.add_argument("--jobs", type=int, default=os.cpu_count() or 1)
    given = parser.parse_args(words)
    parser.check_counts(given)
    parser.check_tolerance(given)
    return given


def thresholds(runs: Runs, jobs: int) -> list[Threshold]:
    """Returns the thresholds of all counties, the least change first."""
    tasks = [(county, sign) for county in runs.counts for sign in (1, -1)]
    found: list[Threshold] = []
    with ThreadPoolExecutor(max(1, jobs)) as pool:
        for done, one in enumerate(pool.map(runs.threshold, tasks), 1):
            found += [one] if one else []
            told = f"\rcloseness.py: {done} of {len(tasks)} changes tried"
            print(told, end="", file=sys.stderr, flush=True)
    print(file=sys.stderr)
    return sorted(found, key=lambda one: (abs(one.change), -one.change, one.county))


def main(words: list[str]) -> int:
    """Prints the table. 1 if a file can't be used, 2 if the words are others."""
    given = arguments(words)
    try:
        runs = Runs(given)
        found = thresholds(runs, given.jobs)
    except (Refused, OSError, ValueError) as fault:
        print(f"closeness.py: {fault}", file=sys.stderr)
        return 1
    table = csv.writer(sys.stdout, lineterminator="\n")
    table.writerow(HEADER)
    table.writerow(["", runs.within, runs.base.best, runs.base.counts, runs.base.grouping])
    for one in found:
        told = [one.answer.best, one.answer.counts, one.answer.grouping]
        table.writerow([one.county, one.change, *told])
    return 0


if __name__ == "__main__":
    sys.exit(main(sys.argv[1:]))
