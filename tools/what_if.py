#!/usr/bin/env python3
"""Tells which disputed borders matter: solves and lists a chamber with each added or cut alone.

usage: python3 tools/what_if.py --program FILE COUNTS --adjacency FILE --chamber SEATS
           --borders FILE [--links FILE] [--withdrawn FILE] [--state CODE]
           [--tolerance TOLERANCE | [--part PART] [--of OF]] [--jobs JOBS]
       COUNTS is --geo FILE --segment FILE, or --people FILE.
       TOLERANCE is a percentage, a decimal or a fraction, as 5%, 0.05 or 1/20 (the default).

Each line of the borders is one of a links file: `+|CODE|CODE` adds a pair, `-|CODE|CODE` cuts one.
Standard output is a CSV table: a line for the problem as it is, and then one for each border. A
line has the number of best groupings, the number of groups that all of them share, the counts, and
what differs from the first line. If a file can't be used, a sentence on standard error says why,
and the status is 1.
"""
from __future__ import annotations

import argparse
import csv
import os
import re
import subprocess
import sys
import tempfile
from concurrent.futures import ThreadPoolExecutor
from dataclasses import dataclass
from pathlib import Path

from refusal import Refused
from script_words import ScriptWords, tolerance_words

HEADER = ["SIGN", "COUNTY", "NEIGHBOR", "BEST_GROUPINGS", "SHARED_GROUPS", "COUNTS", "CHANGES"]
LINK = re.compile(r"([+-])\|([0-9]{5})\|([0-9]{5})")
OPTIONS = ["geo", "segment", "people", "adjacency", "chamber", "withdrawn", "state"]


@dataclass(frozen=True)
class Answer:
    """What the program says of a problem: its list, or the word that stands in its place.

    `grouping` says whether a given grouping is best, lawful, or not lawful, if one is judged.
    """

    best: str
    shared: str
    counts: str
    groups: frozenset[str]
    grouping: str = ""

    def changes(self, base: "Answer") -> str:
        """Returns what differs from `base`, or "nothing"."""
        parts = [
            ("counts", self.counts != base.counts),
            ("best groupings", self.best != base.best),
            ("shared groups", self.shared != base.shared),
            ("groups", self.groups != base.groups),
        ]
        return "; ".join(name for name, differs in parts if differs) or "nothing"


def read_borders(path: str) -> list[tuple[str, str, str]]:
    """Returns the sign and the two codes of each line of a file of borders."""
    try:
        lines = Path(path).read_text(encoding="utf-8").split("\n")
    except (OSError, UnicodeDecodeError) as fault:
        raise Refused(f"The borders {path} can't be read: {fault}.") from fault
    found = []
    for number, line in enumerate(lines, 1):
        if not line.strip():
            continue
        link = LINK.fullmatch(line.strip())
        if not link:
            raise Refused(f"Line {number} of the borders {path} isn't `+` or `-` and two codes.")
        found.append((link[1], link[2], link[3]))
    return found


def line_of(text: str, word: str) -> str:
    """Returns what stands behind `word` in the first line of `text` that begins with it."""
    found = re.search(rf"^{word} (.*)$", text, re.M)
    return found[1] if found else ""


class Runs:
    """Runs of the program over one problem with different links.

    If the words of the command have a grouping, each run judges it, too.
    """

    def __init__(self, words: argparse.Namespace) -> None:
        given = vars(words)
        self.grouping = given.get("grouping")
        self.program = str(Path(words.program).resolve())
        self.problem = [
            part
            for name in OPTIONS
            if given[name] is not None
            for part in (f"--{name}", str(given[name]))
        ]
        self.problem += tolerance_words(words.tolerance)
        self.links = Path(words.links).read_bytes() if words.links else b""
        if self.links and not self.links.endswith(b"\n"):
            self.links += b"\n"

    def run(self, command: str, words: list[str]) -> tuple[int, str]:
        """Returns the status and the text of one run."""
        run = subprocess.run([self.program, command, *words], capture_output=True, check=False)
        if run.returncode not in (0, 1, 3):
            told = run.stderr.decode(errors="replace").strip() or run.stdout.decode().strip()
            raise Refused(f"The program ended with status {run.returncode}: {told}")
        return run.returncode, run.stdout.decode()

    def answer(self, link: bytes) -> Answer:
        """Returns the answer with one more line of links, or with none more if `link` is empty."""
        with tempfile.TemporaryDirectory() as room:
            links, certificate = os.path.join(room, "links"), os.path.join(room, "certificate")
            Path(links).write_bytes(self.links + link)
            problem = [*self.problem, *(["--links", links] if self.links + link else [])]
            status, report = self.run("solve", [*problem, "--certificate", certificate])
            if status != 0:
                grouping = self.judged(problem) if status == 1 else ""
                return Answer("", "", line_of(report, "answer"), frozenset(), grouping)
            proof = ["--certificate", certificate]
            status, listed = self.run("list", [*problem, *proof])
            groups = frozenset(re.findall(r"^group .*$", listed, re.M))
            best, shared = line_of(listed, "best groupings"), line_of(listed, "shared groups")
            grouping = self.judged([*problem, *proof])
            return Answer(best, shared, line_of(report, "counts"), groups, grouping)

    def judged(self, problem: list[str]) -> str:
        """Returns whether the grouping is best, lawful, or not lawful, or nothing if there is
        none."""
        if not self.grouping:
            return ""
        said = self.run("judge", [*problem, "--grouping", self.grouping])[1]
        answer = line_of(said, "answer")
        return answer if answer in ("best", "lawful") else "not lawful"


def arguments(words: list[str]) -> argparse.Namespace:
    """Returns the words of the command."""
    parser = ScriptWords(__doc__)
    for name in ["program", "adjacency", "chamber", "borders"]:
        parser.add_argument(f"--{name}", required=True)
    parser.add_counts()
    for name in ["links", "withdrawn", "state"]:
        parser.add_argument(f"--{name}")
    parser.add_tolerance()
    parser.add_part_and_of()
    parser.add_argument("--jobs", type=int, default=os.cpu_count() or 1)
    given = parser.parse_args(words)
    parser.check_counts(given)
    parser.check_tolerance(given)
    return given


def main(words: list[str]) -> int:
    """Prints the table. 1 if a file can't be used, 2 if the words are others."""
    given = arguments(words)
    try:
        borders, runs = read_borders(given.borders), Runs(given)
        links = [b"", *("|".join(border).encode() + b"\n" for border in borders)]
        answers: list[Answer] = []
        with ThreadPoolExecutor(max(1, given.jobs)) as pool:
            for answer in pool.map(runs.answer, links):
                answers.append(answer)
                told = f"\rwhat_if.py: {len(answers)} of {len(links)} problems solved"
                print(told, end="", file=sys.stderr, flush=True)
        print(file=sys.stderr)
    except (Refused, OSError) as fault:
        print(f"what_if.py: {fault}", file=sys.stderr)
        return 1
    table = csv.writer(sys.stdout, lineterminator="\n")
    table.writerow(HEADER)
    for border, answer in zip([("", "", ""), *borders], answers):
        changes = answer.changes(answers[0])
        table.writerow([*border, answer.best, answer.shared, answer.counts, changes])
    return 0


if __name__ == "__main__":
    sys.exit(main(sys.argv[1:]))
