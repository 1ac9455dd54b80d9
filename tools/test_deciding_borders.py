#!/usr/bin/env python3
"""Tests of the table of `deciding_borders.py`, which tells which borders decide an answer.

usage: python3 tools/test_deciding_borders.py [--program FILE]

--program FILE: a build of the program; by default that of `dist/`.
"""
from __future__ import annotations

import subprocess
import sys
import tempfile
import unittest
from pathlib import Path

import deciding_borders
from tested_program import TESTED, run_tests

# Four counties of 50 people in a row, for two seats: two pairs are best, and there is no other
# lawful way but all four as one group. Without the border in the middle the pairs stay. Without the
# first or the last border the county at that end has too few people for a seat, so that no grouping
# is lawful. A county of another state isn't of the problem, and neither is its border.
ROW = {
    "geo": "".join(f"||050||00|||{at}||x|||37||00{2 * at + 1}\n" for at in range(4)),
    "segment": "".join(f"||||{at}|50\n" for at in range(4)),
    "adjacency": "x|37001|y|37003\nx|37003|y|37005\nx|37005|y|37007\nx|37007|y|45001\n",
    "grouping": "1|37001|37003\n1|37005|37007\n",
}
# The same with a border between the ends: a ring has two best groupings of two pairs. Without any
# one border it is a row, and the grouping that needs this border is gone.
CLOSED = ROW["adjacency"] + "x|37007|y|37001\n"
# Pairs of 94 and of 106 people are lawful by a tenth, and not by a twentieth. Then all four are one
# group, which needs each of the borders.
UNEVEN = {**ROW, "segment": "".join(f"||||{at}|{47 if at < 2 else 53}\n" for at in range(4))}
PEOPLE = "county,people\n" + "".join(f"3700{2 * at + 1},50\n" for at in range(4)) + "45001,9\n"
HEADER = ",".join(deciding_borders.HEADER)
CHANGES = "counts; best groupings; shared groups; groups"


class Tables(unittest.TestCase):
    """Tests of the tables of a row and a ring of counties."""

    def run_over(self, files: dict[str, str], *further: str) -> subprocess.CompletedProcess[str]:
        """Runs the tool over files, by their options, with further words."""
        with tempfile.TemporaryDirectory() as room:
            words = [sys.executable, deciding_borders.__file__, "--program", TESTED.program]
            for name, text in files.items():
                (Path(room) / name).write_text(text, encoding="ascii")
                words += [f"--{name}", name]
            words += ["--chamber", "2", "--jobs", "1", *further]
            return subprocess.run(words, cwd=room, capture_output=True, text=True, check=False)

    def run_with(self, adjacency: str) -> list[str]:
        """Returns the lines of the table with these borders."""
        done = self.run_over({**ROW, "adjacency": adjacency})
        self.assertEqual(done.returncode, 0, done.stderr)
        return done.stdout.splitlines()

    def test_a_people_file(self) -> None:
        files = {name: ROW[name] for name in ("adjacency", "grouping")}
        done = self.run_over({"people": PEOPLE, **files})
        self.assertEqual(done.stdout.splitlines(), self.run_with(ROW["adjacency"]), done.stderr)

    def test_counts_of_two_kinds(self) -> None:
        for files in ({**ROW, "people": PEOPLE}, {"adjacency": ROW["adjacency"]}):
            done = self.run_over(files)
            self.assertEqual((done.returncode, done.stdout), (2, ""))
            self.assertIn("give --geo and --segment, or --people", done.stderr)

    def test_a_tolerance(self) -> None:
        by_a_tenth = self.run_with(ROW["adjacency"])
        for text in ("10%", "0.1", "1/10"):
            done = self.run_over(UNEVEN, "--tolerance", text)
            self.assertEqual(done.stdout.splitlines(), by_a_tenth, done.stderr)
        pairs = ("37001,37003", "37003,37005", "37005,37007")
        rows = [f"{pair},0,impossible,{CHANGES},not lawful" for pair in pairs]
        wanted = [HEADER, ",3,1,0 0 0 1,nothing,not lawful", *rows]
        self.assertEqual(self.run_over(UNEVEN).stdout.splitlines(), wanted)
        done = self.run_over(UNEVEN, "--tolerance", "5%")
        self.assertEqual(done.stdout.splitlines(), wanted, done.stderr)

    def test_a_row(self) -> None:
        pairs = ("37001,37003", "37005,37007")
        ends = [f"{pair},0,impossible,{CHANGES},not lawful" for pair in pairs]
        self.assertEqual(self.run_with(ROW["adjacency"]), [HEADER, ",3,1,0 2,nothing,best", *ends])

    def test_a_ring(self) -> None:
        other = "best groupings; shared groups; groups"
        wanted = [
            HEADER,
            ",4,2,0 2,nothing,best",
            f"37001,37003,1,0 2,{other},not lawful",
            f"37001,37007,1,0 2,{other},best",
            f"37003,37005,1,0 2,{other},best",
            f"37005,37007,1,0 2,{other},not lawful",
        ]
        self.assertEqual(self.run_with(CLOSED), wanted)


if __name__ == "__main__":
    run_tests(__doc__)
