#!/usr/bin/env python3
"""Tests of the table of `what_if.py`, which tells which borders in dispute change an answer.

usage: python3 tools/test_what_if_table.py [--program FILE]

--program FILE: a build of the program; by default that of `dist/`.
"""
from __future__ import annotations

import os
import subprocess
import sys
import tempfile
import unittest

import what_if
from tested_program import TESTED, run_tests

# Four counties of equal people in a row, for two seats. A link from the last to the first closes a
# ring, which has two best groupings. A ring that is cut is a row again, with one.
FILES = {
    "geo": "".join(f"||050||00|||{i}||x|||37||00{2 * i + 1}\n" for i in range(4)),
    "segment": "".join(f"||||{i}|50\n" for i in range(4)),
    "adjacency": "x|37001|y|37003\nx|37003|y|37005\nx|37005|y|37007\n",
    "borders": "-|37001|37003\n",
}
PEOPLE = "county,people\n" + "".join(f"3700{2 * i + 1},50\n" for i in range(4))
CLOSING = b"+|37007|37001"
HEADER = ",".join(what_if.HEADER)
TABLE = [HEADER, ",,,2,0,0 2,nothing"]
TABLE += ["-,37001,37003,1,2,0 2,best groupings; shared groups; groups"]
# In a ring of 47, 47, 53 and 53 people, two pairs have 94 and 106 people, and two have 100 each. So
# by a tenth the table is the same. By a twentieth only pairs of 100 people are lawful: these are
# the middle counties and the ends. In the row that the cut makes of the ring they stay.
UNEVEN = "".join(f"||||{i}|{47 if i < 2 else 53}\n" for i in range(4))
NARROW = [HEADER, ",,,1,2,0 2,nothing", "-,37001,37003,1,2,0 2,nothing"]


class Tables(unittest.TestCase):
    """Tests of the table of a border in dispute, with links."""

    def setUp(self) -> None:
        room = tempfile.TemporaryDirectory()
        self.addCleanup(room.cleanup)
        self.room = room.name
        for name, text in FILES.items():
            self.store(name, text.encode())

    def store(self, name: str, held: bytes) -> None:
        """Stores a file in the room."""
        with open(os.path.join(self.room, name), "wb") as file:
            file.write(held)

    def run_with(
        self, links: bytes, counts: tuple[str, ...] = ("geo", "segment"), *further: str
    ) -> subprocess.CompletedProcess[str]:
        """Runs the tool with a file of these links, the files `counts` and further words."""
        self.store("links", links)
        words = ["--program", TESTED.program, "--chamber", "2", "--jobs", "1", *further]
        for name in (*counts, "adjacency", "borders", "links"):
            words += [f"--{name}", os.path.join(self.room, name)]
        command = [sys.executable, what_if.__file__, *words]
        return subprocess.run(command, capture_output=True, text=True, check=False)

    def test_links_with_and_without_a_last_line_feed(self) -> None:
        """A border stands on a line of its own behind the links."""
        for links in (CLOSING + b"\n", CLOSING):
            done = self.run_with(links)
            self.assertEqual((done.returncode, done.stdout.splitlines()), (0, TABLE), done.stderr)

    def test_a_people_file(self) -> None:
        self.store("people", PEOPLE.encode())
        done = self.run_with(CLOSING, ("people",))
        self.assertEqual((done.returncode, done.stdout.splitlines()), (0, TABLE), done.stderr)

    def test_counts_of_two_kinds(self) -> None:
        self.store("people", PEOPLE.encode())
        for counts in (("people", "geo"), ("people", "geo", "segment"), ("segment",), ()):
            done = self.run_with(CLOSING, counts)
            self.assertEqual((done.returncode, done.stdout), (2, ""))
            self.assertIn("give --geo and --segment, or --people", done.stderr)

    def test_a_tolerance(self) -> None:
        self.store("segment", UNEVEN.encode())
        counts = ("geo", "segment")
        for words, wanted in {
            "--tolerance 10%": TABLE,
            "--tolerance 1/10": TABLE,
            "--part 2": TABLE,
            "--part 2 --of 20": TABLE,
            "": NARROW,
            "--tolerance 0.05": NARROW,
            "--of 20": NARROW,
        }.items():
            done = self.run_with(CLOSING, counts, *words.split())
            self.assertEqual(done.stdout.splitlines(), wanted, done.stderr)

    def test_tolerances_that_are_none(self) -> None:
        for words in ("--tolerance 10% --of 20", "--tolerance 51%", "--part 11"):
            done = self.run_with(CLOSING, ("geo", "segment"), *words.split())
            self.assertEqual((done.returncode, done.stdout), (2, ""), words)
            self.assertIn("tolerance", done.stderr.splitlines()[-1])

    def test_links_that_are_no_text(self) -> None:
        """Links that aren't UTF-8 are refused by the program, in one line."""
        done = self.run_with(b"\xff\n")
        self.assertEqual((done.returncode, done.stdout), (1, ""))
        self.assertTrue(done.stderr.startswith("what_if.py: The program ended with status 4: "))
        self.assertNotIn("Traceback", done.stderr)


if __name__ == "__main__":
    run_tests(__doc__)
