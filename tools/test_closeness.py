#!/usr/bin/env python3
"""Tests of the table of `closeness.py`, which tells how many people more or fewer change an answer.

usage: python3 tools/test_closeness.py [--program FILE]

--program FILE: a build of the program; by default that of `dist/`.
"""
from __future__ import annotations

import subprocess
import sys
import tempfile
import unittest
from pathlib import Path

import closeness
from tested_program import TESTED, run_tests

# Four counties of 50 people in a row, for two seats: two pairs are best. With 11 more in one county
# an ideal district has 105.5 people and at most 110 are allowed, so that its pair has one too many.
# With 10 more it has 110 of 110. With 10 fewer an ideal district has 95, at least 91 are wanted,
# and the pair has 90. With 9 fewer it has 91 of 91. Then all four are one group of two seats.
# With a tolerance of a tenth and 22 more an ideal district has 111 people, at most 122 are allowed,
# and the pair has 122. With 23 more it has 123 of 122. With 18 fewer an ideal district has 91, at
# least 82 are wanted, and the pair has 82. With 19 fewer it has 81 of 82.
CODES = ["37001", "37003", "37005", "37007"]
FILES = {
    "geo": "".join(
        "|".join(["", "", "050", "", "00", "", "", str(at), "", code, "", "", "37", "", code[2:]])
        + "\n"
        for at, code in enumerate(CODES)
    ),
    "segment": "".join(f"||||{at}|50\n" for at in range(4)),
    "adjacency": "x|37001|y|37003\nx|37003|y|37005\nx|37005|y|37007\n",
    "grouping": "1|37001|37003\n1|37005|37007\n",
}
PEOPLE = "county,people\n" + "".join(f"{code},50\n" for code in CODES) + "13001,9\n"
HEADER = ",".join(closeness.HEADER)


class Tables(unittest.TestCase):
    """Tests of the table of a row of counties."""

    def setUp(self) -> None:
        room = tempfile.TemporaryDirectory()
        self.addCleanup(room.cleanup)
        self.room = Path(room.name)
        for name, text in FILES.items():
            (self.room / name).write_text(text, encoding="ascii")

    def run_within(
        self, people: int, names: tuple[str, ...] = tuple(FILES), *further: str
    ) -> subprocess.CompletedProcess[str]:
        """Runs the tool up to so many people with the files of these names, and further words."""
        words = [sys.executable, closeness.__file__, "--program", TESTED.program]
        for name in names:
            words += [f"--{name}", name]
        words += ["--chamber", "2", "--within", str(people), "--jobs", "1", *further]
        done = subprocess.run(words, cwd=self.room, capture_output=True, text=True, check=False)
        self.assertEqual(done.returncode, 0, done.stderr)
        return done

    def test_the_least_changes(self) -> None:
        rows = [f"{code},{change},1,0 0 0 1,not lawful" for change in (-10, 11) for code in CODES]
        wanted = [HEADER, ",20,1,0 2,best", *rows]
        self.assertEqual(self.run_within(20).stdout.splitlines(), wanted)

    def test_a_people_file(self) -> None:
        (self.room / "people").write_text(PEOPLE, encoding="ascii")
        names = ("people", "adjacency", "grouping")
        self.assertEqual(self.run_within(20, names).stdout, self.run_within(20).stdout)

    def test_counts_of_two_kinds(self) -> None:
        words = [sys.executable, closeness.__file__, "--program", TESTED.program]
        words += ["--adjacency", "adjacency", "--chamber", "2", "--within", "9", "--geo", "geo"]
        done = subprocess.run(words, cwd=self.room, capture_output=True, text=True, check=False)
        self.assertEqual(done.returncode, 2)
        self.assertIn("--geo and --segment, or --people", done.stderr)

    def test_a_tolerance(self) -> None:
        rows = [f"{code},{change},1,0 0 0 1,not lawful" for change in (-19, 23) for code in CODES]
        wanted = [HEADER, ",30,1,0 2,best", *rows]
        for text in ("10%", "0.1", "1/10", "2/20"):
            done = self.run_within(30, tuple(FILES), "--tolerance", text)
            self.assertEqual(done.stdout.splitlines(), wanted, text)

    def test_no_change_so_near(self) -> None:
        self.assertEqual(self.run_within(9).stdout.splitlines(), [HEADER, ",9,1,0 2,best"])


if __name__ == "__main__":
    run_tests(__doc__)
