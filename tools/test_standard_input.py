#!/usr/bin/env python3
"""Tests `-`, the name of standard input where a file is read.

usage: python3 tools/test_standard_input.py [--program FILE]

--program FILE: a build of the program; by default that of `dist/`.

The problem is that of `test_outputs.py`, whose only grouping is worked there by hand.
"""
from __future__ import annotations

import subprocess
import unittest

from test_outputs import ADJACENCY, GEO, MOST_SECONDS, SEGMENT, SOLVE, Done, OfAFolder
from tested_program import TESTED, run_tests

BEST = "answer best\ncounts 0 0 1\ngroup 1 seats 2 people 200 counties 37001 37003 37005\n"
GROUPING = "2|37001|37003|37005\n"
PEOPLE = "37001,50\n37003,100\n37005,50\n"
ONCE = "standard input, which can be read once, for one file"


class StandardInput(OfAFolder):
    """Runs that read one of their files from standard input."""

    def run_given(self, given: str, *words: str) -> Done:
        """Runs the program in the folder, with the text `given` on standard input."""
        return subprocess.run(
            [TESTED.program, *words],
            cwd=self.folder,
            input=given,
            capture_output=True,
            text=True,
            timeout=MOST_SECONDS,
            check=False,
        )

    def with_input(self, *names: str) -> list[str]:
        """Returns the words that solve the problem with standard input in place of `names`."""
        return ["-" if word in names else word for word in SOLVE]

    def check_best(self, done: Done) -> None:
        """Wants the run to have found the best grouping, and to have told nothing else."""
        self.check_solved(done)
        self.assertTrue(done.stdout.endswith(BEST), done.stdout)

    def test_each_file_of_a_problem(self) -> None:
        for name, text in (("geo", GEO), ("segment", SEGMENT), ("adjacency", ADJACENCY)):
            with self.subTest(name):
                self.check_best(self.run_given(text, *self.with_input(name)))

    def test_a_people_file(self) -> None:
        words = ["solve", "--people", "-", "--chamber", "2", "--adjacency", "adjacency"]
        self.check_best(self.run_given(PEOPLE, *words))

    def test_a_grouping_and_a_certificate(self) -> None:
        stored = self.run_words(*SOLVE, "--certificate", "c")
        self.check_solved(stored)
        problem = SOLVE[1:]
        judged = self.run_given(GROUPING, "judge", *problem, "--grouping", "-")
        self.assertEqual(judged.returncode, 0)
        self.assertIn("\nanswer lawful\n", judged.stdout)
        certificate = (self.folder / "c").read_text()
        for command in ("check", "list"):
            with self.subTest(command):
                done = self.run_given(certificate, command, *problem, "--certificate", "-")
                self.assertEqual(done.returncode, 0, done.stderr)

    def test_the_record_names_it(self) -> None:
        self.check_best(self.run_given(GEO, *self.with_input("geo"), "--record", "r"))
        self.assertIn(" -\n", (self.folder / "r").read_text())

    def test_it_is_read_once(self) -> None:
        done = self.run_given(SEGMENT, *self.with_input("geo", "segment"))
        self.assertEqual((done.returncode, done.stdout), (5, "device - Device\n"))
        self.assertIn(ONCE, done.stderr)

    def test_a_file_of_that_name_is_not_read(self) -> None:
        (self.folder / "-").write_text("no table")
        self.check_best(self.run_given(ADJACENCY, *self.with_input("adjacency")))


if __name__ == "__main__":
    run_tests(__doc__)
