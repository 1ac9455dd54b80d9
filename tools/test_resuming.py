#!/usr/bin/env python3
"""Tests that a board goes on from where a search stopped (`countygroups solve --events`).

usage: python3 tools/test_resuming.py [--program FILE]

--program FILE: a build of the program; by default that of `dist/`.

The steps of `solve` run out in North Carolina's Senate of 2020. What it stored is carried on by
`share` and `piece`. They come to a certificate, by which `check` calls the grouping best.
"""
from __future__ import annotations

import os
import re
import subprocess
import tempfile
import unittest

from help_texts import TOP
from tested_program import TESTED, run_tests

DATA = os.path.join(TOP, "data", "nc2020")
PROBLEM = ["--geo", f"{DATA}/nc2020geo.pl", "--segment", f"{DATA}/nc000012020.pl"]
PROBLEM += ["--adjacency", f"{DATA}/county_borders.txt", "--chamber", "50"]
# `solve` needs 57,035 steps for this chamber (`docs/benchmarks.md`).
STEPS, PIECE_STEPS, MOST_SECONDS = 50_000, 20_000, 120
OPEN = re.compile(r"(?m)^open (\d+) (\d+)$")


def run(words: list[str]) -> subprocess.CompletedProcess[str]:
    """Runs the program with `words`."""
    return subprocess.run(
        [TESTED.program, *words], capture_output=True, text=True, timeout=MOST_SECONDS
    )


class Resuming(unittest.TestCase):
    """Tests that go on from a search whose steps ran out."""

    def setUp(self) -> None:
        it = tempfile.TemporaryDirectory()
        self.addCleanup(it.cleanup)
        self.room = it.name
        self.grouping, self.events = self.path("grouping"), self.path("events")
        self.certificate = self.path("certificate")

    def path(self, name: str) -> str:
        """Returns the path of a file in the room."""
        return os.path.join(self.room, name)

    def read(self, path: str) -> str:
        """Returns the text of a file."""
        with open(path) as file:
            return file.read()

    def solve(self, steps: int) -> subprocess.CompletedProcess[str]:
        """Has `solve` take at most `steps`, and store its grouping and its events."""
        stored = ["--out", self.grouping, "--events", self.events]
        return run(["solve", *PROBLEM, "--steps", str(steps), *stored])

    def add_pieces(self, told: str) -> None:
        """Has `piece` prove each piece that `told` says is open, and adds what it prints."""
        board = ["--grouping", self.grouping, "--events", self.events]
        texts = []
        for number, piece in OPEN.findall(told):
            words = ["piece", *PROBLEM, *board, "--round", number, "--number", piece]
            done = run([*words, "--steps", str(PIECE_STEPS)])
            self.assertIn(done.returncode, (0, 3), done.stderr)
            self.assertNotEqual(done.stdout, "open\n")
            texts.append(done.stdout)
        with open(self.events, "a") as file:
            file.write("".join(texts))

    def is_joined(self) -> bool:
        """Has `share` take the events and `piece` prove what is open; returns if nothing is."""
        words = ["share", *PROBLEM, "--grouping", self.grouping, "--events", self.events]
        done = run([*words, "--certificate", self.certificate])
        if done.returncode == 0:
            return True
        self.assertEqual(done.returncode, 3, done.stderr)
        self.add_pieces(done.stdout[done.stdout.rindex("left ") :])
        return False

    def assert_best(self, certificate: str) -> None:
        """Asserts that the certificate is one of a best grouping, with the counts of `solve`."""
        done = run(["check", *PROBLEM, "--certificate", certificate])
        self.assertIn("\nanswer best\n", done.stdout)
        # (the grouping that was enacted in 2023 is best, too)
        best = run(["judge", *PROBLEM, "--grouping", f"{DATA}/senate2023.grouping"])
        counts = re.compile(r"(?m)^counts .*$")
        self.assertEqual(counts.findall(done.stdout), counts.findall(best.stdout))

    def test_share_and_piece_go_on(self) -> None:
        """The proof goes on from the events of `solve` to a certificate."""
        done = self.solve(STEPS)
        self.assertEqual(done.returncode, 3)
        text = self.read(self.events)
        self.assertTrue(text.startswith("part 1 1\n"))
        first = run(["share", *PROBLEM, "--grouping", self.grouping, "--events", self.events])
        self.assertRegex(first.stdout, r"^split into 2 to \d+\nleft ")
        for _ in range(100):
            if self.is_joined():
                self.assert_best(self.certificate)
                return
        self.fail("the proof isn't joined after a hundred turns")

    def test_nothing_is_proved_in_a_round_of_lesser_groups(self) -> None:
        """The events are an empty text if the last round isn't the one that proves it best."""
        done = self.solve(1)
        self.assertEqual(done.returncode, 3)
        self.assertEqual(self.read(self.events), "")

    def test_a_best_answer_has_no_events(self) -> None:
        """The events are stored only if the steps run out."""
        done = self.solve(1_000_000)
        self.assertEqual(done.returncode, 0)
        self.assertFalse(os.path.exists(self.events))


if __name__ == "__main__":
    run_tests(__doc__)
