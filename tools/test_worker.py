#!/usr/bin/env python3
"""Tests that a worker answers each piece at once (`countygroups worker`).

usage: python3 tools/test_worker.py [--program FILE]

--program FILE: a build of the program; by default that of `dist/`.

The worker gets its texts through a pipe. Each piece is told only after the answer to the one before
it has come, up to its line `end`.
"""
from __future__ import annotations

import os
import subprocess
import tempfile
import threading
import unittest
from queue import Queue
from typing import IO, Iterator

from tested_program import TESTED, run_tests

MOST_SECONDS = 60
# Three counties in a row, of which the middle one has half of the people. `cases/share` has them as
# `wide_split_and_joined`.
FILES = {
    "geo": "".join(
        f"||050||00|||{i}||x|||37||{code}\n" for i, code in enumerate(("001", "003", "005"))
    ),
    "segment": "||||0|50\n||||1|100\n||||2|50\n",
    "adjacency": "x|GEOID|y|GEOID\nx|37001|y|37003\nx|37003|y|37005\n",
}
ROUND = "round 1 3 1\ngroup 2 37001 37003 37005\n"
TAKEN = "open 1 2\nclosed 37001 37003 37005\nend\n"
RAISED = "open 1 3\nleast 37001 4\nend\n"
OF_NO_ROUND = "open 2 1\nend\n"


def answers_of(out: IO[str]) -> Iterator[str]:
    """Yields each answer of a worker, up to its line `end`, and then what is left."""
    said = ""
    for line in out:
        said += line
        if line == "end\n":
            yield said
            said = ""
    yield said


def put_answers(out: IO[str], answers: Queue[str]) -> None:
    """Puts each answer of a worker into `answers`, as soon as it has come."""
    for answer in answers_of(out):
        answers.put(answer)


class AtOnce(unittest.TestCase):
    """Tests of a worker in a pipe."""

    def setUp(self) -> None:
        it = tempfile.TemporaryDirectory()
        self.addCleanup(it.cleanup)
        self.words = ["--chamber", "2"]
        for name, text in FILES.items():
            path = os.path.join(it.name, name)
            with open(path, "w") as file:
                file.write(text)
            self.words += [f"--{name}", path]

    def started(self) -> tuple[subprocess.Popen[str], Queue[str]]:
        """Returns a worker, and the answers that come from it."""
        command = [TESTED.program, "worker", *self.words]
        pipe = subprocess.PIPE
        worker = subprocess.Popen(command, stdin=pipe, stdout=pipe, text=True, bufsize=1)
        assert worker.stdin is not None and worker.stdout is not None
        answers: Queue[str] = Queue()
        reader = threading.Thread(target=put_answers, args=(worker.stdout, answers))
        reader.start()
        # (the last of these is done first)
        self.addCleanup(worker.stdout.close)
        self.addCleanup(worker.stdin.close)
        self.addCleanup(reader.join)
        self.addCleanup(worker.wait)
        self.addCleanup(worker.kill)
        return worker, answers

    def test_each_answer_comes_before_the_next_piece(self) -> None:
        """The worker answers a piece without a further text, and then takes the next one."""
        worker, answers = self.started()
        assert worker.stdin is not None
        turns = [
            (ROUND + TAKEN, "result 1 2\nbound 3\nroom\nroom\nroom\nend\n"),
            (OF_NO_ROUND, "no such piece\nend\n"),
            (RAISED, "result 1 3\nstuck 37001\nend\n"),
        ]
        for text, answer in turns:
            worker.stdin.write(text)
            worker.stdin.flush()
            self.assertEqual(answers.get(timeout=MOST_SECONDS), answer)
        worker.stdin.close()
        self.assertEqual(worker.wait(MOST_SECONDS), 0)
        self.assertEqual(answers.get(timeout=MOST_SECONDS), "")


if __name__ == "__main__":
    run_tests(__doc__)
