"""Tests of `crate_table.py`. They need no program.

usage: python3 tools/test_crate_table.py
"""
from __future__ import annotations

import os
import subprocess
import sys
import unittest

import crate_table


class Lists(unittest.TestCase):
    """Tests of the list of crates."""

    def test_a_reader_that_has_enough(self) -> None:
        """A pipe that nobody reads ends the list without a word."""
        reader, writer = os.pipe()
        os.close(reader)
        command = [sys.executable, crate_table.__file__, "--list"]
        with open(writer, "wb") as out:
            done = subprocess.run(command, stdout=out, stderr=subprocess.PIPE, check=False)
        self.assertEqual((done.returncode, done.stderr), (0, b""))


if __name__ == "__main__":
    unittest.main()
