#!/usr/bin/env python3
"""Runs the tests that the scripts of `cases/` have of themselves, by their word `--test`.

usage: python3 tools/test_own_tests.py
"""
from __future__ import annotations

import subprocess
import sys
import unittest
from pathlib import Path

CASES = Path(__file__).resolve().parent.parent / "cases"


class OwnTests(unittest.TestCase):
    """Runs each script that takes the word. None of them runs a program by it."""

    def test_each_script_of_cases(self) -> None:
        texts = {path: path.read_text(encoding="utf-8") for path in sorted(CASES.glob("*.py"))}
        scripts = [path for path, text in texts.items() if 'add_argument("--test"' in text]
        self.assertLessEqual({"cases.py", "fuzz.py"}, {path.name for path in scripts})
        for path in scripts:
            with self.subTest(path.name):
                words = [sys.executable, str(path), "--test"]
                done = subprocess.run(words, capture_output=True, text=True, check=False)
                self.assertEqual(done.returncode, 0, done.stdout + done.stderr)


if __name__ == "__main__":
    unittest.main()
