#!/usr/bin/env python3
"""Tests that the Makefile, the hooks and the settings of the repository name what is there."""
from __future__ import annotations

import re
import shutil
import subprocess
import unittest
from pathlib import Path

import run_tests
from installed import pass_over

TOP = Path(__file__).resolve().parent.parent
# A path of a script or a file of the repository in a command.
NAMED = re.compile(r"(?:\./|\b(?:tools|python|docs)/|\.ci/)[\w./]+")


def lines_of(name: str) -> list[str]:
    """Returns the lines of a file of the repository."""
    return (TOP / name).read_text(encoding="utf-8").splitlines()


class Workshop(unittest.TestCase):
    """Reads the files beside the code."""

    def assert_named_files_are_there(self, name: str, lines: list[str]) -> None:
        """Fails unless each path that the lines of a file name is there."""
        for path in (path for line in lines for path in NAMED.findall(line)):
            self.assertTrue((TOP / path).exists(), f"{name} names {path}")

    def test_makefile(self) -> None:
        recipes = [line for line in lines_of("Makefile") if line.startswith("\t")]
        self.assert_named_files_are_there("Makefile", recipes)

    def test_help_names_each_command(self) -> None:
        if not shutil.which("make"):
            pass_over("make help: Debian has `make` as the package make")
            self.skipTest("there is no make")
        done = subprocess.run(["make", "-s", "help"], cwd=TOP, capture_output=True, text=True)
        named = re.findall(r"^  make ([a-z]+)", done.stdout, re.M)
        phony = next(line for line in lines_of("Makefile") if line.startswith(".PHONY:"))
        self.assertEqual(sorted(named), sorted(phony.split()[1:]))

    def test_hooks(self) -> None:
        lines = lines_of(".pre-commit-config.yaml")
        entries = [line for line in lines if line.strip().startswith("entry:")]
        self.assertEqual(len(entries), sum("- id:" in line for line in lines))
        self.assert_named_files_are_there(".pre-commit-config.yaml", entries)

    def test_attributes(self) -> None:
        for line in lines_of(".gitattributes"):
            pattern = line.split()[0] if line else "#"
            if not pattern.startswith("#"):
                found = list(TOP.glob(pattern.removesuffix("/**")))
                self.assertTrue(found, f".gitattributes names {pattern}")

    def test_each_file_of_tests_is_run(self) -> None:
        """`test.sh` runs those that are found by their names, and has a line for each other one."""
        found = {path.stem for path in run_tests.found_files()}
        scripts = {path.stem for path in run_tests.found_files(with_program=False)}
        tested = {path.stem for path in run_tests.found_files(without_program=False)}
        self.assertEqual(scripts | tested, found)
        self.assertFalse(scripts & tested)
        lines = "\n".join(lines_of("test.sh"))
        self.assertIn('tools/run_tests.py --jobs "$few" --scripts', lines)
        self.assertIn('tools/run_tests.py --jobs "$few" --program', lines)
        for path in sorted((TOP / "tools").glob("test_*.py")):
            self.assertEqual(path.stem in found, f"tools/{path.name}" not in lines, path.name)

    def test_templates(self) -> None:
        for path in sorted((TOP / ".github").rglob("*.md")):
            for name in re.findall(r"\b[A-Z]+\.md\b", path.read_text(encoding="utf-8")):
                self.assertTrue((TOP / name).is_file(), f"{path.name} names {name}")


if __name__ == "__main__":
    unittest.main()
