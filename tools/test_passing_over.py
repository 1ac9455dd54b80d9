#!/usr/bin/env python3
"""Tests how tests are passed over: what says so, and that `./test.sh --require-all` fails by it."""
from __future__ import annotations

import os
import shutil
import subprocess
import tempfile
import unittest
from pathlib import Path
from unittest import mock

import installed

TOP = Path(__file__).resolve().parent.parent
# What `test.sh` and the scripts of these tests run before any test.
BASIC = ("bash", "cat", "cut", "dirname", "env", "grep", "head", "mktemp", "nproc", "python3")
MORE = ("realpath", "rm", "rmdir", "sort", "tail", "touch")


class PassingOver(unittest.TestCase):
    """Runs the scripts where only some programs are on the path."""

    def setUp(self) -> None:
        room = tempfile.TemporaryDirectory()
        self.addCleanup(room.cleanup)
        self.room = Path(room.name)
        self.told = self.room / "not_run"

    def run_with_little(self, *words: str) -> "subprocess.CompletedProcess[str]":
        """Runs `words` of the repository with the basic programs alone on the path."""
        programs = self.room / "programs"
        programs.mkdir()
        for name in BASIC + MORE:
            (programs / name).symlink_to(shutil.which(name) or name)
        env = {**os.environ, "PATH": str(programs)}
        env.pop("COUNTYGROUPS_NOT_RUN", None)
        return subprocess.run(words, cwd=TOP, env=env, capture_output=True, text=True)

    def test_each_package_that_is_missing_is_named(self) -> None:
        ran = self.run_with_little("tools/test_needs.sh")
        self.assertEqual((ran.returncode, ran.stderr), (1, ""))
        *_, last = ran.stdout.splitlines()
        self.assertTrue(last.startswith("to get it: apt-get install "), last)
        named = set(last.split())
        self.assertLessEqual(set(installed.PACKAGES.values()), named)
        self.assertLessEqual({"r-cran-sf", "mypy", "black"}, named)

    def test_pytest_is_named_where_no_python_has_it(self) -> None:
        """Of /usr/bin/python3 that depends on the machine, so the modules' names are changed."""
        tools = self.room / "tools"
        tools.mkdir()
        text = (TOP / "tools" / "test_needs.sh").read_text(encoding="utf-8")
        self.assertEqual(text.count("pytest xdist >/dev/null"), 1)
        text = text.replace("pytest xdist >/dev/null", "no_such_module >/dev/null")
        (tools / "test_needs.sh").write_text(text, encoding="utf-8")
        shutil.copy(TOP / "tools" / "python_with.sh", tools)
        ran = subprocess.run(["bash", str(tools / "test_needs.sh")], capture_output=True, text=True)
        *lines, last = ran.stdout.splitlines()
        self.assertLessEqual({"python3-pytest", "python3-pytest-xdist"}, set(last.split()))
        pytest = [line for line in lines if "module pytest" in line or "module xdist" in line]
        self.assertEqual(len(pytest), 2, lines)
        self.assertEqual(ran.returncode, 0 if len(lines) == 2 else 1)

    def test_all_tests_are_required_before_any_is_run(self) -> None:
        # (without a program it would end there, and never come to this test again)
        none = str(self.room / "none")
        ran = self.run_with_little("./test.sh", "--require-all", "--program", none)
        self.assertEqual((ran.returncode, ran.stdout), (1, ""))
        self.assertIn("not there: the program fish, in Debian's package fish\n", ran.stderr)

    def test_a_script_says_what_it_passes_over(self) -> None:
        env = {**os.environ, "COUNTYGROUPS_NOT_RUN": str(self.told)}
        words = [str(TOP / "tools" / "pass_over.sh"), "the check of types"]
        ran = subprocess.run(words, env=env, capture_output=True, text=True, check=True)
        self.assertEqual(ran.stdout, "not run: the check of types\n")
        self.assertEqual(self.told.read_text(encoding="utf-8"), "the check of types\n")

    def test_a_program_that_is_missing_passes_a_test_over(self) -> None:
        env = {"COUNTYGROUPS_NOT_RUN": str(self.told), "PATH": str(self.room)}
        with mock.patch.dict(os.environ, env), self.assertRaises(installed.NotThere):
            installed.program_there("fish")
        wanted = "there is no `fish`: Debian has it as the package fish\n"
        self.assertEqual(self.told.read_text(encoding="utf-8"), wanted)

    def test_the_python_that_has_the_modules(self) -> None:
        script = str(TOP / "tools" / "python_with.sh")
        ran = subprocess.run([script, "json"], capture_output=True, text=True, check=True)
        self.assertEqual(ran.stdout, "python3\n")
        self.assertEqual(subprocess.run([script, "no_such_module"]).returncode, 1)


if __name__ == "__main__":
    unittest.main()
