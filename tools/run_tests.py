#!/usr/bin/env python3
"""Finds the tests of this folder by their names, and runs them.

usage: python3 tools/run_tests.py [--program FILE | --scripts] [--only WORD] [--jobs N] [--plain]
                                  [--list]

The tests are those of each `tools/test_*.py` that takes no word but --program.
--program FILE  those that run the program or compare with it, with this build of it
--scripts       the others, which run no build that is tested
--only WORD     the tests whose names have the word, in any case
--jobs N        how many classes of tests run at once; without it 2
--plain         by unittest of the standard library, even if pytest is there
--list          prints the files, and runs nothing

pytest runs them, if a Python has it with xdist, and else unittest. Both run each test, and those of
a class in one process. Without --program and --scripts all run, over the program of `dist/`.
`python/test.sh` and `r/test.sh` run the tests of the packages.

Statuses: 0 all passed, 1 one failed or there was none, 2 these words can't be followed.
"""
from __future__ import annotations

import multiprocessing
import os
import re
import subprocess
import sys
import tempfile
import unittest
from collections.abc import Iterator
from concurrent.futures import ProcessPoolExecutor, as_completed
from dataclasses import dataclass, field
from pathlib import Path
from typing import Optional

from script_words import ScriptWords, number_from

TOOLS = Path(__file__).resolve().parent
TOP = TOOLS.parent
# What has words of its own, and so a line of its own in `test.sh`.
OWN_WORDS = frozenset(("test_guides", "test_packages", "test_page_in_browser", "test_web"))
# What a file of tests has that run a built program.
TESTED = re.compile(r"^from tested_program import ", re.MULTILINE)
# The variable in which tests find the program, as the packages for Python and R do.
VARIABLE = "COUNTYGROUPS"
# Words of pytest: several processes that each take whole classes, reasons of what is passed over,
# and no folder that is left behind.
BY_PYTEST = ("-m", "pytest", "--dist", "loadscope", "-rs", "-p", "no:cacheprovider")

# The tests that are run, by the names of their classes. The processes that are forked have them.
CLASSES: dict[str, unittest.TestSuite] = {}


@dataclass
class Ran:
    """What tests came to: how many ran, the classes of which one failed, and what was missing."""

    count: int = 0
    failed: list[str] = field(default_factory=list)
    missing: set[str] = field(default_factory=set)
    told: str = ""

    def add(self, other: "Ran") -> None:
        """Adds what other tests came to."""
        self.count += other.count
        self.failed += other.failed
        self.missing |= other.missing


def tests_of(suite: unittest.TestSuite) -> Iterator[unittest.TestCase]:
    """Yields the tests of a suite and of those in it."""
    for one in suite:
        if isinstance(one, unittest.TestSuite):
            yield from tests_of(one)
        else:
            yield one


def run_class(name: str) -> Ran:
    """Runs the tests of a class. What is written to both outputs meanwhile comes back as a text."""
    outputs = (sys.stdout, sys.stderr)
    with tempfile.TemporaryFile() as file:
        for output in outputs:
            output.flush()
            os.dup2(file.fileno(), output.fileno())
        result = unittest.TextTestRunner(verbosity=2).run(CLASSES[name])
        for output in outputs:
            output.flush()
        file.seek(0)
        told = file.read().decode(errors="replace")
    missing = {why for _, why in result.skipped}
    return Ran(result.testsRun, [] if result.wasSuccessful() else [name], missing, told)


def run_tests(folder: Path, word: str, jobs: int) -> Ran:
    """Runs the tests of `folder` whose names have `word`, and returns what they came to.

    The tests of a class are run in one process, and `jobs` classes at once. What a class writes is
    printed when it ends. Prints what is missing, a line for each thing, where tests could not be
    run, and the classes of which a test failed.
    """
    loader = unittest.TestLoader()
    loader.testNamePatterns = [f"*{word}*"]
    return run_suite(loader.discover(str(folder), "test_*.py", str(folder)), jobs)


def run_suite(suite: unittest.TestSuite, jobs: int) -> Ran:
    """Runs the tests of `suite` as `run_tests` does, and returns what they came to."""
    ran = Ran()
    for test in tests_of(suite):
        name = f"{type(test).__module__}.{type(test).__qualname__}"
        CLASSES.setdefault(name, unittest.TestSuite()).addTest(test)
    with ProcessPoolExecutor(jobs, multiprocessing.get_context("fork")) as pool:
        for done in as_completed([pool.submit(run_class, name) for name in CLASSES]):
            print(done.result().told, flush=True)
            ran.add(done.result())
    for what in sorted(ran.missing):
        print(f"not run: {what}")
    for name in sorted(ran.failed):
        print(f"FAILED {name}")
    return ran


def found_files(*, with_program: bool = True, without_program: bool = True) -> list[Path]:
    """Returns the files of tests in this folder, in the order of their names.

    Those that run a built program are left out unless `with_program`, and the others unless
    `without_program`. Those with words of their own are always left out.
    """
    asked = {True: with_program, False: without_program}
    return [
        path
        for path in sorted(TOOLS.glob("test_*.py"))
        if path.stem not in OWN_WORDS
        and asked[bool(TESTED.search(path.read_text(encoding="utf-8")))]
    ]


def python_with_pytest() -> str:
    """Returns the Python that has pytest and xdist, or an empty text."""
    words = [str(TOOLS / "python_with.sh"), "pytest", "xdist"]
    return subprocess.run(words, capture_output=True, text=True, check=False).stdout.strip()


def run_by_pytest(python: str, files: list[Path], word: str, jobs: int) -> int:
    """Runs the tests of `files` whose names have `word` by pytest, and returns its status."""
    chosen = ("-k", word) if word else ()
    words = [python, *BY_PYTEST, "-n", str(jobs), *chosen, *map(str, files)]
    return subprocess.run(words, cwd=TOP, check=False).returncode


def run_by_unittest(files: list[Path], word: str, jobs: int) -> int:
    """Runs the tests of `files` whose names have `word` by unittest, and returns the status."""
    loader = unittest.TestLoader()
    suite = loader.loadTestsFromNames([path.stem for path in files])
    chosen = [test for test in tests_of(suite) if word.lower() in test.id().lower()]
    ran = run_suite(unittest.TestSuite(chosen), jobs)
    return 0 if ran.count and not ran.failed else 1


def main(words: Optional[list[str]] = None) -> int:
    """Runs what the words ask for, and returns the status to end with."""
    parser = ScriptWords(__doc__)
    which = parser.add_mutually_exclusive_group()
    which.add_argument("--program", type=Path)
    which.add_argument("--scripts", action="store_true")
    parser.add_argument("--only", default="")
    parser.add_argument("--jobs", type=number_from(1, 64), default=2)
    parser.add_argument("--plain", action="store_true")
    parser.add_argument("--list", action="store_true")
    asked = parser.parse_args(words)
    if asked.program:
        os.environ[VARIABLE] = str(asked.program.resolve())
    files = found_files(with_program=not asked.scripts, without_program=not asked.program)
    if asked.list:
        print(*(path.relative_to(TOP) for path in files), sep="\n")
        return 0
    python = "" if asked.plain else python_with_pytest()
    if python:
        return 1 if run_by_pytest(python, files, asked.only, asked.jobs) else 0
    return run_by_unittest(files, asked.only, asked.jobs)


if __name__ == "__main__":
    sys.exit(main())
