"""The built program that a script of tests runs, and the run of its tests.

The words of such a script may name the program by `--program FILE`. Else it is the one that the
variable COUNTYGROUPS names, or that of `dist/`. Further words name the tests that are run.
"""
from __future__ import annotations

import os
import sys
import unittest
from dataclasses import dataclass
from typing import Optional

from help_texts import PROGRAM_OF_DIST, ProgramHelp, read_program
from script_words import ScriptWords


@dataclass
class Tested:
    """The path of the program that is tested."""

    program: str = os.environ.get("COUNTYGROUPS") or PROGRAM_OF_DIST


TESTED = Tested()


class OverHelp(unittest.TestCase):
    """Tests that compare with what the program says of itself, `help`."""

    help: ProgramHelp

    @classmethod
    def setUpClass(cls) -> None:
        cls.help = read_program(TESTED.program)


def run_tests(told: Optional[str]) -> None:
    """Runs the tests of the script whose doc string is `told`, and ends with their status."""
    parser = ScriptWords(told)
    parser.add_argument("--program", default=TESTED.program, metavar="FILE")
    asked, tests = parser.parse_known_args()
    TESTED.program = os.path.abspath(asked.program)
    unittest.main(argv=[sys.argv[0], *tests], verbosity=0)
