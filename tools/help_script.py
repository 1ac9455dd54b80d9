"""Runs a script that stores what it makes of a program's help texts."""
from __future__ import annotations

from typing import Callable, NamedTuple, Optional

from help_texts import PROGRAM_OF_DIST, ProgramHelp, read_program
from refusal import status_of
from script_words import ScriptWords


class Out(NamedTuple):
    """Where a script stores what it makes, if its words don't say, and the kind of that place."""

    path: str
    kind: str


def run_script(told: Optional[str], out: Out, store: Callable[[ProgramHelp, str], None]) -> int:
    """Stores what a script makes, and returns the status to end with.

    `told` is the doc string of the script. `store` makes files of the help texts of the program
    that the words name, and stores them at the path that they name. If it can't, standard error
    says why.
    """
    parser = ScriptWords(told)
    parser.add_argument("--program", default=PROGRAM_OF_DIST, metavar="FILE")
    parser.add_argument("--out", default=out.path, metavar=out.kind)
    words = parser.parse_args()
    return status_of(lambda: store(read_program(words.program), words.out))
