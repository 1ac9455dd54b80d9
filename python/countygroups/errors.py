"""The errors of this package."""
from __future__ import annotations

import sys
import warnings
from pathlib import Path
from types import FrameType
from typing import Sequence

HERE = str(Path(__file__).resolve().parent)


class CountyGroupsError(Exception):
    """Is the base of all errors of this package."""


class InputError(CountyGroupsError, ValueError):
    """Says in a sentence why what was given can't be used."""


class ProgramNotFound(CountyGroupsError):
    """Says in a sentence where the program was looked for."""


class TimeLimitError(CountyGroupsError, TimeoutError):
    """Says that the time that was allowed is over. The program was ended."""


class CountyGroupsWarning(UserWarning):
    """Tells what may be wrong with what was given, though there is an answer."""


def warn(told: str) -> None:
    """Warns of `told` as `CountyGroupsWarning`, at the line that called this package."""
    level = 1
    frame: FrameType | None = sys._getframe()
    while frame is not None and frame.f_code.co_filename.startswith(HERE):
        level, frame = level + 1, frame.f_back
    warnings.warn(told, CountyGroupsWarning, stacklevel=level)


class NoBestGrouping(CountyGroupsError):
    """Says that an answer has no best grouping: none is lawful, or the steps ran out."""


class ProgramError(CountyGroupsError):
    """Has the words of the program where it gave no answer.

    `status` is the exit status of the program, `line` what it wrote to standard output, and
    `messages` the lines of its standard error. If codes stand for other labels, `legend` has a line
    for each code of these texts.
    """

    def __init__(
        self, status: int, line: str, messages: Sequence[str], legend: Sequence[str] = ()
    ) -> None:
        self.status = status
        self.line = line
        self.messages = tuple(messages)
        self.legend = tuple(legend)
        told = [line, *messages, *legend]
        super().__init__(
            "\n".join(one for one in told if one) or f"the program ended with {status}"
        )


class CertificateError(ProgramError):
    """Has the words of the program where a text is no certificate of the problem."""
