"""The error by which the tools refuse what they are asked, and the status of a script for it."""
from __future__ import annotations

import os
import sys
from typing import Callable


class Refused(Exception):
    """Why something isn't done or can't be used, in words for a person."""


def printable(text: str) -> str:
    """Returns a text with a question mark in place of each sign that isn't printable.

    Such a sign is a control character, one that turns the direction of text, or half of a pair.
    """
    return "".join(sign if sign.isprintable() else "?" for sign in text)


def status_of(act: Callable[[], None]) -> int:
    """Does what a script is asked, and returns its status: 0, or 1 if `act` raises an error.

    Such an error is `Refused`, or one of the system. Standard error then has the name of the script
    and what the error says.
    """
    try:
        act()
    except (Refused, OSError) as error:
        print(f"{os.path.basename(sys.argv[0])}: {error}", file=sys.stderr)
        return 1
    return 0
