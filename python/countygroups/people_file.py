"""People and names of counties from a people file, as `tools/people.py` of the program makes it."""
from __future__ import annotations

import re
from typing import Any, Sequence

from .census import Path
from .errors import InputError

REMEDY = "tools/people.py makes a people file of other tables"
GEOID = re.compile(r"[0-9]{5}")
COUNT = re.compile(r"[0-9]+")
MOST_PEOPLE = 4_294_967_295


def read_people(path: Path) -> dict[str, dict[str, Any]]:
    """Returns people and name of each county of a people file, by GEOID.

    A line has a code of five digits, a number of people up to 4,294,967,295, and a name in UTF-8 if
    there is one. Blank lines are passed over. Fields are cut at pipes if the first line has a pipe
    and no comma, and else at commas. A first line whose first field is no code is a header. The
    counties of every state are taken. The dict serves `solve` as `counties`.
    Raises `InputError` if the file can't be read, at the first line that isn't of this form or has
    a county that stands before, or if there is no county.
    """
    lines = _lines(path)
    first = lines[0][1] if lines else ""
    mark = "|" if "|" in first and "," not in first else ","
    found: dict[str, dict[str, Any]] = {}
    for place, (number, line) in enumerate(lines):
        row = _fields(line, mark)
        if place == 0 and row and not GEOID.fullmatch(row[0]):
            continue
        why = _fault(row)
        if not why and row[0] in found:
            why = f"has county {row[0]}, which stands before"
        if why:
            raise InputError(f"Line {number} of {path} {why}: {REMEDY}.")
        found[row[0]] = {"people": _people(row[1]), "NAME": "".join(row[2:]) or row[0]}
    if not found:
        told = f"No line of {path} is that of a county"
        raise InputError(f"{told}: {REMEDY}.")
    return found


def _lines(path: Path) -> list[tuple[int, str]]:
    """Returns the number and the text of each line that isn't blank, without its LF or CRLF.

    Bytes that aren't UTF-8 are surrogates.
    """
    try:
        with open(path, "rb") as file:
            text = file.read().decode("utf-8-sig", errors="surrogateescape")
    except OSError as fault:
        why = fault.strerror or fault
        raise InputError(f"The file {path} can't be read: {why}.") from fault
    lines = [line[:-1] if line.endswith("\r") else line for line in text.split("\n")]
    return [(number, line) for number, line in enumerate(lines, 1) if line]


def _fields(line: str, mark: str) -> list[str]:
    """Returns the fields of a line, or none if its quotes are wrong by RFC 4180."""
    field = re.compile(rf'(?:"((?:[^"]|"")*)"|([^"{mark}]*))({re.escape(mark)}|\Z)')
    fields: list[str] = []
    place, is_end = 0, False
    while not is_end:
        found = field.match(line, place)
        if found is None:
            return []
        fields.append(found[2] if found[1] is None else found[1].replace('""', '"'))
        place, is_end = found.end(), not found[3]
    return fields


def _people(digits: str) -> int:
    """Returns the number of these digits, or one above the greatest if they are too many."""
    rest = digits.lstrip("0") or "0"
    return int(rest) if len(rest) <= len(str(MOST_PEOPLE)) else MOST_PEOPLE + 1


def _fault(row: Sequence[str]) -> str:
    """Returns what is wrong with the fields of a line, or an empty text."""
    if not 2 <= len(row) <= 3:
        return "hasn't a county's code, its people and at most a name"
    if not GEOID.fullmatch(row[0]):
        return f"has {row[0]!r}, and a county's code has five digits"
    if not COUNT.fullmatch(row[1]) or _people(row[1]) > MOST_PEOPLE:
        return f"has the people {row[1]!r}, which is no whole number up to {MOST_PEOPLE:,}"
    if any("\ud800" <= sign <= "\udfff" for sign in "".join(row[2:])):
        return "has a name that isn't UTF-8"
    return ""
