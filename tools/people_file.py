"""Reads a people file, the program's table of counties with their people and their names."""
from __future__ import annotations

import csv
import io
from typing import Dict, Iterator, List, Optional, Tuple

from census_counties import CODE, MOST_PEOPLE, NUMBER, CensusCounty
from county_names import names_of
from packed_file import read_file
from refusal import Refused
from table_input import shown

REMEDY = "tools/people.py makes a people file of other tables"


def read_people_file(
    path: str, state: Optional[str]
) -> Tuple[Dict[str, CensusCounty], Dict[str, int]]:
    """Returns the counties of the people file at `path` by their codes, and the people of each.

    `state` has the two digits of the state. Without it the file has to be of one state.
    Raises `Refused` if the file can't be read, if a line isn't one of a people file, or if there is
    no county, or several states.
    """
    counties: Dict[str, CensusCounty] = {}
    people: Dict[str, int] = {}
    for number, fields in numbered_rows(path):
        code, count = county_of(path, number, fields)
        if code in people:
            raise Refused(f"Line {number} of {path} has county {code}, which stands before.")
        if state is None or code.startswith(state):
            counties[code] = CensusCounty(code, names_of("".join(fields[2:])), 0)
            people[code] = count
    if not counties:
        told = f"has no county of state {state}" if state else "has no county"
        raise Refused(f"The people file {path} {told}: {REMEDY}.")
    states = sorted({code[:2] for code in counties})
    if len(states) > 1:
        told = f"has counties of the states {', '.join(states)}"
        raise Refused(f"The people file {path} {told}: choose one by --state.")
    return counties, people


def numbered_rows(path: str) -> Iterator[Tuple[int, List[str]]]:
    """Yields the number and the fields of each line that isn't blank and isn't the header.

    Raises `Refused` if the file can't be read, or if its quotes are wrong.
    """
    try:
        text = read_file(path).data.decode("utf-8-sig")
    except UnicodeDecodeError as fault:
        raise Refused(f"The people file {path} is no text in UTF-8: {REMEDY}.") from fault
    first = text.partition("\n")[0]
    mark = "|" if "|" in first and "," not in first else ","
    rows = csv.reader(io.StringIO(text), delimiter=mark, strict=True)
    is_first = True
    try:
        for fields in filter(None, rows):
            if not is_first or CODE.fullmatch(fields[0].encode()):
                yield rows.line_num, fields
            is_first = False
    except csv.Error as fault:
        raise Refused(f"Line {rows.line_num} of {path} has wrong quotes: {REMEDY}.") from fault


def county_of(path: str, number: int, fields: List[str]) -> Tuple[str, int]:
    """Returns the code and the people of a line. Raises `Refused` if it isn't one of a people file.

    `number` is that of the line in the file at `path`.
    """
    place = f"Line {number} of {path}"
    if not 2 <= len(fields) <= 3 or not CODE.fullmatch(fields[0].encode()):
        told = "isn't a county's five digits, its people and at most a name"
        raise Refused(f"{place} {told}: {REMEDY}.")
    if not NUMBER.fullmatch(fields[1].encode()) or int(fields[1]) > MOST_PEOPLE:
        told = f"has the people {shown(fields[1])}, which is no whole number up to {MOST_PEOPLE:,}"
        raise Refused(f"{place} {told}: {REMEDY}.")
    return fields[0], int(fields[1])
