"""Reads the counties of the Census Bureau's PL 94-171 files: their codes, names and people."""
from __future__ import annotations

import re
from dataclasses import dataclass
from typing import Dict, Iterable, Iterator, List, Optional, Tuple

from refusal import Refused
from table_input import decoded

COUNTY_LEVEL = [b"050", b"00"]
STATE_FIELD, COUNTY_FIELD, RECORD_FIELD, PEOPLE_FIELD = 12, 14, 7, 5
SEGMENT_RECORD_FIELD = 4
NAME_FIELDS = slice(86, 88)
CODE = re.compile(rb"[0-9]{5}")
NUMBER = re.compile(rb"[0-9]{1,10}")
MOST_PEOPLE = 4_294_967_295

# The number of a line from 1, and its fields.
NumberedFields = Tuple[int, List[bytes]]


@dataclass(frozen=True)
class CensusCounty:
    """A county of a geographic header.

    `names` has its name without and with what it is, as `Wake` and `Wake County`. `record` is the
    number by which segment 1 has its people.
    """

    code: str
    names: Tuple[str, ...]
    record: int


def numbered_fields(path: str) -> Iterator[NumberedFields]:
    """Yields the number and the fields of each line of a file that is cut at pipes.

    Raises `Refused` if the file can't be read.
    """
    try:
        with open(path, "rb") as file:
            for number, line in enumerate(file, 1):
                yield number, line.rstrip(b"\r\n").split(b"|")
    except OSError as fault:
        raise Refused(f"The file {path} can't be read: {fault.strerror}.") from fault


def read_counties(geo: str, state: Optional[str]) -> Dict[str, CensusCounty]:
    """Returns the counties of a geographic header by their codes.

    `state` has the two digits of the state. Without it the header has to be of one state.
    Raises `Refused` if a line of a county isn't one, or if there is no county, or several states.
    """
    return counties_of(geo, numbered_fields(geo), state)


def counties_of(
    geo: str, lines: Iterable[NumberedFields], state: Optional[str]
) -> Dict[str, CensusCounty]:
    """Returns the counties in the lines of a geographic header by their codes.

    `geo` is its name in a sentence. `state` has the two digits of the state. Without it the header
    has to be of one state.
    Raises `Refused` if a line of a county isn't one, or if there is no county, or several states.
    """
    counties: Dict[str, CensusCounty] = {}
    for number, fields in lines:
        if fields[2:5:2] == COUNTY_LEVEL and len(fields) > COUNTY_FIELD:
            county = county_of(geo, number, fields)
            if state is None or county.code.startswith(state):
                counties[county.code] = county
    if not counties:
        told = f"has no county of state {state}" if state else "has no county"
        raise Refused(f"The geographic header {geo} {told}.")
    states = sorted({code[:2] for code in counties})
    if len(states) > 1:
        told = f"has counties of the states {', '.join(states)}"
        raise Refused(f"The geographic header {geo} {told}: choose one by --state.")
    return counties


def county_of(geo: str, number: int, fields: List[bytes]) -> CensusCounty:
    """Returns the county of a line. Raises `Refused` if its code or its record is none."""
    code, record = fields[STATE_FIELD] + fields[COUNTY_FIELD], fields[RECORD_FIELD]
    if not CODE.fullmatch(code) or not NUMBER.fullmatch(record):
        raise Refused(f"Line {number} of {geo} has a county without its code or record.")
    names = tuple(decoded(name).strip() for name in fields[NAME_FIELDS] if name.strip())
    return CensusCounty(code.decode(), names, int(record))


def read_people(segment: str, counties: Dict[str, CensusCounty]) -> Dict[str, int]:
    """Returns the people of each county by its code.

    Raises `Refused` if segment 1 has no record of a county, or no number of people up to
    4,294,967,295 in it.
    """
    return people_of(segment, numbered_fields(segment), counties)


def people_of(
    segment: str, lines: Iterable[NumberedFields], counties: Dict[str, CensusCounty]
) -> Dict[str, int]:
    """Returns the people of each county by its code, by the lines of segment 1.

    `segment` is its name in a sentence.
    Raises `Refused` if segment 1 has no record of a county, or no number of people up to
    4,294,967,295 in it.
    """
    code_of = {county.record: code for code, county in counties.items()}
    people: Dict[str, int] = {}
    for number, fields in lines:
        record = b"".join(fields[SEGMENT_RECORD_FIELD : SEGMENT_RECORD_FIELD + 1])
        if NUMBER.fullmatch(record) and int(record) in code_of:
            if len(fields) <= PEOPLE_FIELD or not NUMBER.fullmatch(fields[PEOPLE_FIELD]):
                raise Refused(f"Line {number} of {segment} has no number of people.")
            count = int(fields[PEOPLE_FIELD])
            if count > MOST_PEOPLE:
                raise Refused(f"Line {number} of {segment} has more people than {MOST_PEOPLE:,}.")
            people[code_of[int(record)]] = count
    missing = sorted(counties.keys() - people.keys())
    if missing:
        raise Refused(f"The segment {segment} has no record of county {missing[0]}.")
    return people
