"""Reads the people of a state's counties in the zip of the Census Bureau's PL 94-171 files.

In those of 2020 fields are cut at pipes. In those of 2010 the geographic header has fixed columns,
and segment 1 has commas. Counties and people stand in the same fields.
"""
from __future__ import annotations

import io
import os
import re
import zipfile
from typing import Callable, Dict, Iterator, List, Optional

from census_counties import COUNTY_FIELD, NAME_FIELDS, RECORD_FIELD, STATE_FIELD
from census_counties import NumberedFields, counties_of, people_of
from packed_file import DAMAGED, Source, check_unpacked, damaged_zip, is_zip, open_member
from people_table import CountyPeople
from refusal import Refused, printable

GEO = re.compile(r"[a-z]{2}geo(20[0-9]{2})\.pl", re.IGNORECASE)
SEGMENT = re.compile(r"[a-z]{2}00001(20[0-9]{2})\.pl", re.IGNORECASE)
YEARS = ("2010", "2020")
MOST_LINE_BYTES = 65_536
# Of the header of 2010: the fields by their places in that of 2020, with the first byte of each and
# the one behind its last, from 0.
COLUMNS_2010 = {
    2: (8, 11),
    4: (11, 13),
    RECORD_FIELD: (18, 25),
    STATE_FIELD: (27, 29),
    COUNTY_FIELD: (29, 32),
    NAME_FIELDS.stop - 1: (226, 316),
}
LINE_START = b"PLST|"
# What lines of 2010 begin with: those of segments, and those of the geographic header.
LINE_STARTS_2010 = (b"PLST,", b"PLST  ")


def is_unpacked(source: Source) -> bool:
    """Returns whether a file is one of the PL 94-171 files of 2020, which the program reads."""
    return source.data.startswith(LINE_START)


def is_unpacked_2010(source: Source) -> bool:
    """Returns whether a file is one of the PL 94-171 files of 2010, which need each other."""
    return source.data.startswith(LINE_STARTS_2010)


def census_people(source: Source, state: Optional[str]) -> Optional[Dict[str, CountyPeople]]:
    """Returns the people of each county by its code, or None if a file is no such zip.

    `state` has the two digits of the state. Without it the zip has to be of one state.
    Raises `Refused` if the files in the zip can't be used.
    """
    if not is_zip(source.data):
        return None
    try:
        with zipfile.ZipFile(io.BytesIO(source.data)) as packed:
            geo, segment = member_like(packed, GEO), member_like(packed, SEGMENT)
            if geo is None or segment is None:
                return None
            year = year_of_files(source, geo, segment)
            cut = {"2010": (header_fields, at_commas), "2020": (at_pipes, at_pipes)}[year]
            lines = member_fields(source, packed, geo, cut[0])
            counties = counties_of(member_name(source, geo), lines, state)
            lines = member_fields(source, packed, segment, cut[1])
            people = people_of(member_name(source, segment), lines, counties)
    except DAMAGED as fault:
        raise damaged_zip(source, fault) from fault
    return {
        code: CountyPeople(code, people[code], county.names[-1] if county.names else "")
        for code, county in counties.items()
    }


def at_pipes(line: bytes) -> List[bytes]:
    """Returns the fields of a line that is cut at pipes."""
    return line.split(b"|")


def at_commas(line: bytes) -> List[bytes]:
    """Returns the fields of a line that is cut at commas."""
    return line.split(b",")


def header_fields(line: bytes) -> List[bytes]:
    """Returns the fields of a line of the geographic header of 2010, at their places of 2020."""
    fields = [b""] * NAME_FIELDS.stop
    for place, (first, end) in COLUMNS_2010.items():
        fields[place] = line[first:end].strip()
    return fields


def member_name(source: Source, member: str) -> str:
    """Returns the name of a member of a zip in a sentence."""
    return f"{printable(member)} in {source.name}"


def member_like(packed: zipfile.ZipFile, name: "re.Pattern[str]") -> Optional[str]:
    """Returns the first member whose name without its folders is like `name`, or None."""
    members = packed.namelist()
    return next((it for it in members if name.fullmatch(os.path.basename(it))), None)


def year_of_files(source: Source, geo: str, segment: str) -> str:
    """Returns the year of both files. Raises `Refused` if it isn't 2010 or 2020."""
    found = [
        match[1]
        for member, pattern in ((geo, GEO), (segment, SEGMENT))
        for match in [pattern.fullmatch(os.path.basename(member))]
        if match is not None
    ]
    if found[0] != found[-1] or found[0] not in YEARS:
        told = f"The zip {source.name} has PL 94-171 files of {' and '.join(sorted({*found}))}"
        raise Refused(f"{told}: those of {' or '.join(YEARS)} are expected.")
    return found[0]


def member_fields(
    source: Source,
    packed: zipfile.ZipFile,
    member: str,
    cut: Callable[[bytes], List[bytes]],
) -> Iterator[NumberedFields]:
    """Yields the number and the fields of each line of a member, as `cut` returns them.

    No more than a line is kept. Raises `Refused` if the member has too many bytes, or a line has.
    """
    name, info = member_name(source, member), packed.getinfo(member)
    number = size = 0
    with open_member(packed, info) as file:
        while True:
            line = file.readline(MOST_LINE_BYTES + 1)
            if not line:
                return
            number, size = number + 1, size + len(line)
            check_unpacked(name, size, info.compress_size)
            if len(line) > MOST_LINE_BYTES:
                raise Refused(f"Line {number} of {name} has more than {MOST_LINE_BYTES:,} bytes.")
            yield number, cut(line.rstrip(b"\r\n"))
