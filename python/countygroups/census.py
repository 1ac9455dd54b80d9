"""People and names of counties from the files of the Census Bureau."""
from __future__ import annotations

import gzip
import re
import zipfile
from os import PathLike
from typing import Any, Iterator, NamedTuple, Sequence, Union

from . import files
from .errors import InputError

Path = Union[str, "PathLike[str]"]

# What members of the Census Bureau's archives are called: the header, and segment 1.
GEO_MEMBER = re.compile(r".*geo.*\.(?:pl|upl)$", re.I)
SEGMENT_MEMBER = re.compile(r".*00001[0-9]{4}\.(?:pl|upl)$", re.I)

# Where a line of the header of 2010 has its fields: the places of the first and behind the last
# sign, from 0.
PLACES_2010 = {
    files.SUMLEV: (8, 11),
    files.GEOCOMP: (11, 13),
    files.LOGRECNO: (18, 25),
    files.STATE: (27, 29),
    files.COUNTY: (29, 32),
    files.NAME: (226, 316),
}


class Header(NamedTuple):
    """Is a county of a geographic header."""

    geoid: str
    record: str
    name: str


def read_census(geo: Path, segment: Path) -> dict[str, dict[str, Any]]:
    """Returns people and name of each county of the PL 94-171 legacy files, by GEOID.

    `geo` is the geographic header, and `segment` segment 1, of 2020 (fields at pipes) or of 2010
    (fixed columns, and commas). Each may be a text, one that gzip packed, or a zip archive with it,
    such as that of a state, which then stands for both. The dict serves `solve` as `counties`.
    Raises `InputError` if a file can't be read, or if a county has no record.
    """
    people = {row[4]: row[5] for row in _records(segment)}
    found: dict[str, dict[str, Any]] = {}
    for county in _headers(geo):
        number = people.get(county.record, "")
        if not number.isdecimal():
            told = f"County {county.geoid} of {geo} has no people in {segment}"
            raise InputError(f"{told}: give segment 1 of the same files, as nc000012020.pl.")
        found[county.geoid] = {"people": int(number), "NAME": county.name or county.geoid}
    if not found:
        told = f"No line of {geo} is that of a county: give the geographic header of PL 94-171"
        raise InputError(f"{told}. A people file is read by read_people, a table by pandas.")
    return found


def _records(path: Path) -> Iterator[list[str]]:
    """Yields the fields of each record of segment 1."""
    for line in _lines(path, SEGMENT_MEMBER):
        row = line.split("|" if "|" in line else ",")
        if len(row) >= 6:
            yield row


def _headers(path: Path) -> Iterator[Header]:
    """Yields the counties of a geographic header."""
    for line in _lines(path, GEO_MEMBER):
        fields = _fields(line)
        if (fields[files.SUMLEV], fields[files.GEOCOMP]) == ("050", "00"):
            geoid = fields[files.STATE] + fields[files.COUNTY]
            yield Header(geoid, fields[files.LOGRECNO], fields[files.NAME])


def _fields(line: str) -> dict[int, str]:
    """Returns the fields of a line of a header, by their places in that of 2020."""
    if "|" not in line:
        return {name: line[one:end].strip() for name, (one, end) in PLACES_2010.items()}
    row = line.split("|")
    return {name: row[name - 1] if len(row) >= name else "" for name in PLACES_2010}


def _lines(path: Path, member: "re.Pattern[str]") -> Sequence[str]:
    """Returns the lines of a file, of one that gzip packed, or of a member of a zip archive."""
    try:
        with open(path, "rb") as file:
            content = file.read()
        if content.startswith(b"\x1f\x8b"):
            content = gzip.decompress(content)
        elif content.startswith(b"PK\x03\x04"):
            content = _member(path, member)
    except (EOFError, zipfile.BadZipFile) as fault:
        raise InputError(f"The archive {path} can't be unpacked: {fault}.") from fault
    except OSError as fault:
        why = fault.strerror or fault
        raise InputError(f"The file {path} can't be read: {why}.") from fault
    return content.decode("utf-8-sig", errors="replace").splitlines()


def _member(path: Path, member: "re.Pattern[str]") -> bytes:
    """Returns the member of an archive whose name fits, or the only one."""
    with zipfile.ZipFile(path) as archive:
        names = archive.namelist()
        fitting = names if len(names) == 1 else [one for one in names if member.fullmatch(one)]
        if len(fitting) != 1:
            told = f"The archive {path} has {len(names)} files, and {len(fitting)} of them fit"
            raise InputError(f"{told}: unpack it, and name the file.")
        return archive.read(fitting[0])
