"""The files of a problem, in the layouts that the program reads."""
from __future__ import annotations

import csv
import io
from pathlib import Path
from typing import Iterable, Mapping, Sequence

from .adjacency import Adjacency
from .borders import Pair
from .codes import Codes
from .counties import County

PEOPLE = "people.csv"
# The counties with the blocks of a plan.
GEO = "geo.pl"
SEGMENT = "segment1.pl"
ADJACENCY = "adjacency.txt"
LINKS = "links.txt"
WITHDRAWN = "withdrawn.txt"
CERTIFICATE = "certificate.txt"
GROUPING = "grouping.txt"
GROUPINGS = "groupings.csv"
ASSIGNMENTS = "assignments.csv"
LABELS = "labels.csv"
# The files that the program stores.
STORED = (CERTIFICATE, GROUPING, GROUPINGS)

# The fields of a line of a geographic header, from 1, and how many such a line has.
SUMLEV, GEOCOMP, LOGRECNO, GEOCODE, STATE, COUNTY, NAME = 3, 5, 8, 10, 13, 15, 88
GEO_FIELDS = 97


def write(folder: Path, name: str, lines: Iterable[str]) -> None:
    """Writes lines to a file of `folder`, each with one LF at its end."""
    write_text(folder / name, text_of(lines))


def text_of(lines: Iterable[str]) -> str:
    """Returns lines as a text, each with one LF at its end."""
    return "".join(f"{line}\n" for line in lines)


def write_text(path: Path, text: str) -> None:
    """Writes a text in UTF-8 to the file at `path`, with LF as its line ends on every system."""
    path.write_bytes(text.encode())


def cleaned(name: str) -> str:
    """Returns a name without pipes and control characters, which a field can't have."""
    return "".join(" " if sign == "|" or not sign.isprintable() else sign for sign in name)


def geo_line(record: int, code: str, name: str) -> str:
    """Returns the line of a county in a geographic header."""
    fields = {SUMLEV: "050", GEOCOMP: "00", LOGRECNO: f"{record:07d}", NAME: cleaned(name)}
    return line_of({**fields, STATE: code[:2], COUNTY: code[2:]})


def block_line(record: int, code: str) -> str:
    """Returns the line of a block, whose code has fifteen digits, in a geographic header."""
    fields = {SUMLEV: "750", GEOCOMP: "00", LOGRECNO: f"{record:07d}", GEOCODE: code}
    return line_of({**fields, STATE: code[:2]})


def line_of(fields: Mapping[int, str]) -> str:
    """Returns the line of a geographic header with these fields, by their places from 1."""
    return "|".join(fields.get(place, "") for place in range(1, GEO_FIELDS + 1))


def people_line(record: int, people: int) -> str:
    """Returns the line of a record in segment 1."""
    return f"||||{record:07d}|{people}"


def county_lines(counties: Sequence[County], codes: Codes) -> tuple[list[str], list[str]]:
    """Returns the lines of the counties in the geographic header and in segment 1."""
    numbered = list(enumerate(counties, 1))
    geo = [geo_line(record, codes.code_of[one.label], one.name) for record, one in numbered]
    return geo, [people_line(record, county.people) for record, county in numbered]


def write_people(folder: Path, counties: Sequence[County], codes: Codes) -> None:
    """Writes the people file, as CSV with a header."""
    text = io.StringIO()
    table = csv.writer(text, lineterminator="\n")
    table.writerow(["county", "people", "name"])
    for one in counties:
        table.writerow([codes.code_of[one.label], one.people, cleaned(one.name)])
    write_text(folder / PEOPLE, text.getvalue())


def write_adjacency(folder: Path, adjacency: Adjacency, codes: Codes) -> None:
    """Writes the adjacency file, and the links if pairs were added or cut."""

    def coded(pairs: Iterable[Pair]) -> list[tuple[str, str]]:
        """Returns the codes of pairs of labels, in the order of the codes."""
        return sorted((codes.code_of[one], codes.code_of[other]) for one, other in pairs)

    write(folder, ADJACENCY, [f"|{one}||{other}" for one, other in coded(adjacency.listed)])
    if adjacency.added or adjacency.cut:
        signs = (("+", coded(adjacency.added)), ("-", coded(adjacency.cut)))
        lines = [f"{sign}|{one}|{other}" for sign, pairs in signs for one, other in pairs]
        write(folder, LINKS, lines)


def write_labels(folder: Path, counties: Sequence[County], codes: Codes) -> None:
    """Writes which label and which name each code stands for, as CSV."""
    text = io.StringIO()
    table = csv.writer(text, lineterminator="\n")
    table.writerow(["CODE", "LABEL", "NAME"])
    table.writerows([codes.code_of[one.label], one.label, one.name] for one in counties)
    write_text(folder / LABELS, text.getvalue())
