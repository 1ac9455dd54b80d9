#!/usr/bin/env python3
"""Writes a plan of districts that was made up, to try `audit` with.

usage: python3 tools/example_plan.py FOLDER

The counties, their people and their groups are those of data/nc2020 and its Senate of 50 seats. The
blocks are made up: each has at most 2,000 people, and the people of a county's blocks are those of
the county. So are the districts: the people of a group are cut into as many equal parts as it has
seats. Two things are wrong with the plan: a block of Wake County stands in a district of another
group, and a block of Bladen County has no line.

FOLDER is made if it isn't there. Written to it are:

- geo.pl and segment.pl, a geographic header and segment 1 with these counties and blocks;
- plan.zip, which has the plan as `plan.csv`, with a byte order mark and quotes;
- groups.csv, which has the name of each county with the number of its group.

Statuses: 0 written, 1 a file can't be read or written, 2 these are no words of the tool.
"""
from __future__ import annotations

import csv
import io
import os
import sys
import zipfile
from typing import Dict, Iterator, List, NamedTuple, Tuple

TOP = os.path.dirname(os.path.dirname(os.path.abspath(__file__)))
DATA = os.path.join(TOP, "data", "nc2020")
BLOCK_PEOPLE = 2_000
GEO_FIELDS = 97
WAKE, BLADEN = "37183", "37017"

Group = Tuple[int, List[str]]


class Block(NamedTuple):
    """A block with its people and the number of its district."""

    code: str
    people: int
    district: int


def fields_of(name: str) -> List[List[str]]:
    """Returns the fields of each line of a file in data/nc2020."""
    with open(os.path.join(DATA, name), encoding="utf-8", newline="") as file:
        return [line.rstrip("\n").split("|") for line in file]


def groups() -> List[Group]:
    """Returns the seats and the counties of each group of the Senate."""
    return [(int(seats), codes) for seats, *codes in fields_of("senate2023.grouping")]


def cuts(start: int, end: int, borders: List[int]) -> List[int]:
    """Returns where the people from `start` to `end` are cut into blocks, both ends with them.

    They are cut at each of `borders` that lies between, and wherever a block is full.
    """
    places = [start, *(border for border in borders if start < border < end), end]
    found = [start]
    for place in places[1:]:
        found.extend(range(found[-1] + BLOCK_PEOPLE, place, BLOCK_PEOPLE))
        found.append(place)
    return found


def group_blocks(group: Group, first: int, people: Dict[str, int]) -> Iterator[Block]:
    """Yields the blocks of a group, whose districts have the numbers from `first` on.

    `people` has the people of each county.
    """
    seats, counties = group
    total = sum(people[county] for county in counties)
    borders = [total * part // seats for part in range(1, seats)]
    start = 0
    for county in counties:
        places = cuts(start, start + people[county], borders)
        for number, (place, end) in enumerate(zip(places, places[1:])):
            district = first + sum(border <= place for border in borders)
            yield Block(f"{county}000100{1000 + number}", end - place, district)
        start += people[county]


def all_blocks(people: Dict[str, int]) -> List[Block]:
    """Returns the blocks of all groups by their codes. Districts are numbered from 1."""
    found: List[Block] = []
    first = 1
    for group in groups():
        found.extend(group_blocks(group, first, people))
        first += group[0]
    return sorted(found)


def geo_line(block: Block, record: int) -> str:
    """Returns the line of a block in the geographic header."""
    code = block.code
    fields = ["PLST", "NC", "750", "00", "00", "000", "00", f"{record:07}", f"7500000US{code}"]
    fields += [code, "3", "5", code[:2], "01027616", code[2:5]]
    return "|".join([*fields, *[""] * (GEO_FIELDS - len(fields))]) + "\n"


def census_texts(blocks: List[Block]) -> Dict[str, str]:
    """Returns the geographic header and segment 1 with counties and blocks, by their names."""
    geo, segment = fields_of("nc2020geo.pl"), fields_of("nc000012020.pl")
    geo_lines = ["|".join(fields) + "\n" for fields in geo]
    records = ["|".join(fields[:6]) + "\n" for fields in segment]
    for record, block in enumerate(blocks, len(geo) + 1):
        geo_lines.append(geo_line(block, record))
        records.append(f"PLST|NC|000|01|{record:07}|{block.people}\n")
    return {"geo.pl": "".join(geo_lines), "segment.pl": "".join(records)}


def plan_text(blocks: List[Block]) -> str:
    """Returns the plan as a table with quotes, and with its two faults."""
    moved = next(block for block in blocks if block.code.startswith(WAKE))
    left_out = next(block for block in blocks if block.code.startswith(BLADEN))
    rows = [["GEOID20", "District"]]
    for block in blocks:
        if block != left_out:
            district = left_out.district if block == moved else block.district
            rows.append([block.code, str(district)])
    return csv_text(rows)


def csv_text(rows: List[List[str]]) -> str:
    """Returns a table with commas, and with quotes around each field."""
    text = io.StringIO(newline="")
    csv.writer(text, quoting=csv.QUOTE_ALL).writerows(rows)
    return text.getvalue()


def groups_text() -> str:
    """Returns the name of each county with the number of its group, by name."""
    names = {fields[12] + fields[14]: fields[87] for fields in fields_of("nc2020geo.pl")}
    rows = sorted(
        [names[county], str(number)]
        for number, (_, counties) in enumerate(groups(), 1)
        for county in counties
    )
    return csv_text([["County", "Cluster"], *rows])


def county_people() -> Dict[str, int]:
    """Returns the people of each county of data/nc2020 by its code."""
    by_record = {fields[4]: int(fields[5]) for fields in fields_of("nc000012020.pl")}
    geo = fields_of("nc2020geo.pl")
    counties = [fields for fields in geo if fields[2] == "050"]
    return {fields[12] + fields[14]: by_record[fields[7]] for fields in counties}


def write_example(folder: str) -> None:
    """Writes the files of the example to `folder`. Raises `OSError` if that fails."""
    blocks = all_blocks(county_people())
    os.makedirs(folder, exist_ok=True)
    texts = {**census_texts(blocks), "groups.csv": groups_text()}
    for name, text in texts.items():
        with open(os.path.join(folder, name), "w", encoding="utf-8", newline="") as file:
            file.write(text)
    with zipfile.ZipFile(os.path.join(folder, "plan.zip"), "w", zipfile.ZIP_DEFLATED) as packed:
        packed.writestr("plan.csv", plan_text(blocks).encode("utf-8-sig"))


def main(words: List[str]) -> int:
    """Writes the example, and returns the status."""
    if len(words) != 1 or words[0].startswith("-"):
        is_help = words in (["--help"], ["-h"])
        print(__doc__.strip(), file=sys.stdout if is_help else sys.stderr)
        return 0 if is_help else 2
    try:
        write_example(words[0])
    except OSError as fault:
        print(f"{fault.filename} can't be used: {fault.strerror}.", file=sys.stderr)
        return 1
    return 0


if __name__ == "__main__":
    sys.exit(main(sys.argv[1:]))
