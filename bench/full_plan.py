#!/usr/bin/env python3
"""Writes the files of an audit of full size: 100 counties side by side with 100,000 people each,
every county a group with one seat of a chamber of 100, 20,000 blocks of five people in each county
(2,000,000 block lines), and 4,000,000 assignments: each block is given to its county's district,
and each is named once more. Usage: full_plan.py FOLDER"""
from __future__ import annotations

import os
import sys
from typing import TextIO

COUNTIES = 100
BLOCKS = 20_000
PEOPLE = 5


def area_line(level: str, record: int, code: str, county: str) -> str:
    """Returns a line of the geographic header."""
    return f"||{level}||00|||{record}||{code}|||37||{county}\n"


def county_code(place: int) -> str:
    """Returns the three digits of a county."""
    return f"{2 * place + 1:03}"


def write_areas(geo: TextIO, segment: TextIO) -> None:
    """Writes the counties and their blocks to the geographic header and to segment 1."""
    record = 0
    for place in range(COUNTIES):
        county = county_code(place)
        geo.write(area_line("050", record, "", county))
        segment.write(f"||||{record}|{BLOCKS * PEOPLE}\n")
        record += 1
        for block in range(BLOCKS):
            geo.write(area_line("750", record, f"37{county}{block:010}", county))
            segment.write(f"||||{record}|{PEOPLE}\n")
            record += 1


def write_plan(adjacency: TextIO, grouping: TextIO, assignments: TextIO) -> None:
    """Writes the adjacency, the grouping and the assignments."""
    for place in range(COUNTIES):
        county = county_code(place)
        adjacency.write(f"A|37{county}|B|37{county_code((place + 1) % COUNTIES)}|1\n")
        grouping.write(f"1|37{county}\n")
        for block in range(BLOCKS):
            assignments.write(f"37{county}{block:010}|{place + 1}\n" * 2)


def main(folder: str) -> None:
    """Writes all five files into the folder, which is made if it isn't there."""
    os.makedirs(folder, exist_ok=True)
    geo_path, segment_path = (os.path.join(folder, name) for name in ("geo", "segment"))
    with open(geo_path, "w") as geo, open(segment_path, "w") as segment:
        write_areas(geo, segment)
    names = ["adjacency", "grouping", "assignments"]
    files = [open(os.path.join(folder, name), "w") for name in names]
    write_plan(*files)
    for file in files:
        file.close()


if __name__ == "__main__":
    if len(sys.argv) != 2:
        sys.exit("usage: full_plan.py FOLDER")
    main(sys.argv[1])
