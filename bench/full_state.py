#!/usr/bin/env python3
"""Writes a geographic header and a segment 1 of full size, as the Census lays them out: 300,000
lines each, of which the first is the state's own and 100 are counties, about 400 MB together. The
people of the records are the line's number times seven, modulo 100,000.
Usage: full_state.py FOLDER"""
from __future__ import annotations

import os
import sys

LINES = 300_000
COUNTIES = 100


def geo_line(number: int, level: str, county: str, code: str) -> str:
    """Returns a line of the geographic header."""
    fields = ["PLST", "NC", level, "00", "00", "000", "00", str(number), "x" * 20, code]
    fields += ["3", "5", "37", "01027616", county] + ["y" * 5] * 82
    return "|".join(fields) + "\n"


def segment_line(number: int) -> str:
    """Returns a line of segment 1."""
    counts = [str(number * 7 % 100_000)] + [str(number * k % 97) for k in range(2, 71)]
    tables = "|".join(counts + ["0"] * 78 + ["000000"] * 35)
    return f"PLST|NC|000|01|{number}|{tables}\n"


def level_and_code(number: int, is_county: bool, county: str) -> tuple[str, str]:
    """Returns the summary level and the code of a line."""
    if number == 1:
        return "040", "37"
    return ("050", "37" + county) if is_county else ("750", f"37{county}{number:010}")


def main(folder: str) -> None:
    """Writes both files into the folder, which is made if it isn't there."""
    os.makedirs(folder, exist_ok=True)
    step = LINES // COUNTIES
    geo_path, segment_path = (os.path.join(folder, name) for name in ("geo.pl", "segment1.pl"))
    with open(geo_path, "w") as geo, open(segment_path, "w") as segment:
        for number in range(1, LINES + 1):
            county = f"{2 * (number // step) + 1:03}"
            level, code = level_and_code(number, number % step == 2, county)
            geo.write(geo_line(number, level, county, code))
            segment.write(segment_line(number))


if __name__ == "__main__":
    if len(sys.argv) != 2:
        sys.exit("usage: full_state.py FOLDER")
    main(sys.argv[1])
