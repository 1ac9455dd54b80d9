#!/usr/bin/env python3
"""Makes a page of a state's best groupings: docs/page.html for other files.

usage: python3 tools/page.py TABLE LIST OUTLINES RECORD OUT.html
           [--enacted YEAR GROUPING] [--borders FILE]

TABLE is a table of the counties, LIST the text that `countygroups list` wrote, OUTLINES GeoJSON
with a GEOID for each county, and RECORD the record of a run (docs/reference/formats.md). The page
carries the files that the record names and the program, if they are found under their names with
their sums, and dist/countygroups.wasm is there. Then it checks the proof, too. If a file can't be
used, one sentence on standard error says why, and the status is 1. If the words are others, the
status is 2.

--enacted YEAR GROUPING has the page open on the grouping that was enacted in that year, if it is
one of the best, and mark it. GROUPING is a grouping text. --borders FILE is a text which says where
the adjacency file comes from.
"""
from __future__ import annotations

import argparse
import hashlib
import os
import re
import sys
from pathlib import Path
from typing import Any

import page_file
import page_checks
from county_outlines import read_outlines
from county_table import Group, read_table
from page_inputs import FileLine, Record, read_list, read_record
from refusal import Refused
from script_words import ScriptWords
from storing import store

TOP = Path(__file__).resolve().parent.parent
WASM = TOP / "dist" / "countygroups.wasm"
# Larger files, such as a state's whole files with their blocks, aren't carried.
MOST_BYTES = 4_000_000
KEYS = {"segment1": "segment", "certificate": "chamber.certificate"}
NEEDED = {"geo", "segment", "adjacency", "chamber.certificate"}
SOURCES = (
    "By the files that the page names under “The proof”; the outlines are for pictures "
    "only. The rule: <i>Stephenson v. Bartlett</i>, 355 N.C. 354 (2002) and 357 N.C. 301 "
    "(2003). What the program says is proved, by a proved build, for exactly the files it "
    "read; the counts, the borders and a court’s reading are not."
)
WITHOUT_SCRIPTS = (
    "<p>The map and the choices need scripts. This is the list of the best groupings:</p>"
)


def file_of(line: FileLine) -> bytes | None:
    """Returns the bytes of a file of the record, if it is there with its sum and isn't large.

    A pipe isn't read, since it may never end.
    """
    try:
        path = Path(line.name)
        if not path.is_file() or path.stat().st_size > MOST_BYTES:
            return None
        content = path.read_bytes()
    except (OSError, ValueError):
        return None
    return content if hashlib.sha256(content).hexdigest() == line.total else None


def carried_files(record: Record) -> tuple[dict[str, Any], str]:
    """Returns what the page carries, or nothing, and the adjacency file, if it is there."""
    carried = {}
    borders = ""
    for line in [*record.read, *record.stored]:
        key = KEYS.get(line.option, line.option)
        content = file_of(line)
        if content is None or key in ("out", "table"):
            continue
        carried[key] = page_file.carried_file(os.path.basename(line.name), content)
        if key == "adjacency":
            borders = content.decode("utf-8", "replace")
    wanted = NEEDED | {line.option for line in record.read} & {"links", "withdrawn"}
    if not wanted <= set(carried) or not WASM.is_file():
        return {}, borders
    carried["program"] = page_file.carried_file(WASM.name, WASM.read_bytes())
    return carried, borders


def read_words(path: str) -> str:
    """Returns the text of a file. Raises `Refused` if it can't be read."""
    try:
        return Path(path).read_text(encoding="utf-8")
    except OSError as fault:
        raise Refused(f"The file {path} can't be read: {fault.strerror}.") from fault
    except UnicodeDecodeError as fault:
        raise Refused(f"The file {path} isn't a text in UTF-8.") from fault


def read_enacted(path: str, groups: list[Group]) -> str:
    """Returns a grouping text. Raises `Refused` unless it groups the counties of `groups`."""
    text = read_words(path)
    lines = [line.split("|") for line in text.splitlines() if line]
    codes = sorted(code for _, *group in lines for code in group)
    free = [group for group in groups if not group.is_withdrawn]
    grouped = sorted(county.geoid for group in free for county in group.counties)
    if codes != grouped or not all(seats.isdecimal() for seats, *_ in lines):
        raise Refused(f"The grouping {path} doesn't have each county of the page once.")
    total, wanted = sum(int(seats) for seats, *_ in lines), sum(group.seats for group in free)
    if total != wanted:
        raise Refused(f"The grouping {path} has {total} seats, and the table has {wanted}.")
    return text


def made_page(asked: argparse.Namespace) -> str:
    """Returns the page of a table, a list, outlines and a record, if they agree."""
    groups, listing = read_table(asked.table), read_list(asked.list)
    record = read_record(asked.record)
    page_checks.check_numbers(asked.table, asked.list, listing, groups)
    page_checks.check_choice(asked.table, listing, groups)
    page_checks.check_record(asked.record, record, asked.table, groups, listing)
    return page_of(groups, record, asked)


def page_of(groups: list[Group], record: Record, asked: argparse.Namespace) -> str:
    """Returns the page of files that agree."""
    geoids = {county.geoid for group in groups for county in group.counties}
    shapes = read_outlines(asked.outlines, geoids)
    carried, borders = carried_files(record)
    chamber = {"key": "chamber", "name": "", "enacted": "", "tried": ""}
    for name, path in (("table", asked.table), ("list", asked.list), ("record", asked.record)):
        chamber[name] = read_words(path)
    year, enacted = asked.enacted or ("0", None)
    if enacted is not None:
        chamber["enacted"] = read_enacted(enacted, groups)
    data = {
        "state": {"code": min(geoids)[:2]},
        "chambers": [chamber],
        "enactedYear": int(year),
        "outlines": page_file.slim_outlines(shapes, geoids),
        "borders": page_file.border_lines(borders, geoids),
        "build": {"isProved": None, "text": ""},
    }
    text = chamber["list"].replace("&", "&amp;").replace("<", "&lt;")
    parts = {
        "sources": SOURCES,
        "without-scripts": f"{WITHOUT_SCRIPTS}<pre>{text}</pre>",
        "window-title": "Best county groups",
        "description": "Best county groups",
    }
    if asked.borders:
        parts["borders-note"] = page_file.as_paragraph(read_words(asked.borders))
    return page_file.page_html(data, carried, parts)


def read_arguments(words: list[str]) -> argparse.Namespace:
    """Returns the words of the command line by name, or ends the program with status 2."""
    parser = ScriptWords(__doc__)
    for name in ("table", "list", "outlines", "record", "out"):
        parser.add_argument(name)
    parser.add_argument("--enacted", nargs=2)
    parser.add_argument("--borders")
    asked = parser.parse_args(words)
    if asked.enacted and not re.fullmatch("[0-9]{4}", asked.enacted[0]):
        parser.error("--enacted takes a year of four digits and a grouping")
    return asked


def main(words: list[str]) -> int:
    """Makes the page. 1 if a file can't be used, 2 if the words are others."""
    asked = read_arguments(words)
    try:
        store(asked.out, made_page(asked))
    except Refused as fault:
        print(fault, file=sys.stderr)
        return 1
    return 0


if __name__ == "__main__":
    sys.exit(main(sys.argv[1:]))
