#!/usr/bin/env python3
"""Makes the block assignment file of `countygroups audit` of a table that another program exported.

usage: python3 tools/assignments.py FILE [--block COLUMN] [--district COLUMN] [--member NAME]
                                    [--unassigned LABEL] [--out OUT]

FILE has a line for each census block with its district. It is a text with commas, semicolons, tabs
or pipes, in UTF-8, UTF-16 or Latin-1, or the DBF of a shapefile. It may be packed by gzip or zip.
`-` is standard input.

The columns are found by their header: blocks by GEOID20, GEOID, BLOCKID, BLOCK and the like,
districts by DISTRICT, ASSIGNMENT, SLDUST and the like. --block and --district choose a column by
its name, or by its number from 1. A file of two columns needs no header.

--member NAME chooses the table of a zip, if the zip has several.
--unassigned LABEL says that blocks of this label have no district. It may stand several times. An
empty label, ZZZ, NA, NaN, NULL, None and Unassigned say so by themselves.
--out OUT stores the assignments there. Without it they are printed.

These are mended: blanks and quotes around a field, `="001"`, `12.0` for the district 12, and the
prefix 1000000US. So are a leading zero that all blocks lost, and lines that repeat a block with its
district. What isn't mended is refused with one sentence that names the line. Standard error tells
how many blocks and districts there are.

Statuses: 0 made, 1 the file can't be used, 2 these are no words of the tool.

Example, over files that the first command makes:
  python3 tools/example_plan.py results/example
  python3 tools/assignments.py results/example/plan.zip --out results/example/plan.txt
"""
from __future__ import annotations

import argparse
import re
import sys
from dataclasses import dataclass, field
from typing import Collection, Dict, List, Optional

from number_words import counted
from refusal import Refused
from script_words import ScriptWords
from storing import put
from table_columns import CodeColumn, Wanted, key_and_value
from table_input import SCIENTIFIC, Table, is_digits, plain, plain_code, read_table, shown

BLOCK_DIGITS, COUNTY_DIGITS = 15, 5
MOST_LABEL_BYTES = 32
MOST_BLOCKS = 4_000_000
LABEL = re.compile(r"[\x20-\x7e]*")
NO_DISTRICT = frozenset(("", "zzz", "na", "n/a", "nan", "null", "none", "unassigned"))
DOUBTFUL = ("0", "-1")
BLOCKS = Wanted(
    "the blocks",
    "--block",
    ("geoid20", "geoid", "blockid20", "blockid", "blockgeoid", "geocode", "block20", "block"),
    is_ranked=True,
)
DISTRICTS = Wanted(
    "the districts",
    "--district",
    (
        "district",
        "districts",
        "districtid",
        "districtno",
        "districtnumber",
        "assignment",
        "dist",
        "sldust",
        "sldlst",
        "cdfp",
    ),
    is_ranked=False,
)


@dataclass
class Plan:
    """The district of each block, with the row that first names it, and how many rows repeat one.

    A block has its digits as the file has them. An empty label says that it has no district.
    """

    districts: Dict[str, str] = field(default_factory=dict)
    rows: Dict[str, int] = field(default_factory=dict)
    repeated: int = 0
    leading_zeros: int = 0


def is_block(text: str) -> bool:
    """Returns whether a field is a block's code, whole or spoilt, so that its row is no header."""
    code = plain_code(text)
    return is_digits(code, BLOCK_DIGITS - 1, BLOCK_DIGITS) or is_scientific(code)


def is_scientific(code: str) -> bool:
    """Returns whether a code was rounded by a spreadsheet, as `3.71010E+14`."""
    return SCIENTIFIC.fullmatch(code) is not None


def block_of(table: Table, number: int, text: str) -> str:
    """Returns the digits of a block: 15, or 14 where a leading zero may be lost.

    Raises `Refused` if the field is something else.
    """
    code = plain_code(text)
    if is_digits(code, BLOCK_DIGITS - 1, BLOCK_DIGITS):
        return code
    place = table.place(number)
    if is_scientific(code):
        told = f"{place} has the block {shown(code)}, which a spreadsheet rounded"
        raise Refused(f"{told}: its digits are lost, so export the blocks as text.")
    if not code:
        raise Refused(f"{place} has no block.")
    told = f"{place} has {shown(code)}, and a census block has {BLOCK_DIGITS} digits"
    if is_digits(code, COUNTY_DIGITS):
        raise Refused(f"{told}: if the lines are counties, tools/grouping.py takes them.")
    raise Refused(f"{told}: if the lines are precincts, export the plan by blocks.")


def label_of(table: Table, number: int, text: str, unassigned: Collection[str]) -> str:
    """Returns the label of a district, empty if there is none.

    Raises `Refused` if the program doesn't read the label.
    """
    label = plain(text)
    if label.casefold() in NO_DISTRICT or label in unassigned:
        return ""
    told = f"{table.place(number)} has the district {shown(label)}"
    if not LABEL.fullmatch(label):
        raise Refused(f"{told}, which has a sign that isn't printable ASCII.")
    if "|" in label:
        raise Refused(f"{told}, which has a pipe, and the program cuts fields at pipes.")
    if len(label) > MOST_LABEL_BYTES:
        raise Refused(f"{told} of {len(label)} bytes, and it may have {MOST_LABEL_BYTES}.")
    return label


def take_row(table: Table, plan: Plan, number: int, block: str, label: str) -> None:
    """Adds the district of a block to a plan.

    Raises `Refused` if the block has another district, or if there are too many blocks.
    """
    if block not in plan.districts:
        plan.districts[block] = label
        plan.rows[block] = number
        if len(plan.districts) > MOST_BLOCKS:
            raise Refused(f"{table.name} has more than {MOST_BLOCKS:,} blocks.")
    elif plan.districts[block] == label:
        plan.repeated += 1
    else:
        told = f"{table.place(number)} gives block {block} {named(label)}"
        before = named(plan.districts[block])
        raise Refused(f"{told}, and {table.unit} {plan.rows[block]} gives it {before}.")


def named(label: str) -> str:
    """Returns a district in words."""
    return f"the district {shown(label)}" if label else "no district"


def read_plan(
    table: Table, block: Optional[str], district: Optional[str], unassigned: Collection[str]
) -> Plan:
    """Returns the plan in a table. `block` and `district` are the columns that the user chose.

    Raises `Refused` if the table isn't one of blocks of one state with districts.
    """
    key, value = key_and_value(table, BLOCKS, DISTRICTS, (block, district), is_block)
    plan, codes = Plan(), CodeColumn(table, BLOCK_DIGITS, "block")
    for number, fields in table.rows:
        code = block_of(table, number, fields[key])
        codes.take(number, code)
        label = label_of(table, number, fields[value], unassigned)
        take_row(table, plan, number, code, label)
    if not plan.districts:
        raise Refused(f"{table.name} has no line below its header.")
    plan.leading_zeros = codes.lost_zeros()
    if not any(plan.districts.values()):
        raise Refused(f"No {table.unit} of {table.name} has a district.")
    return plan


def assignment_text(plan: Plan) -> str:
    """Returns the block assignment file of a plan, with a header and pipes."""
    lines = [f"{block.zfill(BLOCK_DIGITS)}|{label}\n" for block, label in plan.districts.items()]
    return "".join(["BLOCKID|DISTRICT\n", *lines])


def notes_on(table: Table, plan: Plan) -> List[str]:
    """Returns what the user has to know of a plan, each in one sentence."""
    labels = list(plan.districts.values())
    blocks, districts = len(labels), len(set(labels) - {""})
    notes = [f"{table.name}: {counted(blocks, 'block')} in {counted(districts, 'district')}."]
    if "" in labels:
        notes.append(f"Blocks without a district: {labels.count(''):,}.")
    if plan.leading_zeros:
        told = "Blocks of 14 digits, which have their lost leading zero again"
        notes.append(f"{told}: {plan.leading_zeros:,}.")
    if plan.repeated:
        told = f"{table.unit.capitalize()}s that repeat a block with its district"
        notes.append(f"{told}, and were left out: {plan.repeated:,}.")
    for label in DOUBTFUL:
        if label in labels:
            told = f"if that says that they have none, add `--unassigned={label}`"
            notes.append(f"Blocks in district `{label}`: {labels.count(label):,}; {told}.")
    return notes


def parser() -> argparse.ArgumentParser:
    """Returns the parser of the tool's words."""
    made = ScriptWords(__doc__)
    made.add_argument("file", metavar="FILE")
    for option, name in (("block", "COLUMN"), ("district", "COLUMN"), ("member", "NAME")):
        made.add_argument(f"--{option}", metavar=name)
    made.add_argument("--unassigned", metavar="LABEL", action="append", default=[])
    made.add_argument("--out", metavar="OUT")
    return made


def main(words: List[str]) -> int:
    """Makes the block assignment file, and returns the status."""
    asked = parser().parse_args(words)
    try:
        table = read_table(asked.file, asked.member, is_block)
        plan = read_plan(table, asked.block, asked.district, asked.unassigned)
        put(asked.out, assignment_text(plan))
    except Refused as fault:
        print(fault, file=sys.stderr)
        return 1
    print("\n".join(notes_on(table, plan)), file=sys.stderr)
    return 0


if __name__ == "__main__":
    sys.exit(main(sys.argv[1:]))
