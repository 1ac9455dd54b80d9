#!/usr/bin/env python3
"""Makes the grouping text of `countygroups judge` of a table of counties with their groups.

usage: python3 tools/grouping.py FILE [--county COLUMN] [--group COLUMN] [--seats COLUMN]
                                 [--state CODE] [--geo GEO | --people PEOPLE]
                                 [--segment SEGMENT] [--chamber SEATS]
                                 [--tolerance TOLERANCE | [--part PART] [--of OF]]
                                 [--member NAME] [--out OUT]

FILE has a line for each county with the label of its group. It is a text with commas, semicolons,
tabs or pipes, in UTF-8, UTF-16 or Latin-1, or the DBF of a shapefile. It may be packed by gzip or
zip, and `-` is standard input. The columns are found by their header: counties by GEOID, FIPS,
COUNTY, NAME and the like, groups by GROUP, CLUSTER and the like, seats by SEATS and the like.
--county, --group and --seats choose a column by its name, or by its number from 1. A file of two
columns needs no header.

A county is a GEOID of five digits. With --state CODE, the state's FIPS code, it may be the county's
code of one to three digits. With --geo GEO, the geographic header, or --people PEOPLE, a people
file, it may be a name, as `Wake` or `Wake County`. The lines may also be those of blocks, if all of
a county are in one group. A county without a group is left out, as one of a withdrawn set has to
be.

If FILE has no seats, they are chosen by the people of the groups: those of --people PEOPLE, or of
--geo GEO with --segment SEGMENT, segment 1. --chamber SEATS is then the number of seats.
--tolerance TOLERANCE is a percentage, a decimal or a fraction, as 5%, 0.05 or 1/20, and five
percent if you don't give it. --part PART and --of OF are the same as --tolerance PART/OF. If no
number suits the people of a group, the nearest is written, and standard error says so. `judge` says
what is wrong with the grouping.

--member NAME chooses the table of a zip, if the zip has several.
--out OUT stores the text there. Without it the text is printed. The groups stand in the order of
their labels, numbers by their value.

Statuses: 0 made, 1 a file can't be used, 2 these are no words of the tool.

Example, over files that the first command makes:
  python3 tools/example_plan.py results/example
  python3 tools/grouping.py results/example/groups.csv --geo data/nc2020/nc2020geo.pl \\
      --segment data/nc2020/nc000012020.pl --chamber 50 --out results/example/senate.grouping
"""
from __future__ import annotations

import argparse
import re
import sys
from dataclasses import dataclass, field
from typing import Dict, Iterable, List, NamedTuple, Optional, Tuple

from census_counties import CensusCounty, read_counties, read_people
from county_names import CODE_DIGITS, HEADER_WORDS, CountyNames, is_block, is_county
from county_table import HEADER
from people_file import read_people_file
from refusal import Refused
from script_words import ScriptWords, number_from
from seat_numbers import Chamber, choose_seats
from storing import put
from table_columns import CodeColumn, Wanted, key_and_value
from table_input import Table, is_digits, plain, read_table, shown

MOST_SEATS = 65_535
NO_GROUP = frozenset(("", "na", "n/a", "nan", "null", "none"))
WITHDRAWN = re.compile(r"W[1-9][0-9]*")
COUNTIES = Wanted(
    "the counties",
    "--county",
    (
        "geoid20",
        "geoid",
        "countygeoid",
        "countyfips",
        "fips",
        "fipscode",
        "countyfp20",
        "countyfp",
        "countycode",
        "countyname",
        "county",
        "namelsad20",
        "namelsad",
        "name20",
        "name",
    ),
    is_ranked=True,
)
GROUPS = Wanted(
    "the groups",
    "--group",
    (
        "group",
        "groupid",
        "groupno",
        "groupnumber",
        "countygroup",
        "cluster",
        "clusterid",
        "clusterno",
        "clusternumber",
        "countycluster",
    ),
    is_ranked=False,
)
SEATS = Wanted(
    "the seats",
    "--seats",
    (
        "seats",
        "seat",
        "numseats",
        "nseats",
        "numberofseats",
        "numdistricts",
        "ndistricts",
        "numberofdistricts",
    ),
    is_ranked=False,
)


@dataclass
class Group:
    """The counties of a label, and its seats with the row that has them, if any has."""

    counties: List[str] = field(default_factory=list)
    seats: Optional[int] = None
    seats_row: int = 0


@dataclass
class CountyGroups:
    """The groups by their labels, the row of each county, and the counties without a group.

    `of_blocks` has the label of each county that rows of blocks name.
    """

    groups: Dict[str, Group] = field(default_factory=dict)
    rows: Dict[str, int] = field(default_factory=dict)
    of_blocks: Dict[str, str] = field(default_factory=dict)
    left_out: List[str] = field(default_factory=list)
    leading_zeros: int = 0


def seats_of(table: Table, number: int, text: str) -> Optional[int]:
    """Returns the seats in a field, or None if it is empty. Raises `Refused` if it is no number."""
    seats = plain(text)
    if not seats:
        return None
    if not is_digits(seats, *range(1, 6)) or int(seats) > MOST_SEATS:
        told = f"{table.place(number)} has {shown(seats)} where the seats stand"
        raise Refused(f"{told}, which is no number up to {MOST_SEATS:,}.")
    return int(seats)


def add_seats(table: Table, number: int, label: str, group: Group, seats: Optional[int]) -> None:
    """Adds the seats of a row to its group. Raises `Refused` if a row before has other seats."""
    if seats is None:
        return
    if group.seats is None:
        group.seats, group.seats_row = seats, number
    elif group.seats != seats:
        told = f"{table.place(number)} gives group {shown(label)} {seats} seats"
        raise Refused(f"{told}, and {table.unit} {group.seats_row} gives it {group.seats}.")


def group_label(table: Table, text: str) -> str:
    """Returns the label of a group, empty if there is none.

    In a table that the program stored, the label of a withdrawn set begins with W: it is no group.
    """
    label = plain(text)
    is_stored = table.columns == HEADER
    if label.casefold() in NO_GROUP or (is_stored and WITHDRAWN.fullmatch(label)):
        return ""
    return label


def read_groups(
    table: Table, places: Tuple[int, int, Optional[int]], names: CountyNames
) -> CountyGroups:
    """Returns the groups in a table, whose columns of counties, groups and seats have `places`.

    Raises `Refused` if a row has no county, if a county stands twice, or if a group has two numbers
    of seats.
    """
    county_place, group_place, seats_place = places
    found, codes = CountyGroups(), CodeColumn(table, CODE_DIGITS, "county's code")
    for number, fields in table.rows:
        code = names.code_of(table, number, fields[county_place])
        codes.take(number, code)
        label = group_label(table, fields[group_place])
        if is_repeated(table, number, found, code, label, is_block(fields[county_place])):
            continue
        found.rows[code] = number
        if not label:
            found.left_out.append(code)
            continue
        group = found.groups.setdefault(label, Group())
        group.counties.append(code)
        if seats_place is not None:
            add_seats(table, number, label, group, seats_of(table, number, fields[seats_place]))
    found.leading_zeros = codes.lost_zeros()
    if found.leading_zeros:
        with_zeros(found)
    if not found.groups:
        raise Refused(f"No {table.unit} of {table.name} has a group.")
    names.check_listed(table, found.rows)
    return found


def is_repeated(
    table: Table, number: int, found: CountyGroups, code: str, label: str, is_of_block: bool
) -> bool:
    """Returns whether a row is that of a further block of a county in the same group.

    Raises `Refused` if the county has another group, or if it isn't named by blocks alone.
    """
    if code not in found.rows:
        if is_of_block:
            found.of_blocks[code] = label
        return False
    before = f"{table.unit} {found.rows[code]}"
    if not is_of_block or code not in found.of_blocks:
        told = f"{table.place(number)} has county {code}"
        raise Refused(f"{told}, which {before} has already.")
    if label != found.of_blocks[code]:
        told = f"{table.place(number)} has a block of county {code} in group {shown(label)}"
        other = f"and {before} has one in {shown(found.of_blocks[code])}"
        raise Refused(f"{told}, {other}: a group has whole counties.")
    return True


def with_zeros(found: CountyGroups) -> None:
    """Puts the lost leading zero in front of each code."""
    for group in found.groups.values():
        group.counties = [code.zfill(CODE_DIGITS) for code in group.counties]
    found.rows = {code.zfill(CODE_DIGITS): row for code, row in found.rows.items()}
    found.left_out = [code.zfill(CODE_DIGITS) for code in found.left_out]


def label_order(label: str) -> Tuple[bool, int, str]:
    """Returns by what labels are sorted: numbers by their value, and then the others."""
    is_number = is_digits(label, *range(1, 10))
    return not is_number, int(label) if is_number else 0, label


def grouping_text(groups: Iterable[Group]) -> str:
    """Returns the grouping text of groups, each of which has its seats."""
    return "".join("|".join([str(group.seats), *sorted(group.counties)]) + "\n" for group in groups)


def chosen_seats(found: CountyGroups, people: Dict[str, int], chamber: Chamber) -> List[str]:
    """Gives each group its seats by its people.

    Returns what has to be said of groups that suit no number, and of the seats in all.
    """
    groups = [found.groups[label] for label in sorted(found.groups, key=label_order)]
    of_groups = [sum(people[code] for code in group.counties) for group in groups]
    is_whole = not found.left_out and people.keys() == found.rows.keys()
    notes = []
    for group, count, seats in zip(groups, of_groups, choose_seats(chamber, of_groups, is_whole)):
        group.seats = seats
        if seats not in chamber.suited(count):
            told = f"The {count:,} people of the group of county {min(group.counties)}"
            notes.append(f"{told} suit no number of seats: {seats} is the nearest.")
    total = sum(group.seats or 0 for group in groups)
    if is_whole and total != chamber.seats:
        notes.append(f"The groups have {total} seats in all, and the chamber has {chamber.seats}.")
    return notes


def check_seats(table: Table, found: CountyGroups) -> None:
    """Raises `Refused` if a group has no seats."""
    for label, group in found.groups.items():
        if group.seats is None:
            told = f"Group {shown(label)} of {table.name} has no seats"
            raise Refused(f"{told}.")


def notes_on(table: Table, found: CountyGroups) -> List[str]:
    """Returns what the user has to know of the groups, each in one sentence."""
    counties = sum(len(group.counties) for group in found.groups.values())
    seats = sum(group.seats or 0 for group in found.groups.values())
    told = f"counties {counties}, groups {len(found.groups)}, seats {seats}"
    notes = [f"{table.name}: {told}."]
    if found.leading_zeros:
        told = "Counties of four digits, which have their lost leading zero again"
        notes.append(f"{told}: {found.leading_zeros}.")
    if found.left_out:
        told = ", ".join(sorted(found.left_out))
        notes.append(f"Counties without a group, or of a withdrawn set: {told}.")
    return notes


def parser() -> ScriptWords:
    """Returns the parser of the tool's words."""
    made = ScriptWords(__doc__)
    made.add_argument("file", metavar="FILE")
    for name in ("county", "group", "seats"):
        made.add_argument(f"--{name}", metavar="COLUMN")
    made.add_counts()
    for name, word in (("member", "NAME"), ("out", "OUT")):
        made.add_argument(f"--{name}", metavar=word)
    made.add_argument("--state", metavar="CODE", type=number_from(0, 99))
    made.add_argument("--chamber", metavar="SEATS", type=number_from(1, 1000))
    made.add_tolerance()
    made.add_part_and_of()
    return made


class Counts(NamedTuple):
    """The counties that the words give, their people if a people file has them, and the file."""

    counties: Optional[Dict[str, CensusCounty]]
    people: Optional[Dict[str, int]]
    source: str


def given_counts(asked: argparse.Namespace, state: Optional[str]) -> Counts:
    """Returns the counties of --people with their people, or those of --geo, or none.

    `state` has the two digits of the state.

    Raises `Refused` if a file can't be used.
    """
    if asked.people is not None:
        return Counts(*read_people_file(asked.people, state), "the people file")
    counties = read_counties(asked.geo, state) if asked.geo is not None else None
    return Counts(counties, None, HEADER_WORDS)


def wanted_people(asked: argparse.Namespace, table: Table, counts: Counts) -> Dict[str, int]:
    """Returns the people of each county. Raises `Refused` if the words don't tell the seats."""
    if asked.chamber is not None:
        if counts.people is not None:
            return counts.people
        if counts.counties is not None and asked.segment is not None:
            return read_people(asked.segment, counts.counties)
    told = "has no column of seats: choose one by --seats, or give --chamber"
    raise Refused(f"{table.name} {told} with --geo and --segment or with --people.")


def made_groups(asked: argparse.Namespace) -> Tuple[str, List[str]]:
    """Returns the grouping text that the words ask for, and what the user has to know.

    Raises `Refused` if a file can't be used, or if neither the table nor the words tell the seats.
    """
    state = None if asked.state is None else f"{asked.state:02}"
    counts = given_counts(asked, state)
    table = read_table(asked.file, asked.member, is_county)
    key, value = key_and_value(table, COUNTIES, GROUPS, (asked.county, asked.group), is_county)
    seats = seats_place(table, asked.seats)
    found = read_groups(
        table, (key, value, seats), CountyNames(state, counts.counties, counts.source)
    )
    notes: List[str] = []
    if seats is not None:
        check_seats(table, found)
    else:
        people = wanted_people(asked, table, counts)
        notes = chosen_seats(found, people, chamber_of(asked, people))
    ordered = [found.groups[label] for label in sorted(found.groups, key=label_order)]
    return grouping_text(ordered), notes_on(table, found) + notes


def chamber_of(asked: argparse.Namespace, people: Dict[str, int]) -> Chamber:
    """Returns the chamber that the words name. Raises `Refused` if the state has no people."""
    total = sum(people.values())
    if total == 0:
        raise Refused(f"The counties of {asked.people or asked.segment} have no people.")
    return Chamber(asked.chamber, total, asked.tolerance)


def seats_place(table: Table, chosen: Optional[str]) -> Optional[int]:
    """Returns the place of the seats in a table, or None if it has none and none was chosen."""
    if chosen is not None:
        return SEATS.by_choice(table, chosen)
    return SEATS.by_header(table, table.columns) if table.columns is not None else None


def main(words: List[str]) -> int:
    """Makes the grouping text, and returns the status."""
    made = parser()
    asked = made.parse_args(words)
    if asked.people is not None and (asked.geo is not None or asked.segment is not None):
        made.error("give --geo and --segment, or --people")
    made.check_tolerance(asked)
    try:
        text, notes = made_groups(asked)
        put(asked.out, text)
    except Refused as fault:
        print(fault, file=sys.stderr)
        return 1
    print("\n".join(notes), file=sys.stderr)
    return 0


if __name__ == "__main__":
    sys.exit(main(sys.argv[1:]))
