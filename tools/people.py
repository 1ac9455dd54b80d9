#!/usr/bin/env python3
"""Makes the people file of `countygroups --people` of a table of counties with their people.

usage: python3 tools/people.py FILE [--people COLUMN] [--year YEAR] [--state CODE]
                               [--county COLUMN] [--name COLUMN] [--names NAMES]
                               [--member MEMBER] [--out OUT]

FILE may be any of these as it was downloaded, packed by gzip or zip or not, or `-`, which is
standard input:
- the zip of a state's PL 94-171 files of 2020 or 2010, as nc2020.pl.zip;
- a table of data.census.gov, whose CSV has two headers, or its zip;
- what the Census Bureau's API answers, which is JSON;
- the Population Estimates, as co-est2024-alldata.csv;
- a table of NHGIS, or its zip;
- any text with commas, semicolons, tabs or pipes, or a DBF, with a line for each county: a state
  demographer's table with the counties' names, or one with a column of codes.

The columns are found by their header. Counties have a code of five digits (GEOID, GEOID20, GEO_ID,
FIPS, GISJOIN), a code of the state and one of the county (STATE and COUNTY), or a name. People
stand in a column as POPESTIMATE2024, P1_001N, POP100, TOTPOP, Population or 2024. --county and
--people choose a column by its name, or by its number from 1, and --name that of the names.

--year YEAR chooses one of several years, which stand in columns or in lines. Without it the newest
year of the Population Estimates is taken, and another table of several years is refused. Either
way the years are listed.
--state CODE takes the counties of a state, by its FIPS code. Without it they are those of the only
state, or of North Carolina (37) if it is among several.
--names NAMES tells the codes of counties that the table only names. It is a geographic header, or
the Census Bureau's file of adjacent counties, which has names too. North Carolina needs none.
--member MEMBER chooses the table of a zip, if the zip has several.
--out OUT stores the file there. Without it the file is printed.

Lines of the nation, of states and of other areas are left out. Numbers may have commas between
thousands. What can't be read is refused with one sentence, which says what is expected. Standard
error tells which column was taken, and how many counties and people there are.

Statuses: 0 made, 1 the file can't be used, 2 these are no words of the tool.

Example: python3 tools/people.py co-est2024-alldata.csv --out people.csv
"""
from __future__ import annotations

import argparse
import csv
import io
import sys
from typing import Dict, List, Optional, Tuple

from county_names import CountyNames
from packed_file import Source, read_file
from people_census import census_people
from people_names import read_names
from people_rows import Chosen, PeopleTable, counties_in, open_table, read_people_table
from people_rows import unequal_totals
from people_table import CountyPeople
from refusal import Refused
from script_words import ScriptWords, number_from
from storing import put
from table_input import shown

HEADER = ["county", "people", "name"]
MOST_COUNTIES = 256
MOST_LACKING = 5


def people_text(counties: Dict[str, CountyPeople]) -> str:
    """Returns the people file of counties, in the order of their codes, below a header."""
    text = io.StringIO()
    writer = csv.writer(text, lineterminator="\n")
    writer.writerow(HEADER)
    for _, county in sorted(counties.items()):
        writer.writerow([county.code, county.people, *([county.name] if county.name else [])])
    return text.getvalue()


def summary(name: str, counties: Dict[str, CountyPeople], column: str) -> str:
    """Returns how many counties and people there are, and of which column the people are."""
    total = sum(county.people for county in counties.values())
    state = min(counties)[:2]
    return f"{name}: state {state}, counties {len(counties)}, people {total:,}, by {column}."


def notes_on(
    found: PeopleTable, counties: Dict[str, CountyPeople], names: Optional[CountyNames]
) -> List[str]:
    """Returns what the user has to know of a table, each in one sentence."""
    table, place = found.table, found.count.place
    column = f"the column {place + 1}"
    if table.columns is not None:
        column = f"the column {shown(table.columns[place])}"
    notes = [summary(table.name, counties, column)]
    if found.years:
        notes.append(f"Other years that --year chooses: {', '.join(found.years)}.")
    if len(found.states) > 1:
        notes.append("Counties of other states were left out; --state chooses the state.")
    if found.other_rows:
        unit = f"{table.unit.capitalize()}s"
        notes.append(f"{unit} of no county, which were left out: {found.other_rows:,}.")
    notes += unequal_totals(found, sum(county.people for county in counties.values()))
    return notes + lacking(counties, names)


def lacking(counties: Dict[str, CountyPeople], names: Optional[CountyNames]) -> List[str]:
    """Returns which counties of the state have no people, by the file that names them."""
    if names is None or names.counties is None:
        return []
    known = [code for code in sorted(names.counties) if code[:2] == min(counties)[:2]]
    missing = [code for code in known if code not in counties]
    if not missing:
        return []
    more = f" and {len(missing) - MOST_LACKING} more" if len(missing) > MOST_LACKING else ""
    return [f"Counties of the state that aren't there: {', '.join(missing[:MOST_LACKING])}{more}."]


def made_people(asked: argparse.Namespace) -> Tuple[str, List[str]]:
    """Returns the people file that the words ask for, and what the user has to know.

    Raises `Refused` if a file can't be used.
    """
    state = None if asked.state is None else f"{asked.state:02}"
    source, names = read_file(asked.file), read_names(asked.names, state)
    counties = None if asked.member is not None else census_people(source, state)
    if counties is not None:
        notes = [summary(source.name, counties, "table P1")] + lacking(counties, names)
    else:
        counties, notes = people_of_table(source, asked, state, names)
    if len(counties) > MOST_COUNTIES:
        told = f"{source.name} has {len(counties):,} counties of a state"
        raise Refused(f"{told}, and the program takes {MOST_COUNTIES} at most.")
    return people_text(counties), notes


def people_of_table(
    source: Source, asked: argparse.Namespace, state: Optional[str], names: Optional[CountyNames]
) -> Tuple[Dict[str, CountyPeople], List[str]]:
    """Returns the people in a table that is no PL 94-171 file, and what the user has to know.

    Raises `Refused` if the table can't be used.
    """
    chosen = Chosen(asked.county, asked.people, asked.name, asked.year, state)
    found = read_people_table(open_table(source, asked.member), chosen, names)
    counties = counties_in(found, names)
    return counties, notes_on(found, counties, names)


def parser() -> argparse.ArgumentParser:
    """Returns the parser of the tool's words."""
    made = ScriptWords(__doc__)
    made.add_argument("file", metavar="FILE")
    for name in ("county", "people", "name"):
        made.add_argument(f"--{name}", metavar="COLUMN")
    for name in ("year", "names", "member", "out"):
        made.add_argument(f"--{name}", metavar=name.upper())
    made.add_argument("--state", metavar="CODE", type=number_from(1, 99))
    return made


def main(words: List[str]) -> int:
    """Makes the people file, and returns the status."""
    asked = parser().parse_args(words)
    try:
        text, notes = made_people(asked)
        put(asked.out, text)
    except Refused as fault:
        print(fault, file=sys.stderr)
        return 1
    print("\n".join(notes), file=sys.stderr)
    return 0


if __name__ == "__main__":
    sys.exit(main(sys.argv[1:]))
