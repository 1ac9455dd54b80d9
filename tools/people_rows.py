"""Reads the counties with their people in the rows of a table."""
from __future__ import annotations

import json
import re
from dataclasses import dataclass, field
from typing import Any, Dict, Iterator, List, NamedTuple, Optional, Sequence, Tuple

from county_names import CountyNames, joined_county_name
from packed_file import Source, unpacked
from people_census import is_unpacked, is_unpacked_2010
from people_counts import COUNT, CountColumn, count_column, count_of, several_years
from people_counts import year_column, year_in
from people_names import NORTH_CAROLINA
from people_table import NAMES, OTHER_AREA, CountyColumns, CountyPeople, county_columns
from people_table import is_code, is_county_level, level_place, sampled
from refusal import Refused
from table_columns import Wanted, joined_name
from table_input import NumberedRow, Table, decoded, full_rows, plain, shown, table_of

MOST_JSON_BYTES = 8_388_608
MOST_NAME_SIGNS = 200
COUNTY_NAMES = Wanted("the names", "--name", NAMES, is_ranked=True)


class Chosen(NamedTuple):
    """What the user chose of a table; None where nothing was chosen.

    `county`, `people` and `name` are columns, and `state` has two digits.
    """

    county: Optional[str] = None
    people: Optional[str] = None
    name: Optional[str] = None
    year: Optional[str] = None
    state: Optional[str] = None


class PeopleRow(NamedTuple):
    """A row of a county: its number, the county's code and name, the people as a text, the year."""

    number: int
    code: str
    text: str
    name: str
    year: str


@dataclass
class PeopleTable:
    """A table of counties with its columns, and the rows of counties that are left of it.

    `other_rows` says how many rows are of no county. `totals` has those that the table names as one
    of all counties, with their people as a text.
    """

    table: Table
    county: CountyColumns
    count: CountColumn
    rows: List[PeopleRow] = field(default_factory=list)
    other_rows: int = 0
    totals: List[Tuple[int, str]] = field(default_factory=list)
    years: Sequence[str] = ()
    states: Sequence[str] = ()


def open_table(source: Source, member: Optional[str]) -> Table:
    """Returns the table in a file: a text, a DBF, or JSON as the Census Bureau's API answers.

    `member` is the member of a zip that the user chose. Raises `Refused` if it is no table.
    """
    given, source = source, unpacked(source, member)
    if is_unpacked(source):
        told = f"The file {source.name} is an unpacked file of PL 94-171, which the program reads"
        if source.data != given.data:
            told = f"{source.name} is a packed file of PL 94-171, which the program reads unpacked"
        raise Refused(f"{told}: it takes the geographic header by --geo, segment 1 by --segment.")
    if is_unpacked_2010(source):
        told = f"{source.name} is one of the PL 94-171 files of 2010, which are read together"
        raise Refused(f"{told}: give the zip of the state, as nc2010.pl.zip.")
    if source.data.lstrip()[:1] in (b"[", b"{"):
        return json_table(source)
    return table_of(source, is_code)


def json_table(source: Source) -> Table:
    """Returns the table of a JSON text that is a list of lists, the first with the names.

    Raises `Refused` if it is no such list.
    """
    if len(source.data) > MOST_JSON_BYTES:
        told = f"is JSON of more than {MOST_JSON_BYTES:,} bytes"
        raise Refused(f"The file {source.name} {told}: a table of counties is expected.")
    try:
        held = json.loads(decoded(source.data), parse_int=str, parse_float=str, parse_constant=str)
    except (ValueError, RecursionError) as fault:
        told = "begins as JSON, and isn't whole: ask for it again"
        raise Refused(f"The file {source.name} {told}.") from fault
    if not (isinstance(held, list) and held and all(isinstance(row, list) and row for row in held)):
        told = "is JSON, and no list of lists with the names of the columns in the first, as the "
        told += "Census Bureau's API answers: export the table as CSV, as that of a graph's nodes"
        raise Refused(f"The file {source.name} {told}.")
    first, *others = [[json_field(it) for it in row] for row in held]
    rows = full_rows(source, "row", len(first), enumerate(others, 2))
    return Table(source.name, "row", first, first, rows)


def json_field(held: Any) -> str:
    """Returns a value of JSON as a field. None is an empty one."""
    return "" if held is None else str(held)


def read_people_table(table: Table, chosen: Chosen, names: Optional[CountyNames]) -> PeopleTable:
    """Returns the counties in a table, those of one state and one year.

    `names` tells the codes of counties that are only named.
    Raises `Refused` if a column isn't found, if a row has no county, or if no county is left.
    """
    sample, rows = sampled(table)
    county = county_columns(table, sample, chosen.county, chosen.state, names)
    count = count_column(table, county.places, chosen.people, chosen.year, sample)
    found = PeopleTable(table, county, count)
    level = level_place(table)
    year = year_column(table, [*county.places, count.place])
    name = name_place(table, found, chosen.name)
    for number, fields in rows:
        code, text = county.code_of(fields), fields[count.place]
        if code is None and not found.rows and not COUNT.fullmatch(plain(text)):
            continue  # (a second header)
        if level is not None and not is_county_level(fields[level]):
            code = OTHER_AREA
        if code is None:
            check_no_county(found, (number, fields), names)
        if not code:
            found.other_rows += 1
            found.totals += [(number, text)] if county.is_named and code is not None else []
            continue
        named = "" if name is None else fields[name]
        found.rows.append(
            PeopleRow(number, code, text, named, "" if year is None else year_in(fields[year]))
        )
    choose_state(found, chosen.state)
    choose_year(found, chosen.year, year is not None)
    return found


def check_no_county(found: PeopleTable, row: NumberedRow, names: Optional[CountyNames]) -> None:
    """Raises `Refused` if a row without a county's code has people: then it isn't a note."""
    number, fields = row
    if not plain(fields[found.count.place]):
        return
    told = [fields[place].strip() for place in found.county.places]
    place, words = found.table.place(number), " and ".join(map(shown, told))
    if not found.county.is_named or names is None:
        expected = "a county's code has five digits"
        raise Refused(f"{place} has {words}, and {expected}: people by county are expected.")
    codes = names.by_name.get(joined_county_name(told[0].lstrip(".")), [])
    if codes:
        raise Refused(f"{place} has {words}, which is a name of {' and '.join(sorted(codes))}.")
    expected = f"which is no county of state {names.state}: --names tells those of another state"
    raise Refused(f"{place} has {words}, {expected}.")


def name_place(table: Table, found: PeopleTable, chosen: Optional[str]) -> Optional[int]:
    """Returns the place of the counties' names, or None if a table has none.

    `chosen` is the column that the user chose.
    """
    if chosen is not None:
        return COUNTY_NAMES.by_choice(table, chosen)
    used = {*found.county.places, found.count.place} if not found.county.is_named else set()
    joined = [joined_name(name) for name in table.columns or []]
    if table.columns is None and len(table.first) == 3:
        return next(iter({0, 1, 2} - used), None)
    places = (i for name in NAMES for i, it in enumerate(joined) if it == name and i not in used)
    return next(places, None)


def choose_state(found: PeopleTable, state: Optional[str]) -> None:
    """Leaves the counties of one state: the one that is chosen, the only one, or North Carolina.

    Raises `Refused` if the table hasn't the chosen one, or has several others.
    """
    found.states = sorted({row.code[:2] for row in found.rows})
    told = f"{found.table.name} has no county"
    if not found.states:
        raise Refused(f"{told}: its {found.table.unit}s are of other areas.")
    listed = ", ".join(found.states)
    if state is None and len(found.states) > 1 and NORTH_CAROLINA not in found.states:
        told = f"{found.table.name} has counties of the states {listed}"
        raise Refused(f"{told}: choose one by --state.")
    if state is None:
        state = found.states[0] if len(found.states) == 1 else NORTH_CAROLINA
    if state not in found.states:
        raise Refused(f"{told} of state {state}: it has those of {listed}.")
    found.rows = [row for row in found.rows if row.code[:2] == state]


def choose_year(found: PeopleTable, year: Optional[str], has_column: bool) -> None:
    """Leaves the rows of one year, if a column of the table has the year of each.

    `year` is the one that the user chose. Raises `Refused` if the table hasn't it, or if it has
    several and none was chosen.
    """
    if not has_column:
        found.years = found.count.others
        if year is not None and found.count.year != year:
            raise Refused(f"{found.table.name} has no column of people of {shown(year)}.")
        return
    years = sorted({row.year for row in found.rows})
    if year is None and len(years) > 1:
        raise several_years(found.table, years)
    wanted = years[0] if year is None else year
    if wanted not in years and found.count.year != wanted:
        told = f"{found.table.name} has no people of {shown(wanted)}"
        raise Refused(f"{told}: it has those of {', '.join(years)}.")
    if wanted in years:
        found.rows = [row for row in found.rows if row.year == wanted]
        found.years = [it for it in years if it != wanted]


def counties_in(found: PeopleTable, names: Optional[CountyNames]) -> Dict[str, CountyPeople]:
    """Returns the people of each county by its code.

    A county that the table only names has its whole name of `names`. Raises `Refused` if a county
    stands twice, or if a field of people is no number.
    """
    rows: Dict[str, int] = {}
    counties: Dict[str, CountyPeople] = {}
    for row in found.rows:
        people = count_of(found.table, row.number, row.text)
        if row.code in rows:
            told = f"{found.table.place(row.number)} has county {row.code}"
            before = f"{found.table.unit} {rows[row.code]} has already"
            raise Refused(f"{told}, which {before}: one {found.table.unit} a county is expected.")
        rows[row.code] = row.number
        name = cleaned_name(row.name)
        known = names.counties if names is not None and found.county.is_named else None
        if known and row.code in known:
            name = known[row.code].names[-1]
        counties[row.code] = CountyPeople(row.code, people, name)
    return counties


def cleaned_name(text: str) -> str:
    """Returns a county's name without its state, and without signs that aren't printable.

    Digits alone are no name.
    """
    name = re.split("[,;]", plain(text).lstrip("."))[0]
    name = " ".join("".join(sign if sign.isprintable() else " " for sign in name).split())
    return "" if name.isdigit() else name[:MOST_NAME_SIGNS]


def unequal_totals(found: PeopleTable, total: int) -> Iterator[str]:
    """Yields a sentence for each row of all counties whose people aren't `total`, their sum."""
    for number, text in found.totals:
        match = COUNT.fullmatch(plain(text))
        if match and int(match[1].replace(",", "")) != total:
            told = f"{found.table.place(number)} has {match[1]} people in all"
            yield f"{told}, and its counties have {total:,}."
