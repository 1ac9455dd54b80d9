"""Finds the counties in the rows of a table, by their codes or by their names."""
from __future__ import annotations

import itertools
import re
from typing import Callable, Iterator, List, NamedTuple, Optional, Tuple

from county_names import CountyNames, joined_county_name
from refusal import Refused
from table_columns import LOW_STATES, Wanted, joined_name, told_columns
from table_input import NumberedRow, Table, is_digits, plain

SAMPLE_ROWS = 60
MOST_ROWS = 500_000
# What a row has in the place of a county's code if it is that of another area, as of the state.
OTHER_AREA = ""
COUNTY_LEVEL = "050"
CENSUS_CODE = re.compile(r"([0-9]{3})[0-9A-Z]{4}US([0-9A-Z]*)")
NHGIS_CODE = re.compile(r"G([0-9]{2})0(?:([0-9]{3})0)?")
COUNTIES = Wanted("the counties", "--county", (), is_ranked=True)
# The columns of whole codes, those of the state with those of the county, and those of names.
CODES: Tuple[str, ...] = (
    "geoid20",
    "geoid",
    "geoid10",
    "geocode",
    "countygeoid",
    "countyfips",
    "countyfips5",
)
CODES += ("fips", "fipscode", "fips5", "stcofips", "stcofips5", "countyfipscode", "ucgid")
CODES += ("gisjoin", "geography", "county", "code")
PAIRS = (
    ("statea", "countya"),
    ("statefp20", "countyfp20"),
    ("statefp", "countyfp"),
    ("statefips", "countyfips"),
    ("stfips", "ctyfips"),
    ("state", "county"),
)
NAMES: Tuple[str, ...] = ("namelsad20", "namelsad", "ctyname", "countyname", "name20", "name")
NAMES += ("geographicareaname", "geographicarea", "areaname", "area", "county", "label")
LEVELS = ("sumlev", "sumlevel", "summarylevel")
TOTALS = frozenset("total totals state statetotal statewide sum unitedstates us".split())
STATES = frozenset(
    """alabama alaska arizona arkansas california colorado connecticut delaware florida georgia
    hawaii idaho illinois indiana iowa kansas kentucky louisiana maine maryland massachusetts
    michigan minnesota mississippi missouri montana nebraska nevada newhampshire newjersey newmexico
    newyork northcarolina northdakota ohio oklahoma oregon pennsylvania rhodeisland southcarolina
    southdakota tennessee texas utah vermont virginia washington westvirginia wisconsin
    wyoming""".split()
)

# Returns the code of the county of a row, `OTHER_AREA`, or None if the row has no code.
CodeOf = Callable[[List[str]], Optional[str]]


class CountyPeople(NamedTuple):
    """A county's code, its people, and its name, which may be empty."""

    code: str
    people: int
    name: str


class CountyColumns(NamedTuple):
    """The places of the columns that tell the county of a row, and how they do.

    `is_named` says that it is by the county's name.
    """

    places: Tuple[int, ...]
    code_of: CodeOf
    is_named: bool = False


def code_in(text: str) -> Optional[str]:
    """Returns the code of the county of a field, `OTHER_AREA`, or None if the field has no code.

    A code of four digits has lost its leading zero. County 000 is a state.
    """
    code = plain(text)
    census, nhgis = CENSUS_CODE.fullmatch(code), NHGIS_CODE.fullmatch(code)
    if census:
        is_county = census[1] == COUNTY_LEVEL and is_digits(census[2], 5)
        return census[2] if is_county else OTHER_AREA
    if nhgis:
        return nhgis[1] + nhgis[2] if nhgis[2] else OTHER_AREA
    if is_digits(code, 5) or is_digits(code, 4) and code[0] in LOW_STATES:
        return whole_code(code.zfill(5))
    return None


def whole_code(code: str) -> str:
    """Returns a code of five digits, or `OTHER_AREA` if it is that of a state."""
    return OTHER_AREA if code.endswith("000") else code


def is_code(text: str) -> bool:
    """Returns whether a field has the whole code of a county, so that its row is no header."""
    return bool(code_in(text)) and not is_digits(plain(text), 4)


def by_code(place: int) -> CountyColumns:
    """Returns how a column of codes tells the county."""
    return CountyColumns((place,), lambda fields: code_in(fields[place]))


def by_pair(state: int, county: int) -> CountyColumns:
    """Returns how the columns of the state's code and of the county's code tell the county."""

    def code_of(fields: List[str]) -> Optional[str]:
        """Returns the code of the county of a row."""
        one, other = plain(fields[state]), plain(fields[county])
        if is_digits(one, 1, 2) and is_digits(other, 1, 2, 3):
            return whole_code(one.zfill(2) + other.zfill(3))
        return None

    return CountyColumns((state, county), code_of)


def by_state(state: str, place: int) -> CountyColumns:
    """Returns how a column of the counties' codes without their state tells the county."""

    def code_of(fields: List[str]) -> Optional[str]:
        """Returns the code of the county of a row."""
        code = plain(fields[place])
        return whole_code(state + code.zfill(3)) if is_digits(code, 1, 2, 3) else None

    return CountyColumns((place,), code_of)


def by_name(names: CountyNames, place: int) -> CountyColumns:
    """Returns how a column of names tells the county. A name of several counties has no code."""

    def code_of(fields: List[str]) -> Optional[str]:
        """Returns the code of the county of a row."""
        name = joined_county_name(fields[place].strip().lstrip("."))
        codes = names.by_name.get(name, [])
        if len(codes) == 1:
            return codes[0]
        return OTHER_AREA if not codes and name in TOTALS | STATES else None

    return CountyColumns((place,), code_of, is_named=True)


def candidates(
    table: Table, chosen: Optional[str], state: Optional[str], names: Optional[CountyNames]
) -> Iterator[CountyColumns]:
    """Yields the columns that may tell the counties, those that are more likely first.

    `chosen` is the column that the user chose. Without a header each column may have codes.
    """
    joined = [joined_name(name) for name in table.columns or []]
    places = {name: place for place, name in reversed(list(enumerate(joined)))}
    codes = [places[name] for name in CODES if name in places]
    pairs = [pair for pair in PAIRS if places.keys() >= {*pair}]
    named = [places[name] for name in NAMES if name in places]
    parts = [places[county] for _, county in PAIRS if county in places]
    if chosen is not None:
        pairs, codes = [], [COUNTIES.by_choice(table, chosen)]
        named = parts = codes
    elif table.columns is None:
        codes = named = [*range(len(table.first))]
    yield from (by_code(place) for place in codes)
    yield from (by_pair(places[one], places[other]) for one, other in pairs)
    if state is not None:
        yield from (by_state(state, place) for place in parts)
    if names is not None:
        yield from (by_name(names, place) for place in named)


def sampled(table: Table) -> Tuple[List[NumberedRow], Iterator[NumberedRow]]:
    """Returns the first rows of a table, and all of its rows.

    Of more than 500,000 rows the last one raises `Refused`.
    """
    rows = counted_rows(table)
    sample = list(itertools.islice(rows, SAMPLE_ROWS))
    return sample, itertools.chain(sample, rows)


def counted_rows(table: Table) -> Iterator[NumberedRow]:
    """Yields the rows of a table. Raises `Refused` behind 500,000 of them."""
    for count, row in enumerate(table.rows):
        if count == MOST_ROWS:
            told = f"{table.name} has more than {MOST_ROWS:,} {table.unit}s"
            raise Refused(f"{told}: a table of counties is expected, not of smaller areas.")
        yield row


def county_columns(
    table: Table,
    sample: List[NumberedRow],
    chosen: Optional[str],
    state: Optional[str],
    names: Optional[CountyNames],
) -> CountyColumns:
    """Returns the columns that tell the county of a row: the first by which a sample row has one.

    Raises `Refused` if there are none.
    """
    for columns in candidates(table, chosen, state, names):
        if any(columns.code_of(fields) for _, fields in sample):
            return columns
    if not sample:
        raise Refused(f"{table.name} has no {table.unit} below its header.")
    told = "the counties have a column of codes of five digits (GEOID, GEO_ID, FIPS, GISJOIN), or "
    told += "one of the state's and one of the county's code (STATE and COUNTY)"
    help_told = "choose one by --county. Of names, as `Wake County`, --names tells the codes"
    found = f"{table.name} has no county in any column that is known: {told_columns(table)}"
    raise Refused(f"{found}. It is expected that {told}: {help_told}.")


def level_place(table: Table) -> Optional[int]:
    """Returns the place of the summary level, or None if a table has none."""
    joined = [joined_name(name) for name in table.columns or []]
    return next((joined.index(name) for name in LEVELS if name in joined), None)


def is_county_level(text: str) -> bool:
    """Returns whether a field has the summary level of counties, 050 or 50."""
    return plain(text).zfill(3) == COUNTY_LEVEL
