"""Finds the column of people in a table, and the years that it has."""
from __future__ import annotations

import re
from typing import Dict, List, NamedTuple, Optional, Sequence

from refusal import Refused
from table_columns import Wanted, joined_name, told_columns
from table_input import SCIENTIFIC, NumberedRow, Table, plain, shown

MOST_PEOPLE = 4_294_967_295
COUNT = re.compile(r"([0-9]{1,3}(?:,[0-9]{3})+|[0-9]+)(?:\.0*)?")
DECIMAL = re.compile(r"[0-9,]*\.[0-9]+")
YEAR = re.compile(r"(?:1[789]|20)[0-9]{2}")
# Of the total population: names in general, those of the Census Bureau's tables P1, B01003, S0101,
# DP1 and DP05, and the field of the geographic header.
PEOPLE = Wanted(
    "the people",
    "--people",
    (
        "people",
        "population",
        "totalpopulation",
        "totalpop",
        "totpop",
        "poptotal",
        "pop",
        "pop100",
        "p1001n",
        "p0010001",
        "p001001",
        "pl001001",
        "b01003001e",
        "b01003001",
        "b01001001e",
        "s0101c01001e",
        "dp10001c",
        "dp050001e",
        "popestimate",
    ),
    is_ranked=True,
)
ESTIMATE = re.compile(r"popestimate(20[0-9]{2})")
# The first column of a table of NHGIS (a code of three or four signs, the E of an estimate, 001),
# and a year of its time series of the total population.
NHGIS_TOTAL = re.compile(r"[a-z][a-z0-9]{2,3}e?001")
NHGIS_YEAR = re.compile(r"[a-z][a-z0-9]{2}aa((?:1[789]|20)[0-9]{2})")
SHORT_YEAR = re.compile(r"(?:tot|total)?(?:pop|population)([0-9]{2})")
YEAR_WORDS = frozenset(
    """pop population popestimate estimate estimates estimated est estimatesbase base projection
    projections projected proj census total tot totpop totalpop resident residents people persons
    january jan april apr july jul of as the in for at year yr y x""".split()
)
# Columns of a plan or a grouping, whose numbers are no people.
NO_PEOPLE = frozenset(
    """district districtid districtno dist assignment plan group groupid cluster clusterid grouping
    seats""".split()
)
YEAR_COLUMNS = ("year", "datedesc", "estimateyear", "projectionyear")


class CountColumn(NamedTuple):
    """The place of the people, the year that its name has, and the other years that stand beside.

    `year` is empty if the name has none.
    """

    place: int
    year: str = ""
    others: Sequence[str] = ()


def year_of(name: str) -> Optional[str]:
    """Returns the year of a column of people, or None if its name is no year with known words."""
    joined = joined_name(name)
    for pattern in (NHGIS_YEAR, SHORT_YEAR):
        found = pattern.fullmatch(joined)
        if found:
            return found[1] if len(found[1]) == 4 else century_of(found[1]) + found[1]
    words = re.findall(r"[^\W\d_]+|[0-9]+", name.casefold())
    years = [word for word in words if YEAR.fullmatch(word)]
    others = [word for word in words if not YEAR.fullmatch(word)]
    is_known = all(word in YEAR_WORDS or word.isdigit() and len(word) <= 2 for word in others)
    return years[0] if len(years) == 1 and is_known else None


def century_of(digits: str) -> str:
    """Returns the first two digits of the year that ends with `digits`, from 1950 to 2049."""
    return "20" if digits < "50" else "19"


def count_column(
    table: Table,
    used: Sequence[int],
    chosen: Optional[str],
    year: Optional[str],
    sample: List[NumberedRow],
) -> CountColumn:
    """Returns the column of the people: the one that the user chose, or the one of a known name.

    The columns at the places `used` tell the county. `year` is the year that the user chose. If the
    columns are those of the Population Estimates, the newest year is taken without it.
    Raises `Refused` if there is no such column, or if there are several.
    """
    if chosen is not None:
        place = PEOPLE.by_choice(table, chosen)
        return CountColumn(place, year_of((table.columns or table.first)[place]) or "")
    if table.columns is None:
        return CountColumn(only_number(table, used, sample))
    estimates = matching_years(table.columns, ESTIMATE)
    if estimates:
        wanted = year or max(estimates.values())
        return of_year(table, estimates, wanted)
    years = {i: it for i, name in enumerate(table.columns) for it in [year_of(name)] if it}
    named = PEOPLE.by_header(table, table.columns)
    if year is not None and years:
        return of_year(table, years, year)
    if named is not None and named not in used:
        return CountColumn(named)
    if years:
        return of_year(table, years, only_year(table, years))
    return CountColumn(unnamed_place(table, table.columns, used, sample))


def matching_years(columns: List[str], pattern: "re.Pattern[str]") -> Dict[int, str]:
    """Returns the years of the columns of a pattern, by their places."""
    found = ((i, pattern.fullmatch(joined_name(name))) for i, name in enumerate(columns))
    return {place: match[1] for place, match in found if match}


def only_year(table: Table, years: Dict[int, str]) -> str:
    """Returns the year of all columns. Raises `Refused` if there are several years."""
    found = sorted({*years.values()})
    if len(found) > 1:
        raise several_years(table, found)
    return found[0]


def several_years(table: Table, years: Sequence[str]) -> Refused:
    """Returns the refusal of a table with the people of several years."""
    told = f"{table.name} has the people of several years: {', '.join(map(printed, years))}"
    return Refused(f"{told}; choose one by --year.")


def printed(year: str) -> str:
    """Returns a year as it may be printed: it may be any text of a column of years."""
    return year if YEAR.fullmatch(year) else shown(year)


def of_year(table: Table, years: Dict[int, str], wanted: str) -> CountColumn:
    """Returns the column of a year. Raises `Refused` if there is none, or if there are several."""
    columns = table.columns or []
    places = [place for place, year in years.items() if year == wanted]
    others = sorted({*years.values()} - {wanted})
    if not places:
        told = f"{table.name} has no people of {shown(wanted)}"
        raise Refused(f"{told}: it has those of {', '.join(others)}.")
    if len(places) > 1:
        several = ", ".join(shown(columns[place]) for place in places)
        told = f"{table.name} has several columns of {wanted}: {several}"
        raise Refused(f"{told}; choose one by --people.")
    return CountColumn(places[0], wanted, others)


def unnamed_place(
    table: Table, columns: List[str], used: Sequence[int], sample: List[NumberedRow]
) -> int:
    """Returns the place of the people in a table that has no known name for them.

    It is the first column of a table of NHGIS, or the other one of two columns.
    Raises `Refused` if there is no such column, or if there are several tables of NHGIS.
    """
    joined = [joined_name(name) for name in columns]
    if "gisjoin" in joined:
        places = [i for i, name in enumerate(joined) if NHGIS_TOTAL.fullmatch(name)]
        if len(places) > 1:
            several = ", ".join(shown(columns[place]) for place in places)
            told = f"{table.name} has several tables of NHGIS, with the first columns {several}"
            raise Refused(f"{told}: the codebook tells which is the total; choose it by --people.")
        if places:
            return places[0]
    if len([name for name in joined if name]) <= 2:
        return only_number(table, used, sample)
    raise missing(table)


def only_number(table: Table, used: Sequence[int], sample: List[NumberedRow]) -> int:
    """Returns the place of the only column that has numbers and isn't one of those `used`.

    Raises `Refused` if there is none, if there are several, or if it has districts or groups.
    """
    names = [joined_name(name) for name in table.columns or []]
    places = [
        place
        for place in range(len(table.first))
        if place not in used
        and not NO_PEOPLE.intersection(names[place : place + 1])
        and any(COUNT.fullmatch(plain(row[place])) for _, row in sample)
    ]
    if len(places) != 1:
        raise missing(table)
    return places[0]


def missing(table: Table) -> Refused:
    """Returns the refusal of a table in which no column of people is found."""
    told = f"{table.name} has no column that is known to have the people: {told_columns(table)}"
    names = "POPESTIMATE2024, P1_001N, POP100, TOTPOP, Population or 2024"
    return Refused(f"{told}. A name as {names} is expected; choose the column by --people.")


def count_of(table: Table, number: int, text: str) -> int:
    """Returns the people in a field, with or without commas between thousands.

    Raises `Refused` if the field is no whole number up to 4,294,967,295.
    """
    field = plain(text)
    place, found = table.place(number), COUNT.fullmatch(field)
    if found is None:
        told = "which is no whole number"
        if SCIENTIFIC.fullmatch(field):
            told = "which a spreadsheet rounded: export the people as text"
        elif DECIMAL.fullmatch(field):
            told = "which is no whole number: round it as its source says"
        if not field:
            raise Refused(f"{place} has no people.")
        raise Refused(f"{place} has the people {shown(field)}, {told}.")
    digits = found[1].replace(",", "").lstrip("0") or "0"
    if len(digits) > len(str(MOST_PEOPLE)) or int(digits) > MOST_PEOPLE:
        raise Refused(f"{place} has the people {shown(field)}, more than {MOST_PEOPLE:,}.")
    return int(digits)


def year_column(table: Table, used: Sequence[int]) -> Optional[int]:
    """Returns the place of the column that has the year of each row, or None."""
    joined = [joined_name(name) for name in table.columns or []]
    places = [joined.index(name) for name in YEAR_COLUMNS if name in joined]
    return next((place for place in places if place not in used), None)


def year_in(text: str) -> str:
    """Returns the last year in a field, or the whole field if it has none."""
    years: List[str] = re.findall(r"(?<![0-9])(?:1[789]|20)[0-9]{2}(?![0-9])", text)
    return years[-1] if years else plain(text)
