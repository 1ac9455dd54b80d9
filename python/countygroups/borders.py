"""The borders of North Carolina's counties, which this package carries."""
from __future__ import annotations

from functools import lru_cache
from pathlib import Path
from typing import FrozenSet, Iterable, Tuple

from .codes import Label, geoid_of
from .counties import OF_JSON, CountyTable
from .errors import InputError

Pair = Tuple[Label, Label]
GeoidPair = Tuple[str, str]

FILE = "county_borders.txt"
SOURCE = "borders_source.txt"
# Where the list lies: in the package that was installed, or in the repository of this folder.
FOLDERS = (
    Path(__file__).resolve().parent / "data",
    Path(__file__).resolve().parents[2] / "data" / "nc2020",
)
WORDS = "of North Carolina's border list in this package, which isn't the Census Bureau's file"


def pairs_of_file(path: Path) -> list[GeoidPair]:
    """Returns the pairs of GEOIDs of a file in one of the Census Bureau's two layouts.

    Since 2023 a line has the fields name, GEOID, name and GEOID at pipes. Before, they stood at
    tabs, and the first two were left out where they are those of the line before. Lines with fewer
    fields are passed over. Raises `OSError` if the file can't be read, and `InputError` if it is
    JSON.
    """
    pairs: list[GeoidPair] = []
    above = ""
    with open(path, encoding="utf-8-sig", errors="replace") as file:
        for line in file:
            if not pairs and line.lstrip().startswith(("{", "[")):
                raise InputError(f"{path} is JSON. {OF_JSON}")
            fields = line.rstrip("\r\n").split("|" if "|" in line else "\t")
            if len(fields) >= 4:
                above = fields[1].strip() or above
                pairs.append((above, fields[3].strip()))
    return pairs


@lru_cache(maxsize=None)
def carried_pairs() -> FrozenSet[GeoidPair]:
    """Returns the pairs of GEOIDs of the list, each once, or none if the list isn't there."""
    path = next((folder / FILE for folder in FOLDERS if (folder / FILE).is_file()), None)
    if path is None:
        return frozenset()
    pairs = [pair for pair in pairs_of_file(path) if geoid_of(pair[0]) and pair[0] != pair[1]]
    return frozenset((min(pair), max(pair)) for pair in pairs)


def borders_source() -> str:
    """Returns where the list comes from, in words."""
    for folder in FOLDERS:
        if (folder / SOURCE).is_file():
            return (folder / SOURCE).read_text(encoding="utf-8")
    return ""


def carried_borders(table: CountyTable) -> list[Pair] | None:
    """Returns the carried pairs of a table's counties, or `None` if one isn't North Carolina's."""
    known = {geoid for pair in carried_pairs() for geoid in pair}
    label_of = {geoid_of(county.label): county.label for county in table.counties}
    if not known or not label_of.keys() <= known or len(label_of) < len(table.counties):
        return None
    found = [pair for pair in carried_pairs() if pair[0] in label_of and pair[1] in label_of]
    return [(label_of[one], label_of[other]) for one, other in sorted(found)]


def names_of(pairs: Iterable[Pair], table: CountyTable) -> str:
    """Returns the names of the counties of pairs, in words, or "none"."""
    place_of = {county.label: place for place, county in enumerate(table.counties)}
    places = sorted(sorted((place_of[one], place_of[other])) for one, other in pairs)
    names = [county.name for county in table.counties]
    return ", ".join(f"{names[one]} and {names[other]}" for one, other in places) or "none"
