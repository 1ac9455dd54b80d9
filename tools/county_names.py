"""Tells which county a field of a table means: by its code, or by its name in a header."""
from __future__ import annotations

import unicodedata
from typing import Dict, List, Optional, Tuple

from census_counties import CensusCounty
from refusal import Refused
from table_columns import joined_name
from table_input import Table, is_digits, plain_code, shown

CODE_DIGITS, BLOCK_DIGITS = 5, 15
# What a county is, behind its name.
KINDS = frozenset("county parish borough municipality municipio city".split())
HEADER_WORDS = "the geographic header"


def is_county(text: str) -> bool:
    """Returns whether a field is the whole code of a county or of a block, so no header."""
    return is_digits(plain_code(text), CODE_DIGITS, BLOCK_DIGITS)


def is_block(text: str) -> bool:
    """Returns whether a field is the code of a block, of which a leading zero may be lost."""
    return is_digits(plain_code(text), BLOCK_DIGITS - 1, BLOCK_DIGITS)


def joined_county_name(name: str) -> str:
    """Returns the letters of a county's name up to its first comma, without case and accents."""
    bare = unicodedata.normalize("NFKD", name.split(",")[0])
    return joined_name("".join(sign for sign in bare if not unicodedata.combining(sign)))


def names_of(name: str) -> Tuple[str, ...]:
    """Returns what a county of this name is called, such as `Wake` and `Wake County`, or nothing.

    What stands behind a comma, such as the state, is left out.
    """
    whole = name.split(",")[0].strip()
    stem, _, kind = whole.rpartition(" ")
    names = (stem, whole) if kind.lower() in KINDS else (whole,)
    return tuple(filter(None, names))


def codes_by_name(counties: Dict[str, CensusCounty]) -> Dict[str, List[str]]:
    """Returns the codes of the counties of each name, with and without what they are."""
    found: Dict[str, List[str]] = {}
    for code, county in counties.items():
        for name in {joined_county_name(name) for name in county.names}:
            found.setdefault(name, []).append(code)
    return found


class CountyNames:
    """What a county may be called: its code, its code in a state, or its name in a file.

    `source` says what file that is, in words.
    """

    def __init__(
        self,
        state: Optional[str],
        counties: Optional[Dict[str, CensusCounty]],
        source: str = HEADER_WORDS,
    ) -> None:
        self.counties, self.source = counties, source
        self.by_name = codes_by_name(counties or {})
        self.state = state or (next(iter(counties))[:2] if counties else None)

    def code_of(self, table: Table, number: int, text: str) -> str:
        """Returns the code of a county, also that of a block's.

        It has five digits, or four where a leading zero may be lost.
        Raises `Refused` if the field is no county, or if --state, --geo or --people has to tell it.
        """
        code, place = plain_code(text), table.place(number)
        if is_digits(code, CODE_DIGITS - 1, CODE_DIGITS):
            return code
        if is_block(code):
            return code[: CODE_DIGITS - BLOCK_DIGITS]
        if code.isdecimal() and len(code) > CODE_DIGITS:
            told = f"{place} has {shown(code)}, which is no code of a county or a block"
            raise Refused(f"{told}: export the groups by counties or by blocks.")
        if is_digits(code, 1, 2, 3):
            if self.state is None:
                told = f"{place} has the county {shown(code)} without its state"
                raise Refused(f"{told}: give the state's FIPS code by --state.")
            return self.state + code.zfill(3)
        if not code:
            raise Refused(f"{place} has no county.")
        if self.counties is None:
            told = f"{place} has {shown(code)}, which is no county's code"
            remedy = "give the geographic header by --geo, or a people file by --people"
            raise Refused(f"{told}: if it is a name, {remedy}.")
        return self.code_of_name(place, code)

    def code_of_name(self, place: str, name: str) -> str:
        """Returns the code of the county of a name. Raises `Refused` if there isn't one only."""
        codes = self.by_name.get(joined_county_name(name), [])
        if len(codes) == 1:
            return codes[0]
        if codes:
            several = " and ".join(sorted(codes))
            raise Refused(f"{place} has {shown(name)}, which is a name of {several}.")
        raise Refused(f"{place} has {shown(name)}, which {self.source} doesn't have.")

    def check_listed(self, table: Table, rows: Dict[str, int]) -> None:
        """Raises `Refused` if a county of a table isn't in the file of the names."""
        for code, number in rows.items():
            if self.counties is not None and code not in self.counties:
                told = f"{table.place(number)} has county {code}"
                raise Refused(f"{told}, which {self.source} doesn't have.")
