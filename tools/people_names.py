"""Reads the names of a state's counties: of a geographic header, or of a file of borders."""
from __future__ import annotations

import os
from typing import Dict, List, Optional

from census_counties import CensusCounty, counties_of
from county_names import CountyNames, names_of
from packed_file import read_file
from refusal import Refused
from table_input import decoded, is_digits

NORTH_CAROLINA = "37"
# The repository's own geographic header, for tables of North Carolina without codes.
OWN_HEADER = os.path.join(
    os.path.dirname(os.path.dirname(os.path.abspath(__file__))), "data", "nc2020", "nc2020geo.pl"
)


def read_names(path: Optional[str], state: Optional[str]) -> Optional[CountyNames]:
    """Returns the counties that the file at `path` names, those of `state` if it isn't None.

    Without a path they are those of North Carolina, or None if `state` is another one, or if the
    repository isn't there.
    Raises `Refused` if the file can't be read, or has no county of the state, or several states.
    """
    if path is None:
        is_own = state in (None, NORTH_CAROLINA) and os.path.isfile(OWN_HEADER)
        return CountyNames(NORTH_CAROLINA, names_in(OWN_HEADER, NORTH_CAROLINA)) if is_own else None
    return CountyNames(state, names_in(path, state))


def names_in(path: str, state: Optional[str]) -> Dict[str, CensusCounty]:
    """Returns the counties of a geographic header, or those of a file of borders."""
    source = read_file(path)
    lines = [line.rstrip(b"\r").split(b"|") for line in source.data.split(b"\n")]
    counties = {county.code: county for line in lines for county in bordering(line)}
    if not counties:
        return counties_of(source.name, enumerate(lines, 1), state)
    states = sorted({code[:2] for code in counties})
    if state is None and len(states) > 1:
        told = f"The file {source.name} has counties of several states"
        raise Refused(f"{told}: choose one by --state.")
    found = {code: it for code, it in counties.items() if state in (None, code[:2])}
    if not found:
        raise Refused(f"The file {source.name} has no county of state {state}.")
    return found


def bordering(fields: List[bytes]) -> List[CensusCounty]:
    """Returns the first county of a line of borders with its names, or nothing."""
    if len(fields) < 4:
        return []
    name, code = (decoded(field).strip() for field in fields[:2])
    if not is_digits(code, 5) or not is_digits(decoded(fields[3]), 5) or not name:
        return []
    return [CensusCounty(code, names_of(name), 0)]
