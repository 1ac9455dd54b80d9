"""Plans of districts: a dict, a Series, a partition of GerryChain, or a file of other programs."""
from __future__ import annotations

import csv
import gzip
import io
import json
import os
import zipfile
import zlib
from typing import Any, Hashable, Iterable, Iterator, Mapping

from .codes import plain
from .counties import is_series, is_table
from .errors import InputError

MARKS = "|\t;,"
NO_DISTRICT = frozenset(("", "zzz", "na", "n/a", "nan", "null", "none", "unassigned"))
# The field of Districtr's JSON that has the district of each unit, and the one that may be around.
ASSIGNMENT, AROUND = "assignment", "plan"
BY_PANDAS = 'pandas.read_csv(path, dtype=str).set_index("GEOID20")["District"]'

# What Python raises of an archive that is damaged, encrypted or packed in another way.
UNREADABLE = (EOFError, NotImplementedError, RuntimeError, zipfile.BadZipFile, zlib.error)

Plan = Mapping[Hashable, Hashable]


def plan_of(given: Any, units: Iterable[Hashable]) -> Plan:
    """Returns the district of each unit that `given` names, or `None` for none.

    `given` is a dict, a Series, a partition, what Districtr's JSON has, or the path of a file.
    `units` has the precincts or blocks; in a file their texts stand. Raises `InputError` if it is
    something else, or if it names none of `units`.
    """
    known = dict.fromkeys(units)
    names = {str(unit): unit for unit in known}
    if isinstance(given, (str, os.PathLike)):
        found = _plan_of_file(os.fspath(given), names)
    else:
        found = _plan_of_object(given)
    unit_of = {one: one if one in known else names.get(str(one), one) for one in found}
    plan = {unit_of[one]: _district(district) for one, district in found.items()}
    unknown = next((unit for unit in plan if unit not in known), None)
    if unknown is not None:
        told = f"The plan names {unknown!r}, which is no precinct"
        like = next(iter(known), None)
        raise InputError(f"{told}: it takes nodes, keys or the table's index, such as {like!r}.")
    return plan


def _plan_of_object(given: Any) -> dict[Hashable, Any]:
    """Returns the districts of a dict, a Series, a partition, or of Districtr's JSON as it is."""
    if is_table(given):
        told = "A table is no plan: give its column of districts, with the precincts as the index"
        raise InputError(f"{told}, as {BY_PANDAS}.")
    found = given
    for field in (AROUND, ASSIGNMENT):
        if isinstance(found, Mapping) and isinstance(found.get(field), Mapping):
            found = found[field]
    if not isinstance(found, Mapping) and not is_series(found):
        found = getattr(found, ASSIGNMENT, found)
    if not hasattr(found, "items"):
        told = f"{type(given).__name__} is no plan: give a dict or a Series from precincts"
        raise InputError(f"{told} to districts, or the path of a file that has them.")
    return {plain(unit): district for unit, district in found.items()}


def _district(given: Any) -> Hashable | None:
    """Returns a district, or `None` for none. Districtr may have it in a list."""
    if isinstance(given, (list, tuple)) and len(given) < 2:
        given = given[0] if given else None
    if isinstance(given, (list, tuple)):
        raise InputError(f"The plan has a precinct in the districts {given!r}: give it one.")
    district: Hashable = plain(given)
    is_none = district is None or district != district
    return None if is_none or str(district).strip().casefold() in NO_DISTRICT else district


def _plan_of_file(path: str, names: Mapping[str, Hashable]) -> dict[Hashable, Any]:
    """Returns the districts of a text of two columns, or of Districtr's JSON.

    It may be packed by gzip, or alone in a zip archive. `names` has the units by their texts.
    """
    try:
        with open(path, "rb") as file:
            content = file.read()
        if content.startswith(b"\x1f\x8b"):
            content = gzip.decompress(content)
        elif content.startswith(b"PK\x03\x04"):
            content = _only_member(path)
    except (*UNREADABLE, OSError) as fault:
        told = f"The plan {path} can't be read: {getattr(fault, 'strerror', None) or fault}"
        raise InputError(f"{told}.") from fault
    try:
        text = content.decode("utf-8-sig")
    except UnicodeDecodeError:
        text = "\0"
    if "\0" in text:
        raise InputError(f"The plan {path} is no text in UTF-8: export it as CSV.")
    if text.lstrip()[:1] in ("{", "["):
        return _plan_of_json(path, text)
    return _plan_of_table(path, text, names)


def _only_member(path: str) -> bytes:
    """Returns the only file of a zip archive. Raises `InputError` if it has several."""
    with zipfile.ZipFile(path) as archive:
        members = [one for one in archive.namelist() if not one.endswith("/")]
        if "xl/workbook.xml" in members:
            raise InputError(f"The plan {path} is a workbook: save its sheet as CSV.")
        if len(members) != 1:
            told = f"The archive {path} has {len(members)} files: unpack it, and give that of the "
            raise InputError(f"{told}chamber's districts. They are {', '.join(members[:20])}.")
        return archive.read(members[0])


def _plan_of_json(path: str, text: str) -> dict[Hashable, Any]:
    """Returns the districts of Districtr's JSON. Raises `InputError` for another JSON."""
    try:
        held = json.loads(text)
    except (ValueError, RecursionError) as fault:
        told = f"The plan {path} begins as JSON, and can't be read: {fault}"
        raise InputError(f"{told}. Export it again, or as CSV.") from fault
    whole = held.get(AROUND, held) if isinstance(held, dict) else None
    if not isinstance(whole, dict) or not isinstance(whole.get(ASSIGNMENT), dict):
        told = f'{path} is JSON without the "{ASSIGNMENT}" of a plan of Districtr'
        raise InputError(f"{told}: give a CSV of precincts and districts, or a dict.")
    return dict(whole[ASSIGNMENT])


def _plan_of_table(path: str, text: str, names: Mapping[str, Hashable]) -> dict[Hashable, Any]:
    """Returns the districts of a text of two columns, with or without a header."""
    first = text.partition("\n")[0]
    mark = next((mark for mark in MARKS if mark in first), ",")
    found: dict[Hashable, Any] = {}
    for place, row in enumerate(_rows_of(path, text, mark)):
        if place == 0 and row and row[0].strip() not in names or not any(row):
            continue
        if len(row) != 2:
            told = f"{path} has {len(row)} columns, and a plan has a precinct and its district"
            raise InputError(f"{told}: give a Series, as {BY_PANDAS}.")
        unit, district = (field.strip() for field in row)
        if found.setdefault(unit, district) != district:
            raise InputError(f"{path} has {unit!r} in two districts: leave one of its lines.")
    if not found:
        told = f"{path} has no line of a precinct below its header"
        raise InputError(f"{told}: export the plan with a line for each.")
    return found


def _rows_of(path: str, text: str, mark: str) -> Iterator[list[str]]:
    """Yields the fields of each line of a text, which are cut at `mark`."""
    try:
        yield from csv.reader(io.StringIO(text, newline=None), delimiter=mark)
    except csv.Error as fault:
        raise InputError(f"The plan {path} is no table: {fault}. Export it as CSV.") from fault
