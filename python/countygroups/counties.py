"""Counties read from a table, a graph or a dict, by what these have and not by their classes."""
from __future__ import annotations

import math
import os
import re
from dataclasses import dataclass
from typing import Any, Hashable, Iterable, Mapping, Sequence, Tuple, Union

from .codes import Label, plain
from .errors import InputError

# Where the label, the people and the name of a county stand, if nothing else is said: the first of
# these that is there. A label may also be the state's and the county's digits of two fields.
LABEL_FIELD = "GEOID"
LABEL_FIELDS = (LABEL_FIELD, "GEOID20", "GEOID10", "GEO_ID", "GEOIDFQ", "GEOIDFQ20", "FIPS")
STATE_AND_COUNTY = (
    ("STATEFP", "COUNTYFP"),
    ("STATEFP20", "COUNTYFP20"),
    ("STATEFP10", "COUNTYFP10"),
    ("STATE", "COUNTY"),
    ("state", "county"),
)
PEOPLE_FIELD = "people"
NAME_FIELDS = ("NAME", "NAME20", "NAME10")

# What to give in the place of a file of JSON.
OF_JSON = (
    "Of a dual graph give the graph, by Graph.from_json of GerryChain or adjacency_graph of "
    "networkx. Of GeoJSON give the table that geopandas.read_file reads as the counties. What "
    "Districtr stores is a plan, for audit."
)

# A whole number, also with commas at each third digit.
WHOLE = re.compile(r"[0-9]+|[0-9]{1,3}(?:,[0-9]{3})+")

# A field, or a dict or a Series from labels to people.
People = Union[str, Mapping[Any, Any], None]
Row = Tuple[Hashable, Mapping[str, Any]]


@dataclass(frozen=True)
class County:
    """Is a county: its label, its people and its name."""

    label: Label
    people: int
    name: str


@dataclass(frozen=True, eq=False)
class CountyTable:
    """Has the counties in their order, and what was given beside them.

    `label_of` has the label for each row of a table, node of a graph or key of a dict. `frame` is
    the table that was given, or `None`. `edges` has the pairs of labels of a graph, or is `None`.
    """

    counties: tuple[County, ...]
    label_of: Mapping[Hashable, Label]
    frame: Any = None
    edges: tuple[tuple[Label, Label], ...] | None = None

    @property
    def has_shapes(self) -> bool:
        """Returns whether the table that was given has shapes."""
        return hasattr(self.frame, "geom_type")


def is_table(given: Any) -> bool:
    """Returns whether this is a table as pandas and geopandas have them."""
    return hasattr(given, "columns") and hasattr(given, "index") and hasattr(given, "to_dict")


def is_series(given: Any) -> bool:
    """Returns whether this is a column of a table, as pandas has it."""
    return hasattr(given, "index") and hasattr(given, "to_frame") and hasattr(given, "items")


def is_graph(given: Any) -> bool:
    """Returns whether this is a graph as networkx and GerryChain have them."""
    return hasattr(given, "nodes") and hasattr(given, "edges")


def read_counties(
    given: Any, people: People = None, label: str | None = None, name: str | None = None
) -> CountyTable:
    """Returns the counties of a table, a graph, a dict, or a Series of people.

    `label`, `people` and `name` are the columns of a table, or the attributes of a node or of a
    value. `people` may also be a dict from labels to people. Raises `InputError` if a field isn't
    there, if people are no whole number, or if `given` is something else.
    """
    rows = rows_of(given)
    counties = _counties_of(rows, people, label, name)
    label_of = {key: county.label for (key, _), county in zip(rows, counties)}
    return CountyTable(
        tuple(counties),
        label_of,
        frame=given if is_table(given) else None,
        edges=_edges_of(given, label_of) if is_graph(given) else None,
    )


def rows_of(given: Any) -> list[Row]:
    """Returns the rows of a table, the nodes of a graph, or the items of a dict or a Series.

    Raises `InputError` if it is something else.
    """
    if is_table(given):
        return _rows_of_table(given)
    if is_graph(given):
        return [(plain(node), dict(given.nodes[node])) for node in given.nodes]
    if isinstance(given, Mapping) or is_series(given):
        return [_row_of_item(plain(key), value) for key, value in given.items()]
    if isinstance(given, (str, os.PathLike)):
        raise InputError(_told_of_path(os.fspath(given)))
    told = f"{type(given).__name__} is no table, no graph, no dict and no Series of counties"
    raise InputError(f"{told}: see `help(countygroups.solve)`.")


def _told_of_path(path: str) -> str:
    """Returns the words that say by what a file is read, whose path was given as the counties."""
    first = first_sign(path)
    if first == "[":
        told = f"{path} is a path of JSON, and no counties: by rows = json.load(open(path))"
        return f"{told} give pandas.DataFrame(rows[1:], columns=rows[0])."
    if first == "{":
        return f"{path} is a path of JSON, and no counties. {OF_JSON}"
    told = f"{path} is a path, and no counties: read it by geopandas.read_file, pandas.read_csv"
    return f"{told}, pandas.read_excel, read_census or read_people."


def first_sign(path: str) -> str:
    """Returns the first sign of a text that isn't blank, or nothing if there is no such file."""
    try:
        with open(path, "rb") as file:
            return file.read(64).decode("utf-8-sig", errors="replace").lstrip()[:1]
    except OSError:
        return ""


def _rows_of_table(table: Any) -> list[Row]:
    """Returns the rows of a table: the index, and the values of the columns but for shapes."""
    shapes = table.geometry.name if hasattr(table, "geom_type") else None
    columns = {field: table[field].tolist() for field in table.columns if field != shapes}
    return [
        (plain(key), {field: values[place] for field, values in columns.items()})
        for place, key in enumerate(table.index)
    ]


def _row_of_item(key: Hashable, value: Any) -> Row:
    """Returns the row of an item of a dict, whose value is a dict or the people."""
    return (key, value) if isinstance(value, Mapping) else (key, {PEOPLE_FIELD: value})


def _edges_of(graph: Any, label_of: Mapping[Hashable, Label]) -> tuple[tuple[Label, Label], ...]:
    """Returns the edges of a graph as pairs of labels."""
    return tuple((label_of[plain(edge[0])], label_of[plain(edge[1])]) for edge in graph.edges)


def _counties_of(
    rows: Sequence[Row], people: People, label: str | None, name: str | None
) -> list[County]:
    """Returns the county of each row."""
    if not rows:
        raise InputError("There is no county.")
    labels = _labels_of(rows, label)
    names = _column(rows, name, *NAME_FIELDS) or labels
    if people is not None and not isinstance(people, str):
        number_of = {plain(one): number for one, number in people.items()}
        numbers = [number_of.get(one) for one in labels]
    else:
        found = _column(rows, people, PEOPLE_FIELD)
        if found is None:
            raise InputError(_no_people(rows))
        numbers = found
    return [
        County(one, whole_people(one, number), str(named))
        for one, number, named in zip(labels, numbers, names)
    ]


def _no_people(rows: Sequence[Row]) -> str:
    """Returns the words that say that no field has the people, and which fields there are."""
    fields = [str(field) for field in rows[0][1]]
    known = f" The fields are {', '.join(fields)}." if fields else ""
    return f'There is no "{PEOPLE_FIELD}": say by people= where the people stand.{known}'


def _labels_of(rows: Sequence[Row], asked: str | None) -> list[Label]:
    """Returns the label of each row: that of a field, or of two, or else the row's key."""
    found = _column(rows, asked, *LABEL_FIELDS)
    if found is None:
        found = next(filter(None, (_joined(rows, *pair) for pair in STATE_AND_COUNTY)), None)
    return [plain(one) for one in (found or [key for key, _ in rows])]


def _joined(rows: Sequence[Row], state: str, county: str) -> list[Any] | None:
    """Returns the GEOIDs of a field of states and one of counties, or `None` if they have none.

    Raises `InputError` if a row is that of a whole state.
    """
    codes = []
    for key, attributes in rows:
        parts = [str(plain(attributes.get(field, ""))) for field in (state, county)]
        if not (parts[0].isdecimal() and parts[1].isdecimal()):
            return None
        codes.append(f"{parts[0]:0>2}{parts[1]:0>3}")
        if codes[-1].endswith("000"):
            raise InputError(f"Row {key!r} is that of a state, not of a county: leave it out.")
    return codes if all(len(code) == 5 for code in codes) else None


def _column(rows: Sequence[Row], asked: str | None, *usual: str) -> list[Any] | None:
    """Returns the values of a field: that which is asked, or else the first usual one.

    Returns `None` if none was asked and no row has a usual one. Raises `InputError` if a row lacks
    the field.
    """
    fields = [asked] if asked else list(usual)
    field = next((one for one in fields if any(one in row for _, row in rows)), None)
    if field is None:
        if asked is None:
            return None
        raise InputError(f'There is no column or attribute "{asked}".')
    for key, attributes in rows:
        if field not in attributes:
            raise InputError(f'County {key!r} has no "{field}".')
    return [attributes[field] for _, attributes in rows]


def whole_people(label: Label, value: Any) -> int:
    """Returns the people of a county as a whole number. Raises `InputError` if it is none."""
    number = plain(value)
    if isinstance(number, str) and WHOLE.fullmatch(number.strip()):
        number = int(number.replace(",", ""))
    if isinstance(number, float) and math.isfinite(number) and number.is_integer():
        number = int(number)
    if not isinstance(number, int) or isinstance(number, bool) or number < 0:
        told = f"The people of county {label!r} are {value!r}, which is no whole number"
        is_heading = isinstance(number, str) and not any(sign.isdigit() for sign in number)
        remedy = ": if this is a second heading, leave that row out" if is_heading else ""
        raise InputError(f"{told}{remedy}.")
    return number
