"""Rows, tables and lines of a grouping."""
from __future__ import annotations

from typing import Any, Iterable

from .codes import plain
from .colours import colours_of
from .counties import LABEL_FIELD
from .errors import InputError
from .groups import Group, Grouping
from .problem import Problem

GROUP_COLUMNS = ["GROUP", "SEATS", "GROUP_POPULATION", "COLOUR"]
# What stands before the name of such a column if the user's table has one of that name.
OWN = "COUNTYGROUPS_"


def rows_of(problem: Problem, groups: Grouping) -> list[dict[str, Any]]:
    """Returns a row for each county, in the order of the counties.

    A group is a number, so that a legend sorts it. With withdrawn sets all are texts.
    """
    sets = [*groups, *problem.withdrawn]
    names: list[Any] = list(range(1, len(groups) + 1))
    if problem.withdrawn:
        names = [str(number) for number in names]
        names += [f"W{number}" for number in range(1, len(problem.withdrawn) + 1)]
    colours = colours_of(sets, problem.adjacency.neighbours())
    set_of: dict[Any, dict[str, Any]] = {}
    for one, named, colour in zip(sets, names, colours):
        values = dict(zip(GROUP_COLUMNS, [named, one.seats, one.people, colour]))
        set_of.update({label: values for label in one.counties})
    first = [LABEL_FIELD, "NAME", "POPULATION"]
    return [
        {**dict(zip(first, [county.label, county.name, county.people])), **set_of[county.label]}
        for county in problem.counties
    ]


def grouping_lines(problem: Problem, groups: Iterable[Group]) -> list[str]:
    """Returns the lines of a grouping text."""
    code_of = problem.codes.code_of
    return ["|".join([str(one.seats), *map(code_of.__getitem__, one.counties)]) for one in groups]


def frame_of(problem: Problem, rows: list[dict[str, Any]]) -> Any:
    """Returns the rows as a DataFrame: a copy of the table that was given, or a new one."""
    if problem.table.frame is None:
        import pandas

        return pandas.DataFrame(rows)
    frame = problem.table.frame.copy()
    for column in GROUP_COLUMNS:
        name = OWN + column if column in problem.table.frame.columns else column
        frame[name] = [row[column] for row in rows]
    return frame


def geo_frame_of(problem: Problem, frame: Any, shapes: Any) -> Any:
    """Returns a DataFrame as a GeoDataFrame, with the shapes of the labels if they are given."""
    if shapes is None:
        if not problem.table.has_shapes:
            raise InputError("The counties have no shapes: give shapes=, by their labels.")
        return frame
    import geopandas

    shape_of = {plain(label): shape for label, shape in shapes.items()}
    lacking = [one.label for one in problem.counties if one.label not in shape_of]
    if lacking:
        raise InputError(f"County {lacking[0]!r} has no shape.")
    ordered = [shape_of[county.label] for county in problem.counties]
    return geopandas.GeoDataFrame(frame, geometry=ordered, crs=getattr(shapes, "crs", None))
