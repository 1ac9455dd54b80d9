"""Which shapes of a GeoSeries touch, by shapely."""
from __future__ import annotations

import itertools
from dataclasses import dataclass
from typing import Any, Tuple

from .errors import InputError

Bounds = Tuple[float, float, float, float]


@dataclass(frozen=True)
class Contacts:
    """Has the pairs of places of shapes that touch, the lesser first.

    `edges` has those with an edge or an area in common, `points` those with single points only.
    """

    edges: list[tuple[int, int]]
    points: list[tuple[int, int]]


def valid(shape: Any) -> Any:
    """Returns a shape of which intersections can be taken."""
    if shape.is_valid:
        return shape
    from shapely.validation import make_valid

    return make_valid(shape)


def union_of(shapes: Any) -> Any:
    """Returns the union of the shapes of a GeoSeries, by geopandas 1.0 or before."""
    return shapes.union_all() if hasattr(shapes, "union_all") else shapes.unary_union


def may_touch(one: Bounds, other: Bounds) -> bool:
    """Returns whether two boxes touch, each of west, south, east and north."""
    west, south = max(one[0], other[0]), max(one[1], other[1])
    east, north = min(one[2], other[2]), min(one[3], other[3])
    return west <= east and south <= north


def contacts_of(shapes: Any) -> Contacts:
    """Returns which shapes of a GeoSeries touch.

    Raises `InputError` if a shape is missing or empty, or is no polygon.
    """
    for place, (shape, kind) in enumerate(zip(shapes, shapes.geom_type)):
        if shape is None or shape.is_empty or kind not in ("Polygon", "MultiPolygon"):
            raise InputError(f"Row {place + 1} of the table has no polygon.")
    contacts = Contacts([], [])
    ordered = [valid(shape) for shape in shapes]
    for one, other in itertools.combinations(range(len(ordered)), 2):
        if may_touch(ordered[one].bounds, ordered[other].bounds):
            common = ordered[one].intersection(ordered[other])
            if not common.is_empty:
                (contacts.edges if common.length > 0 else contacts.points).append((one, other))
    return contacts
