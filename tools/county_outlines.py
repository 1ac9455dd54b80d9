"""Reads county outlines from GeoJSON. They are for pictures alone: which counties are adjacent for
the program is in its adjacency file.
"""
from __future__ import annotations

import json
import math
from collections.abc import Iterator
from typing import Any, Dict, List, Tuple

from refusal import Refused

Spot = Tuple[float, float]
Ring = List[Spot]
Outlines = Dict[str, List[Ring]]


def read_rings(path: str) -> Outlines:
    """Returns the rings of each county in longitude and latitude, without the last position of a
    ring, which is its first.

    Raises `Refused` if the file can't be read or used.
    """
    found: Outlines = {}
    for geoid, geometry in _features(path):
        rings = _rings(path, geoid, geometry)
        opened = [ring[:-1] if ring[0] == ring[-1] else ring for ring in rings]
        found[geoid] = found.get(geoid, []) + opened
    for geoid, rings in sorted(found.items()):
        if not rings:
            raise Refused(f"The outlines {path} have no county {geoid}.")
    return found


def read_outlines(path: str, geoids: set[str]) -> Any:
    """Returns the features of the wanted counties, each with a polygon, as a GeoJSON value."""
    found = []
    for geoid, geometry in _features(path):
        if geoid in geoids:
            _rings(path, geoid, geometry)
            found.append({"properties": {"GEOID": geoid}, "geometry": geometry})
    there = {feature["properties"]["GEOID"] for feature in found}
    for geoid in sorted(geoids - there):
        raise Refused(f"The outlines {path} have no county {geoid}.")
    return {"type": "FeatureCollection", "features": found}


def _features(path: str) -> Iterator[tuple[str, Any]]:
    """Gives the GEOID and the geometry of each feature."""
    told = f"The outlines {path} aren't GeoJSON with a list of features"
    not_geojson = Refused(f"{told}: export the counties as GeoJSON, by a GIS or by ogr2ogr.")
    try:
        with open(path, encoding="utf-8") as file:
            value = json.load(file)
    except OSError as fault:
        raise Refused(f"The outlines {path} can't be read: {fault.strerror}.") from fault
    except (ValueError, RecursionError) as fault:
        raise not_geojson from fault
    is_collection = isinstance(value, dict) and value.get("type") == "FeatureCollection"
    if not is_collection or not isinstance(value.get("features"), list):
        raise not_geojson
    for number, feature in enumerate(value["features"], 1):
        properties = feature.get("properties") if isinstance(feature, dict) else None
        if not isinstance(properties, dict) or not isinstance(properties.get("GEOID"), str):
            raise Refused(f"Feature {number} of the outlines {path} has no GEOID.")
        yield properties["GEOID"], feature.get("geometry")


def _rings(path: str, geoid: str, geometry: Any) -> List[Ring]:
    """Returns the rings of a polygon or of several. What is no polygon is refused, and so are rings
    that aren't ones."""
    try:
        of_type = {"Polygon": [geometry["coordinates"]], "MultiPolygon": geometry["coordinates"]}
        polygons = of_type[geometry["type"]]
        rings = [
            [(float(spot[0]), float(spot[1])) for spot in ring]
            for polygon in polygons
            for ring in polygon
        ]
    except (TypeError, ValueError, KeyError, IndexError) as fault:
        raise Refused(f"County {geoid} of the outlines {path} has no polygon.") from fault
    for ring in rings:
        if len(ring) < 4 or not all(math.isfinite(value) for spot in ring for value in spot):
            raise Refused(f"County {geoid} of the outlines {path} has a ring that isn't one.")
    return rings
