"""Precincts: their counties, the graph of these, and the precincts of a group."""
from __future__ import annotations

from typing import Any, Hashable, Iterable, Iterator, Mapping, Sequence

from .codes import Label, geoid_of, plain
from .counties import PEOPLE_FIELD, County, CountyTable, People, Row, is_graph, rows_of
from .counties import whole_people
from .errors import InputError
from .shapes import union_of


class LabelFinder:
    """Finds the label of a county by what precincts have: the label, a GEOID or its last digits."""

    def __init__(self, labels: Iterable[Label]) -> None:
        """Takes the labels. Of a GEOID such as 37183 also "183" and 183 stand for the county."""
        self.found: dict[Hashable, Label] = {}
        known = list(labels)
        for label in known:
            geoid = geoid_of(label)
            if geoid:
                keys: Sequence[Hashable] = (geoid, int(geoid), geoid[2:], int(geoid[2:]))
                self.found.update(dict.fromkeys(keys, label))
        self.found.update((label, label) for label in known)

    def label(self, value: Any) -> Label | None:
        """Returns the label that `value` stands for, or `None`."""
        return self.found.get(plain(value))


def field_of(rows: Sequence[Row], field: str) -> list[Any]:
    """Returns the values of a field. Raises `InputError` if a row hasn't it or it is empty."""
    for key, attributes in rows:
        value = attributes.get(field)
        if value is None or value != value:
            raise InputError(f'Precinct {key!r} has no "{field}".')
    return [plain(attributes[field]) for _, attributes in rows]


def counties_of(given: Any, county: str, people: People) -> CountyTable:
    """Returns the counties of precincts: a graph, a table with or without shapes, or a dict.

    `county` names the field that has the county of each precinct, and `people` that of people. Of a
    graph two counties are adjacent if an edge joins precincts of them. Of a table with shapes those
    of a county are joined. Raises `InputError` if a precinct lacks a field.
    """
    rows = rows_of(given)
    if people is not None and not isinstance(people, str):
        raise InputError("With county= people= names the field of precincts that has their people.")
    labels = field_of(rows, county)
    numbers = field_of(rows, people or PEOPLE_FIELD)
    sums: dict[Label, int] = {}
    for (key, _), label, number in zip(rows, labels, numbers):
        sums[label] = sums.get(label, 0) + whole_people(key, number)
    label_of = {key: label for (key, _), label in zip(rows, labels)}
    counties = tuple(County(label, number, str(label)) for label, number in sorted_by_text(sums))
    edges = None
    if is_graph(given):
        pairs = [tuple(label_of[plain(end)] for end in edge[:2]) for edge in given.edges]
        edges = tuple((one, other) for one, other in pairs if one != other)
    frame = joined(given, county, counties) if hasattr(given, "geom_type") else None
    return CountyTable(counties, label_of, frame, edges)


def sorted_by_text(sums: Mapping[Label, int]) -> list[tuple[Label, int]]:
    """Returns labels with their people, in the order of the labels' texts."""
    return sorted(sums.items(), key=lambda item: str(item[0]))


def joined(frame: Any, county: str, counties: Sequence[County]) -> Any:
    """Returns a GeoDataFrame with the joined shapes of the precincts of each county, in order."""
    import geopandas

    shapes = frame.geometry
    is_of = {one.label: [plain(value) == one.label for value in frame[county]] for one in counties}
    whole = [union_of(shapes[is_of[one.label]]) for one in counties]
    rows = [{county: one.label, PEOPLE_FIELD: one.people} for one in counties]
    return geopandas.GeoDataFrame(rows, geometry=whole, crs=shapes.crs)


def subgraph(
    graph: Any, labels: Sequence[Label], people: int, county: str | None, field: str | None
) -> Any:
    """Returns the subgraph of the precincts of some counties.

    `county` names the attribute that has the county of a node, or is `None` if nodes are counties.
    `field` names that of people, whose sum has to be `people`, or is `None`. Raises `InputError` if
    a county has no node, if the nodes aren't connected, or if the people are others.
    """
    finder = LabelFinder(labels)
    nodes: dict[Any, Label] = {}
    for node in graph.nodes:
        label = finder.label(graph.nodes[node].get(county) if county else node)
        if label is not None:
            nodes[node] = label
    lacking = [label for label in labels if label not in set(nodes.values())]
    if lacking:
        told = f'whose "{county}" is that of' if county else "that is"
        raise InputError(f"The graph has no node {told} county {lacking[0]!r}.")
    part = graph.subgraph(list(nodes))
    apart = len(nodes) - len(list(reached(part, next(iter(nodes)))))
    if apart:
        raise InputError(f"The nodes of these counties aren't connected: {apart} lie apart.")
    if field is not None:
        found = sum(whole_people(node, graph.nodes[node].get(field)) for node in nodes)
        if found != people:
            told = f"The nodes of these counties have {found:,} people by {field!r}"
            raise InputError(f"{told}, and the group has {people:,}.")
    return part


def reached(graph: Any, start: Any) -> Iterator[Any]:
    """Yields the nodes of a graph that can be reached from `start`, which is the first."""
    seen, waiting = {start}, [start]
    while waiting:
        node = waiting.pop()
        yield node
        near = [other for other in graph.neighbors(node) if other not in seen]
        seen.update(near)
        waiting += near
