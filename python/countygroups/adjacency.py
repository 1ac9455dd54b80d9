"""Which counties are adjacent, and where that comes from."""
from __future__ import annotations

import os
from dataclasses import dataclass
from pathlib import Path
from typing import Any, Iterable, Mapping, Sequence

from . import borders, shapes
from .borders import Pair, carried_borders, names_of
from .codes import Label, geoid_of, plain
from .counties import CountyTable, is_graph, is_table
from .errors import InputError, warn

# What `adjacency` may say of shapes.
BY_EDGES = "edges"
BY_POINTS = "points"


@dataclass(frozen=True)
class Adjacency:
    """Has pairs of adjacent counties, each in the order of the counties, and where they are from.

    `listed` has the pairs of the source, which `source` says in words. `added` and `cut` are the
    pairs that were then added and cut.
    """

    listed: frozenset[Pair]
    source: str
    added: tuple[Pair, ...] = ()
    cut: tuple[Pair, ...] = ()

    @property
    def pairs(self) -> frozenset[Pair]:
        """Returns the pairs that count: the listed and the added ones without the cut ones."""
        return (self.listed | frozenset(self.added)) - frozenset(self.cut)

    def __str__(self) -> str:
        """Returns the number of pairs and where they come from, in words."""
        changes = [
            f"{len(pairs)} {word}" for pairs, word in ((self.added, "added"), (self.cut, "cut"))
        ]
        told = f"; {' and '.join(changes)}" if self.added or self.cut else ""
        return f"{len(self.listed)} pairs {self.source}{told}"

    def neighbours(self) -> dict[Label, set[Label]]:
        """Returns for each county that has any the adjacent ones."""
        found: dict[Label, set[Label]] = {}
        for one, other in self.pairs:
            found.setdefault(one, set()).add(other)
            found.setdefault(other, set()).add(one)
        return found


class _Order:
    """Puts pairs of labels into the order of the counties."""

    def __init__(self, table: CountyTable) -> None:
        self.table = table
        self.places = {county.label: place for place, county in enumerate(table.counties)}

    def pair(self, given: Any) -> Pair:
        """Returns a pair in order. Raises `InputError` if it isn't one of two counties."""
        if isinstance(given, str) or not hasattr(given, "__len__") or len(given) != 2:
            raise InputError(f"{given!r} is no pair of counties.")
        one, other = (plain(label) for label in given)
        for label in (one, other):
            if label not in self.places:
                raise InputError(f"The pair {one!r}, {other!r}: no county is {label!r}.")
        return (one, other) if self.places[one] <= self.places[other] else (other, one)

    def pairs(self, given: Iterable[Any]) -> list[Pair]:
        """Returns pairs in order, each once, without a county beside itself."""
        found = dict.fromkeys(self.pair(one) for one in given)
        return [pair for pair in found if pair[0] != pair[1]]


@dataclass(frozen=True)
class _Found:
    """Has pairs of labels, and where they come from in words.

    If `are_seen`, they are of shapes, or of a graph that may be. `points` has the pairs of shapes
    that touch in points alone and aren't taken.
    """

    pairs: Iterable[Any]
    source: str
    are_seen: bool = False
    points: tuple[Pair, ...] = ()


def adjacency_of(
    given: Any, table: CountyTable, added: Iterable[Any] = (), cut: Iterable[Any] = ()
) -> Adjacency:
    """Returns which counties of `table` are adjacent.

    `given` is "edges" or "points" for the shapes of the table, a path of a file in the layout of
    the Census Bureau's county adjacency file, a graph of labels (of networkx or igraph), weights of
    libpysal, a dict from labels to their neighbours, a square matrix of numpy or a list of lists of
    neighbours' places from 0 in the order of the counties, or pairs of labels, also as a table of
    two columns. If it is `None`, a graph has its edges, the counties of North Carolina the list of
    this package, and other shapes their edges.

    Warns by name of each pair in which shapes or a graph of North Carolina's counties differ from
    that list, of what other shapes can't show, and if no two counties are adjacent. Raises
    `InputError` if there are no pairs, or if a pair names no county.
    """
    order = _Order(table)
    found = _pairs_of(given, table)
    whole = Adjacency(
        frozenset(order.pairs(found.pairs)),
        found.source,
        tuple(order.pairs(added)),
        tuple(order.pairs(cut)),
    )
    if found.are_seen:
        _warn_of_seen(whole, found, order)
    if len(table.counties) > 1 and not whole.pairs:
        warn(f"No two of the {len(table.counties)} counties are adjacent.")
    return whole


def _warn_of_seen(adjacency: Adjacency, found: _Found, order: _Order) -> None:
    """Warns of pairs that shapes or a graph lack or add, or else of what shapes can't show."""
    known = carried_borders(order.table)
    if known is not None:
        listed, cut = frozenset(order.pairs(known)), frozenset(adjacency.cut)
        lacking = listed - adjacency.pairs - cut
        more = adjacency.listed - listed - cut - frozenset(adjacency.added)
        if lacking or more:
            told = f"The pairs {found.source} differ from North Carolina's border list"
            names = [names_of(pairs, order.table) for pairs in (lacking, more)]
            more_told = f"they lack {len(lacking)} ({names[0]}) and add {len(more)} ({names[1]})"
            warn(f"{told}: {more_told}. Without adjacency= the list is taken for a table.")
    elif found.source.startswith("of the shapes"):
        told = "Shapes don't show which counties meet over water"
        if found.points:
            touching = names_of(found.points, order.table)
            told += f", and pairs that touch in points aren't taken: {touching}"
        warn(f"{told}. Compare the pairs with a list, or give the list by adjacency=.")


def _pairs_of(given: Any, table: CountyTable) -> _Found:
    """Returns pairs of labels, and where they come from."""
    if given is None:
        return _usual_pairs(table)
    if isinstance(given, str) and given in (BY_EDGES, BY_POINTS):
        return _pairs_of_shapes(table, given)
    if isinstance(given, (str, os.PathLike)):
        path = os.fspath(given)
        return _Found(_pairs_of_file(path, table), f"of {os.path.basename(path)}")
    if is_table(given):
        columns = [given[column].tolist() for column in given.columns[:2]]
        return _Found(zip(*columns), "of a table of pairs")
    if is_graph(given):
        return _Found([edge[:2] for edge in given.edges], "of the edges of a graph", True)
    if hasattr(given, "get_edgelist"):
        return _Found(_pairs_of_igraph(given, table), "of the edges of a graph", True)
    if hasattr(given, "neighbors") and hasattr(given, "weights"):
        return _Found(_pairs_of_dict(given.neighbors, table), "of weights of libpysal", True)
    if isinstance(given, Mapping):
        return _Found(_pairs_of_dict(given, table), "of a dict of neighbours")
    if hasattr(given, "shape") and hasattr(given, "nonzero"):
        return _Found(_pairs_of_matrix(given, table), "of a matrix")
    if isinstance(given, Iterable):
        return _pairs_of_list(list(given), table)
    raise InputError(f"{type(given).__name__} says nothing of which counties are adjacent.")


def _usual_pairs(table: CountyTable) -> _Found:
    """Returns the edges of the graph that was given, or carried pairs, or those of the shapes."""
    if table.edges is not None:
        return _Found(table.edges, "of the edges of the graph", True)
    known = carried_borders(table)
    if known is not None:
        return _Found(known, borders.WORDS)
    if table.has_shapes:
        return _pairs_of_shapes(table, BY_EDGES)
    raise InputError("There are no shapes and no graph: say by adjacency= which counties meet.")


def _pairs_of_shapes(table: CountyTable, kind: str) -> _Found:
    """Returns the pairs whose shapes have an edge in common, or also a point."""
    if not table.has_shapes:
        raise InputError(f'adjacency="{kind}" takes shapes, and the counties have none.')
    contacts = shapes.contacts_of(table.frame.geometry)
    edges, points = (_labelled(one, table) for one in (contacts.edges, contacts.points))
    if kind == BY_POINTS:
        told = f"of the shapes: {len(edges)} share an edge, {len(points)} touch in points"
        return _Found(edges + points, told, True)
    told = f"of the shapes, which share an edge; {len(points)} that touch in points aren't taken"
    return _Found(edges, told, True, tuple(points))


def _labelled(places: Iterable[tuple[int, int]], table: CountyTable) -> list[Pair]:
    """Returns pairs of places from 0 as pairs of labels. Raises `InputError` for another place."""
    labels = [county.label for county in table.counties]
    found = [(int(one), int(other)) for one, other in places]
    for place in (one for pair in found for one in pair):
        if not 0 <= place < len(labels):
            raise InputError(f"Place {place} is none of the {len(labels)} counties, from 0.")
    return [(labels[one], labels[other]) for one, other in found]


def _pairs_of_dict(given: Mapping[Any, Any], table: CountyTable) -> list[Pair]:
    """Returns the pairs of a dict of neighbours, by labels or else by rows of the table."""
    labels = {county.label for county in table.counties}

    def label(key: Any) -> Label:
        """Returns the label that a key is or stands for."""
        one: Label = plain(key)
        return one if one in labels else table.label_of.get(one, one)

    return [(label(one), label(other)) for one, others in given.items() for other in others]


def _pairs_of_igraph(graph: Any, table: CountyTable) -> list[Pair]:
    """Returns the edges of a graph of igraph, by the names of its vertices or by their places."""
    pairs: list[tuple[int, int]] = graph.get_edgelist()
    if "name" not in graph.vs.attributes():
        return _labelled(pairs, table)
    names = graph.vs["name"]
    return [(names[one], names[other]) for one, other in pairs]


def _pairs_of_matrix(given: Any, table: CountyTable) -> list[Pair]:
    """Returns the pairs of a square matrix, whose rows are the counties in their order."""
    count = len(table.counties)
    if tuple(given.shape) != (count, count):
        told = f"The matrix has the shape {tuple(given.shape)}, and there are {count} counties"
        raise InputError(f"{told}: it takes a row and a column for each.")
    rows, columns = given.nonzero()
    return _labelled(zip(rows.tolist(), columns.tolist()), table)


def _pairs_of_list(given: list[Any], table: CountyTable) -> _Found:
    """Returns the pairs of a list: pairs of labels, or for each county its neighbours' places."""
    are_lists = all(isinstance(one, (list, tuple, set)) for one in given)
    are_places = are_lists and all(
        isinstance(plain(place), int) for others in given for place in others
    )
    labels = {county.label for county in table.counties}
    are_labels = are_lists and all(len(one) == 2 and labels.issuperset(one) for one in given)
    if len(given) != len(labels) or not are_places or are_labels:
        return _Found(given, "of a list of pairs")
    places = [(one, plain(other)) for one, others in enumerate(given) for other in others]
    return _Found(_labelled(places, table), "of a list of neighbours")


def _pairs_of_file(path: str, table: CountyTable) -> list[Pair]:
    """Returns the pairs of an adjacency file whose counties are both listed.

    Raises `InputError` if the file can't be read, or if the labels are no GEOIDs.
    """
    label_of = {geoid_of(county.label): county.label for county in table.counties}
    if None in label_of:
        other = next(one.label for one in table.counties if geoid_of(one.label) is None)
        told = f"An adjacency file takes GEOIDs such as 37183 as labels, and one label is {other!r}"
        raise InputError(f"{told}: say by label= which column has the GEOIDs.")
    try:
        found = borders.pairs_of_file(Path(path))
    except OSError as fault:
        raise InputError(f"The adjacency file {path} can't be read: {fault.strerror}.") from fault
    if not any(geoid_of(one) for one, _ in found):
        told = "has a county's GEOID as the second field, at pipes or tabs"
        remedy = "put these there, or give pairs of labels. Unpack what is packed. Of shapes give"
        shapes_told = "the table that geopandas.read_file reads as the counties"
        raise InputError(f"No line of {path} {told}: {remedy} {shapes_told}.")
    listed = [pair for pair in found if pair[0] in label_of and pair[1] in label_of]
    return [(label_of[one], label_of[other]) for one, other in listed]
