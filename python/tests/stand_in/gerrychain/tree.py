"""Stands in for `gerrychain.tree`, over precincts in a row."""
from __future__ import annotations

from typing import Any, Sequence


def recursive_tree_part(
    graph: Any, parts: Sequence[Any], pop_target: float, pop_col: str, epsilon: float
) -> dict[Any, Any]:
    """Returns a district of `parts` for each node: runs of nodes whose people are near the target.

    Raises `RuntimeError` if such runs aren't found.
    """
    low, high = pop_target * (1 - epsilon), pop_target * (1 + epsilon)
    found: dict[Any, Any] = {}
    left = list(parts)
    people = 0
    for node in sorted(graph.nodes):
        if people >= low and len(left) > 1:
            left, people = left[1:], 0
        people += graph.nodes[node][pop_col]
        if people > high:
            raise RuntimeError("no district ends here")
        found[node] = left[0]
    if len(left) != 1 or people < low:
        raise RuntimeError("the last district has too few people")
    return found
