"""Stands in for `gerrychain.updaters`."""
from __future__ import annotations

from typing import Any


class Tally:
    """Adds up an attribute of nodes by district."""

    def __init__(self, field: str, alias: str) -> None:
        self.field = field
        self.alias = alias

    def __call__(self, partition: Any) -> dict[Any, int]:
        """Returns the sum of each district of a plan."""
        sums: dict[Any, int] = {}
        for node, part in partition.assignment.items():
            sums[part] = sums.get(part, 0) + partition.graph.nodes[node][self.field]
        return sums
