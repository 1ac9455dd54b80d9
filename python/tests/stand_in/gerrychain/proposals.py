"""Stands in for `gerrychain.proposals`."""
from __future__ import annotations

from typing import Any

from . import Partition
from .tree import recursive_tree_part


def recom(
    partition: Partition, pop_col: str, pop_target: float, epsilon: float, node_repeats: int
) -> Partition:
    """Returns a plan with the districts drawn anew."""
    parts: list[Any] = sorted(set(partition.assignment.values()))
    found = recursive_tree_part(partition.graph, parts, pop_target, pop_col, epsilon)
    return Partition(partition.graph, found, partition.updaters)
