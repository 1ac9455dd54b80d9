"""Stands in for GerryChain, with the calls that gerrychain.md uses, over precincts in a row.

It is no GerryChain: a district is a run of precincts, and a step of a chain draws all anew.
"""
from __future__ import annotations

from typing import Any, Callable, Iterator, Mapping, Sequence

import networkx

from . import accept, updaters

__all__ = ["Graph", "MarkovChain", "Partition", "accept", "updaters"]


class Graph(networkx.Graph):  # type: ignore[misc]
    """Is a graph of precincts."""


class Partition:
    """Is a plan of districts: `assignment` has the district of each node."""

    def __init__(
        self, graph: Any, assignment: Mapping[Any, Any], updaters: Mapping[str, Any]
    ) -> None:
        self.graph = graph
        self.assignment = dict(assignment)
        self.updaters = updaters

    def __getitem__(self, name: str) -> Any:
        """Returns what an updater says of the plan."""
        return self.updaters[name](self)


class MarkovChain:
    """Yields as many plans as it has steps."""

    def __init__(
        self,
        proposal: Callable[[Partition], Partition],
        constraints: Sequence[Any],
        accept: Callable[[Partition], bool],
        initial_state: Partition,
        total_steps: int,
    ) -> None:
        self.proposal = proposal
        self.accept = accept
        self.state = initial_state
        self.steps = total_steps

    def __iter__(self) -> Iterator[Partition]:
        """Yields the plans, the first of which is the initial one."""
        for _ in range(self.steps):
            yield self.state
            proposed = self.proposal(self.state)
            self.state = proposed if self.accept(proposed) else self.state
