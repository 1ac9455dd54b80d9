"""Groups of counties, by their labels."""
from __future__ import annotations

from dataclasses import dataclass
from fractions import Fraction
from typing import Any, Tuple

from . import precincts
from .codes import Label


@dataclass(frozen=True)
class Group:
    """Is a group of a grouping, or a withdrawn set: its counties, its seats and its people."""

    counties: tuple[Label, ...]
    seats: int
    people: int

    @property
    def mean(self) -> Fraction:
        """Returns the people of one seat of the group.

        The law doesn't bound a district by this number but by the ideal population of the chamber:
        `Answer.district_bounds` has the bounds.
        """
        return Fraction(self.people, self.seats)

    def subgraph(self, graph: Any, county: str | None = None, people: str | None = None) -> Any:
        """Returns the subgraph of the precincts of the group, of networkx or GerryChain.

        `county` names the attribute that has the county of a node: its label, or of a GEOID the
        last three digits, too. Without it the nodes are the counties. `people` names the attribute
        of people. Raises `InputError` if a county has no node, if the nodes aren't connected, or if
        their people aren't those of the group.
        """
        return precincts.subgraph(graph, self.counties, self.people, county, people)


@dataclass(frozen=True)
class ListedGroup:
    """Is a group of a list: its counties, its people, and the least and most seats that they suit.

    The two numbers of seats are nearly always the same.
    """

    counties: tuple[Label, ...]
    least_seats: int
    most_seats: int
    people: int


Grouping = Tuple[Group, ...]
Alternative = Tuple[ListedGroup, ...]


@dataclass(frozen=True)
class Region:
    """Has the counties for which there is a choice, and what best groupings choose from."""

    counties: tuple[Label, ...]
    alternatives: tuple[Alternative, ...]
