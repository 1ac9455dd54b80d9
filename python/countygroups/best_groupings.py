"""All best groupings of a problem."""
from __future__ import annotations

from collections.abc import Sequence
from typing import overload

from . import files, texts
from .codes import Label
from .groups import Group, Grouping, ListedGroup, Region
from .problem import Problem, Stored

# The checker counts its steps. A certificate bounds them, so that this number stops nobody.
UNBOUNDED = str(2**64 - 1)


def sets_of(grouping: Sequence[Group]) -> set[frozenset[Label]]:
    """Returns the sets of counties of a grouping."""
    return {frozenset(group.counties) for group in grouping}


class BestGroupings(Sequence[Grouping]):
    """Has all best groupings, in the order of their numbers.

    Place 0 is the grouping that the program calls number 1. All are asked of the program at once,
    when the first of them is needed. `shared` has the groups of all of them, and `regions` the
    choices.
    """

    def __init__(self, problem: Problem, certificate: str) -> None:
        self._problem = problem
        self._certificate = certificate
        self._people = {county.label: county.people for county in problem.counties}
        self._found: list[Grouping] | None = None
        listing = texts.read_list(self._list([]).run.output)
        self._number = listing.number
        self.shared = tuple(self._listed(one) for one in listing.shared)
        self.regions = tuple(self._region(one) for one in listing.regions)

    def __len__(self) -> int:
        """Returns how many best groupings there are."""
        return self._number

    @overload
    def __getitem__(self, place: int) -> Grouping:
        ...

    @overload
    def __getitem__(self, place: slice) -> Sequence[Grouping]:
        ...

    def __getitem__(self, place: int | slice) -> Grouping | Sequence[Grouping]:
        """Returns the grouping of a place, or those of a slice."""
        if isinstance(place, slice):
            return [self[one] for one in range(*place.indices(len(self)))]
        at = place + len(self) if place < 0 else place
        if not 0 <= at < len(self):
            raise IndexError(f"There are {len(self)} best groupings, and none at place {place}.")
        return self._all()[at]

    def number_of(self, grouping: Sequence[Group]) -> int:
        """Returns the number of a grouping, from 1, by its sets alone.

        Raises `ValueError` if it is no best grouping.
        """
        wanted = sets_of(grouping)
        for number, one in enumerate(self._all(), 1):
            if sets_of(one) == wanted:
                return number
        raise ValueError("No best grouping has these groups.")

    def _list(self, words: list[str]) -> Stored:
        """Runs `list` with more words."""
        whole = ["--certificate", files.CERTIFICATE, "--budget", UNBOUNDED, *words]
        return self._problem.run("list", whole, {files.CERTIFICATE: self._certificate})

    def _all(self) -> list[Grouping]:
        """Returns all groupings, by the program's table of all of them."""
        if self._found is None:
            stored = self._list(["--groupings", files.GROUPINGS])
            coded = texts.read_groupings(stored.texts[files.GROUPINGS])
            self._found = [tuple(self._group(*one) for one in groups) for groups in coded]
        return self._found

    def _group(self, seats: int, codes: tuple[str, ...]) -> Group:
        """Returns a group by its labels."""
        labels = self._labels(codes)
        return Group(labels, seats, sum(self._people[label] for label in labels))

    def _labels(self, codes: tuple[str, ...]) -> tuple[object, ...]:
        """Returns the labels of codes."""
        return tuple(self._problem.codes.label_of[code] for code in codes)

    def _listed(self, group: texts.CodedGroup) -> ListedGroup:
        """Returns a group of the list by its labels."""
        return ListedGroup(self._labels(group.codes), group.least, group.most, group.people)

    def _region(self, alternatives: list[list[texts.CodedGroup]]) -> Region:
        """Returns a region by its labels."""
        codes = sorted(code for group in alternatives[0] for code in group.codes)
        listed = tuple(tuple(self._listed(one) for one in groups) for groups in alternatives)
        return Region(self._labels(tuple(codes)), listed)
