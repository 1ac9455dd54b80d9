"""Chooses the seats of groups by their people, where a table of groups has none."""
from __future__ import annotations

import math
from dataclasses import dataclass
from fractions import Fraction
from typing import List, Sequence


@dataclass(frozen=True)
class Chamber:
    """A chamber: its seats, the people of the state, and the tolerance as a fraction to a half."""

    seats: int
    people: int
    tolerance: Fraction

    @property
    def ideal(self) -> Fraction:
        """Returns the ideal population of one district, in people."""
        return Fraction(self.people, self.seats)

    def suited(self, people: int) -> range:
        """Returns the numbers of seats that `people` suit. There may be none."""
        least = math.ceil(people / (self.ideal * (1 + self.tolerance)))
        most = math.floor(people / (self.ideal * (1 - self.tolerance)))
        return range(max(1, least), most + 1)

    def nearest(self, people: int) -> int:
        """Returns the number of seats, at least 1, whose ideal population is nearest."""
        return max(1, math.floor(people / self.ideal + Fraction(1, 2)))

    def choice(self, people: int) -> int:
        """Returns the suited number that is nearest to `people`, or the nearest if none suits."""
        suited, nearest = self.suited(people), self.nearest(people)
        return min(suited, key=lambda seats: abs(seats - nearest), default=nearest)


def choose_seats(chamber: Chamber, people: Sequence[int], is_whole: bool) -> List[int]:
    """Returns the seats of groups with `people` people.

    If `is_whole`, the groups have all counties, so that their seats should be those of the chamber.
    Where several numbers suit a group, another one is then taken as far as that helps.
    """
    seats = [chamber.choice(count) for count in people]
    if is_whole:
        fit_total(chamber, people, seats)
    return seats


def fit_total(chamber: Chamber, people: Sequence[int], seats: List[int]) -> None:
    """Changes seats by one and one within what suits, until they add up to the chamber's.

    A group comes first whose people are nearest to the changed number.
    """
    suited = [chamber.suited(count) for count in people]
    while sum(seats) != chamber.seats:
        step = 1 if sum(seats) < chamber.seats else -1
        free = [
            place
            for place, numbers in enumerate(suited)
            if seats[place] in numbers and seats[place] + step in numbers
        ]
        if not free:
            return
        best = min(free, key=lambda place: abs(people[place] / chamber.ideal - seats[place] - step))
        seats[best] += step
