"""Colours for groups on a map: adjacent groups differ."""
from __future__ import annotations

from typing import Mapping, Sequence

from .codes import Label
from .groups import Group


def adjacent_groups(
    groups: Sequence[Group], neighbours: Mapping[Label, set[Label]]
) -> dict[int, set[int]]:
    """Returns for each place of a group the places of the groups beside it."""
    place_of = {label: place for place, group in enumerate(groups) for label in group.counties}
    near: dict[int, set[int]] = {}
    for place, group in enumerate(groups):
        around = {other for label in group.counties for other in neighbours.get(label, ())}
        near[place] = {place_of[label] for label in around if label in place_of} - {place}
    return near


def colours_of(groups: Sequence[Group], neighbours: Mapping[Label, set[Label]]) -> list[int]:
    """Returns a colour for each group, from 0 on, so that no two adjacent groups have the same.

    A group with the most colours beside it comes first, so that few colours are needed.
    """
    near = adjacent_groups(groups, neighbours)
    chosen: dict[int, int] = {}

    def taken(place: int) -> set[int]:
        """Returns the colours of the groups beside that of a place, as far as they have one."""
        return {chosen[other] for other in near[place] if other in chosen}

    while len(chosen) < len(groups):
        left = [place for place in near if place not in chosen]
        place = max(left, key=lambda one: (len(taken(one)), len(near[one]), -one))
        free = set(range(len(groups))) - taken(place)
        chosen[place] = min(free)
    return [chosen[place] for place in range(len(groups))]
