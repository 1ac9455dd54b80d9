"""A map of a grouping, by geopandas and matplotlib."""
from __future__ import annotations

from typing import TYPE_CHECKING, Any, Mapping

from .shapes import union_of
from .tables import OWN

if TYPE_CHECKING:
    from .answer import Answer

# From light to dark, so that neighbours differ in grey, too.
COLOURS = ("#fff6cc", "#b5d9f2", "#e59b3c", "#8579c2", "#8fd0a0", "#d6708c")
BOX = {"boxstyle": "round", "facecolor": "white"}


def colours_of(places: list[int]) -> list[str]:
    """Returns the colour of each place. Behind the last one the first follows again."""
    return [COLOURS[place % len(COLOURS)] for place in places]


def draw(answer: Answer, frame: Any, words: Mapping[str, Any]) -> Any:
    """Draws the groups of `frame` with their borders and seats, and returns the axes."""

    def column(name: str) -> Any:
        """Returns a column of the groups, which has another name beside one of the user's."""
        return frame[OWN + name if OWN + name in frame.columns else name]

    asked = {"edgecolor": "#555555", "linewidth": 0.4, "figsize": (14, 6), **words}
    axes = frame.plot(color=colours_of(column("COLOUR").tolist()), **asked)
    shapes = frame.geometry.buffer(0)
    for group in dict.fromkeys(column("GROUP").tolist()):
        is_in = column("GROUP") == group
        whole = union_of(shapes[is_in])
        type(frame.geometry)([whole]).boundary.plot(ax=axes, color="#111111", linewidth=1.6)
        place = whole.representative_point()
        seats = column("SEATS")[is_in].iloc[0]
        axes.annotate(str(seats), (place.x, place.y), ha="center", va="center", bbox=BOX)
    told = f"{answer.problem.seats} seats in {column('GROUP').nunique()} groups of counties"
    axes.set_title(told)
    axes.set_axis_off()
    return axes
