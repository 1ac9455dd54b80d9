#!/usr/bin/env python3
"""Draws the best grouping of North Carolina's Senate of 50 seats.

usage: python3 python/examples/senate.py PICTURE

It takes the files of data/nc2020 and stores PICTURE, such as senate.png. Standard output has the
answer. It needs geopandas and matplotlib.
"""
from __future__ import annotations

import sys
from pathlib import Path
from typing import Any

import geopandas
import matplotlib
import matplotlib.pyplot
from matplotlib.colors import ListedColormap

TOP = Path(__file__).resolve().parents[2]
sys.path.insert(0, str(TOP / "python"))
import countygroups  # noqa: E402

DATA = TOP / "data" / "nc2020"
# From light to dark, so that neighbours differ in grey, too.
COLOURS = ["#fff6cc", "#b5d9f2", "#e59b3c", "#8579c2", "#8fd0a0", "#d6708c"]


def counties() -> Any:
    """Returns the outlines of the counties with the people of the census of 2020."""
    census = countygroups.read_census(DATA / "nc2020geo.pl", DATA / "nc000012020.pl")
    frame = geopandas.read_file(DATA / "county_outlines.geojson")
    frame["people"] = [census[geoid]["people"] for geoid in frame["GEOID"]]
    return frame


def draw(answer: countygroups.Answer, picture: str) -> None:
    """Draws the groups with their seats, and stores the picture."""
    frame = answer.to_geodataframe()
    groups = frame.dissolve("GROUP", aggfunc={"SEATS": "first"})
    axes = frame.plot(
        "COLOUR",
        cmap=ListedColormap(COLOURS),
        vmin=0,
        vmax=5,
        edgecolor="#555555",
        linewidth=0.4,
        figsize=(14, 6),
    )
    groups.boundary.plot(ax=axes, color="#111111", linewidth=1.6)
    for place, seats in zip(groups.representative_point(), groups["SEATS"]):
        axes.annotate(
            str(seats),
            (place.x, place.y),
            ha="center",
            va="center",
            fontsize=11,
            weight="bold",
            bbox={"boxstyle": "round", "facecolor": "white"},
        )
    axes.set_title(f"North Carolina Senate: {answer.problem.seats} seats in {len(groups)} groups")
    axes.set_axis_off()
    axes.set_aspect(1.23)
    axes.figure.savefig(picture, dpi=100, bbox_inches="tight")


def main(words: list[str]) -> int:
    """Prints the answer and stores the picture."""
    if len(words) != 1 or words[0].startswith("-"):
        print(__doc__, end="", file=sys.stderr)
        return 2
    matplotlib.use("Agg")
    answer = countygroups.solve(counties(), 50)
    print(answer)
    print(f"{len(answer.best_groupings)} best groupings")
    draw(answer, words[0])
    return 0


if __name__ == "__main__":
    sys.exit(main(sys.argv[1:]))
