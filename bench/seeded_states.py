"""Made states of many counties, solved within the default steps: how many close.

usage: python3 bench/seeded_states.py PROGRAM [--counties N] [--jobs N] [--least]

Without --counties there are 24 problems of 128 counties: two kinds, chambers of 40, 80, 120 and 200
seats, seeds 1 to 3. KIND grid is a grid about 1.6 times as wide as high, with right and lower
neighbours, in four squares of five one diagonal, and 8 % of the links cut. KIND plane is a Delaunay
triangulation of jittered points with its long rim edges left out, and 7 % of the links cut. No cut
leaves two parts. People are log-normal with a sigma of 1.05, as in North Carolina, and at least
300. Codes stand in no order of place. The columns are those of bench/states.py.
"""
from __future__ import annotations

import argparse
import concurrent.futures
import math
import os
import random
import tempfile
from typing import Iterator

from chambers import DEFAULT_STEPS, solve_and_check, words_of

CHAMBERS = (40, 80, 120, 200)
SEEDS = (1, 2, 3)
HEADS = ["Problem", "Seats", "Answer", "Steps", "Seconds", "Lines", "Checked, seconds"]

Link = tuple[int, int]
Links = set[Link]
Point = tuple[float, float]
Corners = tuple[int, int, int]
Circle = tuple[float, float, float]
# The kind, the chamber and the seed.
Problem = tuple[str, int, int]


def is_one_part(counties: int, links: Links) -> bool:
    """Returns whether the links hold all counties together."""
    beside: list[list[int]] = [[] for _ in range(counties)]
    for one, other in links:
        beside[one].append(other)
        beside[other].append(one)
    seen, left = {0}, [0]
    while left:
        for other in beside[left.pop()]:
            if other not in seen:
                seen.add(other)
                left.append(other)
    return len(seen) == counties


def in_order(one: int, other: int) -> Link:
    """Returns a link of two counties, the lower place first."""
    return min(one, other), max(one, other)


def grid(counties: int, draw: random.Random) -> tuple[Links, int]:
    """Returns the links of a grid, and how many of a hundred are cut."""
    width = round(math.sqrt(counties * 1.6))
    links: Links = set()

    def link(one: int, other: int) -> None:
        """Links two places, if the grid has both."""
        if one < counties and other < counties:
            links.add(in_order(one, other))

    for y in range((counties + width - 1) // width):
        for x in range(width):
            at = y * width + x
            if x + 1 < width:
                link(at, at + 1)
                if draw.random() < 0.8:
                    falls = draw.random() < 0.5
                    link(*((at, at + width + 1) if falls else (at + 1, at + width)))
            link(at, at + width)
    return links, 8


def circle(corners: list[Point]) -> Circle:
    """Returns the circle through three points: its middle and the square of its radius."""
    (ax, ay), (bx, by), (cx, cy) = corners
    double = 2 * (ax * (by - cy) + bx * (cy - ay) + cx * (ay - by))
    a, b, c = ax * ax + ay * ay, bx * bx + by * by, cx * cx + cy * cy
    x = (a * (by - cy) + b * (cy - ay) + c * (ay - by)) / double
    y = (a * (cx - bx) + b * (ax - cx) + c * (bx - ax)) / double
    return x, y, (x - ax) ** 2 + (y - ay) ** 2


def edges_of(corners: Corners) -> Iterator[Link]:
    """Yields the three edges of a triangle."""
    for place in range(3):
        yield in_order(corners[place], corners[(place + 1) % 3])


def is_inside(point: Point, around: Circle) -> bool:
    """Returns whether a point is inside a circle."""
    (x, y), (middle_x, middle_y, square) = point, around
    return (x - middle_x) ** 2 + (y - middle_y) ** 2 < square


def triangles(points: list[Point]) -> list[Corners]:
    """Returns the Delaunay triangles of points in the unit square, by Bowyer and Watson."""
    count = len(points)
    spots = points + [(-10, -10), (30, -10), (-10, 30)]
    circles = {(count, count + 1, count + 2): circle(spots[count:])}
    for place, point in enumerate(points):
        times: dict[Link, int] = {}
        for corners in [it for it, around in circles.items() if is_inside(point, around)]:
            for edge in edges_of(corners):
                times[edge] = times.get(edge, 0) + 1
            del circles[corners]
        for (a, b), met in times.items():
            if met == 1:
                circles[(a, b, place)] = circle([spots[a], spots[b], spots[place]])
    return [corners for corners in circles if max(corners) < count]


def plane(counties: int, draw: random.Random) -> tuple[Links, int]:
    """Returns the links of a triangulation, and how many of a hundred are cut."""
    high = 1 / 1.6
    across, down = math.ceil(math.sqrt(counties * 1.6)), math.ceil(math.sqrt(counties / 1.6))
    spots = [(x, y) for y in range(down) for x in range(across)]
    draw.shuffle(spots)
    points: list[Point] = []
    for x, y in sorted(spots[:counties]):
        right = (x + draw.uniform(0.02, 0.98)) / across
        points.append((right, (y + draw.uniform(0.02, 0.98)) / down * high))
    links = {edge for corners in triangles(points) for edge in edges_of(corners)}
    longest = 2.5 * math.sqrt(high / counties)
    short = {(a, b) for a, b in links if math.dist(points[a], points[b]) < longest}
    return (short if is_one_part(counties, short) else links), 7


def links_of(kind: str, counties: int, draw: random.Random) -> Links:
    """Returns the links of a problem, less those that are cut. No cut leaves two parts."""
    links, cut = (grid if kind == "grid" else plane)(counties, draw)
    for link in draw.sample(sorted(links), len(links) * cut // 100):
        if is_one_part(counties, links - {link}):
            links.discard(link)
    return links


def write(folder: str, counties: int, problem: Problem) -> list[str]:
    """Writes the three files of a problem, and returns their names."""
    kind, chamber, seed = problem
    draw = random.Random(f"{kind} {counties} {chamber} {seed}")
    links = links_of(kind, counties, draw)
    codes = [37001 + 2 * place for place in range(counties)]
    draw.shuffle(codes)
    people = [max(300, int(math.exp(draw.gauss(10.5, 1.05)))) for _ in range(counties)]
    names = [os.path.join(folder, name) for name in ("geo", "segment", "adjacency")]
    texts = [
        "".join(f"||050||00|||{i}|||||37||{code % 1000:03}\n" for i, code in enumerate(codes)),
        "".join(f"||||{i}|{count}\n" for i, count in enumerate(people)),
        "".join(f"|{codes[a]}||{codes[b]}\n" for a, b in sorted(links)),
    ]
    for name, text in zip(names, texts):
        with open(name, "w", encoding="ascii") as file:
            file.write(text)
    return names


def row(asked: argparse.Namespace, problem: Problem) -> str:
    """Returns a row of the table."""
    kind, chamber, seed = problem
    program = os.path.abspath(asked.program)
    with tempfile.TemporaryDirectory() as folder:
        words = words_of(write(folder, asked.counties, problem), 37, chamber)
        cells = solve_and_check(program, words, folder, DEFAULT_STEPS, asked.least)
    return f"| {asked.counties} {kind} {seed} | {chamber} | " + " | ".join(cells) + " |"


def asked_words() -> argparse.Namespace:
    """Returns what the words of the command line ask for."""
    parser = argparse.ArgumentParser(
        description=__doc__, formatter_class=argparse.RawDescriptionHelpFormatter
    )
    parser.add_argument("program")
    parser.add_argument("--counties", type=int, default=128)
    parser.add_argument("--jobs", type=int, default=1)
    parser.add_argument("--least", action="store_true")
    return parser.parse_args()


def main() -> None:
    """Prints the table, and how many problems are closed."""
    asked = asked_words()
    print(f"| {' | '.join(HEADS)} |\n{'|---' * len(HEADS)}|")
    kinds = ("grid", "plane")
    problems = [(kind, seats, seed) for kind in kinds for seats in CHAMBERS for seed in SEEDS]
    rows = []
    with concurrent.futures.ThreadPoolExecutor(asked.jobs) as pool:
        for text in pool.map(lambda problem: row(asked, problem), problems):
            rows.append(text)
            print(text, flush=True)
    print(f"{sum('| open |' not in text for text in rows)} of {len(rows)} closed")


if __name__ == "__main__":
    main()
