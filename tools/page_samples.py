"""What the tests of pages stand on: small lists, tables and records, and folders in which pages are
made."""
from __future__ import annotations

import contextlib
import csv
import hashlib
import io
import json
import os
import sys
import tempfile
import unittest
from pathlib import Path
from typing import Any, Dict, List, Tuple, Union

sys.path.insert(0, str(Path(__file__).resolve().parent))

import page as county_page  # noqa: E402
from county_table import HEADER  # noqa: E402
from sample_listings import SIX  # noqa: E402

TOP = Path(__file__).resolve().parent.parent
DATA = TOP / "data" / "nc2020"
OUTLINES = str(DATA / "county_outlines.geojson")
FILES = {"geo": "nc2020geo.pl", "segment1": "nc000012020.pl", "adjacency": "county_borders.txt"}
PEOPLE = {"37001": 100, "37003": 90, "37005": 100, "37007": 105, "37009": 105, "37011": 100}
Groups = Dict[Union[int, str], Tuple[int, List[str]]]
GROUPS: Groups = {
    1: (1, ["37001"]),
    2: (2, ["37003", "37005"]),
    3: (2, ["37007", "37009"]),
    4: (1, ["37011"]),
}
WITHDRAWN: Groups = {
    1: (1, ["37001"]),
    2: (2, ["37003", "37005"]),
    3: (2, ["37007", "37009"]),
    "W1": (1, ["37011"]),
}
SIX_WITHDRAWN = (
    SIX.replace("seats left 6\ncounties 6", "seats left 5\ncounties 5")
    .replace("counts 2 2", "counts 1 2")
    .replace("shared groups 2\ngroup seats 1 people 100 counties 37011\n", "shared groups 1\n")
)

# Two counties with the same people in a chamber of 39, which suit 19 seats and 20.
TWO: List[List[Any]] = [["37001", "", 300, 1, 20, 300], ["37003", "", 300, 2, 19, 300]]
TWO_LISTED = (
    "people 600\nchamber 39\nseats left 39\ncounties 2\nanswer all\ncounts 2\n"
    "best groupings 1\nshared groups 2\n"
    "group seats 19 to 20 people 300 counties 37001\n"
    "group seats 19 to 20 people 300 counties 37003\nevery choice\n"
)


def written(rows: list[list[Any]]) -> str:
    """Returns rows as a table's text, below its header."""
    text = io.StringIO()
    lines = csv.writer(text, lineterminator="\n")
    lines.writerow(HEADER)
    lines.writerows(rows)
    return text.getvalue()


def small_table(groups: Groups, names: dict[str, str] | None = None) -> str:
    """Returns a table of a few counties."""
    rows = []
    for label, (seats, codes) in groups.items():
        total = sum(PEOPLE[one] for one in codes)
        for code in codes:
            rows.append([code, (names or {}).get(code, ""), PEOPLE[code], label, seats, total])
    return written(sorted(rows))


def file_line(kind: str, option: str, text: bytes, name: str) -> str:
    """Returns the line of a record for a file."""
    return f"{kind} {option} {len(text)} {hashlib.sha256(text).hexdigest()} {name}"


def record_of(chamber: int | str, *more: str, withdrawn: bytes | None = None) -> str:
    """Returns a record of a run of `list` over the files of data/nc2020, perhaps with more words
    and with withdrawn sets."""
    words = [
        "list",
        "--geo",
        "nc2020geo.pl",
        "--segment",
        "nc000012020.pl",
        f"--chamber={chamber}",
        "--adjacency",
        "county_borders.txt",
        "--certificate",
        "my certificate",
        *more,
    ]
    lines = ["countygroups record 1", "version 1.0 (a kit)", *(f"word {word}" for word in words)]
    for option, name in FILES.items():
        lines.append(file_line("read", option, (DATA / name).read_bytes(), name))
    lines += [file_line("read", "withdrawn", withdrawn, "sets")] if withdrawn else []
    lines.append(file_line("read", "certificate", b"a certificate\n", "my certificate"))
    return "\n".join([*lines, "status 0", "answer all", ""])


def squares(*columns: tuple[str, int, int]) -> str:
    """Returns outlines of unit squares: a county at each of these places of a board."""
    features = [
        {
            "type": "Feature",
            "properties": {"GEOID": geoid},
            "geometry": {"type": "Polygon", "coordinates": [board_ring(x, y)]},
        }
        for geoid, x, y in columns
    ]
    return json.dumps({"type": "FeatureCollection", "features": features})


def board_ring(x: int, y: int) -> list[list[int]]:
    """Returns the ring of a unit square."""
    return [[x, y], [x + 1, y], [x + 1, y + 1], [x, y + 1], [x, y]]


class PageRoom(unittest.TestCase):
    """A folder in which pages are made."""

    def setUp(self) -> None:
        room = tempfile.TemporaryDirectory()
        self.addCleanup(room.cleanup)
        self.folder = room.name
        row = [(code, place, 30) for place, code in enumerate(PEOPLE)]
        self.squares = self.file("squares", squares(*row))

    def file(self, name: str, text: str | bytes) -> str:
        """Writes a file, and returns its path."""
        path = os.path.join(self.folder, name)
        with open(path, "wb") as file:
            file.write(text if isinstance(text, bytes) else text.encode())
        return path

    def made(
        self,
        table: str | bytes,
        listed: str,
        record: str,
        outlines: str,
        more: list[str] | None = None,
    ) -> tuple[int, str, str]:
        """Returns the status of a run, what it said, and the path of the page.

        The words of the run are the paths of its files, and those of `more`.
        """
        out = os.path.join(self.folder, "page.html")
        paths = [
            self.file("table.csv", table),
            self.file("list.txt", listed),
            outlines,
            self.file("run.record", record),
        ]
        said = io.StringIO()
        with contextlib.redirect_stderr(said):
            status = county_page.main([*paths, out, *(more or [])])
        return status, said.getvalue(), out
