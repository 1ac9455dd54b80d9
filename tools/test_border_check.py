"""Tests of `border_check.py`. The small files are made here, and need no program.

usage: python3 tools/test_border_check.py
"""
from __future__ import annotations

import contextlib
import io
import json
import os
import sys
import tempfile
import unittest
from typing import Dict, List, Optional, Tuple

TOP = os.path.dirname(os.path.dirname(os.path.abspath(__file__)))
sys.path.insert(0, os.path.join(TOP, "tools"))
import border_check  # noqa: E402

DATA = os.path.join(TOP, "data", "nc2020")
BORDERS = os.path.join(DATA, "county_borders.txt")
OUTLINES = os.path.join(DATA, "county_outlines.geojson")
FEWER = "has fewer than four fields"
PIPES = "take the adjacency file of 2023 or later, with pipes."
NO_GEOJSON = (
    "aren't GeoJSON with a list of features: export the counties as GeoJSON, by a GIS or by "
    "ogr2ogr."
)
WITHOUT_EDGE = os.path.join(DATA, "borders_without_an_edge.txt")
HEADER = "County Name|County GEOID|Neighbor Name|Neighbor GEOID|Length"

# Six counties, each a square of one degree near the equator, whose sides have some 111.2 km. A and
# B stand above C and D, so that A and D meet in a point, and so do B and C. E and F stand apart.
PLACES = {
    "10001": (0, 1),
    "10003": (1, 1),
    "10005": (0, 0),
    "10007": (1, 0),
    "10009": (4, 0),
    "10011": (6, 0),
}
NAMES = dict(zip(PLACES, ("Å County, XY", "B", "C", "D", "E", "F")))
EDGES = [("10001", "10003"), ("10001", "10005"), ("10003", "10007"), ("10005", "10007")]


def board() -> str:
    """Returns the outlines of the board as GeoJSON."""
    features = []
    for code, (x, y) in PLACES.items():
        ring = [[x, y], [x + 1, y], [x + 1, y + 1], [x, y + 1], [x, y]]
        geometry = {"type": "Polygon", "coordinates": [ring]}
        properties = {"GEOID": code, "NAME": NAMES[code]}
        features.append({"type": "Feature", "properties": properties, "geometry": geometry})
    return json.dumps({"type": "FeatureCollection", "features": features})


def census_text(lengths: Dict[Tuple[str, str], str], header: str = HEADER) -> str:
    """Returns a file in the Census Bureau's layout.

    Each county stands beside itself and beside its neighbours, and each pair stands both ways, with
    its length in `lengths`.
    """
    both = {**lengths, **{(other, one): length for (one, other), length in lengths.items()}}
    both.update({(code, code): "0" for code in PLACES})
    lines = [
        f"{NAMES.get(one, one)}|{one}|{NAMES.get(other, other)}|{other}|{length}"
        for (one, other), length in sorted(both.items())
    ]
    return "\n".join([header, *lines] if header else lines) + "\n"


def lengths_of_edges() -> Dict[Tuple[str, str], str]:
    """Returns the length of each edge of the board in metres, as a whole number or not."""
    return {pair: ("111195" if place else "111195.08") for place, pair in enumerate(EDGES)}


class Checked(unittest.TestCase):
    """Runs over files of a folder."""

    def setUp(self) -> None:
        room = tempfile.TemporaryDirectory()
        self.addCleanup(room.cleanup)
        self.room = room.name
        self.board = self.file("board.geojson", board())

    def file(self, name: str, text: str) -> str:
        """Stores a text and returns its path."""
        path = os.path.join(self.room, name)
        with open(path, "w", encoding="utf-8", newline="") as file:
            file.write(text)
        return path

    def run_over(
        self, adjacency: str, outlines: str, listed: Optional[str] = None
    ) -> Tuple[int, List[str], str]:
        """Returns the status of a run, the lines that it prints, and what it says besides."""
        out, said = io.StringIO(), io.StringIO()
        words = [adjacency, outlines, *(["--without-edge", listed] if listed else [])]
        with contextlib.redirect_stdout(out), contextlib.redirect_stderr(said):
            status = border_check.main(words)
        return status, out.getvalue().splitlines(), said.getvalue()

    def run_text(self, text: str, listed: Optional[str] = None) -> Tuple[int, List[str], str]:
        """Returns what a run over the board gives of the text of an adjacency file."""
        path = self.file("listed.txt", listed) if listed is not None else None
        return self.run_over(self.file("adjacency.txt", text), self.board, path)


class Carolina(Checked):
    """The border list of data/nc2020."""

    def test_the_files_as_they_are(self) -> None:
        status, lines, said = self.run_over(BORDERS, OUTLINES, WITHOUT_EDGE)
        told = "244 pairs: 227 with a common edge, 13 over water, 4 at a point in the outlines"
        self.assertEqual((status, lines, said), (0, [f"{told}; 0 findings"], ""))

    def test_the_list_without_burke_and_lincoln(self) -> None:
        with open(BORDERS, encoding="utf-8") as file:
            rows = file.read().splitlines(keepends=True)
        left = [row for row in rows if not {"37023", "37109"} <= set(row.split("|"))]
        self.assertEqual(len(rows) - len(left), 2)
        path = self.file("without_the_pair.txt", "".join(left))
        status, lines, _ = self.run_over(path, OUTLINES, WITHOUT_EDGE)
        found = "37023 (Burke County, NC), 37109 (Lincoln County, NC): "
        found += "not adjacent, with a common edge of 1.4 km"
        self.assertEqual((status, lines[0], len(lines)), (1, found, 2))

    def test_each_reason_is_needed(self) -> None:
        with open(WITHOUT_EDGE, encoding="utf-8") as file:
            header, *rows = file.read().splitlines(keepends=True)
        self.assertEqual(len(rows), 13 + 4)
        for place, row in enumerate(rows):
            path = self.file("reasons.txt", "".join([header, *rows[:place], *rows[place + 1 :]]))
            status, lines, _ = self.run_over(BORDERS, OUTLINES, path)
            self.assertEqual((status, len(lines)), (1, 2))
            for code in (row.split("|")[1], row.split("|")[3]):
                self.assertIn(code, lines[0])
            self.assertIn("adjacent, without a common edge and without a reason", lines[0])


class Board(Checked):
    """A board of squares, with files in the Census Bureau's layout."""

    def test_lengths_and_a_point_of_length_0(self) -> None:
        lengths = {**lengths_of_edges(), ("10001", "10007"): "0"}
        for header in (HEADER, ""):
            status, lines, said = self.run_text(census_text(lengths, header))
            told = "5 pairs: 4 with a common edge, 0 over water, 0 at a point in the outlines"
            self.assertEqual((status, lines, said), (0, [f"{told}, 1 of length 0; 0 findings"], ""))

    def test_a_file_without_lengths(self) -> None:
        text = census_text({**{pair: "" for pair in EDGES}, ("10001", "10007"): ""})
        for each in (text, text.replace("|\n", "\n"), text.replace("|\n", "|0\n")):
            status, lines, _ = self.run_text(each)
            found = "adjacent, without a common edge and without a reason"
            wanted = 1, f"10001 (Å County, XY), 10007 (D): {found}", 2
            self.assertEqual((status, lines[0], len(lines)), wanted)

    def test_a_byte_order_mark_blank_lines_and_carriage_returns(self) -> None:
        text = "\ufeff\r\n" + census_text(lengths_of_edges()).replace("\n", "\r\n\r\n")
        status, lines, said = self.run_text(text)
        self.assertEqual((status, said), (0, ""))
        self.assertTrue(lines[0].startswith("4 pairs: 4 with a common edge"))

    def test_names_in_latin_1(self) -> None:
        path = os.path.join(self.room, "latin.txt")
        with open(path, "wb") as file:
            file.write(census_text(lengths_of_edges()).encode("latin-1"))
        self.assertEqual(self.run_over(path, self.board)[0], 0)

    def test_a_pair_that_is_missing(self) -> None:
        lengths = {pair: "5" for pair in EDGES[1:]}
        status, lines, _ = self.run_text(census_text(lengths))
        found = "10001 (Å County, XY), 10003 (B): not adjacent, with a common edge of 111.2 km"
        last = "3 pairs: 3 with a common edge, 0 over water, 0 at a point in the outlines"
        self.assertEqual((status, lines), (1, [found, f"{last}; 1 finding"]))

    def test_counties_that_one_file_lacks(self) -> None:
        lengths = {**lengths_of_edges(), ("10001", "20001"): "7", ("20001", "20003"): "8"}
        status, lines, _ = self.run_text(census_text(lengths))
        self.assertEqual((status, lines[0].split(":")[0]), (0, "4 pairs"))
        text = "A|10001|A|10001|0\nA|10001|B|10003|5\nB|10003|A|10001|5\n"
        told = "1 pair: 1 with a common edge, 0 over water, 0 at a point in the outlines"
        self.assertEqual(self.run_text(text)[:2], (0, [f"{told}; 0 findings"]))

    def test_reasons(self) -> None:
        lengths = {**lengths_of_edges(), ("10001", "10007"): "4", ("10009", "10011"): "3"}
        listed = "F|10011|E|10009|over water: a sound\n"
        listed += "A|10001|D|10007|a point in the generalised shapes\n"
        status, lines, _ = self.run_text(census_text(lengths), listed)
        told = "6 pairs: 4 with a common edge, 1 over water, 1 at a point in the outlines"
        self.assertEqual((status, lines), (0, [f"{told}; 0 findings"]))

    def test_reasons_that_are_wrong(self) -> None:
        lengths = {**lengths_of_edges(), ("10009", "10011"): "3"}
        listed = "A|10001|B|10003|over water\nB|10003|C|10005|a point in the generalised shapes\n"
        listed += "E|10009|F|10011|a point in the generalised shapes\n"
        status, lines, _ = self.run_text(census_text(lengths), listed)
        wanted = [
            "listed without an edge, with one of 111.2 km",
            "listed without an edge, and not adjacent",
            "listed as a point, without a common corner",
        ]
        self.assertEqual((status, [line.split(": ")[1] for line in lines[:-1]]), (1, wanted))


class Refusals(Checked):
    """Files that can't be used, each with a sentence."""

    def refused(self, text: str, listed: Optional[str] = None) -> str:
        """Returns what is said of a file that is refused, without the folder's path."""
        status, lines, said = self.run_text(text, listed)
        self.assertEqual((status, lines), (2, []))
        return said.replace(self.room + os.sep, "")

    def test_lines(self) -> None:
        edge = "A|10001|B|10003"
        no_code = "Line 2 of adjacency.txt has a county code that isn't five digits."
        no_length = "Line 1 of adjacency.txt has a length that isn't a number."
        no_pair = "The file adjacency.txt has no pair of counties of the outlines board.geojson: "
        no_pair += PIPES
        for text, sentence in {
            f"{edge}|5\nA|10001|B\n": f"Line 2 of adjacency.txt {FEWER}: {PIPES}",
            f"{edge}|5\nA|10001|B|1003|5\n": no_code,
            f"{HEADER}\n{HEADER}\n": no_code,
            f"{edge}|long\n": no_length,
            f"{edge}|-5\n": no_length,
            "": no_pair,
            "A|20001|B|20003|5\n": no_pair,
        }.items():
            self.assertEqual(self.refused(text), sentence + "\n", text)

    def test_reasons(self) -> None:
        reasons = "`over water` or `a point in the generalised shapes`"
        no_pair = "of listed.txt has no pair, or one that stands on a line before."
        for listed, sentence in {
            "A|10001|B|10003|5\n": f"Line 1 of listed.txt has a reason that isn't {reasons}.",
            "A|10001|B|10003|over water\nB|10003|A|10001|over water\n": f"Line 2 {no_pair}",
            "A|10001|A|10001|over water\n": f"Line 1 {no_pair}",
        }.items():
            self.assertEqual(self.refused(census_text(lengths_of_edges()), listed), sentence + "\n")

    def test_files(self) -> None:
        none = os.path.join(self.room, "none")
        for adjacency, outlines, sentence in (
            (none, OUTLINES, f"The file {none} can't be read: No such file or directory."),
            (BORDERS, none, f"The outlines {none} can't be read: No such file or directory."),
            (BORDERS, BORDERS, f"The outlines {BORDERS} {NO_GEOJSON}"),
        ):
            self.assertEqual(self.run_over(adjacency, outlines), (2, [], sentence + "\n"))

    def test_words(self) -> None:
        with contextlib.redirect_stderr(io.StringIO()) as said:
            self.assertRaisesRegex(SystemExit, "2", border_check.main, ["one"])
        self.assertIn("usage:", said.getvalue())


if __name__ == "__main__":
    unittest.main(verbosity=0)
