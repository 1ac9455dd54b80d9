"""Tests of the inputs that users hold: columns of the Census Bureau, forms of adjacency, series.

The people and the GEOIDs are those of the path of four counties, in the layouts of these sources.
"""
from __future__ import annotations

import gzip
import importlib.util
import json
import tempfile
import unittest
import zipfile
from pathlib import Path
from typing import Any

import countygroups
from countygroups import InputError
from countygroups.adjacency import adjacency_of
from countygroups.codes import codes_of
from countygroups.counties import read_counties
from tests import setting
from tests.setting import needs_program

PEOPLE = list(setting.PATH_PEOPLE.values())
GEOIDS = ["37001", "37003", "37005", "37007"]
PATH = {("37001", "37003"), ("37003", "37005"), ("37005", "37007")}
# What the Census Bureau's API gives: a list of rows of texts, the first with the names.
API = """[["NAME","P1_001N","state","county"],
["Alder County, North Carolina","50","37","001"],["Birch County, North Carolina","50","37","003"],
["Cedar County, North Carolina","100","37","005"],
["Dogwood County, North Carolina","200","37","007"]]
"""
# The layout of the county adjacency file of before 2023: tabs, and a county only in its first line.
TABS = """"A County, NC"\t37001\t"A County, NC"\t37001
\t\t"B County, NC"\t37003
"B County, NC"\t37003\t"A County, NC"\t37001
\t\t"C County, NC"\t37005
"C County, NC"\t37005\t"D County, NC"\t37007
"""


def rows_with(**columns: list[Any]) -> dict[int, dict[str, Any]]:
    """Returns rows by number with the people and these columns."""
    rows: dict[int, dict[str, Any]] = {n: {"people": people} for n, people in enumerate(PEOPLE)}
    for name, values in columns.items():
        for place, value in enumerate(values):
            rows[place][name] = value
    return rows


class Labels(unittest.TestCase):
    """Tests the columns that have a county's code."""

    def codes(self, rows: Any) -> list[str]:
        """Returns the codes of the rows' labels."""
        labels = [county.label for county in read_counties(rows).counties]
        codes = codes_of(labels)
        return [codes.code_of[label] for label in labels]

    def test_columns_of_geoids(self) -> None:
        for name in ("GEOID", "GEOID20", "GEOID10", "FIPS"):
            self.assertEqual(self.codes(rows_with(**{name: GEOIDS})), GEOIDS)
            numbers = [int(geoid) for geoid in GEOIDS]
            self.assertEqual(self.codes(rows_with(**{name: numbers})), GEOIDS)

    def test_long_geoids(self) -> None:
        long = [f"0500000US{geoid}" for geoid in GEOIDS]
        self.assertEqual(self.codes(rows_with(GEO_ID=long)), GEOIDS)
        self.assertEqual(read_counties(rows_with(GEO_ID=long)).counties[0].label, long[0])

    def test_two_columns(self) -> None:
        counties = [geoid[2:] for geoid in GEOIDS]
        for state, county in (("STATEFP", "COUNTYFP"), ("STATEFP20", "COUNTYFP20")):
            rows = rows_with(**{state: ["37"] * 4, county: counties})
            self.assertEqual(self.codes(rows), GEOIDS)
        numbers = rows_with(STATE=[37] * 4, COUNTY=[int(one) for one in counties])
        self.assertEqual(self.codes(numbers), GEOIDS)

    def test_row_of_the_state(self) -> None:
        rows = rows_with(STATE=[37] * 4, COUNTY=[0, 1, 3, 5])
        with self.assertRaisesRegex(InputError, "Row 0 is that of a state"):
            read_counties(rows)

    def test_people_with_commas(self) -> None:
        table = read_counties({"a": "1,129,410", "b": " 12 ", "c": 7.0})
        self.assertEqual([county.people for county in table.counties], [1_129_410, 12, 7])
        for wrong in ("1,12", "12,3456", "1.129.410", "x"):
            with self.assertRaisesRegex(InputError, "no whole number"):
                read_counties({"a": wrong})

    @needs_program
    def test_census_api(self) -> None:
        names, *values = json.loads(API)
        rows = {place: dict(zip(names, row)) for place, row in enumerate(values)}
        answer = countygroups.solve(rows, 4, people="P1_001N", adjacency=PATH)
        self.assertEqual(answer.counts, (2, 1))
        self.assertIn("Alder County, North Carolina", str(answer))


class Pairs(unittest.TestCase):
    """Tests the forms of adjacency."""

    table = read_counties(dict(zip(GEOIDS, PEOPLE)))

    def pairs(self, given: Any) -> set[Any]:
        """Returns the pairs of a form."""
        return set(adjacency_of(given, self.table).pairs)

    def test_places_from_0(self) -> None:
        self.assertEqual(self.pairs([[1], [0, 2], [1, 3], [2]]), PATH)
        with self.assertRaisesRegex(InputError, "Place 4 is none of the 4 counties, from 0"):
            self.pairs([[1], [0, 2], [1, 3], [4, 2, 1]])

    def test_weights_of_libpysal(self) -> None:
        class Weights:
            """Has what weights of libpysal have: neighbours by the rows of a table."""

            neighbors = {0: [1], 1: [0, 2], 2: [1, 3], 3: [2]}
            weights = {0: [1.0], 1: [1.0, 1.0], 2: [1.0, 1.0], 3: [1.0]}

        table = read_counties(rows_with(GEOID=GEOIDS))
        self.assertEqual(adjacency_of(Weights(), table).pairs, PATH)

    def test_igraph(self) -> None:
        class Vertices(dict):  # type: ignore[type-arg]
            """Has the attributes of vertices."""

            def attributes(self) -> list[str]:
                """Returns the names of the attributes."""
                return list(self)

        class Graph:
            """Has what a graph of igraph has."""

            def __init__(self, **attributes: list[str]) -> None:
                self.vs = Vertices(attributes)

            def get_edgelist(self) -> list[tuple[int, int]]:
                """Returns the edges as pairs of places."""
                return [(0, 1), (1, 2), (2, 3)]

        self.assertEqual(self.pairs(Graph()), PATH)
        self.assertEqual(self.pairs(Graph(name=GEOIDS)), PATH)

    @unittest.skipUnless(importlib.util.find_spec("numpy"), "there is no numpy")
    def test_matrix(self) -> None:
        import numpy

        matrix = numpy.zeros((4, 4))
        for one, other in ((0, 1), (1, 2), (2, 3)):
            matrix[one, other] = matrix[other, one] = 1
        self.assertEqual(self.pairs(matrix), PATH)
        with self.assertRaisesRegex(InputError, r"shape \(3, 3\), and there are 4 counties"):
            self.pairs(matrix[:3, :3])

    def test_file_with_tabs(self) -> None:
        with tempfile.TemporaryDirectory() as room:
            path = Path(room) / "county_adjacency.txt"
            path.write_text(TABS, encoding="utf-8")
            self.assertEqual(self.pairs(path), PATH)

    def test_labels_that_a_file_does_not_take(self) -> None:
        table = read_counties({"Wake": 1, "Lee": 2})
        with self.assertRaisesRegex(InputError, "one label is 'Wake': say by label= which column"):
            adjacency_of(setting.BORDERS, table)


class CensusFiles(unittest.TestCase):
    """Tests the layouts of the PL 94-171 files, and their archives."""

    def setUp(self) -> None:
        room = tempfile.TemporaryDirectory()
        self.addCleanup(room.cleanup)
        self.room = Path(room.name)
        self.geo = setting.DATA / "nc2020geo.pl"
        self.segment = setting.DATA / "nc000012020.pl"

    def test_gzip(self) -> None:
        paths = [self.room / f"{path.name}.gz" for path in (self.geo, self.segment)]
        for path, source in zip(paths, (self.geo, self.segment)):
            path.write_bytes(gzip.compress(source.read_bytes()))
        self.assertEqual(countygroups.read_census(*paths), setting.carolina())
        paths[0].write_bytes(paths[0].read_bytes()[:1000])
        with self.assertRaisesRegex(InputError, "can't be unpacked"):
            countygroups.read_census(*paths)

    def test_archive_of_a_state(self) -> None:
        path = self.room / "nc2020.pl.zip"
        with zipfile.ZipFile(path, "w") as archive:
            archive.write(self.geo, "ncgeo2020.pl")
            archive.write(self.segment, "nc000012020.pl")
            archive.writestr("nc000022020.pl", "x")
        self.assertEqual(countygroups.read_census(path, path), setting.carolina())
        with zipfile.ZipFile(path, "a") as archive:
            archive.writestr("nc000012010.pl", "x")
        with self.assertRaisesRegex(InputError, "has 4 files, and 2 of them fit: unpack it"):
            countygroups.read_census(path, path)

    def test_layout_of_2010(self) -> None:
        """Fixed columns, by the technical documentation of 2010: COUNTY is 30-32, NAME 227-316."""
        lines, records = [], []
        for record, (geoid, people) in enumerate(zip(GEOIDS, PEOPLE), 1):
            line = list(" " * 500)
            for place, text in ((9, "050"), (12, "00"), (19, f"{record:07d}"), (28, geoid)):
                line[place - 1 : place - 1 + len(text)] = text
            line[226:240] = "Alder County  "
            lines.append("".join(line))
            records.append(f"PLST,NC,000,01,{record:07d},{people},{people}")
        geo, segment = self.room / "ncgeo2010.pl", self.room / "nc000012010.pl"
        geo.write_text("\n".join(lines), encoding="ascii")
        segment.write_text("\n".join(records), encoding="ascii")
        found = countygroups.read_census(geo, segment)
        wanted = {
            geoid: {"people": people, "NAME": "Alder County"}
            for geoid, people in zip(GEOIDS, PEOPLE)
        }
        self.assertEqual(found, wanted)


class Refusals(unittest.TestCase):
    """Tests that what isn't taken is refused with what to do."""

    def test_remedies(self) -> None:
        heading = {"a": "!!Total:", "b": "5"}
        for given, told in [
            ("counties.shp", "counties.shp is a path, .* geopandas.read_file"),
            ({"a": {"POP": 1, "NAME": "x"}}, "say by people= .* The fields are POP, NAME"),
            (heading, "is no whole number: if this is a second heading, leave that row out"),
        ]:
            with self.subTest(told=told), self.assertRaisesRegex(InputError, told):
                read_counties(given)


@unittest.skipUnless(importlib.util.find_spec("pandas"), "there is no pandas")
class Tables(unittest.TestCase):
    """Tests what pandas gives."""

    def test_series(self) -> None:
        import pandas

        series = pandas.Series(PEOPLE, index=GEOIDS)
        self.assertEqual(read_counties(series).counties, Pairs.table.counties)

    def test_table_of_the_census_api(self) -> None:
        import pandas

        names, *values = json.loads(API)
        table = read_counties(pandas.DataFrame(values, columns=names), people="P1_001N")
        self.assertEqual([county.label for county in table.counties], GEOIDS)


if __name__ == "__main__":
    unittest.main()
