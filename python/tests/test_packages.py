"""Tests of tables and graphs, by pandas, geopandas and networkx where they are there."""
from __future__ import annotations

import importlib.util
import unittest
import warnings
from typing import Any

import countygroups
from countygroups import CountyGroupsWarning, InputError
from countygroups.adjacency import adjacency_of
from countygroups.counties import read_counties
from countygroups.shapes import contacts_of
from tests import setting
from tests.setting import needs_program, sets_of


def needs(*packages: str) -> Any:
    """Passes over a test if a package isn't there."""
    lacking = [one for one in packages if importlib.util.find_spec(one) is None]
    return unittest.skipIf(lacking, f"there is no {' and no '.join(lacking)}")


def outlines() -> Any:
    """Returns the outlines of North Carolina's counties with their people."""
    import geopandas

    frame = geopandas.read_file(setting.OUTLINES)
    people = setting.carolina()
    frame["people"] = [people[geoid]["people"] for geoid in frame["GEOID"]]
    return frame


def senate() -> countygroups.Answer:
    """Returns the answer for the Senate, by the outlines and the pairs that have no edge there."""
    added = setting.pairs_without_edge()
    return countygroups.solve(outlines(), setting.SENATE, adjacency="edges", added=added)


def square(x: int, y: int) -> Any:
    """Returns a square of side 1."""
    from shapely.geometry import Polygon

    return Polygon([(x, y), (x + 1, y), (x + 1, y + 1), (x, y + 1)])


@needs("pandas")
class Tables(unittest.TestCase):
    """Tests tables without shapes."""

    def table(self) -> Any:
        """Returns the path of four counties as a table."""
        import pandas

        people = list(setting.PATH_PEOPLE.values())
        columns = {"county": list(setting.PATH_PEOPLE), "TOTPOP": people}
        return pandas.DataFrame(columns, index=[9, 8, 7, 6])

    @needs_program
    def test_columns(self) -> None:
        words = {"people": "TOTPOP", "label": "county", "adjacency": setting.PATH_PAIRS}
        answer = countygroups.solve(self.table(), 4, **words)  # type: ignore[arg-type]
        found = answer.to_dataframe()
        self.assertEqual(answer.counts, (2, 1))
        self.assertEqual(list(found.index), [9, 8, 7, 6])
        self.assertEqual(list(found["SEATS"]), [1, 1, 1, 2])
        self.assertEqual(list(found["GROUP_POPULATION"]), [100, 100, 100, 200])
        self.assertNotIn("GROUP", self.table().columns)
        with self.assertRaisesRegex(InputError, "no shapes"):
            answer.to_geodataframe()

    def test_index_and_series(self) -> None:
        table = self.table()
        people = table.set_index("county")["TOTPOP"]
        found = read_counties(table, label="county", people=people)
        self.assertEqual(found.counties, read_counties(setting.PATH_PEOPLE).counties)
        by_index = read_counties(table, people="TOTPOP")
        self.assertEqual([county.label for county in by_index.counties], [9, 8, 7, 6])

    def test_table_of_pairs(self) -> None:
        import pandas

        table = read_counties(setting.PATH_PEOPLE)
        pairs = pandas.DataFrame(setting.PATH_PAIRS, columns=["county", "neighbour"])
        self.assertEqual(adjacency_of(pairs, table).pairs, set(setting.PATH_PAIRS))

    def test_missing_people(self) -> None:
        table = self.table()
        table.loc[8, "TOTPOP"] = None
        with self.assertRaisesRegex(InputError, "nan, which is no whole number"):
            read_counties(table, people="TOTPOP")


@needs("geopandas", "shapely", "matplotlib")
class Shapes(unittest.TestCase):
    """Tests tables with shapes."""

    def test_squares(self) -> None:
        import geopandas

        shapes = geopandas.GeoSeries([square(x, y) for x in (0, 1) for y in (0, 1)])
        found = contacts_of(shapes)
        self.assertEqual(sorted(found.edges), [(0, 1), (0, 2), (1, 3), (2, 3)])
        self.assertEqual(sorted(found.points), [(0, 3), (1, 2)])

    def test_shape_that_crosses_itself(self) -> None:
        import geopandas
        from shapely.geometry import Polygon

        crossed = Polygon([(0, 0), (1, 1), (1, 0), (0, 1)])
        found = contacts_of(geopandas.GeoSeries([crossed, square(1, 0), square(5, 5)]))
        self.assertEqual((found.edges, found.points), ([(0, 1)], []))

    def test_no_polygon(self) -> None:
        import geopandas
        from shapely.geometry import Point

        for wrong in (Point(0, 0), None):
            with self.assertRaisesRegex(InputError, "Row 2 of the table has no polygon"):
                contacts_of(geopandas.GeoSeries([square(0, 0), wrong]))

    def test_outlines_are_valid(self) -> None:
        self.assertTrue(outlines().is_valid.all())

    def test_outlines_of_carolina(self) -> None:
        """Compares with the border list, whose pairs were found by corners in common."""
        table = read_counties(outlines())
        listed = adjacency_of(setting.BORDERS, table)
        edges = adjacency_of("edges", table, added=setting.pairs_without_edge())
        with self.assertWarnsRegex(CountyGroupsWarning, "differ"):
            points = adjacency_of("points", table)
        self.assertEqual(len(edges.listed), 227)
        self.assertEqual(edges.pairs, listed.pairs)
        self.assertEqual(len(points.pairs - edges.listed), 19)
        self.assertIn("share an edge; 19 that touch in points aren't taken; 17 added", str(edges))
        self.assertIn("227 share an edge, 19 touch in points", str(points))

    @needs_program
    def test_senate(self) -> None:
        answer = senate()
        self.assertEqual(answer.counts, setting.SENATE_COUNTS)
        self.assertEqual(len(answer.best_groupings), setting.PUBLISHED[setting.SENATE][0])
        frame = answer.to_geodataframe(6)
        groups = frame.dissolve("GROUP", aggfunc={"SEATS": "first", "people": "sum"})
        self.assertEqual(len(groups), len(setting.enacted("senate")))
        self.assertEqual(groups["SEATS"].sum(), setting.SENATE)
        found = frame.groupby("GROUP")["GEOID"].agg(frozenset)
        self.assertEqual(set(found), sets_of(setting.enacted("senate")))
        colour_of = dict(zip(frame["GEOID"], frame["COLOUR"]))
        group_of = dict(zip(frame["GEOID"], frame["GROUP"]))
        for one, other in answer.adjacency.pairs:
            if group_of[str(one)] != group_of[str(other)]:
                self.assertNotEqual(colour_of[str(one)], colour_of[str(other)])

    @needs_program
    def test_shapes_of_labels(self) -> None:
        shape_of = {label: square(place, 0) for place, label in enumerate(setting.PATH_PEOPLE)}
        frame = setting.solved_path().to_geodataframe(shapes=shape_of)
        self.assertEqual(frame.geometry.area.sum(), 4)
        with self.assertRaisesRegex(InputError, "'D' has no shape"):
            setting.solved_path().to_geodataframe(shapes=dict(list(shape_of.items())[:3]))

    @needs_program
    def test_senate_by_default(self) -> None:
        """Without adjacency= the counties of North Carolina have the border list."""
        with warnings.catch_warnings():
            warnings.simplefilter("error", CountyGroupsWarning)
            answer = countygroups.solve(outlines(), setting.SENATE)
        self.assertEqual(answer.counts, setting.SENATE_COUNTS)
        self.assertEqual(len(answer.adjacency.pairs), 244)
        self.assertIn("North Carolina's border list", str(answer.adjacency))

    def test_edges_of_carolina_are_warned_of(self) -> None:
        table = read_counties(outlines())
        with self.assertWarnsRegex(CountyGroupsWarning, "lack 17 .*Dare and Tyrrell.* add 0 .none"):
            adjacency_of("edges", table)
        with warnings.catch_warnings():
            warnings.simplefilter("error", CountyGroupsWarning)
            adjacency_of("edges", table, added=setting.pairs_without_edge())

    def test_other_shapes_are_warned_of(self) -> None:
        import geopandas

        shapes = [square(x, y) for x in (0, 1) for y in (0, 1)]
        frame = geopandas.GeoDataFrame({"people": [1] * 4, "NAME": list("abcd")}, geometry=shapes)
        with self.assertWarnsRegex(CountyGroupsWarning, "over water, .*: a and d, b and c"):
            adjacency_of(None, read_counties(frame))

    @needs_program
    def test_own_columns_stay(self) -> None:
        frame = outlines().assign(GROUP="mine", COLOUR="red")
        found = countygroups.solve(frame, setting.SENATE).to_geodataframe()
        self.assertEqual(set(found["GROUP"]), {"mine"})
        self.assertEqual(set(found["COUNTYGROUPS_GROUP"]), set(range(1, 27)))
        self.assertEqual(found["SEATS"].max(), 6)

    @needs_program
    def test_precincts_with_shapes(self) -> None:
        """Two squares for each county of the path, in a row, are joined by county."""
        import geopandas

        counties = [name for name in setting.PATH_PEOPLE for _ in range(2)]
        people = [setting.PATH_PEOPLE[name] // 2 for name in counties]
        shapes = [square(place, 0) for place in range(8)]
        frame = geopandas.GeoDataFrame({"C": counties, "POP": people}, geometry=shapes)
        with self.assertWarnsRegex(CountyGroupsWarning, "over water"):
            answer = countygroups.solve(frame, 4, county="C", people="POP")
        self.assertEqual(answer.adjacency.pairs, set(setting.PATH_PAIRS))
        self.assertEqual((answer.counts, len(answer.to_geodataframe())), ((2, 1), 4))
        self.assertEqual(answer.to_geodataframe().geometry.area.sum(), 8)

    @needs_program
    def test_map(self) -> None:
        import matplotlib

        matplotlib.use("Agg")
        axes = senate().plot()
        seats = [int(text.get_text()) for text in axes.texts]
        self.assertEqual((len(seats), sum(seats)), (26, setting.SENATE))


@needs("networkx")
class Graphs(unittest.TestCase):
    """Tests graphs, among them one of a class of its own, as GerryChain has."""

    def graph(self, kind: str = "Graph") -> Any:
        """Returns the path of four counties as a graph whose nodes are numbers."""
        import networkx

        class Graph(networkx.Graph):  # type: ignore[misc]
            """Is a class of its own."""

        graph = Graph() if kind == "own" else networkx.Graph()
        for place, (label, people) in enumerate(setting.PATH_PEOPLE.items()):
            graph.add_node(place, TOTPOP=people, GEOID=label)
        graph.add_edges_from(zip(range(3), range(1, 4)))
        return graph

    @needs_program
    def test_graph(self) -> None:
        for kind in ("plain", "own"):
            answer = countygroups.solve(self.graph(kind), 4, people="TOTPOP")
            self.assertEqual(answer.counts, (2, 1))
            self.assertEqual(sets_of(answer.groups), {frozenset(one) for one in ("C", "D", "AB")})
            self.assertEqual(str(answer.adjacency), "3 pairs of the edges of the graph")

    def test_nodes_as_labels(self) -> None:
        graph = self.graph()
        for node in graph.nodes:
            del graph.nodes[node]["GEOID"]
        table = read_counties(graph, people="TOTPOP")
        self.assertEqual([county.label for county in table.counties], [0, 1, 2, 3])
        self.assertEqual(adjacency_of(None, table).pairs, {(0, 1), (1, 2), (2, 3)})

    def test_graph_of_labels(self) -> None:
        import networkx

        graph = networkx.relabel_nodes(self.graph(), dict(enumerate(setting.PATH_PEOPLE)))
        table = read_counties(setting.PATH_PEOPLE)
        self.assertEqual(adjacency_of(graph, table).pairs, set(setting.PATH_PAIRS))


if __name__ == "__main__":
    unittest.main()
