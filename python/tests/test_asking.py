"""Tests of what comes after an answer: bounds, seats by county, precincts, the judge, an audit."""
from __future__ import annotations

import gzip
import json
import tempfile
import unittest
import zipfile
from fractions import Fraction
from pathlib import Path
from typing import Any

import countygroups
from countygroups import Finding, InputError, NoBestGrouping
from countygroups.plans import plan_of
from tests import setting
from tests.setting import needs_program, solved_path


class Graph:
    """Is a graph with what precincts need of networkx: nodes, edges, neighbours, subgraphs."""

    def __init__(self, nodes: dict[Any, dict[str, Any]], edges: list[tuple[Any, Any]]) -> None:
        self.nodes = nodes
        self.edges = edges

    def neighbors(self, node: Any) -> list[Any]:
        """Returns the neighbours of a node."""
        return [end for edge in self.edges if node in edge for end in edge if end != node]

    def subgraph(self, nodes: list[Any]) -> "Graph":
        """Returns the graph of these nodes."""
        kept = {node: self.nodes[node] for node in self.nodes if node in nodes}
        edges = [edge for edge in self.edges if set(edge) <= kept.keys()]
        return Graph(kept, edges)


def precincts() -> Graph:
    """Returns two precincts for each county of the path, on a line, with half of its people."""
    counties = [name for name in setting.PATH_PEOPLE for _ in range(2)]
    nodes = {
        number: {"COUNTY": name, "TOTPOP": setting.PATH_PEOPLE[name] // 2}
        for number, name in enumerate(counties)
    }
    return Graph(nodes, [(number, number + 1) for number in range(7)])


# The district of each precinct: A and B have one, C one, D two.
PLAN = {0: "ab", 1: "ab", 2: "ab", 3: "ab", 4: "c", 5: "c", 6: "d", 7: "e"}


@needs_program
class Chamber(unittest.TestCase):
    """Tests the numbers of the chamber."""

    def test_bounds(self) -> None:
        answer = solved_path()
        self.assertEqual((answer.people, answer.ideal), (400, Fraction(100)))
        self.assertEqual(answer.district_bounds, (95, 105))
        self.assertEqual(answer.group_of["B"].counties, ("A", "B"))
        self.assertEqual(answer.group_of["B"].mean, 100)

    def test_bounds_are_those_of_the_program(self) -> None:
        for seats in (setting.SENATE, setting.HOUSE):
            problem = countygroups.problem_of(setting.carolina(), seats, adjacency=setting.BORDERS)
            sizes = countygroups.size(setting.carolina(), seats)
            self.assertEqual(sizes.district, problem.district_bounds)

    def test_margins(self) -> None:
        """A group of k seats may have 95 k to 105 k people."""
        answer = solved_path()
        margins = {group.counties: answer.margin_of(group) for group in answer.groups}
        self.assertEqual(margins, {("C",): (5, 5), ("D",): (10, 10), ("A", "B"): (5, 5)})
        self.assertEqual(answer.margin_of(countygroups.Group(("A",), 1, 50)), (-45, 55))
        self.assertEqual(answer.margin_of(countygroups.Group(("D",), 1, 200)), (105, -95))

    def test_margins_are_those_of_the_program(self) -> None:
        """By `size` the seats of a county are those for which both margins are 0 or more."""
        answer = countygroups.solve(setting.carolina(), setting.HOUSE, adjacency=setting.BORDERS)
        sizes = countygroups.size(setting.carolina(), setting.HOUSE)
        for county in answer.problem.counties:
            groups = [countygroups.Group((county.label,), k, county.people) for k in range(1, 20)]
            found = [one.seats for one in groups if min(answer.margin_of(one)) >= 0]
            wanted = (found[0], found[-1]) if found else None
            self.assertEqual(sizes.seats[county.label], wanted, county.name)

    def test_no_grouping(self) -> None:
        answer = countygroups.solve({"A": 94, "B": 106}, 2, adjacency=[("A", "B")], steps=0)
        if answer.outcome != "best":
            self.assertRaises(NoBestGrouping, lambda: answer.group_of)

    def test_size(self) -> None:
        sizes = countygroups.size(setting.PATH_PEOPLE, 4)
        wanted = {"A": None, "B": None, "C": (1, 1), "D": (2, 2)}
        self.assertEqual((sizes.district, sizes.seats), ((95, 105), wanted))


@needs_program
class Precincts(unittest.TestCase):
    """Tests precincts as the counties that are given, and those of a group."""

    def test_counties_of_precincts(self) -> None:
        answer = countygroups.solve(precincts(), 4, county="COUNTY", people="TOTPOP")
        self.assertEqual(answer.counts, (2, 1))
        self.assertEqual(answer.adjacency.pairs, set(setting.PATH_PAIRS))

    def test_labels_beside_a_county(self) -> None:
        with self.assertRaisesRegex(InputError, "leave out label= and name="):
            countygroups.solve(precincts(), 4, county="COUNTY", people="TOTPOP", label="GEOID")

    def test_precinct_without_a_county(self) -> None:
        graph = precincts()
        del graph.nodes[3]["COUNTY"]
        with self.assertRaisesRegex(InputError, 'Precinct 3 has no "COUNTY"'):
            countygroups.solve(graph, 4, county="COUNTY", people="TOTPOP")

    def test_subgraph(self) -> None:
        group = solved_path().group_of["A"]
        part = group.subgraph(precincts(), "COUNTY", "TOTPOP")
        self.assertEqual(list(part.nodes), [0, 1, 2, 3])
        self.assertEqual(len(part.edges), 3)

    def test_subgraph_by_the_last_digits(self) -> None:
        group = countygroups.Group(("37001", "37003"), 1, 4)
        nodes = {place: {"COUNTYFP": county} for place, county in enumerate(("001", "003", "005"))}
        part = group.subgraph(Graph(nodes, [(0, 1), (1, 2)]), "COUNTYFP")
        self.assertEqual(list(part.nodes), [0, 1])

    def test_refused_subgraphs(self) -> None:
        group = solved_path().group_of["A"]
        whole = precincts()
        apart = Graph(whole.nodes, [edge for edge in whole.edges if edge != (1, 2)])
        with self.assertRaisesRegex(InputError, "aren't connected: 2 lie apart"):
            group.subgraph(apart, "COUNTY")
        with self.assertRaisesRegex(InputError, "whose \"PLACE\" is that of county 'A'"):
            group.subgraph(whole, "PLACE")
        whole.nodes[0]["TOTPOP"] = 26
        with self.assertRaisesRegex(InputError, "have 101 people by 'TOTPOP', and the group has 1"):
            group.subgraph(whole, "COUNTY", "TOTPOP")


@needs_program
class Judging(unittest.TestCase):
    """Tests the judge."""

    def test_best_and_lawful(self) -> None:
        answer = solved_path()
        groups = [(["A", "B"], 1), (["C"], 1), (["D"], 2)]
        verdict = countygroups.judge(groups, answer)
        self.assertEqual((verdict.outcome, verdict.greater), ("best", ()))
        verdict = countygroups.judge(groups, answer.problem)
        self.assertEqual((verdict.outcome, verdict.greater), ("lawful", ()))

    def test_greater_counts(self) -> None:
        """The best grouping of the path has two groups of one county, and one of two."""
        answer = solved_path()
        lesser = [(["A", "B", "C"], 2), (["D"], 2)]
        verdict = countygroups.judge(lesser, answer)
        self.assertEqual((verdict.outcome, verdict.fault, verdict.greater), ("lawful", "", (2, 1)))
        verdict = countygroups.judge(lesser, answer.problem)
        self.assertEqual((verdict.outcome, verdict.greater), ("lawful", ()))

    def test_enacted(self) -> None:
        answer = countygroups.solve(setting.carolina(), setting.SENATE, adjacency=setting.BORDERS)
        self.assertEqual(countygroups.judge(setting.enacted("senate"), answer).outcome, "best")

    def test_faults(self) -> None:
        answer = solved_path()
        verdict = countygroups.judge([(["A"], 1), (["B", "C"], 1), (["D"], 2)], answer)
        self.assertEqual((verdict.outcome, verdict.greater), ("fault", ()))
        self.assertTrue(verdict.fault.startswith("OutOfWindow"), verdict)
        with self.assertRaisesRegex(InputError, "no county is 'X'. A group has counties, such as"):
            countygroups.judge([(["X"], 1)], answer)

    def test_what_is_no_grouping(self) -> None:
        told = "is no grouping: give a list of the groups, each its counties and their seats, as"
        others: list[Any] = ["senate.grouping", Path("groups.csv"), Table()]
        for given in others:
            with self.assertRaisesRegex(InputError, told):
                countygroups.judge(given, solved_path())


@needs_program
class Audits(unittest.TestCase):
    """Tests audits of plans of precincts."""

    def audit(self, plan: Any, **words: Any) -> tuple[Finding, ...]:
        """Audits a plan of the precincts."""
        whole: dict[str, Any] = {"precincts": precincts(), "people": "TOTPOP", "county": "COUNTY"}
        return countygroups.audit(plan, solved_path(), **{**whole, **words})

    def test_nothing_is_found(self) -> None:
        self.assertEqual(self.audit(PLAN), ())
        with tempfile.TemporaryDirectory() as room:
            path = Path(room) / "plan.json"
            path.write_text(json.dumps({"assignment": PLAN}), encoding="utf-8")
            self.assertEqual(self.audit(path), ())
            self.assertEqual(self.audit(str(path)), ())

    def test_district_across_two_groups(self) -> None:
        found = self.audit({**PLAN, 4: "ab"})
        self.assertEqual({one.kind for one in found}, {"Crosses", "WrongNumber", "DistrictSize"})
        crossing = next(one.told for one in found if one.kind == "Crosses")
        self.assertTrue(crossing.startswith("ab group "), crossing)
        sizes = [one.told for one in found if one.kind == "DistrictSize"]
        self.assertEqual(sorted(sizes), ["ab people 150", "c people 50"])

    def test_precinct_without_a_district(self) -> None:
        plan = {unit: district for unit, district in PLAN.items() if unit != 7}
        self.assertIn(Finding("Unassigned", "7"), self.audit(plan))
        self.assertIn(Finding("Unassigned", "7"), self.audit({**PLAN, 7: None}))

    def test_refused(self) -> None:
        told = "names 'x', which is no precinct: it takes nodes, keys or the table's index, such as"
        with self.assertRaisesRegex(InputError, told):
            self.audit({**PLAN, "x": "c"})
        other = precincts()
        other.nodes[0]["TOTPOP"] = 26
        with self.assertRaisesRegex(InputError, "of A have 51 people, and the county has 50"):
            self.audit(PLAN, precincts=other)


class Table:
    """Has what a table of pandas has, as far as it is looked at."""

    columns = index = to_dict = ()


class Partition:
    """Has what a partition of GerryChain has: the districts by node."""

    def __init__(self, assignment: dict[Any, Any]) -> None:
        self.assignment = assignment


class Plans(unittest.TestCase):
    """Tests the forms of a plan. In files the nodes of the graph are texts."""

    texts = {str(unit): district for unit, district in PLAN.items()}

    def setUp(self) -> None:
        room = tempfile.TemporaryDirectory()
        self.addCleanup(room.cleanup)
        self.room = Path(room.name)

    def of_file(self, name: str, held: str | bytes) -> Any:
        """Returns the plan of a file of this name."""
        path = self.room / name
        path.write_bytes(held.encode() if isinstance(held, str) else held)
        return plan_of(path, PLAN)

    def zipped(self, **members: str) -> bytes:
        """Returns a zip archive of texts."""
        path = self.room / "made.zip"
        with zipfile.ZipFile(path, "w") as archive:
            for name, text in members.items():
                archive.writestr(name, text)
        return path.read_bytes()

    def test_objects(self) -> None:
        parsed = {"assignment": self.texts, "idColumn": {"key": "id"}}
        for given in (PLAN, Partition(PLAN), self.texts, parsed, {"plan": parsed}):
            self.assertEqual(plan_of(given, PLAN), PLAN)

    def test_units_without_a_district(self) -> None:
        nones: list[Any] = [None, float("nan"), "", "ZZZ", "unassigned", []]
        for none in nones:
            self.assertEqual(plan_of({0: none, 1: [4]}, PLAN), {0: None, 1: 4})

    def test_json_of_districtr(self) -> None:
        parsed = {"assignment": self.texts, "placeId": "x"}
        for held in (parsed, {"plan": parsed}):
            self.assertEqual(self.of_file("plan.json", json.dumps(held)), PLAN)
        for wrong in ('{"assignment": [1]}', "[[1]]", '{"nodes": []}'):
            with self.assertRaisesRegex(InputError, 'without the "assignment" .*: give a CSV'):
                self.of_file("plan.json", wrong)
        with self.assertRaisesRegex(InputError, "begins as JSON, .* Export it again, or as CSV"):
            self.of_file("plan.json", '{"assignment": {')

    def test_texts(self) -> None:
        for mark in ",;|\t":
            lines = "".join(f"{unit}{mark}{district}\n" for unit, district in PLAN.items())
            for head in ("", f"GEOID20{mark}District\n", f"\ufeffBLOCKID{mark}DISTRICT\n"):
                for end in ("\n", "\r\n", "\r"):
                    text = (head + lines).replace("\n", end)
                    self.assertEqual(self.of_file("plan.txt", text), PLAN, text)
        text = "a,b\n" + "".join(f'"{unit}","{district}"\n' for unit, district in PLAN.items())
        self.assertEqual(self.of_file("plan.csv.gz", gzip.compress(text.encode())), PLAN)
        self.assertEqual(self.of_file("plan.zip", self.zipped(plan=text)), PLAN)

    def test_refused_files(self) -> None:
        several = self.zipped(BlockAssign_SLDL="1,2", BlockAssign_SLDU="1,2")
        workbook = self.zipped(**{"xl/workbook.xml": "<x/>"})
        wrong: list[tuple[str | bytes, str]] = [
            (several, "has 2 files: unpack it, .* They are BlockAssign_SLDL, BlockAssign_SLDU"),
            (workbook, "is a workbook: save its sheet as CSV"),
            (several[:60], "can't be read: "),
            (gzip.compress(b"0,ab")[:-9], "can't be read: "),
            (b"SQLite format 3\0", "is no text in UTF-8: export it as CSV"),
            ("0,ab\n1,ab,x\n", "has 3 columns, .*: give a Series, as pandas.read_csv"),
            ("id,d\n", "has no line of a precinct below its header: export the plan"),
            ("0,ab\n0,c\n", "has '0' in two districts: leave one of its lines"),
            ("0,ab\n9,c\n", "names '9', which is no precinct: it takes nodes, keys or"),
        ]
        for held, told in wrong:
            with self.subTest(told=told), self.assertRaisesRegex(InputError, told):
                self.of_file("plan", held)
        with self.assertRaisesRegex(InputError, "nowhere can't be read: No such file"):
            plan_of(self.room / "nowhere", PLAN)

    def test_refused_objects(self) -> None:
        for given, told in [
            (Table(), "A table is no plan: give its column of districts, with the precincts as"),
            (["ab"], "list is no plan: give a dict or a Series from precincts to districts"),
            ({0: ["ab", "c"]}, "has a precinct in the districts .*: give it one"),
        ]:
            with self.subTest(told=told), self.assertRaisesRegex(InputError, told):
                plan_of(given, PLAN)


if __name__ == "__main__":
    unittest.main()
