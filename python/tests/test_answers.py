"""Tests of answers of the program, by figures that others published and by small problems."""
from __future__ import annotations

import subprocess
import tempfile
import unittest
from pathlib import Path
from typing import Any
from unittest import mock

import countygroups
from countygroups import CertificateError, CountyGroupsWarning, InputError, NoBestGrouping
from countygroups import ProgramError
from countygroups.best_groupings import UNBOUNDED
from countygroups.program import Program
from tests import setting
from tests.setting import needs_program, sets_of, solved_path


@needs_program
class Carolina(unittest.TestCase):
    """Tests the Senate and the House of 2020."""

    def judge(self, seats: int, counts: tuple[int, ...], number: int, name: str) -> None:
        """Compares an answer with the published figures and the number of the enacted grouping."""
        answer = countygroups.solve(setting.carolina(), seats, adjacency=setting.BORDERS)
        best = answer.best_groupings
        shared_seats = sum(group.most_seats for group in best.shared)
        self.assertEqual((answer.outcome, answer.counts), ("best", counts))
        self.assertEqual((len(best), len(best.shared), shared_seats), setting.PUBLISHED[seats])
        self.assertEqual(sum(group.seats for group in answer.groups), seats)
        self.assertEqual(best.number_of(setting.enacted(name)), number)
        self.assertEqual(len({frozenset(sets_of(one)) for one in best}), len(best))
        self.assertEqual(answer.check(), "best")

    def test_senate(self) -> None:
        self.judge(setting.SENATE, setting.SENATE_COUNTS, 6, "senate")

    def test_house(self) -> None:
        self.judge(setting.HOUSE, setting.HOUSE_COUNTS, 7, "house")

    def test_labels_that_are_names(self) -> None:
        counties = setting.carolina()
        named = {county["NAME"]: county["people"] for county in counties.values()}
        rows = [line.split("|") for line in setting.BORDERS.read_text().splitlines()[1:]]
        pairs = [(row[0].split(",")[0], row[2].split(",")[0]) for row in rows]
        answer = countygroups.solve(named, setting.HOUSE, adjacency=pairs)
        by_code = countygroups.solve(counties, setting.HOUSE, adjacency=setting.BORDERS)
        self.assertEqual(answer.counts, setting.HOUSE_COUNTS)
        name_of = {geoid: county["NAME"] for geoid, county in counties.items()}
        found = {frozenset(name_of[str(one)] for one in group.counties) for group in by_code.groups}
        self.assertEqual(sets_of(answer.groups), found)

    def test_steps_that_run_out(self) -> None:
        answer = countygroups.solve(
            setting.carolina(), setting.SENATE, adjacency=setting.BORDERS, steps=1
        )
        self.assertEqual((answer.outcome, answer.certificate), ("open", None))
        self.assertIn("steps of --steps ran out", "\n".join(answer.messages))
        with self.assertRaisesRegex(NoBestGrouping, "open"):
            answer.best_groupings.regions
        with self.assertRaisesRegex(NoBestGrouping, "ran out"):
            answer.check()


@needs_program
class SmallProblems(unittest.TestCase):
    """Tests problems that are solved by hand."""

    def test_path(self) -> None:
        answer = solved_path()
        self.assertEqual(answer.counts, (2, 1))
        self.assertEqual(sets_of(answer.groups), {frozenset(one) for one in ("C", "D", "AB")})
        self.assertEqual({group.seats: group.people for group in answer.groups}[2], 200)
        self.assertEqual(list(answer.best_groupings), [answer.grouping(1)])
        self.assertEqual(answer.best_groupings[-1:], [answer.grouping(1)])
        self.assertIn("1 seat, 100 people: A, B", str(answer))
        with self.assertRaisesRegex(InputError, "none has the number 2"):
            answer.grouping(2)

    def test_rows(self) -> None:
        first, *_, last = solved_path(withdrawn=[("D", 2)]).to_rows()
        wanted = {"GEOID": "A", "NAME": "A", "POPULATION": 50, "SEATS": 1, "GROUP_POPULATION": 100}
        self.assertEqual({key: first[key] for key in wanted}, wanted)
        self.assertEqual((last["GROUP"], last["SEATS"]), ("W1", 2))

    def test_all_withdrawn(self) -> None:
        answer = countygroups.solve({"A": 9}, 1, adjacency=[], withdrawn=[("A", 1)])
        self.assertEqual((answer.outcome, answer.counts, answer.groups), ("best", (), ()))
        self.assertEqual(answer.to_rows()[0]["GROUP"], "W1")

    def test_impossible(self) -> None:
        with self.assertWarnsRegex(CountyGroupsWarning, "No two of the 2 counties are adjacent"):
            answer = countygroups.solve({"A": 50, "B": 50}, 1, adjacency=[])
        self.assertEqual((answer.outcome, answer.groups), ("impossible", ()))
        self.assertEqual(answer.check(), "impossible")
        self.assertRaises(NoBestGrouping, answer.grouping)
        self.assertRaises(NoBestGrouping, answer.to_rows)
        self.assertRaises(NoBestGrouping, lambda: answer.best_groupings)

    def test_tolerance(self) -> None:
        people, pairs = {"A": 94, "B": 106}, [("A", "B")]
        five = countygroups.solve(people, 2, adjacency=pairs)
        ten = countygroups.solve(people, 2, adjacency=pairs, tolerance=0.1)
        self.assertEqual((five.counts, ten.counts), ((0, 1), (2,)))

    def test_ring_of_two_best_groupings(self) -> None:
        people, pairs = dict.fromkeys("ABCD", 50), ["AB", "BC", "CD", "DA"]
        ring = [(one[0], one[1]) for one in pairs]
        best = countygroups.solve(people, 2, adjacency=ring).best_groupings
        found = [sets_of(one) for one in best]
        wanted = [{frozenset("AB"), frozenset("CD")}, {frozenset("AD"), frozenset("BC")}]
        self.assertEqual(found, wanted)
        self.assertEqual((best.shared, len(best.regions)), ((), 1))
        self.assertEqual(best.regions[0].counties, ("A", "B", "C", "D"))
        self.assertEqual([len(one) for one in best.regions[0].alternatives], [2, 2])

    def test_certificate_of_another_problem(self) -> None:
        answer = solved_path()
        other = countygroups.problem_of(setting.PATH_PEOPLE, 5, adjacency=setting.PATH_PAIRS)
        with self.assertRaises(CertificateError) as raised:
            countygroups.checked(other, answer.certificate or "")
        self.assertEqual(raised.exception.status, 1)
        self.assertTrue(raised.exception.line.startswith("no TargetFault"))

    def test_words_of_the_program(self) -> None:
        cases: list[tuple[dict[str, Any], int, str]] = [
            ({"withdrawn": [("A", 1), ("A", 1)]}, 4, "99001 is A"),
            ({"withdrawn": [("A", 9)]}, 4, "refused problem"),
        ]
        for words, status, told in cases:
            with self.subTest(words=words), self.assertRaises(ProgramError) as raised:
                solved_path(**words)
            self.assertEqual(raised.exception.status, status)
            self.assertIn(told, str(raised.exception))

    def test_words_of_the_package(self) -> None:
        """No error speaks of the options of the command line."""
        cases: list[tuple[dict[str, Any], str]] = [
            ({"tolerance": "3/4"}, "has to be 0 to 1/2; 0.05 is five percent"),
            ({"tolerance": 5}, "The tolerance is 5, and has to be 0 to 1/2"),
            ({"steps": "many"}, "The steps are 'many', which is no whole number"),
            ({"steps": -1}, "The steps are -1, and have to be 0 to"),
        ]
        for words, told in cases:
            with self.subTest(words=words), self.assertRaisesRegex(InputError, told):
                solved_path(**words)
        for seats in (0, 1001):
            with self.assertRaisesRegex(InputError, "have to be 1 to 1,000"):
                countygroups.solve({"A": 1}, seats, adjacency=[])
        self.assertEqual(solved_path(steps=1e6).outcome, "best")

    def test_all_best_groupings_by_one_call(self) -> None:
        """However many there are, the program runs twice: for the list, and for all of them."""
        answer = countygroups.solve(setting.carolina(), setting.SENATE, adjacency=setting.BORDERS)
        with mock.patch.object(Program, "run", autospec=True, side_effect=Program.run) as run:
            best = answer.best_groupings
            self.assertEqual(len(list(best)), setting.PUBLISHED[setting.SENATE][0])
            best.number_of(best[-1])
        self.assertEqual(run.call_count, 2)

    def test_warning_of_the_program(self) -> None:
        """By the law of the chamber, D's people suit 2 seats, so that 1 seat is warned of."""
        with self.assertWarnsRegex(
            CountyGroupsWarning, "withdrawn: the set of 1 seat .*99004 is D"
        ):
            solved_path(withdrawn=[("D", 1)])

    def test_shown_in_a_notebook(self) -> None:
        found = solved_path(withdrawn=[("D", 2)])._repr_html_()
        self.assertIn("<td>2</td><td>1</td><td>100</td><td>A, B</td>", found)
        self.assertIn("<td>W1</td><td>2</td><td>200</td><td>D</td>", found)

    def test_saved_folder(self) -> None:
        answer = solved_path(cut=[("A", "D")], withdrawn=[("D", 2)])
        with tempfile.TemporaryDirectory() as room:
            answer.save(Path(room) / "saved")
            folder = Path(room) / "saved"
            words = (folder / "README.txt").read_text().splitlines()[-1].split()[1:]
            command = [*countygroups.find_program().command, *words]
            done = subprocess.run(command, cwd=folder, capture_output=True, check=True, text=True)
            labels = (folder / "labels.csv").read_text().splitlines()
            grouping = (folder / "grouping.txt").read_text()
        self.assertEqual(words[-2:], ["--budget", UNBOUNDED])
        self.assertIn("answer best\ncounts 1 1\n", done.stdout)
        self.assertEqual(labels[:2], ["CODE,LABEL,NAME", "99001,A,A"])
        self.assertEqual(grouping, "1|99003\n1|99001|99002\n")


if __name__ == "__main__":
    unittest.main()
