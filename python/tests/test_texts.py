"""Tests what is read of the objects that the program writes with --json."""
from __future__ import annotations

import unittest

from countygroups import texts
from countygroups.texts import CodedFinding, CodedGroup, NotUnderstood

GROUP = '{"seats":{"least":2,"greatest":3},"people":9,"counties":["37001","37003"]}'


class Texts(unittest.TestCase):
    """Reads an object of each form."""

    def test_reports(self) -> None:
        text = '{"answer":"best","counts":[0,1],"groups":[{"group":1,"seats":2,"people":9,'
        text += '"counties":["37001","37003"]}],"names":{"37001":"Do\u00f1a \\"Ana\\""}}\n'
        report = texts.read_report(text)
        self.assertEqual((report.answer, report.counts), ("best", (0, 1)))
        self.assertEqual(report.groups, [CodedGroup(("37001", "37003"), 9, 2, 2)])
        for text in ('{"answer":"open","steps":1,"groups":null}', '{"answer":"impossible"}'):
            report = texts.read_report(text)
            self.assertEqual((report.counts, report.groups), ((), []))

    def test_list(self) -> None:
        region = f'{{"region":1,"alternatives":[{{"alternative":1,"groups":[{GROUP}]}}]}}'
        text = f'{{"answer":"all","best_groupings":2,"shared_groups":[],"regions":[{region}]}}'
        found = texts.read_list(text)
        wanted = [[[CodedGroup(("37001", "37003"), 9, 2, 3)]]]
        self.assertEqual((found.number, found.shared, found.regions), (2, [], wanted))

    def test_sizes(self) -> None:
        sizes = '{"county":"37001","people":5,"seats":null}'
        text = f'{{"answer":"sizes","district":{{"least":1,"greatest":2}},"sizes":[{sizes}]}}'
        found = texts.read_sizes(text)
        self.assertEqual((found.district, found.seats), ((1, 2), {"37001": None}))

    def test_verdicts(self) -> None:
        found = texts.read_verdict('{"answer":"lawful","greater_counts":[2,1]}')
        self.assertEqual((found.answer, found.fault, found.greater), ("lawful", "", (2, 1)))
        found = texts.read_verdict('{"message":"fault NotConnected group 3"}')
        self.assertEqual((found.answer, found.fault), ("", "NotConnected group 3"))

    def test_findings(self) -> None:
        findings = [
            '{"finding":"Grouping","fault":"NotConnected group 2"}',
            '{"finding":"Unassigned","block":"370010201001000"}',
            '{"finding":"Crosses","district":"1","sets":[{"group":1},{"withdrawn":2}]}',
            '{"finding":"WrongNumber","set":{"group":1},"seats":2,"districts":0}',
            '{"finding":"DistrictSize","district":"1","people":94}',
        ]
        found = texts.read_findings(f'{{"answer":"findings","findings":[{",".join(findings)}]}}')
        wanted = [
            ("Grouping", "NotConnected group 2"),
            ("Unassigned", "370010201001000"),
            ("Crosses", "1 group 1 withdrawn 2"),
            ("WrongNumber", "group 1 seats 2 districts 0"),
            ("DistrictSize", "1 people 94"),
        ]
        self.assertEqual(found, [CodedFinding(kind, tuple(line.split())) for kind, line in wanted])

    def test_what_is_no_answer(self) -> None:
        text = '{"message":"refused geo BadCode line 3"}'
        self.assertFalse(texts.has_answer(text))
        self.assertEqual(texts.message_of(text), "refused geo BadCode line 3")
        self.assertEqual(texts.message_of("memory\n"), "memory")
        for wrong in ("", "answer best\n", '{"answer":"sizes"}', "[1]"):
            with self.assertRaises(NotUnderstood):
                texts.read_report(wrong)


if __name__ == "__main__":
    unittest.main()
