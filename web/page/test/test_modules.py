"""Modules of the page by themselves, run by Node."""
from __future__ import annotations

import json
import subprocess
import unittest
from typing import Any

from page_setting import TOP

from installed import program_there

MODULES = TOP / "web" / "page"


def given_by(module: str, names: str, script: str) -> Any:
    """Returns what the expression `script` gives with names of a module."""
    address = json.dumps((MODULES / module).as_uri())
    words = f"import {{ {names} }} from {address}; console.log(JSON.stringify({script}))"
    done = subprocess.run(
        [program_there("node"), "--input-type=module", "-e", words],
        capture_output=True,
        check=True,
    )
    return json.loads(done.stdout)


# What `judge` says of a lawful grouping of two counties: without a certificate; with one that has
# greater counts (docs/reference/formats.md, "The report"), which ends with status 1; and of a
# fault, with status 1, too.
HEAD = "people 100\nchamber 2\nseats left 2\ncounties 2\n"
LAWFUL = f"{HEAD}answer lawful\ncounts 0 1\ngroup 1 seats 2 people 100 counties 37001 37003\n"
GREATER = f"{LAWFUL}greater counts 2\n"
FAULT = "fault NotConnected group 1\n"
GEOGRAPHY = """{
  counties: [{ geoid: "37001", name: "A", people: 50 }, { geoid: "37003", name: "B", people: 50 }],
  placeOf: new Map([["37001", 0], ["37003", 1]]), borders: [], total: 100 }"""


def judged(status: int, output: str) -> Any:
    """Returns what the page takes of the program's words on the enacted groups."""
    chamber = '{ key: "x", enacted: "2|37001|37003\\n" }'
    page = f"{{ geography: {GEOGRAPHY}, census: {{ enactedYear: 2023, chambers: [{chamber}] }} }}"
    base = '{ key: "x", name: "X", seats: 2, tolerance: [1, 20] }'
    what_if = "{ sets: [], added: new Set(), cut: new Set() }"
    found = (
        f"{{ geography: {GEOGRAPHY}, status: 0, certificate: new Uint8Array(1), words: [],"
        " files: new Map(), report: { counts: [2] } }"
    )
    run = f"async () => ({{ status: {status}, output: {json.dumps(output)}, errors: '' }})"
    script = f"await judgedEnacted({page}, {base}, {what_if}, {found}, {run})"
    return given_by("enacted.mjs", "judgedEnacted", script)


def read(name: str, *texts: str) -> list[Any]:
    """Returns what a reader of the page takes of texts that the program prints."""
    return [given_by("program_texts.mjs", name, f"{name}({json.dumps(it)})") for it in texts]


# What the program prints of one problem in both forms: lines, and the object of `--json`.
COUNTIES = ["37001", "37003"]
GROUP = {"group": 1, "seats": 2, "people": 100, "counties": COUNTIES}
HEAD_OBJECT: dict[str, Any] = {
    "people": 100,
    "chamber": 2,
    "tolerance": [1, 20],
    "seats_left": 2,
    "counties": 2,
}
RUN = {"least": 1, "greatest": 2}
LISTED = {"seats": RUN, "people": 60, "counties": ["37001"]}
LIST = """answer all
people 100
chamber 2
window 1 20
seats left 2
counties 2
counts 2
best groupings 2
group seats 1 to 2 people 60 counties 37001
region 1 counties 37003
alternative 1
group seats 1 people 40 counties 37003
alternative 2
group seats 1 people 40 counties 37003
grouping 1 alternatives 1
grouping 2 alternatives 2
number 2
"""
SMALL = {"seats": {"least": 1, "greatest": 1}, "people": 40, "counties": ["37003"]}
LIST_OBJECT: dict[str, Any] = {
    "answer": "all",
    **HEAD_OBJECT,
    "counts": [2],
    "best_groupings": 2,
    "shared_groups": [LISTED],
    "regions": [
        {
            "region": 1,
            "counties": ["37003"],
            "alternatives": [{"alternative": it, "groups": [SMALL]} for it in (1, 2)],
        }
    ],
    "every_choice": False,
    "groupings": [{"grouping": it, "alternatives": [it]} for it in (1, 2)],
    "number": 2,
    "names": {},
}
FINDINGS = """answer findings
Grouping NotConnected group 2
UnknownBlock 370010201001000
Crosses 7 group 1 withdrawn 2
WrongNumber group 3 seats 2 districts 1
DistrictSize 7 people 94
"""
FINDINGS_OBJECT = [
    {"finding": "Grouping", "fault": "NotConnected group 2"},
    {"finding": "UnknownBlock", "block": "370010201001000"},
    {"finding": "Crosses", "district": "7", "sets": [{"group": 1}, {"withdrawn": 2}]},
    {"finding": "WrongNumber", "set": {"group": 3}, "seats": 2, "districts": 1},
    {"finding": "DistrictSize", "district": "7", "people": 94},
]


class BothForms(unittest.TestCase):
    """What the program prints is read alike, in lines and as the object of `--json`."""

    def test_a_report(self) -> None:
        object_ = {"answer": "lawful", **HEAD_OBJECT, "counts": [0, 1], "groups": [GROUP]}
        lines, read_object = read("readReport", LAWFUL, json.dumps(object_) + "\n")
        self.assertEqual(read_object, lines)
        groups = [{"seats": 2, "people": 100, "codes": COUNTIES}]
        wanted = {"answer": "lawful", "seatsLeft": 2, "counts": [0, 1], "groups": groups}
        self.assertEqual(lines, wanted)
        fault, read_object = read("readReport", FAULT, json.dumps({"message": FAULT.strip()}))
        self.assertEqual((fault, read_object["answer"]), (read_object, ""))

    def test_a_list(self) -> None:
        lines, read_object = read("readList", LIST, json.dumps(LIST_OBJECT))
        self.assertEqual(read_object, lines)
        self.assertEqual(lines["combinations"], [[0], [1]])
        self.assertEqual(read("readWhich", LIST, json.dumps(LIST_OBJECT)), [2, 2])
        other = {**LIST_OBJECT, "every_choice": True, "number": None}
        self.assertIsNone(read("readList", json.dumps(other))[0]["combinations"])
        self.assertEqual(read("readWhich", json.dumps(other), "number none\n"), [0, 0])

    def test_sizes(self) -> None:
        rows = [{"county": it, "people": 50, "seats": RUN} for it in COUNTIES]
        object_ = {"answer": "sizes", "people": 100, "sizes": rows}
        table = "".join(f"{it}|50|1|2\n" for it in COUNTIES)
        lines, read_object = read("readSizes", table, json.dumps(object_))
        self.assertEqual(read_object, lines)
        self.assertEqual(lines, [{"geoid": it, "people": 50} for it in COUNTIES])

    def test_findings(self) -> None:
        object_ = {"answer": "findings", "findings": FINDINGS_OBJECT}
        lines, read_object = read("readFindings", FINDINGS, json.dumps(object_))
        self.assertEqual(read_object, lines)
        self.assertEqual(len(lines), 5)

    def test_messages(self) -> None:
        texts = (FAULT, json.dumps({"message": FAULT.strip()}) + "\n")
        self.assertEqual(read("messageOf", *texts), [FAULT.strip()] * 2)


class Modules(unittest.TestCase):
    """What needs no browser."""

    def test_the_enacted_groups_beside_a_certificate(self) -> None:
        lesser = "They have no groups of one county; a best grouping has two."
        for status, output in ((1, GREATER), (0, LAWFUL)):
            with self.subTest(output):
                wanted = {"verdict": "lawful", "why": lesser}
                self.assertEqual(judged(status, output), wanted)
        best = judged(0, LAWFUL.replace("answer lawful", "answer best"))
        self.assertEqual(best, {"verdict": "best", "why": ""})
        wanted = {
            "verdict": "not lawful",
            "why": "A touches none of the others in the group of B.",
        }
        self.assertEqual(judged(1, FAULT), wanted)

    def test_what_deciding_borders_leave(self) -> None:
        rows = [
            "COUNTY,NEIGHBOR,BEST_GROUPINGS,COUNTS,CHANGES,GROUPING",
            ",9,4,0 2,nothing,best",
            "37001,37003,2,0 2,best groupings,best",
            "37003,37005,2,0 2,best groupings,not lawful",
            "37001,37005,4,1 0 1,counts,not lawful",
            "37005,37007,0,impossible,counts; best groupings,not lawful",
            "37001,99999,2,0 2,best groupings,best",
        ]
        placed = 'new Map([["37001", 0], ["37003", 1], ["37005", 2], ["37007", 3]])'
        script = f"decidingOf({{ placeOf: {placed} }}, {json.dumps(chr(10).join(rows))})"
        found = given_by("deciding_borders.mjs", "decidingOf", script)
        self.assertEqual(found["tried"], 9)
        kinds = [(one["pair"], one["kind"]) for one in found["borders"]]
        wanted = [([0, 1], "with"), ([1, 2], "without"), ([0, 2], "counts"), ([2, 3], "none")]
        self.assertEqual(kinds, wanted)

    def test_a_lost_zero_is_mended(self) -> None:
        table = '{ header: ["a", "b"], block: 0, district: 1, firstLine: 1, rows }'
        lines = given_by(
            "block_plan.mjs",
            "planOf",
            f'((rows) => planOf({table}, "01").lines)([["10010201001000", "1"]])',
        )
        self.assertEqual(lines, "010010201001000|1\n")

    def test_the_line_of_a_fault(self) -> None:
        good, bad = "371830501001000,1", "37183050100100,2"
        for line, rows in ((2, [good, bad]), (3, ["GEOID20,District", good, bad])):
            text = json.dumps("\n".join([*rows, ""]))
            told = given_by(
                "block_plan.mjs",
                "planOf, planTable",
                f"await planTable(new Blob([{text}])).then((table) => planOf(table, '37'))"
                ".catch((fault) => fault.message)",
            )
            self.assertIn(f"line {line}, has “37183050100100”", told)

    def test_borders_by_both_line_ends(self) -> None:
        placed = 'new Map([["37001", 0], ["37003", 1]])'
        for end in ("\\n", "\\r\\n"):
            script = f'bordersOf({{ placeOf: {placed} }}, "A|37001|B|37003{end}")'
            self.assertEqual(given_by("geography.mjs", "bordersOf", script), [[0, 1]])

    def test_outlines_of_many_corners(self) -> None:
        ring = (
            "Array.from({ length: 150001 }, (_, at) => at * Math.PI / 75000)"
            ".map((turn) => [Math.cos(turn) - 80, Math.sin(turn) + 35])"
        )
        geography = '{ counties: [{}], placeOf: new Map([["37001", 0]]), borders: [] }'
        shape = f'{{ type: "Polygon", coordinates: [{ring}] }}'
        features = f'{{ features: [{{ id: "37001", geometry: {shape} }}] }}'
        script = f'sheetOf({geography}, {features}, "a").boxes[0].map(Math.round)'
        left, top, wide, _ = given_by("sheet.mjs", "sheetOf", script)
        self.assertEqual((left, top), (18, 34))
        self.assertGreater(wide, 900)
