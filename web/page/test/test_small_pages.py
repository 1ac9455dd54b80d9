"""Pages that tools/page.py makes of a few squares, opened in a browser."""
import itertools
from pathlib import Path
from unittest import mock

import page_file
import page as county_page
from page_setting import SETTING, STATES, InPage, native, run
from native_texts import GROUP_OF
from page_samples import GROUPS, PEOPLE, SIX_WITHDRAWN, TWO, TWO_LISTED, WITHDRAWN, PageRoom
from page_samples import record_of, small_table, squares, written

from installed import NotThere
from sample_listings import SIX


class Small(InPage, PageRoom):
    """Pages of a few squares."""

    def setUp(self) -> None:
        InPage.setUp(self)
        PageRoom.setUp(self)

    def show(self, table: str, listed: str, record: str, mark: str = "") -> None:
        """Makes a page and opens it."""
        status, said, out = self.made(table, listed, record, self.squares)
        self.assertEqual((status, said), (0, ""))
        self.open(mark, Path(out))

    def test_a_small_page(self) -> None:
        self.show(small_table(GROUPS), SIX, record_of(6))
        self.assertIn("North Carolina’s chamber of 6: 2\u00a0best ways", self.text("#title"))
        self.assertEqual(self.text("#option"), "Option 1 of 2")
        self.assertEqual(
            self.stored("grouping"), b"1|37001\n1|37011\n2|37003|37005\n2|37007|37009\n"
        )
        self.press_button("#next")
        self.assertEqual(
            self.stored("grouping"), b"1|37005\n1|37011\n2|37001|37003\n2|37007|37009\n"
        )
        self.assertEqual(self.text("nav").split("\n")[:2], ["The answer", "The proof"])
        hidden = ("[data-view=whatif]", "[data-download=certificate]")
        self.value("document.querySelector('#downloads').open = true; null")
        for selector in hidden:
            script = f"document.querySelector('{selector}').getClientRects().length"
            self.assertFalse(self.value(script), selector)
        self.check_quiet()

    def test_names_with_signs(self) -> None:
        names = {
            "37001": "A <b>\"x\"</b> & 'y'",
            "37003": "</script><script>alert(1)</script>",
            "37005": "<!--",
            "37007": 'x" onload="y',
        }
        self.show(small_table(GROUPS, names), SIX, record_of(6))
        shown = self.text("#table")
        for name in names.values():
            self.assertIn(name, shown)
        self.assertEqual(self.value("document.querySelectorAll('#table td b b').length"), 0)
        self.check_quiet()

    def test_words_and_files_with_signs(self) -> None:
        name = "a <b> & 'c\" \\x0A\\xE2\\x80\\xAEd"
        record = record_of(6).replace("word my certificate", f"word {name}")
        self.show(small_table(GROUPS), SIX, record.replace(" my certificate", f" {name}"), "#proof")
        told = self.value("document.querySelector('#run').textContent")
        self.assertIn("a <b> & 'c\" ", told)
        self.assertEqual(self.value("document.querySelectorAll('#run b, #commands b').length"), 0)
        self.check_quiet()

    def test_a_withdrawn_set(self) -> None:
        record = record_of(6, "--withdrawn", "sets", withdrawn=b"1|37011\n")
        self.show(small_table(WITHDRAWN), SIX_WITHDRAWN, record)
        self.assertIn("37011: 1 seat, 100 people.", self.text("#taken"))
        self.assertIn("One set of counties was taken out beforehand.", self.text("#deck"))
        self.assertEqual(self.value("document.querySelectorAll('#map .taken').length"), 1)
        self.assertIn(b"37011,,100,W1,1,100\n", self.stored("csv"))
        self.check_quiet()

    def test_no_choice(self) -> None:
        listed = SIX.split("region 1")[0].replace("best groupings 2", "best groupings 1")
        listed = listed.replace("shared groups 2", "shared groups 4")
        listed += (
            "group seats 1 people 100 counties 37001\n"
            "group seats 2 people 190 counties 37003 37005\nevery choice\n"
        )
        self.show(small_table(GROUPS), listed, record_of(6))
        self.assertIn("the one best way", self.text("#title"))
        self.assertTrue(self.value("document.querySelector('#choices').hidden"))
        self.check_quiet()

    def test_not_every_choice(self) -> None:
        listed = SIX.replace(
            "every choice\n", "grouping 1 alternatives 2\ngrouping 2 alternatives 1\n"
        )
        self.show(small_table(GROUPS), listed, record_of(6))
        self.assertIn("Not every combination", self.text("#choices-intro"))
        self.assertEqual(self.text("#option"), "Option 2 of 2")
        self.press_button("#cards input:not(:checked)")
        self.assertEqual(self.text("#option"), "Option 1 of 2")
        self.check_quiet()

    def test_another_tolerance(self) -> None:
        listed = SIX.replace("chamber 6\n", "chamber 6\nwindow 1 8\n")
        self.show(small_table(GROUPS), listed, record_of(6, "--part", "2", "--of=16"))
        self.assertIn("within 12.5 percent of the ideal", self.text("#deck"))
        self.go("#proof")
        told = self.value("document.querySelector('#commands').textContent")
        self.assertIn("--part 2", told)
        self.assertIn("--of 16", told)
        self.check_quiet()

    def test_several_numbers_of_seats(self) -> None:
        self.show(written(TWO), TWO_LISTED, record_of(39))
        self.assertEqual(self.stored("grouping"), b"20|37001\n19|37003\n")

    def test_all_counties_are_withdrawn(self) -> None:
        people = sum(PEOPLE.values())
        listed = (
            f"people {people}\nchamber 6\nseats left 0\ncounties 0\nanswer all\ncounts none\n"
            "best groupings 1\nshared groups 0\nevery choice\n"
        )
        table = small_table({"W1": (6, list(PEOPLE))})
        self.show(table, listed, record_of(6, "--withdrawn=sets", withdrawn=b"6|..\n"))
        self.assertEqual(self.text("#table-head"), "All 0 groups")
        self.check_quiet()


def census_of(people: dict[str, int]) -> tuple[str, str]:
    """Returns geographic header and segment 1 of counties and blocks with people by their codes."""
    geo, segment = "", ""
    for record, (code, count) in enumerate(people.items(), 1):
        fields = [""] * 97
        fields[2], fields[4] = "050" if len(code) == 5 else "750", "00"
        fields[7], fields[9], fields[12], fields[14] = str(record), code, "37", code[2:5]
        geo += "|".join(fields) + "\n"
        segment += f"PLST|NC|000|01|{record}|{count}\n"
    return geo, segment


class Carried(InPage, PageRoom):
    """Pages that carry their files and the program."""

    def setUp(self) -> None:
        InPage.setUp(self)
        PageRoom.setUp(self)

    def made_of(self, words: list[str]) -> Path:
        """Returns a page of the problem that these words name, on a board of squares."""
        native()
        if not SETTING.wasm.is_file():
            raise NotThere("there is no program for browsers (--wasm)")
        kinds = ("certificate", "table", "record")
        stored = {kind: str(Path(self.folder) / kind) for kind in kinds}
        words = [*words, "--certificate", stored["certificate"]]
        run("solve", *words, "--table", stored["table"], "--record", stored["record"])
        table = Path(stored["table"]).read_text(encoding="utf-8")
        codes = [line[:5] for line in table.split("\n")[1:] if line]
        board = squares(*((code, at % 10, 30 + at // 10) for at, code in enumerate(codes)))
        record = Path(stored["record"]).read_text(encoding="utf-8")
        with mock.patch.object(county_page, "WASM", SETTING.wasm):
            status, said, out = self.made(
                table, run("list", *words), record, self.file("board", board)
            )
        self.assertEqual((status, said), (0, ""))
        return Path(out)

    def made_of_census(
        self, people: dict[str, int], borders: list[tuple[str, str]], *words: str
    ) -> Path:
        """Returns a page of these counties, blocks and borders, with more words of its problem."""
        texts = dict(zip(("geo", "segment"), census_of(people)))
        texts["adjacency"] = "".join(f"A|{one}|B|{other}\r\n" for one, other in borders)
        files = [part for it, text in texts.items() for part in (f"--{it}", self.file(it, text))]
        return self.made_of([*files, *words])

    def test_the_proof_and_a_what_if(self) -> None:
        words = [
            part
            for kind in ("geo", "segment", "adjacency")
            for part in (f"--{kind}", str(STATES / f"alabama.{kind}"))
        ]
        self.open("#proof", self.made_of([*words, "--chamber", "35", "--state", "1"]))
        self.press_button("#check")
        self.wait("document.querySelector('#check-verdict .verdict') !== null")
        self.assertIn("better than the 14 on this page", self.text("#check-verdict"))
        self.go("#whatif")
        self.press_button("#solve-again")
        self.wait_words("#whatif-result", "Nothing changes.")
        self.go("#files")
        self.press_button("#use-own")
        self.wait("!document.querySelector('#solve-files').disabled")
        self.check_quiet()

    def audited(self, against: str) -> str:
        """Returns what the page says of the plan when it is compared with a grouping."""
        for selector in ("#grouping-text", "#plan-against"):
            self.value(f"document.querySelector('{selector}').focus(); null")
        self.value(f"document.querySelector('#plan-against').value = '{against}'; null")
        self.press_button("#audit")
        self.wait("!document.querySelector('#audit').disabled")
        return self.text("#audit-result")

    def test_a_plan_where_a_set_is_withdrawn_and_a_link_added(self) -> None:
        # 37001 and 37003 suit three seats together, and only the link joins them.
        district = {f"37001000000000{at}": "112"[at - 1] for at in (1, 2, 3)}
        district.update({f"37003000000000{at}": "233"[at - 1] for at in (1, 2, 3)})
        blocks = {block: 50 for block in district}
        district["370050000000001"] = "4"
        people = {"37001": 150, "37003": 150, "37005": 100, **blocks, "370050000000001": 100}
        words = ["--chamber", "4", "--links", self.file("links", "+|37001|37003\n")]
        words += ["--withdrawn", self.file("sets", "1|37005\n")]
        self.open("#files", self.made_of_census(people, [("37001", "37005")], *words))
        self.press_button("#use-own")
        self.wait("!document.querySelector('#solve-files').disabled")
        plan = "".join(f"{block},{label}\n" for block, label in district.items())
        self.give("#plan-file", Path(self.file("plan.csv", f"GEOID20,District\n{plan}")))
        self.wait("!document.querySelector('#audit').disabled")
        self.assertIn("Nothing was found.", self.audited("chamber"))
        self.assertIn("the set 1 taken out", self.text("#audit-result"))
        self.value("document.querySelector('#grouping-text').value = '3|37001|37003'; null")
        self.assertIn("Your grouping above, of 3 seats", self.audited("own-4"))
        self.assertIn("Nothing was found.", self.text("#audit-result"))
        self.check_quiet()

    def test_a_grouping_where_options_are_not_numbered(self) -> None:
        # In each of two rows of three counties, the one between goes with either of the others.
        codes = ["37001", "37003", "37005", "37007", "37009", "37011"]
        rows = [codes[:3], codes[3:]]
        people = {code: 5 if code == row[1] else 100 for row in rows for code in row}
        borders = [pair for row in rows for pair in zip(row, row[1:])]
        script = page_file.script_text().replace("MOST_NUMBERED = 20000", "MOST_NUMBERED = 3")
        with mock.patch.object(page_file, "script_text", return_value=script):
            self.open("#files", self.made_of_census(people, borders, "--chamber", "4"))
        for sides in itertools.product((0, 2), repeat=2):
            both = [f"1|{row[side]}|{row[1]}" for row, side in zip(rows, sides)]
            alone = [f"1|{row[2 - side]}" for row, side in zip(rows, sides)]
            text = "\n".join(both + alone)
            self.value(f"document.querySelector('#grouping-text').value = {text!r}; null")
            self.press_button("#judge")
            self.wait("document.querySelector('#judged-map svg') !== null")
            told = self.text("#judge-result")
            self.assertIn("It is one of the best groupings.", told)
            shown = self.value(GROUP_OF.replace("#map", "#judged-map"))
            group_of = {codes[int(at)]: group for at, (group, _) in shown.items()}
            for row, side in zip(rows, sides):
                self.assertEqual(group_of[row[1]], group_of[row[side]])
        self.check_quiet()
