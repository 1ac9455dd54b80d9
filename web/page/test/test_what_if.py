"""What if: published numbers, a set taken out, the marks of borders, stopping, and addresses."""
from __future__ import annotations

from page_file import carried_file
from page_setting import CHAMBERS, DATA, PROBLEM, SECONDS, InPage, run

from installed import NotThere

RESULT = "#whatif-result"


OWN_ROW = "#whatif-table tbody tr td:nth-child(3)"
PERCENT = """
(() => {
  const input = document.querySelector("#percent");
  input.value = "VALUE";
  input.dispatchEvent(new Event("input"));
  return input.checkValidity();
})()
"""
# Presses Stop as soon as there is such a button, and keeps what the page tells meanwhile.
STOPPED_AT_ONCE = """
  const stop = document.querySelector("#stop-solving");
  globalThis.stopping = new MutationObserver(() => { if (!stop.hidden) stop.click(); });
  stopping.observe(stop, { attributes: true });
  for (const name of ["progress", "running"]) {
    const [line, told] = [document.querySelector(`#whatif-${name}`), []];
    globalThis[name] = told;
    new MutationObserver(() => told.push(line.innerText)).observe(line, { childList: true });
  }
"""


class WhatIf(InPage):
    """The third view."""

    def solved(self, mark: str) -> str:
        """Returns the verdict on the what-if of an address."""
        self.open(mark)
        self.wait_words("#whatif-progress", "Solved in")
        return self.text(RESULT)

    def test_burke_and_lincoln_cut(self) -> None:
        # Before the pair was in the list of borders, the Senate had 8 best groupings, and 20 of
        # their groups were shared. With it they are the 16 that were published for 2020.
        told = self.solved("#whatif/senate/cut=37023-37109")
        self.assertIn("Eight of the 16 best groupings are left.", told)
        self.assertIn("20 groups are in all of them", told)
        self.check_quiet()

    def test_published_changes(self) -> None:
        # (data/nc2020/README.md has which single pairs change the list)
        for mark, best, shared in (
            ("house/add=37087-37089", 16, 31),
            ("house/add=37153-37167", 16, 31),
            ("senate/cut=37041-37187", 8, 19),
            ("house/cut=37041-37187", 4, 35),
            ("house/cut=37053-37177", 4, 35),
            ("house/add=37021-37175", 8, 33),
        ):
            with self.subTest(mark):
                self.solved(f"#whatif/{mark}")
                row = "#whatif-table tr:nth-child({}) td:nth-child(3)"
                self.assertEqual(self.text(row.format(1)), str(best))
                self.assertEqual(self.text(row.format(2)), str(shared))
        self.check_quiet()

    def test_a_set_taken_out(self) -> None:
        sets = self.room / "withdrawn"
        sets.write_text("1|37083|37091|37131|37185\n1|37047|37155\n", encoding="ascii")
        certificate = self.room / "certificate"
        words = [*PROBLEM, "--chamber", "120", "--withdrawn", str(sets)]
        words += ["--certificate", str(certificate)]
        solved = run("solve", *words)
        listed = run("list", *words)
        self.solved("#whatif/house/out=37083-37091-37131-37185:1,37047-37155:1")
        number = listed.split("best groupings ")[1].split("\n")[0]
        self.assertEqual(self.text(OWN_ROW), number)
        left = solved.split("seats left ")[1].split("\n")[0]
        table = self.text("#whatif-table table")
        self.assertRegex(table, rf"Seats left to group\s+120\s+{left}\b")
        self.check_quiet()

    def test_a_set_that_does_not_suit_its_seats(self) -> None:
        # 10,439,388 people and 120 seats: 12 ideal districts are 1,043,938.8 people.
        self.solved("#whatif/house/out=37119:12")
        warned = self.text("#whatif-result .warned")
        self.assertIn("county 37119 has 1115482 people", warned)
        self.assertIn("12 seats suit 991742 to 1096135", warned)
        self.check_quiet()

    def test_counties_are_clicked(self) -> None:
        self.open("#whatif/senate")
        self.click("#whatif-map [data-county='59']")
        self.assertIn("Mecklenburg", self.text("#taken-sets"))
        # (1,115,482 people are 5.34 districts of 208,787.76)
        self.assertIn("1,115,482 people: 5.34 ideal districts", self.text("#taken-sets"))
        self.assertEqual(self.value("document.querySelector('[data-seats=\"0\"]').value"), "5")
        self.click("#whatif-map [data-county='91']")
        self.assertEqual(self.value("document.querySelectorAll('[data-seats]').length"), 2)
        self.value(
            "(() => { const one = document.querySelector('#clicks'); one.value = '1'; "
            "one.dispatchEvent(new Event('change')); })()"
        )
        self.click("#whatif-map [data-county='38']")
        self.assertEqual(self.value("document.querySelectorAll('[data-seats]').length"), 2)
        self.press_button("[data-back='38']")
        self.press_button("[data-back='91']")
        self.assertEqual(self.value("document.querySelectorAll('[data-seats]').length"), 1)
        self.press_button("#solve-again")
        self.wait_words("#whatif-progress", "Solved in")
        self.assertEqual(self.value("location.hash"), "#whatif/senate/out=37119:5")
        self.press_button("#start-over")
        self.assertEqual(self.text("#taken-sets"), "")
        self.check_quiet()

    def test_another_tolerance(self) -> None:
        certificate = self.room / "certificate"
        words = [*PROBLEM, "--chamber", "120", "--part", "40", "--of", "1000"]
        solved = run("solve", *words, "--certificate", str(certificate))
        told = self.solved("#whatif/house/percent=4")
        wanted = "No grouping is lawful" if "impossible" in solved else "best"
        self.assertIn(wanted, told)
        # (4 percent of an ideal of 86,994.9)
        self.assertIn("83,516 to 90,474", self.text("#percent-window"))
        self.check_quiet()

    def test_the_verdict_comes_into_view(self) -> None:
        self.solved("#whatif/senate/people=37055:+37")
        top = f"document.querySelector('{RESULT}').getBoundingClientRect().top"
        self.value("scrollTo({ top: document.body.scrollHeight, behavior: 'instant' })")
        self.assertLess(self.value(top), 0)
        self.press_button("#solve-again")
        self.wait(f"{top} >= 0 && {top} < innerHeight / 2")
        self.check_quiet()

    def test_no_lawful_grouping(self) -> None:
        # (49 seats stay for people who suit some 45)
        told = self.solved("#whatif/senate/out=37119:1")
        self.assertIn("No grouping is lawful.", told)
        self.assertEqual(self.value("document.querySelectorAll('#whatif-map .badge').length"), 0)
        self.assertIn("Store the certificate", self.text(RESULT))

    def test_a_refused_set(self) -> None:
        self.open("#whatif/senate/out=37119:50,37183:50")
        self.wait_words("#whatif-progress", "without an answer")
        self.assertIn("The program refused this.", self.text(RESULT))
        self.assertEqual(self.value("document.querySelectorAll('#whatif-map .badge').length"), 0)

    def test_another_pair(self) -> None:
        self.open("#whatif/senate")
        self.value("document.querySelector('#other-pair').open = true; null")
        self.assertEqual(self.text("#pair-note"), "Choose two different counties.")
        self.press_button("#change-pair")
        self.assertEqual(self.text("#changed-pairs"), "")
        self.value(
            "[...document.querySelectorAll('#other-pair select')].forEach((one, at) => "
            "{ one.value = ['11', '54'][at]; "
            "one.dispatchEvent(new Event('change', { bubbles: true })); }); null"
        )
        self.assertEqual(self.text("#pair-note"), "Burke and Lincoln count as neighbors here.")
        self.assertEqual(self.text("#change-pair"), "Leave it out")
        self.press_button("#change-pair")
        self.assertIn("Burke and Lincoln don’t count", self.text("#pair-note"))
        self.assertEqual(self.text("#change-pair"), "Count it")
        self.assertIn("Burke–Lincoln left out", self.text("#changed-pairs"))
        self.press_button("#solve-again")
        self.wait_words(RESULT, "Eight of the 16")
        self.assertEqual(self.value("location.hash"), "#whatif/senate/cut=37023-37109")
        self.press_button("#changed-pairs button")
        self.assertEqual(self.text("#changed-pairs"), "")

    def test_stopping(self) -> None:
        self.open("#whatif/senate")
        self.value(STOPPED_AT_ONCE)
        self.press_button("#solve-again")
        told = self.wait_words("#whatif-progress", "Stopped")
        self.assertRegex(told, r"Stopped after \d")
        self.assertTrue(self.value("document.querySelector('#stop-solving').hidden"))
        self.value("stopping.disconnect()")
        self.press_button("#solve-again")
        self.wait_words(RESULT, "Nothing changes.")
        self.assertTrue(self.value("running.some((one) => /^\\d/.test(one))"))
        # (a screen reader reads out each of these)
        first, *others = self.value("[...new Set(progress)]")
        self.assertEqual((first, len(others)), ("Solving.", 2))
        self.check_quiet()

    def test_another_chamber_while_it_solves(self) -> None:
        self.open("#whatif/senate")
        self.press_button("#solve-again")
        self.press_button("#whatif-chambers [data-chamber=house]")
        self.wait_words(RESULT, "of the House")
        self.press_button("#solve-again")
        self.wait_words("#whatif-progress", "Solved in")
        self.assertIn("Nothing changes.", self.text(RESULT))
        self.assertEqual(self.text(OWN_ROW), "8")
        self.assertEqual(self.value("location.hash"), "#whatif/house")
        self.check_quiet()

    def test_another_view_while_it_solves(self) -> None:
        self.open("#whatif/senate")
        self.press_button("#solve-again")
        self.go("#senate/3")
        self.wait("!document.querySelector('#solve-again').ariaDisabled")
        self.assertEqual(self.value("location.hash"), "#senate/3")
        self.go("#whatif/senate")
        self.assertIn("Click a county", self.text(RESULT))
        self.assertEqual(self.text("#whatif-progress"), "")
        self.check_quiet()

    def test_an_address_with_signs(self) -> None:
        self.open("#whatif/senate/add=%22%3E%3Ch2%3EA,37023-99999")
        told = self.wait_words(RESULT, "This link can’t be read.")
        self.assertIn("Nothing was answered.", told)
        self.assertEqual(self.text("#changed-pairs"), "")
        self.assertEqual(self.value("document.querySelectorAll('#whatif-form h2').length"), 5)
        self.assertEqual(self.value(f"document.querySelectorAll('{RESULT} h2').length"), 0)
        self.check_quiet()

    def test_links_that_cant_be_read(self) -> None:
        self.open()
        for query in (
            "out=99999:1",
            "cut=37041-99999",
            "percent=abc",
            "percent=-3",
            "percent=",
            "people=37147:many",
            "people=37147:-999999",
            "out=37119:5,37119:1",
            "what=1",
        ):
            with self.subTest(query):
                self.go(f"#whatif/senate/{query}")
                self.wait_words(RESULT, "This link can’t be read.")
                self.assertIn("Nothing was answered.", self.text(RESULT))
                self.assertEqual(self.value("location.hash"), f"#whatif/senate/{query}")
                self.assertEqual(self.text("#whatif-table"), "")
        self.check_quiet()

    def test_an_escape_that_cant_be_read(self) -> None:
        self.open("#whatif/senate/cut=37109-37023&percent=5%")
        self.wait_words(RESULT, "This link can’t be read.")
        self.check_quiet()

    def test_percentages(self) -> None:
        self.open("#whatif/senate")
        # (parts of an ideal of 208,787.76)
        for percent, told in (
            ("6.25", "195,739 to 221,836 people"),
            ("33.333333333333336", "139,192 to 278,383 people"),
            ("50", "104,394 to 313,181 people"),
        ):
            self.assertTrue(self.value(PERCENT.replace("VALUE", percent)), percent)
            self.assertIn(told, self.text("#percent-window"))
        for percent in ("4.01", "33.33", "50.1", "-1"):
            self.assertFalse(self.value(PERCENT.replace("VALUE", percent)), percent)
            self.assertIn("can’t take this percentage", self.text("#percent-window"))
        self.assertFalse(self.value(PERCENT.replace("VALUE", "")), "blank")
        self.go("#whatif/senate/percent=4.01")
        self.wait_words(RESULT, "The program can’t take this")
        self.check_quiet()

    def test_links_without_a_last_line_end(self) -> None:
        text, carried = self.carried()
        links = self.room / "some.links"
        links.write_text("-|37023|37109\n-|37041|37187\n", encoding="ascii")
        certificate = ["--certificate", str(self.room / "certificate")]
        words = [*PROBLEM, "--chamber", "50", "--links", str(links), *certificate]
        run("solve", *words)
        number = run("list", *words).split("best groupings ")[1].split("\n")[0]
        file = carried_file("some.links", b"-|37023|37109")
        path = self.page_with(text, {**carried, "links": file})
        self.open("#whatif/senate/cut=37041-37187", path)
        self.wait_words("#whatif-progress", "Solved in")
        self.assertEqual(self.text(OWN_ROW), number)
        self.check_quiet()


class Borders(InPage):
    """Which borders matter, stored and tried again."""

    wanted = {
        "senate": {"Chowan–Washington": "8 best instead of 16"},
        "house": {
            "Chowan–Washington": "4 best instead of 8",
            "Currituck–Tyrrell": "4 best instead of 8",
            "Haywood–Henderson": "16 best instead of 8",
            "Richmond–Stanly": "16 best instead of 8",
        },
    }

    def marks(self) -> dict[str, str]:
        """Returns the pairs with a mark."""
        script = (
            "Object.fromEntries([...document.querySelectorAll('#disputed .tag')].map("
            "(one) => [one.closest('label').innerText.replace(one.innerText, '').trim(), "
            "one.innerText]))"
        )
        return dict(self.value(script))

    def test_stored_marks(self) -> None:
        self.open()
        for key in CHAMBERS:
            self.go(f"#whatif/{key}")
            self.assertEqual(self.marks(), self.wanted[key])
            self.assertEqual(self.value("document.querySelectorAll('#disputed input').length"), 32)

    def test_tried_again(self) -> None:
        self.open("#whatif/house")
        self.press_button("#try-borders")
        self.wait_words("#borders-progress", "Tried ")
        self.wait_words("#borders-progress", "4 matter", 2 * SECONDS)
        self.assertEqual(self.marks(), self.wanted["house"])
        self.check_quiet()

    def test_marks_of_another_problem(self) -> None:
        self.open("#whatif/senate/out=37119:5")
        self.wait_words("#whatif-progress", "Solved in")
        self.assertEqual(self.marks(), {})
        self.assertNotIn("tried alone", self.text("#borders-note"))
        self.press_button("#try-borders")
        self.wait_words("#borders-progress", "Tried ")
        self.assertNotIn("tried alone", self.text("#borders-note"))
        self.press_button("#start-over")
        self.wait("document.querySelector('#stop-borders').hidden")
        self.assertEqual(self.marks(), self.wanted["senate"])
        self.assertIn("tried alone", self.text("#borders-note"))
        self.assertEqual(self.text("#borders-progress"), "")
        self.check_quiet()

    def test_trying_is_stopped(self) -> None:
        self.open("#whatif/senate")
        self.press_button("#try-borders")
        self.wait_words("#borders-progress", "Tried ")
        self.press_button("#stop-borders")
        self.wait_words("#borders-progress", "Stopped.")
        self.assertEqual(self.marks(), self.wanted["senate"])
        self.check_quiet()

    def test_the_pairs_are_those_of_the_data(self) -> None:
        self.open("#whatif/senate")
        points = self.value(
            "[...document.querySelectorAll('#disputed "
            "[data-kind=point][data-pair]')]"
            ".map((one) => one.dataset.pair)"
        )
        lines = (DATA / "point_contacts.links").read_text(encoding="ascii").split()
        listed = {" ".join(sorted(line.split("|")[1:])) for line in lines}
        self.assertLessEqual(listed, set(points))
        self.assertEqual(len(points), 15)


class Deciding(InPage):
    """The borders that decide, each a click that leaves it out."""

    def told(self, key: str) -> str:
        """Returns what is told of a chamber. A page without the tables tells nothing."""
        self.open(f"#whatif/{key}")
        if self.value("document.querySelector('#deciding').hidden"):
            raise NotThere("this page was made without the tables of borders (--tables)")
        return self.text("#deciding-borders p")

    def test_how_many(self) -> None:
        # (as they were found before the page had them: 52 and 43 of 244 borders change the list,
        # and without 38 and 35 of them the groups of 2023 aren't connected)
        for key, all_of_them, unlawful in (("senate", 52, 38), ("house", 43, 35)):
            told = self.told(key)
            self.assertIn("Each of the 244 borders was left out alone", told)
            self.assertIn(f"{all_of_them} of them change the list of best groupings.", told)
            self.assertIn(f"Without any one of {unlawful} the groups of 2023 aren’t lawful", told)
            links = self.value("document.querySelectorAll('#deciding a').length")
            self.assertEqual(links, all_of_them)
            heads = self.value(
                "[...document.querySelectorAll('#deciding summary b')].map((one) => "
                "Number(one.innerText))"
            )
            self.assertEqual(sum(heads), all_of_them)
        self.check_quiet()

    def test_each_as_the_program_says(self) -> None:
        self.told("senate")
        rows = dict(
            self.value(
                "[...document.querySelectorAll('#deciding a')].map((one) => "
                "[one.dataset.cut, one.parentElement.querySelector('.note').textContent])"
            )
        )
        # (docs/explanation/borders.md has these three)
        self.assertEqual(rows["37041 37187"], "8 best in place of 16, over water")
        self.assertEqual(rows["37023 37109"], "8 best in place of 16")
        self.assertNotIn("37053 37177", rows)

    def test_one_click(self) -> None:
        self.told("senate")
        self.value("document.querySelector('#people-text').value = ''; null")
        link = "#deciding a[data-cut='37023 37109']"
        self.value(f"document.querySelector(\"{link}\").closest('details').open = true; null")
        self.click(link)
        self.wait_words(RESULT, "Eight of the 16 best groupings are left.")
        self.assertEqual(self.value("location.hash"), "#whatif/senate/cut=37023-37109")
        links = "document.querySelectorAll('#deciding [aria-current]')"
        marked = f"[...{links}].map((one) => one.dataset.cut)"
        self.assertEqual(self.value(marked), ["37023 37109"])
        self.assertIn("The groups of 2023 are among the best here.", self.text(RESULT))
        self.press_button("#start-over")
        self.assertEqual(self.value(marked), [])
        self.check_quiet()

    def test_the_enacted_groups_without_one(self) -> None:
        self.told("senate")
        self.go("#whatif/senate/cut=37041-37187")
        told = self.wait_words(RESULT, "The groups of 2023 aren’t lawful here.")
        self.assertIn("Chowan touches none of the others", told)
