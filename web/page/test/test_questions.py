"""The questions that people bring: a county, how close it was, a rival group, other counts, a plan,
and the other censuses; each by link, by click, or by keys."""
from __future__ import annotations

from pathlib import Path

from page_setting import DATA, InPage
from plan_sample import make_sample, write_plan
from question_rows import MOST_WORDS, WORDS_BEFORE

from installed import NotThere

RESULT = "#whatif-result"
TITLE = "document.querySelector('#county-card h2').innerText"
BOXES = (
    "[...document.querySelectorAll('#why-form .boxes label')].map((one) => one.innerText.trim())"
)
# For each of some counties: what is bold in its answer of each chamber, that answer, and how many
# words a reader sees up to their end.
CARDS = """(async () => {
  const told = {};
  for (const code of CODES) {
    const isThere = new Promise((done) => {
      addEventListener("hashchange", () => setTimeout(done), { once: true });
    });
    location.hash = `#${YEAR}county/${code}`;
    await isThere;
    const answers = [...document.querySelectorAll("#county-card .short p")].map((one) => (
      [one.querySelector("b + b").innerText, one.innerText]));
    told[code] = [answers, WORDS];
  }
  return told;
})()"""


def pairs_of(name: str, reason: str = "") -> set[frozenset[str]]:
    """Returns the pairs of a file of borders whose fifth field begins with `reason`."""
    lines = (DATA / name).read_text(encoding="utf-8").splitlines()[1:]
    rows = [line.split("|") for line in lines]
    found = {frozenset((row[1], row[3])) for row in rows if row[4].startswith(reason)}
    return {pair for pair in found if len(pair) == 2}


class Counties(InPage):
    """The card of a county."""

    def test_by_link(self) -> None:
        self.open("#county/37137")
        told = self.text("#county-card")
        # (12,276 people by the census; both groups of the Senate are of data/nc2020's list)
        for words in ("Pamlico County", "12,276", "Senate"):
            self.assertIn(words, told)
        self.assertIn("Carteret, Halifax, Martin, Warren, Chowan, Washington and Hyde", told)
        self.assertIn("Pasquotank, Dare and Perquimans replace Halifax, Martin and Warren", told)
        self.assertNotIn("Beaufort, Carteret", told)
        self.press_button("#county-more summary")
        told = self.text("#county-more")
        for words in ("12,276 people in 2020", "It borders Beaufort, Carteret", "2023 plan"):
            self.assertIn(words, told)
        self.press_button("#close-card")
        self.wait("document.querySelector('#county-card').hidden")
        self.check_quiet()

    def cards(self, codes: list[str], year: str = "") -> dict[str, tuple[list[list[str]], int]]:
        """Returns what the cards of counties say first."""
        script = CARDS.replace("CODES", str(codes)).replace("YEAR", repr(year))
        return dict(self.value(script.replace("WORDS", WORDS_BEFORE)))

    def test_each_county_with_the_groups_of_2023(self) -> None:
        self.open()
        names = self.value(
            "[...document.querySelectorAll('#finder option')].slice(1).map((one) => one.innerText)"
        )
        codes = [f"37{number:03}" for number in range(1, 200, 2)]
        name_of = dict(zip(codes, names))
        told: dict[str, tuple[list[list[str]], int]] = {}
        for at in range(0, 100, 20):
            told.update(self.cards(codes[at : at + 20]))
        for at, chamber in enumerate(("senate", "house")):
            text = (DATA / f"{chamber}2023.grouping").read_text(encoding="ascii")
            for seats, *group in (line.split("|") for line in text.split()):
                seats += " seat" if seats == "1" else " seats"
                for code in group:
                    answers, words = told[code]
                    bold, answer = answers[at]
                    with_whom = sorted(name_of[one] for one in group if one != code)
                    shown = sorted(bold.replace(" and ", ", ").split(", "))
                    self.assertEqual(shown, with_whom or ["alone"])
                    size = f"{len(group)} counties, " if with_whom else ""
                    self.assertIn(f"({size}{seats}), as enacted in 2023", answer)
                    self.assertLessEqual(words, MOST_WORDS)
        self.check_quiet()

    def test_groups_that_are_met_over_water(self) -> None:
        self.open()
        codes = [f"37{number:03}" for number in range(1, 200, 2)]
        told: dict[str, tuple[list[list[str]], int]] = {}
        for at in range(0, 100, 20):
            told.update(self.cards(codes[at : at + 20]))
        borders = pairs_of("county_borders.txt")
        water = pairs_of("borders_without_an_edge.txt", "over water")
        self.assertEqual(len(water), 13)
        for at, chamber in enumerate(("senate", "house")):
            text = (DATA / f"{chamber}2023.grouping").read_text(encoding="ascii")
            for group in (set(line.split("|")[1:]) for line in text.split()):
                for code in group:
                    own = {one for one in borders if code in one and one <= group}
                    answer = told[code][0][at][1]
                    with self.subTest(f"{chamber} {code}"):
                        self.assertEqual("only over water" in answer, bool(own) and own <= water)
        self.check_quiet()

    def test_the_longest_of_2010(self) -> None:
        self.open("#2010/senate/1")
        # (Harnett and Sampson have large groups in both chambers, and others by other options)
        for answers, words in self.cards(["37085", "37163", "37105"], "2010/").values():
            self.assertEqual(len(answers), 2)
            self.assertLessEqual(words, MOST_WORDS)
        self.check_quiet()

    def test_printed(self) -> None:
        self.open("#county/37137")
        self.value("dispatchEvent(new Event('beforeprint')); null")
        self.browser.ask("Emulation.setEmulatedMedia", media="print")
        self.assertIn("12,276 people in 2020", self.text("#county-card"))
        self.assertNotIn("Ask the program", self.text("#county-card"))
        # (the names of the first line of "How close is it?" are printed in full)
        self.assertIn("Hyde or Tyrrell", self.text("#close"))
        self.browser.ask("Emulation.setEmulatedMedia", media="")
        self.value("dispatchEvent(new Event('afterprint')); null")
        self.assertFalse(self.value("document.querySelector('#county-more').open"))
        self.assertNotIn("Hyde or Tyrrell", self.text("#close"))

    def test_by_the_finder_and_from_the_map(self) -> None:
        self.open()
        self.tab_to("#finder")
        # (Pamlico is the first county with this letter)
        self.press("p")
        self.wait("location.hash === '#county/37137'")
        self.assertEqual(self.value(TITLE), "Pamlico County")
        self.go("#senate/6")
        self.click("#map [data-county='31']")
        self.press_button("#told a[href='#county/37063']")
        self.wait(f"{TITLE} === 'Durham County'")
        self.check_quiet()


class OtherGroups(InPage):
    """Why a group isn't in a best grouping."""

    def test_too_many_people_for_any_seats(self) -> None:
        # (324,833 and 148,696 people, of an ideal of 208,787.76)
        self.open("#county/37063/senate/37135")
        told = self.wait_words("#why-answer", "Not in a best grouping.")
        self.assertIn("473,529 people, 2.27 ideal districts", told)
        self.assertIn("No best grouping has them in one group.", told)

    def test_a_part_of_larger_groups(self) -> None:
        self.open("#county/37137/senate/37031")
        told = self.wait_words("#why-answer", "Not in a best grouping.")
        self.assertIn("The best groupings have them in a larger group: with", told)

    def test_its_own_group_is_not_offered(self) -> None:
        # (its neighbors are Beaufort, Carteret, Craven and Hyde; data/nc2020's lists have Carteret
        # and Hyde with it in the Senate, Beaufort and Hyde in the House)
        self.open("#county/37137")
        self.assertEqual(self.value(BOXES), ["Craven", "Beaufort"])
        listed = "[...document.querySelectorAll('#why-more option')].map((one) => one.innerText)"
        self.assertNotIn("Dare", self.value(listed))
        self.value(
            "(() => { const one = document.querySelector('#why-chamber'); one.value = 'house'; "
            "one.dispatchEvent(new Event('change', { bubbles: true })); })()"
        )
        self.assertEqual(self.value(BOXES), ["Craven", "Carteret"])
        self.assertIn("Pasquotank", self.value(listed))

    def test_counties_that_do_not_touch(self) -> None:
        self.open("#county/37063/senate/37119")
        told = self.wait_words("#why-answer", "aren’t connected")
        self.assertIn("no lawful grouping has this group", told)

    def test_a_lawful_group_that_is_in_none(self) -> None:
        # (170,243 and 44,652 people; with the pair there is one group of three counties less)
        self.open("#county/37147")
        self.value("document.querySelector('[name=why-with][value=\"6\"]').click(); null")
        self.press_button("#why-ask")
        told = self.wait_words("#why-answer", "no best grouping has this group")
        self.assertIn("1 seat, 214,895 people", told)
        self.assertIn("at most eight groups of three counties in place of nine", told)
        self.assertEqual(self.value("location.hash"), "#county/37147/senate/37013")
        self.check_quiet()

    def test_a_group_that_is_in_all(self) -> None:
        self.open("#county/37063/senate/37037")
        told = self.wait_words("#why-answer", "They are one of the groups.")
        self.assertIn("all 16 best groupings", told)


class Closeness(InPage):
    """How close it is, and one click that solves the changed count."""

    def rows(self) -> str:
        """Returns what stands in the table. A page that was made without it has other rows."""
        self.open("#senate/6")
        told = self.text("#close")
        if "Each county was tried alone" not in told:
            raise NotThere("this page was made without the tables of closeness (--tables)")
        return told

    def test_the_least_changes(self) -> None:
        told = self.rows()
        for words in ("+37", "24 best groupings in place of 16", "−84", "+86", "−352"):
            self.assertIn(words, told)
        self.assertIn("The groups of 2023 then no longer meet the conditions.", told)

    def test_the_other_censuses(self) -> None:
        self.rows()
        years = "[...document.querySelectorAll('#close .years a')].map((one) => one.innerText)"
        self.assertEqual(self.value(years), ["2010", "2000"])
        self.press_button("#close .years a")
        self.wait_words("#option", "Option 1 of 4")
        self.assertEqual(self.value(years), ["2020", "2000"])
        # (the least change of 2020, as above)
        self.assertIn("2020: 37 more", self.text("#close .years"))
        self.check_quiet()

    def test_lawful_and_not_best(self) -> None:
        # (a better list: the groups of 2023 have one group of three counties less)
        self.open("#whatif/house/people=37005:-209")
        told = self.wait_words(RESULT, "The groups of 2023 are lawful here, and not best.")
        self.assertIn("six groups of three counties; a best grouping has seven.", told)
        self.check_quiet()

    def test_exact_to_the_person(self) -> None:
        self.open("#whatif/senate/people=37147:+85")
        self.wait_words(RESULT, "Nothing changes.")
        self.assertIn("The groups of 2023 are among the best here.", self.text(RESULT))
        self.go("#whatif/senate/people=37147:+86")
        told = self.wait_words(RESULT, "The groups of 2023 aren’t lawful here.")
        self.assertIn("Pitt and Edgecombe: 219,229 people are too many for 1 seat", told)
        told = self.text("#whatif-key")
        self.assertIn("The map shows one of the 4 best groupings", told)
        self.assertIn("A group that the base answer doesn’t have", told)
        self.assertEqual(self.value("document.querySelectorAll('#new-hatch').length"), 1)
        self.go("#whatif/senate")
        self.press_button("#start-over")
        self.assertEqual(self.text("#whatif-key"), "")
        self.check_quiet()


class OtherCounts(InPage):
    """A what-if with other counts of people, typed or as a table."""

    def typed(self, text: str) -> str:
        """Types counts into the box, and returns what is said of them."""
        self.value(
            f"(() => {{ const box = document.querySelector('#people-text'); box.value = {text!r}; "
            "box.dispatchEvent(new Event('input', { bubbles: true })); })()"
        )
        return self.text("#people-note")

    def test_typed_counts(self) -> None:
        self.open("#whatif/senate")
        self.assertIn("10,439,474 people then", self.typed("PITT COUNTY, +86"))
        self.press_button("#solve-again")
        self.wait_words(RESULT, "aren’t lawful here")
        self.assertEqual(self.value("location.hash"), "#whatif/senate/people=37147:+86")
        self.typed("Pitt, +10")
        self.assertFalse(self.value("document.querySelector('#whatif-stale').hidden"))
        self.go("#senate/6")
        self.press_button("nav [data-view=whatif]")
        self.wait_words(RESULT, "aren’t lawful here")
        self.assertEqual(self.value("location.hash"), "#whatif/senate/people=37147:+86")
        self.check_quiet()

    def test_lines_that_cant_be_read(self) -> None:
        self.open("#whatif/senate")
        for text, told in (
            ("Pit, +90", "Line 1: no county of North Carolina is called “Pit”."),
            ("Pitt, many", "Line 1: “many” is no number of people"),
            ("Pitt, +1\nPitt Co., +2", "Line 2: Pitt has a line already."),
            ("Pitt, -999999", "Line 1: fewer than no people"),
        ):
            self.assertIn(told, self.typed(text))

    def test_a_table(self) -> None:
        self.open("#whatif/house")
        table = self.room / "estimates.csv"
        rows = "37,0,North Carolina,1\n37,147,Pitt County,175000\n45,1,Abbeville County,24000\n"
        head = "STATE,COUNTY,CTYNAME,POPESTIMATE2025\n"
        table.write_text((head + rows).replace("\n", "\n"), encoding="utf-8")
        self.give("#people-file", table)
        told = self.wait_words("#people-note", "1 county has a count here")
        self.assertIn("The column “POPESTIMATE2025” was taken.", told)
        self.assertIn("2 lines of no county of North Carolina were left out.", told)
        # (4,757 more than 170,243 in Pitt)
        self.assertIn("10,444,145 people then", told)
        # (10,444,145 people for 120 seats are 87,034.54 each: 0.95 and 1.05 of that)
        self.assertIn("82,683 to 91,386", self.text("#percent-window"))
        self.press_button("#solve-counts")
        self.wait_words("#whatif-progress", "Solved in")


class Plans(InPage):
    """A plan by its block codes alone, against all options."""

    def test_a_plan_of_the_enacted_groups(self) -> None:
        self.open("#files")
        self.give("#plan-file", write_plan(make_sample(), Path(self.room) / "plan.csv"))
        told = self.wait_words("#quick", "This plan follows option 6, the groups of 2023.")
        self.assertIn("50 districts", told)
        compared = (
            r"Compared with option \d+, [\w,]+ districts? cross(es)? groups; with option \d+, "
        )
        self.assertRegex(told, compared)
        self.assertRegex(told, r"; with each of the other 11, [\w,]+ or more\.")
        self.check_quiet()

    def test_what_an_audit_needs(self) -> None:
        self.open("#files")
        self.assertIn("needs a block assignment file", self.text("#audit-needs"))
        self.give("#plan-file", write_plan(make_sample(), Path(self.room) / "plan.csv"))
        self.wait_words("#quick", "This plan follows option 6")
        self.assertTrue(self.value("document.querySelector('#audit').disabled"))
        told = self.text("#audit-needs")
        wanted = "needs the geographic header, the counts of people and the file of borders."
        self.assertIn(wanted, told)
        self.press_button("#use-own")
        self.wait("!document.querySelector('#audit').disabled")
        self.assertEqual(self.text("#audit-needs"), "")
        self.check_quiet()

    def test_its_verdict_comes_into_view(self) -> None:
        self.open("#files")
        self.drop("#drop-zones", write_plan(make_sample(), Path(self.room) / "plan.csv"))
        self.wait_words("#quick", "This plan follows option 6, the groups of 2023.")
        top = "document.querySelector('#quick').getBoundingClientRect().top"
        self.wait(f"{top} >= 0 && {top} < innerHeight - 100")
        self.check_quiet()


class Censuses(InPage):
    """The censuses of 2010 and 2000."""

    wanted = {
        # (Carter and others 2020 for the groups of 2017; the numbers are those of data/nc2010)
        "#2010/senate": ("Option 1 of 4", "4\u00a0best ways", "24 of their 29 groups"),
        "#2010/house": ("Option 2 of 2", "2\u00a0best ways", "38 of their 41 groups"),
        "#2000/senate": ("Option 1 of 2", "2\u00a0best ways", "27 of their 29 groups"),
    }

    def test_by_link(self) -> None:
        self.open()
        for mark, (option, title, deck) in self.wanted.items():
            self.go(mark)
            self.wait_words("#option", option)
            self.assertIn(title, self.text("#title"))
            self.assertIn(deck, self.text("#deck"))
        self.go("#senate/6")
        self.wait_words("#option", "Option 6 of 16")
        self.check_quiet()

    def test_by_click_with_the_proof(self) -> None:
        self.open("#senate/6")
        self.press_button("#censuses [data-year='2010']")
        self.wait_words("#option", "Option 1 of 4")
        self.assertIn("S.L. 2017-207", self.text("#option-note"))
        enacted = (DATA.parent / "nc2010" / "senate2017.grouping").read_text(encoding="ascii")
        self.assertEqual(sorted(self.stored("grouping").decode().split()), sorted(enacted.split()))
        self.press_button("nav [data-view=proof]")
        self.wait_words("#check", "Check the Senate")
        self.press_button("#check")
        told = self.wait_words("#check-verdict", "The certificate proves it.")
        self.assertIn("better than the 4 on this page", told)
        self.check_quiet()


class GivenFiles(InPage):
    """Files that don't belong together, names in any letters, groupings of another chamber."""

    def test_counts_of_another_state(self) -> None:
        states = DATA.parent / "states"
        self.open("#files")
        self.give(
            "#drop-zones input",
            states / "iowa.geo",
            states / "kansas.segment",
            states / "iowa.adjacency",
        )
        self.wait("!document.querySelector('#solve-files').disabled")
        self.press_button("#solve-files")
        told = self.wait_words("#files-result", "These files don’t belong together.")
        self.assertIn("record 99", told)
        self.assertIn("record 105", told)

    def test_borders_of_another_state(self) -> None:
        states = DATA.parent / "states"
        self.open("#files")
        self.press_button("#use-own")
        self.wait("!document.querySelector('#solve-files').disabled")
        self.give("#drop-zones input", states / "iowa.adjacency")
        self.wait_words("#drop-zones", "iowa.adjacency")
        self.press_button("#solve-files")
        told = self.wait_words("#files-result", "These files don’t belong together.")
        self.assertIn("The file of borders is of Iowa", told)

    def test_outlines_that_cant_be_drawn(self) -> None:
        outlines = (DATA / "county_outlines.geojson").read_text(encoding="utf-8")
        path = self.room / "outlines.geojson"
        first, rest = outlines.split('"geometry": ', 1)
        path.write_text(f'{first}"geometry": null, "was": {rest}', encoding="utf-8")
        self.open("#files")
        self.press_button("#use-own")
        self.wait("!document.querySelector('#solve-files').disabled")
        self.give("#drop-zones input", path)
        self.wait_words("#drop-zones", "outlines.geojson")
        self.press_button("#solve-files")
        self.wait_words("#files-result", "16 best groupings")
        self.assertIn("The outlines can’t be drawn", self.text("#files-table"))
        self.check_quiet()

    def test_a_grouping_of_another_chamber(self) -> None:
        house = (DATA / "house2023.grouping").read_text(encoding="ascii")
        self.open("#files")
        self.value(f"document.querySelector('#grouping-text').value = {house!r}; null")
        self.press_button("#judge")
        told = self.wait_words("#judge-result", "This is a grouping of another chamber.")
        self.assertIn("120 seats", told)


class Sheets(InPage):
    """The sheet of a run to hand in."""

    def test_a_what_if(self) -> None:
        self.open("#whatif/senate/cut=37041-37187&people=37147:+1")
        self.wait_words(RESULT, "aren’t lawful here")
        self.press_button(f"{RESULT} [data-store=sheet]")
        told = self.text("#handout")
        for words in (
            "What if: North Carolina Senate",
            "Eight of the 16 best groupings are left.",
            "Chowan touches none of the others",
            "page.html#whatif/senate/cut=37041-37187&people=37147:+1",
            "printf '%s\\n' '-|37041|37187' > what_if.links",
            "--links what_if.links",
            "nc000012020.pl",
            "what_if.certificate",
        ):
            self.assertIn(words, told)
        self.assertEqual(self.value("document.querySelectorAll('#handout svg').length"), 1)
        self.assertFalse(self.value("document.querySelector('.top').getClientRects().length > 0"))
        path = self.room / "sheet.pdf"
        self.browser.save_print(str(path), 8.5, 11)
        self.assertGreater(path.stat().st_size, 10_000)
        self.press_button("#leave-sheet")
        self.assertTrue(self.value("document.querySelector('#handout').hidden"))
        self.check_quiet()
