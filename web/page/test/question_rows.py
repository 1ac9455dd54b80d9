"""What a reader does in either browser: the questions that people bring, each by link, by click and
by keys, and the faults that the page had, one test for each."""
from __future__ import annotations

import json
import struct
import unittest
import xml.etree.ElementTree
import zipfile
import zlib
from pathlib import Path
from typing import Any
from urllib.parse import quote

from page_setting import DATA, SECONDS, STATES

RESULT = "#whatif-result"
ANY_FILE = "#drop-zones [data-kind=geo] input"
FILES = "!document.querySelector('#solve-files').disabled"
COUNT_OF = "document.querySelectorAll({}).length"
# Where the edges of the opened menu are, and how wide the window is.
MENU = """(() => {
  const box = document.querySelector("#downloads .drop").getBoundingClientRect();
  return box.left >= -1 && box.right <= innerWidth + 1 && box.width > 100;
})()"""
# The answers of a county's card in short, and how many words a reader sees up to their end. A
# reader skims some 250 words a minute, with a map beside.
SENTENCES = "[...document.querySelectorAll('#county-card .short p')].map((one) => one.innerText)"
MOST_WORDS = 170
WORDS_BEFORE = r"""(() => {
  const end = document.querySelector("#county-card .short").lastElementChild;
  const walker = document.createTreeWalker(document.body, NodeFilter.SHOW_TEXT);
  let count = 0;
  for (let node = walker.nextNode(); node; node = walker.nextNode()) {
    const on = node.parentElement;
    const isBehind = (end.compareDocumentPosition(node) & 4) && !end.contains(node);
    if (isBehind) break;
    if (on.closest(".skip, .unseen, select, noscript, .drop") || !on.getClientRects().length) {
      continue;
    }
    count += node.data.split(/\s+/).filter((one) => /[\p{L}\d]/u.test(one)).length;
  }
  return count;
})()"""
GROUP_LINES = "[...document.querySelectorAll('#county-more li')].map((one) => one.innerText)"
OVER_WATER = "It meets this group only over water."
LINE_OF_MENU = "document.querySelector('#downloads').open"


def archive_of_zeros(name: str, millions: int) -> bytes:
    """Returns a zip archive with one file of zeros, packed a million at a time."""
    packer = zlib.compressobj(9, zlib.DEFLATED, -15)
    million = packer.compress(bytes(1_000_000)) + packer.flush(zlib.Z_FULL_FLUSH)
    packed = million * millions + packer.flush(zlib.Z_FINISH)
    about = struct.pack(
        "<HHHHHIIIHH",
        20,
        0,
        zipfile.ZIP_DEFLATED,
        0,
        0,
        0,
        len(packed),
        millions * 1_000_000,
        len(name),
        0,
    )
    entry = b"PK\3\4" + about + name.encode() + packed
    listed = b"PK\1\2" + struct.pack("<H", 20) + about + bytes(14) + name.encode()
    end = struct.pack("<HHHHIIH", 0, 0, 1, 1, len(listed), len(entry), 0)
    return entry + listed + b"PK\5\6" + end


class Reader(unittest.TestCase):
    """What the tests need of a browser. The classes of the browsers have it."""

    room: Path

    def open(self, mark: str = "", **how: Any) -> None:
        """Opens the page anew at a mark of its address."""
        raise NotImplementedError

    def go(self, mark: str) -> None:
        """Goes to a mark of the page, as a link does."""
        raise NotImplementedError

    def value(self, script: str) -> Any:
        """Returns what an expression gives."""
        raise NotImplementedError

    def text(self, selector: str) -> str:
        """Returns the words of an element as they are shown."""
        raise NotImplementedError

    def click(self, selector: str) -> None:
        """Clicks an element by the pointer."""
        raise NotImplementedError

    def press_button(self, selector: str) -> None:
        """Presses a button or another control by a script."""
        raise NotImplementedError

    def press(self, key: str) -> None:
        """Presses a key once."""
        raise NotImplementedError

    def type_text(self, text: str) -> None:
        """Types a text into what has the focus."""
        raise NotImplementedError

    def tab_to(self, selector: str) -> None:
        """Presses the Tab key until an element of the selector has the focus."""
        raise NotImplementedError

    def wait(self, script: str, seconds: float = SECONDS) -> float:
        """Waits until an expression gives true."""
        raise NotImplementedError

    def wait_words(self, selector: str, words: str, seconds: float = SECONDS) -> str:
        """Waits until an element has words, and returns its text."""
        raise NotImplementedError

    def give(self, selector: str, *paths: Path) -> None:
        """Has a reader choose files."""
        raise NotImplementedError

    def stored(self, kind: str) -> bytes:
        """Returns what a button of the menu stores."""
        raise NotImplementedError

    def check_quiet(self) -> None:
        """Wants nothing on the console."""
        raise NotImplementedError

    def count(self, selector: str) -> int:
        """Returns how many elements there are."""
        return int(self.value(COUNT_OF.format(json.dumps(selector))))

    def write(self, name: str, content: str) -> Path:
        """Writes a file for the page."""
        path = self.room / name
        path.write_text(content, encoding="utf-8")
        return path

    def tab_and_press(self, selector: str, key: str = "Enter") -> None:
        """Goes to an element by the Tab key, and presses a key there."""
        self.tab_to(selector)
        self.press(key)


class Questions(Reader):
    """The five questions."""

    def test_how_close_by_click(self) -> None:
        self.open("#senate/6")
        told = self.text("#close")
        for words in ("37 more people", "24 best groupings in place of 16", "−84", "+86"):
            self.assertIn(words, told)
        self.assertIn("With 86 more the grouping enacted in 2023 is no longer best.", told)
        self.assertIn("Carteret, Pasquotank, Dare or any of 5 other counties", told)
        self.assertNotIn("Tyrrell", told)
        self.click("#close details summary")
        self.wait_words("#close details", "Hyde or Tyrrell")
        self.click("#close tr:nth-child(3) a")
        self.wait_words(RESULT, "The groups of 2023 aren’t lawful here.")
        self.check_quiet()

    def test_how_close_by_link_and_keys(self) -> None:
        self.open("#house/7")
        told = self.text("#close")
        self.assertIn("164 more people", told)
        self.assertIn("With 209 fewer the grouping enacted in 2023 is no longer best.", told)
        self.tab_and_press("#close details summary")
        self.wait_words("#close details", "Washington")
        self.go("#2010/house/2")
        self.wait_words("#close", "With them the grouping enacted in 2017 is no longer best.")
        self.go("#2000/senate/1")
        self.wait_words("#close", "50 more people")
        self.assertNotIn("enacted", self.text("#close"))
        self.go("#senate/6")
        self.tab_and_press("#close tr:nth-child(1) a")
        self.wait_words(RESULT, "24 best groupings instead of 16")
        self.check_quiet()

    def test_how_close_a_county_is(self) -> None:
        at_it = "location.hash === '{}' && document.activeElement.id === 'close'"
        self.open("#county/37137")
        told = self.wait_words("#county-close", "Senate 37 more")
        self.assertIn("House 164 more", told)
        self.click("#county-close a")
        self.wait(at_it.format("#senate/6"))
        self.wait("document.querySelector('#close').getBoundingClientRect().top < innerHeight")
        self.go("#county/37147")
        told = self.wait_words("#county-close", "Senate 86 more")
        self.assertIn("House none, since with 2,000 more, and with 2,000 fewer", told)
        self.tab_and_press("#county-close a:last-child")
        self.wait(at_it.format("#house/7"))
        self.check_quiet()

    def test_a_county_by_link_click_and_keys(self) -> None:
        self.open("#county/37137")
        self.check_pamlico()
        self.click("#county-more summary")
        self.check_pamlico_over_water()
        self.go("#senate/6")
        self.click("#map [data-county='31']")
        self.click("#told a[href='#county/37063']")
        self.wait_words("#county-card", "Durham County")
        # (from the end of the page Tab goes through Firefox itself, which then keeps the focus)
        self.open("#senate/6")
        self.tab_to("#finder")
        self.press("p")
        self.wait_words("#county-card", "Pamlico County")
        self.assertEqual(self.value("location.hash"), "#county/37137")
        self.check_pamlico()
        self.tab_and_press("#county-more summary")
        self.wait("document.querySelector('#county-more').open")
        self.check_quiet()

    def check_pamlico(self) -> None:
        """Wants with whom Pamlico is in both chambers, and why, in few words that come first."""
        first, second = self.value(SENTENCES)
        # (the groups of 2023; 12,276 people by the census, of an ideal of 208,787.76)
        with_whom = "Carteret, Halifax, Martin, Warren, Chowan, Washington and Hyde"
        self.assertIn(f"In the Senate Pamlico is with {with_whom} (8 counties, 1 seat)", first)
        self.assertIn("It meets these groups only over water.", first)
        self.assertIn("Its 12,276 people are too few for a seat", first)
        self.assertIn("it makes no lawful pair, so it needs at least three counties", first)
        with_whom = "Beaufort, Dare, Currituck, Chowan, Perquimans, Washington, Hyde and Tyrrell"
        self.assertIn(f"In the House it is with {with_whom} (9 counties, 2 seats)", second)
        self.assertIn("For the same reasons it needs at least three counties.", second)
        self.assertNotIn("over water", second)
        self.assertIn("Lawful means that", self.text("#county-card"))
        self.assertLessEqual(self.value(WORDS_BEFORE), MOST_WORDS)

    def check_pamlico_over_water(self) -> None:
        """Wants which neighbors of Pamlico lie over water, and which of its groups."""
        # (data/nc2020/borders_without_an_edge.txt: the Neuse River, and the Pamlico River)
        near = "Beaufort, Carteret (over water), Craven and Hyde (over water)"
        self.assertIn(near, self.text("#county-more"))
        lines = self.value(GROUP_LINES)
        self.assertEqual([OVER_WATER in one for one in lines], [True, True, False, False])

    def test_why_not_by_link(self) -> None:
        self.open("#county/37147/senate/37013")
        told = self.wait_words("#why-answer", "no best grouping has this group")
        self.assertIn("at most eight groups of three counties in place of nine", told)
        self.assertIn("Proved in this page", told)
        self.check_quiet()

    def test_why_not_by_click_and_keys(self) -> None:
        self.open("#county/37063")
        self.click("[name=why-with][value='67']")
        self.click("#why-ask")
        told = self.wait_words("#why-answer", "Not in a best grouping.")
        self.assertIn("473,529 people, 2.27 ideal districts", told)
        self.open("#county/37063")
        self.tab_and_press("[name=why-with][value='67']", " ")
        self.tab_and_press("#why-ask")
        self.wait_words("#why-answer", "Not in a best grouping.")
        self.check_quiet()

    def test_own_counts_by_click_and_keys(self) -> None:
        self.open("#whatif/senate")
        self.click("#people-text")
        self.type_text("Pitt, +86")
        self.click("#solve-again")
        told = self.wait_words(RESULT, "The groups of 2023 aren’t lawful here.")
        self.assertIn("219,229 people are too many for 1 seat", told)
        self.open("#whatif/senate")
        self.tab_to("#people-text")
        self.type_text("PITT COUNTY, +85")
        self.wait_words("#people-note", "10,439,473 people then")
        self.tab_and_press("#solve-again")
        self.wait_words(RESULT, "Nothing changes.")
        self.assertEqual(self.value("location.hash"), "#whatif/senate/people=37147:+85")
        self.check_quiet()

    def test_own_counts_by_link_and_table(self) -> None:
        self.open("#whatif/senate/people=37147:+86")
        self.wait_words(RESULT, "The groups of 2023 aren’t lawful here.")
        rows = "37,0,North Carolina,1\n37,147,Pitt County,175000\n"
        head = "STATE,COUNTY,CTYNAME,POPESTIMATE2025\n"
        self.give("#people-file", self.write("estimates.csv", head + rows))
        self.wait_words("#people-note", "The column “POPESTIMATE2025” was taken.")
        by_name = 'County,July 1 2025\n"Pitt County","175,000"\n'
        self.give("#people-file", self.write("by_name.csv", by_name))
        self.wait_words("#people-note", "The column “July 1 2025” was taken.")
        self.give("#people-file", self.write("two.csv", "County,2024,2025\nPitt,1,2\n"))
        self.wait_words("#people-note", "name the one of people Population")
        self.check_quiet()

    def test_a_plan_by_its_codes(self) -> None:
        groups = (DATA / "senate2023.grouping").read_text(encoding="ascii").split()
        rows, number = ["GEOID20,District"], 0
        for line in groups:
            seats, *codes = line.split("|")
            for at in range(max(int(seats), len(codes))):
                district = number + 1 + at % int(seats)
                rows.append(f"{codes[at % len(codes)]}{at:010},{district}")
            number += int(seats)
        self.open("#files")
        self.tab_to("#plan-file")
        self.give("#plan-file", self.write("plan.csv", "\n".join(rows) + "\n"))
        self.wait_words("#quick", "This plan follows option 6, the groups of 2023.")
        self.check_quiet()


class FaultsOfLinksAndViews(Reader):
    """Faults of the page that was before: links, menus, numbers and words."""

    def test_fault_02_the_menu_is_inside(self) -> None:
        for width in (390, 500, 690):
            self.open("#senate/6", width=width)
            self.click("#downloads summary")
            self.assertTrue(self.value(MENU), width)

    def test_fault_03_links_that_cant_be_read(self) -> None:
        self.open()
        for mark, place in (
            ("#whatif/senate/out=99999:1", RESULT),
            ("#whatif/senate/cut=37041-99999", RESULT),
            ("#whatif/senate/percent=abc", RESULT),
            ("#whatif/senate/percent=-3", RESULT),
            ("#senate/99", "#unreadable"),
        ):
            self.go(mark)
            told = self.wait_words(place, "This link can’t be read")
            self.assertIn("Nothing was answered.", told)
            self.assertEqual(self.value("location.hash"), mark)

    def test_fault_05_no_answer_has_no_map(self) -> None:
        self.open("#whatif/senate/out=37119:1")
        self.wait_words(RESULT, "No grouping is lawful.")
        self.assertIn("Store the certificate", self.text(RESULT))
        self.assertEqual(self.count("#whatif-map .badge"), 0)
        self.open("#whatif/senate/out=37119:50,37183:50")
        self.wait_words(RESULT, "The program refused this.")
        self.assertEqual(self.count("#whatif-map .badge"), 0)
        self.assertIn("without an answer", self.text("#whatif-progress"))

    def test_fault_06_a_form_that_was_changed(self) -> None:
        self.open("#whatif/senate/percent=4")
        self.wait("document.querySelector('#whatif-progress').innerText.includes('Solved in')")
        self.click("#percent")
        self.press("ArrowUp")
        self.wait("!document.querySelector('#whatif-stale').hidden")
        self.click("nav [data-view=proof]")
        self.click("nav [data-view=whatif]")
        self.wait("document.querySelector('#whatif-result').innerText.trim() !== ''")
        self.assertEqual(self.value("location.hash"), "#whatif/senate/percent=4")

    def test_fault_07_any_line_is_spoiled(self) -> None:
        self.open("#proof/senate")
        self.click("#spoil-line")
        self.type_text("2000")
        self.click("#spoil")
        self.wait_words("#check-verdict", "The checker")
        self.assertIn("Spoiled line 2000:", self.text("#check-steps"))

    def test_fault_08_the_source_of_what_was_enacted(self) -> None:
        self.open("#senate/6")
        self.assertIn("S.L. 2023-146", self.text("#option-note"))
        self.assertIn("which groups a plan that was enacted has", self.text("#answer"))
        self.go("#proof/senate")
        self.click("#check")
        self.wait_words("#check-verdict", "The certificate proves it.")
        told = "the groups of 2023 (S.L. 2023-146) are option 6 of them"
        self.assertIn(told, self.text("#check-steps"))

    def test_fault_09_one_numbering(self) -> None:
        self.open("#senate/6")
        areas = self.value(
            "[...document.querySelectorAll('#cards legend')].map((one) => "
            "one.firstChild.textContent.trim())"
        )
        labels = self.value(
            "[...document.querySelectorAll('#map .letter')].map((one) => "
            "one.getAttribute('aria-label'))"
        )
        for at, area in enumerate(areas, 1):
            number, name = area.split(". ")
            self.assertEqual(number, str(at))
            for choice in (1, 2):
                self.assertIn(f"{name}, alternative {choice} of region {number}", labels)
        self.assertIn("region 1, alternative 1", self.text("#table"))
        self.assertEqual(self.value(COUNT_OF.format(json.dumps("#answer .letter + b"))), 0)

    def test_fault_10_plain_words_and_a_control(self) -> None:
        self.open("#whatif/house/people=37005:-209")
        self.wait_words(RESULT, "best")
        self.press_button("#start-over")
        self.value(
            "(() => { const one = document.querySelector('#steps'); one.value = '100000'; "
            "one.dispatchEvent(new Event('change')); })()"
        )
        self.press_button("#solve-again")
        self.wait("document.querySelector('#whatif-result').innerText.trim() !== ''")
        self.assertNotIn("--steps", self.text("#whatif"))

    def test_fault_11_a_blank_percentage(self) -> None:
        self.open("#whatif/senate/percent=")
        self.wait_words(RESULT, "This link can’t be read.")

    def test_fault_12_names_in_any_letters(self) -> None:
        self.open("#files")
        self.click("#grouping-text")
        self.type_text("1 JOHNSTON COUNTY, harnett co.")
        self.click("#judge")
        told = self.wait_words("#judge-result", "No group has")
        self.assertNotIn("is called", told)

    def test_fault_15_the_link_of_a_saved_page(self) -> None:
        self.open("#house/3")
        self.click("#copy")
        told = self.wait_words("#toast", "e")
        self.assertNotIn("file:", told)

    def test_fault_16_back_goes_a_step_back(self) -> None:
        self.open("#senate/6")
        self.click("#next")
        self.click("#next")
        self.wait_words("#option", "Option 8 of 16")
        self.value("history.back()")
        self.wait_words("#option", "Option 7 of 16")

    def test_fault_17_the_people_of_a_county(self) -> None:
        self.open("#senate/6")
        self.click("#map [data-county='68']")
        self.click("#told a[href='#county/37137']")
        self.wait_words("#county-card", "12,276")
        self.open("#senate/6")
        self.tab_to("#map .badge")
        self.tab_and_press("#told a")
        self.wait_words("#county-card", "In the Senate")

    def test_fault_18_sets_one_by_one(self) -> None:
        self.open("#whatif/senate")
        self.click("#whatif-map [data-county='59']")
        self.click("#whatif-map [data-county='91']")
        self.assertEqual(self.count("#taken-sets [data-seats]"), 2)

    def test_fault_20_escape_key_and_the_rest(self) -> None:
        self.open("#senate/6")
        self.tab_and_press("#downloads summary")
        self.wait(LINE_OF_MENU)
        self.press("Escape")
        self.wait(f"!{LINE_OF_MENU}")
        self.assertIn("Its counties meet over water there", self.text("#told"))
        self.assertEqual(self.count("link[rel=icon][href^='data:']"), 1)
        self.assertGreater(self.count(".foot a[href^='https:']"), 0)
        self.assertIn("forced-colors", self.value("document.querySelector('style').textContent"))


class FaultsOfFiles(Reader):
    """Faults of the page that was before: what is read, and what is stored."""

    def solve(self, *more: Path) -> None:
        """Solves the page's files with further ones."""
        self.open("#files")
        self.press_button("#use-own")
        self.wait(FILES)
        for path in more:
            self.give(ANY_FILE, path)
            self.wait_words("#drop-zones", path.name)
        self.press_button("#solve-files")

    def test_fault_01_outlines_that_cant_be_drawn(self) -> None:
        outlines = json.loads((DATA / "county_outlines.geojson").read_text(encoding="utf-8"))
        feet = "geometry", {"type": "Point", "coordinates": [2_000_000, 600_000]}
        for name, change in (("null", ("geometry", None)), ("feet", feet)):
            features = [{**one, change[0]: change[1]} for one in outlines["features"]]
            text = json.dumps({**outlines, "features": features})
            self.solve(self.write(f"{name}.geojson", text))
            self.wait_words("#files-result", "16 best groupings")
            self.assertIn("The outlines can’t be drawn", self.text("#files-table"))
        self.check_quiet()

    def test_fault_04_files_that_dont_belong_together(self) -> None:
        self.solve(STATES / "iowa.adjacency")
        told = self.wait_words("#files-result", "These files don’t belong together.")
        self.assertIn("The file of borders is of Iowa", told)
        self.open("#files")
        for name in ("iowa.geo", "kansas.segment", "iowa.adjacency"):
            self.give(ANY_FILE, STATES / name)
            self.wait_words("#drop-zones", name)
        self.wait(FILES)
        self.press_button("#solve-files")
        told = self.wait_words("#files-result", "These files don’t belong together.")
        self.assertIn("record 99", told)

    def test_fault_13_rings_and_groups(self) -> None:
        self.open("#senate/6")
        for kind, count in (("geojson", 100), ("dissolved", 26)):
            features = json.loads(self.stored(kind))["features"]
            self.assertEqual(len(features), count)
            for feature in features:
                for polygon in feature["geometry"]["coordinates"]:
                    for at, ring in enumerate(polygon):
                        twice = sum(a[0] * b[1] - b[0] * a[1] for a, b in zip(ring, ring[1:]))
                        self.assertEqual(twice > 0, at == 0)

    def test_fault_14_pictures_are_light(self) -> None:
        self.open("#senate/6", dark=True)
        svg = self.stored("svg").decode()
        xml.etree.ElementTree.fromstring(svg)
        self.assertIn('fill="#fff"', svg)
        self.assertRegex(svg, r"page.html#senate/6, \d{4}-\d\d-\d\d\.")
        self.assertIn("nc000012020.pl ", svg)
        self.assertNotIn("rgb(21, 24, 27)", svg)

    def test_fault_19_a_grouping_of_the_other_chamber(self) -> None:
        house = (DATA / "house2023.grouping").read_text(encoding="ascii")
        self.open("#files")
        self.value(f"(document.querySelector('#grouping-text').value = {json.dumps(house)})")
        self.click("#judge")
        told = self.wait_words("#judge-result", "This is a grouping of another chamber.")
        self.assertIn("120 seats", told)

    def test_fault_20_an_archive_of_many_files(self) -> None:
        path = self.room / "many.zip"
        with zipfile.ZipFile(path, "w") as archive:
            for at in range(20_000):
                archive.writestr(f"{at}.txt", "a")
        self.open("#files")
        self.give(ANY_FILE, path)
        self.wait_words("#dropped", "The zip archive has 20,000 files: unpack it")

    def test_fault_20_an_archive_of_three_gigabytes(self) -> None:
        path = self.room / "zeros.zip"
        path.write_bytes(archive_of_zeros("zeros.pl", 3000))
        self.assertLess(path.stat().st_size, 5_000_000)
        self.open("#files")
        self.give(ANY_FILE, path)
        self.wait_words("#dropped", "zeros.pl has 3.0 GB, which is too much to unpack here")


# Texts that would run a script, or make an element, if they were taken as HTML.
ATTACKS = (
    '<img src=x onerror="globalThis.attacked=1" class=attack>',
    '"><svg class=attack onload="globalThis.attacked=1">',
    "'><script class=attack>globalThis.attacked=1</script>",
    '" autofocus onfocus="globalThis.attacked=1" class="attack',
    "</textarea></title></style><b class=attack>x</b>",
    "javascript:globalThis.attacked=1",
    "${globalThis.attacked=1}",
    "<iframe class=attack srcdoc='<script>parent.attacked=1</script>'></iframe>",
    '<a class=attack href="javascript:globalThis.attacked=1">x</a>',
)
UNHARMED = (
    "globalThis.attacked === undefined && document.querySelector('.attack') === null "
    "&& document.querySelector('[onerror], [onload], [onfocus], [href^=\"javascript:\"]') === null"
)
PLACES = (
    "#{}",
    "#senate/{}",
    "#2010/{}",
    "#county/{}",
    "#county/37063/senate/{}",
    "#embed/senate/{}",
    "#proof/{}",
    "#whatif/{}",
    "#whatif/senate/out={}:1",
    "#whatif/senate/add={}",
    "#whatif/senate/percent={}",
    "#whatif/senate/people={}:1",
    "#whatif/senate/{}=1",
)


class Attacks(Reader):
    """No text that comes from outside is taken as HTML."""

    def check_unharmed(self, door: str) -> None:
        """Wants that no script ran, and that no element was made."""
        self.assertTrue(self.value(UNHARMED), door)

    def test_addresses(self) -> None:
        self.open()
        for attack in ATTACKS:
            for place in PLACES:
                for text in (attack, quote(attack, safe="")):
                    self.go(place.format(text))
                    self.check_unharmed(place.format(text))

    def test_what_is_typed(self) -> None:
        for attack in ATTACKS:
            self.open("#whatif/senate")
            self.click("#people-text")
            self.type_text(f"{attack}, 1")
            self.wait("document.querySelector('#people-note').innerText.trim() !== ''")
            self.check_unharmed(f"typed {attack}")
        for attack in ATTACKS:
            self.open("#files")
            self.click("#grouping-text")
            self.type_text(f"1 {attack}, Wake")
            self.click("#judge")
            self.wait("document.querySelector('#judge-result').innerText.trim() !== ''")
            self.check_unharmed(f"judged {attack}")

    def test_files(self) -> None:
        names = [attack.replace("/", "") for attack in ATTACKS]
        self.open("#files")
        for attack, name in zip(ATTACKS, names):
            self.give(ANY_FILE, self.write(f"{name}.txt", f"{attack}\n"))
            self.wait_words("#dropped", name)
            self.check_unharmed(f"file {name}")
        for attack in ATTACKS:
            field = '"' + attack.replace('"', '""') + '"'
            rows = [f"GEOID20,{field}", *(f"37001{at:010},{field}" for at in range(3))]
            self.give("#plan-file", self.write("plan.csv", "\n".join(rows) + "\n"))
            self.wait("document.querySelector('#quick').innerText.trim() !== ''")
            self.check_unharmed(f"plan {attack}")
