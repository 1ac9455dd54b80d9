"""The keyboard alone: each view from its link to its answer, by the keys that a reader has."""

from __future__ import annotations

import tempfile
from pathlib import Path

from page_setting import DATA, InPage

from installed import NotThere

LETTER = "document.activeElement.matches('#map .letter')"
OTHER = "alternative "
TURNS = ["ArrowUp"] * 8 + ["ArrowRight"] * 12 + ["ArrowUp"] * 4 + ["ArrowRight"] * 12


class Keyboard(InPage):
    """No pointer, and no focus that a script sets."""

    def setUp(self) -> None:
        super().setUp()
        self.open(height=1000)

    def focused(self) -> str:
        """Returns what a screen reader calls the focused element."""
        script = "document.activeElement.getAttribute('aria-label') ?? ''"
        return str(self.value(script))

    def is_on(self) -> bool:
        """Returns whether the focused switch is on already."""
        return bool(self.value("document.activeElement.getAttribute('aria-pressed') === 'true'"))

    def press_on(self, selector: str, key: str = "Enter") -> None:
        """Goes to an element by the Tab key, and presses a key there."""
        self.tab_to(selector)
        self.browser.press(key)

    def test_the_head_is_skipped(self) -> None:
        for mark in ("#house/3", "#proof/house"):
            self.open(mark, height=1000)
            self.press_on(".skip")
            self.assertEqual(self.value("document.activeElement.id"), "main")
            self.assertEqual(self.value("location.hash"), mark)
        self.assertFalse(self.value("document.querySelector('#proof').hidden"))
        self.browser.press("Tab")
        self.assertTrue(self.value("document.activeElement.closest('#proof') !== null"))
        self.check_quiet()

    def test_the_map(self) -> None:
        self.tab_to("#map .badge")
        seen = set()
        for key in ["ArrowRight"] * 12 + ["ArrowUp"] * 6 + ["ArrowRight"] * 4:
            self.browser.press(key)
            seen.add(self.focused())
        self.assertGreater(len(seen), 8)
        for key in TURNS:
            if self.value(LETTER) and OTHER in self.focused() and not self.is_on():
                break
            self.browser.press(key)
        label = self.focused()
        self.assertRegex(label, r"\A\w+, alternative \d of region \d\Z")
        self.browser.press("Enter")
        self.assertNotEqual(self.text("#option"), "Option 6 of 16")
        self.assertEqual(self.focused(), label)
        told = self.value("document.querySelector('#live').textContent")
        self.assertIn(label, told)
        self.check_quiet()

    def test_a_group_is_pinned(self) -> None:
        self.press_on("#map .badge")
        self.assertIn("people per seat", self.text("#told"))
        self.browser.press("Escape")
        self.assertIn("An area where there is a choice", self.text("#told"))

    def test_options_chamber_and_downloads(self) -> None:
        self.press_on("#next")
        self.assertEqual(self.text("#option"), "Option 7 of 16")
        self.browser.press("Tab", is_shifted=True)
        self.browser.press("Enter")
        self.assertEqual(self.text("#option"), "Option 6 of 16")
        self.press_on("#cards input", "ArrowRight")
        self.assertNotEqual(self.text("#option"), "Option 6 of 16")
        self.press_on("#chambers [data-chamber=house]")
        self.wait_words("#option", "Option 7 of 8")
        self.press_on("#downloads summary")
        self.browser.press("Escape")
        self.assertFalse(self.value("document.querySelector('#downloads').open"))
        self.browser.press("Enter")
        self.tab_to("[data-download=grouping]")
        with tempfile.TemporaryDirectory(dir=self.room) as folder:
            self.browser.allow_downloads(folder)
            self.browser.press("Enter")
            stored = Path(self.browser.downloaded(folder)).read_text(encoding="ascii")
        enacted = (DATA / "house2023.grouping").read_text(encoding="ascii")
        self.assertEqual(sorted(stored.split()), sorted(enacted.split()))
        self.check_quiet()

    def test_the_proof(self) -> None:
        self.press_on("nav [data-view=proof]")
        self.press_on("#proof-chambers [data-chamber=house]")
        self.press_on("#check")
        self.wait_words("#check-verdict", "The certificate proves it.")
        self.press_on("#certificate-fold summary")
        self.tab_to("#certificate-lines")
        self.check_quiet()

    def test_a_what_if(self) -> None:
        self.press_on("nav [data-view=whatif]")
        self.press_on("#whatif-county", "ArrowDown")
        self.press_on("#take-out")
        self.assertIn("Alexander", self.text("#taken-sets"))
        self.press_on("#taken-sets [data-back]")
        self.assertEqual(self.text("#taken-sets"), "")
        self.press_on("#disputed input", " ")
        self.press_on("#solve-again")
        self.wait_words("#whatif-progress", "Solved in")
        self.assertEqual(self.text("#whatif-table tbody tr td:nth-child(3)"), "8")
        self.assertEqual(self.value("location.hash"), "#whatif/senate/cut=37041-37187")
        self.check_quiet()

    def test_another_pair(self) -> None:
        self.press_on("nav [data-view=whatif]")
        self.press_on("#other-pair summary")
        # (Alamance with Alexander, the next one, which lies far from it)
        self.press_on("#other-pair label + label select", "ArrowDown")
        self.assertIn("Alamance and Alexander don’t count", self.text("#pair-note"))
        self.press_on("#change-pair")
        self.assertIn("Alamance–Alexander counted", self.text("#changed-pairs"))
        self.press_on("#changed-pairs [data-undo]")
        self.assertEqual(self.text("#changed-pairs"), "")
        self.check_quiet()

    def test_a_border_that_decides(self) -> None:
        self.press_on("nav [data-view=whatif]")
        if self.value("document.querySelector('#deciding').hidden"):
            raise NotThere("this page was made without the tables of borders (--tables)")
        self.press_on("#deciding details:last-of-type summary")
        self.press_on("#deciding details:last-of-type a")
        told = self.wait_words("#whatif-result", "of the 16 best groupings are left.")
        self.assertIn("The groups of 2023 are among the best here.", told)
        self.assertTrue(self.value("location.hash").startswith("#whatif/senate/cut=37"))
        self.check_quiet()

    def test_the_files(self) -> None:
        self.press_on("nav [data-view=files]")
        for kind in ("geo", "segment", "adjacency", "outlines"):
            self.tab_to(f".drop-zone[data-kind={kind}] input")
        self.press_on("#use-own")
        self.wait("!document.querySelector('#solve-files').disabled")
        self.browser.press("Tab", is_shifted=True)
        self.browser.press("Enter")
        self.wait_words("#files-result", "16 best groupings")
        self.press_on("#example-enacted")
        self.press_on("#judge")
        self.wait_words("#judge-result", "Lawful, and best.")
        self.tab_to("#plan-file")
        self.check_quiet()
