"""The views once the program has run: their widths and their pictures."""

from __future__ import annotations

from collections.abc import Callable
from pathlib import Path
from typing import Any

from page_setting import CENSUS, DATA, SETTING, SIDEWAYS, InPage
from plan_sample import make_sample, write_census, write_plan

SOME_FILE = ".drop-zone[data-kind=geo] input"
WIDTHS = (320, 360, 768)
# Letters as wide as those of a reader whose browser has none of the page's typefaces.
WIDE_LETTERS = "document.body.style.letterSpacing = '0.08em'; null"
OPEN_ALL = "document.querySelectorAll('details').forEach((one) => { one.open = true; }); null"


class AfterRuns(InPage):
    """Each view after a run that shows as much as there is."""

    census: tuple[Path, Path]
    plan: Path

    @classmethod
    def setUpClass(cls) -> None:
        super().setUpClass()
        sample = make_sample()
        cls.census = write_census(sample, cls.room)
        blocks = list(sample.district)
        sample.district[blocks[-1]] = sample.district[blocks[0]]
        del sample.district[blocks[100]]
        cls.plan = write_plan(sample, cls.room / "plan.csv")

    def answer(self, **how: Any) -> None:
        """Shows a group on the map, and the whole table."""
        self.open("#senate/3", **how)
        self.value(
            "document.querySelector('#finder').value = '91'; document.querySelector("
            "'#finder').dispatchEvent(new Event('change')); null"
        )

    def proof(self, **how: Any) -> None:
        """Checks the Senate."""
        self.open("#proof/senate", **how)
        self.press_button("#check")
        self.wait_words("#check-verdict", "The certificate proves it.")

    def refusal(self, **how: Any) -> None:
        """Spoils a group of the House's target."""
        self.open("#proof/house", **how)
        self.value("document.querySelector('#spoil-line').value = '6'; null")
        self.press_button("#spoil")
        self.wait_words("#check-verdict", "The checker says no.")

    def borders(self, **how: Any) -> None:
        """Counts a border of the House."""
        self.open("#whatif/house/add=37087-37089", **how)
        self.wait_words("#whatif-result", "Two of the 40 groups are new.")

    def sets(self, **how: Any) -> None:
        """Takes two sets out of the Senate, with another tolerance."""
        self.open("#whatif/senate/out=37119:5,37183:6&percent=4", **how)
        self.wait_words("#whatif-progress", "Solved in")

    def files(self, **how: Any) -> None:
        """Solves a state, judges a grouping that isn't lawful, and audits a plan."""
        self.open("#files", **how)
        self.give(SOME_FILE, *self.census, DATA / CENSUS["adjacency"])
        self.wait("!document.querySelector('#solve-files').disabled")
        self.press_button("#solve-files")
        self.wait_words("#files-result", "16 best groupings")
        self.press_button("#example-mistake")
        self.press_button("#judge")
        self.wait_words("#judge-result", "Not lawful.")
        self.give("#plan-file", self.plan)
        self.wait("!document.querySelector('#audit').disabled")
        self.press_button("#audit")
        self.wait_words("#audit-result", "findings.")

    def views(self) -> dict[str, Callable[..., None]]:
        """Returns the runs by the names of their pictures."""
        return {
            "group": self.answer,
            "checked": self.proof,
            "refused": self.refusal,
            "border": self.borders,
            "withdrawn": self.sets,
            "audited": self.files,
        }

    def test_no_sideways_scrolling(self) -> None:
        for width in WIDTHS:
            for name, ready in self.views().items():
                with self.subTest(f"{name} {width}"):
                    ready(width=width)
                    self.assertLessEqual(self.value(SIDEWAYS), 0)
                    self.value(OPEN_ALL)
                    self.assertLessEqual(self.value(SIDEWAYS), 0, "all unfolded")
                    self.value(WIDE_LETTERS)
                    self.assertLessEqual(self.value(SIDEWAYS), 0, "wide letters")
        self.check_quiet()

    def test_pictures(self) -> None:
        folder = SETTING.pictures
        if folder is None:
            self.skipTest("no folder was named (--pictures)")
        folder.mkdir(parents=True, exist_ok=True)
        for width, dark in ((1400, False), (1400, True), (768, False), (390, False), (390, True)):
            for name, ready in self.views().items():
                ready(width=width, dark=dark)
                dark_word = "-dark" if dark else ""
                self.browser.save_picture(str(folder / f"{name}-{width}{dark_word}.png"))
