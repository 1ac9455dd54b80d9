"""Tests of `doc_links.py`. The pages are made here, and need no program.

usage: python3 tools/test_doc_links.py
"""
from __future__ import annotations

import contextlib
import io
import os
import tempfile
import unittest
from unittest import mock

import doc_links
import markdown_pages

GUIDE = (
    '# Guide\n\n## The files\n\n### A `code` word, and more!\n\n## The files\n\n<a id="here"></a>\n'
)


def wrong_in(text: str) -> list[str]:
    """Returns what is wrong with the links of the page `text`, which is `docs/page.md`.

    Beside it there are `docs/guide.md`, the folder `data`, and a picture `map.svg`.
    """
    with tempfile.TemporaryDirectory() as top:
        for folder in ("docs", "data"):
            os.mkdir(os.path.join(top, folder))
        for name, content in (("page.md", text), ("guide.md", GUIDE), ("map.svg", "")):
            with open(os.path.join(top, "docs", name), "w", encoding="utf-8") as file:
                file.write(content)
        with mock.patch.object(doc_links, "TOP", top), mock.patch.object(
            markdown_pages, "TOP", top
        ):
            return list(doc_links.wrong_links("docs/page.md", text))


class TestLinks(unittest.TestCase):
    """Links that lead somewhere, and links that don't."""

    def test_files_folders_pictures_and_anchors_are_found(self) -> None:
        """Paths begin at the page's folder, and a second heading of one name has a number."""
        anchors = ("the-files", "the-files-1", "a-code-word-and-more", "here")
        targets = ["guide.md", "../data", "map.svg", "#title", "../docs/guide.md"]
        targets += [f"guide.md#{anchor}" for anchor in anchors]
        text = "# Title\n\n" + "\n".join(f"[a]({target})" for target in targets)
        self.assertEqual(wrong_in(text), [])

    def test_a_file_that_is_not_there_is_named_with_its_line(self) -> None:
        """The sentence has the page, the line, the link and the path."""
        wanted = "docs/page.md:3: the link ../gone.md leads nowhere: there is no gone.md"
        self.assertEqual(wrong_in("# Title\n\nSee [this](../gone.md)."), [wanted])

    def test_an_anchor_that_is_not_there_is_found(self) -> None:
        """In another page, and in the page itself."""
        for target in ("guide.md#the-file", "#titles"):
            (wrong,) = wrong_in(f"# Title\n\n[a]({target})\n")
            self.assertIn("has no heading of this anchor", wrong)

    def test_a_link_that_leaves_the_repository_is_refused(self) -> None:
        """Neither the root of a machine nor a folder above is part of it."""
        self.assertIn("it begins at the root", wrong_in("[a](/etc)")[0])
        self.assertIn("it leaves the repository", wrong_in("[a](../../x.md)")[0])

    def test_links_in_code_and_to_other_hosts_are_not_looked_at(self) -> None:
        """A block, a span, and two schemes."""
        text = "`[a](gone.md)`\n\n```\n[a](gone.md)\n```\n[a](https://example.org/x#y)\n"
        self.assertEqual(wrong_in(text + "<mailto:a@example.org> [b](mailto:a@example.org)"), [])

    def test_every_form_of_link_is_looked_at(self) -> None:
        """A definition, an attribute, a picture, and a picture within the words of a link."""
        forms = ("[a]: gone.md", '<a href="gone.md">a</a>', "![a](gone.md)")
        for form in forms:
            self.assertEqual(len(wrong_in(f"{form}\n")), 1, form)
        self.assertEqual(len(wrong_in("[![a](gone.svg)](gone.md)\n")), 2)

    def test_a_target_over_two_lines_of_words_is_found(self) -> None:
        """The words of a link may go on in the next line."""
        self.assertEqual(len(wrong_in("See [these\nwords](gone.md).")), 1)


class TestQuotedTitles(unittest.TestCase):
    """Titles that a page quotes beside the name of a file."""

    def test_a_title_that_is_a_heading_is_fine(self) -> None:
        """Also over the end of a line, and with a comma before the closing quotes."""
        self.assertEqual(wrong_in('See `guide.md`, "The\nfiles", and `guide.md`, "The files,"'), [])

    def test_a_title_that_is_no_heading_is_found(self) -> None:
        """The sentence has the page and the title."""
        wanted = 'docs/page.md:1: docs/guide.md has no heading "Files"'
        self.assertEqual(wrong_in('See `guide.md`, "Files".'), [wanted])

    def test_a_page_that_is_not_there_is_found(self) -> None:
        """It is looked for beside the page, at the top and in docs."""
        self.assertEqual(wrong_in('See `x.md`, "Y".'), ["docs/page.md:1: there is no page x.md"])


class TestMain(unittest.TestCase):
    """The script as a whole."""

    def test_a_page_that_can_not_be_read_is_status_2(self) -> None:
        """One sentence names it."""
        with contextlib.redirect_stderr(io.StringIO()) as errors:
            self.assertEqual(doc_links.main(["nowhere.md"]), 2)
        self.assertTrue(errors.getvalue().startswith("doc_links.py: "))

    def test_the_pages_of_the_repository_are_found(self) -> None:
        """Pages of the top, of docs and of its folders are among them, and none of the crates."""
        pages = doc_links.all_pages()
        for page in ("README.md", "docs/tutorial.md", "docs/how-to/gis.md", "r/README.md"):
            self.assertIn(page, pages)
        self.assertEqual([page for page in pages if page.startswith("crates/")], [])


if __name__ == "__main__":
    unittest.main()
