"""Tests of `prose.py` and `markdown_pages.py`. The pages are made here, and need no program.

usage: python3 tools/test_prose.py
"""
from __future__ import annotations

import contextlib
import io
import os
import tempfile
import unittest

import markdown_pages
import prose

RULES = """# A comment.

word lesser -> smaller
word mended|mends? -> fixed
word that of|those of -> repeat the noun
except a.md: those of Wake -> a name
"""


def found_in(text: str, page: str = "b.md") -> list[str]:
    """Returns what is wrong with the page `text`, each finding as a line."""
    return [str(one) for one in prose.findings_of(page, text, prose.read_rules(RULES))]


class TestWords(unittest.TestCase):
    """Refused words, where they are found and where they aren't."""

    def test_a_word_is_found_with_its_line_and_advice(self) -> None:
        """A finding names the page, the first line of the paragraph, and what to write."""
        self.assertEqual(found_in("# Title\n\nThe lesser one."), ["b.md:3: `lesser` -> smaller"])

    def test_whole_words_alone_are_found_in_any_case(self) -> None:
        """A longer word that contains the refused one is fine."""
        self.assertEqual(found_in("A lesserness."), [])
        self.assertEqual(found_in("Mended by us."), ["b.md:1: `Mended` -> fixed"])

    def test_words_are_found_over_the_end_of_a_line(self) -> None:
        """The lines of a paragraph are one text."""
        self.assertEqual(
            found_in("It is that\nof the file."), ["b.md:1: `that of` -> repeat the noun"]
        )

    def test_code_comments_and_targets_are_left_out(self) -> None:
        """Neither spans nor blocks of code, comments or targets of links are prose."""
        text = "A `lesser` one, [here](lesser.md).\n\n```\nlesser\n```\n<!-- lesser -->\n"
        self.assertEqual(found_in(text), [])

    def test_items_cells_headings_and_words_of_links_are_prose(self) -> None:
        """Each of them is looked at, with its own line."""
        text = "# lesser\n\n- one\n- lesser\n\n| a | lesser |\n|---|---|\n\n[lesser](b.md)\n"
        lines = [one.split(":")[1] for one in found_in(text)]
        self.assertEqual(lines, ["1", "4", "6", "9"])

    def test_an_exception_allows_its_words_in_its_page_alone(self) -> None:
        """The same words are refused elsewhere, and other words in the page, too."""
        self.assertEqual(found_in("It has those of Wake.", "a.md"), [])
        self.assertEqual(len(found_in("It has those of Wake.")), 1)
        text = "It has those of Wake, and those of Pitt."
        self.assertEqual(found_in(text, "a.md"), ["a.md:1: `those of` -> repeat the noun"])

    def test_an_exception_that_allows_nothing_is_wrong(self) -> None:
        """A page without the words of its exception has a finding of its own."""
        wanted = ["a.md:0: the exception `those of Wake` allows nothing"]
        self.assertEqual(found_in("All is well.", "a.md"), wanted)


class TestLengths(unittest.TestCase):
    """Sentences of 30 words and lines of 120 characters are the longest."""

    def test_a_sentence_of_31_words_is_too_long(self) -> None:
        """Thirty words are fine, and a full stop begins to count anew."""
        half = " ".join(["word"] * 15)
        self.assertEqual(found_in(f"{half}\n{half}.\n{half}\n{half}."), [])
        (wrong,) = found_in(f"{half}\n{half}\nmore.")
        self.assertIn("a sentence of 31 words: word word", wrong)

    def test_code_counts_as_one_word(self) -> None:
        """A command within a sentence doesn't make it long."""
        self.assertEqual(found_in(f"Run `{'a ' * 40}` now."), [])

    def test_a_line_of_121_characters_is_too_long(self) -> None:
        """A row of a table and a line of code may be longer."""
        self.assertEqual(found_in("a" * 120), [])
        self.assertEqual(found_in("a" * 121), ["b.md:1: a line of 121 characters"])
        self.assertEqual(found_in(f"| {'a' * 121} |\n|---|\n\n```\n{'a' * 121}\n```\n"), [])


class TestWholes(unittest.TestCase):
    """All pages together."""

    def test_more_words_than_allowed_are_one_finding(self) -> None:
        """The greatest allowed number is fine."""
        most = "word " * prose.MOST_WORDS_IN_ALL
        self.assertEqual(prose.too_many_words([most]), [])
        (wrong,) = prose.too_many_words([most, "word"])
        self.assertIn("22001 words in all", str(wrong))

    def test_the_pages_of_all_folders_of_docs_are_taken(self) -> None:
        """So are both pages of the top."""
        pages = prose.default_pages()
        for page in ("README.md", "CONTRIBUTING.md", "docs/faq.md", "docs/how-to/gis.md"):
            self.assertIn(page, pages)


class TestRules(unittest.TestCase):
    """The file of words."""

    def test_a_line_of_another_form_is_refused(self) -> None:
        """The error names the line."""
        with self.assertRaisesRegex(prose.BadWords, "line 2 is neither"):
            prose.read_rules("# a\nlesser\n")

    def test_a_pattern_that_is_no_expression_is_refused(self) -> None:
        """The error names the line."""
        with self.assertRaisesRegex(prose.BadWords, "line 1: "):
            prose.read_rules("word a( -> b\n")

    def test_the_files_of_the_repository_can_be_used(self) -> None:
        """No page is wrong, and the file of words is there."""
        with contextlib.redirect_stdout(io.StringIO()) as printed:
            with contextlib.redirect_stderr(io.StringIO()) as errors:
                status = prose.main([])
        self.assertIn(f"the prose of {len(prose.default_pages())} pages", printed.getvalue())
        self.assertEqual((status, errors.getvalue()), (0, ""))

    def test_a_page_or_a_file_that_is_not_there_is_status_2(self) -> None:
        """One sentence names the file."""
        with tempfile.TemporaryDirectory() as folder:
            for words in (["nowhere.md"], ["--words", os.path.join(folder, "none"), "README.md"]):
                with contextlib.redirect_stderr(io.StringIO()) as errors:
                    self.assertEqual(prose.main(words), 2)
                self.assertTrue(errors.getvalue().startswith("prose.py: "))


class TestPages(unittest.TestCase):
    """The parts of a page."""

    def test_sentences_end_at_a_full_stop_a_question_or_a_call(self) -> None:
        """A stop without a blank after it ends no sentence."""
        text = "One. Is it? It is! Version 1.5 is."
        self.assertEqual(
            markdown_pages.sentences_of(text), ["One.", "Is it?", "It is!", "Version 1.5 is."]
        )

    def test_a_paragraph_ends_at_a_list_and_a_table(self) -> None:
        """Each item and each cell is a piece of its own, with its line."""
        text = "a\nb\n- c\n  d\n1. e\n| f | g |\n|---|---|\nh\n"
        pieces = [(piece.line, piece.text) for piece in markdown_pages.prose_of(text)]
        wanted = [(1, "a b"), (3, "c d"), (5, "e"), (6, "f"), (6, "g"), (8, "h")]
        self.assertEqual(pieces, wanted)


if __name__ == "__main__":
    unittest.main()
