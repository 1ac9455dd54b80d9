#!/usr/bin/env python3
"""Finds words in the documents that a reader doesn't know, and sentences that are too long.

usage: python3 tools/prose.py [--words FILE] [PAGE ..]

PAGE: the pages, as paths from the top of the repository; by default `README.md`,
`CONTRIBUTING.md` and each page of `docs/`.
--words FILE: the words that are refused, and the exceptions; by default `tools/prose_words.txt`,
whose first lines explain its form.

A page is wrong if it contains a refused word, a sentence of more than 30 words, or a line of more
than 120 characters that isn't a row of a table. Code is left out, and counts as one word of its
sentence. An exception that allows nothing is wrong, too, if its page is looked at.

Without PAGE, all pages together may have at most 22,000 words, as `wc -w` counts them.

Statuses: 0 nothing is wrong, 1 something is, 2 the arguments or the file of words can't be used.
"""
from __future__ import annotations

import os
import re
import sys
from dataclasses import dataclass
from typing import Iterable, Iterator, Optional

from markdown_pages import TOP, lines_without_code, page_text, prose_of, sentences_of
from script_words import ScriptWords

WORDS_FILE = os.path.join(TOP, "tools", "prose_words.txt")
WORD = re.compile(r"word (.+?) -> (.+)")
EXCEPTION = re.compile(r"except (\S+): (.+?) -> (.+)")
MOST_WORDS, MOST_CHARACTERS, MOST_WORDS_IN_ALL = 30, 120, 22_000


class BadWords(Exception):
    """The file of words can't be used; the text says why."""


@dataclass(frozen=True)
class Refused:
    """A pattern of refused words, and what to write in their place."""

    pattern: re.Pattern[str]
    advice: str


@dataclass(frozen=True)
class Allowed:
    """Words that a page may contain although a pattern refuses them."""

    page: str
    text: str


@dataclass(frozen=True)
class Rules:
    """What the file of words contains."""

    refused: tuple[Refused, ...]
    allowed: tuple[Allowed, ...]


@dataclass(frozen=True)
class Finding:
    """What is wrong with a page, and at which line. The line is 0 if it is the page as a whole."""

    page: str
    line: int
    text: str

    def __str__(self) -> str:
        """Returns the finding as a line for a person."""
        return f"{self.page}:{self.line}: {self.text}"


def read_rules(text: str) -> Rules:
    """Returns the rules in the `text` of a file of words.

    Raises `BadWords` at the first line that is neither blank, a comment, a word nor an exception,
    and at a pattern that is no regular expression.
    """
    refused: list[Refused] = []
    allowed: list[Allowed] = []
    for number, line in enumerate(text.splitlines(), start=1):
        word, exception = WORD.fullmatch(line), EXCEPTION.fullmatch(line)
        if word is not None:
            try:
                pattern = re.compile(rf"\b(?:{word.group(1)})\b", re.IGNORECASE)
            except re.error as error:
                raise BadWords(f"line {number}: {error}") from error
            refused.append(Refused(pattern, word.group(2)))
        elif exception is not None:
            allowed.append(Allowed(exception.group(1), exception.group(2)))
        elif line.strip() and not line.startswith("#"):
            raise BadWords(f"line {number} is neither a word nor an exception: {line}")
    return Rules(tuple(refused), tuple(allowed))


def wrong_words(page: str, text: str, rules: Rules) -> Iterator[Finding]:
    """Yields each refused word in the `text` of `page`, and each exception that allows nothing."""
    unused = {one.text for one in rules.allowed if one.page == page}
    allowed = sorted(unused)
    for piece in prose_of(text):
        left = piece.text
        for exception in allowed:
            if exception in left:
                unused.discard(exception)
                left = left.replace(exception, "\x00")
        for refused in rules.refused:
            for found in refused.pattern.finditer(left):
                yield Finding(page, piece.line, f"`{found.group(0)}` -> {refused.advice}")
    for exception in sorted(unused):
        yield Finding(page, 0, f"the exception `{exception}` allows nothing")


def long_sentences(page: str, text: str) -> Iterator[Finding]:
    """Yields each sentence of more than `MOST_WORDS` words in the `text` of `page`."""
    for piece in prose_of(text):
        for sentence in sentences_of(piece.text):
            number = len(re.findall(r"\w[\w'’.,/-]*", sentence))
            if number > MOST_WORDS:
                begun = " ".join(sentence.split()[:6])
                yield Finding(page, piece.line, f"a sentence of {number} words: {begun} ..")


def long_lines(page: str, text: str) -> Iterator[Finding]:
    """Yields each line of more than `MOST_CHARACTERS` characters in the `text` of `page`."""
    for number, line in enumerate(lines_without_code(text), start=1):
        if len(line) > MOST_CHARACTERS and not line.startswith("|"):
            yield Finding(page, number, f"a line of {len(line)} characters")


def findings_of(page: str, text: str, rules: Rules) -> list[Finding]:
    """Returns all that is wrong with the `text` of `page`."""
    return [
        *wrong_words(page, text, rules),
        *long_sentences(page, text),
        *long_lines(page, text),
    ]


def default_pages() -> list[str]:
    """Returns the pages that are looked at if none is named, as paths from the top."""
    docs = os.path.join(TOP, "docs")
    paths = (os.path.join(place, name) for place, _, names in os.walk(docs) for name in names)
    pages = (os.path.relpath(path, TOP).replace(os.sep, "/") for path in paths)
    return ["README.md", "CONTRIBUTING.md", *sorted(one for one in pages if one.endswith(".md"))]


def words_in(text: str) -> int:
    """Returns how many words `wc -w` counts in the page `text`: what blanks separate."""
    return len(text.split())


def too_many_words(texts: Iterable[str]) -> list[Finding]:
    """Returns a finding if the `texts` of all pages have more words than is allowed together."""
    number = sum(map(words_in, texts))
    if number <= MOST_WORDS_IN_ALL:
        return []
    return [Finding("docs", 0, f"{number} words in all, and at most {MOST_WORDS_IN_ALL} may be")]


def main(words: Optional[list[str]] = None) -> int:
    """Looks at the pages, and returns the status to end with."""
    parser = ScriptWords(__doc__)
    parser.add_argument("--words", default=WORDS_FILE, metavar="FILE")
    parser.add_argument("pages", nargs="*", metavar="PAGE")
    asked = parser.parse_args(words)
    try:
        with open(asked.words, encoding="utf-8") as file:
            rules = read_rules(file.read())
        texts = {page: page_text(page) for page in asked.pages or default_pages()}
    except (OSError, UnicodeDecodeError, BadWords) as error:
        print(f"prose.py: {error}", file=sys.stderr)
        return 2
    found = [one for page, text in texts.items() for one in findings_of(page, text, rules)]
    found += [] if asked.pages else too_many_words(texts.values())
    for finding in found:
        print(finding, file=sys.stderr)
    print(f"the prose of {len(texts)} pages: {len(found)} wrong")
    return 1 if found else 0


if __name__ == "__main__":
    sys.exit(main())
