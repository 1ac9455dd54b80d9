"""Reads the pages of the documents: their prose, their headings and their links.

Code isn't prose. A block of code is left out, and a span of code counts as one word.
"""
from __future__ import annotations

import os
import re
from dataclasses import dataclass
from typing import Iterator

TOP = os.path.dirname(os.path.dirname(os.path.abspath(__file__)))
FENCE = re.compile(r"^\s*(```|~~~)")
HEADING = re.compile(r"^#{1,6}\s+(.*?)\s*#*$")
ITEM = re.compile(r"^\s*(?:[-*+]|\d+\.)\s+")
SPAN = re.compile(r"(`+)(?:(?!\1).|\n)+?\1")
LINK = re.compile(r"!?\[((?:[^\[\]]|\[[^\]]*\])*)\]\(\s*<?([^()\s>]+)>?(?:\s+\"[^\"]*\")?\s*\)")
DEFINED = re.compile(r"^\[[^\]]+\]:\s+<?(\S+?)>?(?:\s+\"[^\"]*\")?$", re.MULTILINE)
ATTRIBUTE = re.compile(r"<(?:a|img)\b[^>]*?\b(?:href|src)=\"([^\"]+)\"")
ANCHOR = re.compile(r"<a\s+(?:id|name)=\"([^\"]+)\"")
COMMENT = re.compile(r"<!--.*?-->", re.DOTALL)
SENTENCE_END = re.compile(r"(?<=[.!?])[\"')*_]*\s+")


@dataclass(frozen=True)
class Piece:
    """A part of a page, with the number of its first line: a paragraph, an item or a cell."""

    line: int
    text: str


def page_text(page: str) -> str:
    """Returns the text of `page`, a path from the top of the repository.

    Raises `OSError` if it can't be read, and `UnicodeDecodeError` if it isn't UTF-8.
    """
    with open(os.path.join(TOP, page), encoding="utf-8") as file:
        return file.read()


def blanked(found: re.Match[str]) -> str:
    """Returns the line ends of what was found, so that later lines keep their numbers."""
    return "\n" * found.group(0).count("\n")


def lines_without_code(text: str) -> list[str]:
    """Returns the lines of the page `text`. Those of blocks of code and of comments are empty."""
    lines: list[str] = []
    is_code = False
    for line in COMMENT.sub(blanked, text).split("\n"):
        is_fence = FENCE.match(line) is not None
        lines.append("" if is_code or is_fence else line)
        is_code = is_code != is_fence
    return lines


def raw_pieces(text: str) -> Iterator[Piece]:
    """Yields each paragraph, heading, list item and table cell of the page `text`."""
    start, held = 0, ""
    for number, line in enumerate([*lines_without_code(text), ""], start=1):
        is_row, is_heading = line.startswith("|"), HEADING.match(line) is not None
        is_new = not line.strip() or is_row or is_heading or ITEM.match(line) is not None
        if is_new and held:
            yield Piece(start, held)
            held = ""
        if is_row:
            cells = (cell.strip() for cell in line.strip("|").split("|"))
            yield from (Piece(number, cell) for cell in cells if cell.strip("-: "))
        elif is_heading:
            yield Piece(number, line.lstrip("# "))
        elif line.strip():
            start = start if held else number
            held = f"{held} {ITEM.sub('', line).strip()}".strip()


def plain(text: str) -> str:
    """Returns `text` without marks: links as their words, and spans of code as `code`."""
    text = LINK.sub(lambda found: found.group(1), SPAN.sub("`code`", text))
    return text.replace("`", "").replace("*", "")


def prose_of(text: str) -> list[Piece]:
    """Returns the prose of the page `text`, piece by piece, without marks."""
    return [Piece(piece.line, plain(piece.text)) for piece in raw_pieces(text)]


def sentences_of(text: str) -> list[str]:
    """Returns the sentences of a piece's plain `text`."""
    return [sentence for sentence in SENTENCE_END.split(text) if sentence.strip()]


def headings_of(text: str) -> list[str]:
    """Returns the headings of the page `text` as they are written."""
    found = (HEADING.match(line) for line in lines_without_code(text))
    return [heading.group(1) for heading in found if heading is not None]


def slug(heading: str) -> str:
    """Returns the anchor that a code host gives to `heading`."""
    kept = re.sub(r"[^\w\- ]", "", LINK.sub(lambda found: found.group(1), heading))
    return kept.lower().replace(" ", "-")


def anchors_of(text: str) -> set[str]:
    """Returns the anchors of the page `text`. Of equal headings the later ones have a number."""
    seen: dict[str, int] = {}
    anchors = set(ANCHOR.findall(text))
    for heading in headings_of(text):
        name = slug(heading)
        number = seen.get(name, 0)
        anchors.add(f"{name}-{number}" if number else name)
        seen[name] = number + 1
    return anchors


def links_of(text: str) -> list[Piece]:
    """Returns the target of each link and picture of the page `text`, with its line."""
    shown = "\n".join(lines_without_code(text))
    shown = SPAN.sub(lambda found: "\x00" * len(found.group(0)), shown)
    found = [(one.start(), one.group(2)) for one in LINK.finditer(shown)]
    # A picture may be the words of a link, so each link is looked for in these words, too.
    inner = ((one.start(1), one.group(1)) for one in LINK.finditer(shown))
    found += [
        (at + one.start(), one.group(2)) for at, words in inner for one in LINK.finditer(words)
    ]
    for pattern in (DEFINED, ATTRIBUTE):
        found += [(one.start(), one.group(1)) for one in pattern.finditer(shown)]
    return [Piece(shown.count("\n", 0, start) + 1, target) for start, target in sorted(found)]
