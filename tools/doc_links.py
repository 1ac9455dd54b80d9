#!/usr/bin/env python3
"""Finds links of the documents that lead nowhere.

usage: python3 tools/doc_links.py [PAGE ..]

PAGE: the pages, as paths from the top of the repository; by default each `.md` file of the top and
of `FOLDERS`.

A link has to lead to a file or a folder of the repository. Its anchor has to be that of a heading,
if it leads to such a page. A quoted title, as in `guide.md`, "The files", has to be a heading of
that page. Links to other hosts aren't opened; the last line contains their number.

Statuses: 0 each link leads somewhere, 1 one doesn't, 2 the arguments can't be used.
"""
from __future__ import annotations

import os
import re
import sys
import urllib.parse
from typing import Iterator, Optional

from markdown_pages import TOP, Piece, anchors_of, headings_of, lines_without_code, links_of
from markdown_pages import page_text
from script_words import ScriptWords

FOLDERS = (
    "bench",
    "cases",
    "completions",
    "data",
    "docs",
    "packaging",
    "python",
    "r",
    "tools",
    "web",
)
SCHEME = re.compile(r"[a-z][a-z0-9+.-]*:", re.IGNORECASE)
QUOTED = re.compile(r"`([\w./-]+\.md)`,\s+\"([^\"]+)\"")


def all_pages() -> list[str]:
    """Returns each page of the documents, as a path from the top of the repository."""
    found = [name for name in os.listdir(TOP) if name.endswith(".md")]
    for folder in FOLDERS:
        for place, _, names in os.walk(os.path.join(TOP, folder)):
            paths = (os.path.join(place, name) for name in names if name.endswith(".md"))
            found += [os.path.relpath(path, TOP) for path in paths]
    return sorted(found)


def is_outside(target: str) -> bool:
    """Returns whether the link `target` names another host or a scheme of its own."""
    return SCHEME.match(target) is not None or target.startswith("//")


def fault_of_link(page: str, target: str) -> Optional[str]:
    """Returns why the link `target` of `page` leads nowhere, or None if it leads somewhere."""
    path, _, anchor = urllib.parse.unquote(target).partition("#")
    if path.startswith("/"):
        return "it begins at the root of a machine"
    place = os.path.normpath(os.path.join(os.path.dirname(page), path)) if path else page
    if place.startswith(".."):
        return "it leaves the repository"
    if not os.path.exists(os.path.join(TOP, place)):
        return f"there is no {place}"
    if anchor and place.endswith(".md") and anchor not in anchors_of(page_text(place)):
        return f"{place} has no heading of this anchor"
    return None


def quoted_page(page: str, name: str) -> Optional[str]:
    """Returns the page that `page` means by the file name `name`, or None if there is none."""
    for folder in (os.path.dirname(page), "", "docs"):
        place = os.path.normpath(os.path.join(folder, name))
        if os.path.isfile(os.path.join(TOP, place)):
            return place
    return None


def quoted_titles(text: str) -> list[tuple[Piece, str]]:
    """Returns each quoted title of the page `text`: its place with the file's name, and it."""
    shown = "\n".join(lines_without_code(text))
    return [
        (Piece(shown.count("\n", 0, one.start()) + 1, one.group(1)), " ".join(one.group(2).split()))
        for one in QUOTED.finditer(shown)
    ]


def wrong_links(page: str, text: str) -> Iterator[str]:
    """Yields a sentence for each link and each quoted title of `page` that leads nowhere."""
    for link in links_of(text):
        fault = None if is_outside(link.text) else fault_of_link(page, link.text)
        if fault is not None:
            yield f"{page}:{link.line}: the link {link.text} leads nowhere: {fault}"
    for named, title in quoted_titles(text):
        place = quoted_page(page, named.text)
        if place is None:
            yield f"{page}:{named.line}: there is no page {named.text}"
        elif title.rstrip(".,") not in headings_of(page_text(place)):
            yield f'{page}:{named.line}: {place} has no heading "{title}"'


def main(words: Optional[list[str]] = None) -> int:
    """Looks at the links of the pages, and returns the status to end with."""
    parser = ScriptWords(__doc__)
    parser.add_argument("pages", nargs="*", metavar="PAGE")
    asked = parser.parse_args(words)
    try:
        texts = {page: page_text(page) for page in asked.pages or all_pages()}
    except (OSError, UnicodeDecodeError) as error:
        print(f"doc_links.py: {error}", file=sys.stderr)
        return 2
    wrong = [one for page, text in texts.items() for one in wrong_links(page, text)]
    for sentence in wrong:
        print(sentence, file=sys.stderr)
    links = [link.text for text in texts.values() for link in links_of(text)]
    outside = sum(map(is_outside, links))
    print(f"{len(texts)} pages, {len(links)} links, {len(wrong)} wrong, {outside} not opened")
    return 1 if wrong else 0


if __name__ == "__main__":
    sys.exit(main())
