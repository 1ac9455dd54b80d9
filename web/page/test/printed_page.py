"""What a printed page shows, as far as its PDF tells."""

from __future__ import annotations

import re
import zlib

# A printed map has some 40,000 lines; a page without its shapes has a fifth of them.
LEAST_LINES = 25_000


def lines_drawn(pdf: bytes) -> int:
    """Returns how many straight lines the pages of a PDF draw."""
    found = 0
    for start in re.finditer(rb"stream\r?\n", pdf):
        try:
            content = zlib.decompressobj().decompress(pdf[start.end() :])
        except zlib.error:
            continue
        found += len(re.findall(rb"\sl\s", content))
    return found
