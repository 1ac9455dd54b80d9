"""Reads tables as other programs export them.

A table is a text with commas, semicolons, tabs or pipes, in UTF-8, UTF-16 or Latin-1, or a DBF. It
may be packed by gzip or zip. What can't be used is refused with one sentence, which names the file
and the line. A text is decoded line by line, so that it takes little more memory than its bytes.
"""
from __future__ import annotations

import codecs
import csv
import io
import itertools
import re
from dataclasses import dataclass
from typing import Callable, Iterable, Iterator, List, Optional, Tuple

from dbase_table import is_dbase, read_layout, read_records
from packed_file import Source, read_source
from refusal import Refused, printable

DELIMITERS = "\t|;,"
SAMPLE_LINES = 20
END_OF_FILE = "\x1a"
SHOWN = 40
MOST_ROW_SIGNS = 1_048_576
DECODED_BYTES = 1_048_576
MARKS = {
    codecs.BOM_UTF8: "utf-8",
    codecs.BOM_UTF16_LE: "utf-16-le",
    codecs.BOM_UTF16_BE: "utf-16-be",
}
PROTECTED = re.compile(r"=\"(.*)\"|'(.*)")
WHOLE = re.compile(r"([0-9]+)\.0*")
CENSUS_PREFIX = re.compile(r"[0-9A-Z]{7}US(?=[0-9])")
SCIENTIFIC = re.compile(r"[0-9]+([.,][0-9]*)?[eE]\+?[0-9]+")
DIGITS = re.compile(r"[0-9]+")

NumberedRow = Tuple[int, List[str]]


@dataclass(frozen=True)
class Table:
    """A table: `rows` has the number and the fields of each row below the header.

    `unit` is what the numbers count, `line` or `record`. `columns` has the names of the columns, or
    is None without a header. `first` has the fields of the first row, header or not.
    """

    name: str
    unit: str
    columns: Optional[List[str]]
    first: List[str]
    rows: Iterator[NumberedRow]

    def place(self, number: int) -> str:
        """Returns the beginning of a sentence on a row."""
        return f"{self.unit.capitalize()} {number} of {self.name}"


def read_table(path: str, member: Optional[str], is_key: Callable[[str], bool]) -> Table:
    """Returns the table in the file at `path`, or in the member `member` of a zip.

    `is_key` says whether a field is the code of a row: a first row that has one is no header.
    Raises `Refused` if the file is no table, or has no row.
    """
    return table_of(read_source(path, member), is_key)


def table_of(source: Source, is_key: Callable[[str], bool]) -> Table:
    """Returns the table that a file holds.

    `is_key` says whether a field is the code of a row: a first row that has one is no header.
    Raises `Refused` if the file is no table, or has no row.
    """
    is_dbf = is_dbase(source.data)
    rows = dbase_rows(source) if is_dbf else text_rows(source)
    first = next(rows, None)
    if first is None:
        raise Refused(f"The file {source.name} has no line.")
    unit = "record" if is_dbf else "line"
    has_header = is_dbf or not any(is_key(plain(field)) for field in first[1])
    if not has_header:
        below = full_rows(source, unit, len(first[1]), itertools.chain([first], rows))
        return Table(source.name, unit, None, first[1], below)
    second = next(rows, None)
    columns = named_columns(first[1], second[1] if second else [])
    following = itertools.chain([second] if second else [], rows)
    below = full_rows(source, unit, len(columns), following)
    return Table(source.name, unit, columns, columns, below)


def named_columns(names: List[str], fields: List[str]) -> List[str]:
    """Returns the names of the columns, given those of a header and the fields below it.

    If there is one field more than names, R wrote the table, whose first column is without a name.
    """
    has_row_names = len(fields) == len(names) + 1 and fields[-1].strip() != ""
    return [*([""] if has_row_names else []), *(name.strip() for name in names)]


def full_rows(
    source: Source, unit: str, width: int, rows: Iterable[NumberedRow]
) -> Iterator[NumberedRow]:
    """Yields the rows, each with `width` fields; further empty fields are dropped.

    Raises `Refused` at a row with fewer or more fields.
    """
    for number, fields in rows:
        if len(fields) != width:
            if len(fields) < width or any(fields[width:]):
                told = f"has another number of fields ({len(fields)}) than the first ({width})"
                remedy = ": quote a field that has a delimiter in it" if unit == "line" else ""
                raise Refused(f"{unit.capitalize()} {number} of {source.name} {told}{remedy}.")
            fields = fields[:width]
        yield number, fields


def dbase_rows(source: Source) -> Iterator[NumberedRow]:
    """Yields the names of the columns of a DBF as row 0, and then each record."""
    layout = read_layout(source)
    yield 0, [decoded(column.name) for column in layout.columns]
    for number, fields in read_records(source, layout):
        yield number, [decoded(field) for field in fields]


def decoded(data: bytes) -> str:
    """Returns a text by its byte order mark or its zero bytes, else as UTF-8 or Latin-1."""
    encoding, start = encoding_of(data)
    return data[start:].decode(encoding, errors="replace")


def encoding_of(data: bytes) -> Tuple[str, int]:
    """Returns the encoding of a text, and the number of bytes of its byte order mark."""
    for mark, encoding in MARKS.items():
        if data.startswith(mark):
            return encoding, len(mark)
    for start, encoding in ((0, "utf-16-be"), (1, "utf-16-le")):
        if len(data) > 3 and data[start : start + 1] == data[start + 2 : start + 3] == b"\0":
            return encoding, 0
    return ("utf-8" if is_utf8(data) else "latin-1"), 0


def is_utf8(data: bytes) -> bool:
    """Returns whether bytes are UTF-8. They are decoded piece by piece, and nothing is kept."""
    decoder = codecs.getincrementaldecoder("utf-8")()
    try:
        for start in range(0, len(data), DECODED_BYTES):
            decoder.decode(data[start : start + DECODED_BYTES])
        decoder.decode(b"", final=True)
    except UnicodeDecodeError:
        return False
    return True


def text_lines(source: Source) -> Iterator[str]:
    """Yields the lines of a text with their ends, but for an end of file (0x1A) at the last one.

    Of a line with more than 1,048,576 characters it yields the beginning, which is longer than
    that. Raises `Refused` at a line with a zero.
    """
    encoding, start = encoding_of(source.data)
    data = io.BytesIO(source.data)
    data.seek(start)
    text = io.TextIOWrapper(data, encoding=encoding, errors="replace", newline="")
    while True:
        line = text.readline(MOST_ROW_SIGNS + 1)
        if "\0" in line:
            raise no_text(source)
        if not line:
            return
        yield line.rstrip(END_OF_FILE)


class RowLines:
    """The lines of a text for a reader of rows. A row may take 1,048,576 characters of them.

    `begin` has to be called before each row. `number` is that of the last line that was taken.
    """

    def __init__(self, source: Source) -> None:
        self.source, self.lines = source, text_lines(source)
        self.number = self.first = self.signs = 0

    def begin(self) -> None:
        """Says that the next line is the first one of a row."""
        self.first, self.signs = self.number + 1, 0

    def __iter__(self) -> "RowLines":
        return self

    def __next__(self) -> str:
        line = next(self.lines)
        self.number, self.signs = self.number + 1, self.signs + len(line)
        if self.signs > MOST_ROW_SIGNS:
            told = f"begins a row of more than {MOST_ROW_SIGNS:,} characters"
            raise Refused(f"Line {self.first} of {self.source.name} {told}.")
        return line


def no_text(source: Source) -> Refused:
    """Returns the refusal of a file that is no text."""
    return Refused(f"The file {source.name} is no text: export the table as CSV.")


def text_rows(source: Source) -> Iterator[NumberedRow]:
    """Yields the number and the fields of each row of a text that isn't blank.

    Raises `Refused` if the text has zero bytes, is JSON, or has a quote or a line at fault.
    """
    if b"\0" in source.data and not encoding_of(source.data)[0].startswith("utf-16"):
        raise no_text(source)
    sample = list(itertools.islice(text_lines(source), SAMPLE_LINES))
    if "".join(sample).lstrip()[:1] in ("{", "["):
        raise Refused(f"The file {source.name} is JSON, and no table: export it as CSV.")
    lines, delimiter = RowLines(source), delimiter_of(sample)
    reader = csv.reader(lines, delimiter=delimiter, skipinitialspace=True, strict=True)
    while True:
        lines.begin()
        try:
            fields = next(reader, None)
        except csv.Error as fault:
            told = row_fault(fault, lines.number - lines.first + 1)
            raise Refused(f"Line {lines.first} of {source.name} {told}.") from fault
        if fields is None:
            return
        if any(field.strip() for field in fields):
            yield lines.number, fields


def row_fault(fault: csv.Error, lines: int) -> str:
    """Returns what is wrong with a row of so many lines at which a reader raised `fault`."""
    if "field limit" not in str(fault):
        return "has a quote that isn't closed, or that isn't at the end of its field"
    most = csv.field_size_limit()
    if lines > 1:
        return f"has a quote that isn't closed within {most:,} characters"
    return f"has a field of more than {most:,} characters"


def delimiter_of(lines: List[str]) -> str:
    """Returns the delimiter of a text that begins with `lines`.

    It is the one by which these lines have the same number of fields, and most fields.
    """
    best, found = (False, 1), ","
    for delimiter in DELIMITERS:
        counts = field_counts(lines, delimiter)
        if counts and counts[0] > 1:
            rank = len(set(counts)) == 1, counts[0]
            if rank > best:
                best, found = rank, delimiter
    return found


def field_counts(lines: List[str], delimiter: str) -> List[int]:
    """Returns how many fields each row of some lines has that isn't blank, up to one at fault."""
    counts: List[int] = []
    try:
        for row in csv.reader(lines, delimiter=delimiter, skipinitialspace=True):
            if any(row):
                counts.append(len(row))
    except csv.Error:
        pass
    return counts


def plain(field: str) -> str:
    """Returns a field without what spreadsheets put around a code or a label.

    Blanks around it go, `="001"` and `'001` are `001`, and the whole number `12.0` is `12`.
    """
    text = field.strip()
    protected = PROTECTED.fullmatch(text)
    if protected:
        text = (protected.group(1) or protected.group(2) or "").strip()
    whole = WHOLE.fullmatch(text)
    return whole.group(1) if whole else text


def plain_code(field: str) -> str:
    """Returns a code as `plain` does, and without what the Census Bureau puts before it.

    `1000000US370010201001000` is `370010201001000`.
    """
    return CENSUS_PREFIX.sub("", plain(field), count=1)


def is_digits(text: str, *lengths: int) -> bool:
    """Returns whether a text is ASCII digits alone, and has one of `lengths` of them."""
    return len(text) in lengths and DIGITS.fullmatch(text) is not None


def shown(text: str) -> str:
    """Returns a text between backticks, cut at 40 characters, without control characters."""
    told = printable(text)
    return f"`{told}`" if len(told) <= SHOWN else f"`{told[:SHOWN]}..`"
