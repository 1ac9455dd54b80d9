"""Reads a dBase III table, such as the DBF of a shapefile.

A DBF begins with 32 bytes: its kind, the number of records, the bytes of the header and those of a
record. A descriptor of 32 bytes follows for each column, and then the byte 0x0D. A record begins
with a blank, or with `*` if it was deleted. Each field has a fixed width.
"""
from __future__ import annotations

import struct
from typing import Iterator, List, NamedTuple, Tuple

from packed_file import Source
from refusal import Refused

HEAD_BYTES = 32
LAST_DESCRIPTOR = b"\x0d"
DELETED = b"*"
KINDS = (b"\x03", b"\x83")


class Column(NamedTuple):
    """A column: where its fields stand in a record, and whether they are numbers."""

    name: bytes
    start: int
    width: int
    is_number: bool


class Layout(NamedTuple):
    """The number of records, the bytes of the header and of a record, and the columns."""

    records: int
    header_bytes: int
    record_bytes: int
    columns: Tuple[Column, ...]


def is_dbase(data: bytes) -> bool:
    """Returns whether bytes begin as a dBase III table does. No text begins so."""
    return data[:1] in KINDS


def read_layout(source: Source) -> Layout:
    """Returns the layout of a DBF. Raises `Refused` if its header isn't whole."""
    data = source.data
    damaged = Refused(f"The DBF {source.name} has a damaged header.")
    if len(data) < HEAD_BYTES:
        raise damaged
    records, header_bytes, record_bytes = struct.unpack("<IHH", data[4:12])
    columns: List[Column] = []
    start, place = 1, HEAD_BYTES
    while data[place : place + 1] != LAST_DESCRIPTOR:
        if place + HEAD_BYTES >= min(header_bytes, len(data)):
            raise damaged
        name, kind, width = struct.unpack("<11sc4xB15x", data[place : place + HEAD_BYTES])
        columns.append(Column(name.split(b"\0")[0], start, width, kind in b"NF"))
        start, place = start + width, place + HEAD_BYTES
    if not columns or start > record_bytes:
        raise damaged
    return Layout(records, header_bytes, record_bytes, tuple(columns))


def record_fields(layout: Layout, record: bytes) -> List[bytes]:
    """Returns the fields of a record without the blanks and zero bytes around them."""
    return [
        number_field(field) if column.is_number else field
        for column in layout.columns
        for field in [record[column.start : column.start + column.width].strip(b" \0")]
    ]


def number_field(field: bytes) -> bytes:
    """Returns a number without its exponent, if it is a small whole number.

    Some programs store 12 as `1.20000000000e+001`. A field of `*` alone has no number, and is
    returned empty. Any other field is returned as it is.
    """
    if not field.strip(b"*"):
        return b""
    if b"e" not in field.lower():
        return field
    try:
        value = float(field)
    except ValueError:
        return field
    return b"%d" % int(value) if value.is_integer() and abs(value) < 1e9 else field


def read_records(source: Source, layout: Layout) -> Iterator[Tuple[int, List[bytes]]]:
    """Yields the number from 1 and the fields of each record that wasn't deleted.

    Raises `Refused` if the table is cut short.
    """
    data, size = source.data, layout.record_bytes
    there = (len(data) - layout.header_bytes) // size
    if there < layout.records:
        told = f"is cut short: it has {max(there, 0):,} of its {layout.records:,} records"
        raise Refused(f"The DBF {source.name} {told}.")
    for number in range(1, layout.records + 1):
        place = layout.header_bytes + (number - 1) * size
        record = data[place : place + size]
        if record[:1] != DELETED:
            yield number, record_fields(layout, record)
