"""Reads the bytes of a file, which may be packed by gzip or zip.

A file has at most 1 GiB. What is unpacked has at most 512 MiB, and beyond 64 MiB at most 100 times
its packed bytes: tables have fewer. Reading ends at a limit, and takes no more memory.
"""
from __future__ import annotations

import gzip
import io
import os
import re
import struct
import sys
import zipfile
import zlib
from dataclasses import dataclass
from typing import IO, List, Optional, Union

from refusal import Refused, printable

MOST_BYTES = 1_073_741_824
MOST_UNPACKED = 536_870_912
ANY_RATIO_BYTES = 67_108_864
MOST_RATIO = 100
CHUNK_BYTES = 1_048_576
MOST_NAMED = 20
MOST_NAME_SIGNS = 100
TABLE_ENDINGS = (".csv", ".txt", ".tsv", ".tab", ".psv", ".baf", ".dbf")
STANDARD_INPUT = "-"

# What explains a table and stands beside it in a zip: that of NHGIS, and of data.census.gov.
EXPLANATION = re.compile(r"readme.*|.*[-_](codebook|column-metadata|table-notes)\.[a-z]+")

# What a file that is no table begins with, and what is said of it.
OTHER_KINDS = {
    b"\xd0\xcf\x11\xe0": "is an Excel workbook: save its sheet as CSV",
    b"\x00\x00\x27\x0a": "has the shapes of a shapefile: take the file beside it, with .dbf",
    b"SQLite format 3": "is a database, such as a GeoPackage: export its table as CSV",
    b"PAR1": "is a Parquet file: export it as CSV",
    b"%PDF": "is a PDF: ask for the table itself",
    b"\xfd7zXZ\x00": "is packed by xz: unpack it first, or pack it by gzip or zip",
    b"7z\xbc\xaf\x27\x1c": "is packed by 7-Zip: unpack it first, or pack it by gzip or zip",
    b"\x28\xb5\x2f\xfd": "is packed by zstd: unpack it first, or pack it by gzip or zip",
}
# (the fourth byte of bzip2 is the size of its blocks)
OTHER_KINDS.update(
    (b"BZh%d1AY&SY" % size, "is packed by bzip2: unpack it first, or pack it by gzip or zip")
    for size in range(1, 10)
)

# What Python's modules raise for a zip or a gzip that is damaged, or packed in another way.
DAMAGED = (
    zipfile.BadZipFile,
    zlib.error,
    struct.error,
    OSError,
    EOFError,
    KeyError,
    RuntimeError,
    ValueError,
)


@dataclass(frozen=True)
class Source:
    """The bytes of a file or of a member of a zip, and its printable name in a sentence."""

    name: str
    data: bytes


def read_source(path: str, member: Optional[str] = None) -> Source:
    """Returns the bytes of the file at `path`, or of standard input at `-`, unpacked.

    `member` names the member of a zip. Without it the zip has to have one table.
    Raises `Refused` if the file can't be read or unpacked, or is of another kind than a table.
    """
    return unpacked(read_file(path), member)


def read_file(path: str) -> Source:
    """Returns the bytes of the file at `path`, or of standard input at `-`, as they are.

    Raises `Refused` if the file can't be read, or has more than 1 GiB.
    """
    name = "standard input" if path == STANDARD_INPUT else printable(path)
    try:
        if path == STANDARD_INPUT:
            return Source(name, limited(name, sys.stdin.buffer))
        with open(path, "rb") as file:
            return Source(name, limited(name, file))
    except OSError as fault:
        raise Refused(f"The file {name} can't be read: {fault.strerror}.") from fault


def unpacked(source: Source, member: Optional[str] = None) -> Source:
    """Returns `source` unpacked, or as it is if it isn't packed.

    `member` names the member of a zip. Without it the zip has to have one table.
    Raises `Refused` if the file can't be unpacked, or is of another kind than a table.
    """
    if is_zip(source.data):
        return known_kind(unzipped(source, member))
    if member is not None:
        told = f"The file {source.name} is no zip, so it has no member {printable(member)}"
        raise Refused(f"{told}.")
    if source.data.startswith(b"\x1f\x8b"):
        return known_kind(unpacked_gzip(source))
    return known_kind(source)


def is_zip(data: bytes) -> bool:
    """Returns whether bytes begin as a zip does."""
    return data.startswith(b"PK\x03\x04")


def limited(name: str, file: IO[bytes]) -> bytes:
    """Returns the bytes of an open file. Raises `Refused` if there are more than 1 GiB."""
    data = file.read(MOST_BYTES + 1)
    if len(data) > MOST_BYTES:
        raise Refused(f"The file {name} has more than {MOST_BYTES:,} bytes.")
    return data


def limited_unpacked(name: str, file: Union[IO[bytes], gzip.GzipFile], packed_bytes: int) -> bytes:
    """Returns the bytes that an open packed file gives, of which there are `packed_bytes`.

    Raises `Refused` at the first MiB that goes past a limit.
    """
    data = bytearray()
    while True:
        chunk = file.read(CHUNK_BYTES)
        if not chunk:
            return bytes(data)
        data += chunk
        check_unpacked(name, len(data), packed_bytes)


def check_unpacked(name: str, size: int, packed_bytes: int) -> None:
    """Raises `Refused` if `size` bytes are more than may be unpacked of `packed_bytes`."""
    if size > MOST_UNPACKED:
        raise Refused(f"The file {name} unpacks to more than {MOST_UNPACKED:,} bytes.")
    if size > max(ANY_RATIO_BYTES, MOST_RATIO * packed_bytes):
        told = f"unpacks to more than {MOST_RATIO} times its {packed_bytes:,} packed bytes"
        raise Refused(f"The file {name} {told}: if you trust it, unpack it first.")


def known_kind(source: Source) -> Source:
    """Returns `source`. Raises `Refused` if its first bytes are those of another kind of file."""
    for start, kind in OTHER_KINDS.items():
        if source.data.startswith(start):
            raise Refused(f"The file {source.name} {kind}.")
    return source


def unpacked_gzip(source: Source) -> Source:
    """Returns a gzip unpacked. Raises `Refused` if it is damaged, or unpacks to too much."""
    try:
        with gzip.GzipFile(fileobj=io.BytesIO(source.data)) as file:
            data = limited_unpacked(source.name, file, len(source.data))
    except DAMAGED as fault:
        told = "is packed by gzip, and it is damaged"
        raise Refused(f"The file {source.name} {told}.") from fault
    return Source(source.name, data)


def unzipped(source: Source, member: Optional[str]) -> Source:
    """Returns the table in a zip: the member of this name, or the only table.

    Raises `Refused` if there is no such member, if it can't be unpacked, or if none is named and
    the zip doesn't have exactly one table.
    """
    try:
        with zipfile.ZipFile(io.BytesIO(source.data)) as packed:
            return member_source(source, packed, member_of(source, packed.namelist(), member))
    except DAMAGED as fault:
        raise damaged_zip(source, fault) from fault


def damaged_zip(source: Source, fault: Exception) -> Refused:
    """Returns the refusal of a zip for what Python's module raised."""
    told = "encrypted" if "encrypted" in str(fault) else "damaged, or packed in another way"
    return Refused(f"The file {source.name} is a zip, and it is {told}.")


def member_source(source: Source, packed: zipfile.ZipFile, member: str) -> Source:
    """Returns the bytes of a member of an open zip. Its whole name has to be `member`.

    Raises `Refused` if it unpacks to too much, and one of `DAMAGED` if it can't be unpacked.
    """
    name, info = f"{shown_name(member)} in {source.name}", packed.getinfo(member)
    with open_member(packed, info) as file:
        # (by its directory, before a byte is unpacked; a directory may be wrong)
        check_unpacked(name, info.file_size, info.compress_size)
        return Source(name, limited_unpacked(name, file, info.compress_size))


def open_member(packed: zipfile.ZipFile, info: zipfile.ZipInfo) -> IO[bytes]:
    """Returns a member of a zip, opened.

    Raises one of `DAMAGED` if it is packed otherwise than by deflate: of other ways Python's module
    unpacks a piece as a whole, whatever its size.
    """
    if info.compress_type not in (zipfile.ZIP_STORED, zipfile.ZIP_DEFLATED):
        raise zipfile.BadZipFile("packed in another way")
    return packed.open(info)


def member_of(source: Source, names: List[str], member: Optional[str]) -> str:
    """Returns the full name of the wanted member of a zip.

    Raises `Refused` if it isn't there, or if none is wanted and not exactly one is a table.
    """
    if "xl/workbook.xml" in names or "content.xml" in names:
        raise Refused(f"The file {source.name} is a workbook: save its sheet as CSV.")
    if member is not None:
        found = [name for name in names if name == member]
        found = found or [name for name in names if os.path.basename(name) == member]
        if len(found) == 1:
            return found[0]
        told = f"has no single member {shown_name(member)}: it has {listed(names)}"
        raise Refused(f"The zip {source.name} {told}.")
    tables = [name for name in names if is_table(name)]
    if len(tables) == 1:
        return tables[0]
    if tables:
        told = f"has several tables, so choose one by --member NAME: {listed(tables)}"
    else:
        told = f"has no table, which is a CSV, a text or a DBF: it has {listed(names)}"
    raise Refused(f"The zip {source.name} {told}.")


def is_table(name: str) -> bool:
    """Returns whether a member of a zip may be a table by its name. What explains one is none."""
    base = os.path.basename(name).lower()
    is_hidden = base.startswith(".") or name.startswith("__MACOSX/")
    return base.endswith(TABLE_ENDINGS) and not is_hidden and not EXPLANATION.fullmatch(base)


def listed(names: List[str]) -> str:
    """Returns names in one phrase, at most 20 of them."""
    more = len(names) - MOST_NAMED
    told = ", ".join(map(shown_name, names[:MOST_NAMED])) or "nothing"
    return f"{told} and {more} more" if more > 0 else told


def shown_name(name: str) -> str:
    """Returns the name of a member of a zip as it may be printed, cut at 100 characters."""
    told = printable(name)
    return told if len(told) <= MOST_NAME_SIGNS else f"{told[:MOST_NAME_SIGNS]}.."
