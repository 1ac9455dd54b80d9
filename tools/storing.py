"""Stores or prints what a tool makes."""
from __future__ import annotations

import contextlib
import os
import sys
import tempfile
from typing import Optional

from refusal import Refused


def store(path: str, text: str) -> None:
    """Stores `text` in UTF-8 under `path` whole, or leaves the file that stood there as it was.

    Of a link the file that it names is stored. Raises `Refused` if the file can't be stored, or if
    a folder, a device or a pipe stands there.
    """
    if os.path.exists(path) and not os.path.isfile(path):
        raise Refused(f"{path} can't be stored: something that is no file stands there.")
    stored = os.path.realpath(path) if os.path.islink(path) else path
    folder = os.path.dirname(stored) or "."
    name = ""
    try:
        with tempfile.NamedTemporaryFile(
            "w", encoding="utf-8", newline="\n", dir=folder, delete=False
        ) as file:
            name = file.name
            file.write(text)
        os.chmod(name, 0o644)
        os.replace(name, stored)
    except OSError as fault:
        with contextlib.suppress(OSError):
            os.remove(name)
        raise Refused(f"{path} can't be stored: {fault.strerror}.") from fault


def put(path: Optional[str], text: str) -> None:
    """Stores `text` under `path`, or prints it without a path. Both are UTF-8 with its line ends.

    Raises `Refused` if the file can't be stored, or if standard output was closed.
    """
    if path is not None:
        store(path, text)
        return
    try:
        sys.stdout.flush()
        if hasattr(sys.stdout, "buffer"):
            sys.stdout.buffer.write(text.encode())
        else:
            sys.stdout.write(text)
        sys.stdout.flush()
    except OSError as fault:
        os.dup2(os.open(os.devnull, os.O_WRONLY), sys.stdout.fileno())
        raise Refused(f"Standard output can't be written: {fault.strerror}.") from fault
