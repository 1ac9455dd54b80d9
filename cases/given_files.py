"""The files of a run, which may be long, sparse or pipes while the program runs.

A case holds a long or sparse file as a short one. `as_given` makes the files when a run begins, and
has the short ones again when it has ended, so that nobody else holds or reads the long ones.
"""
from __future__ import annotations

import contextlib
import ctypes
import os
import re
import shutil
import signal
import stat
import tempfile
from dataclasses import dataclass, field
from typing import BinaryIO, Iterator, List, Mapping, Tuple

PIECE = 1 << 20
# The number of the call that has the system end a process with the one that made it.
END_WITH_PARENT = 1
LIBC = ctypes.CDLL(None, use_errno=True)


@dataclass(frozen=True)
class Forms:
    """How the files of a case are given, by their names.

    `times` is how often lines between `<` and `>` stand, or None if such lines mean nothing.
    `sizes` has how many bytes a sparse file has: zeros follow its own. `pipes` has the files that
    are pipes, each with the bytes that it gives when it is opened once more.
    """

    times: "int | None" = None
    sizes: Mapping[str, int] = field(default_factory=dict)
    pipes: Mapping[str, bytes] = field(default_factory=dict)


def copies(lines: bytes, times: int) -> Iterator[bytes]:
    """Yields the lines `times` times, in pieces of about a megabyte."""
    many = 1 + PIECE // (1 + len(lines))
    piece = lines * min(many, times)
    for _ in range(times // many):
        yield piece
    yield lines * (times % many)


def repeated(text: bytes, times: "int | None") -> Iterator[bytes]:
    """Yields the text in pieces; lines between `<` and `>` stand `times` times in it."""
    begin = 0
    for found in re.finditer(rb"(?ms)^<\n(.*?)^>\n", text) if times is not None else ():
        yield text[begin : found.start()]
        yield from copies(found[1], times or 0)
        begin = found.end()
    yield text[begin:]


# ---- pipes ----


def copy_once(source: str, pipe: int) -> None:
    """Writes the bytes of a file to a pipe, as far as they are read there."""
    with open(source, "rb") as it, open(pipe, "wb", buffering=0) as to:
        with contextlib.suppress(BrokenPipeError):
            piece = it.read(PIECE)
            while piece:
                piece = piece[to.write(piece) :] or it.read(PIECE)


def serve(path: str, sources: List[str], spare: str) -> None:
    """Gives the bytes of one source at each opening of the pipe `path`, and then none, for ever.

    Each opening is of a pipe of its own: the next one stands under the name before the first byte
    is given. It ends where the run has stored a file under the name before it opens the pipe.
    """
    while True:
        pipe = os.open(path, os.O_WRONLY)
        if not stat.S_ISFIFO(os.fstat(pipe).st_mode):
            return
        os.mkfifo(spare)
        os.rename(spare, path)
        copy_once(sources.pop(0) if sources else os.devnull, pipe)


def start_pipe(path: str, again: bytes, room: str) -> int:
    """Puts a pipe in the place of the file `path`, and returns the process that serves it.

    The pipe gives the bytes of the file, and `again` when it is opened once more.
    """
    os.mkdir(room)
    os.rename(path, f"{room}/first")
    with open(f"{room}/again", "wb") as it:
        it.write(again)
    os.mkfifo(path)
    process = os.fork()
    if process:
        return process
    try:
        LIBC.prctl(END_WITH_PARENT, signal.SIGKILL, 0, 0, 0)
        serve(path, [f"{room}/first", f"{room}/again"], f"{room}/spare")
    finally:
        os._exit(1)


def end_pipe(path: str, server: int, room: str) -> None:
    """Ends a pipe, and puts the file back that it served, unless the run stored one there."""
    os.kill(server, signal.SIGKILL)
    os.waitpid(server, 0)
    with contextlib.suppress(FileNotFoundError):
        if stat.S_ISFIFO(os.stat(path).st_mode):
            os.replace(f"{room}/first", path)


# ---- the files of a run ----


def write_whole(to: BinaryIO, held: bytes, forms: Forms, name: str) -> None:
    """Writes a file as the program is to see it, with what was held of it."""
    for piece in repeated(held, forms.times):
        to.write(piece)
    if name in forms.sizes:
        to.truncate(forms.sizes[name])


def long_or_sparse(files: Mapping[str, bytes], forms: Forms) -> List[str]:
    """Returns the names of the files that have more bytes during a run than a case holds."""
    are_repeated = [] if forms.times is None else [it for it in files if b"<\n" in files[it]]
    return sorted({*forms.sizes, *are_repeated} & {*files})


def state_of(path: str) -> Tuple[int, ...]:
    """Returns what tells whether a file was changed."""
    if not os.path.isfile(path):
        return ()
    it = os.stat(path)
    return (it.st_dev, it.st_ino, it.st_size, it.st_mtime_ns)


def is_held(path: str, held: bytes) -> bool:
    """Returns whether a plain file has these bytes."""
    if not os.path.isfile(path) or os.path.getsize(path) != len(held):
        return False
    with open(path, "rb") as it:
        return it.read() == held


@contextlib.contextmanager
def as_given(folder: str, files: Mapping[str, bytes], forms: Forms) -> Iterator[None]:
    """Gives the files in the folder their forms, and afterwards has the files as they were.

    A file that an earlier run stored may be a pipe, too. What this run stores stays.
    """
    room = f"{folder}.room"
    os.mkdir(room)
    long = [it for it in long_or_sparse(files, forms) if is_held(f"{folder}/{it}", files[it])]
    for name in long:
        with open(f"{folder}/{name}", "wb") as it:
            write_whole(it, files[name], forms, name)
    before = {it: state_of(f"{folder}/{it}") for it in long}
    pipes = [it for it in forms.pipes if os.path.isfile(f"{folder}/{it}")]
    servers: List[int] = []
    try:
        for i, name in enumerate(pipes):
            servers.append(start_pipe(f"{folder}/{name}", forms.pipes[name], f"{room}/{i}"))
        yield
    finally:
        for i, server in enumerate(servers):
            end_pipe(f"{folder}/{pipes[i]}", server, f"{room}/{i}")
        for name in long:
            if state_of(f"{folder}/{name}") == before[name]:
                with open(f"{folder}/{name}", "wb") as it:
                    it.write(files[name])
        shutil.rmtree(room)


# ---- tests ----


def told_of(path: str) -> bytes:
    """Returns the bytes that a file gives when it is opened once."""
    with open(path, "rb") as it:
        return it.read()


def store(path: str, held: bytes) -> None:
    """Stores a file as the program does: beside its name, and then under it."""
    with open(f"{path}.part", "wb") as to:
        to.write(held)
    os.replace(f"{path}.part", path)


def tests() -> Iterator[Tuple[str, object, object]]:
    """Yields what is tested of the files of a run: a name, what is found, and what is wanted."""
    files = {"long": b"a\n<\nb\n>\nc", "sparse": b"1\n", "pipe": b"first\n", "both": b"<\nx\n>\n"}
    forms = Forms(300_000, {"sparse": 9}, {"pipe": b"again", "both": b"", "stored": b""})
    with tempfile.TemporaryDirectory(prefix="cases-") as folder:
        here = f"{folder}/run"
        os.mkdir(here)
        for name, held in files.items():
            store(f"{here}/{name}", held)
        with as_given(here, files, forms):
            yield from tests_of_forms(here)
        there = {it: told_of(f"{here}/{it}") for it in os.listdir(here)}
        yield "files as they were", (there, os.listdir(folder)), (files, ["run"])
        with as_given(here, files, forms):
            for name in ("long", "pipe", "stored"):
                store(f"{here}/{name}", b"new")
        there = {it: told_of(f"{here}/{it}") for it in os.listdir(here)}
        stored = dict.fromkeys(("long", "pipe", "stored"), b"new")
        yield "files that a run stores stay", there, {**files, **stored}
        with as_given(here, files, forms):
            pipes = [os.stat(f"{here}/{it}").st_size == 0 for it in stored]
            there = {it: told_of(f"{here}/{it}") for it in stored}
        yield "a file that was stored may be a pipe", (pipes, there), ([False, True, True], stored)


def tests_of_forms(here: str) -> Iterator[Tuple[str, object, object]]:
    """Yields what is tested of the files while a run lasts."""
    yield "lines many times", told_of(f"{here}/long"), b"a\n" + b"b\n" * 300_000 + b"c"
    yield "a sparse file", told_of(f"{here}/sparse"), b"1\n" + bytes(7)
    openings = [told_of(f"{here}/pipe") for _ in range(4)]
    yield "a pipe", openings, [b"first\n", b"again", b"", b""]
    with open(f"{here}/both", "rb") as it:
        yield "a pipe that isn't read to its end", it.read(1), b"x"
    yield "a pipe that was left", told_of(f"{here}/both"), b""
