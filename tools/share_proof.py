"""The pieces of a shared proof and their answers, which stand in a folder for `tools/share.py`."""
from __future__ import annotations

import contextlib
import hashlib
import os
import re
import sys
import zlib
from dataclasses import dataclass, field
from typing import Iterator, NamedTuple, Optional

from refusal import Refused
from share_worker import Answer, open_leaves


def tell(what: str) -> None:
    """Writes a line for a person to standard error."""
    print(f"share.py: {what}", file=sys.stderr, flush=True)


def checksum(text: bytes) -> bytes:
    """Returns the SHA-256 of a text, in hexadecimal digits."""
    return hashlib.sha256(text).hexdigest().encode()


def store(path: str, text: bytes) -> None:
    """Stores a file, which is whole on the disk before it has its name."""
    with open(f"{path}.part", "wb") as file:
        file.write(text)
        file.flush()
        os.fsync(file.fileno())
    os.rename(f"{path}.part", path)


@dataclass(eq=False)
class Piece:
    """A piece of a round: its packed state, and the answer to it, if there is one.

    `name` is that of the answer's file, and `tested_by` the worker that found the answer right.
    `steps` are the fewest for the next task, `tasks` counts those that prove it now, and it is
    needed until an answer above it is taken back.
    """

    state: bytes
    name: str
    parent: Optional[Piece]
    answer: Optional[Answer] = None
    children: list[Piece] = field(default_factory=list)
    tested_by: str = ""
    steps: int = 0
    tasks: int = 0
    is_needed: bool = True


class Event(NamedTuple):
    """An answer as an event of a board: its piece, and how many lines it has."""

    owner: Piece
    answer: Optional[Answer]
    lines: int


class Proof:
    """The pieces of a round. Their answers are in a folder, a file for each."""

    def __init__(self, folder: str, limit: int, groups: list[bytes]) -> None:
        self.folder, self.limit, self.groups = folder, limit, groups
        self.grouping = b"".join(it.replace(b" ", b"|") + b"\n" for it in groups)
        self.round_text = b"round 1 %d %d\n" % (limit, len(groups))
        self.round_text += b"".join(b"group %s\n" % it for it in groups)
        self.root = self.piece(zlib.compress(b"", 1), None)

    def piece(self, state: bytes, parent: Optional[Piece]) -> Piece:
        """Returns a new piece, with the answer that the folder has for it."""
        name = hashlib.sha256(self.round_text + zlib.decompress(state)).hexdigest()[:32]
        piece = Piece(state, name, parent)
        if kept := self.read(piece):
            is_part = kept.kind == "part"
            leaves = tuple(open_leaves(kept.text, state)) if is_part else ()
            self.settle(piece, kept._replace(by=f"before: {kept.by}", leaves=leaves))
        return piece

    def settle(self, piece: Piece, answer: Answer) -> None:
        """Takes an answer, whose text stays in its file alone, in place of one before."""
        self.clear(piece)
        piece.answer, piece.tested_by = answer._replace(text=b"", leaves=()), ""
        piece.children = [self.piece(it, piece) for it in answer.leaves]

    def keep(self, piece: Piece, answer: Answer) -> None:
        """Stores an answer, with its piece's parent. It counts once it is whole on the disk."""
        above = piece.parent.name if piece.parent else "-"
        head = f"{answer.kind} {answer.seconds:.6f} {above} {answer.by}\n"
        whole = head.encode() + answer.text
        store(f"{self.folder}/{piece.name}", whole + b"sum %s\n" % checksum(whole))

    def read(self, piece: Piece) -> Optional[Answer]:
        """Returns the stored answer to a piece, or None if there is none, or if it was changed."""
        path = f"{self.folder}/{piece.name}"
        if not os.path.exists(path):
            return None
        with open(path, "rb") as file:
            whole, _, told = file.read().rpartition(b"sum ")
        if told != checksum(whole) + b"\n":
            tell(f"{path} was changed, so its piece is proved again")
            return None
        head, _, text = whole.partition(b"\n")
        kind, seconds, _, by = head.decode().split(" ", 3)
        return Answer(by, kind, text, seconds=float(seconds))

    def text(self, piece: Piece) -> bytes:
        """Returns the text of an answer that is stored."""
        kept = self.read(piece)
        if not kept:
            raise Refused(f"{self.folder}/{piece.name} was changed or removed: start this again")
        return kept.text

    def clear(self, piece: Piece) -> None:
        """Takes the answer of a piece back, so that no piece below it is needed."""
        for below in self.pieces(piece):
            below.is_needed = below is piece
        piece.answer, piece.children = None, []

    def drop(self, piece: Piece) -> None:
        """Takes the answer of a piece back, and removes its file."""
        with contextlib.suppress(FileNotFoundError):
            os.remove(f"{self.folder}/{piece.name}")
        self.clear(piece)

    def pieces(self, top: Optional[Piece] = None) -> Iterator[Piece]:
        """Yields a piece, without one the root, and then those below it."""
        ahead = [top or self.root]
        while ahead:
            yield ahead[-1]
            ahead += ahead.pop().children

    def chunks(self, piece: Piece) -> Iterator[tuple[Piece, bytes]]:
        """Yields the lines of a joined tree in parts, with the piece whose answer has them."""
        children = iter(piece.children)
        for at, lines in enumerate(re.split(rb"(?m)^open\n", self.text(piece))):
            if at > 0:
                yield from self.chunks(next(children))
            yield piece, lines

    def events(self, piece: Piece) -> tuple[list[Event], bytes]:
        """Returns the answers of the pieces above `piece` and its own, as events of a new board."""
        owners, texts, number, free = [piece], [], 1, 2
        while above := owners[0].parent:
            owners.insert(0, above)
        for owner in owners:
            kind = owner.answer.kind if owner.answer else ""
            if owner.parent:
                siblings = owner.parent.children
                number = free - len(siblings) + siblings.index(owner)
            free += len(owner.children)
            texts.append(b"%s 1 %d\n%s" % (kind.encode(), number, self.text(owner)))
        counts = (it.count(b"\n") for it in texts)
        return [Event(it, it.answer, count) for it, count in zip(owners, counts)], b"".join(texts)


def judged(events: list[Event], said: list[str]) -> tuple[bool, Optional[Piece]]:
    """Returns whether `share` tested these answers, and of which one it is the first at fault.

    It didn't if one of the answers is no longer that of its piece.
    """
    if any(owner.answer is not answer for owner, answer, _ in events):
        return False, None
    refused = re.fullmatch(r"refused events \w+ line (\d+)", said[0] if said else "")
    line = int(refused[1]) if refused else 0
    for at, (owner, _, lines) in enumerate(events):
        if refused and line <= lines:
            return True, owner
        line -= lines
        reply = "accepted" if refused else said[at] if at < len(said) else ""
        if reply in ("not a proof", "not a part", "no such piece", "budget"):
            return True, owner
        if not reply.startswith(("accepted", "split into ")):
            return False, None
    return True, None
