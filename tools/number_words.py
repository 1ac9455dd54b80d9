"""Says numbers in words for a person."""
from __future__ import annotations


def counted(number: int, noun: str) -> str:
    """Returns a number with a noun, which has an s behind it unless the number is 1.

    A number from 1,000 on has commas.
    """
    return f"{number:,} {noun}" if number == 1 else f"{number:,} {noun}s"
