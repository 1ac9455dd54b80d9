"""Stands in for `gerrychain.accept`."""
from __future__ import annotations


def always_accept(_: object) -> bool:
    """Accepts every plan."""
    return True
