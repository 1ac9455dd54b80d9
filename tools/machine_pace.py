"""What tests of time allow on a machine that is slower or busier than others."""
from __future__ import annotations


def allowed(most: float, took: float, reference: float) -> float:
    """Returns how much time a test allows in the place of `most`.

    A test of time also runs on slow machines that do other work. So, right beside what it measures,
    it measures a fixed piece of work of the same kind, and takes the least of several repetitions
    of both, in turn. `took` is the least for the fixed work, and `reference` is what that work took
    where `most` was written down. A machine that takes twice the reference is allowed twice `most`.
    None is allowed less than `most`.
    """
    return most * max(1.0, took / reference)
