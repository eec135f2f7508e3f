"""Stored cases of torsion (Wish 10): whole thousandths and beside them, the end at 3.0, both sides of each limit, pairs of refusals."""

from tests.draws.torsions import RATIOS, THREE, closest, last_within
from tests.model import limits
from tests.writes.stored_drifts import LARGEST, Torsion

MOST = limits.FLOOR_DISPLACEMENT[-1]
ENDS = (1, 2, MOST - 1, MOST)
AVERAGES = (1, 10, 1_000, 9_999, 481_125)
CLOSE = (995, 1_085, 1_573, 2_157, 2_199, 2_999, 3_000)        # thousandths to which a factor comes close


def plain_cases():
    """Equal displacements; ends with ends; others, with a largest of 1.2 of the average and beside it."""
    yield from (Torsion(each, each) for each in (1_000, 123_456))
    yield from (Torsion(largest, average) for largest in ENDS for average in ENDS)
    yield from (Torsion(*each) for each in ((1_000, 999), (MOST, 333_333), (3, 2), (7, 6), (100_000, 83_333), (100_000, 83_334), (2, 1), (3, 1)))


def thousandth_cases():
    """At whole thousandths, and one more and one less of the largest; close to thousandths; the last below 3.0 and the first above it."""
    yield from (Torsion(700 * ratio.numerator + step, 700 * ratio.denominator) for ratio in RATIOS for step in (-1, 0, 1))
    yield from (Torsion(*closest(thousandths, beyond)) for thousandths in CLOSE for beyond in (False, True))
    yield from (Torsion(last_within(average, THREE) + step, average) for average in AVERAGES for step in (-1, 0, 1))


def refused_cases():
    """Both sides of each limit, and numbers whose low bits are allowed; 23 before 25."""
    yield from (Torsion(value, 1) for value in (MOST + 1, 2**32 + 5, 2**63 + 5, LARGEST))
    yield from (Torsion(5, value) for value in (0, 4, 5, 6, MOST, MOST + 1, 2**32 + 1, 2**63 + 1, LARGEST))
    yield from (Torsion(*each) for each in ((0, 0), (0, 1), (0, MOST), (0, MOST + 1), (MOST, MOST + 1), (MOST + 1, 0), (MOST + 1, MOST), (MOST + 1, MOST + 1),
                                            (MOST + 1, MOST + 2), (LARGEST, 0), (LARGEST, LARGEST), (2**32, 2**32), (MOST, 0)))


def torsion_cases():
    """All of them."""
    for part in (plain_cases, thousandth_cases, refused_cases):
        yield from part()
