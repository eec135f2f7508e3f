"""The torsion factor of a floor (Wish 10), by 000, section 2.5.2, equation (22): A_x = (delta_max / (1.2 * delta_avg))^2."""

from fractions import Fraction
from math import ceil
from typing import NamedTuple

from . import limits

TIMES_AVERAGE = Fraction(12, 10)
MOST = 3                # "the torsional amplification factor is not required to exceed 3.0"; there is no other bound
THOUSANDTHS = 1_000


class Torsion(NamedTuple):
    """What torsion gives: the factor in thousandths, and the quotient of (22)."""

    factor: int
    quotient: Fraction


def amplification(largest, average):
    """(22): "delta_max is the maximum displacement at level x, and delta_avg is the average of the displacement at the extreme points"."""
    return (largest / (TIMES_AVERAGE * average)) ** 2


def bounded(quotient):
    """The factor "in thousandths, rounded up, with the section's own bounds"."""
    return min(ceil(quotient * THOUSANDTHS), MOST * THOUSANDTHS)


def torsion(largest, average):
    """('refused', number, place), or the `Torsion`: "From the unsigned largest and average displacement of a floor"."""
    refusal = limits.judge_torsion(largest, average)
    if refusal is not None:
        return ('refused', *refusal)
    quotient = amplification(largest, average)
    return Torsion(bounded(quotient), quotient)
