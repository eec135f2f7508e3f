"""The drift of each storey judged by a limit (Wish 10).

000, section 2.5.4: "The story drift ratio is defined as the ratio of the difference of deflections at the top and bottom of the story under
consideration divided by the story height."
"""

from fractions import Fraction
from typing import NamedTuple

from . import limits

BASE = 0                    # "the base at 0": its height and its displacement
UNITS_OF_A_DM = 10_000      # hundredths of a millimetre
PARTS_OF_LIMIT = 10_000     # "the user's limit in ten-thousandths"
YES, NO = 1, 0


class Drifts(NamedTuple):
    """What drift gives, lowest storey first: the drift angles, and the verdicts on them."""

    angles: list
    verdicts: list


def storeys(levels):
    """The two ends of each storey, (bottom, top), lowest first."""
    return zip([BASE, *levels], levels)


def angles(heights, displacements):
    """Each storey's drift angle: "the difference between its ends over its height"."""
    return [Fraction(top - bottom, (high - low) * UNITS_OF_A_DM)
            for (low, high), (bottom, top) in zip(storeys(heights), storeys(displacements))]


def verdict(angle, limit):
    """The verdict: "yes exactly when the exact quotient's size is at most the limit"."""
    return YES if abs(angle) <= Fraction(limit, PARTS_OF_LIMIT) else NO


def judged(heights, displacements, limit):
    """The `Drifts`, all in range."""
    found = angles(heights, displacements)
    return Drifts(found, [verdict(angle, limit) for angle in found])


def drift(heights, displacements, limit, buffer_lengths=()):
    """('refused', number, place), or the `Drifts`: "judge each storey's drift angle" "by the user's limit"."""
    refusal = limits.judge_drift(heights, displacements, limit, buffer_lengths)
    if refusal is not None:
        return ('refused', *refusal)
    return judged(list(heights), list(displacements), limit)
