"""The accidental moment of each level (Wish 10).

000, section 2.5.2: "the accidental torsional moments caused by an assumed displacement of the mass each way from its actual location by a distance
equal to 5% of the dimension of the building perpendicular to the direction of the applied forces".
"""

from fractions import Fraction
from typing import NamedTuple

from . import calls, limits

PART = Fraction(5, 100)     # "5% of the dimension"
HUNDREDTHS = 100            # of a N*dm


class Moments(NamedTuple):
    """What is given of each level, lowest first, in hundredths of a N*dm: "once positive and once negative"; and the forces."""

    positive: list
    negative: list
    forces: list


def moment(force, dimension):
    """The moment of a level, "Wish 6's force times five times the dimension in hundredths of a N*dm, unrounded"."""
    exact = force * PART * dimension * HUNDREDTHS
    assert exact.denominator == 1
    return int(exact)


def of_forces(forces, dimension):
    """The `Moments` of the levels' forces, each way."""
    moments = [moment(force, dimension) for force in forces]
    return Moments(moments, [-each for each in moments], list(forces))


def accidental(base_shear, period, weights, heights, dimension, buffer_lengths=()):
    """('refused', number, place), or the `Moments`: "From the plan dimension" and the distribution of a shear, "give each level's accidental
    moment"."""
    refusal = limits.judge_accidental(base_shear, period, weights, heights, dimension, buffer_lengths)
    if refusal is not None:
        return ('refused', *refusal)
    return of_forces(calls.distributed(base_shear, period, list(weights), list(heights)).forces, dimension)
