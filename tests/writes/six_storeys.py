"""The base shear, the frame, the floors and the moments of examples/drift.c and examples/drift.py (Wish 10), as the manual shows them, and what both
programs print."""

from fractions import Fraction
from typing import NamedTuple

from tests.model import accidental, calls, drift, torsion
from tests.writes.by_hand.text import comma

HEIGHTS, DISPLACEMENTS, LIMIT = [45, 80, 115, 150, 185, 220], [2_251, 4_001, 2_880, 1_270, -700, -1_640], 50
STATIC = [5_412, 10_230, 13_518]        # displacements of the worked sheet's levels under V_drift, of the manual alone
ENDS = (2_500, 1_500), (2_400, -400), (1_800, 1_800)        # displacements of the two ends of each floor
DIMENSION = 240
ALPHA_1 = 100           # alpha-y of 1.00
WORDS = {drift.YES: 'yes', drift.NO: 'no'}


class Storey(NamedTuple):
    """A storey: its two ends, its drift angle and its verdict."""

    number: int
    low: int
    high: int
    bottom: int
    top: int
    angle: Fraction
    verdict: int

    def height(self):
        """Its own height, in dm."""
        return self.high - self.low

    def difference(self):
        """The difference between the displacements of its ends, in 0.01 mm."""
        return self.top - self.bottom

    def most(self, limit=LIMIT):
        """The largest size of the difference that is within the limit, in 0.01 mm."""
        return limit * self.height()


def storeys(displacements=tuple(DISPLACEMENTS), limit=LIMIT, heights=tuple(HEIGHTS)):
    """The storeys of the frame, or of other heights, lowest first."""
    found = drift.drift(heights, displacements, limit)
    ends = zip(drift.storeys(list(heights)), drift.storeys(list(displacements)), found.angles, found.verdicts)
    return [Storey(number, *levels, *moved, angle, verdict) for number, (levels, moved, angle, verdict) in enumerate(ends, 1)]


def verdicts(displacements=tuple(DISPLACEMENTS), limit=LIMIT, heights=tuple(HEIGHTS)):
    """The verdicts in words, lowest storey first."""
    return [WORDS[storey.verdict] for storey in storeys(displacements, limit, heights)]


def floor(ends):
    """Largest and average displacement of a floor by its two ends: the largest size, and the size of the average with signs."""
    average = abs(Fraction(sum(ends), 2))
    assert average.denominator == 1
    return max(map(abs, ends)), int(average)


def signed(number):
    """A whole number with its sign, as the manual writes it."""
    return f'−{comma(-number)}' if number < 0 else comma(number)


def drift_shear(office):
    """V_drift of (24) for the worked sheet: V* with alpha-y as 1.00."""
    return calls.shear_call(office.ground, office.frame._replace(alphay=ALPHA_1), sum(office.weights), office.heights[-1])


def moments(office, base_shear=None, dimension=DIMENSION):
    """The accidental moments of the worked sheet's V_D, or of another base shear, at its T."""
    return accidental.accidental(base_shear or office.V_D, office.T, office.weights, office.heights, dimension)


def drift_lines(office):
    """What the programs print: the base shear of the drift, storeys and levels from the roof down, and the floors."""
    lines = [('V_drift', drift_shear(office).V_star)]
    lines += [('storey', storey.number, storey.difference(), storey.most(), WORDS[storey.verdict]) for storey in reversed(storeys())]
    lines += [('floor', *floor(ends), torsion.torsion(*floor(ends)).factor) for ends in ENDS]
    each_way = list(enumerate(zip(*moments(office)[:2]), 1))
    lines += [('moment', level, *both) for level, both in reversed(each_way)]
    return ['\t'.join(map(str, line)) for line in lines]
