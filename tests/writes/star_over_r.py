"""V* over R: the worked sheet's, near a fault and in a zone, beside the other shears, as the page on which way the figures move shows it.

What the page says of it in words is asserted here of the model.
"""

import itertools
from fractions import Fraction

from tests.model import limits, response, site as sites
from tests.writes.by_hand.response import UNIT
from tests.writes.by_hand.text import comma, decimal, hundredths, table
from tests.writes.changed_sheet import FIGURES, cells, figures, with_frame

SHOWN_R = (100, 125, 150, 175, 200, 300, 400, 480, 600)     # of the table of V*
STAR_RISES, LEVEL = (100, 175), 400                         # where V* of the worked sheet rises, and from where on V_D is level
OTHER_RISES, ZONE = (100, 400), 3                           # the same near a fault and in a zone


def governs(result):
    """Which of V, V_M and V* are as large as V_D."""
    return ' and '.join(name for name, shear in zip(('V', 'V_M', 'V*'), figures(result)) if shear == result.V_D)


def star_table(worked):
    """p and the four figures over R, T being past T0: F is the capacity."""
    rows, Sa = [], Fraction(worked.star.spectrum, UNIT)
    for R in SHOWN_R:
        result, (F, _) = with_frame(worked, R=R), response.design_capacity(R)
        assert 0 <= result.star.upper_factor - F * UNIT < 1 and result.star.spectrum == worked.star.spectrum
        rows.append((hundredths(R), decimal(F, 4), decimal(Sa / F, 4), comma(result.p), *cells(result), governs(result)))
    return table(('R', 'F of V, V*', 'Sa/F of V, V*', 'p, 10⁻⁷ g', *FIGURES, 'V_D is'), rows)


def other_stars(near_fault, worked):
    """V* at a smaller and a larger R, near a fault and in a zone."""
    rows = []
    in_zone = worked._replace(ground=limits.Basin(ZONE))
    for name, result in (('`examples/near_fault.sheet` with another R', near_fault), (f'worked sheet in zone {ZONE} of the Basin, with another R', in_zone)):
        low, high = (with_frame(result, R=R) for R in OTHER_RISES)
        assert low.T == high.T and low.V_star < high.V_star <= low.V and high.V_D < low.V_D
        rows += [(name, hundredths(each.frame.R), comma(each.T), *cells(each)) for each in (low, high)]
    return table(('', 'R', 'T, ms', *FIGURES), rows)


def assert_level(worked):
    """V* rises up to R = 1.75 and is level from there; V_D falls down to R = 4.00, where V comes down to V*, and is level from there."""
    over = [with_frame(worked, R=R) for R in limits.R_RANGE]
    for one, other in zip(over, over[1:]):
        R = other.frame.R
        assert (other.V_star > one.V_star) == (R <= STAR_RISES[1]) and other.V < one.V and other.V_M < one.V_M
        assert (other.V_D < one.V_D) == (R <= LEVEL) and other.V_D <= one.V_D
    level = with_frame(worked, R=LEVEL)
    assert level.V == level.V_star == level.V_D == with_frame(worked, R=limits.R_RANGE[-1]).V_D


def most_A():
    """The largest A of the design level without near-fault factors, in g."""
    none = sites.NO_NEAR_FAULT
    every = itertools.product(limits.S_S_DESIGN, limits.S_1_DESIGN, limits.CLASS)
    return Fraction(max(sites.A_and_B(S_S, S_1, none, none, cls)[0] for S_S, S_1, cls in every), 10**8)


def over_R(worked):
    """The picture's figures: each of the four over R, in N."""
    results = [with_frame(worked, R=R) for R in limits.R_RANGE]
    assert all(each.T == worked.T for each in results) and response.UNIT == UNIT
    return {name: [(each.frame.R, getattr(each, name)) for each in results] for name in ('V', 'V_M', 'V_star', 'V_D')}
