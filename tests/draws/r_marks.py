"""The three shears before their last rounding, at an R and a T, and the R at which something begins (Wish 14).

V* grows with R while p is on its second line, and stays from the first R on with 10*Sa <= 3*F. V and V* cross where F of V* is 3, in the Basin 2.5,
unless near-fault factors part them.
"""

from tests.draws.rare import crossing
from tests.model import limits, response, shears
from tests.model.calls import HAZARDS, made_by

FIRST, LAST = limits.R_RANGE[0], limits.R_RANGE[-1]


def corner(hazard, ground):
    """T0 of a hazard in ms."""
    A, B, _ = made_by(ground).hazard(hazard, ground, FIRST)
    return response.corner(A, B)


def respond(hazard, ground, T, R):
    """The figures of a hazard."""
    return shears.respond(*made_by(ground).hazard(hazard, ground, R), T)


def times_V(ground):
    """By how much V* divides p more than V divides m: 3, in the Basin 2.5."""
    return shears.divisor(divided_by=made_by(ground).V_STAR) / shears.divisor()


def part(hazard, ground, T, R):
    """V, V_M or V* as a part of I*W/(1.4*alpha-y), before the last rounding, in the unit."""
    figures = respond(hazard, ground, T, R)
    if hazard == 'star':
        return response.p_of_star(figures.spectrum, figures.upper_factor) / times_V(ground)
    return response.modified_ratio(response.ratio(figures.spectrum, figures.lower_factor))


def parts(ground, T, R):
    """All three."""
    return tuple(part(hazard, ground, T, R) for hazard in HAZARDS)


def first_R(passed):
    """The first R that has passed, where all after it have; one more than the last where none has."""
    return crossing(FIRST - 1, LAST + 1, passed)


def first_level(ground, T):
    """The first R from which on V* stays: p is on its first line."""
    def on_first_line(R):
        """As p has it."""
        figures = respond('star', ground, T, R)
        return 10 * figures.spectrum <= 3 * figures.upper_factor

    return first_R(on_first_line)


def first_crossed(ground, T):
    """The first R with F of V* at 3, in the Basin 2.5, or above."""
    return first_R(lambda R: respond('star', ground, T, R).upper_factor >= times_V(ground) * response.UNIT)


def first_governed(ground, T):
    """The first R with which V* is above V and V_M."""
    def governs(R):
        """Before the last rounding."""
        m, m_M, of_star = parts(ground, T, R)
        return of_star > max(m, m_M)

    return first_R(governs)
