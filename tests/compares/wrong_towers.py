"""Wrong ideas of towers on one podium (Wish 8), as changes of the model, and the towers that are to show them.

The first three change V_D. The others change what is said of the sum: they are shown by towers of the core whose V_D do not meet it.
"""

from fractions import Fraction
from math import ceil, floor

from tests.compares.compare_towers import added, answers
from tests.compares.parts import figures_of
from tests.draws.towers import ALIKE, GROUNDS, many_strata, pair_strata
from tests.model import calls, response, shears, site, towers


def claimed(*inputs):
    """The model's answers to the towers' calls, and what the model says that they add up to."""
    figures = [figures_of(each) for each in answers(calls.shear_call, *inputs)]
    return [(each, True) for each in figures], added(figures)


def with_rounding(rounded):
    """V and V* with another last rounding."""
    def V(frame, m, W, s=response.UNIT):
        """V and V_M."""
        return rounded(Fraction(frame.I * m) / (shears.divisor(s) * frame.alphay), W)

    def V_star(frame, p, W, s=response.UNIT, divided_by=site.V_STAR):
        """V*."""
        return rounded(Fraction(frame.I * p) / (shears.divisor(s, divided_by) * frame.alphay), W)

    return [(shears, 'V', V), (shears, 'V_star', V_star)]


ERRORS = {
    'V, V_M and V* rounded down': with_rounding(lambda share, W: floor(share * W)),
    'rounded to the nearest newton': with_rounding(lambda share, W: floor(share * W + Fraction(1, 2))),
    'the newtons of a kN rounded up, then times W': with_rounding(lambda share, W: ceil(share) * W),
    'towers add up to the newton': [(towers, 'holds', lambda whole, parts: sum(parts) == whole)],
    'towers always come to more': [(towers, 'holds', lambda whole, parts: sum(parts) > whole)],
    'one newton, however many towers': [(towers, 'holds', lambda whole, parts: whole <= sum(parts) <= whole + 1)],
    'less than a newton for each tower after the first': [
        (towers, 'holds', lambda whole, parts: whole <= sum(parts) and (sum(parts) < whole + len(parts) - 1 or len(parts) == 1))],
}


def drawn(rng, count):
    """Towers of every stratum in turn, but for the one that is long looked for."""
    strata = [one for kind in GROUNDS for name, one in (*pair_strata(kind), *many_strata(kind)) if not name.endswith(ALIKE)]
    for number in range(count):
        yield strata[number % len(strata)](rng)
