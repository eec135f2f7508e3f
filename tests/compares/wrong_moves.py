"""Wrong ideas of which way the figures move (Wish 14), as changes of the model, and the moves that are to show them.

The first eight change what is said: they are shown by moves of the core whose figures go another way. The last four change the figures.
"""

from fractions import Fraction
from math import ceil

from tests.compares.compare_moves import modelled, moved
from tests.draws.moves import GROUNDS, TIED, strata
from tests.model import moves, response, shears, site
from tests.model.moves import HEAVIER, LARGER_R, LOADS, SMALLER_ALPHA_Y, never_lowers, never_raises


def claimed(change, *both):
    """The model's answers to the two calls, and what the model says of them."""
    replies = [modelled(inputs) for inputs in both]
    return replies, moved(change, replies)


def always_raises(before, after):
    """A figure that grows with every step."""
    return after > before


def always_lowers(before, after):
    """A figure that shrinks with every step."""
    return after < before


def lowers_none(before, after):
    """Figures of a list of which none shrinks."""
    return all(map(never_lowers, before, after))


def besides(changes, **ways):
    """What follows besides, with other ways of some figures."""
    return [(moves, 'BESIDES', moves.BESIDES | {change: moves.BESIDES[change] | ways for change in changes})]


def in_proportion(change, before, after, right=moves.holds):
    """V and V_D grow by the same part, to the newton."""
    return right(change, before, after) and (change not in LOADS or before.V * after.V_D == before.V_D * after.V)


def V_by(share):
    """V and V* with another share of W."""
    def V(frame, m, W, s=response.UNIT):
        """V and V_M."""
        return ceil(share(frame, m, shears.divisor(s)) * W)

    def V_star(frame, p, W, s=response.UNIT, divided_by=site.V_STAR):
        """V*."""
        return ceil(share(frame, p, shears.divisor(s, divided_by)) * W)

    return [(shears, 'V', V), (shears, 'V_star', V_star)]


def by_the_ratio(Sa, F):
    """The ratio modified as V's is, not taken times F."""
    return response.modified_ratio(response.ratio(Sa, F))


def by_no_factor(Sa, F, right=response.p_of_star):
    """p as with a factor of 1."""
    return right(Sa, response.UNIT)


ERRORS = {
    'V* falls with a larger R, as V does': besides([LARGER_R], V_star=never_raises),
    'V* rises as long as R does': besides([LARGER_R], V_star=always_raises),
    'V_D always falls with a larger R': besides([LARGER_R], V_D=always_lowers),
    'V_D never falls with a larger R, as V* does not': besides([LARGER_R], V_D=never_lowers),
    'a smaller alpha-y always raises V_D': besides([SMALLER_ALPHA_Y], V_D=always_raises),
    'V and V_D grow in one proportion, to the newton': [(moves, 'holds', in_proportion)],
    'a heavier level lowers no force': besides([HEAVIER], forces=lowers_none),
    'a heavier level lowers no storey shear': besides([HEAVIER], shears=lowers_none),
    'I as a divisor': V_by(lambda frame, ratio, divisor: Fraction(100**2 * ratio) / (divisor * frame.I * frame.alphay)),
    'alpha-y as a factor': V_by(lambda frame, ratio, divisor: Fraction(frame.I * frame.alphay * ratio) / (divisor * 100**2)),
    'V* a third of V, its factor left out': [(response, 'p_of_star', by_the_ratio)],
    'V* with a factor of 1, whatever R': [(response, 'p_of_star', by_no_factor)],
}


def drawn(rng, count):
    """Moves of every stratum in turn, but for the one that is long looked for."""
    every = [one for kind in GROUNDS for name, one in strata(kind) if not name.endswith(TIED)]
    for number in range(count):
        yield every[number % len(every)](rng)
