"""Wrong ideas of the roof force, as changes of the model, and the jobs that are to show them."""

from fractions import Fraction
from math import ceil

from tests.compares.drawn_calls import calls_in
from tests.draws.roof import period_strata
from tests.model import storeys


def at_every_period(T, V_D):
    """0.07*T*V_D at every T, as the short English text has it."""
    return ceil(Fraction(7 * T * V_D, 100_000))


def force_at_700(T, V_D, right=storeys.F_t):
    """0 below 700 ms only."""
    return at_every_period(T, V_D) if T == 700 else right(T, V_D)


def without_quarter(T, V_D):
    """No upper end."""
    return 0 if T <= 700 else at_every_period(T, V_D)


def quarter_of_the_rest(T, V_D):
    """A quarter of what is left beside F_t, which is a fifth of V_D."""
    return 0 if T <= 700 else ceil(min(Fraction(7 * T * V_D, 100_000), Fraction(V_D, 5)))


def two_roundings(T, V_D):
    """The part rounded up to hundredths before it is taken of V_D."""
    return 0 if T <= 700 else ceil(min(Fraction(ceil(Fraction(7 * T, 1_000)), 100), Fraction(1, 4)) * V_D)


ERRORS = {
    'a roof force at every T': [(storeys, 'F_t', at_every_period)],
    '0 below 700 ms only': [(storeys, 'F_t', force_at_700)],
    'no quarter': [(storeys, 'F_t', without_quarter)],
    'the quarter taken of what is left': [(storeys, 'F_t', quarter_of_the_rest)],
    'two roundings': [(storeys, 'F_t', two_roundings)],
}


def drawn(rng, count):
    """Jobs at the ends of the rule of the roof force, sites, the Basin and two pairs by turns."""
    return calls_in(rng, count, period_strata)
