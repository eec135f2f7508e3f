"""Errors of soft clay that look right, to be put into the model of a soil log, and the logs that are to show them."""

from fractions import Fraction

from tests.draws import soil_logs
from tests.model import soil

RIGHT = soil.by_strength


def without_hundredths(q):
    """q taken for a whole number of kgf/cm^2."""
    return soil.root(1200**25 * q**9, 25)


def cube_root(q):
    """The exponent of N, 1/3, in place of 0.36."""
    return soil.root(1200**3 * Fraction(q, 100), 3)


def made_up(q):
    """Cohesive soil of N = 2 in its place."""
    return soil.velocity(soil.COHESIVE, 2)


ERRORS = {
    'kind 4 still refused': [(soil, 'VALUE', {kind: allowed for kind, allowed in soil.VALUE.items() if kind != soil.SOFT_CLAY})],
    'q without the hundredths': [(soil, 'by_strength', without_hundredths)],
    'the exponent 1/3': [(soil, 'by_strength', cube_root)],
    'one dm/s faster': [(soil, 'by_strength', lambda q: RIGHT(q) + 1)],
    'one dm/s slower': [(soil, 'by_strength', lambda q: RIGHT(q) - 1)],
    'the velocity of N = 2': [(soil, 'by_strength', made_up)],
    'q of 401 taken': [(soil, 'VALUE', {**soil.VALUE, soil.SOFT_CLAY: range(1, 401 + 1)})],
    'q of 400 refused': [(soil, 'VALUE', {**soil.VALUE, soil.SOFT_CLAY: range(1, 399 + 1)})],
    'q of 1 refused': [(soil, 'VALUE', {**soil.VALUE, soil.SOFT_CLAY: range(2, 400 + 1)})],
}


def logs(rng, count):
    """Soil logs of every stratum in turn."""
    strata = list(soil_logs.STRATA.values())
    return (strata[number % len(strata)](rng) for number in range(count))
