"""01's 'Errors that look right', as changes of the model, and the jobs on sites that are to show them."""

from fractions import Fraction
from math import ceil

from tests.draws.plain_jobs import draw, lengths
from tests.model import response, site as sites, storeys


def rounded_corner(A, B):
    """T0 to a whole millisecond."""
    return Fraction(round(Fraction(1000 * B, A)))


def rounded_spectrum(A, B, T):
    """The branches chosen by the rounded corner."""
    T0 = rounded_corner(A, B)
    if T <= T0 / 5:
        return Fraction(A, 10**8) * (Fraction(4, 10) + 3 * T / T0)
    if T <= T0:
        return Fraction(A, 10**8)
    if T <= Fraction(5, 2) * T0:
        return Fraction(B, 10**8) / Fraction(T, 1000)
    return Fraction(4, 10) * Fraction(A, 10**8)


def draft_ratio(q, s=response.UNIT):
    """Thresholds 0.4 and 0.9."""
    if q <= Fraction(4 * s, 10):
        return q
    return ceil(Fraction(52 * q, 100) + Fraction(144 * s, 1000)) if q <= Fraction(9 * s, 10) else ceil(Fraction(7 * q, 10))


def draft_p(Sa, F):
    """The same of p."""
    if 10 * Sa <= 4 * F:
        return Sa
    return ceil(Fraction(52 * Sa, 100) + Fraction(144 * F, 1000)) if 10 * Sa <= 9 * F else ceil(Fraction(7 * Sa, 10))


def alone(V_D, top, weights, heights):
    """Each storey force rounded alone, the shears added up from them."""
    products = [weight * height for weight, height in zip(weights, heights)]
    each = [ceil(Fraction((V_D - top) * product, sum(products))) for product in products]
    each[-1] += top
    return [sum(each[x:]) for x in range(len(each))]


ERRORS = {
    'the lower factor used in V*': [(response, 'upper_factor', response.lower_factor)],
    'near-fault factors left in V*': [(sites, 'star', sites.design)],
    'T0 rounded to a millisecond': [(response, 'corner', rounded_corner), (response, 'spectrum_in_g', rounded_spectrum)],
    'thresholds 0.4 and 0.9': [(response, 'modified_ratio', draft_ratio), (response, 'p_of_star', draft_p)],
    'each storey force rounded alone': [(storeys, 'shears', alone)],
}


def drawn(rng, count):
    """Accepted jobs on sites."""
    for _ in range(count):
        ground, frame, weights, heights = draw(rng)
        yield ground, frame, weights, heights, lengths(rng, weights)
