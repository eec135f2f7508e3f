"""Wrong ideas of the finer unit, as changes of the model, and the jobs that are to show them."""

from fractions import Fraction

from tests.draws.plain_jobs import draw, draw_basin, draw_pairs, draw_site, lengths
from tests.model import calls, response, shears

MILLIONTHS = 10**6


def to_millionths(right):
    """A figure of the model, whose last number is its unit, rounded to millionths and then written in the unit."""
    return lambda *numbers: numbers[-1] // MILLIONTHS * right(*numbers[:-1], MILLIONTHS)


def ratio_in_millionths(Sa, F, s, right=response.ratio):
    """q to a whole millionth."""
    return s // MILLIONTHS * right(Sa, F, MILLIONTHS)


def thresholds_of_millionths(q, s, right=response.modified_ratio):
    """300,000, 800,000 and 144,000 kept."""
    return right(q, MILLIONTHS)


def divisor_of_millionths(s, divided_by=Fraction(14, 10), right=shears.divisor):
    """1400, 4200 and 3500 kept."""
    return right(MILLIONTHS, divided_by)


def all_in_millionths(ground, frame, W, h, s, right=calls.base_figures):
    """The unit as it was."""
    return right(ground, frame, W, h, MILLIONTHS)


ERRORS = {
    'everything left in millionths': [(calls, 'base_figures', all_in_millionths)],
    'the thresholds of millionths': [(response, 'modified_ratio', thresholds_of_millionths)],
    'the divisors of millionths': [(shears, 'divisor', divisor_of_millionths)],
    'the spectrum to millionths': [(response, 'spectrum', to_millionths(response.spectrum))],
    'the lower root to millionths': [(response, 'lower_root', to_millionths(response.lower_root))],
    'the upper root to millionths': [(response, 'upper_root', to_millionths(response.upper_root))],
    'q to millionths': [(response, 'ratio', ratio_in_millionths)],
}


def drawn(rng, count):
    """Accepted jobs on sites, in the Basin and with two pairs by turns."""
    for number in range(count):
        ground, frame, weights, heights = draw(rng, (draw_site, draw_basin, draw_pairs)[number % 3])
        yield ground, frame, weights, heights, lengths(rng, weights)
