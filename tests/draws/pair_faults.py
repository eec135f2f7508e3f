"""Bad jobs on sites with two pairs of near-fault factors: 6 at each of its four places, alone and with any other refusal."""

import itertools

from tests.draws import faults
from tests.draws.plain_jobs import draw, draw_pairs
from tests.model import limits

SITE = limits.Site(80, 45, 100, 55, 120, 130, 140, 150, 1)
FACTOR_PLACES = tuple(limits.Site._fields.index(name) for name in limits.FACTORS)


def wrong(allowed):
    """Numbers that are not allowed, those beside a limit among them."""
    return [value for value in faults.beside(allowed) if value not in allowed]


def two_places():
    """Every two numbers of a site wrong at once: 5 before 6 before 7, and the lower place of either."""
    weights, heights = faults.TALL
    for one, other in itertools.combinations(range(len(SITE)), 2):
        for values in itertools.product(wrong(faults.LIMITS['site'][one]), wrong(faults.LIMITS['site'][other])):
            site = faults.put(faults.put(SITE, one, values[0]), other, values[1])
            yield site, faults.FRAME, weights, heights, faults.ROOM


def systematic():
    """Both sides of every limit of a site with two pairs; two numbers at once; each bad factor with another number beside its limits."""
    yield from faults.systematic(SITE)
    yield from two_places()
    yield from faults.with_another([faults.put(SITE, place, value) for place in FACTOR_PLACES for value in (0, 99, 201)])


def random_call(rng):
    """A drawn job with two pairs, changed as any other; every second time at one to three numbers of the site, the factors most often."""
    if rng.random() < 0.5:
        return faults.random_call(rng, draw_pairs)
    ground, frame, weights, heights = draw(rng, draw_pairs)
    for _ in range(rng.choice((1, 1, 2, 3))):
        place = rng.choice((*range(len(SITE)), *FACTOR_PLACES, *FACTOR_PLACES))
        ground = faults.put(ground, place, faults.wrong_value(rng, faults.LIMITS['site'][place]))
    return ground, tuple(frame), weights, heights, (len(weights),) * 3
