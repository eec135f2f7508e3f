"""Stored cases of accidental moments (Wish 10): what is handed in and the dimension at their ends, lists and levels, pairs of refusals."""

import itertools

from tests.draws import call_faults, calls as drawn, faults
from tests.model import limits
from tests.writes.stored_drifts import LARGEST, LARGEST_SIGNED, OVER, SMALL, tall_moments

LEAST_BUT_ONE = -LARGEST_SIGNED


def held_cases():
    """The worked sheet's levels, taken, refused and taken again; other cells than the usual."""
    yield from (OVER, OVER._replace(dimension=0), OVER)
    used = OVER._replace(buffers=(5, 4))
    for old in ((0, 0), (166_071_000, -166_071_000), (LEAST_BUT_ONE, LARGEST_SIGNED), (-1, -1)):
        yield from (used._replace(old=old), used._replace(old=old, period=10_000))


def moment_cases():
    """Each end of the base shear with ends of the period and of the dimension; forces of 0; one level; as much as there can be."""
    periods = 0, 700, 701, 3_571, 3_572, 9_999
    for number, (base_shear, period) in enumerate(itertools.product((1, 1_200_000_000), periods)):
        yield (OVER, SMALL)[number % 2]._replace(base_shear=base_shear, period=period, dimension=(1, 5_000, 333)[number % 3])
    yield from (SMALL._replace(base_shear=base_shear, period=0) for base_shear in (1, 2, 3, 7, 1_000))
    one = OVER._replace(weights=[5], heights=[9], buffers=(1, 1))
    yield from (one._replace(base_shear=base_shear, dimension=dimension) for base_shear in drawn.BASE_SHEARS for dimension in (1, 5_000))
    yield OVER._replace(weights=[20_000] * 50, heights=list(range(1_951, 2_001)), base_shear=1_200_000_000, dimension=5_000, buffers=(50, 51))
    yield OVER._replace(weights=[900, 1, 20_000, 44], heights=[1, 2, 1_999, 2_000], buffers=(4, 6))


def limit_cases():
    """Both sides of the limits of base shear, period and dimension."""
    yield from (SMALL._replace(dimension=value) for value in call_faults.around(limits.DIMENSION))
    yield from (SMALL._replace(base_shear=value) for value in (0, 1, 1_200_000_000, 1_200_000_001, LARGEST))
    yield from (SMALL._replace(period=value) for value in (0, 9_999, 10_000, LARGEST))


def list_cases():
    """0, 1, 2, 50 and 51 levels; lists of unequal length; buffers as long as the lists, longer and shorter."""
    yield from (tall_moments(count) for count in (0, 1, 2, 50, 51))
    yield tall_moments(0)._replace(buffers=(0, 0))
    yield from (tall_moments(50)._replace(buffers=buffers) for buffers in ((49, 50), (50, 49), (50, 50)))
    for weights, heights in ((3, 2), (2, 3), (0, 3), (3, 0), (3, 51), (51, 3), (50, 49)):
        yield tall_moments(51)._replace(weights=[5] * weights, heights=list(range(1, heights + 1)))
    yield from (OVER._replace(buffers=each) for each in ((4, 3), (3, 4), (2, 3), (3, 2), (52, 0), (0, 52), (0, 0), (52, 52)))


def level_cases():
    """Both sides of weight and height at one level alone, and 3 and 4 at the first, a middle and the last of 50; each at two levels."""
    one = OVER._replace(weights=[5], heights=[9], buffers=(2, 1))
    yield from (one._replace(weights=[value]) for value in (0, 1, 20_000, 20_001, LARGEST))
    yield from (one._replace(heights=[value]) for value in (0, 1, 2_000, 2_001, LARGEST))
    whole = tall_moments(50)
    for level in call_faults.FIRST_MIDDLE_LAST:
        yield whole._replace(weights=faults.put(whole.weights, level, 20_001))
        yield whole._replace(heights=faults.put(whole.heights, level, level))
    yield from (SMALL._replace(weights=each) for each in ([0, 0, 3], [7, 0, 0]))
    yield from (SMALL._replace(heights=each) for each in ([0, 0, 31], [10, 10, 31], [31, 23, 10]))


# each refusal as two changes of three levels: part, place in it, value
WRONG = {
    1: (('weights', None, []), ('weights', None, [5] * 51)), 2: (('heights', None, [10]), ('heights', None, [10, 23, 31, 40])),
    '2, a buffer': (('buffers', 0, 2), ('buffers', 1, 2)), 3: (('weights', 1, 0), ('weights', 0, 20_001)),
    4: (('heights', 0, 0), ('heights', 0, 2_001)), 19: (('base_shear', None, 0), ('base_shear', None, 1_200_000_001)),
    20: (('period', None, 10_000), ('period', None, LARGEST)), 26: (('dimension', None, 0), ('dimension', None, 5_001)),
}


def pair_cases():
    """Every ordered pair of refusals at once; no level and 51 levels, each with nothing else wrong but one of the later refusals; all at once."""
    yield from (call_faults.both(SMALL, WRONG[one][0], WRONG[other][1]) for one, other in itertools.permutations(WRONG, 2))
    for count in (0, 51):
        yield from (tall_moments(count)._replace(**change) for change in ({'base_shear': 0}, {'period': 10_000}, {'dimension': 5_001}))
    over = tall_moments(51)
    yield over._replace(buffers=(50, 52))
    yield from (over._replace(weights=faults.put(over.weights, 50, 0)), over._replace(heights=faults.put(over.heights, 50, 50)))
    yield SMALL._replace(base_shear=0, period=10_000, weights=[0] * 3, heights=[0] * 3, dimension=0, buffers=(2, 2))


def accidental_cases():
    """All of them."""
    for part in (held_cases, moment_cases, limit_cases, list_cases, level_cases, pair_cases):
        yield from part()
