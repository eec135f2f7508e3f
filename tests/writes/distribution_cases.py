"""Stored distributions: base shear and period at their ends, lists and levels, pairs of refusals."""

import itertools

from tests.draws import call_faults, calls as drawn, faults
from tests.model import limits
from tests.writes.stored_calls import AT_THE_TOP, LARGEST, OVER, SMALL, UNEVEN, tall_frame


def every_shear_at_every_period():
    """Each end of the base shear at each end of the period and of the roof force, over two sets of levels by turns."""
    for number, (base_shear, period) in enumerate(itertools.product(drawn.BASE_SHEARS, drawn.PERIODS)):
        yield (UNEVEN, SMALL)[number % 2]._replace(base_shear=base_shear, period=period)


def handed_in_limits():
    """Both sides of the limits of base shear and period; as much as there can be."""
    yield from (SMALL._replace(base_shear=value) for value in call_faults.around(limits.BASE_SHEAR))
    yield from (SMALL._replace(period=value) for value in call_faults.around(limits.PERIOD))
    yield from (AT_THE_TOP._replace(base_shear=limits.BASE_SHEAR[-1], period=period) for period in (700, 701, 9_999))
    yield AT_THE_TOP._replace(base_shear=1, period=0)


def list_cases():
    """0, 1, 2, 49, 50 and 51 levels; lists of unequal length; buffers as long as the lists, longer and shorter."""
    yield from (tall_frame(count) for count in (0, 1, 2, 49, 50, 51))
    yield tall_frame(0)._replace(buffers=(0, 0, 0))
    yield tall_frame(50)._replace(buffers=(50, 49, 50))
    for weights, heights in ((3, 2), (2, 3), (0, 3), (3, 51), (51, 3), (50, 49), (60, 60)):
        yield tall_frame(51)._replace(weights=[5] * weights, heights=list(range(1, heights + 1)))
    yield from (OVER._replace(buffers=each) for each in ((5, 4, 60), (2, 3, 3), (3, 2, 3), (3, 3, 2), (60, 60, 0), (0, 0, 0), (60, 60, 60)))


def level_cases():
    """Both sides of weight and height at one level alone, and 3 and 4 at the first, a middle and the last of 50."""
    one = OVER._replace(weights=[5], heights=[9], buffers=(2, 1, 1))
    yield from (one._replace(weights=[value]) for value in call_faults.around(limits.WEIGHT))
    yield from (one._replace(heights=[value]) for value in call_faults.around(limits.HEIGHT))
    whole = tall_frame(50)
    for level in call_faults.FIRST_MIDDLE_LAST:
        yield from (whole._replace(weights=faults.put(whole.weights, level, value)) for value in (0, 20_001))
        yield from (whole._replace(heights=faults.put(whole.heights, level, value)) for value in (0, level, 2_001))
    yield from (SMALL._replace(weights=each) for each in ([0, 0, 3], [7, 0, 0], [20_001, 5, 0]))
    yield from (SMALL._replace(heights=each) for each in ([0, 0, 31], [10, 10, 31], [10, 23, 23], [31, 23, 10], [10, 3_000, 23]))


def distribution_pairs():
    """Every ordered pair of refusals at once: 1, 2 by a list and by a buffer, 3, 4, 19, 20. With 1 the lists are unequal, and where there is no
    level there is no bad weight."""
    wrong = {
        1: (('weights', None, []), ('weights', None, [5] * 51)), 2: (('heights', None, [10]), ('heights', None, [10, 23, 31, 40])),
        '2, a buffer': (('buffers', 0, 0), ('buffers', 2, 2)),
        3: (('weights', 1, 0), ('weights', 0, 20_001)), 4: (('heights', 0, 0), ('heights', 0, 2_001)),
        19: (('base_shear', None, 0), ('base_shear', None, 1_200_000_001)), 20: (('period', None, 10_000), ('period', None, LARGEST)),
    }
    yield from (call_faults.both(SMALL, wrong[one][0], wrong[other][1]) for one, other in itertools.permutations(wrong, 2))
    yield SMALL._replace(base_shear=0, period=10_000, weights=[0] * 3, heights=[0] * 3, buffers=(2, 2, 2))


def distribution_two_wrong():
    """No level and 51 levels, each with nothing else wrong but one of the later refusals."""
    over = tall_frame(51)
    none = over._replace(weights=[], heights=[])
    for case in (none, over):
        yield from (case._replace(base_shear=value) for value in (0, 1_200_000_001))
        yield from (case._replace(period=value) for value in (10_000, LARGEST))
    yield from (over._replace(weights=faults.put(over.weights, level, value)) for level, value in ((0, 0), (50, 20_001)))
    yield from (over._replace(heights=faults.put(over.heights, level, value)) for level, value in ((0, 0), (50, 2_001)))
