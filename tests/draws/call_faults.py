"""Bad shear calls and bad distributions (Wish 6): every refusal at every place, both sides of each limit, every two at once."""

import itertools

from tests.draws import faults, pair_faults
from tests.draws.calls import GROUNDS, DistributionInputs, ShearInputs, draw_distribution, draw_shear_call
from tests.model import limits

MOST = faults.MOST
LOW_BITS = (2**16, 2**32, 2**63)
SITES = {'site': faults.SITE, 'basin': faults.BASIN, 'pairs': pair_faults.SITE}
GOOD = DistributionInputs(1_071_429, 1_000, *faults.TALL, faults.ROOM)
FIRST_MIDDLE_LAST = (0, 24, 49)


def around(allowed):
    """Both sides of each end of a range, 0, the largest u64, and numbers whose low bits are allowed."""
    ends = {end + step for end in (allowed[0], allowed[-1]) for step in (-1, 0, 1, *LOW_BITS)}
    return sorted(value for value in ends | {0, MOST} if 0 <= value <= MOST)


def good_shear(kind):
    """A shear call on a kind of ground that is good."""
    return ShearInputs(SITES[kind], faults.FRAME, 15_000, 300)


def with_change(call, part, place, value):
    """A call with one number, of a list or alone, changed."""
    if part == 'ground':
        return call._replace(ground=faults.put_ground(call.ground, place, value))
    return call._replace(**{part: value if place is None else faults.put(getattr(call, part), place, value)})


def numbers_of(ground):
    """Every number of a shear call as (part, place), and what it may be, in the order of the refusals."""
    yield ('weight', None), limits.TOTAL_WEIGHT
    yield ('height', None), limits.HEIGHT
    yield from ((('ground', place), allowed) for place, allowed in enumerate(faults.limits_of(ground)))
    yield from ((('frame', place), allowed) for place, allowed in enumerate(faults.LIMITS['frame']))


def near(allowed):
    """Numbers beside the limits of a range, or of a list of values."""
    return around(allowed) if isinstance(allowed, range) else faults.beside(allowed)


def two_wrong(allowed):
    """A number below what is allowed, and one above; both above where 0 is allowed."""
    wrong = [value for value in near(allowed) if value not in allowed]
    return wrong[0], wrong[-1]


def systematic_shears(kind):
    """Both sides of every limit; every ordered pair of numbers wrong at once, the first below and the second above what is allowed."""
    call, numbers = good_shear(kind), dict(numbers_of(SITES[kind]))
    for number, allowed in numbers.items():
        yield from (with_change(call, *number, value) for value in near(allowed))
    for one, other in itertools.permutations(numbers, 2):
        yield with_change(with_change(call, *one, two_wrong(numbers[one])[0]), *other, two_wrong(numbers[other])[1])
    yield ShearInputs(*(faults.put_ground(SITES[kind], 0, 0), (0, MOST, 0, 0, 0), 0, 0))


def lists_of(count):
    """So many weights and heights, and room for them."""
    return {'weights': [5_000] * count, 'heights': [30 * (level + 1) for level in range(count)], 'lengths': (count,) * 3}


def changed_distributions():
    """Both sides of every limit at every level, every length of each list and buffer; base shear and period."""
    for level in range(len(GOOD.weights)):
        yield from (with_change(GOOD, 'weights', level, value) for value in around(limits.WEIGHT))
        beside = {40 * level, 40 * level + 1, 40 * (level + 2) - 1, 40 * (level + 2)}
        yield from (with_change(GOOD, 'heights', level, value) for value in sorted({*around(limits.HEIGHT), *beside}))
    for count in range(54):
        lists = lists_of(count)
        yield GOOD._replace(**lists)
        yield GOOD._replace(heights=lists['heights'])
        yield GOOD._replace(weights=lists['weights'], lengths=(55, 55, 55))
        yield from (with_change(GOOD, 'lengths', place, count) for place in range(3))
    yield from (GOOD._replace(base_shear=value) for value in around(limits.BASE_SHEAR))
    yield from (GOOD._replace(period=value) for value in around(limits.PERIOD))


def wrong_parts():
    """Each refusal of a distribution as changes of a good one, two ways of each where there are two: name -> (one, other)."""
    yield 'no level or 51', (('weights', None, []), ('weights', None, [5_000] * 51))
    yield 'unequal lists', (('heights', None, GOOD.heights[:-1]), ('heights', None, [*GOOD.heights, 2_000]))
    yield from ((f'buffer {place}', (('lengths', place, 0), ('lengths', place, 49))) for place in range(3))
    for part, allowed in (('weights', limits.WEIGHT), ('heights', limits.HEIGHT)):
        yield from ((f'{part} {level}', tuple((part, level, value) for value in two_wrong(allowed))) for level in FIRST_MIDDLE_LAST)
    yield 'base shear', tuple(('base_shear', None, value) for value in two_wrong(limits.BASE_SHEAR))
    yield 'period', tuple(('period', None, value) for value in (limits.PERIOD[-1] + 1, MOST))


def both(call, one, other):
    """The call with both changes; the list that is replaced as a whole first, so that the other change stands in it where it can."""
    for part, place, value in sorted((one, other), key=lambda change: change[1] is not None):
        if place is None or place < len(getattr(call, part)):
            call = with_change(call, part, place, value)
    return call


def systematic_distributions():
    """Each change alone, every ordered pair of refusals at once, and base shear and period each beside its limits with the other wrong."""
    yield from changed_distributions()
    parts = dict(wrong_parts())
    yield from (both(GOOD, parts[one][0], parts[other][1]) for one, other in itertools.permutations(parts, 2))
    for value in around(limits.BASE_SHEAR):
        yield from (GOOD._replace(base_shear=value, period=period) for period in around(limits.PERIOD))


def wrong_value(rng, allowed):
    """A number beside the limits, or any."""
    return rng.choice((rng.choice(near(allowed)), rng.randrange(2**rng.randrange(65))))


def random_shear(rng, kind):
    """A drawn shear call with one to four numbers changed, weight and height most often."""
    call = draw_shear_call(rng, GROUNDS[kind])
    numbers = list(numbers_of(call.ground))
    for _ in range(rng.choice((1, 1, 1, 2, 3, 4))):
        number, allowed = rng.choice((*numbers, *numbers[:2] * 3))
        call = with_change(call, *number, wrong_value(rng, allowed))
    return call


def spoilt(rng, call):
    """A distribution with one of its numbers or lengths changed, right or wrong."""
    what = rng.randrange(8)
    if what == 0:
        return call._replace(base_shear=wrong_value(rng, limits.BASE_SHEAR))
    if what == 1:
        return call._replace(period=wrong_value(rng, limits.PERIOD))
    if what == 2 and call.weights:
        return with_change(call, 'weights', rng.randrange(len(call.weights)), wrong_value(rng, limits.WEIGHT))
    if what == 3 and call.heights:
        place = rng.randrange(len(call.heights))
        value = rng.choice((wrong_value(rng, limits.HEIGHT), call.heights[max(place - 1, 0)], call.heights[-1]))
        return with_change(call, 'heights', place, value)
    if what == 4:
        return call._replace(weights=call.weights[:rng.randrange(len(call.weights) + 1)])
    if what == 5:
        return call._replace(weights=call.weights * rng.randrange(4))
    if what == 6:
        return call._replace(heights=call.heights[:rng.randrange(len(call.heights) + 1)])
    return with_change(call, 'lengths', rng.randrange(3), rng.randrange(len(call.weights) + 2))


def random_distribution(rng):
    """A drawn distribution with one to four changes."""
    call = draw_distribution(rng)
    for _ in range(rng.choice((1, 1, 1, 2, 3, 4))):
        call = spoilt(rng, call)
    return call
