"""Bad jobs, on a site and in the Basin: every refusal at every place, both sides of each limit, alone and several at once."""

import functools

from tests.draws.plain_jobs import draw, draw_site
from tests.model import limits

MOST = 2**64 - 1
TALL = [5_000] * 50, [40 * (level + 1) for level in range(50)]
SITE, BASIN = limits.one_pair(80, 45, 100, 55, 100, 100, 1), limits.Basin(1)
FRAME, ROOM = (2, 1000, 480, 100, 150), (50, 50, 50)
LIMITS = {'site': (limits.S_S_DESIGN, limits.S_1_DESIGN, limits.S_S_MCE, limits.S_1_MCE, *limits.FACTORS.values(), limits.CLASS),
          'basin': (limits.ZONE,),
          'frame': (limits.KIND, limits.CALCULATED_PERIOD, limits.R_RANGE, limits.I_VALUES, limits.ALPHA_Y)}


@functools.cache
def beside(allowed):
    """Each allowed value that has a neighbour outside, those neighbours, 0, the largest u64, and numbers whose low bits are allowed."""
    among = set(allowed)
    ends = {value for value in among if not {value - 1, value + 1} <= among}
    wide = {min(among) + step for step in (2**16, 2**32, 2**63)}
    return sorted({value + step for value in ends for step in (-1, 0, 1) if value + step >= 0} | {0, MOST} | wide)


def limits_of(ground):
    """What each number of a ground may be."""
    return LIMITS['basin' if isinstance(ground, limits.Basin) else 'site']


def put_ground(ground, place, value):
    """The ground with one number changed, of the same type."""
    return limits.Basin(value) if isinstance(ground, limits.Basin) else put(ground, place, value)


def put(numbers, place, value):
    """The numbers with one changed."""
    return [*numbers[:place], value, *numbers[place + 1:]]


def systematic(ground=SITE):
    """Calls (ground, frame, weights, heights, buffer lengths): every number of every line, every level, every length."""
    frame, (weights, heights), room = FRAME, TALL, ROOM
    for place, allowed in enumerate(limits_of(ground)):
        yield from ((put_ground(ground, place, value), frame, weights, heights, room) for value in beside(allowed))
    for place, allowed in enumerate(LIMITS['frame']):
        yield from ((ground, put(frame, place, value), weights, heights, room) for value in beside(allowed))
    for level in range(50):
        yield from ((ground, frame, put(weights, level, value), heights, room) for value in beside(limits.WEIGHT))
        near = {0, 1, 2_000, 2_001, MOST, 40 * level, 40 * level + 1, 40 * (level + 2) - 1, 40 * (level + 2)}
        yield from ((ground, frame, weights, put(heights, level, value), room) for value in near)
    for count in range(54):
        yield ground, frame, [5_000] * count, [30 * (level + 1) for level in range(count)], (count,) * 3
        yield ground, frame, weights, [30 * (level + 1) for level in range(count)], room
        yield ground, frame, [5_000] * count, heights, (55, 55, 55)
        yield from ((ground, frame, weights, heights, put(room, place, count)) for place in range(3))


def with_another(grounds):
    """Each of the grounds with every other number beside its limits: a ground is judged after 1 to 4 and before 8 to 12."""
    weights, heights = TALL
    for ground in grounds:
        for place, allowed in enumerate(LIMITS['frame']):
            yield from ((ground, put(FRAME, place, value), weights, heights, ROOM) for value in beside(allowed))
        yield from ((ground, FRAME, put(weights, 49, value), heights, ROOM) for value in beside(limits.WEIGHT))
        yield from ((ground, FRAME, weights, put(heights, 49, value), ROOM) for value in beside(limits.HEIGHT))
        yield from ((ground, FRAME, weights[:count], heights, ROOM) for count in (0, 49))
        yield from ((ground, FRAME, weights, heights, put(ROOM, place, 49)) for place in range(3))


def zones():
    """Every zone that is judged."""
    return [limits.Basin(zone) for zone in beside(limits.ZONE)]


def wrong_value(rng, allowed):
    """A number beside the limits, or any."""
    return rng.choice((rng.choice(beside(allowed)), rng.randrange(2**rng.randrange(65))))


def spoil(rng, call):
    """The call with one of its numbers or lengths changed, right or wrong."""
    ground, frame, weights, heights, room = call
    what = rng.randrange(7)
    if what == 0:
        place = rng.randrange(len(ground))
        return put_ground(ground, place, wrong_value(rng, limits_of(ground)[place])), frame, weights, heights, room
    if what == 1:
        place = rng.randrange(5)
        return ground, put(frame, place, wrong_value(rng, LIMITS['frame'][place])), weights, heights, room
    if what == 2 and weights:
        return ground, frame, put(weights, rng.randrange(len(weights)), wrong_value(rng, limits.WEIGHT)), heights, room
    if what == 3 and heights:
        place = rng.randrange(len(heights))
        value = rng.choice((wrong_value(rng, limits.HEIGHT), heights[max(place - 1, 0)], heights[-1]))
        return ground, frame, weights, put(heights, place, value), room
    if what == 4:
        return ground, frame, weights[:rng.randrange(len(weights) + 1)], heights, room
    if what == 5:
        return ground, frame, weights * rng.randrange(4), heights, room
    return ground, frame, weights, heights, put(room, rng.randrange(3), rng.randrange(len(weights) + 2))


def random_call(rng, draw_ground=draw_site):
    """A drawn job with one to four changes."""
    ground, frame, weights, heights = draw(rng, draw_ground)
    call = ground, tuple(frame), weights, heights, tuple(len(weights) + rng.choice((0, 0, 3)) for _ in range(3))
    for _ in range(rng.choice((1, 1, 1, 2, 3, 4))):
        call = spoil(rng, call)
    return call
