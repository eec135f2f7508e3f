"""Strata of drift (Wish 10), every number within its range: name -> what draws a call from a random generator.

Displacements, heights and the limit are at their ends, each with others; a storey moves by the limit exactly, by one less or by one more, each way; the
ends of a storey lie on two sides of 0; a storey is beyond the limit by its own height and within it by its height above the base.
"""

import functools
import itertools
from typing import NamedTuple

from tests.draws.calls import TOP_HEIGHTS, any_of, said, uniform
from tests.draws.plain_jobs import draw_heights
from tests.model import limits

MOST, HIGHEST, MOST_LEVELS = limits.DISPLACEMENT[-1], limits.HEIGHT[-1], limits.LEVELS[-1]
LIMITS = (1, 2, 50, 9_999, 10_000)
MARKED = (1, 50, 10_000, None)          # limits by which a storey moves; None is any
SIDES = {'one below': -1, 'at': 0, 'one beyond': 1}
WAYS = {'forward': 1, 'backward': -1}
PREFIX = 'drift: '                      # of a stratum's name


class DriftInputs(NamedTuple):
    """The inputs of drift, lowest level first, and the length of its buffer of verdicts."""

    heights: list
    displacements: list
    limit: int
    lengths: tuple


def room(rng, count, buffers=1):
    """Buffers of so many cells, or of more."""
    return tuple(count + (rng.choice((0, 0, 1)) if rng.random() < 0.99 else rng.randrange(1_000)) for _ in range(buffers))


def rises(heights):
    """Each storey's own height."""
    return [high - low for low, high in zip([0, *heights], heights)]


def alike(rise, count):
    """The heights of so many storeys of one height."""
    return [rise * (level + 1) for level in range(count)]


def low_above_high(rng):
    """A high storey and low ones above it."""
    return list(itertools.accumulate((rng.randint(500, 1_500), *(rng.randint(1, 9) for _ in range(rng.randint(1, 9))))))


HEIGHTS = {
    **{f'levels {count}': functools.partial(draw_heights, count=count) for count in (1, 2, MOST_LEVELS - 1, MOST_LEVELS)},
    **{f'one level at {height:,} dm': lambda rng, height=height: [height] for height in TOP_HEIGHTS},
    '50 levels from 1 to 50 dm': lambda rng: list(range(1, MOST_LEVELS + 1)),
    '50 levels from 1,951 to 2,000 dm': lambda rng: list(range(HIGHEST - MOST_LEVELS + 1, HIGHEST + 1)),
    '50 levels up to 2,000 dm': lambda rng: alike(HIGHEST // MOST_LEVELS, MOST_LEVELS),
    'low storeys above a high one': low_above_high,
}


def draw_levels(rng):
    """The heights of a few levels, of any number, or of a kind of HEIGHTS."""
    few, many = (draw_heights(rng, rng.randint(1, most)) for most in (6, MOST_LEVELS))
    return rng.choice((few, few, many, rng.choice(tuple(HEIGHTS.values()))(rng)))


def in_turn(rng, sizes):
    """Sizes with one sign and the other in turn."""
    first = rng.choice((1, -1))
    return [first * (-1) ** place * size for place, size in enumerate(sizes)]


def two_sides(rng, heights, limit):
    """Displacements on one side and the other in turn, that differ by more than the limit takes of the lowest storey, and in size by no more."""
    mark = min(limit * min(rises(heights)), MOST)
    low = mark // 2 + 1
    return in_turn(rng, [rng.randint(low, min(low + mark, MOST)) for _ in heights])


def farther(rng, heights):
    """Displacements of one sign that grow."""
    sign = rng.choice((1, -1))
    return [sign * each for each in sorted(rng.randint(0, MOST) for _ in heights)]


def walk(rng, heights, limit):
    """Each level moved from the one below by the limit, by about it, or by any part or multiple of it."""
    displacements, below = [], 0
    for rise in rises(heights):
        mark = limit * rise
        moved = rng.choice((1, -1)) * rng.choice((mark, mark + 1, mark - 1, mark + rise, rng.randint(0, 2 * mark), rng.randint(0, rise)))
        below = next((each for each in (below + moved, below - moved) if each in limits.DISPLACEMENT), -below)
        displacements.append(below)
    return displacements


DISPLACED = {
    'not at all': lambda rng, heights, limit: [0] * len(heights),
    'all to the largest': lambda rng, heights, limit: [MOST] * len(heights),
    'all to the least': lambda rng, heights, limit: [-MOST] * len(heights),
    'to the largest and the least in turn': lambda rng, heights, limit: in_turn(rng, [MOST] * len(heights)),
    'to an end or not': lambda rng, heights, limit: [rng.choice((-MOST, -MOST + 1, 0, MOST - 1, MOST)) for _ in heights],
    'to two sides in turn': lambda rng, heights, limit: in_turn(rng, [rng.randint(0, MOST) for _ in heights]),
    'to two sides in turn, alike in size': two_sides,
    'by small numbers': lambda rng, heights, limit: [rng.randint(-3, 3) for _ in heights],
    'by any': lambda rng, heights, limit: [uniform(rng, limits.DISPLACEMENT) for _ in heights],
    'by numbers of any size': lambda rng, heights, limit: [rng.choice((1, -1)) * any_of(rng, range(1, MOST + 1)) for _ in heights],
    'one way, farther and farther': lambda rng, heights, limit: farther(rng, heights),
    'by about the limit': walk,
}


def draw_limit(rng):
    """Any limit, one as users have it, or one at an end."""
    return rng.choice((any_of(rng, limits.DRIFT_LIMIT), rng.randint(20, 200), rng.choice(LIMITS)))


def draw_drift(rng, heights=draw_levels, displaced=None, limit=None):
    """A call from all that is allowed, or with what is given."""
    levels, limit = heights(rng), limit or draw_limit(rng)
    displaced = displaced or rng.choice((walk, rng.choice(tuple(DISPLACED.values()))))
    return DriftInputs(levels, displaced(rng, levels, limit), limit, room(rng, len(levels)))


def opposite(call):
    """A call with all signs reversed."""
    return call._replace(displacements=[-each for each in call.displacements])


def with_larger_limit(rng, call):
    """A call with the next limit, the largest, or any between."""
    more = range(1, limits.DRIFT_LIMIT[-1] - call.limit + 1)
    return call._replace(limit=call.limit + rng.choice((more[0], more[-1], any_of(rng, more))))


def from_where(moved):
    """Where the lower end of a storey can lie that moves by so much."""
    return range(max(-MOST, -MOST - moved), min(MOST, MOST - moved) + 1)


def at_mark(rng, step, way, limit=None):
    """A storey that moves by the limit, or by one less or more, one way; the others by about it."""
    limit, count = limit or draw_limit(rng), rng.choice((1, rng.randint(1, 6), rng.randint(1, 20)))
    most = min(HIGHEST // count, (MOST - 1) // limit)
    heights = list(itertools.accumulate(rng.randint(1, rng.choice((most, min(most, 40)))) for _ in range(count)))
    displacements, place = walk(rng, heights, limit), rng.randrange(count)
    moved = way * (limit * rises(heights)[place] + step)
    below = uniform(rng, from_where(moved)) if place else 0
    displacements[max(place - 1, 0)], displacements[place] = below, below + moved
    return DriftInputs(heights, displacements, limit, room(rng, count))


def on_two_sides(rng):
    """Storeys whose ends lie on two sides of 0: beyond the limit, while in size they differ by no more than it takes."""
    limit, rise, count = rng.choice((1, 2, 50, rng.randint(1, 400))), rng.randint(1, 200), rng.randint(2, 9)
    return draw_drift(rng, lambda rng: alike(rise, count), two_sides, limit)


def by_own_height(rng):
    """A storey beyond the limit by its own height, and within it by its height above the base."""
    limit, base, rise = rng.choice((1, 2, 50, rng.randint(1, 300))), rng.randint(100, 1_500), rng.randint(1, 100)
    moved = rng.choice((1, -1)) * rng.randint(limit * rise + 1, limit * (base + rise))
    first = uniform(rng, from_where(moved))
    return DriftInputs([base, base + rise], [first, first + moved], limit, room(rng, 2))


def first_beyond(rng):
    """The first storey beyond the limit, and no other."""
    limit, rise, count = rng.randint(1, 500), rng.randint(1, 40), rng.randint(1, 9)
    mark = limit * rise
    first = rng.choice((1, -1)) * rng.choice((mark + 1, rng.randint(mark + 1, MOST // 2)))
    displacements = list(itertools.accumulate((first, *(rng.randint(-mark, mark) for _ in range(count - 1)))))
    return DriftInputs(alike(rise, count), displacements, limit, room(rng, count))


def largest_difference(rng):
    """Storeys of 198 to 202 dm between the least and the largest displacement, at the largest limits: 10,000 takes 2,000,000 of 200 dm."""
    rise, count = rng.randint(198, 202), rng.randint(2, 9)
    sizes = [MOST - rng.choice((0, 0, 0, 1)) for _ in range(count)]
    return DriftInputs(alike(rise, count), in_turn(rng, sizes), rng.choice((9_999, 10_000, 10_000)), room(rng, count))


SPECIAL = {
    'ends on two sides of 0, alike in size': on_two_sides, 'beyond the limit by its own height only': by_own_height,
    'the first storey alone beyond the limit': first_beyond, 'differences of 2,000,000 at the largest limits': largest_difference,
}


def strata():
    """Every end of the limit with every kind of displacements; every kind of heights; a storey at a limit and beside it, each way; those of SPECIAL."""
    for limit, (moved, displaced) in itertools.product((*LIMITS, None), DISPLACED.items()):
        yield f'{PREFIX}limit {said(limit)}, displaced {moved}', functools.partial(draw_drift, displaced=displaced, limit=limit)
    yield from ((f'{PREFIX}{name}', functools.partial(draw_drift, heights=heights)) for name, heights in HEIGHTS.items())
    for (side, step), (way, sign), limit in itertools.product(SIDES.items(), WAYS.items(), MARKED):
        yield f'{PREFIX}a storey {side} a limit of {said(limit)}, {way}', functools.partial(at_mark, step=step, way=sign, limit=limit)
    yield from ((PREFIX + name, draw_one) for name, draw_one in SPECIAL.items())
