"""Strata of towers on one podium (Wish 8), every number within its range, all at one period in use: name -> what draws them.

Heights may differ where T is the calculated period for all of them; else all are the same. Weights are drawn by what V_D comes to before it is
rounded, the share of W, as well as by their size.
"""

import functools
from math import floor
from typing import NamedTuple

from tests.draws.calls import GROUNDS, SHEAR_NAMES, any_of, of_any_size, uniform
from tests.draws.plain_jobs import draw_frame
from tests.model import calls, limits, response, towers

NAMES = {kind: name.replace('shear call', 'towers') for kind, name in SHEAR_NAMES.items()}
MOST = limits.TOTAL_WEIGHT[-1]
MANY = (1, 3, 4, 10, 50)        # towers, beside two
TRIED = 200                     # weights that are looked at for one that suits
ALIKE = 'two shears round alike'
LIGHT = 4                       # kN, where two shears often round to the same newton


class Towers(NamedTuple):
    """Ground and frame, the weight and height of each tower, and the height with which all their weight is called."""

    ground: limits.Site | limits.Basin
    frame: limits.Frame
    towers: list
    height: int


def period(frame, height):
    """T of a height."""
    return response.period(response.approximate_period(frame.kind, height), frame.calculated_period)


def lowest(frame):
    """The lowest height at which T is the calculated period of a frame; None where there is none."""
    if not frame.calculated_period or period(frame, limits.HEIGHT[-1]) != frame.calculated_period:
        return None
    low, high = 0, limits.HEIGHT[-1]
    while high - low > 1:
        middle = (low + high) // 2
        low, high = (low, middle) if period(frame, middle) == frame.calculated_period else (middle, high)
    return high


def heights_at_one_period(rng, frame, count):
    """So many heights of the same T: one for all, or different ones where T is the calculated period."""
    least = lowest(frame)
    if least is None or rng.random() < 0.25:
        return [any_of(rng, limits.HEIGHT)] * count
    return [rng.choice((least, limits.HEIGHT[-1], rng.randint(least, limits.HEIGHT[-1]), rng.randint(least, limits.HEIGHT[-1])))
            for _ in range(count)]


def share_at(ground, frame, height):
    """The share of W that V_D is at the period of a height, in N for each kN."""
    return towers.share(calls.shear_call(ground, frame, 1, height))


def part(share, weight):
    """What stands behind the point of V_D before it is rounded, in N."""
    newtons = share * weight
    return newtons - floor(newtons)


def up_to(rng, most):
    """A weight up to the most that is left, of any size or uniform."""
    return any_of(rng, range(1, most + 1))


def any_two(rng, share):
    """Any weights."""
    one = up_to(rng, MOST - 1)
    return [one, up_to(rng, MOST - one)]


def sized(rng, share, size):
    """Both of a size."""
    one = size(rng, range(1, MOST))
    return [one, size(rng, range(1, MOST - one + 1))]


def equal(rng, share):
    """The same weight twice."""
    return [up_to(rng, MOST // 2)] * 2


def given(rng, share, weights):
    """Weights that are given."""
    return list(weights)


def with_one_kn(rng, share):
    """A tower of 1 kN and any."""
    return rng.sample([1, up_to(rng, MOST - 1)], 2)


def as_heavy_as_can_be(rng, share):
    """1,000,000 kN together."""
    one = up_to(rng, MOST - 1)
    return [one, MOST - one]


def of_whole_newtons(rng, share, most):
    """A weight whose V_D needs no rounding; None where there is none up to the most."""
    steps = most // share.denominator
    return share.denominator * rng.randint(1, steps) if steps else None


def one_whole(rng, share, beyond=0):
    """The first comes to whole newtons, or is so many kN beyond such a weight."""
    whole = of_whole_newtons(rng, share, MOST - 1 - beyond)
    return whole and [whole + beyond, up_to(rng, MOST - whole - beyond)]


def whole_together(rng, share):
    """Both together come to whole newtons, each alone mostly not."""
    both = of_whole_newtons(rng, share, MOST)
    one = rng.randint(1, both - 1) if both and both > 1 else None
    return one and [one, both - one]


def looked_for(rng, share, most, rank):
    """Of many weights that do not come to whole newtons the one whose part behind the point ranks lowest; any where all come to whole newtons."""
    weights = [up_to(rng, most) for _ in range(TRIED)]
    return min((weight for weight in weights if part(share, weight)), key=lambda weight: rank(part(share, weight)), default=weights[0])


RANKS = {'just above whole newtons': lambda part: part, 'just below whole newtons': lambda part: -part,
         'just below half a newton': lambda part: (part >= 0.5, -part), 'just above half a newton': lambda part: (part <= 0.5, part)}


def ranked(rng, share, rank):
    """Two weights that rank lowest, each of at most 500,000 kN."""
    return [looked_for(rng, share, MOST // 2, rank) for _ in range(2)]


WEIGHTS = {
    **{f'weights {name}': functools.partial(sized, size=size) for name, size in (('of any size', of_any_size), ('uniform', uniform))},
    'equal weights': equal, '1 kN and any': with_one_kn, '1,000,000 kN together': as_heavy_as_can_be,
    '1 kN twice': functools.partial(given, weights=(1, 1)), '1 and 999,999 kN': functools.partial(given, weights=(1, MOST - 1)),
    '500,000 kN twice': functools.partial(given, weights=(MOST // 2, MOST // 2)),
    'one of whole newtons': one_whole, 'one 1 kN beyond whole newtons': functools.partial(one_whole, beyond=1),
    'whole newtons together': whole_together,
    **{f'both {name}': functools.partial(ranked, rank=rank) for name, rank in RANKS.items()},
}


def draw_two(rng, draw_ground, weights=any_two):
    """Two towers, their weights drawn as is given, on a ground and a frame with which there are such weights."""
    drawn = None
    while drawn is None:
        ground, frame = draw_ground(rng), draw_frame(rng)
        *heights, height = heights_at_one_period(rng, frame, 3)
        drawn = weights(rng, share_at(ground, frame, height))
    return Towers(ground, frame, list(zip(drawn, heights)), height)


def governed(result):
    """Which of V, V_M and V* are as large as V_D."""
    return tuple(shear == result.V_D for shear in (result.V, result.V_M, result.V_star))


def draw_rounded_alike(rng, draw_ground):
    """Two light towers of which one has V_D by other shears than all the weight has: two shears round to the same newton in the one, not in the
    other."""
    while True:
        ground, frame = draw_ground(rng), draw_frame(rng)
        *heights, height = heights_at_one_period(rng, frame, 3)
        pair = [(rng.randint(1, LIGHT), each) for each in heights]
        whole = governed(calls.shear_call(ground, frame, sum(weight for weight, _ in pair), height))
        if any(governed(calls.shear_call(ground, frame, *tower)) != whole for tower in pair):
            return Towers(ground, frame, pair, height)


def draw_many(rng, draw_ground, count):
    """So many towers, of any weights or all just above whole newtons."""
    ground, frame = draw_ground(rng), draw_frame(rng)
    *heights, height = heights_at_one_period(rng, frame, count + 1)
    if rng.random() < 0.5:
        weights = [up_to(rng, MOST // count) for _ in range(count)]
    else:
        weights = [looked_for(rng, share_at(ground, frame, height), MOST // count, RANKS['just above whole newtons'])] * count
    return Towers(ground, frame, list(zip(weights, heights)), height)


def pair_strata(kind):
    """Two towers on a kind of ground."""
    name, draw_ground = NAMES[kind], GROUNDS[kind]
    for said, weights in WEIGHTS.items():
        yield f'{name}, two: {said}', functools.partial(draw_two, draw_ground=draw_ground, weights=weights)
    yield f'{name}, two: {ALIKE}', functools.partial(draw_rounded_alike, draw_ground=draw_ground)


def many_strata(kind):
    """Other numbers of towers on a kind of ground."""
    for count in MANY:
        yield f'{NAMES[kind]}, {count}', functools.partial(draw_many, draw_ground=GROUNDS[kind], count=count)
