"""Strata of shear calls and of distributions (Wish 6), every number within its range: name -> what draws a call from a random generator.

A shear call has a site with one pair of near-fault factors, one with two, or the Basin. A distribution has its base shear and its period at
their ends and at those of the roof force, every one with every other, over levels of any kind.
"""

import functools
import itertools
from typing import NamedTuple

from tests.draws import basin, rare
from tests.draws.plain_jobs import draw, draw_basin, draw_frame, draw_heights, draw_pairs, draw_site, lengths
from tests.model import limits

TOTAL_WEIGHTS = (1, 2, 999_999, 1_000_000)
TOP_HEIGHTS = (1, 2, 1_999, 2_000)
BASE_SHEARS = (1, 2, 1_199_999_999, 1_200_000_000)
PERIODS = (0, 1, 699, 700, 701, 3_571, 3_572, 9_998, 9_999)
GROUNDS = {'site': draw_site, 'basin': draw_basin, 'pairs': draw_pairs}
SHEAR_NAMES = {'site': 'shear call', 'basin': 'shear call, Basin', 'pairs': 'shear call, two pairs'}     # how a stratum's name begins
MOST_LEVELS, HEAVIEST, HIGHEST = limits.LEVELS[-1], limits.WEIGHT[-1], limits.HEIGHT[-1]


class ShearInputs(NamedTuple):
    """The inputs of a shear call."""

    ground: limits.Site | limits.Basin
    frame: limits.Frame
    weight: int
    height: int


class DistributionInputs(NamedTuple):
    """The inputs of a distribution, lowest level first, and the lengths of its buffers of forces, shears and moments."""

    base_shear: int
    period: int
    weights: list
    heights: list
    lengths: tuple


def uniform(rng, allowed):
    """Any number of a range."""
    return rng.randint(allowed[0], allowed[-1])


def of_any_size(rng, allowed):
    """A number of a range that begins at 1, each power of two as often as another."""
    while True:
        power = 2**rng.randrange(allowed[-1].bit_length())
        number = power + rng.randrange(power)
        if number in allowed:
            return number


def any_of(rng, allowed):
    """The one or the other."""
    return rng.choice((uniform, of_any_size))(rng, allowed)


SIZES = {'of any size': of_any_size, 'uniform': uniform}


def draw_shear_call(rng, draw_ground=draw_site, weight=None, height=None):
    """A shear call from all that is allowed, or with a weight or a height that is given."""
    return ShearInputs(draw_ground(rng), draw_frame(rng), weight or any_of(rng, limits.TOTAL_WEIGHT), height or any_of(rng, limits.HEIGHT))


def sized(rng, draw_ground, size):
    """A shear call whose weight and height are both of a size."""
    return ShearInputs(draw_ground(rng), draw_frame(rng), size(rng, limits.TOTAL_WEIGHT), size(rng, limits.HEIGHT))


def heavy(rng, draw_ground):
    """The shear call of a heavy job, in which every stage rounds and a unit is 107 N."""
    inputs = (basin.heavy() if draw_ground is draw_basin else rare.heavy()).reach(draw(rng, draw_ground))
    return ShearInputs(inputs.ground, inputs.frame, sum(inputs.weights), inputs.heights[-1])


def said(value):
    """A number of a stratum's name; any number where none is given."""
    return 'any' if value is None else f'{value:,}'


def shear_strata(kind):
    """On a kind of ground: weight and height at their ends, each alone and both together; both of any size, both uniform; heavy."""
    draw_ground, name = GROUNDS[kind], SHEAR_NAMES[kind]
    for weight, height in itertools.product((*TOTAL_WEIGHTS, None), (*TOP_HEIGHTS, None)):
        if (weight, height) != (None, None):
            yield (f'{name}: {said(weight)} kN, top {said(height)} dm',
                   functools.partial(draw_shear_call, draw_ground=draw_ground, weight=weight, height=height))
    for size, drawn in SIZES.items():
        yield f'{name}: weight and height {size}', functools.partial(sized, draw_ground=draw_ground, size=drawn)
    yield f'{name}: heavy', functools.partial(heavy, draw_ground=draw_ground)


def at_the_top(rng):
    """As much as there can be: 50 levels of 20,000 kN up to 2,000 dm, one below the other."""
    return [HEAVIEST] * MOST_LEVELS, list(range(HIGHEST - MOST_LEVELS + 1, HIGHEST + 1))


def at_the_bottom(rng):
    """As little as 50 levels can be: 1 kN each, from 1 dm."""
    return [1] * MOST_LEVELS, list(range(1, MOST_LEVELS + 1))


def up_to_the_top(rng):
    """50 levels of 20,000 kN, 40 dm apart, up to 2,000 dm."""
    return [HEAVIEST] * MOST_LEVELS, list(range(HIGHEST // MOST_LEVELS, HIGHEST + 1, HIGHEST // MOST_LEVELS))


def so_many(rng, count):
    """So many levels, light or heavy."""
    heaviest = rng.choice((3, 1_000, HEAVIEST))
    return [rng.randint(1, heaviest) for _ in range(count)], draw_heights(rng, count)


def any_levels(rng):
    """The levels of a plain job."""
    inputs = draw(rng)
    return inputs.weights, inputs.heights


def of_one_weight(rng, weight):
    """Levels of one weight."""
    weights, heights = any_levels(rng)
    return [weight] * len(weights), heights


def low_or_high(rng, height):
    """One level at an end of the heights."""
    return [uniform(rng, limits.WEIGHT)], [height]


def light_roof(rng):
    """A heavy level and one to three light ones above it: their part of P is small, and both roundings count in full."""
    count = rng.randint(1, 3)
    return [uniform(rng, range(10_000, HEAVIEST + 1)), *(rng.randint(1, 3) for _ in range(count))], draw_heights(rng, count + 1)


LEVELS = {
    **{f'levels {count}': functools.partial(so_many, count=count) for count in (1, 2, 49, 50)},
    **{f'every weight {weight:,}': functools.partial(of_one_weight, weight=weight) for weight in (1, HEAVIEST)},
    **{f'one level at {height:,} dm': functools.partial(low_or_high, height=height) for height in TOP_HEIGHTS},
    '50 levels of 20,000 kN from 1,951 to 2,000 dm': at_the_top, '50 levels of 20,000 kN up to 2,000 dm': up_to_the_top,
    '50 levels of 1 kN from 1 to 50 dm': at_the_bottom, 'a light roof': light_roof, 'any levels': any_levels,
}


def draw_period(rng):
    """Any period, or one at an end of the rule of the roof force."""
    return rng.choice((uniform(rng, limits.PERIOD), uniform(rng, limits.PERIOD), uniform(rng, range(701, 3_572)), rng.choice(PERIODS)))


def draw_distribution(rng, base_shear=None, period=None, draw_levels=None):
    """A distribution from all that is allowed, or with what is given; buffers as long as the lists, or longer."""
    base_shear = any_of(rng, limits.BASE_SHEAR) if base_shear is None else base_shear
    period = draw_period(rng) if period is None else period
    weights, heights = (draw_levels or rng.choice(tuple(LEVELS.values())))(rng)
    return DistributionInputs(base_shear, period, weights, heights, lengths(rng, weights))


def with_size(rng, size, period):
    """A distribution whose base shear is of a size."""
    return draw_distribution(rng, size(rng, limits.BASE_SHEAR), period)


def distribution_strata():
    """Every end of the base shear, any size and uniform ones with every end of the period and any; every kind of levels."""
    for base_shear, period in itertools.product(BASE_SHEARS, (*PERIODS, None)):
        yield (f'distribution: {said(base_shear)} N at {said(period)} ms',
               functools.partial(draw_distribution, base_shear=base_shear, period=period))
    for (size, drawn), period in itertools.product(SIZES.items(), (*PERIODS, None)):
        yield f'distribution: N {size} at {said(period)} ms', functools.partial(with_size, size=drawn, period=period)
    for name, draw_levels in LEVELS.items():
        yield f'distribution: {name}', functools.partial(draw_distribution, draw_levels=draw_levels)
