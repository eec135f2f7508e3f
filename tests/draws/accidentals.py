"""Strata of accidental moments (Wish 10), every number within its range: name -> what draws a call from a random generator. Each is a distribution of
Wish 6, with its base shear and its period at their ends, over levels of any kind; and a plan dimension at its ends."""

import functools
import itertools
from typing import NamedTuple

from tests.draws.calls import BASE_SHEARS, LEVELS, PERIODS, any_of, draw_distribution, said
from tests.draws.drifts import room
from tests.model import limits

DIMENSIONS = (1, 2, 4_999, 5_000)
PREFIX = 'accidental moments: '         # of a stratum's name


class AccidentalInputs(NamedTuple):
    """The inputs of accidental moments, lowest level first, and the lengths of the positive and of the negative buffer."""

    base_shear: int
    period: int
    weights: list
    heights: list
    dimension: int
    lengths: tuple


def draw_accidental(rng, dimension=None, **given):
    """A call from all that is allowed, or with what is given."""
    over = draw_distribution(rng, **given)
    dimension = dimension or rng.choice((any_of(rng, limits.DIMENSION), rng.choice(DIMENSIONS)))
    return AccidentalInputs(*over[:4], dimension, room(rng, len(over.weights), 2))


def without_force(rng):
    """A base shear of fewer newtons than there are levels: some have no force, and their moments are 0 both ways."""
    call = draw_accidental(rng, draw_levels=rng.choice([LEVELS[f'levels {count}'] for count in (2, 49, 50)]))
    return call._replace(base_shear=rng.randint(1, len(call.weights) - 1))


def largest_of_all(rng):
    """The largest moment: all of the largest base shear on one level, with the largest dimension."""
    return draw_accidental(rng, limits.DIMENSION[-1], base_shear=limits.BASE_SHEAR[-1], draw_levels=LEVELS['levels 1'])


def strata():
    """Every end of the base shear with every end of the period and of the dimension; every kind of levels; levels without force; the largest moment."""
    for base_shear, period in itertools.product(BASE_SHEARS, PERIODS):
        yield f'{PREFIX}{said(base_shear)} N at {said(period)} ms', functools.partial(draw_accidental, base_shear=base_shear, period=period)
    for base_shear, dimension in itertools.product((*BASE_SHEARS, None), DIMENSIONS):
        yield f'{PREFIX}{said(base_shear)} N, {said(dimension)} dm', functools.partial(draw_accidental, base_shear=base_shear, dimension=dimension)
    yield from ((f'{PREFIX}{name}', functools.partial(draw_accidental, draw_levels=levels)) for name, levels in LEVELS.items())
    yield f'{PREFIX}levels without force', without_force
    yield f'{PREFIX}the largest', largest_of_all
