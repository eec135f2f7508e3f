"""Strata of two calls at one period in use (Wish 14), every number within its range: name -> what draws a change and the inputs before and after.

Most are jobs, which differ in one number, or in I, alpha-y and a weight at once: T has nothing of these, nor of R. Two shear calls may differ in
kind, calculated period and height as well, where T is the same.
"""

import functools
from typing import NamedTuple

from tests.draws import larger_r
from tests.draws.calls import GROUNDS, SHEAR_NAMES, ShearInputs, draw_shear_call
from tests.draws.plain_jobs import Inputs, draw
from tests.draws.rare import crossing
from tests.draws.steps import SIZES, any_step, farthest, nearest
from tests.draws.towers import period
from tests.model import limits
from tests.model.moves import AT_ONCE, CHANGES, HEAVIER, LARGER_I, LARGER_R, LOADS, SMALLER_ALPHA_Y

NAMES = {kind: name.replace('shear call', 'moves') for kind, name in SHEAR_NAMES.items()}
TIED = f'{LARGER_R}: {larger_r.TIED}'       # how the name of the rare stratum ends
OF_FRAME = {LARGER_R: ('R', limits.R_RANGE), LARGER_I: ('I', limits.I_VALUES), SMALLER_ALPHA_Y: ('alphay', limits.ALPHA_Y)}
CALLS = 5               # of what is drawn from all that is allowed one in so many is a pair of shear calls


class Move(NamedTuple):
    """What is changed, and the inputs of two jobs or of two shear calls."""

    change: str
    before: Inputs | ShearInputs
    after: Inputs | ShearInputs


def lowest(rng, count):
    """The lowest level."""
    return 0


def roof(rng, count):
    """The roof."""
    return count - 1


def between(rng, count):
    """A level between them, where there are three."""
    return rng.randrange(count) if count < 3 else rng.randrange(1, count - 1)


def any_level(rng, count):
    """Any level."""
    return rng.randrange(count)


LEVELS = {'at the lowest level': lowest, 'at the roof': roof, 'between them': between}
WEIGHT_STEPS = {'1 kN more': nearest, 'from 1 to 20,000 kN': farthest, 'any': any_step}
I_STEPS = {'to the next': nearest, 'from 1.00 to 1.50': farthest}
ALPHA_Y_STEPS = {'by one hundredth': nearest, 'from 2.00 to 1.00': farthest, 'any': any_step}
ALL_STEPS = {'each to the next': nearest, 'each from end to end': farthest, 'any': any_step}


def with_frame(pair, name, numbers):
    """Two inputs with a number of the frame each."""
    return [inputs._replace(frame=inputs.frame._replace(**{name: number})) for inputs, number in zip(pair, numbers)]


def with_weight(rng, pair, step, level):
    """Two inputs with a weight each at one level, of shear calls in all."""
    if isinstance(pair[0], ShearInputs):
        weights = step(rng, limits.TOTAL_WEIGHT[:-1], limits.TOTAL_WEIGHT[1:])
        return [inputs._replace(weight=weight) for inputs, weight in zip(pair, weights)]
    x = level(rng, len(pair[0].weights))
    weights = step(rng, limits.WEIGHT[:-1], limits.WEIGHT[1:])
    return [inputs._replace(weights=[*inputs.weights[:x], weight, *inputs.weights[x + 1:]]) for inputs, weight in zip(pair, weights)]


def changed(rng, pair, change, step=any_step, level=any_level):
    """Two inputs, a number of them changed, or I, a weight and alpha-y at once."""
    if change == AT_ONCE:
        return functools.reduce(lambda both, each: changed(rng, both, each, step, level), LOADS, pair)
    if change == HEAVIER:
        return with_weight(rng, pair, step, level)
    name, allowed = OF_FRAME[change]
    numbers = step(rng, allowed[:-1], allowed[1:])
    return with_frame(pair, name, reversed(numbers) if change == SMALLER_ALPHA_Y else numbers)


def draw_jobs(rng, draw_ground, change, step=any_step, level=any_level, size=None):
    """Two jobs on a ground, of a size where one is given."""
    inputs = draw(rng, draw_ground)
    inputs = size(rng, inputs) if size else inputs
    return Move(change, *changed(rng, (inputs, inputs), change, step, level))


def draw_larger_r(rng, two):
    """Two jobs whose R are drawn together with them."""
    inputs, *numbers = two(rng)
    return Move(LARGER_R, *with_frame((inputs, inputs), 'R', numbers))


def one_more(rng, befores, afters):
    """A weight of 1 to 3 kN, and 1 kN more."""
    return nearest(rng, befores[:3], afters)


def one_less(rng, befores, afters):
    """The heaviest level, and 1 kN less before."""
    return befores[-1], afters[-1]


def first_height(frame, T):
    """The first height whose period in use is T or more; one more than the last where there is none."""
    return crossing(0, limits.HEIGHT[-1] + 1, lambda height: period(frame, height) >= T)


def ways(rng, frame, T):
    """Every kind, with no calculated period, with T for one and with a longer one, that is at T with some height; and these heights."""
    for kind in limits.KIND:
        for calculated in (0, T, rng.randint(T + 1, limits.CALCULATED_PERIOD[-1])):
            other = frame._replace(kind=kind, calculated_period=calculated)
            heights = range(first_height(other, T), first_height(other, T + 1))
            if heights:
                yield other, heights


def any_of_heights(rng, heights):
    """The lowest, the highest or any."""
    return rng.choice((heights[0], heights[-1], rng.choice(heights)))


def draw_calls(rng, draw_ground, change, step=any_step):
    """Two shear calls of one T, the second mostly with another kind, calculated period or height."""
    before = draw_shear_call(rng, draw_ground)
    frame, heights = rng.choice(list(ways(rng, before.frame, period(before.frame, before.height))))
    after = before._replace(frame=frame, height=any_of_heights(rng, heights))
    return Move(change, *changed(rng, (before, after), change, step))


def draw_any(rng, draw_ground):
    """Any change of two jobs, or now and then of two shear calls."""
    change = rng.choice(CHANGES)
    return draw_calls(rng, draw_ground, change) if rng.randrange(CALLS) == 0 else draw_jobs(rng, draw_ground, change)


def load_strata(kind):
    """Each load: every step, at every place of a weight, light and heavy jobs; all at once."""
    on_it = functools.partial(draw_jobs, draw_ground=GROUNDS[kind])
    for place, level in LEVELS.items():
        for said, step in WEIGHT_STEPS.items():
            yield f'{HEAVIER}: {said} {place}', functools.partial(on_it, change=HEAVIER, step=step, level=level)
    yield f'{HEAVIER}: 1 kN more, a few kN', functools.partial(on_it, change=HEAVIER, step=one_more, size=SIZES['a few kN'])
    yield f'{HEAVIER}: to a million kN', functools.partial(on_it, change=HEAVIER, step=one_less, size=SIZES['a million kN'])
    for change, steps in ((LARGER_I, I_STEPS), (SMALLER_ALPHA_Y, ALPHA_Y_STEPS), (AT_ONCE, ALL_STEPS)):
        yield from ((f'{change}: {said}', functools.partial(on_it, change=change, step=step)) for said, step in steps.items())
    for change in (LARGER_I, SMALLER_ALPHA_Y):
        yield from ((f'{change}: {said}', functools.partial(on_it, change=change, size=size)) for said, size in SIZES.items())
    lightest = functools.partial(on_it, change=SMALLER_ALPHA_Y, step=nearest, size=SIZES['1 kN in all'])
    yield f'{SMALLER_ALPHA_Y}: by one hundredth, 1 kN in all', lightest


def strata(kind):
    """On a kind of ground: two R, each load, and two shear calls of each change."""
    name, draw_ground = NAMES[kind], GROUNDS[kind]
    yield from ((f'{name}, {LARGER_R}: {said}', functools.partial(draw_larger_r, two=two)) for said, two in larger_r.strata(kind))
    yield from ((f'{name}, {said}', one) for said, one in load_strata(kind))
    for change in CHANGES:
        yield f'{name}, {change}: two shear calls of one T', functools.partial(draw_calls, draw_ground=draw_ground, change=change)
