"""Single jobs for a district (Wish 9), each with levels of its own: sound and small ones, one for each refusal, shears that tie, V_D over W at
the edges of the cells, in every cell, the largest and the smallest."""

import functools
import itertools

from tests.draws import pair_faults
from tests.draws.faults import LIMITS, put
from tests.draws.plain_jobs import Inputs, draw, draw_basin, draw_heights, draw_pairs, draw_site
from tests.draws.strata import with_period
from tests.model import calls, limits, shears
from tests.model.district import CELL

FEW = 4                 # levels of a small job
HEAVIEST, MOST_LEVELS = limits.WEIGHT[-1], limits.LEVELS[-1]
SMALLEST = limits.one_pair(50, 30, 70, 40, 100, 100, 1)
# Shears that are equal and govern, whatever I, alpha-y and the weight, by ground, R and T. Beyond the corner F is 3 at an R of 4.00, in the Basin 2.5:
# V over 1.4 and V* over 4.2 or 3.5 are the same. V_M is too where its values are four thirds of those of design, as its F is 4. At an R of 6.00 V_M, of
# twice the values, has a sixth of them, V* a third of once the values, and V less. At an R of 1.00 every F is 1, and V_M is V where the values are the same.
THIRDS, EQUAL = limits.one_pair(60, 30, 80, 40, 100, 100, 1), limits.one_pair(80, 45, 80, 45, 100, 100, 1)
TWICE, PLAIN = limits.Site(80, 30, 100, 40, 100, 100, 100, 150, 1), limits.one_pair(80, 45, 100, 55, 100, 100, 1)
TIES = {
    'V = V_M = V_star': [(THIRDS, 400, T) for T in (500, 625, 800, 1_000, 1_250)],
    'V = V_M': [(EQUAL, 100, T) for T in (1, 100, 300, 563, 1_000, 2_000)],
    'V = V_star': [*((PLAIN, 400, T) for T in (600, 750, 1_000, 1_250)), (limits.Basin(4), 400, 1_000), (limits.Basin(1), 400, 1_600)],
    'V_M = V_star': [(TWICE, 600, T) for T in (625, 640, 800)],
}


def few_levels(inputs, count=FEW):
    """The last levels of a job."""
    return inputs._replace(weights=inputs.weights[-count:], heights=inputs.heights[-count:])


def small(rng, draw_ground=None):
    """A sound job of a few levels on any kind of ground."""
    return few_levels(draw(rng, draw_ground or rng.choice((draw_site, draw_pairs, draw_basin))), rng.randint(1, FEW))


def any_size(rng):
    """A sound job of any number of levels."""
    return draw(rng, rng.choice((draw_site, draw_pairs, draw_basin)))


def wrong(rng, allowed):
    """A number that is not allowed."""
    return rng.choice(pair_faults.wrong(allowed))


def no_level(rng):
    """1 by no level."""
    return small(rng)._replace(weights=[], heights=[])


def over_50(rng):
    """1 by 51 levels or a few more."""
    count = rng.choice((51, 52, 60))
    return small(rng)._replace(weights=[rng.randint(1, 9) for _ in range(count)], heights=draw_heights(rng, count))


def bad_weight(rng):
    """3 at any level."""
    inputs = small(rng)
    return inputs._replace(weights=put(inputs.weights, rng.randrange(len(inputs.weights)), wrong(rng, limits.WEIGHT)))


def bad_height(rng):
    """4 at any level: out of range, or not above the one below."""
    inputs = small(rng)
    level = rng.randrange(len(inputs.heights))
    below = inputs.heights[level - 1] if level else 0
    return inputs._replace(heights=put(inputs.heights, level, rng.choice((wrong(rng, limits.HEIGHT), below))))


def bad_ground(rng, place, draw_ground):
    """5, 6, 7 or 18 by one number of a ground."""
    inputs = small(rng, draw_ground)
    kind = 'basin' if draw_ground is draw_basin else 'site'
    ground = put(inputs.ground, place, wrong(rng, LIMITS[kind][place]))
    return inputs._replace(ground=type(inputs.ground)(*ground))


def bad_frame(rng, place):
    """8 to 12 by one number of a frame."""
    inputs = small(rng)
    return inputs._replace(frame=limits.Frame(*put(inputs.frame, place, wrong(rng, LIMITS['frame'][place]))))


# each refusal of a single job, by what draws one that gets it
REFUSED = {
    '1, no level': no_level, '1, over 50': over_50, '3': bad_weight, '4': bad_height,
    **{f'{number} at {place}': functools.partial(bad_ground, place=first + place - 1, draw_ground=draw_pairs)
       for number, first in ((5, 0), (6, 4)) for place in (1, 2, 3, 4)},
    '7': functools.partial(bad_ground, place=8, draw_ground=draw_site), '18': functools.partial(bad_ground, place=0, draw_ground=draw_basin),
    **{str(number): functools.partial(bad_frame, place=limits.Frame._fields.index(name))
       for number, name in enumerate(('R', 'I', 'alphay', 'kind', 'calculated_period'), 8)},
}


def tied(rng, name):
    """Shears that tie, by the rules and not by a rounding: any I, alpha-y and weights."""
    inputs, (ground, R, T) = small(rng), rng.choice(TIES[name])
    return with_period(inputs._replace(ground=ground, frame=inputs.frame._replace(R=R)), T)


def light(rng):
    """A few kN in all."""
    inputs = small(rng)
    return inputs._replace(weights=[rng.randint(1, 3) for _ in inputs.weights])


def with_every_alpha_y(inputs):
    """A job with every alpha-y, and its V_D and W."""
    W = sum(inputs.weights)
    base = calls.base_figures(inputs.ground, inputs.frame, W, inputs.heights[-1])
    for alphay in limits.ALPHA_Y:
        frame = inputs.frame._replace(alphay=alphay)
        star = shears.V_star(frame, base.p, W, divided_by=calls.made_by(inputs.ground).V_STAR)
        yield inputs._replace(frame=frame), max(shears.V(frame, base.m, W), shears.V(frame, base.m_M, W), star), W


def at_edge(rng, newtons_below=0):
    """A light job whose V_D over W is the lowest thousandth of a cell to the newton, or so many newtons below it."""
    while True:
        found = [inputs for inputs, V_D, W in with_every_alpha_y(light(rng)) if (V_D + newtons_below) % (CELL * W) == 0]
        if found:
            return rng.choice(found)


@functools.cache
def exact_edges():
    """N_A M, I and alpha-y with which V_D over W is 5*N_A M*I/alpha-y, and that is the lowest thousandth of a cell."""
    return [each for each in itertools.product(limits.N_A, limits.I_VALUES, limits.ALPHA_Y) if 5 * each[0] * each[1] % (CELL * each[2]) == 0]


def on_the_plateau(inputs, NAM, I, alphay):
    """S_S MCE of 100 and R of 1.00 on hard ground, T on the plateau of MCE: V_M is 0.7*N_A M*I/(1.4*alpha-y) of W."""
    frame = inputs.frame._replace(R=limits.R_RANGE[0], I=I, alphay=alphay)
    return with_period(inputs._replace(ground=limits.Site(50, 30, 100, 55, 100, 100, NAM, 200, 1), frame=frame), 300)


def at_exact_edge(rng):
    """A job of any weight whose V_D over W is the lowest thousandth of a cell, nothing left beside it."""
    return on_the_plateau(small(rng), *rng.choice(exact_edges()))


def largest(rng):
    """The largest V_D over W, 1,125 thousandths."""
    return on_the_plateau(small(rng), 150, 150, 100)


def smallest(rng):
    """The smallest: 0.4 of the smallest A beyond 2.5 T0, R and alpha-y at their ends."""
    inputs = small(rng)
    frame = inputs.frame._replace(R=600, I=100, alphay=200)
    return with_period(inputs._replace(ground=SMALLEST, frame=frame), rng.choice((1_501, 2_000, 6_000)))


@functools.cache
def by_cell():
    """Jobs of 1,000 kN in each cell that a job can be in."""
    grounds = SMALLEST, *(limits.Site(50, 30, 100, 55, 100, 100, NAM, 200, 1) for NAM in (100, 113, 127, 138, 150))
    found = {}
    for ground, R, T, I in itertools.product(grounds, (100, 200, 300, 450, 600), (300, 1_501), limits.I_VALUES):
        for inputs, V_D, W in with_every_alpha_y(Inputs(ground, limits.Frame(1, T, R, I, 100), [1_000], [2_000])):
            found.setdefault(V_D // W // CELL, []).append(inputs)
    return found


def in_cell(rng, cell):
    """A job of 1,000 kN in a cell."""
    return rng.choice(by_cell()[cell])


def heavy(rng):
    """A million kN, a large share of it: four such V_D are above 2^32 N."""
    inputs = on_the_plateau(small(rng), rng.randint(145, 150), 150, 100)
    return inputs._replace(weights=[HEAVIEST] * MOST_LEVELS, heights=list(range(40, 2_001, 40)))
