"""The shear call and the distribution (Wish 6): figures by hand, what ties a distribution together, the two in turn as a job, refusals.

The seven levels of 1 kN at 1 to 7 dm have P = 28 and P_x = 28, 27, 25, 22, 18, 13, 7. Of 1,000 N the roof has none at 700 ms, 49.07 N
rounded up at 701 ms, 70 N at 1,000 ms, 249.97 N rounded up at 3,571 ms and 250 N from 3,572 ms on.
"""

import random
from fractions import Fraction

from tests.compares.checks import basin as basin_figures
from tests.compares.checks.refusals import BAD_SITE, FRAME, HUGE, LISTS, SITE
from tests.draws import calls as drawn
from tests.draws.plain_jobs import draw
from tests.model import calls, exact, limits
from tests.model.job import job

SEED, EACH, JOBS = 60, 2, 40
MOST = 2**64 - 1
WORKED = (909_704, 818_453, 1_071_429, 1_071_429, 1_000)
NEAR = limits.Site(80, 45, 100, 55, 120, 150, 110, 130, 1)
SEVEN = [1] * 7, list(range(1, 8))
# base shear, period: F_t and the storey shears of seven levels
SHEARS = {
    (1_000, 0): (0, [1_000, 965, 893, 786, 643, 465, 250]), (1_000, 700): (0, [1_000, 965, 893, 786, 643, 465, 250]),
    (1_000, 701): (50, [1_000, 967, 899, 797, 661, 492, 288]), (1_000, 1_000): (70, [1_000, 967, 901, 801, 668, 502, 303]),
    (1_000, 3_571): (250, [1_000, 974, 920, 840, 733, 599, 438]), (1_000, 3_572): (250, [1_000, 974, 920, 840, 733, 599, 438]),
    (1_000, 9_999): (250, [1_000, 974, 920, 840, 733, 599, 438]),
    (1, 0): (0, [1] * 7), (1, 700): (0, [1] * 7), (1, 701): (1, [1] * 7), (2, 700): (0, [2, 2, 2, 2, 2, 1, 1]), (2, 701): (1, [2] * 7),
}
FORCES = {(1_000, 700): [35, 72, 107, 143, 178, 215, 250], (1, 9_999): [0] * 6 + [1], (2, 0): [0, 0, 0, 0, 1, 0, 1]}
# one level takes it all; by its height the overturning
LARGEST = {height: ([1_200_000_000], [1_200_000_000], [1_200_000_000 * height]) for height in (1, 2_000)}
# weight, height: refusal of a shear call that is good otherwise
TOTALS = {
    **{(weight, 300): None for weight in (1, 2, 20_000, 20_001, 999_999, 1_000_000)},
    **{(weight, 300): (3, 0) for weight in (0, 1_000_001, HUGE, 2**32 + 1, 2**63 + 1, MOST)},
    **{(15_000, height): None for height in (1, 2, 1_999, 2_000)},
    **{(15_000, height): (4, 0) for height in (0, 2_001, HUGE, 2**16 + 1, 2**32 + 1, 2**63 + 1, MOST)},
    **{(weight, height): (3, 0) for weight in (0, MOST) for height in (0, 2_001, MOST)},
}
# base shear, period: refusal of a distribution whose levels are good
HANDED_IN = {
    **{(base_shear, 1_000): None for base_shear in (1, 2, 1_199_999_999, 1_200_000_000)},
    **{(base_shear, 1_000): (19, 0) for base_shear in (0, 1_200_000_001, 2**32 + 1, 2**63 + 1, MOST)},
    **{(1_000, period): None for period in (0, 1, 6_328, 6_329, 9_998, 9_999)},
    **{(1_000, period): (20, 0) for period in (10_000, 2**16, 2**32, 2**63, MOST)},
    **{(base_shear, period): (19, 0) for base_shear in (0, MOST) for period in (10_000, MOST)},
}


def figures(result):
    """V, V_M, V*, V_D and T."""
    return result.V, result.V_M, result.V_star, result.V_D, result.T


def shear_figures():
    """The worked sheet's figures without its levels; the four zones; figures that grow with the weight alone."""
    yield 'the worked shear call', lambda: figures(calls.shear_call(SITE, FRAME, 15_000, 300)), WORKED
    yield 'two pairs', lambda: figures(calls.shear_call(NEAR, FRAME, 15_000, 300)), (1_364_556, 1_063_989, 1_071_429, 1_364_556, 1_000)
    names = basin_figures.NAMES
    for zone, worked in basin_figures.WORKED.items():
        wanted = *(worked[names.index(name)] for name in ('V', 'V_M', 'V_star', 'V_D')), 1_000
        yield f'zone {zone}', lambda zone=zone: figures(calls.shear_call(limits.Basin(zone), FRAME, 15_000, 300)), wanted
    for (zone, *frame), worked in basin_figures.HEAVY.items():
        def heavy(zone=zone, frame=frame):
            """A million kN under 2,000 dm."""
            return figures(calls.shear_call(limits.Basin(zone), frame, 1_000_000, 2_000))[:3]
        yield f'a million kN, zone {zone}, frame {frame}', heavy, worked[5:]
    yield '1 kN, rounded up', lambda: figures(calls.shear_call(SITE, FRAME, 1, 300)), (61, 55, 72, 72, 1_000)
    yield 'approximate period', lambda: calls.shear_call(SITE, FRAME._replace(calculated_period=0), 1, 300).T, 897


def distributed_figures():
    """Roof force and storey shears by hand; one level; the worked sheet's."""
    for (base_shear, period), wanted in SHEARS.items():
        def storeys(base_shear=base_shear, period=period):
            """F_t and the shears, the margin held."""
            result = calls.distribution(base_shear, period, *SEVEN)
            exact.check_distribution(result)
            return result.F_t, result.shears
        yield f'{base_shear} N at {period} ms', storeys, wanted
    for (base_shear, period), wanted in FORCES.items():
        yield (f'forces of {base_shear} N at {period} ms',
               lambda given=(base_shear, period): calls.distribution(*given, *SEVEN).forces, wanted)
    for height, wanted in LARGEST.items():
        yield (f'the largest on one level at {height} dm',
               lambda h=height: calls.distribution(1_200_000_000, 9_999, [1], [h])[-3:], wanted)
    worked = [166_071, 332_143, 573_215], [1_071_429, 905_358, 573_215], [255_000_200, 147_857_300, 57_321_500]
    yield 'the worked distribution', lambda: calls.distribution(1_071_429, 1_000, [5_000] * 3, [100, 200, 300])[-3:], worked
    parts = [Fraction(1_000 * part, 28) for part in (28, 27, 25, 22, 18, 13, 7)]
    yield 'exact shears, no roof force', lambda: exact.storey_chain(1_000, 700, *SEVEN), parts
    quarter = [250 + Fraction(750 * part, 28) for part in (28, 27, 25, 22, 18, 13, 7)]
    yield 'exact shears, a quarter at the roof', lambda: exact.storey_chain(1_000, 9_999, *SEVEN), quarter


def tied(call):
    """Forces add up and none is below 0, shears fall, the base has all, moments are the sum of shears by storey, the margin is held."""
    result = calls.distribution(*call)
    storeys = [high - low for high, low in zip(result.heights, [0] + result.heights)]
    moments = [sum(shear * height for shear, height in zip(result.shears[x:], storeys[x:])) for x in range(len(storeys))]
    return (sum(result.forces) == result.shears[0] == call.base_shear, min(result.forces) >= 0, result.moments == moments,
            result.shears[-1] == result.forces[-1], exact.check_distribution(result) < 2)


def drawn_checks():
    """Calls of every stratum: what ties a distribution together, and the base part of demand 3."""
    rng = random.Random(SEED)
    for name, one in drawn.distribution_strata():
        yield from ((name, lambda call=one(rng): tied(call), (True,) * 5) for _ in range(EACH))
    for kind in drawn.GROUNDS:
        for name, one in drawn.shear_strata(kind):
            yield from ((name, lambda call=one(rng): bool(exact.check_shear_call(calls.shear_call(*call))), True) for _ in range(EACH))


def in_turn(inputs):
    """What the two calls make of a job's sum of weights and last height, and then of V_D and T."""
    base = calls.shear_call(inputs.ground, inputs.frame, sum(inputs.weights), inputs.heights[-1])
    over = calls.distribution(base.V_D, base.T, inputs.weights, inputs.heights)
    return figures(base), over.F_t, over.forces, over.shears, over.moments


def as_a_job():
    """The two in turn are the job, on each kind of ground; what a shear call refuses of ground or frame is what a job refuses."""
    rng = random.Random(SEED)
    for kind, draw_ground in drawn.GROUNDS.items():
        for number in range(JOBS):
            inputs = draw(rng, draw_ground)
            result = job(*inputs)
            wanted = figures(result), result.F_t, result.forces, result.shears, result.moments
            yield f'two calls in turn, {kind}, job {number}', lambda inputs=inputs: in_turn(inputs), wanted
    bad = (BAD_SITE, FRAME), (limits.Basin(5), FRAME), (SITE, FRAME._replace(R=99)), (limits.Basin(1), (5, HUGE, 480, 1, 1))
    for ground, frame in bad:
        yield f'refused as a job, {ground} {frame}', lambda g=ground, f=frame: calls.shear_call(g, f, 1, 1), job(ground, frame, [1], [1])


def shear_refusals():
    """Weight and height at both sides of their limits, on a site and in the Basin; the order, repaired one by one."""
    bad = (0, HUGE, 0, 0, 0)
    # what is refused where weight and height are good
    grounds = ((SITE, FRAME, None), (limits.Basin(1), FRAME, None), (BAD_SITE, FRAME, (5, 1)), (limits.Basin(5), FRAME, (18, 0)),
               (SITE, bad, (8, 0)), (limits.Basin(4), bad, (8, 0)), (limits.Basin(0), bad, (18, 0)))
    for totals, wanted in TOTALS.items():
        for ground, frame, then in grounds:
            yield (f'{totals} kN and dm, {ground}, {frame}',
                   lambda given=(ground, frame, *totals): limits.judge_shear_call(*given), wanted or then)
    yield 'refused', lambda: calls.shear_call(BAD_SITE, (0,) * 5, 1, 0), ('refused', 4, 0)


def distribution_refusals():
    """Base shear and period at both sides of their limits; 1 to 4 with their places, and before 19 and 20."""
    for given, wanted in HANDED_IN.items():
        yield f'{given[0]} N at {given[1]} ms', lambda g=given: limits.judge_distribution(*g, [1, 1], [1, 2], (2, 2, 2)), wanted
    for weights, heights, lengths, wanted in LISTS:
        for given, then in (((1, 0), None), ((0, 0), (19, 0)), ((1, 10_000), (20, 0)), ((MOST, MOST), (19, 0))):
            yield (f'{given} on lists {weights} {heights} {lengths}',
                   lambda lists=(weights, heights, lengths), g=given: limits.judge_distribution(*g, *lists), wanted or then)
    yield 'refused', lambda: calls.distribution(0, 10_000, [1, 0], [1, 2], (2, 2, 2)), ('refused', 3, 2)


def checks():
    """All checks of the two calls."""
    yield from shear_figures()
    yield from distributed_figures()
    yield from drawn_checks()
    yield from as_a_job()
    yield from shear_refusals()
    yield from distribution_refusals()
