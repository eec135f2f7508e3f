"""Which way the figures move (Wish 14): figures by hand, and what is said of two answers.

On the worked sheet T = 1.000 s is beyond T0 = 0.5625 s and T0^M = 0.55 s: Sa = 0.45 g, of MCE 0.55 g, and the factors are the capacities,
F = (2*R + 1)/3 and F^M = R. With I = 1.00, alpha-y = 1.50 and 15,000 kN, V = m*5/7, V_M likewise and V* = p*5/21, m and p in ten-millionths:

    R = 1.00: F = 1, q = 0.45, m = p = 0.52*0.45 + 0.144 = 0.378; q^M = 0.55, m^M = 0.43
    R = 1.74: F = 1.4933333 or up 1.4933334, q = 0.3013393, m = 0.3006965, p = 0.234 + 0.144*F = 0.4490401; q^M = 0.3160920, m^M = 0.3083679
    R = 1.75: F = 1.5, q = m = 0.3 and 10*Sa = 3*F, so p = Sa = 0.45, and V* stays at 1,071,429 N; q^M = 0.3142858, m^M = 0.3074287
    R = 2: m = 0.45/1.6666666 = 0.2700001, m^M = 0.275        R = 3: m = 0.45/2.3333333 = 0.1928572, m^M = 0.1833334
    R = 4: F = 3, m = 0.15: V = V*; m^M = 0.1375              R = 4.80: m = 0.1273585, m^M = 0.1145834
    R = 6: m = 0.45/4.3333333 = 0.1038462, m^M = 0.0916667

I = 1.50, and alpha-y = 1.00 as well, make V = m*15/14 and V* = p*5/14; of 1 kN V* is 107.143/alpha-y. With a roof of 6,000 kN V_D is
1,142,858 N: 80,001 N of it are F_t, and of the other 1,062,857 N 18/33 are above the second level and 28/33 above the first. At R = 1.00 and
T = 0.5 s every factor is 1, F_t is 0, and V_M governs with 0.7*1.0 g, which is 1,000/3 N of each kN.
"""

import itertools

from tests.compares.checks.refusals import FRAME, SITE
from tests.model import calls, moves
from tests.model.job import job
from tests.model.moves import AT_ONCE, HEAVIER, LARGER_I, LARGER_R, SMALLER_ALPHA_Y

WEIGHTS, HEIGHTS = [5_000] * 3, [100, 200, 300]
# what the worked frame is changed to: V, V_M, V*, V_D
BY_R = {
    100: (2_700_000, 3_071_429, 900_000, 3_071_429), 174: (2_147_833, 2_202_628, 1_069_144, 2_202_628),
    175: (2_142_858, 2_195_920, 1_071_429, 2_195_920), 200: (1_928_573, 1_964_286, 1_071_429, 1_964_286),
    300: (1_377_552, 1_309_525, 1_071_429, 1_377_552), 400: (1_071_429, 982_143, 1_071_429, 1_071_429),
    480: (909_704, 818_453, 1_071_429, 1_071_429), 600: (741_759, 654_763, 1_071_429, 1_071_429),
}
BY_I = {100: BY_R[480], 125: (1_137_130, 1_023_067, 1_339_286, 1_339_286), 150: (1_364_556, 1_227_680, 1_607_143, 1_607_143)}
BY_ALPHA_Y = {150: BY_R[480], 149: (915_809, 823_946, 1_078_620, 1_078_620), 100: BY_I[150]}
# weights at 10, 20 and 30 m: V, V_M, V*, V_D; storey shears, forces
BY_WEIGHT = {
    (5_000, 5_000, 5_000): (BY_R[480], [1_071_429, 905_358, 573_215], [166_071, 332_143, 573_215]),
    (5_000, 5_000, 6_000): ((970_351, 873_017, 1_142_858, 1_142_858), [1_142_858, 981_820, 659_742], [161_038, 322_078, 659_742]),
    (5_000, 6_000, 5_000): ((970_351, 873_017, 1_142_858, 1_142_858), [1_142_858, 976_787, 578_216], [166_071, 398_571, 578_216]),
    (6_000, 5_000, 5_000): ((970_351, 873_017, 1_142_858, 1_142_858), [1_142_858, 937_144, 594_287], [205_714, 342_857, 594_287]),
}
# 1 kN in all by alpha-y: V_D
LIGHT = {151: 71, 150: 72, 149: 72, 148: 73}
# R = 1.00, T = 500 ms, levels at 3, 27 and 30 m by the weight of the second: V_D, storey shears
TALL = {5_000: (5_000_000, [5_000_000, 4_750_000, 2_500_000]), 6_000: (5_333_334, [5_333_334, 5_088_686, 2_446_484])}

BEFORE = moves.Answer(30, 20, 10, 30, 1_000)
V_M_LARGEST, V_STAR_LARGEST = BEFORE._replace(V=12, V_M=30), BEFORE._replace(V=20, V_M=10, V_star=30)
NAMES = BEFORE._fields[:4]
UP, DOWN = {-1: False, 1: True}, {-1: True, 1: False}       # whether a figure may be 1 N less after, and 1 N more
MAY = {**dict.fromkeys((LARGER_I, HEAVIER, SMALLER_ALPHA_Y, AT_ONCE), dict.fromkeys(NAMES, UP)),
       LARGER_R: {'V': DOWN, 'V_M': DOWN, 'V_star': UP, 'V_D': DOWN}}
OF_02 = {LARGER_I: ('V_D',), HEAVIER: ('V_D',), SMALLER_ALPHA_Y: ('V_D',), AT_ONCE: (), LARGER_R: ('V', 'V_M')}


def with_more(**more):
    """The answer after a change: some figures larger by so much than before."""
    return BEFORE._replace(**{name: getattr(BEFORE, name) + by for name, by in more.items()})


# what is said of a change and of the figures before and after it
HOLDS = {
    **{(change, BEFORE, with_more(**{name: by})): so for change, ways in MAY.items() for name, way in ways.items() for by, so in way.items()},
    **{(change, BEFORE, with_more(T=by)): by == 0 for change in MAY for by in (-1, 0, 1)},
    **{(LARGER_R, V_M_LARGEST, V_M_LARGEST._replace(V_star=V_star)): V_star <= 12 for V_star in (10, 11, 12, 13)},
    **{(LARGER_R, V_STAR_LARGEST, V_STAR_LARGEST._replace(V_D=V_D)): V_D == 30 for V_D in (29, 30)},
}


def shears_of(result):
    """V, V_M, V*, V_D."""
    return result.V, result.V_M, result.V_star, result.V_D


def worked_frames():
    """The worked sheet with another R, I or alpha-y; 1 kN in all."""
    for name, by in (('R', BY_R), ('I', BY_I), ('alphay', BY_ALPHA_Y)):
        for number, wanted in by.items():
            yield f'{name} = {number}', lambda frame=FRAME._replace(**{name: number}): shears_of(job(SITE, frame, WEIGHTS, HEIGHTS)), wanted
    for number, wanted in LIGHT.items():
        yield f'1 kN, alphay = {number}', lambda frame=FRAME._replace(alphay=number): calls.shear_call(SITE, frame, 1, 300).V_D, wanted


def worked_weights():
    """The worked sheet with a heavier level; a heavier level between two that lowers the shear above it."""
    for weights, wanted in BY_WEIGHT.items():
        def figures(weights=weights):
            """Its shears, storey by storey, and forces."""
            result = job(SITE, FRAME, weights, HEIGHTS)
            return shears_of(result), result.shears, result.forces
        yield f'weights {weights}', figures, wanted
    for weight, wanted in TALL.items():
        def storeys(weight=weight):
            """Its V_D and storey shears."""
            result = job(SITE, FRAME._replace(R=100, calculated_period=500), [5_000, weight, 5_000], [30, 270, 300])
            return result.V_D, result.shears
        yield f'a second level of {weight} kN', storeys, wanted


def said():
    """What is said of two answers, by 02 itself and with what follows besides."""
    for (change, before, after), wanted in HOLDS.items():
        yield f'{change}: {before}, {after}', lambda change=change, before=before, after=after: moves.holds(change, before, after), wanted
    for (change, ways), by in itertools.product(MAY.items(), (-1, 1)):
        for name, way in ways.items():
            of_02 = name in OF_02[change]
            yield (f'{change}, by 02: {name} {by}', lambda change=change, name=name, by=by: moves.said(change, BEFORE, with_more(**{name: by})),
                   way[by] or not of_02)
            yield (f'{change}, besides: {name} {by}', lambda change=change, name=name, by=by: moves.besides(change, BEFORE, with_more(**{name: by})),
                   way[by] or of_02)


def checks():
    """The worked figures, and what is said."""
    yield from worked_frames()
    yield from worked_weights()
    yield from said()
