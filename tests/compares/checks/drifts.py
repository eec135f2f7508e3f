"""Drift, torsion and accidental moments (Wish 10): figures by hand, what holds of every call, that strata are what they say, refusals.

0.005 of a storey of 3 m is 15 mm: a limit of 50, 30 dm, 1,500 hundredths of a millimetre. Equal displacements give (1/1.2)^2 = 25/36 = 0.69444..,
rounded up 0.695. The worked sheet's forces of 166,071, 332,143 and 573,215 N, moved by 5 % of 200 dm, which is 10 dm, have 100 * 10 times as much in
hundredths of a N*dm.
"""

import random
from fractions import Fraction
from math import ceil

from tests.compares.checks.refusals import HUGE, LISTS
from tests.compares.compare_drifts import expected_drift, yes_stays
from tests.draws import accidentals, drifts, torsions
from tests.model import accidental, calls, drift, limits, torsion

SEED, EACH, BESIDE = 10, 2, 40
MOST, LEAST_SIGNED, LARGEST_SIGNED = 2**64 - 1, -2**63, 2**63 - 1
STOREYS, LIMIT = [30, 60, 90], 50
# displacements of three storeys of 3 m: verdicts by a limit of 50
VERDICTS = {
    (0, 0, 0): [1, 1, 1], (1_500, 3_000, 4_500): [1, 1, 1], (1_501, 3_001, 4_501): [0, 1, 1], (-1_500, -3_000, -4_500): [1, 1, 1],
    (-1_501, -3_001, -4_502): [0, 1, 0], (1_500, -1, 1_499): [1, 0, 1], (750, -750, 751): [1, 1, 0], (-750, 751, -749): [1, 0, 1],
    (1_000_000, -1_000_000, 1_000_000): [0, 0, 0], (1_499, 1_499, 0): [1, 1, 1],
}
# heights, displacements, limit: verdicts
OTHERS = [
    ([1], [1], 1, [1]), ([1], [2], 1, [0]), ([1], [-2], 1, [0]), ([1], [-2], 2, [1]), ([1], [10_000], 10_000, [1]), ([1], [10_001], 10_000, [0]),
    ([2_000], [1_000_000], 500, [1]), ([2_000], [-1_000_000], 499, [0]), ([1_000, 1_030], [0, 1_501], 50, [1, 0]),
    ([1_000, 1_030], [50_000, 51_500], 50, [1, 1]),
    ([200, 400], [-1_000_000, 1_000_000], 10_000, [1, 1]), ([199, 398], [-1_000_000, 1_000_000], 10_000, [1, 0]),
]
# largest, average: factor
FACTORS = {
    (1, 1): 695, (1_000, 1_000): 695, (1_000_000, 1_000_000): 695, (1_000, 999): 696, (1_000_000, 999_999): 695,
    (6, 5): 1_000, (599_999, 500_000): 1_000, (600_000, 500_000): 1_000, (600_001, 500_000): 1_001, (27, 25): 810, (51, 25): 2_890,
    (9, 5): 2_250, (900_001, 500_000): 2_251, (2, 1): 2_778, (20, 10): 2_778, (21, 10): 3_000, (3, 1): 3_000, (1_000_000, 1): 3_000,
    (2_078, 1_000): 2_999, (2_079, 1_000): 3_000, (1_000_000, 481_125): 3_000, (999_999, 481_126): 3_000,
}
WORKED = 1_071_429, 1_000, [5_000] * 3, [100, 200, 300]
# dimension: moments of the worked sheet
MOMENTS = {200: [166_071_000, 332_143_000, 573_215_000], 1: [830_355, 1_660_715, 2_866_075], 5_000: [4_151_775_000, 8_303_575_000, 14_330_375_000]}
# number and cells of drift, and those with a larger limit: whether every yes stays
STAYS = {
    ((0, 1, 0), (0, 1, 0)): True, ((0, 1, 0), (0, 1, 1)): True, ((0, 1, 0), (0, 0, 0)): False, ((0, 1, 0), (0, 0, 1)): False, ((0, 0, 7), (0, 1, 7)): True,
    ((0, 1, 0), (24, 1, 0)): False, ((0, 0, 0), (24, 7, 8)): False, ((24, 7, 8), (0, 0, 1)): True, ((23, 7, 8), (23, 7, 8)): True,
}
# limit: refusal of drift that is good otherwise
LIMITS = {**dict.fromkeys((1, 2, 50, 9_999, 10_000)), **dict.fromkeys((0, 10_001, 2**16 + 1, 2**32 + 1, 2**63 + 1, MOST), (24, 0))}
# displacement: refusal at its level
DISPLACEMENTS = {**dict.fromkeys((0, 1, -1, 999_999, -999_999, 1_000_000, -1_000_000)),
                 **dict.fromkeys((1_000_001, -1_000_001, 2**31, 2**32, -2**32, LEAST_SIGNED, LEAST_SIGNED + 1, LARGEST_SIGNED), 23)}
# largest, average: refusal
FLOORS = {
    **dict.fromkeys(((1, 1), (1_000_000, 1), (1_000_000, 1_000_000), (2, 1))),
    **dict.fromkeys(((1_000_001, 1), (1_000_001, 1_000_001), (1_000_001, 0), (5, 1_000_001), (0, 1_000_001), (MOST, MOST), (MOST, 0), (0, MOST),
                     (2**32, 1)), (23, 0)),
    **dict.fromkeys(((0, 0), (1, 0), (1_000_000, 0), (0, 1), (1, 2), (999_999, 1_000_000), (0, 1_000_000)), (25, 0)),
}
DIMENSIONS = {**dict.fromkeys((1, 2, 4_999, 5_000)), **dict.fromkeys((0, 5_001, HUGE, 2**16 + 1, 2**32 + 1, 2**63 + 1, MOST), (26, 0))}


def figures():
    """Verdicts, factors and moments by hand."""
    for displacements, wanted in VERDICTS.items():
        yield f'three storeys, {displacements}', lambda given=displacements: drift.drift(STOREYS, given, LIMIT).verdicts, wanted
    for *call, wanted in OTHERS:
        yield f'drift {call}', lambda call=call: drift.drift(*call).verdicts, wanted
    for both, wanted in STAYS.items():
        yield f'yes stays, {both}', lambda both=both: yes_stays(*(((number, 0), [cells], True) for number, *cells in both)), wanted
    yield 'a drift angle of 0.005', lambda: drift.drift([30], [-1_500], LIMIT).angles, [Fraction(-5, 1_000)]
    for floor, wanted in FACTORS.items():
        yield f'factor of {floor}', lambda floor=floor: torsion.torsion(*floor).factor, wanted
    for dimension, wanted in MOMENTS.items():
        yield (f'moments of the worked sheet, {dimension} dm', lambda dimension=dimension: accidental.accidental(*WORKED, dimension)[:2],
               (wanted, [-moment for moment in wanted]))
    yield 'moments of forces of 0', lambda: accidental.accidental(1, 0, [1, 1, 1], [1, 2, 3], 5_000)[:2], ([0, 0, 25_000], [0, 0, -25_000])
    yield 'the largest moment', lambda: accidental.accidental(1_200_000_000, 9_999, [1], [1], 5_000)[:2], ([30_000_000_000_000], [-30_000_000_000_000])


def verdicts_by_products(call):
    """The verdicts by products: what a storey moves by is at most the limit times its height."""
    bottoms, floors = [0, *call.displacements], [0, *call.heights]
    return [int(abs(top - bottom) <= call.limit * (high - low))
            for top, bottom, high, low in zip(call.displacements, bottoms, call.heights, floors)]


def least_factor(call):
    """The factor by products: the least of 1 to 3,000 that is at least 1,000 times (22), or 3,000; and that the one below is not."""
    factor = torsion.torsion(*call).factor
    enough, fewer = (25_000 * call.largest**2 <= 36 * call.average**2 * each for each in (factor, factor - 1))
    return (enough or factor == 3_000) and not fewer and factor in range(695, 3_000 + 1)


def moments_tied(call):
    """Moments are those of Wish 6's forces, both ways alike; together they are those of the base shear."""
    moments, over = accidental.accidental(*call), calls.distribution(*call[:4])
    return (moments.positive == [force * 5 * call.dimension for force in over.forces], [-each for each in moments.positive] == moments.negative,
            sum(moments.positive) == 5 * call.dimension * call.base_shear, min(moments.positive) >= 0)


def drawn_checks():
    """Calls of every stratum: each is taken, and what holds of it."""
    rng = random.Random(SEED)
    for name, one in drifts.strata():
        for call in (one(rng) for _ in range(EACH)):
            yield name, lambda call=call: drift.drift(*call).verdicts, verdicts_by_products(call)
            yield f'{name}, with all signs reversed', lambda call=call: expected_drift(*drifts.opposite(call)) == expected_drift(*call), True
            if call.limit < limits.DRIFT_LIMIT[-1]:
                both = call, drifts.with_larger_limit(rng, call)
                yield f'{name}, a larger limit', lambda both=both: yes_stays(*(expected_drift(*each) for each in both)), True
    for name, one in torsions.strata():
        yield from ((name, lambda call=one(rng): least_factor(call), True) for _ in range(EACH))
    for name, one in accidentals.strata():
        yield from ((name, lambda call=one(rng): moments_tied(call), (True,) * 4) for _ in range(EACH))


def moves(call):
    """What each storey moves by, what the limit takes of it, and its ends: (moved, takes, bottom, top, its height above the base)."""
    bottoms = [0, *call.displacements]
    return [(top - bottom, call.limit * rise, bottom, top, high)
            for rise, bottom, top, high in zip(drifts.rises(call.heights), bottoms, call.displacements, call.heights)]


def thousandths(largest, average):
    """(22) in thousandths, rounded up, without a bound."""
    return ceil(torsion.amplification(largest, average) * 1_000)


def beside_thousandth(call, beyond):
    """That a thousandth lies next above a largest displacement, or next below; or that none above or below it is in range."""
    last = call.largest - beyond
    return call.largest == (call.average if beyond else torsions.MOST) or thousandths(last, call.average) < thousandths(last + 1, call.average)


def at_thousandths(rng, every):
    """That drawn calls are beside a thousandth, and that their averages go up to the largest."""
    for words, beyond in (('the last within', 0), ('the first beyond', 1)):
        drawn = [every[f'{torsions.PREFIX}{words} a thousandth'](rng) for _ in range(BESIDE)]
        yield from ((f'{words} a thousandth, {call}', lambda call=call, beyond=beyond: beside_thousandth(call, beyond), True) for call in drawn)
        yield f'{words} a thousandth, averages', lambda drawn=drawn: max(call.average for call in drawn) > 900_000, True


def in_stratum():
    """That a drawn call is what its stratum says."""
    rng, every = random.Random(SEED), {**dict(drifts.strata()), **dict(torsions.strata()), **dict(accidentals.strata())}
    for (side, step), (way, sign) in ((side, way) for side in drifts.SIDES.items() for way in drifts.WAYS.items()):
        for limit in ('1', '50', '10,000', 'any'):
            call = every[f'{drifts.PREFIX}a storey {side} a limit of {limit}, {way}'](rng)
            yield (f'{side} {limit}, {way}', lambda call=call, step=step, sign=sign: any(
                moved == sign * (takes + step) for moved, takes, *_ in moves(call)), True)
    special = {name: every[drifts.PREFIX + name](rng) for name in drifts.SPECIAL}
    two_sides, own, first, largest = special.values()
    yield 'on two sides', lambda: all(abs(abs(top) - abs(bottom)) <= takes < abs(moved) for moved, takes, bottom, top, _ in moves(two_sides)[1:]), True
    yield 'own height', lambda: [takes < abs(moved) <= own.limit * high for moved, takes, *_, high in moves(own)][1:], [True]
    yield 'first storey', lambda: drift.drift(*first).verdicts, [0, *[1] * (len(first.heights) - 1)]
    yield 'largest', lambda: all(abs(moved) >= 1_999_998 for moved, *_ in moves(largest)[1:]), True
    for ratio in torsions.RATIOS:
        below, at, above = (torsion.torsion(*every[f'{torsions.PREFIX}largest {side} {float(ratio)} of the average'](rng)) for side in torsions.SIDES)
        yield f'whole at {ratio}', lambda at=at: at.quotient * 1_000 == at.factor, True
        yield f'beside {ratio}', lambda whole=at.factor, both=(below, above): (both[0].factor <= whole, both[1].factor > whole), (True, True)
    for average in (1, 10, 999, torsions.BEYOND):
        last = torsions.last_within(average, torsions.THREE)
        yield f'the last up to 3.0 over {average}', lambda last=last, average=average: [
            torsion.amplification(largest, average) > 3 for largest in (last, last + 1)], [False, True]
    yield ('the last average with a largest beyond 3.0', lambda: [(average, torsion.amplification(torsions.MOST, average) > 3)
                                                                  for average in (torsions.BEYOND, torsions.BEYOND + 1)], [(481_125, True), (481_126, False)])
    yield from at_thousandths(rng, every)
    yield 'without force', lambda: 0 in accidental.accidental(*accidentals.without_force(rng)).forces, True
    yield ('ratios', lambda: [torsion.torsion(int(25 * ratio), 25).factor for ratio in torsions.RATIOS],
           [810, 1_000, 1_210, 1_440, 1_690, 1_960, 2_250, 2_560, 2_890])


def numbers_refused():
    """Both sides of the limits of the limit, of displacements, of a floor and of the dimension."""
    for limit, wanted in LIMITS.items():
        yield f'limit {limit}', lambda limit=limit: limits.judge_drift(STOREYS, [0] * 3, limit, (3,)), wanted
    for displacement, number in DISPLACEMENTS.items():
        for level in (1, 2, 3):
            moved = [displacement if each == level else 0 for each in (1, 2, 3)]
            yield f'displacement {displacement} at {level}', lambda moved=moved: limits.judge_drift(STOREYS, moved, 1, (3,)), number and (number, level)
    for floor, wanted in FLOORS.items():
        yield f'floor {floor}', lambda floor=floor: limits.judge_torsion(*floor), wanted
    for dimension, wanted in DIMENSIONS.items():
        yield f'dimension {dimension}', lambda given=dimension: limits.judge_accidental(1, 0, [1, 1], [1, 2], given, (2, 2)), wanted


def without_weights(weights, heights, lengths, wanted):
    """Lists of a job as those of drift: heights for weights, displacements of 0 for heights; none where a weight or a height is wrong."""
    right = wanted is None or wanted[0] < 3
    return (list(range(1, len(weights) + 1)), [0] * len(heights), lengths) if right else None


def lists_refused():
    """1, 2 and 4 of drift, before 23 and 24; 1 to 4 of accidental moments, before 19, 20 and 26."""
    for weights, heights, lengths, wanted in LISTS:
        for given, then in (((1, 0, 1), None), ((0, 0, 0), (19, 0)), ((1, 10_000, 0), (20, 0)), ((1, 9_999, 5_001), (26, 0))):
            def judged(given=given, lists=(weights, heights), lengths=lengths):
                """The refusal of accidental moments."""
                return limits.judge_accidental(*given[:2], *lists, given[2], lengths)
            yield f'{given} on lists {weights} {heights} {lengths}', judged, wanted or then
        as_drift = without_weights(weights, heights, lengths, wanted)
        if as_drift:
            levels, moved, cells = as_drift
            for limit, far, then in ((1, 0, None), (0, 0, (24, 0)), (1, 1_000_001, (23, 1)), (0, 1_000_001, (23, 1))):
                yield (f'drift on lists {levels} {moved} {cells}, limit {limit}, {far}',
                       lambda call=(levels, [far, *moved[1:]] if moved else [], limit, cells): limits.judge_drift(*call), wanted or then)
    for heights, wanted in (([0, 1], (4, 1)), ([5, 5], (4, 2)), ([5, 4], (4, 2)), ([1, 2_001], (4, 2)), ([2_001, 5], (4, 1)), ([1, 2_000], None)):
        yield f'heights {heights}', lambda heights=heights: limits.judge_drift(heights, [0, 0], 1, (2,)), wanted
        yield f'heights {heights}, all else wrong', lambda heights=heights: limits.judge_drift(heights, [0, HUGE], 0, (2,)), wanted or (23, 2)


def in_order():
    """Everything wrong, repaired one by one."""
    call = {'heights': [0] * 51, 'displacements': [1_000_001] * 3, 'limit': 0, 'buffer_lengths': (1,)}
    for refusal, part, repaired in (((1, 0), 'heights', [0, 0]), ((2, 0), 'displacements', [1_000_001] * 2), ((2, 0), 'buffer_lengths', (2,)),
                                    ((4, 1), 'heights', [1, 1]), ((4, 2), 'heights', [1, 2]), ((23, 1), 'displacements', [0, LEAST_SIGNED]),
                                    ((23, 2), 'displacements', [0, 0]), ((24, 0), 'limit', 1)):
        yield f'order of drift, {refusal}', lambda call=dict(call): limits.judge_drift(**call), refusal
        call[part] = repaired
    yield 'order of drift, nothing left', lambda: limits.judge_drift(**call), None
    moments = {'base_shear': 0, 'period': 10_000, 'weights': [0] * 51, 'heights': [0] * 3, 'dimension': 0, 'buffer_lengths': (1, 1)}
    for refusal, part, repaired in (((1, 0), 'weights', [0, 0]), ((2, 0), 'heights', [0, 0]), ((2, 0), 'buffer_lengths', (2, 1)),
                                    ((2, 0), 'buffer_lengths', (2, 2)), ((3, 1), 'weights', [1, 0]), ((3, 2), 'weights', [1, 1]), ((4, 1), 'heights', [1, 1]),
                                    ((4, 2), 'heights', [1, 2]), ((19, 0), 'base_shear', 1), ((20, 0), 'period', 0), ((26, 0), 'dimension', 1)):
        yield f'order of accidental moments, {refusal}', lambda call=dict(moments): limits.judge_accidental(**call), refusal
        moments[part] = repaired
    yield 'order of accidental moments, nothing left', lambda: limits.judge_accidental(**moments), None
    yield 'drift refused', lambda: drift.drift([1], [1_000_001], 0), ('refused', 23, 1)
    yield 'torsion refused', lambda: torsion.torsion(0, 0), ('refused', 25, 0)
    yield 'accidental moments refused', lambda: accidental.accidental(1, 0, [1], [1], 0), ('refused', 26, 0)


def checks():
    """All checks of the three."""
    for part in (figures, drawn_checks, in_stratum, numbers_refused, lists_refused, in_order):
        yield from part()
