"""Bad calls of drift, torsion and accidental moments (Wish 10): every refusal at every place, both sides of each limit, every two at once."""

import itertools

from tests.draws import call_faults, faults
from tests.draws.accidentals import AccidentalInputs, draw_accidental
from tests.draws.call_faults import FIRST_MIDDLE_LAST, around, both, with_change, wrong_value
from tests.draws.drifts import DriftInputs, draw_drift
from tests.draws.torsions import TorsionInputs, draw_torsion
from tests.model import limits

MOST = faults.MOST
SIGNED = range(-2**63, 2**63)
LEVELS = limits.LEVELS[-1]
GOOD_DRIFT = DriftInputs(faults.TALL[1], [20 * (-1) ** level * level for level in range(LEVELS)], 50, (LEVELS,))
GOOD_ACCIDENTAL = AccidentalInputs(1_071_429, 1_000, *faults.TALL, 200, (LEVELS,) * 2)
COUNTS = range(LEVELS + 4)


def beside_ends():
    """Both sides of each end of a displacement."""
    return [end + step for end in (limits.DISPLACEMENT[0], limits.DISPLACEMENT[-1]) for step in (-1, 0, 1)]


def around_displacement():
    """Those, 0 and beside it, the least and the largest i64, and numbers whose low bits are allowed."""
    wide = {sign * (2**power + step) for sign in (1, -1) for power in (31, 32, 62, 63) for step in (-1, 0, 1, 5)}
    return sorted(value for value in {*beside_ends(), -1, 0, 1} | wide if value in SIGNED)


def far_displacements():
    """One below what is allowed, and one above."""
    return limits.DISPLACEMENT[0] - 1, limits.DISPLACEMENT[-1] + 1


def lists_of(count):
    """So many heights, displacements and verdicts."""
    return {'heights': [30 * (level + 1) for level in range(count)], 'displacements': [7 * level for level in range(count)], 'lengths': (count,)}


def near_height(level):
    """Heights beside the limits, and beside those of the levels below and above, which are 40 dm apart."""
    return sorted({*around(limits.HEIGHT), *(40 * (level + step) + more for step in (0, 2) for more in (0, 1, -1))} - {-1})


def changed_drifts():
    """Both sides of every limit at every level, every length of each list and of the buffer; the limit."""
    for level in range(LEVELS):
        yield from (with_change(GOOD_DRIFT, 'heights', level, value) for value in near_height(level))
        yield from (with_change(GOOD_DRIFT, 'displacements', level, value) for value in around_displacement())
    for count in COUNTS:
        lists = lists_of(count)
        yield GOOD_DRIFT._replace(**lists)
        yield GOOD_DRIFT._replace(heights=lists['heights'], lengths=(LEVELS + 5,))
        yield from (GOOD_DRIFT._replace(**{part: lists[part]}) for part in ('displacements', 'lengths'))
    yield from (GOOD_DRIFT._replace(limit=value) for value in around(limits.DRIFT_LIMIT))


def wrong_drifts():
    """Each refusal of drift as changes of a good call, two ways of each: name -> (one, other)."""
    yield 'no level or 51', (('heights', None, []), ('heights', None, [30 * (level + 1) for level in range(LEVELS + 1)]))
    yield 'unequal lists', (('displacements', None, GOOD_DRIFT.displacements[:-1]), ('displacements', None, [*GOOD_DRIFT.displacements, 0]))
    yield 'buffer', (('lengths', 0, 0), ('lengths', 0, LEVELS - 1))
    for level in FIRST_MIDDLE_LAST:
        yield f'height {level}', tuple(('heights', level, value) for value in call_faults.two_wrong(limits.HEIGHT))
        yield f'displacement {level}', tuple(('displacements', level, value) for value in far_displacements())
    yield 'limit', tuple(('limit', None, value) for value in (limits.DRIFT_LIMIT[0] - 1, limits.DRIFT_LIMIT[-1] + 1))


def systematic_drifts():
    """Each change alone, every ordered pair of refusals at once, a displacement beside its limits with the limit beside its own."""
    yield from changed_drifts()
    parts = dict(wrong_drifts())
    yield from (both(GOOD_DRIFT, parts[one][0], parts[other][1]) for one, other in itertools.permutations(parts, 2))
    for value, limit in itertools.product(around_displacement(), around(limits.DRIFT_LIMIT)):
        yield with_change(GOOD_DRIFT, 'displacements', 0, value)._replace(limit=limit)


def systematic_torsions():
    """Each number beside its limits and beside 0 with each such other; the average beside the largest."""
    beside = sorted({*around(limits.FLOOR_DISPLACEMENT), *range(4), limits.FLOOR_DISPLACEMENT[-1] + 2})
    yield from (TorsionInputs(*each) for each in itertools.product(beside, repeat=2))
    for largest in (1, 2, 1_000, 65_535, 65_536, 999_999, 1_000_000, 1_000_001, 2**32, 2**63, MOST - 1):
        yield from (TorsionInputs(largest, largest + step) for step in (-1, 0, 1))


def accidental_lists(count):
    """So many weights, heights and cells."""
    return {'weights': [5_000] * count, 'heights': [30 * (level + 1) for level in range(count)], 'lengths': (count,) * 2}


def changed_accidentals():
    """Both sides of every limit at every level, every length of each list and buffer; base shear, period and dimension."""
    for level in range(LEVELS):
        yield from (with_change(GOOD_ACCIDENTAL, 'weights', level, value) for value in around(limits.WEIGHT))
        yield from (with_change(GOOD_ACCIDENTAL, 'heights', level, value) for value in near_height(level))
    for count in COUNTS:
        lists = accidental_lists(count)
        yield GOOD_ACCIDENTAL._replace(**lists)
        yield GOOD_ACCIDENTAL._replace(heights=lists['heights'])
        yield GOOD_ACCIDENTAL._replace(weights=lists['weights'], lengths=(LEVELS + 5,) * 2)
        yield from (with_change(GOOD_ACCIDENTAL, 'lengths', place, count) for place in range(2))
    for part, allowed in (('base_shear', limits.BASE_SHEAR), ('period', limits.PERIOD), ('dimension', limits.DIMENSION)):
        yield from (GOOD_ACCIDENTAL._replace(**{part: value}) for value in around(allowed))


def wrong_accidentals():
    """Each refusal of accidental moments as changes of a good call, two ways of each: name -> (one, other)."""
    yield 'no level or 51', (('weights', None, []), ('weights', None, [5_000] * (LEVELS + 1)))
    yield 'unequal lists', (('heights', None, GOOD_ACCIDENTAL.heights[:-1]), ('heights', None, [*GOOD_ACCIDENTAL.heights, 2_000]))
    yield from ((f'buffer {place}', (('lengths', place, 0), ('lengths', place, LEVELS - 1))) for place in range(2))
    for part, allowed in (('weights', limits.WEIGHT), ('heights', limits.HEIGHT)):
        yield from ((f'{part} {level}', tuple((part, level, value) for value in call_faults.two_wrong(allowed))) for level in FIRST_MIDDLE_LAST)
    for part, allowed in (('base_shear', limits.BASE_SHEAR), ('dimension', limits.DIMENSION)):
        yield part, tuple((part, None, value) for value in call_faults.two_wrong(allowed))
    yield 'period', tuple(('period', None, value) for value in (limits.PERIOD[-1] + 1, MOST))


def systematic_accidentals():
    """Each change alone, every ordered pair of refusals at once, the dimension beside its limits with base shear or period beside its own."""
    yield from changed_accidentals()
    parts = dict(wrong_accidentals())
    yield from (both(GOOD_ACCIDENTAL, parts[one][0], parts[other][1]) for one, other in itertools.permutations(parts, 2))
    for dimension in around(limits.DIMENSION):
        yield from (GOOD_ACCIDENTAL._replace(dimension=dimension, base_shear=value) for value in around(limits.BASE_SHEAR))
        yield from (GOOD_ACCIDENTAL._replace(dimension=dimension, period=value) for value in around(limits.PERIOD))


def any_displacement(rng):
    """A displacement beside its limits, or any i64."""
    return rng.choice((rng.choice(beside_ends()), rng.choice(around_displacement()), rng.choice((1, -1)) * rng.randrange(2**rng.randrange(64))))


def other_height(rng, heights, place):
    """A height beside its limits, any, or that of another level."""
    return rng.choice((wrong_value(rng, limits.HEIGHT), heights[max(place - 1, 0)], heights[-1]))


def shortened(rng, listed):
    """The first of a list, none or all of them."""
    return listed[:rng.randrange(len(listed) + 1)]


def with_level(call):
    """Drift with a level more on top."""
    top = min(call.heights[-1] + 1, MOST)
    return call._replace(heights=[*call.heights, top], displacements=[*call.displacements, 0], lengths=(call.lengths[0] + 1,))


def spoilt_drift(rng, call):
    """Drift with one of its numbers or lengths changed, right or wrong."""
    what = rng.randrange(8)
    if what == 0:
        return call._replace(limit=wrong_value(rng, limits.DRIFT_LIMIT))
    if what in (1, 2) and call.displacements:
        return with_change(call, 'displacements', rng.randrange(len(call.displacements)), any_displacement(rng))
    if what == 3 and call.heights:
        place = rng.randrange(len(call.heights))
        return with_change(call, 'heights', place, other_height(rng, call.heights, place))
    if what == 4:
        return call._replace(heights=rng.choice((shortened(rng, call.heights), call.heights * rng.randrange(4))))
    if what == 5:
        return call._replace(displacements=rng.choice((shortened(rng, call.displacements), call.displacements * rng.randrange(4))))
    if what == 6 and call.heights:
        return with_level(call)
    return call._replace(lengths=(rng.randrange(len(call.heights) + 2),))


def spoilt_accidental(rng, call):
    """Accidental moments with one of their numbers or lengths changed, right or wrong: the dimension, or what a distribution has."""
    if rng.randrange(5) == 0:
        return call._replace(dimension=wrong_value(rng, limits.DIMENSION))
    lengths = *call.lengths, call.lengths[-1]
    over = call_faults.spoilt(rng, call_faults.DistributionInputs(*call[:4], lengths))
    return AccidentalInputs(*over[:4], call.dimension, tuple(over.lengths[:2]))


def changed(rng, call, spoilt):
    """A call with one to four changes."""
    for _ in range(rng.choice((1, 1, 1, 2, 3, 4))):
        call = spoilt(rng, call)
    return call


def random_drift(rng):
    """A drawn call of drift with one to four changes."""
    return changed(rng, draw_drift(rng), spoilt_drift)


def random_torsion(rng):
    """A drawn call of torsion with one number, or both, changed; the average also to one beside the largest."""
    call = draw_torsion(rng)
    for _ in range(rng.choice((1, 1, 2))):
        part = rng.choice(TorsionInputs._fields)
        call = call._replace(**{part: wrong_value(rng, limits.FLOOR_DISPLACEMENT)})
    return call._replace(average=call.largest + rng.choice((0, 1))) if rng.randrange(4) == 0 and call.largest < MOST else call


def random_accidental(rng):
    """A drawn call of accidental moments with one to four changes."""
    return changed(rng, draw_accidental(rng), spoilt_accidental)
