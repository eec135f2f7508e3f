"""Wrong ideas of drift and of the refusals of Wish 10, as changes of the model, and the calls that are to show them. Those of torsion and of accidental
moments stand in tests/compares/wrong_torsions.py and tests/compares/wrong_accidentals.py."""

from fractions import Fraction
from math import ceil, floor

from tests.compares.wrong_calls import mixed
from tests.draws import drift_faults
from tests.draws.drifts import strata
from tests.model import drift, limits
from tests.writes import drifts, stored_drifts

MOST = limits.DISPLACEMENT[-1]


def in_order(name, *numbers):
    """The refusals of an entry in another order of their numbers."""
    right = getattr(limits, name)
    return [(limits, name, lambda *call: iter(sorted(right(*call), key=lambda refusal: numbers.index(refusal[0]))))]


def refused(name, changed):
    """Each refusal of an entry, or of a part of it, changed: (number, place) by a function of both."""
    right = getattr(limits, name)
    return [(limits, name, lambda *call: (changed(*refusal) for refusal in right(*call)))]


def low_bits(number, bits):
    """The low bits of a number, with their sign."""
    return (number + 2**(bits - 1)) % 2**bits - 2**(bits - 1)


def moved(rule):
    """The angles by another rule: what a storey moves by over its height, of the heights and the displacements of its lower and its upper end."""
    def angles(heights, displacements):
        """The angles."""
        ends = zip(drift.storeys(heights), drift.storeys(displacements))
        return [Fraction(rule(low, high, bottom, top)) / drift.UNITS_OF_A_DM for (low, high), (bottom, top) in ends]
    return [(drift, 'angles', angles)]


def within(holds):
    """The verdict by another rule, of the angle in ten-thousandths and the limit."""
    return [(drift, 'verdict', lambda angle, limit: drift.YES if holds(angle * drift.PARTS_OF_LIMIT, limit) else drift.NO)]


def verdicts(changed):
    """The verdicts changed, given how many cells there are."""
    def wrong(heights, displacements, limit, buffer_lengths=(), right=drift.drift):
        """The call with other verdicts."""
        result = right(heights, displacements, limit, buffer_lengths)
        return result if result[0] == 'refused' else result._replace(verdicts=changed(result.verdicts, *buffer_lengths))
    return [(drift, 'drift', wrong)]


def to_the_first_beyond(found, *_):
    """No for every storey above one that is beyond the limit."""
    return [min(found[:place + 1]) for place in range(len(found))]


def of_the_storey_above(heights, displacements, right=drift.angles):
    """Each level with the angle of the storey above it."""
    return [*right(heights, displacements)[1:], Fraction(0)]


def by_wrapped_size(displacements):
    """The size of the least i64 is the least i64."""
    for level, displacement in enumerate(displacements, 1):
        if abs(displacement) > MOST and displacement != -2**63:
            yield 23, level


def by_low_bits(displacements):
    """Displacements judged by their low 32 bits."""
    yield from ((23, level) for level, displacement in enumerate(displacements, 1) if low_bits(displacement, 32) not in limits.DISPLACEMENT)


def by_differences(displacements):
    """What a storey moves by judged too."""
    yield from ((23, level) for level, (bottom, top) in enumerate(drift.storeys(displacements), 1)
                if top not in limits.DISPLACEMENT or top - bottom not in limits.DISPLACEMENT)


def at_the_last(displacements, right=limits.displacement_refusals):
    """23 at its last level."""
    yield from reversed(list(right(displacements)))


def of_drift(counted=lambda heights, displacements: heights, unequal=lambda one, other: one != other, short=lambda cells, levels: cells < levels):
    """1 and 2 of drift by other lists or lengths; its other refusals as they are."""
    def wrong(heights, displacements, limit, buffer_lengths):
        """The refusals."""
        levels = len(counted(heights, displacements))
        if levels not in limits.LEVELS:
            yield 1, 0
        if unequal(len(heights), len(displacements)) or any(short(cells, levels) for cells in buffer_lengths):
            yield 2, 0
        yield from limits.height_refusals(heights)
        yield from limits.displacement_refusals(displacements)
        yield from limits.drift_limit_refusals(limit)
    return [(limits, 'drift_refusals', wrong)]


def weights_too(heights, displacements, limit, buffer_lengths, right=limits.drift_refusals):
    """3 judged on the heights, as if they were weights."""
    found = list(right(heights, displacements, limit, buffer_lengths))
    yield from (refusal for refusal in found if refusal[0] < 3)
    yield from ((3, level) for level, height in enumerate(heights, 1) if height not in limits.WEIGHT)
    yield from (refusal for refusal in found if refusal[0] > 3)


def ranges_alone(heights):
    """Heights that do not rise taken."""
    yield from ((4, level) for level, height in enumerate(heights, 1) if height not in limits.HEIGHT)


ERRORS = {
    'the difference of the sizes': moved(lambda low, high, bottom, top: Fraction(abs(top) - abs(bottom), high - low)),
    'the sum of the sizes': moved(lambda low, high, bottom, top: Fraction(abs(top) + abs(bottom), high - low)),
    'the displacement of the upper end alone': moved(lambda low, high, bottom, top: Fraction(top, high - low)),
    'the height above the base': moved(lambda low, high, bottom, top: Fraction(top - bottom, high)),
    'the displacement over the height above the base': moved(lambda low, high, bottom, top: Fraction(top, high)),
    'the height of the storey below': moved(lambda low, high, bottom, top: Fraction(top - bottom, low or high)),
    'the first storey not judged': verdicts(lambda found, *_: [drift.YES, *found[1:]]),
    'the last storey not judged': verdicts(lambda found, *_: [*found[:-1], drift.YES]),
    'each level by the storey above it': [(drift, 'angles', of_the_storey_above)],
    'less than the limit': within(lambda angle, limit: abs(angle) < limit),
    'without its size': within(lambda angle, limit: angle <= limit),
    'only one way': within(lambda angle, limit: 0 <= angle <= limit),
    'the limit in thousandths': within(lambda angle, limit: abs(angle) <= 10 * limit),
    'the limit in hundred-thousandths': within(lambda angle, limit: abs(angle) <= Fraction(limit, 10)),
    'a limit of 0.005 for all': within(lambda angle, limit: abs(angle) <= 50),
    'the quotient rounded down': within(lambda angle, limit: floor(abs(angle)) <= limit),
    'the quotient rounded to the nearest': within(lambda angle, limit: round(abs(angle)) <= limit),
    'the quotient rounded toward minus infinity, then its size': within(lambda angle, limit: abs(floor(angle)) <= limit),
    'the quotient rounded up, then its size': within(lambda angle, limit: abs(ceil(angle)) <= limit),
    'yes and no exchanged': verdicts(lambda found, *_: [drift.YES + drift.NO - each for each in found]),
    'all by the worst storey': verdicts(lambda found, *_: [min(found)] * len(found)),
    'no above a storey beyond the limit': verdicts(to_the_first_beyond),
    'the highest storey first': verdicts(lambda found, *_: found[::-1]),
    'cells past the last level cleared': verdicts(lambda found, cells: found + [drift.NO] * (cells - len(found))),
    'one cell more written': verdicts(lambda found, cells: (found + [drift.YES])[:cells]),
    '24 before 23': in_order('drift_refusals', 1, 2, 4, 24, 23), '24 before 4': in_order('drift_refusals', 1, 2, 24, 4, 23),
    '24 before 1': in_order('drift_refusals', 24, 1, 2, 4, 23), '23 before 4': in_order('drift_refusals', 1, 2, 23, 4, 24),
    '23 before 2': in_order('drift_refusals', 1, 23, 2, 4, 24), '4 before 2': in_order('drift_refusals', 1, 4, 2, 23, 24),
    '2 before 1': in_order('drift_refusals', 2, 1, 4, 23, 24), '4 before 1': in_order('drift_refusals', 4, 1, 2, 23, 24),
    '3 judged on the heights': [(limits, 'drift_refusals', weights_too)],
    '3 in place of 23': refused('displacement_refusals', lambda number, place: (3, place)),
    '3 in place of 4': refused('height_refusals', lambda number, place: (3, place)),
    '23 at place 0': refused('displacement_refusals', lambda number, place: (number, 0)),
    '23 at a level from 0': refused('displacement_refusals', lambda number, place: (number, place - 1)),
    '23 at its last level': [(limits, 'displacement_refusals', at_the_last)],
    '24 at place 1': refused('drift_limit_refusals', lambda number, place: (number, 1)),
    '1 judged on the displacements': of_drift(counted=lambda heights, displacements: displacements),
    'more displacements than levels taken': of_drift(unequal=lambda heights, displacements: displacements < heights),
    'a buffer as long as the levels asked for': of_drift(short=lambda cells, levels: cells != levels),
    'a cell more than levels asked for': of_drift(short=lambda cells, levels: cells <= levels),
    'a buffer one cell short taken': of_drift(short=lambda cells, levels: cells < levels - 1),
    'heights that do not rise taken': [(limits, 'height_refusals', ranges_alone), *moved(
        lambda low, high, bottom, top: Fraction(top - bottom, abs(high - low) or 1))],
    'up to 49 levels': [(limits, 'LEVELS', range(1, 49 + 1))], 'up to 51 levels': [(limits, 'LEVELS', range(1, 51 + 1))],
    'a displacement up to 999,999': [(limits, 'DISPLACEMENT', range(-MOST, MOST))],
    'a displacement up to 1,000,001': [(limits, 'DISPLACEMENT', range(-MOST, MOST + 2))],
    'a displacement from -999,999 on': [(limits, 'DISPLACEMENT', range(-MOST + 1, MOST + 1))],
    'a displacement from -1,000,001 on': [(limits, 'DISPLACEMENT', range(-MOST - 1, MOST + 1))],
    'no displacement below 0': [(limits, 'DISPLACEMENT', limits.FLOOR_DISPLACEMENT)],
    'the least i64 taken': [(limits, 'displacement_refusals', by_wrapped_size)],
    'displacements judged by their low 32 bits': [(limits, 'displacement_refusals', by_low_bits)],
    'a storey that moves by more than 1,000,000 refused': [(limits, 'displacement_refusals', by_differences)],
    'a limit of 0 taken': [(limits, 'DRIFT_LIMIT', range(0, 10_000 + 1))], 'a limit up to 9,999': [(limits, 'DRIFT_LIMIT', range(1, 10_000))],
    'a limit up to 10,001': [(limits, 'DRIFT_LIMIT', range(1, 10_001 + 1))], 'a limit of 1 refused': [(limits, 'DRIFT_LIMIT', range(2, 10_000 + 1))],
}


def drawn(rng, count):
    """Calls of drift."""
    return mixed(rng, count, list(strata()), drift_faults.random_drift)


def stored(kind=stored_drifts.Drift):
    """The cases of crates/run_drifts that are of a kind, with what is stored of each."""
    cases = drifts.all_cases()
    return [(case, answer) for case, answer in zip(cases, drifts.stored(cases)) if isinstance(case, kind)]
