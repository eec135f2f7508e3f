"""Stored cases of drift (Wish 10): differences at the limit and beside it, both sides of each limit, lists and levels, pairs of refusals."""

import itertools

from tests.draws import call_faults, faults
from tests.draws.drift_faults import around_displacement
from tests.model import limits
from tests.writes.stored_drifts import LARGEST, LARGEST_SIGNED, LEAST_SIGNED, THREE, Drift, tall_drift

MOST = limits.DISPLACEMENT[-1]
# own height of a storey, limit
MARKS = ((1, 1), (1, 2), (1, 10_000), (30, 50), (33, 49), (2, 9_999), (99, 10_000), (400, 1), (250, 4_000))
FAR = limits.HEIGHT[-1], 500                # their product is the largest displacement


def high(count, rise, first=0):
    """The heights of so many storeys of one height, above a first of another."""
    return [first + rise * (level + 1) for level in range(count)]


def of(heights, displacements, limit, more_room=0):
    """A case with a buffer as long as its lists, or longer."""
    return Drift(list(heights), list(displacements), limit, (len(heights) + more_room,))


def mark_cases():
    """Storeys that move by the limit exactly, by one less and by one more, each way: from the base and back to it."""
    for rise, limit in MARKS:
        mark = rise * limit
        moved = [each for size in (mark, mark + 1, mark - 1) for each in (size, 0, -size, 0)]
        yield from (of(high(4, rise), moved[first:first + 4], limit, first) for first in (0, 4, 8) if max(map(abs, moved[first:first + 4])) <= MOST)
    yield from (of(FAR[:1], [sign * size], FAR[1] + step) for sign in (1, -1) for size in (MOST, MOST - 1) for step in (-1, 0, 1))


def sign_cases():
    """Storeys whose ends lie on two sides of 0: their sizes differ by less than they do. The largest differences, at the limit and beside it."""
    yield of(high(4, 30), [750, -750, 751, -749], 50)
    yield of(high(4, 30), [-751, 750, -750, 751], 50)
    yield of(high(3, 30), [1_500, -1_500, 1_500], 50)
    yield of(high(3, 30), [-1, 1_499, -1], 50)
    yield of(high(3, 30), [-1, 1_500, -1], 50)
    for sign, rise in itertools.product((1, -1), (199, 200, 201)):
        yield of(high(3, rise), [sign * MOST, -sign * MOST, sign * MOST], 10_000)
    half = 200 * 9_999 // 2
    yield of(high(4, 200), [half, -half, half + 1, -half], 9_999)
    yield of(high(4, 200), [-half, half, -half - 1, half], 9_999)


def height_cases():
    """Low storeys above high ones: each by its own height. The first storey, and another, alone beyond the limit; storeys of one slope."""
    yield of([1_000, 1_030], [0, 1_501], 50)
    yield of([1_000, 1_030, 1_060], [0, -1_500, 1], 50)
    yield of([30, 1_030, 1_060], [1_501, 51_501, 53_001], 50)
    yield of([30, 1_030, 1_060], [1_501, 51_502, 53_002], 50)
    yield of([1, 2, 2_000], [50, 101, 1_000], 50)
    yield of([1_998, 1_999, 2_000], [99_900, 99_951, 99_900], 50)
    yield from (of(high(3, 30), displacements, 50, 1) for displacements in ([1_501, 1_501, 1_501], [1_500, 1_500, -1], [0, 0, 0], [0, 1_501, 1_501]))
    yield of(high(4, 30), [1_500, 3_000, 4_501, 6_001], 50)
    yield of(high(4, 30), [-1_500, -3_000, -4_501, -6_001], 50)


def held_cases():
    """Taken, refused and taken again; other cells than the usual."""
    yield from (THREE, THREE._replace(limit=0), THREE)
    used = THREE._replace(displacements=[1_501, 3_000, 4_501], buffers=(5,))
    yield from (used._replace(old=old) for old in (0, 1, LARGEST))
    yield from (used._replace(old=old, limit=10_001) for old in (0, 1, LARGEST))


def limit_cases():
    """Both sides of the limits of the limit and of a displacement, at the only level and at each of three; the least and the largest i64."""
    yield from (THREE._replace(limit=value) for value in call_faults.around(limits.DRIFT_LIMIT))
    yield from (of([2_000], [value], 400) for value in around_displacement())
    for level, value in itertools.product(range(3), (-MOST - 1, -MOST, MOST, MOST + 1, LEAST_SIGNED, LARGEST_SIGNED)):
        yield THREE._replace(displacements=faults.put(THREE.displacements, level, value))
    yield from (of([1, 2], each, 1) for each in ([LARGEST_SIGNED, LEAST_SIGNED], [LEAST_SIGNED, LEAST_SIGNED + 1], [LEAST_SIGNED, LEAST_SIGNED]))


def list_cases():
    """0, 1, 2, 49, 50 and 51 levels; lists of unequal length; a buffer as long as the lists, longer and shorter."""
    yield from (tall_drift(count) for count in (0, 1, 2, 49, 50, 51))
    yield tall_drift(0)._replace(buffers=(0,))
    yield from (tall_drift(50)._replace(buffers=(cells,)) for cells in (49, 50, 51))
    for heights, displacements in ((3, 2), (2, 3), (3, 0), (0, 3), (3, 51), (51, 3), (50, 49), (50, 51), (51, 50)):
        yield tall_drift(heights)._replace(displacements=[0] * displacements)
    yield from (THREE._replace(buffers=(cells,)) for cells in (0, 1, 2, 3, 4, 52))
    yield Drift(list(range(1, 51)), [level % 4 // 2 * 2 + level % 2 for level in range(50)], 1, (51,))
    yield Drift(high(50, 40), [(-1) ** level * (1_000 - level // 2) for level in range(50)], 50, (50,))


def level_cases():
    """Both sides of a height at one level alone; 4 and 23 at the first, a middle and the last of 50; each at two levels."""
    yield from (of([value], [3], 10_000, 1) for value in call_faults.around(limits.HEIGHT))
    whole = tall_drift(50)
    for level in call_faults.FIRST_MIDDLE_LAST:
        yield from (whole._replace(heights=faults.put(whole.heights, level, value)) for value in (0, level, 2_001))
        yield from (whole._replace(displacements=faults.put(whole.displacements, level, value)) for value in (MOST + 1, -MOST - 1))
    yield from (THREE._replace(heights=each) for each in ([30, 30, 90], [30, 60, 60], [90, 60, 30], [30, 3_000, 60], [0, 0, 90], [29, 30, 31]))
    yield from (THREE._replace(displacements=each) for each in ([0, MOST + 1, -MOST - 1], [-MOST - 1, 0, MOST + 1]))


# each refusal as two changes of three levels: part, place in it, value
WRONG = {
    1: (('heights', None, []), ('heights', None, high(51, 1))), 2: (('displacements', None, [5, 6]), ('displacements', None, [5, 6, 7, 8])),
    '2, a buffer': (('buffers', 0, 0), ('buffers', 0, 2)), 4: (('heights', 1, 0), ('heights', 0, 2_001)),
    23: (('displacements', 2, LEAST_SIGNED), ('displacements', 0, MOST + 1)), 24: (('limit', None, 0), ('limit', None, 10_001)),
}


def pair_cases():
    """Every ordered pair of refusals at once; no level and 51 levels, each with nothing else wrong but one of the later refusals; all at once."""
    yield from (call_faults.both(THREE, WRONG[one][0], WRONG[other][1]) for one, other in itertools.permutations(WRONG, 2))
    yield from (tall_drift(count)._replace(limit=value) for count in (0, 51) for value in (0, 10_001))
    over = tall_drift(51)
    yield over._replace(buffers=(50,))
    yield from (over._replace(heights=faults.put(over.heights, level, value)) for level, value in ((0, 0), (50, 50)))
    yield from (over._replace(displacements=faults.put(over.displacements, level, value)) for level, value in ((0, MOST + 1), (50, LEAST_SIGNED)))
    yield Drift([], [MOST + 1], 1, (1,))
    yield Drift([0, 0], [MOST + 1] * 3, 0, (1,))


def drift_cases():
    """All of them."""
    for part in (held_cases, mark_cases, sign_cases, height_cases, limit_cases, list_cases, level_cases, pair_cases):
        yield from part()
