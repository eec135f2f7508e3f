"""Stored shear calls: both sides of limits, pairs of refusals; towers (Wish 8); which way the figures move (Wish 14)."""

import itertools

from tests.draws import call_faults, faults, r_marks
from tests.model import limits
from tests.writes.stored_calls import LARGEST, LINE, NEAR, SITE, WORKED, Shear
from tests.writes.towers import SPLITS

# weights and heights of towers: those of the manual, with none, one and two newtons more on the worked sheet's site; the ends of the weight
TOWERS = (*SPLITS, ((1, 1), (300, 2_000)), ((1, 999_999), (2_000, 300)), ((500_000, 500_000), (300, 300)))

# R on the worked sheet: V* rises up to 1.75, V and V* are equal at 4.00
BY_R = (100, 174, 175, 176, 250, 325, 400, 401, 480, 481, 600)
# grounds and T between the corners of V and V*: N_A large alone, N_V large alone, both; every zone
BESIDE_MARKS = ((limits.one_pair(80, 40, 100, 50, 150, 100, 3), 700), (limits.Site(50, 45, 70, 55, 100, 200, 150, 100, 2), 1_200),
                (limits.one_pair(80, 45, 100, 55, 150, 200, 1), 600), *((limits.Basin(zone), 1_000) for zone in limits.ZONE))
IN_BRANCHES = (60, 300, 450, 1_406, 3_000)      # T on the worked sheet's site, of a frame as high as can be


def ends(allowed):
    """Both sides of the first and of the last allowed number, and the largest u64."""
    return [value for value in (allowed[0] - 1, allowed[0], allowed[-1], allowed[-1] + 1, LARGEST) if value >= 0]


def shear_limits():
    """Both sides of the limits of every number of a shear call, with two pairs and in the Basin; weight and height at all ends."""
    near, basin = WORKED._replace(ground=NEAR), WORKED._replace(ground=limits.Basin(3))
    for part, allowed in (('weight', limits.TOTAL_WEIGHT), ('height', limits.HEIGHT)):
        yield from (WORKED._replace(**{part: value}) for value in call_faults.around(allowed))
        yield from (basin._replace(**{part: value}) for value in ends(allowed))
    for (part, place), allowed in call_faults.numbers_of(NEAR):
        if place is not None:
            yield from (call_faults.with_change(near, part, place, value) for value in ends(allowed))
    yield from (basin._replace(ground=limits.Basin(value)) for value in (0, 1, 4, 5, 2**16 + 1, 2**32 + 1, 2**63 + 1, LARGEST))
    for place, allowed in enumerate(faults.LIMITS['frame']):
        yield from (call_faults.with_change(basin, 'frame', place, value) for value in (allowed[0], allowed[-1] + 1))
    yield from (WORKED._replace(weight=weight, height=height, ground=ground)
                for weight, height in itertools.product((1, 1_000_000), (1, 2_000)) for ground in (NEAR, limits.Basin(1)))


# what is refused with each number: part, place in it, a number too low and one too high
WRONG = {3: ('weight', None, 0, 1_000_001), 4: ('height', None, 0, 2_001), 5: ('ground', 3, 39, 56), 6: ('ground', 6, 99, 151),
         7: ('ground', 8, 0, 4), 8: ('frame', 2, 99, 601), 9: ('frame', 3, 99, 151), 10: ('frame', 4, 99, 201), 11: ('frame', 0, 0, 5),
         12: ('frame', 1, 60_001, LARGEST)}
WRONG_ZONE = ('ground', 0, 0, 5)


def twice_wrong(case, one, other):
    """A case with one number too low and another too high."""
    part, place, low, _ = one
    case = call_faults.with_change(case, part, place, low)
    part, place, _, high = other
    return call_faults.with_change(case, part, place, high)


def shear_pairs():
    """Every ordered pair of the numbers of WRONG at once, and every two places of 5 and of 6; in the Basin those with its zone."""
    near, basin = WORKED._replace(ground=NEAR), WORKED._replace(ground=limits.Basin(2))
    yield from (twice_wrong(near, one, other) for one, other in itertools.permutations(WRONG.values(), 2))
    for low, high in ((0, 4), (4, 8)):
        yield from (near._replace(ground=faults.put(faults.put(NEAR, one, 0), other, 0))
                    for one, other in itertools.combinations(range(low, high), 2))
    for number, wrong in WRONG.items():
        if number not in (5, 6, 7):
            yield from (twice_wrong(basin, wrong, WRONG_ZONE), twice_wrong(basin, WRONG_ZONE, wrong))
    yield from (twice_wrong(basin, WRONG[3], WRONG[4]), Shear((0,) * LINE, (0,) * 5, 0, 0), Shear((LARGEST,) * LINE, (LARGEST,) * 5, 1, 1))


# the same of every mapped value and every near-fault factor, by number and place
BY_PLACE = {(number, place): ('ground', first + place - 1, allowed[0] - 1, allowed[-1] + 1) for number, first in ((5, 0), (6, 4))
            for place, allowed in enumerate(faults.LIMITS['site'][first:first + 4], 1)}


def both_ways(case, one, other):
    """The first number too low and the second too high, then the other way about."""
    return twice_wrong(case, one, other), twice_wrong(case, other, one)


def shear_pairs_by_place():
    """Each mapped value and each near-fault factor with each number of WRONG that has another refusal, and with each other; in a right zone
    of the Basin every two that are not of the ground."""
    near, basin = WORKED._replace(ground=NEAR), WORKED._replace(ground=limits.Basin(2))
    for (number, _), wrong in BY_PLACE.items():
        if wrong[:2] != WRONG[number][:2]:
            yield from itertools.chain(*(both_ways(near, wrong, WRONG[other]) for other in WRONG if other != number))
    for mapped, factor in itertools.product((1, 2, 3), (1, 2, 4)):
        yield from both_ways(near, BY_PLACE[5, mapped], BY_PLACE[6, factor])
    in_basin = [wrong for number, wrong in WRONG.items() if number not in (5, 6, 7)]
    yield from itertools.chain(*(both_ways(basin, *pair) for pair in itertools.combinations(in_basin, 2)))


def within_limits():
    """Refused values between listed ones, on a site; in the Basin both sides of every number of the frame."""
    near, basin = WORKED._replace(ground=NEAR), WORKED._replace(ground=limits.Basin(3))
    for (part, place), allowed in call_faults.numbers_of(NEAR):
        if not isinstance(allowed, range):
            between = {value + step for value in allowed for step in (-1, 1)} - {*allowed, allowed[0] - 1, allowed[-1] + 1}
            yield from (call_faults.with_change(near, part, place, value) for value in sorted(between))
    for place, allowed in enumerate(faults.LIMITS['frame']):
        listed = (allowed[0], allowed[-1]) if isinstance(allowed, range) else allowed
        values = {value + step for value in listed for step in (-1, 0, 1) if value + step >= 0}
        yield from (call_faults.with_change(basin, 'frame', place, value) for value in sorted(values))


def tower_cases():
    """Wish 8: the towers of a building, then all their weight, on a site, with two pairs and in the Basin; heights that differ; another T."""
    for ground in (SITE, NEAR, limits.Basin(1), limits.Basin(3)):
        for weights, heights in TOWERS:
            calls_of = [*zip(weights, heights), (sum(weights), heights[-1])]
            yield from (WORKED._replace(ground=ground, weight=weight, height=height) for weight, height in calls_of)
    yield from (WORKED._replace(weight=weight, height=150) for weight in (7_500, 7_500, 15_000))


def framed(case=WORKED, **numbers):
    """A shear call with some numbers of its frame changed."""
    return case._replace(frame=limits.Frame(*case.frame)._replace(**numbers))


def beside_marks(ground, T):
    """R beside that with which V* has risen to its end, and beside that with which it comes to govern; the last."""
    marks = (r_marks.first_level(ground, T), r_marks.first_governed(ground, T))
    high = framed(WORKED._replace(ground=ground, height=limits.HEIGHT[-1]), kind=1, calculated_period=T)
    return [framed(high, R=R) for R in sorted({*(R + step for R in marks for step in (-1, 0)), r_marks.LAST} & {*limits.R_RANGE})]


def move_cases():
    """Wish 14: other R, I, alpha-y and weights on the worked sheet's site, by one step and by more; R beside its marks near a fault and in every
    zone; T in each branch; 1 and 2 kN."""
    yield from (framed(R=R) for R in BY_R)
    yield from (framed(I=I) for I in (125, 150))
    yield from (framed(alphay=alphay) for alphay in (100, 149, 151, 200))
    yield from (WORKED._replace(weight=weight) for weight in (14_999, 15_001, 16_000))
    for weight in (1, 2):
        light = WORKED._replace(weight=weight)
        yield from (*(framed(light, alphay=alphay) for alphay in (151, 150, 149, 148)), framed(light, I=125), framed(light, R=100))
    for ground, T in BESIDE_MARKS:
        yield from beside_marks(ground, T)
    for T in IN_BRANCHES:
        high = framed(WORKED._replace(height=limits.HEIGHT[-1]), kind=1, calculated_period=T)
        yield from (framed(high, R=R) for R in (100, 300, 600))
