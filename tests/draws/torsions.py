"""Strata of torsion (Wish 10), both numbers within their range and the average at most the largest: name -> what draws a call from a random generator.

Up to 3.0 the factor of (22) is whole in thousandths only where the largest over the average is one of RATIOS. It is never 3.0 itself: the square of that
ratio would be 4.32.
"""

import functools
import itertools
from fractions import Fraction
from math import floor, isqrt
from typing import NamedTuple

from tests.draws.calls import SIZES, any_of, said, uniform
from tests.model import limits

MOST, THREE = limits.FLOOR_DISPLACEMENT[-1], 3_000         # the largest displacement, the largest factor in thousandths
ENDS = (1, 2, MOST - 1, MOST)
RATIOS = tuple(Fraction(over, 25) for over in range(25, 52) if 10 * over**2 % 9 == 0)       # 1,000 * (ratio / 1.2)^2 is 10 * over^2 / 9
SIDES = {'one below': -1, 'at': 0, 'one above': 1}
LEAST = 695                                                 # thousandths, of equal displacements
BEYOND = isqrt(25_000 * MOST**2 // (36 * THREE))            # 481,125: up to this average a largest displacement beyond 3.0 is in range
PREFIX = 'torsion: '                                        # of a stratum's name


class TorsionInputs(NamedTuple):
    """The inputs of torsion."""

    largest: int
    average: int


def last_within(average, thousandths):
    """The last largest displacement with which (22) is at most so many thousandths: 25,000 * largest^2 <= 36 * average^2 * thousandths."""
    return isqrt(36 * average**2 * thousandths // 25_000)


def draw_average(rng, largest):
    """Any average that a largest displacement can have, or one with which the factor is about 3.0 at most."""
    return rng.randint(rng.choice((1, max(1, 2 * largest // 5))), largest)


def draw_largest(rng, average):
    """Any largest displacement that an average can have, or one with which the factor is about 3.0 at most."""
    return rng.randint(average, rng.choice((MOST, min(MOST, 5 * average // 2))))


def draw_torsion(rng, largest=None, average=None):
    """A call from all that is allowed, or with what is given."""
    if largest is None:
        largest = any_of(rng, range(1, MOST + 1)) if average is None else draw_largest(rng, average)
    return TorsionInputs(largest, average or draw_average(rng, largest))


def of_size(rng, size):
    """Both numbers of a size, the larger one as the largest."""
    return TorsionInputs(*sorted((size(rng, range(1, MOST + 1)) for _ in range(2)), reverse=True))


def of_ends(rng):
    """Both numbers at an end."""
    return TorsionInputs(*sorted(rng.choices(ENDS, k=2), reverse=True))


def equal(rng, more=0):
    """Equal displacements, or a largest by so much more."""
    average = any_of(rng, range(1, MOST - more + 1))
    return TorsionInputs(average + more, average)


def at_ratio(rng, ratio, step=0, of_average=0):
    """A ratio that gives a whole thousandth, or one more or less of the largest or of the average."""
    times = rng.randint(1, (MOST - 1) // ratio.numerator)
    return TorsionInputs(times * ratio.numerator + step, times * ratio.denominator + of_average)


def at_any_ratio(rng, of_average):
    """The same, of any of RATIOS."""
    return at_ratio(rng, rng.choice(RATIOS), 0, of_average)


def at_thousandth(rng, beyond):
    """The last largest displacement within a thousandth, or the first beyond it, of those that an average can have."""
    average = rng.choice((uniform, any_of))(rng, range(1, MOST + 1))
    passed = 25_000 * MOST**2 // (36 * average**2)          # the last thousandth beyond which there is one
    thousandths = rng.randint(LEAST - beyond, min(THREE, passed + 1 - beyond))
    return TorsionInputs(min(MOST, max(average, last_within(average, thousandths) + beyond)), average)


def convergents(number):
    """The convergents of a number's continued fraction: each is closer to it than any fraction of smaller numbers."""
    before, last, rest = (0, 1), (1, 0), number
    while True:
        whole = floor(rest)
        before, last = last, (whole * last[0] + before[0], whole * last[1] + before[1])
        yield last
        if rest == whole:
            return
        rest = 1 / (rest - whole)


def closest(thousandths, beyond):
    """A call whose factor is close to a thousandth, mostly within 10^-6 of it, from below or from beyond."""
    ratio = Fraction(isqrt(36 * thousandths * 10**40 // 25_000), 10**20)
    in_range = itertools.takewhile(lambda pair: pair[0] <= MOST, convergents(ratio))
    calls = [TorsionInputs(*pair) for pair in in_range if pair[1] <= pair[0]]
    sides = [call for call in calls if (call.largest > last_within(call.average, thousandths)) == beyond]
    return sides[-1] if sides else calls[-1]


def close(rng, beyond):
    """The same of any thousandth."""
    return closest(rng.randint(LEAST, THREE), beyond)


def at_three(rng, step, averages=range(1, BEYOND + 1)):
    """The last largest displacement with which the factor is at most 3.0, or one less or more."""
    average = uniform(rng, averages)
    return TorsionInputs(last_within(average, THREE) + step, average)


def strata():
    """Ends with ends; equal ones; whole thousandths and beside them; 3.0 from both sides; any."""
    yield f'{PREFIX}an end over an end', of_ends
    yield from ((f'{PREFIX}{said(largest)} over any', functools.partial(draw_torsion, largest=largest)) for largest in ENDS[1:])
    yield from ((f'{PREFIX}any over {said(average)}', functools.partial(draw_torsion, average=average)) for average in ENDS[:-1])
    for more in (0, 1):
        yield f"{PREFIX}{'one more than the average' if more else 'equal'}", functools.partial(equal, more=more)
    for ratio, (side, step) in itertools.product(RATIOS, SIDES.items()):
        yield f'{PREFIX}largest {side} {float(ratio)} of the average', functools.partial(at_ratio, ratio=ratio, step=step)
    for side in ('one below', 'one above'):
        yield f'{PREFIX}average {side} that of a whole thousandth', functools.partial(at_any_ratio, of_average=SIDES[side])
    for words, beyond in (('the last within', 0), ('the first beyond', 1)):
        yield f'{PREFIX}{words} a thousandth', functools.partial(at_thousandth, beyond=beyond)
    for words, beyond in (('below', False), ('beyond', True)):
        yield f'{PREFIX}as little {words} a thousandth as can be', functools.partial(close, beyond=beyond)
    for side, step in SIDES.items():
        yield f'{PREFIX}{side} the last up to 3.0', functools.partial(at_three, step=step)
        yield f'{PREFIX}{side} the last up to 3.0, of large numbers', functools.partial(at_three, step=step, averages=range(BEYOND - 9_999, BEYOND + 1))
    yield from ((f'{PREFIX}both {size}', functools.partial(of_size, size=drawn)) for size, drawn in SIZES.items())
