"""The soil log: velocities, times, class and refusals 2, 13, 14 and 15."""

from fractions import Fraction
from functools import cache
from math import ceil, floor
from typing import NamedTuple

LAYERS = range(1, 40 + 1)
THICKNESS_SUM = 3_000
MEASURED, COHESIVE, COHESIONLESS, SOFT_CLAY = 1, 2, 3, 4
VALUE = {MEASURED: range(500, 30_000 + 1), COHESIVE: range(2, 25 + 1), COHESIONLESS: range(1, 50 + 1), SOFT_CLAY: range(1, 400 + 1)}
HARD, NORMAL, SOFT = 1, 2, 3


class Log(NamedTuple):
    """An accepted log: velocities in dm/s, the sums U and L in ns, the site class."""

    velocities: list
    U: int
    L: int
    cls: int


def refusals(thicknesses, kinds, values):
    """Every refusal of a log: "for a log 2 precedes 13"; "14 at a layer of thickness 0 if there is one"."""
    if not len(thicknesses) == len(kinds) == len(values):
        yield 2, 0
    if len(thicknesses) not in LAYERS:
        yield 13, 0
    for layer, thickness in enumerate(thicknesses, 1):
        if thickness == 0:
            yield 14, layer
    if sum(thicknesses) != THICKNESS_SUM:
        yield 14, 0
    for layer, (kind, value) in enumerate(zip(kinds, values), 1):
        if kind not in VALUE or value not in VALUE[kind]:
            yield 15, layer


def judge(thicknesses, kinds, values):
    """None, or the first (number, place)."""
    return next(refusals(thicknesses, kinds, values), None)


def root(number, power):
    """The largest whole v with v^power <= number."""
    v, above = 0, 1
    while above**power <= number:
        above *= 2
    while above - v > 1:
        middle = (v + above) // 2
        if middle**power <= number:
            v = middle
        else:
            above = middle
    assert v**power <= number < (v + 1)**power
    return v


@cache
def by_strength(q):
    """Soft clay, q in hundredths of kgf/cm^2: "the largest whole v, in dm/s, with v^25*100^9 <= 1200^25*q^9"; so v^25, a whole number, is at most
    the quotient rounded down."""
    return root(1200**25 * q**9 // 100**9, 25)


def velocity(kind, value):
    """Measured, or by (3.a) "v^3 <= 1000^3*N", (3.b) "v^3 <= 800^3*N likewise", or soft clay's, in dm/s."""
    if kind == MEASURED:
        return value
    if kind == SOFT_CLAY:
        return by_strength(value)
    return root({COHESIVE: 1000, COHESIONLESS: 800}[kind]**3 * value, 3)


def time(thickness, v):
    """Time in ns: "A layer's time is 10^8*d/v ns"."""
    return Fraction(10**8 * thickness, v)


def site_class(U, L):
    """Class: "Hard exactly if 27*U < 3*10^9; soft exactly if 18*L > 3*10^9; else normal"."""
    if 27 * U < 3 * 10**9:
        return HARD
    if 18 * L > 3 * 10**9:
        return SOFT
    return NORMAL


def log(thicknesses, kinds, values):
    """('refused', number, place), or the `Log` by "Soil log"."""
    refusal = judge(thicknesses, kinds, values)
    if refusal is not None:
        return ('refused', *refusal)
    velocities = [velocity(kind, value) for kind, value in zip(kinds, values)]
    times = [time(thickness, v) for thickness, v in zip(thicknesses, velocities)]
    U = sum(ceil(each) for each in times)
    L = sum(floor(each) for each in times)
    return Log(velocities, U, L, site_class(U, L))
