"""Prints what the program `run_exhausted` must write, by the model.

usage: python3 -m tests.writes.exhausted > crates/run_exhausted/stdout
"""

from fractions import Fraction
from math import ceil, floor

from tests.model import basin, limits, paper, response, site as sites

UNIT, MILLIONTHS = response.UNIT, 10**6


def both(capacity, s):
    """Rounded down and up to the unit."""
    return floor(Fraction(capacity) * s), ceil(Fraction(capacity) * s)


def ductility(R, s):
    """Both roots and both roundings of the capacity, design and MCE."""
    (design, design_square), (mce, mce_square) = response.design_capacity(R), response.mce_capacity(R)
    roots = (root(square, s) for square in (design_square, mce_square) for root in (response.lower_root, response.upper_root))
    return ('R', R, *roots, *both(design, s), *both(mce, s))


def basin_ductility(R, s):
    """Both roots and both roundings of the Basin's capacity."""
    capacity, square = basin.capacity(R)
    return ('basin', R, response.lower_root(square, s), response.upper_root(square, s), *both(capacity, s))


def on_paper(R):
    """Place by place the digits found and what is left, design and MCE: the squares are (R-25)/75 and (R-50)/50."""
    for design, mce in zip(paper.lines(R - 25, 75, UNIT), paper.lines(R - 50, 50, UNIT)):
        yield ('place', design.place, design.found, design.left, mce.found, mce.left)


def lines():
    """Every line."""
    yield from (ductility(R, UNIT) for R in limits.R_RANGE)
    yield from (('h', h, *(response.approximate_period(kind, h) for kind in limits.KIND)) for h in limits.HEIGHT)
    mapped = (('S_S', limits.S_S_DESIGN, limits.S_S_MCE, limits.N_A, sites.F_a),
              ('S_1', limits.S_1_DESIGN, limits.S_1_MCE, limits.N_V, sites.F_v))
    for name, design, mce, factors, coefficient in mapped:
        for value in sorted({*design, *mce}):
            yield from ((name, value * N, *(coefficient(cls, value * N) for cls in limits.CLASS)) for N in factors)
    yield from (basin_ductility(R, UNIT) for R in limits.R_RANGE)
    yield from (ductility(R, MILLIONTHS) for R in limits.R_RANGE)
    yield from (basin_ductility(R, MILLIONTHS) for R in limits.R_RANGE)
    yield from on_paper(480)


if __name__ == '__main__':
    for line in lines():
        print(*line)
