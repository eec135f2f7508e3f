"""The exact figure of demand 3: "the same chain with no rounding after T"; of a shear handed in, its storeys from that number."""

from fractions import Fraction
from math import ceil, floor, isqrt
from typing import NamedTuple

from . import basin as basins, limits, site as sites

DIGITS = 30


class Shears(NamedTuple):
    """Base shears and the storey shears, lowest level first, in N."""

    V: Fraction
    V_M: Fraction
    V_star: Fraction
    V_D: Fraction
    storeys: list


def low_fraction(square, digits=DIGITS):
    """Low: "at least 1 and has a square of at most root^2"; the largest of so many digits."""
    low = Fraction(isqrt(floor(square * 100**digits)), 10**digits)
    assert low >= 1 and low**2 <= square < (low + Fraction(1, 10**digits))**2
    return low


def high_fraction(square, digits=DIGITS):
    """High: "at least 1 and has a square of at least root^2"; the smallest of so many digits."""
    high = Fraction(isqrt(ceil(square * 100**digits) - 1) + 1, 10**digits)
    assert high >= 1 and high**2 >= square > (high - Fraction(1, 10**digits))**2
    return high


def spectrum(A, B, T):
    """(4) in g, by the products of T*A with the corner's 1000*B."""
    a, b, TA, corner = Fraction(A, 10**8), Fraction(B, 10**8), T * A, 1000 * B
    if 5 * TA <= corner:
        return a * 2 / 5 + a * 3 * TA / corner
    if TA <= corner:
        return a
    return 1000 * b / T if 2 * TA <= 5 * corner else a * 2 / 5


def factor(A, B, T, capacity, root):
    """(5), (6), (16) as the broken line of T/T0 through 1, root, root, capacity, capacity."""
    part = Fraction(T * A, 1000 * B)
    if part < Fraction(1, 5):
        return 1 + (root - 1) * 5 * part
    if part < Fraction(3, 5):
        return root
    return root + (capacity - root) * (min(part, 1) * 5 - 3) / 2


def modified(ratio):
    """(8), (18): the ratio up to 0.3, 0.52 of it plus 0.144 up to 0.8, 0.7 of it above."""
    if 10 * ratio <= 3:
        return ratio
    return ratio * 13 / 25 + Fraction(18, 125) if 10 * ratio <= 8 else ratio * 7 / 10


def shear_unit(job):
    """I*W/(1.4*alpha-y) in N."""
    return Fraction(job.frame.I * job.W * 1000 * 10, 14 * job.frame.alphay)


def squares(ground, R):
    """root^2 of V, V_M and V*: "(R-25)/75" for design, in the Basin 2*(1 + (R-1)/2.0) - 1 = R; "(R-50)/50" for MCE."""
    design = Fraction(R, 100) if isinstance(ground, limits.Basin) else Fraction(R - 25, 75)
    return design, Fraction(R - 50, 50), design


def hazards(ground):
    """A and B of V, V_M and V*, V and V_M "with each level's own pair"."""
    if isinstance(ground, limits.Basin):
        design, mce = (basins.A_and_B(S, ground.zone) for S in (basins.S_DS, basins.S_MS))
        return design, mce, design
    return (sites.A_and_B(ground.SSD, ground.S1D, ground.NA, ground.NV, ground.cls),
            sites.A_and_B(ground.SSM, ground.S1M, ground.NAM, ground.NVM, ground.cls),
            sites.A_and_B(ground.SSD, ground.S1D, 100, 100, ground.cls))


def capacity_and_star(ground, R):
    """The design capacity, and 1.4 over what divides V*: 4.2, in the Basin 3.5."""
    if isinstance(ground, limits.Basin):
        return Fraction(R + 100, 200), Fraction(2, 5)
    return Fraction(2 * R + 100, 300), Fraction(1, 3)


def roof_part(T):
    """The part of V_D at the roof by "the same rule", T in ms: none up to 0.7 s; above that 0.07 a second, and never more than a quarter."""
    seconds = Fraction(T, 1000)
    return Fraction(0) if seconds <= Fraction(7, 10) else min(seconds * 7 / 100, Fraction(1, 4))


def base_chain(call, roots):
    """The exact V, V_M, V* and V_D of an accepted job or shear call at its T, with a root fraction for each of V, V_M, V*."""
    R, T, unit = call.frame.R, call.T, shear_unit(call)
    design, mce, star = hazards(call.ground)
    (design_capacity, part), mce_capacity = capacity_and_star(call.ground, R), Fraction(R, 100)
    V = unit * modified(spectrum(*design, T) / factor(*design, T, design_capacity, roots[0]))
    V_M = unit * modified(spectrum(*mce, T) / factor(*mce, T, mce_capacity, roots[1]))
    F = factor(*star, T, design_capacity, roots[2])
    V_star = unit * modified(spectrum(*star, T) / F) * F * part
    return V, V_M, V_star, max(V, V_M, V_star)


def storey_chain(base_shear, T, weights, heights):
    """The exact storey shears of a base shear at T, lowest level first."""
    F_t = roof_part(T) * base_shear
    products = [weight * height for weight, height in zip(weights, heights)]
    parts = [Fraction(sum(products[x:]), sum(products)) for x in range(len(products))]
    return [F_t + (base_shear - F_t) * part for part in parts]


def chain(job, roots):
    """The exact shears of an accepted job at its T: "Demand 3's storey part speaks of the two together"."""
    *base, V_D = base_chain(job, roots)
    return Shears(*base, V_D, storey_chain(V_D, job.T, job.weights, job.heights))


def base_of(call, roots):
    """The exact shears of an accepted shear call, which has no storeys."""
    return Shears(*base_chain(call, roots), [])


def bounds(call, digits=DIGITS, by=chain):
    """Two chains: high, high and low fractions (none printed is below it); low, low and high ones."""
    of_V, of_V_M, of_star = squares(call.ground, call.frame.R)
    high, low = high_fraction, low_fraction
    below = by(call, (high(of_V, digits), high(of_V_M, digits), low(of_star, digits)))
    above = by(call, (low(of_V, digits), low(of_V_M, digits), high(of_star, digits)))
    return below, above


def base_margin(call):
    """In N: "six ten-millionths of I*W/(1.4*alpha-y) plus one newton for the base"."""
    return 6 * shear_unit(call) / call.s + 1


def base_rows(call, below, above):
    """Each printed base shear, its least and its limit."""
    return [(getattr(call, name), getattr(below, name), getattr(above, name) + base_margin(call)) for name in ('V', 'V_M', 'V_star', 'V_D')]


def excesses(rows, call):
    """Assert that each printed figure is at least its least and below its limit; how far each is above its least."""
    for row, (printed, least, limit) in enumerate(rows):
        assert least <= printed < limit, (row, printed, least, limit, call)
    return [printed - least for printed, least, _ in rows]


def check(job, digits=DIGITS):
    """Assert demand 3 for base and storey shears; the excess of printed over exact as `Shears`.

    None is below; a base shear exceeds by less than "six ten-millionths of I*W/(1.4*alpha-y) plus one newton", a storey shear by
    less than "two more".
    """
    below, above = bounds(job, digits)
    margin = base_margin(job) + 2
    storeys = zip(job.shears, below.storeys, above.storeys)
    rows = base_rows(job, below, above) + [(printed, least, most + margin) for printed, least, most in storeys]
    excess = excesses(rows, job)
    return Shears(*excess[:4], excess[4:])


def check_shear_call(call, digits=DIGITS):
    """Assert demand 3 for the base shears of a shear call; the excess of printed over exact as `Shears`, of no storey."""
    return Shears(*excesses(base_rows(call, *bounds(call, digits, base_of)), call), [])


def check_distribution(over):
    """Assert of a shear handed in that "each storey shear is at least its exact figure from that number and less than two newtons above";
    the largest excess of printed over exact."""
    exact = storey_chain(over.base_shear, over.period, over.weights, over.heights)
    return max(excesses([(printed, least, least + 2) for printed, least in zip(over.shears, exact)], over))
