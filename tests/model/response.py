"""Period, spectrum, roots, reduction factor and modified ratio; figures in the unit 1/s.

Document 01 words them in millionths; by Wish 7 of 02 "spectrum, reduction factors and roots are to be answered in ten-millionths, the
ratio and everything above following, thresholds scaled alike". The quotes of 01 below are read with the unit s in place of its 10^6.
"""

from fractions import Fraction
from math import ceil, floor, isqrt

UNIT = 10**7
PERIOD_C = {1: 85, 2: 70, 3: 70, 4: 50}


def approximate_period(kind, h):
    """Approximate: "the largest whole t with 1000*t^4 <= c^4*h^3, h the top height"."""
    bound = PERIOD_C[kind]**4 * h**3
    t = isqrt(isqrt(bound // 1000))
    assert 1000 * t**4 <= bound < 1000 * (t + 1)**4
    return t


def period(t, calculated_period):
    """T: "With a calculated period, T is the smaller of it and 14*t/10 rounded down; else T = t"."""
    if calculated_period == 0:
        return t
    return min(calculated_period, floor(Fraction(14 * t, 10)))


def corner(A, B):
    """Corner in ms: "The corner T0 = 1000*B/A ms is never rounded"."""
    return Fraction(1000 * B, A)


def spectrum_in_g(A, B, T):
    """(4): "A(0.4 + 3T/T0) for T <= 0.2*T0; A for T <= T0; B/(T in s) for T <= 2.5*T0; else 0.4*A"."""
    T0 = corner(A, B)
    if T <= T0 / 5:
        figure = A * (Fraction(2, 5) + 3 * T / T0)
    elif T <= T0:
        figure = Fraction(A)
    elif T <= T0 * 5 / 2:
        figure = B / Fraction(T, 1000)
    else:
        figure = Fraction(2 * A, 5)
    return figure / 10**8


def spectrum(A, B, T, s=UNIT):
    """(4): "one rounding, up", to the unit."""
    return ceil(s * spectrum_in_g(A, B, T))


def design_capacity(R):
    """(capacity, root^2): "Design capacity is exactly (2R+100)/300, with root^2 = (R-25)/75"."""
    return Fraction(2 * R + 100, 300), Fraction(R - 25, 75)


def mce_capacity(R):
    """(capacity, root^2): "MCE capacity R/100, root^2 = (R-50)/50"."""
    return Fraction(R, 100), Fraction(R - 50, 50)


def lower_root(square, s=UNIT):
    """Lower root: "the largest whole k with (k/s)^2 not above that", s for 01's 10^6."""
    k = isqrt(floor(square * s**2))
    assert k**2 <= square * s**2 < (k + 1)**2
    return k


def upper_root(square, s=UNIT):
    """Upper root: "the smallest not below"."""
    k = isqrt(ceil(square * s**2) - 1) + 1
    assert (k - 1)**2 < square * s**2 <= k**2
    return k


def factor(capacity, root, T0, T):
    """(5), (6), (16): capacity; root + (capacity-root)*x; root; root + (root-1)*y, y negative."""
    if T >= T0:
        return capacity
    if T >= T0 * 3 / 5:
        x = (T - T0 * 3 / 5) / (T0 * 2 / 5)
        return root + (capacity - root) * x
    if T >= T0 / 5:
        return root
    y = (T - T0 / 5) / (T0 / 5)
    return root + (root - 1) * y


def lower_factor(capacity, square, T0, T, s=UNIT):
    """In the unit 1/s: "Lower factor: lower root, result rounded down"."""
    return floor(s * factor(capacity, Fraction(lower_root(square, s), s), T0, T))


def upper_factor(capacity, square, T0, T, s=UNIT):
    """In the unit 1/s: "Upper factor: upper root, rounded up"."""
    return ceil(s * factor(capacity, Fraction(upper_root(square, s), s), T0, T))


def ratio(Sa, F, s=UNIT):
    """Ratio: "q = spectrum over lower factor, rounded up"."""
    return ceil(Fraction(s * Sa, F))


def modified_ratio(q, s=UNIT):
    """(8), (18): q up to 0.3 of the unit; up to 0.8 of it 0.52*q plus 0.144 of it, up; above that 0.7*q, up.

    In ten-millionths 3,000,000, 8,000,000 and 1,440,000: 01's 300,000, 800,000 and 144,000 "scaled alike".
    """
    if q <= Fraction(3 * s, 10):
        return q
    if q <= Fraction(8 * s, 10):
        return ceil(Fraction(52 * q, 100) + Fraction(144 * s, 1000))
    return ceil(Fraction(7 * q, 10))


def p_of_star(Sa, F):
    """For V*: "p = Sa if 10*Sa <= 3*F; 0.52*Sa + 0.144*F, up, if 10*Sa <= 8*F; else 0.7*Sa, up"."""
    if 10 * Sa <= 3 * F:
        return Sa
    if 10 * Sa <= 8 * F:
        return ceil(Fraction(52 * Sa, 100) + Fraction(144 * F, 1000))
    return ceil(Fraction(7 * Sa, 10))
