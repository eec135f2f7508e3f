"""Wish 8: shear calls of towers on one podium, "with the same site and frame values and the same period in use"."""

from fractions import Fraction

from . import calls, shears

ONE_NEWTON = 1


def newtons_more(whole, parts):
    """By how much the sum of the towers' V_D is above V_D "for the sum of" their "total weights", in N."""
    return sum(parts) - whole


def holds(whole, parts):
    """V_D for the sum "is at most the sum of the two V_D, and that sum is at most one newton more"; a newton for each tower after the first."""
    return whole <= sum(parts) <= whole + (len(parts) - 1) * ONE_NEWTON


def share(result):
    """V_D over W before the last rounding, in N for each kN: the largest of V, V_M and V* with a weight of 1 kN."""
    frame, divided_by = result.frame, calls.made_by(result.ground).V_STAR
    ratios = ((result.m, shears.divisor(result.s)), (result.m_M, shears.divisor(result.s)), (result.p, shears.divisor(result.s, divided_by)))
    return max(Fraction(frame.I * ratio) / (divisor * frame.alphay) for ratio, divisor in ratios)
