"""The three base shears and V_D, in N, with the figures that lead to each."""

from fractions import Fraction
from math import ceil
from typing import NamedTuple

from . import response, site


class Response(NamedTuple):
    """Figures of one hazard at T: A and B in 10^-8 g, T0 in ms, the others in the unit 1/s."""

    A: int
    B: int
    T0: Fraction
    spectrum: int
    lower_root: int
    upper_root: int
    lower_factor: int
    upper_factor: int


def respond(A, B, capacity_and_square, T, s=response.UNIT):
    """Spectrum (4) and reduction factor (5), (6), (16) of one hazard at T."""
    capacity, square = capacity_and_square
    T0 = response.corner(A, B)
    return Response(
        A, B, T0, response.spectrum(A, B, T, s),
        response.lower_root(square, s), response.upper_root(square, s),
        response.lower_factor(capacity, square, T0, T, s),
        response.upper_factor(capacity, square, T0, T, s),
    )


def divisor(s=response.UNIT, divided_by=Fraction(14, 10)):
    """The 14000 of "I*m*W/(14000*alpha-y)": 1.4 times the unit of m, over 1000 N in a kN; "42000" and "35000" of V* likewise."""
    return divided_by * s / 1000


def V(frame, m, W, s=response.UNIT):
    """In N, rounded up, W in kN: "V and V_M become I*m*W/(14000*alpha-y)", each of its own m."""
    return ceil(frame.I * m * W / (divisor(s) * frame.alphay))


def V_star(frame, p, W, s=response.UNIT, divided_by=site.V_STAR):
    """In N, rounded up, W in kN: "V* I*p*W/(42000*alpha-y), with 35000 for 42000 in the Basin" (19)."""
    return ceil(frame.I * p * W / (divisor(s, divided_by) * frame.alphay))


def V_D(v, v_m, v_star):
    """(20): "V_D is the largest of the three"."""
    return max(v, v_m, v_star)
