"""Taipei Basin: Table 4, A and B of its hazards, its capacity (document 000, Part I, 2.3 and 2.4)."""

from fractions import Fraction

from . import response

TABLE_4 = {1: 1600, 2: 1300, 3: 1050, 4: 850}       # "T_0 or T_0^M", in ms
S_DS, S_MS = 60_000_000, 80_000_000                 # "S_DS = 0.6 g", "S_MS = 0.8 g", in 10^-8 g
V_STAR = Fraction(35, 10)


def A_and_B(S, zone):
    """A is S_DS or S_MS, B is "S_DS T_0" (10) or "S_MS T_0^M" (15) with T_0 in s, in 10^-8 g."""
    B = Fraction(S * TABLE_4[zone], 1000)
    assert B.denominator == 1 and response.corner(S, B) == TABLE_4[zone]
    return S, int(B)


def design(basin):
    """A and B of V and of V*: the Basin has no near-fault factor that V* could leave out."""
    return A_and_B(S_DS, basin.zone)


def mce(basin):
    """A and B of V_M."""
    return A_and_B(S_MS, basin.zone)


def capacity(R):
    """(capacity, root^2) by (11), "R_a = 1 + (R-1)/2.0 (for Taipei Basin)", with root^2 = 2*R_a - 1."""
    R_a = 1 + Fraction(R - 100, 200)
    return R_a, 2 * R_a - 1


def hazard(name, basin, R):
    """A, B and capacity of V (design), V_M (mce), whose capacity is R itself (16), or V* (star), which has those of V."""
    if name == 'mce':
        return *mce(basin), response.mce_capacity(R)
    return *design(basin), capacity(R)
