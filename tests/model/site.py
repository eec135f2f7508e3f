"""Site coefficients of Table 2, and A and B of the three hazards in 10^-8 g."""

from fractions import Fraction

from . import response

S_S_COLUMNS = (5000, 6000, 7000, 8000, 9000)
F_A = {
    1: (10000, 10000, 10000, 10000, 10000),
    2: (11000, 11000, 10000, 10000, 10000),
    3: (12000, 12000, 11000, 10000, 10000),
}
S_1_COLUMNS = (3000, 3500, 4000, 4500, 5000)
F_V = {
    1: (10000, 10000, 10000, 10000, 10000),
    2: (15000, 14000, 13000, 12000, 11000),
    3: (18000, 17000, 16000, 15000, 14000),
}
NO_NEAR_FAULT = 100
V_STAR = Fraction(42, 10)


def interpolate(columns, coefficients, S):
    """Table 2: "constant outside its ends and straight between columns, where they come out whole"."""
    if S <= columns[0]:
        return coefficients[0]
    if S >= columns[-1]:
        return coefficients[-1]
    right = next(i for i, column in enumerate(columns) if S <= column)
    left = right - 1
    slope = Fraction(coefficients[right] - coefficients[left], columns[right] - columns[left])
    coefficient = coefficients[left] + slope * (S - columns[left])
    assert coefficient.denominator == 1, (columns, coefficients, S)
    return int(coefficient)


def F_a(cls, S_S):
    """F_a in ten-thousandths at S_S in 0.0001 g, by Table 2."""
    return interpolate(S_S_COLUMNS, F_A[cls], S_S)


def F_v(cls, S_1):
    """F_v in ten-thousandths at S_1 in 0.0001 g, by Table 2."""
    return interpolate(S_1_COLUMNS, F_V[cls], S_1)


def A_and_B(mapped_S_S, mapped_S_1, NA, NV, cls):
    """A and B: "S = mapped value times its near-fault factor"; "A = F_a*S_S and B = F_v*S_1, in 10^-8 g"."""
    S_S = mapped_S_S * NA
    S_1 = mapped_S_1 * NV
    return F_a(cls, S_S) * S_S, F_v(cls, S_1) * S_1


def design(site):
    """A and B of V: "design values"; "V uses the first pair"."""
    return A_and_B(site.SSD, site.S1D, site.NA, site.NV, site.cls)


def mce(site):
    """A and B of V_M: "the same from MCE values"; "V_M the second"."""
    return A_and_B(site.SSM, site.S1M, site.NAM, site.NVM, site.cls)


def star(site):
    """A and B of V*: design values with "both near-fault factors taken as 100"; "V* neither"."""
    return A_and_B(site.SSD, site.S1D, NO_NEAR_FAULT, NO_NEAR_FAULT, site.cls)


def hazard(name, site, R):
    """A, B and capacity of V (design), V_M (mce) or V* (star), which has the design capacity too."""
    if name == 'mce':
        return *mce(site), response.mce_capacity(R)
    return *(design(site) if name == 'design' else star(site)), response.design_capacity(R)
