"""F_t, storey shears, forces and overturning, lowest level first (21)."""

from fractions import Fraction
from math import ceil


NO_ROOF_FORCE = 700         # ms


def F_t(T, V_D):
    """At the roof: "0 up to 700 ms, and above that the smaller of 0.07*T*V_D and V_D/4, rounded up"."""
    if T <= NO_ROOF_FORCE:
        return 0
    return ceil(min(Fraction(7, 100) * Fraction(T, 1000) * V_D, Fraction(V_D, 4)))


def products_above(weights, heights):
    """For each x, "P_x that sum [of weight times height] from level x to the roof"; the first is P."""
    products = [weight * height for weight, height in zip(weights, heights)]
    return [sum(products[x:]) for x in range(len(products))]


def shears(V_D, top, weights, heights):
    """Shears: "the shear under level x is F_t + (V_D-F_t)*P_x/P, quotient up"."""
    P_x = products_above(weights, heights)
    return [top + ceil(Fraction((V_D - top) * part, P_x[0])) for part in P_x]


def forces(storey_shears):
    """Forces: "A level's force is its shear less the one above"."""
    return [under - above for under, above in zip(storey_shears, storey_shears[1:] + [0])]


def overturning(level_forces, heights):
    """About level x-1 or the base, N*dm: "over the levels from x upward, force times height above"."""
    bottoms = [0] + list(heights[:-1])
    return [
        sum(force * (height - bottom) for force, height in zip(level_forces[x:], heights[x:]))
        for x, bottom in enumerate(bottoms)
    ]
