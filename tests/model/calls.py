"""The two calls of Wish 6: the shear call, which needs no storeys, and the distribution of a shear handed in."""

from typing import NamedTuple

from . import basin as basins, limits, response, shears, site as sites, storeys


HAZARDS = ('design', 'mce', 'star')


class BaseShear(NamedTuple):
    """What a shear call gives, "V, V_M, V*, V_D and T", with every figure on the way; design, mce and star are `shears.Response`."""

    ground: limits.Site | limits.Basin
    frame: limits.Frame
    W: int
    h: int
    s: int
    t: int
    T: int
    design: shears.Response
    mce: shears.Response
    star: shears.Response
    q: int
    m: int
    q_M: int
    m_M: int
    p: int
    V: int
    V_M: int
    V_star: int
    V_D: int


class Distributed(NamedTuple):
    """What a distribution gives, "forces, shears and moments", lowest level first, with the shear and the period that were handed in."""

    base_shear: int
    period: int
    weights: list
    heights: list
    F_t: int
    forces: list
    shears: list
    moments: list


def made_by(ground):
    """What makes each hazard of a ground, and says what divides V* there."""
    return basins if isinstance(ground, limits.Basin) else sites


def base_figures(ground, frame, W, h, s=response.UNIT):
    """The `BaseShear` of a total weight and a top height by "From map values to shear", all in range."""
    t = response.approximate_period(frame.kind, h)
    T = response.period(t, frame.calculated_period)

    design, mce, star = (shears.respond(*made_by(ground).hazard(name, ground, frame.R), T, s) for name in HAZARDS)

    q = response.ratio(design.spectrum, design.lower_factor, s)
    m = response.modified_ratio(q, s)
    q_M = response.ratio(mce.spectrum, mce.lower_factor, s)
    m_M = response.modified_ratio(q_M, s)
    p = response.p_of_star(star.spectrum, star.upper_factor)

    V = shears.V(frame, m, W, s)
    V_M = shears.V(frame, m_M, W, s)
    V_star = shears.V_star(frame, p, W, s, made_by(ground).V_STAR)
    V_D = shears.V_D(V, V_M, V_star)
    return BaseShear(ground, frame, W, h, s, t, T, design, mce, star, q, m, q_M, m_M, p, V, V_M, V_star, V_D)


def distributed(base_shear, period, weights, heights):
    """The `Distributed` by "Storeys", all in range; the base shear handed in stands for V_D, the period handed in for T."""
    F_t = storeys.F_t(period, base_shear)
    storey_shears = storeys.shears(base_shear, F_t, weights, heights)
    forces = storeys.forces(storey_shears)
    moments = storeys.overturning(forces, heights)
    return Distributed(base_shear, period, weights, heights, F_t, forces, storey_shears, moments)


def shear_call(ground, frame, weight, height, s=response.UNIT):
    """('refused', number, place), or the `BaseShear`: "site, frame, a total weight of 1 to 1,000,000 kN and a top height"."""
    refusal = limits.judge_shear_call(ground, frame, weight, height)
    if refusal is not None:
        return ('refused', *refusal)
    return base_figures(limits.ground_of(ground), limits.Frame(*frame), weight, height, s)


def distribution(base_shear, period, weights, heights, buffer_lengths=()):
    """('refused', number, place), or the `Distributed`: "any base shear from 1 to 1,200,000,000 N, a period from 0 to 9,999 ms, and the
    levels"."""
    refusal = limits.judge_distribution(base_shear, period, weights, heights, buffer_lengths)
    if refusal is not None:
        return ('refused', *refusal)
    return distributed(base_shear, period, list(weights), list(heights))
