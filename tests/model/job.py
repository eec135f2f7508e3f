"""One job: judged, then worked out with every figure on the way."""

from typing import NamedTuple

from . import calls, limits, response, shears


class Job(NamedTuple):
    """An accepted job on a site or in the Basin; lists run lowest level first; design, mce and star are `shears.Response`."""

    ground: limits.Site | limits.Basin
    frame: limits.Frame
    weights: list
    heights: list
    s: int
    W: int
    t: int
    T: int
    design: shears.Response
    mce: shears.Response
    star: shears.Response
    q: int
    m: int
    q_M: int
    m_M: int
    p: int
    V: int
    V_M: int
    V_star: int
    V_D: int
    F_t: int
    forces: list
    shears: list
    moments: list


def job(ground, frame, weights, heights, buffer_lengths=(), s=response.UNIT):
    """('refused', number, place), or the `Job`: the base shear of the sum of the weights and the last height, distributed at its T."""
    refusal = limits.judge(ground, frame, weights, heights, buffer_lengths)
    if refusal is not None:
        return ('refused', *refusal)
    weights, heights = list(weights), list(heights)
    base = calls.base_figures(limits.ground_of(ground), limits.Frame(*frame), sum(weights), heights[-1], s)
    over = calls.distributed(base.V_D, base.T, weights, heights)
    return Job(base.ground, base.frame, weights, heights, s, base.W, base.t, base.T, base.design, base.mce, base.star,
               base.q, base.m, base.q_M, base.m_M, base.p, base.V, base.V_M, base.V_star, base.V_D,
               over.F_t, over.forces, over.shears, over.moments)
