"""Strata of the ratio against its thresholds: near one, on it, and one unit to a side.

Few jobs have a given ratio to the unit. So the period at which the exact ratio is that one is worked out in doubles, branch by branch, for
one R after the other, and the model is asked where the ratio at a whole period beside it is close. V* and the Basin have no near-fault
factors, and so few ratios that not every one is met: there the nearest to a threshold that is met stands for one unit to a side.
"""

import functools
import itertools
from math import floor, sqrt

from tests.draws.strata import Stratum, side_of, with_period
from tests.model import limits, response, shears
from tests.model.calls import made_by

LOW, HIGH = 3 * response.UNIT // 10, 8 * response.UNIT // 10
RATIOS = (('design', LOW), ('design', HIGH), ('mce', LOW), ('mce', HIGH), ('star', LOW))
NEAR = response.UNIT // 5_000       # 200 millionths
CLOSE = 8                           # units: further from the exact ratio no printed one is


def ratio_of(hazard, ground, T, R):
    """q of V or V_M; for V* the spectrum over the upper factor, up, in the unit."""
    figures = shears.respond(*made_by(ground).hazard(hazard, ground, R), T)
    factor = figures.upper_factor if hazard == 'star' else figures.lower_factor
    return response.ratio(figures.spectrum, factor)


def beside(hazard, threshold, side):
    """The ratio within 200 millionths of a threshold; R is sought, as the ratio falls with R."""
    def reach(inputs):
        """R put where the ratio passes the threshold."""
        ground, frame, _, heights = inputs
        T = response.period(response.approximate_period(frame.kind, heights[-1]), frame.calculated_period)
        low, high = limits.R_RANGE[0], limits.R_RANGE[-1]
        if not ratio_of(hazard, ground, T, high) <= threshold <= ratio_of(hazard, ground, T, low):
            return None
        while high - low > 1:
            R = (low + high) // 2
            low, high = (R, high) if ratio_of(hazard, ground, T, R) > threshold else (low, R)
        return inputs._replace(frame=frame._replace(R=low if side == 'above' else high))

    def holds(job):
        """The ratio lies there."""
        ratio = ratio_of(hazard, job.ground, job.T, job.frame.R)
        return abs(ratio - threshold) <= NEAR and side_of(ratio, threshold) == side

    return Stratum(f'{hazard}: ratio {side} {threshold}', reach, holds)


def ratio_in_doubles(T, A, B, capacity, root):
    """The exact ratio at a period in ms."""
    a, part = A / 10**8, T * A / (1000 * B)
    if part < 1 / 5:
        return a * (2 / 5 + 3 * part) / (1 + (root - 1) * 5 * part)
    if part < 1:
        return a / (root + (capacity - root) * max(0, part * 5 - 3) / 2)
    return a * max(1 / part, 2 / 5) / capacity


def periods_at(ratio, A, B, capacity, root):
    """Where in ms the exact ratio is this one, in each branch; of the level branch its middle."""
    a, T0 = A / 10**8, 1000 * B / A
    factor, falling = a / ratio, 3 * a - 5 * ratio * (root - 1)
    if falling and 0 < (ratio - a * 2 / 5) / falling < 1 / 5:
        yield (ratio - a * 2 / 5) / falling * T0
    yield T0 * 2 / 5
    if root < factor < capacity:
        yield (3 + 2 * (factor - root) / (capacity - root)) / 5 * T0
    if capacity <= factor <= capacity * 5 / 2:
        yield factor / capacity * T0


def periods_met(hazard, ground, R, ratio):
    """Whole periods at which the ratio is this one to the unit; none where it is smaller at every period."""
    A, B, (capacity, square) = made_by(ground).hazard(hazard, ground, R)
    figures, exact = (A, B, float(capacity), sqrt(square)), ratio / response.UNIT
    for period in periods_at(exact, *figures):
        for T in (floor(period), floor(period) + 1):
            close = abs(ratio_in_doubles(T, *figures) - exact) * response.UNIT < CLOSE
            if close and T >= 1 and ratio_of(hazard, ground, T, R) == ratio:
                yield T


def lowered(hazard, ground, R, ratio):
    """The exact ratio is below this one at every period, for this R and all above."""
    A, _, (_, square) = made_by(ground).hazard(hazard, ground, R)
    return A / 10**8 / sqrt(square) * response.UNIT < ratio - CLOSE


def at_mark(hazard, ratio):
    """A ratio of V or V_M on a site, to the unit; R and then the period are sought."""
    def reach(inputs):
        """The first R that has a period of this ratio."""
        for R in range(inputs.frame.R, limits.R_RANGE[-1] + 1):
            if lowered(hazard, inputs.ground, R, ratio):
                return None
            for T in periods_met(hazard, inputs.ground, R, ratio):
                return with_period(inputs._replace(frame=inputs.frame._replace(R=R)), T)
        return None

    return met_stratum(hazard, ratio, reach)


def met_stratum(hazard, ratio, reach):
    """Jobs that have a ratio to the unit."""
    return Stratum(f'{hazard}: ratio {ratio}', reach, lambda job: ratio_of(hazard, job.ground, job.T, job.frame.R) == ratio)


@functools.cache
def all_met(hazard, grounds, ratio):
    """(ground, R, T) for all of a few grounds that have a ratio; where it is the same over a stretch of T, one or two of them."""
    return [(ground, R, T) for ground in grounds for R in limits.R_RANGE for T in periods_met(hazard, ground, R, ratio)]


def nearest(hazard, grounds, threshold):
    """The ratio next below a threshold that one of a few grounds has, the threshold, and the ratio next above."""
    sides = (next(ratio for ratio in itertools.count(threshold + step, step) if all_met(hazard, grounds, ratio)) for step in (-1, 1))
    return sorted((threshold, *sides))


def of_few(hazard, grounds, ratio, put):
    """A ratio to the unit, of a few grounds; `put` changes the ground of inputs for one of them."""
    def reach(inputs):
        """One of those that have it, by turns."""
        met = all_met(hazard, grounds, ratio)
        ground, R, T = met[(inputs.frame.R * 601 + inputs.frame.alphay) % len(met)]
        return with_period(inputs._replace(ground=put(inputs.ground, ground), frame=inputs.frame._replace(R=R)), T)

    return met_stratum(hazard, ratio, reach)


PLAIN_SITES = tuple(limits.one_pair(*mapped, limits.S_S_MCE[0], limits.S_1_MCE[0], 100, 100, cls)
                    for *mapped, cls in itertools.product(limits.S_S_DESIGN, limits.S_1_DESIGN, limits.CLASS))


def star_at_mark(ratio):
    """A ratio of V* on a site, which the design values and the class make."""
    return of_few('star', PLAIN_SITES, ratio, lambda site, other: site._replace(SSD=other.SSD, S1D=other.S1D, cls=other.cls))


def at_ratio(hazard, threshold, side):
    """The ratio on a threshold, or near it to a side."""
    if side != 'on':
        return beside(hazard, threshold, side)
    stratum = star_at_mark(threshold) if hazard == 'star' else at_mark(hazard, threshold)
    return stratum._replace(name=f'{hazard}: ratio on {threshold}')


def mark_strata():
    """A ratio at each threshold, and one unit to each side or, of V*, the nearest; of V* at 0.8 too, which it never passes: Sa is at most
    0.8 g and F at least 1, so p's third line is not reached."""
    yield from (at_mark(hazard, threshold + offset) for hazard, threshold in RATIOS if hazard != 'star' for offset in (-1, 0, 1))
    yield from map(star_at_mark, (*nearest('star', PLAIN_SITES, LOW), HIGH))
