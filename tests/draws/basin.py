"""Strata of jobs in the Basin: those of frame and levels, and the Basin's own.

Each of V, V_M and V* governs in every zone: V_M at a low R or a short period, V* at a high R near the corner and beyond, V between them.
The ratio of V and that of V* are at most 0.6 and that of V_M at most 0.8, which R = 1 gives from 0.2 T0 to T0: the line above 0.8 is not
reached. V_M and V* never govern together, by trying every zone, T and R: where V_M is above V, it is above V* by more than 0.0237 of
I*W/(1.4*alpha-y), which is 8 N or more; and the largest and the smallest of the three are more than 0.0042 apart, which is over 1 N.
"""

from tests.draws import rare
from tests.draws.plain_jobs import Inputs, draw_basin
from tests.draws.ratios import HIGH, LOW, at_ratio, nearest, of_few, ratio_of
from tests.draws.sample import frame_strata, in_turn, level_strata
from tests.draws.strata import CORNERS, SIDES, Stratum, at_corner, governed_by, with_number, with_period
from tests.model import basin, limits, response

TIES = (('V', 'V_M'), ('V', 'V_star'))
BASINS = tuple(map(limits.Basin, limits.ZONE))


def named(stratum, zone=None):
    """A stratum of the Basin, in one zone where one is given."""
    if zone is None:
        return stratum._replace(name=f'Basin: {stratum.name}')
    return Stratum(f'Basin, zone {zone}: {stratum.name}', lambda inputs: stratum.reach(inputs._replace(ground=limits.Basin(zone))),
                   lambda job: job.ground.zone == zone and stratum.holds(job))


def corner_strata(zone):
    """T a millisecond below, at and above each part of a zone's corner: every one is whole, and V, V_M and V* have the same."""
    for label, part in CORNERS.items():
        mark = part * basin.TABLE_4[zone]
        assert mark.denominator == 1
        for side, T in zip(SIDES, (int(mark) - 1, int(mark), int(mark) + 1)):
            stratum = at_corner('mce', label, side)
            yield Stratum(f'T {side} {label} T0', lambda inputs, T=T: with_period(inputs, T), stratum.holds)


def at_mark(hazard, ratio):
    """A ratio to the unit."""
    return of_few(hazard, BASINS, ratio, lambda _, basin: basin)


def at_high_mark():
    """V_M's ratio at its second threshold, by R = 1."""
    def reach(inputs):
        """T from 0.2 T0 to T0."""
        T0 = basin.TABLE_4[inputs.ground.zone]
        return with_period(inputs._replace(frame=inputs.frame._replace(R=100)), T0 // 5 + inputs.frame.R * 601 % (4 * T0 // 5 + 1))

    return Stratum(f'mce: ratio {HIGH}', reach, lambda job: ratio_of('mce', job.ground, job.T, job.frame.R) == HIGH)


def largest():
    """Every number at its largest and R = 1: the largest shears and products of the Basin."""
    def reach(inputs):
        """The levels at the very top; zone, kind and period as drawn."""
        return Inputs(inputs.ground, inputs.frame._replace(R=100, I=150, alphay=100), [20_000] * 50, list(range(1_951, 2_001)))

    return Stratum('every number at its largest', reach, lambda job: job.heights[0] == 1_951)


def heavy():
    """A million kN, I = 1.50, alpha-y = 1.00, R near 1 and T up to 30 ms below 0.2 T0, or any R and T from 0.6 T0 to T0: a unit is
    107 N, and every stage rounds."""
    def reach(inputs):
        """The largest weights, a tall frame."""
        T0, drawn, R = basin.TABLE_4[inputs.ground.zone], inputs.frame.calculated_period, inputs.frame.R
        T, R = (T0 // 5 - drawn % 31, 100 + R % 21) if inputs.frame.alphay % 2 else (3 * T0 // 5 + drawn % (2 * T0 // 5), R)
        return Inputs(inputs.ground, limits.Frame(1, T, R, 150, 100), [20_000] * 50, list(range(40, 2_001, 40)))

    return Stratum('heavy, T up to 0.2 T0 or from 0.6 T0', reach, lambda job: job.W == 1_000_000 and job.T == job.frame.calculated_period)


def zone_strata():
    """Of each zone: any job, the corners, each shear governing."""
    for zone in limits.ZONE:
        yield named(Stratum('any job', lambda inputs: inputs, lambda job: True), zone)
        yield from (named(stratum, zone) for stratum in corner_strata(zone))
        yield from (named(governed_by(name), zone) for name in ('V', 'V_M', 'V_star'))


def shared_strata():
    """Both sides of a threshold, the ends of R, and what frames and levels have on a site too."""
    yield from (named(at_ratio(hazard, LOW, side)) for hazard in ('design', 'mce', 'star') for side in ('below', 'above'))
    yield from (named(with_number('frame', 'R', R)) for R in (100, 600))
    yield from (named(stratum) for stratum in (*frame_strata(), *level_strata()))


def plain_strata():
    """Every stratum that a plain draw meets, in a fixed order."""
    return [*zone_strata(), *shared_strata()]


def accepted_basin_jobs(seed, count):
    """Jobs of the Basin, the plain strata in turn."""
    return in_turn(seed, count, plain_strata(), draw_basin)


def basin_strata(each):
    """Each with how many jobs the comparison draws for it; `each` for the plain ones."""
    yield from ((stratum, each) for stratum in plain_strata())
    yield from ((named(rare.tied(names)), 100) for names in TIES)
    yield from ((named(at_mark(hazard, ratio)), 50) for hazard in ('design', 'mce', 'star') for ratio in nearest(hazard, BASINS, LOW))
    yield named(at_high_mark()), 50
    yield named(largest()), 500
    yield from ((named(stratum), 500) for stratum in rare.product_strata())
    yield named(heavy()), 5_000
    yield named(rare.light()), 5_000
    yield named(rare.light_frame()), 5_000
