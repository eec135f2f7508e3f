"""Strata of the roots: R at which nothing is left beside the last digit, so that the upper root is the lower one, and R beside it.

These are the R whose root is a whole number of tenths: 1.00, 1.33, .., 5.32 of design on a site, 1.00, 1.22, .., 5.62 of MCE, 1.00, 1.21, ..,
5.76 of design in the Basin. T is from 0.2 T0 to 0.6 T0, where the reduction factor is the root itself.
"""

from math import ceil, floor

from tests.draws.plain_jobs import draw_basin
from tests.draws.roof import NAMED
from tests.draws.strata import Stratum, with_period
from tests.model import basin, limits, response
from tests.model.calls import made_by

SITE_SQUARES = {'design': response.design_capacity, 'mce': response.mce_capacity, 'star': response.design_capacity}
BASIN_SQUARES = {'design': basin.capacity, 'mce': response.mce_capacity, 'star': basin.capacity}


def exact(capacity):
    """Every R whose lower and upper root are the same."""
    return [R for R in limits.R_RANGE if response.lower_root(capacity(R)[1]) == response.upper_root(capacity(R)[1])]


def beside(Rs):
    """The nearest R to both sides."""
    return sorted({R + step for R in Rs for step in (-1, 1)} & {*limits.R_RANGE} - {*Rs})


def at_root(hazard, name, Rs):
    """One of these R, T from 0.2 to 0.6 T0 of the hazard."""
    def reach(inputs):
        """R by the drawn one, T by the drawn period."""
        R = Rs[inputs.frame.R % len(Rs)]
        A, B, _ = made_by(inputs.ground).hazard(hazard, inputs.ground, R)
        T0 = response.corner(A, B)
        least, most = ceil(T0 / 5), floor(3 * T0 / 5)
        T = least + inputs.frame.calculated_period % (most - least + 1)
        return with_period(inputs._replace(frame=inputs.frame._replace(R=R)), T)

    return Stratum(f'{hazard}: {name}', reach,
                   lambda job: job.frame.R in Rs and 1 <= 5 * job.T / getattr(job, hazard).T0 <= 3)


def root_strata(draw_ground):
    """The root exact, and R beside it, for each of the three shears."""
    for hazard, capacity in (BASIN_SQUARES if draw_ground is draw_basin else SITE_SQUARES).items():
        Rs = exact(capacity)
        yield NAMED[draw_ground](at_root(hazard, 'nothing left beside the root', Rs))
        yield NAMED[draw_ground](at_root(hazard, 'R beside such a one', beside(Rs)))
