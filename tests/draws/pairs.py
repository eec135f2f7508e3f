"""Strata of jobs on sites with two pairs of near-fault factors, one for the design level and one for the MCE level.

In every stratum the pairs differ in one factor or in both. S of a level is at a column of Table 2 by that level's own factor, and T is
beside a corner that no other pair gives.
"""

import itertools

from tests.draws import rare
from tests.draws.columns import column_strata
from tests.draws.plain_jobs import draw_pairs
from tests.draws.ratios import RATIOS, at_ratio, mark_strata
from tests.draws.sample import in_turn
from tests.draws.strata import CORNERS, SIDES, Stratum, at_corner, governed_by, with_levels, with_number
from tests.model import limits, response, site as sites

ORDER = {1: 'larger for design', 0: 'the same for both', -1: 'larger for MCE'}
SMALLEST = {'design': {'NAM': limits.N_A[0], 'NVM': limits.N_V[0]}, 'MCE': {'NA': limits.N_A[0], 'NV': limits.N_V[0]}}


def named(stratum):
    """A stratum of sites whose pairs differ."""
    return Stratum(f'two pairs: {stratum.name}', stratum.reach, lambda job: limits.of_two_pairs(job.ground) and stratum.holds(job))


def sign(number):
    """1 above 0, -1 below."""
    return (number > 0) - (number < 0)


def arranged(order, one, other):
    """Two factors as those of design and of MCE."""
    return {1: (max(one, other), min(one, other)), 0: (one, one), -1: (min(one, other), max(one, other))}[order]


def ordered(of_NA, of_NV):
    """N_A and N_V, each larger for design, the same for both, or larger for MCE."""
    def reach(inputs):
        """The factors as drawn, exchanged where they must be."""
        site = inputs.ground
        (NA, NAM), (NV, NVM) = arranged(of_NA, site.NA, site.NAM), arranged(of_NV, site.NV, site.NVM)
        return inputs._replace(ground=site._replace(NA=NA, NV=NV, NAM=NAM, NVM=NVM))

    def holds(job):
        """They are so."""
        return (sign(job.ground.NA - job.ground.NAM), sign(job.ground.NV - job.ground.NVM)) == (of_NA, of_NV)

    return Stratum(f'N_A {ORDER[of_NA]}, N_V {ORDER[of_NV]}', reach, holds)


def order_strata():
    """One pair larger in both factors, each factor larger at another level, and one factor alone different."""
    yield from (ordered(*each) for each in itertools.product(ORDER, repeat=2) if each != (0, 0))


def end_strata():
    """Each factor of each level at its ends, and one inside of them."""
    yield from (with_number('ground', name, value) for name, allowed in limits.FACTORS.items()
                for value in (allowed[0], allowed[1], allowed[-2], allowed[-1]))


def corners_by_others(hazard, site):
    """T0 of a hazard by each pair that is not its own; V* has none of its own."""
    S_S, S_1 = (site.SSM, site.S1M) if hazard == 'mce' else (site.SSD, site.S1D)
    pairs = {'design': (site.NA, site.NV), 'mce': (site.NAM, site.NVM)}
    return [response.corner(*sites.A_and_B(S_S, S_1, *pair, site.cls)) for level, pair in pairs.items() if level != hazard]


def at_own_corner(hazard, label, side):
    """T within 1 ms of a corner of a hazard that another pair would put elsewhere."""
    stratum = at_corner(hazard, label, side)
    return stratum._replace(holds=lambda job: getattr(job, hazard).T0 not in corners_by_others(hazard, job.ground) and stratum.holds(job))


def governed(name, order):
    """A shear that governs where one of the pairs is the larger in both factors."""
    of_both = ordered(order, order)
    stratum = governed_by(name)
    return Stratum(f'{stratum.name}, {of_both.name}', of_both.reach, lambda job: of_both.holds(job) and stratum.holds(job))


def alone(level):
    """Near-fault factors for one level, and none for the other."""
    return Stratum(f'near-fault factors for {level} alone',
                   lambda inputs: inputs._replace(ground=inputs.ground._replace(**SMALLEST[level])),
                   lambda job: all(getattr(job.ground, name) == value for name, value in SMALLEST[level].items()))


def other_strata():
    """R at its ends, every class, every kind of frame, one level and 50."""
    yield from (with_number('frame', 'R', R) for R in (limits.R_RANGE[0], limits.R_RANGE[-1]))
    yield from (with_number('ground', 'cls', cls) for cls in limits.CLASS)
    yield from (with_number('frame', 'kind', kind) for kind in limits.KIND)
    yield from (with_levels(count) for count in (limits.LEVELS[0], limits.LEVELS[-1]))


def plain_strata():
    """Every stratum that a plain draw meets, in a fixed order."""
    strata = [*order_strata(), *end_strata(), *column_strata()]
    strata += [at_own_corner(*each) for each in itertools.product(('design', 'mce', 'star'), CORNERS, SIDES)]
    strata += [governed(*each) for each in itertools.product(('V', 'V_M', 'V_star'), (1, -1))]
    strata += [at_ratio(*each, side) for each in RATIOS for side in SIDES]
    strata += [*map(alone, SMALLEST), *other_strata()]
    return [named(stratum) for stratum in strata]


def accepted_pair_jobs(seed, count):
    """Jobs with two pairs, the plain strata in turn."""
    return in_turn(seed, count, plain_strata(), draw_pairs)


def largest(level):
    """Every number at its largest and R = 1, but the factors of the other level at their smallest."""
    stratum, of_one = rare.largest(), alone(level)
    return Stratum(f'{stratum.name}, {of_one.name}', lambda inputs: of_one.reach(stratum.reach(inputs)),
                   lambda job: stratum.holds(job) and of_one.holds(job))


def pair_strata(each):
    """Each with how many jobs the comparison draws for it; `each` for the plain ones."""
    yield from ((stratum, each) for stratum in plain_strata())
    yield from ((named(rare.tied(names)), 100) for names in rare.TIES)
    yield from ((named(stratum), 50) for stratum in mark_strata())
    yield from ((named(largest(level)), 500) for level in SMALLEST)
    yield from ((named(stratum), 500) for stratum in rare.product_strata())
    yield named(rare.heavy()), 5_000
    yield named(rare.light()), 5_000
    yield named(rare.light_frame()), 5_000
