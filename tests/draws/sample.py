"""Reproducible random jobs from a seed, stratum by stratum; run to see how many of each are hit.

usage: python3 -m tests.draws.sample [SEED [COUNT]]
"""

import random
import sys
from collections import Counter

from tests.draws.plain_jobs import draw, draw_site
from tests.draws.ratios import RATIOS, at_ratio
from tests.draws.strata import CORNERS, SIDES, Stratum, at_corner, governed_by, in_table, with_levels, with_number
from tests.model import limits, site as sites
from tests.model.job import job

SEED, COUNT = 1, 1_000
MOST_TRIES = 100_000


def corner_and_ratio_strata():
    """Both sides of each corner and of each threshold of the ratio, and the marks themselves."""
    yield from (at_corner(hazard, label, side)
                for hazard in ('design', 'mce', 'star') for label in CORNERS for side in SIDES)
    yield from (at_ratio(hazard, threshold, side) for hazard, threshold in RATIOS for side in SIDES)
    yield with_number('frame', 'R', 100)
    yield with_number('frame', 'R', 600)
    yield from (governed_by(name) for name in ('V', 'V_M', 'V_star'))


def site_strata():
    """S against the columns of Table 2; every class."""
    mapped = (('SSD', 'NA', sites.S_S_COLUMNS), ('S1D', 'NV', sites.S_1_COLUMNS),
              ('SSM', 'NAM', sites.S_S_COLUMNS), ('S1M', 'NVM', sites.S_1_COLUMNS))
    yield from (in_table(*each, place) for each in mapped for place in ('on', 'between', 'beyond'))
    yield from (with_number('ground', 'cls', cls) for cls in limits.CLASS)


def frame_strata():
    """Every kind and I; the ends of alpha-y; the period's cases."""
    yield from (with_number('frame', 'kind', kind) for kind in limits.KIND)
    yield from (with_number('frame', 'I', value) for value in limits.I_VALUES)
    yield from (with_number('frame', 'alphay', value) for value in (100, 200))
    yield from (with_number('frame', 'calculated_period', value) for value in (0, 1, 60_000))
    yield Stratum('T is the calculated period', lambda inputs: inputs,
                  lambda job: job.T == job.frame.calculated_period)
    yield Stratum('T is 14*t/10', lambda inputs: inputs, lambda job: job.T < job.frame.calculated_period)


def level_strata():
    """The ends of the count of levels, of weight and of the top height."""
    yield from (with_levels(count) for count in (1, 2, 49, 50))
    yield from (Stratum(f'every weight {weight}',
                        lambda inputs, weight=weight: inputs._replace(weights=[weight] * len(inputs.weights)),
                        lambda job, weight=weight: set(job.weights) == {weight}) for weight in (1, 20_000))
    yield Stratum('one level at 1 dm', lambda inputs: inputs._replace(weights=inputs.weights[:1], heights=[1]),
                  lambda job: job.heights == [1])
    yield Stratum('top at 2,000 dm', lambda inputs: inputs._replace(heights=inputs.heights[:-1] + [2_000]),
                  lambda job: job.heights[-1] == 2_000)


def all_strata():
    """Every stratum, in a fixed order."""
    return [*corner_and_ratio_strata(), *site_strata(), *frame_strata(), *level_strata()]


def draw_in(rng, stratum, draw_ground=draw_site):
    """Inputs that `job` accepts and that lie in the stratum."""
    for _ in range(MOST_TRIES):
        inputs = stratum.reach(draw(rng, draw_ground))
        if inputs is None:
            continue
        result = job(*inputs)
        if result[0] != 'refused' and stratum.holds(result):
            return inputs
    raise LookupError(f'not reached: {stratum.name}')


def in_turn(seed, count, strata, draw_ground):
    """Yield (stratum name, ground, frame, weights, heights) `count` times, the strata in turn."""
    rng = random.Random(seed)
    for number in range(count):
        stratum = strata[number % len(strata)]
        yield (stratum.name, *draw_in(rng, stratum, draw_ground))


def accepted_jobs(seed, count):
    """Jobs on sites with one pair of near-fault factors for both levels."""
    return in_turn(seed, count, all_strata(), draw_site)


def main(seed=SEED, count=COUNT):
    """Print, for each stratum, the jobs drawn for it and all jobs of the sample that lie in it."""
    strata = all_strata()
    drawn, hit = Counter(), Counter()
    for name, *inputs in accepted_jobs(seed, count):
        result = job(*inputs)
        drawn[name] += 1
        hit.update(stratum.name for stratum in strata if stratum.holds(result))
    for stratum in strata:
        print(f'{stratum.name:28} drawn {drawn[stratum.name]:5}  hit {hit[stratum.name]:5}')
    missed = [stratum.name for stratum in strata if not hit[stratum.name]]
    print(f'{count} jobs, {len(strata)} strata, {len(missed)} missed')
    return 1 if missed else 0


if __name__ == '__main__':
    sys.exit(main(*(int(word) for word in sys.argv[1:])))
