"""The finer unit (Wish 7): a light frame at neighbouring periods by hand in both units, and drawn jobs, whose figures are not larger in it.

The frame stands on a hard site, A = 0.8 g and T0 = 562.5 ms, R = 4.94: root^2 = 469/75. Below 0.2 T0 the ratio hardly moves with T.
"""

from tests.draws.basin import accepted_basin_jobs
from tests.draws.pairs import accepted_pair_jobs
from tests.draws.sample import accepted_jobs
from tests.model import limits
from tests.model.job import job

SEED, COUNT, BASIN, PAIRS = 70, 186, 95, 138
MILLIONTHS, TEN_MILLIONTHS = 10**6, 10**7
LIGHT = limits.one_pair(80, 45, 90, 50, 100, 100, 1), limits.Frame(4, 83, 494, 150, 100), [1_500, 1_500], [30, 60]
# unit, T: Sa, lower root, lower factor, q, m, V
LIGHT_FIGURES = {
    (MILLIONTHS, 83): (674_134, 2_500_666, 2_107_158, 319_926, 310_362, 997_593),
    (MILLIONTHS, 84): (678_400, 2_500_666, 2_120_497, 319_925, 310_361, 997_589),
    (TEN_MILLIONTHS, 83): (6_741_334, 25_006_665, 21_071_583, 3_199_254, 3_103_613, 997_590),
    (TEN_MILLIONTHS, 84): (6_784_000, 25_006_665, 21_204_976, 3_199_250, 3_103_610, 997_589),
}
MOST_RISE = 1       # of a force below the roof, which is a difference of two shears


def light(s, T):
    """The figures of V on the light frame, in a unit and at a period."""
    site, frame, *levels = LIGHT
    result = job(site, frame._replace(calculated_period=T), *levels, s=s)
    design = result.design
    return design.spectrum, design.lower_root, design.lower_factor, result.q, result.m, result.V


def larger(inputs):
    """What is larger in ten-millionths than in millionths, and forces that are larger by more than a newton."""
    now, before = (job(*inputs, s=s) for s in (TEN_MILLIONTHS, MILLIONTHS))
    found = [name for name in ('V', 'V_M', 'V_star', 'V_D') if getattr(now, name) > getattr(before, name)]
    found += [name for name in ('shears', 'moments') if any(one > other for one, other in zip(getattr(now, name), getattr(before, name)))]
    return found + [f'force {place}' for place, (one, other) in enumerate(zip(now.forces, before.forces)) if one - other > MOST_RISE]


def checks():
    """The light frame, and jobs of every stratum on sites, in the Basin and with two pairs."""
    for (s, T), wanted in LIGHT_FIGURES.items():
        yield f'light frame at {T} ms, unit 1/{s}', lambda s=s, T=T: light(s, T), wanted
    jobs = (*accepted_jobs(SEED, COUNT), *accepted_basin_jobs(SEED, BASIN), *accepted_pair_jobs(SEED, PAIRS))
    for number, (name, *inputs) in enumerate(jobs):
        yield f'larger in the finer unit, job {number}, {name}', lambda inputs=inputs: larger(inputs), []
