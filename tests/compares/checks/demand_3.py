"""Demand 3 on random accepted jobs of sites, of the Basin and with two pairs, in either unit, and what ties the storeys together."""

from tests.draws.basin import accepted_basin_jobs
from tests.draws.pairs import accepted_pair_jobs
from tests.draws.sample import accepted_jobs
from tests.model import exact, response
from tests.model.job import job

SEED, COUNT, BASIN, PAIRS = 20, 300, 200, 250
MILLIONTHS = 10**6
FEW_DIGITS = 2


def held(inputs, s):
    """True where no shear breaks demand 3; raises at the first that does."""
    result = job(*inputs, s=s)
    exact.check(result)
    exact.check(result, FEW_DIGITS)
    return True


def tied(inputs):
    """Shear under level 1, sum of forces, forces below none, moment as the sum of shears by storey."""
    result = job(*inputs)
    storeys = [high - low for high, low in zip(result.heights, [0] + result.heights)]
    moments = [sum(shear * height for shear, height in zip(result.shears[x:], storeys[x:]))
               for x in range(len(storeys))]
    return (result.shears[0] == result.V_D == sum(result.forces), min(result.forces) >= 0,
            result.moments == moments)


def checks():
    """Demand 3 on the sample."""
    jobs = (*accepted_jobs(SEED, COUNT), *accepted_basin_jobs(SEED, BASIN), *accepted_pair_jobs(SEED, PAIRS))
    for number, (name, *inputs) in enumerate(jobs):
        yield f'demand 3, job {number}, {name}', lambda inputs=inputs: held(inputs, response.UNIT), True
        yield f'demand 3 in 10^-6, job {number}, {name}', lambda inputs=inputs: held(inputs, MILLIONTHS), True
        yield f'storeys, job {number}, {name}', lambda inputs=inputs: tied(inputs), (True, True, True)
