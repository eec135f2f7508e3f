"""Which way the figures move (Wish 14): moves of every stratum, what is said of them, and that they are of the stratum."""

import random

from tests.compares.compare_moves import modelled, moved
from tests.draws import larger_r, moves as drawn
from tests.draws.calls import ShearInputs
from tests.draws.strata import CORNERS
from tests.model import calls
from tests.model.job import job

SEED, EACH = 140, 6


def first_line(result):
    """p is on its first line."""
    return 10 * result.star.spectrum <= 3 * result.star.upper_factor


def tied(result):
    """V and V* are equal and govern."""
    return result.V == result.V_star == result.V_D


# what the results before and after are in a stratum, by the end of its name
LIES = {
    'V* on the second line of p': lambda before, after: not first_line(before) and not first_line(after),
    'V* on the first line of p': lambda before, after: first_line(before) and first_line(after),
    'V* from the second line of p to the first': lambda before, after: not first_line(before) and first_line(after),
    'from the last R with which V* rises': lambda before, after: before.p < after.p,
    'V* governs before': lambda before, after: before.V_star == before.V_D,
    'another governs before, V* after': lambda before, after: max(before.V, before.V_M) == before.V_D and after.V_star == after.V_D,
    'V_M governs before': lambda before, after: before.V_M == before.V_D,
    larger_r.TIED: lambda before, after: tied(before) or tied(after),
    **{f'T {branch} T0 of V*': lambda before, after, low=low, high=high: low * before.star.T0 <= before.T <= high * before.star.T0
       for branch, (low, high) in larger_r.BRANCHES.items()},
    **{f'T at {label} T0 of V* or beside it': lambda before, after, part=part: abs(before.T - part * before.star.T0) <= 1
       for label, part in CORNERS.items()},
    '1 kN in all': lambda before, after: before.W == 1, 'to a million kN': lambda before, after: after.W == 1_000_000,
}


def result_of(inputs):
    """The model's result of a job or of a shear call."""
    return calls.shear_call(*inputs) if isinstance(inputs, ShearInputs) else job(*inputs)


def checks():
    """Moves of every stratum: both taken, at one T, the figures as they must, and that it is the stratum."""
    rng = random.Random(SEED)
    for kind in drawn.GROUNDS:
        for name, one in drawn.strata(kind):
            lies = LIES.get(name.rpartition(': ')[2], lambda before, after: True)
            for _ in range(EACH if not name.endswith(drawn.TIED) else 1):
                change, *both = one(rng)
                def of_them(change=change, both=both, lies=lies):
                    """What is said of these."""
                    return moved(change, [modelled(inputs) for inputs in both]), lies(*map(result_of, both))
                yield f'{name} {both}', of_them, ((True, True, True), True)
