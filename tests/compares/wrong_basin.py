"""Wrong ideas of the Taipei Basin, as changes of the model, and the jobs that are to show them."""

from tests.compares.drawn_calls import mixed_calls
from tests.draws import faults
from tests.draws.plain_jobs import draw_basin
from tests.model import basin as basins, limits, response, site as sites


def mce_of_the_next_zone(basin):
    """The corner of another zone for MCE."""
    return basins.A_and_B(basins.S_MS, basin.zone % len(basins.TABLE_4) + 1)


def zone_by_number(ground, frame, weights, heights, buffer_lengths):
    """18 judged after 8 to 12, by its number."""
    yield from limits.level_refusals(weights, heights, buffer_lengths)
    yield from limits.frame_refusals(limits.Frame(*frame))
    yield from limits.ground_refusals(ground)


ERRORS = {
    '1.5 kept in R_a': [(basins, 'capacity', response.design_capacity)],
    '4.2 kept in V*': [(basins, 'V_STAR', sites.V_STAR)],
    'the corner of another zone for MCE': [(basins, 'mce', mce_of_the_next_zone)],
    '18 judged after 8': [(limits, 'refusals', zone_by_number)],
}


def drawn(rng, count):
    """Jobs of the Basin."""
    return mixed_calls(rng, count, draw_basin, lambda rng: faults.random_call(rng, draw_basin))
