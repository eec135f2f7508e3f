"""Jobs that are to show a wrong idea, as calls: of a kind of ground, sound and bad by turns, and of strata that each kind of ground has."""

from tests.draws.plain_jobs import draw, draw_basin, draw_pairs, draw_site, lengths
from tests.draws.sample import draw_in


def mixed_calls(rng, count, draw_ground, bad_call):
    """Jobs of a kind of ground, every second one bad."""
    for number in range(count):
        if number % 2:
            yield bad_call(rng)
            continue
        ground, frame, weights, heights = draw(rng, draw_ground)
        yield ground, frame, weights, heights, lengths(rng, weights)


def calls_in(rng, count, strata_of):
    """Jobs of strata that each kind of ground has, in turn."""
    strata = [(stratum, draw_ground) for draw_ground in (draw_site, draw_basin, draw_pairs) for stratum in strata_of(draw_ground)]
    for number in range(count):
        inputs = draw_in(rng, *strata[number % len(strata)])
        yield (*inputs, lengths(rng, inputs.weights))
