"""Stored reports of districts (Wish 9): ties, edges of cells, every cell that a job can be in, large sums."""

import random

from tests.draws import district_jobs as one
from tests.model import limits
from tests.model.district import MOST_JOBS
from tests.writes.stored_districts import THREE, case, in_basin, in_turn, near_fault, on_site

SEED, EDGES, ENDS = 9, 6, 3


def laid(parts):
    """Jobs that have levels of their own, one after the other in the store."""
    jobs, weights, heights = [], [], []
    for part in parts:
        make = in_basin if isinstance(part.ground, limits.Basin) else on_site
        jobs.append(make(len(weights), len(part.weights), *(part.ground if make is in_basin else [part.ground]), part.frame))
        weights, heights = weights + part.weights, heights + part.heights
    return case(jobs, weights, heights)


def tie_cases():
    """Every tie."""
    rng = random.Random(SEED)
    yield from (laid([one.few_levels(one.tied(rng, name), 1) for _ in ties]) for name, ties in one.TIES.items())


def cell_cases():
    """V_D over W at the edges of cells, by a rounding and whatever the weight, and a newton below them; the largest and the smallest; a job in every
    cell that a job can be in."""
    rng = random.Random(SEED)
    yield laid([one.at_edge(rng, newtons) for newtons in (0, 1) for _ in range(EDGES)])
    yield laid([one.few_levels(one.at_exact_edge(rng), 1) for _ in range(EDGES)])
    yield laid([one.few_levels(draw_one(rng), 1) for draw_one in (one.largest, one.smallest) for _ in range(ENDS)])
    each = [one.in_cell(rng, cell) for cell in sorted(one.by_cell())]
    yield case([on_site(0, 1, part.ground, part.frame) for part in each], each[0].weights, each[0].heights)


def sum_cases():
    """Sums of V_D beyond 2^32, by five jobs and by 256; 256 jobs of which some are refused."""
    heavy = one.heavy(random.Random(SEED))
    job, lower = (on_site(0, count, heavy.ground, heavy.frame) for count in (50, 49))
    yield case([job, lower, job, job, job], heavy.weights, heavy.heights)
    yield in_turn([job, in_basin(0, 50)], MOST_JOBS, heavy.weights, heavy.heights)
    mixed = on_site(0, 3), in_basin(1, 2, 5), near_fault(0, 2), on_site(3, 1), in_basin(0, 3, 1), on_site(2, 1), on_site(1, 0)
    yield in_turn(mixed, MOST_JOBS, *THREE)


def report_cases():
    """All of them."""
    for part in (tie_cases, cell_cases, sum_cases):
        yield from part()
