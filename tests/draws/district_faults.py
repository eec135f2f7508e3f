"""Districts (Wish 9) gone through one by one: every stretch of a short store, every refusal at every level, 21 with every other refusal, and every
count of jobs, weights, heights and rows beside its limits."""

import itertools

from tests.draws import faults
from tests.draws.district_jobs import MOST_LEVELS
from tests.draws.stretches import LOW_BITS, MOST, District
from tests.model import limits
from tests.model.district import MOST_JOBS, DistrictJob

FRAME, SITE = limits.Frame(*faults.FRAME), faults.SITE
UNSEEN = limits.Site(*[0] * len(limits.Site._fields))
# jobs on a site and in the Basin whose stretch is still to be given
ON_SITE, IN_BASIN = DistrictJob(0, 0, SITE, FRAME, 0, 0), DistrictJob(1, 3, UNSEEN, FRAME, 0, 0)
GROUNDS = (ON_SITE, IN_BASIN)


def store(count):
    """So many levels, 3 dm apart."""
    return [5_000] * count, [3 * (level + 1) for level in range(count)]


def district_of(jobs, count, more_room=1):
    """A district of these jobs over a store of so many levels."""
    return District(jobs, *store(count), len(jobs) + more_room)


def beside(length):
    """Every place of a short store, the places beyond it, and numbers that are too large."""
    return [*range(length + 3), *(step + 1 for step in LOW_BITS), MOST - 1, MOST]


def stretches():
    """Every start with every count, of stores of none to three levels; 49 to 52 levels from every start that has so many."""
    for job, length in itertools.product(GROUNDS, range(4)):
        yield district_of([job._replace(start=start, count=count) for start, count in itertools.product(beside(length), beside(length))], length)
    for job in GROUNDS:
        counts = range(MOST_LEVELS - 1, MOST_LEVELS + 3)
        yield district_of([job._replace(start=start, count=count) for start in range(5) for count in counts], MOST_LEVELS + 3)


def bad_levels():
    """Weight and height on both sides of their limits at each of five levels, under stretches that have the level and that do not."""
    stretches_of_it = [(start, count) for start in range(5) for count in range(1, 6 - start)]
    for job, level in itertools.product(GROUNDS, range(5)):
        jobs = [job._replace(start=start, count=count) for start, count in stretches_of_it]
        good = district_of(jobs, 5)
        yield from (good._replace(weights=faults.put(good.weights, level, value)) for value in faults.beside(limits.WEIGHT))
        heights = {0, 1, 2_000, 2_001, MOST, *(3 * (level + step) + more for step in (0, 1, 2) for more in (-1, 0, 1))} - {-1}
        yield from (good._replace(heights=faults.put(good.heights, level, value)) for value in sorted(heights))


def bad_numbers():
    """Each number of ground and frame beside its limits, once with a stretch inside the store, once with one outside, once with no level."""
    for job in GROUNDS:
        ground = job.ground()
        changed = [job]
        for place, allowed in enumerate(faults.limits_of(ground)):
            for value in faults.beside(allowed):
                other = faults.put(ground, place, value)
                changed.append(job._replace(zone=other[0]) if job.basin else job._replace(site=limits.Site(*other)))
        for place, allowed in enumerate(faults.LIMITS['frame']):
            changed += [job._replace(frame=limits.Frame(*faults.put(FRAME, place, value))) for value in faults.beside(allowed)]
        for first in range(0, len(changed), MOST_JOBS // 4):
            some = changed[first:first + MOST_JOBS // 4]
            yield district_of([each._replace(start=start, count=count) for each in some for start, count in ((0, 2), (1, 2), (2, 0))], 2)


def unseen_numbers():
    """Each number that is not looked at put at others, and every flag."""
    for value in (0, 1, 2, 5, 80, 100, *(step + 1 for step in LOW_BITS), MOST):
        site = [IN_BASIN._replace(site=limits.Site(*faults.put(UNSEEN, place, value)), count=2) for place in range(len(UNSEEN))]
        yield district_of([ON_SITE._replace(zone=value, count=2), *site, IN_BASIN._replace(basin=value, site=SITE, count=2)], 2)


def lengths():
    """None to three jobs, weights and heights, and none to four rows; 255 to 258 jobs with rows beside them."""
    job = ON_SITE._replace(count=1)
    for jobs, weights, heights, room in itertools.product(range(4), range(4), range(4), range(5)):
        yield District([job] * jobs, store(weights)[0], store(heights)[1], room)
    for jobs, more_room, more in itertools.product(range(MOST_JOBS - 1, MOST_JOBS + 3), (-1, 0, 1), (0, 1)):
        yield District([job] * jobs, store(1)[0], store(1 + more)[1], jobs + more_room)


def systematic():
    """All of them."""
    for part in (stretches, bad_levels, bad_numbers, unseen_numbers, lengths):
        yield from part()
