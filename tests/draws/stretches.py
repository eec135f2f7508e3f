"""Districts (Wish 9) made of jobs: laid side by side in a store, or naming stretches of it that overlap, end where it ends, or lie outside."""

from typing import NamedTuple

from tests.draws.district_jobs import bad_height, bad_weight, small
from tests.draws.plain_jobs import draw_heights
from tests.model import limits
from tests.model.district import DistrictJob

MOST = 2**64 - 1
FLAGS = (1, 2, 2**32, 2**63, MOST)              # of a job in the Basin
LOW_BITS = (2**16, 2**32, 2**63)
NUMBERS = len(limits.Site._fields)


class District(NamedTuple):
    """The inputs of a district call: jobs, the two lists of the store, and for how many rows there is room."""

    jobs: list
    weights: list
    heights: list
    room: int


def any_number(rng):
    """A number of any size."""
    return rng.randrange(2**rng.randrange(65))


def unseen_site(rng):
    """Nine numbers that are not looked at: none, those of a site, or any."""
    return limits.Site(*rng.choice(([0] * NUMBERS, (80, 45, 100, 55, 120, 150, 110, 130, 1), [any_number(rng) for _ in range(NUMBERS)])))


def entered(rng, ground, frame, start, count):
    """A job as it is handed in; what is not looked at may be anything."""
    if isinstance(ground, limits.Basin):
        return DistrictJob(rng.choice(FLAGS), ground.zone, unseen_site(rng), limits.Frame(*frame), start, count)
    return DistrictJob(0, rng.choice((0, 1, 4, 5, any_number(rng))), limits.Site(*ground), limits.Frame(*frame), start, count)


def side_by_side(rng, parts, more_room=0):
    """A district of jobs that have levels of their own, one after the other in the store."""
    jobs, weights, heights = [], [], []
    for part in parts:
        jobs.append(entered(rng, part.ground, part.frame, len(weights), len(part.weights)))
        weights, heights = weights + part.weights, heights + part.heights
    return District(jobs, weights, heights, len(jobs) + more_room)


def several(rng):
    """Two to five sound jobs."""
    return [small(rng) for _ in range(rng.randint(2, 5))]


def with_job(rng, district, job):
    """A district with one more job, anywhere among the others, and room for it."""
    place = rng.randint(0, len(district.jobs))
    return district._replace(jobs=[*district.jobs[:place], job, *district.jobs[place:]], room=district.room + 1)


def like_another(rng, start, count):
    """A sound job but for its stretch."""
    inputs = small(rng)
    return entered(rng, inputs.ground, inputs.frame, start, count)


def made_bad(rng, job, length):
    """A job that is refused in the place of one over a store of so many levels: by its stretch, its ground or its frame."""
    return rng.choice((job._replace(start=length + 1), job._replace(start=length, count=1), job._replace(start=0, count=length + 1),
                       job._replace(count=0), job._replace(count=MOST), job._replace(zone=0, site=job.site._replace(cls=0)),
                       job._replace(frame=job.frame._replace(R=0)), job._replace(frame=job.frame._replace(calculated_period=MOST))))


def sharing(rng, stretches, weights, heights):
    """Sound jobs over stretches of one store."""
    jobs = [like_another(rng, *stretch) for stretch in stretches]
    return District(jobs, weights, heights, len(jobs) + rng.choice((0, 0, 2)))


def tall(rng, count):
    """The levels of one tall building."""
    return [rng.randint(1, rng.choice((3, 20_000))) for _ in range(count)], draw_heights(rng, count)


def part_of(rng, length):
    """Any stretch inside so many levels, of a level at least."""
    start = rng.randrange(length)
    return start, rng.randint(1, length - start)


def overlapping(rng):
    """Stretches of one building that overlap."""
    weights, heights = tall(rng, rng.randint(2, 12))
    return sharing(rng, [part_of(rng, len(weights)) for _ in range(rng.randint(2, 6))], weights, heights)


def same_stretch(rng):
    """Different jobs over one stretch."""
    weights, heights = tall(rng, rng.randint(1, 8))
    return sharing(rng, [part_of(rng, len(weights))] * rng.randint(2, 6), weights, heights)


def same_job(rng):
    """One job several times."""
    district = side_by_side(rng, [small(rng)])
    count = rng.randint(2, 9)
    return district._replace(jobs=district.jobs * count, room=count)


def in_another_order(rng):
    """Jobs that name the store's stretches in another order."""
    district = side_by_side(rng, several(rng))
    return district._replace(jobs=rng.sample(district.jobs, len(district.jobs)))


def across(rng):
    """A stretch over the end of one building and the beginning of the next, whose heights mostly do not rise."""
    district = side_by_side(rng, several(rng))
    border = rng.choice(district.jobs[1:]).start
    start = rng.randint(max(border - 2, 0), border - 1)
    return with_job(rng, district, like_another(rng, start, rng.randint(border - start + 1, len(district.weights) - start)))


def above_a_higher_one(rng):
    """Buildings each lower than the one before it in the store: a stretch is judged by its own levels."""
    parts = sorted(several(rng), key=lambda part: -part.heights[-1])
    return side_by_side(rng, parts)


def with_bad_level(rng):
    """One bad level in a store that overlapping stretches share: the jobs that do not have it are taken."""
    district = overlapping(rng)
    bad, level = rng.choice((bad_weight, bad_height))(rng), rng.randrange(len(district.weights))
    weights, heights = list(district.weights), list(district.heights)
    weights[level], heights[level] = bad.weights[0], bad.heights[0]
    return district._replace(weights=weights, heights=heights)


def around_50(rng):
    """Stretches of 49, 50, 51 and 60 levels of one store of 60 or more."""
    length = rng.choice((60, 61, 100))
    counts = rng.sample((1, 49, 50, 51, 52, 60), rng.randint(1, 4))
    stretches = [(rng.randint(0, length - count), count) for count in counts]
    return sharing(rng, stretches, *tall(rng, length))


def inside(rng, length):
    """A place inside a store, or at its end."""
    return rng.randint(0, length)


# stretches of a store of so many levels, at least two: the first and the last that lie inside, those that do not, and sums beyond 2^64
STRETCHES = {
    'no level': lambda rng, n: (inside(rng, n - 1), 0), 'no level at the end': lambda rng, n: (n, 0), 'no level beyond the end': lambda rng, n: (n + 1, 0),
    'a level at the end': lambda rng, n: (n, 1), 'the last level': lambda rng, n: (n - 1, 1), 'a level more than all': lambda rng, n: (0, n + 1),
    'all that is left': lambda rng, n: ((start := inside(rng, n - 1)), n - start),
    'a level more than is left': lambda rng, n: ((start := inside(rng, n)), n - start + 1),
    **{f'the largest start, {words}': lambda rng, n, count=count: (MOST, count) for words, count in
       (('no level', 0), ('a level', 1), ('two levels', 2), ('the largest count', MOST))},
    'the largest count': lambda rng, n: (inside(rng, n), MOST),
    'the largest count but one': lambda rng, n: (inside(rng, n), MOST - 1),
    '2^64 together': lambda rng, n: ((start := rng.randint(1, n)), MOST + 1 - start),
    'a sum that wraps into the store': lambda rng, n: (MOST - (start := inside(rng, 9)), start + 1 + inside(rng, n)),
    'a count that wraps into the store': lambda rng, n: ((start := rng.randint(2, n)), MOST + 1 - start + rng.randrange(start)),
    'half of 2^64 each': lambda rng, n: (2**63, 2**63 + inside(rng, n)),
    'a start whose low bits are inside': lambda rng, n: (inside(rng, n - 1) + rng.choice(LOW_BITS), 1),
    'a count whose low bits are inside': lambda rng, n: (0, rng.randint(1, n) + rng.choice(LOW_BITS)),
}


def with_stretch(rng, stretch):
    """Sound jobs, and one or two whose stretch is such a one."""
    district = side_by_side(rng, several(rng))
    for _ in range(rng.choice((1, 1, 2))):
        district = with_job(rng, district, like_another(rng, *stretch(rng, len(district.weights))))
    return district
