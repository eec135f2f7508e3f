"""Strata of districts (Wish 9): name -> what draws one from a random generator.

Every refusal of a row is among rows that are taken, and 22 comes by each of its causes. Most districts have few jobs of few levels.
"""

import functools

from tests.draws import district_jobs as one, faults
from tests.draws.stretches import (FLAGS, LOW_BITS, MOST, STRETCHES, District, above_a_higher_one, across, any_number, around_50, entered, in_another_order,
                                   like_another, overlapping, same_job, same_stretch, several, sharing, side_by_side, with_bad_level, with_job,
                                   with_stretch)
from tests.model import district as districts, limits
from tests.model.district import DistrictJob

MOST_JOBS = districts.MOST_JOBS
PREFIX = 'district: '         # of a stratum's name


def among(rng, draw_one):
    """Such a job among sound ones, at any place."""
    parts = several(rng)
    parts.insert(rng.randint(0, len(parts)), draw_one(rng))
    return side_by_side(rng, parts, rng.choice((0, 0, 1, 3)))


def only(rng, draw_one):
    """Jobs that are all such ones."""
    return side_by_side(rng, [draw_one(rng) for _ in range(rng.randint(1, 5))], rng.choice((0, 1)))


def refused(rng):
    """A job that is refused, by any number."""
    return rng.choice(tuple(one.REFUSED.values()))(rng)


def in_turn(rng):
    """Refused and accepted jobs in turn."""
    first = rng.randrange(2)
    return side_by_side(rng, [(one.small, refused)[(number + first) % 2](rng) for number in range(rng.randint(2, 9))])


def every_refusal(rng):
    """A job for each refusal, in any order, with sound ones between them."""
    parts = [part for draw_one in one.REFUSED.values() for part in (draw_one(rng), one.small(rng))]
    district = side_by_side(rng, rng.sample(parts, len(parts)))
    return with_job(rng, district, like_another(rng, len(district.weights), 1))


def any_parts(rng, most):
    """Up to so many jobs, sound and refused, of any size now and then."""
    kinds = (one.small, one.small, one.small, refused, one.any_size, one.at_exact_edge, lambda rng: one.tied(rng, rng.choice(tuple(one.TIES))))
    return [rng.choice(kinds)(rng) for _ in range(rng.randint(1, most))]


def many(rng, count):
    """So many jobs, drawn from a few that stand in the store; each may name another's stretch."""
    district = side_by_side(rng, any_parts(rng, 9))
    stretches = [(job.start, job.count) for job in district.jobs]
    jobs = [job._replace(start=start, count=length) for job in district.jobs for start, length in rng.sample(stretches, min(2, len(stretches)))]
    return district._replace(jobs=[rng.choice(jobs) for _ in range(count)], room=count + rng.choice((0, 0, 1)))


def no_job(rng):
    """No job at all, with a store of any length, its levels good or bad, and any room."""
    levels = rng.randint(0, 4)
    return District([], [any_number(rng) for _ in range(levels)], [any_number(rng) for _ in range(levels)], rng.randint(0, 3))


def no_store(rng):
    """Jobs over a store of no level."""
    stretches = [rng.choice(((0, 0), (0, 1), (1, 0), (MOST, 0), (0, MOST), (MOST, 1))) for _ in range(rng.randint(1, 4))]
    return sharing(rng, stretches, [], [])


def unequal(rng):
    """A store whose lists are of unequal length, though every stretch may be in both of them; with no job too."""
    district = rng.choice((side_by_side(rng, several(rng)), no_job(rng)))
    part, more = rng.choice(('weights', 'heights')), rng.choice((1, 1, 3))
    listed = getattr(district, part)
    shorter = rng.choice((listed[:-1], [])) if listed else [1]
    return district._replace(**{part: rng.choice((shorter, [*listed, *[1_999] * more]))})


def too_few_rows(rng):
    """Fewer rows than jobs."""
    district = side_by_side(rng, several(rng))
    return district._replace(room=rng.choice((0, len(district.jobs) - 1, rng.randrange(len(district.jobs)))))


def whole_causes(rng):
    """Two or three causes of 22 at once."""
    causes = rng.sample((lambda each: each._replace(jobs=[each.jobs[0]] * (MOST_JOBS + 1)), lambda each: each._replace(heights=each.heights[1:]),
                         lambda each: each._replace(room=1)), rng.choice((2, 3)))
    return functools.reduce(lambda each, cause: cause(each), causes, side_by_side(rng, several(rng)))


def flags(rng):
    """One job, once for each flag, with other numbers where they are not looked at."""
    district = side_by_side(rng, [one.small(rng, one.draw_basin)])
    job = district.jobs[0]
    jobs = [job._replace(basin=flag, site=entered(rng, job.ground(), job.frame, 0, 0).site) for flag in FLAGS]
    site = one.small(rng, one.draw_site)
    jobs += [entered(rng, site.ground, site.frame, job.start, job.count)._replace(zone=zone) for zone in (0, 3, 5, MOST)]
    return district._replace(jobs=rng.sample(jobs, len(jobs)), room=len(jobs))


def wild_job(rng, district):
    """A job with one to all of its numbers put at anything."""
    numbers = list(rng.choice(district.jobs).numbers())
    for place in rng.sample(range(len(numbers)), rng.choice((1, 2, 4, len(numbers)))):
        numbers[place] = rng.choice((any_number(rng), numbers[place] + rng.choice(LOW_BITS))) % (MOST + 1)
    basin, zone, *rest = numbers
    nine = len(limits.Site._fields)
    return DistrictJob(basin, zone, limits.Site(*rest[:nine]), limits.Frame(*rest[nine:-2]), *rest[-2:])


def wild(rng):
    """Wild jobs among sound ones, over a store with a wild level now and then."""
    district = side_by_side(rng, several(rng))
    for _ in range(rng.randint(1, 4)):
        district = with_job(rng, district, wild_job(rng, district))
    if rng.random() < 0.5:
        part = rng.choice(('weights', 'heights'))
        listed = getattr(district, part)
        district = district._replace(**{part: faults.put(listed, rng.randrange(len(listed)), any_number(rng))})
    return district


def every_cell(rng):
    """A job in every cell that a job can be in, in any order."""
    cells = sorted(one.by_cell())
    return side_by_side(rng, [one.in_cell(rng, cell) for cell in rng.sample(cells, len(cells))])


def heavy(rng):
    """Jobs over one stretch of a million kN: the sum of V_D is beyond 2^32."""
    parts = [one.heavy(rng) for _ in range(rng.randint(4, 6))]
    jobs = [entered(rng, part.ground, part.frame, 0, len(parts[0].weights)) for part in parts]
    return District(jobs, parts[0].weights, parts[0].heights, len(jobs))


def any_district(rng):
    """A district from all of it: jobs side by side and over other stretches, sound and bad."""
    district = side_by_side(rng, any_parts(rng, rng.choice((1, 3, 6))), rng.choice((0, 0, 1, 2)))
    for _ in range(rng.choice((0, 0, 1, 2)) if len(district.weights) > 1 else 0):
        stretch = rng.choice(tuple(STRETCHES.values()))
        district = with_job(rng, district, like_another(rng, *stretch(rng, len(district.weights))))
    return district


ROWS = {
    **{f'refusal {name} among others': functools.partial(among, draw_one=draw_one) for name, draw_one in one.REFUSED.items()},
    **{f'stretch: {name}': functools.partial(with_stretch, stretch=stretch) for name, stretch in STRETCHES.items()},
    'refused and accepted in turn': in_turn, 'none is accepted': functools.partial(only, draw_one=refused),
    'all are accepted': functools.partial(only, draw_one=one.small), 'one job': lambda rng: side_by_side(rng, any_parts(rng, 1)),
    'of any number of levels': functools.partial(only, draw_one=one.any_size),
    'stretches overlap': overlapping, 'one stretch': same_stretch, 'one job several times': same_job, 'stretches in another order': in_another_order,
    'a stretch across two buildings': across, 'each building lower than the one before': above_a_higher_one, 'a bad level in the store': with_bad_level,
    'stretches of 49 to 60 levels': around_50, 'a store of no level': no_store, 'flags of the Basin': flags, 'any numbers': wild,
}
SHEARS = {
    **{f'{name} govern': functools.partial(among, draw_one=functools.partial(one.tied, name=name)) for name in one.TIES},
    'V_D over W at the edge of a cell': functools.partial(among, draw_one=one.at_edge),
    'V_D over W a newton below the edge of a cell': functools.partial(among, draw_one=functools.partial(one.at_edge, newtons_below=1)),
    'V_D over W at the edge of a cell, whatever the weight': functools.partial(only, draw_one=one.at_exact_edge),
    'the largest V_D over W': functools.partial(among, draw_one=one.largest), 'the smallest V_D over W': functools.partial(among, draw_one=one.smallest),
    'a sum of V_D beyond 2^32': heavy,
}
WHOLE = {'no job': no_job, '22: unequal lists': unequal, '22: too few rows': too_few_rows}
LARGE = {
    **{f'{count} jobs': functools.partial(many, count=count) for count in (MOST_JOBS - 1, MOST_JOBS, MOST_JOBS + 1, 2 * MOST_JOBS)},
    '22: several causes': whole_causes, 'every refusal': every_refusal, 'a job in every cell': every_cell,
}


def strata():
    """Every stratum, by its name."""
    return {PREFIX + name: draw_one for name, draw_one in (ROWS | SHEARS | WHOLE | LARGE).items()}
