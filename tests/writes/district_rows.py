"""Stored rows of districts (Wish 9): every refusal at every place, both sides of the limits of a stretch, 21 with every other refusal, the order."""

import itertools

from tests.draws import faults
from tests.model import limits
from tests.writes.refusal_cases import LOW_BITS, both_sides
from tests.writes.stored_calls import SITE
from tests.writes.stored_districts import FRAME, LARGEST, NO_SITE, THREE, case, in_basin, near_fault, on_site, short_store

GROUNDS = (on_site, in_basin)
# each number of a ground and of a frame, by a value that is refused
WRONG_SITE = [SITE._replace(**{name: allowed[0] - 1}) for name, allowed in zip(limits.Site._fields, faults.LIMITS['site'])]
WRONG_FRAME = [FRAME._replace(**change) for change in ({'R': 601}, {'I': 110}, {'alphay': 99}, {'kind': 0}, {'calculated_period': 60_001})]


def flag_cases():
    """Every flag of the Basin, and what is not looked at: a zone on a site, nine numbers in the Basin."""
    yield case([in_basin(0, 3, 2, site=site, flag=flag) for flag in (1, 2, 2**32, 2**63, LARGEST) for site in (SITE, NO_SITE)], *THREE)
    yield case([in_basin(0, 3, 2, site=limits.Site(*[LARGEST] * len(SITE))), *(on_site(0, 3, zone=zone) for zone in (0, 1, 5, LARGEST))], *THREE)


def number_cases():
    """5 to 12 and 18 at every place, by rows between rows that are taken; both sides of the zone."""
    wrong = [on_site(0, 3, site) for site in WRONG_SITE] + [make(0, 3, frame=frame) for make in GROUNDS for frame in WRONG_FRAME]
    wrong += [in_basin(0, 3, zone) for zone in (*both_sides(limits.ZONE), *(step + 1 for step in LOW_BITS))]
    yield case(list(itertools.chain(*((each, near_fault(1, 2)) for each in wrong)))[:-1], *THREE)
    yield case([make(0, 3, frame=limits.Frame(*[LARGEST] * len(FRAME))) for make in GROUNDS], *THREE)


def level_cases():
    """3 and 4 at the first level of a stretch, at one between and at the last, by one bad level of the store; stretches without it are taken."""
    weights, heights = [5] * 5, [10, 20, 30, 40, 50]
    stretches = [(2, 3), (1, 3), (0, 3), (3, 2), (0, 2), (2, 1), (0, 5)]
    for make, number in itertools.product(GROUNDS, (0, 20_001, LARGEST)):
        yield case([make(*stretch) for stretch in stretches], faults.put(weights, 2, number), heights)
    for make, number in itertools.product(GROUNDS, (0, 2_001, 20, 40, 50)):
        yield case([make(*stretch) for stretch in stretches], weights, faults.put(heights, 2, number))
    yield case([on_site(*stretch) for stretch in stretches], [5, 0, 5, 0, 5], [10, 10, 30, 30, 50])
    yield case([on_site(0, 2), on_site(2, 2), on_site(1, 2), on_site(4, 1)], weights, [1_000, 2_000, 1, 2, 1])


def count_cases():
    """No level at every place of a store; 49 to 52 levels from several starts, and all of a store of 60."""
    for make in GROUNDS:
        yield case([make(start, 0) for start in range(5)], *short_store(4))
        yield case([make(start, count) for start, count in ((0, 49), (3, 50), (10, 50), (0, 51), (9, 51), (2, 52), (0, 60), (59, 1))], *short_store(60))


def stretch_cases():
    """Every start with every count beside the ends of a store of two levels, on a site; of none, in the Basin; the same for one level of 50."""
    beside = (0, 1, 2, 3, 2**32 + 1, 2**63, 2**63 + 1, LARGEST - 1, LARGEST)
    yield case([on_site(*stretch) for stretch in itertools.product(beside, beside)], *short_store(2))
    yield case([in_basin(*stretch) for stretch in itertools.product((0, 1, LARGEST), repeat=2)], [], [])
    ends = ((49, 1), (50, 0), (50, 1), (51, 0), (0, 50), (0, 51), (1, 49), (1, 50), (49, LARGEST), (2, LARGEST), (2, LARGEST - 1), (2, LARGEST - 2))
    yield case([make(*stretch) for make in GROUNDS for stretch in ends], *short_store(50))


def outside_cases():
    """21 with every other refusal and nothing else wrong: what is left of the store has a bad weight or a bad height, or the job's count is of no
    level or over 50, or a number of its ground or frame is wrong."""
    for weights, heights in (([5, 5, 0], [10, 20, 30]), ([5, 5, 5], [10, 20, 20])):
        yield case([make(*stretch) for make in GROUNDS for stretch in ((2, 2), (1, 3))], weights, heights)
    jobs = [make(*stretch) for make in GROUNDS for stretch in ((4, 0), (LARGEST, 0), (0, 51))]
    jobs += [on_site(3, 1, site) for site in WRONG_SITE] + [in_basin(3, 1, 5)]
    yield case(jobs + [make(3, 1, frame=frame) for make in GROUNDS for frame in WRONG_FRAME], *THREE)


def order_cases():
    """A job with everything wrong, repaired one by one: on a site and in the Basin."""
    weights, heights = [5, 0, *[5] * 50], [0, 1, 1, 2, 0, 1, 2, *range(10, 55)]
    stretches = (52, 3), (0, 51), (1, 3), (4, 3)            # 21, 1, 3 and 4; of the levels from the eighth on none is bad
    site, frame = limits.Site(*[1] * (len(SITE) - 1), 0), limits.Frame(0, 60_001, 0, 0, 0)
    jobs = [on_site(*stretch, site, frame) for stretch in (*stretches, (7, 3))] + [in_basin(*stretch, 0, frame) for stretch in (*stretches, (7, 3))]
    for name in limits.Site._fields:
        site = site._replace(**{name: getattr(SITE, name)})
        jobs.append(on_site(7, 3, site, frame))
    for name in ('R', 'I', 'alphay', 'kind', 'calculated_period'):
        frame = frame._replace(**{name: getattr(FRAME, name)})
        jobs += [make(7, 3, frame=frame) for make in GROUNDS]
    yield case(jobs, weights, heights)


def row_cases():
    """All of them."""
    for part in (flag_cases, number_cases, level_cases, count_cases, stretch_cases, outside_cases, order_cases):
        yield from part()
