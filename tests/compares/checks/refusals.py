"""Refusals 1 to 12 and 18 of a job: both sides of every limit, places and order."""

from tests.model import limits

SITE = limits.one_pair(80, 45, 100, 55, 100, 100, 1)
FRAME = limits.Frame(2, 1000, 480, 100, 150)
HUGE = 999_999_999
BAD_SITE = [1] * 4 + [99] * 4 + [0]

SITE_LIMITS = (
    ('SSD', (50, 60, 70, 80), (0, 49, 51, 55, 79, 81, 90, 100, HUGE), (5, 1)),
    ('S1D', (30, 35, 40, 45), (0, 29, 31, 44, 46, 50, 55, HUGE), (5, 2)),
    ('SSM', (70, 80, 90, 100), (0, 50, 60, 69, 71, 99, 101, HUGE), (5, 3)),
    ('S1M', (40, 45, 50, 55), (0, 30, 35, 39, 41, 54, 56, HUGE), (5, 4)),
    ('NA', (100, 101, 149, 150), (0, 99, 151, 160, 200, HUGE), (6, 1)),
    ('NV', (100, 101, 151, 160, 199, 200), (0, 99, 201, HUGE), (6, 2)),
    ('NAM', (100, 101, 149, 150), (0, 99, 151, 160, 200, HUGE), (6, 3)),
    ('NVM', (100, 101, 151, 160, 199, 200), (0, 99, 201, HUGE), (6, 4)),
    ('cls', (1, 2, 3), (0, 4, HUGE), (7, 0)),
)
FRAME_LIMITS = (
    ('R', (100, 101, 599, 600), (0, 99, 601, HUGE), (8, 0)),
    ('I', (100, 125, 150), (0, 99, 101, 124, 126, 149, 151, HUGE), (9, 0)),
    ('alphay', (100, 101, 199, 200), (0, 99, 201, HUGE), (10, 0)),
    ('kind', (1, 2, 3, 4), (0, 5, HUGE), (11, 0)),
    ('calculated_period', (0, 1, 59_999, 60_000), (60_001, HUGE), (12, 0)),
)
ZONES = {**dict.fromkeys((1, 2, 3, 4)), **dict.fromkeys((0, 5, HUGE, 2**16 + 1, 2**32 + 1, 2**63 + 1, 2**64 - 1), (18, 0))}
TO_50, TO_51 = list(range(1, 51)), list(range(1, 52))
LISTS = (
    ([], [], (), (1, 0)), ([], [1, 2, 3], (), (1, 0)), ([], [], (0,), (1, 0)),
    ([1] * 51, TO_51, (), (1, 0)), ([1] * 51, [], (), (1, 0)), ([1] * 50, TO_50, (), None),
    ([1], [1], (), None), ([1] * 3, TO_51, (), (2, 0)), ([1, 1], [1], (), (2, 0)), ([1], [1, 2], (), (2, 0)),
    ([1], [], (), (2, 0)), ([1, 1], [1, 2], (2, 2, 2), None), ([1, 1], [1, 2], (9, 2, 60), None),
    ([1, 1], [1, 2], (1, 2, 2), (2, 0)), ([1, 1], [1, 2], (2, 1, 2), (2, 0)),
    ([1, 1], [1, 2], (2, 2, 0), (2, 0)), ([0], [1], (0,), (2, 0)), ([0], [1], (1,), (3, 1)),
    ([20_000], [1], (), None), ([20_001], [1], (), (3, 1)),
    ([0], [1], (), (3, 1)), ([1, 0, 0], [1, 2, 3], (), (3, 2)), ([1] * 8 + [HUGE], [0] * 9, (), (3, 9)),
    ([1], [0], (), (4, 1)), ([1], [2_000], (), None), ([1], [2_001], (), (4, 1)),
    ([1, 1], [1_999, 2_000], (), None), ([1, 1], [2_000, 2_001], (), (4, 2)), ([1, 1], [5, 5], (), (4, 2)),
    ([1, 1], [5, 6], (), None), ([1] * 3, [5, 4, 3], (), (4, 2)), ([1] * 3, [5, HUGE, 7], (), (4, 2)),
    ([1] * 3, [0, 4, 3], (), (4, 1)), ([1] * 3, [1, 3, 2], (), (4, 3)),
)


def judge(ground=SITE, frame=FRAME, weights=(1,), heights=(1,), buffer_lengths=()):
    """The refusal of a job that is good where nothing else is said."""
    return limits.judge(ground, frame, weights, heights, buffer_lengths)


def limits_of_numbers():
    """Each number of site and frame, and the zone: good values are accepted, bad ones refused at their place."""
    for field, good, bad, refusal in SITE_LIMITS:
        for value, wanted in [(value, None) for value in good] + [(value, refusal) for value in bad]:
            yield f'{field} {value}', lambda s=SITE._replace(**{field: value}): judge(ground=s), wanted
    for field, good, bad, refusal in FRAME_LIMITS:
        for value, wanted in [(value, None) for value in good] + [(value, refusal) for value in bad]:
            yield f'{field} {value}', lambda f=FRAME._replace(**{field: value}): judge(frame=f), wanted
            yield f'Basin, {field} {value}', lambda f=FRAME._replace(**{field: value}): judge(limits.Basin(1), f), wanted
    for zone, wanted in ZONES.items():
        yield f'zone {zone}', lambda zone=zone: judge(limits.Basin(zone)), wanted


def limits_of_lists():
    """Refusals 1 to 4 of weight list, height list and buffers; in the Basin with a wrong zone, which comes after them."""
    for *lists_and_buffers, wanted in LISTS:
        yield f'lists {lists_and_buffers}', lambda case=lists_and_buffers: judge(SITE, FRAME, *case), wanted
        yield f'Basin, lists {lists_and_buffers}', lambda case=lists_and_buffers: judge(limits.Basin(2), FRAME, *case), wanted
        yield (f'zone 5, lists {lists_and_buffers}', lambda case=lists_and_buffers: judge(limits.Basin(5), FRAME, *case),
               wanted or (18, 0))


def site_repairs():
    """What is refused of a site, and the site without it."""
    site = BAD_SITE
    for place, refusal in enumerate(((5, 1), (5, 2), (5, 3), (5, 4), (6, 1), (6, 2), (6, 3), (6, 4), (7, 0))):
        site = site[:place] + [SITE[place]] + site[place + 1:]
        yield refusal, 'ground', site


def order(ground, ground_repairs):
    """Order: "The lowest number that applies is given, at its lowest place", 18 "where 5 to 7 stand"; repaired one by one."""
    frame = [0, 60_001, 0, 0, 0]
    case = {'ground': ground, 'frame': frame, 'weights': [0] * 51, 'heights': [0] * 3, 'buffer_lengths': (1,)}
    repairs = [((1, 0), 'weights', [0, 0]), ((2, 0), 'heights', [0, 0]), ((2, 0), 'buffer_lengths', (2,)),
               ((3, 1), 'weights', [1, 0]), ((3, 2), 'weights', [1, 1]), ((4, 1), 'heights', [1, 1]),
               ((4, 2), 'heights', [1, 2]), *ground_repairs]
    for place, number in ((2, 8), (3, 9), (4, 10), (0, 11), (1, 12)):
        frame = frame[:place] + [FRAME[place]] + frame[place + 1:]
        repairs.append(((number, 0), 'frame', frame))
    for refusal, part, repaired in repairs:
        yield f'order from {ground}, {refusal}', lambda case=dict(case): judge(**case), refusal
        case[part] = repaired
    yield 'order, nothing left', lambda: judge(**case), None


def checks():
    """All refusals of a job."""
    yield from limits_of_numbers()
    yield from limits_of_lists()
    yield from order(BAD_SITE, site_repairs())
    yield from order(limits.Basin(0), [((18, 0), 'ground', limits.Basin(4))])
