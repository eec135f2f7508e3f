"""The sheets that have one or two refusals and no other among those of the program `run_sheets`, on a site by nine numbers and in the Basin;
and both sides of every limit."""

import itertools

from tests.model import limits, sheet
from tests.writes.refusal_cases import both_sides

SITE, BASIN = limits.Site(80, 45, 100, 55, 120, 150, 110, 130, 1), limits.Basin(3)
FRAME = limits.Frame(2, 1000, 480, 100, 150)
PLAIN = {'count': 3, 'level': 2, 'weight': None, 'height': None, 'after': b''}
LAID_OUT = 300          # so many level lines are more than 4,096 bytes
RANGES = dict(zip(limits.Site._fields, (limits.S_S_DESIGN, limits.S_1_DESIGN, limits.S_S_MCE, limits.S_1_MCE, *limits.FACTORS.values(),
                                        limits.CLASS)))
FRAME_RANGES = dict(zip(limits.Frame._fields, (limits.KIND, limits.CALCULATED_PERIOD, limits.R_RANGE, limits.I_VALUES, limits.ALPHA_Y)))

# what is refused with each number, by what is changed; 5 and 6 at each of their places
LONG, LONG_LINE = {'count': LAID_OUT}, {'after': b'x' * sheet.MOST_BYTES + b'\n'}
LISTED = {'16': {'after': b'level\t1\n'}, 'no_level': {'count': 0}, '51_levels': {'count': 51}}
LEVEL = {'3': {'weight': 0}, '4': {'height': 0}}
ON_SITE = {'5_at_1': {'SSD': 49}, '5_at_2': {'S1D': 46}, '5_at_3': {'SSM': 60}, '5_at_4': {'S1M': 41}, '6_at_1': {'NA': 151}, '6_at_2': {'NV': 99},
           '6_at_3': {'NAM': 99}, '6_at_4': {'NVM': 201}, '7': {'cls': 4}}
IN_BASIN = {'18': {'zone': 5}}
OF_FRAME = {'8': {'R': 99}, '9': {'I': 110}, '10': {'alphay': 201}, '11': {'kind': 0}, '12': {'calculated_period': 60_001}}
GROUNDS = {'site': (SITE, RANGES, LEVEL | ON_SITE | OF_FRAME), 'basin': (BASIN, {'zone': limits.ZONE}, LEVEL | IN_BASIN | OF_FRAME)}


def written(ground, changes):
    """A sheet on a ground with some of its numbers changed: so many levels of 5,000 kN, 1 dm apart from 1,001 dm up, one of them with a weight
    or a height of its own, and what stands after them."""
    numbers = ground._asdict() | FRAME._asdict() | PLAIN | changes
    weights, heights = [5_000] * numbers['count'], [1_001 + level for level in range(numbers['count'])]
    for listed, value in ((weights, numbers['weight']), (heights, numbers['height'])):
        if value is not None:
            listed[numbers['level'] - 1] = value
    ground, frame = (type(part)(*(numbers[name] for name in part._fields)) for part in (ground, FRAME))
    return sheet.write(ground, frame, weights, heights, in_full=True) + numbers['after']


def two_refusals(ground, judged):
    """Each refusal that can stand on a sheet with each other one; a bad weight and a bad height at two levels. A sheet that is too long has a line
    that is not as laid out or more than 50 levels."""
    for (one, first), (other, second) in itertools.combinations((LISTED | judged).items(), 2):
        if 'no_level' not in (one, other) or other not in ('51_levels', *LEVEL):
            yield f'{one}_and_{other}', written(ground, first | second)
    yield from ((f'17_and_{name}', written(ground, LONG | change)) for name, change in ({'51_levels': {}} | judged).items())
    yield '3_and_3', sheet.write(ground, FRAME, [5_000, 0, 20_001], [100, 200, 300], in_full=True)
    yield '4_and_4', sheet.write(ground, FRAME, [5_000] * 4, [100, 0, 300, 300], in_full=True)
    yield from ((f'17_and_{name}', written(ground, LONG_LINE | change)) for name, change in {'16': {}, 'no_level': LISTED['no_level']}.items())


def beside_limits(ground, ranges):
    """Each number on both sides of each of its limits, with all else right, and so the count of levels and of bytes; weight and height at the
    first, second and last of 50 levels."""
    for name, allowed in (ranges | FRAME_RANGES).items():
        yield from ((f'{name}_{value}', written(ground, {name: value})) for value in both_sides(allowed)[:-1])
    yield from ((f'levels_{count}', written(ground, {'count': count})) for count in (0, 1, 50, 51))
    for level in (1, 2, 50):
        at = {'count': 50, 'level': level}
        yield from ((f'weight_{level}_{value}', written(ground, at | {'weight': value})) for value in both_sides(limits.WEIGHT)[:-1])
        heights = (0, 1, 1_000 + level - 1, 1_000 + level + 1, 2_000, 2_001)
        yield from ((f'height_{level}_{value}', written(ground, at | {'height': value})) for value in heights)
    whole = len(written(ground, {}))
    for length in (sheet.MOST_BYTES, sheet.MOST_BYTES + 1):
        yield f'bytes_{length}', written(ground, {'after': b'x' * (length - whole - 1) + b'\n'})


def refusal_sheets():
    """All of them."""
    for name, (ground, ranges, judged) in GROUNDS.items():
        yield from ((f'two_{name}_{each}', data) for each, data in two_refusals(ground, judged))
        yield from ((f'beside_{name}_{each.lower()}', data) for each, data in beside_limits(ground, ranges))
