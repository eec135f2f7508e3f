"""Writes the cases of the program `run_refusals` and what the model says of them.

usage: python3 -m tests.writes.refusal_cases        rewrites crates/run_refusals/stdin and crates/run_refusals/stdout
"""

import itertools
import pathlib

from tests.model import limits

HERE = pathlib.Path(__file__).resolve().parents[2] / 'crates' / 'run_refusals'
MAPPED = ('S_S D', 'S_1 D', 'S_S M', 'S_1 M')
SITE = (*MAPPED, 'N_A', 'N_V', 'N_A M', 'N_V M', 'class')
FRAME = ('kind', 'period', 'R', 'I', 'alpha-y')
NAMES = (*SITE, *FRAME, 'weights', 'heights', 'room', 'ground', 'zone')
FIELD = {name: place for place, name in enumerate(NAMES)}
WEIGHTS, HEIGHTS, LISTED, FIELDS, NONE = 20, 80, 51, 140, 999
MOST = 2**64 - 1
SITE_GROUND, BASIN_GROUND = 0, 1
GOOD = {**dict(enumerate((80, 45, 100, 55, 100, 100, 100, 100, 1, 2, 1000, 480, 100, 150, 5, 5, 5, SITE_GROUND, 1))),
        **{WEIGHTS + i: 5000 for i in range(LISTED)}, **{HEIGHTS + i: 38 * (i + 1) for i in range(LISTED)}}


def both_sides(allowed):
    """Each end of each run of allowed numbers, and the number beyond it."""
    among = set(allowed)
    values = {value + step for value in allowed for step in (-1, 0, 1)}
    near = {value: {value - 1, value, value + 1} for value in values}
    ends = {value for value in values if not near[value] <= among and not near[value].isdisjoint(among)}
    return sorted(value for value in ends if value >= 0) + [MOST]


SITE_RANGES = {**dict(zip(MAPPED, (limits.S_S_DESIGN, limits.S_1_DESIGN, limits.S_S_MCE, limits.S_1_MCE))),
               'N_A': limits.N_A, 'N_V': limits.N_V, 'class': limits.CLASS}
PAIR_RANGES = {'N_A M': limits.N_A, 'N_V M': limits.N_V}
FRAME_RANGES = dict(zip(FRAME, (limits.KIND, limits.CALCULATED_PERIOD, limits.R_RANGE, limits.I_VALUES, limits.ALPHA_Y)))


def number_cases():
    """Both sides of every limit of a site line of seven numbers and of the frame line."""
    for name, allowed in {**SITE_RANGES, **FRAME_RANGES}.items():
        yield from ([(FIELD[name], value)] for value in both_sides(allowed))
    yield from ([(FIELD['period'], value)] for value in (1, 2))


def levels(count):
    """So many weights and heights, and room for them."""
    return [(FIELD['weights'], count), (FIELD['heights'], count), (FIELD['room'], count)]


def level_cases():
    """Counts, lengths and room; both sides of weight and height at the first, a middle and the last level of 1 and of 50."""
    yield from (levels(count) for count in (0, 1, 2, 49, 50, 51))
    yield from ([(FIELD[name], value)] for name in ('weights', 'heights', 'room') for value in (0, 4, 5, 6, 51))
    yield [(FIELD['weights'], 0), (FIELD['heights'], 3)]
    yield [(FIELD['weights'], 3), (FIELD['heights'], 51)]
    yield [(FIELD['weights'], 0), (FIELD['heights'], 0), (FIELD['room'], 0)]
    yield [(FIELD['room'], MOST)]
    for level in (0, 2, 4):
        yield from ([(WEIGHTS + level, value)] for value in both_sides(limits.WEIGHT))
        yield from ([(HEIGHTS + level, value)] for value in both_sides(limits.HEIGHT))
        beside = {38 * level, 38 * level + 1, 38 * (level + 2) - 1, 38 * (level + 2)}
        yield from ([(HEIGHTS + level, value)] for value in sorted(beside))
    for level in (0, 24, 49):
        yield from (levels(50) + [(WEIGHTS + level, value)] for value in (0, 1, 20_000, 20_001))
        yield from (levels(50) + [(HEIGHTS + level, value)] for value in (0, 38 * level, 38 * level + 1, 2_001))
    yield from ([(base, 0), (base + 3, 0)] for base in (WEIGHTS, HEIGHTS))
    yield [(WEIGHTS + 4, 0), (HEIGHTS, 0)]
    yield [(HEIGHTS + 2, 3_000), (HEIGHTS + 3, 100)]


WRONG = {1: (FIELD['weights'], 0), 2: (FIELD['room'], 1), 3: (WEIGHTS + 1, 0), 4: (HEIGHTS + 1, 0), 5: (FIELD['S_1 M'], 41),
         6: (FIELD['N_V'], 201), 7: (FIELD['class'], 4), 8: (FIELD['R'], 601), 9: (FIELD['I'], 110),
         10: (FIELD['alpha-y'], 99), 11: (FIELD['kind'], 0), 12: (FIELD['period'], 60_001)}


def pair_cases():
    """Every ordered pair of refusals 1 to 12 at once, each by one change: the one that comes first is given. 1 is no weight, so that the lists
    are unequal and no weight is bad. 5 and 6 at two places."""
    yield from ([WRONG[first], WRONG[second]] for first in WRONG for second in WRONG if first != second)
    yield from ([(FIELD[a], 0), (FIELD[b], 0)] for a, b in zip(MAPPED, MAPPED[1:]))
    yield [(FIELD['N_A'], 99), (FIELD['N_V'], 99)]


BASIN = (FIELD['ground'], BASIN_GROUND)
WRONG_ZONE = (FIELD['zone'], 5)


def basin_cases():
    """The job in the Basin: both sides of the zone and of every number of the frame, counts and room, every ordered pair of refusals, each by
    one change. A site's numbers play no part there, nor a zone on a site."""
    yield from ([BASIN, (FIELD['zone'], value)] for value in (*both_sides(limits.ZONE), 2**16 + 1, 2**32 + 1, 2**63 + 1))
    for name, allowed in FRAME_RANGES.items():
        yield from ([BASIN, (FIELD[name], value)] for value in both_sides(allowed))
    yield from ([BASIN, (FIELD[name], 0)] for name in SITE_RANGES)
    yield from ([(FIELD['zone'], value)] for value in (0, 5, MOST))
    yield from ([BASIN] + levels(count) for count in (0, 1, 50, 51))
    yield from ([BASIN, (FIELD[name], value)] for name in ('weights', 'heights', 'room') for value in (0, 4, 6))
    yield from ([BASIN, (base + level, value)] for base in (WEIGHTS, HEIGHTS) for level in (0, 4) for value in (0, 20_001))
    wrong = {number: change for number, change in WRONG.items() if number not in (5, 6, 7)} | {18: WRONG_ZONE}
    yield from ([BASIN, wrong[first], wrong[second]] for first in wrong for second in wrong if first != second)
    yield from ([BASIN, WRONG_ZONE, WRONG[number]] for number in (5, 6, 7))


FACTOR_RANGES = {'N_A': limits.N_A, 'N_V': limits.N_V, **PAIR_RANGES}
LOW_BITS = (2**16, 2**32, 2**63)


def two_pair_cases():
    """The near-fault factors of MCE: both sides of their limits, every two of the four factors at once, each with every other refusal. In
    the Basin they play no part."""
    for name, allowed in PAIR_RANGES.items():
        yield from ([(FIELD[name], value)] for value in (0, *both_sides(allowed), *(allowed[0] + step for step in LOW_BITS)))
    design, mce = (FIELD['N_A'], FIELD['N_V']), (FIELD['N_A M'], FIELD['N_V M'])
    for largest, same in ((design, mce), (mce, design)):
        yield from (sorted((*zip(largest, (150, 200)), *((field, value) for field in same))) for value in (99, 100, 150, 151))
    for one, other in itertools.permutations(FACTOR_RANGES, 2):
        yield [(FIELD[one], FACTOR_RANGES[one][-1] + 1), (FIELD[other], 99)]
    yield from ([(FIELD[name], 99) for name in FACTOR_RANGES if name != left_out] for left_out in FACTOR_RANGES)
    yield [(FIELD[name], 99) for name in FACTOR_RANGES]
    for name in PAIR_RANGES:
        yield from ([(FIELD[name], 99), wrong] for number, wrong in WRONG.items() if number != 6)
        yield from ([(FIELD[each], 0), (FIELD[name], 99)] for each in MAPPED)
        yield [(FIELD[name], 99), WRONG[5], WRONG[7]]
        yield from ([BASIN, (FIELD[name], value)] for value in (0, 99, MOST))
        yield [BASIN, WRONG_ZONE, (FIELD[name], 99)]


# numbers that are judged after the lists, by a change that is refused, in the order of the refusals: on a site, in the Basin
MAPPED_WRONG = [(FIELD[name], SITE_RANGES[name][0] - 1) for name in MAPPED]
FACTORS_WRONG = [(FIELD[name], 99) for name in FACTOR_RANGES]
FRAME_WRONG = [WRONG[number] for number in range(8, 13)]
ON_SITE = [WRONG[3], WRONG[4], *MAPPED_WRONG, *FACTORS_WRONG, WRONG[7], *FRAME_WRONG]
IN_BASIN = [WRONG[3], WRONG[4], WRONG_ZONE, *FRAME_WRONG]
NO_LEVEL, UNEQUAL = levels(0)[:2], [[(FIELD['heights'], count)] for count in (4, 6)]


def list_pair_cases():
    """Two refusals of which one is of the lists: no level, 51 levels or lists of unequal length, and a number that is judged after them. With
    51 levels in the Basin the room is too small, as there are no more than four changes."""
    for basin, judged in (([], ON_SITE), ([BASIN], IN_BASIN)):
        over = levels(51)[:2 if basin else 3]
        yield from (basin + over + [wrong] for wrong in judged)
        yield from (basin + unequal + [wrong] for unequal in UNEQUAL for wrong in judged)
        yield from (basin + NO_LEVEL + [wrong] for wrong in judged[2:])
        yield basin + [(FIELD['weights'], 51), (FIELD['room'], 51)]
        yield basin + levels(51)[:2]
    yield levels(51)[:2] + [(FIELD['room'], 50)]


def place_pair_cases():
    """5 at places 1 to 3 and 6 at place 1, each with room that is too small and with every other number of the job."""
    for wrong in (*MAPPED_WRONG[:3], FACTORS_WRONG[0]):
        yield from ([each, wrong] for each in (WRONG[2], *ON_SITE) if each != wrong)


def more_level_cases():
    """The class, the kinds and the zones that have no limit beside them; in the Basin both sides of weight and height, and two bad weights."""
    yield from ([(FIELD[name], value)] for name, value in (('class', 2), ('kind', 3)))
    yield from ([BASIN, (FIELD[name], value)] for name, value in (('kind', 3), ('zone', 2), ('zone', 3)))
    for level in (0, 2, 4):
        yield from ([BASIN, (WEIGHTS + level, value)] for value in both_sides(limits.WEIGHT))
        yield from ([BASIN, (HEIGHTS + level, value)] for value in (*both_sides(limits.HEIGHT), 38 * level, 38 * level + 1))
    yield from ([BASIN, (base + 1, 0), (base + 3, 0)] for base in (WEIGHTS, HEIGHTS))


def said(field, value):
    """A change as the program writes it."""
    if field < len(NAMES):
        return f'{NAMES[field]:8}{value}; '
    name, first = ('weight', WEIGHTS) if field < HEIGHTS else ('height', HEIGHTS)
    return f'{name:8}{field - first + 1}: {value}; '


def inputs(job):
    """Ground, frame, weights, heights and lengths of buffers of a job by its fields."""
    weights, heights = ([job[first + i] for i in range(min(job[FIELD[name]], LISTED))]
                        for name, first in (('weights', WEIGHTS), ('heights', HEIGHTS)))
    site, frame = (tuple(job[FIELD[name]] for name in names) for names in (SITE, FRAME))
    ground = limits.Basin(job[FIELD['zone']]) if job[FIELD['ground']] == BASIN_GROUND else site
    return ground, frame, weights, heights, (job[FIELD['room']],)


def outcome(changes):
    """What the model says of the good job so changed."""
    refusal = limits.judge(*inputs({**GOOD, **dict(changes)}))
    return 'taken' if refusal is None else 'refused {} at {}'.format(*refusal)


def all_cases():
    """Every list of changes to the good job."""
    return [*number_cases(), *level_cases(), *pair_cases(), *basin_cases(), *two_pair_cases(), *list_pair_cases(), *place_pair_cases(),
            *more_level_cases()]


def main():
    """Write both files."""
    cases = all_cases()
    (HERE / 'stdout').write_text(''.join(
        ''.join(said(*change) for change in changes) + outcome(changes) + '\n' for changes in cases))
    changed = [[n for change in (changes + 4 * [(NONE, 0)])[:4] for n in change] for changes in cases]
    rows = [[len(cases)], [GOOD.get(place, 0) for place in range(FIELDS)], *changed]
    (HERE / 'stdin').write_text(''.join(' '.join(map(str, row)) + '\n' for row in rows))
    print(len(cases), 'cases')


if __name__ == '__main__':
    main()
