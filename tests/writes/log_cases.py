"""Writes the cases of the program `run_logs` and what the model says of them.

usage: python3 -m tests.writes.log_cases        rewrites crates/run_logs/stdin and crates/run_logs/stdout
"""

import itertools
import pathlib

from tests.model import soil

HERE = pathlib.Path(__file__).resolve().parents[2] / 'crates' / 'run_logs'
COUNTS = ('thicknesses', 'kinds', 'values')
FIRST = {'thickness': 10, 'kind': 60, 'value': 110}
LISTED, NONE = 41, 999
MOST = 2**64 - 1
CLASS = {soil.HARD: 'hard', soil.NORMAL: 'normal', soil.SOFT: 'soft'}
NORMAL_SPEED = 2_000


def count(name, value):
    """So many numbers in one of the lists."""
    return COUNTS.index(name), value


def at(name, layer, value):
    """A layer's thickness, kind or value."""
    return FIRST[name] + layer - 1, value


def plain(layers, speed=NORMAL_SPEED, thickness=None):
    """So many layers of one thickness, 3,000 cm in all where they divide it, each with the same measured velocity."""
    return layers, thickness if thickness is not None else soil.THICKNESS_SUM // max(layers, 1), speed


def three(*speeds):
    """Three layers of 10 m with measured velocities."""
    return plain(3), [at('value', layer, speed) for layer, speed in enumerate(speeds, 1)]


def class_cases():
    """Exactly 270 and 180 m/s and one unit to either side, in one layer and in 40; three layers at and about them."""
    for layers in (1, 40):
        yield from ((plain(layers, speed), []) for speed in (500, 1_799, 1_800, 1_801, 2_699, 2_700, 2_701, 30_000))
    yield three(2_000, 2_000, 9_000)        # exactly 270 m/s
    yield three(800, 4_000, 6_000)          # exactly 180 m/s
    yield three(1_160, 4_790, 24_830)       # U = 111,111,111 ns, the most that is hard
    yield three(1_190, 7_340, 7_433)        # U = 111,111,112 ns, though the average is above 270 m/s
    yield three(710, 7_470, 8_042)          # L = 166,666,667 ns, the least that is soft
    yield three(700, 5_030, 25_453)         # L = 166,666,666 ns, though the average is below 180 m/s
    yield from ((plain(5), [at('kind', 3, kind), at('value', 3, N)]) for kind, N in ((2, 25), (3, 50)))
    yield from ((plain(1), [at('kind', 1, soil.SOFT_CLAY), at('value', 1, q)]) for q in (1, 308, 309, 400))
    yield from ((plain(5), [at('kind', 3, soil.SOFT_CLAY), at('value', 3, q)]) for q in (1, 2, 99, 100, 101, 400))


def count_cases():
    """0, 39, 40 and 41 layers; each list longer or shorter than the others."""
    yield plain(0), []
    yield plain(39, thickness=75), [at('thickness', 39, 150)]
    yield plain(40), []
    yield plain(41), [at('thickness', 41, 80)]
    yield from ((plain(5), [count(name, value)]) for name in COUNTS for value in (0, 4, 6, 41))
    yield plain(41), [count('kinds', 40)]
    yield plain(0), [count('values', 1)]


def thickness_cases():
    """Sums of 2,999 and 3,001, thicknesses of 0 with a right and with a wrong sum, and of 2^64 - 1, at the first, middle
    and last layer; sums that wrap to 3,000."""
    for layer, beside in ((1, 2), (3, 4), (5, 1)):
        yield from ((plain(5), [at('thickness', layer, value)]) for value in (0, 1, 599, 601, MOST))
        yield plain(5), [at('thickness', layer, 0), at('thickness', beside, 1_200)]
    yield plain(5), [at('thickness', 5, 0), at('thickness', 2, 0)]
    yield plain(5), [at('thickness', 1, MOST), at('thickness', 5, 0)]
    yield plain(5), [at('thickness', 1, MOST), at('thickness', 2, 601)]
    yield plain(2), [at('thickness', 1, 2**63), at('thickness', 2, 2**63 + 3_000)]
    yield plain(40, thickness=MOST), []
    yield plain(40, thickness=0), []
    yield plain(1, thickness=2_999), []
    yield plain(1, thickness=3_001), []


def layer_cases():
    """Unknown kinds and soft clay with the value of a velocity, and both sides of each range of values, at the first, middle and last layer."""
    for layer in (1, 3, 5):
        yield from ((plain(5), [at('kind', layer, kind)]) for kind in (0, 4, 5, MOST))
        for kind, allowed in soil.VALUE.items():
            ends = (0, allowed[0] - 1, allowed[0], allowed[0] + 1, allowed[-1] - 1, allowed[-1], allowed[-1] + 1, MOST)
            yield from ((plain(5), [at('kind', layer, kind), at('value', layer, value)]) for value in sorted(set(ends)))
    yield plain(5), [at('kind', 4, 9), at('value', 2, 499)]


WRONG = {'2': lambda layer: [count('values', 1)], '13': lambda layer: [],
         '14 at a layer': lambda layer: [at('thickness', layer, 0), at('thickness', 5, 1_200)],
         '14 at 0': lambda layer: [at('thickness', layer, 599)], '15': lambda layer: [at('kind', layer, 4)]}


def pair_cases():
    """Every ordered pair of refusals at once, the first at layer 2, the second at layer 4."""
    for first, second in itertools.permutations(WRONG, 2):
        yield plain(41 if '13' in (first, second) else 5), WRONG[first](2) + WRONG[second](4)


UNKNOWN = (0, 5, 2**16 + soil.SOFT_CLAY, 2**32 + soil.SOFT_CLAY, MOST)     # kinds that there are none of
FIVE_OF_750 = plain(5, thickness=750)       # without one of its layers it is as thick as a log must be


def soft_clay(layer, q=100):
    """A layer of soft clay."""
    return [at('kind', layer, soil.SOFT_CLAY), at('value', layer, q)]


def unknown_kind_cases():
    """Unknown kinds with each value that soft clay may have at its ends and between, and soft clay with q whose low bits are allowed, at the
    first, middle and last layer."""
    for layer in (1, 3, 5):
        yield from ((plain(5), [at('kind', layer, kind), at('value', layer, q)]) for kind in UNKNOWN for q in (1, 100, 400))
        yield from ((plain(5), soft_clay(layer, 1 + step)) for step in (2**16, 2**32, 2**63))


def soft_clay_cases():
    """Soft clay with q in range beside each other refusal, before it and behind it; several layers of it, and beside kinds 2 and 3."""
    wrong_layer = [*(('kind', kind) for kind in (*UNKNOWN, soil.COHESIVE, soil.COHESIONLESS)), ('value', 499), ('value', 30_001)]
    for layer, other in ((2, 4), (4, 2)):
        good = soft_clay(layer)
        yield from ((plain(5), good + [at(name, other, value)]) for name, value in wrong_layer)
        yield from ((plain(5), good + [count(name, value)]) for name in COUNTS for value in (4, 6))
        yield plain(41), good + [at('thickness', 41, 80)]
        yield FIVE_OF_750, good + [at('thickness', other, 0)]
        yield from ((plain(5), good + [at('thickness', other, value)]) for value in (0, 599, 601))
    for q in (1, 100, 400):
        yield plain(2, q), [at('kind', layer, soil.SOFT_CLAY) for layer in (1, 2)]
        yield plain(3, q), [at('kind', layer, soil.SOFT_CLAY) for layer in (1, 2, 3)]
    for layer, q in itertools.product((1, 2), (0, 401)):
        yield plain(2, 400), [at('kind', 1, soil.SOFT_CLAY), at('kind', 2, soil.SOFT_CLAY), at('value', layer, q)]
    by_number = soil.COHESIVE, soil.COHESIONLESS
    yield from ((plain(2, 20), [at('kind', layer, soil.SOFT_CLAY), at('kind', 3 - layer, kind)]) for kind in by_number for layer in (1, 2))
    for kinds in itertools.permutations((soil.SOFT_CLAY, *by_number)):
        yield plain(3, 20), [at('kind', layer, kind) for layer, kind in enumerate(kinds, 1)]


def place_cases():
    """14 at a layer and 15 by kind and by value at the first, a middle and the last of 40 layers; the thinnest layer that is taken."""
    for layer in (1, 20, 40):
        beside = layer % 40 + 1
        yield plain(40), [at('thickness', layer, 0), at('thickness', beside, 150)]
        yield from ((plain(40), [change]) for change in (at('kind', layer, 5), at('value', layer, 499), at('value', layer, 30_001)))
        yield plain(40), [at('thickness', layer, 1), at('thickness', beside, 149)]


def two_wrong_cases():
    """Two refusals and no other: each two of 2, over 40 layers, 14 at a layer and at 0, 15 by kind and by value; each twice that has a layer."""
    bad = [[at('kind', 4, 0)], [at('value', 4, 499)]]
    whole = at('thickness', 41, 80)         # with it 41 layers are 3,000 cm
    yield plain(41), [whole, count('values', 40)]
    yield plain(41, thickness=75), [at('thickness', 3, 0)]
    yield from ((plain(41), [whole, *each]) for each in bad)
    yield from ((plain(5), [count('thicknesses', 4), *each]) for each in bad)
    yield from ((plain(5), [count(name, 4), *each]) for name in ('kinds', 'values') for each in bad)
    yield from ((FIVE_OF_750, [at('thickness', layer, 0), *each]) for layer in (2, 4, 5) for each in bad)
    yield from ((plain(5), [at('thickness', layer, 599), *each]) for layer in (2, 5) for each in bad)
    yield plain(5, thickness=1_000), [at('thickness', 2, 0), at('thickness', 4, 0)]
    for name, value in (('kind', 0), ('kind', MOST), ('value', 499), ('value', 30_001)):
        yield plain(5), [at(name, 2, value), at(name, 4, value)]
    yield from ((plain(5), [at('kind', layer, 5), at('value', 6 - layer, 499)]) for layer in (2, 4))


def said(field, value):
    """A change as the program writes it."""
    if field < len(COUNTS):
        return f'{COUNTS[field]} {value}; '
    name = next(name for name in ('value', 'kind', 'thickness') if FIRST[name] <= field)
    return f'{name} {field - FIRST[name] + 1}: {value}; '


def lists(log, changes):
    """Thicknesses, kinds and values of a plain log so changed."""
    layers, thickness, speed = log
    numbers = {place: layers for place in range(len(COUNTS))}
    for name, value in (('thickness', thickness), ('kind', soil.MEASURED), ('value', speed)):
        numbers |= {FIRST[name] + i: value for i in range(LISTED)}
    numbers |= dict(changes)
    counted = zip(FIRST.values(), (min(numbers[place], LISTED) for place in range(len(COUNTS))))
    return [[numbers[first + i] for i in range(length)] for first, length in counted]


def outcome(thicknesses, kinds, values):
    """What the model says of a log."""
    answer = soil.log(thicknesses, kinds, values)
    return CLASS[answer.cls] if isinstance(answer, soil.Log) else 'refused {} at {}'.format(*answer[1:])


def velocity(kind, value):
    """What the model says of the velocity of N or q."""
    return soil.velocity(kind, value) if value in soil.VALUE[kind] else 'refused 15 at 1'


def all_cases():
    """Every log: a plain one and its changes."""
    return [*class_cases(), *count_cases(), *thickness_cases(), *layer_cases(), *pair_cases(), *unknown_kind_cases(), *soft_clay_cases(),
            *place_cases(), *two_wrong_cases()]


def values():
    """Every N of both kinds and every q, with 0 and one beyond."""
    counts = [(kind, N) for kind in (soil.COHESIVE, soil.COHESIONLESS) for N in range(52)]
    return counts + [(soil.SOFT_CLAY, q) for q in range(402)]


def main():
    """Write both files."""
    cases = all_cases()
    lines = ['{} of {} cm at {} dm/s; '.format(*log) + ''.join(said(*change) for change in changes)
             + outcome(*lists(log, changes)) for log, changes in cases]
    lines += [f'kind {kind}, {"q" if kind == soil.SOFT_CLAY else "N"} {value}: {velocity(kind, value)}' for kind, value in values()]
    (HERE / 'stdout').write_text(''.join(line + '\n' for line in lines))
    rows = [[len(cases)], *((*log, *itertools.chain(*(changes + 3 * [(NONE, 0)])[:3])) for log, changes in cases)]
    (HERE / 'stdin').write_text(''.join(' '.join(map(str, row)) + '\n' for row in rows))
    print(len(cases), 'cases')


if __name__ == '__main__':
    main()
