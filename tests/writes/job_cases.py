"""Writes the cases of the program `run_jobs` and what the model says of them.

usage: python3 -m tests.writes.job_cases        rewrites crates/run_jobs/stdin and crates/run_jobs/stdout

The first line of stdin is the count of cases. Every other line is a case: what the ground is, nine numbers of it, five of the frame, the
counts of weights and of heights, the lengths of three buffers and what a cell of each holds; then the weights and the heights.
"""

import pathlib
import random
from typing import NamedTuple

from tests.draws import pairs
from tests.draws.basin import corner_strata, named
from tests.draws.plain_jobs import draw_basin, draw_pairs
from tests.draws.sample import all_strata, draw_in
from tests.draws.strata import about_levels, governed_by
from tests.model import limits
from tests.model.job import job

HERE = pathlib.Path(__file__).resolve().parents[2] / 'crates' / 'run_jobs'
LISTED, MOST_BYTES = 60, 65_536
LINE, SITE_GROUND, BASIN_GROUND = len(limits.Site._fields), 0, 1
OLD, SEED, LARGEST, FEW = (7, 8, 9), 1, 2**64 - 1, 4


class Case(NamedTuple):
    """A call: what it is of, the lengths of the buffers of forces, shears and moments, and what a cell of each holds."""

    ground: tuple
    frame: tuple
    weights: list
    heights: list
    buffers: tuple
    old: tuple = OLD

    def row(self):
        """The numbers that the program reads: of the Basin the zone stands first of the nine of a site."""
        assert max(len(self.weights), len(self.heights)) <= LISTED
        ground = limits.ground_of(self.ground)
        kind = BASIN_GROUND if isinstance(ground, limits.Basin) else SITE_GROUND
        line = [*ground, *[0] * (LINE - len(ground))]
        counts = len(self.weights), len(self.heights)
        return [kind, *line, *self.frame, *counts, *self.buffers, *self.old, *self.weights, *self.heights]

    def said(self):
        """What the program must write."""
        result = job(self.ground, self.frame, self.weights, self.heights, self.buffers)
        plain = job(self.ground, self.frame, self.weights, self.heights)
        cells = [[]] * 3 if result[0] == 'refused' else [result.forces, result.shears, result.moments]
        lines = [answer(result)]
        for name, written, old, length in zip(('forces', 'shears', 'moments'), cells, self.old, self.buffers):
            lines.append('\t'.join(map(str, (name, *written, *[old] * (length - len(written))))))
        return '\n'.join([*lines, 'without buffers ' + answer(plain)]) + '\n'


def answer(result):
    """The parts of an answer, separated by tabs."""
    if result[0] == 'refused':
        return '\t'.join(map(str, result))
    return '\t'.join(map(str, ('taken', result.V, result.V_M, result.V_star, result.V_D, result.T)))


WORKED = Case((80, 45, 100, 55, 100, 100, 1), (2, 1000, 480, 100, 150), [5000] * 3, [100, 200, 300], (3, 3, 3))
NEAR, TURNED = (80, 45, 100, 55, 120, 150, 110, 130, 1), (80, 45, 100, 55, 110, 130, 120, 150, 1)
FACTORS = {limits.Site._fields.index(name): allowed for name, allowed in limits.FACTORS.items()}
OTHER = Case((60, 35, 80, 45, 142, 179, 3), (4, 0, 250, 150, 100), [900, 1, 20_000, 44], [1, 2, 1999, 2000], (4, 5, 6))


def tall_frame(count):
    """So many levels of one weight, 38 dm apart, with buffers longer than the lists."""
    return WORKED._replace(weights=[5000] * count, heights=[38 * (i + 1) for i in range(count)], buffers=(55, 56, 57))


def buffer_cases():
    """Buffers equal to the lists, longer, and each of them shorter; no buffer at all."""
    yield from (WORKED._replace(buffers=each)
                for each in ((3, 3, 3), (5, 4, 60), (2, 3, 3), (3, 2, 3), (3, 3, 2), (60, 60, 0), (0, 0, 0)))


def list_cases():
    """0, 1, 2, 49, 50 and 51 levels; lists of unequal length."""
    yield from (tall_frame(count) for count in (0, 1, 2, 49, 50, 51))
    yield tall_frame(0)._replace(buffers=(0, 0, 0))
    yield tall_frame(50)._replace(buffers=(50, 50, 50))
    yield tall_frame(50)._replace(buffers=(50, 49, 50))
    for weights, heights in ((3, 2), (2, 3), (0, 3), (3, 51), (51, 3), (50, 49)):
        yield tall_frame(51)._replace(weights=[5000] * weights, heights=[38 * (i + 1) for i in range(heights)])
    yield tall_frame(51)._replace(buffers=(3, 55, 55))
    yield WORKED._replace(weights=[5000, 0, 5000], buffers=(2, 3, 3))
    yield WORKED._replace(weights=[5000, 0, 5000], heights=[100, 200])


def wrong_cases():
    """Each refusal with buffers that must stay as they are, and wrong values at several places at once."""
    longer = WORKED._replace(buffers=(5, 5, 5))
    yield from (longer._replace(weights=each) for each in ([5000, 0, 20_001], [20_001, 0, 0], [5000, 5000, 0]))
    yield from (longer._replace(heights=each)
                for each in ([100, 100, 300], [0, 1, 2], [100, 200, 2001], [300, 200, 100], [100, 3000, 200]))
    yield longer._replace(weights=[5000, 5000, 0], heights=[0, 0, 0], ground=(0,) * 7, frame=(0,) * 5)
    for place in range(7):
        yield longer._replace(ground=WORKED.ground[:place] + (0,) * (7 - place))
        yield longer._replace(ground=WORKED.ground[:place] + (LARGEST,) + WORKED.ground[place + 1:])
    for place in range(5):
        yield longer._replace(frame=WORKED.frame[:place] + (LARGEST,) + WORKED.frame[place + 1:])
        yield longer._replace(frame=WORKED.frame[:place] + (61_000,) * (5 - place))
    yield longer._replace(ground=(80, 45, 100, 55, 99, 201, 4), frame=(5, 60_001, 99, 101, 99))


def order_cases():
    """The same job before and after another, accepted and refused; buffers that hold another job's figures."""
    used = WORKED._replace(old=(573_215, 1_071_429, 57_321_500), buffers=(5, 5, 5))
    yield from (WORKED, OTHER, WORKED, WORKED._replace(weights=[0, 0, 0]), WORKED, tall_frame(51), OTHER)
    yield from (used, used._replace(weights=[5000, LARGEST, 0]), used._replace(heights=[100, LARGEST, 300]), used,
                OTHER._replace(old=(0, LARGEST, 1)))


def drawn_cases():
    """One job of every stratum of the model's sample, with buffers as long as the lists or longer."""
    rng = random.Random(SEED)
    for stratum in all_strata():
        drawn = draw_in(rng, stratum)
        count = len(drawn.weights)
        yield Case(tuple(drawn.ground), tuple(drawn.frame), drawn.weights, drawn.heights,
                   tuple(count + rng.choice((0, 0, 1, LISTED - count)) for _ in OLD))


def basin_cases():
    """The worked job in each zone, before and after one on a site; zones that there are none of; buffers, lists and order."""
    worked = WORKED._replace(ground=limits.Basin(3), buffers=(5, 4, 3))
    yield from (worked._replace(ground=limits.Basin(zone)) for zone in (*limits.ZONE, 0, 5, 2**16 + 1, 2**32 + 1, 2**63 + 1, LARGEST))
    yield from (worked, WORKED, worked, OTHER, worked._replace(ground=limits.Basin(80)), worked)
    yield from (worked._replace(buffers=each) for each in ((2, 3, 3), (3, 2, 3), (3, 3, 2), (0, 0, 0)))
    yield from (tall_frame(count)._replace(ground=limits.Basin(2)) for count in (0, 1, 50, 51))
    bad = worked._replace(ground=limits.Basin(5))
    yield from (bad._replace(frame=WORKED.frame[:place] + (61_000,) * (5 - place)) for place in range(5))
    yield from (bad._replace(weights=[5000, 5000, 0]), bad._replace(heights=[100, 200, 200]), bad._replace(weights=[]))
    yield bad._replace(buffers=(2, 3, 3))
    yield from (worked._replace(frame=WORKED.frame[:place] + (LARGEST,) + WORKED.frame[place + 1:]) for place in range(5))
    yield worked._replace(ground=limits.Basin(1), frame=(4, 400, 100, 150, 100), weights=[20_000] * 50, heights=list(range(1_951, 2_001)),
                          buffers=(50, 50, 50))


def drawn_basin_cases():
    """A job at each part of each zone's corner, and one for each shear that governs there, with buffers as long as the lists."""
    rng = random.Random(SEED)
    for zone in limits.ZONE:
        for stratum in (*list(corner_strata(zone))[1::3], *map(governed_by, ('V', 'V_M', 'V_star'))):
            drawn = draw_in(rng, named(stratum, zone), draw_basin)
            count = min(len(drawn.weights), FEW)
            yield Case(drawn.ground, tuple(drawn.frame), drawn.weights[-count:], drawn.heights[-count:], (count,) * 3)


def pair_cases():
    """The worked job near a fault with a pair for each level, before and after one with one pair for both; buffers, lists and order."""
    near, turned = WORKED._replace(ground=NEAR, buffers=(5, 4, 3)), WORKED._replace(ground=TURNED, buffers=(3, 5, 4))
    yield from (near, WORKED, near, turned, OTHER, turned, near._replace(ground=limits.Basin(1)), near)
    yield from (WORKED._replace(ground=(*WORKED.ground[:4], *pair, *pair, 1)) for pair in ((100, 100), (120, 150)))
    yield from (WORKED._replace(ground=(*WORKED.ground[:4], *pair, 1)) for pair in ((120, 150), (110, 130)))
    yield from (near._replace(buffers=each) for each in ((2, 3, 3), (3, 2, 3), (3, 3, 2), (0, 0, 0)))
    yield from (tall_frame(count)._replace(ground=TURNED) for count in (0, 1, 51))
    for ground in ((80, 45, 100, 55, 150, 200, 100, 100, 2), (80, 45, 100, 55, 100, 100, 150, 200, 3)):
        yield near._replace(ground=ground, frame=(4, 300, 100, 150, 100), weights=[20_000] * 50, heights=list(range(1_951, 2_001)),
                            buffers=(50, 50, 50))


def put(numbers, *changes):
    """The numbers with others at some places."""
    numbers = list(numbers)
    for place, value in changes:
        numbers[place] = value
    return tuple(numbers)


def wrong_pair_cases():
    """Each of the nine numbers of a site wrong, both sides of each factor, two factors at once, and a factor with another refusal; buffers
    that hold another job's figures must stay as they are."""
    used = WORKED._replace(ground=NEAR, old=(573_215, 1_071_429, 57_321_500), buffers=(5, 5, 5))
    for place in range(LINE):
        yield used._replace(ground=put(NEAR, (place, LARGEST)))
        yield used._replace(ground=NEAR[:place] + (0,) * (LINE - place))
    for place, allowed in FACTORS.items():
        beside = (allowed[0] - 1, allowed[0], allowed[-1], allowed[-1] + 1, allowed[0] + 2**16, allowed[0] + 2**32, allowed[0] + 2**63)
        yield from (used._replace(ground=put(NEAR, (place, value))) for value in beside)
        yield from (used._replace(ground=put(NEAR, (place, 99), (other, 201))) for other in FACTORS if other != place)
    for place in list(FACTORS)[2:]:
        bad = used._replace(ground=put(NEAR, (place, 99)))
        yield from (bad._replace(ground=put(bad.ground, each)) for each in ((3, 41), (8, 4)))
        yield from (bad._replace(weights=[5000, 5000, 0]), bad._replace(heights=[100, 200, 200]), bad._replace(buffers=(5, 2, 5)))
        yield from (bad._replace(frame=put(WORKED.frame, (each, 61_000))) for each in range(5))


ONE = Case((50, 30, 70, 40, 100, 100, 100, 100, 1), (1, 0, 100, 100, 100), [5], [9], (1, 1, 1))
FRAME_WRONG = ((2, 601), (3, 99), (4, 201), (0, 5), (1, 60_001))      # refusals 8 to 12: place and number
NO_LEVEL, NO_ROOM = ONE._replace(weights=[], heights=[]), ONE._replace(buffers=(1, 1, 0))


def two_wrong_cases():
    """Two refusals and no other, by jobs of one level: the class and a mapped value with each number of the frame; each near-fault factor, a
    mapped value and the class with no level and with a buffer that is too short. There is no room for more."""
    for place, wrong in enumerate(FRAME_WRONG):
        frame = put(ONE.frame, wrong)
        yield from (ONE._replace(ground=put(ONE.ground, each), frame=frame) for each in ((8, 4), (place % 4, 99)))
    for change in (*((place, 99) for place in FACTORS), (0, 49), (8, 0)):
        yield from (case._replace(ground=put(ONE.ground, change)) for case in (NO_LEVEL, NO_ROOM))


def more_basin_cases():
    """In the Basin 2 by the lists, 3 and 4 at the first level and at the second of three; a wrong zone with a wrong number of the frame alone."""
    one = ONE._replace(ground=limits.Basin(4))
    three = one._replace(weights=[5, 6, 7], heights=[7, 8, 9], buffers=(3, 3, 3))
    yield from (one._replace(heights=[]), one._replace(weights=[0]), one._replace(heights=[0]))
    yield from (three._replace(weights=[5, 0, 7]), three._replace(heights=[7, 7, 9]))
    yield from (one._replace(ground=limits.Basin(0), frame=put(ONE.frame, wrong)) for wrong in FRAME_WRONG)


def drawn_pair_cases():
    """A job of every stratum of two pairs, its two highest levels, all where the stratum is about levels; buffers as long as the lists."""
    rng = random.Random(SEED)
    for stratum in pairs.plain_strata():
        drawn = draw_in(rng, stratum, draw_pairs)
        count = len(drawn.weights) if about_levels(stratum.name) else min(len(drawn.weights), 2)
        yield Case(tuple(drawn.ground), tuple(drawn.frame), drawn.weights[-count:], drawn.heights[-count:], (count,) * 3)


def main():
    """Write both files, and say how many cases there are."""
    cases = [*buffer_cases(), *list_cases(), *wrong_cases(), *order_cases(), *drawn_cases(), *basin_cases(), *drawn_basin_cases(),
             *pair_cases(), *wrong_pair_cases(), *drawn_pair_cases(), *two_wrong_cases(), *more_basin_cases()]
    lines = [str(len(cases)), *(' '.join(map(str, case.row())) for case in cases)]
    text = '\n'.join(lines) + '\n'
    assert len(text) <= MOST_BYTES, len(text)
    (HERE / 'stdin').write_text(text)
    (HERE / 'stdout').write_text(''.join(case.said() for case in cases))
    refused = sum(case.said().startswith('refused') for case in cases)
    print(len(cases), 'cases,', refused, 'of them refused,', len(text), 'bytes')


if __name__ == '__main__':
    main()
