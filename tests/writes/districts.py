"""Writes the cases of the program `run_districts` and what the model says of them (Wish 9).

usage: python3 -m tests.writes.districts        rewrites crates/run_districts/stdin and crates/run_districts/stdout

The first line of stdin is the count of cases. Every other line is a case:
- how many jobs there are, how many of them are given, the counts of weights and of heights, how many rows there are, and what each cell of each
  row holds before the call;
- the jobs that are given, 18 numbers each: basin, zone, nine of a site, five of a frame, start, count. Job k, from 0, is the given one of place
  k mod the count of given ones: a district of 256 jobs is some few in turn;
- the weights, then the heights.
There are at most 260 jobs, 260 rows and 120 levels.

Of each case stdout has a line `taken`, or `refused`, 22 and 0; a line `row` with its seven numbers for each row, those that the call leaves alone too;
and a line `report` with its six numbers and its 113 cells, zeros where the call is refused. Parts are separated by tabs.
"""

import itertools
import pathlib
import random

from tests.draws import districts as drawn
from tests.draws.stretches import STRETCHES
from tests.model import limits
from tests.writes.district_reports import report_cases
from tests.writes.district_rows import GROUNDS, row_cases
from tests.writes.stored_districts import FRAME, LARGEST, MOST_BYTES, OLD, THREE, Case, case, in_basin, near_fault, on_site, short_store

HERE = pathlib.Path(__file__).resolve().parents[2] / 'crates' / 'run_districts'
SEED, DRAWN = 9, 30
FEW_JOBS, FEW_LEVELS = 6, 20        # of a drawn district that is stored


def worked_cases():
    """The worked sheet's job alone, in every zone, with two pairs; beside others over the same stretch, a part of it and all of it."""
    yield case([on_site(0, 3)], *THREE)
    yield case([on_site(0, 3), near_fault(0, 3), *(in_basin(0, 3, zone) for zone in limits.ZONE)], *THREE, more_room=2)
    yield case([make(start, count) for make in GROUNDS for start in range(3) for count in range(1, 4 - start)], *THREE)
    weights, heights = THREE
    yield case([on_site(3, 3), in_basin(0, 3), on_site(0, 3), on_site(3, 2)], weights + [900, 1, 44], heights + [1, 2, 1_999], more_room=1)
    yield case([on_site(0, 3), on_site(0, 3, frame=FRAME._replace(R=0)), on_site(0, 3)], *THREE, more_room=1)


def whole_cases():
    """Both sides of the limits of 22: jobs, lists of the store, rows; each with jobs that would be refused; rows stay as they were."""
    jobs, store = [on_site(0, 1), in_basin(0, 2), on_site(1, 2)], short_store(2)
    for count, room in ((255, 255), (256, 256), (256, 257), (256, 255), (257, 257), (257, 256), (260, 0)):
        yield Case(jobs, count, *store, room)
    for count, room in ((3, 2), (3, 0), (1, 0), (1, 1), (1, 2), (3, 5)):
        yield Case(jobs[:count], count, *store, room, old=LARGEST if room > count else OLD)
    for weights, heights in ((2, 1), (1, 2), (2, 3), (3, 2), (0, 2), (2, 0), (0, 1), (1, 0), (60, 61)):
        yield Case(jobs, 3, short_store(weights)[0], short_store(heights)[1], 4)
        yield Case([], 0, short_store(weights)[0], short_store(heights)[1], 1)
    yield Case(jobs, 257, [5], [1, 2], 3)


def empty_cases():
    """No job at all: with rows, without, over a store of levels, of bad levels and of none."""
    for room, (weights, heights) in itertools.product((0, 3), (THREE, ([0, LARGEST], [5, 5]), ([], []))):
        yield Case([], 0, weights, heights, room)


def drawn_cases():
    """From all of it; each strange stretch once."""
    rng = random.Random(SEED)
    for _ in range(DRAWN):
        call = drawn.any_district(rng)
        if len(call.jobs) <= FEW_JOBS and len(call.weights) <= FEW_LEVELS:
            yield Case(call.jobs, len(call.jobs), call.weights, call.heights, call.room)
    yield case([make(*stretch(rng, len(THREE[0]))) for make in GROUNDS for stretch in STRETCHES.values()], *THREE)


def all_cases():
    """Every case, in the order of the file."""
    return [*worked_cases(), *row_cases(), *whole_cases(), *empty_cases(), *report_cases(), *drawn_cases()]


def stored(cases, folder=HERE):
    """What the file stdout says of each case."""
    lines = iter((folder / 'stdout').read_text().splitlines(keepends=True))
    return [''.join(itertools.islice(lines, 1 + each.room + 1)) for each in cases]


def write(folder=HERE):
    """Write both files, and say how many cases there are."""
    cases = all_cases()
    text = '\n'.join([str(len(cases)), *(' '.join(map(str, each.row())) for each in cases)]) + '\n'
    assert len(text) <= MOST_BYTES, len(text)
    folder.mkdir(exist_ok=True)
    (folder / 'stdin').write_text(text)
    (folder / 'stdout').write_text(''.join(each.said() for each in cases))
    refused, jobs = sum(each.said().startswith('refused') for each in cases), sum(each.count for each in cases)
    print(len(cases), 'districts,', refused, 'of them refused,', jobs, 'jobs,', len(text), 'bytes')


if __name__ == '__main__':
    write()
