"""The stored cases of the program `run_drifts` (Wish 10), as tests/compares/stored_cases.py has the other cases: drift, torsion, accidental moments.

Cells that a call does not write are as they were.
"""

import itertools

from tests.compares import stored_cases
from tests.compares.stored_cases import level_numbers, level_refusals, made, named
from tests.model import limits
from tests.writes.stored_drifts import DRIFT, LARGEST_SIGNED, LEAST_SIGNED, TORSION

CRATE, OF_DRIFT, OF_MOMENTS = 'run_drifts', 5, 11       # numbers of the head of a case


def unsigned(numbers):
    """Signed numbers by their two each."""
    pairs = list(zip(numbers[::2], numbers[1::2], strict=True))
    assert all(below in (0, 1) and size <= (-LEAST_SIGNED if below else LARGEST_SIGNED) and (size or not below) for below, size in pairs)
    return [-size if below else size for below, size in pairs]


def check_cells(line, name, old, length, written):
    """A line of cells has its name and every cell of its buffer; those that are not written are as they were."""
    head, *cells = line.split('\t')
    assert head == name and len(cells) == length and all(int(cell) == old for cell in cells[written:])


def drift_refusals(heights, displacements, limit, buffers):
    """Refusals of drift, 1 and 2 with their reason."""
    for number, place in limits.drift_refusals(heights, displacements, limit, buffers):
        if number == 1:
            yield '1, over 50' if heights else '1, no level', place
        elif number == 2:
            yield from [('2, lists', place)] * (len(displacements) != len(heights))
            yield from [('2, a buffer', place)] * any(length < len(heights) for length in buffers)
        else:
            yield str(number), place


def drift_case(row, lines):
    """A case of drift, of which two lines are said."""
    heights, displacements, limit, cells, old = row[:OF_DRIFT]
    levels, moved = row[OF_DRIFT:][:heights], unsigned(row[OF_DRIFT + heights:])
    assert len(levels) == heights and len(moved) == displacements
    rises = {above - below for below, above in itertools.pairwise(levels)}
    numbers = {'height': {*levels}, 'rise': rises, 'levels': {heights}, 'lists': {displacements - heights}, 'buffer 1': {cells - heights},
               'displacement': {*moved}, 'limit': {limit}}
    case = made('', numbers, drift_refusals(levels, moved, limit, (cells,)), next(lines))
    check_cells(next(lines), 'verdicts', old, cells, 0 if case.applies else heights)
    return case


def torsion_refusals(largest, average):
    """Refusals of torsion, each with its reason."""
    yield from [('23, largest', 0)] * (largest not in limits.FLOOR_DISPLACEMENT) + [('23, average', 0)] * (average not in limits.FLOOR_DISPLACEMENT)
    yield from [('25, no average', 0)] * (average == 0) + [('25, above the largest', 0)] * (average > largest)


def torsion_case(row, lines):
    """A case of torsion, of which one line is said."""
    largest, average = row
    numbers = {'largest': {largest}, 'average': {average}, 'above': {average - largest}}
    refusals = [*torsion_refusals(largest, average)]
    assert [*limits.torsion_refusals(largest, average)] == [*dict.fromkeys((int(name[:2]), place) for name, place in refusals)]
    return made('', numbers, refusals, next(lines))


def moments_case(row, lines):
    """A case of accidental moments, of which three lines are said."""
    base_shear, period, weights, heights, dimension, *buffers = row[:OF_MOMENTS - 4]
    old, lists = unsigned(row[OF_MOMENTS - 4:OF_MOMENTS]), row[OF_MOMENTS:]
    assert len(lists) == weights + heights
    levels = lists[:weights], lists[weights:], buffers
    numbers = level_numbers(*levels) | {'base shear': {base_shear}, 'period': {period}, 'dimension': {dimension}}
    applies = [*level_refusals(*levels), *named(limits.handed_in_refusals(base_shear, period)), *named(limits.dimension_refusals(dimension))]
    case = made('', numbers, applies, next(lines))
    for name, cell, length in zip(('positive', 'negative'), old, buffers):
        check_cells(next(lines), name, cell, length, 0 if case.applies else weights)
    return case


def cases():
    """Every case of each kind: drift, torsion, accidental moments."""
    count, rows = stored_cases.rows(CRATE)
    lines = iter(stored_cases.said_by(CRATE))
    assert len(rows) == count
    found = [], [], []
    for kind, *row in rows:
        place = kind if kind in (DRIFT, TORSION) else -1
        found[place].append((drift_case, torsion_case, moments_case)[place](row, lines))
    assert next(lines, None) is None
    return found
