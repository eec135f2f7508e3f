"""Writes the made-up district of the manual (Wish 9): a hundred sheets in one file, and what the model prints for it.

usage: python3 -m tests.writes.hundred_sheets        rewrites examples/district.sheets and examples/district.listing

Ten blocks of ten sheets, a ground a block. Sizes, periods and factors of a building follow from its number, so the file is the same each time. Some sheets
are made one by one: the worked sheet, the same with an R at which V and V* tie, a V_D over W on the edge of a cell, the largest and the smallest V_D over
W, and three that are refused.
"""

import pathlib

from tests.model import limits, response, sheet, sheets

ROOT = pathlib.Path(__file__).resolve().parents[2]
SHEETS, LISTING = ROOT / 'examples' / 'district.sheets', ROOT / 'examples' / 'district.listing'
OF_BLOCK = 10
# what stands on line 1, and the kinds of frame that take turns
BLOCKS = (
    (limits.one_pair(80, 45, 100, 55, 100, 100, 1), (2,)), (limits.one_pair(80, 45, 100, 55, 100, 100, 2), (2, 1)),
    (limits.one_pair(70, 40, 90, 50, 100, 100, 3), (2, 4)), (limits.one_pair(70, 40, 90, 50, 100, 100, 1), (1, 3)),
    (limits.Site(80, 45, 100, 55, 112, 123, 118, 136, 1), (2, 1)), (limits.one_pair(80, 45, 100, 55, 125, 140, 2), (4, 2)),
    *((limits.Basin(zone), kinds) for zone, kinds in zip(limits.ZONE, ((2, 1), (2,), (1, 2, 3), (2, 4)))),
)
# R and alpha-y by kind, which take turns, in 0.01
R, ALPHA_Y = {1: (480, 400), 2: (480, 400, 320), 3: (480,), 4: (320, 240, 160)}, {1: (100, 120), 2: (150,), 3: (100,), 4: (150, 120)}
IMPORTANCE = (100, 100, 100, 125, 100, 100, 150)
OFFICE, TIED, EDGE, LARGEST, SMALLEST = 1, 2, 35, 60, 40        # sheets that are made one by one
DAMAGED, BAD_R, BAD_WEIGHT = 18, 48, 83                         # those that are refused
WORKED = (limits.one_pair(80, 45, 100, 55, 100, 100, 1), limits.Frame(2, 1000, 480, 100, 150), [5000] * 3, [100, 200, 300])


def turn(choices, number):
    """One of the choices, in turn."""
    return choices[number % len(choices)]


def building(number):
    """Ground, frame, weights and heights of a sheet, by its number from 1."""
    ground, kinds = BLOCKS[(number - 1) // OF_BLOCK]
    kind, levels, storey = turn(kinds, number), 1 + 7 * number % 17, 30 + 3 * number % 13
    floor = 900 + 150 * (11 * number % 19)
    weights, heights = [*[floor] * (levels - 1), floor * 8 // 10], [45 + storey * level for level in range(levels)]
    t = response.approximate_period(kind, heights[-1])
    period = t * turn((0, 12, 0, 10, 0, 16), number) // 10          # of an analysis, where there is one; 16 tenths are cut
    frame = limits.Frame(kind, period, turn(R[kind], number), turn(IMPORTANCE, number), turn(ALPHA_Y[kind], number))
    return ground, frame, weights, heights


def made():
    """The sheets that are made one by one, by their numbers."""
    ground, frame, *levels = WORKED
    hospital = limits.one_pair(70, 40, 90, 50, 100, 100, 1), limits.Frame(1, 0, 480, 150, 125), [3200] * 3, [40, 78, 116]
    pumps = limits.one_pair(80, 45, 100, 55, 150, 200, 1), limits.Frame(4, 0, 100, 150, 100), [400], [50]
    slender = limits.one_pair(50, 30, 70, 40, 100, 100, 1), limits.Frame(1, 0, 600, 100, 200), [1100] * 40, [45 * level for level in range(1, 41)]
    return {OFFICE: WORKED, TIED: (ground, frame._replace(R=400), *levels), EDGE: hospital, LARGEST: pumps, SMALLEST: slender}


def damaged(number, data):
    """A sheet with a decimal point in a height, with an R of 0.48, or with a weight that is too large; any other as it is."""
    lines = data.decode().split('\n')
    if number == DAMAGED:
        lines[3] = lines[3] + '.5'
    elif number == BAD_R:
        fields = lines[1].split('\t')
        lines[1] = '\t'.join((*fields[:3], '48', *fields[4:]))
    elif number == BAD_WEIGHT:
        lines[3] = '\t'.join(('level', '21500', lines[3].split('\t')[2]))
    return '\n'.join(lines).encode()


def hundred():
    """The sheets."""
    by_hand = made()
    return [damaged(number, sheet.write(*by_hand.get(number, building(number)))) for number in range(1, OF_BLOCK * len(BLOCKS) + 1)]


def file_of_sheets():
    """The bytes of the file."""
    return sheets.write(hundred())


if __name__ == '__main__':
    SHEETS.write_bytes(file_of_sheets())
    LISTING.write_bytes(sheets.listing(file_of_sheets()))
