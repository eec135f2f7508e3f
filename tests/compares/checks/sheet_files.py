"""Files of sheets (Wish 9): which sheets a file has, and what is printed of it, by hand."""

import random

from tests.compares.checks.sheets import BASIN_SHEET, SHEET
from tests.draws import sheet_files
from tests.model import sheet, sheets

SEED = 91
# a file: its sheets
PARTS = {
    b'': [], b'\n': [b''], b'\n\n': [b'', b''], b'a': [b'a'], b'a\n': [b'a\n'], b'a\n\n': [b'a\n'], b'a\n\n\n': [b'a\n', b''], b'\na': [b'', b'a'],
    b'a\n\nb': [b'a\n', b'b'], b'a\n\nb\n': [b'a\n', b'b\n'], b'a\n\nb\n\n': [b'a\n', b'b\n'], b'a\nb\n\nc\n': [b'a\nb\n', b'c\n'],
    b'a\n\n\nb\n\n': [b'a\n', b'', b'b\n'], b'\n\na\n\n': [b'', b'', b'a\n'], b'a\n \nb\n': [b'a\n \nb\n'], b'a\r\n\r\nb\r\n': [b'a\r\n\r\nb\r\n'],
    b'a\n\0\n\nb': [b'a\n\0\n', b'b'], b'\r\n': [b'\r\n'],
}
ROW_1, ROW_2 = b'0\t0\t909704\t818453\t1071429\t1071429\t1000\n', b'0\t0\t1522143\t1248292\t1714286\t1714286\t1000\n'
REFUSED = b'%d\t%d\t0\t0\t0\t0\t0\n'


def cells(**counts):
    """The lines of the cells, by the lowest thousandths of those that have a job."""
    return b''.join(b'cell\t%d\t%d\t%d\n' % (10 * place, 10 * place + 9, counts.get(f'from_{10 * place}', 0)) for place in range(113))


# a file: what is printed of it
PRINTED = {
    b'': b'report\t0\t0\t0\t0\t0\t0\n' + cells(),
    SHEET: b'row\t1\t' + ROW_1 + b'report\t1\t0\t1071429\t0\t0\t1\n' + cells(from_70=1),
    SHEET + b'\n' + BASIN_SHEET + b'\n': b'row\t1\t' + ROW_1 + b'row\t2\t' + ROW_2 + b'report\t2\t0\t2785715\t0\t0\t2\n' + cells(from_70=1, from_110=1),
    b'\n' + SHEET: b'row\t1\t' + REFUSED % (16, 1) + b'row\t2\t' + ROW_1 + b'report\t1\t1\t1071429\t0\t0\t1\n' + cells(from_70=1),
    SHEET + b'\n\n' + SHEET[:-1]: b'row\t1\t' + ROW_1 + b'row\t2\t' + REFUSED % (16, 1) + b'row\t3\t' + REFUSED % (16, 5)
    + b'report\t1\t2\t1071429\t0\t0\t1\n' + cells(from_70=1),
    SHEET + b'x' * 4096 + b'\n\n' + SHEET: b'row\t1\t' + REFUSED % (17, 0) + b'row\t2\t' + ROW_1 + b'report\t1\t1\t1071429\t0\t0\t1\n' + cells(from_70=1),
}
WHOLE = sheet.refused(22, 0)


def rows(data):
    """How many rows are printed, or that the whole is refused."""
    printed = sheets.listing(data)
    return WHOLE if printed == WHOLE else printed.count(b'row\t')


def as_single(data):
    """Every row says what the single sheet's listing says, and the lines are as many as they must be."""
    printed, every = sheets.listing(data), sheets.parts(data)
    if printed == WHOLE:
        return len(every) > 256 or len(data) > 256 * 4097
    lines = printed.split(b'\n')[:-1]
    for number, (line, each) in enumerate(zip(lines, every), 1):
        first = sheet.shear(each).split(b'\n')[0].split(b'\t')
        said = [b'0', b'0', *first[1:]] if first[0] == b'base' else [*first[1:], *[b'0'] * 5]
        if line != b'\t'.join([b'row', b'%d' % number, *said]):
            return False
    return len(lines) == len(every) + 1 + 113 and lines[len(every)].startswith(b'report\t')


def checks():
    """All checks of files of sheets."""
    for data, wanted in PARTS.items():
        yield f'sheets of {data!r}', lambda data=data: sheets.parts(data), wanted
    for data, wanted in PRINTED.items():
        yield f'printed of {data[:50]!r}', lambda data=data: sheets.listing(data), wanted
    yield 'the most bytes', lambda: sheets.MOST_BYTES, 1_048_832
    for count, wanted in ((255, 255), (256, 256), (257, WHOLE)):
        yield f'{count} empty lines', lambda count=count: rows(b'\n' * count), wanted
        yield f'{count} sheets', lambda count=count: rows(b'x\n\n' * (count - 1) + b'x'), wanted
    long = b'x' * 4_095 + b'\n\n'
    for data, wanted in ((long * 256, 256), (b'x' + long * 256, WHOLE), (b'x' * 1_048_832, 1), (b'x' * 1_048_833, WHOLE)):
        yield f'{len(data)} bytes', lambda data=data: rows(data), wanted
    rng = random.Random(SEED)
    for name, draw_one in {**sheet_files.STRATA, **sheet_files.LARGE}.items():
        yield name, lambda data=draw_one(rng): as_single(data), True
