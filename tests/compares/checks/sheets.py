"""The sheet: the listings byte for byte, refusals 16 and 17, and 1 to 12 and 18 through a sheet."""

from tests.model import limits, sheet

SHEET = (b'site\t80\t45\t100\t55\t100\t100\t1\nframe\t2\t1000\t480\t100\t150\n'
         b'level\t5000\t100\nlevel\t5000\t200\nlevel\t5000\t300\n')
LISTING = (b'base\t909704\t818453\t1071429\t1071429\t1000\nlevel\t3\t573215\t573215\t57321500\n'
           b'level\t2\t332143\t905358\t147857300\nlevel\t1\t166071\t1071429\t255000200\n')
SITE, FRAME, LEVEL = SHEET.splitlines(keepends=True)[:3]
BASIN = b'basin\t3\n'
BASIN_SHEET = BASIN + SHEET[len(SITE):]
BASIN_LISTING = (b'base\t1522143\t1248292\t1714286\t1714286\t1000\nlevel\t3\t917144\t917144\t91714400\n'
                 b'level\t2\t531428\t1448572\t236571600\nlevel\t1\t265714\t1714286\t408000200\n')
BAD_BASINS = (
    b'\n', b'basin\n', b'basin\t\n', b'basin 3\n', b'basin\t\t3\n', b'basin\t3\t\n', b'basin\t3\t1\n', b'basin\t3 \n', b' basin\t3\n',
    b'\tbasin\t3\n', b'basin\t03\n', b'basin\t00\n', b'basin\t+3\n', b'basin\t-3\n', b'basin\t3.0\n', b'basin\t3\r\n', b'Basin\t3\n',
    b'BASIN\t3\n', b'basins\t3\n', b'basi\t3\n', b'basin3\n', b'basin\tthree\n', b'basin\t1000000000\n', b'basin\t4294967299\n',
    b'basin\t18446744073709551619\n', b'basin\t3\x00\n', b'\xef\xbb\xbfbasin\t3\n', b'basin\t\xd9\xa3\n',
    b'basin\t80\t45\t100\t55\t100\t100\t1\n',
    b'site\t3\n', b'zone\t3\n', b'frame\t3\n', b'level\t3\n', b'basin\tsite\n', SITE[:-1] + b'\t3\n', b'basin\t3' + SITE[4:],
)
ZONES = {0: (18, 0), 5: (18, 0), 10: (18, 0), 999_999_999: (18, 0)}
BASIN_WHOLE = (
    (BASIN, (16, 2)), (BASIN[:-1], (16, 1)), (BASIN + b'\n', (16, 2)), (BASIN + SITE + FRAME + LEVEL, (16, 2)),
    (SITE + BASIN + FRAME + LEVEL, (16, 2)), (BASIN + BASIN + FRAME + LEVEL, (16, 2)), (FRAME + BASIN + LEVEL, (16, 1)),
    (BASIN + LEVEL, (16, 2)), (BASIN + FRAME, (1, 0)), (BASIN + FRAME[:-1], (16, 2)), (BASIN + FRAME + BASIN, (16, 3)),
    (BASIN + FRAME + LEVEL + BASIN, (16, 4)), (BASIN + FRAME + LEVEL * 51, (1, 0)), (BASIN + FRAME + LEVEL + LEVEL, (4, 2)),
    (BASIN + FRAME + b'level\t0\t1\n', (3, 1)), (BASIN_SHEET + b'\n', (16, 6)), (BASIN_SHEET.replace(b'\n', b'\r\n'), (16, 1)),
    (BASIN_SHEET + b'x' * 4096, (17, 0)),
    # several at once: 17, 16, 1 to 4, 18, 8 to 12
    (b'basin\t5\n' + FRAME + b'level\t0\t1\n', (3, 1)), (b'basin\t5\n' + FRAME + b'level\t1\t0\n', (4, 1)), (b'basin\t5\n' + FRAME, (1, 0)),
    (b'basin\t0\nframe\t5\t60001\t99\t99\t99\n' + LEVEL, (18, 0)), (b'basin\t1\nframe\t5\t60001\t99\t99\t99\n' + LEVEL, (8, 0)),
    (b'basin\t5\n' + FRAME + b'level\t1\n', (16, 3)), (b'basin\t5\n' + FRAME[:-1], (16, 2)),
)
BAD_LEVELS = (
    b'\n', b'level\n', b'level\t1\n', b'level\t1\t\n', b'level\t\t1\n', b'level\t1\t1\t1\n',
    b'level\t1\t1\t\n', b'level 1 1\n', b'level\t\t1\t1\n', b'level\t1\t1\r\n', b'Level\t1\t1\n',
    b' level\t1\t1\n', b'level\t1\t1 \n', b'level\t01\t1\n', b'level\t00\t1\n', b'level\t+1\t1\n',
    b'level\t-1\t1\n', b'level\t1.0\t1\n', b'levels\t1\t1\n', b'level\t1234567890\t1\n',
    b'level\t1\t0000000001\n', b'level\t1\x00\t1\n', b'\tlevel\t1\t1\n', b'level\t\xd9\xa1\t1\n',
    b'level\t1_0\t1\n', b'\xef\xbb\xbflevel\t1\t1\n', b'level\t1\x0b\t1\n', b'level\t1\t1', SITE, FRAME,
)
LEVELS = (
    (b'level\t0\t100\n', (3, 1)), (b'level\t999999999\t100\n', (3, 1)), (b'level\t1\t0\n', (4, 1)),
    (b'level\t1\t999999999\n', (4, 1)), (LEVEL + LEVEL, (4, 2)), (LEVEL * 51, (1, 0)), (b'', (1, 0)),
    (LEVEL * 77 + b'level\n', (16, 80)),
)
WHOLE = (
    (b'', (16, 1)), (b'\n', (16, 1)), (SITE, (16, 2)), (SITE[:-1], (16, 1)), (FRAME, (16, 1)),
    (SITE + b'\n', (16, 2)), (SITE + LEVEL, (16, 2)), (SITE + FRAME[:-1], (16, 2)),
    (SITE + SITE + LEVEL, (16, 2)), (SHEET + b'\n', (16, 6)), (b'\xef\xbb\xbf' + SHEET, (16, 1)),
    (SHEET.replace(b'\n', b'\r\n'), (16, 1)), (SITE * 2 + b'level', (16, 2)),
    (SITE[:-1] + b'\t1\n' + FRAME + LEVEL, (16, 1)), (SITE + FRAME[:-1] + b'\t1\n' + LEVEL, (16, 2)),
)
OUT_OF_RANGE = (
    (b'\t80\t', b'\t81\t', (5, 1)), (b'\t45\t', b'\t46\t', (5, 2)), (b'\t100\t55', b'\t60\t55', (5, 3)),
    (b'\t55\t', b'\t56\t', (5, 4)), (b'\t100\t100\t1\n', b'\t99\t100\t1\n', (6, 1)),
    (b'\t100\t1\n', b'\t201\t1\n', (6, 2)), (b'\t100\t1\n', b'\t100\t0\n', (7, 0)),
    (b'\t480\t', b'\t601\t', (8, 0)), (b'\t100\t150\n', b'\t101\t150\n', (9, 0)),
    (b'\t150\n', b'\t201\n', (10, 0)), (b'frame\t2', b'frame\t5', (11, 0)),
    (b'\t1000\t', b'\t60001\t', (12, 0)), (b'\t1000\t', b'\t999999999\t', (12, 0)),
)


def padded(length):
    """A sheet of exactly this many bytes: good lines, far too many levels."""
    lines, more = divmod(length - len(SITE + FRAME), len(b'level\t1\t1\n'))
    weight, height = b'1' * (1 + min(more, 8)), b'1' * (1 + max(more - 8, 0))
    return SITE + FRAME + b'level\t1\t1\n' * (lines - 1) + b'level\t' + weight + b'\t' + height + b'\n'


def cut(data, length):
    """What a sheet's first bytes give; a listing by its first word."""
    printed = sheet.shear(data[:length])
    return b'base' if printed.startswith(b'base\t') else printed


def cut_answer(data, length):
    """What they should give: "a last line without LF, is 16 at its own number"; "no level line is 1"."""
    lines, whole = data[:length].count(b'\n'), data[:length].endswith(b'\n')
    if whole and lines >= 3:
        return b'base'
    return sheet.refused(1, 0) if whole and lines == 2 else sheet.refused(16, lines + 1)


def spoilt(data, position, byte):
    """A sheet with one byte put in place of another."""
    return data[:position] + byte + data[position + 1:]


def cut_and_spoilt(data):
    """A sheet cut off after every byte, and with every byte changed."""
    for length in range(len(data) + 1):
        yield f'first {length} bytes of {data[:7]!r}', lambda length=length: cut(data, length), cut_answer(data, length)
    for position in range(len(data)):
        wanted = sheet.refused(16, data[:position].count(b'\n') + 1)
        for byte in (b'x', b' ', b'\r', b'\xff'):
            yield f'{byte!r} at {position} of {data[:7]!r}', lambda p=position, b=byte: sheet.shear(spoilt(data, p, b)), wanted


def basin_sheets():
    """The `basin` line in place of `site`: as laid out, otherwise, a zone out of range, several at once."""
    yield 'the listing, zone 3', lambda: sheet.shear(BASIN_SHEET), BASIN_LISTING
    for line in BAD_BASINS:
        yield f'line {line!r}', lambda data=line + FRAME + LEVEL: sheet.shear(data), sheet.refused(16, 1)
    for zone, wanted in ZONES.items():
        yield f'zone {zone}', lambda zone=zone: sheet.shear(BASIN_SHEET.replace(b'3', b'%d' % zone, 1)), sheet.refused(*wanted)
    for data, wanted in BASIN_WHOLE:
        yield f'sheet {data[:60]!r}', lambda data=data: sheet.shear(data), sheet.refused(*wanted)
    for old, new, wanted in OUT_OF_RANGE:
        if old in FRAME and SHEET.replace(old, new).startswith(SITE):
            yield f'Basin, {new!r}', lambda old=old, new=new: sheet.shear(BASIN_SHEET.replace(old, new)), sheet.refused(*wanted)
    yield 'written', lambda: sheet.write(limits.Basin(3), (2, 1000, 480, 100, 150), [5000] * 3, [100, 200, 300]), BASIN_SHEET


def checks():
    """All checks of the sheet."""
    yield 'the listing', lambda: sheet.shear(SHEET), LISTING
    yield from basin_sheets()
    for data, wanted in WHOLE:
        yield f'sheet {data!r}', lambda data=data: sheet.shear(data), sheet.refused(*wanted)
    for line in BAD_LEVELS:
        last = SITE + FRAME + LEVEL + line
        yield f'line {line!r}', lambda data=last: sheet.shear(data), sheet.refused(16, 4)
    for levels, wanted in LEVELS:
        yield f'{levels[:30]!r}', lambda data=SITE + FRAME + levels: sheet.shear(data), sheet.refused(*wanted)
    for old, new, wanted in OUT_OF_RANGE:
        yield f'{new!r}', lambda data=SHEET.replace(old, new): sheet.shear(data), sheet.refused(*wanted)
    yield from cut_and_spoilt(SHEET)
    yield from cut_and_spoilt(BASIN_SHEET)
    yield 'length', lambda: [len(padded(length)) for length in range(4080, 4100)], list(range(4080, 4100))
    for length, wanted in ((4095, (1, 0)), (4096, (1, 0)), (4097, (17, 0)), (9000, (17, 0))):
        yield f'{length} bytes', lambda n=length: sheet.shear(padded(n)), sheet.refused(*wanted)
    yield '4,096 bytes, bad', lambda: sheet.shear(b'x' * 4096), sheet.refused(16, 1)
    yield '4,097 bytes, bad', lambda: sheet.shear(b'x' * 4097), sheet.refused(17, 0)
    yield 'refused line', lambda: sheet.shear(b''), b'refused\t16\t1\n'
