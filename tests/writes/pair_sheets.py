"""The sheets with a pair of near-fault factors for each level among those of the program `run_sheets`, and line 1 with other counts of
numbers."""

import random

from tests.draws import pairs
from tests.draws.plain_jobs import draw_pairs
from tests.draws.sample import draw_in
from tests.model import limits, sheet

SEED = 1
MAPPED, CLASS = (80, 45, 100, 55), 1
FIRST, SECOND = (120, 150), (110, 130)      # pairs
NEAR = limits.Site(*MAPPED, *FIRST, *SECOND, CLASS)
FRAME, LEVELS = (2, 1000, 480, 100, 150), ([5000] * 3, [100, 200, 300])
LINES = sheet.write(NEAR, FRAME, *LEVELS).splitlines(keepends=True)
SITE, FRAME_LINE, LEVEL = LINES[:3]
REST = b''.join(LINES[1:])
NUMBERS = SITE[:-1].split(b'\t')[1:]


def line_of(numbers, word=b'site'):
    """A line of a word and its numbers."""
    return b'\t'.join([word, *(b'%d' % each if isinstance(each, int) else each for each in numbers)]) + b'\n'


def put(place, text):
    """Line 1 with another number at a place."""
    return line_of([*NUMBERS[:place], text, *NUMBERS[place + 1:]])


def both_ways():
    """Each pair for each level, by nine numbers; one pair for both by seven and by nine."""
    for name, first, second in (('near', FIRST, SECOND), ('turned', SECOND, FIRST), ('design_alone', FIRST, (100, 100)),
                                ('mce_alone', (100, 100), FIRST), ('largest', (150, 200), (150, 199)),
                                ('largest_mce', (149, 200), (150, 200))):
        yield name, line_of((*MAPPED, *first, *second, CLASS)) + REST
    for name, pair in (('none', (100, 100)), ('first', FIRST), ('second', SECOND)):
        yield f'{name}_by_seven', line_of((*MAPPED, *pair, CLASS)) + REST
        yield f'{name}_by_nine', line_of((*MAPPED, *pair, *pair, CLASS)) + REST


def counts():
    """No number to 20 numbers on line 1; eight and ten by a number put behind."""
    yield from ((f'numbers_{count}', line_of((NUMBERS * 3)[:count]) + REST) for count in (*range(13), 20))
    by_seven = (*MAPPED, *FIRST, CLASS)
    for value in (0, 1, 2, 3, 100):
        yield f'eight_with_{value}', line_of((*by_seven, value)) + REST
        yield f'ten_with_{value}', line_of((*NEAR, value)) + REST
    yield 'eight_no_class', line_of(NEAR[:-1]) + REST
    yield 'eight_three_factors', line_of((*MAPPED, *FIRST, 110, CLASS)) + REST
    yield 'eight_bad_factor', line_of((*MAPPED, 99, 99, CLASS, 1)) + REST
    yield 'ten_bad_factor', line_of((*MAPPED, *FIRST, 99, 99, CLASS, 1)) + REST


def out_of_range():
    """Each of the nine numbers at 0 and with nine digits; both sides of each factor; two factors at once; seven numbers with a bad pair."""
    for place, name in enumerate(limits.Site._fields):
        yield f'{name}_0', put(place, b'0') + REST
        yield f'{name}_nine_digits', put(place, b'999999999') + REST
    for name, allowed in limits.FACTORS.items():
        place = limits.Site._fields.index(name)
        yield from ((f'{name}_{value}', put(place, value) + REST) for value in (allowed[0] - 1, allowed[0], allowed[-1], allowed[-1] + 1))
    bad = {f'{one}_and_{other}': {one: 99, other: 201} for one in limits.FACTORS for other in limits.FACTORS if one < other}
    bad |= {'SSM_and_NAM': {'SSM': 60, 'NAM': 99}, 'NVM_and_class': {'NVM': 99, 'cls': 4}, 'NA_160_NV_160': {'NA': 160, 'NV': 160},
            'NAM_160_NVM_160': {'NAM': 160, 'NVM': 160}, 'every_factor': dict.fromkeys(limits.FACTORS, 99)}
    yield from ((f'bad_{name}', line_of(NEAR._replace(**changes)) + REST) for name, changes in bad.items())
    for name, pair in (('NA', (99, 100)), ('NV', (100, 99)), ('NA_151', (151, 100)), ('NV_201', (100, 201)), ('both', (99, 99)),
                       ('160', (160, 160))):
        yield f'by_seven_bad_{name}', line_of((*MAPPED, *pair, CLASS)) + REST


def lines_otherwise():
    """A line of nine numbers that is not as laid out."""
    for place, number in enumerate(NUMBERS):
        changes = {'leading_zero': b'0' + number, 'empty': b'', 'ten_digits': b'1000000000'}
        yield from ((f'{name}_{place + 1}', put(place, text) + REST) for name, text in changes.items())
    changes = {
        'two_zeros': put(6, b'00'), 'plus': put(7, b'+130'), 'minus': put(6, b'-110'), 'blank': put(7, b'130 '), 'point': put(6, b'1.1'),
        'two_to_the_32': put(6, b'4294967406'), 'two_to_the_64': put(7, b'18446744073709551746'),
        'tab_at_the_end': SITE[:-1] + b'\t\n', 'blank_at_the_end': SITE[:-1] + b' \n', 'two_tabs': SITE.replace(b'\t', b'\t\t', 1),
        'tab_first': b'\t' + SITE, 'blank_for_tab': SITE.replace(b'\t110', b' 110'), 'cr': SITE[:-1] + b'\r\n', 'nul': put(7, b'130\0'),
        'letter': put(6, b'1l0'), 'capital': b'Site' + SITE[4:], 'long_word': b'sites' + SITE[4:], 'short_word': b'sit' + SITE[4:],
        'no_tab': b'site' + SITE[5:], 'basin_nine_numbers': b'basin' + SITE[4:], 'frame_nine_numbers': b'frame' + SITE[4:],
        'lf_within': SITE.replace(b'\t110', b'\n110'), 'byte_order_mark': b'\xef\xbb\xbf' + SITE,
    }
    yield from ((name, line + REST) for name, line in changes.items())


def elsewhere():
    """A line of nine numbers alone, without LF, twice, or where it does not belong."""
    yield 'only', SITE
    yield 'only_no_lf', SITE[:-1]
    yield 'twice', SITE + SITE + REST
    yield 'after_frame', FRAME_LINE + SITE + LEVEL
    yield 'at_the_end', SITE + REST + SITE
    yield 'no_lf_at_the_end', (SITE + REST)[:-1]
    yield 'cr_lf', (SITE + REST).replace(b'\n', b'\r\n')
    yield 'no_level', SITE + FRAME_LINE


def several():
    """N_A of MCE out of range with another refusal: 16, 1, 3 and 4 come first, 8 to 12 after it. Each factor with each other refusal
    alone: tests/writes/refusal_sheets.py."""
    bad, bad_frame = put(6, b'99'), b'frame\t5\t60001\t99\t99\t99\n'
    yield 'bad_and_frame', bad + bad_frame + LEVEL
    yield 'bad_and_period', bad + FRAME_LINE.replace(b'1000', b'60001') + LEVEL
    yield 'bad_and_weight', bad + FRAME_LINE + LEVEL + b'level\t20001\t200\n'
    yield 'bad_and_height', bad + FRAME_LINE + LEVEL + LEVEL
    yield 'bad_and_no_level', bad + FRAME_LINE
    yield 'bad_and_line_4', bad + FRAME_LINE + LEVEL + b'level\t1\n'
    yield 'bad_and_51_levels', bad + FRAME_LINE + b''.join(b'level\t1\t%d\n' % (2 * number) for number in range(1, 52))


def filled(length, first=SITE, cut=False):
    """A sheet of so many bytes with this line 1, every line of it as laid out, or its last one cut off."""
    line = b'level\t1\t1\n'
    count, more = divmod(length - len(first + FRAME_LINE), len(line))
    if cut:
        return (first + FRAME_LINE + line * (count + 1))[:length]
    last = b'level\t%s\t%s\n' % (b'1' * (1 + min(more, 8)), b'1' * (1 + max(more - 8, 0)))
    return first + FRAME_LINE + line * (count - 1) + last


def long_sheets():
    """4,095 to 4,097 bytes; the longest sheets that are accepted."""
    for length in (4_095, 4_096, 4_097):
        yield f'bytes_{length}', filled(length, cut=True)
        yield f'laid_out_bytes_{length}', filled(length)
    for name, first, second in (('heaviest', (150, 200), (100, 100)), ('heaviest_mce', (100, 100), (150, 200))):
        site = limits.Site(*MAPPED, *first, *second, 3)
        yield name, sheet.write(site, (4, 300, 100, 150, 100), [20_000] * 50, range(1_951, 2_001))


def damaged():
    """Line 1 with each byte taken away, and with each byte changed."""
    rng = random.Random(SEED)
    for place in range(len(SITE)):
        yield f'without_byte_{place:02}', SITE[:place] + SITE[place + 1:] + REST
    for place in range(len(SITE)):
        other = rng.choice([byte for byte in (*b'\t\n\r 0159x', 0, 255) if byte != SITE[place]])
        yield f'changed_byte_{place:02}', SITE[:place] + bytes([other]) + SITE[place + 1:] + REST


def drawn():
    """A sheet of every fourth stratum of two pairs."""
    rng = random.Random(SEED)
    for number, stratum in enumerate(pairs.plain_strata()[::4]):
        yield f'drawn_{number:02}', sheet.write(*draw_in(rng, stratum, draw_pairs))


def long_both_ways():
    """One pair for both levels by seven numbers and by nine: 4,096 bytes, as many as a sheet may have, which by nine are more; 50 levels, which
    are accepted."""
    seven, nine = line_of((*MAPPED, *FIRST, CLASS)), line_of((*MAPPED, *FIRST, *FIRST, CLASS))
    full = filled(sheet.MOST_BYTES, seven)
    assert len(full) == sheet.MOST_BYTES
    yield 'most_bytes_by_seven', full
    yield 'most_bytes_by_nine', full.replace(seven, nine)
    tall = FRAME_LINE + b''.join(b'level\t20000\t%d\n' % height for height in range(1_951, 2_001))
    yield 'tall_by_seven', seven + tall
    yield 'tall_by_nine', nine + tall


def pair_sheets():
    """All of them."""
    for part in (both_ways, counts, out_of_range, lines_otherwise, elsewhere, several, long_sheets, damaged, drawn, long_both_ways):
        yield from ((f'pairs_{name.lower()}', data) for name, data in part())
