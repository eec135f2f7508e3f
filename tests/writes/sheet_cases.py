"""Writes the sheets of the program `run_sheets`, and the listings that the model gives them.

usage: python3 -m tests.writes.sheet_cases        rewrites crates/run_sheets/data and crates/run_sheets/stdout
"""

import pathlib
import random
import shutil

from tests.draws.sample import all_strata, draw_in
from tests.model import sheet
from tests.writes.basin_sheets import basin_sheets
from tests.writes.pair_sheets import pair_sheets
from tests.writes.refusal_sheets import refusal_sheets
from tests.writes.roof_sheets import roof_sheets

HERE = pathlib.Path(__file__).resolve().parents[2] / 'crates' / 'run_sheets'
SEED = 1
WORKED = sheet.write((80, 45, 100, 55, 100, 100, 1), (2, 1000, 480, 100, 150), [5000] * 3, [100, 200, 300])
LINES = WORKED.splitlines(keepends=True)
SITE, FRAME, LEVEL = LINES[:3]


def levels(count):
    """So many level lines, 2 dm apart."""
    return b''.join(b'level\t1\t%d\n' % (2 * (number + 1)) for number in range(count))


def padded(length):
    """A sheet of so many bytes, its last line otherwise."""
    good = SITE + FRAME + levels(50)
    return good + b'x' * (length - len(good))


def filled(length):
    """A sheet of so many bytes, every line of it as laid out."""
    sheet_bytes = SITE + FRAME
    while length - len(sheet_bytes) > 40:
        sheet_bytes += b'level\t1\t1\n'
    left = length - len(sheet_bytes)
    for size in [10] * (left // 10 - 1) + [10 + left % 10]:
        digits = size - len(b'level\t\t\n')
        first = min(digits - 1, 9)
        sheet_bytes += b'level\t%s\t%s\n' % (b'1' * first, b'1' * (digits - first))
    assert len(sheet_bytes) == length
    return sheet_bytes


def drawn():
    """One sheet of every stratum of the model's sample."""
    rng = random.Random(SEED)
    for number, stratum in enumerate(all_strata()):
        yield f'drawn_{number:02}', sheet.write(*draw_in(rng, stratum))


def counted():
    """0, 1, 2, 49, 50, 51, 60 and 200 levels."""
    for count in (0, 1, 2, 49, 50, 51, 60, 200):
        yield f'levels_{count}', SITE + FRAME + levels(count)


def laid_out_otherwise():
    """What is not as laid out, and what just is."""
    yield 'empty', b''
    yield 'lone_lf', b'\n'
    yield 'site_only', SITE
    yield 'site_only_no_lf', SITE[:-1]
    yield 'frame_without_lf', SITE + FRAME[:-1]
    yield 'frame_first', FRAME + SITE + LEVEL
    yield 'site_twice', SITE + SITE + FRAME + LEVEL
    yield 'extra_lf', WORKED + b'\n'
    yield 'empty_line_4', SITE + FRAME + LEVEL + b'\n' + LEVEL
    yield 'cr_lf', WORKED.replace(b'\n', b'\r\n')
    yield 'cr_on_line_4', SITE + FRAME + LEVEL + b'level\t5000\t200\r\n'
    yield 'byte_order_mark', b'\xef\xbb\xbf' + WORKED
    yield 'upper_case', WORKED.replace(b'level', b'Level')
    yield 'nul_at_the_end', WORKED + b'\0'
    yield 'nul_in_a_number', WORKED.replace(b'480', b'4\x0080')
    yield 'nul_only', b'\0' * 100
    for name, line in (('site', SITE), ('frame', FRAME), ('level', LEVEL)):
        rest = {'site': FRAME + LEVEL, 'frame': LEVEL, 'level': LEVEL}[name]
        before = {'site': b'', 'frame': SITE, 'level': SITE + FRAME}[name]
        fields = line[:-1].split(b'\t')
        changes = {'two_tabs': line.replace(b'\t', b'\t\t', 1), 'blank_at_the_end': line[:-1] + b' \n',
                   'tab_at_the_end': line[:-1] + b'\t\n', 'blank_first': b' ' + line, 'blank_for_tab': line.replace(b'\t', b' ', 1),
                   'one_number_less': b'\t'.join(fields[:-1]) + b'\n', 'one_number_more': line[:-1] + b'\t1\n',
                   'no_number': fields[0] + b'\n', 'empty_number': fields[0] + b'\t\n', 'minus': line.replace(b'\t', b'\t-', 1),
                   'plus': line.replace(b'\t', b'\t+', 1), 'leading_zero': line.replace(b'\t', b'\t0', 1),
                   'zero': b'\t'.join([fields[0], b'0', *fields[2:]]) + b'\n',
                   'two_zeros': b'\t'.join([fields[0], b'00', *fields[2:]]) + b'\n',
                   'nine_digits': b'\t'.join([fields[0], b'999999999', *fields[2:]]) + b'\n',
                   'ten_digits': b'\t'.join([fields[0], b'1000000000', *fields[2:]]) + b'\n',
                   'twenty_digits': b'\t'.join([fields[0], b'18446744073709551616', *fields[2:]]) + b'\n',
                   'last_two_tabs': b'\t'.join(fields[:-1]) + b'\t\t' + fields[-1] + b'\n',
                   'last_leading_zero': b'\t'.join(fields[:-1]) + b'\t0' + fields[-1] + b'\n',
                   'last_ten_digits': b'\t'.join(fields[:-1]) + b'\t1000000000\n',
                   'long_word': b'x' + line, 'short_word': line[1:], 'point': line.replace(b'0', b'.', 1)}
        yield from ((f'{name}_{change}', before + changed + rest) for change, changed in changes.items())


def long_sheets():
    """4,095, 4,096 and 4,097 bytes; a bad line 80 after 60 good ones; a bad weight on line 4."""
    for length in (4_095, 4_096, 4_097):
        yield f'bytes_{length}', padded(length)
        yield f'laid_out_bytes_{length}', filled(length)
    yield 'worked_and_4_096_blanks', WORKED + b' ' * 4_096
    yield 'bad_line_80', SITE + FRAME + levels(77) + b'level\t1\n' + levels(5)
    yield 'bad_line_63', SITE + FRAME + levels(60) + b'lever\t1\t1\n'
    yield 'bad_weight_on_line_4', SITE + FRAME + b'level\t5000\t100\nlevel\t0\t200\nlevel\t5000\t300\n'
    yield 'bad_weight_and_bad_line', SITE + FRAME + b'level\t5000\t100\nlevel\t0\t200\nlevel\t5000\t0300\n'
    yield 'bad_height_on_line_3', SITE + FRAME + b'level\t5000\t0\nlevel\t5000\t200\n'
    yield 'bad_class', WORKED.replace(b'\t1\n', b'\t4\n', 1)
    yield 'bad_period', WORKED.replace(b'\t1000\t', b'\t60001\t', 1)
    yield 'heaviest', sheet.write((80, 45, 100, 55, 150, 200, 3), (4, 1, 100, 150, 100), [20_000] * 50, range(1_951, 2_001))
    yield 'bad_height_on_line_5', SITE + FRAME + b'level\t5000\t100\nlevel\t5000\t200\nlevel\t5000\t200\n'


def damaged():
    """The worked sheet with each byte taken away, and with each byte changed."""
    rng = random.Random(SEED)
    for place in range(len(WORKED)):
        yield f'without_byte_{place:02}', WORKED[:place] + WORKED[place + 1:]
    for place in range(len(WORKED)):
        other = rng.choice([byte for byte in (*b'\t\n\r 0159x', 0, 255) if byte != WORKED[place]])
        yield f'changed_byte_{place:02}', WORKED[:place] + bytes([other]) + WORKED[place + 1:]


def random_bytes():
    """Random bytes, any and of a sheet's own."""
    rng = random.Random(SEED)
    for number in range(10):
        yield f'random_{number}', rng.randbytes(rng.choice((1, 10, 100, 1_000, 4_096, 4_097)))
        yield f'random_after_frame_{number}', SITE + FRAME + rng.randbytes(rng.choice((1, 10, 100)))
        yield f'own_bytes_after_frame_{number}', SITE + FRAME + bytes(rng.choice(LEVEL) for _ in range(12)) + LEVEL
        yield f'of_its_own_bytes_{number}', bytes(rng.choice(WORKED) for _ in range(rng.choice((10, 100, 1_000))))


def main():
    """Write the sheets, their names and their listings."""
    cases = [('worked', WORKED), *drawn(), *counted(), *laid_out_otherwise(), *long_sheets(), *damaged(), *random_bytes(), *basin_sheets(),
             *pair_sheets(), *roof_sheets(), *refusal_sheets()]
    assert len({name for name, _ in cases}) == len(cases)
    shutil.rmtree(HERE / 'data', ignore_errors=True)
    (HERE / 'data').mkdir()
    for name, data in cases:
        (HERE / 'data' / name).write_bytes(data)
    (HERE / 'data' / 'names').write_text(''.join(name + '\n' for name, _ in cases))
    (HERE / 'stdout').write_bytes(b''.join(name.encode() + b'\n' + sheet.shear(data) for name, data in cases))
    refused = sum(sheet.shear(data).startswith(b'refused') for _, data in cases)
    print(len(cases), 'sheets,', refused, 'of them refused')


if __name__ == '__main__':
    main()
