"""The sheets of the Basin among those of the program `run_sheets`: `basin` in place of `site`."""

import random

from tests.draws.basin import corner_strata, named
from tests.draws.plain_jobs import draw_basin
from tests.draws.sample import draw_in
from tests.draws.strata import governed_by
from tests.model import limits, sheet

SEED, ZONE = 1, 3
FRAME, LEVELS = (2, 1000, 480, 100, 150), ([5000] * 3, [100, 200, 300])
WORKED = sheet.write(limits.Basin(ZONE), FRAME, *LEVELS)
LINES = WORKED.splitlines(keepends=True)
BASIN, FRAME_LINE, LEVEL = LINES[:3]
SITE = b'site\t80\t45\t100\t55\t100\t100\t1\n'
REST = WORKED[len(BASIN):]


def zones():
    """The worked sheet in each zone, and in zones that there are none of."""
    yield from ((f'zone_{zone}', sheet.write(limits.Basin(zone), FRAME, *LEVELS)) for zone in (*limits.ZONE, 0, 5, 10, 41, 999_999_999))


def lines_otherwise():
    """A `basin` line that is not as laid out."""
    changes = {
        'no_number': b'basin\n', 'empty_number': b'basin\t\n', 'two_numbers': b'basin\t3\t1\n', 'tab_at_the_end': b'basin\t3\t\n',
        'two_tabs': b'basin\t\t3\n', 'blank_for_tab': b'basin 3\n', 'blank_first': b' basin\t3\n', 'blank_at_the_end': b'basin\t3 \n',
        'tab_first': b'\tbasin\t3\n', 'no_tab': b'basin3\n', 'minus': b'basin\t-3\n', 'plus': b'basin\t+3\n',
        'leading_zero': b'basin\t03\n',
        'two_zeros': b'basin\t00\n', 'point': b'basin\t3.\n', 'letter': b'basin\tA\n', 'ten_digits': b'basin\t1000000000\n',
        'two_to_the_32_and_3': b'basin\t4294967299\n', 'two_to_the_64_and_3': b'basin\t18446744073709551619\n',
        'seven_numbers': b'basin' + SITE[4:], 'site_with_one_number': b'site\t3\n', 'site_and_zone': SITE[:-1] + b'\t3\n',
        'capital': b'Basin\t3\n', 'upper_case': b'BASIN\t3\n', 'long_word': b'basins\t3\n', 'short_word': b'basi\t3\n',
        'last_letter': b'basim\t3\n',
        'another_word': b'zone\t3\n', 'cr': b'basin\t3\r\n', 'nul_in_the_number': b'basin\t3\0\n', 'nul_in_the_word': b'bas\0n\t3\n',
        'byte_order_mark': b'\xef\xbb\xbf' + BASIN, 'empty_line_first': b'\n' + BASIN, 'lf_for_tab': b'basin\n3\n',
    }
    yield from ((name, line + REST) for name, line in changes.items())


def lines_elsewhere():
    """A `basin` line alone, twice, beside a `site` line, or where it does not belong."""
    yield 'only', BASIN
    yield 'only_no_lf', BASIN[:-1]
    yield 'frame_without_lf', BASIN + FRAME_LINE[:-1]
    yield 'no_frame', BASIN + LEVEL
    yield 'frame_first', FRAME_LINE + BASIN + LEVEL
    yield 'twice', BASIN + BASIN + REST
    yield 'then_site', BASIN + SITE + REST
    yield 'after_site', SITE + BASIN + REST
    yield 'after_frame', BASIN + FRAME_LINE + BASIN + LEVEL
    yield 'at_the_end', SITE + REST + BASIN
    yield 'no_lf_at_the_end', WORKED[:-1]
    yield 'extra_lf', WORKED + b'\n'
    yield 'cr_lf', WORKED.replace(b'\n', b'\r\n')


def several():
    """Several refusals at once: 17, 16, 1 to 4, 18, 8 to 12; 18 stands before 8 and after 4."""
    bad_zone, bad_frame = b'basin\t5\n', b'frame\t5\t60001\t99\t99\t99\n'
    yield 'bad_zone_and_frame', bad_zone + bad_frame + LEVEL
    yield 'bad_frame', BASIN + bad_frame + LEVEL
    yield 'bad_zone_and_period', bad_zone + FRAME_LINE.replace(b'1000', b'60001') + LEVEL
    yield 'bad_zone_and_weight', bad_zone + FRAME_LINE + LEVEL + b'level\t20001\t200\n'
    yield 'bad_zone_and_height', bad_zone + FRAME_LINE + LEVEL + LEVEL
    yield 'bad_zone_no_level', bad_zone + FRAME_LINE
    yield 'bad_zone_51_levels', bad_zone + FRAME_LINE + b''.join(b'level\t1\t%d\n' % (2 * number) for number in range(1, 52))
    yield 'bad_zone_and_line_4', bad_zone + FRAME_LINE + LEVEL + b'level\t1\n'
    yield 'bad_zone_4097_bytes', (bad_zone + FRAME_LINE + b'level\t1\t1\n' * 500)[:4_097]
    yield 'bad_zone_4096_bytes', (bad_zone + FRAME_LINE + b'level\t1\t1\n' * 500)[:4_096]
    yield 'heaviest', sheet.write(limits.Basin(1), (4, 400, 100, 150, 100), [20_000] * 50, range(1_951, 2_001))


def drawn():
    """Of each zone a sheet a millisecond beside each part of the corner, above in zones 1 and 3, below in 2 and 4; each shear governing."""
    rng = random.Random(SEED)
    for zone in limits.ZONE:
        strata = [*list(corner_strata(zone))[zone % 2 * 2::3], *(governed_by(name) for name in ('V', 'V_M', 'V_star'))]
        for number, stratum in enumerate(strata):
            yield f'drawn_{zone}_{number}', sheet.write(*draw_in(rng, named(stratum, zone), draw_basin))


def basin_sheets():
    """All of them."""
    for part in (zones, lines_otherwise, lines_elsewhere, several, drawn):
        yield from ((f'basin_{name}', data) for name, data in part())
