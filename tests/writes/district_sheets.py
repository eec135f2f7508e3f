"""Writes a file of sheets for the program `district`, and what the model prints for it (Wish 9).

usage: python3 -m tests.writes.district_sheets        rewrites crates/district/stdin and crates/district/stdout

Every refusal of a sheet is there, and sheets that are taken stand between them: on a site by seven and by nine numbers, in the Basin, with shears
that tie, in the first and in the last cell that a job can be in, and at the edge of a cell. An empty line stands at the front, two stand in a row
between sheets, and the last line has no LF.
"""

import itertools
import pathlib
import random

from tests.draws import district_jobs as one
from tests.model import sheets
from tests.model.sheet import MOST_BYTES, write
from tests.writes.refusal_sheets import BASIN, SITE, written
from tests.writes.sheet_cases import WORKED, filled

HERE = pathlib.Path(__file__).resolve().parents[2] / 'crates' / 'district'
SEED = 9


def taken():
    """Sheets that are taken."""
    rng = random.Random(SEED)
    yield from (WORKED, written(SITE, {}), written(BASIN, {}), written(SITE, {'count': 50}))
    yield from (write(*one.few_levels(one.tied(rng, name), 2)) for name in one.TIES)
    yield from (write(*one.few_levels(draw_one(rng), 1)) for draw_one in (one.largest, one.smallest, one.at_exact_edge))
    yield from (write(*one.at_edge(rng, newtons)) for newtons in (0, 1))


def refused():
    """A sheet for each refusal that a sheet can get: 17, 16 at several lines, 1, 3 to 12, 18."""
    yield from (filled(MOST_BYTES + 1), filled(MOST_BYTES), b'x' * (MOST_BYTES - 1) + b'\n')
    lines = WORKED.splitlines(keepends=True)
    yield from (b'', lines[0], b''.join(lines[:2]), WORKED.replace(b'frame', b'Frame'), WORKED.replace(b'\t200\n', b'\t0200\n'))
    yield from (WORKED.replace(b'\n', b'\r\n'), WORKED + b' \n', WORKED + b'\r\n' + WORKED)
    changes = ({'count': 51}, {'weight': 20_001, 'level': 3}, {'height': 1_001}, {'SSM': 60}, {'NVM': 201}, {'cls': 4}, {'R': 99}, {'I': 110}, {'alphay': 201},
               {'kind': 0}, {'calculated_period': 60_001})
    yield from (written(SITE, change) for change in changes)
    yield written(BASIN, {'zone': 5})


def file_of_sheets():
    """All of them, refused and taken by turns, after an empty line; the last without its LF."""
    by_turns = itertools.chain(*itertools.zip_longest(refused(), taken()))
    return sheets.write([b'', *(each for each in by_turns if each is not None), WORKED])[:-2]


def stored(folder=HERE):
    """What the file stdout says."""
    return (folder / 'stdout').read_bytes()


def write_files(folder=HERE):
    """Write both files, and say how many sheets there are."""
    data = file_of_sheets()
    folder.mkdir(exist_ok=True)
    (folder / 'stdin').write_bytes(data)
    (folder / 'stdout').write_bytes(sheets.listing(data))
    print(len(sheets.parts(data)), 'sheets,', len(data), 'bytes')


if __name__ == '__main__':
    write_files()
