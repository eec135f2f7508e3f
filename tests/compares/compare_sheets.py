"""The sheets of the comparison: stored ones, drawn ones, sound and damaged, and jobs by seven numbers and by nine."""

import random

from tests.compares import core
from tests.compares.tally import refusal_words
from tests.draws import damage
from tests.draws.plain_jobs import draw
from tests.model import sheet

NAMED = (7, 8, 9, 10)       # counts of numbers on a site line that are said


def numbers_on_line_1(data):
    """How many fields follow the word."""
    return data.split(b'\n', 1)[0].count(b'\t')


def stratum_of(data, printed):
    """What the model prints first, after the word that the sheet begins with, or how many numbers follow it."""
    first = printed.split()
    words = 'sheet listed' if first[0] == b'base' else 'sheet refused ' + refusal_words(*map(int, first[1:]))
    if data.startswith(b'basin'):
        return f'Basin: {words}'
    count = numbers_on_line_1(data) if data.startswith(b'site') else 0
    return f'{count} numbers: {words}' if count in NAMED else words


def compare_sheet(tally, library, data):
    """One sheet; what the core says of it."""
    expected = sheet.shear(data)
    refused = map(int, expected.split()[1:]) if expected.startswith(b'refused') else (0, 0)
    got = core.sheet(library, data)
    tally.compare(stratum_of(data, expected), data, got, ((*refused, len(expected)), expected, True))
    return got


def run_stored_sheets(library, tally, seed, count):
    """The sheets of the program `run_sheets`."""
    for path in sorted((core.ROOT / 'crates' / 'run_sheets' / 'data').iterdir()):
        compare_sheet(tally, library, path.read_bytes())


def run_sheets(library, tally, seed, count):
    """Sheets, sound and damaged."""
    rng = random.Random(seed)
    for _ in range(count):
        compare_sheet(tally, library, damage.drawn(rng))


def run_both_ways(library, tally, seed, count):
    """Jobs with one pair for both levels, by seven numbers and by nine: one listing; with one number more, 16 at 1."""
    rng = random.Random(seed)
    for _ in range(count):
        job = draw(rng)
        seven, nine = sheet.write(*job), sheet.write(*job, in_full=True)
        assert (numbers_on_line_1(seven), numbers_on_line_1(nine)) == (7, 9)
        by_seven, by_nine = (compare_sheet(tally, library, data) for data in (seven, nine))
        tally.compare('sheet, the same by 7 numbers and by 9', nine, by_nine, by_seven)
        for data in (seven, nine):
            more = damage.one_number_more(rng, data)
            said, _, _ = compare_sheet(tally, library, more)
            tally.compare('sheet, 16 at 1 by 8 or 10 numbers', more, said and said[:2], (16, 1))
