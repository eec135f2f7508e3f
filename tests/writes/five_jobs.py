"""The district of examples/district.c and examples/district.py (Wish 9), as the manual shows it: five jobs over one store, and what both programs print."""

import pathlib
import re
from fractions import Fraction

from tests.model import district, limits
from tests.writes.by_hand.text import comma, decimal, table

SOURCE = pathlib.Path(__file__).resolve().parents[2] / 'examples' / 'district.c'
OFFICE, STEEL = limits.Frame(2, 1000, 480, 100, 150), limits.Frame(1, 0, 480, 125, 100)
NEAR_FAULT, NO_SITE = limits.Site(70, 40, 90, 50, 112, 123, 118, 136, 2), limits.Site(*[0] * 9)
STORE = [5000] * 3 + [3000] * 3 + [2500], [100, 200, 300, 40, 75, 110, 145]
JOBS = (district.DistrictJob(0, 0, limits.one_pair(80, 45, 100, 55, 100, 100, 1), OFFICE, 0, 3), district.DistrictJob(1, 3, NO_SITE, OFFICE, 0, 3),
        district.DistrictJob(0, 0, NEAR_FAULT, STEEL, 3, 4), district.DistrictJob(0, 0, NEAR_FAULT, STEEL._replace(R=200), 3, 4),
        district.DistrictJob(0, 0, limits.one_pair(60, 35, 80, 45, 100, 100, 3), limits.Frame(4, 0, 300, 100, 150), 5, 3))


def cell_words(V_D, W):
    """From where to where the cell of a job goes."""
    low = district.CELL * district.cell_of(V_D, W)
    return f'{comma(low)} to {comma(low + district.CELL - 1)}'


def district_lines():
    """What the programs print: rows, the report, and the cells that are not 0."""
    number, rows, (*totals, cells) = district.district(list(JOBS), *STORE, len(JOBS))
    assert number == 0
    lines = [('row', place, *row) for place, row in enumerate(rows, 1)] + [('report', *totals)]
    lines += [('cell', district.CELL * cell, district.CELL * cell + district.CELL - 1, count) for cell, count in enumerate(cells) if count]
    return ['\t'.join(map(str, line)) for line in lines]


def in_c():
    """The lists and the call, as the program in C has them."""
    text = SOURCE.read_text()
    counts = re.search(r'^enum {( JOBS = \d+, LEVELS = \d+), WIDTH = \d+ };$', text, re.M)[1]
    lists = re.search(r'^static const uint64_t weights.*?^    \{.*?\}\};$', text, re.M | re.S)[0]
    call = [line.strip() for line in text.split('\n') if re.match(r'    (RukeshomajiRow rows|RukeshomajiReport report;|uint64_t refused)', line)]
    assert len(call) == 3
    return '\n'.join(['```c', f'enum {{{counts} }};', '', *lists.split('\n'), '', *call, '```'])


def job_cells(job, answer):
    """Levels of a job's stretch, W, V_D over W and its cell."""
    last = job.start + job.count - 1
    levels = f'{job.start} to {last}'
    if answer.row.number:
        return f'{levels}; the store has 0 to {len(STORE[0]) - 1}', '', '', f'refused with {answer.row.number}'
    V_D, W = answer.row.V_D, answer.W
    return levels, comma(W), f'{comma(V_D)} / {comma(W)} = {decimal(Fraction(V_D, W))}', cell_words(V_D, W)


def jobs_table():
    """The jobs with their stretches; two and two share one, and the last is outside the store, which changes nothing for the others."""
    answers = district.answers_of(JOBS, *STORE)
    assert [each.row.number for each in answers] == [0, 0, 0, 0, district.OUTSIDE] and answers[:4] == district.answers_of(JOBS[:4], *STORE)
    assert JOBS[0][-2:] == JOBS[1][-2:] and JOBS[2][-2:] == JOBS[3][-2:]
    rows = [(str(number), str(job.start), str(job.count), *job_cells(job, each)) for number, (job, each) in enumerate(zip(JOBS, answers), 1)]
    return table(('job', 'start', 'count', 'levels of the store', 'W, kN', 'V_D / W, thousandths', 'cell'), rows)
