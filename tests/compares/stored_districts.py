"""The stored districts of the program `run_districts` (Wish 9), as tests/compares/stored_cases.py has the other cases: the calls, and their rows.

Of a stretch outside the store the count is judged, and so are the levels that the store has of it, to say what applies besides 21.
"""

import itertools

from tests.compares import stored_cases
from tests.compares.stored_cases import FRAME, NINE, level_refusals, made, named, plain_numbers
from tests.model import district, limits

CRATE, HEAD, JOB = 'run_districts', 6, 2 + NINE + FRAME + 2
WIDTH = len(district.Row._fields)


def job_of(numbers):
    """A job by its 18 numbers."""
    basin, zone, *rest = numbers
    return district.DistrictJob(basin, zone, limits.Site(*rest[:NINE]), limits.Frame(*rest[NINE:NINE + FRAME]), *rest[NINE + FRAME:])


def districts():
    """Each stored district: jobs, weights, heights, the rows there are, what a cell of them held, the first line said of it and the rows after."""
    count, all_rows = stored_cases.rows(CRATE)
    lines = iter(stored_cases.said_by(CRATE))
    assert len(all_rows) == count
    for jobs, given, weights, heights, room, old, *numbers in all_rows:
        places = range(0, given * JOB, JOB)
        each, store = [job_of(numbers[place:place + JOB]) for place in places], numbers[given * JOB:]
        assert len(store) == weights + heights
        said, *after = itertools.islice(lines, 1 + room)
        rows = [[int(word) for word in line.split('\t')[1:]] for line in after]
        assert next(lines).startswith('report') and all(len(row) == WIDTH for row in rows)
        yield [each[place % given] for place in range(jobs)], store[:weights], store[weights:], rows, old, said
    assert next(lines, None) is None


def whole_refusals(jobs, weights, heights, rows):
    """22 with its reasons."""
    yield from [('22, jobs', 0)] * (len(jobs) > district.MOST_JOBS)
    yield from [('22, lists', 0)] * (len(weights) != len(heights))
    yield from [('22, rows', 0)] * (len(rows) < len(jobs))


def calls():
    """The calls; rows that a call does not write are as they were."""
    for jobs, weights, heights, rows, old, said in districts():
        applies = [*whole_refusals(jobs, weights, heights, rows)]
        written = 0 if applies else len(jobs)
        assert all(row == [old] * WIDTH for row in rows[written:])
        yield made('', {'jobs': {len(jobs)}, 'lists': {len(heights) - len(weights)}, 'rows': {len(rows) - len(jobs)}}, applies, said)


def stretch_refusals(job, weights, heights):
    """21, then 1 to 4 of a stretch, in the order in which a row is refused."""
    levels = slice(job.start, job.start + job.count)
    found = [*level_refusals(weights[levels], heights[levels], ())]
    if not district.outside(job.start, job.count, len(weights)):
        return found
    counted = [('1, no level', 0)] * (job.count == 0) + [('1, over 50', 0)] * (job.count > limits.LEVELS[-1])
    return [('21', 0), *counted, *(each for each in found if each[0] in ('3', '4'))]


def row_case(job, weights, heights, row):
    """A row, as a case on its ground."""
    ground, length = job.ground(), len(weights)
    refusals = [*stretch_refusals(job, weights, heights), *named(limits.ground_refusals(ground)), *named(limits.frame_refusals(job.frame))]
    numbers = plain_numbers(ground, job.frame) | {'levels': {job.count}, 'start': {job.start - length}}
    if job.start <= length:
        numbers['count'] = {job.count - (length - job.start)}
    number, place, *figures = row
    assert bool(number) != any(figures)
    return made(type(ground).__name__, numbers, refusals, f'refused\t{number}\t{place}' if number else 'taken')


def rows():
    """The rows of the calls that are taken, of equal jobs one."""
    for jobs, weights, heights, after, _, said in districts():
        if said == 'taken':
            yield from (row_case(job, weights, heights, row) for job, row in dict(zip(jobs, after)).items())
