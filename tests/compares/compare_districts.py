"""The districts of the comparison (Wish 9): rows and report; each row beside the single call on its stretch; a district with another job in one
job's place."""

import random

from tests.compares import core
from tests.compares.parts import chunks
from tests.compares.tally import refusal_words
from tests.draws import district_faults, districts as drawn
from tests.draws.stretches import made_bad
from tests.model import district
from tests.writes import districts as stored

A_DISTRICT, OF_MANY = 150, 20       # of a stratum, and of one of many jobs
OLD = 7_000_000                     # what the rows held: all cells differ
WIDTH = len(district.Row._fields)
PLAIN = 'district: drawn from all of it'
SINGLE, ANOTHER = 'district: the rows as single calls', "district: another job in one job's place"


def held_rows(room):
    """What so many rows hold before a call."""
    return [tuple(range(OLD + WIDTH * place, OLD + WIDTH * (place + 1))) for place in range(room)]


def answer_of(result, room):
    """The answer that the model's result stands for: number, what the rows hold after, report; and that what is only read is as it was."""
    number, rows, report = result
    return (number, [*map(tuple, rows), *held_rows(room)[len(rows):]], [*report[:-1], *report.cells]), True


def expected_district(jobs, weights, heights, room):
    """The model's answer."""
    return answer_of(district.district(jobs, weights, heights, room), room)


def got_district(library, jobs, weights, heights, room):
    """The core's."""
    return core.district(library, [job.numbers() for job in jobs], weights, heights, held_rows(room))


def read_back(answer, count):
    """The rows of so many jobs and the report, as the model names them; None where something was written beside them."""
    _, rows, report = answer
    figures = len(district.Report._fields) - 1
    return None if rows is None or report is None else (
        [district.Row(*row) for row in rows[:count]], district.Report(*report[:figures], tuple(report[figures:])))


def single(library, job, weights, heights):
    """What the core's call without buffers answers to a job on its stretch; 21 where that is outside the store."""
    if job.start + job.count > len(weights):
        return district.Row(district.OUTSIDE, 0)
    stretch = slice(job.start, job.start + job.count)
    return core.figures(library, job.ground(), job.frame, weights[stretch], heights[stretch])


def compare_rows(tally, library, call, rows, report):
    """Each row of the core beside its own single call, equal jobs once; and that the report says of the rows what it must."""
    singles = {job: single(library, job, call.weights, call.heights) for job in call.jobs}
    got = rows, district.adds_up(rows, report)
    tally.compare(SINGLE, call, got, ([singles[job] for job in call.jobs], True))


def compare_changed(tally, library, rng, call, rows):
    """The district with a job that is refused in one job's place: the other rows are as they were."""
    place = rng.randrange(len(call.jobs))
    bad = made_bad(rng, call.jobs[place], len(call.weights))
    changed = call._replace(jobs=[*call.jobs[:place], bad, *call.jobs[place + 1:]])
    expected, got = expected_district(*changed), got_district(library, *changed)
    back = read_back(got[0], len(call.jobs))
    same = back is not None and all(one == other for number, (one, other) in enumerate(zip(back[0], rows)) if number != place)
    tally.compare(ANOTHER, changed, (got, same, back is not None and back[0][place].number != 0), (expected, True, True))


def row_words(row, W):
    """What is counted of a row."""
    if row.number:
        return [f'refusal {refusal_words(row.number, row.place)}']
    governed = sum(shear == row.V_D for shear in (row.V, row.V_M, row.V_star))
    thousandths = district.thousandths(row.V_D, W)
    words = [f"{district.governing(row).replace('_star', '*')} governs", *['a tie'] * (governed > 1)]
    words += [f'V_D over W is {thousandths}'] * (thousandths in (23, 1_125))
    return words + {0: ['at the lowest thousandth of a cell'], 9: ['at the highest thousandth of a cell']}.get(thousandths % district.CELL, [])


def count_rows(tally, call, rows):
    """Count what the model's rows are."""
    for job, row in zip(call.jobs, rows):
        for words in row_words(row, sum(call.weights[job.start:job.start + job.count])):
            tally.counts[f'of the rows of districts, {words}'] += 1


def compare_district(tally, library, rng, stratum, call):
    """One district; where it is taken, its rows one by one, and with another job in a job's place."""
    result, got = district.district(*call), got_district(library, *call)
    tally.compare(stratum, call, got, answer_of(result, call.room))
    number, rows, _ = result
    tally.counts['of the districts, refusal 22' if number else 'of the districts, taken'] += 1
    if number:
        return
    count_rows(tally, call, rows)
    back = read_back(got[0], len(call.jobs))
    if back is not None:
        compare_rows(tally, library, call, *back)
        if call.jobs:
            compare_changed(tally, library, rng, call, back[0])


def run_district_stratum(library, tally, seed, name, count):
    """Districts drawn for a stratum."""
    rng, draw_one = random.Random(seed), drawn.strata()[name]
    for _ in range(count):
        compare_district(tally, library, rng, name, draw_one(rng))


def run_districts(library, tally, seed, count):
    """Districts drawn from all of it."""
    rng = random.Random(seed)
    for _ in range(count):
        compare_district(tally, library, rng, PLAIN, drawn.any_district(rng))


def run_systematic_districts(library, tally, seed, count):
    """Every stretch of short stores, every refusal, every count beside its limits, and the cases of the program `run_districts`."""
    rng = random.Random(seed)
    for call in district_faults.systematic():
        compare_district(tally, library, rng, 'district: systematic', call)
    for case in stored.all_cases():
        compare_district(tally, library, rng, 'district of the program run_districts', case.call())


def of_stratum(name):
    """How many districts are drawn for a stratum."""
    return OF_MANY if name.removeprefix(drawn.PREFIX) in drawn.LARGE else A_DISTRICT


def district_tasks(seed, count):
    """What is compared of districts."""
    names = tuple(drawn.strata())
    yield run_systematic_districts, seed, 0
    yield from ((run_district_stratum, f'{seed} {name}', name, of_stratum(name)) for name in names)
    yield from chunks(run_districts, seed, count - sum(map(of_stratum, names)))
