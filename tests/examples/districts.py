"""Districts by the module for Python, examples/rukeshomaji.py: rows and report beside the model and beside its single calls."""

from tests.examples.refusals import FRAME, HEIGHTS, SITE, WEIGHTS
from tests.model import district, limits, sheet, sheets
from tests.writes.hundred_sheets import SHEETS

# start and count of a stretch of three levels, and what is refused of it
STRETCHES = {'a stretch that starts beyond the store': (4, 0, (21, 0)), 'a stretch of a level too many': (1, 3, (21, 0)),
             'a stretch whose end wraps': (1, 2 ** 64 - 1, (21, 0)), 'a stretch of no level': (3, 0, (1, 0)), 'the last level': (2, 1, (0, 0))}


def stored_jobs(core):
    """The jobs of the stored file whose sheets are as laid out, their levels one after the other in one store; weights and heights of the store."""
    jobs, weights, heights = [], [], []
    for data in sheets.parts(SHEETS.read_bytes()):
        refusal, numbers = sheet.read(data)
        if refusal is None:
            ground, frame, *levels = numbers
            stretch = len(weights), len(levels)
            jobs.append(core.in_basin(ground.zone, frame, *stretch) if isinstance(ground, limits.Basin) else core.on_site(ground, frame, *stretch))
            weights += [weight for weight, _ in levels]
            heights += [height for _, height in levels]
    return jobs, weights, heights


def by_model(jobs, weights, heights):
    """Rows and report of the model."""
    same = [district.DistrictJob(job.basin, job.zone, limits.Site(*job.site), job.frame, job.start, job.count) for job in jobs]
    number, rows, report = district.district(same, weights, heights, len(jobs))
    assert number == 0
    return [tuple(row) for row in rows], (*report[:-1], list(report.cells))


def plain(answer):
    """Rows and report of the module."""
    return [tuple(row) for row in answer.rows], tuple(answer.report)


def single(core, job, weights, heights):
    """The row that the module's single call makes of a job on its stretch."""
    stretch = slice(job.start, job.start + job.count)
    entry, ground = (core.basin_figures, job.zone) if job.basin else (core.figures, job.site)
    try:
        return 0, 0, *entry(ground, job.frame, weights[stretch], heights[stretch])
    except core.Refused as refused:
        return refused.number, refused.place, 0, 0, 0, 0, 0


def stretches(core):
    """A job between two good ones: its refusal, and that the others are as they are alone."""
    good = core.on_site(SITE, FRAME, 0, 3)
    (alone,), _ = core.district([good], WEIGHTS, HEIGHTS)
    for name, (start, count, refused) in STRETCHES.items():
        rows, report = core.district([good, core.on_site(SITE, FRAME, start, count), good], WEIGHTS, HEIGHTS)
        yield name, rows[1][:2] == refused and rows[0] == rows[2] == alone and (report.accepted, report.refused) == ((2, 1) if refused[0] else (3, 0))
        yield f'{name}, in words', not refused[0] or core.TEXTS[refused[0]] in str(core.Refused(*refused))


def districts(core):
    """The stored sheets as one district; stretches; no job and as many as may be."""
    jobs, weights, heights = stored_jobs(core)
    answer = core.district(jobs, weights, heights)
    yield 'a district of the stored sheets', len(jobs) == 99 and plain(answer) == by_model(jobs, weights, heights)
    yield 'its rows by single calls', [tuple(row) for row in answer.rows] == [single(core, job, weights, heights) for job in jobs]
    yield 'jobs that come one by one', core.district(iter(jobs), iter(weights), iter(heights)) == answer
    yield from stretches(core)
    yield 'no job', plain(core.district([], [], [])) == ([], (0, 0, 0, 0, 0, 0, [0] * district.CELLS))
    yield 'as many jobs as may be', core.district(jobs[:1] * district.MOST_JOBS, weights, heights).report.accepted == district.MOST_JOBS
