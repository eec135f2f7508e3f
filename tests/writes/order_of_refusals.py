"""The order of refusals of a shear call, a distribution and a job, as the page on the two calls shows it."""

from tests.model import calls, limits
from tests.model.job import job
from tests.writes.by_hand.text import comma, table

# what each refusal of the calls, and of a job, judges
LEVELS = {1: 'number of levels', 2: 'lengths', 3: 'weights', 4: 'heights'}
GROUND_AND_FRAME = {5: 'site', 6: 'site', 7: 'site', 18: 'zone', **dict.fromkeys(range(8, 13), 'frame')}
BUILDING, HANDED_IN = {3: 'total weight', 4: 'top height'}, {19: 'base shear', 20: 'period'}


def order(found, judged):
    """Refusals in their order as text, each number once, with what it judges; numbers that judge the same as a run."""
    runs = []
    for number in dict.fromkeys(number for number, _ in found):
        if runs and judged[runs[-1][-1]] == judged[number]:
            runs[-1].append(number)
        else:
            runs.append([number])
    assert all(run == list(range(run[0], run[-1] + 1)) for run in runs)
    return ', '.join(f'{run[0]} to {run[-1]} {judged[run[0]]}' if len(run) > 1 else f'{run[0]} {judged[run[0]]}' for run in runs)


def refusal_names(office):
    """The order of refusals of each call, with everything wrong; and a job beside the two calls."""
    site, basin, frame = limits.Site(*[0] * 9), limits.Basin(0), limits.Frame(0, 60_001, 0, 0, 0)
    levels = [0] * 51, [0] * 50, ()
    of_calls = {name: list(limits.shear_call_refusals(ground, frame, 0, 0)) for name, ground in (('site', site), ('basin', basin))}
    of_jobs = {name: list(limits.refusals(ground, frame, *levels)) for name, ground in (('site', site), ('basin', basin))}
    distribution = list(limits.distribution_refusals(0, 10_000, *levels))
    assert {place for number, place in of_calls['site'] if number in (5, 6)} == {1, 2, 3, 4}
    assert all((place > 0) == (number in (5, 6)) for found in of_calls.values() for number, place in found)
    assert all((place > 0) == (number in (3, 4, 5, 6)) for found in (distribution, *of_jobs.values()) for number, place in found)
    in_calls, in_jobs = BUILDING | GROUND_AND_FRAME, LEVELS | GROUND_AND_FRAME
    rows = [('shear call', order(of_calls['site'], in_calls), '0; of 5 and 6: 1 to 4'),
            ('shear call in the Basin', order(of_calls['basin'], in_calls), '0'),
            ('distribution', order(distribution, LEVELS | HANDED_IN), '0; of 3 and 4: level'),
            ('job', order(of_jobs['site'], in_jobs), '0; of 3 and 4: level; of 5 and 6: 1 to 4'),
            ('job in the Basin', order(of_jobs['basin'], in_jobs), '0; of 3 and 4: level')]
    level, heavy, weak = 2, [*office.weights], office.frame._replace(R=48)
    heavy[level - 1] = limits.WEIGHT[-1] + 1
    answers = job(office.ground, weak, heavy, office.heights), calls.shear_call(office.ground, weak, sum(heavy), office.heights[-1])
    said = [f'`{" ".join(map(str, each))}`' for each in answers]
    assert sum(limits.WEIGHT[-1] for _ in limits.LEVELS) == limits.TOTAL_WEIGHT[-1]
    return {'order_table': table(('call', 'order of refusals', 'places'), rows), 'heavy': comma(heavy[level - 1]), 'heavy_level': str(level),
            'heavy_sum': comma(sum(heavy)), 'weak': str(weak.R), 'by_job': said[0], 'by_call': said[1]}
