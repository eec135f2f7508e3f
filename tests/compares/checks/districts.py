"""Districts (Wish 9): rows and report by hand, what is refused and where, and what is said of every stratum.

The worked sheet has 1,071,429 N on 15,000 kN, 71.4 thousandths: cell 7. With an S_1 M of four thirds of S_1 D and an R of 4.00 all three shears are
I*W/(0.014*alpha-y) N at 1 s: of 15,000 kN, an I of 1.00 and an alpha-y of 1.50 these are 714,285.7 N, 47.6 thousandths: cell 4. On the plateau of an
S_S M of 1.00 with an N_A M of 1.50 and an R of 1.00 V_M is 0.7*1.5*1.5/1.4 of W with an I of 1.50, 1.125; the smallest V_D is V* with 0.4*0.5 g, an I
of 1.00 and an alpha-y of 2.00: 0.2/(4.2*2) of W, 0.0238.
"""

import itertools
import random

from tests.compares.checks import calls as worked_calls, refusals
from tests.compares.checks.refusals import BAD_SITE, FRAME, SITE
from tests.draws import district_faults, district_jobs as one, districts as drawn
from tests.model import district, limits
from tests.model.district import Answer, Report, Row
from tests.model.job import job

SEED, EACH, OF_MANY = 90, 5, 1
EVERY, SOME = 12, 3         # of what is gone through one by one
MOST = 2**64 - 1
LEVELS = [5_000] * 3, [100, 200, 300]
WORKED, ZONE_3 = Row(0, 0, 909_704, 818_453, 1_071_429, 1_071_429, 1_000), Row(0, 0, 1_522_143, 1_248_292, 1_714_286, 1_714_286, 1_000)
NO_SITE = limits.Site(*[0] * 9)
ON_SITE, IN_BASIN = district.DistrictJob(0, 0, SITE, FRAME, 0, 3), district.DistrictJob(1, 3, NO_SITE, FRAME, 0, 3)
THIRDS = ON_SITE._replace(site=limits.one_pair(60, 30, 80, 40, 100, 100, 1), frame=FRAME._replace(R=400))
# start and count: what is refused of a good job over three levels
STRETCHES = {
    (0, 3): None, (0, 1): None, (2, 1): None, (1, 2): None, (0, 0): (1, 0), (1, 0): (1, 0), (3, 0): (1, 0), (4, 0): (21, 0), (3, 1): (21, 0),
    (0, 4): (21, 0), (2, 2): (21, 0), (MOST, 0): (21, 0), (MOST, 1): (21, 0), (MOST, 2): (21, 0), (MOST, 4): (21, 0), (MOST, MOST): (21, 0),
    (0, MOST): (21, 0), (1, MOST): (21, 0), (2, MOST): (21, 0), (3, MOST - 1): (21, 0), (2**63, 2**63): (21, 0), (2**32, 1): (21, 0), (0, 2**32 + 1): (21, 0),
}
# V_D in N and W in kN: the cell
CELLS = {(1, 1): 0, (9, 1): 0, (10, 1): 1, (99, 10): 0, (100, 10): 1, (109, 10): 1, (1_999, 100): 1, (2_000, 100): 2, (1_071_429, 15_000): 7,
         (1_119, 1): 111, (1_120, 1): 112, (1_125_000_000, 1_000_000): 112, (1_119_999_999, 1_000_000): 111}
# V, V_M, V*: which governs
GOVERNING = {(3, 2, 1): 'V', (3, 3, 1): 'V', (3, 1, 3): 'V', (3, 3, 3): 'V', (2, 3, 1): 'V_M', (2, 3, 3): 'V_M', (1, 2, 3): 'V_star', (2, 2, 3): 'V_star'}
# jobs, weights, heights, rows: the number of the call
WHOLE = {(0, 0, 0, 0): 0, (0, 0, 0, 9): 0, (0, 5, 5, 0): 0, (1, 3, 3, 1): 0, (1, 0, 0, 1): 0, (2, 3, 3, 2): 0, (2, 3, 3, 1): 22, (1, 3, 3, 0): 22,
         (1, 3, 2, 1): 22, (1, 2, 3, 1): 22, (0, 0, 1, 0): 22, (0, 1, 0, 5): 22, (256, 3, 3, 256): 0, (256, 3, 3, 257): 0, (256, 3, 3, 255): 22,
         (257, 3, 3, 257): 22, (257, 3, 3, 999): 22, (512, 3, 3, 512): 22, (255, 3, 3, 255): 0}


def called(*jobs, store=LEVELS, more_room=0):
    """What is answered to jobs over the worked levels."""
    return district.district(list(jobs), *store, len(jobs) + more_room)


def by_hand(**numbers):
    """A report with some numbers, and cells by their places."""
    cells = numbers.pop('cells')
    return Report(**numbers, cells=tuple(cells.get(place, 0) for place in range(district.CELLS)))


def worked():
    """The worked sheet, on its site, in the Basin and with shears that tie, alone and together."""
    tie = Row(0, 0, 714_286, 714_286, 714_286, 714_286, 1_000)
    yield 'worked', lambda: called(ON_SITE), (0, [WORKED], by_hand(accepted=1, total=1_071_429, by_star=1, cells={7: 1}))
    yield 'zone 3', lambda: called(IN_BASIN), (0, [ZONE_3], by_hand(accepted=1, total=1_714_286, by_star=1, cells={11: 1}))
    yield 'a tie', lambda: called(THIRDS), (0, [tie], by_hand(accepted=1, total=714_286, by_V=1, cells={4: 1}))
    bad = ON_SITE._replace(frame=FRAME._replace(R=0))
    yield 'four, one refused', lambda: called(ON_SITE, bad, IN_BASIN, THIRDS, more_room=3), (
        0, [WORKED, Row(8, 0), ZONE_3, tie], by_hand(accepted=3, refused=1, total=3_500_001, by_V=1, by_star=2, cells={4: 1, 7: 1, 11: 1}))
    two = worked_calls.figures(job(SITE, FRAME, [5_000] * 2, [200, 300]))
    yield 'the upper two levels', lambda: called(ON_SITE._replace(start=1, count=2))[1], [Row(0, 0, *two)]
    yield 'no job', lambda: called(more_room=2), (0, [], Report())
    yield 'report of zeros', lambda: (len(Report().cells), set(Report().cells), set(Report()[:-1])), (113, {0}, {0})


def marks():
    """Cells and ties by hand, the largest and the smallest V_D over W, every cell that a job can be in."""
    for (V_D, W), wanted in CELLS.items():
        yield f'cell of {V_D} N and {W} kN', lambda V_D=V_D, W=W: district.cell_of(V_D, W), wanted
    for shears, wanted in GOVERNING.items():
        yield f'governing of {shears}', lambda shears=shears: district.governing(Row(0, 0, *shears, max(shears), 1)), wanted
    yield 'cells that a job can be in', lambda: sorted(one.by_cell()), list(range(2, 113))
    rng = random.Random(SEED)
    for draw_one, wanted in ((one.largest, {1_125}), (one.smallest, {23, 24})):
        yield draw_one.__name__, lambda d=draw_one: {district.thousandths(each.V_D, each.W) for each in (job(*d(rng)) for _ in range(9))} <= wanted, True
    for name in one.TIES:
        yield name, lambda name=name: largest_of(job(*one.tied(rng, name))), name.split(' = ')
    for newtons in (0, 1):
        yield f'{newtons} newtons below an edge', lambda n=newtons: edge(job(*one.at_edge(rng, n)), n), True
    yield 'an edge of any weight', lambda: edge(job(*one.at_exact_edge(rng)), 0), True


def largest_of(result):
    """The shears that V_D is."""
    return [name for name in ('V', 'V_M', 'V_star') if getattr(result, name) == result.V_D]


def edge(result, newtons):
    """V_D is so many newtons below the edge of a cell, and in the cell below where there are any."""
    cell, rest = divmod(result.V_D + newtons, 10 * result.W)
    return rest == 0 and district.cell_of(result.V_D, result.W) == cell - (newtons > 0)


def refused_rows():
    """21 and 1 by a stretch; 3 and 4 at their level in the stretch; what is refused of ground and frame; 21 first."""
    for (start, count), wanted in STRETCHES.items():
        for good in (ON_SITE, IN_BASIN):
            def row(good=good, start=start, count=count):
                """Number and place."""
                return called(good._replace(start=start, count=count))[1][0][:2]
            yield f'stretch {start} {count}', row, wanted or (0, 0)
    everything = ON_SITE._replace(site=limits.Site(*BAD_SITE), frame=limits.Frame(*[0] * 5))
    for (start, count), wanted in STRETCHES.items():
        yield f'all wrong, {start} {count}', lambda s=start, c=count: called(everything._replace(start=s, count=c))[1][0][:2], wanted or (5, 1)
    store = [5, 5, 0, 5], [10, 20, 30, 30]
    for (start, count), wanted in {(0, 2): (0, 0), (0, 3): (3, 3), (1, 2): (3, 2), (2, 1): (3, 1), (3, 1): (0, 0), (2, 2): (3, 1), (0, 5): (21, 0)}.items():
        yield f'bad levels, {start} {count}', lambda s=start, c=count: called(ON_SITE._replace(start=s, count=c), store=store)[1][0][:2], wanted
    for weights, heights, lengths, wanted in refusals.LISTS:
        if len(weights) == len(heights) and not lengths:
            yield (f'levels {weights} {heights}', lambda w=weights, h=heights: called(ON_SITE._replace(count=len(w)), store=(w, h))[1][0][:2],
                   wanted or (0, 0))


def refused_calls():
    """22 by each of its causes, and what is just taken."""
    for (jobs, weights, heights, room), wanted in WHOLE.items():
        def whole(jobs=jobs, weights=weights, heights=heights, room=room):
            """The number, the rows written, and whether the report is of zeros."""
            number, rows, report = district.district([ON_SITE._replace(count=1)] * jobs, [5] * weights, list(range(1, heights + 1)), room)
            return number, len(rows), report == Report()
        yield f'{jobs} jobs, {weights} and {heights} levels, {room} rows', whole, (wanted, 0 if wanted else jobs, bool(wanted) or jobs == 0)


def held(call):
    """What is said of a district: the rows are the single jobs' on their stretches, each cell is the count of rows that belong there, the report adds
    up, and a job that is left out, or refused, leaves the other rows as they were."""
    number, rows, report = district.district(*call)
    if number:
        return not rows and report == Report()
    for each, row in zip(call.jobs, rows):
        inside = each.start + each.count <= len(call.weights)
        single = job(each.ground(), each.frame, *(part[each.start:each.start + each.count] for part in call[1:3])) if inside else ('refused', 21, 0)
        if tuple(row) != ((*single[1:], 0, 0, 0, 0, 0) if single[0] == 'refused' else (0, 0, *worked_calls.figures(single))):
            return False
    taken = [row.V_D // sum(call.weights[each.start:each.start + each.count]) for each, row in zip(call.jobs, rows) if not row.number]
    cells = tuple(sum(10 * place <= each <= 10 * place + 9 for each in taken) for place in range(113))
    fewer = district.district(call.jobs[1:], *call[1:])[1]
    return report.cells == cells and district.adds_up(rows, report) and fewer == rows[1:]


def drawn_checks():
    """Districts of every stratum, and those that are gone through one by one."""
    rng = random.Random(SEED)
    for name, draw_one in drawn.strata().items():
        for _ in range(OF_MANY if name.removeprefix(drawn.PREFIX) in drawn.LARGE else EACH):
            yield name, lambda call=draw_one(rng): held(call), True
    for refusal, draw_one in one.REFUSED.items():
        number, *place = refusal.split(' at ')
        wanted = tuple(map(int, (number.partition(',')[0], *place)))
        yield f'refusal {refusal}', lambda d=draw_one, w=wanted: job(*d(rng))[1:][:len(w)], wanted
    for first in range(SOME):
        yield f'gone through one by one, {first}', lambda first=first: all(map(held, itertools.islice(district_faults.systematic(), first, None, EVERY))), True
    yield 'an answer', lambda: district.answer(SITE, FRAME, *LEVELS), Answer(WORKED, 15_000)


def checks():
    """All checks of districts."""
    for part in (worked, marks, refused_rows, refused_calls, drawn_checks):
        yield from part()
