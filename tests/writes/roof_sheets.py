"""The sheets of the roof force among those of the program `run_sheets`.

T at both ends of its rule, by the calculated period, by 14*t/10 and by the approximate period, on each kind of ground; V_D whose quarter is
whole, and whose quarter is not; one level, where the force is V_D in any case.
"""

from tests.draws.roof import ENDS
from tests.model import limits, sheet
from tests.model.job import job

SITE = limits.one_pair(80, 45, 100, 55, 100, 100, 1)
PAIRS = limits.Site(70, 40, 90, 50, 112, 123, 118, 136, 2)
GROUNDS = {'site': SITE, 'basin': limits.Basin(3), 'pairs': PAIRS}
TALL = limits.Frame(1, 0, 480, 125, 151), [4_321, 3_210, 2_109, 1_007], [411, 903, 1_508, 2_000]
# T: a kind of frame and a top height in dm whose approximate period it is
APPROXIMATE = {699: (1, 166), 700: (4, 338), 701: (2, 216), 702: (1, 167), 3_570: (1, 1_460), 3_571: (1, 1_461), 3_572: (2, 1_893),
               3_573: (1, 1_462)}
# T: the same of 14*t/10
CUT = {700: (4, 216), 701: (2, 138), 702: (1, 107), 3_570: (2, 1_208), 3_571: (1, 933), 3_572: (2, 1_209), 6_328: (1, 2_000)}


def calculated():
    """Each end of the rule, by the calculated period, on each kind of ground."""
    frame, weights, heights = TALL
    for T in ENDS:
        for name, ground in GROUNDS.items():
            assert job(ground, frame._replace(calculated_period=T), weights, heights).T == T
            yield f'{name}_{T}', sheet.write(ground, frame._replace(calculated_period=T), weights, heights)


def approximate():
    """Without a calculated period, and with one that is cut."""
    for name, cases, period in (('approximate', APPROXIMATE, 0), ('cut', CUT, limits.CALCULATED_PERIOD[-1])):
        for T, (kind, top) in cases.items():
            frame, weights, heights = limits.Frame(kind, period, 350, 100, 120), [900, 801], [top - 33, top]
            assert job(SITE, frame, weights, heights).T == T, (name, T)
            yield f'{name}_{T}', sheet.write(SITE, frame, weights, heights)


def remainders():
    """At a quarter V_D of every remainder by four, and just below it; a light tall frame, whose newtons count."""
    frame = limits.Frame(1, 3_571, 280, 150, 138)
    for T in (3_571, 3_572):
        found = {}
        for weight in range(1, 100):
            inputs = (SITE, frame._replace(calculated_period=T), [weight, 1], [1_471, 2_000])
            found.setdefault(job(*inputs).V_D % 4, inputs)
        yield from ((f'remainder_{T}_{rest}', sheet.write(*found[rest])) for rest in range(4))


def counts():
    """One level, and 50, on both sides of each end."""
    for T in (700, 701, 3_571, 3_572):
        frame = limits.Frame(1, T, 200, 100, 100)
        yield f'one_level_{T}', sheet.write(SITE, frame, [777], [2_000])
        yield f'50_levels_{T}', sheet.write(SITE, frame, [1_000 + 7 * x for x in range(50)], range(40, 2_001, 40))


def roof_sheets():
    """All of them."""
    for part in (calculated, approximate, remainders, counts):
        yield from ((f'roof_{name}', data) for name, data in part())
