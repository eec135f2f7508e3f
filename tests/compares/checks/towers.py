"""Towers on one podium (Wish 8): figures by hand, and what is said of every stratum.

On the worked sheet V* governs with p = 0.45: of each kN it is 100*4,500,000/(42,000*150) = 500/7 N. So 7 kN come to 500 N, and W kN to
500*W/7 N, rounded up: with W = 7*n + r to 500*n + 71.43*r.
"""

import random
from fractions import Fraction

from tests.compares.checks.refusals import FRAME, SITE
from tests.compares.compare_towers import added, answers
from tests.compares.parts import figures_of
from tests.draws import towers as drawn
from tests.model import calls, limits, response, towers

SEED, EACH = 80, 12
# weights of towers of 30 m on the worked sheet's site: V_D of each, of all together, newtons more
WORKED = {
    (15_000,): ([1_071_429], 1_071_429, 0), (5_000, 10_000): ([357_143, 714_286], 1_071_429, 0),
    (7_500, 7_500): ([535_715, 535_715], 1_071_429, 1), (7, 7): ([500, 500], 1_000, 0), (1, 6): ([72, 429], 500, 1), (5, 5): ([358, 358], 715, 1),
    (2, 2): ([143, 143], 286, 0), (4_996, 4_996, 5_008): ([356_858, 356_858, 357_715], 1_071_429, 2), (5,) * 7: ([358] * 7, 2_500, 6),
    (7,) * 7: ([500] * 7, 3_500, 0), (1,) * 7: ([72] * 7, 500, 4),
}
# what is said of shears of towers and of the whole
HOLDS = {(100, (50, 50)): True, (100, (51, 50)): True, (100, (51, 51)): False, (100, (50, 49)): False, (100, (34, 34, 34)): True,
         (100, (34, 34, 35)): False, (100, (33, 33, 33)): False, (100, (100,)): True, (100, (101,)): False, (100, (99,)): False}


def vd(ground, frame, weight, height):
    """V_D and T of a call."""
    result = calls.shear_call(ground, frame, weight, height)
    return result.V_D, result.T


def worked():
    """The worked sheet's building in towers."""
    for weights, (parts, whole, more) in WORKED.items():
        yield f'towers of {weights}', lambda weights=weights: [vd(SITE, FRAME, weight, 300)[0] for weight in weights], parts
        yield f'{sum(weights)} kN', lambda weights=weights: vd(SITE, FRAME, sum(weights), 300), (whole, 1_000)
        yield f'newtons more of {weights}', lambda whole=whole, parts=parts: towers.newtons_more(whole, parts), more
        yield f'{weights} by Wish 8', lambda whole=whole, parts=parts: towers.holds(whole, parts), True
    yield 'the share', lambda: towers.share(calls.shear_call(SITE, FRAME, 1, 300)), Fraction(500, 7)
    yield '25 m, the same T', lambda: vd(SITE, FRAME, 7_500, 250), (535_715, 1_000)
    yield '15 m, another T', lambda: (vd(SITE, FRAME, 7_500, 150), vd(SITE, FRAME, 15_000, 150)), ((718_116, 746), (1_436_232, 746))
    for (whole, parts), wanted in HOLDS.items():
        yield f'{parts} beside {whole}', lambda whole=whole, parts=parts: towers.holds(whole, parts), wanted


def same_period():
    """Heights of the same T: of each kind no two by the approximate period, nor by 14*t/10."""
    for kind in limits.KIND:
        for calculated in (0, limits.CALCULATED_PERIOD[-1]):
            def periods(kind=kind, calculated=calculated):
                """How many T the heights have."""
                return len({response.period(response.approximate_period(kind, h), calculated) for h in limits.HEIGHT})
            yield f'T of every height, kind {kind}, calculated {calculated}', periods, len(limits.HEIGHT)


def rounded_once(results):
    """V_D is the share of W, rounded up, and the share is the same for all."""
    shares = {towers.share(each) for each in results}
    return len(shares) == 1 and all(0 <= each.V_D - towers.share(each) * each.W < 1 for each in results)


def drawn_checks():
    """Towers of every stratum: all taken, at one T, rounded once of one share, and what they add up to."""
    rng = random.Random(SEED)
    for kind in drawn.GROUNDS:
        for name, one in (*drawn.pair_strata(kind), *drawn.many_strata(kind)):
            for _ in range(EACH if not name.endswith(drawn.ALIKE) else 1):
                inputs = one(rng)
                def of_them(inputs=inputs):
                    """What is said of these towers."""
                    results = answers(calls.shear_call, *inputs)
                    more, *said = added([figures_of(each) for each in results])
                    return 0 <= more < len(inputs.towers), said, rounded_once(results)
                yield f'{name} {inputs}', of_them, (True, [True, True, True], True)


def checks():
    """All checks of towers."""
    yield from worked()
    yield from same_period()
    yield from drawn_checks()
