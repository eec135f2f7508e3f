"""Drift, torsion and accidental moments (Wish 10) as the manual shows them: the base shear of the drift, two frames by hand, one storey alone, and the
order of refusals. tests/writes/torsion_page.py has the floors and the moments, tests/writes/drift_mistakes.py the mistakes.

What the page says in words is asserted here of the model.
"""

from fractions import Fraction
from math import ceil

from tests.compares.header_words import DRIFT_LIMIT
from tests.model import accidental, basin, calls, drift, limits, site, torsion
from tests.writes.by_hand.text import code, comma, decimal, hundredths, ranged, same, table
from tests.writes.by_hand.worked import read
from tests.writes.drift_mistakes import mistake_names
from tests.writes.order_of_refusals import HANDED_IN, LEVELS, order
from tests.writes.six_storeys import (
    ALPHA_1, DISPLACEMENTS, ENDS, HEIGHTS, LIMIT, STATIC, WORDS, drift_lines, drift_shear, floor, signed, storeys, verdicts)
from tests.writes.torsion_page import floor_names, moment_names

ALONE_DM, ALONE_DRIFT, TIMES = Fraction('32.5'), 1_620, 10      # a storey whose height is not whole in dm, its drift in 0.01 mm, and what makes it whole
BEYOND = limits.DISPLACEMENT[-1] + 1
HEADS = 'storey', 'own height, dm', 'difference, 0.01 mm', 'limit · height, 0.01 mm', 'drift angle', 'verdict'


def taken():
    """What the calls take."""
    assert LIMIT == DRIFT_LIMIT * drift.PARTS_OF_LIMIT
    least, most = limits.FLOOR_DISPLACEMENT[1], limits.FLOOR_DISPLACEMENT[-1]
    assert torsion.torsion(least, least).factor and all(torsion.torsion(least - 1, each) == ('refused', 25, 0) for each in (0, 1, most))
    return {'heights': ranged(limits.HEIGHT), 'levels': ranged(limits.LEVELS), 'limit': str(LIMIT), 'limits': ranged(limits.DRIFT_LIMIT),
            'displacements': f'{signed(limits.DISPLACEMENT[0])} to {signed(limits.DISPLACEMENT[-1])}', 'floors': ranged((least, most)),
            'dimensions': ranged(limits.DIMENSION), 'base_shears': ranged(limits.BASE_SHEAR), 'periods': ranged(limits.PERIOD),
            'weights': ranged(limits.WEIGHT)}


def shear_names(office):
    """The base shear of the drift, its forces, and the factor from V_D to it."""
    again = drift_shear(office)
    V_drift, p = again.V_star, Fraction(again.p, again.s)
    exact = Fraction(office.frame.I, 100) * p * office.W * 1000 / site.V_STAR
    assert ceil(exact) == V_drift and again.T == office.T and office.frame.I == 100 and office.ground.NA == office.ground.NV == 100
    assert ceil(exact * 100 / office.frame.alphay) == office.V_star == office.V_D
    over, scale = calls.distribution(V_drift, again.T, office.weights, office.heights), Fraction(V_drift, office.V_D)
    up = Fraction(ceil(scale * 10**6), 10**6)
    rows = [(str(level + 1), comma(office.forces[level]), comma(over.forces[level])) for level in reversed(range(len(office.forces)))]
    rows.append(('sum', comma(sum(office.forces)), same(sum(over.forces), V_drift)))
    numbers = [', '.join(map(str, each)) for each in (office.ground, office.frame)]
    in_python = code(['>>> from rukeshomaji import Frame, Site, shear_call', f'>>> site, frame = Site({numbers[0]}), Frame({numbers[1]})',
                      f'>>> shear_call(site, frame._replace(alpha_y={ALPHA_1}), {office.W}, {office.heights[-1]}).star', str(V_drift)])
    return {'p': decimal(p), 'I': hundredths(office.frame.I), 'alphay': hundredths(office.frame.alphay), 'V_D': comma(office.V_D), 'W': comma(office.W),
            'V_drift': comma(V_drift), 'V_drift_exact': decimal(exact), 'scale': decimal(scale, 6), 'scale_up': decimal(up, 6), 'in_python': in_python,
            'forces_table': table(('level', 'force under V_D, N', 'force under V_drift, N'), rows), 'T': comma(office.T),
            'basin_times': decimal(site.V_STAR / basin.V_STAR)}


def alone_names():
    """A storey whose height is not whole in dm, by a call of one level: exact by a multiple, too strict with the height rounded down."""
    height, moved, down = ALONE_DM * TIMES, ALONE_DRIFT * TIMES, int(ALONE_DM)
    exact, strict = (drift.drift([high], [drifted], LIMIT).verdicts for high, drifted in ((int(height), moved), (down, ALONE_DRIFT)))
    assert height.denominator == 1 and down < ALONE_DM and exact == [drift.YES] and strict == [drift.NO] and moved <= LIMIT * height
    return {'one_height_m': decimal(ALONE_DM / 10), 'one_drift_mm': hundredths(ALONE_DRIFT), 'one_dm': decimal(ALONE_DM), 'one_drift': str(ALONE_DRIFT),
            'one_times': {10: 'ten'}[TIMES], 'one_height': str(height), 'one_long': str(moved), 'one_long_comma': comma(moved),
            'one_most': comma(int(LIMIT * height)), 'one_down': str(down), 'height_most': comma(limits.HEIGHT[-1]),
            'displacement_most': comma(limits.DISPLACEMENT[-1])}


def storey_row(storey):
    """A storey by hand."""
    angle = decimal(abs(storey.angle), 6)
    subtracted = f'(−{comma(-storey.bottom)})' if storey.bottom < 0 else comma(storey.bottom)
    size, most = abs(storey.difference()), storey.most()
    sign = '=' if size == most else '<' if size < most else '>'
    assert (size <= most) == (storey.verdict == drift.YES) == (abs(storey.angle) <= DRIFT_LIMIT)
    return (str(storey.number), f'{storey.high} − {storey.low} = {storey.height()}',
            f'{signed(storey.top)} − {subtracted} = {signed(storey.difference())}', f'{LIMIT} · {storey.height()} = {comma(most)}',
            f"{'−' if storey.angle < 0 else ''}{angle}", f'{comma(size)} {sign} {comma(most)}: **{WORDS[storey.verdict]}**')


def static_names(office):
    """The worked sheet's levels under V_drift, by hand."""
    found = storeys(STATIC, heights=office.heights)
    beyond, *within = (str(each.number) for each in sorted(found, key=lambda storey: storey.verdict == drift.YES))
    assert all(each.bottom < each.top for each in found) and [each.verdict for each in found] == [drift.NO, drift.YES, drift.YES]
    *first, last = map(hundredths, STATIC)
    return {'static_table': table(HEADS, map(storey_row, found)), 'static_count': {3: 'three'}[len(found)], 'static_mm': f"{', '.join(first)} and {last}",
            'static_beyond': beyond, 'static_within': ' and '.join(within)}


def frame_names():
    """The frame by hand, and what is said of its storeys."""
    found = storeys()
    first, second, *upper = found
    fifth = found[4]
    assert first.difference() == first.most() + 1 and second.difference() == second.most() and all(each.difference() < 0 for each in upper)
    assert fifth.bottom > 0 > fifth.top and [each.number for each in found if each.verdict == drift.NO] == [1, 5]
    assert len({each.height() for each in found[1:]}) == 1 and verdicts([-each for each in DISPLACEMENTS]) == verdicts()
    return {'drift_table': table(HEADS, map(storey_row, found)), 'count': {6: 'six'}[len(found)], 'first_height': decimal(Fraction(first.height(), 10)),
            'other_height': decimal(Fraction(second.height(), 10)), 'first': str(DISPLACEMENTS[0]), 'first_mm': hundredths(DISPLACEMENTS[0]),
            'storey_1': comma(first.difference()), 'most_1': comma(first.most()), 'bottom_5': comma(fifth.bottom), 'top_5': signed(fifth.top),
            'size_5': comma(abs(fifth.difference())), 'most_5': comma(fifth.most())}


def refused(answer):
    """A refusal as the page says it."""
    _, number, place = answer
    return f'refusal {number} at place {place}'


def refusal_names(office):
    """The order of refusals of each call, with everything wrong, and an example of each."""
    lists = [0] * (limits.LEVELS[-1] + 1), [0] * limits.LEVELS[-1]
    of_drift = list(limits.drift_refusals(lists[0], [BEYOND] * limits.LEVELS[-1], 0, ()))
    of_torsion = list(limits.torsion_refusals(0, BEYOND))
    of_moments = list(limits.accidental_refusals(0, limits.PERIOD[-1] + 1, *lists, 0, ()))
    assert all((place > 0) == (number in (3, 4, 23)) for number, place in (*of_drift, *of_moments)) and all(place == 0 for _, place in of_torsion)
    judged = LEVELS | HANDED_IN | {23: 'displacements', 24: 'limit', 25: 'average', 26: 'plan dimension'}
    rows = [('drift', order(of_drift, judged), '0; of 4 and 23: level'), ('torsion', order(of_torsion, judged), '0'),
            ('accidental moments', order(of_moments, judged), '0; of 3 and 4: level')]
    assert limits.judge_drift([], [0] * 5, LIMIT) == (1, 0)
    level = 5
    changed = [*DISPLACEMENTS[:level - 1], BEYOND, *DISPLACEMENTS[level:]]
    (large, average) = floor(ENDS[0])
    answers = {'by_displacement': drift.drift(HEIGHTS, changed, LIMIT), 'by_limit': drift.drift(HEIGHTS, DISPLACEMENTS, 0),
               'by_average': torsion.torsion(large, 0), 'by_dimension': accidental.accidental(office.V_D, office.T, office.weights, office.heights, 0)}
    assert torsion.torsion(large, large + 1) == answers['by_average']
    return {'order_table': table(('call', 'order of refusals', 'places'), rows), 'bad': comma(BEYOND), 'good': signed(DISPLACEMENTS[level - 1]),
            'bad_level': str(level), 'average_above': comma(large + 1), **{name: refused(answer) for name, answer in answers.items()}}


def names(data):
    """What the page names."""
    office = read(data)
    return {**taken(), **shear_names(office), **alone_names(), **static_names(office), **frame_names(), **floor_names(), **moment_names(office),
            **mistake_names(office), **refusal_names(office), 'printed': code(drift_lines(office))}
