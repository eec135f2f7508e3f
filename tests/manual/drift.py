"""The rules of drift and torsion, each as the page writes it, and the second run that gives the base shear of the drift."""

import itertools
import re
from fractions import Fraction
from math import ceil

from tests.manual.formulas import value
from tests.manual.pages import OFFICE, page, rows
from tests.manual.sides import side
from tests.model import accidental, calls, drift, limits, torsion
from tests.writes.by_hand.text import comma
from tests.writes.by_hand.worked import read

NAME = 'docs/manual/rules.md'
MARKS = (0, 1, 49, 50, 51, 1_749, 1_750, 1_751, 1_000_000)      # sizes of a difference, 0.01 mm
FLOORS = ((1, 1), (2_500, 2_000), (2_400, 1_000), (1_800, 1_800), (1_000_000, 1), (999_999, 481_125), (1_000_000, 481_126), (7, 5))


def drifts(rule):
    """Angle and verdict of storeys with both signs."""
    yes = re.fullmatch(r'yes if (.*); else no', rule['verdict'])[1]
    for size, sign, h, limit in itertools.product(MARKS, (1, -1), (1, 35, 2_000), (1, 50, 10_000)):
        d = Fraction(sign * size)
        found = drift.drift([h], [sign * size], limit)
        yield value(rule['drift angle'], d=d, h=h) / drift.PARTS_OF_LIMIT == found.angles[0], f'{NAME}: drift angle of {d} over {h}'
        yield value(yes, d=d, h=h, limit=limit) == (found.verdicts[0] == drift.YES), f'{NAME}: verdict on {d} over {h} by {limit}'


def floors(rule, rounded):
    """The torsion factor, and the side to which it is rounded."""
    formula, most = re.fullmatch(r'(.*), at most (\d)', rule['A_x']).groups()
    for largest, average in FLOORS:
        exact = value(formula, largest=Fraction(largest), average=average)
        found = torsion.torsion(largest, average)
        yield (exact, min(ceil(1000 * exact), 1000 * int(most))) == (found.quotient, found.factor), f'{NAME}: A_x of {largest} and {average}'
    below = [(1000 * torsion.amplification(*each), torsion.torsion(*each).factor) for each in FLOORS if torsion.amplification(*each) < torsion.MOST]
    yield rounded['A_x'] == side(below), f'{NAME}: A_x is rounded {rounded["A_x"]}'


def moments(rule):
    """The accidental moments."""
    formula = re.fullmatch(r'(.*), once positive and once negative', rule['accidental moment'])[1]
    for force, dimension in itertools.product((0, 1, 166_071, 1_200_000_000), (1, 240, 5_000)):
        exact = value(formula, force=force, dimension=dimension)
        found = accidental.of_forces([force], dimension)
        yield [exact, -exact] == [found.positive[0], found.negative[0]], f'{NAME}: accidental moment of {force} by {dimension}'


def second_run():
    """The V* of the second run, which the page says is V_drift: alpha-y times V* of the first, but for rounding, whatever I and R are."""
    office = read(OFFICE)
    for I, R, alphay in itertools.product(limits.I_VALUES, (100, 175, 480), (100, 120, 150)):
        frame = office.frame._replace(I=I, R=R, alphay=alphay)
        first, second = (calls.shear_call(office.ground, each, office.W, office.heights[-1]) for each in (frame, frame._replace(alphay=100)))
        yield 0 <= first.V_star - Fraction(second.V_star * 100, alphay) + 1 <= 2, f'docs/manual/drift.md: V* with alpha-y = {alphay}'
    shown = calls.shear_call(office.ground, office.frame._replace(alphay=100), office.W, office.heights[-1]).V_star
    yield f'up: {comma(shown)} N, which is V_drift' in page('drift.md'), 'docs/manual/drift.md: V_drift'


def drift_rules():
    """Each rule, which steps are exact, and the second run."""
    table = rows(page('rules.md'), 'Drift and torsion')
    rule, rounded = ({row[0]: row[place] for row in table} for place in (1, 4))
    yield list(rule) == ['drift angle', 'verdict', 'A_x', 'accidental moment'], f'{NAME}: steps of drift and torsion: {list(rule)}'
    yield [rounded[step] for step in ('verdict', 'accidental moment')] == ['exact', 'exact'], f'{NAME}: rounded: {rounded}'
    for check in (drifts(rule), floors(rule, rounded), moments(rule), second_run()):
        yield from check
