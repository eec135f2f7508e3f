"""Mistakes with drift, torsion and accidental moments as the manual shows them: what is handed in wrongly and taken, what is refused, and what goes wrong
in a check by hand or afterwards."""

from fractions import Fraction

from tests.model import drift
from tests.writes.by_hand.text import comma, decimal, table
from tests.writes.six_storeys import DIMENSION, DISPLACEMENTS, ENDS, HEIGHTS, LIMIT, STATIC, drift_shear, moments, signed, storeys, verdicts
from tests.writes.torsion_page import KNM, factor, knm, thousandths

ALONG = 150             # a plan dimension along the forces, dm


def said(words):
    """Verdicts as text: which storeys get a no."""
    wrong = [str(number) for number, each in enumerate(words, 1) if each == 'no']
    if len(wrong) in (0, len(words)):
        return f"{'no' if wrong else 'yes'} in every storey"
    return f"no in storey{'s' * (len(wrong) > 1)} {' and '.join(wrong)}"


def listed(numbers):
    """Numbers with their signs, one after the other."""
    return ', '.join(map(signed, numbers))


def under_V_D(office):
    """The displacements of the worked sheet's levels under V_D, in whole numbers: two thirds of those under V_drift."""
    part = Fraction(office.V_D, drift_shear(office).V_star)
    assert part.limit_denominator(10) == Fraction(2, 3)
    return [round(each * part) for each in STATIC]


def drift_rows(office):
    """What is handed in wrongly to a drift call, what it gives, and what is right."""
    right, lower = said(verdicts()), 5
    in_mm, in_cm = [round(Fraction(each, 100)) for each in DISPLACEMENTS], [10 * each for each in HEIGHTS[:lower]]
    given = [(f'displacements in mm: {listed(in_mm)}', verdicts(in_mm)),
             ('displacements without their signs', verdicts([abs(each) for each in DISPLACEMENTS])),
             (f'displacements roof first: {listed(DISPLACEMENTS[::-1])}', verdicts(DISPLACEMENTS[::-1])),
             (f'{LIMIT // 10} for the limit, as 0.005 is 5/1000; here it means 0.0005', verdicts(limit=LIMIT // 10))]
    of_sheet = f'displacements of the worked sheet under V_D: {listed(under_V_D(office))}'
    yield of_sheet, said(verdicts(under_V_D(office), heights=office.heights)), said(verdicts(STATIC, heights=office.heights))
    yield from ((words, said(found), right) for words, found in given)
    assert said(verdicts(DISPLACEMENTS[:lower], heights=HEIGHTS[:lower])) == right and lower == 5
    yield f'heights of the lower five levels in cm: {listed(in_cm)}', said(verdicts(DISPLACEMENTS[:lower], heights=in_cm)), right


def moment_rows(office):
    """The same of accidental moments, at the roof."""
    dimensions = ((ALONG, f'the plan dimension along the forces, say {ALONG} for {DIMENSION}'),
                  (DIMENSION * 10, f'the plan dimension in cm, {comma(DIMENSION * 10)} for {DIMENSION}'),
                  (DIMENSION // 10, f'the plan dimension in m, {DIMENSION // 10} for {DIMENSION}'))
    for dimension, words in dimensions:
        yield words, f'level {len(office.forces)}: {knm(moments(office, dimension=dimension).positive[-1])} kN·m', f'{knm(moments(office).positive[-1])} kN·m'


def refused_names():
    """Heights in cm, and own heights of storeys in place of heights above the base: refused with 4 at a level."""
    in_cm, own = [10 * each for each in HEIGHTS], [storey.height() for storey in storeys()]
    of_cm, of_own = (drift.drift(heights, DISPLACEMENTS, LIMIT) for heights in (in_cm, own))
    assert of_cm[:2] == of_own[:2] == ('refused', 4) and of_cm[2] == len(in_cm)
    return {'cm_roof': comma(in_cm[-1]), 'cm_level': str(of_cm[2]), 'own_heights': listed(own[:2]), 'own_level': str(of_own[2])}


def by_hand_rows(office):
    """Mistakes of a check by hand, and afterwards."""
    fifth, whole, equal, roof = storeys()[4], factor(ENDS[0]), factor(ENDS[2]).factor, moments(office).positive[-1]
    sizes, above_base, low = abs(fifth.bottom) - abs(fifth.top), LIMIT * fifth.high, int(1000 * whole.quotient)
    assert 0 < sizes <= fifth.most() and fifth.difference() <= fifth.most() and abs(fifth.difference()) <= above_base
    assert low == round(1000 * whole.quotient) and Fraction(low, 1000) < whole.quotient
    size, most, level = comma(abs(fifth.difference())), comma(fifth.most()), len(office.forces)
    yield ('the difference of the sizes for the size of the difference',
           f'storey 5: {comma(abs(fifth.bottom))} − {comma(abs(fifth.top))} = {comma(sizes)}, yes', f'{size}, no')
    yield 'the difference compared with its sign', f'storey 5: {signed(fifth.difference())} is below {most}, yes', f'{size} is above {most}, no'
    yield ("the height above the base for the storey's own height", f'storey 5: {LIMIT} · {fifth.high} = {comma(above_base)}, yes',
           f'{LIMIT} · {fifth.height()} = {most}, no')
    yield 'A_x rounded down, or to the nearest', f'floor 1: {thousandths(low)}, below {decimal(whole.quotient, 6)}', thousandths(whole.factor)
    less = decimal(Fraction(roof * equal, 1000 * KNM), 6)
    yield ('a factor below 1 used as it is', f'level {level}: {knm(roof)} · {thousandths(equal)} = {less} kN·m',
           f'at least {knm(roof)} kN·m, unless your reviewer agrees to less')
    yield 'the accidental moments of one sign alone', f'level {level}: {knm(roof)} kN·m alone', f'−{knm(roof)} kN·m too'


def mistake_names(office):
    """What the page names of mistakes."""
    handed_in = table(('handed in', 'gives', 'right'), [*drift_rows(office), *moment_rows(office)])
    return {'handed_in_table': handed_in, **refused_names(), 'by_hand_table': table(('mistake', 'gives', 'right'), by_hand_rows(office))}
