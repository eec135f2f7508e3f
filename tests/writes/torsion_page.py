"""Torsion and accidental moments as the manual's page on drift shows them: three floors and the moments of the worked sheet by hand.

What the page says in words is asserted here of the model.
"""

from fractions import Fraction
from math import ceil

from tests.model import accidental, torsion
from tests.writes.by_hand.text import comma, decimal, same, table
from tests.writes.six_storeys import DIMENSION, ENDS, drift_shear, floor, moments, signed

ODD = 2_000, 1_001                      # ends of a floor whose sum is odd
RATIO = Fraction('1.25')                # of the largest to the average displacement, as a program prints it
KNM = 10_000 * accidental.HUNDREDTHS    # hundredths of a N*dm in a kN*m


def factor(ends):
    """What the model has of a floor."""
    return torsion.torsion(*floor(ends))


def knm(moment):
    """A moment of hundredths of a N*dm in kN*m."""
    return decimal(Fraction(moment, KNM), 6)


def thousandths(number):
    """A factor in thousandths with its point."""
    return f'{number // 1000}.{number % 1000:03}'


def floor_row(number, ends):
    """A floor of the table."""
    return (str(number), *map(signed, ends), *map(comma, floor(ends)), decimal(factor(ends).quotient, 6), f'{factor(ends).factor:,}')


def floor_names():
    """The floors by hand."""
    names, heads = {}, ('floor', 'one end, 0.01 mm', 'other end, 0.01 mm', 'largest', 'average, with signs', 'A_x by (22)', 'factor, thousandths')
    for number, ends in enumerate(ENDS, 1):
        (large, average), (whole, exact) = floor(ends), factor(ends)
        divisor = torsion.TIMES_AVERAGE * average
        root = Fraction(large) / divisor
        assert root ** 2 == exact and divisor.denominator == 1
        names |= {f'large_{number}': comma(large), f'average_{number}': comma(average), f'end_{number}': comma(ends[0]), f'other_{number}': comma(abs(ends[1])),
                  f'divisor_{number}': comma(int(divisor)), f'over_{number}': str(root.numerator), f'under_{number}': str(root.denominator),
                  f'square_over_{number}': str(exact.numerator), f'square_under_{number}': str(exact.denominator), f'A_{number}': decimal(exact, 6),
                  f'factor_{number}': f'{whole:,}'}
    assert factor(ENDS[0]).factor == ceil(1000 * factor(ENDS[0]).quotient) != round(1000 * factor(ENDS[0]).quotient)
    assert factor(ENDS[1]).quotient > torsion.MOST and factor(ENDS[1]).factor == 1000 * torsion.MOST
    assert len(set(ENDS[2])) == 1 and factor(ENDS[2]).factor < 1000
    return {**names, 'floor_table': table(heads, [floor_row(number, ends) for number, ends in enumerate(ENDS, 1)]), **average_names()}


def average_names():
    """Other ways to form an average: by sizes, of ends whose sum is odd, and by a ratio that a program prints."""
    sizes = sum(map(abs, ENDS[1])) // 2
    by_sizes = torsion.torsion(floor(ENDS[1])[0], sizes)
    (end, other), twice = ODD, torsion.torsion(2 * max(ODD), sum(ODD))
    down = torsion.torsion(max(ODD), sum(ODD) // 2)
    assert sum(ODD) % 2 == 1 and twice.quotient < down.quotient and twice.factor < down.factor
    most = (2 / torsion.TIMES_AVERAGE) ** 2
    assert most < torsion.MOST and torsion.amplification(2, 1) == most
    large, unit = RATIO * torsion.THOUSANDTHS, torsion.THOUSANDTHS
    assert large.denominator == 1 and torsion.amplification(large, unit) == torsion.amplification(RATIO, 1)
    return {'by_sizes': comma(sizes), 'A_by_sizes': decimal(by_sizes.quotient), 'most_by_sizes': decimal(most), 'odd_end': comma(end),
            'odd_other': comma(other), 'odd_twice': comma(2 * max(ODD)), 'odd_sum': comma(sum(ODD)), 'odd_factor': comma(twice.factor),
            'odd_down': comma(sum(ODD) // 2), 'odd_down_factor': comma(down.factor), 'ratio': decimal(RATIO), 'ratio_large': str(large),
            'ratio_factor': comma(torsion.torsion(int(large), unit).factor)}


def moment_names(office):
    """The moments of the worked sheet by hand, and those of a run under V_drift."""
    found, under_drift = moments(office), moments(office, drift_shear(office).V_star)
    assert found.forces == office.forces and all(one == -other for one, other in zip(found.positive, found.negative))
    rows = []
    for level in reversed(range(len(found.forces))):
        force, moment = found.forces[level], found.positive[level]
        rows.append((str(level + 1), comma(force), f'{comma(force)} · 5 · {DIMENSION} = {same(force * 5 * DIMENSION, moment)}', signed(-moment),
                     knm(moment)))
    arm, roof = accidental.PART * Fraction(DIMENSION, 10), Fraction(found.positive[-1], KNM)
    assert arm * Fraction(found.forces[-1], 1000) == roof
    used = factor(ENDS[0]).factor
    return {'moment_table': table(('level', 'force, N', 'positive, 0.01 N·dm', 'negative, 0.01 N·dm', 'size, kN·m'), rows), 'dimension': comma(DIMENSION),
            'dimension_m': decimal(Fraction(DIMENSION, 10)), 'arm_m': decimal(arm), 'roof_kN': decimal(Fraction(found.forces[-1], 1000)),
            'roof_kNm': knm(found.positive[-1]), 'drift_kNm': knm(under_drift.positive[-1]), 'last': str(len(found.forces)),
            'A_x_used': thousandths(used), 'amplified': decimal(roof * Fraction(used, 1000))}
