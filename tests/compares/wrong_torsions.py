"""Wrong ideas of torsion (Wish 10), as changes of the model, and the calls that are to show them."""

from fractions import Fraction
from math import ceil, floor

from tests.compares.wrong_calls import mixed
from tests.compares.wrong_drifts import in_order, refused
from tests.draws import drift_faults
from tests.draws.torsions import strata
from tests.model import limits, torsion

MOST = limits.FLOOR_DISPLACEMENT[-1]
FAR = Fraction(100)         # a quotient that no floor has


def by(rule):
    """(22) by another rule, of the largest and the average."""
    return [(torsion, 'amplification', lambda largest, average: Fraction(rule(Fraction(largest), Fraction(average))))]


def bounded(rule):
    """Rounding and bounds by another rule, of the quotient in thousandths."""
    return [(torsion, 'bounded', lambda quotient: rule(quotient * torsion.THOUSANDTHS))]


def out_of_range(judged):
    """23 where a number that is judged is out of range."""
    def wrong(largest, average):
        """23, or nothing."""
        yield from [(23, 0)] * any(each not in limits.FLOOR_DISPLACEMENT for each in judged(largest, average))
    return [(limits, 'floor_refusals', wrong)]


def average_wrong(wrong):
    """25 by another rule; with an average of 0 the quotient is beyond all."""
    return [(limits, 'average_refusals', lambda largest, average: iter([(25, 0)] * wrong(largest, average))),
            (torsion, 'amplification', lambda largest, average, right=torsion.amplification: right(largest, average) if average else FAR)]


def at_its_number(largest, average):
    """23 at 1 for the largest, at 2 for the average."""
    yield from ((23, place) for place, each in enumerate((largest, average), 1) if each not in limits.FLOOR_DISPLACEMENT)


ERRORS = {
    'rounded down': bounded(lambda thousandths: min(floor(thousandths), 3_000)),
    'rounded to the nearest': bounded(lambda thousandths: min(round(thousandths), 3_000)),
    'one more than rounded down': bounded(lambda thousandths: min(floor(thousandths) + 1, 3_000)),
    'no upper bound': bounded(ceil), 'an upper bound of 2.999': bounded(lambda thousandths: min(ceil(thousandths), 2_999)),
    'an upper bound of 3.001': bounded(lambda thousandths: min(ceil(thousandths), 3_001)),
    'a lower bound of 1.0': bounded(lambda thousandths: max(1_000, min(ceil(thousandths), 3_000))),
    'in hundredths': bounded(lambda thousandths: min(ceil(thousandths / 10), 300)),
    'bounded before it is squared': by(lambda largest, average: min(largest / average * Fraction(10, 12), 3) ** 2) + bounded(ceil),
    '1.2 left out': by(lambda largest, average: (largest / average) ** 2),
    '1.2 not squared': by(lambda largest, average: (largest / average) ** 2 * Fraction(10, 12)),
    'not squared': by(lambda largest, average: largest / average * Fraction(10, 12)),
    '1.2 times the largest': by(lambda largest, average: (largest * Fraction(12, 10) / average) ** 2),
    'upside down': by(lambda largest, average: (average * Fraction(12, 10) / largest) ** 2),
    'the ratio rounded up to thousandths, then squared': by(lambda largest, average: Fraction(ceil(largest / average * Fraction(10_000, 12)), 1_000) ** 2),
    'the ratio rounded up to millionths, then squared': by(lambda largest, average: Fraction(ceil(largest / average * Fraction(10**7, 12)), 10**6) ** 2),
    'in double precision': by(lambda largest, average: (float(largest) / (1.2 * float(average))) ** 2),
    '1.2 times the average rounded up': by(lambda largest, average: (largest / ceil(average * Fraction(12, 10))) ** 2),
    '1.2 times the average rounded down': by(lambda largest, average: (largest / floor(average * Fraction(12, 10))) ** 2),
    '25 before 23': in_order('torsion_refusals', 25, 23),
    '23 judged on the largest alone': out_of_range(lambda largest, average: [largest]),
    '23 judged on the average alone': out_of_range(lambda largest, average: [average]),
    '23 at the place of its number': [(limits, 'floor_refusals', at_its_number)],
    '23 at place 1': refused('floor_refusals', lambda number, place: (number, 1)),
    '25 at place 1': refused('average_refusals', lambda number, place: (number, 1)),
    'equal displacements refused': average_wrong(lambda largest, average: average == 0 or average >= largest),
    'an average above the largest taken': average_wrong(lambda largest, average: average == 0),
    'an average of 0 taken': average_wrong(lambda largest, average: average > largest),
    'an average of 1 refused': average_wrong(lambda largest, average: average <= 1 or average > largest),
    'displacements of 0 refused with 23': [(limits, 'FLOOR_DISPLACEMENT', range(1, MOST + 1))],
    'a displacement up to 999,999': [(limits, 'FLOOR_DISPLACEMENT', range(0, MOST))],
    'a displacement up to 1,000,001': [(limits, 'FLOOR_DISPLACEMENT', range(0, MOST + 2))],
    'displacements judged by their low 32 bits': out_of_range(lambda largest, average: [largest % 2**32, average % 2**32]),
}


def drawn(rng, count):
    """Calls of torsion."""
    return mixed(rng, count, list(strata()), drift_faults.random_torsion)
