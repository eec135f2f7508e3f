"""To which side each step of the rules is rounded."""

from fractions import Fraction
from math import ceil, floor

from tests.model import limits, response, shears, storeys


def side(pairs):
    """To which side pairs of an exact and a whole number are rounded; pairs that are equal say nothing."""
    ways = {'up' if whole == ceil(exact) else 'down' if whole == floor(exact) else 'otherwise' for exact, whole in pairs if exact != whole}
    assert len(ways) == 1, ways
    return ways.pop()


def sides():
    """Each step of the rules that rounds, with how the model rounds it, on a job where nothing comes out whole."""
    T, T0, R = 421, Fraction(1000 * 63_347_200, 72_000_001), 477
    capacity, square = response.design_capacity(R)
    unit, frame = response.UNIT, limits.Frame(2, 0, R, 125, 151)
    low, high = response.lower_root(square), response.upper_root(square)
    root = Fraction(response.lower_root(square, 10**15), 10**15) * unit
    line = [(Fraction(each, unit), T0 * 7 / 10) for each in (low, high)]
    per = Fraction(frame.I * 9_001, 14_000 * frame.alphay)
    weights, heights = [3, 5, 7], [11, 13, 17]
    parts = storeys.products_above(weights, heights)
    yield 't', side([(Fraction(8973047, 10_000), response.approximate_period(2, 300))])
    yield '14·t/10', side([(Fraction(14 * 897, 10), response.period(897, 9_999))])
    yield 'Sa', side([(response.spectrum_in_g(72_000_001, 63_347_200, each) * unit, response.spectrum(72_000_001, 63_347_200, each))
                      for each in (7, T, 1_001, 3_001)])
    yield 'root, lower', side([(root, low)])
    yield 'root, upper', side([(root, high)])
    yield 'factor, lower', side([(response.factor(capacity, line[0][0], T0, line[0][1]) * unit,
                                  response.lower_factor(capacity, square, T0, line[0][1]))])
    yield 'factor, upper', side([(response.factor(capacity, line[1][0], T0, line[1][1]) * unit,
                                  response.upper_factor(capacity, square, T0, line[1][1]))])
    yield 'q', side([(Fraction(unit * 7_200_001, low), response.ratio(7_200_001, low))])
    yield 'm', side([(Fraction(52 * q, 100) + 1_440_000, response.modified_ratio(q)) for q in (4_000_001, 7_000_001)]
                    + [(Fraction(7 * 9_000_001, 10), response.modified_ratio(9_000_001))])
    yield 'V, V_M', side([(per * 2_923_211, shears.V(frame, 2_923_211, 9_001))])
    yield 'p', side([(Fraction(52 * 7_200_001, 100) + Fraction(144 * 14_630_605, 1000), response.p_of_star(7_200_001, 14_630_605))])
    yield 'V*', side([(per * 7_200_001 / 3, shears.V_star(frame, 7_200_001, 9_001))])
    yield 'F_t', side([(Fraction(7 * each * 1_566_001, 100_000), storeys.F_t(each, 1_566_001)) for each in (701, 3_571)]
                      + [(Fraction(1_566_001, 4), storeys.F_t(3_572, 1_566_001))])
    yield 'shear under level x', side([(Fraction((10_001 - 30) * part, parts[0]), whole - 30)
                                       for part, whole in zip(parts, storeys.shears(10_001, 30, weights, heights))])
