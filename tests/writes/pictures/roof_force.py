"""The picture of the roof force over the period."""

from fractions import Fraction

from tests.model import exact
from tests.writes.pictures.drawing import BLUE, GREY, Axes, Picture, decimal, tenths


def roof_force():
    """The roof force as a part of V_D over T, and the line of (21) beside it."""
    picture = Picture(960, 600, 'The roof force as a part of V_D over the period')
    axes = Axes(picture, (110, 70, 930, 520), Fraction(65, 10), Fraction(5, 10))
    axes.frame('period T (s)', 'F_t / V_D', tenths(65, 5), [(Fraction(each, 100), decimal(Fraction(each, 100), 2)) for each in range(0, 51, 5)])
    longest = 6_328
    axes.curve([(0, 0), (Fraction(longest, 1000), Fraction(7 * longest, 100_000))], GREY, '2 6', 2)
    bends = (700, 701, 3_571, 3_572, longest)
    parts = [(Fraction(T, 1000), exact.roof_part(T)) for T in bends]
    axes.curve([(0, 0), parts[0]], BLUE, width=4)
    axes.curve(parts[1:], BLUE, width=4)
    axes.curve(parts[:2], BLUE, '2 4', 2)
    for x, y in (parts[0], parts[3]):
        axes.dot(x, y, BLUE)
    picture.ring(*axes.point(*parts[1]), BLUE)
    axes.words(*parts[0], 'up to 700 ms: none', right=24, down=-10, colour=BLUE)
    axes.words(*parts[1], '701 ms: 0.04907', right=24, down=10, colour=BLUE)
    axes.words(Fraction(21, 10), Fraction(147, 1000), '0.07·(T in s)', right=22, down=26, colour=BLUE)
    axes.words(*parts[3], 'from 3,572 ms on: 1/4', right=10, down=30, colour=BLUE)
    axes.words(Fraction(5), Fraction(35, 100), '(21) at every T', right=-16, down=-10, colour=GREY, anchor='end')
    picture.heading(110, 'Roof force: none up to 0.7 s, and at most a quarter of V_D')
    return picture.svg()
