"""The pictures of the reduction factor and of the modified ratio."""

from fractions import Fraction

from tests.model import response
from tests.writes.pictures.drawing import BLACK, BLUE, GREEN, GREY, RED, Axes, Picture, decimal, tenths

UNIT = response.UNIT
R = 480
LEVELS = (('MCE', 'R', response.mce_capacity(R), RED, '12 6', -14), ('design', 'R_a', response.design_capacity(R), BLUE, '', 28))
BENDS = (0, 3_000_000, 8_000_000, 12_000_000)       # q, in ten-millionths
# the lines of m: their colour and words, at which q these stand, and how far they are moved
LINES = ((BLUE, 'm = q', 1_500_000, 24, 20), (GREEN, 'm = 0.52·q + 0.144', 5_500_000, 30, 26), (RED, 'm = 0.7·q', 10_000_000, 30, 30))


def factor():
    """The reduction factor over T/T0 for R = 4.80, design and MCE."""
    picture = Picture(960, 600, 'The reduction factor over T/T0')
    axes = Axes(picture, (90, 70, 930, 520), Fraction(14, 10), 6)
    axes.frame('T / T0', 'reduction factor', tenths(14, 2), [(each, str(each)) for each in range(7)])
    for name, shown, (capacity, square), colour, dash, down in LEVELS:
        root = Fraction(response.lower_root(square), UNIT)
        places = [Fraction(0), Fraction(1, 5), Fraction(3, 5), Fraction(1), Fraction(14, 10)]
        points = [(T, response.factor(capacity, root, Fraction(1), T)) for T in places]
        axes.curve(points, colour, dash)
        for x, y in points[1:4]:
            axes.dot(x, y, colour)
        axes.words(Fraction(2, 5), root, f'√(2{shown} − 1) = {decimal(root, 3)}', down=down, colour=colour, anchor='middle')
        axes.words(Fraction(14, 10), capacity, f'{shown} = {decimal(capacity, 3)} ({name})', right=-8, down=down, colour=colour, anchor='end')
    axes.words(0, 1, 'at T = 0: 1', right=14, down=24, colour=GREY)
    picture.heading(90, 'Reduction factor (6), (16) for R = 4.80: bends at 0.2, 0.6 and 1.0')
    return picture.svg()


def on_line(q):
    """q and m in ones."""
    return Fraction(q, UNIT), Fraction(response.modified_ratio(q), UNIT)


def modified():
    """The modified ratio m over q with its three lines."""
    picture = Picture(960, 600, 'The modified ratio over the ratio')
    axes = Axes(picture, (90, 70, 930, 520), Fraction(12, 10), Fraction(9, 10))
    axes.frame('q = Sa / lower factor', 'm', tenths(12, 2), tenths(9))
    axes.curve([(0, 0), (Fraction(9, 10), Fraction(9, 10))], GREY, '2 6', 2)
    for first, last, (colour, words, place, right, down) in zip(BENDS, BENDS[1:], LINES):
        axes.curve([on_line(first), on_line(last)], colour, width=4)
        axes.words(*on_line(place), words, right=right, down=down, colour=colour, size=18)
    for q, m in map(on_line, BENDS[1:3]):
        axes.dot(q, m, BLACK)
        axes.words(q, m, f'({decimal(q, 1)}, {decimal(m, 2)})', right=-12, down=-34, anchor='end')
    axes.words(Fraction(86, 100), Fraction(86, 100), 'q itself', right=-16, down=0, colour=GREY, anchor='end')
    picture.heading(90, 'Modified ratio (8), (18): three lines that meet at q = 0.3 and q = 0.8')
    return picture.svg()
