"""The picture of which way the figures move: the four shears of the worked sheet over R."""

from fractions import Fraction

from tests.model import limits
from tests.writes.by_hand.worked import read
from tests.writes.pictures.drawing import BLUE, GREEN, RED, Axes, Picture, decimal, tenths
from tests.writes.pictures.sheets import SHEET
from tests.writes.star_over_r import LEVEL, STAR_RISES, over_R


def moves():
    """V, V_M, V* and V_D of the worked sheet over R."""
    office = read(SHEET.read_bytes())
    over, (_, end) = over_R(office), STAR_RISES
    first, last = limits.R_RANGE[0], limits.R_RANGE[-1]
    picture = Picture(960, 600, 'V, V_M, V* and V_D of the worked sheet over R')
    axes = Axes(picture, (110, 70, 930, 520), last - first, Fraction(35, 10))
    axes.frame('R', 'shear (MN)', [(R - first, decimal(Fraction(R, 100), 2)) for R in range(first, last + 1, 50)], tenths(35, 5))
    drawn = (('V_D', 'V_D, the largest', '#c8c8c8', '', 12), ('V', 'V', BLUE, '', 3), ('V_M', 'V_M', GREEN, '12 6', 3), ('V_star', 'V*', RED, '3 5', 4))
    for place, (name, words, colour, dash, width) in enumerate(drawn):
        axes.curve([(R - first, Fraction(newtons, 10**6)) for R, newtons in over[name]], colour, dash, width)
        picture.key(640, 690, 104 + 28 * place, words, colour, dash, width, gap=12)
    shears = dict(over['V_star'])
    said = ((first, f'V* = {shears[first]:,} N', 10, 42), (end, f'V* = {shears[end]:,} N from R = {decimal(Fraction(end, 100), 2)} on', 20, 28),
            (LEVEL, f'V_D = V* from R = {decimal(Fraction(LEVEL, 100), 2)} on', -40, -40))
    for R, words, right, down in said:
        axes.dot(R - first, Fraction(shears[R], 10**6), RED)
        axes.words(R - first, Fraction(shears[R], 10**6), words, right=right, down=down, colour=RED, size=16)
    picture.heading(110, 'The worked sheet over R: V and V_M fall, V* can rise, V_D never rises')
    return picture.svg()
