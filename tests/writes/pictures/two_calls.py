"""The pictures of the shear call and the distribution: how a job is made of the two, and what the period does."""

from fractions import Fraction

from tests.model import calls
from tests.writes.by_hand.worked import read
from tests.writes.pictures.drawing import BLACK, BLUE, GREEN, GREY, RED, Axes, Picture
from tests.writes.pictures.sheets import SHEET
from tests.writes.scaling import scaled

PERIODS = ((700, BLUE, ''), (701, GREEN, '12 6'), (3_571, RED, '3 5'))


def box(picture, left, top, right, bottom, colour, lines):
    """A frame with lines of text in it, the first bold."""
    picture.line([(left, top), (right, top), (right, bottom), (left, bottom), (left, top)], colour, 2)
    first = Fraction(top + bottom, 2) + 6 - 12 * (len(lines) - 1)
    for place, words in enumerate(lines):
        picture.words(Fraction(left + right, 2), first + 24 * place, words, anchor='middle', colour=colour, weight='' if place else 'bold')


def arrow(picture, points, colour, dash=''):
    """A line that ends in a head; its last stretch goes right or down."""
    picture.line(points, colour, 2, dash)
    (before, _), (x, y) = points[-2:]
    head = [(x - 9, y - 5), (x, y), (x - 9, y + 5)] if before < x else [(x - 5, y - 9), (x, y), (x + 5, y - 9)]
    picture.line(head, colour, 2)


def two_calls():
    """How a job is made of the shear call and the distribution, and where a program hands in numbers of its own."""
    picture = Picture(1080, 470, 'A job is the shear call and then the distribution')
    picture.heading(40, 'A job is the shear call, and then the distribution of its V_D at its T')
    given = ((70, 'site or zone, frame'), (112, 'total weight: the sum of the weights'), (154, 'top height: the last height'))
    for y, words in given:
        picture.words(366, y + 42, words, anchor='end')
        arrow(picture, [(376, y + 36), (430, y + 36)], BLACK)
    box(picture, 430, 80, 650, 216, BLUE, ('shear call', '000, up to (20)'))
    box(picture, 430, 306, 650, 442, GREEN, ('distribution', '000, (21) and (23)'))
    arrow(picture, [(650, 148), (704, 148)], BLACK)
    picture.words(714, 154, 'V, V_M, V*, V_D, T')
    arrow(picture, [(540, 216), (540, 306)], BLACK)
    picture.words(552, 267, 'in a job: V_D is the base shear, T is the period')
    picture.words(366, 350, 'weights and heights of the levels', anchor='end')
    arrow(picture, [(376, 344), (430, 344)], BLACK)
    picture.words(366, 410, 'or a base shear and a period', anchor='end', colour=RED)
    picture.words(366, 432, 'of your own', anchor='end', colour=RED)
    arrow(picture, [(376, 414), (430, 414)], RED, '6 4')
    arrow(picture, [(650, 374), (704, 374)], BLACK)
    picture.words(714, 380, 'force, shear and moment of each level')
    return picture.svg()


def periods():
    """The storey shears of one base shear with three periods."""
    office = read(SHEET.read_bytes())
    base_shear, heights = scaled(office).base_shear, [0, *office.heights]
    picture = Picture(960, 600, 'The storey shears of one base shear with three periods')
    axes = Axes(picture, (110, 70, 890, 520), 1_000_000, 350)
    axes.frame('shear of the storey (N)', 'height above base (dm)', [(each, f'{each:,}') for each in range(0, 1_000_001, 200_000)],
               [(each, str(each)) for each in heights])
    for place, (period, colour, dash) in enumerate(PERIODS):
        over = calls.distribution(base_shear, period, office.weights, office.heights)
        points = [(0, heights[-1])]
        for level in reversed(range(len(over.shears))):
            points += [(over.shears[level], heights[level + 1]), (over.shears[level], heights[level])]
        axes.curve(points, colour, dash)
        picture.key(606, 656, 192 + 26 * place, f'{period:,} ms: F_t = {over.F_t:,} N', colour, dash)
    picture.words(606, 166, 'period and roof force', size=16)
    for level in range(len(office.heights)):
        axes.words(0, Fraction(heights[level] + heights[level + 1], 2), f'storey {level + 1}', right=14, down=6, colour=GREY)
    picture.heading(110, f'The worked building, base shear {base_shear:,} N: what the period does')
    return picture.svg()
