"""The picture of drift: the displacements of the frame that the manual works out, and the drift angles of its storeys beside their limit."""

from fractions import Fraction

from tests.model import drift as model
from tests.writes.by_hand.text import decimal, hundredths
from tests.writes.pictures.drawing import BLACK, BLUE, GREY, RED, Axes, Picture
from tests.writes.six_storeys import DISPLACEMENTS, HEIGHTS, LIMIT, WORDS, storeys

TOP, BOTTOM, HIGHEST = 110, 560, 230            # of the fields, and the height at their top, in dm
SIDEWAYS, ANGLES = (-25, 45), (-6, 6)           # mm, thousandths
FINER = Fraction(5, 2)                          # thousandths between two ticks
LEFT, RIGHT = (172, 500), (640, 1050)           # of the two fields
# where the words of a level stand, if not 18 to its right
BESIDE = {1: {'right': 12, 'down': 22}, 5: {'right': -14, 'down': 6, 'anchor': 'end'}, 6: {'right': 10, 'down': 6}}
WHITE, WIDE, HIGH = '#ffffff', 11, 18           # behind such words, so that no line of the field runs through them; width of a character, and height


def sign(number):
    """The minus of a number below 0."""
    return '−' if number < 0 else ''


def field(picture, left, right, ends, words, ticks):
    """A field whose numbers across begin below 0, with its line at 0; where a number stands on it."""
    first, last = ends
    axes = Axes(picture, (left, TOP, right, BOTTOM), last - first, HIGHEST)
    axes.frame(words, '', [(tick - first, label) for tick, label in ticks], [])
    for height in (0, *HEIGHTS):
        picture.line([axes.point(0, height), axes.point(last - first, height)], '#dddddd')
    axes.curve([(-first, 0), (-first, HIGHEST)], BLACK, width=1)
    return axes


def ground(picture, point, words, right=0, down=0, anchor='start'):
    """A white ground for words beside a point."""
    (x, y), wide = point, WIDE * len(words)
    picture.bar(x + right - (wide if anchor == 'end' else 0), y + down - HIGH + 3, wide, HIGH, WHITE)


def displacements(picture):
    """The displacement of each level, from the base up."""
    first, _ = SIDEWAYS
    axes = field(picture, *LEFT, SIDEWAYS, 'displacement (mm)', [(tick, f'{sign(tick)}{abs(tick)}') for tick in range(-20, 41, 10)])
    moved = [(Fraction(each, 100) - first, height) for each, height in zip([0, *DISPLACEMENTS], [0, *HEIGHTS])]
    said = [(*point, f'{sign(each)}{hundredths(abs(each))}', BESIDE.get(level, {'right': 18, 'down': 6}))
            for level, (point, each) in enumerate(zip(moved[1:], DISPLACEMENTS), 1)]
    for x, height, words, beside in said:
        ground(picture, axes.point(x, height), words, **beside)
    axes.curve(moved, BLUE)
    for level, (x, height) in enumerate(moved):
        y = axes.point(0, height)[1] + 6
        picture.words(LEFT[0] - 10, y, str(height), anchor='end')
        picture.words(LEFT[0] - 56, y, f'level {level}' if level else 'base', anchor='end', size=16)
        axes.dot(x, height, BLUE)
    for x, height, words, beside in said:
        axes.words(x, height, words, **beside)


def angles(picture):
    """The drift angle of each storey, orange where it is beyond the limit."""
    first, _ = ANGLES
    ticks = [(number * FINER, f'{sign(number)}{decimal(abs(number) * FINER / 1000, 4)}') for number in range(-2, 3)]
    axes = field(picture, *RIGHT, ANGLES, 'drift angle', ticks)
    for storey in storeys():
        angle = storey.angle * 1000
        (near, low), (far, high) = axes.point(min(angle, 0) - first, storey.low), axes.point(max(angle, 0) - first, storey.high)
        within = storey.verdict == model.YES
        picture.bar(near, high + 2, far - near, low - high - 4, BLUE if within else RED, '0.75')
        middle = Fraction(low + high, 2) + 6
        picture.words(RIGHT[0] - 10, middle, f'storey {storey.number}', anchor='end', size=16)
        words = f'{sign(angle)}{decimal(abs(storey.angle), 6)} {WORDS[storey.verdict]}'
        zero, _ = axes.point(-first, 0)
        picture.words(zero + (-10 if angle > 0 else 10), middle, words, BLACK if within else RED, 'end' if angle > 0 else 'start', 16,
                      '' if within else 'bold')
    for limit in (-Fraction(LIMIT, 10), Fraction(LIMIT, 10)):
        axes.curve([(limit - first, 0), (limit - first, HIGHEST)], GREY, '8 5', 2)
        axes.words(limit - first, HIGHEST, 'limit', down=-8, anchor='middle', size=16, colour=GREY)


def drift():
    """The frame by hand: its displacements, and its drift angles with the limit."""
    picture = Picture(1080, 660, 'The displacements of a frame, and the drift angles of its storeys with their limit')
    picture.heading(40, f'A frame of {len(HEIGHTS)} storeys: displacements of its levels, and drift angles of its storeys')
    picture.words(40, 66, 'blue: within the limit of 0.005, to either side; orange: beyond it', size=16)
    displacements(picture)
    angles(picture)
    picture.words(36, Fraction(TOP + BOTTOM, 2), 'height above base (dm)', anchor='middle', turned=True)
    return picture.svg()
