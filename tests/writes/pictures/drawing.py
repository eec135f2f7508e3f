"""What every picture is drawn with: shapes and words on a white ground, and a field with two scales."""

from fractions import Fraction
from xml.sax.saxutils import escape

BLUE, RED, GREEN, GREY, BLACK = '#0072b2', '#d55e00', '#00795a', '#707070', '#000000'


def decimal(number, digits):
    """A number of 0 or more to so many digits, without a float."""
    parts = round(Fraction(number) * 10**digits)
    return f'{parts // 10**digits}.{parts % 10**digits:0{digits}}'


def at(number):
    """A coordinate, to a tenth."""
    return decimal(number, 1).removesuffix('.0')


class Picture:
    """Shapes and words on a white ground."""

    def __init__(self, width, height, title):
        self.width, self.height, self.parts = width, height, []
        self.title = title

    def line(self, points, colour=BLACK, width=1, dash=''):
        """A line through points."""
        dashed = f' stroke-dasharray="{dash}"' if dash else ''
        path = ' '.join(f'{at(x)},{at(y)}' for x, y in points)
        self.parts.append(f'<polyline points="{path}" fill="none" stroke="{colour}" stroke-width="{width}"{dashed}/>')

    def dot(self, x, y, colour):
        """A filled circle."""
        self.parts.append(f'<circle cx="{at(x)}" cy="{at(y)}" r="5" fill="{colour}"/>')

    def ring(self, x, y, colour):
        """An open circle."""
        self.parts.append(f'<circle cx="{at(x)}" cy="{at(y)}" r="5" fill="#ffffff" stroke="{colour}" stroke-width="2"/>')

    def wide_ring(self, x, y, colour):
        """An open circle that is seen around a filled one."""
        self.parts.append(f'<circle cx="{at(x)}" cy="{at(y)}" r="8" fill="#ffffff" stroke="{colour}" stroke-width="2"/>')

    def bar(self, x, y, width, height, colour, opacity=''):
        """A filled rectangle."""
        seen = f' fill-opacity="{opacity}"' if opacity else ''
        self.parts.append(f'<rect x="{at(x)}" y="{at(y)}" width="{at(width)}" height="{at(height)}" fill="{colour}"{seen}/>')

    def words(self, x, y, text, colour=BLACK, anchor='start', size=17, weight='', turned=False):
        """A line of text; turned, it reads upward."""
        bold = f' font-weight="{weight}"' if weight else ''
        turn = f' transform="rotate(-90 {at(x)} {at(y)})"' if turned else ''
        self.parts.append(f'<text x="{at(x)}" y="{at(y)}" fill="{colour}" text-anchor="{anchor}" font-size="{size}"{bold}{turn}>'
                          f'{escape(text)}</text>')

    def heading(self, x, text):
        """What the picture shows, above it."""
        self.words(x, 36, text, size=19, weight='bold')

    def key(self, left, right, y, text, colour, dash='', width=3, gap=10):
        """A piece of a curve, and what the curve is of."""
        self.line([(left, y - 6), (right, y - 6)], colour, width, dash)
        self.words(right + gap, y, text, size=16)

    def svg(self):
        """The file."""
        head = (f'<svg xmlns="http://www.w3.org/2000/svg" viewBox="0 0 {self.width} {self.height}" width="{self.width}" '
                f'height="{self.height}" font-family="DejaVu Sans, Verdana, Arial, sans-serif">')
        ground = f'<rect width="{self.width}" height="{self.height}" fill="#ffffff"/>'
        return '\n'.join([head, f'<title>{escape(self.title)}</title>', ground, *self.parts, '</svg>']) + '\n'


class Axes:
    """A field of a picture with its two scales."""

    def __init__(self, picture, box, across, up):
        self.picture, (self.left, self.top, self.right, self.bottom) = picture, box
        self.across, self.up = across, up

    def point(self, x, y):
        """Where a pair of numbers stands."""
        return (self.left + Fraction(x) * (self.right - self.left) / self.across,
                self.bottom - Fraction(y) * (self.bottom - self.top) / self.up)

    def frame(self, x_words, y_words, x_ticks, y_ticks):
        """Both axes, their ticks and what they are of."""
        for tick, label in x_ticks:
            x, _ = self.point(tick, 0)
            self.picture.line([(x, self.top), (x, self.bottom)], '#dddddd')
            self.picture.words(x, self.bottom + 24, label, anchor='middle')
        for tick, label in y_ticks:
            _, y = self.point(0, tick)
            self.picture.line([(self.left, y), (self.right, y)], '#dddddd')
            self.picture.words(self.left - 10, y + 6, label, anchor='end')
        self.picture.line([(self.left, self.top), (self.left, self.bottom), (self.right, self.bottom)], BLACK, 2)
        if x_words:
            self.picture.words(Fraction(self.left + self.right, 2), self.bottom + 54, x_words, anchor='middle')
        if y_words:
            self.picture.words(self.left - 62, Fraction(self.top + self.bottom, 2), y_words, anchor='middle', turned=True)

    def curve(self, points, colour, dash='', width=3):
        """A line through pairs of numbers."""
        self.picture.line([self.point(x, y) for x, y in points], colour, width, dash)

    def dot(self, x, y, colour):
        """A mark at a pair of numbers."""
        self.picture.dot(*self.point(x, y), colour)

    def words(self, x, y, text, right=0, down=0, **form):
        """Words at a pair of numbers, moved by so much."""
        x, y = self.point(x, y)
        self.picture.words(x + right, y + down, text, **form)


def tenths(last, step=1):
    """Ticks from 0 to `last` tenths, with their labels."""
    return [(Fraction(tick, 10), f'{tick // 10}.{tick % 10}') for tick in range(0, last + 1, step)]
