"""The picture of soft clay: its velocity against q."""

from fractions import Fraction

from tests.model import soil
from tests.writes import logs
from tests.writes.pictures.drawing import BLUE, GREY, RED, Axes, Picture, decimal


def soft_clay():
    """The velocity of soft clay against q, with the layers of the manual's boring."""
    strengths = soil.VALUE[soil.SOFT_CLAY]
    picture = Picture(960, 600, 'The velocity of soft clay against its unconfined compression strength')
    axes = Axes(picture, (110, 70, 910, 520), 420, 230)
    axes.frame('q (0.01 kgf/cm²)', 'velocity (m/s)', [(q, str(q)) for q in range(0, 401, 50)], [(v, str(v)) for v in range(0, 201, 40)])
    axes.curve([(q, Fraction(soil.velocity(soil.SOFT_CLAY, q), 10)) for q in strengths], BLUE)
    limit, by_count = Fraction(1_800, 10), Fraction(soil.velocity(soil.COHESIVE, 2), 10)
    lines = ((limit, 30, '180 m/s: an average below it is soft', RED, '12 6'),
             (by_count, 180, f'cohesive soil, N = 2: {decimal(by_count, 1)} m/s', GREY, '3 5'))
    for v, q, words, colour, dash in lines:
        axes.curve([(0, v), (410, v)], colour, dash)
        axes.words(q, v, words, down=-10, colour=colour)
    for q in (*(value for kind, value in zip(*logs.BORING[1:]) if kind == soil.SOFT_CLAY), 100, strengths[-1]):
        v = Fraction(soil.velocity(soil.SOFT_CLAY, q), 10)
        x, y = axes.point(q, v)
        picture.dot(x, y, BLUE)
        right, down = (-130, -14) if q == strengths[-1] else (14, 18)
        axes.words(q, v, f'q = {q}: {decimal(v, 1)} m/s', right=right, down=down)
    picture.heading(110, 'Soft clay: 120·(q/100)^0.36 m/s, rounded down to 0.1 m/s')
    return picture.svg()
