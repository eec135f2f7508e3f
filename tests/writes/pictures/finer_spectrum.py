"""The picture of the finer spectrum: V of the light frame at neighbouring periods."""

from fractions import Fraction

from tests.writes import finer
from tests.writes.by_hand.worked import read
from tests.writes.pictures.drawing import BLUE, GREY, RED, Axes, Picture, decimal
from tests.writes.pictures.sheets import LIGHT_FRAME


def steps():
    """V of the light frame at neighbouring periods, in millionths and in ten-millionths, beside the exact one."""
    worked = read(LIGHT_FRAME.read_bytes())
    before, now, exacts = finer.check_steps(worked)
    first, last, (lowest, highest) = finer.PERIODS[0], finer.PERIODS[-1], finer.picture_ends(worked)
    on_line = Fraction(8, 10)       # how much of a millisecond is drawn behind a mark
    picture = Picture(960, 600, 'V of a light frame at neighbouring periods, in millionths and in ten-millionths')
    axes = Axes(picture, (130, 70, 930, 520), last + 1 - first, highest - lowest)
    axes.frame('period T (ms)', '', [(T - first, str(T)) for T in range(first, last + 1, 5)],
               [(N - lowest, f'{N:,}') for N in range(lowest + -lowest % 5, highest, 5)])
    picture.words(120, 62, 'V (N)', anchor='end')
    axes.curve([(T - first, V - lowest) for T, V in zip(finer.PERIODS, exacts)], GREY, '3 5')
    drawn = ((before, 'up to 2.2.0, in millionths', RED, picture.wide_ring), (now, 'since 2.3.0, in ten-millionths', BLUE, picture.dot))
    for place, (values, words, colour, mark) in enumerate(drawn):
        for T, V in zip(finer.PERIODS, values):
            x, y = axes.point(T - first, V - lowest)
            right, _ = axes.point(T + on_line - first, 0)
            picture.line([(x, y), (right, y)], colour, 2)
            mark(x, y, colour)
        y = 104 + 28 * place
        picture.line([(580, y - 6), (616, y - 6)], colour, 2)
        mark(580, y - 6, colour)
        picture.words(628, y, words, size=16)
    picture.key(580, 616, 160, 'exact', GREY, '3 5', gap=12)
    title = f'A light frame of {worked.W:,} kN, R = {decimal(Fraction(worked.frame.R, 100), 2)}: V at neighbouring periods'
    picture.heading(130, title)
    return picture.svg()
