"""The pictures of spectra: of the three site classes, and of the four zones of the Taipei Basin."""

from fractions import Fraction

from tests.model import basin as basins, response, site as sites
from tests.writes.by_hand.ground import CLASS_NAMES
from tests.writes.pictures.drawing import BLACK, BLUE, GREEN, GREY, RED, Axes, Picture, decimal, tenths

CLASSES = ((1, BLUE, ''), (2, GREEN, '12 6'), (3, RED, '3 5'))
ZONES = (*CLASSES, (4, BLACK, '14 5 3 5'))
MAPPED = 60, 35         # S_S and S_1 of the design level, 0.01 g
LEVELS = (('design', 'S_DS', basins.S_DS), ('MCE', 'S_MS', basins.S_MS))
# words at a period in s and a spectrum in g, and how far they are moved
BRANCHES = ((Fraction(5, 100), Fraction(37, 100), 'A(0.4 + 3T/T0)', 12, 30), (Fraction(36, 100), Fraction(54, 100), 'A', 0, 0),
            (Fraction(14, 10), Fraction(46, 100), 'B / T', 0, 0), (Fraction(25, 10), Fraction(34, 100), '0.4·A', 0, 0))


def curve(axes, A, B, T0, last, colour, dash):
    """One spectrum up to a period, with a dot where two branches meet."""
    corners = [T0 / 5, T0, T0 * 5 / 2]
    times = sorted({*map(Fraction, range(1, last + 1, 10)), *corners, Fraction(last)})
    axes.curve([(T / 1000, response.spectrum_in_g(A, B, T)) for T in times], colour, dash)
    for T in corners:
        axes.dot(T / 1000, response.spectrum_in_g(A, B, T), colour)


def spectrum():
    """The design spectrum with its four branches, a curve a site class."""
    picture = Picture(960, 600, 'The design spectrum for the three site classes')
    axes = Axes(picture, (90, 70, 930, 520), 3, Fraction(8, 10))
    axes.frame('period T (s)', 'spectrum Sa (g)', tenths(30, 5), tenths(8))
    for number, colour, dash in CLASSES:
        A, B = sites.A_and_B(*MAPPED, sites.NO_NEAR_FAULT, sites.NO_NEAR_FAULT, number)
        T0 = response.corner(A, B)
        curve(axes, A, B, T0, 3000, colour, dash)
        in_g, in_s = [decimal(Fraction(each, 10**8), 3) for each in (A, B)], decimal(T0 / 1000, 3)
        words = f'class {number}, {CLASS_NAMES[number]}: A = {in_g[0]} g, B = {in_g[1]} g, T0 = {in_s} s'
        picture.key(412, 462, 92 + 26 * number, words, colour, dash)
    picture.words(412, 92, 'mapped S_S 0.{} g, S_1 0.{} g, N_A = N_V = 1.00'.format(*MAPPED), size=16)
    picture.heading(90, 'Spectrum (4): four branches, dots at 0.2·T0, T0 and 2.5·T0')
    for x, y, words, right, down in BRANCHES:
        axes.words(x, y, words, right=right, down=down, colour=GREY)
    return picture.svg()


def basin():
    """The design and the MCE spectrum of the four zones of the Taipei Basin, one field each."""
    picture = Picture(960, 980, 'The spectra of the four zones of the Taipei Basin')
    picture.heading(90, 'Taipei Basin, (10) and (15): dots at 0.2·T0, T0 and 2.5·T0')
    for top, (name, letters, S) in zip((70, 530), LEVELS):
        axes = Axes(picture, (90, top, 930, top + 360), Fraction(45, 10), Fraction(9, 10))
        axes.frame('period T (s)', 'spectrum Sa (g)', tenths(45, 5), tenths(9))
        picture.words(660, top + 24, f'{name}: {letters} = {decimal(Fraction(S, 10**8), 1)} g', weight='bold')
        for number, colour, dash in ZONES:
            T0 = Fraction(basins.TABLE_4[number])
            curve(axes, *basins.A_and_B(S, number), T0, 4500, colour, dash)
            picture.key(660, 730, top + 26 + 24 * number, f'zone {number}: T0 = {decimal(T0 / 1000, 2)} s', colour, dash)
    return picture.svg()
