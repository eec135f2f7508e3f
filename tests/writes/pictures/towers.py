"""The picture of towers on one podium: what rounding up adds to each."""

from fractions import Fraction

from tests.writes import towers as podium
from tests.writes.by_hand.text import comma
from tests.writes.by_hand.worked import read
from tests.writes.pictures.drawing import BLUE, RED, Axes, Picture, decimal
from tests.writes.pictures.sheets import SHEET


def towers():
    """What rounding up adds to each tower and to the whole, for the three splits of the worked sheet's building."""
    office = read(SHEET.read_bytes())
    picture = Picture(960, 470, 'What rounding up adds to the base shears of towers and of the whole building')
    axes = Axes(picture, (330, 60, 800, 400), 3, len(podium.SPLITS))
    axes.frame('added by rounding up (N)', '', [(tick, str(tick)) for tick in range(4)], [])
    for row, (weights, heights) in enumerate(podium.SPLITS):
        parts, whole = podium.split(office, weights, heights)
        _, y = axes.point(0, len(podium.SPLITS) - row)
        before = Fraction(0)
        for number, part in enumerate(parts):
            left, right = (axes.point(each, 0)[0] for each in (before, before + podium.added(part)))
            picture.bar(left, y + 22, right - left, 30, (BLUE, '#66aad6')[number % 2])
            before += podium.added(part)
        for added, down in ((before, 43), (podium.added(whole), 83)):
            picture.words(axes.point(added, 0)[0] + 8, y + down, decimal(added, 2), size=15)
        picture.words(318, y + 43, f'{" + ".join(map(comma, weights))} kN', anchor='end')
        picture.bar(axes.left, y + 62, axes.point(podium.added(whole), 0)[0] - axes.left, 30, RED)
        picture.words(318, y + 83, f'{comma(whole.W)} kN', anchor='end')
        more = podium.more(parts, whole)
        picture.words(816, y + 63, f'{more} N more', weight='bold')
    picture.heading(40, 'Added to V_D of the towers (blue, tower by tower) and of the whole (orange)')
    return picture.svg()
