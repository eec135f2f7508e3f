"""The picture of the worked sheet: forces, shears and overturning moments of its storeys, from its stored listing."""

from fractions import Fraction

from tests.writes.pictures.drawing import BLACK, BLUE, GREEN, RED, Axes, Picture
from tests.writes.pictures.sheets import LISTING, SHEET

TOP = 350               # dm
WIDTH, LARGEST = 280, Fraction(8, 10)       # of a panel, and the part of it that the largest figure takes


def listing():
    """Levels of the worked sheet, lowest first, as (height, force, shear, overturning)."""
    heights = [int(line.split('\t')[2]) for line in SHEET.read_text().splitlines() if line.startswith('level')]
    rows = [tuple(map(int, line.split('\t')[1:])) for line in LISTING.read_text().splitlines() if line.startswith('level')]
    return [(heights[level - 1], force, shear, moment) for level, force, shear, moment in sorted(rows)]


def parts_of(figures):
    """Each figure as a part of a panel's width."""
    return [LARGEST * figure / max(figures) for figure in figures]


def forces(axes, heights, figures):
    """A beam at each level."""
    for height, force, part in zip(heights[1:], figures, parts_of(figures)):
        axes.curve([(0, height), (part, height)], BLUE, width=10)
        axes.words(0, height, f'{force:,}', right=8, down=-14)


def shears(axes, heights, figures):
    """A block over each storey."""
    for bottom, height, shear, part in zip(heights, heights[1:], figures, parts_of(figures)):
        (x, y), (_, low) = axes.point(0, height), axes.point(0, bottom)
        across = WIDTH * part
        axes.picture.bar(x, y, across, low - y, GREEN, '0.3')
        axes.picture.line([(x, y), (x + across, y), (x + across, low)], GREEN, 3)
        axes.picture.words(x + 10, Fraction(y + low, 2) + 6, f'{shear:,}')


def moments(axes, heights, figures):
    """A curve through the bottoms of the storeys."""
    points = list(zip(parts_of(figures), heights))
    axes.curve([*points, (0, heights[-1])], RED)
    for (across, bottom), moment in zip(points, figures):
        axes.dot(across, bottom, RED)
        if across == LARGEST:
            axes.words(across, bottom, f'{moment:,}', right=-36, down=-14, anchor='end')
        else:
            axes.words(across, bottom, f'{moment:,}', right=14, down=-10)


def panel(picture, left, name, colour, heights):
    """An empty panel, a line a height."""
    axes = Axes(picture, (left, 90, left + WIDTH, 510), 1, TOP)
    for height in heights:
        _, y = axes.point(0, height)
        picture.line([(left, y), (left + WIDTH, y)], '#dddddd')
        if left == 110:
            picture.words(left - 10, y + 6, str(height), anchor='end')
    picture.line([(left, 90), (left, 510), (left + WIDTH, 510)], BLACK, 2)
    picture.words(left + Fraction(WIDTH, 2), 546, name, anchor='middle', colour=colour, weight='bold')
    return axes


def storeys():
    """Forces, shears and overturning moments of the worked sheet."""
    heights, *columns = zip(*listing())
    picture = Picture(1080, 600, 'Forces, shears and overturning moments of the worked sheet')
    picture.heading(40, 'The worked sheet: three levels of 5,000 kN (examples/office.listing)')
    panels = ((110, 'force (N)', BLUE, forces), (440, 'shear (N)', GREEN, shears), (770, 'overturning (N·dm)', RED, moments))
    for (left, name, colour, draw), figures in zip(panels, columns):
        draw(panel(picture, left, name, colour, (0, *heights)), (0, *heights), figures)
    picture.words(40, 300, 'height above base (dm)', anchor='middle', turned=True)
    picture.words(110, 582, 'A shear is that of the storey; a moment is about the bottom of its storey.', size=16)
    return picture.svg()
