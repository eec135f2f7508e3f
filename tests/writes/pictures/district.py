"""The picture of a district: the cells of the report of the hundred sheets, all of them and those below 350 thousandths, from the stored listing."""

from fractions import Fraction

from tests.model import district as model, sheets
from tests.writes import hundred_sheets as hundred
from tests.writes.pictures.drawing import BLUE, RED, Axes, Picture

LEFT, RIGHT, MOST = 90, 1050, 12        # of the fields, and the most sheets of a cell that are drawn
SHORT = 350                             # thousandths of the lower field
NAMED = {hundred.SMALLEST: 'the smallest here', hundred.OFFICE: 'the worked sheet', hundred.EDGE: 'on the edge of its cell',
         hundred.LARGEST: 'the most there can be'}


def cells():
    """(from, sheets) of each cell of the stored listing."""
    lines = [line.split('\t') for line in hundred.LISTING.read_text().split('\n') if line.startswith('cell\t')]
    assert len(lines) == model.CELLS
    return [(int(low), int(count)) for _, low, _, count in lines]


def named():
    """The sheets that are named: (thousandths, number, words)."""
    every = [sheets.answer(part) for part in sheets.parts(hundred.SHEETS.read_bytes())]
    return [(model.thousandths(every[number - 1].row.V_D, every[number - 1].W), number, words) for number, words in NAMED.items()]


def field(picture, top, last, step, counted):
    """A bar a cell up to a thousandth, orange where a named sheet is in it; with its count above it where there is room."""
    axes = Axes(picture, (LEFT, top, RIGHT, top + 300), last, MOST)
    axes.frame('V_D over W (thousandths); a bar is a cell of ten', 'sheets', [(tick, f'{tick:,}') for tick in range(0, last, step)],
               [(tick, str(tick)) for tick in range(0, MOST + 1, 2)])
    marked = {each // model.CELL * model.CELL for each, _, _ in named()}
    for low, count in cells():
        if not count or low >= last:
            continue
        (x, y), (right, _) = axes.point(low, count), axes.point(low + model.CELL, 0)
        picture.bar(x + 1, y, right - x - 2, axes.bottom - y, RED if low in marked else BLUE)
        if counted:
            picture.words(Fraction(x + right, 2), y - 6, str(count), anchor='middle', size=15)


def district():
    """The cells of the hundred sheets: all 113, and those below 350 thousandths."""
    picture = Picture(1080, 920, 'How many sheets of the district are in each cell of its report')
    picture.heading(LEFT, f'The hundred sheets, sorted by V_D over W: all {model.CELLS} cells')
    field(picture, 60, model.CELL * model.CELLS, 100, False)
    picture.bar(470, 86, 480, 146, '#ffffff')      # no line of the scales runs through the words
    picture.words(480, 110, 'orange: cells with these sheets', size=16, weight='bold', colour=RED)
    for place, (thousandths, number, words) in enumerate(named()):
        picture.words(480, 140 + 26 * place, f'sheet {number}, {words}: {thousandths:,} thousandths', size=16)
    picture.words(LEFT, 496, f'The same below {SHORT} thousandths, with the count of each cell', size=19, weight='bold')
    field(picture, 520, SHORT, 50, True)
    return picture.svg()
