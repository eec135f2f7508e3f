"""The program `district`, bytes to bytes: a file of sheets in, a line for each of them and the report out (Wish 9).

The sheets of a file stand one after the other, and an empty line ends a sheet: "A planning office wants its hundred sheets in one run".
"""

from . import district, sheet

MOST_SHEETS = district.MOST_JOBS
MOST_BYTES = MOST_SHEETS * (sheet.MOST_BYTES + 1)       # so many sheets, each as long as it may be and ended by an empty line


def parts(data):
    """The sheets of a file: what stands before each empty line, and what stands after the last one if there is any of it."""
    *lines, rest = data.split(b'\n')
    sheets = [[]]
    for each in lines:
        if each:
            sheets[-1].append(each + b'\n')
        else:
            sheets.append([])
    *ended, last = (b''.join(each) for each in sheets)
    return [*ended, last + rest] if last + rest else ended


def answer(data):
    """The answer to a sheet: 17, 16 at its own line, or that of its job."""
    refusal, numbers = sheet.read(data)
    if refusal is not None:
        return district.Answer(district.Row(*refusal))
    ground, frame, *levels = numbers
    return district.answer(ground, frame, [weight for weight, _ in levels], [height for _, height in levels])


def refused_whole(data):
    """22: over 256 sheets, or more bytes than so many can have."""
    return len(data) > MOST_BYTES or len(parts(data)) > MOST_SHEETS


def line(word, *numbers):
    """A line: a word and numbers, parted by tabs."""
    return '\t'.join(map(str, (word, *numbers))).encode('ascii') + b'\n'


def printed(answers):
    """The lines of the rows, of the report and of its cells, each cell with its lowest and its highest thousandth."""
    *figures, cells = district.report(answers)
    rows = [line('row', number, *each.row) for number, each in enumerate(answers, 1)]
    of_cells = [line('cell', district.CELL * cell, district.CELL * cell + district.CELL - 1, count) for cell, count in enumerate(cells)]
    return b''.join((*rows, line('report', *figures), *of_cells))


def listing(data):
    """What the program prints for the bytes of a file."""
    if refused_whole(data):
        return sheet.refused(district.WHOLE, 0)
    return printed([answer(each) for each in parts(data)])


def write(sheets):
    """The bytes of a file of these sheets, each ended by an empty line."""
    return b''.join(each + b'\n' for each in sheets)
