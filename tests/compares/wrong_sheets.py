"""Wrong ideas of a file of sheets (Wish 9), as changes of the model, and the files that are to show them."""

import re

from tests.draws.sheet_files import LARGE, STRATA
from tests.model import district, sheet, sheets


def parted(wrong):
    """The sheets of a file changed, given the file and its sheets."""
    return [(sheets, 'parts', lambda data, right=sheets.parts: wrong(data, right(data)))]


def by_other_lines(data, right, empty):
    """A line that is not quite empty ends a sheet too."""
    return right(re.sub(empty, b'\n', data, flags=re.M))


def counted_in_the_file(data):
    """16 at the line of the file, the empty ones counted too."""
    if sheets.refused_whole(data):
        return sheet.refused(district.WHOLE, 0)
    before, answers = 0, []
    for each in sheets.parts(data):
        answer = sheets.answer(each)
        moved = answer.row._replace(place=answer.row.place + before * (answer.row.number == 16))
        answers.append(answer._replace(row=moved))
        before += each.count(b'\n') + 1
    return sheets.printed(answers)


def up_to_the_first_refused(answers, right=sheets.printed):
    """A sheet that is refused ends the file."""
    first = next((place for place, each in enumerate(answers) if each.row.number), len(answers))
    return right(answers[:first + 1])


def printed(old, new):
    """What is printed with other text."""
    return [(sheets, 'printed', lambda answers, right=sheets.printed: re.sub(old, new, right(answers), flags=re.M))]


def at_most(count, length=sheets.MOST_BYTES):
    """22 by other counts of sheets and of bytes."""
    return [(sheets, 'refused_whole', lambda data: len(data) > length or len(sheets.parts(data)) > count)]


ERRORS = {
    'an empty line at the end begins a sheet': parted(lambda data, found: [*found, b''] if data.endswith(b'\n\n') else found),
    'an empty file is a sheet': parted(lambda data, found: found or [b'']),
    'empty lines in a row taken for one': parted(lambda data, found: [each for each in found if each]),
    'an empty line at the front left out': parted(lambda data, found: found[1:] if data.startswith(b'\n') else found),
    'the last sheet left out where no empty line ends it': parted(lambda data, found: found if not data or re.search(rb'(^|\n)\n\Z', data) else found[:-1]),
    'the last line taken without LF': parted(lambda data, found: [each if each.endswith(b'\n') or not each else each + b'\n' for each in found]),
    'the empty line among the bytes of a sheet': [(sheets, 'answer', lambda data, right=sheets.answer: right(data) if len(data) < sheet.MOST_BYTES
                                                   else district.Answer(district.Row(17, 0)))],
    'a line of a CR ends a sheet': [(sheets, 'parts', lambda data, right=sheets.parts: by_other_lines(data, right, rb'^\r\n'))],
    'a line of a blank ends a sheet': [(sheets, 'parts', lambda data, right=sheets.parts: by_other_lines(data, right, rb'^[ \t]\n'))],
    'lines counted in the file': [(sheets, 'listing', counted_in_the_file)],
    'a refused sheet ends the file': [(sheets, 'printed', up_to_the_first_refused)],
    'sheets counted from 0': printed(rb'^row\t(\d+)', lambda found: b'row\t%d' % (int(found[1]) - 1)),
    'refused sheets without a row': printed(rb'^row\t\d+\t[1-9].*\n', b''),
    'figures left out of a refused row': printed(rb'^(row\t\d+\t[1-9]\d*\t\d+)(\t0){5}$', rb'\1'),
    'cells that no job is in left out': printed(rb'^cell\t\d+\t\d+\t0\n', b''),
    'cells named by their number': printed(rb'^cell\t(\d+)\t', lambda found: b'cell\t%d\t' % (int(found[1]) // district.CELL)),
    'up to 255 sheets': at_most(sheets.MOST_SHEETS - 1), 'up to 257 sheets': at_most(sheets.MOST_SHEETS + 1),
    'a byte less': at_most(sheets.MOST_SHEETS, sheets.MOST_BYTES - 1), 'a byte more': at_most(sheets.MOST_SHEETS, sheets.MOST_BYTES + 1),
    'the first 256 sheets taken': parted(lambda data, found: found[:sheets.MOST_SHEETS]),
}


def drawn(rng, count):
    """Files of every stratum in turn, those of many sheets first and once."""
    yield from (draw_one(rng) for draw_one in LARGE.values())
    few = list(STRATA.values())
    yield from (few[number % len(few)](rng) for number in range(count))
