"""Runs ./district as a user does: the example, files that arrive byte by byte or are typed at a terminal, input without end, every refusal of a sheet and of
a file. Compared are what it prints, what it says on standard error and its exit status; tests/compares/run_district.py runs more files.

usage: python3 -m tests.compares.run_files
"""

import functools
import itertools
import os
import sys

from tests.compares.run_program import ROOT, TWO_PAIRS, bad_lines, bytes_of, compared, refused, run, run_typed, run_with
from tests.compares.said import of_sheets
from tests.model import district, sheets
from tests.writes.hundred_sheets import LISTING, SHEETS

NAME = 'district'
TOO_MANY = 'over 256 sheets, or over 1,048,832 bytes'       # what 22 means of a file
WORKED = (ROOT / 'examples' / 'office.sheet').read_bytes()
BEFORE_IT = 'the sheet ends before it'


def answer(data, seen=None):
    """What is printed, said and returned for a file; seen is what can be seen of lines that are refused, by the numbers of their sheets."""
    if sheets.refused_whole(data):
        return sheets.listing(data), f'district: refusal {district.WHOLE}: {TOO_MANY}\n'.encode(), 1
    parts = sheets.parts(data)
    lines = [f'{line}\n' for line in of_sheets(parts, [sheets.answer(part).row for part in parts], seen)]
    return sheets.listing(data), ''.join(lines).encode(), 1 if lines else 0


def damaged():
    """Files with a sheet that is not as laid out among sound ones, and what can be seen of it."""
    for name, data, seen in bad_lines(WORKED):
        if name == 'an empty line':         # two sheets, and no bad line that is empty
            yield f'{name} in a sheet', sheets.write([WORKED, data]), {}
        elif not data.endswith(b'\n'):
            yield f'{name}, in the last sheet', sheets.write([WORKED, WORKED]) + data, {3: seen}
            yield f'{name}, and an LF after it', sheets.write([WORKED, data, WORKED]), {2: seen.removesuffix('no LF ends it').removesuffix(', ')}
        else:
            yield name, sheets.write([WORKED, data, WORKED]), {2: seen}
    yield 'an empty line at the front', b'\n' + sheets.write([WORKED]), {}
    yield 'three empty lines between two sheets', sheets.write([WORKED, b'', b'', WORKED]), {}
    for name, line, seen in (('a blank', b' ', 'a blank stands in it: fields are separated by one tab'), ('a tab', b'\t', ''),
                             ('a CR', b'\r', 'a CR stands at its end')):
        yield f'a line with {name} between two sheets', sheets.write([WORKED, WORKED + line + b'\n' + WORKED, WORKED]), {2: seen}
    yield 'a NUL alone on a line', sheets.write([WORKED, b'\0\n' + WORKED, b'basin\t3\n']), {3: BEFORE_IT}
    yield 'bytes beyond ASCII', sheets.write([b'\xff\xfe\n', WORKED.replace(b'\n', b'\r\n')]) + b'\x80', {2: 'a CR stands at its end', 3: 'no LF ends it'}
    yield 'nothing but sheets without a byte', b'\n' * 5, {}


def files():
    """Files that are read as they are: name, bytes, and what can be seen of bad lines."""
    yield 'the hundred sheets', SHEETS.read_bytes(), {}
    yield 'a sheet without an empty line after it', WORKED, {}
    yield 'no byte', b'', {}
    yield from damaged()
    for before, good in (('', WORKED), ('Basin, ', b'basin\t3\n' + WORKED.split(b'\n', 1)[1]), ('two pairs, ', TWO_PAIRS + WORKED.split(b'\n', 1)[1])):
        yield f'{before}every refusal', sheets.write([data for _, data in refused(good)]), {}
    yield 'a sheet that is too long', sheets.write([WORKED, WORKED + b'level\t1\t1\n' * 500, WORKED]), {}
    yield 'a sheet that is too long, with CR and NUL in it', sheets.write([WORKED, b'\0\r\n\r\0\n' * 1_000 + b'\r', WORKED]), {}
    yield 'the hundred sheets with Windows line ends', SHEETS.read_bytes().replace(b'\n', b'\r\n'), {}
    yield 'a hundred sheets without an empty line', SHEETS.read_bytes().replace(b'\n\n', b'\n'), {}
    yield '256 sheets', sheets.write([WORKED] * 256), {}
    yield '257 sheets', sheets.write([WORKED] * 257), {}
    yield '256 empty lines', b'\n' * 256, {}
    yield 'as many bytes as may be', b'x' * sheets.MOST_BYTES, {}
    yield 'a byte more', b'x' * (sheets.MOST_BYTES + 1), {}


def cases():
    """What is tried: name, how it is run, on what, what must come back."""
    by_pieces, typed, with_words = (functools.partial(each, name=NAME) for each in (run, run_typed, run_with))
    assert LISTING.read_bytes() == sheets.listing(SHEETS.read_bytes())
    for name, data, seen in files():
        yield name, by_pieces, [data], answer(data, seen)
    two = sheets.write([WORKED, WORKED.replace(b'480', b'48')])
    yield 'two sheets byte by byte', by_pieces, bytes_of(two), answer(two)
    yield 'two sheets typed', typed, two, answer(two)
    yield 'no input typed', typed, b'', answer(b'')
    too_much = b'refused\t22\t0\n', f'district: refusal {district.WHOLE}: {TOO_MANY}\n'.encode(), 1
    yield 'sheets without end', by_pieces, itertools.repeat(sheets.write([WORKED] * 100)), too_much
    yield 'zero bytes without end', by_pieces, itertools.repeat(b'\0' * 4_096), too_much
    yield 'an argument', with_words, ['examples/district.sheets'], (b'', b'usage: ./district < FILE\n', 2)
    with open(SHEETS, 'rb') as given, open('/dev/full', 'wb') as full:
        yield 'a listing that cannot be written', lambda words: with_words(words, stdin=given, stdout=full), [], \
            (None, b'district: the listing could not be written\n', 2)
    folder = os.open(ROOT / 'examples', os.O_RDONLY)
    yield 'input that cannot be read', lambda words: with_words(words, stdin=folder), [], \
        (b'', b'district: standard input could not be read to its end\n', 2)
    os.close(folder)


if __name__ == '__main__':
    sys.exit(compared(cases(), NAME))
