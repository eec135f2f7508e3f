"""Strata of files of sheets (Wish 9), as the program `district` reads them: name -> what draws one from a random generator."""

import functools

from tests.draws import damage
from tests.draws.district_jobs import any_size, small, tied
from tests.model import sheet, sheets

MOST_SHEETS, MOST_BYTES = sheets.MOST_SHEETS, sheets.MOST_BYTES


def sound(rng):
    """A sound sheet of a few levels."""
    return sheet.write(*small(rng), in_full=rng.random() < 0.5)


def some(rng, draw_one=sound, most=5):
    """A few sheets."""
    return [draw_one(rng) for _ in range(rng.randint(1, most))]


def damaged(rng):
    """A sheet that is not as laid out, sound now and then; an empty line in it makes two sheets of it."""
    data = sound(rng)
    for _ in range(rng.choice((0, 1, 1, 2))):
        data = damage.damaged(rng, data)
    return data


def of_any_size(rng):
    """A sheet of any number of levels."""
    return sheet.write(*any_size(rng))


def with_one(rng, draw_one):
    """Sound sheets, and one that is drawn otherwise among them."""
    every = some(rng)
    every.insert(rng.randint(0, len(every)), draw_one(rng))
    return sheets.write(every)


def of_bytes(rng, length):
    """A sheet of so many bytes, its lines as laid out but for the last one now and then."""
    data = (sound(rng) + b'level\t20000\t2000\n' * 300)[:length - 1]
    return data[:-1] + b'x\n' if data.endswith(b'\n') else data + b'\n'


def empty_lines(rng, at):
    """Sound sheets with one to three empty lines more at the front, at the end, or between two of them."""
    every, more = some(rng, most=4), [b''] * rng.randint(1, 3)
    place = {'front': 0, 'end': len(every), 'between': rng.randint(1, len(every))}[at]
    return sheets.write(every[:place] + more + every[place:])


def cut(rng, count):
    """Sound sheets, the last bytes of the file left off."""
    return sheets.write(some(rng))[:-count]


def only_empty_lines(rng, count):
    """So many empty lines."""
    return b'\n' * count


def many(rng, count):
    """So many sheets, most of them short and not as laid out."""
    kinds = (lambda rng: b'x\n', lambda rng: b'', lambda rng: b'site\n', sound)
    return sheets.write([rng.choice(kinds)(rng) for _ in range(count)])


def longest(rng, more=0):
    """A file as long as it may be, by 256 sheets as long as they may be, the first of them some bytes longer."""
    data = sheets.write([b'x' * (sheet.MOST_BYTES - 1) + b'\n'] * MOST_SHEETS)
    assert len(data) == MOST_BYTES
    return b'x' * more + data


def one_long_sheet(rng):
    """A sheet far too long among sound ones."""
    return with_one(rng, lambda rng: b'level\t1\t1\n' * rng.choice((410, 1_000, 9_000)))


def cr_lf(rng):
    """Lines that end in CR LF: none of them is empty."""
    return sheets.write(some(rng)).replace(b'\n', b'\r\n')


def blank_line(rng):
    """A line of a blank, of a tab or of a CR where an empty line would end a sheet."""
    return sheets.write(some(rng)) + rng.choice((b' \n', b'\t\n', b'\r\n', b'\0\n')) + sheets.write(some(rng))


def damaged_file(rng):
    """A file of sound sheets, then damaged as a whole."""
    data = sheets.write(some(rng))
    for _ in range(rng.randint(1, 3)):
        data = damage.damaged(rng, data)
    return data


def any_bytes(rng):
    """Bytes of a sheet's own, mostly LF."""
    return bytes(rng.choice(b'\n\n\n\n\tx1') for _ in range(rng.choice((1, 10, 100, 300))))


STRATA = {
    'sound sheets': lambda rng: sheets.write(some(rng)), 'sheets of any size': lambda rng: sheets.write(some(rng, of_any_size)),
    'damaged sheets among sound ones': lambda rng: sheets.write(some(rng) + some(rng, damaged)),
    'shears that tie': lambda rng: sheets.write(some(rng, lambda rng: sheet.write(*tied(rng, 'V = V_M = V_star')))),
    **{f'empty lines at the {at}' if at != 'between' else 'empty lines between two sheets': functools.partial(empty_lines, at=at)
       for at in ('front', 'end', 'between')},
    'no empty line at the end': functools.partial(cut, count=1), 'no LF at the end': functools.partial(cut, count=2),
    'the last number cut': functools.partial(cut, count=3), 'no byte': lambda rng: b'',
    **{f'{count} empty lines': functools.partial(only_empty_lines, count=count) for count in (1, 2, 3, MOST_SHEETS, MOST_SHEETS + 1)},
    **{f'a sheet of {length:,} bytes': functools.partial(with_one, draw_one=functools.partial(of_bytes, length=length))
       for length in range(sheet.MOST_BYTES - 1, sheet.MOST_BYTES + 3)},
    'a sheet far too long': one_long_sheet, 'lines that end in CR LF': cr_lf, 'a line that is not quite empty': blank_line,
    'a damaged file': damaged_file, 'any bytes': any_bytes,
}
LARGE = {
    **{f'{count} sheets': functools.partial(many, count=count) for count in (MOST_SHEETS - 1, MOST_SHEETS, MOST_SHEETS + 1)},
    f'{MOST_SHEETS} sheets and a byte more': lambda rng: many(rng, MOST_SHEETS) + b'x',
    f'{MOST_SHEETS} sheets and an LF more': lambda rng: many(rng, MOST_SHEETS) + b'\n',
    'as many bytes as may be': longest, 'a byte more than may be': functools.partial(longest, more=1),
}
