"""Sheets damaged byte by byte."""

from tests.draws.plain_jobs import draw, draw_basin, draw_pairs, draw_site
from tests.model import sheet

OWN = b'\t\n0123456789sitefrmlvban'


def damaged(rng, data):
    """One byte taken away, put in or changed, or the sheet cut off."""
    place = rng.randrange(len(data) + 1)
    what = rng.randrange(5)
    byte = bytes([rng.choice(OWN) if rng.random() < 0.8 else rng.randrange(256)])
    if what == 0:
        return data[:place] + data[place + 1:]
    if what == 1:
        return data[:place] + byte + data[place:]
    if what == 2:
        return data[:place] + byte + data[place + 1:]
    if what == 3:
        return data[:place]
    other = rng.randrange(len(data) + 1)
    return data[:place] + data[min(place, other):max(place, other)] + data[place:]


def long(rng, data):
    """Level lines put behind until the sheet has 4,094 to 4,099 bytes; the last may be cut."""
    length = sheet.MOST_BYTES + rng.randint(-2, 3)
    return (data + b'level\t20000\t2000\n' * 300)[:length]


def one_number_more(rng, data):
    """Line 1 with one number put behind its others."""
    line, rest = data.split(b'\n', 1)
    return b'%s\t%d\n%s' % (line, rng.choice((1, 2, 3, 100)), rest)


def one_number_less(rng, data):
    """Line 1 without one of its numbers."""
    line, rest = data.split(b'\n', 1)
    fields = line.split(b'\t')
    del fields[rng.randrange(1, len(fields))]
    return b'\t'.join(fields) + b'\n' + rest


def drawn(rng):
    """A sheet of a drawn job, one in four of the Basin and one with two pairs, sound or with one to three damages; half of those with one
    pair for both levels in full; one in ten with a number more or less on line 1; one in fifty as long as a sheet may be, or a little
    longer."""
    data = sheet.write(*draw(rng, rng.choice((draw_site, draw_site, draw_basin, draw_pairs))), in_full=rng.random() < 0.5)
    if rng.random() < 0.1:
        data = rng.choice((one_number_more, one_number_less))(rng, data)
    if rng.random() < 0.02:
        data = long(rng, data)
    for _ in range(rng.choice((0, 1, 1, 1, 1, 2, 3))):
        data = damaged(rng, data)
    return data
