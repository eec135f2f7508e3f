"""The sheet reader and the listing, bytes to bytes ("Sheet and listing")."""

import re

from . import job as jobs, limits

MOST_BYTES = 4_096
NUMBER = rb'\t(0|[1-9][0-9]{0,8})'
SITE = re.compile(rb'site' + NUMBER * 7)
TWO_PAIRS = re.compile(rb'site' + NUMBER * 9)
FRAME = re.compile(rb'frame' + NUMBER * 5)
LEVEL = re.compile(rb'level' + NUMBER * 2)
BASIN = re.compile(rb'basin' + NUMBER)
GROUNDS = {SITE: limits.one_pair, TWO_PAIRS: limits.Site, BASIN: limits.Basin}      # what a line 1 means


def layouts(line_number):
    """Layouts: "Line 1 is `site`", which "gets two further fields after N_V", "Line 2 is `frame`", "All later lines are `level`"; "`basin`
    with the zone in place of `site`"."""
    return {1: tuple(GROUNDS), 2: (FRAME,)}.get(line_number, (LEVEL,))


def numbers_of(line_number, line):
    """The numbers of a line, those of line 1 as its ground; None where it is otherwise than laid out."""
    for layout in layouts(line_number):
        match = layout.fullmatch(line)
        if match is not None:
            numbers = tuple(int(field) for field in match.groups())
            return GROUNDS[layout](*numbers) if layout in GROUNDS else numbers
    return None


def refused(number, place):
    """Refused: "A refusal prints one line: `refused`, number, place"."""
    return b'refused\t%d\t%d\n' % (number, place)


def read(data):
    """A refusal 17 or 16 as (number, place), or the numbers of every line."""
    if len(data) > MOST_BYTES:
        return (17, 0), None
    *lines, rest = data.split(b'\n')
    numbers = []
    for line_number, line in enumerate(lines, 1):
        fields = numbers_of(line_number, line)
        if fields is None:
            return (16, line_number), None
        numbers.append(fields)
    if rest or len(lines) < 2:
        return (16, len(lines) + 1), None
    return None, numbers


def listing(job):
    """Prints "V, V_M, V*, V_D and T, then per level, roof first, number, force, shear, overturning"."""
    lines = [b'base\t%d\t%d\t%d\t%d\t%d\n' % (job.V, job.V_M, job.V_star, job.V_D, job.T)]
    for level in range(len(job.forces), 0, -1):
        figures = (level, job.forces[level - 1], job.shears[level - 1], job.moments[level - 1])
        lines.append(b'level\t%d\t%d\t%d\t%d\n' % figures)
    return b''.join(lines)


def first_line(ground, in_full=False):
    """The word and the numbers of line 1: a site that has one pair for both by seven numbers, unless it is written in full."""
    if isinstance(ground, limits.Basin):
        return 'basin', *ground
    site = limits.ground_of(ground)
    if in_full or limits.of_two_pairs(site):
        return 'site', *site
    return 'site', site.SSD, site.S1D, site.SSM, site.S1M, site.NA, site.NV, site.cls


def write(ground, frame, weights, heights, in_full=False):
    """The bytes of a sheet that holds these numbers."""
    lines = [first_line(ground, in_full), ('frame', *frame)]
    lines += [('level', weight, height) for weight, height in zip(weights, heights)]
    return ''.join('\t'.join(map(str, line)) + '\n' for line in lines).encode('ascii')


def shear(data):
    """What the program `shear` prints for the bytes of a sheet."""
    refusal, numbers = read(data)
    if refusal is not None:
        return refused(*refusal)
    ground, frame, *levels = numbers
    weights = [weight for weight, _ in levels]
    heights = [height for _, height in levels]
    result = jobs.job(ground, frame, weights, heights)
    if result[0] == 'refused':
        return refused(*result[1:])
    return listing(result)
