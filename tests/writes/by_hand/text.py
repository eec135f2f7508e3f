"""Numbers, tables and blocks as the manual writes them, and figures that must be the model's."""

from fractions import Fraction
from math import ceil, floor


def comma(number):
    """A whole number with its thousands apart."""
    return f'{number:,}'


def decimal(number, digits=3):
    """A number cut off after so many digits, with dots where more follow; no digits that are zeros at the end."""
    number = Fraction(number)
    parts = floor(number * 10**digits)
    more = '…' if parts != number * 10**digits else ''
    text = f'{parts // 10**digits:,}.{parts % 10**digits:0{digits}}'
    return text + more if more else text.rstrip('0').rstrip('.')


def ranged(numbers):
    """A range in words."""
    return f'{comma(numbers[0])} to {comma(numbers[-1])}'


def hundredths(number):
    """A whole number of hundredths with its two digits."""
    return f'{number // 100}.{number % 100:02}'


def table(head, rows):
    """A table in Markdown."""
    lines = ['| ' + ' | '.join(row) + ' |' for row in (head, *rows)]
    return '\n'.join([lines[0], '|' + '---|' * len(head), *lines[1:]])


def code(lines):
    """Lines as they stand."""
    return '\n'.join(['```', *lines, '```'])


def same(got, wanted):
    """The figure of a step, which must be the model's."""
    assert got == wanted, (got, wanted)
    return comma(wanted)


def rounded(exact, side, wanted):
    """A number and what it is rounded to, up or down, which must be the model's figure."""
    result = same(ceil(exact) if side == 'up' else floor(exact), wanted)
    return f'**{result}**' if exact == wanted else f'{decimal(exact)}, {side}: **{result}**'
