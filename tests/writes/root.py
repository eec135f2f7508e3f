"""A root on paper as the manual shows it: every line with the trial, the digit, what it takes off and what is left; and laid out as on school paper.

The lines of R = 4.80 must be those that the program `run_exhausted` writes, zeros behind them left off.
"""

import pathlib
from fractions import Fraction
from typing import NamedTuple

from tests.model import basin, limits, paper, response
from tests.writes.by_hand.text import code, comma, decimal, hundredths, table

R = 480
DESIGN, MCE, BASIN = (R - 25, 75), (R - 50, 50), (R, 100)
EXACT = 325                      # the root of its square is 2, and nothing is left
PLACES = 7                       # behind the point
HALF = 10**4                     # where a root is split in two for a small calculator
STDOUT = pathlib.Path(__file__).resolve().parents[2] / 'crates' / 'run_exhausted' / 'stdout'


class Step(NamedTuple):
    """A line by hand: d, the digits before it, what there is, what 1 would take off, the digit, what it takes off, what is left."""

    d: int
    before: int
    there: int
    one: int
    digit: int
    taken: int
    left: int

    @property
    def product(self):
        """What is taken off, as it is multiplied."""
        return f'{self.d} · ({comma(20 * self.before)} + {self.digit}) · {self.digit}'


def steps(n, d):
    """Every line by hand, held to the model's line, in which the zeros are kept."""
    k, left = 0, n
    for places, line in enumerate(paper.lines(n, d, response.UNIT)):
        there = left * (100 if places else 1)
        one = d * (20 * k + 1)
        c = min(9, there // one)
        while d * (20 * k + c) * c > there:
            c -= 1
        step = Step(d, k, there, one, c, d * (20 * k + c) * c, there - d * (20 * k + c) * c)
        k, left = 10 * k + c, step.left
        assert (c, k * line.place, left * line.place**2) == (line.digit, line.found, line.left)
        yield step, line
    assert k == paper.roots(n, d, response.UNIT)[0] and places == PLACES


def pointed(k, places=PLACES):
    """Digits as a number, so many of them behind the point."""
    return f'{k // 10**places}.{k % 10**places:0{places}}' if places else str(k)


def digit_cell(step):
    """The digit, and how it came from the trial."""
    trial = step.there // step.one
    most, trial = ('at most 9: ', 9) if trial > 9 else ('', trial)
    return f'{most}{trial}, lowered to **{step.digit}**' if step.digit < trial else f'{most}**{step.digit}**'


def lines_table(n, d):
    """The paper calculation as a table."""
    rows = [(comma(step.there), f'/ {comma(step.one)} = {decimal(Fraction(step.there, step.one), 1)}', digit_cell(step),
             f'{step.product} = {comma(step.taken)}', comma(step.left), pointed(10 * step.before + step.digit, places))
            for places, (step, _) in enumerate(steps(n, d))]
    return table(('there is', 'divided by d · (20·k + 1)', 'digit c', 'taken off: d · (20·k + c) · c', 'left', 'found'), rows)


def paired(number, pairs):
    """A number as on school paper: so many pairs of digits behind the first ones, each in its column."""
    first, parts = str(number), []
    while first and len(parts) < pairs:
        first, parts = first[:-2], [first[-2:], *parts]
    return ' '.join([first, *parts]).lstrip()


def school_paper(n, d, count):
    """The first lines as they are written one under the other."""
    rows = []
    for pairs, (step, _) in zip(range(count), steps(n, d)):
        edge = 8 + 3 * pairs
        rows.append(f'{paired(step.there, pairs):>{edge}}')
        minus = f'− {paired(step.taken, pairs)}'
        rows.append(f'{minus:>{edge}}'.ljust(28) + f'digit {step.digit}: {step.product} = {comma(step.taken)}')
    rows.append(f'{paired(100 * step.left, count):>{edge + 3}}'.ljust(28) + f'found {pointed(10 * step.before + step.digit, count - 1)}, and so on')
    return code(rows)


def stored():
    """The lines of R = 4.80 of the program `run_exhausted`: place, and of design and MCE the digits and what is left."""
    return [tuple(map(int, line.split()[1:])) for line in STDOUT.read_text().splitlines() if line.startswith('place ')]


def code_table():
    """What the code has at each place, zeros and all."""
    design, mce = ([line for _, line in steps(*each)] for each in (DESIGN, MCE))
    rows = [(d.place, d.found, d.left, m.found, m.left) for d, m in zip(design, mce)]
    assert stored() == rows
    return table(('place p', 'V and V*: k', 'what is left', 'V_M: k', 'what is left'), [tuple(map(comma, row)) for row in rows])


def last(n, d):
    """The last line."""
    return list(paper.lines(n, d, response.UNIT))[-1]


def squared(n, d):
    """The squares of the root and of the next number, beside n/d."""
    k = last(n, d).found
    low, high = (Fraction(each, response.UNIT)**2 for each in (k, k + 1))
    assert low <= Fraction(n, d) < high
    return code([f'{pointed(k)}² = {decimal(low, 8)}, at most {n}/{d} = {decimal(Fraction(n, d), 8)}',
                 f'{pointed(k + 1)}² = {decimal(high, 8)}, more than that'])


def checked(n, d):
    """n with its zeros less d*k^2, the square in three parts."""
    line, whole = last(n, d), n * response.UNIT**2
    high, low = divmod(line.found, HALF)
    parts = d * high**2, 2 * d * high * low, d * low**2
    assert parts[0] * HALF**2 + parts[1] * HALF + parts[2] == whole - line.left and line.left < d * (2 * line.found + 1)
    products = f'{d} · {comma(high)}²', f'{d} · 2 · {comma(high)} · {comma(low)}', f'{d} · {comma(low)}²'
    wide = max(map(len, products))
    zeros = ', with eight zeros behind it', ', with four zeros behind it', ''
    return code([*(f'{product:{wide}} = {comma(part)}{behind}' for product, part, behind in zip(products, parts, zeros)),
                 f'all three: {comma(whole - line.left)}',
                 f'{comma(whole)} − {comma(whole - line.left)} = {comma(line.left)}',
                 f'{d} · (2 · {comma(line.found)} + 1) = {comma(d * (2 * line.found + 1))}, which is more: the root is right'])


def nothing_left(square):
    """Every R at which nothing is left."""
    return ', '.join(hundredths(each) for each in limits.R_RANGE if last(*square(each)).left == 0)


def names():
    """What the page on the root names."""
    exact_n = EXACT - 25
    assert exact_n == 4 * 75 and last(exact_n, 75).left == 0
    assert response.design_capacity(R)[1] == Fraction(*DESIGN) and response.mce_capacity(R)[1] == Fraction(*MCE) and basin.capacity(R)[1] == Fraction(*BASIN)
    (design_lower, design_upper), (mce_lower, mce_upper) = (
        [pointed(root) for root in paper.roots(*square, response.UNIT)] for square in (DESIGN, MCE))
    return {'R': hundredths(R), 'design_n': str(DESIGN[0]), 'mce_n': str(MCE[0]), 'mce_paper': school_paper(*MCE, 4), 'mce_table': lines_table(*MCE),
            'design_table': lines_table(*DESIGN), 'mce_lower': mce_lower, 'mce_upper': mce_upper, 'design_lower': design_lower,
            'design_upper': design_upper, 'mce_left': comma(last(*MCE).left), 'design_left': comma(last(*DESIGN).left), 'mce_squared': squared(*MCE),
            'mce_checked': checked(*MCE), 'code_table': code_table(), 'basin_lower': pointed(paper.roots(*BASIN, response.UNIT)[0]), 'basin_upper': pointed(paper.roots(*BASIN, response.UNIT)[1]), 'exact_R': hundredths(EXACT),
            'exact_n': str(exact_n), 'design_Rs': nothing_left(lambda R: (R - 25, 75)), 'basin_Rs': nothing_left(lambda R: (R, 100))}
