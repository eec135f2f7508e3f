"""V_D alone, for a dynamic analysis that is scaled, as the page on the shear call and the distribution shows it.

What the page says of it in words is asserted here of the model. What examples/scaling.c and examples/scaling.py print is here too.
"""

from fractions import Fraction
from math import ceil

from tests.model import calls, sheet
from tests.writes.by_hand.text import code, comma, decimal, rounded, table

MILLION = 10**6
BUILDINGS = {'regular': 90, 'irregular': 100}      # percent of V_D by 3.4
# base shears of a dynamic analysis: below 90 % of V_D, between 90 and 100 %, above V_D
ANALYSES = 850_000, 1_000_000, 1_100_000


def building(office):
    """The shear call of the worked sheet's building."""
    return calls.shear_call(office.ground, office.frame, sum(office.weights), office.heights[-1])


def asked(percent, V_D):
    """The part of V_D that 3.4 asks for, before rounding."""
    return Fraction(percent * V_D, 100)


def required(percent, V_D):
    """The base shear required in N: that part, up."""
    return ceil(asked(percent, V_D))


def factor(percent, V_D, analysis):
    """What an analysis is multiplied by, before rounding: the base shear required over its own; 1 where it gives as much."""
    return max(Fraction(1), Fraction(required(percent, V_D), analysis))


def scaled(office):
    """The base shear of the page's second example: what is required of the regular building, up, over the storeys, at the T of the shear call."""
    base = building(office)
    return calls.distribution(required(BUILDINGS['regular'], base.V_D), base.T, office.weights, office.heights)


def level_lines(over):
    """The `level` lines of a distribution, roof first."""
    rows = list(zip(over.forces, over.shears, over.moments))
    return ['\t'.join(map(str, ('level', level, *rows[level - 1]))) for level in range(len(rows), 0, -1)]


def base_line(base):
    """The `base` line of a shear call."""
    return '\t'.join(map(str, ('base', base.V, base.V_M, base.V_star, base.V_D, base.T)))


def scaling_lines(office):
    """What examples/scaling.c prints."""
    base = building(office)
    lines = [base_line(base)]
    for analysis in ANALYSES:
        for name, percent in BUILDINGS.items():
            figures = analysis, required(percent, base.V_D), ceil(MILLION * factor(percent, base.V_D, analysis))
            lines.append('\t'.join(map(str, (name, *figures))))
    return [*lines, *level_lines(scaled(office))]


def in_millionths(number):
    """A number rounded up to a millionth, with its six digits, or as it is where it is whole in them."""
    exact_text, up = decimal(number, 6), ceil(number * MILLION)
    shown = f'{up // MILLION}.{up % MILLION:06}'
    return f'**{exact_text}**' if up == number * MILLION else f'{exact_text}, up: **{shown}**'


def factor_cell(percent, V_D, analysis):
    """The factor of one analysis for one kind of building."""
    if analysis >= required(percent, V_D):
        assert factor(percent, V_D, analysis) == 1
        return 'not below: 1'
    return f'below: {comma(required(percent, V_D))} / {comma(analysis)} = {in_millionths(factor(percent, V_D, analysis))}'


def scaling_names(office):
    """V_D alone, and the factors."""
    base = building(office)
    V_D, regular = base.V_D, required(BUILDINGS['regular'], base.V_D)
    assert ANALYSES[0] < regular < ANALYSES[1] < V_D < ANALYSES[2]
    assert base_line(base) == sheet.listing(office).decode().split('\n')[0]
    needed = []
    for name, percent in BUILDINGS.items():
        part = asked(percent, V_D)
        needed.append((name, f'{percent} %', f'{decimal(Fraction(percent, 100))} · {comma(V_D)} = {rounded(part, "up", required(percent, V_D))} N'))
    factors = [(comma(analysis), *(factor_cell(percent, V_D, analysis) for percent in BUILDINGS.values())) for analysis in ANALYSES]
    low, up = (Fraction(each(factor(BUILDINGS['regular'], V_D, ANALYSES[0]) * MILLION), MILLION) for each in (int, ceil))
    assert low * ANALYSES[0] < regular <= up * ANALYSES[0]
    return {'W': comma(base.W), 'h': comma(base.h), 'h_m': decimal(Fraction(base.h, 10)), 'levels_words': ' + '.join(map(comma, office.weights)),
            'base_table': table(('V, N', 'V_M, N', 'V*, N', 'V_D, N', 'T, ms'), [tuple(map(comma, (base.V, base.V_M, base.V_star, V_D, base.T)))]),
            'required_table': table(('building', 'part of V_D', 'base shear required'), needed),
            'factor_table': table(('V_dyn, N', 'regular building', 'irregular building'), factors), 'T': comma(base.T),
            'analysis': comma(ANALYSES[0]), 'between': comma(ANALYSES[1]), 'above': comma(ANALYSES[2]), 'regular': comma(regular),
            'factor_up': decimal(up, 6), 'factor_down': decimal(low, 6), 'scaled_up': decimal(up * ANALYSES[0]),
            'scaled_down': decimal(low * ANALYSES[0]), 'printed': code(scaling_lines(office))}
