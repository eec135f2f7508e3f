"""Formulas as the pages write them, worked out in exact fractions."""

import re
from fractions import Fraction


def value(formula, **names):
    """What a formula of the rules comes to, in exact fractions."""
    for sign, meant in (('·', '*'), ('−', '-'), ('(T in s)', 'T_s'), ('alpha-y', 'alpha_y'), ('⁴', '**4'), ('³', '**3'), ('²', '**2'), ('≤', '<='),
                        ('≥', '>='), (' ms', '')):
        formula = formula.replace(sign, meant)
    exact = re.sub(r'(?<![\w.])\d+(?:\.\d+)?', lambda number: f"Fraction('{number[0]}')", formula)
    return eval(exact, {'Fraction': Fraction}, names)       # of our own page


def in_pieces(rule, **names):
    """The value of 'X if a; Y if b; else Z'."""
    first, second, last = rule.split('; ')
    for piece in (first, second):
        formula, test = piece.split(' if ')
        if value(test, **names):
            return value(formula, **names)
    return value(last.removeprefix('else '), **names)
