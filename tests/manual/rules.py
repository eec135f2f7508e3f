"""The rules: each formula worked out as the page writes it, and the side to which it is rounded."""

import re
from fractions import Fraction
from math import ceil, floor

from tests.manual.formulas import in_pieces, value
from tests.manual.pages import listed, page, rows
from tests.manual.sides import sides
from tests.model import limits, response, shears, storeys

A, B = 72_000_000, 63_347_200           # of a spectrum, 10⁻⁸ g
R, BASE_SHEAR = 477, 1_566_001
FRAME, W = limits.Frame(2, 0, R, 125, 151), 9_001
C = 70                  # of its kind
WEIGHTS, HEIGHTS = [3, 5, 7], [11, 13, 17]


def period_rules(rule):
    """t of every height, and its upper end."""
    both, t = rule['t'].split(' with ')[1].split(';')[0], response.approximate_period(FRAME.kind, 114)
    for height in limits.HEIGHT:
        longest = response.approximate_period(FRAME.kind, height)
        yield f't at {height}', [value(both, t=each, c=C, h=height) for each in (longest, longest + 1)], [True, False]
    yield '14·t/10', floor(value('14·t/10', t=t)), response.period(t, limits.CALCULATED_PERIOD[-1])


def spectrum_rules(rule):
    """Sa over T."""
    T0, pieces = response.corner(A, B), [piece.split(': ') for piece in rule['Sa'].split('; ')]
    for T in range(1, 2_500, 7):
        names = {'A': Fraction(A), 'B': Fraction(B), 'T': Fraction(T), 'T0': T0, 'T_s': Fraction(T, 1000)}
        formula = next(text for when, text in pieces if when == 'beyond' or value(when, **names))
        yield f'Sa at {T}', value(formula, **names) / 10**8, response.spectrum_in_g(A, B, T)


def factor_rules(rule):
    """Capacity and root, and the factor over T."""
    design, mce = response.design_capacity(R), response.mce_capacity(R)
    R_a = value(rule['capacity'].removeprefix('R_a = ').split(' for ')[0], R=Fraction(R, 100))
    squares = re.findall(r'√\(([^)]*)\)', rule['root'])
    yield 'capacity', (R_a, Fraction(R, 100)), (design[0], mce[0])
    yield 'root', (value(squares[0], R_a=R_a), value(squares[1], R=Fraction(R, 100))), (design[1], mce[1])
    bends = [value(each, T0=Fraction(1)) for each in re.findall(r'T ≥ (\S*T0):', rule['factor'])][::-1]
    first = re.search(r'from (\d+) at T = 0', rule['factor'])
    capacity, root = R_a, Fraction(response.lower_root(design[1]), response.UNIT)
    corners = [(Fraction(0), Fraction(first[1])), *zip(bends, (root, root, capacity)), (Fraction(2), capacity)]
    for T in range(0, 1_500, 7):
        at = Fraction(T, 1000)
        (x0, y0), (x1, y1) = next(pair for pair in zip(corners, corners[1:]) if at <= pair[1][0])
        yield f'factor at {T}', y0 + (y1 - y0) * (at - x0) / (x1 - x0), response.factor(capacity, root, Fraction(1000), T)


def shear_rules(rule):
    """m and p over q, and the three shears."""
    p = rule['p'].split(': ')[1]
    for q in range(10_000, 13_000_000, 99_999):
        yield f'm at {q}', ceil(in_pieces(rule['m'], q=Fraction(q, 10**7)) * 10**7), response.modified_ratio(q)
        yield f'p at {q}', ceil(in_pieces(p, Sa=q, F=12_345_678)), response.p_of_star(q, 12_345_678)
    names = {'I': Fraction(FRAME.I, 100), 'alpha_y': Fraction(FRAME.alphay, 100), 'W': W * 1000, 'm': Fraction(2_923_211, 10**7)}
    yield 'V, V_M', ceil(value(rule['V, V_M'], **names)), shears.V(FRAME, 2_923_211, W)
    yield 'V*', ceil(value(rule['V*'], p=names['m'], **names)), shears.V_star(FRAME, 2_923_211, W)


def storey_rules(rule):
    """F_t at every T, and the storey shears."""
    none, roof = (piece.split(': ') for piece in rule['F_t'].split('; '))
    for T in range(1, 6_329):
        names = {'T': T, 'T_s': Fraction(T, 1000), 'V_D': BASE_SHEAR}
        both = [value(each, **names) for each in roof[1].removeprefix('the smaller of ').split(' and ')]
        yield f'F_t at {T}', ceil(value(none[1], **names) if value(none[0], **names) else min(both)), storeys.F_t(T, BASE_SHEAR)
    shear = rule['shear under level x'].split(';')[0].removeprefix('F_t + ')
    parts = storeys.products_above(WEIGHTS, HEIGHTS)
    got = [30 + ceil(value(shear, V_D=10_001, F_t=30, P_x=part, P=Fraction(parts[0]))) for part in parts]
    yield 'shear under level x', got, storeys.shears(10_001, 30, WEIGHTS, HEIGHTS)


def written_rules(rule):
    """Each rule that is a formula, by what the page writes: (step, what it comes to, what the model has)."""
    yield 'T0', value(rule['T0'], A=A, B=B), response.corner(A, B)
    for rules_of in (period_rules, spectrum_rules, factor_rules, shear_rules, storey_rules):
        yield from rules_of(rule)


def said_sides(said):
    """That the page names the side of each step that is rounded, and of no other."""
    for step, way in sides():
        name, _, which = step.partition(', ') if step.startswith(('root', 'factor')) else (step, '', '')
        wanted = f'{which} {name} {way}' if which else way
        holds = wanted in said.get(name, '') if which else re.search(rf'\b{way}$', said.get(name, '')) is not None
        yield holds, f'docs/manual/rules.md: {step}: {said.get(name)}, wanted {wanted}'
    rounded = [step for step, words in said.items() if re.search(r'\b(up|down)\b', words)]
    wanted = list(dict.fromkeys(step.split(', ')[0] if step.startswith(('root', 'factor')) else step for step, _ in sides()))
    yield sorted(rounded) == sorted(wanted), f'docs/manual/rules.md: rounded are {rounded}, wanted {wanted}'


def rules():
    """The rules: their formulas, their sides, and the constants of the period."""
    text = page('rules.md')
    for step, got, wanted in written_rules({row[0]: row[1] for row in rows(text, '')}):
        yield got == wanted, f'docs/manual/rules.md: {step}: {got}, wanted {wanted}'
    yield from said_sides({row[0]: row[4] for row in rows(text, '')})
    yield f'c = {listed(response.PERIOD_C.values())} for kinds 1 to 4' in text, 'docs/manual/rules.md: c'
