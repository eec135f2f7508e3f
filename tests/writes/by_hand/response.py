"""Period, spectrum, roots and reduction factor, step by step."""

from fractions import Fraction
from math import floor

from tests.model import response
from tests.model.calls import HAZARDS, made_by
from tests.writes.by_hand.text import code, comma, decimal, rounded, same
from tests.writes.by_hand.worked import in_basin

UNIT = response.UNIT
IN_A = 10**8 // UNIT             # a unit of g, in 10⁻⁸ g
PER_MS = 1000 // IN_A            # B/(T in s) in the unit is so many times B/T


def period(worked):
    """The period in use."""
    c, h, t, T = response.PERIOD_C[worked.frame.kind], worked.heights[-1], worked.t, worked.T
    bound = c**4 * h**3
    assert 1000 * t**4 <= bound < 1000 * (t + 1)**4
    lines = [f'c⁴ · h³ = {c}⁴ · {h}³ = {comma(bound)}',
             f'1000 · {t}⁴ = {comma(1000 * t**4)}, not above it',
             f'1000 · {t + 1}⁴ = {comma(1000 * (t + 1)**4)}, above it',
             f't = {comma(t)} ms']
    calculated = worked.frame.calculated_period
    if calculated:
        upper = Fraction(14 * t, 10)
        lines += [f'14 · {comma(t)} / 10 = {decimal(upper)}, down: {comma(floor(upper))}',
                  f'T = the smaller of {comma(calculated)} and {comma(floor(upper))} = {same(min(calculated, floor(upper)), T)} ms']
    else:
        lines += [f'no calculated period: T = t = {same(t, T)} ms']
    return code(lines)


def ductilities(worked):
    """For V, V_M and V*: capacity and root², each as the text of its arithmetic and as a number, which must be the model's."""
    R = worked.frame.R
    if in_basin(worked):
        design = (f'({R} + 100) / 200 = ', Fraction(R + 100, 200), f'{R} / 100 = ', Fraction(R, 100))
    else:
        design = (f'(2 · {R} + 100) / 300 = ', Fraction(2 * R + 100, 300), f'({R} − 25) / 75 = ', Fraction(R - 25, 75))
    mce = (f'{R} / 100 = ', Fraction(R, 100), f'({R} − 50) / 50 = ', Fraction(R - 50, 50))
    for name, (_, capacity, _, square) in zip(HAZARDS, (design, mce, design)):
        assert made_by(worked.ground).hazard(name, worked.ground, R)[2] == (capacity, square), name
    return design, mce, design


def spectrum_cells(figures, T):
    """Which branch of (4), and what it comes to."""
    A, B = figures.A, figures.B
    T0 = Fraction(1000 * B, A)
    if T <= T0 / 5:
        branch, text = 'T ≤ 0.2 · T0', f'A · (0.4 + 3 · T / T0) / {IN_A} = {comma(A)} · (0.4 + 3 · {comma(T)} / {decimal(T0, 2)}) / {IN_A}'
        exact = A * (Fraction(4, 10) + 3 * T / T0) / IN_A
    elif T <= T0:
        branch, text, exact = '0.2 · T0 < T ≤ T0', f'A / {IN_A} = {comma(A)} / {IN_A}', Fraction(A, IN_A)
    elif T <= T0 * 5 / 2:
        branch, text, exact = 'T0 < T ≤ 2.5 · T0', f'{PER_MS} · B / T = {PER_MS} · {comma(B)} / {comma(T)}', Fraction(PER_MS * B, T)
    else:
        branch, text, exact = 'T > 2.5 · T0', f'0.4 · A / {IN_A} = 0.4 · {comma(A)} / {IN_A}', Fraction(4 * A, 10 * IN_A)
    return branch, f'{text} = {rounded(exact, "up", figures.spectrum)}'


def root_cells(square, figures, upper):
    """root², and the root that counts, tested by its square."""
    low, high = figures.lower_root, figures.upper_root
    shown = [decimal(Fraction(each**2, UNIT**2), 8) for each in (low, high)]
    if low == high:
        return f'{decimal(square, 8)}', f'{comma(low)}, whose square is root²'
    side = f'**{comma(high)}** (upper)' if upper else f'**{comma(low)}** (lower)'
    in_ones = [f'{each // UNIT}.{each % UNIT:07}' for each in (low, high)]
    return decimal(square, 8), f'{in_ones[0]}² = {shown[0]}, {in_ones[1]}² = {shown[1]}: {side}'


def factor_cells(capacity, figures, T, upper):
    """Which branch of (6) or (16), and the lower or upper factor in ten-millionths."""
    T0 = figures.T0
    root = figures.upper_root if upper else figures.lower_root
    wanted, side = (figures.upper_factor, 'up') if upper else (figures.lower_factor, 'down')
    in_units = capacity * UNIT
    if T >= T0:
        branch, text, exact = 'T ≥ T0: capacity', '', in_units
    elif T >= T0 * 3 / 5:
        x = (T - T0 * 3 / 5) / (T0 * 2 / 5)
        branch = f'0.6 · T0 ≤ T < T0, x = ({comma(T)} − {decimal(T0 * 3 / 5, 2)}) / {decimal(T0 * 2 / 5, 2)} = {decimal(x, 6)}'
        text, exact = f'{comma(root)} + ({decimal(in_units)} − {comma(root)}) · x = ', root + (in_units - root) * x
    elif T >= T0 / 5:
        branch, text, exact = '0.2 · T0 ≤ T < 0.6 · T0: root', '', Fraction(root)
    else:
        y = (T - T0 / 5) / (T0 / 5)
        branch = f'T < 0.2 · T0, y = ({comma(T)} − {decimal(T0 / 5, 2)}) / {decimal(T0 / 5, 2)} = −{decimal(-y, 6)}'
        text, exact = f'{comma(root)} + ({comma(root)} − {comma(UNIT)}) · y = ', root + (root - UNIT) * y
    return branch, f'{text}{rounded(exact, side, wanted)}'
