"""Ratios and shears, step by step, and the table of all steps from the spectrum to V, V_M and V*."""

from fractions import Fraction

from tests.writes.by_hand.response import UNIT, ductilities, factor_cells, root_cells, spectrum_cells
from tests.writes.by_hand.text import comma, decimal, rounded, table
from tests.writes.by_hand.worked import BASIN_COLUMNS, COLUMNS, in_basin

SHEAR, STAR, BASIN_STAR = 14_000, 42_000, 35_000      # what divides V and V_M, V*, and V* in the Basin


def ratio_cells(figures, q, m):
    """q and m."""
    exact = Fraction(UNIT * figures.spectrum, figures.lower_factor)
    first = f'{comma(figures.spectrum)} · 10⁷ / {comma(figures.lower_factor)} = {rounded(exact, "up", q)}'
    if q <= 3_000_000:
        return first, f'q ≤ 3,000,000: q = {rounded(q, "up", m)}'
    if q <= 8_000_000:
        bent = Fraction(52 * q, 100) + 1_440_000
        return first, f'q ≤ 8,000,000: 0.52 · {comma(q)} + 1,440,000 = {rounded(bent, "up", m)}'
    return first, f'q > 8,000,000: 0.7 · {comma(q)} = {rounded(Fraction(7 * q, 10), "up", m)}'


def p_cell(figures, p):
    """p, of V*."""
    Sa, F = figures.spectrum, figures.upper_factor
    if 10 * Sa <= 3 * F:
        return f'10 · {comma(Sa)} ≤ 3 · {comma(F)}: Sa = {rounded(Sa, "up", p)}'
    assert 10 * Sa <= 8 * F, 'no accepted job is beyond'
    bent = Fraction(52 * Sa, 100) + Fraction(144 * F, 1000)
    return (f'3 · {comma(F)} < 10 · {comma(Sa)} ≤ 8 · {comma(F)}: 0.52 · {comma(Sa)} + 0.144 · {comma(F)} = '
            f'{rounded(bent, "up", p)}')


def shear_cell(worked, number, divisor, wanted):
    """One of the three shears."""
    frame, W = worked.frame, worked.W
    exact = Fraction(frame.I * number * W, divisor * frame.alphay)
    return (f'{frame.I} · {comma(number)} · {comma(W)} / ({comma(divisor)} · {frame.alphay}) = '
            f'{rounded(exact, "up", wanted)} N')


def star_divisor(worked):
    """What divides V*, for p in ten-millionths and W in kN."""
    return BASIN_STAR if in_basin(worked) else STAR


def response_table(worked):
    """Spectrum, roots, factor, ratio and shear of each column."""
    T, equations = worked.T, '(10), (15)' if in_basin(worked) else '(4)'
    rows = [[f'branch of the spectrum {equations}'], ['Sa, 10⁻⁷ g'], ['capacity, plain number'], ['root², plain number'], ['root, 10⁻⁷'],
            ['branch of the factor (6), (16)'], ['factor, 10⁻⁷'], ['q = Sa / factor, 10⁻⁷'], ['m by (8), (18), 10⁻⁷'],
            ['p by (19), 10⁻⁷ g'], ['shear, N']]
    ends = ((*ratio_cells(worked.design, worked.q, worked.m), '', shear_cell(worked, worked.m, SHEAR, worked.V)),
            (*ratio_cells(worked.mce, worked.q_M, worked.m_M), '', shear_cell(worked, worked.m_M, SHEAR, worked.V_M)),
            ('', '', p_cell(worked.star, worked.p), shear_cell(worked, worked.p, star_divisor(worked), worked.V_star)))
    responses = (worked.design, worked.mce, worked.star)
    for column, (figures, (capacity_text, capacity, square_text, square)) in enumerate(zip(responses, ductilities(worked))):
        upper = column == 2
        root_square, root = root_cells(square, figures, upper)
        cells = (*spectrum_cells(figures, T), capacity_text + decimal(capacity, 6), square_text + root_square, root,
                 *factor_cells(capacity, figures, T, upper), *ends[column])
        for row, cell in zip(rows, cells):
            row.append(cell)
    return table(('', *(BASIN_COLUMNS if in_basin(worked) else COLUMNS)), rows)
