"""From the numbers of a site or a zone to A, B and T0 of the three shears."""

from fractions import Fraction

from tests.model import basin as basins, site as sites
from tests.writes.by_hand.text import comma, decimal, same, table
from tests.writes.by_hand.worked import BASIN_COLUMNS, COLUMNS

CLASS_NAMES = {1: 'hard', 2: 'normal', 3: 'soft'}


def hazards(worked):
    """For V, V_M and V* on a site: mapped S_S and S_1, near-fault factors, the model's response."""
    site, none = worked.ground, sites.NO_NEAR_FAULT
    return ((site.SSD, site.S1D, site.NA, site.NV, worked.design),
            (site.SSM, site.S1M, site.NAM, site.NVM, worked.mce),
            (site.SSD, site.S1D, none, none, worked.star))


def between(columns, coefficients, S):
    """A coefficient of Table 2, with the line between two columns where S stands between them; text and number."""
    number = sites.interpolate(columns, coefficients, S)
    if S in columns or S < columns[0] or S > columns[-1]:
        return comma(number), number
    right = next(place for place, column in enumerate(columns) if S < column)
    (left, high), (low_column, column) = coefficients[right - 1:right + 1], columns[right - 1:right + 1]
    got = left + Fraction((high - left) * (S - low_column), column - low_column)
    if left == high:
        return comma(number), number
    return (f'{comma(left)} + ({comma(high)} − {comma(left)}) · ({comma(S)} − {comma(low_column)}) / {comma(column - low_column)} = '
            f'{same(got, number)}'), number


def site_table(worked):
    """S, F_a, F_v, A, B and T0 of the three shears."""
    rows = [[f'{name}'] for name in ('S_S = mapped · N_A, in 0.0001 g', 'S_1 = mapped · N_V, in 0.0001 g', 'F_a by Table 2, in 0.0001',
                                     'F_v by Table 2, in 0.0001', 'A = F_a · S_S, in 10⁻⁸ g', 'B = F_v · S_1, in 10⁻⁸ g',
                                     'T0 = 1000 · B / A, in ms', '0.2 · T0, 0.6 · T0, 2.5 · T0, in ms')]
    for S_S, S_1, NA, NV, figures in hazards(worked):
        cls = worked.ground.cls
        a_text, a = between(sites.S_S_COLUMNS, sites.F_A[cls], S_S * NA)
        v_text, v = between(sites.S_1_COLUMNS, sites.F_V[cls], S_1 * NV)
        T0 = Fraction(1000 * figures.B, figures.A)
        cells = (f'{S_S} · {NA} = {comma(S_S * NA)}', f'{S_1} · {NV} = {comma(S_1 * NV)}', a_text, v_text,
                 f'{comma(a)} · {comma(S_S * NA)} = **{same(a * S_S * NA, figures.A)}**',
                 f'{comma(v)} · {comma(S_1 * NV)} = **{same(v * S_1 * NV, figures.B)}**',
                 f'**{decimal(T0, 2)}**', ', '.join(decimal(T0 * part / 10, 2) for part in (2, 6, 25)))
        for row, cell in zip(rows, cells):
            row.append(cell)
    return table(('', *COLUMNS), rows)


def corner_cells(A, zone, figures):
    """T0 by Table 4, B, and where the branches end."""
    T0 = basins.TABLE_4[zone]
    assert figures.A == A and figures.T0 == T0
    return (f'**{comma(T0)}**', f'{comma(A)} · {comma(T0)} / 1000 = **{same(Fraction(A * T0, 1000), figures.B)}**',
            ', '.join(decimal(Fraction(T0 * part, 10), 2) for part in (2, 6, 25)))


def basin_table(worked):
    """A, T0 and B of the three shears in a zone of the Taipei Basin."""
    rows = [['A, in 10⁻⁸ g'], ['T0 by Table 4, in ms'], ['B = A · T0 / 1000, in 10⁻⁸ g'], ['0.2 · T0, 0.6 · T0, 2.5 · T0, in ms']]
    for name, A, figures in (('S_DS', basins.S_DS, worked.design), ('S_MS', basins.S_MS, worked.mce), ('S_DS', basins.S_DS, worked.star)):
        cells = (f'{name} = {decimal(Fraction(A, 10**8))} g: **{comma(A)}**', *corner_cells(A, worked.ground.zone, figures))
        for row, cell in zip(rows, cells):
            row.append(cell)
    return table(('', *BASIN_COLUMNS), rows)
