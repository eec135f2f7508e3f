"""A sheet of the Taipei Basin worked out in the other zones, a column a zone."""

from fractions import Fraction
from math import ceil

from tests.model import basin as basins, limits, sheet, storeys
from tests.model.job import job
from tests.writes.by_hand.ground import basin_table, corner_cells
from tests.writes.by_hand.response import UNIT, ductilities, factor_cells, spectrum_cells
from tests.writes.by_hand.shears import SHEAR, p_cell, ratio_cells, shear_cell, star_divisor
from tests.writes.by_hand.storeys import about, rising_part
from tests.writes.by_hand.text import code, comma, decimal, rounded, same, table


def across(others, first, cells_of):
    """A table with one column a job; cells_of gives the rows of a job as (name, cell)."""
    columns = [cells_of(worked) for worked in others]
    names = [name for name, _ in columns[0]]
    assert all([name for name, _ in column] == names for column in columns)
    rows = [(name, *(column[place][1] for column in columns)) for place, name in enumerate(names)]
    return table((first, *(f'zone {worked.ground.zone}' for worked in others)), rows)


def spectrum_rows(worked):
    """T0, B, and the spectrum for design and MCE, of a zone."""
    T0, B, ends = corner_cells(basins.S_DS, worked.ground.zone, worked.design)
    _, B_M, _ = corner_cells(basins.S_MS, worked.ground.zone, worked.mce)
    (branch, Sa), (same_branch, Sa_M) = (spectrum_cells(figures, worked.T) for figures in (worked.design, worked.mce))
    assert branch == same_branch and worked.star[:4] == worked.design[:4]
    return [('T0 by Table 4, ms', T0), ('0.2 · T0, 0.6 · T0, 2.5 · T0, ms', ends), ('B of V and V*, 10⁻⁸ g', B), ('B of V_M, 10⁻⁸ g', B_M),
            ('branch of the spectrum (10), (15)', branch), ('Sa of V and V*, 10⁻⁷ g', Sa), ('Sa of V_M, 10⁻⁷ g', Sa_M)]


def shear_rows(worked):
    """Factors, ratios and shears of a zone."""
    rows, T = [], worked.T
    (_, capacity, _, _), (_, R, _, _), _ = ductilities(worked)
    branch, lower = factor_cells(capacity, worked.design, T, False)
    branch_M, lower_M = factor_cells(R, worked.mce, T, False)
    branch_star, upper = factor_cells(capacity, worked.star, T, True)
    assert branch == branch_M == branch_star
    rows += [('branch of the factor (6), (16)', branch)]
    for name, factor, figures, q, m, shear in (('V', lower, worked.design, worked.q, worked.m, worked.V),
                                               ('V_M', lower_M, worked.mce, worked.q_M, worked.m_M, worked.V_M)):
        q_text, m_text = ratio_cells(figures, q, m)
        rows += [(f'lower factor of {name}', factor), (f'q of {name}', q_text), (f'm of {name}', m_text),
                 (name, shear_cell(worked, m, SHEAR, shear))]
    return rows + [('upper factor of V*', upper), ('p of V*', p_cell(worked.star, worked.p)),
                   ('V*', shear_cell(worked, worked.p, star_divisor(worked), worked.V_star))]


def governing_rows(worked):
    """V_D and F_t of a zone."""
    V_D, F_t = worked.V_D, worked.F_t
    text, part = rising_part(worked)
    named = {'V': worked.V, 'V_M': worked.V_M, 'V*': worked.V_star}
    governs = max(named, key=named.get)
    return [('V_D, the largest of the three, N', f'{governs}: **{same(named[governs], V_D)}**'),
            ('F_t, N', f'{text} · {comma(V_D)} = {rounded(part * V_D, "up", F_t)}'),
            ('V_D − F_t, N', comma(V_D - F_t))]


def force_rows(worked):
    """Shears and forces of a zone, roof first."""
    rows, V_D, F_t, count = [], worked.V_D, worked.F_t, len(worked.heights)
    parts = storeys.products_above(worked.weights, worked.heights)
    for place in reversed(range(count)):
        share = Fraction((V_D - F_t) * parts[place], parts[0])
        above = worked.shears[place + 1] if place + 1 < count else 0
        rows += [(f'(V_D − F_t) · {comma(parts[place])} / {comma(parts[0])}, N', rounded(share, 'up', ceil(share))),
                 (f'shear of storey {place + 1}, N',
                  f'{comma(F_t)} + {comma(ceil(share))} = **{same(F_t + ceil(share), worked.shears[place])}**'),
                 (f'force at level {place + 1}, N',
                  f'{comma(worked.shears[place])} − {comma(above)} = **{same(worked.shears[place] - above, worked.forces[place])}**')]
    return rows


def moment_rows(worked):
    """Overturning moments of a zone, roof first."""
    rows = []
    for place in reversed(range(len(worked.heights))):
        bottom, above, moment = about(worked, place)
        terms = ' + '.join(f'{comma(force)} · {height - bottom}' for force, height in above)
        rows.append((f'overturning of storey {place + 1}, N·dm', f'{terms} = **{moment}**'))
    return rows


def storey_rows(worked):
    """V_D, F_t, shears, forces and moments of a zone."""
    return [*governing_rows(worked), *force_rows(worked), *moment_rows(worked)]


def x_fraction(worked):
    """x of the factor's line from root to capacity as a fraction of whole numbers, where the job is on that line and x goes on past six digits."""
    T, T0 = worked.T, worked.design.T0
    top, bottom = T - T0 * 3 / 5, T0 * 2 / 5
    on_line = T0 * 3 / 5 <= T < T0 and (top / bottom * UNIT).denominator != 1
    return [f'{decimal(top, 2)}/{decimal(bottom, 2)}'] if on_line else []


def basin_names(worked):
    """What the page on the Taipei Basin may name besides: the same sheet in the other zones, one column a zone."""
    others = [job(limits.Basin(zone), worked.frame, worked.weights, worked.heights) for zone in limits.ZONE if zone != worked.ground.zone]
    zones = [(str(zone), comma(T0), f'{T0 // 1000}.{T0 % 1000 // 10:02}', *(comma(basins.A_and_B(S, zone)[1]) for S in (basins.S_DS, basins.S_MS)))
             for zone, T0 in basins.TABLE_4.items()]
    listings = '\n\n'.join(f'With zone {other.ground.zone} in line 1:\n\n' + code(sheet.listing(other).decode().splitlines()) for other in others)
    return {'basin_table': basin_table(worked), 'zone': str(worked.ground.zone), 'A_design': comma(basins.S_DS), 'A_mce': comma(basins.S_MS),
            'zones': table(('zone', 'T0, ms', 'T0, s', 'B of V and V*, 10⁻⁸ g', 'B of V_M, 10⁻⁸ g'), zones),
            'other_spectra': across(others, '', spectrum_rows), 'other_shears': across(others, '10⁻⁷, p in 10⁻⁷ g, x a plain number, shears in N', shear_rows),
            'other_storeys': across(others, '', storey_rows), 'other_listings': listings,
            'other_x': ' and '.join(each for other in others for each in x_fraction(other))}
