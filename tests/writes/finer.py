"""The page on the finer spectrum: a light frame at neighbouring periods in millionths and in ten-millionths, and the examples in both.

What the page says in words is asserted here of the model.
"""

import pathlib
import re
from fractions import Fraction

from tests.model import calls, exact, response
from tests.writes.by_hand.text import code, comma, decimal, hundredths, rounded, table
from tests.writes.by_hand.worked import read

BEFORE, NOW = 10**6, response.UNIT
PERIODS = range(60, 91)         # of the picture
SHOWN = range(76, 86)           # of the table
ON_A_SLOPE = 492                # an R with which V changes by more than a step each millisecond
BY_HAND = (83, 84)
UNITS = {BEFORE: '10⁻⁶', NOW: '10⁻⁷'}
SINCE = '2.3.0'                 # the version that brought it
HEADER = pathlib.Path(__file__).resolve().parents[2] / 'include' / 'rukeshomaji.h'


def at_period(worked, T, s):
    """The figures of the frame with another calculated period, in a unit."""
    result = calls.base_figures(worked.ground, worked.frame._replace(calculated_period=T), worked.W, worked.heights[-1], s)
    assert result.T == T and result.V == result.V_D and 5 * T <= result.design.T0
    return result


def exact_shear(worked, T):
    """The exact V at a period; its root to 30 digits."""
    return exact.bounds(at_period(worked, T, NOW), by=exact.base_of)[0].V


def shears(worked, s):
    """V at each period of the picture."""
    return [at_period(worked, T, s).V for T in PERIODS]


def steps(values):
    """How far each is below the one before it."""
    return [one - other for one, other in zip(values, values[1:])]


def unit_in_newtons(worked, s):
    """What a unit of q is worth in V."""
    return exact.shear_unit(worked) / s


def check_steps(worked):
    """What the page says of the steps."""
    before, now, exacts = shears(worked, BEFORE), shears(worked, NOW), [exact_shear(worked, T) for T in PERIODS]
    assert all(0 < step < 1 for step in steps(exacts)) and all(step >= 0 for step in (*steps(before), *steps(now)))
    assert all(old >= new for old, new in zip(before, now))
    assert set(steps(now)) == {0, 1, 2} and set(steps(before)) == {0, 3, 4}
    return before, now, exacts


def picture_ends(worked):
    """Between which V the picture is drawn, in N."""
    before, _, exacts = check_steps(worked)
    return min(map(int, exacts)) - 2, max(before) + 2


def on_a_slope(worked):
    """By how much V rises from one period to the next with another R: least and most, exact, before and now."""
    other = worked._replace(frame=worked.frame._replace(R=ON_A_SLOPE))
    rises = [[-step for step in steps(values)] for values in ([exact_shear(other, T) for T in PERIODS], shears(other, BEFORE), shears(other, NOW))]
    assert all(step > unit_in_newtons(worked, BEFORE) for step in rises[0])
    (low, high), *printed = [(min(each), max(each)) for each in rises]
    return {'slope_R': hundredths(ON_A_SLOPE), 'slope_exact': f'{decimal(low, 1)} to {decimal(high, 1)}',
            **{f'slope_{name}': f'{least} to {most}' for name, (least, most) in zip(('before', 'now'), printed)}}


def longest_run(values):
    """The most neighbours that are the same."""
    longest = run = 1
    for one, other in zip(values, values[1:]):
        run = run + 1 if one == other else 1
        longest = max(longest, run)
    return longest


def step_rows(worked):
    """V at neighbouring periods, before and now, with the step from the period before."""
    rows = []
    for T in SHOWN:
        cells = [str(T), decimal(exact_shear(worked, T), 1)]
        for s in (BEFORE, NOW):
            V = at_period(worked, T, s).V
            cells += [comma(V), comma(at_period(worked, T - 1, s).V - V), decimal(V - exact_shear(worked, T), 1)]
        rows.append(cells)
    return table(('T, ms', 'exact V, N', 'V before, N', 'fall since the ms before, N', 'above the exact V by, N',
                  'V now, N', 'fall since the ms before, N', 'above the exact V by, N'), rows)


def by_hand_table(worked):
    """Each step of V at two neighbouring periods in both units."""
    columns = [(T, s, at_period(worked, T, s)) for s in (BEFORE, NOW) for T in BY_HAND]
    rows = [['Sa = A · (0.4 + 3 · T / T0), up'], ['root²'], ['root, down'], ['y = (T − 0.2 · T0) / (0.2 · T0)'],
            ['factor = root + (root − 1) · y, down'], ['q = Sa / factor, up'], ['m = 0.52 · q + 0.144, up'], ['V, up']]
    for T, s, result in columns:
        figures, T0 = result.design, result.design.T0
        y = Fraction(5 * T, 1) / T0 - 1
        root = figures.lower_root
        Sa, factor = s * response.spectrum_in_g(figures.A, figures.B, T), root + (root - s) * y
        q, m = Fraction(s * figures.spectrum, figures.lower_factor), Fraction(52 * result.q, 100) + Fraction(144 * s, 1000)
        V = result.m * unit_in_newtons(worked, s)
        assert 3 * s < 10 * result.q <= 8 * s
        digits = len(str(s)) - 1
        in_ones = [f'{each // s}.{each % s:0{digits}}' for each in (root, root + 1)]
        squares = [decimal(Fraction(each**2, s**2), 8) for each in (root, root + 1)]
        divisor = 14 * s // 10_000
        cells = (f'{comma(figures.A)} · (0.4 + 3 · {T} / {decimal(T0, 2)}) / {10**8 // s} = {rounded(Sa, "up", figures.spectrum)}',
                 decimal(Fraction(worked.frame.R - 25, 75), 8),
                 f'{in_ones[0]}² = {squares[0]}, {in_ones[1]}² = {squares[1]}: **{comma(root)}**', f'−{decimal(-y, 6)}',
                 f'{comma(root)} + ({comma(root)} − {comma(s)}) · y = {rounded(factor, "down", figures.lower_factor)}',
                 f'{comma(figures.spectrum)} · {comma(s)} / {comma(figures.lower_factor)} = {rounded(q, "up", result.q)}',
                 f'0.52 · {comma(result.q)} + {comma(144 * s // 1000)} = {rounded(m, "up", result.m)}',
                 f'{worked.frame.I} · {comma(result.m)} · {comma(worked.W)} / ({comma(divisor)} · {worked.frame.alphay}) = '
                 f'{rounded(V, "up", result.V)} N')
        for row, cell in zip(rows, cells):
            row.append(cell)
    return table(('', *(f'{T} ms, in {UNITS[s]}' for T, s, _ in columns)), rows)


def example_rows(examples):
    """V, V_M, V* and V_D of the examples, before and now."""
    rows = []
    for name, worked in examples.items():
        old, new = (calls.base_figures(worked.ground, worked.frame, worked.W, worked.heights[-1], s) for s in (BEFORE, NOW))
        cells = []
        for shear in ('V', 'V_M', 'V_star', 'V_D'):
            before, now = getattr(old, shear), getattr(new, shear)
            assert before >= now
            cells.append(comma(now) if before == now else f'{comma(before)}, now {comma(now)}')
        rows.append((f'`examples/{name}`', *cells))
    return table(('sheet', 'V, N', 'V_M, N', 'V*, N', 'V_D, N'), rows)


def source():
    """The state of the rules, and since which version it is so, by the header."""
    text = ' '.join(HEADER.read_text().replace('\n *', ' ').split())
    said = re.search(r'it is (\d+) since [^()]* \((\d+\.\d+\.\d+)\)', text)
    return {'source': said[1], 'source_since': said[2]}


def names(data, others):
    """What the page may name; `others` are the other examples by their names."""
    worked = read(data)
    before, now, exacts = check_steps(worked)
    frame, jump = worked.frame, max(steps(before))
    falls = decimal(exacts[0] - exacts[-1], 1)
    same = [str(T) for T, one, other in zip(PERIODS, before, now) if one == other]
    assert same == [str(T) for T in range(int(same[0]), int(same[-1]) + 1)]
    lowest, highest = picture_ends(worked)
    return {**on_a_slope(worked), **source(), 'alike': ' and '.join(same), 'height': str(highest - lowest), 'about': comma(round(min(now), -2)),
            'sheet': code(data.decode().splitlines()), 'steps_table': step_rows(worked), 'hand_table': by_hand_table(worked),
            'examples_table': example_rows(others | {'light_frame.sheet': worked}),
            'first': str(PERIODS[0]), 'last': str(PERIODS[-1]), 'falls': falls, 'same': str(longest_run(before)), 'jump': str(jump),
            'jump_now': str(max(steps(now))), 'most_before': decimal(max(one - other for one, other in zip(before, exacts)), 1),
            'most_now': decimal(max(one - other for one, other in zip(now, exacts)), 1),
            'unit_before': decimal(unit_in_newtons(worked, BEFORE), 2), 'unit_now': decimal(unit_in_newtons(worked, NOW), 3),
            'W': comma(worked.W), 'R': hundredths(frame.R), 'I': hundredths(frame.I), 'alphay': hundredths(frame.alphay),
            'T': str(worked.T), 'T0': decimal(worked.design.T0, 2), 'fifth': decimal(worked.design.T0 / 5, 2),
            'one': str(BY_HAND[0]), 'other': str(BY_HAND[1]), 'root_square': decimal(Fraction(frame.R - 25, 75), 6),
            'margin_before': decimal(6 * unit_in_newtons(worked, BEFORE) + 1, 2), 'margin_now': decimal(6 * unit_in_newtons(worked, NOW) + 1, 2)}
