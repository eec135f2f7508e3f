"""V_D, the roof force, and shear, force and overturning of each storey, step by step."""

from fractions import Fraction
from math import ceil

from tests.model import storeys
from tests.writes.by_hand.text import code, comma, decimal, rounded, same, table


def rising_part(worked):
    """0.07*T of a job whose roof force it makes: T above 700 ms, and the part below a quarter; text and number."""
    seconds = Fraction(worked.T, 1000)
    part = Fraction(7, 100) * seconds
    assert worked.T > storeys.NO_ROOF_FORCE and part < Fraction(1, 4)
    return f'0.07 · {decimal(seconds)}', part


def roof_force_lines(worked):
    """F_t, by its rule."""
    V_D, T, F_t = worked.V_D, worked.T, worked.F_t
    none = storeys.NO_ROOF_FORCE
    if T <= none:
        return [f'T = {comma(T)} ms is not above {none} ms: F_t = {same(0, F_t)} N']
    text, part = rising_part(worked)
    exact = part * V_D
    return [f'T = {comma(T)} ms is above {none} ms, and {text} = {decimal(part, 5)} is below 0.25:',
            f'F_t = {text} · {comma(V_D)} = {decimal(exact)}, up: {same(ceil(exact), F_t)} N']


def roof_force(worked):
    """V_D and F_t."""
    V_D, F_t = worked.V_D, worked.F_t
    named = (worked.V, worked.V_M, worked.V_star)
    return code([f'V_D = the largest of {comma(named[0])}, {comma(named[1])} and {comma(named[2])} = {same(max(named), V_D)} N',
                 *roof_force_lines(worked), f'V_D − F_t = {comma(V_D - F_t)} N'])


def storeys_table(worked):
    """P_x, quotient, shear and force, roof first."""
    V_D, F_t = worked.V_D, worked.F_t
    parts = storeys.products_above(worked.weights, worked.heights)
    rest, P = V_D - F_t, parts[0]
    rows = []
    for place in reversed(range(len(parts))):
        weight, height, part = worked.weights[place], worked.heights[place], parts[place]
        above = worked.shears[place + 1] if place + 1 < len(parts) else 0
        exact = Fraction(rest * part, P)
        rows.append((str(place + 1), f'{comma(weight)} · {comma(height)} = {comma(weight * height)}', comma(part),
                     f'{comma(rest)} · {comma(part)} / {comma(P)} = {rounded(exact, "up", ceil(exact))}',
                     f'{comma(F_t)} + {comma(ceil(exact))} = **{same(F_t + ceil(exact), worked.shears[place])}**',
                     f'{comma(worked.shears[place])} − {comma(above)} = **{same(worked.shears[place] - above, worked.forces[place])}**'))
    return table(('level', 'weight · height, kN·dm', 'P_x, kN·dm', '(V_D − F_t) · P_x / P, N', 'shear, N', 'force, N'), rows)


def about(worked, place):
    """The bottom of a storey, the forces above it with their heights, roof first, and their moment about it, which must be the model's."""
    bottom = worked.heights[place - 1] if place else 0
    above = [(worked.forces[level], worked.heights[level]) for level in reversed(range(place, len(worked.heights)))]
    return bottom, above, same(sum(force * (height - bottom) for force, height in above), worked.moments[place])


def moments(worked):
    """Overturning about the bottom of each storey, roof first."""
    lines = []
    for place in reversed(range(len(worked.heights))):
        bottom, above, moment = about(worked, place)
        terms = ' + '.join(f'{comma(force)} · ({height} − {bottom})' for force, height in above)
        lines.append(f'storey {place + 1}: {terms} = {moment}')
    return code(lines)
