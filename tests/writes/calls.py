"""The page on the shear call and the distribution: V_D alone, a base shear that is handed in by hand, what the period does, numbers that do not
belong together, and the order of refusals.

What the page says in words is asserted here of the model.
"""

from math import ceil

from tests.model import calls, exact, limits, sheet, storeys
from tests.model.job import job
from tests.writes import roof
from tests.writes.by_hand.storeys import moments, roof_force_lines, storeys_table
from tests.writes.by_hand.text import code, comma, decimal, same, table
from tests.writes.by_hand.worked import read
from tests.writes.order_of_refusals import refusal_names
from tests.writes.scaling import base_line, building, level_lines, scaled, scaling_names

PERIODS = 0, 700, 701, 1_000, 3_571, 3_572, 9_999
ANALYSIS_PERIOD = 1_400


def handed_in(office):
    """The worked job with the storeys of the base shear that is handed in, for the steps of `by_hand`."""
    over = scaled(office)
    return office._replace(V_D=over.base_shear, T=over.period, F_t=over.F_t, forces=over.forces, shears=over.shears, moments=over.moments)


def called_V_B(text):
    """Steps of `by_hand` with the base shear under the name that the page gives it."""
    return text.replace('V_D', 'V_B')


def storey_names(office):
    """The base shear that is handed in, by hand."""
    over, worked = scaled(office), handed_in(office)
    steps = [*roof_force_lines(worked), f'V_B − F_t = {comma(over.base_shear - over.F_t)} N']
    least = exact.storey_chain(over.base_shear, over.period, over.weights, over.heights)
    exact.check_distribution(over)
    margins = [(str(place + 1), comma(over.shears[place]), decimal(least[place]), decimal(over.shears[place] - least[place]))
               for place in reversed(range(len(least)))]
    assert sum(over.forces) == over.shears[0] == over.base_shear
    return {'V_B': comma(over.base_shear), 'roof_force': code(steps), 'storeys_table': called_V_B(storeys_table(worked)),
            'forces_added': ' + '.join(map(comma, reversed(over.forces))), 'moments': moments(worked), 'levels': code(level_lines(over)),
            'P': comma(sum(weight * height for weight, height in zip(over.weights, over.heights))),
            'margins': table(('storey', 'shear, N', 'exact, N', 'above it by, N'), margins)}


def period_names(office):
    """What the period does to the storeys of the same base shear."""
    V_B, rows = scaled(office).base_shear, []
    overs = [calls.distribution(V_B, period, office.weights, office.heights) for period in limits.PERIOD]
    for before, over in zip(overs, overs[1:]):
        assert over.shears[0] == V_B and all(now >= then for now, then in zip(over.shears + over.moments, before.shears + before.moments))
    for before, over in zip((overs[period] for period in PERIODS), (overs[period] for period in PERIODS[1:])):
        assert before.F_t == over.F_t or all(now < then for now, then in zip(over.forces[:-1], before.forces[:-1]))
    for over in (overs[period] for period in PERIODS):
        part = exact.roof_part(over.period)
        rows.append((comma(over.period), decimal(part, 5), same(ceil(part * V_B), over.F_t), *map(comma, reversed(over.shears)),
                     comma(over.moments[0])))
    heads = [f'storey {place + 1}, N' for place in reversed(range(len(office.heights)))]
    longest = job(office.ground, office.frame._replace(calculated_period=limits.CALCULATED_PERIOD[-1]), office.weights, office.heights).T
    assert longest < ANALYSIS_PERIOD and all(storeys.F_t(period, V_B) == 0 for period in range(roof.NONE_UP_TO + 1))
    return {'period_table': table(('period, ms', 'F_t / V_B before rounding', 'F_t, N', *heads, 'overturning at the base, N·dm'), rows),
            'none_up_to': comma(roof.NONE_UP_TO), 'step_next': comma(roof.NONE_UP_TO + 1), 'rising_to': comma(roof.QUARTER_FROM - 1),
            'quarter_from': comma(roof.QUARTER_FROM), 'longest': comma(longest), 'longest_F_t': comma(storeys.F_t(longest, V_B)),
            'most_period': comma(limits.PERIOD[-1]), 'analysis_period': comma(ANALYSIS_PERIOD),
            'analysis_F_t': comma(storeys.F_t(ANALYSIS_PERIOD, V_B))}


def mixed_names(office):
    """Numbers that do not belong together, all of them accepted."""
    base = building(office)
    light = calls.shear_call(office.ground, office.frame, base.W // 10, base.h)
    low = calls.shear_call(office.ground, office.frame, base.W, base.h // 10)
    in_kN = calls.distribution(base.V_D // 1000, base.T, office.weights, office.heights)
    in_s = calls.distribution(base.V_D, base.T // 1000, office.weights, office.heights)
    doubled = calls.distribution(base.V_D, base.T, [2 * weight for weight in office.weights], office.heights)
    assert in_s.F_t == 0 and (doubled.forces, doubled.shears) == (office.forces, office.shears) and sum(doubled.weights) != base.W
    last = len(office.heights)
    rows = [(f'total weight {comma(light.W)} in place of {comma(base.W)} kN', f'V_D is {comma(light.V_D)} N in place of {comma(base.V_D)} N'),
            (f'top height {comma(low.h)} in place of {comma(base.h)}, m for dm',
             f'T is {comma(low.T)} ms in place of {comma(base.T)} ms, and V_D is {comma(low.V_D)} N'),
            (f'base shear {comma(in_kN.base_shear)} in place of {comma(base.V_D)}, kN for N',
             f'{comma(in_kN.base_shear)} N are shared among the levels'),
            (f'period {in_s.period} in place of {comma(base.T)}, s for ms',
             f'no roof force: storey {last} has {comma(in_s.shears[-1])} N in place of {comma(office.shears[-1])} N')]
    return {'mixed_table': table(('what is handed in', 'what comes out'), rows)}


def names(data):
    """What the page may name."""
    office = read(data)
    again = calls.distribution(office.V_D, office.T, office.weights, office.heights)
    assert sheet.listing(office).decode().splitlines() == [base_line(building(office)), *level_lines(again)]
    return {**scaling_names(office), **storey_names(office), **period_names(office), **mixed_names(office), **refusal_names(office),
            'level_weight': comma(limits.WEIGHT[-1]), 'most_levels': str(limits.LEVELS[-1]), 'most_weight': comma(limits.TOTAL_WEIGHT[-1]),
            'longest_T': comma(roof.LONGEST)}
