"""Which way the figures move (Wish 14) as the manual shows it: the worked sheet with one number changed, V* over R, other periods, a heavier roof.

What the page says in words is asserted here of the model. What examples/moves.c and examples/moves.py print is here too.
"""

from fractions import Fraction

from tests.model import basin as basins, calls, limits, site as sites
from tests.model.job import job
from tests.writes.by_hand.response import UNIT
from tests.writes.by_hand.text import code, comma, decimal, hundredths, table
from tests.writes.by_hand.worked import read
from tests.writes.changed_sheet import FIGURES, arrow, cells, figures, in_ones, metres, with_frame, with_weight
from tests.writes.other_periods import HEAVY, RISING, RISING_HEIGHTS, period_table
from tests.writes.star_over_r import LEVEL, STAR_RISES, assert_level, most_A, other_stars, star_table

CALLED_R = (100, 175, 400, 480, 600)                        # of the example
LARGER_I, SMALLER_ALPHAY, HEAVIER, ROOF = 125, 100, 6_000, 2
LIGHT, LIGHT_ALPHAY = 1, (200, 199)                         # kN and alpha-y, where V_D stays
MIDDLE, MIDDLE_T = 250, 500                                 # height of level 2 in dm and T in ms, where the shear of the roof's storey falls
TENTHS = 10


def changed(worked):
    """What is changed, from what to what, and the job."""
    frame, roof = worked.frame, len(worked.weights) - 1
    assert roof == ROOF
    yield 'nothing', '', worked
    yield 'I', f'{hundredths(frame.I)} → {hundredths(LARGER_I)}', with_frame(worked, I=LARGER_I)
    yield 'alpha-y', f'{hundredths(frame.alphay)} → {hundredths(SMALLER_ALPHAY)}', with_frame(worked, alphay=SMALLER_ALPHAY)
    yield 'weight of the roof', f'{arrow(worked.weights[roof], HEAVIER)} kN', with_weight(worked, roof, HEAVIER)
    yield from (('R', f'{hundredths(frame.R)} → {hundredths(R)}', with_frame(worked, R=R)) for R in (600, 300))


def changes_table(worked):
    """The worked sheet with one number changed: with I, alpha-y and the roof all rise, with a larger R V and V_M fall."""
    rows = list(changed(worked))
    assert all(result.T == worked.T for _, _, result in rows)
    assert all(min(figures(result)[k] - figures(worked)[k] for k in range(4)) > 0 for _, _, result in rows[1:4])
    assert rows[4][2].V < worked.V and rows[4][2].V_M < worked.V_M and rows[4][2].V_D == worked.V_D
    return table(('changed', 'from, to', *FIGURES), [(name, steps, *cells(result)) for name, steps, result in rows])


def storeys_table(before, after):
    """Forces, shears and moments of two jobs, roof first."""
    rows = []
    for place in reversed(range(len(before.heights))):
        cells_of = [arrow(getattr(before, name)[place], getattr(after, name)[place]) for name in ('forces', 'shears', 'moments')]
        rows.append((str(place + 1), *cells_of))
    return table(('level', 'force, N', 'shear, N', 'overturning, N·dm'), rows)


def roof_names(worked):
    """A heavier roof, and a heavier level below the roof."""
    heavier = with_weight(worked, ROOF, HEAVIER)
    assert heavier.V_D > worked.V_D and heavier.forces[0] < worked.forces[0] and heavier.forces[1] < worked.forces[1]
    heights = [worked.heights[0], MIDDLE, worked.heights[-1]]
    before, after = (job(worked.ground, worked.frame._replace(calculated_period=MIDDLE_T), [worked.weights[0], weight, worked.weights[2]], heights)
                     for weight in (worked.weights[1], HEAVIER))
    assert before.T == after.T == MIDDLE_T and before.F_t == after.F_t == 0 and after.V_D > before.V_D and after.shears[2] < before.shears[2]
    assert worked.weights[1] == worked.weights[ROOF]
    return {'roof_before': comma(worked.weights[ROOF]), 'roof_after': comma(HEAVIER), 'roof_table': storeys_table(worked, heavier),
            'middle_m': metres(MIDDLE), 'middle_T': comma(MIDDLE_T), 'middle_table': storeys_table(before, after)}


def moves_lines(worked):
    """What examples/moves.c prints: the worked sheet with other R, I, alpha-y and total weight."""
    frame, W, h = worked.frame, worked.W, worked.heights[-1]
    made = [('R', R, frame._replace(R=R), W) for R in CALLED_R]
    made += [('I', LARGER_I, frame._replace(I=LARGER_I), W), ('alpha-y', SMALLER_ALPHAY, frame._replace(alphay=SMALLER_ALPHAY), W),
             ('weight', HEAVY, frame, HEAVY)]
    results = [(name, number, calls.shear_call(worked.ground, line, weight, h)) for name, number, line, weight in made]
    assert all(result.T == worked.T for _, _, result in results)
    return ['\t'.join(map(str, (name, number, *figures(result), result.T))) for name, number, result in results]


def names(data, near_fault_data):
    """What the page on which way the figures move names."""
    office, near_fault = read(data), read(near_fault_data)
    frame, T0 = office.frame, office.star.T0
    low, high = (with_frame(office, R=R) for R in STAR_RISES)
    assert_level(office)
    assert office.T > T0 and high.star.spectrum * TENTHS == 3 * high.star.upper_factor and office.heights[-1] == 300
    light = [calls.shear_call(office.ground, frame._replace(alphay=alphay), LIGHT, office.heights[-1]).V_D for alphay in LIGHT_ALPHAY]
    assert light[0] == light[1]
    most, basin_most = most_A(), Fraction(basins.S_DS, 10**8)
    rising, fifth = calls.shear_call(*RISING, office.W, RISING_HEIGHTS[0]).T, Fraction(basins.TABLE_4[RISING[0].zone], 5)
    assert rising < fifth and low.p * 1000 == 520 * low.star.spectrum + 144 * low.star.upper_factor and low.star.upper_factor == UNIT
    assert most / Fraction(3, 10) < 3 and basin_most / Fraction(3, 10) < Fraction(5, 2) and sites.V_STAR == 3 * Fraction(14, 10)
    assert basins.V_STAR == Fraction(5, 2) * Fraction(14, 10)
    return {'light_W': str(LIGHT), 'light_V_D': comma(light[0]), 'light_alphay': hundredths(LIGHT_ALPHAY[0]),
            'light_smaller': hundredths(LIGHT_ALPHAY[1]), 'I': hundredths(frame.I), 'alphay': hundredths(frame.alphay), 'R': hundredths(frame.R),
            'level': comma(office.weights[0]), 'T': comma(office.T), 'changes_table': changes_table(office), 'T0': decimal(T0),
            'Sa': in_ones(office.star.spectrum), 'star_table': star_table(office), 'star_low': hundredths(STAR_RISES[0]),
            'star_high': hundredths(STAR_RISES[1]), 'star_before': comma(low.V_star), 'star_after': comma(high.V_star),
            'star_percent': str(round(100 * Fraction(high.V_star - low.V_star, low.V_star))),
            'v_fall': comma(low.V - high.V), 'vm_fall': comma(low.V_M - high.V_M), 'vd_fall': comma(low.V_D - high.V_D),
            'level_R': hundredths(LEVEL), 'last_R': hundredths(limits.R_RANGE[-1]), 'other_stars': other_stars(near_fault, office),
            'most_A': decimal(most), 'most_third': decimal(most / 3), 'basin_part': decimal(basin_most / Fraction(5, 2)),
            'rising_T': comma(rising), 'rising_fifth': decimal(fifth), 'Sa_M': in_ones(office.mce.spectrum), 'p_low': in_ones(low.p),
            'most_factor': decimal(most / Fraction(3, 10), 2), 'basin_A': decimal(basin_most),
            'basin_factor': decimal(basin_most / Fraction(3, 10)), 'period_table': period_table(office),
            'rising_kind': str(RISING[1].kind), 'rising_R': hundredths(RISING[1].R), 'rising_I': hundredths(RISING[1].I), 'near_T': comma(near_fault.T),
            **roof_names(office), 'printed': code(moves_lines(office))}
