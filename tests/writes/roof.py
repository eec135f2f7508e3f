"""The page on the roof force: the rule, a low frame and a tall one by the rule and by the short text of (21), and the step at 700 ms.

What the page says in words is asserted here of the model.
"""

from fractions import Fraction
from math import ceil

from tests.model import calls, limits, response, sheet, storeys
from tests.model.job import job
from tests.writes import finer
from tests.writes.by_hand.text import code, comma, decimal, table
from tests.writes.by_hand.worked import read

NONE_UP_TO, QUARTER_FROM, LONGEST = storeys.NO_ROOF_FORCE, 3_572, 6_328
RISING, QUARTER = Fraction(7, 100), Fraction(1, 4)
# its approximate period is above 700 ms before it is rounded down
CUT_TO_700 = limits.Frame(4, 0, 480, 125, 150), [1_000, 1_000], [169, 338]


def by_the_text(worked):
    """Forces, shears and moments with the F_t of the short text, 0.07*T*V_D at every T, and that F_t."""
    top = ceil(RISING * Fraction(worked.T, 1000) * worked.V_D)
    shears = storeys.shears(worked.V_D, top, worked.weights, worked.heights)
    forces = storeys.forces(shears)
    return top, forces, shears, storeys.overturning(forces, worked.heights)


def rule_table():
    """The pieces of the rule."""
    assert [T for T in range(1, LONGEST + 1) if RISING * Fraction(T, 1000) > QUARTER][0] == QUARTER_FROM
    for V_D in (1, 100_000, 1_071_429):
        for T in range(1, LONGEST + 1):
            piece = 0 if T <= NONE_UP_TO else RISING * Fraction(T, 1000) * V_D if T < QUARTER_FROM else Fraction(V_D, 4)
            assert storeys.F_t(T, V_D) == ceil(piece), (T, V_D)
    return table(('T, ms', 'F_t, N'), (
        (f'up to {comma(NONE_UP_TO)}', '0'),
        (f'{comma(NONE_UP_TO + 1)} to {comma(QUARTER_FROM - 1)}', '0.07·(T in s)·V_D, rounded up'),
        (f'from {comma(QUARTER_FROM)} on; the longest T of a sheet is {comma(LONGEST)}', 'V_D/4, rounded up')))


def begins():
    """At which T the quarter begins to count."""
    below, above = (RISING * Fraction(T, 1000) for T in (QUARTER_FROM - 1, QUARTER_FROM))
    assert below < QUARTER < above
    return code([f'0.25 / 0.07 = {decimal(QUARTER / RISING, 6)} s',
                 f'0.07 · {decimal(Fraction(QUARTER_FROM - 1, 1000))} = {decimal(below, 5)}, below 0.25',
                 f'0.07 · {decimal(Fraction(QUARTER_FROM, 1000))} = {decimal(above, 5)}, above 0.25'])


def both_rules(worked, places):
    """Force, shear and moment of some levels, roof first, by the short text and by the rule."""
    _, forces, shears, moments = by_the_text(worked)
    rows = []
    for place in places:
        pairs = ((forces, worked.forces), (shears, worked.shears), (moments, worked.moments))
        rows.append((str(place + 1), *(comma(column[place]) for pair in pairs for column in pair)))
    head = [f'{name} {when}, {unit}' for name, unit in (('force', 'N'), ('shear', 'N'), ('overturning', 'N·dm')) for when in ('before', 'now')]
    return table(('level', *head), rows)


def percent(part):
    """A part in percent, to the nearest tenth."""
    tenths = round(part * 1000)
    return f'{tenths // 10}.{tenths % 10} %'


def check_moves(worked):
    """What the page says of a smaller F_t: the roof has less and every other level more; every shear but the lowest, V_D, and every moment falls."""
    top, forces, shears, moments = by_the_text(worked)
    assert top > worked.F_t and worked.shears[0] == shears[0] == worked.V_D
    assert all(now < before for now, before in zip(worked.shears[1:], shears[1:])) and worked.forces[-1] < forces[-1]
    assert all(now > before for now, before in zip(worked.forces[:-1], forces[:-1]))
    assert all(now < before for now, before in zip(worked.moments, moments))


def text_step(worked, top):
    """F_t by the short text."""
    seconds = Fraction(worked.T, 1000)
    exact = RISING * seconds * worked.V_D
    return f'before: F_t = 0.07 · {decimal(seconds)} · {comma(worked.V_D)} = {decimal(exact)}, up: {comma(top)} N'


def low(worked):
    """The low frame: by hand, and beside the short text."""
    check_moves(worked)
    assert worked.F_t == 0 and worked.T <= NONE_UP_TO
    top, forces, _, moments = by_the_text(worked)
    then = calls.base_figures(worked.ground, worked.frame, worked.W, worked.heights[-1], 10**6)
    return {'low_T': comma(worked.T), 'low_V_D': comma(worked.V_D), 'low_V_D_then': comma(then.V_D), 'low_count': str(len(worked.heights)),
            'low_h': decimal(Fraction(worked.heights[-1], 10)),
            'low_steps': code([text_step(worked, top), f'now:    T = {comma(worked.T)} ms is not above {NONE_UP_TO} ms: F_t = 0 N']),
            'low_table': both_rules(worked, reversed(range(len(worked.heights)))),
            'low_roof_less': comma(forces[-1] - worked.forces[-1]),
            'low_roof_percent': percent(1 - Fraction(worked.forces[-1], forces[-1])),
            'low_moment_percent': percent(1 - Fraction(worked.moments[0], moments[0]))}


def tall(worked):
    """The tall frame, whose T is beyond the quarter."""
    check_moves(worked)
    top, forces, _, moments = by_the_text(worked)
    T_s, quarter = Fraction(worked.T, 1000), Fraction(worked.V_D, 4)
    assert worked.T >= QUARTER_FROM and worked.F_t == ceil(quarter)
    last = len(worked.heights) - 1
    return {'tall_T': comma(worked.T), 'tall_V_D': comma(worked.V_D), 'tall_count': str(last + 1),
            'tall_h': decimal(Fraction(worked.heights[-1], 10)),
            'tall_steps': code([text_step(worked, top),
                                f'now:    0.07 · {decimal(T_s)} = {decimal(RISING * T_s)} is above 0.25: '
                                f'F_t = {comma(worked.V_D)} / 4 = {decimal(quarter)}, up: {comma(worked.F_t)} N']),
            'tall_table': both_rules(worked, (last, last // 2, 0)),
            'tall_roof_percent': percent(1 - Fraction(worked.forces[-1], forces[-1])),
            'tall_moment_percent': percent(1 - Fraction(worked.moments[0], moments[0]))}


def rise(worked):
    """By how much of itself the force at a level below the roof rises at most."""
    _, forces, _, _ = by_the_text(worked)
    return percent(max(Fraction(now, before) - 1 for now, before in zip(worked.forces[:-1], forces[:-1])))


def heights():
    """Heights of frames without a calculated period that have no roof force, by kind; and from which on a quarter can count, with one and without."""
    rows, cut, alone = [], [], []
    for kind in limits.KIND:
        periods = {h: response.approximate_period(kind, h) for h in limits.HEIGHT}
        rows.append((str(kind), decimal(Fraction(max(h for h, t in periods.items() if t <= NONE_UP_TO), 10))))
        alone += [h for h, t in periods.items() if t >= QUARTER_FROM]
        cut += [h for h, t in periods.items() if response.period(t, LONGEST) >= QUARTER_FROM]
    return {'heights': table(('kind of frame', 'height, m'), rows), 'tall_from': decimal(Fraction(min(cut), 10)),
            'tall_alone': decimal(Fraction(min(alone), 10))}


def with_period(worked, T):
    """The same job with another calculated period."""
    other = job(worked.ground, worked.frame._replace(calculated_period=T), worked.weights, worked.heights)
    assert other.T == T
    return other


def step(office, site):
    """What a millisecond does at 700 ms, and a frame whose approximate period is cut to it."""
    both = [with_period(office, T) for T in (NONE_UP_TO, NONE_UP_TO + 1)]
    rows = [('V_D, N', *(comma(each.V_D) for each in both)), ('F_t, N', *(comma(each.F_t) for each in both))]
    rows += [(f'shear of storey {place + 1}, N', *(comma(each.shears[place]) for each in both)) for place in reversed(range(len(office.heights)))]
    rows += [('overturning at the base, N·dm', *(comma(each.moments[0]) for each in both))]
    assert both[0].V_D > both[1].V_D and both[0].shears[-1] < both[1].shears[-1]
    cut = job(site, *CUT_TO_700)
    longer, (frame, weights, tops) = with_period(cut, NONE_UP_TO + 1), CUT_TO_700
    power = Fraction(response.PERIOD_C[frame.kind]**4 * tops[-1]**3, 1000)
    unrounded = next(t for t in range(7_000_000, 7_010_001) if Fraction(t + 1, 10_000)**4 > power)
    assert cut.T == NONE_UP_TO and cut.F_t == 0 and unrounded > 7_000_000
    return {'step_percent': decimal(100 * RISING * Fraction(NONE_UP_TO + 1, 1000)), 'step_next': comma(NONE_UP_TO + 1),
            'step_table': table(('', *(f'T = {each.T} ms' for each in both)), rows), 'step_t': decimal(Fraction(unrounded, 10_000), 2),
            'cut_sheet': code(sheet.write(site, frame, weights, tops).decode().splitlines()),
            'cut_V_D': comma(cut.V_D), 'cut_shear': comma(cut.shears[-1]), 'longer_V_D': comma(longer.V_D), 'longer_F_t': comma(longer.F_t),
            'longer_shear': comma(longer.shears[-1])}


def names(office_data, low_data, tall_data):
    """What the page may name."""
    office, low_frame, tall_frame = map(read, (office_data, low_data, tall_data))
    return {'rule_table': rule_table(), 'begins': begins(), **low(low_frame), **tall(tall_frame), **step(office, low_frame.ground), **heights(),
            'none_up_to': comma(NONE_UP_TO), 'rising_to': comma(QUARTER_FROM - 1), 'quarter_from': comma(QUARTER_FROM),
            'finer_since': finer.SINCE, 'low_rise': rise(low_frame), 'tall_rise': rise(tall_frame),
            'low_sheet': code(low_data.decode().splitlines())}
