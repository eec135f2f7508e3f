"""Pairs of calls of different T, whose figures move either way, as the page on which way the figures move shows them."""

from tests.model import calls, limits
from tests.writes.by_hand.text import hundredths, table
from tests.writes.changed_sheet import arrow, metres

TALLER, HEAVY, STIFFER = 350, 16_000, 900                   # dm, kN, ms
RISING, RISING_HEIGHTS = (limits.Basin(1), limits.Frame(4, 0, 100, 100, 150)), (100, 150)      # where V_D grows with T


def period_pairs(worked):
    """Two calls each with another T: what is changed, and both; which way V and V_D move."""
    frame, W, h, ground = worked.frame, worked.W, worked.heights[-1], worked.ground
    plain = frame._replace(calculated_period=0)
    yield f'taller: {metres(h)} → {metres(TALLER)} m', (ground, plain, W, h), (ground, plain, W, TALLER), 'lower'
    yield (f'taller and heavier: {metres(h)} → {metres(TALLER)} m, {arrow(W, HEAVY)} kN', (ground, plain, W, h), (ground, plain, HEAVY, TALLER),
           'lower')
    yield (f'less tall, with a larger R: {metres(TALLER)} → {metres(h)} m, R = {hundredths(frame.R)} → {hundredths(frame.R + 1)}',
           (ground, plain, W, TALLER), (ground, plain._replace(R=frame.R + 1), W, h), 'higher')
    yield (f'stiffer: a calculated period of {arrow(frame.calculated_period, STIFFER)} ms', (ground, frame, W, h),
           (ground, frame._replace(calculated_period=STIFFER), W, h), 'higher')
    low, high = RISING_HEIGHTS
    yield f'zone {RISING[0].zone}, taller: {metres(low)} → {metres(high)} m', (*RISING, W, low), (*RISING, W, high), 'higher'


def period_table(worked):
    """Pairs of calls of different T: V and V_D move either way."""
    rows = []
    for name, one, other, side in period_pairs(worked):
        before, after = calls.shear_call(*one), calls.shear_call(*other)
        assert before.T != after.T and side == ('higher' if after.V_D > before.V_D else 'lower')
        assert (after.V > before.V) == (side == 'higher') and (before.V_D != after.V_D)
        rows.append((name, arrow(before.T, after.T), arrow(before.V, after.V), arrow(before.V_D, after.V_D), side))
    return table(('changed', 'T, ms', 'V, N', 'V_D, N', 'V_D becomes'), rows)
