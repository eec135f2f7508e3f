"""The soil log: velocities, classes at their limits, refusals 2, 13, 14 and 15 in order."""

from decimal import Decimal, localcontext

from tests.model import soil

CLASSES = {2701: 1, 2700: 2, 1800: 2, 1799: 3, 30_000: 1, 500: 3}
VELOCITIES = {
    (1, 500): 500, (2, 2): 1259, (2, 8): 2000, (2, 24): 2884, (3, 1): 800, (3, 8): 1600, (3, 49): 2927, (4, 1): 228, (4, 25): 728,
    (4, 100): 1200, (4, 400): 1976,
}
GOOD_VALUES = ((1, 500), (1, 30_000), (2, 2), (2, 25), (3, 1), (3, 50), (4, 1), (4, 400))
BAD_VALUES = ((1, 499), (1, 30_001), (2, 0), (2, 1), (2, 26), (3, 0), (3, 51), (0, 500), (4, 0), (4, 401), (4, 500), (5, 2), (5, 500))
REFUSALS = (
    ([], [], [], (13, 0)), ([], [1], [500], (2, 0)), ([3000], [1], [], (2, 0)), ([3000], [], [500], (2, 0)),
    ([1] * 41, [1] * 41, [500] * 40, (2, 0)), ([0] * 41, [1] * 41, [500] * 41, (13, 0)),
    ([1] * 40 + [2960], [1] * 41, [500] * 41, (13, 0)), ([1] * 39 + [2961], [1] * 40, [500] * 40, None),
    ([2999], [1], [500], (14, 0)), ([3001], [1], [500], (14, 0)), ([3000], [1], [500], None),
    ([1500, 0, 1500], [1] * 3, [500] * 3, (14, 2)), ([0, 1500, 0, 9], [9] * 4, [0] * 4, (14, 1)),
    ([1500, 1501], [9, 1], [500, 500], (14, 0)), ([2**32, 2**32 + 3000], [1, 1], [500, 500], (14, 0)),
    ([1500, 1500], [1, 9], [500, 500], (15, 2)), ([1500, 1500], [2, 9], [1, 500], (15, 1)),
)


def three_layers():
    """Sums of "times each rounded up" and "each rounded down": 37037037.04 ns twice, 62500000 ns once."""
    log = soil.log([1000, 1000, 1000], [1, 1, 3], [2700, 2700, 8])
    return log.velocities, log.U, log.L, log.cls


def by_decimals():
    """120*q^0.36 m/s of every q of 0.01 to 4 kgf/cm^2, worked out with 60 digits, and cut to whole dm/s."""
    with localcontext() as context:
        context.prec = 60
        return [int(10 * 120 * (Decimal(q) / 100) ** Decimal('0.36') + Decimal('1e-40')) for q in soil.VALUE[soil.SOFT_CLAY]]


def checks():
    """All checks of the soil log."""
    for v, wanted in CLASSES.items():
        yield f'class at {v} dm/s', lambda v=v: soil.log([3000], [1], [v]).cls, wanted
    for (kind, value), wanted in VELOCITIES.items():
        yield f'velocity, kind {kind}, value {value}', lambda k=kind, x=value: soil.velocity(k, x), wanted
    yield 'soft clay, every q', by_decimals, [soil.velocity(soil.SOFT_CLAY, q) for q in soil.VALUE[soil.SOFT_CLAY]]
    logs = [([1, 2999], [1, kind], [500, value], None) for kind, value in GOOD_VALUES]
    logs += [([1, 2999], [1, kind], [500, value], (15, 2)) for kind, value in BAD_VALUES]
    for *log, wanted in (*logs, *REFUSALS):
        yield f'log {log}', lambda log=log: soil.judge(*log), wanted
    yield 'U and L of three layers', three_layers, ([2700, 2700, 1600], 136574076, 136574074, 2)
