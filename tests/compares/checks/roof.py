"""The roof force by hand: none up to 700 ms, above that the smaller of 0.07*T*V_D and V_D/4, rounded up once.

0.07*0.701 = 0.04907, 0.07*0.702 = 0.04914, 0.07*3.570 = 0.2499, 0.07*3.571 = 0.24997, 0.07*3.572 = 0.25004: a quarter from there on.
"""

from fractions import Fraction

from tests.draws.plain_jobs import draw_basin, draw_pairs, draw_site
from tests.draws.roof import accepted_roof_jobs
from tests.model import exact, limits, storeys
from tests.model.job import job

SEED = 40
# T, V_D: F_t
FORCES = {
    (0, 1_000_001): 0, (1, 1_000_001): 0, (699, 1_000_001): 0, (700, 1_000_001): 0, (701, 1_000_001): 49_071, (702, 1_000_001): 49_141,
    (3_570, 1_000_001): 249_901, (3_571, 1_000_001): 249_971, (3_572, 1_000_001): 250_001, (3_573, 1_000_001): 250_001,
    (6_328, 1_000_001): 250_001, (9_999, 1_000_001): 250_001, (3_572, 1_000_000): 250_000, (3_572, 1_000_002): 250_001,
    (3_572, 1_000_003): 250_001, (3_572, 1_000_004): 250_001, (3_572, 1_000_005): 250_002,
    (3_571, 100_000): 24_997, (3_571, 100_001): 24_998, (700, 1): 0, (701, 1): 1, (3_572, 1): 1, (3_571, 4): 1, (3_572, 4): 1, (3_572, 5): 2,
    (1_000, 1_071_429): 75_001, (500, 2_177_765): 0,
}
PARTS = {
    0: Fraction(0), 699: Fraction(0), 700: Fraction(0), 701: Fraction(4_907, 100_000), 702: Fraction(4_914, 100_000),
    3_570: Fraction(2_499, 10_000), 3_571: Fraction(24_997, 100_000), 3_572: Fraction(1, 4), 3_573: Fraction(1, 4), 6_328: Fraction(1, 4),
}
# examples/soft_ground.sheet, T = 434 ms: V_D = 1,565,997 N and no roof force; P = 680,400 kN*dm
LOW = limits.one_pair(60, 35, 80, 45, 100, 112, 3), limits.Frame(2, 0, 480, 125, 150), [3_200, 3_200, 2_600], [42, 78, 114]
LOW_FIGURES = {'V_D': 1_565_997, 'T': 434, 'F_t': 0, 'shears': [1_565_997, 1_256_665, 682_190], 'forces': [309_332, 574_475, 682_190],
               'moments': [135_570_654, 69_798_780, 24_558_840]}


def checks():
    """Forces, parts, a low frame, and demand 3 at every end of the rule on each kind of ground."""
    for (T, V_D), wanted in FORCES.items():
        yield f'F_t of {V_D} N at {T} ms', lambda T=T, V=V_D: storeys.F_t(T, V), wanted
    for T, wanted in PARTS.items():
        yield f'exact part at {T} ms', lambda T=T: exact.roof_part(T), wanted
    for name, wanted in LOW_FIGURES.items():
        yield f'{name} of a low frame', lambda name=name: getattr(job(*LOW), name), wanted
    for draw_ground in (draw_site, draw_basin, draw_pairs):
        for name, *inputs in accepted_roof_jobs(SEED, draw_ground):
            yield f'demand 3, {name}', lambda inputs=inputs: bool(exact.check(job(*inputs))), True
