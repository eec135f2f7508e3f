"""The figures of "Figures to hold it to" in ten-millionths, "worked out afresh", and the figures on the way to the listing."""

from tests.model import exact, limits, response, site, soil
from tests.model.job import job

SITE = limits.one_pair(80, 45, 100, 55, 100, 100, 1)
FRAME = limits.Frame(2, 1000, 480, 100, 150)
WEIGHTS, HEIGHTS = [5000, 5000, 5000], [100, 200, 300]
HARD_80_45 = (80_000_000, 45_000_000)

SPECTRUM = {112: 7978667, 113: 8000000, 563: 7992896, 1406: 3200569, 1407: 3200000}
RATIO = {2999999: 2999999, 3000000: 3000000, 3000001: 3000001, 7999999: 5600000, 8000000: 5600000, 8000001: 5600001}
PERIOD = {(2, 300): 897, (3, 300): 897, (4, 1): 8, (1, 2000): 4520}
VELOCITY = {(2, 25): 2924, (3, 50): 2947}
TABLE_2 = {
    ('F_a', 1): (100, 100, 100, 100, 100), ('F_v', 1): (100, 100, 100, 100, 100),
    ('F_a', 2): (110, 110, 100, 100, 100), ('F_v', 2): (150, 140, 130, 120, 110),
    ('F_a', 3): (120, 120, 110, 100, 100), ('F_v', 3): (180, 170, 160, 150, 140),
}
ON_THE_WAY = {
    'W': 15000, 't': 897, 'T': 1000, 'q': 1273585, 'm': 1273585, 'q_M': 1145834, 'm_M': 1145834, 'p': 4500000,
    'V': 909704, 'V_M': 818453, 'V_star': 1071429, 'V_D': 1071429, 'F_t': 75001,
    'forces': [166071, 332143, 573215], 'shears': [1071429, 905358, 573215],
    'moments': [255000200, 147857300, 57321500],
}
LOWER_UPPER_FACTORS = {
    1: (10130049, 10130050), 112: (24565579, 24565581), 113: (24630604, 24630605), 337: (24630604, 24630605),
    338: (24654387, 24654389), 562: (35309549, 35309550), 563: (35333333, 35333334), 1407: (35333333, 35333334),
}
STOREY_EXCESS_ABOVE_2 = (limits.one_pair(80, 30, 100, 50, 147, 165, 3), limits.Frame(1, 3568, 446, 150, 192), [12, 1], [1948, 2000])


def stated():
    """Every figure of the section, the listing apart; every cell of Table 2."""
    yield 'A and B, hard 80/45', lambda: site.design(SITE), HARD_80_45
    for T, wanted in SPECTRUM.items():
        yield f'spectrum at {T}', lambda T=T: response.spectrum(*HARD_80_45, T), wanted
    for q, wanted in RATIO.items():
        yield f'ratio {q}', lambda q=q: response.modified_ratio(q), wanted
    roots = ((480, response.design_capacity, 24630604), (480, response.mce_capacity, 29325756),
             (100, response.design_capacity, 10000000), (100, response.mce_capacity, 10000000))
    for R, capacity, wanted in roots:
        yield f'lower root, R {R}', lambda R=R, capacity=capacity: response.lower_root(capacity(R)[1]), wanted
    for (kind, h), wanted in PERIOD.items():
        yield f'period, kind {kind}, {h} dm', lambda k=kind, h=h: response.approximate_period(k, h), wanted
    for (kind, N), wanted in VELOCITY.items():
        yield f'velocity, kind {kind}, N {N}', lambda k=kind, N=N: soil.velocity(k, N), wanted
    for (name, cls), row in TABLE_2.items():
        S = (1, *range(5000, 9001, 1000), 15000) if name == 'F_a' else (1, *range(3000, 5001, 500), 11000)
        wanted = [100 * cell for cell in (row[0], *row, row[-1])]
        yield f'{name}, class {cls}', lambda F=getattr(site, name), c=cls, S=S: [F(c, each) for each in S], wanted
    yield 'normal F_a at 6500', lambda: site.F_a(2, 6500), 10500
    yield 'soft F_v at 3200', lambda: site.F_v(3, 3200), 17600


def worked():
    """Figures worked by hand: upper roots, factors at the corners, the listing's own way."""
    yield 'upper root, R 480', lambda: response.upper_root(response.design_capacity(480)[1]), 24630605
    yield 'upper root, R 480, MCE', lambda: response.upper_root(response.mce_capacity(480)[1]), 29325757
    yield 'upper root, R 100', lambda: response.upper_root(response.design_capacity(100)[1]), 10000000
    yield 'T0, hard 80/45', lambda: 2 * response.corner(*HARD_80_45), 1125
    for T, wanted in LOWER_UPPER_FACTORS.items():
        def factors(T=T):
            """Lower and upper factor at T."""
            arguments = (*response.design_capacity(480), response.corner(*HARD_80_45), T)
            return response.lower_factor(*arguments), response.upper_factor(*arguments)
        yield f'factors at {T}', factors, wanted
    for name, wanted in ON_THE_WAY.items():
        yield f'{name} of the listing', lambda n=name: getattr(job(SITE, FRAME, WEIGHTS, HEIGHTS), n), wanted
    for calculated, wanted in {0: 897, 1: 1, 1255: 1255, 1256: 1255, 60000: 1255}.items():
        yield f'T, calculated {calculated}', lambda c=calculated: response.period(897, c), wanted


def storey_margin():
    """A roof storey shear of 321 N over an exact 318.7762 N: more than 2 N, within the margin."""
    def figures():
        """Printed in N, exact in 0.0001 N rounded down."""
        result = job(*STOREY_EXCESS_ABOVE_2)
        exact.check(result)
        return result.shears[-1], int(exact.bounds(result)[0].storeys[-1] * 10_000)
    yield 'roof storey above its exact figure by over 2 N', figures, (321, 3187762)


def checks():
    """All figures."""
    yield from stated()
    yield from worked()
    yield from storey_margin()
