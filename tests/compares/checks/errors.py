"""The five of "Errors that look right", and four that look right in the Basin, each on figures where it shows."""

from fractions import Fraction

from tests.model import basin, exact, limits, response, shears, site, storeys
from tests.model.job import job

SITE = limits.one_pair(80, 45, 100, 55, 100, 100, 1)
HEAVY = ([20_000] * 50, list(range(1951, 2001)))
MODIFIED = {
    0: 0, 1: 1, 2_999_999: 2_999_999, 3_000_000: 3_000_000, 3_000_003: 3_000_002, 3_500_000: 3_260_000,
    4_000_000: 3_520_000, 4_000_001: 3_520_001, 7_999_999: 5_600_000, 8_000_002: 5_600_002, 8_500_000: 5_950_000,
    9_000_000: 6_300_000, 9_000_001: 6_300_001,
}
P_OF_STAR = {
    (3_000_000, 10_000_000): 3_000_000, (3_000_001, 10_000_000): 3_000_001, (7_000_000, 20_000_000): 6_520_000,
    (8_000_000, 20_000_000): 7_040_000, (8_000_000, 10_000_000): 5_600_000, (8_500_000, 10_000_000): 5_950_000,
    (8_500_001, 10_000_000): 5_950_001, (9_000_001, 10_000_000): 6_300_001,
    (4_500_001, 15_000_003): 4_500_001, (4_500_004, 15_000_003): 4_500_003,
}


def lower_factor_in_star():
    """Error: "The lower factor used in V*: too small between the thresholds"; the exact p is 7745571.08..."""
    def figures():
        """Both factors of V*, p and V*, demand 3 held."""
        result = job(SITE, limits.Frame(2, 200, 490, 150, 100), *HEAVY)
        exact.check(result)
        return result.star.lower_factor, result.star.upper_factor, result.p, result.V_star
    yield 'upper factor in V*', figures, (24899799, 24899800, 7745572, 276627572)


def near_fault_in_star():
    """Error: "Near-fault factors left in V*"; it has the mapped values' own A, B, T0, Sa and F."""
    frame = limits.Frame(2, 700, 480, 125, 130)
    far = job(SITE._replace(cls=3), frame, *HEAVY)
    for NA, NV in ((150, 200), (101, 100), (100, 101), (133, 177)):
        def figures(near=SITE._replace(cls=3, NA=NA, NV=NV, NAM=NA, NVM=NV)):
            """All that leads to V* at this near-fault site."""
            result = job(near, frame, *HEAVY)
            return result.star, result.p, result.V_star
        yield f'V* with N_A {NA}, N_V {NV}', figures, (far.star, far.p, far.V_star)
    near = limits.one_pair(50, 30, 70, 40, 130, 120, 3)
    yield 'A and B, design', lambda: site.design(near), (11500 * 6500, 16800 * 3600)
    yield 'A and B, MCE', lambda: site.mce(near), (10000 * 9100, 14400 * 4800)
    yield 'A and B, V*', lambda: site.star(near), (12000 * 5000, 18000 * 3000)


def rounded_corner():
    """Error: "T0 rounded to a millisecond before branches are chosen"; here T0 is 3000/7 ms."""
    A, B = 70_000_000, 30_000_000
    for T, wanted in {85: 6965000, 86: 7000000, 428: 7000000, 429: 6993007, 1071: 2801121, 1072: 2800000}.items():
        yield f'spectrum at {T}, T0 428.57', lambda T=T: response.spectrum(A, B, T), wanted
    capacity, square = response.design_capacity(600)
    lower = {257: 27688746, 258: 27766968, 428: 43281184, 429: 43333333}
    for T, wanted in lower.items():
        yield (f'lower factor at {T}, T0 428.57',
               lambda T=T: response.lower_factor(capacity, square, Fraction(3000, 7), T), wanted)


def thresholds():
    """Error: "Thresholds 0.4 and 0.9, which are the draft's"."""
    for q, wanted in MODIFIED.items():
        yield f'modified ratio of {q}', lambda q=q: response.modified_ratio(q), wanted
    for (Sa, F), wanted in P_OF_STAR.items():
        yield f'p of {Sa} and {F}', lambda Sa=Sa, F=F: response.p_of_star(Sa, F), wanted


def forces_alone():
    """Error: "Each storey force rounded alone: the sum misses V_D"."""
    weights, heights = [1] * 7, [1, 2, 3, 4, 5, 6, 7]
    under = [1000, 967, 901, 801, 668, 502, 303]
    yield 'F_t', lambda: storeys.F_t(1000, 1000), 70
    yield 'storey shears', lambda: storeys.shears(1000, 70, weights, heights), under
    yield 'forces', lambda: storeys.forces(under), [33, 66, 100, 133, 166, 199, 303]
    yield 'sum of forces', lambda: sum(storeys.forces(under)), 1000
    yield 'overturning of forces', lambda: storeys.overturning([1, 10, 100], [2, 5, 11]), [1152, 930, 600]


def divisors():
    """The divisor 14000 in its unit, in N from kN; 01's 1400 in millionths."""
    frame = limits.Frame(1, 0, 100, 100, 140)
    yield 'V', lambda: shears.V(frame, 2_800_001, 7), 1001
    yield 'V*', lambda: shears.V_star(frame, 2_800_001, 21), 1001
    yield 'V* in the Basin', lambda: shears.V_star(frame, 2_800_001, 35, divided_by=basin.V_STAR), 2001
    yield 'V in 10^-6', lambda: shears.V(frame, 280_001, 7, 10**6), 1001
    yield 'V* in 10^-6', lambda: shears.V_star(frame, 280_001, 21, 10**6), 1001


def basin_errors():
    """In the Basin: 1.5 kept in R_a, 4.2 kept in V*, the corner of another zone for MCE, 18 judged after 8."""
    frame, levels = limits.Frame(2, 1000, 480, 100, 150), ([5000, 5000, 5000], [100, 200, 300])

    def figures(zone, *names):
        """Of the worked frame and levels in a zone."""
        result = job(limits.Basin(zone), frame, *levels)
        return tuple(getattr(result, name) for name in names)
    yield '(R-1)/2.0, not 1.5, which gives 1030998', lambda: figures(4, 'V'), (1256158,)
    yield '3.5, not 4.2, which gives 1214286', lambda: figures(4, 'V_star', 'V_D'), (1457143, 1457143)
    yield 'T0^M of its own zone; that of zone 1 gives 1873973', lambda: figures(4, 'V_M'), (1011905,)
    yield '18 before 8', lambda: limits.judge(limits.Basin(5), frame._replace(R=99), *levels), (18, 0)
    yield '4 before 18', lambda: limits.judge(limits.Basin(5), frame, levels[0], [100, 200, 200]), (4, 3)


def checks():
    """All errors that look right."""
    yield from lower_factor_in_star()
    yield from near_fault_in_star()
    yield from rounded_corner()
    yield from thresholds()
    yield from forces_alone()
    yield from divisors()
    yield from basin_errors()
