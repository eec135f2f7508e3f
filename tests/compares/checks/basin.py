"""The Basin: figures worked by hand from (10), (11), (15), (16), (18), (19) and Table 4, and the four worked jobs."""

from fractions import Fraction

from tests.model import basin, exact, limits, response
from tests.model.calls import HAZARDS
from tests.model.job import job

FRAME = limits.Frame(2, 1000, 480, 100, 150)
WEIGHTS, HEIGHTS = [5000, 5000, 5000], [100, 200, 300]
TALL = ([20_000] * 50, list(range(1951, 2001)))
CORNER = {1: 1600, 2: 1300, 3: 1050, 4: 850}
A_AND_B = {
    1: ((60_000_000, 96_000_000), (80_000_000, 128_000_000)), 2: ((60_000_000, 78_000_000), (80_000_000, 104_000_000)),
    3: ((60_000_000, 63_000_000), (80_000_000, 84_000_000)), 4: ((60_000_000, 51_000_000), (80_000_000, 68_000_000)),
}
# T: design and MCE spectrum, a millisecond to each side of 0.2, 1 and 2.5 T0
SPECTRUM = {
    1: {1: (2411250, 3215000), 319: (5988750, 7985000), 320: (6000000, 8000000), 321: (6000000, 8000000), 1600: (6000000, 8000000),
        1601: (5996253, 7995004), 4000: (2400000, 3200000), 4001: (2400000, 3200000), 6328: (2400000, 3200000)},
    2: {1: (2413847, 3218462), 259: (5986154, 7981539), 260: (6000000, 8000000), 261: (6000000, 8000000), 1300: (6000000, 8000000),
        1301: (5995389, 7993851), 3250: (2400000, 3200000), 3251: (2400000, 3200000)},
    3: {1: (2417143, 3222858), 209: (5982858, 7977143), 210: (6000000, 8000000), 211: (6000000, 8000000), 1050: (6000000, 8000000),
        1051: (5994292, 7992389), 2625: (2400000, 3200000), 2626: (2400000, 3200000)},
    4: {1: (2421177, 3228236), 169: (5978824, 7971765), 170: (6000000, 8000000), 171: (6000000, 8000000), 850: (6000000, 8000000),
        851: (5992950, 7990600), 2125: (2400000, 3200000), 2126: (2400000, 3200000)},
}
# R: R_a, lower and upper root of 2*R_a - 1
CAPACITY = {
    100: (Fraction(1), 10000000, 10000000), 101: (Fraction(201, 200), 10049875, 10049876), 256: (Fraction(89, 50), 16000000, 16000000),
    480: (Fraction(29, 10), 21908902, 21908903), 600: (Fraction(7, 2), 24494897, 24494898),
}
# R = 481, T: lower and upper design factor, lower MCE factor, to each side of 0.2, 0.6 and 1 T0
FACTORS = {
    2: {1: (10045891, 10045892, 10074460), 259: (21885820, 21885822, 29285375), 260: (21931712, 21931713, 29359836),
        780: (21931712, 21931713, 29359836), 781: (21945401, 21945403, 29395874), 1299: (29036310, 29036311, 48063961),
        1300: (29050000, 29050000, 48100000), 3251: (29050000, 29050000, 48100000)},
    4: {1: (10070186, 10070187, 10113881), 169: (21861525, 21861527, 29245954), 170: (21931712, 21931713, 29359836),
        510: (21931712, 21931713, 29359836), 511: (21952648, 21952650, 29414954), 849: (29029063, 29029064, 48044881),
        850: (29050000, 29050000, 48100000), 2126: (29050000, 29050000, 48100000)},
}
NAMES = ('q', 'm', 'q_M', 'm_M', 'p', 'V', 'V_M', 'V_star', 'V_D', 'F_t', 'shears', 'forces', 'moments')
WORKED = {
    1: (2684313, 2684313, 2623562, 2623562, 6000000, 1917367, 1873973, 1714286, 1917367, 134216, [1917367, 1620176, 1025792],
        [297191, 594384, 1025792], [456333500, 264596800, 102579200]),
    2: (2408770, 2408770, 2149013, 2149013, 6000000, 1720550, 1535010, 1714286, 1720550, 120439, [1720550, 1453865, 920495],
        [266685, 533370, 920495], [409491000, 237436000, 92049500]),
    3: (2130999, 2130999, 1747608, 1747608, 6000000, 1522143, 1248292, 1714286, 1714286, 120001, [1714286, 1448572, 917144],
        [265714, 531428, 917144], [408000200, 236571600, 91714400]),
    4: (1758621, 1758621, 1416667, 1416667, 5100000, 1256158, 1011905, 1457143, 1457143, 102001, [1457143, 1231286, 779572],
        [225857, 451714, 779572], [346800100, 201085800, 77957200]),
}
# zone and frame, a million kN at the top: q, m, q_M, m_M, p, V, V_M, V*
HEAVY = {
    (1, 2, 200, 490, 150, 100): (2644305, 2644305, 2781455, 2781455, 4650000, 283318393, 298013036, 199285715),
    (2, 2, 200, 490, 150, 100): (2673463, 2673463, 2743015, 2743015, 5169231, 286442465, 293894465, 221538472),
    (3, 2, 200, 490, 150, 100): (2703666, 2703666, 2705141, 2705141, 5828572, 289678500, 289836536, 249795943),
    (4, 2, 200, 490, 150, 100): (2710524, 2710524, 2696800, 2696800, 6000000, 290413286, 288942858, 257142858),
    (1, 1, 400, 100, 150, 100): (6000000, 4560000, 8000000, 5600000, 4560000, 488571429, 600000000, 195428572),
    (4, 1, 4001, 600, 100, 200): (685715, 685715, 533334, 533334, 2400000, 24489822, 19047643, 34285715),
}


def figures():
    """Table 4, A and B, the spectra, capacity and roots, the factors."""
    for zone, T0 in CORNER.items():
        ground = limits.Basin(zone)
        yield f'A and B, zone {zone}', lambda g=ground: (basin.design(g), basin.mce(g)), A_AND_B[zone]
        yield f'T0, zone {zone}', lambda g=ground: [response.corner(*basin.hazard(name, g, 480)[:2]) for name in HAZARDS], [T0] * 3
        for T, wanted in SPECTRUM[zone].items():
            yield (f'spectra at {T}, zone {zone}',
                   lambda T=T, g=ground: (response.spectrum(*basin.design(g), T), response.spectrum(*basin.mce(g), T)), wanted)
    for R, (capacity, *roots) in CAPACITY.items():
        yield f'capacity, R {R}', lambda R=R: basin.capacity(R)[0], capacity
        yield (f'roots, R {R}',
               lambda R=R: [root(basin.capacity(R)[1]) for root in (response.lower_root, response.upper_root)], roots)


def factors():
    """Both design factors and the lower one of MCE, R = 4.81."""
    for zone, at in FACTORS.items():
        for T, wanted in at.items():
            def all_three(zone=zone, T=T):
                """The factors at T."""
                at_T = Fraction(CORNER[zone]), T
                design, mce = (*basin.capacity(481), *at_T), (*response.mce_capacity(481), *at_T)
                return response.lower_factor(*design), response.upper_factor(*design), response.lower_factor(*mce)
            yield f'factors at {T}, zone {zone}', all_three, wanted


def worked():
    """The worked sheet's frame and levels in each zone: V, V, V* and V* govern; heavy jobs on other branches."""
    for zone, figures_of_it in WORKED.items():
        for name, wanted in zip(NAMES, figures_of_it):
            yield (f'{name}, zone {zone}',
                   lambda z=zone, n=name: getattr(job(limits.Basin(z), FRAME, WEIGHTS, HEIGHTS), n), wanted)
    for (zone, *frame), wanted in HEAVY.items():
        def of_heavy(zone=zone, frame=frame):
            """The figures, demand 3 held."""
            result = job(limits.Basin(zone), frame, *TALL)
            exact.check(result)
            return tuple(getattr(result, name) for name in NAMES[:8])
        yield f'heavy, zone {zone}, frame {frame}', of_heavy, wanted


def exact_figures():
    """The exact figures of zone 3's worked job at the roots 2 and 3: F = 2 + (2.9 - 2)*370/420, F_M = 3 + (4.8 - 3)*370/420."""
    def chain():
        """V, V_M, V* over I*W/(1.4*alpha-y)."""
        result = job(limits.Basin(3), FRAME, WEIGHTS, HEIGHTS)
        shears = exact.chain(result, (Fraction(2), Fraction(3), Fraction(2)))
        return tuple(shear / exact.shear_unit(result) for shear in shears[:3])
    F, F_M = Fraction(2) + Fraction(9, 10) * Fraction(37, 42), Fraction(3) + Fraction(18, 10) * Fraction(37, 42)
    yield 'exact figures, zone 3', chain, (Fraction(6, 10) / F, Fraction(8, 10) / F_M, Fraction(6, 10) * Fraction(14, 35))
    yield 'root^2 of V, V_M and V*', lambda: exact.squares(limits.Basin(1), 481), (Fraction(481, 100), Fraction(431, 50), Fraction(481, 100))


def checks():
    """All checks of the Basin's figures."""
    yield from figures()
    yield from factors()
    yield from worked()
    yield from exact_figures()
