"""Two pairs of near-fault factors: figures worked by hand with each level's own pair, what a pair moves and what it leaves, places, sheets.

The worked sheet near a fault, N_A 1.20 and N_V 1.50 for one level, 1.10 and 1.30 for the other, on hard ground at T = 1000 ms. With the
first for design S_S = 80*120 = 9600 and S_1 = 45*150 = 6750, Sa = 0.675 g; with the second for MCE S_S = 100*110 and S_1 = 55*130,
Sa = 0.715 g.
"""

from fractions import Fraction

from tests.compares.checks.sheets import LISTING, cut_and_spoilt, padded
from tests.draws.sample import accepted_jobs
from tests.model import exact, limits, sheet, site as sites
from tests.model.job import job

SEED, COUNT = 30, 60
FRAME = limits.Frame(2, 1000, 480, 100, 150)
LEVELS = ([5000, 5000, 5000], [100, 200, 300])
FAR = limits.Site(80, 45, 100, 55, 100, 100, 100, 100, 1)
NEAR, TURNED = FAR._replace(NA=120, NV=150, NAM=110, NVM=130), FAR._replace(NA=110, NV=130, NAM=120, NVM=150)
NAMES = ('q', 'm', 'q_M', 'm_M', 'p', 'V', 'V_M', 'V_star', 'V_D', 'F_t', 'shears', 'forces', 'moments')
WORKED = {
    NEAR: (1910378, 1910378, 1489584, 1489584, 4500000, 1364556, 1063989, 1071429, 1364556, 95519, [1364556, 1153050, 730038],
           [211506, 423012, 730038], [324764400, 188308800, 73003800]),
    TURNED: (1655661, 1655661, 1718750, 1718750, 4500000, 1182615, 1227679, 1071429, 1227679, 85938, [1227679, 1037389, 656809],
             [190290, 380580, 656809], [292187700, 169419800, 65680900]),
}
# A and B of V, V_M and V*: F_a*S_S and F_v*S_1
A_AND_B = {
    NEAR: ((10000 * 9600, 10000 * 6750), (10000 * 11000, 10000 * 7150), (10000 * 8000, 10000 * 4500)),
    TURNED: ((10000 * 8800, 10000 * 5850), (10000 * 12000, 10000 * 8250), (10000 * 8000, 10000 * 4500)),
    (50, 30, 70, 40, 130, 120, 110, 105, 3): ((11500 * 6500, 16800 * 3600), (10300 * 7700, 15600 * 4200), (12000 * 5000, 18000 * 3000)),
    (50, 30, 70, 40, 110, 105, 130, 120, 3): ((12000 * 5500, 17700 * 3150), (10000 * 9100, 14400 * 4800), (12000 * 5000, 18000 * 3000)),
    (60, 40, 90, 50, 108, 112, 100, 100, 2): ((10520 * 6480, 12040 * 4480), (10000 * 9000, 11000 * 5000), (11000 * 6000, 13000 * 4000)),
    (60, 40, 70, 40, 100, 100, 101, 113, 2): ((11000 * 6000, 13000 * 4000), (10000 * 7070, 11960 * 4520), (11000 * 6000, 13000 * 4000)),
}
# on 2,963 kN at 30 dm the larger pair for both levels lowers V_D
LOW = limits.Frame(4, 0, 100, 100, 150), [2_963], [30]
LOW_V_D = {FAR._replace(NV=120): 987667, FAR._replace(NV=120, NVM=120): 902369}
PAIRS = ((100, 101), (101, 100), (150, 100), (100, 200), (133, 177), (150, 200))
# factors that are wrong, and where 6 is given
PLACES = {
    ('NAM',): 3, ('NVM',): 4, ('NA', 'NAM'): 1, ('NA', 'NVM'): 1, ('NV', 'NAM'): 2, ('NV', 'NVM'): 2, ('NAM', 'NVM'): 3, ('NA', 'NV'): 1,
    ('NV', 'NAM', 'NVM'): 2, ('NA', 'NAM', 'NVM'): 1, ('NA', 'NV', 'NAM', 'NVM'): 1,
}
SEVEN, NINE = b'site\t80\t45\t100\t55\t%d\t%d\t1\n', b'site\t80\t45\t100\t55\t%d\t%d\t%d\t%d\t1\n'
REST = b'frame\t2\t1000\t480\t100\t150\nlevel\t5000\t100\nlevel\t5000\t200\nlevel\t5000\t300\n'
NEAR_SHEET = NINE % (120, 150, 110, 130) + REST
NEAR_LISTING = (b'base\t1364556\t1063989\t1071429\t1364556\t1000\nlevel\t3\t730038\t730038\t73003800\n'
                b'level\t2\t423012\t1153050\t188308800\nlevel\t1\t211506\t1364556\t324764400\n')
LINES_1 = {
    SEVEN % (99, 100): (6, 1), SEVEN % (100, 99): (6, 2), SEVEN % (151, 201): (6, 1), SEVEN % (160, 160): (6, 1),
    NINE % (99, 100, 100, 100): (6, 1), NINE % (100, 99, 100, 100): (6, 2), NINE % (100, 100, 99, 100): (6, 3),
    NINE % (100, 100, 100, 99): (6, 4), NINE % (100, 100, 160, 160): (6, 3), NINE % (150, 200, 151, 201): (6, 3),
    NINE % (150, 200, 150, 201): (6, 4), NINE.replace(b'\t100', b'\t60') % (100, 100, 99, 99): (5, 3),
    NINE.replace(b'\t1\n', b'\t4\n') % (100, 100, 100, 99): (6, 4), NINE.replace(b'\t1\n', b'\t4\n') % (100, 100, 100, 100): (7, 0),
    (SEVEN % (100, 100))[:-1] + b'\t1\n': (16, 1), (SEVEN % (100, 100))[:-1] + b'\t3\n': (16, 1),
    (SEVEN % (99, 99))[:-1] + b'\t100\n': (16, 1),
    (NINE % (100, 100, 100, 100))[:-1] + b'\t1\n': (16, 1), (NINE % (100, 100, 99, 99))[:-1] + b'\t1\n': (16, 1),
    (NINE % (100, 100, 100, 100))[:-3] + b'\n': (16, 1), (NINE % (100, 100, 100, 100))[:-1] + b'\t\n': (16, 1),
    NINE.replace(b'site', b'basin') % (100, 100, 100, 100): (16, 1), b'site' + b'\t100' * 6 + b'\n': (16, 1),
    b'site' + b'\t100' * 11 + b'\n': (16, 1),
    b'site\t80\t45\t100\t55\t100\t100\t0100\t100\t1\n': (16, 1), b'site\t80\t45\t100\t55\t100\t100\t100\t1000000100\t1\n': (16, 1),
}


def figures():
    """The worked jobs, and A and B by each level's own pair."""
    for site, wanted_figures in WORKED.items():
        for name, wanted in zip(NAMES, wanted_figures):
            yield f'{name} of {tuple(site)}', lambda s=site, n=name: getattr(job(s, FRAME, *LEVELS), n), wanted
    for site, wanted in LOW_V_D.items():
        yield f'V_D of {tuple(site)} and a low frame', lambda s=site: job(s, *LOW).V_D, wanted
    for site, wanted in A_AND_B.items():
        of_site = limits.Site(*site)
        yield f'A and B of {tuple(site)}', lambda s=of_site: (sites.design(s), sites.mce(s), sites.star(s)), wanted


def moved(site, other):
    """Which of V, V_M and V* two sites do not share, with all that leads to them."""
    one, two = (job(each, FRAME, *LEVELS) for each in (site, other))
    parts = {'V': ('design', 'q', 'm', 'V'), 'V_M': ('mce', 'q_M', 'm_M', 'V_M'), 'V*': ('star', 'p', 'V_star')}
    return [shear for shear, names in parts.items() if any(getattr(one, name) != getattr(two, name) for name in names)]


def own_pair():
    """The design pair moves V alone, the MCE pair V_M alone, on every class."""
    for cls in limits.CLASS:
        far = FAR._replace(cls=cls)
        for NA, NV in PAIRS:
            yield f'design pair {NA}, {NV}, class {cls}', lambda f=far, a=NA, v=NV: moved(f, f._replace(NA=a, NV=v)), ['V']
            yield f'MCE pair {NA}, {NV}, class {cls}', lambda f=far, a=NA, v=NV: moved(f, f._replace(NAM=a, NVM=v)), ['V_M']


def exact_figures():
    """At T = 500 ms and the roots 2, 3 and 2: T0 is 703.125, 650 and 562.5 ms, so x is 5/18, 11/26 and 13/18."""
    F, F_M = 2 + Fraction(23, 15) * Fraction(5, 18), 3 + Fraction(18, 10) * Fraction(11, 26)
    wanted = (Fraction(52, 100) * Fraction(96, 100) / F + Fraction(144, 1000), Fraction(110, 100) / F_M, Fraction(8, 10) / 3)

    def chain():
        """V, V_M, V* over I*W/(1.4*alpha-y)."""
        result = job(NEAR, FRAME._replace(calculated_period=500), *LEVELS)
        exact.check(result)
        return tuple(shear / exact.shear_unit(result) for shear in exact.chain(result, (Fraction(2), Fraction(3), Fraction(2)))[:3])
    yield 'exact figures with two pairs', chain, wanted


def places():
    """6 at its lowest place; on seven numbers a bad pair is at 1 or 2."""
    for wrong, place in PLACES.items():
        for value in (0, 99, 201):
            site = NEAR._replace(**dict.fromkeys(wrong, value))
            yield f'{wrong} {value}', lambda s=site: limits.judge(s, FRAME, *LEVELS), (6, place)
    for pair, wanted in (((99, 100), (6, 1)), ((100, 99), (6, 2)), ((151, 201), (6, 1)), ((150, 200), None)):
        yield f'seven numbers, {pair}', lambda p=pair: limits.judge((80, 45, 100, 55, *p, 1), FRAME, *LEVELS), wanted


def same_twice():
    """One pair for both is that pair twice: the listing of seven numbers and of nine."""
    yield 'the worked sheet by seven', lambda: sheet.shear(SEVEN % (100, 100) + REST), LISTING
    yield 'the worked sheet by nine', lambda: sheet.shear(NINE % (100, 100, 100, 100) + REST), LISTING
    yield 'seven numbers', lambda: limits.one_pair(80, 45, 100, 55, 120, 150, 1), FAR._replace(NA=120, NV=150, NAM=120, NVM=150)
    for name, *inputs in accepted_jobs(SEED, COUNT):
        yield f'by nine: {name}', lambda i=inputs: sheet.shear(sheet.write(*i, in_full=True)), sheet.shear(sheet.write(*inputs))
    full = padded(sheet.MOST_BYTES)
    yield '4,096 bytes by seven', lambda: sheet.shear(full), sheet.refused(1, 0)
    yield '4,096 bytes by seven, by nine', lambda: sheet.shear(full.replace(SEVEN % (100, 100), NINE % (100, 100, 100, 100))), sheet.refused(17, 0)
    yield 'written by seven', lambda: sheet.write(FAR, FRAME, *LEVELS), SEVEN % (100, 100) + REST
    yield 'written by nine', lambda: sheet.write(FAR, FRAME, *LEVELS, in_full=True), NINE % (100, 100, 100, 100) + REST
    yield 'written with two pairs', lambda: sheet.write(NEAR, FRAME, *LEVELS), NEAR_SHEET


def sheets():
    """The listing with two pairs, line 1 otherwise or out of range, every byte cut off or changed."""
    yield 'the listing with two pairs', lambda: sheet.shear(NEAR_SHEET), NEAR_LISTING
    for line, wanted in LINES_1.items():
        yield f'{line!r}', lambda data=line + REST: sheet.shear(data), sheet.refused(*wanted)
    yield from cut_and_spoilt(NEAR_SHEET)


def checks():
    """All checks of two pairs."""
    for part in (figures, own_pair, exact_figures, places, same_twice, sheets):
        yield from part()
