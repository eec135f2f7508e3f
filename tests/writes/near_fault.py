"""The page on near-fault sites: a sheet with a pair of factors for each hazard level, worked out by hand; beside it other choices of pairs.

Each pair of the sheet is used for each hazard level in turn, so that what one pair for both overstates or understates is seen. What the
page says in words, which factor counts at which period among it, is asserted here of the model.
"""

from fractions import Fraction
from itertools import product

from tests.compares import header
from tests.model import limits, response, sheet, shears, site as sites
from tests.model.job import job
from tests.writes.by_hand import one_sheet
from tests.writes.by_hand.text import code, comma, decimal, hundredths, table
from tests.writes.by_hand.worked import read

FIELDS = header.fields('RukeshomajiSite')       # in C and in Python, in the model's order
FACTORS = tuple(limits.FACTORS)
# up to which multiple of T0 a stretch goes, and which factors the shear depends on there
STRETCHES = ((Fraction(1, 5), 'both'), (Fraction(3, 5), 'N_A'), (Fraction(1), 'both'), (Fraction(5, 2), 'N_V'), (None, 'N_A'))
PERIODS = (10, 60, 113, 200, 340, 500, 700, 1_000, 1_700, 2_900, 4_520)


def with_pairs(own, design, mce):
    """The same job with other pairs."""
    site = own.ground._replace(NA=design[0], NV=design[1], NAM=mce[0], NVM=mce[1])
    return job(site, own.frame, own.weights, own.heights)


def percent(more, of):
    """A part of a number in percent, to the nearest tenth."""
    tenths = round(Fraction(1000 * more, of))
    return f'{tenths // 10}.{tenths % 10} %'


def off(wrong, right, name):
    """By how much a shear is too large or too small."""
    got, wanted = getattr(wrong, name), getattr(right, name)
    assert got != wanted
    return f'{comma(abs(got - wanted))} N ({percent(abs(got - wanted), wanted)}) too {"large" if got > wanted else "small"}'


def row(words, worked):
    """The pairs of a job and its four shears, the one that governs in bold."""
    site = worked.ground
    pairs = (f'{hundredths(site.NA)}, {hundredths(site.NV)}', f'{hundredths(site.NAM)}, {hundredths(site.NVM)}')
    named = {'V': worked.V, 'V_M': worked.V_M, 'V*': worked.V_star}
    governs = max(named, key=named.get)
    return words, *pairs, *(f'**{comma(each)}**' if name == governs else comma(each) for name, each in named.items()), comma(worked.V_D)


def table_of_pairs(own, larger, smaller, swapped):
    """What each choice of pairs comes to."""
    assert own.V_star == larger.V_star == smaller.V_star == swapped.V_star and own.T == larger.T == smaller.T == swapped.T
    return table(('pairs on the sheet', 'N_A, N_V', 'N_A M, N_V M', 'V, N', 'V_M, N', 'V*, N', 'V_D, N'),
                 (row('two pairs, each for its own hazard level', own), row('the larger pair for both', larger),
                  row('the smaller pair for both', smaller), row('the two pairs swapped by mistake', swapped)))


def stretch(T, T0):
    """In which stretch of T0 a period is: its place in STRETCHES."""
    return next(place for place, (end, _) in enumerate(STRETCHES) if end is None or T <= end * T0)


def ratio_at(mapped, pair, cls, capacity, T):
    """The stretch of T, and q, of one hazard with a pair of factors."""
    hazard = shears.respond(*sites.A_and_B(*mapped, *pair, cls), capacity, T)
    return stretch(T, hazard.T0), response.ratio(hazard.spectrum, hazard.lower_factor)


def check_which_counts():
    """Within a stretch the factor that the page does not name leaves q as it is, and each that it names moves it somewhere."""
    moved = set()
    pairs = list(product((100, 112, 118, 133, 150), (100, 123, 136, 167, 200)))
    for (mapped, capacity_at), R, cls, T in product((((80, 45), response.design_capacity), ((100, 55), response.mce_capacity)),
                                                    (100, 480, 600), limits.CLASS, PERIODS):
        found = {pair: ratio_at(mapped, pair, cls, capacity_at(R), T) for pair in pairs}
        for (one, (place, q)), (other, (place_too, q_too)) in product(found.items(), repeat=2):
            if place != place_too or (one[0] == other[0]) == (one[1] == other[1]):
                continue
            changed = 'N_V' if one[0] == other[0] else 'N_A'
            assert q == q_too or STRETCHES[place][1] in (changed, 'both'), (mapped, R, cls, T, one, other)
            moved |= {(place, changed)} if q != q_too else set()
    assert moved == {(place, factor) for place, (_, counts) in enumerate(STRETCHES) for factor in ('N_A', 'N_V') if counts in (factor, 'both')}


def check_growth():
    """A grows with N_A and B with N_V, never by more than the factor; so T0 falls with N_A and rises with N_V."""
    for cls, S_S, S_1 in product(limits.CLASS, {*limits.S_S_DESIGN, *limits.S_S_MCE}, {*limits.S_1_DESIGN, *limits.S_1_MCE}):
        As = [sites.A_and_B(S_S, S_1, NA, 100, cls)[0] for NA in limits.N_A]
        Bs = [sites.A_and_B(S_S, S_1, 100, NV, cls)[1] for NV in limits.N_V]
        for grown, factors in ((As, limits.N_A), (Bs, limits.N_V)):
            assert all(one < other for one, other in zip(grown, grown[1:]))
            assert all(100 * each <= factor * grown[0] for each, factor in zip(grown, factors))


def tall_building(site):
    """A building so tall that N_V does nothing: T is beyond 2.5 times T0, whatever N_V is."""
    frame, height = limits.Frame(1, 0, 480, 100, 150), limits.HEIGHT[-1]
    jobs = [job(site._replace(NV=each, NVM=each), frame, [5_000], [height]) for each in limits.N_V]
    assert len({(each.V, each.V_M, each.T) for each in jobs}) == 1
    assert all(each.T > each.design.T0 * 5 / 2 and each.T > each.mce.T0 * 5 / 2 for each in jobs)
    return {'tall_T': comma(jobs[0].T), 'tall_kind': str(frame.kind), 'tall_h': decimal(Fraction(height, 10)),
            'N_V_least': hundredths(limits.N_V[0]), 'N_V_most': hundredths(limits.N_V[-1])}


def low_building(site):
    """A building so low that the larger pair for both hazard levels lowers V_D: the larger N_V brings T onto the rising branch of V_M."""
    pair, smaller = (100, 120), (100, 100)
    own = with_pairs(job(site, limits.Frame(4, 0, 100, 100, 150), [2_963], [30]), pair, smaller)
    larger = with_pairs(own, pair, pair)
    assert own.V_D == own.V_M > larger.V_D == larger.V_M > own.V == larger.V
    assert own.mce.T0 / 5 < own.T == larger.T < larger.mce.T0 / 5
    return {'low_sheet': code(sheet.write(*own[:4]).decode().splitlines()), 'low_T': comma(own.T), 'low_NA': hundredths(pair[0]),
            'low_NV': hundredths(pair[1]), 'low_own': comma(own.V_D), 'low_larger': comma(larger.V_D), 'low_off': off(larger, own, 'V_D')}


def ductile_building(own):
    """The sheet with the largest R, where a larger N_A lowers V_M: T0 is shorter, so the factor is nearer to the capacity."""
    frame = own.frame._replace(R=limits.R_RANGE[-1])
    larger, smaller = (job(own.ground._replace(NAM=each), frame, own.weights, own.heights) for each in (own.ground.NAM, limits.N_A[0]))
    assert larger.V_M < smaller.V_M and larger.mce.lower_factor > smaller.mce.lower_factor
    return {'ductile_R': hundredths(frame.R), 'ductile_larger': comma(larger.V_M), 'ductile_smaller': comma(smaller.V_M),
            'N_A_least': hundredths(limits.N_A[0])}


def x_of(figures, T):
    """x of the line from root to capacity as a fraction of whole numbers."""
    x = Fraction(T * figures.A - 600 * figures.B, 400 * figures.B)
    assert 0 <= x < 1 and x == (T - figures.T0 * 3 / 5) / (figures.T0 * 2 / 5)
    return f'{comma(x.numerator)}/{comma(x.denominator)}'


def check_all_count(own):
    """Each of the four factors moves its own shear in the sheet."""
    for name in FACTORS:
        site = own.ground._replace(**{name: getattr(own.ground, name) + 1})
        other = job(site, own.frame, own.weights, own.heights)
        assert [other.V != own.V, other.V_M != own.V_M] == [name in FACTORS[:2], name in FACTORS[2:]], name


def names(data):
    """What the page may name besides what any page on a sheet may."""
    own = read(data)
    site, frame = own.ground, own.frame
    small, large = (site.NA, site.NV), (site.NAM, site.NVM)
    assert small[0] < large[0] and small[1] < large[1]
    larger, smaller, swapped = with_pairs(own, large, large), with_pairs(own, small, small), with_pairs(own, large, small)
    none = with_pairs(own, *((sites.NO_NEAR_FAULT, sites.NO_NEAR_FAULT),) * 2)
    assert own.V_D == own.V_M == larger.V_M and smaller.V == own.V and smaller.V_M == swapped.V_M
    assert larger.V_D == larger.V == swapped.V == swapped.V_D and smaller.V_D == smaller.V
    assert none.V_D == none.V_star == own.V_star and own.T == frame.calculated_period
    assert all(T0 * 3 / 5 < own.T < T0 for each in (own, larger, smaller, none) for T0 in (each.design.T0, each.mce.T0, each.star.T0))
    check_all_count(own)
    check_which_counts()
    check_growth()
    by_seven, by_nine = (sheet.first_line(smaller.ground, in_full=in_full) for in_full in (False, True))
    return one_sheet.names(data) | low_building(site) | tall_building(site) | ductile_building(own) | {
        'pairs_table': table_of_pairs(own, larger, smaller, swapped), 'NAM': hundredths(site.NAM), 'NVM': hundredths(site.NVM),
        'R': hundredths(frame.R), 'I': hundredths(frame.I), 'alphay': hundredths(frame.alphay), 'T': comma(own.T),
        'fields': ', '.join(f'`{field}`' for field in FIELDS),
        'seven': code(['\t'.join(map(str, by_seven))]), 'nine': code(['\t'.join(map(str, by_nine))]),
        'N_A_range': f'{hundredths(limits.N_A[0])} to {hundredths(limits.N_A[-1])}',
        'N_V_range': f'{hundredths(limits.N_V[0])} to {hundredths(limits.N_V[-1])}',
        'x_V': x_of(own.design, own.T), 'x_V_M': x_of(own.mce, own.T), 'x_V_star': x_of(own.star, own.T),
        'V_larger': comma(larger.V), 'V_own': comma(own.V), 'V_M_own': comma(own.V_M), 'V_M_smaller': comma(smaller.V_M),
        'V_off': off(larger, own, 'V'), 'V_D_larger_off': off(larger, own, 'V_D'),
        'V_M_off': off(smaller, own, 'V_M'), 'V_D_smaller_off': off(smaller, own, 'V_D'),
        'V_D_larger': comma(larger.V_D), 'V_D_smaller': comma(smaller.V_D), 'V_D_swapped': comma(swapped.V_D),
        'V_none': comma(none.V), 'V_M_none': comma(none.V_M), 'V_star': comma(own.V_star),
    }
