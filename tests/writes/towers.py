"""Towers on one podium (Wish 8) as the manual shows them: the worked sheet's building in parts, what rounding adds to each, and other periods.

What the page says in words is asserted here of the model. What examples/podium.c and examples/podium.py print is here too.
"""

from fractions import Fraction
from math import floor

from tests.model import calls, limits, response, towers
from tests.writes.by_hand.shears import STAR
from tests.writes.by_hand.text import code, comma, decimal, hundredths, ranged, table
from tests.writes.by_hand.worked import read

# weights in kN and heights in dm of the towers; the whole has the largest height
SPLITS = (((5_000, 10_000), (300, 300)), ((7_500, 7_500), (250, 300)), ((4_996, 4_996, 5_008), (300, 300, 300)))
HALF, ZONE = 7_500, 3
LOW = 150               # dm, where the worked sheet's frame has another T
RISING, RISING_HEIGHTS = (limits.Basin(1), limits.Frame(4, 0, 100, 100, 150)), (100, 150)      # where V_D grows with T


def called(office, weight, height):
    """The shear call with the worked sheet's site and frame."""
    return calls.shear_call(office.ground, office.frame, weight, height)


def split(office, weights, heights):
    """The shear calls of some towers, and of all their weight; T is the same."""
    results = [called(office, weight, height) for weight, height in [*zip(weights, heights), (sum(weights), max(heights))]]
    assert len({each.T for each in results}) == 1 and len({towers.share(each) for each in results}) == 1
    return results[:-1], results[-1]


def more(parts, whole):
    """How many newtons more the towers come to."""
    shears = [each.V_D for each in parts]
    assert towers.holds(whole.V_D, shears)
    return towers.newtons_more(whole.V_D, shears)


def exact(result):
    """V_D before it is rounded, in N."""
    return towers.share(result) * result.W


def added(result):
    """What rounding up adds, in N."""
    return result.V_D - exact(result)


def metres(height):
    """A height in dm, in m."""
    return decimal(Fraction(height, 10))


def plus(numbers):
    """Numbers with a plus between them."""
    return ' + '.join(map(comma, numbers))


def splits_table(office, splits):
    """Every split: weights, heights, V_D of each tower, their sum, V_D of the whole, newtons more."""
    rows = []
    for weights, heights in splits:
        parts, whole = split(office, weights, heights)
        shears = [each.V_D for each in parts]
        rows.append((plus(weights), ', '.join(map(metres, heights)), plus(shears), comma(sum(shears)), comma(whole.V_D), comma(more(parts, whole))))
    return table(('towers, kN', 'height, m', 'V_D of each, N', 'sum, N', 'V_D of the whole, N', 'sum − whole, N'), rows)


def rounding_table(office):
    """V_D before and after rounding, of every weight of the splits."""
    share = towers.share(called(office, 1, office.heights[-1]))
    rows = []
    for weight in sorted({weight for weights, _ in SPLITS for weight in (*weights, sum(weights))}):
        result = called(office, weight, office.heights[-1])
        rows.append((comma(weight), f'{share} · {comma(weight)} = {decimal(exact(result))}', comma(result.V_D), decimal(added(result))))
    return table(('W, kN', 'before rounding, N', 'V_D, N', 'added, N'), rows)


def period_table(office):
    """Two towers of different T, and the whole with the larger height: a sum that is above, and one that is below."""
    rows = []
    for given, heights, side in (((office.ground, office.frame), (LOW, office.heights[-1]), 'above'), (RISING, RISING_HEIGHTS, 'below')):
        parts, whole = [calls.shear_call(*given, HALF, height) for height in heights], calls.shear_call(*given, 2 * HALF, max(heights))
        shears = [each.V_D for each in parts]
        assert parts[0].T < parts[1].T == whole.T and not towers.holds(whole.V_D, shears)
        assert side == ('above' if sum(shears) > whole.V_D else 'below')
        *towers_said, whole_said = (f'{comma(each.W)} kN at {metres(each.h)} m: {comma(each.T)} ms' for each in (*parts, whole))
        rows.append((', '.join(towers_said), f'{plus(shears)} = {comma(sum(shears))}', whole_said, comma(whole.V_D),
                     f'{comma(abs(sum(shears) - whole.V_D))} {side}'))
    return table(('towers and T', 'V_D, N', 'the whole and T', 'V_D, N', 'the sum is, N'), rows)


def limit_of(office, height):
    """14*t/10 of a height, in ms."""
    return floor(Fraction(14 * response.approximate_period(office.frame.kind, height), 10))


def assert_T_entered(office):
    """Where calculated periods are cut to one T, T entered as the calculated period leaves T and V_D as they are."""
    W, h, T = office.W, office.heights[-1], limit_of(office, office.heights[-1])
    cut = [calls.shear_call(office.ground, office.frame._replace(calculated_period=period), W, h) for period in (T, T + 1, 2 * T)]
    assert {each.T for each in cut} == {T} and len({each.V_D for each in cut}) == 1


def podium_lines(office):
    """What examples/podium.c prints."""
    lines = []
    for weights, heights in SPLITS:
        parts, whole = split(office, weights, heights)
        lines += ['\t'.join(map(str, ('tower', each.W, each.h, each.V_D, each.T))) for each in parts]
        lines += ['\t'.join(map(str, ('whole', whole.W, whole.h, whole.V_D, whole.T))), f'more\t{more(parts, whole)}']
    return lines


def names(data):
    """What the page on towers names."""
    office = read(data)
    base, frame = called(office, office.W, office.heights[-1]), office.frame
    assert base.V_star == base.V_D == office.V_D > max(base.V, base.V_M) and frame.calculated_period == base.T
    share = towers.share(base)
    assert share == Fraction(frame.I * base.p, STAR * frame.alphay)
    half, (lower, high) = called(office, HALF, office.heights[-1]), SPLITS[1][1]
    assert high == office.heights[-1] and min(limit_of(office, lower), limit_of(office, high)) >= frame.calculated_period
    assert SPLITS[1][0] == (HALF, HALF) and 2 * added(half) - added(base) == 1
    assert [more(*split(office, *each)) for each in SPLITS] == [0, 1, 2] and all(sum(weights) == office.W for weights, _ in SPLITS)
    assert_T_entered(office)
    basin = office._replace(ground=limits.Basin(ZONE))
    return {'W': comma(base.W), 'h_m': metres(base.h), 'T': comma(base.T), 'total_weight': ranged(limits.TOTAL_WEIGHT),
            'share_steps': f'I · p / ({comma(STAR)} · alpha-y) = {frame.I} · {comma(base.p)} / ({comma(STAR)} · {frame.alphay}) = {share} = '
                           f'{decimal(share, 6)}',
            'rounding_table': rounding_table(office), 'half': comma(HALF), 'half_added': f'{decimal(added(half))} + {decimal(added(half))}',
            'half_sum': decimal(2 * added(half)), 'whole_added': decimal(added(base)), 'splits_table': splits_table(office, SPLITS),
            'zone': str(ZONE), 'zone_share': str(towers.share(called(basin, base.W, base.h))), 'zone_table': splits_table(basin, SPLITS),
            'lower_m': metres(lower), 'lower_limit': comma(limit_of(office, lower)), 'limit': comma(limit_of(office, high)),
            'rising_zone': str(RISING[0].zone), 'rising_kind': str(RISING[1].kind), 'rising_R': hundredths(RISING[1].R), 'rising_I': hundredths(RISING[1].I),
            'rising_alphay': hundredths(RISING[1].alphay), 'period_table': period_table(office), 'most_weight': comma(limits.TOTAL_WEIGHT[-1]),
            'printed': code(podium_lines(office))}
