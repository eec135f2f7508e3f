"""The refusals: what each says, and what its example gets."""

import re

from tests.manual.pages import OFFICE, ROOT, listed, page, rows, with_line
from tests.model import accidental, calls, district, drift, limits, sheet, sheets, soil, torsion
from tests.writes.by_hand.text import comma, ranged
from tests.writes.by_hand.worked import read
from tests.writes.six_storeys import DISPLACEMENTS, HEIGHTS, LIMIT, signed


def either(values):
    """Allowed values in words, in a sentence."""
    return f'{listed(values[:-1])} or {values[-1]}'


# what the row of each refusal must say
SAID = {
    1: [f'more than {limits.LEVELS[-1]}', ranged(limits.LEVELS)], 3: [ranged(limits.WEIGHT) + ' kN'], 4: [ranged(limits.HEIGHT) + ' dm'],
    5: ['1 S_S D, 2 S_1 D, 3 S_S M, 4 S_1 M'],
    6: ['1 N_A, 2 N_V, 3 N_A M, 4 N_V M', f'N_A {ranged(limits.N_A)}, N_V {ranged(limits.N_V)}, for design and MCE'],
    7: ['not ' + either(limits.CLASS)], 8: ['not ' + ranged(limits.R_RANGE)], 9: ['not ' + either(limits.I_VALUES)],
    10: ['not ' + ranged(limits.ALPHA_Y)], 11: ['not ' + either(limits.KIND)], 12: [f'above {comma(limits.CALCULATED_PERIOD[-1])} ms'],
    13: [f'more than {soil.LAYERS[-1]}'], 14: [],
    15: ['not ' + either(tuple(soil.VALUE)), f'velocity {ranged(soil.VALUE[1])} dm/s', f'cohesive N {ranged(soil.VALUE[2])}',
         f'cohesionless N {ranged(soil.VALUE[3])}', f'soft clay q {ranged(soil.VALUE[4])}'],
    17: [f'more than {comma(sheet.MOST_BYTES)} bytes'], 18: ['not ' + either(limits.ZONE)], 19: [f'not {ranged(limits.BASE_SHEAR)} N'],
    20: [f'above {comma(limits.PERIOD[-1])} ms'], 21: [], 22: [f'more than {district.MOST_JOBS} jobs', f'more than {district.MOST_JOBS} sheets or more than '
                                                               f'{comma(sheets.MOST_BYTES)} bytes'],
    23: [f'not {signed(limits.DISPLACEMENT[0])} to {signed(limits.DISPLACEMENT[-1])}, in 0.01 mm'],
    24: [f'is 0, or above {comma(limits.DRIFT_LIMIT[-1])} ten-thousandths'], 25: ['is 0, or above the largest'], 26: [f'not {ranged(limits.DIMENSION)} dm'],
}
# what those at place 0 must say, of a shear call and of a floor
SAID_AT_0 = {3: [f'the total weight of a [shear call](shear_and_storeys.md) is not {ranged(limits.TOTAL_WEIGHT)} kN'],
             4: [f'the top height of a [shear call](shear_and_storeys.md) is not {ranged(limits.HEIGHT)} dm'],
             23: [f'is above {comma(limits.FLOOR_DISPLACEMENT[-1])}, in 0.01 mm']}


def of_call(unit, number):
    """What the model answers where a call of the worked sheet's building is given another number, told by its unit."""
    office = read(OFFICE)
    given = {'kN': office.W, 'dm': office.heights[-1], 'N': office.V_D, 'ms': office.T} | {unit: number}
    if unit in ('kN', 'dm'):
        said = calls.shear_call(office.ground, office.frame, given['kN'], given['dm'])
    else:
        said = calls.distribution(given['N'], given['ms'], office.weights, office.heights)
    return list(map(str, said[:3]))


def answer(example):
    """What the model answers to the example of a refusal."""
    line = re.match(r'line (\d+) `([^`]*)`(?: \([^)]*\))?$', example)
    layers = re.match(r'log `([^`]*)`$', example)
    call = re.match(r'(shear call with|distribution of|distribution at) ([\d,]+) (kN|dm|N|ms)$', example)
    if call:
        return of_call(call[3], int(call[2].replace(',', '')))
    if line:
        return with_line(int(line[1]), line[2].replace(' ', '\t'))
    if layers:
        log = [tuple(map(int, layer.split())) for layer in layers[1].split(',')]
        return list(map(str, soil.log(*map(list, zip(*log)))))
    stretch = re.match(r'job with start (\d+) and count (\d+) in a store of (\d+) levels$', example)
    if stretch:
        return of_stretch(*map(int, stretch.groups()))
    return of_drift(example) or of_words(example)


def of_drift(example):
    """What the model answers where a number of the manual's frame, of a floor, or of the worked sheet's accidental moments is another."""
    numbers = [int(each.replace(',', '')) for each in re.findall(r'\d[\d,]*', example)]
    form, office, said = re.sub(r'\d[\d,]*', 'N', example), read(OFFICE), None
    if form == 'drift with a displacement of N at level N':
        said = drift.drift(HEIGHTS, [numbers[0] if level == numbers[1] else each for level, each in enumerate(DISPLACEMENTS, 1)], LIMIT)
    if form == 'drift with a limit of N':
        said = drift.drift(HEIGHTS, DISPLACEMENTS, *numbers)
    if form == 'floor with N and an average of N':
        said = torsion.torsion(*numbers)
    if form == 'accidental moments with N dm':
        said = accidental.accidental(office.V_D, office.T, office.weights, office.heights, *numbers)
    return said and list(map(str, said))


def of_stretch(start, count, length):
    """What the model answers to a job of a district with the worked sheet's site and frame, over a store of so many levels."""
    office = read(OFFICE)
    job, heights = district.DistrictJob(0, 0, office.ground, office.frame, start, count), [100 * level for level in range(1, length + 1)]
    row = district.answer_of(job, [5000] * length, heights).row
    return ['refused', str(row.number), str(row.place)]


def of_words(example):
    """What the model answers to an example that is said in words."""
    first = '\n'.join(OFFICE.decode().split('\n')[:2]) + '\n'
    if example == '51 `level` lines':
        return sheet.shear((first + ''.join(f'level\t1\t{height}\n' for height in range(1, 52))).encode()).decode().split()
    if example == '4,097 bytes':
        return sheet.shear(OFFICE.ljust(4_097, b'\n')).decode().split()
    if example == '3 weights, 2 heights':
        return ['refused', *map(str, limits.judge((80, 45, 100, 55, 100, 100, 1), (2, 1000, 480, 100, 150), [1] * 3, [1] * 2))]
    if example == 'file of 257 sheets':
        return sheets.listing(sheets.write([OFFICE] * 257)).decode().split()
    if example == 'log of 41 layers':
        return list(map(str, soil.log([1] * 41, [3] * 41, [10] * 41)))
    return None


def order(text):
    """Where 18 to 26 stand in the order."""
    wrong = limits.refusals(limits.Basin(5), (5, 60_001, 99, 99, 99), [0], [0, 0], ())
    yield [number for number, _ in wrong] == [2, 3, 4, 4, 18, 8, 9, 10, 11, 12], 'docs/manual/refusals.md: 18 is not where the page says'
    yield '18 stands in place of 5 to 7, after 1 to 4 and before 8 to 12' in text.replace('\n', ' '), 'docs/manual/refusals.md: the place of 18'
    wrong = limits.distribution_refusals(0, 10_000, [0], [0, 0], ())
    yield [number for number, _ in wrong] == [2, 3, 4, 4, 19, 20], 'docs/manual/refusals.md: 19 and 20 are not where the page says'
    yield '19, then 20, come after 1 to 4' in text.replace('\n', ' '), 'docs/manual/refusals.md: the place of 19 and 20'
    wrong = district.DistrictJob(0, 0, limits.Site(*[0] * 9), limits.Frame(5, 60_001, 99, 99, 99), 2, 51)
    refused = district.answer_of(wrong, [0], [0]).row.number, district.district([wrong] * 257, [0], [0, 0], 0)[0]
    yield refused == (21, 22), 'docs/manual/refusals.md: 21 and 22 do not come first'
    said = '21 comes before all other numbers of its row, and 22 is of the whole call'
    yield said in text.replace('\n', ' '), 'docs/manual/refusals.md: the place of 21 and 22'
    beyond = limits.DISPLACEMENT[-1] + 1
    wrong = (limits.drift_refusals([0], [beyond] * 2, 0, ()), limits.torsion_refusals(0, beyond), limits.accidental_refusals(0, 10_000, [0], [0, 0], 0, ()))
    found = [[number for number, _ in each] for each in wrong] + [[limits.judge_drift([], [0], LIMIT)[0]]]
    yield found == [[2, 4, 23, 23, 24], [23, 25], [2, 3, 4, 4, 19, 20, 26], [1]], 'docs/manual/drift.md: 23 to 26 are not where the page says'
    said = '[Drift, torsion and accidental moments](drift.md#the-order-of-refusals) have an order of their own.'
    yield said in text.replace('\n', ' '), 'docs/manual/refusals.md: the place of 23 to 26'


def one_row(number, place, wrong, to_do, example):
    """What the row of a refusal says, and what its example gets."""
    said = re.match(r'(.*): `(refused \d+ \d+)`$', example)
    got = answer(said[1]) if said else None
    yield bool(got) and ' '.join(got) == said[2], f'docs/manual/refusals.md: {number}: {example}: {got}'
    yield bool(said) and said[2].split()[1] == number, f'docs/manual/refusals.md: {number}: its example is of another'
    yield (place == '0') == (bool(said) and said[2].split()[2] == '0'), f'docs/manual/refusals.md: {number}: its place'
    for words in (SAID | SAID_AT_0 if place == '0' else SAID).get(int(number), []):
        yield words in f'{place}; {wrong}; {to_do}', f'docs/manual/refusals.md: {number}: does not say: {words}'


def places_of_6(text):
    """Refusal 6 on a line of seven numbers, and what its places are called."""
    by_seven = re.search(r'On a `site` line of seven numbers, refusal 6 has place 1 or 2 only: `(site [\d ]*)` gets `(refused 6 [12])`', text)
    yield bool(by_seven) and answer(f'line 1 `{by_seven[1]}`') == by_seven[2].split(), 'docs/manual/refusals.md: 6 on seven numbers'
    named = re.search(r'\(`./shear` calls 3 and 4 (N_A \w+) and (N_V \w+)\)', text)
    places = ('N_A', 'N_V', *named.groups()) if named else ()
    for file, words in (('programs.sh', f"'{','.join(places)}'"), ('examples/rukeshomaji.py', f'6: {places}')):
        yield words in (ROOT / file).read_text(), f'docs/manual/refusals.md: the places of 6 in {file}: wanted {words}'


def refusals():
    """The refusals: one row at least for each, and what it says."""
    text = page('refusals.md')
    found = rows(text, '')
    yield sorted({int(row[0]) for row in found}) == list(range(1, 27)), 'docs/manual/refusals.md: not each of 1 to 26'
    yield from order(text)
    for row in found:
        yield from one_row(*row)
    yield from places_of_6(text)
    whole = ' '.join(row[2] for row in found if row[0] == '14')
    yield f'{comma(soil.THICKNESS_SUM)} cm' in whole, 'docs/manual/refusals.md: 14: the depth'
