"""The fields of a sheet, its site classes and frame kinds."""

import re
from fractions import Fraction

from tests.manual.pages import OFFICE, ROOT, listed, page, rows, with_line
from tests.model import limits, response, sheet, site as sites, soil
from tests.writes import manual, near_fault
from tests.writes.by_hand.text import comma, decimal, ranged
from tests.writes.by_hand.worked import read

# name, unit and range of each field
FIELDS = {
    'Line 1: `site`': (
        ('S_S D', '0.01 g', listed(limits.S_S_DESIGN)), ('S_1 D', '0.01 g', listed(limits.S_1_DESIGN)),
        ('S_S M', '0.01 g', listed(limits.S_S_MCE)), ('S_1 M', '0.01 g', listed(limits.S_1_MCE)), ('N_A', '0.01', ranged(limits.N_A)),
        ('N_V', '0.01', ranged(limits.N_V)), ('N_A M', '0.01', ranged(limits.N_A)), ('N_V M', '0.01', ranged(limits.N_V)),
        ('class', 'number', listed(limits.CLASS))),
    'Line 1 in the Taipei Basin: `basin`': (('zone', 'number', listed(limits.ZONE)),),
    'Line 2: `frame`': (
        ('kind', 'number', listed(limits.KIND)), ('calculated period', 'ms', '0 for none, ' + ranged(limits.CALCULATED_PERIOD[1:])),
        ('R', '0.01', ranged(limits.R_RANGE)), ('I', '0.01', listed(limits.I_VALUES)), ('alpha-y', '0.01', ranged(limits.ALPHA_Y))),
    'Every later line: `level`': (
        ('weight', 'kN', ranged(limits.WEIGHT)), ('height', 'dm (0.1 m)', ranged(limits.HEIGHT) + ', each above the level below')),
}
LAYOUTS = (sheet.TWO_PAIRS, sheet.BASIN, sheet.FRAME, sheet.LEVEL)
OF_MCE = ('N_A M', 'N_V M')      # what a site line of seven numbers leaves out


def tenths(numbers):
    """Ten-thousandths with one digit."""
    return ', '.join(f'{number // 10_000}.{number % 10_000 // 1000}' for number in numbers)


def velocities():
    """The average velocities of the three classes, by what one measured layer gets."""
    classed = {v: soil.log([soil.THICKNESS_SUM], [soil.MEASURED], [v]).cls for v in range(1000, 4000)}
    low, high = (min(v for v, cls in classed.items() if cls == soil.NORMAL), max(v for v, cls in classed.items() if cls == soil.NORMAL))
    return [f'above {high // 10} m/s', f'{low // 10} to {high // 10} m/s', f'below {low // 10} m/s']


def ranges(text):
    """Name, unit and range of each field."""
    for (heading, wanted), layout in zip(FIELDS.items(), LAYOUTS):
        found = [(row[0], row[2], row[3]) for row in rows(text, heading)]
        yield found == list(wanted), f'docs/manual/sheet.md: {heading}: {found}, wanted {list(wanted)}'
        yield len(found) == layout.groups, f'docs/manual/sheet.md: {heading}: {len(found)} fields'


def classes_and_columns(text):
    """The site classes, their coefficients, and the columns of these."""
    for row in rows(text, 'Site classes'):
        number = int(row[0])
        wanted = [tenths(sites.F_A[number]), tenths(sites.F_V[number])]
        yield row[3:] == wanted, f'docs/manual/sheet.md: class {number}: {row[3:]}, wanted {wanted}'
    classes = rows(text, 'Site classes')
    yield [int(row[0]) for row in classes] == list(limits.CLASS), 'docs/manual/sheet.md: classes'
    yield [row[2] for row in classes] == velocities(), f'docs/manual/sheet.md: wanted {velocities()}'
    for name, columns in (('S_S', sites.S_S_COLUMNS), ('S_1', sites.S_1_COLUMNS)):
        shown_as = [decimal(Fraction(column, 10_000), 4) for column in columns]
        words = f'at {name} of ≤{", ".join(shown_as[:-1])}, ≥{shown_as[-1]} g'
        yield words in text, f'docs/manual/sheet.md: does not say: {words}'


def kinds(text):
    """The frame kinds."""
    for row in rows(text, 'Frame kinds'):
        c = decimal(Fraction(response.PERIOD_C[int(row[0])], 1000))
        yield row[2] == f'{c}·h^(3/4)', f'docs/manual/sheet.md: kind {row[0]}: {row[2]}'
    yield [int(row[0]) for row in rows(text, 'Frame kinds')] == list(limits.KIND), 'docs/manual/sheet.md: kinds'


def sentences(text):
    """What the page says in words of the listing and of the limits."""
    moment = decimal(Fraction(read(OFFICE).moments[0], 10_000), 2)
    longest = response.period(response.approximate_period(1, limits.HEIGHT[-1]), limits.CALCULATED_PERIOD[-1])
    for words in (f'the last moment is {moment} kN·m', f'{ranged(limits.LEVELS)} levels', f'at most {comma(sheet.MOST_BYTES)} bytes',
                  f'T from 1 ms to {comma(longest)} ms', f'to {manual.heaviest()["most_V_D"]} N'):
        yield words in text, f'docs/manual/sheet.md: does not say: {words}'


def fields():
    """The fields of a sheet."""
    for check in (ranges, classes_and_columns, kinds, sentences):
        yield from check(page('sheet.md'))


def site_lines():
    """A site line has seven numbers or nine, and no other count; both in the order that the page on near-fault sites has."""
    name, names = 'docs/manual/near_fault.md', [field for field, _, _ in FIELDS['Line 1: `site`']]
    short = [field for field in names if field not in OF_MCE]
    for row, order, layout in zip(rows(page('near_fault.md'), 'How they are entered'), (names, short), (sheet.TWO_PAIRS, sheet.SITE)):
        yield row[:2] == [str(layout.groups), ', '.join(order)] and len(order) == layout.groups, f'{name}: {row}, wanted {order}'
    taken = [count for count in range(13) if with_line(1, 'site' + count * '\t100') != ['refused', '16', '1']]
    yield taken == [len(short), len(names)] == [7, 9], f'docs/manual/sheet.md: a site line may have {taken} numbers'
    for words in ('These are nine numbers. A line may also have seven', 'Any other count is [refusal](refusals.md) 16 at line 1.'):
        yield words in page('sheet.md').replace('\n', ' '), f'docs/manual/sheet.md: does not say: {words}'
    module = re.search(r"^Site = namedtuple\('Site', '([^']*)'\)$", (ROOT / 'examples' / 'rukeshomaji.py').read_text(), re.M)
    yield module[1].split() == near_fault.FIELDS, f'{name}: the fields in Python are {module[1]}'
