"""Holds the numerals of the manual's own words: those of the pages that are written by hand, and of the templates of the pages that are filled.

usage: python3 -m tests.numerals [write]

- tests/numerals.txt has the numerals of each page, heading by heading, in their order, in digits and in words: none may change, come or go unseen.
  'write' writes it afresh: after a number was changed on purpose, read what changed in it
- the sentences below stand on their page, with numbers of the model, or of 000, by the section that a constant names
- a formula has the model's numbers wherever it stands

It prints what is wrong and one line of counts, and exits with 1 where anything is.
"""

import difflib
import pathlib
import re
import sys
from fractions import Fraction
from math import ceil

from tests.compares.header_words import DRIFT_LIMIT, HANDED_IN, RELEASES, hundredth, most_thousandths, of_district, order, places
from tests.model import (accidental, basin as basins, calls, district, drift, limits, response, sheet, sheets, site as sites, soil, storeys, torsion)
from tests.stated import numerals, plain, runs
from tests.writes import manual, roof
from tests.writes.by_hand.shears import SHEAR
from tests.writes.by_hand.text import comma, decimal, hundredths
from tests.writes.by_hand.worked import read
from tests.writes.scaling import BUILDINGS

ROOT = pathlib.Path(__file__).resolve().parents[1]
MANUAL, PAGES, TABLE = ROOT / 'docs' / 'manual', ROOT / 'tests' / 'writes' / 'pages', ROOT / 'tests' / 'numerals.txt'
WIDTH = 140
# of 000: chances of the two hazard levels (1, 2.1, 2.4); where dynamic analysis is required (3.1); levels above which (23) reduces
DESIGN, MCE, YEARS = 10, 2, 50
HIGH, STOREYS, IRREGULAR_HIGH, IRREGULAR_STOREYS = 50, 15, 20, 5
UNREDUCED = {10: 'ten'}
# formulas wherever they stand: what may stand in their places
FORMS = (
    (r'([\d.]+) ?· ?T ?· ?V_D', {('0.07',)}), (r'\b(?:V_D|V_B) ?/ ?(\d+)', {('4',)}),
    (r'I·m·W ?/ ?\(([\d.,]+)·alpha-y\)', {('1.4',), ('1400',), ('14,000',)}),
    (r'I·p·W ?/ ?\(([\d.,]+)·alpha-y\)', {('4.2',), ('4200',), ('42,000',), ('3.5',), ('3500',), ('35,000',)}),
    (r'\(R − (\d\d+)\)/(\d+)', {('25', '75'), ('50', '50')}), (r'\+ \(R − (\d)\)/(\d\.\d)', {('1', '1.5'), ('1', '2.0')}),
    (r'\((\d)·R \+ (\d+)\)/(\d+)', {('2', '100', '300')}),
    (r'([\d.]+)·q \+ ([\d.]+)', {('0.52', '0.144')}), (r'([\d.]+)·Sa \+ ([\d.]+)·F', {('0.52', '0.144')}),
    (r'(?<![.\d])([\d.]+)·T0', {('0.2',), ('0.4',), ('0.6',), ('2.5',)}), (r'(\d+)·t/(\d+)', {('14', '10')}),
    (r'A·\(([\d.]+) \+ (\d)·T/T0\)', {('0.4', '3')}),
    (r'\(δ_max / \(([\d.]+) · δ_avg\)\)(.)', {('1.2', '²')}), (r'\(largest/\(([\d.]+)·average\)\)(.)', {('1.2', '²')}),
    (r'I · F_u / ([\d.]+) ·', {('4.2',)}), (r'force(?: in N)? ?· ?(\d+) ?· ?dimension', {('5',)}),
)


def own_text(page):
    """What a page says in its own words: its template where it is filled, without the names."""
    template = PAGES / page
    text = (template if template.exists() else MANUAL / page).read_text()
    return re.sub(r'\{\w+\}', '{}', re.sub(r'\]\([^)]*\)', ']', text)) if template.exists() else re.sub(r'\]\([^)]*\)', ']', text)


def found_in(page):
    """[heading, numerals in their order] of each heading of a page; those of the heading itself come first."""
    parts = re.split(r'^#+ (.*)$', own_text(page), flags=re.M)[1:]
    return [[heading, [numeral for _, numeral in numerals(f'{heading}\n{text}')]] for heading, text in zip(parts[::2], parts[1::2])]


def table():
    """The table as it is written."""
    lines = []
    for page in sorted(path.name for path in MANUAL.glob('*.md')):
        lines += ['', f'# {page}']
        for heading, found in found_in(page):
            lines += [f'## {heading}'] if found else []
            row = ''
            for numeral in found:
                lines += [row] if len(row) + len(numeral) >= WIDTH else []
                row = numeral if len(row) + len(numeral) >= WIDTH or not row else f'{row} {numeral}'
            lines += [row] if row else []
    return '\n'.join(lines[1:]) + '\n'


def stored():
    """[heading, numerals] of each heading, by page, of the table."""
    pages = {}
    for line in TABLE.read_text().split('\n'):
        if line.startswith('# '):
            pages[line[2:]] = headings = []
        elif line.startswith('## '):
            headings.append([line[3:], []])
        elif line:
            headings[-1][1].extend(line.split())
    return pages


def by_table():
    """(holds, words) of each page and heading."""
    known = stored()
    for page in sorted(known.keys() | {path.name for path in MANUAL.glob('*.md')}):
        found = [each for each in found_in(page) if each[1]] if (MANUAL / page).exists() else []
        names = [[heading for heading, _ in each] for each in (found, known.get(page, []))]
        yield names[0] == names[1], f'{page}: headings with numerals {names[0]}, in tests/numerals.txt {names[1]}'
        for (heading, now), (_, then) in zip(found, known.get(page, [])):
            changes = [f'{" ".join(then[a:b]) or "nothing"} -> {" ".join(now[c:d]) or "nothing"} after {" ".join(now[max(0, c - 3):c]) or "the heading"}'
                       for what, a, b, c, d in difflib.SequenceMatcher(None, then, now, False).get_opcodes() if what != 'equal']
            yield now == then, f'{page}: {heading}: {"; ".join(changes)} (tests/numerals.txt has what stood there)'


def least_shear():
    """The least V_D in N: W of 1 kN, the least I, the largest alpha-y, and the last branch of the least A, which p cannot be below. A job has it."""
    A = min(sites.A_and_B(S_S, S_1, sites.NO_NEAR_FAULT, sites.NO_NEAR_FAULT, cls)[0]
            for S_S in limits.S_S_DESIGN for S_1 in limits.S_1_DESIGN for cls in limits.CLASS)
    I, alphay, p = limits.I_VALUES[0], limits.ALPHA_Y[-1], Fraction(4 * A, 10)
    exact = Fraction(I, 100) * limits.TOTAL_WEIGHT[0] * 1000 * p / 10**8 / (sites.V_STAR * Fraction(alphay, 100))
    site = limits.one_pair(50, 30, 70, 40, 100, 100, 1)
    tall = calls.shear_call(site, limits.Frame(1, 0, limits.R_RANGE[-1], I, alphay), limits.TOTAL_WEIGHT[0], limits.HEIGHT[-1])
    assert tall.V_D == ceil(exact) and 10 * p <= 3 * 10**8, 'p is Sa where Sa is at most 0.3'
    return tall.V_D, exact, p / 10**8, hundredths(I), hundredths(alphay)


def of_sheet():
    """Sentences of the page on the sheet."""
    least, exact, p, I, alphay = least_shear()
    digits = max(count for count in range(1, 20) if re.fullmatch(sheet.NUMBER, b'\t' + b'1' * count))
    near = read((ROOT / 'examples' / 'near_fault.sheet').read_bytes())
    yield f'design level ({DESIGN} % in {YEARS} years)'
    yield f'maximum considered earthquake, {MCE} % in {YEARS} years)'
    yield f'A number has 1 to {digits} digits'
    yield f'with a calculated period near {storeys.NO_ROOF_FORCE} ms, where [the roof force] begins'
    yield f'{comma(1000)} N are 1 kN, and {comma(1000 * 10)} N·dm are 1 kN·m'
    yield f'A calculated period above {decimal(Fraction(response.period(1000, 60_000), 1000))} times the approximate one'
    yield f'with a calculated period of {near.frame.calculated_period} ms'
    yield f'of the top {soil.THICKNESS_SUM // 100} m (Table 3)'
    yield f'V_D is from {least} N to'
    yield (f'{least} N is V* of {limits.TOTAL_WEIGHT[0]} kN with I = {I}, alpha-y = {alphay} and p = {decimal(p)} g, the least p of a site: '
           f'1 · {decimal(p)} · 1,000 / ({decimal(sites.V_STAR)} · {decimal(Fraction(alphay))}) = {decimal(exact, 1)}, rounded up')
    yield f"V_D is at least 1 N and at most {manual.heaviest()['most_V_D']} N"


def of_rules():
    """Sentences of the page of the rules."""
    yield (f'is 0 up to {storeys.NO_ROOF_FORCE} ms and at most V_D/4, where (21) has {decimal(roof.RISING)}·T·V_D at every T; '
           f'and overturning has no reduction τ, so where more than {UNREDUCED[10]} levels stand above')
    yield '(14) is continued beyond 2.5·T0 as (4) is'
    yield 'N_A and N_V of (13) may differ from those of (9)'
    yield '(19) is read with the factor W that it lacks'
    yield 'meet at 0.3 and 0.8'


def at_the_end():
    """What a stretch of no level gets at the end of a store of seven levels, and beyond it."""
    store, site, frame = ([1] * 7, list(range(1, 8))), limits.one_pair(80, 45, 100, 55, 100, 100, 1), limits.Frame(2, 0, 480, 100, 150)
    return [district.answer_of(district.DistrictJob(0, 0, site, frame, start, 0), *store).row.number for start in (7, 8)]


def of_refusals():
    """Sentences of the page of refusals."""
    site, basin, log, handed = (order(call) for call in ('job', 'basin_job', 'site_class', 'distribution'))
    (zone,), replaced = [each for each in basin if each not in site], [each for each in site if each not in basin]
    before, after = basin[:basin.index(zone)], basin[basin.index(zone) + 1:]
    too_long, not_laid_out = order('sheet')
    three, four = order('shear_call')[:2]
    at = places('shear_call', three)
    longest = sheet.write(limits.Site(80, 45, 100, 55, 150, 200, 150, 200, 3), limits.Frame(4, 60_000, 600, 150, 200),
                          [limits.WEIGHT[-1]] * limits.LEVELS[-1], [limits.HEIGHT[-1]] * limits.LEVELS[-1])
    assert 4 * len(longest) < sheet.MOST_BYTES
    yield f'{too_long}, then {not_laid_out}, then the lowest number from {site[0]} to {log[-1]}, at its lowest place.'
    yield f'{zone} stands in place of {runs(replaced)}, after {runs(before)} and before {runs(after)}.'
    yield f'{handed[-2]}, then {handed[-1]}, come after {runs(before)}.'
    yield f'enter {sites.NO_NEAR_FAULT} where there is no near fault'
    for words, number in (('check the unit, 0.01: 4.8', 480), ('check the unit, 0.01: 1.5', 150), ('for q, the unit: 0.25 kgf/cm²', 25)):
        assert Fraction(words.split(': ')[1].split()[0]) * 100 == number
        yield f'{words} is {number}'
    yield f'a sheet of {limits.LEVELS[-1]} levels needs less than a quarter of that'
    yield f'for a longer period hand in {comma(limits.PERIOD[-1])} ms, which gives the same storeys'
    assert limits.PERIOD[-1] >= roof.QUARTER_FROM
    whole, row, _ = of_district()
    yield f'In [a district] {row} comes before all other numbers of its row, and {whole} is of the whole call: there is no row then.'
    (displaced, limit), (of_floor, average), dimension = order('drift')[-2:], order('torsion'), order('accidental_moments')[-1]
    assert displaced == of_floor and [displaced, limit, average, dimension] == list(range(whole + 1, whole + 5))
    yield (f'{log[0]}, {log[1]} to {log[-1]}, {handed[-2]} to {row}, {displaced} to {dimension}, and {three} and {four} at place {at}, are answers to a program: '
           f'{log[1]} to {log[-1]} of [the soil log], {handed[-2]} and {handed[-1]} of a distribution or of accidental moments, {three} and {four} at place {at} '
           f'of a shear call, {row} of a district, {displaced} of drift or of torsion, {limit} of drift, {average} of torsion, {dimension} of accidental moments. '
           f'No sheet gets them. {whole} is of a district or of a file of sheets, never of one sheet.')
    assert handed[-1] + 1 == row
    assert order('drift')[:-2] == [1, 2, 4] and order('accidental_moments') == [*handed, dimension]
    yield f'Check the unit: {float(DRIFT_LIMIT)} is {DRIFT_LIMIT * drift.PARTS_OF_LIMIT} |'
    yield f'Check the unit: mm times {1 / Fraction(str(hundredth()))}, so 22.51 mm is {Fraction("22.51") * 100} |'
    yield 'Check the unit, dm: 24 m is 240 |'
    yield f'If the average is 0 and the largest is not, [take {torsion.MOST}.000]. If both are 0 there is no factor |'
    yield (f'In a log {log[0]} comes first, then {log[1]}, then {log[2]} at the first layer of thickness 0, then {log[2]} at place 0, then {log[3]}.')
    yield f'a `site` line has neither {sheet.SITE.groups} nor {sheet.TWO_PAIRS.groups} numbers'
    yield f'Cohesive soil with N below {soil.VALUE[soil.COHESIVE][0]} is entered as [soft clay], kind {soil.SOFT_CLAY}'
    yield (f'For cohesive N above {soil.VALUE[soil.COHESIVE][-1]}, and for cohesionless N of {soil.VALUE[soil.COHESIONLESS][0] - 1} or above '
           f'{soil.VALUE[soil.COHESIONLESS][-1]}')
    yield f'the log must reach {soil.THICKNESS_SUM // 100} m'
    at_end, beyond = at_the_end()
    yield f'is more than the number of levels in the store; in a store of seven levels start 7 with count 0 gets {at_end}, and start 8 gets {beyond}'


def of_scope():
    """Sentences of the page on what the core does not do."""
    yield f'up to {limits.HEIGHT[-1] // 10} m, {limits.LEVELS[-1]} levels and {comma(limits.WEIGHT[-1])} kN a level'
    yield (f'from {HIGH} m on, or with more than {STOREYS} storeys; above {IRREGULAR_HIGH} m, or with more than {IRREGULAR_STOREYS} storeys, '
           'if the building is irregular')
    yield f"{BUILDINGS['irregular']} % of it for an irregular building, to {BUILDINGS['regular']} % for a regular one"
    yield f'where T is up to {storeys.NO_ROOF_FORCE} ms, or where it is more than a quarter of V_D'
    yield f'[soft clay] is below {soil.VALUE[soil.COHESIVE][0]}'


def of_district_page():
    """Sentences of the page on districts."""
    most = district.CELL * district.CELLS
    assert sheets.answer(b'').row[:2] == (16, 1) and sheets.parts(b'\n') == [b''] and sheets.parts(b'') == []
    yield (f'its {district.CELLS} cells, 0 to {district.CELL - 1}, {district.CELL} to {2 * district.CELL - 1} and so on up to '
           f'{comma(most - district.CELL)} to {comma(most - 1)}.')
    yield f'1 kN is {comma(1000)} N.'
    yield f'The largest possible V_D over W is {comma(most_thousandths())} thousandths.'
    yield 'make a sheet without a byte. It has a row, refused with 16 at 1.'
    yield f'A sheet has at most {comma(sheet.MOST_BYTES)} bytes, else its row is refused with 17.'
    yield f'lowest level first, {limits.LEVELS[0]} to {limits.LEVELS[-1]} levels. 3 and 4 have the number of the level in the stretch, from 1.'
    yield f'Else one of no level is refused with 1, and one of over {limits.LEVELS[-1]} levels too.'
    at_end, beyond = at_the_end()
    yield f'In a store of seven levels `start` 7 with `count` 0 gets {at_end}, and `start` 8 gets {beyond}, whatever `count` is.'
    most_sum = district.MOST_JOBS * most_thousandths() * limits.TOTAL_WEIGHT[-1]
    yield f'is at most {comma(most_sum)} N, so 64 bits hold the sum of some {2**64 // most_sum // 10**6} million calls.'
    yield f'Row 1 of part0001.sheets is then sheet {district.MOST_JOBS + 1} of the whole file.'


def of_drift_page():
    """Sentences of the page on drift and torsion."""
    unit, parts, percent = hundredth(), drift.PARTS_OF_LIMIT, accidental.PART * 100
    limit = DRIFT_LIMIT * parts
    assert Fraction(str(unit)) * drift.UNITS_OF_A_DM == 100 and parts == drift.UNITS_OF_A_DM
    yield f'with its sign: mm times {100}'
    yield f'The unit is {unit} mm: mm times {100}, cm times {comma(100 * 10)}, m times {comma(100 * 1000)}.'
    yield f'angle = difference in {unit} mm / ({comma(parts)} · own height in dm)'
    yield f'compare it with {float(DRIFT_LIMIT)} directly'
    yield f'the {float(DRIFT_LIMIT)} of 2.5.4 is {limit} |'
    yield f'The limit of 2.5.4, {float(DRIFT_LIMIT)}, is {limit} here.'
    yield f'1 dm is {comma(parts)} times {unit} mm, and the limit is in ten-thousandths. So the two {comma(parts)} cancel'
    yield f'the bar of storey 5 reaches well beyond the limit of {float(DRIFT_LIMIT)}, that of storey 1 by too little to see, and that of storey 2 ends at it'
    yield f'In the Taipei Basin. (24) has {decimal(sites.V_STAR)} everywhere; (19) has {decimal(basins.V_STAR)} in the Basin'
    yield f'could not pass (2 / {decimal(torsion.TIMES_AVERAGE)})² ='
    yield f'2.5.2 asks for no more than {float(torsion.MOST)}. If the average is 0 and the largest is not, take {torsion.MOST}.000.'
    yield f'The factor is at most {torsion.MOST}.000. It is never below the smaller of the exact A_x and {float(torsion.MOST)}, and less than one thousandth above it'
    yield f'each way by {percent} % of the plan dimension'
    yield f'{comma(10_000 * accidental.HUNDREDTHS)} hundredths of a N·dm are 1 kN·m. To check: {percent} % of'
    yield f'and the core refuses with {order("torsion")[-1]}.'


def of_others():
    """(page, sentence) of pages that are filled."""
    for page, divisor in (('worked.md', sites.V_STAR), ('near_fault.md', sites.V_STAR), ('basin.md', basins.V_STAR)):
        yield page, f'the 1.4 of (7) and (17) becomes {comma(SHEAR)}, and the {decimal(divisor)} of (19) becomes {comma(int(divisor * 10**4))};'
    yield 'README.md', f"what each number from 1 to {order('accidental_moments')[-1]} means"
    yield 'rounding.md', f'never below the smaller of the exact A_x and {float(torsion.MOST)}, and less than one thousandth above it.'
    yield 'README.md', f'how up to {district.MOST_JOBS} sheets are run at once'
    yield 'worked.md', f'There is no [roof force] up to {storeys.NO_ROOF_FORCE} ms. Above that it is {decimal(roof.RISING)} · T · V_D'
    yield 'near_fault.md', f'There is no [roof force] up to {storeys.NO_ROOF_FORCE} ms.'
    yield 'near_fault.md', f'place {places("job", 6)[0]} for N_A, 2 for N_V, 3 for N_A M and {places("job", 6)[-1]} for N_V M'
    yield 'roof_force.md', f'where T is at most {decimal(Fraction(storeys.NO_ROOF_FORCE, 1000))} s, and never more than a quarter of V_D'
    yield 'roof_force.md', f"since version {RELEASES['a finer spectrum']} every shear can be some newtons lower"
    yield 'rounding.md', f'From {roof.NONE_UP_TO + 1} to {comma(roof.QUARTER_FROM - 1)} ms a smaller T'
    yield 'rounding.md', f'a period between {roof.NONE_UP_TO} and {roof.NONE_UP_TO + 1} ms becomes {roof.NONE_UP_TO} ms'
    yield 'shear_and_storeys.md', f'less than {HANDED_IN} N above it. This is proved'
    yield 'soil.md', 'hard if 27·U < 3·10⁹; else soft if 18·L > 3·10⁹'
    yield 'soft_clay.md', 'q is q_u in kPa divided by 0.980665: 60 kPa give 61.18, and q is 61. 1 kgf/cm² is 98.0665 kPa, or 10 tf/m²'
    assert decimal(Fraction('60') / Fraction('0.980665'), 2).startswith('61.18') and Fraction('98.0665') / 100 == Fraction('0.980665')


def by_sentence():
    """(holds, words) of each sentence that must stand on its page."""
    wanted = [*of_others(), *((page, words) for page, said in (
        ('sheet.md', of_sheet()), ('rules.md', of_rules()), ('refusals.md', of_refusals()), ('scope.md', of_scope()), ('district.md', of_district_page()),
        ('drift.md', of_drift_page()))
        for words in said)]
    for page, words in wanted:
        yield words in plain((MANUAL / page).read_text()), f'docs/manual/{page}: does not say: {words}'


def by_form():
    """(holds, words) of each formula wherever it stands."""
    for path in sorted(MANUAL.glob('*.md')):
        for form, allowed in FORMS:
            for said in re.finditer(form, path.read_text()):
                yield said.groups() in allowed, f'docs/manual/{path.name}: {said[0]}'


def main():
    """Check all, say what is wrong; or write the table."""
    if sys.argv[1:] == ['write']:
        TABLE.write_text(table())
        return 0
    results = [list(check()) for check in (by_table, by_sentence, by_form)]
    wrong = [words for each in results for holds, words in each if not holds]
    print(*wrong, sep='\n', end='\n' if wrong else '')
    count = sum(len(found) for page in MANUAL.glob('*.md') for _, found in found_in(page.name))
    print(f'{count} numerals of the manual, {len(results[1])} sentences, {len(results[2])} formulas, {len(wrong)} wrong')
    return 1 if wrong else 0


if __name__ == '__main__':
    sys.exit(main())
