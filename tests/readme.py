"""Holds what README.md says in digits, and in number words, to the header, the examples, the model and CHANGELOG.md; no numeral of it is held by nothing.

usage: python3 -m tests.readme

The sheet and its listing are held by tests.manual. It prints what is wrong and one line of counts, and exits with 1 where anything is.
"""

import pathlib
import re
import sys
from fractions import Fraction
from math import ceil

from tests.compares.header_words import DRIFT_LIMIT, DRIFT_SHEAR, factors, hundredth
from tests.model import district, drift, limits, sheet, storeys, torsion
from tests.stated import held, plain, releases
from tests.writes import roof
from tests.writes.five_jobs import JOBS
from tests.writes.six_storeys import ENDS
from tests.writes.by_hand.text import comma, decimal, ranged
from tests.writes.by_hand.worked import read

ROOT = pathlib.Path(__file__).resolve().parents[1]
NUMBER_WORDS = {2: 'two', 3: 'three', 4: 'four', 5: 'five', 7: 'seven', 9: 'nine', 100: 'hundred'}
MARGIN, BASE, STOREY, HANDED_IN = 6, 1, 3, 2       # Wishes 7 and 6 of 02: six ten-millionths, plus 1 N, plus two more; below 2 N of a shear handed in
# what is said in digits and is no number of the rules
SAID = ('its exit status is 1', 'its exit status is 1 if there is one', '(0 and 0 if it is accepted)', 'for x86-64 Linux', 'processors of level x86-64-v2', 'the largest of the three',
        'A job is two calls in one', 'The module for Python has all three', 'took 11 minutes on four cores', '`N passed, 0 failed`',
        'each as two compilers build it', 'in about half a minute')


def numbers(name):
    """The constants of the header."""
    return {name: int(value) for name, value in re.findall(r'^#define RUKESHOMAJI_(\w+) (\d+)\b', (ROOT / 'include' / name).read_text(), re.M)}


def example(name):
    """The job of an example."""
    return read((ROOT / 'examples' / f'{name}.sheet').read_bytes())


def fields():
    """The table of the sheet's fields."""
    header = numbers('rukeshomaji.h')
    classes = ', '.join(f'{header[name.upper()]} {name}' for name in ('hard', 'normal', 'soft'))
    kinds = ', '.join(f'{header[name]} {words}' for name, words in (
        ('STEEL', 'steel frame'), ('CONCRETE', 'RC or SRC frame'), ('BRACED', 'eccentrically braced steel frame'), ('OTHER', 'other')))
    assert sorted(limits.CLASS) == [header[name] for name in ('HARD', 'NORMAL', 'SOFT')]
    assert sorted(limits.KIND) == [header[name] for name in ('STEEL', 'CONCRETE', 'BRACED', 'OTHER')]
    nine, seven = (NUMBER_WORDS[layout.groups] for layout in (sheet.TWO_PAIRS, sheet.SITE))
    yield 'mapped S_S and S_1 of the design level, S_S and S_1 of the MCE (maximum considered earthquake) level, in 0.01 g;'
    yield ('near-fault factors N_A and N_V of the design level, N_A and N_V of the MCE level, in 0.01; '
           f'site class: {classes}. {nine.capitalize()} numbers; with {seven}, as here, one pair')
    yield f'the micro-zone, {ranged(limits.ZONE)} ([the Basin'
    yield (f"kind: {kinds}; calculated period in ms, {header['NO_PERIOD']} for none; "
           'R (ductility), I (importance) and alpha-y (first yield factor), each in 0.01 |')
    yield 'weight in kN, height above the base in dm; lowest level first'
    yield 'V, V_M, V* and V_D, the largest of the three, in N; the period in use, T, in ms'
    yield 'force in N; shear of the storey below in N; overturning moment about the bottom of that storey in N·dm'


def fragment():
    """The program in C: what examples/office.c has, with its count of levels as a number and its lists without one."""
    text = (ROOT / 'examples' / 'office.c').read_text()
    count = re.search(r'enum { LEVELS = (\d+) };', text)[1]
    lines = [line.strip() for line in text.split('\n')]
    site, frame, lists, buffers, call = (next(line for line in lines if line.startswith(first)) for first in (
        'RukeshomajiSite site', 'RukeshomajiFrame frame', 'uint64_t weights', 'uint64_t forces', 'uint64_t refused'))
    yield site
    yield frame
    yield f"{lists.replace('[LEVELS]', '[]').removesuffix(';')}, {buffers.removeprefix('uint64_t ')}".replace('LEVELS', count)
    yield call.replace('LEVELS', count)
    office, near = example('office'), example('near_fault')
    hard = {numbers('rukeshomaji.h')['HARD']: 'RUKESHOMAJI_HARD'}
    for name, worked in (('site', office), ('near_fault', near)):
        *first, cls = worked.ground
        yield f"RukeshomajiSite {name} = {{{', '.join(map(str, first))}, {hard[cls]}}};"
    kind, *rest = office.frame
    assert frame == f"RukeshomajiFrame frame = {{{ {2: 'RUKESHOMAJI_CONCRETE'}[kind]}, {', '.join(map(str, rest))}}};"
    assert lists == f"uint64_t weights[LEVELS] = {{{', '.join(map(str, office.weights))}}}, heights[LEVELS] = {{{', '.join(map(str, office.heights))}}};"
    fields_of_site = NUMBER_WORDS[len(limits.Site._fields)]
    yield f'A site has {fields_of_site} numbers in C and in Python'
    yield f'Here the {NUMBER_WORDS[len(limits.FACTORS)]} factors are {office.ground.NA}.'
    zone = example('basin').ground.zone
    yield f'call `rukeshomaji_basin_job({zone}, &frame, …)` with the zone, {ranged(limits.ZONE)}, in place'
    yield f'from Python `basin_job({zone}, frame, weights, heights)`'
    yield f'`rukeshomaji_shear_call(&site, &frame, {office.W}, {office.heights[-1]}, &f)`'
    yield f'`rukeshomaji_basin_shear_call({zone}, &frame, {office.W}, {office.heights[-1]}, &f)`, takes the total weight in kN and the top height in dm'


def version_before(version):
    """The minor version before one, as 2.2 of 2.3.0."""
    major, minor, _ = map(int, version.split('.'))
    return f'{major}.{minor - 1}'


def versions():
    """The release, and what older ones answered."""
    brought = releases((ROOT / 'CHANGELOG.md').read_text())
    newest, finer, roofs, clay, pairs, districts = (brought[title] for title in (
        next(iter(brought)), 'a finer spectrum', 'the roof force rule', 'soft clay by its strength', 'near-fault factors for each hazard level',
        'a whole district in one call'))
    major, minor, last = map(int, newest.split('.'))
    assert major * 10**6 + minor * 1000 + last == numbers('rukeshomaji.h')['VERSION']
    W, I, alphay = limits.LEVELS[-1] * limits.WEIGHT[-1], limits.I_VALUES[-1], limits.ALPHA_Y[0]
    most = ceil(MARGIN * Fraction(I * W * 1000 * 10, 14 * alphay) / 10**6 + BASE)      # six millionths of the heaviest building, plus 1 N
    yield f'The version is {newest}. A program of version {pairs.removesuffix(".0")} to {version_before(newest)} needs no change.'
    yield (f'All figures are those of {version_before(newest)}; `rukeshomaji_drift`, `rukeshomaji_torsion` and `rukeshomaji_accidental_moments` are new. '
           f'`rukeshomaji_district` is there since {districts}, and soft clay in a soil log is taken since {clay}.')
    assert newest == brought['drift and torsion']
    yield f'Shears of {version_before(finer)} are the same or some newtons higher, in the heaviest buildings by less than {comma(most)} N'
    yield (f'Where T is up to {storeys.NO_ROOF_FORCE} ms, or {comma(roof.QUARTER_FROM)} ms or more, forces, shears and moments can differ from those of '
           f'{version_before(roofs)} by more')
    nine, seven = (NUMBER_WORDS[layout.groups] for layout in (sheet.TWO_PAIRS, sheet.SITE))
    yield f'A program of version {major - 1} that gives a site'
    yield f'the struct of a site has {nine} fields in place of {seven}'
    yield f'from one period to the next before version {finer} '


def of_districts():
    """A district by a file and by a call."""
    header, example_sheets = numbers('rukeshomaji.h'), (ROOT / 'examples' / 'district.sheets').read_bytes()
    assert (header['DISTRICT_JOBS'], header['CELLS']) == (district.MOST_JOBS, district.CELLS) and example_sheets.count(b'\n\n') == 100
    yield f'a file of up to {district.MOST_JOBS} sheets, with an empty line after each'
    yield f'and {district.CELLS} lines `cell`'
    yield f'has a district of a {NUMBER_WORDS[100]} sheets with a chart'
    yield f'takes up to {district.MOST_JOBS} jobs that share one store of levels'
    yield f'call it with {NUMBER_WORDS[len(JOBS)]} jobs.'


def of_drifts():
    """Drift, torsion and accidental moments."""
    header = numbers('rukeshomaji.h')
    assert (header['MOST_DISPLACEMENT'], header['MOST_DRIFT_LIMIT'], header['MOST_DIMENSION'], header['MOST_TORSION_FACTOR']) == (
        limits.DISPLACEMENT[-1], limits.DRIFT_LIMIT[-1], limits.DIMENSION[-1], factors()[1])
    yield 'Three more calls are for'
    yield f'make them for a frame, {NUMBER_WORDS[len(ENDS)]} floors and the worked sheet.'
    yield f'displacements in {hundredth()} mm with their signs, the limit in ten-thousandths: {float(DRIFT_LIMIT)} is {DRIFT_LIMIT * drift.PARTS_OF_LIMIT}.'
    yield f"Use the displacements under the base shear of the code's equation {DRIFT_SHEAR}, which is [not V_D]"
    least, most = factors()
    assert least < 1000
    yield f'rounded up, at most {most:,}; it can be below 1: equal displacements give {least}'
    yield f'in hundredths of a N·dm, by a plan dimension of {ranged(limits.DIMENSION)} dm'
    yield f'The torsion factor is at most {torsion.MOST}.000, never below the smaller of the exact A_x and {float(torsion.MOST)}, and less than one thousandth above it.'


def sentences():
    """What README.md says, with the numbers that it must have."""
    near, basin = example('near_fault'), example('basin')
    part = Fraction(storeys.F_t(roof.QUARTER_FROM, 10**6), 10**6)
    kit = re.search(r'`(rattle-\S+ logic \w+)`', (ROOT / 'docs' / 'LIMITS.md').read_text())[1]
    yield f"Taiwan's {numbers('rukeshomaji.h')['EDITION']} code"
    yield (f'less than six ten-millionths of I·W/(1.4·alpha-y) plus {BASE} N, a storey shear by less than the same six ten-millionths plus {STOREY} N.** '
           'Here W, the total weight, is in N, and I and alpha-y are plain numbers.')
    yield f'where T is at most {decimal(Fraction(storeys.NO_ROOF_FORCE, 1000))} s, and it is at most a { {Fraction(1, 4): "quarter"}[part]} of the base shear'
    yield f'with a calculated period of {near.frame.calculated_period} ms and a pair'
    yield f'the same building in zone {basin.ground.zone} of the Basin ([by hand, in all {NUMBER_WORDS[len(limits.ZONE)]} zones])'
    yield f'and less than {HANDED_IN} N above it'
    yield f'`rt version` says `{kit}`'
    yield from fields()
    yield from fragment()
    yield from versions()
    yield from of_districts()
    yield from of_drifts()
    yield from SAID


def main():
    """Check all, say what is wrong."""
    text = plain(re.sub(r'\n\n```\n.*?\n```\n', '', (ROOT / 'README.md').read_text(), flags=re.S))
    results = list(held('README.md', text, sentences()))
    wrong = [words for holds, words in results if not holds]
    print(*wrong, sep='\n', end='\n' if wrong else '')
    print(f'{len(results)} sentences and numerals of README.md, {len(wrong)} wrong')
    return 1 if wrong else 0


if __name__ == '__main__':
    sys.exit(main())
