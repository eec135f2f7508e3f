"""Holds include/rukeshomaji.h to the core by reading both: every constant, every range, every struct and every declaration; and every other numeral
of its comments to the model and to the manual.

usage: python3 -m tests.compares.header

- every constant of the header is the core's: one of crates/limits/src, crates/sheet/src, crates/district_call/src, crates/drift/src or
  crates/linked/src, by the table below; every refusal number of the core is in the header
- every range that the header prints is the core's
- the lines `Refused`, the places, classes, kinds, bounds, versions and equations of the comments are as tests/compares/header_words.py says, and no
  numeral of a comment is held by nothing
- every entry is declared, with the types in the order in which the core takes them; a struct has as many numbers as the core's array has
  cells, and those of site, frame, job, row and report of a district are in the core's order

It prints what is wrong and one line of counts, and exits with 1 where anything is.
"""

import pathlib
import re
import sys

from tests.compares import header_words

ROOT = pathlib.Path(__file__).resolve().parents[2]
HEADER = (ROOT / 'include' / 'rukeshomaji.h').read_text()
PREFIX = 'RUKESHOMAJI_'
# each constant of the header but the refusals: file and name in the core
CONSTANTS = {
    'VERSION': 'linked/lib VERSION', 'EDITION': 'linked/lib EDITION', 'SOURCE': 'linked/lib SOURCE',
    'MOST_LEVELS': 'limits/level MOST', 'MOST_LAYERS': 'limits/layer MOST', 'MOST_BYTES': 'limits/sheet BYTES_MOST',
    'LONGEST_LISTING': 'sheet/listing LONGEST', 'MOST_TOTAL_WEIGHT': 'limits/building WEIGHT_MOST',
    'MOST_BASE_SHEAR': 'limits/handed SHEAR_MOST', 'DISTRICT_JOBS': 'limits/district JOBS_MOST', 'CELLS': 'district_call/report CELLS',
    'MOST_DISPLACEMENT': 'limits/displacement SIZE_MOST', 'MOST_DRIFT_LIMIT': 'limits/drift_limit MOST', 'MOST_DIMENSION': 'limits/plan DIMENSION_MOST',
    'MOST_TORSION_FACTOR': 'drift/torsion FACTOR_MOST',
    'HARD': 'limits/class HARD', 'NORMAL': 'limits/class NORMAL', 'SOFT': 'limits/class SOFT',
    'STEEL': 'limits/kind STEEL', 'CONCRETE': 'limits/kind CONCRETE', 'BRACED': 'limits/kind BRACED', 'OTHER': 'limits/kind OTHER',
    'NO_PERIOD': 'limits/frame NO_PERIOD',
    'MEASURED': 'limits/layer MEASURED', 'COHESIVE': 'limits/layer COHESIVE', 'COHESIONLESS': 'limits/layer COHESIONLESS',
    'SOFT_CLAY': 'limits/layer SOFT_CLAY',
}
NOT_REFUSALS = {'NOWHERE'}      # of the constants beside the refusal numbers
# how a range is printed: the words before it, and file and names of its ends, or of its list
RANGES = [
    ('S_S of the design level, 0.01 g: ', 'limits/site SS_DESIGN'), ('S_1 of the design level, 0.01 g: ', 'limits/site S1_DESIGN'),
    ('S_S of the MCE level, 0.01 g: ', 'limits/site SS_MCE'), ('S_1 of the MCE level, 0.01 g: ', 'limits/site S1_MCE'),
    ('N_A of the design level, 0.01: ', 'limits/site NA_LEAST NA_MOST'),
    ('N_V of the design level, 0.01: ', 'limits/site NV_LEAST NV_MOST'),
    ('N_A of the MCE level, 0.01: ', 'limits/site NA_LEAST NA_MOST'), ('N_V of the MCE level, 0.01: ', 'limits/site NV_LEAST NV_MOST'),
    ('calculated period, ms: ', 'limits/frame PERIOD_LEAST PERIOD_MOST'), ('R, 0.01: ', 'limits/frame R_LEAST R_MOST'),
    ('I, 0.01: ', 'limits/frame I_VALUES'), ('alpha-y, 0.01: ', 'limits/frame ALPHA_LEAST ALPHA_MOST'),
    ('lowest first, kN: ', 'limits/level WEIGHT_LEAST WEIGHT_MOST'), ('lowest first, dm: ', 'limits/level HEIGHT_LEAST HEIGHT_MOST'),
    ('each; ', 'limits/level FEWEST MOST', ' levels'), ('together 3,000; ', 'limits/layer FEWEST MOST', ' layers'),
    ('cm: above 0, together ', 'limits/layer DEPTH'), ('do not add up to ', 'limits/layer DEPTH'),
    ('dm/s: ', 'limits/layer VELOCITY_LEAST VELOCITY_MOST'), ('cohesive: N: ', 'limits/layer COHESIVE_LEAST COHESIVE_MOST'),
    ('cohesionless: N: ', 'limits/layer COHESIONLESS_LEAST COHESIONLESS_MOST'),
    ('soft clay: q, 0.01 kgf/cm2: ', 'limits/layer SOFT_CLAY_LEAST SOFT_CLAY_MOST'), ('bytes: at most ', 'limits/sheet BYTES_MOST'),
    ('sheet over ', 'limits/sheet BYTES_MOST'), ('no level, or over ', 'limits/level MOST'), ('no layer, or over ', 'limits/layer MOST'),
    ('bytes: 1 to ', 'sheet/listing LONGEST'), ('micro-zone of the Basin: ', 'limits/zone ONE FOUR'), ('zone not ', 'limits/zone ONE FOUR'),
    ('total weight, kN: ', 'limits/building WEIGHT_LEAST WEIGHT_MOST'), ('top height, dm: ', 'limits/level HEIGHT_LEAST HEIGHT_MOST'),
    ('among the levels, N: ', 'limits/handed SHEAR_LEAST SHEAR_MOST'), ('roof force, ms: ', 'limits/handed PERIOD_LEAST PERIOD_MOST'),
    ('of the stretch, levels: ', 'limits/level FEWEST MOST'), ('see above: at most ', 'limits/district JOBS_MOST'),
    ('of a whole district: over ', 'limits/district JOBS_MOST'),
    ('each with its sign: at most ', 'limits/displacement SIZE_MOST', ' in size'), ('of the angle, ten-thousandths: ', 'limits/drift_limit LEAST MOST'),
    ('without a sign, 0.01 mm: at most ', 'limits/displacement SIZE_MOST'), ('right angle to the forces, dm: ', 'limits/plan DIMENSION_LEAST DIMENSION_MOST'),
    ('thousandths, rounded up, and at most ', 'drift/torsion FACTOR_MOST'), ('for each of ', 'limits/level FEWEST MOST', ' levels'),
]
# what the core takes, as C declares it; the array of a struct by the parameter's name
TYPES = {
    '&[u64]': 'const uint64_t *, uint64_t', '&mut [u64]': 'uint64_t *, uint64_t', '&[u8]': 'const char *, uint64_t',
    '&[i64]': 'const int64_t *, uint64_t', '&mut [i64]': 'int64_t *, uint64_t',
    '&mut [u8; LONGEST]': 'char *', '&mut u64': 'uint64_t *', 'u64': 'uint64_t',
}
STRUCTS = {
    'site': 'RukeshomajiSite', 'frame': 'RukeshomajiFrame', 'figures': 'RukeshomajiFigures',
    'site_class reply': 'RukeshomajiClass', 'sheet reply': 'RukeshomajiListing', 'torsion reply': 'RukeshomajiTorsion',
    'jobs': 'RukeshomajiDistrictJob', 'rows': 'RukeshomajiRow', 'report': 'RukeshomajiReport',
}
# where the core says how many cells an array has
SIZES = {'JOB': 'district_call/entered', 'ROW': 'district_call/row', 'REPORT': 'linked/arrays', 'CELLS': 'district_call/report',
         'TOTALS': 'linked/arrays'}
# names of the core that are others in the header
RENAMED = {'class': 'class_number', 'alpha': 'alpha_y'}
BY = {'v': 'by_v', 'vm': 'by_vm', 'star': 'by_star'}


def source(name):
    """The text of a file of the core, as limits/level."""
    crate, file = name.split('/')
    return (ROOT / 'crates' / crate / 'src' / f'{file}.rt').read_text()


def constants(text):
    """name -> number, or list of numbers, of the constants that a file of the core declares, and of the kinds of its enums that have numbers."""
    found = {}
    for name, value in re.findall(r'\bconst (\w+): [^=]+ = ([^;]+);', text):
        numbers = [int(each.replace('_', '')) for each in re.findall(r'\b\d[\d_]*\b', value)]
        found[name] = numbers if value.startswith('[') else numbers[0] if numbers else None
    for name, value in re.findall(r'^ {4}(\w+) = (\d+),$', text, re.M):
        found[re.sub(r'(?<=[a-z])(?=[A-Z])', '_', name).upper()] = int(value)
    return found


def named(file, name):
    """A constant of a file of the core; of a type in it, as DriftLimit::MOST, where two have one of that name."""
    kind, _, own = name.rpartition('::')
    text = source(file)
    return constants(re.search(rf'^impl {kind} {{$.*?^}}$', text, re.S | re.M)[0] if kind else text)[own]


def core_constant(where):
    """Of 'limits/level MOST' the number."""
    return named(*where.split())


def printed(numbers):
    """Numbers as the header prints them."""
    words = [f'{each:,}' for each in numbers]
    return f"{', '.join(words[:-1])} or {words[-1]}"


def check_constants():
    """Every constant, and every refusal number."""
    header = {name: int(value) for name, value in re.findall(rf'^#define {PREFIX}(\w+) (\d+)\b', HEADER, re.M)}
    refusals = {f'REFUSED_{name}': value for name, value in constants(source('limits/refusal')).items() if name not in NOT_REFUSALS}
    core = {**refusals, **{name: core_constant(where) for name, where in CONSTANTS.items()}}
    for name in sorted(header.keys() | core.keys()):
        yield header.get(name) == core.get(name), f'{PREFIX}{name}: the header has {header.get(name)}, the core {core.get(name)}'


def ranges():
    """Each range as the header must print it: the words before it, the range, the words after it."""
    for before, where, *after in RANGES:
        file, *names = where.split()
        values = [named(file, name) for name in names]
        words = ' to '.join(f'{each:,}' for each in values) if len(values) == 2 else None
        yield before, words or (printed(values[0]) if isinstance(values[0], list) else f'{values[0]:,}'), ''.join(after)


def check_ranges():
    """Every range that is printed, wherever it is."""
    text = re.sub(r'\s*\n \*\s*|\s+', ' ', HEADER)
    for before, words, after in ranges():
        places = [match.end() for match in re.finditer(r'(?<![\w-])' + re.escape(before), text)]
        right = places and all(re.match(re.escape(words + after) + r'(?![\d,]*\d)', text[place:]) for place in places)
        yield right, f'after {before!r} the header has {[text[place:place + 20] for place in places]}, the core {words!r}'


def fields(struct):
    """The numbers of a struct of the header by their names, those of a struct in it in their place, those of an array by the array's name."""
    body = re.search(r'typedef struct \{([^}]*)\} ' + struct + ';', HEADER)[1]
    found = []
    for kind, name, count in re.findall(r'^\s*(uint64_t|Rukeshomaji\w+) (\w+)(?:\[RUKESHOMAJI_(\w+)\])?;', body, re.M):
        found += fields(kind) if kind != 'uint64_t' else [name] * (core_constant(CONSTANTS[count]) if count else 1)
    return found


def size(words):
    """How many cells an array of the core has: a number, the name of a constant, or a sum of these."""
    return sum(int(word) if word.isdigit() else size(re.search(rf'\bconst {word}: usize = ([^;]+);', source(SIZES[word]))[1])
               for word in words.split(' + '))


def check_entries():
    """Every entry: its parameters, and the structs behind them."""
    text = source('linked/lib')
    declared = dict(re.findall(r'^uint64_t (rukeshomaji_\w+)\(([^)]*)\);', HEADER, re.M))
    entries = dict(re.findall(r'extern "C" fn (rukeshomaji_\w+)\(([^)]*)\) -> u64', text))
    for name in sorted(declared.keys() | entries.keys()):
        expected = []
        for parameter, kind in re.findall(r'(\w+): (&(?:mut )?\[(?:\[[^\]]*\]|[^\[\]])*\]|&mut u64\b|u64\b)', entries.get(name, '')):
            sized = re.fullmatch(r'&(mut )?(\[)?\[u64; (\w+)\](?(2)\])', kind)
            if not sized:
                expected.append(TYPES[kind])
                continue
            struct = STRUCTS.get(parameter) or STRUCTS[f"{name.split('_', 1)[1]} {parameter}"]
            expected.append(f"{'' if sized[1] else 'const '}{struct} *{', uint64_t' if sized[2] else ''}")
            yield len(fields(struct)) == size(sized[3]), f'{struct} has {len(fields(struct))} fields, the core {size(sized[3])} cells'
        given = ', '.join(re.sub(r'\s*\w+$', '', re.sub(r'(char) (\w+)\[\w+\]$', r'\1 *\2', each.strip()))
                          for each in declared.get(name, 'not declared').split(',') if each != 'void')
        yield given == ', '.join(expected), f"{name}: the header takes ({given}), the core ({', '.join(expected)})"
    for struct, names in orders():
        yield fields(struct) == names, f'{struct} has {fields(struct)}, the core {names}'


def function(file, name):
    """The text of a function of the core."""
    return re.search(rf'fn {name}\b.*?^}}', source(file), re.S | re.M)[0]


def numbered(file):
    """The names of the values that a file of the core makes of a line's numbers, in their order."""
    places = {int(place): RENAMED.get(name, name) for name, place in re.findall(r'(\w+): numbers\[(\d+)\]', function(file, 'of'))}
    return [places[place] for place in range(len(places))]


def orders():
    """The names of a struct's numbers in the order of the core's array."""
    values = {'Site': numbered('limits/site'), 'Frame': numbered('limits/frame')}
    for name, names in values.items():
        yield f'Rukeshomaji{name}', names
    entered = source('district_call/entered')
    places = {int(place): name for name, place in re.findall(r'(\w+): j\[(\d+)\]', entered)}
    places |= {int(re.search(r'if j\[(\d+)\] == ON_SITE', entered)[1]): 'basin', int(re.search(r'Basin\(j\[(\d+)\]\)', entered)[1]): 'zone'}
    for name, first, end in re.findall(r'(\w+)Values::of\(&j\[(\d+)\.\.(\d+)\]\)', entered):
        assert int(end) - int(first) == len(values[name])
        places |= dict(enumerate(values[name], int(first)))
    yield 'RukeshomajiDistrictJob', [places[place] for place in range(len(places))]
    taken, refused = (re.search(rf'{variant}\(\w\) => (?:{{.*?)?\[([^\]]*)\]', function('district_call/row', 'row_of'), re.S)[1].split(', ')
                      for variant in ('Ok', 'Err'))
    yield 'RukeshomajiRow', [(one if one != '0' else other).split('.')[1] for one, other in zip(taken, refused)]
    put = function('linked/arrays', 'put_report')
    totals = re.findall(r'\bt\.(\w+)', re.search(r'totals\.copy_from_slice\(&\[([^\]]*)\]\);', put)[1])
    assert len(totals) == size('TOTALS') and 'out.split_at_mut(TOTALS)' in put and 'cells.copy_from_slice(&r.cells);' in put
    yield 'RukeshomajiReport', [BY.get(name, name) for name in totals] + ['cells'] * (size('REPORT') - len(totals))


def check_comments():
    """Every other numeral of the comments. Constants and ranges are held above."""
    defined = re.findall(rf'^#define ({PREFIX}\w+ \d+)\b', HEADER, re.M)
    return header_words.checks(HEADER, core_constant, [*defined, *map(''.join, ranges())])


def main():
    """Check all, say what is wrong."""
    counts, wrong = [], 0
    for what, checks in (('constants', check_constants()), ('ranges', check_ranges()), ('declarations and structs', check_entries()),
                         ('sentences and numerals of comments', check_comments())):
        results = list(checks)
        for right, words in results:
            if not right:
                print(words)
                wrong += 1
        counts.append(f'{len(results)} {what}')
    print(f"{', '.join(counts)}, {wrong} wrong")
    return 1 if wrong else 0


if __name__ == '__main__':
    sys.exit(main())
