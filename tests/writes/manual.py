"""Fills the pages of tests/writes/pages with the model's figures and writes them to docs/manual.

usage: python3 -m tests.writes.manual

A page says {name} where a figure, a table or a block of steps stands. What a page says in digits of its own is a constant of the rules, a
number of the code's text, or a fact that PROMISES.md states.
"""

import pathlib
import string
from fractions import Fraction
from math import ceil

from tests.model import exact, limits, response, storeys
from tests.model.sheet import listing
from tests.writes import calls, district_page, drift_page, finer, logs, moves, near_fault, roof, root, towers
from tests.writes.by_hand import one_sheet
from tests.writes.by_hand.text import code, comma, decimal, ranged, table
from tests.writes.by_hand.worked import read

ROOT = pathlib.Path(__file__).resolve().parents[2]
PAGES, MANUAL = ROOT / 'tests' / 'writes' / 'pages', ROOT / 'docs' / 'manual'


def example(name):
    """The bytes of an example, whose stored listing must be the model's."""
    data = (ROOT / 'examples' / f'{name}.sheet').read_bytes()
    stored = (ROOT / 'examples' / f'{name}.listing').read_bytes()
    assert stored == listing(read(data)), name
    return data


def rounding_names():
    """What the page on roundings names."""
    worked, other, near, basin = (read(example(name)) for name in ('office', 'soft_ground', 'near_fault', 'basin'))
    unit = exact.shear_unit(other) / other.s
    frame = other.frame
    _, above = exact.bounds(other)
    F, q = other.design.lower_factor, other.q
    of_lower_root = Fraction(other.s * other.design.spectrum, F)
    rows = [('no rounding, root to 30 digits', decimal(above.V / unit, 3), decimal(above.V), ''),
            ('root rounded down', decimal(of_lower_root, 3), decimal(of_lower_root * unit), decimal(of_lower_root * unit - above.V)),
            ('q rounded up', comma(q), decimal(q * unit), decimal((q - of_lower_root) * unit)),
            ('V rounded up', '', comma(other.V), decimal(other.V - q * unit))]
    assert other.m == q and other.V == other.V_D and of_lower_root < q
    assert other.V - q * unit > (q - of_lower_root) * unit > of_lower_root * unit - above.V
    I, alphay = decimal(Fraction(frame.I, 100)), decimal(Fraction(frame.alphay, 100))
    ten_millionth = code([f'{I} · {comma(other.W)} kN · 1000 / (1.4 · {alphay}) / 10⁷ = {decimal(unit)} N'])
    shears = []
    for name, each in (('worked sheet', worked), ('second sheet', other), ('near-fault sheet', near), ('Basin sheet', basin)):
        below, _ = exact.bounds(each)
        margin = 6 * exact.shear_unit(each) / each.s + 1
        shears.append((name, 'V_D', comma(each.V_D), decimal(below.V_D), decimal(each.V_D - below.V_D), decimal(margin)))
        for place in reversed(range(len(each.shears))):
            least = below.storeys[place]
            shears.append((name, f'storey {place + 1}', comma(each.shears[place]), decimal(least), decimal(each.shears[place] - least),
                           decimal(margin + 2)))
    return {'ten_millionth': ten_millionth, 'V_printed': comma(other.V), 'margin': decimal(6 * unit + 1), **heaviest(),
            'V_steps': table(('', 'q, 10⁻⁷', 'V, N', 'added, N'), rows),
            'shears_table': table(('', '', 'printed, N', 'exact, N', 'above it by, N', 'margin, N'), shears), **alone(worked)}


def heaviest():
    """Six ten-millionths of I*W/(1.4*alpha-y) for the heaviest building, and the largest V_D: 0.7 times the largest spectrum, 1.5 g, of
    it at a factor of 1."""
    W, I, alphay = limits.LEVELS[-1] * limits.WEIGHT[-1], limits.I_VALUES[-1], limits.ALPHA_Y[0]
    unit = Fraction(I * W * 1000 * 10, 14 * alphay)
    most = Fraction(7, 10) * Fraction(limits.S_S_MCE[-1] * limits.N_A[-1], 10**4) * unit
    return {'heaviest': decimal(6 * unit / response.UNIT), 'most_V_D': comma(int(most))}


def alone(worked):
    """Forces rounded up one by one, and what they add up to."""
    parts = storeys.products_above(worked.weights, worked.heights)
    rows, total = [], 0
    for place in reversed(range(len(parts))):
        product = worked.weights[place] * worked.heights[place]
        share = Fraction((worked.V_D - worked.F_t) * product, parts[0])
        roof = worked.F_t if place == len(parts) - 1 else 0
        total += ceil(share) + roof
        rows.append((str(place + 1), decimal(share + roof), comma(ceil(share) + roof), comma(worked.forces[place])))
    rows.append(('sum', comma(worked.V_D), comma(total), comma(sum(worked.forces))))
    assert total != worked.V_D
    below, _ = exact.bounds(worked)
    lowest = below.storeys[0] - below.storeys[1]
    assert worked.forces[0] < lowest and worked.shears[0] >= below.storeys[0]
    return {'alone_table': table(('level', 'before rounding, N', 'rounded up alone, N', 'listing, N'), rows),
            'forces_listed': ' + '.join(map(comma, reversed(worked.forces))) + f' = {comma(sum(worked.forces))}',
            'lowest_force': comma(worked.forces[0]), 'lowest_exact': decimal(lowest)}


def calls_names():
    """What the page on the shear call and the distribution names."""
    return {**calls.names(example('office')), **heaviest(), 'total_weight': ranged(limits.TOTAL_WEIGHT), 'top_height': ranged(limits.HEIGHT),
            'base_shears': ranged(limits.BASE_SHEAR), 'periods': ranged(limits.PERIOD)}


def finer_names():
    """What the page on the finer spectrum names."""
    others = {f'{name}.sheet': read(example(name)) for name in ('office', 'soft_ground', 'near_fault', 'basin', 'tall_frame')}
    return finer.names(example('light_frame'), others)


def filled(page, names):
    """A page with its names filled in; each is used."""
    text = (PAGES / page).read_text()
    used = {name for _, name, _, _ in string.Formatter().parse(text) if name is not None}
    assert used <= names.keys(), used - names.keys()
    head = f'<!-- Written by `python3 -m tests.writes.manual` from tests/writes/pages/{page}: change it there. -->\n'
    return head + text.format_map(names)


def written():
    """Each page that is filled, by its name."""
    pages = {'worked.md': one_sheet.names(example('office')), 'soft_ground.md': one_sheet.names(example('soft_ground')),
             'near_fault.md': near_fault.names(example('near_fault')), 'basin.md': one_sheet.names(example('basin')),
             'roof_force.md': roof.names(*map(example, ('office', 'soft_ground', 'tall_frame'))), 'rounding.md': rounding_names(), 'soil.md': logs.names(),
             'soft_clay.md': logs.soft_clay_names(), 'root.md': root.names(), 'towers.md': towers.names(example('office')),
             'moves.md': moves.names(example('office'), example('near_fault')),
             'shear_and_storeys.md': calls_names(), 'finer_spectrum.md': finer_names(), 'district.md': district_page.names(),
             'drift.md': drift_page.names(example('office'))}
    assert {path.name for path in PAGES.iterdir()} == pages.keys()
    return {page: filled(page, names) for page, names in pages.items()}


if __name__ == '__main__':
    for each, content in written().items():
        (MANUAL / each).write_text(content)
