"""Sheets and listings wherever they are shown, and the list of pages."""

import re

from tests.manual.pages import BASIN, MANUAL, NEAR_FAULT, OFFICE, ROOT, listed, page
from tests.model import limits, sheet
from tests.writes.by_hand.worked import read


def of_basin_and_near_fault():
    """The sheets of the Basin and near a fault, and the listings of every zone."""
    for zone in limits.ZONE:
        changed = b'basin\t%d\n' % zone + BASIN.split(b'\n', 1)[1]
        yield f'```\n{sheet.shear(changed).decode()}```\n' in page('basin.md'), f'docs/manual/basin.md: no listing of zone {zone}'
    for name, data in (('basin', BASIN), ('near_fault', NEAR_FAULT)):
        for paper in ('sheet.md', f'{name}.md'):
            yield f'```\n{data.decode()}```\n' in page(paper), f'docs/manual/{paper}: not the sheet of examples/{name}'
        stored = (ROOT / 'examples' / f'{name}.listing').read_bytes()
        yield stored == sheet.shear(data), f'examples/{name}.listing: not the listing of its sheet'


def sites_in_C():
    """The sites that README.md writes in C."""
    in_c = re.search(r'^ *(RukeshomajiSite site = .*;)$', (ROOT / 'examples' / 'office.c').read_text(), re.M)
    *numbers, _ = read(NEAR_FAULT).ground
    near = f'RukeshomajiSite near_fault = {{{listed(numbers)}, RUKESHOMAJI_HARD}};'
    for line, of in ((in_c[1], 'office.c'), (near, 'near_fault.sheet')):
        yield f'\n{line}\n' in (ROOT / 'README.md').read_text(), f'README.md: not the site of examples/{of}'


def of_office_and_refused():
    """The worked sheet and its listing, and that of a refused one."""
    listing = (ROOT / 'examples' / 'office.listing').read_text()
    for paper in (ROOT / 'README.md', MANUAL / 'sheet.md', MANUAL / 'worked.md'):
        for name, text in (('sheet', OFFICE.decode()), ('listing', listing)):
            yield f'```\n{text}```\n' in paper.read_text(), f'{paper.relative_to(ROOT)}: not the {name} of examples/office'
    refused = (ROOT / 'examples' / 'refused.listing').read_text()
    yield f'```\n{refused}```\n' in page('refusals.md'), 'docs/manual/refusals.md: not the listing of examples/refused'


def contents():
    """The list of pages."""
    for path in sorted(MANUAL.glob('*.md')):
        title = path.read_text().split('# ', 1)[1].split('\n')[0]
        yield path.name == 'README.md' or f'[{title}]({path.name})' in page('README.md'), f'docs/manual/README.md: no [{title}]({path.name})'


def shown():
    """All that is shown."""
    for check in (of_basin_and_near_fault, sites_in_C, of_office_and_refused, contents):
        yield from check()
