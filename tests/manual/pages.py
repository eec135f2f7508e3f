"""The pages of the manual and the sheets that they show."""

import pathlib

from tests.model import sheet

ROOT = pathlib.Path(__file__).resolve().parents[2]
MANUAL = ROOT / 'docs' / 'manual'
OFFICE = (ROOT / 'examples' / 'office.sheet').read_bytes()
BASIN = (ROOT / 'examples' / 'basin.sheet').read_bytes()
NEAR_FAULT = (ROOT / 'examples' / 'near_fault.sheet').read_bytes()


def page(name):
    """The text of a page."""
    return (MANUAL / name).read_text()


def rows(text, heading):
    """The rows of the first table under a heading, without its head."""
    lines = text.split(f'\n## {heading}\n')[1].split('\n') if heading else text.split('\n')
    found = []
    for line in lines:
        if line.startswith('|'):
            found.append([cell.strip() for cell in line.strip().strip('|').split('|')])
        elif found:
            break
    return found[2:]


def listed(values):
    """Allowed values in words."""
    return ', '.join(map(str, values))


def with_line(number, line):
    """What the model prints for the worked sheet with another line."""
    changed = OFFICE.decode().split('\n')
    changed[number - 1] = line
    return sheet.shear('\n'.join(changed).encode()).decode().split()
