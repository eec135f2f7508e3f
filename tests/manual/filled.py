"""The pages that tests/writes/manual.py fills."""

import re

from tests.manual.pages import page
from tests.writes import manual

# what a filled page says in digits of its own: constants of the rules, powers of ten, equations, sections, tables and limits of 000,
# numbers of kinds and refusals, and the exponent of a pocket calculator
OWN = {
    'worked.md': '0.01 0.07 0.75 1 1.4 2 4 4.2 5 7 10 16 17 19 25 50 75 100 300 700 14,000 42,000 10,000',
    'soft_ground.md': '0.75 2',
    'near_fault.md': '0.01 0.2 0.4 0.6 0.75 1 1.0 1.00 1.4 2 2.2 2.4 2.5 3 4 4.2 5 6 7 9 10 13 14 16 17 19 25 50 75 100 300 400 600 700 1000 '
                     '14,000 42,000 10,000',
    'basin.md': '0.01 0.2 0.4 0.6 0.8 1 1.0 1.4 1.5 2 2.0 2.3 2.4 2.5 3 3.5 4 4.2 6 7 10 11 15 16 17 18 19 50 100 200 1000 2005 14,000 35,000',
    'roof_force.md': '0 0.07 0.7 2 2.0.0 3.1 10 14 21 50 700',
    'rounding.md': '0.07 1 3 3.0 1.4 1.5 2.2.0 4.2 10 15 21 700 701 3,571',
    'soil.md': '0.01 0.1 0.36 1 2 3 4 2.1 10 13 15 18 27 30 100 180 270 800 1000 1200',
    'soft_clay.md': '0 0.255 0.36 0.980665 1 2 2.4.0 3 4 9 10 15 25 30 60 61 61.18 98.0665 100 120 120.0 180 1200',
    'root.md': '0 0.01 02 1 2 2.0000000 2.2.0 3 4 4.80 5 6 7 9 10 12 14 15 16 20 25 50 75 100 480 1000 2,932 5,756',
    'finer_spectrum.md': '0.01 0.144 0.2 0.45 0.52 0.80 1 1.00 1.4 3 4 5 10 25 75 2.0.0 2.1.0 2.2.0 2.3.0 2003000 1400 3500 4200 14,000 '
                         '35,000 42,000 144,000 300,000 800,000 1,440,000 3,000,000 8,000,000',
    'towers.md': '0 02 1 3 3.1 10 14',
    'moves.md': '0.01 0.144 0.2 0.3 0.52 0.8 02 1 1.00 1.4 1.5 2 2.5 3 3.5 4.2 6.00 8 10 19 480 14,000 35,000 42,000',
    'drift.md': '0 0.005 0.01 0.6 02 1 1.0 1.00 1.2 1.4 1,000 1000 10 50 100 10,000 100,000 1,000,000 19 2 2.5.2 2.5.4 22 24 25 3 3.0 3.000 3.1 3.2 3.4 3.5 4 4.2 '
                '5 6 64',
    'district.md': '0 0000 0001 04 1 2 2,976 3 4 4.2 7 8 9 10 16 17 19 02 64 1,000',
    'shear_and_storeys.md': '0 0.07 1 1.4 2 2.5.4 3.1 3.2 3.3 3.4 4 10 14 19 20 21 24 700 701 1,000 3,571 10,000',
}


def filled():
    """Pages that are written, and what they say in digits of their own."""
    for name, text in manual.written().items():
        yield page(name) == text, f'docs/manual/{name}: not what python3 -m tests.writes.manual writes'
        source = re.sub(r'\{\w+\}|\]\([^)]*\)|`[^`]*`|\bT0\b|\b[A-Z]_\w+|(?<!,)\b000\b', ' ', (manual.PAGES / name).read_text())
        own = {number.rstrip('.,') for number in re.findall(r'\d[\d,.]*', source)} - set(OWN[name].split())
        yield not own, f'tests/writes/pages/{name}: says {own} in digits of its own'
