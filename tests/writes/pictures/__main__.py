"""Draws the pictures of the manual.

usage: python3 -m tests.writes.pictures         rewrites docs/manual/pictures
       python3 -m tests.writes.pictures check   compares what it draws with the files there, byte for byte; exits with 1 on a difference
"""

import sys

from tests.writes.pictures.base_shears import classes, near_fault
from tests.writes.pictures.district import district
from tests.writes.pictures.drift import drift
from tests.writes.pictures.finer_spectrum import steps
from tests.writes.pictures.moves import moves
from tests.writes.pictures.reduction import factor, modified
from tests.writes.pictures.roof_force import roof_force
from tests.writes.pictures.sheets import ROOT
from tests.writes.pictures.soft_clay import soft_clay
from tests.writes.pictures.spectra import basin, spectrum
from tests.writes.pictures.storeys import storeys
from tests.writes.pictures.towers import towers
from tests.writes.pictures.two_calls import periods, two_calls

PICTURES = ROOT / 'docs' / 'manual' / 'pictures'
DRAWN = {'spectrum': spectrum, 'factor': factor, 'modified': modified, 'storeys': storeys, 'classes': classes, 'near_fault': near_fault,
         'basin': basin, 'roof_force': roof_force, 'two_calls': two_calls, 'periods': periods, 'steps': steps,
         'soft_clay': soft_clay, 'towers': towers, 'moves': moves, 'district': district, 'drift': drift}


def wrong():
    """Which files are not what is drawn, or are not drawn at all."""
    for name, drawn in DRAWN.items():
        file = PICTURES / f'{name}.svg'
        if not file.exists() or file.read_bytes() != drawn().encode():
            yield f'{file.relative_to(ROOT)}: not what python3 -m tests.writes.pictures draws'
    for file in sorted(PICTURES.iterdir()):
        if file.stem not in DRAWN or file.suffix != '.svg':
            yield f'{file.relative_to(ROOT)}: nothing draws it'


def main():
    """Write the files, or compare them."""
    if sys.argv[1:] == ['check']:
        said = list(wrong())
        print(*said, sep='\n', end='\n' if said else '')
        print(f'{len(DRAWN)} pictures, {len(said)} wrong')
        return 1 if said else 0
    for name, drawn in DRAWN.items():
        (PICTURES / f'{name}.svg').write_bytes(drawn().encode())
    return 0


if __name__ == '__main__':
    sys.exit(main())
