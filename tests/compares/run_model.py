"""Prints the model's listing of a sheet on standard input; with the word district, that of a file of sheets.

usage: python3 -m tests.compares.run_model < SHEET
       python3 -m tests.compares.run_model district < FILE
"""

import sys

from tests.model import sheet, sheets

LISTINGS = {(): sheet.shear, ('district',): sheets.listing}

if __name__ == '__main__':
    listing = LISTINGS.get(tuple(sys.argv[1:]))
    if listing is None:
        sys.exit(__doc__)
    sys.stdout.buffer.write(listing(sys.stdin.buffer.read()))
