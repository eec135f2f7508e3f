"""Checks all of the manual.

usage: python3 -m tests.manual

- each page that tests/writes/manual.py fills is what it writes, byte for byte, and what such a page says in digits of its own is a constant
- each field of a sheet has the range of the model, its line has that many fields, a `site` line seven or nine, and classes and kinds have
  the model's coefficients
- each refusal from 1 to 26 has a row, its ranges are the model's, and its example gets what the row says
- the loop that joins sheets, run by the shell on a folder, makes the file that the page says; so do the commands that find one sheet and that split a
  file; a file of sheets and its listing are what is written, and what the model's command prints
- each rule, worked out as the page writes it, gives the model's number, and is rounded to the side that the page names; so do those of the
  Taipei Basin, and those of drift and torsion
- sheet and listing are those of examples/ wherever they are shown, README.md included; every page is in the list of pages

It prints what is wrong and one line of counts, and exits with 1 where anything is.
"""

import sys

from tests.manual.basin import basin_rules
from tests.manual.district import joined
from tests.manual.drift import drift_rules
from tests.manual.fields import fields, site_lines
from tests.manual.filled import filled
from tests.manual.refusals import refusals
from tests.manual.rules import rules
from tests.manual.shown import shown


def main():
    """Check all, say what is wrong."""
    count, wrong = 0, []
    for check in (filled, fields, site_lines, refusals, joined, rules, basin_rules, drift_rules, shown):
        for holds, words in check():
            count += 1
            wrong += [] if holds else [words]
    print(*wrong, sep='\n', end='\n' if wrong else '')
    print(f'{count} checks of the manual, {len(wrong)} wrong')
    return 1 if wrong else 0


if __name__ == '__main__':
    sys.exit(main())
