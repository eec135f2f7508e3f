"""Writes the cases of the program `run_drifts` and what the model says of them: drift, torsion, accidental moments (Wish 10).

usage: python3 -m tests.writes.drifts        rewrites crates/run_drifts/stdin and crates/run_drifts/stdout

The first line of stdin is the count of cases. Every other line is a case; a signed number is two: 1 where it is below zero, else 0, and its size.
- Drift: 0, the counts of heights and of displacements, the limit, the length of the buffer and what a cell of it holds; then the heights; then the
  displacements, signed.
- Torsion: 1, the largest, the average.
- Accidental moments: 2, base shear, period, the counts of weights and of heights, the dimension, the lengths of the positive and of the negative
  buffer, and what a cell of each holds, signed; then the weights; then the heights.
A list has at most 52 numbers and a buffer at most 52 cells.

Of each case stdout has a line `taken`, of torsion with the factor, or `refused` with number and place; then of drift a line `verdicts`, of accidental
moments the lines `positive` and `negative`, with every cell of the buffer. Parts are separated by tabs.
"""

import itertools
import pathlib

from tests.writes.accidental_cases import accidental_cases
from tests.writes.drift_cases import drift_cases
from tests.writes.stored_drifts import LINES, MOST_BYTES
from tests.writes.torsion_cases import torsion_cases

HERE = pathlib.Path(__file__).resolve().parents[2] / 'crates' / 'run_drifts'


def all_cases():
    """Every case, in the order of the file."""
    return [*drift_cases(), *torsion_cases(), *accidental_cases()]


def stored(cases, folder=HERE):
    """What the file stdout says of each case."""
    lines = iter((folder / 'stdout').read_text().splitlines(keepends=True))
    return [''.join(itertools.islice(lines, LINES[type(case)])) for case in cases]


def write(folder=HERE):
    """Write both files, and say how many cases there are."""
    cases = all_cases()
    text = '\n'.join([str(len(cases)), *(' '.join(map(str, case.row())) for case in cases)]) + '\n'
    assert len(text) <= MOST_BYTES, len(text)
    folder.mkdir(exist_ok=True)
    (folder / 'stdin').write_text(text)
    (folder / 'stdout').write_text(''.join(case.said() for case in cases))
    refused = sum(case.said().startswith('refused') for case in cases)
    counts = ', '.join(f'{sum(isinstance(case, kind) for case in cases)} of {kind.__name__.lower()}' for kind in LINES)
    print(f'{len(cases)} cases, {counts}, {refused} refused, {len(text)} bytes')


if __name__ == '__main__':
    write()
