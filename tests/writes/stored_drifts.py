"""A stored case of drift, of torsion and of accidental moments (Wish 10): what `run_drifts` reads of it, and what it must write; and the ones that the
others are made of."""

from typing import NamedTuple

from tests.model import accidental, drift, torsion
from tests.writes.stored_calls import tabbed

LISTED, MOST_BYTES = 52, 60_000             # numbers of a list and cells of a buffer; bytes of all cases
DRIFT, TORSION, MOMENTS = 0, 1, 2           # the first number of a case
LARGEST, LEAST_SIGNED, LARGEST_SIGNED = 2**64 - 1, -2**63, 2**63 - 1
OLD = 7                                     # what a cell of the verdicts holds
OLD_MOMENTS = -9, 8                         # what a cell of the positive and of the negative moments holds


def signed(numbers):
    """Signed numbers as two each: 1 where it is below zero, else 0; then its size."""
    return [each for number in numbers for each in (int(number < 0), abs(number))]


def answered(result):
    """The first line that is said of a result."""
    return tabbed(result if result[0] == 'refused' else ('taken',))


def cells(name, written, length, old):
    """The line of a buffer: what is written, and what its other cells hold."""
    return tabbed((name, *written, *[old] * (length - len(written))))


class Drift(NamedTuple):
    """A case of drift: the levels, the limit, the length of the buffer and what a cell of it holds."""

    heights: list
    displacements: list
    limit: int
    buffers: tuple
    old: int = OLD

    def row(self):
        """The numbers that the program reads."""
        assert max(len(self.heights), len(self.displacements), *self.buffers) <= LISTED
        return [DRIFT, len(self.heights), len(self.displacements), self.limit, *self.buffers, self.old, *self.heights, *signed(self.displacements)]

    def said(self):
        """What the program must write."""
        result = drift.drift(*self.call())
        return answered(result) + cells('verdicts', [] if result[0] == 'refused' else result.verdicts, *self.buffers, self.old)

    def call(self):
        """The inputs of the call."""
        return self[:-1]


class Torsion(NamedTuple):
    """A case of torsion."""

    largest: int
    average: int

    def row(self):
        """The numbers that the program reads."""
        return [TORSION, *self]

    def said(self):
        """What the program must write."""
        result = torsion.torsion(*self)
        return tabbed(result if result[0] == 'refused' else ('taken', result.factor))

    def call(self):
        """The inputs of the call."""
        return self


class Moments(NamedTuple):
    """A case of accidental moments: what is handed in, the levels, the dimension, the lengths of the buffers and what a cell of each holds."""

    base_shear: int
    period: int
    weights: list
    heights: list
    dimension: int
    buffers: tuple
    old: tuple = OLD_MOMENTS

    def row(self):
        """The numbers that the program reads."""
        assert max(len(self.weights), len(self.heights), *self.buffers) <= LISTED and LEAST_SIGNED not in self.old
        head = self.base_shear, self.period, len(self.weights), len(self.heights), self.dimension, *self.buffers, *signed(self.old)
        return [MOMENTS, *head, *self.weights, *self.heights]

    def said(self):
        """What the program must write."""
        result = accidental.accidental(*self.call())
        written = ([], []) if result[0] == 'refused' else (result.positive, result.negative)
        return answered(result) + ''.join(map(cells, ('positive', 'negative'), written, self.buffers, self.old))

    def call(self):
        """The inputs of the call."""
        return self[:-1]


LINES = {Drift: 2, Torsion: 1, Moments: 3}      # said of each kind
THREE = Drift([30, 60, 90], [1_500, 3_000, 4_500], 50, (3,))
OVER = Moments(1_071_429, 1_000, [5_000] * 3, [100, 200, 300], 200, (3, 3))
SMALL = OVER._replace(weights=[7, 5, 3], heights=[10, 23, 31], buffers=(5, 4))


def tall_drift(count):
    """So many levels a dm apart that do not move, with a buffer longer than the lists."""
    return Drift(list(range(1, count + 1)), [0] * count, 1, (52,))


def tall_moments(count):
    """So many levels of 5 kN, a dm apart, with buffers longer than the lists."""
    return OVER._replace(weights=[5] * count, heights=list(range(1, count + 1)), buffers=(51, 52))
