"""A stored shear call and a stored distribution: what `run_calls` reads of them, and what it must write; and the ones that the others are made of."""

from typing import NamedTuple

from tests.model import calls, limits

LISTED, MOST_BYTES = 60, 65_000
LINE, SITE_GROUND, BASIN_GROUND, DISTRIBUTION = len(limits.Site._fields), 0, 1, 2
OLD, SEED, LARGEST, FEW = (7, 8, 9), 6, 2**64 - 1, 6
DRAWN = 25              # calls of each kind from all that is allowed
CELLS = ('forces', 'shears', 'moments')


def tabbed(words):
    """A line, its parts separated by tabs."""
    return '\t'.join(map(str, words)) + '\n'


class Shear(NamedTuple):
    """A shear call."""

    ground: tuple
    frame: tuple
    weight: int
    height: int

    def row(self):
        """The numbers that the program reads: of the Basin the zone stands first of the nine of a site."""
        ground = limits.ground_of(self.ground)
        kind = BASIN_GROUND if isinstance(ground, limits.Basin) else SITE_GROUND
        return [kind, *ground, *[0] * (LINE - len(ground)), *self.frame, self.weight, self.height]

    def said(self):
        """What the program must write."""
        result = calls.shear_call(*self)
        return tabbed(result if result[0] == 'refused' else ('taken', result.V, result.V_M, result.V_star, result.V_D, result.T))


class Distribution(NamedTuple):
    """A distribution: what is handed in, the levels, the lengths of the buffers and what a cell of each holds."""

    base_shear: int
    period: int
    weights: list
    heights: list
    buffers: tuple
    old: tuple = OLD

    def row(self):
        """The numbers that the program reads."""
        assert max(len(self.weights), len(self.heights), *self.buffers) <= LISTED
        counts = len(self.weights), len(self.heights)
        return [DISTRIBUTION, self.base_shear, self.period, *counts, *self.buffers, *self.old, *self.weights, *self.heights]

    def said(self):
        """What the program must write."""
        result = calls.distribution(self.base_shear, self.period, self.weights, self.heights, self.buffers)
        refused = result[0] == 'refused'
        written = [[]] * 3 if refused else [result.forces, result.shears, result.moments]
        cells = ((name, *each, *[old] * (length - len(each))) for name, each, old, length in zip(CELLS, written, self.old, self.buffers))
        return tabbed(result if refused else ('taken',)) + ''.join(map(tabbed, cells))


SITE, NEAR = limits.one_pair(80, 45, 100, 55, 100, 100, 1), limits.Site(80, 45, 100, 55, 120, 150, 110, 130, 1)
WORKED = Shear(SITE, (2, 1000, 480, 100, 150), 15_000, 300)
OVER = Distribution(1_071_429, 1_000, [5000] * 3, [100, 200, 300], (3, 3, 3))
UNEVEN = OVER._replace(weights=[900, 1, 20_000, 44], heights=[1, 2, 1_999, 2_000], buffers=(4, 5, 6))
SMALL = OVER._replace(weights=[7, 5, 3], heights=[10, 23, 31], buffers=(5, 3, 4))
AT_THE_TOP = OVER._replace(weights=[20_000] * 50, heights=list(range(1_951, 2_001)), buffers=(50, 50, 50))


def tall_frame(count):
    """So many levels of 5 kN, a dm apart, with buffers longer than the lists."""
    return OVER._replace(weights=[5] * count, heights=list(range(1, count + 1)), buffers=(51, 52, 60))
