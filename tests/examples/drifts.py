"""Drift, torsion and accidental moments by the module for Python, examples/rukeshomaji.py, beside the model."""

from tests.examples.refusals import HEIGHTS, WEIGHTS
from tests.model import accidental, drift, limits, torsion
from tests.writes import six_storeys as frame
from tests.writes.by_hand.text import ranged

MOST = limits.DISPLACEMENT[-1]
# heights, displacements and limit of a drift call: both ends of each range, and both signs
DRIFTS = (([2_000], [MOST], 500), ([2_000], [-MOST], 499), ([1], [1], 1), ([1], [-2], 1), ([1, 2], [MOST, -MOST], 10_000), ([100, 300], [0, 0], 1),
          (list(range(40, 2_001, 40)), [(-1) ** level * 1_000 for level in range(50)], 50))
FLOORS = (1, 1), (MOST, MOST), (MOST, 1), (7, 5), (2_500, 2_000), (4_000, 3_001), (999_999, 481_125)
MOMENTS = (1, 0, 1), (1_071_429, 1_000, 240), (1_200_000_000, 9_999, 5_000)     # base shear, period, dimension


def drifts(core):
    """The three calls."""
    for heights, displacements, limit in ((frame.HEIGHTS, frame.DISPLACEMENTS, frame.LIMIT), *DRIFTS):
        said = core.drift(heights, displacements, limit)
        yield f'the drift of {len(heights)} levels by {limit}', said == [each == drift.YES for each in drift.drift(heights, displacements, limit).verdicts]
        yield 'and with all signs reversed', core.drift(iter(heights), (-each for each in displacements), limit) == said and all(isinstance(each, bool) for each in said)
    for floor in FLOORS:
        yield f'the torsion factor of {floor}', core.torsion(*floor) == torsion.torsion(*floor).factor
    for base_shear, period, dimension in MOMENTS:
        found = accidental.accidental(base_shear, period, WEIGHTS, HEIGHTS, dimension)
        said = core.accidental_moments(base_shear, period, WEIGHTS, HEIGHTS, dimension)
        forces = core.distribution(base_shear, period, WEIGHTS, HEIGHTS).forces
        yield f'accidental moments of {base_shear} N at {period} ms', said == (found.positive, found.negative)
        yield 'by the forces of the distribution', said.positive == [force * 5 * dimension for force in forces]
    said = f'displacement above {MOST:,} in size, in 0.01 mm'
    yield 'a displacement in words', [str(core.Refused(23, place)) for place in (2, 0)] == [f'refusal 23 at level 2: {said}', f'refusal 23: {said}']
    ranges = f'limit not {ranged(limits.DRIFT_LIMIT)}; 0.005 is {frame.LIMIT}', f'plan dimension not {ranged(limits.DIMENSION)} dm'
    yield 'a limit and a dimension in words', [core.Refused(number, 0).text for number in (24, 26)] == [*ranges]
