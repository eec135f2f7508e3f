"""Ranges of the quantities and the refusals of a job, of a shear call, of a distribution, of drift, torsion and accidental moments, in their order."""

from typing import NamedTuple

LEVELS = range(1, 50 + 1)
WEIGHT = range(1, 20_000 + 1)
HEIGHT = range(1, 2_000 + 1)
S_S_DESIGN = (50, 60, 70, 80)
S_1_DESIGN = (30, 35, 40, 45)
S_S_MCE = (70, 80, 90, 100)
S_1_MCE = (40, 45, 50, 55)
N_A = range(100, 150 + 1)
N_V = range(100, 200 + 1)
FACTORS = {'NA': N_A, 'NV': N_V, 'NAM': N_A, 'NVM': N_V}      # those of a `Site`, in the order of their places
CLASS = (1, 2, 3)
ZONE = (1, 2, 3, 4)
R_RANGE = range(100, 600 + 1)
I_VALUES = (100, 125, 150)
ALPHA_Y = range(100, 200 + 1)
KIND = (1, 2, 3, 4)
CALCULATED_PERIOD = range(0, 60_000 + 1)
TOTAL_WEIGHT = range(1, 1_000_000 + 1)
BASE_SHEAR = range(1, 1_200_000_000 + 1)
PERIOD = range(0, 9_999 + 1)
DISPLACEMENT = range(-1_000_000, 1_000_000 + 1)
FLOOR_DISPLACEMENT = range(0, 1_000_000 + 1)
DRIFT_LIMIT = range(1, 10_000 + 1)
DIMENSION = range(1, 5_000 + 1)


class Site(NamedTuple):
    """The numbers of a `site` line: "S_S D, S_1 D, S_S M, S_1 M, N_A, N_V", "N_A and N_V for MCE", "class"."""

    SSD: int
    S1D: int
    SSM: int
    S1M: int
    NA: int
    NV: int
    NAM: int
    NVM: int
    cls: int


def one_pair(SSD, S1D, SSM, S1M, NA, NV, cls):
    """A `Site` by seven numbers: "A sheet with the old seven fields still means one pair for both"."""
    return Site(SSD, S1D, SSM, S1M, NA, NV, NA, NV, cls)


def of_two_pairs(site):
    """The pair of MCE is another than that of design."""
    return (site.NA, site.NV) != (site.NAM, site.NVM)


class Basin(NamedTuple):
    """The number of a `basin` line, which stands "in place of `site`": the micro-zone."""

    zone: int


class Frame(NamedTuple):
    """The numbers of a `frame` line: "kind, calculated period, R, I, alpha-y"."""

    kind: int
    calculated_period: int
    R: int
    I: int
    alphay: int


def list_refusals(judged, other, buffer_lengths):
    """Refusals 1 and 2 of two lists and the buffers, 1 judged on the first of the lists."""
    if len(judged) not in LEVELS:
        yield 1, 0
    if len(other) != len(judged) or any(length < len(judged) for length in buffer_lengths):
        yield 2, 0


def height_refusals(heights):
    """Refusal 4: heights are "rising strictly"."""
    below = 0
    for level, height in enumerate(heights, 1):
        if height not in HEIGHT or height <= below:
            yield 4, level
        below = height


def level_refusals(weights, heights, buffer_lengths):
    """Refusals 1 to 4; "Number 1 is judged on the weight list"."""
    yield from list_refusals(weights, heights, buffer_lengths)
    for level, weight in enumerate(weights, 1):
        if weight not in WEIGHT:
            yield 3, level
    yield from height_refusals(heights)


def site_refusals(site):
    """Refusals 5 to 7: "mapped value not listed", at "1 to 4, sheet order"; factor, at 1 to 4 too: "6 gets places 3 and 4"; class."""
    mapped = (S_S_DESIGN, S_1_DESIGN, S_S_MCE, S_1_MCE)
    for place, (value, listed) in enumerate(zip(site[:4], mapped), 1):
        if value not in listed:
            yield 5, place
    for place, (name, allowed) in enumerate(FACTORS.items(), 1):
        if getattr(site, name) not in allowed:
            yield 6, place
    if site.cls not in CLASS:
        yield 7, 0


def basin_refusals(basin):
    """Refusal 18: "zone not 1 to 4, standing where 5 to 7 stand", place 0."""
    if basin.zone not in ZONE:
        yield 18, 0


def ground_of(numbers):
    """A ground: a `Basin`, or a `Site`, which may be given by its nine numbers alone, or by seven."""
    if isinstance(numbers, Basin):
        return numbers
    return Site(*numbers) if len(numbers) == len(Site._fields) else one_pair(*numbers)


def ground_refusals(ground):
    """Refusals of the ground: 5 to 7 of a site, 18 of the Basin."""
    return basin_refusals(ground) if isinstance(ground, Basin) else site_refusals(ground)


def frame_refusals(frame):
    """Refusals 8 to 12: "R, I, alpha-y, kind, calculated period", place 0."""
    judged = (
        (frame.R, R_RANGE), (frame.I, I_VALUES), (frame.alphay, ALPHA_Y), (frame.kind, KIND),
        (frame.calculated_period, CALCULATED_PERIOD),
    )
    for number, (value, allowed) in enumerate(judged, 8):
        if value not in allowed:
            yield number, 0


def refusals(ground, frame, weights, heights, buffer_lengths):
    """Every refusal that applies to a job, in order: by number and then by place, 18 where 5 to 7 stand."""
    yield from level_refusals(weights, heights, buffer_lengths)
    yield from ground_refusals(ground_of(ground))
    yield from frame_refusals(Frame(*frame))


def judge(ground, frame, weights, heights, buffer_lengths=()):
    """None, or (number, place): "The lowest number that applies is given, at its lowest place"."""
    return next(refusals(ground, frame, weights, heights, buffer_lengths), None)


def total_refusals(weight, height):
    """Refusals of what a shear call has in place of levels: "a weight or height out of range is 3 or 4 at place 0"."""
    if weight not in TOTAL_WEIGHT:
        yield 3, 0
    if height not in HEIGHT:
        yield 4, 0


def shear_call_refusals(ground, frame, weight, height):
    """Every refusal that applies to a shear call, in order: 3, 4, then those of ground and frame as in a job."""
    yield from total_refusals(weight, height)
    yield from ground_refusals(ground_of(ground))
    yield from frame_refusals(Frame(*frame))


def judge_shear_call(ground, frame, weight, height):
    """None, or the first (number, place)."""
    return next(shear_call_refusals(ground, frame, weight, height), None)


def handed_in_refusals(base_shear, period):
    """Refusals of the shear that is distributed: "19, base shear out of range, then 20, period out of range", place 0."""
    if base_shear not in BASE_SHEAR:
        yield 19, 0
    if period not in PERIOD:
        yield 20, 0


def distribution_refusals(base_shear, period, weights, heights, buffer_lengths):
    """Every refusal that applies to a distribution, in order: 19 and 20 "both after 1 to 4"."""
    yield from level_refusals(weights, heights, buffer_lengths)
    yield from handed_in_refusals(base_shear, period)


def judge_distribution(base_shear, period, weights, heights, buffer_lengths=()):
    """None, or the first (number, place)."""
    return next(distribution_refusals(base_shear, period, weights, heights, buffer_lengths), None)


def displacement_refusals(displacements):
    """Refusal 23: "displacement out of range, at its level"; in range they are "of either sign and up to a million in size"."""
    for level, displacement in enumerate(displacements, 1):
        if displacement not in DISPLACEMENT:
            yield 23, level


def drift_limit_refusals(limit):
    """Refusal 24: "limit 0 or above 10,000", place 0."""
    if limit not in DRIFT_LIMIT:
        yield 24, 0


def drift_refusals(heights, displacements, limit, buffer_lengths):
    """Every refusal that applies to drift, in order: "drift has no weights, so 1 is judged on heights", and 23 and 24 "follow 1 to 4"."""
    yield from list_refusals(heights, displacements, buffer_lengths)
    yield from height_refusals(heights)
    yield from displacement_refusals(displacements)
    yield from drift_limit_refusals(limit)


def judge_drift(heights, displacements, limit, buffer_lengths=()):
    """None, or the first (number, place)."""
    return next(drift_refusals(heights, displacements, limit, buffer_lengths), None)


def floor_refusals(largest, average):
    """Refusal 23 "for a floor, at place 0": "the unsigned largest and average displacement of a floor"."""
    if largest not in FLOOR_DISPLACEMENT or average not in FLOOR_DISPLACEMENT:
        yield 23, 0


def average_refusals(largest, average):
    """Refusal 25: "average 0 or above the largest", place 0."""
    if average == 0 or average > largest:
        yield 25, 0


def torsion_refusals(largest, average):
    """Every refusal that applies to torsion, in order."""
    yield from floor_refusals(largest, average)
    yield from average_refusals(largest, average)


def judge_torsion(largest, average):
    """None, or the first (number, place)."""
    return next(torsion_refusals(largest, average), None)


def dimension_refusals(dimension):
    """Refusal 26: "dimension out of range", place 0; it is "in dm and 1 to 5,000"."""
    if dimension not in DIMENSION:
        yield 26, 0


def accidental_refusals(base_shear, period, weights, heights, dimension, buffer_lengths):
    """Every refusal that applies to accidental moments, in order: 26 follows "1 to 4, 19 and 20"."""
    yield from distribution_refusals(base_shear, period, weights, heights, buffer_lengths)
    yield from dimension_refusals(dimension)


def judge_accidental(base_shear, period, weights, heights, dimension, buffer_lengths=()):
    """None, or the first (number, place)."""
    return next(accidental_refusals(base_shear, period, weights, heights, dimension, buffer_lengths), None)
