"""Wrong ideas of accidental moments (Wish 10), as changes of the model, and the calls that are to show them."""

from tests.compares import wrong_calls, wrong_roof, wrong_sites
from tests.compares.wrong_calls import mixed
from tests.compares.wrong_drifts import in_order, refused
from tests.draws import drift_faults
from tests.draws.accidentals import strata
from tests.model import accidental, calls, limits, storeys

NUMBERS = 1, 2, 3, 4, 19, 20, 26
OF_FORCES = ('no roof force, whatever the period', 'the period of a job in place of the one handed in', 'a base shear of 0 taken', 'no period of 0',
             'a base shear up to 1,199,999,999', 'a period up to 10,000')


def each(rule):
    """A level's moment by another rule, of its force and the dimension."""
    return [(accidental, 'moment', rule)]


def both_ways(changed):
    """The two lists changed, given the moments."""
    return [(accidental, 'of_forces', lambda forces, dimension, right=accidental.of_forces: changed(right(forces, dimension)))]


def instead(forces_of):
    """Something else in place of the forces, given the distribution."""
    def wrong(base_shear, period, weights, heights, right=calls.distributed):
        """The distribution with other forces."""
        over = right(base_shear, period, weights, heights)
        return over._replace(forces=forces_of(over))
    return [(calls, 'distributed', wrong)]


def before(number, of):
    """A refusal before another one."""
    others = [each for each in NUMBERS if each != number]
    place = others.index(of)
    return in_order('accidental_refusals', *others[:place], number, *others[place:])


def with_cells(base_shear, period, weights, heights, dimension, buffer_lengths=(), right=accidental.accidental):
    """Cells past the last level cleared."""
    result = right(base_shear, period, weights, heights, dimension, buffer_lengths)
    if result[0] == 'refused':
        return result
    rest = [[0] * (length - len(weights)) for length in buffer_lengths]
    return result._replace(positive=result.positive + rest[0], negative=result.negative + rest[1])


def one_buffer(place):
    """One buffer alone judged."""
    def wrong(base_shear, period, weights, heights, buffer_lengths, right=limits.distribution_refusals):
        """The refusals of the distribution with that buffer."""
        yield from right(base_shear, period, weights, heights, buffer_lengths[place:place + 1])
    return [(limits, 'distribution_refusals', wrong)]


ERRORS = {
    'both positive': both_ways(lambda moments: moments._replace(negative=moments.positive)),
    'both negative': both_ways(lambda moments: moments._replace(positive=moments.negative)),
    'the signs exchanged': both_ways(lambda moments: moments._replace(positive=moments.negative, negative=moments.positive)),
    'the highest level first': both_ways(lambda moments: moments._replace(positive=moments.positive[::-1], negative=moments.negative[::-1])),
    'the negative ones of the highest level first': both_ways(lambda moments: moments._replace(negative=moments.negative[::-1])),
    '5 % of half the dimension': each(lambda force, dimension: force * 5 * dimension // 2),
    '5 % each way, so 10 %': each(lambda force, dimension: force * 10 * dimension),
    '5 left out': each(lambda force, dimension: force * dimension),
    'in N*dm, rounded down': each(lambda force, dimension: force * dimension // 20),
    'rounded down to a whole N*dm': each(lambda force, dimension: force * dimension // 20 * 100),
    'rounded up to a whole N*dm': each(lambda force, dimension: -(-force * dimension // 20) * 100),
    'the dimension in whole metres': each(lambda force, dimension: force * 5 * (dimension // 10 * 10)),
    'of the shears': instead(lambda over: over.shears), 'of the overturning moments': instead(lambda over: over.moments),
    'of the base shear at each level': instead(lambda over: [over.base_shear] * len(over.forces)),
    'of the forces without that of the roof': instead(lambda over: [*over.forces[:-1], over.forces[-1] - over.F_t]),
    'a newton at least': instead(lambda over: [max(1, force) for force in over.forces]),
    'a roof force at every period': wrong_roof.ERRORS['a roof force at every T'], 'no quarter': wrong_roof.ERRORS['no quarter'],
    'each storey force rounded alone': wrong_sites.ERRORS['each storey force rounded alone'],
    'the shears rounded down': [(storeys, 'ceil', int)],
    **{name: wrong_calls.DISTRIBUTION_ERRORS[name] for name in OF_FORCES},
    'cells past the last level cleared': [(accidental, 'accidental', with_cells)],
    **{f'26 before {number}': before(26, number) for number in NUMBERS[:-1]},
    **{f'{number} before {of}': before(number, of) for number, of in ((19, 1), (19, 4), (20, 19), (20, 4), (4, 3), (4, 2), (3, 2), (2, 1))},
    '26 at place 1': refused('dimension_refusals', lambda number, place: (number, 1)),
    'the positive buffer alone judged': one_buffer(0), 'the negative buffer alone judged': one_buffer(1),
    'a dimension of 0 taken': [(limits, 'DIMENSION', range(0, 5_000 + 1))], 'a dimension up to 4,999': [(limits, 'DIMENSION', range(1, 5_000))],
    'a dimension up to 5,001': [(limits, 'DIMENSION', range(1, 5_001 + 1))], 'a dimension of 1 refused': [(limits, 'DIMENSION', range(2, 5_000 + 1))],
}


def drawn(rng, count):
    """Calls of accidental moments."""
    return mixed(rng, count, list(strata()), drift_faults.random_accidental)
