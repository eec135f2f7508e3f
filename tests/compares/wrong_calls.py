"""Wrong ideas of the shear call and of the distribution (Wish 6), as changes of the model, and the calls that are to show them.

tests/compares/wrong_models.py puts each into the model, beside 'each storey force rounded alone' and the roof force at every period.
"""

from tests.draws import call_faults
from tests.draws.calls import GROUNDS, distribution_strata, shear_strata
from tests.model import calls, limits, response, storeys
from tests.writes import call_cases

STEEL = 1


def ground_first(ground, frame, weight, height):
    """Weight and height judged after the ground."""
    yield from limits.ground_refusals(limits.ground_of(ground))
    yield from limits.total_refusals(weight, height)
    yield from limits.frame_refusals(limits.Frame(*frame))


def totals_last(ground, frame, weight, height):
    """Weight and height judged after the frame."""
    yield from limits.ground_refusals(limits.ground_of(ground))
    yield from limits.frame_refusals(limits.Frame(*frame))
    yield from limits.total_refusals(weight, height)


def height_first(weight, height, right=limits.total_refusals):
    """4 before 3."""
    yield from reversed(list(right(weight, height)))


def at_place_1(weight, height, right=limits.total_refusals):
    """3 and 4 at place 1, as of a level."""
    yield from ((number, 1) for number, _ in right(weight, height))


def handed_in_before_4(base_shear, period, weights, heights, buffer_lengths):
    """19 and 20 before 4."""
    levels = list(limits.level_refusals(weights, heights, buffer_lengths))
    yield from (each for each in levels if each[0] < 4)
    yield from limits.handed_in_refusals(base_shear, period)
    yield from (each for each in levels if each[0] == 4)


def handed_in_first(base_shear, period, weights, heights, buffer_lengths):
    """19 and 20 before 1."""
    yield from limits.handed_in_refusals(base_shear, period)
    yield from limits.level_refusals(weights, heights, buffer_lengths)


def period_first(base_shear, period, right=limits.handed_in_refusals):
    """20 before 19."""
    yield from reversed(list(right(base_shear, period)))


def at_the_period_of_a_job(base_shear, period, weights, heights, right=calls.distributed):
    """The approximate period of the top height in place of the one handed in."""
    return right(base_shear, response.approximate_period(STEEL, heights[-1]), weights, heights)


def about_the_base(base_shear, period, weights, heights, right=calls.distributed):
    """Each level's own force times its own height for its overturning."""
    over = right(base_shear, period, weights, heights)
    return over._replace(moments=[force * height for force, height in zip(over.forces, heights)])


SHEAR_ERRORS = {
    'weight and height judged after the ground': [(limits, 'shear_call_refusals', ground_first)],
    'weight and height judged after the frame': [(limits, 'shear_call_refusals', totals_last)],
    '4 before 3': [(limits, 'total_refusals', height_first)],
    '3 and 4 at place 1': [(limits, 'total_refusals', at_place_1)],
    'a total weight up to 20,000, as of a level': [(limits, 'TOTAL_WEIGHT', limits.WEIGHT)],
    'a total weight up to 999,999': [(limits, 'TOTAL_WEIGHT', range(1, 999_999 + 1))],
    'a total weight of 0 taken': [(limits, 'TOTAL_WEIGHT', range(0, 1_000_000 + 1))],
}


DISTRIBUTION_ERRORS = {
    '19 and 20 before 4': [(limits, 'distribution_refusals', handed_in_before_4)],
    '19 and 20 before 1': [(limits, 'distribution_refusals', handed_in_first)],
    '20 before 19': [(limits, 'handed_in_refusals', period_first)],
    'no roof force, whatever the period': [(storeys, 'F_t', lambda T, V_D: 0)],
    'the period of a job in place of the one handed in': [(calls, 'distributed', at_the_period_of_a_job)],
    'a base shear up to 1,199,999,999': [(limits, 'BASE_SHEAR', range(1, 1_199_999_999 + 1))],
    'a base shear of 0 taken': [(limits, 'BASE_SHEAR', range(0, 1_200_000_000 + 1))],
    'no period of 0': [(limits, 'PERIOD', range(1, 9_999 + 1))],
    'a period up to 10,000': [(limits, 'PERIOD', range(0, 10_000 + 1))],
    'a period up to 6,328, the longest T of a job': [(limits, 'PERIOD', range(0, 6_328 + 1))],
    "a level's own force times its height for its overturning": [(calls, 'distributed', about_the_base)],
}


def mixed(rng, count, strata, bad):
    """Calls of every stratum in turn, every second one bad."""
    for number in range(count):
        _, one = strata[number // 2 % len(strata)]
        yield bad(rng) if number % 2 else one(rng)


def shear_calls(rng, count):
    """Shear calls on the three kinds of ground."""
    strata = [each for kind in GROUNDS for each in shear_strata(kind)]
    return mixed(rng, count, strata, lambda rng: call_faults.random_shear(rng, rng.choice(tuple(GROUNDS))))


def distributions(rng, count):
    """Distributions."""
    return mixed(rng, count, list(distribution_strata()), call_faults.random_distribution)


def stored(kind):
    """The cases of crates/run_calls that are of a kind, with what is stored of each."""
    cases = call_cases.all_cases()
    return [(case, answer) for case, answer in zip(cases, call_cases.stored(cases)) if isinstance(case, kind)]
