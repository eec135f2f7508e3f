"""The shear calls and distributions of the comparison (Wish 6), sound and bad."""

import random

from tests.compares import core
from tests.compares.parts import A_STRATUM, MEASURED_EACH, chunks, figures_of, filled, held
from tests.compares.tally import refusal_words
from tests.draws import call_faults, calls as drawn
from tests.model import calls
from tests.writes import call_cases

KINDS = tuple(drawn.GROUNDS)
HEAVY = 2_000           # shear calls of the heavy stratum of each kind of ground
LIGHT_ROOF = 5_000      # distributions over a light roof
PLAIN = 'drawn from all that is allowed'


def expected_shear(*call):
    """The model's answer to a shear call, and that what is only read is as it was."""
    return figures_of(calls.shear_call(*call)), True


def distribution_of(result, room):
    """The answer that the model's result of a distribution stands for: number and place, cells, and that what is only read is as it was."""
    return result[1:] if result[0] == 'refused' else (0, 0), filled(result, room), True


def expected_distribution(*call):
    """The model's answer to a distribution."""
    return distribution_of(calls.distribution(*call), call[4])


def got_distribution(library, base_shear, period, weights, heights, room):
    """The core's answer."""
    return core.distribution(library, base_shear, period, weights, heights, held(room))


def compare_shear(tally, library, stratum, call, measured):
    """One accepted shear call."""
    result = calls.shear_call(*call)
    tally.compare(stratum, call, core.shear_call(library, *call), (figures_of(result), True))
    if measured:
        tally.largest['shears'].measure(result)


def compare_distribution(tally, library, stratum, call, measured):
    """One accepted distribution."""
    result = calls.distribution(*call)
    tally.compare(stratum, call, got_distribution(library, *call), distribution_of(result, call.lengths))
    if measured:
        tally.largest['distributions'].measure(result)


def run_shear_stratum(library, tally, seed, name, count, kind):
    """Shear calls drawn for a stratum of a kind of ground."""
    rng, one = random.Random(seed), dict(drawn.shear_strata(kind))[name]
    for _ in range(count):
        compare_shear(tally, library, name, one(rng), True)


def run_distribution_stratum(library, tally, seed, name, count):
    """Distributions drawn for a stratum."""
    rng, one = random.Random(seed), dict(drawn.distribution_strata())[name]
    for _ in range(count):
        compare_distribution(tally, library, name, one(rng), True)


def run_shears(library, tally, seed, count, kind):
    """Shear calls on a kind of ground."""
    rng = random.Random(seed)
    for number in range(count):
        call = drawn.draw_shear_call(rng, drawn.GROUNDS[kind])
        compare_shear(tally, library, f'{drawn.SHEAR_NAMES[kind]}: {PLAIN}', call, number % MEASURED_EACH == 0)


def run_distributions(library, tally, seed, count):
    """Distributions."""
    rng = random.Random(seed)
    for number in range(count):
        compare_distribution(tally, library, f'distribution: {PLAIN}', drawn.draw_distribution(rng), number % MEASURED_EACH == 0)


def refusal_stratum(name, number, place):
    """How a changed call is counted: by the refusal that the model gives."""
    return f'{name}: refusal {refusal_words(number, place)}' if number else f'{name}: changed, and accepted'


def run_shear_faults(library, tally, kind, bad):
    """Bad shear calls, counted by the kind of ground that was drawn."""
    for call in bad:
        expected = expected_shear(*call)
        tally.compare(refusal_stratum(drawn.SHEAR_NAMES[kind], *expected[0][:2]), call, core.shear_call(library, *call), expected)


def run_distribution_faults(library, tally, bad):
    """Bad distributions."""
    for call in bad:
        expected = expected_distribution(*call)
        tally.compare(refusal_stratum('distribution', *expected[0]), call, got_distribution(library, *call), expected)


def run_shears_bad(library, tally, seed, count, kind):
    """Random bad shear calls on a kind of ground."""
    rng = random.Random(seed)
    run_shear_faults(library, tally, kind, (call_faults.random_shear(rng, kind) for _ in range(count)))


def run_distributions_bad(library, tally, seed, count):
    """Random bad distributions."""
    rng = random.Random(seed)
    run_distribution_faults(library, tally, (call_faults.random_distribution(rng) for _ in range(count)))


def run_systematic_calls(library, tally, seed, count):
    """Both sides of every limit at every place and every two refusals at once, of both calls."""
    for kind in KINDS:
        run_shear_faults(library, tally, kind, call_faults.systematic_shears(kind))
    run_distribution_faults(library, tally, call_faults.systematic_distributions())


def run_stored_calls(library, tally, seed, count):
    """The cases of the program `run_calls`."""
    for case in call_cases.all_cases():
        if isinstance(case, call_cases.Shear):
            tally.compare('shear call of the program run_calls', case, core.shear_call(library, *case), expected_shear(*case))
        else:
            call = case[:-1]
            tally.compare('distribution of the program run_calls', case, got_distribution(library, *call), expected_distribution(*call))


def of_stratum(name):
    """How many calls are drawn for a stratum."""
    return HEAVY if name.endswith('heavy') else LIGHT_ROOF if name.endswith('light roof') else A_STRATUM


def shear_tasks(seed, count, bad):
    """What is compared of shear calls, on each kind of ground a third."""
    for kind in KINDS:
        names = [name for name, _ in drawn.shear_strata(kind)]
        yield from ((run_shear_stratum, f'shear stratum {seed} {name}', name, of_stratum(name), kind) for name in names)
        yield from chunks(run_shears, seed, count // len(KINDS) - sum(map(of_stratum, names)), kind)
        yield from chunks(run_shears_bad, seed, bad // len(KINDS), kind)


def distribution_tasks(seed, count, bad):
    """What is compared of distributions."""
    names = [name for name, _ in drawn.distribution_strata()]
    yield from ((run_distribution_stratum, f'distribution stratum {seed} {name}', name, of_stratum(name)) for name in names)
    yield from chunks(run_distributions, seed, count - sum(map(of_stratum, names)))
    yield from chunks(run_distributions_bad, seed, bad)


def call_tasks(seed, shears, shears_bad, distributions, distributions_bad):
    """What is compared of both calls."""
    yield from ((run_systematic_calls, seed, 0), (run_stored_calls, seed, 0))
    yield from shear_tasks(seed, shears, shears_bad)
    yield from distribution_tasks(seed, distributions, distributions_bad)
