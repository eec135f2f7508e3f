"""The jobs of the comparison, sound and bad, on sites, in the Basin and with two pairs of near-fault factors."""

import random

from tests.compares import core
from tests.compares.excess import SHARP
from tests.compares.parts import A_STRATUM, MEASURED_EACH, chunks, figures_of, filled, held
from tests.compares.tally import PREFIX, kind_of, label, refusal_words
from tests.draws import faults, pair_faults, pairs
from tests.draws.basin import basin_strata
from tests.draws.exact_roots import root_strata
from tests.draws.plain_jobs import draw, draw_basin, draw_pairs, draw_site, lengths
from tests.draws.rare import rare_strata
from tests.draws.roof import roof_strata
from tests.draws.sample import all_strata, draw_in
from tests.model import job as jobs

WITHOUT = 'the same without buffers'


def answer_of(result, room):
    """The reply that the model's result stands for, what the buffers hold after, and that what is only read is as it was."""
    return figures_of(result), filled(result, room), True


def expected_job(ground, frame, weights, heights, room):
    """The model's answer."""
    return answer_of(jobs.job(ground, frame, weights, heights, room), room)


def got_job(library, ground, frame, weights, heights, room):
    """The core's answer."""
    return core.job(library, ground, frame, weights, heights, held(room))


def compare_job(tally, library, stratum, call, measured):
    """One accepted call, with buffers and without."""
    result = jobs.job(*call)
    expected = answer_of(result, call[4])
    tally.compare(stratum, call, got_job(library, *call), expected)
    tally.compare(label(call, WITHOUT), call, core.figures(library, *call[:4]), expected[0])
    if measured:
        tally.largest[kind_of(result.ground)].measure(result)


def with_buffers(rng, inputs):
    """Inputs as a call."""
    return (*inputs, lengths(rng, inputs[2]))


def strata(draw_ground=draw_site):
    """Every stratum of sites, of the Basin or of two pairs, with the jobs drawn for it; those of the roof force and the roots are on each of them."""
    shared = [*roof_strata(draw_ground, A_STRATUM), *((each, A_STRATUM) for each in root_strata(draw_ground))]
    if draw_ground is draw_site:
        return [*((each, A_STRATUM) for each in all_strata()), *rare_strata(), *shared]
    return [*(basin_strata if draw_ground is draw_basin else pairs.pair_strata)(A_STRATUM), *shared]


def run_stratum(library, tally, seed, name, count, draw_ground=draw_site):
    """Jobs drawn for a stratum."""
    rng = random.Random(seed)
    stratum = next(each for each, _ in strata(draw_ground) if each.name == name)
    for _ in range(count):
        compare_job(tally, library, name, with_buffers(rng, draw_in(rng, stratum, draw_ground)), True)


def run_sharp(library, tally, seed, count):
    """The jobs that show how sharp the margin is."""
    rng = random.Random(seed)
    for inputs in SHARP:
        compare_job(tally, library, 'the jobs of SharpMargin.antt', with_buffers(rng, inputs), True)


def run_plain(library, tally, seed, count, draw_ground=draw_site):
    """Jobs drawn from all that is allowed."""
    rng = random.Random(seed)
    for number in range(count):
        call = with_buffers(rng, draw(rng, draw_ground))
        compare_job(tally, library, label(call, 'drawn from all that is allowed'), call, number % MEASURED_EACH == 0)


def run_basin(library, tally, seed, count):
    """Jobs of the Basin drawn from all that is allowed."""
    run_plain(library, tally, seed, count, draw_basin)


def run_pairs(library, tally, seed, count):
    """Jobs with two pairs drawn from all that is allowed."""
    run_plain(library, tally, seed, count, draw_pairs)


def run_faults(library, tally, kind, calls):
    """Bad calls, with and without buffers; counted by the kind of ground that was drawn and the refusal that the model gives."""
    for call in calls:
        expected = expected_job(*call)
        stratum = f'refusal {refusal_words(*expected[0][:2])}' if expected[0][0] else 'changed, and accepted'
        tally.compare(PREFIX[kind] + stratum, call, got_job(library, *call), expected)
        plain = expected_job(*call[:4], (len(call[2]),) * 3)[0]
        tally.compare(PREFIX[kind] + WITHOUT, call, core.figures(library, *call[:4]), plain)


def run_bad(library, tally, seed, count):
    """Random bad calls."""
    rng = random.Random(seed)
    run_faults(library, tally, 'site', (faults.random_call(rng) for _ in range(count)))


def run_basin_bad(library, tally, seed, count):
    """Random bad calls of the Basin."""
    rng = random.Random(seed)
    run_faults(library, tally, 'basin', (faults.random_call(rng, draw_basin) for _ in range(count)))


def run_pairs_bad(library, tally, seed, count):
    """Random bad calls with two pairs."""
    rng = random.Random(seed)
    run_faults(library, tally, 'pairs', (pair_faults.random_call(rng) for _ in range(count)))


def run_systematic(library, tally, seed, count):
    """Both sides of every limit at every place."""
    run_faults(library, tally, 'site', faults.systematic())


def run_systematic_basin(library, tally, seed, count):
    """The same in the Basin, and every zone that is judged with another number out of range."""
    run_faults(library, tally, 'basin', faults.systematic(faults.BASIN))
    run_faults(library, tally, 'basin', faults.with_another(faults.zones()))


def run_systematic_pairs(library, tally, seed, count):
    """The same with two pairs, two numbers of the site at once, and each bad factor with another number out of range."""
    run_faults(library, tally, 'pairs', pair_faults.systematic())


def job_tasks(seed, draw_ground, plain, count):
    """The strata of a kind of ground, and what is drawn from all that is allowed."""
    drawn = strata(draw_ground)
    yield from ((run_stratum, f'stratum {seed} {each.name}', each.name, of_it, draw_ground) for each, of_it in drawn)
    yield from chunks(plain, seed, count - sum(of_it for _, of_it in drawn))


def site_tasks(seed, count, bad):
    """What is compared on sites with one pair beside sheets."""
    yield from (*job_tasks(seed, draw_site, run_plain, count - len(SHARP)), (run_sharp, seed, 0))
    yield from ((run_systematic, seed, 0), *chunks(run_bad, seed, bad))


def basin_tasks(seed, count, bad):
    """What is compared of the Basin beside sheets."""
    yield from job_tasks(seed, draw_basin, run_basin, count)
    yield from ((run_systematic_basin, seed, 0), *chunks(run_basin_bad, seed, bad))


def pair_tasks(seed, count, bad):
    """What is compared with two pairs beside sheets."""
    yield from job_tasks(seed, draw_pairs, run_pairs, count)
    yield from ((run_systematic_pairs, seed, 0), *chunks(run_pairs_bad, seed, bad))
