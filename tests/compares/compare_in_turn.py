"""Jobs by the shear call and the distribution in turn, beside the job call of the core."""

import random

from tests.compares import core
from tests.compares.compare_calls import KINDS
from tests.compares.parts import chunks, held
from tests.draws import basin, calls as drawn, faults, pair_faults, pairs
from tests.draws.plain_jobs import draw, lengths
from tests.draws.roof import period_strata
from tests.draws.sample import all_strata, in_turn

IN_TURN = 10            # for every so many DISTRIBUTIONS a job on top whose two calls are made in turn
BAD_IN_TURN = 4         # of those jobs one in so many has a bad ground or frame
TURNS = {'site': 'two calls in turn', 'basin': 'two calls in turn, Basin', 'pairs': 'two calls in turn, two pairs'}


def made_in_turn(library, ground, frame, weights, heights, room):
    """What the core's two calls make together of a job with good levels: the figures, and what the buffers hold after."""
    figures, _ = core.shear_call(library, ground, frame, sum(weights), heights[-1])
    if figures is None or figures[0]:
        return figures, held(room)
    said, cells, _ = core.distribution(library, *figures[5:], weights, heights, held(room))
    return figures if said == (0, 0) else said, cells


def compare_in_turn(tally, library, stratum, call):
    """One job by the two calls in turn, beside the core's own job call."""
    figures, cells, _ = core.job(library, *call[:4], held(call[4]))
    tally.compare(stratum, call, made_in_turn(library, *call), (figures, cells))


def turn_strata(kind):
    """The plain strata of jobs on a kind of ground, and T at the ends of the roof force."""
    own = {'site': all_strata, 'basin': basin.plain_strata, 'pairs': pairs.plain_strata}[kind]()
    return [*own, *period_strata(drawn.GROUNDS[kind])]


def run_in_turn(library, tally, seed, count, kind):
    """Jobs on a kind of ground, of its strata and from all that is allowed by turns."""
    rng, of_strata = random.Random(seed), in_turn(seed, count, turn_strata(kind), drawn.GROUNDS[kind])
    for number in range(count):
        inputs = next(of_strata)[1:] if number % 2 else draw(rng, drawn.GROUNDS[kind])
        compare_in_turn(tally, library, f'{TURNS[kind]}: as the job', (*inputs, lengths(rng, inputs[2])))


def spoilt_ground_or_frame(rng, kind):
    """A job with good levels and one or two numbers of ground or frame changed."""
    ground, frame, weights, heights = draw(rng, drawn.GROUNDS[kind])
    frame = tuple(frame)
    for _ in range(rng.choice((1, 1, 2))):
        if rng.random() < 0.5:
            place = rng.choice((*range(len(ground)), *(pair_faults.FACTOR_PLACES if kind == 'pairs' else ())))
            ground = faults.put_ground(ground, place, faults.wrong_value(rng, faults.limits_of(ground)[place]))
        else:
            place = rng.randrange(len(frame))
            frame = tuple(faults.put(frame, place, faults.wrong_value(rng, faults.LIMITS['frame'][place])))
    return ground, frame, weights, heights, lengths(rng, weights)


def run_bad_in_turn(library, tally, seed, count, kind):
    """Jobs whose ground or frame is bad: the shear call's refusal is the job's."""
    rng = random.Random(seed)
    for _ in range(count):
        compare_in_turn(tally, library, f'{TURNS[kind]}: ground or frame changed', spoilt_ground_or_frame(rng, kind))


def turn_tasks(seed, count):
    """The two calls in turn, on each kind of ground a third."""
    for kind in KINDS:
        bad = count // BAD_IN_TURN // len(KINDS)
        yield from chunks(run_in_turn, seed, count // len(KINDS) - bad, kind)
        yield from chunks(run_bad_in_turn, seed, bad, kind)
